//! The longest texts that are accepted: a grammar, a graph and a derivation.

use second::model::derivation_text;
use second::{Application, Edge, Grammar, Graph, PlanNode, Rule, Symbol};

/// The bytes of the longest texts: 64 symbols, 64 rules with four external nodes, eight edges of rank 4 and 15
/// plan nodes; 64 edges of rank 4 and four external nodes; 4,096 applications, as said at `derivation`.
pub const GRAMMAR_BYTES: usize = 28_046;
pub const GRAPH_BYTES: usize = 1_434;
pub const DERIVATION_BYTES: usize = 123_378;

pub const APPLICATIONS: usize = 4_096;

fn symbol(nonterminal: bool) -> Symbol {
    Symbol { nonterminal, rank: 4 }
}

/// Half of the symbols are terminals. A plan of eight edges has an odd number of nodes (one leaf more than
/// joins), so 15 are the most.
pub fn grammar() -> Grammar {
    Grammar {
        symbols: (0..64).map(|number| symbol(number >= 32)).collect(),
        start: 32,
        rules: (0..64).map(full_rule).collect(),
    }
}

fn full_rule(number: usize) -> Rule {
    let edge = |at: usize| Edge {
        symbol: (8 * number + 5 * at) % 64,
        nodes: [0, 1, 3, 6].map(|step| (at + step) % 8).to_vec(),
    };
    let mut plan = Vec::new();
    for edge in [0, 2, 4, 6] {
        let leaf = plan.len();
        plan.push(PlanNode::Leaf);
        plan.push(PlanNode::Introduce { child: leaf, edge });
        plan.push(PlanNode::Introduce {
            child: leaf + 1,
            edge: edge + 1,
        });
    }
    plan.extend([(2, 5), (8, 11), (12, 13)].map(|(left, right)| PlanNode::Join { left, right }));
    Rule {
        nonterminal: 32 + number % 32,
        nodes: 8,
        external: vec![4, 5, 6, 7],
        edges: (0..8).map(edge).collect(),
        plan,
    }
}

pub fn graph() -> Graph {
    let edge = |at: usize| Edge {
        symbol: at % 32,
        nodes: [0, 1, 3, 6].map(|step| (at + step) % 64).to_vec(),
    };
    Graph {
        nodes: 64,
        external: vec![60, 61, 62, 63],
        edges: (0..64).map(edge).collect(),
    }
}

const RENAME: usize = 0;
const STEP: usize = 1;
const END: usize = 2;

/// All symbols have rank 4. The start becomes itself, or four parallel edges on its nodes and itself on four new
/// nodes, or the four edges alone.
pub fn deep_grammar() -> Grammar {
    let on = |symbol: usize, first: usize| Edge {
        symbol,
        nodes: (first..first + 4).collect(),
    };
    let rule = |nodes: usize, edges: Vec<Edge>| {
        let mut plan = vec![PlanNode::Leaf];
        plan.extend((0..edges.len()).map(|edge| PlanNode::Introduce { child: edge, edge }));
        Rule {
            nonterminal: 1,
            nodes,
            external: vec![0, 1, 2, 3],
            edges,
            plan,
        }
    };
    let mut step = vec![on(0, 0); 4];
    step.push(on(1, 4));
    Grammar {
        symbols: vec![symbol(false), symbol(true)],
        start: 1,
        rules: vec![rule(4, vec![on(1, 0)]), rule(8, step), rule(4, vec![on(0, 0); 4])],
    }
}

/// 16 times four parallel edges, each four on nodes of their own.
pub fn deep_graph() -> Graph {
    Graph {
        nodes: 64,
        external: vec![0, 1, 2, 3],
        edges: (0..64)
            .map(|edge| Edge {
                symbol: 0,
                nodes: (0..4).map(|at| edge / 4 * 4 + at).collect(),
            })
            .collect(),
    }
}

/// A derivation of `deep_graph` with so many nested applications, at least 16. With 4,096 no derivation has a
/// longer text: each application lists four external nodes, the most there are; 60 nodes are inner, 64 edges
/// terminal, which is all that a graph has.
pub fn derivation(applications: usize) -> Vec<u8> {
    let renamings = applications - 16;
    let all: Vec<Application> = (0..applications).map(|number| application(number, renamings)).collect();
    derivation_text(&all)
}

fn application(number: usize, renamings: usize) -> Application {
    if number < renamings {
        return Application {
            rule: RENAME,
            nodes: (0..4).collect(),
            parts: vec![number + 1],
        };
    }
    let first = 4 * (number - renamings);
    let mut parts: Vec<usize> = (first..first + 4).collect();
    if first == 60 {
        return Application {
            rule: END,
            nodes: (60..64).collect(),
            parts,
        };
    }
    parts.push(number + 1);
    Application {
        rule: STEP,
        nodes: (first..first + 8).collect(),
        parts,
    }
}
