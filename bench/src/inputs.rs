//! The inputs: for each kind a family of grammars and graphs, with one member for each nominal number of items.

use second::{Edge, Grammar, Graph, PlanNode, Rule, Symbol};

/// The numbers of items that the closures are meant to have, about.
pub const SIZES: [usize; 4] = [200, 1_000, 2_000, 4_000];

#[derive(Clone, Copy, Debug, PartialEq, Eq)]
pub enum Kind {
    Chain,
    Ladder,
    Tree,
    Bundle,
    Sentence,
    Circle,
    Refused,
}

pub const KINDS: [Kind; 7] = [
    Kind::Chain,
    Kind::Ladder,
    Kind::Tree,
    Kind::Bundle,
    Kind::Sentence,
    Kind::Circle,
    Kind::Refused,
];

impl Kind {
    pub fn name(self) -> &'static str {
        match self {
            Kind::Chain => "chain",
            Kind::Ladder => "ladder",
            Kind::Tree => "tree",
            Kind::Bundle => "bundle",
            Kind::Sentence => "sentence",
            Kind::Circle => "circle",
            Kind::Refused => "refused",
        }
    }

    pub fn named(name: &str) -> Option<Kind> {
        KINDS.into_iter().find(|kind| kind.name() == name)
    }
}

pub struct Input {
    pub kind: Kind,
    /// One of `SIZES`.
    pub nominal: usize,
    pub grammar: Grammar,
    pub graph: Graph,
    pub derivable: bool,
}

/// The input of a kind and a nominal number of items, which must be one of `SIZES`.
pub fn input(kind: Kind, nominal: usize) -> Input {
    let at = SIZES.iter().position(|&size| size == nominal).expect("one of SIZES");
    let (grammar, graph) = match kind {
        Kind::Chain => (paths(), path([13, 31, 44, 62][at])),
        Kind::Ladder => (series_parallel(), bigons([6, 15, 22, 32][at])),
        Kind::Tree => (trees(), tree(8, [6, 14, 23, 45][at])),
        Kind::Bundle => {
            let (plain, marked) = [(5, 1), (6, 2), (7, 2), (7, 3)][at];
            (bundles(), bundle(plain, marked))
        }
        Kind::Sentence => {
            let roles: [&[usize]; 4] = [&[3, 2], &[5, 5], &[6, 6], &[7, 6, 5, 4]];
            (sentences(), text(roles[at]))
        }
        Kind::Circle => (circle(9), path([4, 10, 14, 20][at])),
        Kind::Refused => (paths(), turned([13, 31, 44, 62][at])),
    };
    Input {
        kind,
        nominal,
        grammar,
        graph,
        derivable: kind != Kind::Refused,
    }
}

// ------------------------------------------------------------------------------------- parts

fn terminal(rank: usize) -> Symbol {
    Symbol {
        nonterminal: false,
        rank,
    }
}

fn nonterminal(rank: usize) -> Symbol {
    Symbol {
        nonterminal: true,
        rank,
    }
}

fn edge(symbol: usize, nodes: &[usize]) -> Edge {
    Edge {
        symbol,
        nodes: nodes.to_vec(),
    }
}

/// A leaf, then the edges in order.
fn chain_plan(edges: usize) -> Vec<PlanNode> {
    let mut plan = vec![PlanNode::Leaf];
    plan.extend((0..edges).map(|edge| PlanNode::Introduce { child: edge, edge }));
    plan
}

/// The first edges in order over a leaf, the others in order over another one, and the two joined.
fn joined_plan(first: usize, edges: usize) -> Vec<PlanNode> {
    let mut plan = chain_plan(first);
    let left = plan.len() - 1;
    plan.push(PlanNode::Leaf);
    for edge in first..edges {
        let child = plan.len() - 1;
        plan.push(PlanNode::Introduce { child, edge });
    }
    let right = plan.len() - 1;
    plan.push(PlanNode::Join { left, right });
    plan
}

/// A rule whose external nodes are its first ones.
fn rule(symbol: (usize, &Symbol), edges: Vec<Edge>, plan: Vec<PlanNode>) -> Rule {
    let (nonterminal, Symbol { rank, .. }) = symbol;
    let most = edges.iter().flat_map(|e| &e.nodes).max();
    Rule {
        nonterminal,
        nodes: most.map_or(0, |&node| node + 1),
        external: (0..*rank).collect(),
        edges,
        plan,
    }
}

/// Rules as nonterminal, edges and the number of edges before a join (0: no join).
fn grammar(symbols: Vec<Symbol>, start: usize, rules: Vec<(usize, Vec<Edge>, usize)>) -> Grammar {
    let made = |(number, edges, first): (usize, Vec<Edge>, usize)| {
        let plan = match first {
            0 => chain_plan(edges.len()),
            _ => joined_plan(first, edges.len()),
        };
        rule((number, &symbols[number]), edges, plan)
    };
    Grammar {
        rules: rules.into_iter().map(made).collect(),
        symbols,
        start,
    }
}

// ------------------------------------------------------------------------------------ chains

/// Grammar A of 01: paths of one edge or more, the first edge and then the rest.
fn paths() -> Grammar {
    const T: usize = 0;
    const S: usize = 1;
    let rules = vec![
        (S, vec![edge(T, &[0, 1])], 0),
        (S, vec![edge(T, &[0, 2]), edge(S, &[2, 1])], 0),
    ];
    grammar(vec![terminal(2), nonterminal(2)], S, rules)
}

fn path(edges: usize) -> Graph {
    Graph {
        nodes: edges + 1,
        external: vec![0, edges],
        edges: (0..edges).map(|at| edge(0, &[at, at + 1])).collect(),
    }
}

/// A path with its external nodes exchanged: the same closure, but no goal.
fn turned(edges: usize) -> Graph {
    let mut graph = path(edges);
    graph.external.reverse();
    graph
}

// ----------------------------------------------------------------------------------- ladders

/// Series-parallel graphs: a network is an edge, a series or a parallel of two networks. The series joins its
/// two networks, the parallel takes one after the other.
fn series_parallel() -> Grammar {
    const T: usize = 0;
    const NET: usize = 1;
    const SERIES: usize = 2;
    const PARALLEL: usize = 3;
    let rules = vec![
        (NET, vec![edge(T, &[0, 1])], 0),
        (NET, vec![edge(SERIES, &[0, 1])], 0),
        (NET, vec![edge(PARALLEL, &[0, 1])], 0),
        (SERIES, vec![edge(NET, &[0, 2]), edge(NET, &[2, 1])], 1),
        (PARALLEL, vec![edge(NET, &[0, 1]), edge(NET, &[0, 1])], 0),
    ];
    let symbols = vec![terminal(2), nonterminal(2), nonterminal(2), nonterminal(2)];
    grammar(symbols, NET, rules)
}

/// So many pairs of parallel edges in a row.
fn bigons(count: usize) -> Graph {
    let pair = |at: usize| [edge(0, &[at, at + 1]), edge(0, &[at, at + 1])];
    Graph {
        nodes: count + 1,
        external: vec![0, count],
        edges: (0..count).flat_map(pair).collect(),
    }
}

// ------------------------------------------------------------------------------------- trees

/// Rooted trees: an edge to a leaf, an edge to a tree, or two trees with one root.
fn trees() -> Grammar {
    const T: usize = 0;
    const TREE: usize = 1;
    let rules = vec![
        (TREE, vec![edge(T, &[0, 1])], 0),
        (TREE, vec![edge(T, &[0, 1]), edge(TREE, &[1])], 0),
        (TREE, vec![edge(TREE, &[0]), edge(TREE, &[0])], 0),
    ];
    grammar(vec![terminal(2), nonterminal(1)], TREE, rules)
}

/// A tree filled level by level, so many children to a node.
fn tree(children: usize, edges: usize) -> Graph {
    Graph {
        nodes: edges + 1,
        external: vec![0],
        edges: (0..edges).map(|at| edge(0, &[at / children, at + 1])).collect(),
    }
}

// ----------------------------------------------------------------------------------- bundles

/// Parallel edges of two labels, of the plain one at least one: a plain edge, a marked edge and the rest, or two
/// bundles.
fn bundles() -> Grammar {
    const PLAIN: usize = 0;
    const MARKED: usize = 1;
    const S: usize = 2;
    let rules = vec![
        (S, vec![edge(PLAIN, &[0, 1])], 0),
        (S, vec![edge(MARKED, &[0, 1]), edge(S, &[0, 1])], 0),
        (S, vec![edge(S, &[0, 1]), edge(S, &[0, 1])], 0),
    ];
    grammar(vec![terminal(2), terminal(2), nonterminal(2)], S, rules)
}

fn bundle(plain: usize, marked: usize) -> Graph {
    Graph {
        nodes: 2,
        external: vec![0, 1],
        edges: (0..plain + marked)
            .map(|at| edge(usize::from(at >= plain), &[0, 1]))
            .collect(),
    }
}

// --------------------------------------------------------------------------------- sentences

const ROLES: usize = 7;
const NOUNS: usize = 3;
const VERB: usize = 0;
const NOUN: usize = 1;
const ROLE: usize = NOUN + NOUNS;
const THEN: usize = ROLE + ROLES;

/// Texts of sentences. A sentence is a predicate and any of its roles, each filled with a part, in whatever
/// order they are added; every rule with a role joins what it has of the sentence with the role and its part.
fn sentences() -> Grammar {
    const SENTENCE: usize = THEN + 1;
    const PART: usize = THEN + 2;
    const TEXT: usize = THEN + 3;
    let mut symbols = vec![terminal(1); 1 + NOUNS];
    symbols.extend(vec![terminal(2); ROLES + 1]);
    symbols.extend(vec![nonterminal(1); 3]);
    let mut rules = vec![
        (TEXT, vec![edge(SENTENCE, &[0])], 0),
        (
            TEXT,
            vec![edge(THEN, &[0, 1]), edge(TEXT, &[1]), edge(SENTENCE, &[0])],
            2,
        ),
        (SENTENCE, vec![edge(VERB, &[0])], 0),
    ];
    rules.extend((0..ROLES).map(|role| {
        let edges = vec![edge(SENTENCE, &[0]), edge(ROLE + role, &[0, 1]), edge(PART, &[1])];
        (SENTENCE, edges, 1)
    }));
    rules.extend((0..NOUNS).map(|noun| (PART, vec![edge(NOUN + noun, &[0])], 0)));
    grammar(symbols, TEXT, rules)
}

/// A sentence for each number, with so many roles.
fn text(roles: &[usize]) -> Graph {
    let mut edges = Vec::new();
    let mut nodes = 0;
    for (sentence, &count) in roles.iter().enumerate() {
        let action = nodes;
        edges.push(edge(VERB, &[action]));
        for role in 0..count {
            edges.push(edge(ROLE + role, &[action, action + 1 + role]));
            edges.push(edge(NOUN + role % NOUNS, &[action + 1 + role]));
        }
        nodes += 1 + count;
        if sentence + 1 < roles.len() {
            edges.push(edge(THEN, &[action, nodes]));
        }
    }
    Graph {
        nodes,
        external: vec![0],
        edges,
    }
}

// ----------------------------------------------------------------------------------- circles

/// Paths over symbols that rename each other in a circle. The first symbol has the path rules, and its rest is
/// of the symbol half round the circle, so that every edge takes the way from there to the first one.
fn circle(symbols: usize) -> Grammar {
    const T: usize = 0;
    let half = 1 + symbols / 2;
    let mut rules = vec![
        (1, vec![edge(T, &[0, 1])], 0),
        (1, vec![edge(T, &[0, 2]), edge(half, &[2, 1])], 0),
    ];
    rules.extend((1..=symbols).map(|from| (from, vec![edge(from % symbols + 1, &[0, 1])], 0)));
    let mut list = vec![terminal(2)];
    list.extend(vec![nonterminal(2); symbols]);
    grammar(list, half, rules)
}
