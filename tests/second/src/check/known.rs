//! The numbers of K1 to K10, and grammars A and B.

use crate::chart::{Answer, Chart};
use crate::model::{Edge, Grammar, Graph, PlanNode, Rule, Symbol};
use crate::program;
use crate::read::{read_grammar, read_graph};

/// A chain in edge order.
fn chain_plan(edges: usize) -> Vec<PlanNode> {
    let mut plan = vec![PlanNode::Leaf];
    plan.extend((0..edges).map(|edge| PlanNode::Introduce { child: edge, edge }));
    plan
}

fn chain_rule(
    nonterminal: usize,
    nodes: usize,
    external: &[usize],
    edges: &[(usize, &[usize])],
) -> Rule {
    let edges: Vec<Edge> = edges
        .iter()
        .map(|&(symbol, nodes)| Edge {
            symbol,
            nodes: nodes.to_vec(),
        })
        .collect();
    let plan = chain_plan(edges.len());
    Rule {
        nonterminal,
        nodes,
        external: external.to_vec(),
        edges,
        plan,
    }
}

pub fn grammar_a() -> Grammar {
    Grammar {
        symbols: vec![Symbol::terminal(2), Symbol::nonterminal(2)],
        start: 1,
        rules: vec![
            chain_rule(1, 2, &[0, 1], &[(0, &[0, 1])]),
            chain_rule(1, 3, &[0, 1], &[(0, &[0, 2]), (1, &[2, 1])]),
        ],
    }
}

pub fn grammar_b() -> Grammar {
    Grammar {
        symbols: vec![
            Symbol::terminal(2),
            Symbol::nonterminal(1),
            Symbol::nonterminal(2),
        ],
        start: 1,
        rules: vec![
            chain_rule(1, 2, &[0], &[(2, &[0, 1])]),
            chain_rule(2, 2, &[0, 1], &[(0, &[0, 1])]),
        ],
    }
}

/// Edges of symbol 0.
pub fn plain_graph(nodes: usize, external: &[usize], edges: &[[usize; 2]]) -> Graph {
    let edges = edges
        .iter()
        .map(|e| Edge {
            symbol: 0,
            nodes: e.to_vec(),
        })
        .collect();
    Graph {
        nodes,
        external: external.to_vec(),
        edges,
    }
}

/// Each known case and whether it comes out as 01 says.
pub fn known_cases() -> Vec<(&'static str, bool)> {
    let (a, b) = (grammar_a(), grammar_b());
    let k1 = plain_graph(2, &[0, 1], &[[0, 1]]);
    let k2 = plain_graph(3, &[0, 2], &[[0, 1], [1, 2]]);
    let k3 = plain_graph(3, &[0, 1], &[[0, 1], [0, 2]]);
    let k4 = plain_graph(2, &[1, 0], &[[0, 1]]);
    let k5 = plain_graph(2, &[0], &[[0, 1]]);
    let k6 = plain_graph(2, &[0, 1], &[[0, 1], [0, 1]]);
    // Applications or refusal, and steps.
    let outcome = |grammar: &Grammar, graph: &Graph| -> (Result<usize, u8>, usize) {
        let grammar = read_grammar(&grammar.text()).unwrap();
        let graph = read_graph(&grammar, &graph.text()).unwrap();
        let mut chart = Chart::start(&grammar, &graph, 4_096).unwrap();
        match chart.run_to_end() {
            Answer::Done(steps) => (chart.derivation().map(|d| d.len()), steps),
            _ => (Err(0), 0),
        }
    };
    let with_capacity = |capacity: usize| {
        let mut chart = Chart::start(&a, &k2, capacity).unwrap();
        chart.run_to_end()
    };
    let mut stepped = Chart::start(&a, &k2, 4_096).unwrap();
    let k8 = stepped.run(9) == Answer::StepsUp(9) && stepped.run(1) == Answer::Done(10);
    let mut fresh = Chart::start(&a, &k2, 4_096).unwrap();
    let present = fresh.items_present();
    let k9 = fresh.run(0) == Answer::StepsUp(0) && fresh.items_present() == present && present == 2;
    let derived = b"D   2\nA   0   1   0   2   1   0   1\nA   1   0   1   2   1\n";
    let k10 = stepped.write(58).as_deref() == Ok(&derived[..]) && stepped.write(57) == Err(12);
    let written = program::derive(&a.text(), &k2.text()) == [&derived[..], b"C  10\n"].concat();
    let replayed = program::replay(&a.text(), &k2.text(), derived) == b"N   0\n";
    vec![
        ("K1", outcome(&a, &k1) == (Ok(1), 5)),
        ("K2", outcome(&a, &k2) == (Ok(2), 10)),
        ("K3", outcome(&a, &k3) == (Err(11), 8)),
        ("K4", outcome(&a, &k4) == (Err(11), 5)),
        ("K5", outcome(&b, &k5) == (Ok(2), 6)),
        ("K6", outcome(&a, &k6) == (Err(11), 8)),
        (
            "K7",
            with_capacity(9) == Answer::TooSmall && with_capacity(10) == Answer::Done(10),
        ),
        ("K8", k8),
        ("K9", k9),
        ("K10", k10),
        ("derive on K2", written),
        ("replay on K2", replayed),
        (
            "chart sizes",
            Chart::start(&a, &k2, 0).is_err() && Chart::start(&a, &k2, 4_097).is_err(),
        ),
        (
            "start says 9",
            Chart::start(&a, &k2, 1).unwrap().state() == Answer::TooSmall,
        ),
        (
            "missing files",
            program::derive(b"", b"") == b"N   2\n"
                && program::replay(&a.text(), &k2.text(), b"") == b"N  13\n",
        ),
        (
            "file limit",
            program::replay(&a.text(), &k2.text(), &[b'D'; 32_769]) == b"N   1\n",
        ),
    ]
}
