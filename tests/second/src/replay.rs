//! Question 13: is the file a derivation of this graph? Judged twice, by the derivation tree's
//! definition and by replacing edges with new nodes; the two must always agree.

use crate::model::{Application, Derivation, Grammar, Graph};
use crate::read::Lines;

/// 0 for a pass, else 13.
pub fn replay(grammar: &Grammar, graph: &Graph, text: &[u8]) -> u8 {
    match parse_derivation(grammar, graph, text) {
        Some(derivation) if is_generating_tree(grammar, graph, &derivation) => 0,
        _ => 13,
    }
}

/// The shape of the file and the ranges of its fields; terminal edges and nodes must exist.
pub fn parse_derivation(grammar: &Grammar, graph: &Graph, text: &[u8]) -> Option<Derivation> {
    let mut lines = Lines::new(text);
    let head = lines.due(b'D').ok()?;
    if head.len() != 1 || !(1..=4_096).contains(&head[0]) {
        return None;
    }
    let mut derivation = Vec::new();
    for number in 0..head[0] {
        let f = lines.due(b'A').ok()?;
        if f.len() < 2 || f[0] != number || f[1] >= grammar.rules.len() {
            return None;
        }
        let rule = &grammar.rules[f[1]];
        if f.len() != 2 + rule.nodes + rule.edges.len() {
            return None;
        }
        let (nodes, parts) = f[2..].split_at(rule.nodes);
        let parts_exist = rule.edges.iter().zip(parts).all(|(edge, &part)| {
            part < if grammar.is_nonterminal(edge.symbol) {
                head[0]
            } else {
                graph.edges.len()
            }
        });
        if !parts_exist || nodes.iter().any(|&n| n >= graph.nodes) {
            return None;
        }
        derivation.push(Application {
            rule: f[1],
            nodes: nodes.to_vec(),
            parts: parts.to_vec(),
        });
    }
    lines.end().ok()?;
    Some(derivation)
}

/// A nonterminal edge still to be replayed: its symbol, its nodes and the application named.
struct Due {
    symbol: usize,
    nodes: Vec<usize>,
    application: usize,
}

/// The definition of a derivation tree that generates the graph, with the numbering from the top.
pub fn is_generating_tree(grammar: &Grammar, graph: &Graph, derivation: &[Application]) -> bool {
    let mut on_top = vec![false; graph.nodes];
    for &node in &graph.external {
        on_top[node] = true;
    }
    let mut inner = vec![false; graph.nodes];
    let mut edge_used = vec![false; graph.edges.len()];
    let mut next_number = 0;
    let mut stack = vec![Due {
        symbol: grammar.start,
        nodes: graph.external.clone(),
        application: 0,
    }];
    while let Some(due) = stack.pop() {
        // Preorder: whatever is replayed next has the next number.
        if due.application != next_number || next_number >= derivation.len() {
            return false;
        }
        next_number += 1;
        let application = &derivation[due.application];
        let rule = &grammar.rules[application.rule];
        if rule.nonterminal != due.symbol {
            return false;
        }
        if rule
            .external
            .iter()
            .zip(&due.nodes)
            .any(|(&n, &image)| application.nodes[n] != image)
        {
            return false;
        }
        for node in (0..rule.nodes).filter(|n| !rule.external.contains(n)) {
            let image = application.nodes[node];
            if inner[image] || on_top[image] {
                return false;
            }
            inner[image] = true;
        }
        let mut parts = Vec::new();
        for (edge, &part) in rule.edges.iter().zip(&application.parts) {
            let nodes: Vec<usize> = edge.nodes.iter().map(|&n| application.nodes[n]).collect();
            if grammar.is_nonterminal(edge.symbol) {
                parts.push(Due {
                    symbol: edge.symbol,
                    nodes,
                    application: part,
                });
            } else {
                let graph_edge = &graph.edges[part];
                if edge_used[part] || graph_edge.symbol != edge.symbol || graph_edge.nodes != nodes
                {
                    return false;
                }
                edge_used[part] = true;
            }
        }
        stack.extend(parts.into_iter().rev());
    }
    next_number == derivation.len()
        && edge_used.iter().all(|&u| u)
        && (0..graph.nodes).all(|n| on_top[n] || inner[n])
}

/// The same question by edge replacement: the applications rewrite one start edge to a graph
/// over new nodes, and the nodes and edges the file names must make an isomorphism of it.
pub fn replaces_to_graph(grammar: &Grammar, graph: &Graph, derivation: &[Application]) -> bool {
    // The graph node each new node is said to be.
    let mut said: Vec<usize> = graph.external.clone();
    // Terminal edges: the graph edge named, the symbol, the new nodes.
    let mut made: Vec<(usize, usize, Vec<usize>)> = Vec::new();
    let mut numbered = 0;
    let first = (grammar.start, (0..said.len()).collect::<Vec<usize>>(), 0);
    let mut to_replace = vec![first];
    while let Some((symbol, host, number)) = to_replace.pop() {
        if number != numbered || number == derivation.len() {
            return false;
        }
        numbered += 1;
        let a = &derivation[number];
        let rule = &grammar.rules[a.rule];
        if rule.nonterminal != symbol {
            return false;
        }
        let mut new_of = vec![usize::MAX; rule.nodes];
        for (at, &node) in rule.external.iter().enumerate() {
            new_of[node] = host[at];
        }
        for node in 0..rule.nodes {
            if new_of[node] == usize::MAX {
                new_of[node] = said.len();
                said.push(a.nodes[node]);
            } else if said[new_of[node]] != a.nodes[node] {
                return false;
            }
        }
        for at in (0..rule.edges.len()).rev() {
            let edge = &rule.edges[at];
            let nodes: Vec<usize> = edge.nodes.iter().map(|&n| new_of[n]).collect();
            if grammar.is_nonterminal(edge.symbol) {
                to_replace.push((edge.symbol, nodes, a.parts[at]));
            } else {
                made.push((a.parts[at], edge.symbol, nodes));
            }
        }
    }
    let mut nodes_said = said.clone();
    nodes_said.sort_unstable();
    made.sort_unstable();
    numbered == derivation.len()
        && nodes_said.into_iter().eq(0..graph.nodes)
        && made.len() == graph.edges.len()
        && made
            .iter()
            .zip(graph.edges.iter().enumerate())
            .all(|(m, (number, edge))| {
                m.0 == number
                    && m.1 == edge.symbol
                    && m.2.iter().map(|&n| said[n]).eq(edge.nodes.iter().copied())
            })
}
