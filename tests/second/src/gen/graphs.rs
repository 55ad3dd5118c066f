//! Graphs grown from a grammar, changed, put side by side, or drawn at random.

use super::Rng;
use crate::model::{Application, Derivation, Edge, Grammar, Graph};
use std::collections::HashMap;

/// Per symbol a price of the cheapest tree (edges first, then applications), and per rule.
fn prices(grammar: &Grammar) -> (Vec<Option<usize>>, Vec<Option<usize>>) {
    const PER_EDGE: usize = 10_000;
    let mut of_symbol: Vec<Option<usize>> = grammar
        .symbols
        .iter()
        .map(|s| (!s.nonterminal).then_some(PER_EDGE))
        .collect();
    loop {
        let of_rule: Vec<Option<usize>> = grammar
            .rules
            .iter()
            .map(|r| {
                r.edges
                    .iter()
                    .map(|e| of_symbol[e.symbol])
                    .sum::<Option<usize>>()
                    .map(|p| p + 1)
            })
            .collect();
        let mut changed = false;
        for (rule, price) in grammar.rules.iter().zip(&of_rule) {
            if let Some(p) = *price {
                if of_symbol[rule.nonterminal].is_none_or(|old| p < old) {
                    of_symbol[rule.nonterminal] = Some(p);
                    changed = true;
                }
            }
        }
        if !changed {
            return (of_symbol, of_rule);
        }
    }
}

/// A graph grown from the start edge, at most `most_edges` edges if the grammar allows that few,
/// with the derivation it was grown by (in general not a fewest one).
pub fn grow(rng: &mut Rng, grammar: &Grammar, most_edges: usize) -> Option<(Graph, Derivation)> {
    let (of_symbol, of_rule) = prices(grammar);
    of_symbol[grammar.start]?;
    let edges_of = |price: usize| price / 10_000;
    let external: Vec<usize> = (0..grammar.rank(grammar.start)).collect();
    let mut graph = Graph {
        nodes: external.len(),
        external: external.clone(),
        edges: Vec::new(),
    };
    let mut derivation: Derivation = Vec::new();
    let mut pending = vec![(grammar.start, external, usize::MAX, 0)];
    let mut owed = edges_of(of_symbol[grammar.start].unwrap());
    while let Some((symbol, nodes, named_by, at)) = pending.pop() {
        let cheapest = of_symbol[symbol].unwrap();
        owed -= edges_of(cheapest);
        let room = most_edges.saturating_sub(graph.edges.len() + owed);
        let candidates: Vec<usize> = (0..grammar.rules.len())
            .filter(|&r| grammar.rules[r].nonterminal == symbol)
            .filter(|&r| of_rule[r].is_some_and(|p| edges_of(p) <= room))
            .collect();
        let tight = candidates.is_empty() || derivation.len() > 150 || graph.nodes > 52;
        let rule_number = if tight {
            (0..grammar.rules.len())
                .find(|&r| grammar.rules[r].nonterminal == symbol && of_rule[r] == Some(cheapest))
                .unwrap()
        } else if !rng.one_in(4) {
            // Rather grow on than stop.
            let parts = |r: usize| {
                grammar.rules[r]
                    .edges
                    .iter()
                    .filter(|e| grammar.is_nonterminal(e.symbol))
                    .count()
            };
            *candidates
                .iter()
                .max_by_key(|&&r| (parts(r).min(2), rng.below(1_000)))
                .unwrap()
        } else {
            *rng.pick(&candidates)
        };
        let rule = &grammar.rules[rule_number];
        let number = derivation.len();
        if named_by != usize::MAX {
            derivation[named_by].parts[at] = number;
        }
        let mut images = vec![usize::MAX; rule.nodes];
        for (&n, &image) in rule.external.iter().zip(&nodes) {
            images[n] = image;
        }
        for image in images.iter_mut().filter(|i| **i == usize::MAX) {
            *image = graph.nodes;
            graph.nodes += 1;
        }
        let mut parts = vec![0; rule.edges.len()];
        for (edge_at, edge) in rule.edges.iter().enumerate() {
            if !grammar.is_nonterminal(edge.symbol) {
                parts[edge_at] = graph.edges.len();
                let nodes = edge.nodes.iter().map(|&n| images[n]).collect();
                graph.edges.push(Edge {
                    symbol: edge.symbol,
                    nodes,
                });
            }
        }
        for (edge_at, edge) in rule.edges.iter().enumerate().rev() {
            if grammar.is_nonterminal(edge.symbol) {
                let nodes: Vec<usize> = edge.nodes.iter().map(|&n| images[n]).collect();
                owed += edges_of(of_symbol[edge.symbol].unwrap());
                pending.push((edge.symbol, nodes, number, edge_at));
            }
        }
        derivation.push(Application {
            rule: rule_number,
            nodes: images,
            parts,
        });
        if graph.edges.len() > 64 || graph.nodes > 64 {
            return None;
        }
    }
    Some((graph, derivation))
}

/// Renumbers nodes and edges at random, in the graph and in its derivation.
pub fn renumber(
    rng: &mut Rng,
    grammar: &Grammar,
    graph: &Graph,
    derivation: &[Application],
) -> (Graph, Derivation) {
    let node = rng.permutation(graph.nodes);
    let edge = rng.permutation(graph.edges.len());
    let mut edges = graph.edges.clone();
    for (old, e) in graph.edges.iter().enumerate() {
        edges[edge[old]] = Edge {
            symbol: e.symbol,
            nodes: e.nodes.iter().map(|&n| node[n]).collect(),
        };
    }
    let external = graph.external.iter().map(|&n| node[n]).collect();
    let derivation = derivation
        .iter()
        .map(|a| Application {
            rule: a.rule,
            nodes: a.nodes.iter().map(|&n| node[n]).collect(),
            parts: grammar.rules[a.rule]
                .edges
                .iter()
                .zip(&a.parts)
                .map(|(e, &p)| {
                    if grammar.is_nonterminal(e.symbol) {
                        p
                    } else {
                        edge[p]
                    }
                })
                .collect(),
        })
        .collect();
    (
        Graph {
            nodes: graph.nodes,
            external,
            edges,
        },
        derivation,
    )
}

/// A graph of terminal edges drawn at random; `None` without terminals.
pub fn random_graph(rng: &mut Rng, grammar: &Grammar, most_edges: usize) -> Option<Graph> {
    let terminals: Vec<usize> = (0..grammar.symbols.len())
        .filter(|&s| !grammar.is_nonterminal(s))
        .collect();
    if terminals.is_empty() {
        return None;
    }
    let widest = terminals.iter().map(|&t| grammar.rank(t)).max().unwrap();
    let rank = grammar.rank(grammar.start);
    let count = if rng.one_in(4) {
        most_edges
    } else {
        rng.range(1, most_edges)
    };
    let space = (widest.max(rank) + rng.below(2 * count)).min(64);
    let mut edges = Vec::new();
    for _ in 0..count {
        let symbol = *rng.pick(&terminals);
        let mut nodes = rng.permutation(space);
        nodes.truncate(grammar.rank(symbol));
        edges.push(Edge { symbol, nodes });
    }
    compact(rng, rank, edges)
}

/// Numbers the nodes that occur from 0 on and draws the external ones.
fn compact(rng: &mut Rng, rank: usize, mut edges: Vec<Edge>) -> Option<Graph> {
    let mut number: HashMap<usize, usize> = HashMap::new();
    for e in &mut edges {
        for n in &mut e.nodes {
            let next = number.len();
            *n = *number.entry(*n).or_insert(next);
        }
    }
    let nodes = number.len();
    if nodes < rank || nodes > 64 {
        return None;
    }
    let mut external = rng.permutation(nodes);
    external.truncate(rank);
    Some(Graph {
        nodes,
        external,
        edges,
    })
}

/// Two graphs side by side; the external nodes are the first one's.
pub fn beside(a: &Graph, b: &Graph) -> Option<Graph> {
    let mut graph = a.clone();
    graph.nodes += b.nodes;
    for e in &b.edges {
        graph.edges.push(Edge {
            symbol: e.symbol,
            nodes: e.nodes.iter().map(|n| n + a.nodes).collect(),
        });
    }
    (graph.nodes <= 64 && graph.edges.len() <= 64).then_some(graph)
}

fn covers_all_nodes(graph: &Graph) -> bool {
    graph.incidence().iter().all(|&i| i != 0)
}

/// A graph that differs in one place: two nodes exchanged, a node or label replaced, an edge
/// doubled or left out. Still a graph the reader accepts.
pub fn changed_graph(rng: &mut Rng, grammar: &Grammar, graph: &Graph) -> Graph {
    for _ in 0..20 {
        let mut g = graph.clone();
        let at = rng.below(g.edges.len());
        match rng.below(7) {
            0 | 1 => {
                let rank = g.edges[at].nodes.len();
                g.edges[at].nodes.swap(rng.below(rank), rng.below(rank));
            }
            2 => {
                let node = rng.below(g.nodes);
                let position = rng.below(g.edges[at].nodes.len());
                if !g.edges[at].nodes.contains(&node) {
                    g.edges[at].nodes[position] = node;
                }
            }
            3 if g.external.len() >= 2 => {
                let (i, j) = (rng.below(g.external.len()), rng.below(g.external.len()));
                g.external.swap(i, j);
            }
            3 if g.external.len() == 1 => g.external[0] = rng.below(g.nodes),
            4 => {
                let symbol = rng.below(grammar.symbols.len());
                if !grammar.is_nonterminal(symbol)
                    && grammar.rank(symbol) == g.edges[at].nodes.len()
                {
                    g.edges[at].symbol = symbol;
                }
            }
            5 if g.edges.len() < 64 => {
                let edge = g.edges[at].clone();
                g.edges.push(edge);
            }
            6 if g.edges.len() > 1 => {
                g.edges.remove(at);
            }
            _ => {}
        }
        if g != *graph && covers_all_nodes(&g) {
            return g;
        }
    }
    graph.clone()
}

/// A graph for the grammar, with the derivation it was grown by if it was, and unchanged since.
pub fn case_graph(
    rng: &mut Rng,
    grammar: &Grammar,
    most_edges: usize,
) -> Option<(Graph, Option<Derivation>)> {
    let mut grown = None;
    for _ in 0..4 {
        if let Some(g) = grow(rng, grammar, most_edges) {
            let larger = grown
                .as_ref()
                .is_none_or(|(old, _): &(Graph, Derivation)| g.0.edges.len() > old.edges.len());
            if larger {
                grown = Some(g);
            }
        }
    }
    match (rng.below(10), grown) {
        (0 | 1, _) | (_, None) => random_graph(rng, grammar, most_edges).map(|g| (g, None)),
        (2 | 3, Some((g, _))) => Some((changed_graph(rng, grammar, &g), None)),
        (4, Some((g, _))) => {
            let other = match grow(rng, grammar, most_edges) {
                Some((other, _)) if rng.coin() => Some(other),
                _ => random_graph(rng, grammar, most_edges),
            };
            let both = other.and_then(|o| beside(&g, &o)).unwrap_or(g);
            Some((both, None))
        }
        (_, Some((g, d))) => {
            let (g, d) = renumber(rng, grammar, &g, &d);
            Some((g, Some(d)))
        }
    }
}

/// Two nodes made one, or two parallel edges made one, in the graph and in the derivation it was
/// grown by: every line still fits its neighbours, but the derivation yields another graph.
pub fn merged(
    rng: &mut Rng,
    grammar: &Grammar,
    graph: &Graph,
    derivation: &[Application],
) -> Option<(Graph, Derivation)> {
    let (mut graph, mut derivation) = (graph.clone(), derivation.to_vec());
    let parallel = |g: &Graph, a: usize, b: usize| g.edges[a] == g.edges[b];
    let pairs: Vec<(usize, usize)> = (0..graph.edges.len())
        .flat_map(|b| (0..b).map(move |a| (a, b)))
        .filter(|&(a, b)| parallel(&graph, a, b))
        .collect();
    if !pairs.is_empty() && rng.coin() {
        let &(kept, dropped) = rng.pick(&pairs);
        graph.edges.remove(dropped);
        for a in &mut derivation {
            for (e, p) in grammar.rules[a.rule].edges.iter().zip(&mut a.parts) {
                if !grammar.is_nonterminal(e.symbol) && *p >= dropped {
                    *p = if *p == dropped { kept } else { *p - 1 };
                }
            }
        }
        return Some((graph, derivation));
    }
    if graph.nodes < 2 {
        return None;
    }
    // Often with an external node: that fault is another one than two inner nodes made one.
    let a = if !graph.external.is_empty() && rng.coin() {
        *rng.pick(&graph.external)
    } else {
        rng.below(graph.nodes)
    };
    let b = rng.below(graph.nodes);
    let together = |list: &[usize]| list.contains(&a) && list.contains(&b);
    if a == b || together(&graph.external) || graph.edges.iter().any(|e| together(&e.nodes)) {
        return None;
    }
    let (kept, dropped) = (a.min(b), a.max(b));
    let new = |n: &mut usize| {
        if *n >= dropped {
            *n = if *n == dropped { kept } else { *n - 1 };
        }
    };
    graph.nodes -= 1;
    graph.external.iter_mut().for_each(new);
    graph
        .edges
        .iter_mut()
        .flat_map(|e| &mut e.nodes)
        .for_each(new);
    derivation
        .iter_mut()
        .flat_map(|a| &mut a.nodes)
        .for_each(new);
    Some((graph, derivation))
}
