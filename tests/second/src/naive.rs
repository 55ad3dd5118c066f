//! The closure by its rules read literally and repeated until nothing changes: no agenda, no
//! lists, no packing. Slow; it checks the chart where trees are too many to enumerate.

use crate::model::{Edge, Grammar, Graph, PlanNode, Rule};
use std::collections::BTreeMap;

#[derive(Clone, Debug, PartialEq, Eq, PartialOrd, Ord)]
pub enum Item {
    Active {
        rule: usize,
        plan_node: usize,
        edges: u64,
        map: BTreeMap<usize, usize>,
    },
    Passive {
        symbol: usize,
        edges: u64,
        nodes: Vec<usize>,
    },
}

/// All items of the closure with their least counts.
pub fn closure(grammar: &Grammar, graph: &Graph) -> BTreeMap<Item, usize> {
    let mut items = BTreeMap::new();
    loop {
        let mut found = Vec::new();
        for (number, rule) in grammar.rules.iter().enumerate() {
            for at in 0..rule.plan.len() {
                from_plan_node(grammar, graph, &items, number, at, &mut found);
            }
        }
        let mut changed = false;
        for (item, count) in found {
            let least = items.entry(item).or_insert(usize::MAX);
            if count < *least {
                *least = count;
                changed = true;
            }
        }
        if !changed {
            return items;
        }
    }
}

fn from_plan_node(
    grammar: &Grammar,
    graph: &Graph,
    items: &BTreeMap<Item, usize>,
    number: usize,
    at: usize,
    found: &mut Vec<(Item, usize)>,
) {
    let rule = &grammar.rules[number];
    let of_child = |child: usize| {
        items.iter().filter_map(move |(item, &count)| match item {
            Item::Active {
                rule,
                plan_node,
                edges,
                map,
            } if *rule == number && *plan_node == child => Some((*edges, map, count)),
            _ => None,
        })
    };
    let onto = |edge: &Edge, nodes: &[usize]| -> BTreeMap<usize, usize> {
        edge.nodes
            .iter()
            .copied()
            .zip(nodes.iter().copied())
            .collect()
    };
    let mut add = |a: (u64, &BTreeMap<usize, usize>, usize),
                   b: (u64, &BTreeMap<usize, usize>, usize)| {
        if a.0 & b.0 == 0 {
            if let Some(map) = joined(rule, at, graph, a.0 | b.0, a.1, b.1) {
                found.push((
                    Item::Active {
                        rule: number,
                        plan_node: at,
                        edges: a.0 | b.0,
                        map,
                    },
                    a.2 + b.2,
                ));
            }
        }
    };
    match rule.plan[at] {
        PlanNode::Leaf => add((0, &BTreeMap::new(), 0), (0, &BTreeMap::new(), 0)),
        PlanNode::Join { left, right } => {
            for a in of_child(left) {
                for b in of_child(right) {
                    add(a, b);
                }
            }
        }
        PlanNode::Introduce { child, edge } => {
            let edge = &rule.edges[edge];
            for a in of_child(child) {
                if grammar.is_nonterminal(edge.symbol) {
                    for (item, &count) in items {
                        if let Item::Passive {
                            symbol,
                            edges,
                            nodes,
                        } = item
                        {
                            if *symbol == edge.symbol {
                                add(a, (*edges, &onto(edge, nodes), count));
                            }
                        }
                    }
                } else {
                    for (graph_number, graph_edge) in graph.edges.iter().enumerate() {
                        if graph_edge.symbol == edge.symbol {
                            add(a, (1 << graph_number, &onto(edge, &graph_edge.nodes), 0));
                        }
                    }
                }
            }
        }
    }
    if at + 1 == rule.plan.len() {
        for (edges, map, count) in of_child(at) {
            let nodes = rule.external.iter().map(|n| map[n]).collect();
            found.push((
                Item::Passive {
                    symbol: rule.nonterminal,
                    edges,
                    nodes,
                },
                count + 1,
            ));
        }
    }
}

/// The joined map without its closed nodes, if it is a function, one-to-one, and leaves no open
/// graph node of the set without an open rule node.
fn joined(
    rule: &Rule,
    at: usize,
    graph: &Graph,
    edges: u64,
    a: &BTreeMap<usize, usize>,
    b: &BTreeMap<usize, usize>,
) -> Option<BTreeMap<usize, usize>> {
    let mut map = a.clone();
    for (&node, &image) in b {
        if *map.entry(node).or_insert(image) != image {
            return None;
        }
    }
    let mut images: Vec<usize> = map.values().copied().collect();
    images.sort_unstable();
    if images.windows(2).any(|w| w[0] == w[1]) {
        return None;
    }
    let mut below = Vec::new();
    edges_under(rule, at, &mut below);
    map.retain(|node, _| {
        let elsewhere =
            |(number, edge): (usize, &Edge)| !below.contains(&number) && edge.nodes.contains(node);
        rule.external.contains(node) || rule.edges.iter().enumerate().any(elsewhere)
    });
    for node in 0..graph.nodes {
        let on = |inside: bool| {
            graph
                .edges
                .iter()
                .enumerate()
                .any(|(e, edge)| (edges >> e & 1 == 1) == inside && edge.nodes.contains(&node))
        };
        let open = on(true) && (on(false) || graph.external.contains(&node));
        if open && !map.values().any(|&image| image == node) {
            return None;
        }
    }
    Some(map)
}

fn edges_under(rule: &Rule, at: usize, below: &mut Vec<usize>) {
    match rule.plan[at] {
        PlanNode::Leaf => {}
        PlanNode::Introduce { child, edge } => {
            below.push(edge);
            edges_under(rule, child, below);
        }
        PlanNode::Join { left, right } => {
            edges_under(rule, left, below);
            edges_under(rule, right, below);
        }
    }
}
