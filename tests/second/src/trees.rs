//! The fewest applications of a derivation tree, by 01's definition alone: no items, no plans.
//! Breadth-first over partly built trees; the set of states seen ends circles of renamings.

use crate::model::{Edge, Grammar, Graph};
use std::collections::HashSet;

#[derive(Clone, Copy, Debug, PartialEq, Eq)]
pub enum Fewest {
    Applications(usize),
    NoTree,
    /// The search saw more states than allowed: nothing is known.
    GaveUp,
}

/// A partly built tree: what the rest of it may still use and must still supply. How the
/// finished part looks inside has no bearing on the rest, so equal states are one state.
#[derive(Clone, PartialEq, Eq, Hash)]
struct State {
    /// Graph edges that must still come, each once.
    edges: u64,
    /// Graph nodes that are inner already.
    inner: u64,
    /// Nonterminal edges not yet replaced, sorted: their order has no bearing either.
    pending: Vec<(usize, Vec<usize>)>,
}

pub struct Trees<'a> {
    grammar: &'a Grammar,
    graph: &'a Graph,
    incident: Vec<u64>,
    max_states: usize,
}

impl<'a> Trees<'a> {
    pub fn new(grammar: &'a Grammar, graph: &'a Graph, max_states: usize) -> Self {
        Trees {
            grammar,
            graph,
            incident: graph.incidence(),
            max_states,
        }
    }

    /// Over all derivation trees that generate the graph.
    pub fn of_graph(&self) -> Fewest {
        self.of_edge(
            self.grammar.start,
            &self.graph.external,
            self.graph.all_edges(),
        )
    }

    /// Over all derivation trees of `symbol` on the list `nodes` that have just `edges`.
    pub fn of_edge(&self, symbol: usize, nodes: &[usize], edges: u64) -> Fewest {
        let first = State {
            edges,
            inner: 0,
            pending: vec![(symbol, nodes.to_vec())],
        };
        self.search(mask_of(nodes), vec![first])
    }

    /// Over all ways to place `rule_edges` of a rule, trees for the nonterminal ones included, so
    /// that just `edges` stand. `images` gives the graph nodes of the rule nodes that stand for
    /// the top list; the other nodes on these rule edges are inner.
    pub fn of_rule_edges(
        &self,
        rule_edges: &[Edge],
        images: &[Option<usize>],
        edges: u64,
    ) -> Fewest {
        let top = images.iter().flatten().fold(0, |m, &n| m | 1 << n);
        let empty = State {
            edges,
            inner: 0,
            pending: Vec::new(),
        };
        let mut found = Vec::new();
        self.place(
            top,
            &in_order(self.grammar, rule_edges),
            &mut images.to_vec(),
            empty,
            &mut found,
        );
        self.search(top, found)
    }

    /// A graph node of the set is open if it is external or lies on an edge outside.
    pub fn open_nodes(&self, edges: u64) -> u64 {
        let mut open = 0;
        for node in 0..self.graph.nodes {
            let in_set = self.incident[node] & edges != 0;
            let outside = self.incident[node] & !edges != 0;
            if in_set && (outside || self.graph.external.contains(&node)) {
                open |= 1 << node;
            }
        }
        open
    }

    pub fn nodes_of(&self, edges: u64) -> Vec<usize> {
        (0..self.graph.nodes)
            .filter(|&n| self.incident[n] & edges != 0)
            .collect()
    }

    fn search(&self, top: u64, first: Vec<State>) -> Fewest {
        let mut seen: HashSet<State> = first.iter().cloned().collect();
        let mut level = first;
        let mut applications = 0;
        while !level.is_empty() {
            if level.iter().any(|s| s.edges == 0 && s.pending.is_empty()) {
                return Fewest::Applications(applications);
            }
            let mut next = Vec::new();
            for state in level {
                let mut found = Vec::new();
                self.replace_one(top, state, &mut found);
                for s in found {
                    if !seen.contains(&s) {
                        seen.insert(s.clone());
                        next.push(s);
                    }
                }
                if seen.len() > self.max_states {
                    return Fewest::GaveUp;
                }
            }
            level = next;
            applications += 1;
        }
        Fewest::NoTree
    }

    /// All states after one more application, for the last pending edge: replacements of
    /// different edges do not hang on each other, so their order may be fixed.
    fn replace_one(&self, top: u64, mut state: State, found: &mut Vec<State>) {
        let Some((symbol, list)) = state.pending.pop() else {
            return;
        };
        for rule in self
            .grammar
            .rules
            .iter()
            .filter(|r| r.nonterminal == symbol)
        {
            let mut images = vec![None; rule.nodes];
            for (&node, &image) in rule.external.iter().zip(&list) {
                images[node] = Some(image);
            }
            self.place(
                top,
                &in_order(self.grammar, &rule.edges),
                &mut images,
                state.clone(),
                found,
            );
        }
    }

    /// Places the rule edges one after the other, trying every graph edge for a terminal one and
    /// every free graph node for an inner node.
    fn place(
        &self,
        top: u64,
        rule_edges: &[&Edge],
        images: &mut Vec<Option<usize>>,
        state: State,
        found: &mut Vec<State>,
    ) {
        let Some((edge, rest)) = rule_edges.split_first() else {
            if self.may_end(&state) {
                found.push(state);
            }
            return;
        };
        if let Some(&node) = edge.nodes.iter().find(|&&n| images[n].is_none()) {
            // An inner node: any graph node that is not inner yet and not on the top list. One
            // without an edge left cannot serve, as each rule node lies on an edge.
            for image in 0..self.graph.nodes {
                let free = (top | state.inner) >> image & 1 == 0;
                if free && self.incident[image] & state.edges != 0 {
                    let mut state = state.clone();
                    state.inner |= 1 << image;
                    images[node] = Some(image);
                    self.place(top, rule_edges, images, state, found);
                    images[node] = None;
                }
            }
            return;
        }
        let nodes: Vec<usize> = edge.nodes.iter().map(|&n| images[n].unwrap()).collect();
        if self.grammar.is_nonterminal(edge.symbol) {
            let mut state = state;
            state.pending.push((edge.symbol, nodes));
            state.pending.sort();
            self.place(top, rest, images, state, found);
        } else {
            for (number, graph_edge) in self.graph.edges.iter().enumerate() {
                let due = state.edges >> number & 1 == 1;
                if due && graph_edge.symbol == edge.symbol && graph_edge.nodes == nodes {
                    let mut state = state.clone();
                    state.edges &= !(1 << number);
                    self.place(top, rest, images, state, found);
                }
            }
        }
    }

    /// Each pending edge still takes at least one graph edge at each of its nodes.
    fn may_end(&self, state: &State) -> bool {
        let left = state.edges.count_ones() as usize;
        if state.pending.len() > left || (state.pending.is_empty() && left > 0) {
            return false;
        }
        (0..self.graph.nodes).all(|node| {
            let wanted = state
                .pending
                .iter()
                .filter(|(_, list)| list.contains(&node))
                .count();
            wanted <= (self.incident[node] & state.edges).count_ones() as usize
        })
    }
}

fn mask_of(nodes: &[usize]) -> u64 {
    nodes.iter().fold(0, |m, &n| m | 1 << n)
}

/// Terminal edges first: they fix nodes and so spare guesses.
fn in_order<'e>(grammar: &Grammar, edges: &'e [Edge]) -> Vec<&'e Edge> {
    let mut order: Vec<&Edge> = edges.iter().collect();
    order.sort_by_key(|e| grammar.is_nonterminal(e.symbol));
    order
}
