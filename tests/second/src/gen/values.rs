//! Grammars and graphs as values with one field changed, as no reader may have left them.

use super::Rng;
use crate::model::{Edge, Grammar, Graph, PlanNode, Rule};

fn changed_number(rng: &mut Rng, old: usize) -> usize {
    match rng.below(6) {
        0 => old.saturating_sub(1),
        1 | 2 => old + 1,
        3 => *rng.pick(&[0, 4, 5, 8, 9, 63, 64, 65, 9_999]),
        _ => rng.below(8),
    }
}

/// One place of a list changed, one more or one less.
fn change_list(rng: &mut Rng, list: &mut Vec<usize>) {
    match rng.below(6) {
        0 => list.push(rng.below(8)),
        1 => {
            list.pop();
        }
        _ if !list.is_empty() => {
            let at = rng.below(list.len());
            list[at] = changed_number(rng, list[at]);
        }
        _ => {}
    }
}

/// One of the rows of a table left out, doubled, or none of this.
fn change_row<T: Clone>(rng: &mut Rng, row: &mut Vec<T>) {
    let at = rng.below(row.len());
    if rng.coin() {
        row.remove(at);
    } else {
        row.push(row[at].clone());
    }
}

fn change_edges(rng: &mut Rng, edges: &mut Vec<Edge>) {
    let at = rng.below(edges.len());
    match rng.below(6) {
        0 => change_row(rng, edges),
        1 | 2 => edges[at].symbol = changed_number(rng, edges[at].symbol),
        _ => change_list(rng, &mut edges[at].nodes),
    }
}

fn change_plan(rng: &mut Rng, plan: &mut Vec<PlanNode>) {
    let at = rng.below(plan.len());
    let number = |rng: &mut Rng, old: &mut usize| *old = changed_number(rng, *old);
    match (rng.below(6), &mut plan[at]) {
        (0, _) => change_row(rng, plan),
        (1, node) => *node = PlanNode::Leaf,
        (2 | 3, PlanNode::Introduce { child: n, .. } | PlanNode::Join { left: n, .. }) => {
            number(rng, n)
        }
        (_, PlanNode::Introduce { edge: n, .. } | PlanNode::Join { right: n, .. }) => {
            number(rng, n)
        }
        (_, PlanNode::Leaf) => {
            let other = rng.below(plan.len());
            plan.swap(at, other);
        }
    }
}

fn change_rule(rng: &mut Rng, rule: &mut Rule) {
    match rng.below(5) {
        0 => rule.nonterminal = changed_number(rng, rule.nonterminal),
        1 => rule.nodes = changed_number(rng, rule.nodes),
        2 => change_list(rng, &mut rule.external),
        3 => change_edges(rng, &mut rule.edges),
        _ => change_plan(rng, &mut rule.plan),
    }
}

pub fn change_grammar_value(rng: &mut Rng, grammar: &mut Grammar) {
    let symbol = rng.below(grammar.symbols.len());
    let rule = rng.below(grammar.rules.len());
    match rng.below(10) {
        0 => grammar.start = changed_number(rng, grammar.start),
        1 => grammar.symbols[symbol].nonterminal ^= true,
        2 => grammar.symbols[symbol].rank = changed_number(rng, grammar.symbols[symbol].rank),
        3 => change_row(rng, &mut grammar.symbols),
        4 => change_row(rng, &mut grammar.rules),
        _ => change_rule(rng, &mut grammar.rules[rule]),
    }
}

pub fn change_graph_value(rng: &mut Rng, graph: &mut Graph) {
    match rng.below(4) {
        0 => graph.nodes = changed_number(rng, graph.nodes),
        1 => change_list(rng, &mut graph.external),
        _ => change_edges(rng, &mut graph.edges),
    }
}
