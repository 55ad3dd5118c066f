//! Random grammars: ranks 0 to 4, renamings and their circles, plans that are chains or join.

use super::Rng;
use crate::model::{Edge, Grammar, PlanNode, Rule, Symbol};

fn random_rank(rng: &mut Rng) -> usize {
    *rng.pick(&[1, 1, 1, 2, 2, 2, 2, 2, 2, 3, 3, 4])
}

pub fn random_grammar(rng: &mut Rng) -> Grammar {
    if rng.one_in(10) {
        return series_parallel(rng);
    }
    let large = rng.one_in(50);
    // Many labels make few matches: graphs of many edges then have closures that fit a chart.
    let full = large && rng.one_in(3);
    let (terminals, nonterminals) = if full {
        let terminals = rng.range(1, 63);
        (terminals, 64 - terminals)
    } else if large {
        (rng.range(1, 24), rng.range(1, 40))
    } else if rng.one_in(3) {
        (rng.range(5, 12), rng.range(1, 4))
    } else {
        (rng.range(1, 3), rng.range(1, 4))
    };
    let mut symbols = Vec::new();
    for number in 0..terminals + nonterminals {
        symbols.push(Symbol {
            nonterminal: number >= terminals,
            rank: random_rank(rng),
        });
    }
    rng.shuffle(&mut symbols);
    // Several symbols of one rank, so that renamings and their circles come up.
    if rng.one_in(2) {
        let rank = random_rank(rng);
        for s in symbols.iter_mut().filter(|s| s.nonterminal) {
            if rng.one_in(2) {
                s.rank = rank;
            }
        }
    }
    let of_kind = |symbols: &[Symbol], nonterminal: bool| -> Vec<usize> {
        (0..symbols.len())
            .filter(|&s| symbols[s].nonterminal == nonterminal)
            .collect()
    };
    let nonterminal_symbols = of_kind(&symbols, true);
    let start = *rng.pick(&nonterminal_symbols);
    if rng.one_in(5) {
        symbols[start].rank = 0;
    }

    let mut rules = Vec::new();
    for &n in &nonterminal_symbols {
        let few = if large { 1 } else { 3 };
        if !rng.one_in(12) {
            rules.push(random_rule(rng, &symbols, n, RuleKind::Terminal));
        }
        if n == start && !rng.one_in(4) {
            rules.push(random_rule(rng, &symbols, n, RuleKind::Mixed));
        }
        for _ in 0..rng.range(0, few) {
            let kind = match rng.below(10) {
                0 => RuleKind::Terminal,
                1 | 2 => RuleKind::Renaming,
                3 => RuleKind::Widening,
                _ => RuleKind::Mixed,
            };
            rules.push(random_rule(rng, &symbols, n, kind));
        }
    }
    if rules.is_empty() {
        rules.push(random_rule(rng, &symbols, start, RuleKind::Terminal));
    }
    while full && rules.len() < 64 {
        let n = *rng.pick(&nonterminal_symbols);
        rules.push(random_rule(rng, &symbols, n, RuleKind::Mixed));
    }
    rng.shuffle(&mut rules);
    rules.truncate(64);
    Grammar {
        symbols,
        start,
        rules,
    }
}

/// Edges in series and side by side, with rules for rows of several lengths, each behind a few
/// renamings: the same graph has derivations of many counts, and an item that was found early
/// from parts of middling counts is found again with a lesser sum.
fn series_parallel(rng: &mut Rng) -> Grammar {
    let terminals = rng.range(1, 2);
    let nonterminals = rng.range(1, 2);
    let mut symbols = vec![Symbol::terminal(2); terminals];
    symbols.resize(terminals + nonterminals, Symbol::nonterminal(2));
    let mut rules = Vec::new();
    for n in terminals..terminals + nonterminals {
        let nonterminal = |rng: &mut Rng| rng.range(terminals, terminals + nonterminals - 1);
        let mut rows = vec![vec![rng.below(terminals)]];
        for _ in 0..rng.range(1, 3) {
            let length = rng.range(2, 5);
            rows.push((0..length).map(|_| rng.below(terminals)).collect());
        }
        rows.push(vec![nonterminal(rng), nonterminal(rng)]);
        if rng.coin() {
            let length = rng.range(1, 4);
            let any = terminals + nonterminals;
            rows.push((0..length).map(|_| rng.below(any)).collect());
        }
        for row in rows {
            let mut from = n;
            for _ in 0..*rng.pick(&[0, 0, 1, 2, 3, 4]) {
                let to = symbols.len();
                symbols.push(Symbol::nonterminal(2));
                rules.push(row_rule(rng, from, &[to]));
                from = to;
            }
            rules.push(row_rule(rng, from, &row));
        }
        if rng.one_in(3) {
            let mut rule = row_rule(rng, n, &[n]);
            let second = Edge {
                symbol: nonterminal(rng),
                nodes: vec![0, 1],
            };
            rule.edges.push(second);
            rule.plan = random_plan(rng, 2);
            rules.push(rule);
        }
    }
    rng.shuffle(&mut rules);
    Grammar {
        start: terminals,
        symbols,
        rules,
    }
}

/// Edges one behind the other, from the first external node to the second.
fn row_rule(rng: &mut Rng, nonterminal: usize, labels: &[usize]) -> Rule {
    let edge = |(at, &symbol): (usize, &usize)| Edge {
        symbol,
        nodes: vec![at, at + 1],
    };
    Rule {
        nonterminal,
        nodes: labels.len() + 1,
        external: vec![0, labels.len()],
        edges: labels.iter().enumerate().map(edge).collect(),
        plan: random_plan(rng, labels.len()),
    }
}

#[derive(Clone, Copy, PartialEq, Eq)]
enum RuleKind {
    Terminal,
    /// One nonterminal edge on all nodes, all external: only the name and the order change.
    Renaming,
    /// One nonterminal edge of greater rank: some of its nodes become inner.
    Widening,
    Mixed,
}

fn random_rule(rng: &mut Rng, symbols: &[Symbol], nonterminal: usize, kind: RuleKind) -> Rule {
    let rank = symbols[nonterminal].rank;
    // A symbol of rank 0 labels no edge.
    let usable: Vec<usize> = (0..symbols.len())
        .filter(|&s| symbols[s].rank > 0)
        .collect();
    let terminal: Vec<usize> = usable
        .iter()
        .copied()
        .filter(|&s| !symbols[s].nonterminal)
        .collect();
    let labels: Vec<usize> = match kind {
        RuleKind::Renaming | RuleKind::Widening => {
            let fits = |s: &usize| {
                symbols[*s].nonterminal
                    && if kind == RuleKind::Renaming {
                        symbols[*s].rank == rank
                    } else {
                        symbols[*s].rank > rank
                    }
            };
            let candidates: Vec<usize> = usable.iter().copied().filter(fits).collect();
            if candidates.is_empty() {
                return random_rule(rng, symbols, nonterminal, RuleKind::Mixed);
            }
            vec![*rng.pick(&candidates)]
        }
        RuleKind::Terminal => {
            let count = *rng.pick(&[1, 1, 1, 2, 2, 3]);
            (0..count).map(|_| *rng.pick(&terminal)).collect()
        }
        RuleKind::Mixed => {
            let count = *rng.pick(&[2, 2, 2, 2, 3, 3, 3, 4, 5, 8]);
            let mut labels: Vec<usize> = (0..count)
                .map(|_| {
                    let from = if rng.coin() { &terminal } else { &usable };
                    *rng.pick(from)
                })
                .collect();
            // Often the rule's own symbol again, so that graphs can grow.
            if rank > 0 && rng.coin() {
                labels[0] = nonterminal;
            }
            labels
        }
    };
    let (nodes, external, edges) = random_body(rng, symbols, rank, labels, &usable);
    let plan = random_plan(rng, edges.len());
    Rule {
        nonterminal,
        nodes,
        external,
        edges,
        plan,
    }
}

/// Edges of these labels over nodes that all lie on one, with `rank` external nodes.
fn random_body(
    rng: &mut Rng,
    symbols: &[Symbol],
    rank: usize,
    mut labels: Vec<usize>,
    usable: &[usize],
) -> (usize, Vec<usize>, Vec<Edge>) {
    let places = |labels: &[usize]| labels.iter().map(|&l| symbols[l].rank).sum::<usize>();
    while places(&labels) < rank {
        labels.push(*rng.pick(usable));
    }
    labels.truncate(8);
    let widest = labels.iter().map(|&l| symbols[l].rank).max().unwrap();
    let least = widest.max(rank);
    let most = places(&labels).min(8);
    let nodes = least.max((rank + rng.below(5)).min(most));

    let mut edges: Vec<Edge> = Vec::new();
    let mut covered = 0;
    for (at, &label) in labels.iter().enumerate() {
        let due = symbols[label].rank;
        let later = places(&labels[at + 1..]);
        let uncovered = nodes - covered;
        // Enough new nodes that the later edges can cover the rest; few else, for connection.
        let least_new = uncovered
            .saturating_sub(later)
            .max(due.saturating_sub(covered));
        let most_new = uncovered.min(due);
        let new = if covered == 0 {
            most_new
        } else {
            rng.range(least_new, most_new.min(least_new + 1))
        };
        let old = rng.permutation(covered);
        let mut attached: Vec<usize> = old[..due - new].to_vec();
        attached.extend(covered..covered + new);
        covered += new;
        rng.shuffle(&mut attached);
        edges.push(Edge {
            symbol: label,
            nodes: attached,
        });
    }
    if edges.len() < 8 && rng.one_in(10) {
        let parallel = rng.pick(&edges).clone();
        edges.push(parallel);
    }
    let renamed = rng.permutation(nodes);
    for e in &mut edges {
        for n in &mut e.nodes {
            *n = renamed[*n];
        }
    }
    rng.shuffle(&mut edges);
    let mut external = rng.permutation(nodes);
    external.truncate(rank);
    (nodes, external, edges)
}

/// A chain in edge order, a chain in another order, or a tree with joins (leaves joined with
/// leaves included), the plan nodes in any order that puts children first.
pub fn random_plan(rng: &mut Rng, edges: usize) -> Vec<PlanNode> {
    let style = rng.below(4);
    let order: Vec<usize> = if style == 0 {
        (0..edges).collect()
    } else {
        rng.permutation(edges)
    };
    let most_leaves = (17 - edges) / 2;
    let leaves = match style {
        0 | 1 => 1,
        2 => rng.range(1, most_leaves.min(3)),
        _ => rng.range(1, most_leaves),
    };
    let mut plan: Vec<PlanNode> = Vec::new();
    let mut roots: Vec<usize> = Vec::new();
    let (mut next_edge, mut made_leaves) = (0, 0);
    loop {
        let own = plan.len();
        let mut moves = Vec::new();
        if made_leaves < leaves {
            moves.push(0);
        }
        if !roots.is_empty() && next_edge < edges {
            moves.push(1);
            moves.push(1);
        }
        if roots.len() >= 2 {
            moves.push(2);
        }
        if moves.is_empty() {
            return plan;
        }
        match *rng.pick(&moves) {
            0 => {
                plan.push(PlanNode::Leaf);
                made_leaves += 1;
            }
            1 => {
                let child = roots.swap_remove(rng.below(roots.len()));
                plan.push(PlanNode::Introduce {
                    child,
                    edge: order[next_edge],
                });
                next_edge += 1;
            }
            _ => {
                let left = roots.swap_remove(rng.below(roots.len()));
                let right = roots.swap_remove(rng.below(roots.len()));
                plan.push(PlanNode::Join { left, right });
            }
        }
        roots.push(own);
    }
}
