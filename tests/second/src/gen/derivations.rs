//! Derivations that are right, damaged, longer than needed or renumbered.

use super::{damaged_text, noise, Rng};
use crate::model::{
    derivation_lines, derivation_text, Application, Derivation, Grammar, Graph, Rule,
};

/// A derivation that goes round a circle of renamings once more than it must, if one is found.
pub fn with_circle(
    rng: &mut Rng,
    grammar: &Grammar,
    derivation: &[Application],
) -> Option<Derivation> {
    let place = rng.below(derivation.len());
    let rule = &grammar.rules[derivation[place].rule];
    let list: Vec<usize> = rule
        .external
        .iter()
        .map(|&n| derivation[place].nodes[n])
        .collect();
    let home = (rule.nonterminal, list);
    // Renaming steps from a symbol on a list, as (rule, images, symbol, list below).
    let renamings = |symbol: usize,
                     list: &[usize]|
     -> Vec<(usize, Vec<usize>, usize, Vec<usize>)> {
        let mut found = Vec::new();
        for (number, r) in grammar.rules.iter().enumerate() {
            let only = r.nonterminal == symbol && r.edges.len() == 1 && r.nodes == r.external.len();
            if only && grammar.is_nonterminal(r.edges[0].symbol) {
                let mut images = vec![0; r.nodes];
                for (&n, &image) in r.external.iter().zip(list) {
                    images[n] = image;
                }
                let below = r.edges[0].nodes.iter().map(|&n| images[n]).collect();
                found.push((number, images, r.edges[0].symbol, below));
            }
        }
        found
    };
    let mut chain: Vec<(usize, Vec<usize>)> = Vec::new();
    let (mut symbol, mut list) = home.clone();
    for _ in 0..12 {
        let steps = renamings(symbol, &list);
        if steps.is_empty() {
            return None;
        }
        let (number, images, below, list_below) = rng.pick(&steps).clone();
        chain.push((number, images));
        (symbol, list) = (below, list_below);
        if (symbol, &list) == (home.0, &home.1) {
            let added = chain.len();
            let shifted = |a: &Application| -> Application {
                let mut a = a.clone();
                for (e, p) in grammar.rules[a.rule].edges.iter().zip(&mut a.parts) {
                    // References to `place` itself stay: the circle stands there now.
                    if grammar.is_nonterminal(e.symbol) && *p > place {
                        *p += added;
                    }
                }
                a
            };
            let mut longer: Derivation = derivation[..place].iter().map(&shifted).collect();
            for (at, (rule, nodes)) in chain.into_iter().enumerate() {
                longer.push(Application {
                    rule,
                    nodes,
                    parts: vec![place + at + 1],
                });
            }
            longer.extend(derivation[place..].iter().map(&shifted));
            return Some(longer);
        }
    }
    None
}

/// The same tree under another numbering: right only if the numbers come out as they were.
pub fn permuted(rng: &mut Rng, grammar: &Grammar, derivation: &[Application]) -> Derivation {
    let n = derivation.len();
    let mut to = rng.permutation(n);
    if rng.coin() && n > 1 {
        // Keep the top at 0, so that only the order among the parts is wrong.
        let zero = to.iter().position(|&t| t == 0).unwrap();
        to.swap(0, zero);
    }
    let mut row = derivation.to_vec();
    for (old, a) in derivation.iter().enumerate() {
        let mut a = a.clone();
        for (e, p) in grammar.rules[a.rule].edges.iter().zip(&mut a.parts) {
            if grammar.is_nonterminal(e.symbol) {
                *p = to[*p];
            }
        }
        row[to[old]] = a;
    }
    row
}

/// A derivation with one thing changed that keeps the shape of its lines: a node, an edge, a
/// part, a rule of equal shape, two nodes exchanged, two subtrees exchanged.
pub fn changed_derivation(
    rng: &mut Rng,
    grammar: &Grammar,
    graph: &Graph,
    derivation: &[Application],
) -> Derivation {
    let mut row = derivation.to_vec();
    let at = rng.below(row.len());
    let (nodes, parts) = (row[at].nodes.len(), row[at].parts.len());
    match rng.below(7) {
        0 => row[at].nodes[rng.below(nodes)] = rng.below(graph.nodes),
        1 => row[at].nodes.swap(rng.below(nodes), rng.below(nodes)),
        2 => row[at].parts[rng.below(parts)] = rng.below(graph.edges.len().max(derivation.len())),
        3 => row[at].parts.swap(rng.below(parts), rng.below(parts)),
        4 => {
            let alike = |r: &Rule| r.nodes == nodes && r.edges.len() == parts;
            let rules: Vec<usize> = (0..grammar.rules.len())
                .filter(|&r| alike(&grammar.rules[r]))
                .collect();
            row[at].rule = *rng.pick(&rules);
        }
        5 => {
            // Two graph nodes exchanged throughout.
            let (a, b) = (rng.below(graph.nodes), rng.below(graph.nodes));
            for n in row.iter_mut().flat_map(|a| &mut a.nodes) {
                *n = if *n == a {
                    b
                } else if *n == b {
                    a
                } else {
                    *n
                };
            }
        }
        _ => {
            // Two graph edges exchanged throughout: right exactly for parallel ones.
            let (a, b) = (rng.below(graph.edges.len()), rng.below(graph.edges.len()));
            for app in &mut row {
                for (e, p) in grammar.rules[app.rule].edges.iter().zip(&mut app.parts) {
                    if !grammar.is_nonterminal(e.symbol) {
                        *p = if *p == a {
                            b
                        } else if *p == b {
                            a
                        } else {
                            *p
                        };
                    }
                }
            }
        }
    }
    row
}

/// Derivation files made from right ones. With each: true if it must pass, false if it must not,
/// none if only a replay can tell. `longer` counts those with a circle added.
pub fn derivation_texts(
    rng: &mut Rng,
    grammar: &Grammar,
    graph: &Graph,
    sources: &[Derivation],
    longer: &mut usize,
) -> Vec<(Vec<u8>, Option<bool>)> {
    let mut texts = vec![(noise(rng), Some(false)), (Vec::new(), Some(false))];
    for d in sources {
        texts.push((derivation_text(d), Some(true)));
        if let Some(once) = with_circle(rng, grammar, d) {
            *longer += 1;
            if let Some(twice) = with_circle(rng, grammar, &once) {
                texts.push((derivation_text(&twice), Some(true)));
            }
            texts.push((derivation_text(&once), Some(true)));
        }
        let other = permuted(rng, grammar, d);
        texts.push((derivation_text(&other), Some(other == *d)));
        for _ in 0..2 {
            texts.push((
                derivation_text(&changed_derivation(rng, grammar, graph, d)),
                None,
            ));
        }
        for _ in 0..3 {
            texts.push((damaged_text(rng, &derivation_lines(d)), None));
        }
        let mut extra = derivation_text(d);
        extra.extend_from_slice(rng.pick::<&[u8]>(&[b"C  10\n", b"\n", b" ", b"A   0\n"]));
        texts.push((extra, Some(false)));
    }
    texts
}
