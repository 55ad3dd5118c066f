//! The chart against trees, against the closure read literally and against itself in pieces; and
//! the replay on derivations of every kind.

use super::readers::{check_graph_texts, check_tables};
use super::Report;
use crate::chart::{edges_below, open_rule_nodes, Answer, Chart};
use crate::gen::{self, Rng};
use crate::model::{derivation_text, Application, Derivation, Edge, Grammar, Graph};
use crate::naive::{self, Item};
use crate::program;
use crate::replay::{is_generating_tree, parse_derivation, replaces_to_graph, replay};
use crate::trees::{Fewest, Trees};

pub(super) fn check_case(
    rng: &mut Rng,
    grammar: &Grammar,
    graph: &Graph,
    grown: Option<Derivation>,
    report: &mut Report,
) {
    check_graph_texts(rng, grammar, graph, report);
    check_tables(rng, grammar, graph, report);
    let mut chart = Chart::start(grammar, graph, 4_096).unwrap();
    let answer = chart.run_to_end();
    let result = chart.derivation();
    if !chart.check_items() {
        report.mismatch("items name what does not exist", grammar, Some(graph), b"");
    }
    match (&answer, &result) {
        (Answer::TooSmall, Err(9)) => report.too_small += 1,
        (Answer::Done(_), Ok(_)) => report.accepted += 1,
        (Answer::Done(_), Err(11)) => report.underivable += 1,
        _ => report.mismatch("run and writer disagree", grammar, Some(graph), b""),
    }
    let size = [6, 12, 24, 48, 64]
        .iter()
        .position(|&most| graph.edges.len() <= most)
        .unwrap();
    report.sizes[size].0 += 1;
    report.full_graphs += (graph.edges.len() == 64 || graph.nodes == 64) as usize;
    if let Ok(d) = &result {
        report.sizes[size].1 += 1;
        report.most_applications = report.most_applications.max(d.len());
        report.rank_0_accepted += graph.external.is_empty() as usize;
        report.disconnected_accepted += !graph.is_connected() as usize;
    }
    if let Answer::Done(steps) = answer {
        report.largest_closure = report.largest_closure.max(steps);
        if steps != chart.steps_done() || steps != chart.items_present() {
            report.mismatch("steps", grammar, Some(graph), b"");
        }
        check_steps_and_capacity(rng, grammar, graph, steps, &result, report);
        let trees = Trees::new(grammar, graph, 3_000);
        if graph.edges.len() <= 6 {
            compare_with_trees(&trees, &chart, grammar, graph, report);
        }
        if graph.edges.len() <= 4 && graph.nodes <= 6 && grammar.rules.len() <= 10 && rng.one_in(4)
        {
            compare_closure(&trees, &chart, grammar, graph, report);
        }
        if (steps <= 100 && rng.one_in(4)) || (steps <= 400 && rng.one_in(20)) {
            compare_naive(&chart, grammar, graph, report);
        }
    }
    if let Some(d) = &grown {
        if !replaces_to_graph(grammar, graph, d) {
            report.mismatch(
                "grown derivation does not yield its graph",
                grammar,
                Some(graph),
                &derivation_text(d),
            );
        }
        if result == Err(11) {
            report.mismatch(
                "grown graph refused",
                grammar,
                Some(graph),
                &derivation_text(d),
            );
        }
    }
    check_derivations(rng, grammar, graph, &answer, &result, grown, report);
}

/// Runs in pieces, charts that just hold the closure and just do not, and the programs.
fn check_steps_and_capacity(
    rng: &mut Rng,
    grammar: &Grammar,
    graph: &Graph,
    steps: usize,
    result: &Result<Derivation, u8>,
    report: &mut Report,
) {
    if steps > 400 && !rng.one_in(8) {
        return;
    }
    let mut chart = Chart::start(grammar, graph, steps).unwrap();
    let mut given = 0;
    let mut right = true;
    loop {
        let piece = *rng.pick(&[0, 1, 2, steps / 3, steps]);
        given += piece;
        let answer = chart.run(piece);
        let due = if given < steps {
            Answer::StepsUp(given)
        } else {
            Answer::Done(steps)
        };
        right &= answer == due;
        if given >= steps {
            break;
        }
        right &= chart.derivation() == Err(10);
    }
    // The same items in another cut of the run: the same goal at the same count.
    right &=
        chart.derivation().map(|d| d.len()) == result.as_ref().map(|d| d.len()).map_err(|&n| n);
    if let Ok(d) = chart.derivation() {
        let length = derivation_text(&d).len();
        right &= chart.write(length).is_ok() && chart.write(length - 1) == Err(12);
    }
    if steps > 1 {
        let capacity = steps - 1 - rng.below((steps - 1).min(4));
        let mut chart = Chart::start(grammar, graph, capacity).unwrap();
        let mut given = 0;
        loop {
            let piece = *rng.pick(&[1, 2, steps / 2, steps]);
            given += piece;
            match chart.run(piece) {
                Answer::TooSmall => break,
                Answer::StepsUp(done) => right &= done == given && done < capacity,
                Answer::Done(_) => right = false,
            }
            if given > 2 * steps {
                right = false;
                break;
            }
        }
        right &= chart.run(1) == Answer::TooSmall && chart.derivation() == Err(9);
    }
    if !right {
        report.mismatch("steps or capacity", grammar, Some(graph), b"");
    }

    let (grammar_text, graph_text) = (grammar.text(), graph.text());
    let written = program::derive(&grammar_text, &graph_text);
    let due = match result {
        _ if grammar_text.len() > program::FILE_LIMIT => b"N   1\n".to_vec(),
        _ if steps > program::CHART_ITEMS => b"N   9\n".to_vec(),
        Err(number) => format!("N{number:4}\n").into_bytes(),
        Ok(_) => match Chart::start(grammar, graph, 4_096).map(|mut c| {
            c.run_to_end();
            c.write(program::OUTPUT_LIMIT)
        }) {
            Ok(Ok(mut text)) => {
                text.extend(format!("C{steps:4}\n").into_bytes());
                text
            }
            Ok(Err(number)) | Err(number) => format!("N{number:4}\n").into_bytes(),
        },
    };
    if written != due {
        report.mismatch("derive", grammar, Some(graph), &written);
    }
}

fn compare_with_trees(
    trees: &Trees,
    chart: &Chart,
    grammar: &Grammar,
    graph: &Graph,
    report: &mut Report,
) {
    let by_trees = match trees.of_graph() {
        Fewest::Applications(n) => Some(n),
        Fewest::NoTree => None,
        Fewest::GaveUp => {
            report.trees_given_up += 1;
            return;
        }
    };
    report.trees_compared += 1;
    if by_trees != chart.goal_count() {
        let what = format!("trees {by_trees:?}, chart {:?}", chart.goal_count());
        report.mismatch(&what, grammar, Some(graph), b"");
    }
}

/// All lists of `length` different nodes out of `nodes` that hold every node of `wanted`.
fn lists(nodes: &[usize], length: usize, wanted: u64) -> Vec<Vec<usize>> {
    let mut found = vec![Vec::new()];
    for _ in 0..length {
        found = found
            .into_iter()
            .flat_map(|l: Vec<usize>| {
                nodes
                    .iter()
                    .filter(|n| !l.contains(n))
                    .map(|&n| [&l[..], &[n]].concat())
                    .collect::<Vec<_>>()
            })
            .collect();
    }
    found.retain(|l| l.iter().fold(wanted, |w, &n| w & !(1 << n)) == 0);
    found
}

/// The whole closure against the truth of items as 01 states it over trees: the same items with
/// the same counts, so that the number of steps is checked without an agenda.
fn compare_closure(
    trees: &Trees,
    chart: &Chart,
    grammar: &Grammar,
    graph: &Graph,
    report: &mut Report,
) {
    let mut true_items = 0;
    let mut judge = |fewest: Fewest, count: Option<usize>| -> Option<bool> {
        match fewest {
            Fewest::GaveUp => None,
            Fewest::NoTree => Some(count.is_none()),
            Fewest::Applications(n) => {
                true_items += 1;
                Some(count == Some(n))
            }
        }
    };
    for edges in 0..=graph.all_edges() {
        let nodes = trees.nodes_of(edges);
        let open = trees.open_nodes(edges);
        for symbol in (0..grammar.symbols.len()).filter(|&s| grammar.is_nonterminal(s)) {
            for list in lists(&nodes, grammar.rank(symbol), open) {
                match judge(
                    trees.of_edge(symbol, &list, edges),
                    chart.passive_count(symbol, edges, &list),
                ) {
                    None => return report.closures_given_up += 1,
                    Some(true) => {}
                    Some(false) => {
                        let what = format!("passive item {symbol} {edges:b} {list:?}");
                        return report.mismatch(&what, grammar, Some(graph), b"");
                    }
                }
            }
        }
        for (number, rule) in grammar.rules.iter().enumerate() {
            for (at, &below) in edges_below(&rule.plan).iter().enumerate() {
                let rule_edges: Vec<Edge> = (0..rule.edges.len())
                    .filter(|e| below >> e & 1 == 1)
                    .map(|e| rule.edges[e].clone())
                    .collect();
                let open_here = open_rule_nodes(&rule.external, &rule.edges, below);
                if open_here.count_ones() > 4 {
                    // Too many maps to try.
                    return report.closures_given_up += 1;
                }
                let open_nodes: Vec<usize> = (0..rule.nodes)
                    .filter(|n| open_here >> n & 1 == 1)
                    .collect();
                for list in lists(&nodes, open_nodes.len(), open) {
                    let mut map = vec![None; rule.nodes];
                    for (&n, &image) in open_nodes.iter().zip(&list) {
                        map[n] = Some(image);
                    }
                    let count = chart.active_count(number, at, edges, &map);
                    match judge(trees.of_rule_edges(&rule_edges, &map, edges), count) {
                        None => return report.closures_given_up += 1,
                        Some(true) => {}
                        Some(false) => {
                            let what = format!("active item {number} {at} {edges:b} {map:?}");
                            return report.mismatch(&what, grammar, Some(graph), b"");
                        }
                    }
                }
            }
        }
    }
    report.closures_compared += 1;
    report.items_compared += true_items;
    if true_items != chart.steps_done() {
        let what = format!(
            "closure: {true_items} true items, {} steps",
            chart.steps_done()
        );
        report.mismatch(&what, grammar, Some(graph), b"");
    }
}

/// The whole closure against its rules read literally.
fn compare_naive(chart: &Chart, grammar: &Grammar, graph: &Graph, report: &mut Report) {
    let items = naive::closure(grammar, graph);
    report.naive_closures += 1;
    report.naive_items += items.len();
    let same = items.iter().all(|(item, &count)| {
        let in_chart = match item {
            Item::Active {
                rule,
                plan_node,
                edges,
                map,
            } => {
                let images: Vec<Option<usize>> = (0..grammar.rules[*rule].nodes)
                    .map(|n| map.get(&n).copied())
                    .collect();
                chart.active_count(*rule, *plan_node, *edges, &images)
            }
            Item::Passive {
                symbol,
                edges,
                nodes,
            } => chart.passive_count(*symbol, *edges, nodes),
        };
        in_chart == Some(count)
    });
    if !same || items.len() != chart.steps_done() {
        let what = format!(
            "naive closure: {} items, {} steps",
            items.len(),
            chart.steps_done()
        );
        report.mismatch(&what, grammar, Some(graph), b"");
    }
}

pub(super) fn judgements(
    grammar: &Grammar,
    graph: &Graph,
    derivation: &[Application],
) -> (bool, bool) {
    (
        is_generating_tree(grammar, graph, derivation),
        replaces_to_graph(grammar, graph, derivation),
    )
}

fn check_derivations(
    rng: &mut Rng,
    grammar: &Grammar,
    graph: &Graph,
    answer: &Answer,
    result: &Result<Derivation, u8>,
    grown: Option<Derivation>,
    report: &mut Report,
) {
    let mut sources: Vec<Derivation> = Vec::new();
    sources.extend(result.as_ref().ok().cloned());
    sources.extend(grown);
    let texts = gen::derivation_texts(
        rng,
        grammar,
        graph,
        &sources,
        &mut report.longer_derivations,
    );
    for (text, due) in texts {
        let parsed = parse_derivation(grammar, graph, &text);
        let (by_trees, by_replacement) = parsed
            .as_ref()
            .map_or((false, false), |d| judgements(grammar, graph, d));
        let passed = replay(grammar, graph, &text) == 0;
        let mut right = passed == by_trees && by_trees == by_replacement;
        right &= due.is_none_or(|d| d == passed);
        if passed {
            report.replays_passed += 1;
            let d = parsed.unwrap();
            // The numbering is fixed by the tree, so a passed text is the one written from it.
            right &= derivation_text(&d) == text;
            if matches!(answer, Answer::Done(_)) {
                right &= result.as_ref().is_ok_and(|fewest| fewest.len() <= d.len());
            }
        } else {
            report.replays_refused += 1;
        }
        if !right {
            report.mismatch(
                &format!("replay passed {passed}, due {due:?}"),
                grammar,
                Some(graph),
                &text,
            );
        }
    }
}
