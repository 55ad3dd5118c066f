//! Readers over damaged texts, question 8 over changed values, and the programs over files.

use super::Report;
use crate::chart::Chart;
use crate::checks;
use crate::gen::{self, Rng};
use crate::model::{Grammar, Graph};
use crate::program;
use crate::read::{read_grammar, read_graph};

pub(super) fn check_grammar_texts(rng: &mut Rng, grammar: &Grammar, report: &mut Report) {
    let lines = grammar.lines();
    if read_grammar(&grammar.text()).as_ref() != Ok(grammar) {
        report.mismatch("grammar not read back", grammar, None, b"");
    }
    for _ in 0..3 {
        let (text, due) = gen::faulty_text(rng, grammar, &lines);
        let number = report.read(read_grammar(&text).map(|_| ()));
        if number != due {
            report.mismatch(
                &format!("grammar text: {number}, due {due}"),
                grammar,
                None,
                &text,
            );
        }
    }
    for text in [
        gen::damaged_text(rng, &lines),
        gen::damaged_text(rng, &lines),
        gen::noise(rng),
    ] {
        let result = read_grammar(&text);
        report.read(result.as_ref().map(|_| ()).map_err(|&n| n));
        // A reading determines its text, so an accepted text is the one written from it.
        if result.is_ok_and(|g| g.text() != text) {
            report.mismatch(
                "accepted grammar text is not its reading's",
                grammar,
                None,
                &text,
            );
        }
    }
}

pub(super) fn check_graph_texts(
    rng: &mut Rng,
    grammar: &Grammar,
    graph: &Graph,
    report: &mut Report,
) {
    let lines = graph.lines();
    if read_graph(grammar, &graph.text()).as_ref() != Ok(graph) {
        report.mismatch("graph not read back", grammar, Some(graph), b"");
    }
    for _ in 0..2 {
        let (text, due) = gen::faulty_text(rng, grammar, &lines);
        let number = report.read(read_graph(grammar, &text).map(|_| ()));
        if number != due {
            report.mismatch(
                &format!("graph text: {number}, due {due}"),
                grammar,
                Some(graph),
                &text,
            );
        }
    }
    for text in [
        gen::damaged_text(rng, &lines),
        gen::damaged_text(rng, &lines),
        gen::noise(rng),
    ] {
        let result = read_graph(grammar, &text);
        report.read(result.as_ref().map(|_| ()).map_err(|&n| n));
        if result.is_ok_and(|g| g.text() != text) {
            report.mismatch(
                "accepted graph text is not its reading's",
                grammar,
                Some(graph),
                &text,
            );
        }
    }
}

/// Question 8 over values: all that was read passes, and with one field changed they pass exactly
/// where the readers accept the texts written from them.
pub(super) fn check_tables(rng: &mut Rng, grammar: &Grammar, graph: &Graph, report: &mut Report) {
    if !checks::tables(grammar, graph) {
        report.mismatch("tables of readings", grammar, Some(graph), b"");
    }
    let (mut grammar, mut graph) = (grammar.clone(), graph.clone());
    if rng.coin() {
        gen::change_grammar_value(rng, &mut grammar);
    } else {
        gen::change_graph_value(rng, &mut graph);
    }
    let due = read_grammar(&grammar.text()).as_ref() == Ok(&grammar)
        && read_graph(&grammar, &graph.text()).as_ref() == Ok(&graph);
    report.values_fit += due as usize;
    report.values_unfit += !due as usize;
    if checks::tables(&grammar, &graph) != due {
        let what = format!("tables of changed values, due {due}");
        report.mismatch(&what, &grammar, Some(&graph), b"");
    }
}

/// The two programs on files, damaged ones among them.
pub(super) fn check_files(rng: &mut Rng, report: &mut Report) {
    let derived = |grammar: &Grammar, graph: &Graph| {
        let mut chart = Chart::start(grammar, graph, program::CHART_ITEMS).unwrap();
        chart.run_to_end();
        chart.derivation().ok()
    };
    let most = rng.range(1, 12);
    let files = gen::files(rng, most, derived);
    let reading = read_grammar(&files.grammar)
        .and_then(|g| read_graph(&g, &files.graph).map(|_| ()))
        .err();
    let output = program::derive(&files.grammar, &files.graph);
    let fixed = program::fixed_part(&output);
    let right = match (reading, output[0]) {
        (Some(number), _) => output == format!("N{number:4}\n").as_bytes(),
        (None, b'N') => [&b"N   9\n"[..], b"N  11\n"].contains(&&output[..]),
        (None, _) => {
            let derivation = program::derivation_part(&output);
            fixed.len() == 12
                && program::replay(&files.grammar, &files.graph, &derivation) == b"N   0\n"
        }
    };
    let replays_right = files.derivations.iter().all(|d| {
        let answer = program::replay(&files.grammar, &files.graph, d);
        match reading {
            Some(number) => answer == format!("N{number:4}\n").as_bytes(),
            None => answer == b"N  13\n" || (answer == b"N   0\n" && output != b"N  11\n"),
        }
    });
    report.files += 1;
    if !right || !replays_right {
        report.mismatches += 1;
        eprintln!("MISMATCH programs\n{}", String::from_utf8_lossy(&output));
    }
}
