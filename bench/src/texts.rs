//! Reading the longest grammar and graph, and replaying the longest derivation: first compared, then timed.

use crate::limits;
use crate::measure::{interleaved, Effort, Timing};
use crate::sides::{Lent, Phases};
use bobbinmarl::calls::{self, Verdict};
use second::read::{read_grammar, read_graph};
use std::hint::black_box;
use std::time::{Duration, Instant};

pub struct TextRow {
    pub what: &'static str,
    pub bytes: usize,
    pub proved: Timing,
    pub second: Timing,
}

pub fn measure(lent: &mut Lent, effort: Effort) -> Result<Vec<TextRow>, String> {
    let (grammar, graph) = reading(lent, effort)?;
    Ok(vec![grammar, graph, replaying(lent, effort)?])
}

fn timed<T>(work: impl FnOnce() -> T) -> Phases {
    let begin = Instant::now();
    black_box(work());
    [begin.elapsed(), Duration::ZERO, Duration::ZERO]
}

/// The text, if it has the bytes that it is meant to have.
fn of_length(text: Vec<u8>, bytes: usize, what: &str) -> Result<Vec<u8>, String> {
    if text.len() == bytes {
        Ok(text)
    } else {
        Err(format!("{what} has {} bytes, not {bytes}", text.len()))
    }
}

fn reading(lent: &mut Lent, effort: Effort) -> Result<(TextRow, TextRow), String> {
    let (grammar, graph) = (limits::grammar(), limits::graph());
    let grammar_text = of_length(grammar.text(), limits::GRAMMAR_BYTES, "the grammar")?;
    let graph_text = of_length(graph.text(), limits::GRAPH_BYTES, "the graph")?;
    lent.read(&grammar_text, &graph_text);
    if read_grammar(&grammar_text) != Ok(grammar.clone()) {
        return Err("the second reader does not read the longest grammar".into());
    }
    if read_graph(&grammar, &graph_text) != Ok(graph) {
        return Err("the second reader does not read the longest graph".into());
    }
    let [proved, second] = interleaved(
        effort,
        [
            &mut || timed(|| calls::read_grammar(&grammar_text, &mut lent.grammar)),
            &mut || timed(|| read_grammar(black_box(&grammar_text))),
        ],
    );
    let grammar_row = TextRow {
        what: "reading the longest grammar",
        bytes: grammar_text.len(),
        proved,
        second,
    };
    let [proved, second] = interleaved(
        effort,
        [
            &mut || timed(|| calls::read_graph(&lent.grammar, &graph_text, &mut lent.graph)),
            &mut || {
                timed(|| {
                    assert!(second::checks::is_grammar(&grammar));
                    read_graph(&grammar, black_box(&graph_text))
                })
            },
        ],
    );
    let graph_row = TextRow {
        what: "reading the longest graph with it",
        bytes: graph_text.len(),
        proved,
        second,
    };
    Ok((grammar_row, graph_row))
}

fn replaying(lent: &mut Lent, effort: Effort) -> Result<TextRow, String> {
    let (grammar, graph) = (limits::deep_grammar(), limits::deep_graph());
    let text = limits::derivation(limits::APPLICATIONS);
    let text = of_length(text, limits::DERIVATION_BYTES, "the derivation")?;
    lent.read(&grammar.text(), &graph.text());
    if calls::replay(&lent.grammar, &lent.graph, &text) != Verdict::Passed {
        return Err("the proved replay refuses the longest derivation".into());
    }
    if second::replay::replay(&grammar, &graph, &text) != 0 {
        return Err("the second replay refuses the longest derivation".into());
    }
    let [proved, second] = interleaved(
        effort,
        [
            &mut || timed(|| calls::replay(&lent.grammar, &lent.graph, black_box(&text))),
            &mut || {
                timed(|| {
                    assert!(second::checks::tables(&grammar, &graph));
                    second::replay::replay(&grammar, &graph, black_box(&text))
                })
            },
        ],
    );
    Ok(TextRow {
        what: "replaying the longest derivation, 4,096 nested applications",
        bytes: text.len(),
        proved,
        second,
    })
}
