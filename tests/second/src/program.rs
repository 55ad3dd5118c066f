//! The two programs `derive` and `replay` as functions from file contents to what they write.

use crate::chart::{Answer, Chart};
use crate::model::push_line;
use crate::read::{read_grammar, read_graph};

pub const FILE_LIMIT: usize = 32_768;
pub const OUTPUT_LIMIT: usize = 32_768;
pub const CHART_ITEMS: usize = 2_048;

fn refusal(number: u8) -> Vec<u8> {
    let mut text = Vec::new();
    push_line(&mut text, b'N', &[number as usize]);
    text
}

fn within_limit(file: &[u8]) -> Result<&[u8], u8> {
    if file.len() > FILE_LIMIT {
        return Err(1);
    }
    Ok(file)
}

/// What `derive` writes. A missing file is handed in empty.
pub fn derive(grammar: &[u8], graph: &[u8]) -> Vec<u8> {
    try_derive(grammar, graph).unwrap_or_else(refusal)
}

fn try_derive(grammar: &[u8], graph: &[u8]) -> Result<Vec<u8>, u8> {
    let grammar = read_grammar(within_limit(grammar)?)?;
    let graph = read_graph(&grammar, within_limit(graph)?)?;
    let mut chart = Chart::start(&grammar, &graph, CHART_ITEMS)?;
    match chart.run_to_end() {
        Answer::TooSmall => Err(9),
        Answer::StepsUp(_) => Err(10),
        Answer::Done(steps) => {
            let mut text = chart.write(OUTPUT_LIMIT)?;
            push_line(&mut text, b'C', &[steps]);
            Ok(text)
        }
    }
}

/// What `replay` writes.
pub fn replay(grammar: &[u8], graph: &[u8], derivation: &[u8]) -> Vec<u8> {
    refusal(try_replay(grammar, graph, derivation).unwrap_or_else(|number| number))
}

fn try_replay(grammar: &[u8], graph: &[u8], derivation: &[u8]) -> Result<u8, u8> {
    let grammar = read_grammar(within_limit(grammar)?)?;
    let graph = read_graph(&grammar, within_limit(graph)?)?;
    Ok(crate::replay::replay(
        &grammar,
        &graph,
        within_limit(derivation)?,
    ))
}

fn without_lines(letter: u8, output: &[u8]) -> Vec<u8> {
    output
        .split_inclusive(|&b| b == b'\n')
        .filter(|line| line[0] != letter)
        .flatten()
        .copied()
        .collect()
}

/// What 01 fixes of `derive`'s output: all but the `A` lines, as which of several fewest
/// derivations is written is free.
pub fn fixed_part(output: &[u8]) -> Vec<u8> {
    without_lines(b'A', output)
}

/// The derivation file in `derive`'s output: all but the `C` line.
pub fn derivation_part(output: &[u8]) -> Vec<u8> {
    without_lines(b'C', output)
}
