//! Seeded cases: random grammars, graphs grown from them and others, damaged texts, texts with
//! a known refusal, and derivations that are right, damaged, longer than needed or renumbered.

mod derivations;
mod grammars;
mod graphs;
mod rng;
mod texts;
mod values;

pub use derivations::*;
pub use grammars::*;
pub use graphs::*;
pub use rng::Rng;
pub use texts::*;
pub use values::*;

use crate::model::{lines_to_text, Derivation, Grammar, Graph, Line};

/// The files of one case for a differential test, any of them possibly damaged.
pub struct Files {
    pub grammar: Vec<u8>,
    pub graph: Vec<u8>,
    pub derivations: Vec<Vec<u8>>,
}

/// One case in files. Its right derivations are the one the graph was grown by and `derived`'s,
/// which may be any parser's answer for grammar and graph.
pub fn files(
    rng: &mut Rng,
    most_edges: usize,
    derived: impl Fn(&Grammar, &Graph) -> Option<Derivation>,
) -> Files {
    let (grammar, graph, grown) = loop {
        let grammar = random_grammar(rng);
        if let Some((graph, grown)) = case_graph(rng, &grammar, most_edges) {
            break (grammar, graph, grown);
        }
    };
    let sources: Vec<Derivation> = derived(&grammar, &graph).into_iter().chain(grown).collect();
    let derivations = derivation_texts(rng, &grammar, &graph, &sources, &mut 0);
    let mut spoil = |lines: &[Line]| match rng.below(24) {
        0 | 1 => faulty_text(rng, &grammar, lines).0,
        2 | 3 => damaged_text(rng, lines),
        4 => noise(rng),
        _ => lines_to_text(lines),
    };
    Files {
        grammar: spoil(&grammar.lines()),
        graph: spoil(&graph.lines()),
        derivations: derivations.into_iter().map(|(text, _)| text).collect(),
    }
}
