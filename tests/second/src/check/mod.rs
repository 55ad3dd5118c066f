//! The self-check: cross-checks of readers, trees, chart and replay over generated cases, and
//! the numbers of K1 to K10.

mod charts;
mod known;
mod readers;

use crate::gen::{self, Rng};
use crate::model::{derivation_text, Grammar, Graph};
use crate::read::Refusal;
use charts::{check_case, judgements};
pub use known::{grammar_a, grammar_b, known_cases, plain_graph};
use readers::{check_files, check_grammar_texts};

/// Counted events, so that a reader of the output sees the cases were not all of one kind.
#[derive(Default, Debug)]
pub struct Report {
    pub cases: usize,
    pub mismatches: usize,
    pub accepted: usize,
    pub underivable: usize,
    pub too_small: usize,
    pub largest_closure: usize,
    /// Graphs of up to 6, 12, 24, 48 and 64 edges: all, and the accepted ones.
    pub sizes: [(usize, usize); 5],
    pub full_graphs: usize,
    pub rank_0_accepted: usize,
    pub disconnected_accepted: usize,
    pub most_applications: usize,
    pub trees_compared: usize,
    pub trees_given_up: usize,
    pub closures_compared: usize,
    pub closures_given_up: usize,
    pub items_compared: usize,
    pub naive_closures: usize,
    pub naive_items: usize,
    pub longer_derivations: usize,
    pub merged: usize,
    pub files: usize,
    pub replays_passed: usize,
    pub replays_refused: usize,
    /// Results of the readers: 0 accepted, 1 to 7.
    pub readings: [usize; 8],
    /// Values with one field changed: those that some text could have filled, and the others.
    pub values_fit: usize,
    pub values_unfit: usize,
}

impl Report {
    fn mismatch(&mut self, what: &str, grammar: &Grammar, graph: Option<&Graph>, more: &[u8]) {
        self.mismatches += 1;
        if self.mismatches <= 5 {
            eprintln!(
                "MISMATCH {what}\n{}",
                String::from_utf8_lossy(&grammar.text())
            );
            if let Some(g) = graph {
                eprintln!("{}", String::from_utf8_lossy(&g.text()));
            }
            eprintln!("{}", String::from_utf8_lossy(more));
        }
    }

    fn read(&mut self, result: Result<(), Refusal>) -> u8 {
        let number = result.err().unwrap_or(0);
        self.readings[number as usize] += 1;
        number
    }
}

pub fn run(seed: u64, cases: usize) -> Report {
    let mut report = Report::default();
    for (name, right) in known_cases() {
        if !right {
            report.mismatches += 1;
            eprintln!("MISMATCH {name}");
        }
    }
    let mut rng = Rng::new(seed);
    while report.cases < cases {
        let grammar = gen::random_grammar(&mut rng);
        check_grammar_texts(&mut rng, &grammar, &mut report);
        if rng.one_in(4) {
            check_files(&mut rng, &mut report);
        }
        for _ in 0..2 {
            let most = match rng.below(10) {
                0..=4 => rng.range(2, 6),
                5..=7 => rng.range(6, 20),
                _ if rng.one_in(4) => 64,
                _ => rng.range(20, 64),
            };
            if let Some((graph, grown)) = gen::case_graph(&mut rng, &grammar, most) {
                let merged = grown
                    .as_ref()
                    .and_then(|d| gen::merged(&mut rng, &grammar, &graph, d));
                check_case(&mut rng, &grammar, &graph, grown, &mut report);
                report.cases += 1;
                if let Some((graph, derivation)) = merged {
                    report.merged += 1;
                    if judgements(&grammar, &graph, &derivation) != (false, false) {
                        report.mismatch(
                            "merged",
                            &grammar,
                            Some(&graph),
                            &derivation_text(&derivation),
                        );
                    }
                    if rng.one_in(4) && report.cases < cases {
                        check_case(&mut rng, &grammar, &graph, None, &mut report);
                        report.cases += 1;
                    }
                }
                if report.cases == cases {
                    break;
                }
            }
        }
    }
    report
}

#[cfg(test)]
mod tests {
    #[test]
    fn known_cases() {
        for (name, right) in super::known_cases() {
            assert!(right, "{name}");
        }
    }

    #[test]
    fn some_random_cases() {
        assert_eq!(super::run(11, 300).mismatches, 0);
    }
}
