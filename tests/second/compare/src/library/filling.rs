//! The writer's second form: a lent row of application records, held against the text.

use super::lent::records;
use super::{Checker, Tables, MOST_APPLICATIONS};
use bobbinmarl::calls::{self, Answer, Application as Record};
use second::gen::Rng;
use second::model::Application;
use second::replay::parse_derivation;

/// The values, and 0 in the places that are not in use.
fn places(values: &[usize]) -> [u64; 8] {
    let mut places = [0; 8];
    for (place, &value) in places.iter_mut().zip(values) {
        *place = value as u64;
    }
    places
}

/// The record that says what the line of an application says.
fn record_of(application: &Application) -> Record {
    Record {
        rule: application.rule as u64,
        node_count: application.nodes.len() as u64,
        part_count: application.parts.len() as u64,
        nodes: places(&application.nodes),
        parts: places(&application.parts),
    }
}

/// More records than `count`, seldom more than any derivation takes.
fn more(rng: &mut Rng, count: usize) -> usize {
    match rng.below(40) {
        0 => MOST_APPLICATIONS + rng.below(100),
        1..=9 => count + rng.range(1, 300),
        _ => count + rng.range(1, 10),
    }
}

impl Tables {
    fn fill(&self, chart: &[u64], row: &mut [Record]) -> Answer {
        calls::fill(&self.grammar_table, &self.graph_table, chart, row)
    }
}

impl Checker<'_> {
    /// A chart that the writer writes this text of: rows of any length get just the applications
    /// of the text, or nothing.
    pub fn check_filled(&mut self, rng: &mut Rng, tables: &Tables, chart: &[u64], text: &[u8]) {
        let Some(derivation) = parse_derivation(&tables.grammar, &tables.graph, text) else {
            return self.mismatch("fill: what is written is no derivation to compare with");
        };
        self.files.push(("written.txt", text.to_vec()));
        let due: Vec<Record> = derivation.iter().map(record_of).collect();
        let count = due.len();
        for length in [0, rng.below(count), count - 1] {
            self.check_row(rng, tables, chart, length, Answer::NoRoom, &[]);
        }
        for length in [count, more(rng, count)] {
            self.check_row(rng, tables, chart, length, Answer::Written(count), &due);
        }
        self.files.pop();
        self.totals.greatest("most records filled", count);
    }

    /// A chart that the writer refuses to write, however long the output: so it is with rows.
    pub fn check_unfilled(&mut self, rng: &mut Rng, tables: &Tables, chart: &[u64], due: Answer) {
        for length in [0, more(rng, 0)] {
            self.check_row(rng, tables, chart, length, due, &[]);
        }
    }

    /// One row: the answer, the records due at its front, and all else as it was.
    fn check_row(
        &mut self,
        rng: &mut Rng,
        tables: &Tables,
        chart: &[u64],
        length: usize,
        due: Answer,
        front: &[Record],
    ) {
        // A record on either side is not lent.
        let mut row = records(rng, length + 2);
        let got = tables.fill(chart, &mut row.now[1..=length]);
        self.agree(&format!("fill of {length} records"), due, got);
        let filled = 1..1 + front.len();
        let wrong = (0..front.len()).find(|&at| row.now[1 + at] != front[at]);
        if let Some(at) = wrong {
            self.agree(&format!("fill: record {at}"), front[at], row.now[1 + at]);
        }
        self.hold("fill: records stay", row.unchanged_outside(filled));
        self.totals.answered("fill", due.number() as u8);
    }
}
