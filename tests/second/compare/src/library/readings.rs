//! The two readers over texts, right and damaged, and tables that are long enough or not.

use super::lent::{self, words};
use super::{Checker, Tables};
use bobbinmarl::calls::{self, Fault};
use second::gen::Rng;
use second::read::{read_grammar, read_graph, Refusal};

pub fn number_of(reading: Result<(), Fault>) -> u8 {
    reading.map_or_else(|fault| fault as u8, |()| 0)
}

/// 0 for a reading of the second parser, else its refusal.
pub fn refusal_of<T>(reading: &Result<T, Refusal>) -> u8 {
    reading.as_ref().map_or_else(|&number| number, |_| 0)
}

/// One of the two readers with its text: its name, the words that its table takes, the call.
struct Reader<'r> {
    call: &'static str,
    needed: usize,
    read: &'r dyn Fn(&mut [u64]) -> Result<(), Fault>,
}

impl Checker<'_> {
    /// Reads both texts; tables if both readers accept.
    pub fn check_readings(
        &mut self,
        rng: &mut Rng,
        grammar_text: &[u8],
        graph_text: &[u8],
    ) -> Option<Tables> {
        let grammar = read_grammar(grammar_text);
        let reader = Reader {
            call: "read_grammar",
            needed: calls::grammar_words(),
            read: &|table| calls::read_grammar(grammar_text, table),
        };
        let grammar_table = self.check_reader(rng, &reader, refusal_of(&grammar))?;
        let grammar = grammar.ok()?;

        if rng.one_in(6) {
            // The grammar table is judged ahead of the text.
            let short = &grammar_table[..lent::shorter(rng, calls::grammar_words())];
            self.check_graph_reader(rng, short, graph_text, 8);
        }
        let graph = read_graph(&grammar, graph_text);
        let due = refusal_of(&graph);
        let graph_table = self.check_graph_reader(rng, &grammar_table, graph_text, due)?;
        Some(Tables {
            grammar,
            graph: graph.ok()?,
            grammar_table,
            graph_table,
        })
    }

    fn check_graph_reader(
        &mut self,
        rng: &mut Rng,
        grammar_table: &[u64],
        text: &[u8],
        due: u8,
    ) -> Option<Vec<u64>> {
        let reader = Reader {
            call: "read_graph",
            needed: calls::graph_words(),
            read: &|table| calls::read_graph(grammar_table, text, table),
        };
        self.check_reader(rng, &reader, due)
    }

    /// A reader with a table that is long enough, and at times with a short one before: the table,
    /// if it is filled and due to be.
    fn check_reader(&mut self, rng: &mut Rng, reader: &Reader, due: u8) -> Option<Vec<u64>> {
        if rng.one_in(6) {
            // The text is judged ahead of the table's length.
            let due = if due == 0 { 8 } else { due };
            let length = lent::shorter(rng, reader.needed);
            self.check_reading(rng, reader, due, length);
        }
        let length = lent::enough(rng, reader.needed);
        self.check_reading(rng, reader, due, length)
    }

    fn check_reading(
        &mut self,
        rng: &mut Rng,
        reader: &Reader,
        due: u8,
        length: usize,
    ) -> Option<Vec<u64>> {
        let call = reader.call;
        let mut table = words(rng, length);
        let got = number_of((reader.read)(&mut table.now));
        self.agree(&format!("{call}, {length} words"), due, got);
        // What lies behind a filled table stays, and all of one that is not filled.
        let filled = if due == 0 { reader.needed } else { 0 };
        self.hold(&format!("{call}: words stay"), table.unchanged_from(filled));
        self.totals.answered(call, due);
        (due == 0 && got == 0).then_some(table.now)
    }
}
