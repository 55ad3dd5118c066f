//! Texts through the readers: each one's refusal, or 0 and a checksum of its table; then short and touched tables.

use crate::charts::lent;
use crate::{checksum, kept, Data};
use bobbinmarl::calls::{self, Fault, Outcome};

/// What word i of a lent table holds before a text is read into it.
fn pattern(i: usize) -> u64 {
    7 + (i % 1000) as u64
}

fn patterned(words: usize) -> Vec<u64> {
    (0..words).map(pattern).collect()
}

fn number(answer: Result<(), Fault>) -> u64 {
    answer.err().map_or(0, |fault| fault as u64)
}

/// The fields of a table, nine to a line's word, with seven bits each.
fn fields(table: &[u64]) -> Vec<u64> {
    let field = |word: &u64, j: u32| (word >> (7 * j)) & 127;
    table.iter().flat_map(|word| (0..9).map(move |j| field(word, j))).collect()
}

/// Changes one field of the line at a place; the tenth is the bit that no field has.
fn touched(table: &[u64], (place, field): (usize, u32)) -> Vec<u64> {
    let mut table = table.to_vec();
    if place < table.len() {
        table[place] ^= 1 << (7 * field);
    }
    table
}

/// All cases; remembers whether each refusal left the lent table as it was.
struct Texts<'a> {
    data: &'a Data,
    all_kept: bool,
}

impl Texts<'_> {
    /// Calls a reader with a table of so many words that holds the pattern.
    fn read(&mut self, words: usize, read: impl FnOnce(&mut [u64]) -> Result<(), Fault>) -> (u64, Vec<u64>) {
        let mut table = patterned(words);
        let refusal = number(read(&mut table));
        if refusal != 0 {
            self.all_kept &= table == patterned(words);
        }
        (refusal, table)
    }

    /// A grammar that is accepted is the one for the graphs behind it.
    fn file(&mut self, name: &str, grammar: &mut Vec<u64>) {
        let text = self.data.read(name);
        let is_grammar = name.starts_with('g');
        let (refusal, table) = if is_grammar {
            self.read(calls::grammar_words(), |table| calls::read_grammar(&text, table))
        } else {
            self.read(calls::graph_words(), |table| calls::read_graph(grammar, &text, table))
        };
        let name = name.trim_end_matches(".txt");
        if refusal != 0 {
            println!("{name} {refusal}");
            return;
        }
        println!("{name} 0 {}", checksum(&fields(&table)));
        if is_grammar {
            *grammar = table;
        }
    }

    fn files(&mut self, names: &str) {
        let mut grammar = vec![0; calls::grammar_words()];
        for name in names.lines() {
            self.file(name, &mut grammar);
        }
    }

    /// Question 8: tables that are too short for the largest grammar or graph.
    fn short(&mut self, grammar: &[u64], graph_text: &[u8]) {
        let text = self.data.read("g-a.txt");
        for words in [0, 100, calls::grammar_words() - 1] {
            let (refusal, _) = self.read(words, |table| calls::read_grammar(&text, table));
            println!("short-grammar {words} {refusal}");
        }
        for words in [0, 1, calls::graph_words() - 1] {
            let (refusal, _) = self.read(words, |table| calls::read_graph(grammar, graph_text, table));
            println!("short-graph {words} {refusal}");
        }
    }

    fn touched_grammar(&mut self, case: usize, grammar: &[u64], graph_text: &[u8]) {
        let (refusal, _) = self.read(calls::graph_words(), |table| calls::read_graph(grammar, graph_text, table));
        println!("touched {case} {refusal}");
    }

    /// The number of symbols, the rank of symbol 0, the last field, a child in rule 0's plan, an unused bit; then a short table.
    fn touched_grammars(&mut self, grammar: &[u64], graph_text: &[u8]) {
        for (case, at) in [(0, 0), (1, 2), (1664, 8), (75, 1), (0, 9)].into_iter().enumerate() {
            self.touched_grammar(case, &touched(grammar, at), graph_text);
        }
        self.touched_grammar(5, &grammar[..grammar.len() - 1], graph_text);
    }

    /// A node and the label of edge 0, an unused field, an unused bit, and none: whether a start passes question 8.
    fn touched_graphs(&self, grammar: &[u64], graph: &[u64]) {
        for (case, at) in [(1, 1), (1, 0), (1, 3), (1, 9), (65, 0)].into_iter().enumerate() {
            let mut chart = lent(10);
            let passes = calls::start(grammar, &touched(graph, at), &mut chart) != Outcome::Unfit;
            println!("check-graph {case} {}", u64::from(passes));
        }
    }
}

pub fn print_all(data: &Data, names: &str) {
    let mut texts = Texts { data, all_kept: true };
    texts.files(names);
    let grammar = data.grammar("g-a.txt");
    let text = data.read("h-k2.txt");
    texts.short(&grammar, &text);
    texts.touched_grammars(&grammar, &text);
    texts.touched_graphs(&grammar, &data.graph(&grammar, "h-k2.txt"));
    println!("texts {}", kept(texts.all_kept));
}
