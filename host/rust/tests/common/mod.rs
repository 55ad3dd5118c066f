//! Texts that the tests read, and memory that they lend.
#![allow(dead_code)]

pub mod layout;

use bobbinmarl::calls::{self, Answer, Application, Fault, Outcome, Verdict};
use bobbinmarl::Item;
use layout::{Layout, Part};
use std::fs;
use std::ops::Range;
use std::path::{Path, PathBuf};

pub fn root() -> PathBuf {
    Path::new(env!("CARGO_MANIFEST_DIR")).join("../..")
}

pub fn file(path: &str) -> Vec<u8> {
    fs::read(root().join(path)).unwrap_or_else(|error| panic!("{path}: {error}"))
}

/// A file of one of the folders of examples/.
pub fn example(folder: &str, name: &str) -> Vec<u8> {
    file(&format!("examples/{folder}/{name}"))
}

/// The two texts of an example.
pub fn texts(folder: &str) -> (Vec<u8>, Vec<u8>) {
    (example(folder, "grammar.txt"), example(folder, "graph.txt"))
}

/// The folder of the texts that tests/cases puts through the library; a text that must be refused has its number in its name.
pub const STORED: &str = "tests/cases/data";

pub fn stored(name: &str) -> Vec<u8> {
    file(&format!("{STORED}/{name}"))
}

/// The names of what a folder of the repository has, in order.
pub fn names(folder: &str) -> Vec<String> {
    let entries = fs::read_dir(root().join(folder)).unwrap_or_else(|error| panic!("{folder}: {error}"));
    let mut names: Vec<String> = entries
        .map(|entry| entry.unwrap().file_name().into_string().unwrap())
        .collect();
    names.sort();
    names
}

/// The text with its one line `old` replaced by `new`, which may be no line or several.
pub fn with_line(text: &[u8], old: &str, new: &str) -> Vec<u8> {
    let text = std::str::from_utf8(text).unwrap();
    let lines: Vec<&str> = text.lines().collect();
    assert_eq!(lines.iter().filter(|line| **line == old).count(), 1, "one line {old:?}");
    let changed = lines.iter().map(|line| {
        if *line == old {
            String::from(new)
        } else {
            format!("{line}\n")
        }
    });
    changed.collect::<String>().into_bytes()
}

/// 01's number of a reading.
pub fn reading_number(reading: Result<(), Fault>) -> u64 {
    reading.map_or_else(Fault::number, |()| 0)
}

const MARGIN: usize = 24;

/// What the calls are lent: parts of three blocks, with a margin around each part, and no word of it 0 at first.
#[derive(Clone, PartialEq, Eq)]
pub struct Lent {
    words: Vec<u64>,
    bytes: Vec<u8>,
    records: Vec<Application>,
    grammar: Range<usize>,
    graph: Range<usize>,
    chart: Range<usize>,
    out: Range<usize>,
    rows: Range<usize>,
}

/// A word that depends on its place, 0 at none that a test has.
fn pattern(place: usize) -> u64 {
    (place as u64 + 1).wrapping_mul(0x9e37_79b9_7f4a_7c15)
}

/// A record whose every word depends on its place.
fn pattern_record(place: usize) -> Application {
    let word = |i: usize| pattern(19 * place + i);
    Application {
        rule: word(0),
        node_count: word(1),
        part_count: word(2),
        nodes: std::array::from_fn(|i| word(3 + i)),
        parts: std::array::from_fn(|i| word(11 + i)),
    }
}

/// A call that must change nothing; the answer is its own.
pub fn unchanged<T>(lent: &mut Lent, call: impl FnOnce(&mut Lent) -> T) -> T {
    let before = lent.clone();
    let answer = call(lent);
    assert!(*lent == before, "a lent word, byte or record changed");
    answer
}

fn behind(start: usize, length: usize) -> Range<usize> {
    start + MARGIN..start + MARGIN + length
}

impl Lent {
    /// Parts of these lengths, in words and bytes, and a row of no records.
    pub fn new(grammar: usize, graph: usize, chart: usize, out: usize) -> Lent {
        let grammar = behind(0, grammar);
        let graph = behind(grammar.end, graph);
        let chart = behind(graph.end, chart);
        let out = behind(0, out);
        let words = (0..chart.end + MARGIN).map(pattern).collect();
        let bytes = (0..out.end + MARGIN).map(|i| (i % 251) as u8 + 1).collect();
        let lent = Lent {
            words,
            bytes,
            records: Vec::new(),
            grammar,
            graph,
            chart,
            out,
            rows: 0..0,
        };
        lent.with_rows(0)
    }

    /// The same with a row of so many records.
    pub fn with_rows(mut self, rows: usize) -> Lent {
        self.rows = behind(0, rows);
        self.records = (0..self.rows.end + MARGIN).map(pattern_record).collect();
        self
    }

    /// Tables of full length, a chart of so many items, so many bytes of output.
    pub fn full(items: usize, out: usize) -> Lent {
        Lent::new(
            calls::grammar_words(),
            calls::graph_words(),
            calls::chart_words(items).unwrap(),
            out,
        )
    }

    /// The same with both tables filled from the texts of an example.
    pub fn read(folder: &str, items: usize, out: usize) -> Lent {
        let (grammar, graph) = texts(folder);
        let mut lent = Lent::full(items, out);
        assert_eq!(lent.read_grammar(&grammar), Ok(()));
        assert_eq!(lent.read_graph(&graph), Ok(()));
        lent
    }

    /// The same with the chart started and so many steps done.
    pub fn run_for(folder: &str, items: usize, out: usize, steps: u64) -> Lent {
        let mut lent = Lent::read(folder, items, out);
        assert_eq!(lent.start(), Outcome::Done(0));
        lent.run(steps);
        lent
    }

    pub fn grammar(&mut self) -> &mut [u64] {
        &mut self.words[self.grammar.clone()]
    }

    pub fn graph(&mut self) -> &mut [u64] {
        &mut self.words[self.graph.clone()]
    }

    pub fn chart(&mut self) -> &mut [u64] {
        &mut self.words[self.chart.clone()]
    }

    /// The items that the chart has.
    pub fn items(&self) -> Vec<Item> {
        let chart = &self.words[self.chart.clone()];
        let item = |place| calls::item(chart, place).expect("an item below their number");
        (0..calls::items(chart)).map(item).collect()
    }

    /// Sets a part of the chart.
    pub fn touch(&mut self, layout: &Layout, part: Part, value: u64) {
        layout.put(self.chart(), part, value);
    }

    pub fn out(&mut self) -> &mut [u8] {
        &mut self.bytes[self.out.clone()]
    }

    pub fn rows(&mut self) -> &mut [Application] {
        &mut self.records[self.rows.clone()]
    }

    /// Is everything as in `before`, but for the chart?
    pub fn same_but_chart(&self, before: &Lent) -> bool {
        let mut copy = self.clone();
        copy.words[self.chart.clone()].copy_from_slice(&before.words[self.chart.clone()]);
        copy == *before
    }

    pub fn read_grammar(&mut self, text: &[u8]) -> Result<(), Fault> {
        calls::read_grammar(text, self.grammar())
    }

    pub fn read_graph(&mut self, text: &[u8]) -> Result<(), Fault> {
        let (left, right) = self.words.split_at_mut(self.graph.start);
        calls::read_graph(&left[self.grammar.clone()], text, &mut right[..self.graph.len()])
    }

    pub fn start(&mut self) -> Outcome {
        let (tables, rest) = self.words.split_at_mut(self.chart.start);
        let chart = &mut rest[..self.chart.len()];
        calls::start(&tables[self.grammar.clone()], &tables[self.graph.clone()], chart)
    }

    pub fn run(&mut self, steps: u64) -> Outcome {
        let (tables, rest) = self.words.split_at_mut(self.chart.start);
        let chart = &mut rest[..self.chart.len()];
        calls::run(&tables[self.grammar.clone()], &tables[self.graph.clone()], chart, steps)
    }

    /// On the caller's stack, like all of these: for the shallow derivations of small charts.
    pub fn write(&mut self) -> Answer {
        let out = &mut self.bytes[self.out.clone()];
        let words = &self.words;
        calls::write(
            &words[self.grammar.clone()],
            &words[self.graph.clone()],
            &words[self.chart.clone()],
            out,
        )
    }

    pub fn fill(&mut self) -> Answer {
        let rows = &mut self.records[self.rows.clone()];
        let words = &self.words;
        calls::fill(
            &words[self.grammar.clone()],
            &words[self.graph.clone()],
            &words[self.chart.clone()],
            rows,
        )
    }

    pub fn replay(&self, derivation: &[u8]) -> Verdict {
        calls::replay(
            &self.words[self.grammar.clone()],
            &self.words[self.graph.clone()],
            derivation,
        )
    }
}
