//! Texts, graphs and touched memory through the compiled library; what each comes to is a line, and all lines are stored in `expected`.
//! `cases DATA TEXTS`: the folder of the files, and the list of those that are read.

mod charts;
#[path = "../../../host/rust/tests/common/layout.rs"]
mod layout;
mod texts;
mod writings;

use bobbinmarl::calls;
use layout::Layout;
use std::path::PathBuf;

/// The files of the cases, by name.
pub struct Data(PathBuf);

impl Data {
    pub fn read(&self, name: &str) -> Vec<u8> {
        let path = self.0.join(name);
        std::fs::read(&path).unwrap_or_else(|e| panic!("{}: {e}", path.display()))
    }

    /// The table of a grammar that is accepted.
    pub fn grammar(&self, name: &str) -> Vec<u64> {
        let mut table = vec![0; calls::grammar_words()];
        calls::read_grammar(&self.read(name), &mut table).expect(name);
        table
    }

    pub fn graph(&self, grammar: &[u64], name: &str) -> Vec<u64> {
        let mut table = vec![0; calls::graph_words()];
        calls::read_graph(grammar, &self.read(name), &mut table).expect(name);
        table
    }
}

pub fn checksum(words: &[u64]) -> u64 {
    words.iter().fold(0, |sum, word| (sum * 257 + word % (1 << 32)) % (1 << 32))
}

/// Where a refusal must change nothing.
pub fn kept(same: bool) -> &'static str {
    if same {
        "kept"
    } else {
        "changed"
    }
}

fn print_all(data: &Data, texts: &str) {
    texts::print_all(data, texts);
    let layout = Layout::learn();
    charts::print_all(data, &layout);
    writings::print_all(data, &layout);
}

fn main() {
    let mut arguments = std::env::args().skip(1);
    let (Some(data), Some(texts)) = (arguments.next(), arguments.next()) else {
        eprintln!("usage: cases DATA TEXTS");
        std::process::exit(2);
    };
    let texts = std::fs::read_to_string(texts).expect("the list of texts");
    // The replay of 4,096 nested applications takes about 4 MiB of stack.
    std::thread::Builder::new()
        .stack_size(8 << 20)
        .spawn(move || print_all(&Data(PathBuf::from(data)), &texts))
        .expect("a thread")
        .join()
        .expect("all cases run");
}
