//! The calls of the proved library over lent slices, safe: a slice carries its length, an exclusive borrow keeps what is written apart from
//! what is read, and an answer is an enum. Nothing is allocated or kept.
//!
//! [`write()`], [`fill`] and [`replay`] may take up to [`STACK_BYTES`](crate::STACK_BYTES) of stack, more than a thread of Rust has by default;
//! the others take less than 512 KiB, nearly all of it for [`run`]. Where the stack ends too early the process ends, as with any function of Rust.

use crate::items::Item;
use std::mem::{align_of, size_of};

/// The functions of include/bobbinmarl.h.
///
/// SAFETY of every call below, by what the header asks of the caller:
/// - pointer and length are those of one slice, so that they name memory that may be read for the whole call, and written where the slice is
///   exclusively borrowed; for a slice of length 0 any pointer will do, and a slice's is aligned and not null besides;
/// - what is written is borrowed exclusively, so that it overlaps nothing else of the call and nothing else changes meanwhile; slices that are
///   only read may overlap each other;
/// - `done` and `told` point to a local word;
/// - the functions keep no pointer and call nothing of the caller's, and do not unwind;
/// - they touch their stack page by page, so that a stack that is too short ends at its guard page and nothing else is written.
///
/// The types are those of the header: `usize` for `size_t`, `u64` for `uint64_t`, `u8` for `uint8_t`, `Application` for its struct, which may
/// hold any words.
mod ffi {
    use super::Application;

    extern "C" {
        pub fn bobbinmarl_grammar_words() -> usize;
        pub fn bobbinmarl_graph_words() -> usize;
        pub fn bobbinmarl_chart_words(items: usize) -> usize;
        pub fn bobbinmarl_read_grammar(text: *const u8, text_len: usize, table: *mut u64, table_len: usize) -> u64;
        pub fn bobbinmarl_read_graph(
            grammar: *const u64,
            grammar_len: usize,
            text: *const u8,
            text_len: usize,
            table: *mut u64,
            table_len: usize,
        ) -> u64;
        pub fn bobbinmarl_start(
            grammar: *const u64,
            grammar_len: usize,
            graph: *const u64,
            graph_len: usize,
            chart: *mut u64,
            chart_len: usize,
        ) -> u64;
        pub fn bobbinmarl_run(
            grammar: *const u64,
            grammar_len: usize,
            graph: *const u64,
            graph_len: usize,
            chart: *mut u64,
            chart_len: usize,
            steps: u64,
            done: *mut u64,
        ) -> u64;
        pub fn bobbinmarl_items(chart: *const u64, chart_len: usize) -> u64;
        pub fn bobbinmarl_item(
            chart: *const u64,
            chart_len: usize,
            place: u64,
            fields: *mut u64,
            fields_len: usize,
        ) -> u64;
        pub fn bobbinmarl_write(
            grammar: *const u64,
            grammar_len: usize,
            graph: *const u64,
            graph_len: usize,
            chart: *const u64,
            chart_len: usize,
            out: *mut u8,
            out_len: usize,
            told: *mut u64,
        ) -> u64;
        pub fn bobbinmarl_fill(
            grammar: *const u64,
            grammar_len: usize,
            graph: *const u64,
            graph_len: usize,
            chart: *const u64,
            chart_len: usize,
            rows: *mut Application,
            rows_len: usize,
            told: *mut u64,
        ) -> u64;
        pub fn bobbinmarl_replay(
            grammar: *const u64,
            grammar_len: usize,
            graph: *const u64,
            graph_len: usize,
            derivation: *const u8,
            derivation_len: usize,
        ) -> u64;
    }
}

/// Why a text is not read: 01's questions 1 to 8.
#[derive(Clone, Copy, Debug, PartialEq, Eq)]
pub enum Fault {
    /// 1: a line is not of the shape.
    Shape = 1,
    /// 2: a line of this letter is not due here, or is missing, or is one too many.
    Letter = 2,
    /// 3: a fixed field is missing or out of its range.
    Field = 3,
    /// 4: a line lists more or fewer nodes than are due, or has fields to spare.
    Count = 4,
    /// 5: a listed node is out of range, or listed twice.
    Node = 5,
    /// 6: a node is on no edge.
    Uncovered = 6,
    /// 7: the plan breaks its rules, or is not whole.
    Plan = 7,
    /// 8: a lent table is too short, or no reading filled the grammar table.
    Table = 8,
}

/// How a start or a run ends.
#[derive(Clone, Copy, Debug, PartialEq, Eq)]
pub enum Outcome {
    /// 8: the tables or the chart are refused.
    Unfit,
    /// 9: the chart does not hold the closure.
    TooSmall,
    /// 10: items wait after so many steps since the start.
    Unfinished(u64),
    /// All items are handled, after so many steps since the start; of a start: the leaf items are present, and no step is done.
    Done(u64),
}

/// One application of a derivation, in the layout of the header's struct. Its number is its place in the row, counted from the top.
#[repr(C)]
#[derive(Clone, Copy, Debug, Default, PartialEq, Eq)]
pub struct Application {
    /// The number of the rule.
    pub rule: u64,
    /// How many nodes the rule has: so many places of `nodes` are in use.
    pub node_count: u64,
    /// How many edges the rule has: so many places of `parts` are in use.
    pub part_count: u64,
    /// The graph node of each rule node; unused places are 0. [`nodes()`](Application::nodes) gives those in use.
    pub nodes: [u64; 8],
    /// For each rule edge the graph edge (of a terminal) or the number of the application that replaces it (of a nonterminal); unused places
    /// are 0. [`parts()`](Application::parts) gives those in use.
    pub parts: [u64; 8],
}

const _: () = assert!(size_of::<Application>() == 152 && align_of::<Application>() == align_of::<u64>());

/// What a writing answers, as text or as records.
#[derive(Clone, Copy, Debug, PartialEq, Eq)]
pub enum Answer {
    /// 8: the tables or the chart are refused, or a touched chart leads to no derivation of the graph.
    Unfit,
    /// 9: the chart does not hold the closure.
    TooSmall,
    /// 10: items wait after so many steps since the start.
    Unfinished(u64),
    /// 11: the grammar does not derive the graph.
    Underivable,
    /// 12: the output does not hold the derivation.
    NoRoom,
    /// So many bytes are written to the front of the output, or so many records filled at the front of the row.
    Written(usize),
}

/// What a replay answers.
#[derive(Clone, Copy, Debug, PartialEq, Eq)]
pub enum Verdict {
    /// 8: the tables are refused.
    Unfit,
    /// 13: the text is no derivation of the graph.
    NoDerivation,
    /// The text is a derivation of the graph.
    Passed,
}

/// The library's contract leaves no other number.
fn unknown(number: u64) -> ! {
    unreachable!("answer {number}")
}

fn reading(number: u64) -> Result<(), Fault> {
    Err(match number {
        0 => return Ok(()),
        1 => Fault::Shape,
        2 => Fault::Letter,
        3 => Fault::Field,
        4 => Fault::Count,
        5 => Fault::Node,
        6 => Fault::Uncovered,
        7 => Fault::Plan,
        8 => Fault::Table,
        other => unknown(other),
    })
}

fn outcome(number: u64, done: u64) -> Outcome {
    match number {
        0 => Outcome::Done(done),
        8 => Outcome::Unfit,
        9 => Outcome::TooSmall,
        10 => Outcome::Unfinished(done),
        other => unknown(other),
    }
}

fn answer(number: u64, told: u64) -> Answer {
    match number {
        0 => Answer::Written(told as usize),
        8 => Answer::Unfit,
        9 => Answer::TooSmall,
        10 => Answer::Unfinished(told),
        11 => Answer::Underivable,
        12 => Answer::NoRoom,
        other => unknown(other),
    }
}

/// The words of the table of the largest grammar.
pub fn grammar_words() -> usize {
    // SAFETY: no pointer crosses.
    unsafe { ffi::bobbinmarl_grammar_words() }
}

/// The words of the table of the largest graph.
pub fn graph_words() -> usize {
    // SAFETY: no pointer crosses.
    unsafe { ffi::bobbinmarl_graph_words() }
}

/// The words of a chart that holds so many items, if a chart does.
pub fn chart_words(items: usize) -> Option<usize> {
    // SAFETY: no pointer crosses.
    let words = unsafe { ffi::bobbinmarl_chart_words(items) };
    (words > 0).then_some(words)
}

/// Reads a grammar text into the table, which has at least [`grammar_words`]. A refusal changes no word of it; words behind these stay.
pub fn read_grammar(text: &[u8], table: &mut [u64]) -> Result<(), Fault> {
    // SAFETY: as said at `ffi`.
    reading(unsafe { ffi::bobbinmarl_read_grammar(text.as_ptr(), text.len(), table.as_mut_ptr(), table.len()) })
}

/// Reads a graph text with a grammar's table into a table, which has at least [`graph_words`]. A refusal changes no word of it; words behind
/// these stay.
pub fn read_graph(grammar: &[u64], text: &[u8], table: &mut [u64]) -> Result<(), Fault> {
    // SAFETY: as said at `ffi`.
    reading(unsafe {
        ffi::bobbinmarl_read_graph(
            grammar.as_ptr(),
            grammar.len(),
            text.as_ptr(),
            text.len(),
            table.as_mut_ptr(),
            table.len(),
        )
    })
}

/// Starts a chart, whatever it holds; it holds as many items as fit, for which see [`chart_words`]. `Unfit` changes no word of it.
pub fn start(grammar: &[u64], graph: &[u64], chart: &mut [u64]) -> Outcome {
    // SAFETY: as said at `ffi`.
    let number = unsafe {
        ffi::bobbinmarl_start(
            grammar.as_ptr(),
            grammar.len(),
            graph.as_ptr(),
            graph.len(),
            chart.as_mut_ptr(),
            chart.len(),
        )
    };
    outcome(number, 0)
}

/// Does the steps given, or as many as are left, on a chart that was started. `Unfit` changes no word of it; `TooSmall` and `Unfinished` leave
/// the handled items.
pub fn run(grammar: &[u64], graph: &[u64], chart: &mut [u64], steps: u64) -> Outcome {
    let mut done = 0;
    // SAFETY: as said at `ffi`.
    let number = unsafe {
        ffi::bobbinmarl_run(
            grammar.as_ptr(),
            grammar.len(),
            graph.as_ptr(),
            graph.len(),
            chart.as_mut_ptr(),
            chart.len(),
            steps,
            &mut done,
        )
    };
    outcome(number, done)
}

/// How many items the chart has, whatever wrote it: those at the places below that number, in the order in which they were found.
pub fn items(chart: &[u64]) -> u64 {
    // SAFETY: as said at `ffi`.
    unsafe { ffi::bobbinmarl_items(chart.as_ptr(), chart.len()) }
}

/// The item at a place, if the chart has one there.
pub fn item(chart: &[u64], place: u64) -> Option<Item> {
    let mut fields = [0; Item::FIELDS];
    // SAFETY: as said at `ffi`.
    let number = unsafe { ffi::bobbinmarl_item(chart.as_ptr(), chart.len(), place, fields.as_mut_ptr(), fields.len()) };
    match number {
        0 => Some(Item::from(fields)),
        8 => None,
        other => unknown(other),
    }
}

/// Writes the derivation of the graph that the chart holds to the front of `out`. A refusal changes no byte of it.
///
/// It replays what it writes: [`STACK_BYTES`](crate::STACK_BYTES) of stack hold every derivation. [`with_stack`](crate::with_stack) gives
/// as much.
pub fn write(grammar: &[u64], graph: &[u64], chart: &[u64], out: &mut [u8]) -> Answer {
    let mut told = 0;
    // SAFETY: as said at `ffi`.
    let number = unsafe {
        ffi::bobbinmarl_write(
            grammar.as_ptr(),
            grammar.len(),
            graph.as_ptr(),
            graph.len(),
            chart.as_ptr(),
            chart.len(),
            out.as_mut_ptr(),
            out.len(),
            &mut told,
        )
    };
    answer(number, told)
}

/// Fills the row from its front with the derivation that [`write()`] writes as text; records behind the last one stay. A refusal changes no
/// record; `NoRoom` says that the row has fewer places than the derivation has applications.
///
/// It takes as much stack as [`write()`].
pub fn fill(grammar: &[u64], graph: &[u64], chart: &[u64], rows: &mut [Application]) -> Answer {
    let mut told = 0;
    // SAFETY: as said at `ffi`.
    let number = unsafe {
        ffi::bobbinmarl_fill(
            grammar.as_ptr(),
            grammar.len(),
            graph.as_ptr(),
            graph.len(),
            chart.as_ptr(),
            chart.len(),
            rows.as_mut_ptr(),
            rows.len(),
            &mut told,
        )
    };
    answer(number, told)
}

/// Replays a derivation text.
///
/// It calls itself for each nested application: [`STACK_BYTES`](crate::STACK_BYTES) of stack hold every text.
/// [`with_stack`](crate::with_stack) gives as much.
pub fn replay(grammar: &[u64], graph: &[u64], derivation: &[u8]) -> Verdict {
    // SAFETY: as said at `ffi`.
    let number = unsafe {
        ffi::bobbinmarl_replay(
            grammar.as_ptr(),
            grammar.len(),
            graph.as_ptr(),
            graph.len(),
            derivation.as_ptr(),
            derivation.len(),
        )
    };
    match number {
        0 => Verdict::Passed,
        8 => Verdict::Unfit,
        13 => Verdict::NoDerivation,
        other => unknown(other),
    }
}
