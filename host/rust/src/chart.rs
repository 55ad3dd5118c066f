//! Charts that were started on a graph: words that only the library has written.

use crate::applications::MOST_APPLICATIONS;
use crate::calls::{self, Application};
use crate::items::Item;
use crate::refusal::{of_answer, of_outcome, Refusal};
use crate::stack::with_stack;
use crate::texts::Graph;

/// The most items that a chart holds.
pub const MOST_ITEMS: usize = 4096;

/// The bytes of the longest derivation: 4,096 lines of 74 bytes behind the first of six.
pub const DERIVATION_BYTES: usize = 6 + MOST_APPLICATIONS * 74;

/// A chart that was started on a graph, which it borrows.
#[derive(Clone, Debug)]
pub struct Chart<'a> {
    graph: &'a Graph<'a>,
    items: usize,
    words: Box<[u64]>,
}

impl<'a> Chart<'a> {
    /// Starts a chart that holds so many items: the leaf items are present, and no step is done.
    ///
    /// Refusals: 8 where `items` is 0 or above [`MOST_ITEMS`], 9 where the leaf items alone are more than `items`.
    pub fn start(graph: &'a Graph<'a>, items: usize) -> Result<Chart<'a>, Refusal> {
        let words = calls::chart_words(items).ok_or(Refusal::Unfit)?;
        let words = vec![0; words].into_boxed_slice();
        let mut chart = Chart { graph, items, words };
        chart.restart()?;
        Ok(chart)
    }

    /// Starts it again, as if new.
    pub fn restart(&mut self) -> Result<(), Refusal> {
        let outcome = calls::start(self.graph.grammar().table(), self.graph.table(), &mut self.words);
        of_outcome(outcome).map(|_| ())
    }

    /// Does the steps given, or as many as are left. Where all items are handled it gives the number of steps since the
    /// start, which is that of the closure's items.
    ///
    /// Refusals: 10 where items wait, with the steps done since the start, and the next run goes on; 9 where the chart
    /// does not hold the closure, and every later run says so. A chart of k items never says 10 once k steps are done.
    pub fn run(&mut self, steps: u64) -> Result<u64, Refusal> {
        let outcome = calls::run(self.graph.grammar().table(), self.graph.table(), &mut self.words, steps);
        of_outcome(outcome)
    }

    /// Writes the derivation of the graph, one with the fewest applications, to the front of `out`, and gives its length.
    /// The rest of `out` stays; a refusal changes no byte of it.
    ///
    /// Refusals: 9 and 10 as a run of no steps says them, 11 where the grammar does not derive the graph, 12 where `out`
    /// does not hold the derivation.
    ///
    /// Works on a thread of its own with [`STACK_BYTES`](crate::STACK_BYTES) of stack.
    ///
    /// # Panics
    /// If the system gives no thread.
    pub fn write(&self, out: &mut [u8]) -> Result<usize, Refusal> {
        let answer = with_stack(|| calls::write(self.graph.grammar().table(), self.graph.table(), &self.words, out));
        of_answer(answer)
    }

    /// The derivation of the graph, as [`write`](Chart::write) writes it. [`DERIVATION_BYTES`] are lent, so that 12 does
    /// not come.
    ///
    /// Works on a thread of its own with [`STACK_BYTES`](crate::STACK_BYTES) of stack.
    ///
    /// # Panics
    /// If the system gives no thread.
    pub fn derivation(&self) -> Result<Vec<u8>, Refusal> {
        let mut out = vec![0; DERIVATION_BYTES];
        let length = self.write(&mut out)?;
        out.truncate(length);
        out.shrink_to_fit();
        Ok(out)
    }

    /// Fills a row of records from its front with the derivation that [`write`](Chart::write) writes as text, and gives
    /// their number. Records behind them stay; a refusal changes no record.
    ///
    /// Refusals: as [`write`](Chart::write), 12 where `rows` has fewer places than the derivation has applications.
    ///
    /// Works on a thread of its own with [`STACK_BYTES`](crate::STACK_BYTES) of stack.
    ///
    /// # Panics
    /// If the system gives no thread.
    pub fn fill(&self, rows: &mut [Application]) -> Result<usize, Refusal> {
        let answer = with_stack(|| calls::fill(self.graph.grammar().table(), self.graph.table(), &self.words, rows));
        of_answer(answer)
    }

    /// The records of the derivation, as [`fill`](Chart::fill) fills them. [`MOST_APPLICATIONS`] are lent, so that 12 does
    /// not come.
    ///
    /// Works on a thread of its own with [`STACK_BYTES`](crate::STACK_BYTES) of stack.
    ///
    /// # Panics
    /// If the system gives no thread.
    pub fn applications(&self) -> Result<Vec<Application>, Refusal> {
        let mut rows = vec![Application::default(); MOST_APPLICATIONS];
        let count = self.fill(&mut rows)?;
        rows.truncate(count);
        rows.shrink_to_fit();
        Ok(rows)
    }

    /// The graph that it was started on.
    pub fn graph(&self) -> &'a Graph<'a> {
        self.graph
    }

    /// How many items it holds.
    pub fn items(&self) -> usize {
        self.items
    }

    /// How many items it has by now: those at the places below that number, in the order in which they were found.
    pub fn item_count(&self) -> u64 {
        calls::items(&self.words)
    }

    /// The item at a place, if it has one there.
    pub fn item(&self, place: u64) -> Option<Item> {
        calls::item(&self.words, place)
    }

    /// Its words, for [`calls`].
    pub fn words(&self) -> &[u64] {
        &self.words
    }
}
