//! Bobbinmarl for Rust: a proved parser for graphs with hyperedge replacement grammars.
//!
//! [`parse`] does all at once. [`Grammar`], [`Graph`] and [`Chart`] do it in parts, and keep together what belongs together:
//! a graph borrows the grammar that it was read with, a chart the graph that it was started on. [`calls`] is the library
//! itself over slices that you lend. '01' is the paper that fixes files, questions and answers; [`Refusal::number`] gives
//! its numbers. The files are described in docs/FORMATS.md of the repository, the refusals in docs/REFUSALS.md.
//!
//! ```
//! use bobbinmarl::{text_of, Chart, Grammar, Graph, Refusal};
//!
//! // Paths of one edge or more: an edge, or an edge and a path behind it.
//! let grammar = "\
//! G   2   2   1
//! S   0   0   2
//! S   1   1   2
//! R   0   1   2   1   2   0   1
//! E   0   0   1
//! P   0   0   0
//! P   1   0   0
//! R   1   1   3   2   3   0   1
//! E   0   0   2
//! E   1   2   1
//! P   0   0   0
//! P   1   0   0
//! P   1   1   1
//! ";
//! // K2: a path of two edges from node 0 to node 2.
//! let graph = "\
//! H   3   2   0   2
//! E   0   0   1
//! E   0   1   2
//! ";
//!
//! let grammar = Grammar::read(grammar.as_bytes())?;
//! let graph = Graph::read(&grammar, graph.as_bytes())?;
//! let mut chart = Chart::start(&graph, 2048)?;
//! assert_eq!(chart.run(9), Err(Refusal::Unfinished(9)));
//! assert_eq!(chart.run(9), Ok(10));
//!
//! let derivation = chart.derivation()?;
//! assert_eq!(derivation, b"\
//! D   2
//! A   0   1   0   2   1   0   1
//! A   1   0   1   2   1
//! ");
//! graph.replay(&derivation)?;
//! assert_eq!(graph.replay(b"D   1\n"), Err(Refusal::NoDerivation));
//!
//! // The same as records: an application's number is its place in the row.
//! let rows = chart.applications()?;
//! assert_eq!((rows[0].rule, rows[0].nodes(), rows[0].parts()), (1, &[0, 2, 1][..], &[0, 1][..]));
//! assert_eq!((rows[1].rule, rows[1].nodes(), rows[1].parts()), (0, &[1, 2][..], &[1][..]));
//! assert_eq!(text_of(&rows), derivation);
//!
//! // The chart's items, in the order in which they were found: the goal is the passive item with both edges.
//! let goal = (0..chart.item_count()).filter_map(|place| chart.item(place)).find(|item| (item.kind, item.edges) == (1, 3));
//! assert_eq!(goal.map(|item| (item.of, item.count, item.nodes[0], item.nodes[1])), Some((1, 2, 0, 2)));
//! # Ok::<(), Box<dyn std::error::Error>>(())
//! ```
//!
//! A graph does not outlive its grammar, and meets no other:
//!
//! ```compile_fail,E0505
//! # use bobbinmarl::{Grammar, Graph};
//! # fn both(text: &[u8], other: &[u8]) -> Result<(), bobbinmarl::Fault> {
//! let grammar = Grammar::read(text)?;
//! let graph = Graph::read(&grammar, other)?;
//! drop(grammar);
//! graph.table();
//! # Ok(())
//! # }
//! ```
#![deny(unsafe_op_in_unsafe_fn)]
#![deny(clippy::undocumented_unsafe_blocks)]
#![warn(missing_docs)]

mod applications;
pub mod calls;
mod chart;
mod items;
mod refusal;
mod stack;
mod texts;

pub use applications::{text_of, MOST_APPLICATIONS};
pub use calls::{Application, Fault};
pub use chart::{Chart, DERIVATION_BYTES, MOST_ITEMS};
pub use items::Item;
pub use refusal::Refusal;
pub use stack::{with_stack, STACK_BYTES};
pub use texts::{Grammar, Graph};

/// The derivation of a graph with the fewest applications, from the texts of a grammar and a graph file, on a chart that
/// holds so many items (1 to 4,096; the program `derive` has 2,048).
///
/// The first of 01's questions that is answered no is the refusal; 10, 12 and 13 do not come.
///
/// Works partly on a thread of its own with [`STACK_BYTES`] of stack.
///
/// # Panics
/// If the system gives no thread.
pub fn parse(grammar: &[u8], graph: &[u8], items: usize) -> Result<Vec<u8>, Refusal> {
    let grammar = Grammar::read(grammar).map_err(Refusal::Grammar)?;
    let graph = Graph::read(&grammar, graph).map_err(Refusal::Graph)?;
    let mut chart = Chart::start(&graph, items)?;
    chart.run(items as u64)?;
    chart.derivation()
}
