//! Grammars and graphs that were read: tables that only the readers have written.

use crate::calls::{self, Fault};
use crate::refusal::{of_verdict, Refusal};
use crate::stack::with_stack;

/// A grammar that was read. Its table stays as the reader left it.
#[derive(Clone, Debug)]
pub struct Grammar {
    table: Box<[u64]>,
}

impl Grammar {
    /// Reads the text of a grammar file. It may have any length; the limit of 32,768 bytes is the programs' own.
    pub fn read(text: &[u8]) -> Result<Grammar, Fault> {
        let mut table = vec![0; calls::grammar_words()].into_boxed_slice();
        calls::read_grammar(text, &mut table)?;
        Ok(Grammar { table })
    }

    /// The table, for [`calls`].
    pub fn table(&self) -> &[u64] {
        &self.table
    }
}

/// A graph that was read with a grammar, which it borrows: it meets no other.
#[derive(Clone, Debug)]
pub struct Graph<'a> {
    grammar: &'a Grammar,
    table: Box<[u64]>,
}

impl<'a> Graph<'a> {
    /// Reads the text of a graph file, of any length.
    pub fn read(grammar: &'a Grammar, text: &[u8]) -> Result<Graph<'a>, Fault> {
        let mut table = vec![0; calls::graph_words()].into_boxed_slice();
        calls::read_graph(&grammar.table, text, &mut table)?;
        Ok(Graph { grammar, table })
    }

    /// The grammar that it was read with.
    pub fn grammar(&self) -> &'a Grammar {
        self.grammar
    }

    /// The table, for [`calls`].
    pub fn table(&self) -> &[u64] {
        &self.table
    }

    /// Replays the text of a derivation file: is it a derivation of this graph? It need not be one with the fewest
    /// applications. The only refusal is 13, [`Refusal::NoDerivation`].
    ///
    /// Works on a thread of its own with [`STACK_BYTES`](crate::STACK_BYTES) of stack.
    ///
    /// # Panics
    /// If the system gives no thread.
    pub fn replay(&self, derivation: &[u8]) -> Result<(), Refusal> {
        of_verdict(with_stack(|| {
            calls::replay(&self.grammar.table, &self.table, derivation)
        }))
    }
}
