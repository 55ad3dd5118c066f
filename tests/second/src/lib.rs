//! A second parser for hyperedge replacement grammars, written from document 01 alone,
//! to be held against the proved one by differential testing and as a benchmark's baseline.
#![forbid(unsafe_code)]

pub mod chart;
pub mod check;
pub mod checks;
pub mod gen;
pub mod model;
pub mod naive;
pub mod program;
pub mod read;
pub mod replay;
pub mod trees;

pub use chart::{Answer, Chart};
pub use model::{Application, Derivation, Edge, Grammar, Graph, PlanNode, Rule, Symbol};
