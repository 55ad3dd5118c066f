//! Why an answer is no: 01's questions as errors, with their numbers and sentences.

use crate::calls::{Answer, Fault, Outcome, Verdict};
use std::error::Error;
use std::fmt;

impl Fault {
    /// 01's number, 1 to 8.
    pub fn number(self) -> u64 {
        self as u64
    }

    /// The answer in words, without its number.
    pub fn sentence(self) -> &'static str {
        match self {
            Fault::Shape => "a line is not of the shape",
            Fault::Letter => "a line of this letter is not due here, or is missing, or is one too many",
            Fault::Field => "a fixed field is missing or out of its range",
            Fault::Count => "a line lists more or fewer nodes than are due, or has fields to spare",
            Fault::Node => "a listed node is out of range, or listed twice",
            Fault::Uncovered => "a node is on no edge",
            Fault::Plan => "the plan breaks its rules, or is not whole",
            Fault::Table => UNFIT,
        }
    }
}

const UNFIT: &str =
    "the chart does not hold 1 to 4,096 items, no accepted texts could have filled the tables, or a record is not the image of an item that names what exists";

impl fmt::Display for Fault {
    fn fmt(&self, f: &mut fmt::Formatter<'_>) -> fmt::Result {
        write!(f, "{} (refusal {})", self.sentence(), self.number())
    }
}

impl Error for Fault {}

/// The first of 01's questions that is answered no. The two readers' refusals tell which text they are of.
#[derive(Clone, Copy, Debug, PartialEq, Eq)]
pub enum Refusal {
    /// 1 to 8: the grammar is not read.
    Grammar(Fault),
    /// 1 to 8: the graph is not read.
    Graph(Fault),
    /// 8: the chart is asked to hold no item or more than 4,096. Of the owning types only the start of a chart says it.
    Unfit,
    /// 9: the chart does not hold the closure. It does not say that the graph has no derivation.
    TooSmall,
    /// 10: items wait after so many steps since the start: run on.
    Unfinished(u64),
    /// 11: the grammar does not derive the graph.
    Underivable,
    /// 12: the output does not hold the derivation.
    NoRoom,
    /// 13: the text is no derivation of the graph.
    NoDerivation,
}

impl Refusal {
    /// 01's number, 1 to 13.
    pub fn number(self) -> u64 {
        match self {
            Refusal::Grammar(fault) | Refusal::Graph(fault) => fault.number(),
            Refusal::Unfit => 8,
            Refusal::TooSmall => 9,
            Refusal::Unfinished(_) => 10,
            Refusal::Underivable => 11,
            Refusal::NoRoom => 12,
            Refusal::NoDerivation => 13,
        }
    }

    /// The answer in words, without its number.
    pub fn sentence(self) -> &'static str {
        match self {
            Refusal::Grammar(fault) | Refusal::Graph(fault) => fault.sentence(),
            Refusal::Unfit => UNFIT,
            Refusal::TooSmall => "the chart does not hold the closure",
            Refusal::Unfinished(_) => "items wait: run on",
            Refusal::Underivable => "the goal is not in the closure: the grammar does not derive the graph",
            Refusal::NoRoom => "the output does not hold the derivation",
            Refusal::NoDerivation => "the file is no derivation of this graph",
        }
    }
}

impl fmt::Display for Refusal {
    fn fmt(&self, f: &mut fmt::Formatter<'_>) -> fmt::Result {
        match self {
            Refusal::Grammar(fault) => write!(f, "grammar: {fault}"),
            Refusal::Graph(fault) => write!(f, "graph: {fault}"),
            other => write!(f, "{} (refusal {})", other.sentence(), other.number()),
        }
    }
}

impl Error for Refusal {
    fn source(&self) -> Option<&(dyn Error + 'static)> {
        match self {
            Refusal::Grammar(fault) | Refusal::Graph(fault) => Some(fault),
            _ => None,
        }
    }
}

/// The steps of a start or run that is done, or its refusal.
pub(crate) fn of_outcome(outcome: Outcome) -> Result<u64, Refusal> {
    match outcome {
        Outcome::Done(steps) => Ok(steps),
        Outcome::Unfinished(steps) => Err(Refusal::Unfinished(steps)),
        Outcome::TooSmall => Err(Refusal::TooSmall),
        Outcome::Unfit => Err(Refusal::Unfit),
    }
}

/// The bytes or records of a writing, or its refusal.
pub(crate) fn of_answer(answer: Answer) -> Result<usize, Refusal> {
    match answer {
        Answer::Written(length) => Ok(length),
        Answer::NoRoom => Err(Refusal::NoRoom),
        Answer::Underivable => Err(Refusal::Underivable),
        Answer::Unfinished(steps) => Err(Refusal::Unfinished(steps)),
        Answer::TooSmall => Err(Refusal::TooSmall),
        Answer::Unfit => Err(Refusal::Unfit),
    }
}

pub(crate) fn of_verdict(verdict: Verdict) -> Result<(), Refusal> {
    match verdict {
        Verdict::Passed => Ok(()),
        Verdict::NoDerivation => Err(Refusal::NoDerivation),
        Verdict::Unfit => Err(Refusal::Unfit),
    }
}

impl Outcome {
    /// 01's number, 0 where it is no refusal.
    pub fn number(self) -> u64 {
        of_outcome(self).err().map_or(0, Refusal::number)
    }
}

impl Answer {
    /// 01's number, 0 where it is no refusal.
    pub fn number(self) -> u64 {
        of_answer(self).err().map_or(0, Refusal::number)
    }
}

impl Verdict {
    /// 01's number, 0 where it is no refusal.
    pub fn number(self) -> u64 {
        of_verdict(self).err().map_or(0, Refusal::number)
    }
}
