//! The proved library, called over lent memory and held against the second parser.

mod filling;
mod lent;
mod parsing;
mod profile;
mod readings;
mod touched;

use crate::cases::{self, Pair};
use crate::report::{Log, Totals};
use crate::workers::{self, Worker, WORKERS};
use second::gen::{self, Rng};
use second::model::{Derivation, Grammar, Graph, PlanNode};
use std::fmt::Debug;
use std::time::Duration;

const CASE_LIMIT: Duration = Duration::from_secs(60);
const MOST_ITEMS: usize = 4_096;
const MOST_APPLICATIONS: usize = 4_096;
const ACCEPTED: &str = "accepted graphs";

/// The numbers that each call can answer with: every one of them must have come.
const ANSWERS: [(&str, &[u8]); 7] = [
    ("read_grammar", &[0, 1, 2, 3, 4, 5, 6, 7, 8]),
    ("read_graph", &[0, 1, 2, 3, 4, 5, 6, 8]),
    ("start", &[0, 8, 9]),
    ("run", &[0, 8, 9, 10]),
    ("write", &[0, 8, 9, 10, 11, 12]),
    ("fill", &[0, 8, 9, 10, 11, 12]),
    ("replay", &[0, 8, 13]),
];

/// Kinds of graphs of which some must be accepted.
const REQUIRED: [&str; 12] = [
    "start of rank 0",
    "start of rank 1",
    "start of rank 2",
    "start of rank 3",
    "start of rank 4",
    "above 20 edges",
    "of 64 edges",
    "disconnected",
    "with parallel edges",
    "by a plan that joins",
    "with a circle of renamings",
    "by above 1,000 applications",
];

/// Compares on so many cases; what was met and the number of mismatches. An answer or a kind of
/// accepted graph that never came counts as a mismatch: nothing was compared there.
pub fn compare(seed: u64, cases: usize) -> (Totals, usize) {
    let log = Log::new("library", seed);
    let checkers: Vec<Checker> = (0..WORKERS)
        .map(|_| Checker {
            log: &log,
            totals: Totals::default(),
            case: 0,
            files: Vec::new(),
        })
        .collect();
    let totals = workers::run(checkers, seed, cases, CASE_LIMIT);
    for (call, numbers) in ANSWERS {
        for &number in numbers {
            if !totals.has_answered(call, number) {
                log.mismatch(cases, &format!("{call} never answered {number}"), &[]);
            }
        }
    }
    for name in REQUIRED {
        if !totals.has(ACCEPTED, name) {
            log.mismatch(cases, &format!("no graph was accepted: {name}"), &[]);
        }
    }
    (totals, log.mismatches())
}

/// One of the threads that compare.
struct Checker<'a> {
    log: &'a Log,
    totals: Totals,
    case: usize,
    /// What is saved of the case with a mismatch.
    files: Vec<(&'static str, Vec<u8>)>,
}

/// A grammar and a graph that were read, with the tables the library filled.
#[derive(Clone)]
struct Tables {
    grammar: Grammar,
    graph: Graph,
    grammar_table: Vec<u64>,
    graph_table: Vec<u64>,
}

#[derive(Clone, Copy, PartialEq, Eq)]
enum Kind {
    Whole,
    GrammarText,
    GraphText,
    Touched,
}

fn draw(rng: &mut Rng) -> (Kind, &'static str, Pair) {
    let (kind, name, draw): (Kind, &'static str, fn(&mut Rng) -> Pair) = match rng.below(100) {
        0..=31 => (Kind::Whole, "small graphs (to 6 edges)", cases::draw_small),
        32..=47 => (
            Kind::Whole,
            "middle graphs (to 20 edges)",
            cases::draw_middle,
        ),
        48..=53 => (Kind::Whole, "large graphs (to 64 edges)", draw_large),
        54 => (Kind::Whole, "long derivations (to 4,097)", draw_long),
        55 => (Kind::Whole, "paths by rows of renamings", draw_row),
        56..=70 => (
            Kind::GrammarText,
            "damaged grammar texts",
            cases::draw_small,
        ),
        71..=86 => (Kind::GraphText, "damaged graph texts", cases::draw_small),
        _ => (
            Kind::Touched,
            "touched tables and charts",
            cases::draw_small,
        ),
    };
    (kind, name, draw(rng))
}

fn draw_large(rng: &mut Rng) -> Pair {
    cases::draw_large(rng, MOST_ITEMS)
}

fn draw_row(rng: &mut Rng) -> Pair {
    cases::draw_row(rng, MOST_ITEMS)
}

fn draw_long(rng: &mut Rng) -> Pair {
    let applications = *rng.pick(&[100, 1_000, 4_095, 4_096, 4_096, 4_097]);
    cases::draw_long(rng, applications)
}

impl Worker for Checker<'_> {
    fn check(&mut self, rng: &mut Rng, case: usize) {
        let (kind, name, pair) = draw(rng);
        self.totals.count("kinds of cases", name);
        let [grammar_text, graph_text] = cases::texts(
            rng,
            &pair,
            kind == Kind::GrammarText,
            kind == Kind::GraphText,
        );
        self.case = case;
        self.files = vec![
            ("grammar.txt", grammar_text.clone()),
            ("graph.txt", graph_text.clone()),
        ];
        let Some(tables) = self.check_readings(rng, &grammar_text, &graph_text) else {
            return;
        };
        if kind == Kind::Touched {
            return self.check_touched(rng, &tables);
        }
        let derived = self.check_parsing(rng, &tables);
        let spoilt = kind != Kind::Whole;
        let mut sources = if spoilt { Vec::new() } else { pair.sources };
        sources.extend(derived);
        self.check_replays(rng, &tables, &sources);
    }

    fn totals(self) -> Totals {
        self.totals
    }
}

impl Checker<'_> {
    fn mismatch(&mut self, what: &str) {
        let files: Vec<(&str, &[u8])> = self
            .files
            .iter()
            .map(|(name, text)| (*name, &text[..]))
            .collect();
        self.log.mismatch(self.case, what, &files);
    }

    fn hold(&mut self, what: &str, yes: bool) {
        if !yes {
            self.mismatch(what);
        }
    }

    fn agree<T: PartialEq + Debug>(&mut self, what: &str, due: T, got: T) {
        if got != due {
            self.mismatch(&format!("{what}: due {due:?}, got {got:?}"));
        }
    }

    fn count_accepted(&mut self, tables: &Tables, derivation: &Derivation) {
        let Tables { grammar, graph, .. } = tables;
        let rank = graph.external.len();
        self.totals.count(ACCEPTED, format!("start of rank {rank}"));
        let joins = |rule: usize| {
            let plan = &grammar.rules[rule].plan;
            plan.iter().any(|p| matches!(p, PlanNode::Join { .. }))
        };
        let kinds = [
            ("all", true),
            ("above 20 edges", graph.edges.len() > 20),
            ("of 64 edges", graph.edges.len() == 64),
            ("disconnected", !graph.is_connected()),
            ("with parallel edges", graph.has_parallel_edges()),
            (
                "by a plan that joins",
                derivation.iter().any(|a| joins(a.rule)),
            ),
            ("with a circle of renamings", grammar.has_circle()),
            ("by above 1,000 applications", derivation.len() > 1_000),
        ];
        for (name, _) in kinds.into_iter().filter(|kind| kind.1) {
            self.totals.count(ACCEPTED, name);
        }
        self.totals
            .greatest("most applications derived", derivation.len());
    }
}

/// Texts made from derivations, a few of them.
fn derivation_texts(rng: &mut Rng, tables: &Tables, sources: &[Derivation]) -> Vec<Vec<u8>> {
    let texts = gen::derivation_texts(rng, &tables.grammar, &tables.graph, sources, &mut 0);
    let mut texts: Vec<Vec<u8>> = texts.into_iter().map(|(text, _)| text).collect();
    rng.shuffle(&mut texts);
    texts.truncate(4);
    texts
}
