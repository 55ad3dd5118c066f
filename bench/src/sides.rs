//! The two sides: start, run and write by the proved library and by the second parser, each with its checks of
//! the tables at every call.

use bobbinmarl::calls;
use second::{checks, Chart, Grammar, Graph};
use std::hint::black_box;
use std::time::{Duration, Instant};

/// The items that a chart holds on both sides.
pub const CHART_ITEMS: usize = 4_096;

/// The bytes of the longest text of 4,096 applications with 18 fields each, and its first line.
pub const OUTPUT_BYTES: usize = 4_096 * 74 + 6;

/// The time of start, run and write.
pub type Phases = [Duration; 3];

/// What a side found: the items of the closure, and the derivation or the refusal.
pub struct Found {
    pub items: usize,
    pub derivation: Result<Vec<u8>, u64>,
}

/// What is lent to the proved side, allocated once. It is never cleared: a start finds the chart as the run
/// before left it.
pub struct Lent {
    pub grammar: Vec<u64>,
    pub graph: Vec<u64>,
    pub chart: Vec<u64>,
    pub out: Vec<u8>,
}

impl Lent {
    pub fn new() -> Self {
        let chart = calls::chart_words(CHART_ITEMS).expect("a chart holds so many items");
        Lent {
            grammar: vec![0; calls::grammar_words()],
            graph: vec![0; calls::graph_words()],
            chart: vec![0; chart],
            out: vec![0; OUTPUT_BYTES],
        }
    }

    pub fn read(&mut self, grammar: &[u8], graph: &[u8]) {
        calls::read_grammar(grammar, &mut self.grammar).expect("the grammar is accepted");
        calls::read_graph(&self.grammar, graph, &mut self.graph).expect("the graph is accepted");
    }

    pub fn start(&mut self) -> calls::Outcome {
        calls::start(&self.grammar, &self.graph, &mut self.chart)
    }

    pub fn run(&mut self) -> calls::Outcome {
        calls::run(&self.grammar, &self.graph, &mut self.chart, u64::MAX)
    }

    pub fn write(&mut self) -> calls::Answer {
        calls::write(&self.grammar, &self.graph, &self.chart, &mut self.out)
    }

    pub fn timed(&mut self) -> Phases {
        let begin = Instant::now();
        black_box(self.start());
        let started = Instant::now();
        black_box(self.run());
        let run = Instant::now();
        black_box(self.write());
        [started - begin, run - started, run.elapsed()]
    }

    pub fn found(&mut self) -> Result<Found, String> {
        let started = self.start();
        if started != calls::Outcome::Done(0) {
            return Err(format!("the proved start says {started:?}"));
        }
        let items = match self.run() {
            calls::Outcome::Done(steps) => steps as usize,
            other => return Err(format!("the proved run says {other:?}")),
        };
        let derivation = match self.write() {
            calls::Answer::Written(bytes) => Ok(self.out[..bytes].to_vec()),
            calls::Answer::Underivable => Err(11),
            other => return Err(format!("the proved writer says {other:?}")),
        };
        Ok(Found { items, derivation })
    }
}

/// The second parser on its own values. It allocates its chart at each start and gives it back after writing;
/// both are timed.
#[derive(Clone, Copy)]
pub struct Second<'a> {
    pub grammar: &'a Grammar,
    pub graph: &'a Graph,
    /// Whether the written text is replayed, as the proved writer does.
    pub replays: bool,
}

impl<'a> Second<'a> {
    fn check_tables(&self) {
        assert!(checks::tables(self.grammar, self.graph));
    }

    fn start(&self) -> Chart<'a> {
        self.check_tables();
        Chart::start(self.grammar, self.graph, CHART_ITEMS).expect("a chart of this size")
    }

    fn run(&self, chart: &mut Chart) -> second::Answer {
        self.check_tables();
        assert!(chart.check_items());
        chart.run_to_end()
    }

    fn write(&self, chart: &Chart) -> Result<Vec<u8>, u8> {
        self.check_tables();
        assert!(chart.check_items());
        let text = chart.write(OUTPUT_BYTES)?;
        if self.replays && second::replay::replay(self.grammar, self.graph, &text) != 0 {
            return Err(13);
        }
        Ok(text)
    }

    pub fn timed(&self) -> Phases {
        let begin = Instant::now();
        let mut chart = self.start();
        let started = Instant::now();
        black_box(self.run(&mut chart));
        let run = Instant::now();
        let _ = black_box(self.write(&chart));
        drop(chart);
        [started - begin, run - started, run.elapsed()]
    }

    pub fn found(&self) -> Result<Found, String> {
        let mut chart = self.start();
        let items = match self.run(&mut chart) {
            second::Answer::Done(steps) => steps,
            other => return Err(format!("the second run says {other:?}")),
        };
        let derivation = match self.write(&chart) {
            Ok(text) => Ok(text),
            Err(11) => Err(11),
            Err(other) => return Err(format!("the second writer says {other}")),
        };
        Ok(Found { items, derivation })
    }
}

/// The number of applications that a derivation text names in its first line.
pub fn applications(text: &[u8]) -> Option<usize> {
    let field = std::str::from_utf8(text.get(1..5)?).ok()?;
    field.trim_start().parse().ok()
}
