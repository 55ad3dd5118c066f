//! Start, runs in pieces, the writer in both forms and the replay, over charts and outputs of every
//! size.

use super::lent::{self, bytes, words, Lent};
use super::profile::Profile;
use super::{derivation_texts, Checker, Tables, MOST_ITEMS};
use bobbinmarl::calls::{self, Answer, Outcome, Verdict};
use second::chart::Chart;
use second::gen::Rng;
use second::model::Derivation;
use second::replay::{parse_derivation, replay};
use second::trees::{Fewest, Trees};

/// Graphs of so many edges are also judged by searching for derivation trees.
const TREES_TO: usize = 6;
const TREE_STATES: usize = 3_000;

/// The words of a chart that holds just so many items.
fn chart_words(items: usize) -> usize {
    calls::chart_words(items).expect("1 to 4,096 items")
}

fn words_per_item() -> usize {
    chart_words(2) - chart_words(1)
}

/// What the writer must say of a chart, whatever the output's length if it is no derivation.
enum Due {
    Refused(Answer),
    /// A derivation of so many applications.
    Derivation(usize),
}

impl Tables {
    pub fn start(&self, chart: &mut [u64]) -> Outcome {
        calls::start(&self.grammar_table, &self.graph_table, chart)
    }

    pub fn run(&self, chart: &mut [u64], steps: u64) -> Outcome {
        calls::run(&self.grammar_table, &self.graph_table, chart, steps)
    }

    pub fn write(&self, chart: &[u64], out: &mut [u8]) -> Answer {
        calls::write(&self.grammar_table, &self.graph_table, chart, out)
    }

    pub fn replay(&self, text: &[u8]) -> Verdict {
        calls::replay(&self.grammar_table, &self.graph_table, text)
    }
}

fn draw_capacity(rng: &mut Rng, profile: &Profile) -> usize {
    let size = profile.size.unwrap_or(MOST_ITEMS);
    // Full charts of thousands of items take long: a few of them do.
    let seldom = match profile.size {
        None => 20,
        Some(size) if size > 1_000 => 4,
        Some(_) => 1,
    };
    if !rng.one_in(seldom) {
        return rng.range(1, 600);
    }
    let capacity = match rng.below(12) {
        0 => rng.range(1, MOST_ITEMS),
        1 => rng.range(1, 2 * profile.leaves()),
        2 => rng.range(1, size),
        3 | 4 => size - 1,
        5..=9 => size,
        10 => MOST_ITEMS,
        _ => size + rng.range(1, 100),
    };
    capacity.clamp(1, MOST_ITEMS)
}

fn draw_steps(rng: &mut Rng, size: usize) -> u64 {
    match rng.below(8) {
        0 => 0,
        1 => 1,
        2 => 2,
        3 => size as u64,
        4 => *rng.pick(&[u64::MAX, u64::MAX - 1, 1 << 63, 1 << 32]),
        _ => rng.below(size + 2) as u64,
    }
}

impl Checker<'_> {
    /// Start, runs and writings on one chart; the derivation if the grammar has one.
    pub fn check_parsing(&mut self, rng: &mut Rng, tables: &Tables) -> Option<Derivation> {
        let (grammar, graph) = (&tables.grammar, &tables.graph);
        let mut second = Chart::start_any_size(grammar, graph, MOST_ITEMS);
        let profile = Profile::of(&mut second);
        if rng.one_in(8) {
            self.check_unfit_charts(rng, tables);
        }
        let capacity = draw_capacity(rng, &profile);
        let rest = rng.below(words_per_item());
        let mut chart = words(rng, chart_words(capacity) + rest);
        if !self.check_start(tables, &profile, capacity, &mut chart) {
            return None;
        }
        let end = self.check_runs(rng, tables, &profile, capacity, &mut chart);
        let due = match end {
            Outcome::Done(_) => match second.goal_count() {
                Some(count) => Due::Derivation(count),
                None => Due::Refused(Answer::Underivable),
            },
            other => Due::Refused(unfinished(other)),
        };
        if graph.edges.len() <= TREES_TO && matches!(end, Outcome::Done(_)) {
            self.check_trees(tables, &due);
        }
        let text = self.check_write(rng, tables, &chart.now, &due);
        self.totals
            .greatest("most steps", profile.size.unwrap_or(0));
        let derivation = parse_derivation(grammar, graph, &text?)?;
        self.count_accepted(tables, &derivation);
        Some(derivation)
    }

    /// Charts that do not hold 1 to 4,096 items, and tables too short, are refused by all calls.
    fn check_unfit_charts(&mut self, rng: &mut Rng, tables: &Tables) {
        let too_long = chart_words(MOST_ITEMS) + words_per_item();
        let lengths = [0, chart_words(1) - 1, too_long, too_long + rng.below(100)];
        let length = *rng.pick(&lengths);
        let mut chart = words(rng, length);
        self.check_unfit(rng, "chart size", tables, &mut chart);

        let mut short = tables.clone();
        if rng.coin() {
            let length = lent::shorter(rng, calls::grammar_words());
            short.grammar_table.truncate(length);
        } else {
            let length = lent::shorter(rng, calls::graph_words());
            short.graph_table.truncate(length);
        }
        let mut chart = words(rng, chart_words(10));
        self.check_unfit(rng, "short table", &short, &mut chart);
        self.check_unfit_replay(&short);
    }

    /// Start, run and writer, in both its forms, all say 8 and change nothing.
    pub fn check_unfit(
        &mut self,
        rng: &mut Rng,
        what: &str,
        tables: &Tables,
        chart: &mut Lent<u64>,
    ) {
        let started = tables.start(&mut chart.now);
        self.agree(&format!("start, {what}"), Outcome::Unfit, started);
        let run = tables.run(&mut chart.now, rng.below(10) as u64);
        self.agree(&format!("run, {what}"), Outcome::Unfit, run);
        let length = rng.below(1_000);
        let mut out = bytes(rng, length);
        let written = tables.write(&chart.now, &mut out.now);
        self.agree(&format!("write, {what}"), Answer::Unfit, written);
        self.check_unfilled(rng, tables, &chart.now, Answer::Unfit);
        let unchanged = chart.unchanged() && out.unchanged();
        self.hold(&format!("8 changes nothing, {what}"), unchanged);
        for call in ["start", "run", "write"] {
            self.totals.answered(call, 8);
        }
    }

    pub fn check_unfit_replay(&mut self, tables: &Tables) {
        let got = tables.replay(b"D   1\n");
        self.agree("replay, unfit table", Verdict::Unfit, got);
        self.totals.answered("replay", 8);
    }

    /// Whether the chart is started.
    fn check_start(
        &mut self,
        tables: &Tables,
        profile: &Profile,
        capacity: usize,
        chart: &mut Lent<u64>,
    ) -> bool {
        let due = if profile.leaves() <= capacity {
            Outcome::Done(0)
        } else {
            Outcome::TooSmall
        };
        let got = tables.start(&mut chart.now);
        self.agree(&format!("start of {capacity} items"), due, got);
        self.hold(
            "start: words behind the items stay",
            chart.unchanged_from(chart_words(capacity)),
        );
        self.totals.answered("start", due.number() as u8);
        got == due
    }

    /// Runs in pieces, at times to the end; the last outcome.
    fn check_runs(
        &mut self,
        rng: &mut Rng,
        tables: &Tables,
        profile: &Profile,
        capacity: usize,
        chart: &mut Lent<u64>,
    ) -> Outcome {
        let size = profile.size.unwrap_or(capacity).min(capacity);
        let mut pieces: Vec<u64> = (0..rng.below(5)).map(|_| draw_steps(rng, size)).collect();
        if !rng.one_in(6) {
            pieces.push(*rng.pick(&[size as u64, u64::MAX]));
        }
        pieces.push(rng.below(2) as u64);
        let mut given = 0u64;
        let mut last = Outcome::Unfinished(0);
        for steps in pieces {
            chart.settle();
            given = given.saturating_add(steps);
            let allowed = match last {
                Outcome::TooSmall => vec![Outcome::TooSmall],
                _ => profile.allowed(capacity, given),
            };
            let got = tables.run(&mut chart.now, steps);
            if !allowed.contains(&got) {
                let what = format!("run of {steps} in {capacity} items");
                self.mismatch(&format!("{what}: due one of {allowed:?}, got {got:?}"));
            }
            self.totals.answered("run", got.number() as u8);
            let idle = steps == 0 || matches!(last, Outcome::Done(_) | Outcome::TooSmall);
            let stays_from = if idle { 0 } else { chart_words(capacity) };
            self.hold("run: words stay", chart.unchanged_from(stays_from));
            last = got;
            if rng.one_in(8) && !matches!(last, Outcome::Done(_)) {
                self.check_write(rng, tables, &chart.now, &Due::Refused(unfinished(last)));
            }
        }
        last
    }

    fn check_trees(&mut self, tables: &Tables, due: &Due) {
        let trees = Trees::new(&tables.grammar, &tables.graph, TREE_STATES);
        let fewest = trees.of_graph();
        let right = match (fewest, due) {
            (Fewest::GaveUp, _) => return,
            (Fewest::Applications(n), Due::Derivation(count)) => n == *count,
            (Fewest::NoTree, Due::Refused(Answer::Underivable)) => true,
            _ => false,
        };
        self.totals.count("also judged by", "derivation trees");
        self.hold(&format!("fewest over trees: {fewest:?}"), right);
    }

    /// The writer with outputs and rows of several lengths; the text if there is one.
    fn check_write(
        &mut self,
        rng: &mut Rng,
        tables: &Tables,
        chart: &[u64],
        due: &Due,
    ) -> Option<Vec<u8>> {
        let chart = Lent::of(chart.to_vec());
        let text = match due {
            Due::Refused(answer) => {
                let length = *rng.pick(&[0, 1, 100, 1_000]);
                self.check_refused(rng, tables, &chart.now, length, *answer);
                self.check_unfilled(rng, tables, &chart.now, *answer);
                None
            }
            Due::Derivation(count) => self.check_written(rng, tables, &chart.now, *count),
        };
        self.hold("write and fill: the chart stays", chart.unchanged());
        text
    }

    fn check_refused(
        &mut self,
        rng: &mut Rng,
        tables: &Tables,
        chart: &[u64],
        length: usize,
        due: Answer,
    ) {
        let mut out = bytes(rng, length);
        let got = tables.write(chart, &mut out.now);
        self.agree(&format!("write to {length} bytes"), due, got);
        self.hold("write: a refusal changes nothing", out.unchanged());
        self.totals.answered("write", due.number() as u8);
    }

    fn check_written(
        &mut self,
        rng: &mut Rng,
        tables: &Tables,
        chart: &[u64],
        count: usize,
    ) -> Option<Vec<u8>> {
        // A `D` line of 6 bytes, and `A` lines of at most a letter, 18 fields and a line feed.
        let most = 6 + 74 * count;
        let mut out = bytes(rng, most);
        let Answer::Written(length) = tables.write(chart, &mut out.now) else {
            self.mismatch(&format!("write: a derivation of {count} is due"));
            return None;
        };
        self.hold("write: bytes behind stay", out.unchanged_from(length));
        let text = out.now[..length].to_vec();
        self.totals.answered("write", 0);
        self.check_fewest(tables, &text, count);

        // The choice does not hang on the output's length.
        let room = length + if rng.coin() { 0 } else { rng.range(1, 200) };
        let mut out = bytes(rng, room);
        let got = tables.write(chart, &mut out.now);
        self.agree("write again", Answer::Written(length), got);
        let same = out.now.starts_with(&text) && out.unchanged_from(length);
        self.hold("write again: the same text", same);
        let short = if rng.coin() {
            length - 1
        } else {
            lent::shorter(rng, length)
        };
        self.check_refused(rng, tables, chart, short, Answer::NoRoom);
        self.check_filled(rng, tables, chart, &text);
        Some(text)
    }

    /// The text passes both replays and has the fewest applications.
    fn check_fewest(&mut self, tables: &Tables, text: &[u8], count: usize) {
        self.files.push(("written.txt", text.to_vec()));
        let head = format!("D{count:4}\n");
        self.hold(
            "write: fewest applications",
            text.starts_with(head.as_bytes()),
        );
        self.check_passes(tables, text);
        self.files.pop();
    }

    pub fn check_passes(&mut self, tables: &Tables, text: &[u8]) {
        let own = replay(&tables.grammar, &tables.graph, text);
        self.agree("what is written, replayed by the second parser", 0, own);
        let got = tables.replay(text);
        self.agree("what is written, replayed", Verdict::Passed, got);
    }

    /// The replay on right, damaged, permuted and longer texts.
    pub fn check_replays(&mut self, rng: &mut Rng, tables: &Tables, sources: &[Derivation]) {
        for text in derivation_texts(rng, tables, sources) {
            let number = replay(&tables.grammar, &tables.graph, &text);
            let due = match number {
                0 => Verdict::Passed,
                _ => Verdict::NoDerivation,
            };
            let got = tables.replay(&text);
            if got != due {
                self.files.push(("derivation.txt", text));
                self.agree("replay", due, got);
                self.files.pop();
            }
            self.totals.answered("replay", number);
        }
    }
}

fn unfinished(outcome: Outcome) -> Answer {
    match outcome {
        Outcome::TooSmall => Answer::TooSmall,
        Outcome::Unfinished(steps) => Answer::Unfinished(steps),
        Outcome::Unfit | Outcome::Done(_) => Answer::Unfit,
    }
}
