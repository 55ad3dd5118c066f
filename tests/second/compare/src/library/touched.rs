//! Tables and charts that were touched: the library refuses them or goes on, but never changes
//! what it refuses, never writes a text that does not replay, and accepts no table without a text.

use super::lent::{bytes, words, Lent};
use super::{readings, Checker, Tables, MOST_APPLICATIONS, MOST_ITEMS};
use bobbinmarl::calls::{self, Answer, Outcome, Verdict};
use second::chart::Chart;
use second::gen::{self, Rng};
use second::model::{lines_to_text, Grammar, Line};
use second::read::{read_grammar, read_graph};

/// No derivation text is longer: a `D` line, and `A` lines of 18 fields.
const MOST_BYTES: usize = 6 + MOST_APPLICATIONS * 74;
const TOUCHED: &str = "touched";

/// Changes one word, more often one that is in use.
fn touch(rng: &mut Rng, words: &mut [u64]) -> u64 {
    let used: Vec<usize> = (0..words.len()).filter(|&at| words[at] != 0).collect();
    let at = if used.is_empty() || rng.one_in(4) {
        rng.below(words.len())
    } else {
        *rng.pick(&used)
    };
    let old = words[at];
    while words[at] == old {
        words[at] = match rng.below(8) {
            0 => old.wrapping_add(1),
            1 => old.wrapping_sub(1),
            2 | 3 => rng.below(8) as u64,
            4 => *rng.pick(&[63, 64, 65, 4_095, 4_096, 4_097, 9_999]),
            5 => old ^ 1 << rng.below(64),
            6 => *rng.pick(&[u64::MAX, 1 << 63, 1 << 32]),
            _ => rng.word() >> rng.below(64),
        };
    }
    words[at]
}

/// Changes one word of a table: mostly one of the nine fields, of seven bits each, of a line.
fn touch_line(rng: &mut Rng, words: &mut [u64]) -> u64 {
    let used: Vec<usize> = (0..words.len()).filter(|&at| words[at] != 0).collect();
    if used.is_empty() || rng.one_in(3) {
        return touch(rng, words);
    }
    let at = *rng.pick(&used);
    let shift = 7 * rng.below(9);
    let old = words[at] >> shift & 127;
    let mut new = old;
    while new == old {
        new = match rng.below(4) {
            0 => (old + 1) % 128,
            1 => (old + 127) % 128,
            2 => rng.below(8) as u64,
            _ => rng.below(128) as u64,
        };
    }
    words[at] ^= (old ^ new) << shift;
    words[at]
}

/// The fields in a line's word.
fn fields_in(word: u64) -> impl Iterator<Item = usize> {
    (0..9).map(move |j| (word >> (7 * j) & 127) as usize)
}

/// A text that could have filled a touched table: one that reads, over the touched table, as just
/// that table. Sought among those with the fields of the new word in one line and else as before,
/// lists and lines cut or filled up with zeros by `fit` where the fields say how long they are.
fn text_behind(
    lines: &[Line],
    word: u64,
    touched: &[u64],
    fit: impl Fn(&mut Vec<Line>),
    fills: impl Fn(&[u8], &mut [u64]) -> bool,
) -> Option<Vec<u8>> {
    let fills = |lines: &[Line]| {
        let text = lines_to_text(lines);
        let mut table = touched.to_vec();
        (fills(&text, &mut table) && table == touched).then_some(text)
    };
    let with_word = (0..lines.len()).filter_map(|at| {
        let mut other = lines.to_vec();
        let count = if b"GSP".contains(&other[at].letter) {
            3
        } else {
            9
        };
        other[at].fields = fields_in(word).take(count).collect();
        fit(&mut other);
        fills(&other)
    });
    // A word that no reading writes changes nothing.
    fills(lines).or_else(|| with_word.into_iter().next())
}

/// Makes each list of nodes as long as its symbol's rank; `ranks` is by symbol.
fn fit_lists(lines: &mut [Line], ranks: &[usize], start: usize) {
    for line in lines {
        let (fixed, symbol) = match line.letter {
            b'R' => (5, line.fields[1]),
            b'E' => (1, line.fields[0]),
            b'H' => (2, start),
            _ => continue,
        };
        if let Some(rank) = ranks.get(symbol) {
            line.fields.resize(fixed + rank, 0);
        }
    }
}

fn fit_grammar(lines: &mut [Line]) {
    let symbols = lines.iter().filter(|line| line.letter == b'S');
    let ranks: Vec<usize> = symbols.map(|line| line.fields[2].min(4)).collect();
    let start = lines[0].fields[2];
    fit_lists(lines, &ranks, start);
}

fn fit_graph(lines: &mut Vec<Line>, grammar: &Grammar) {
    let edge = Line {
        letter: b'E',
        fields: vec![0],
    };
    lines.resize(1 + lines[0].fields[1].min(64), edge);
    let ranks: Vec<usize> = grammar.symbols.iter().map(|s| s.rank).collect();
    fit_lists(lines, &ranks, grammar.start);
}

impl Checker<'_> {
    pub fn check_touched(&mut self, rng: &mut Rng, tables: &Tables) {
        for _ in 0..4 {
            match rng.below(5) {
                0 => self.check_touched_grammar(rng, tables),
                1 => self.check_touched_graph(rng, tables),
                _ => self.check_touched_chart(rng, tables),
            }
        }
    }

    fn check_touched_grammar(&mut self, rng: &mut Rng, tables: &Tables) {
        let mut touched = tables.clone();
        let word = touch_line(rng, &mut touched.grammar_table[..calls::grammar_words()]);
        let graph_text = tables.graph.text();
        let mut table = words(rng, calls::graph_words());
        let answer = calls::read_graph(&touched.grammar_table, &graph_text, &mut table.now);
        if readings::number_of(answer) == 8 {
            self.totals.count(TOUCHED, "grammar tables refused");
            self.hold("read_graph: 8 changes nothing", table.unchanged());
            // Ahead of the text.
            let noise = gen::noise(rng);
            let answer = calls::read_graph(&touched.grammar_table, &noise, &mut table.now);
            self.agree("read_graph, touched", 8, readings::number_of(answer));
            return self.check_refused_tables(rng, &touched);
        }
        let fills = |text: &[u8], table: &mut [u64]| {
            read_grammar(text).is_ok() && calls::read_grammar(text, table).is_ok()
        };
        let lines = tables.grammar.lines();
        match text_behind(
            &lines,
            word,
            &touched.grammar_table,
            |l| fit_grammar(l),
            fills,
        ) {
            Some(text) => {
                self.totals.count(TOUCHED, "grammar tables of another text");
                let other = read_grammar(&text).expect("a text that fills a table is accepted");
                let due = readings::refusal_of(&read_graph(&other, &graph_text));
                let got = readings::number_of(answer);
                self.agree("read_graph, table of another text", due, got);
            }
            None => self.mismatch("a touched grammar table is accepted, and no text is behind it"),
        }
    }

    fn check_touched_graph(&mut self, rng: &mut Rng, tables: &Tables) {
        let mut touched = tables.clone();
        let word = touch_line(rng, &mut touched.graph_table[..calls::graph_words()]);
        if touched.replay(b"") == Verdict::Unfit {
            self.totals.count(TOUCHED, "graph tables refused");
            return self.check_refused_tables(rng, &touched);
        }
        let fills = |text: &[u8], table: &mut [u64]| {
            read_graph(&tables.grammar, text).is_ok()
                && calls::read_graph(&tables.grammar_table, text, table).is_ok()
        };
        let lines = tables.graph.lines();
        let fit = |lines: &mut Vec<Line>| fit_graph(lines, &tables.grammar);
        match text_behind(&lines, word, &touched.graph_table, fit, fills) {
            Some(text) => {
                self.totals.count(TOUCHED, "graph tables of another text");
                touched.graph = read_graph(&tables.grammar, &text)
                    .expect("a text that fills a table is accepted");
                self.check_parsing(rng, &touched);
            }
            None => self.mismatch("a touched graph table is accepted, and no text is behind it"),
        }
    }

    /// Tables that one call refuses are refused by all.
    fn check_refused_tables(&mut self, rng: &mut Rng, tables: &Tables) {
        let items = rng.range(1, 40);
        let mut chart = words(rng, calls::chart_words(items).unwrap_or(0));
        self.check_unfit(rng, "touched table", tables, &mut chart);
        self.check_unfit_replay(tables);
    }

    /// A chart that was run to some step is touched, or met with another graph, and run on.
    fn check_touched_chart(&mut self, rng: &mut Rng, tables: &Tables) {
        let mut second = Chart::start_any_size(&tables.grammar, &tables.graph, MOST_ITEMS);
        second.run_to_end();
        let size = second.items_present();
        let items = (size + rng.below(10)).clamp(1, MOST_ITEMS);
        let mut chart = words(rng, calls::chart_words(items).unwrap_or(0));
        tables.start(&mut chart.now);
        let steps = if rng.coin() { size } else { rng.below(size) };
        tables.run(&mut chart.now, steps as u64);

        let mut other = tables.clone();
        let exchanged = rng.one_in(4) && self.exchange_graph(rng, &mut other);
        if !exchanged {
            for _ in 0..rng.range(1, 4) {
                touch(rng, &mut chart.now);
            }
        }
        self.check_touched_write(rng, &other, &chart.now);
        for steps in [rng.below(4) as u64, u64::MAX] {
            chart.settle();
            let outcome = other.run(&mut chart.now, steps);
            let name = format!("charts run on: {}", outcome.number());
            self.totals.count(TOUCHED, name);
            if outcome == Outcome::Unfit {
                self.hold("run: 8 changes nothing", chart.unchanged());
            }
            let unended = steps == u64::MAX && matches!(outcome, Outcome::Unfinished(_));
            self.hold("run: all steps given, and items wait", !unended);
            self.check_touched_write(rng, &other, &chart.now);
        }
    }

    /// Another graph of the same grammar in the tables; whether there is one.
    fn exchange_graph(&mut self, rng: &mut Rng, tables: &mut Tables) -> bool {
        let Some((graph, _)) = gen::case_graph(rng, &tables.grammar, 6) else {
            return false;
        };
        let mut table = words(rng, calls::graph_words());
        let read = calls::read_graph(&tables.grammar_table, &graph.text(), &mut table.now);
        tables.graph_table = table.now;
        tables.graph = graph;
        read.is_ok()
    }

    /// Whatever the chart holds: a refusal changes nothing, what is written replays and does not
    /// hang on the output's length, and rows get what the text says.
    fn check_touched_write(&mut self, rng: &mut Rng, tables: &Tables, chart: &[u64]) {
        let chart = Lent::of(chart.to_vec());
        let mut out = bytes(rng, MOST_BYTES);
        let answer = tables.write(&chart.now, &mut out.now);
        let name = match answer {
            Answer::Written(_) => "written".to_string(),
            other => format!("{other:?}").to_lowercase(),
        };
        let name = name.split('(').next().unwrap_or_default().to_string();
        self.totals.count(TOUCHED, format!("charts {name}"));
        if let Answer::Written(length) = answer {
            self.hold("write: bytes behind stay", out.unchanged_from(length));
            let text = &out.now[..length];
            self.check_passes(tables, text);
            self.check_rewritten(rng, tables, &chart.now, text);
            self.check_filled(rng, tables, &chart.now, text);
        } else {
            self.hold("write: a refusal changes nothing", out.unchanged());
            self.check_unfilled(rng, tables, &chart.now, answer);
        }
        self.hold("write and fill: the chart stays", chart.unchanged());
    }

    /// The same text comes where it just fits, and 12 where it does not.
    fn check_rewritten(&mut self, rng: &mut Rng, tables: &Tables, chart: &[u64], text: &[u8]) {
        let mut exact = bytes(rng, text.len());
        let again = tables.write(chart, &mut exact.now);
        self.agree("write again", Answer::Written(text.len()), again);
        self.hold("write again: the same text", exact.now == text);
        let mut short = bytes(rng, text.len() - 1);
        let refused = tables.write(chart, &mut short.now);
        self.agree("write, one byte less", Answer::NoRoom, refused);
        self.hold("write: 12 changes nothing", short.unchanged());
    }
}
