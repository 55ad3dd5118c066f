//! K1 to K6 and K10 through the writer and the replay; then touched charts, partners in a circle, shared partners, and derivations as deep as
//! they can be.

use crate::layout::{words_for, Layout, Part, FIRST, SECOND};
use crate::{charts::finished, kept, Data};
use bobbinmarl::calls::{self, Answer};
use bobbinmarl::Item;

fn replay_number(grammar: &[u64], graph: &[u64], text: &[u8]) -> u64 {
    calls::replay(grammar, graph, text).number()
}

/// What a writing came to: its number, the text, and whether all other bytes of the output stayed as they were.
struct Trial {
    number: u64,
    text: Vec<u8>,
    kept: bool,
}

/// What byte i of a lent output holds before a writing: no byte of a text.
fn pattern(i: usize) -> u8 {
    (128 + i % 100) as u8
}

fn write(grammar: &[u64], graph: &[u64], chart: &[u64], room: usize) -> Trial {
    let mut out: Vec<u8> = (0..room).map(pattern).collect();
    let answer = calls::write(grammar, graph, chart, &mut out);
    let bytes = if let Answer::Written(bytes) = answer { bytes } else { 0 };
    let kept = (bytes..room).all(|i| out[i] == pattern(i));
    out.truncate(bytes);
    Trial {
        number: answer.number(),
        text: out,
        kept,
    }
}

/// The number; where a text is written its length, what the replay says, and a short text itself.
fn case(name: &str, grammar: &[u64], graph: &[u64], chart: &[u64], room: usize) -> Vec<u8> {
    let trial = write(grammar, graph, chart, room);
    print!("{name} {}", trial.number);
    if trial.number == 0 {
        print!(" {} {}", trial.text.len(), replay_number(grammar, graph, &trial.text));
    }
    println!(" {}", kept(trial.kept));
    if trial.text.len() <= 64 {
        print!("{}", String::from_utf8_lossy(&trial.text));
    }
    trial.text
}

// ------------------------------------------------------------------------------------------------------- touched charts

/// How often a writing said 8, 9, 10, 11, 12 and wrote; then the texts that differ from the one of the untouched chart, those that the replay
/// refuses, and how often something else changed.
#[derive(Default)]
struct Tally([u64; 9]);

impl Tally {
    fn add(&mut self, grammar: &[u64], graph: &[u64], chart: &[u64], text: &[u8]) {
        let trial = write(grammar, graph, chart, 64);
        let at = [8, 9, 10, 11, 12, 0]
            .iter()
            .position(|&n| n == trial.number)
            .expect("a number of the writer's");
        self.0[at] += 1;
        self.0[8] += u64::from(!trial.kept);
        if trial.number == 0 {
            self.0[6] += u64::from(trial.text != text);
            self.0[7] += u64::from(replay_number(grammar, graph, &trial.text) != 0);
        }
    }

    fn print(&self, name: &str) {
        let counts: Vec<String> = self.0.iter().map(u64::to_string).collect();
        println!("{name} {}", counts.join(" "));
    }
}

/// A finished chart of ten items, and the text that is written for it.
struct Finished<'a> {
    grammar: &'a [u64],
    graph: &'a [u64],
    layout: &'a Layout,
    chart: Vec<u64>,
    text: Vec<u8>,
}

impl Finished<'_> {
    fn add(&self, tally: &mut Tally, touches: &[(Part, u64)]) {
        let mut chart = self.chart.clone();
        for (part, value) in touches {
            self.layout.put(&mut chart, *part, *value);
        }
        tally.add(self.grammar, self.graph, &chart, &self.text);
    }

    /// The number of items, the mark and each field of ten items in turn, also of those that the chart has not.
    fn touch_parts(&self, change: impl Fn(Part) -> u64) -> Tally {
        let mut tally = Tally::default();
        for part in self.layout.parts(10) {
            self.add(&mut tally, &[(part, change(part))]);
        }
        tally
    }

    /// The first partner of one item and the second one of another, each a number below ten: the digits of i.
    fn touch_pairs(&self) -> Tally {
        let mut tally = Tally::default();
        for i in 0..10_000 {
            let first = (Part::Field(i % 10, FIRST), (i / 10 % 10) as u64);
            let second = (Part::Field(i / 100 % 10, SECOND), (i / 1000) as u64);
            self.add(&mut tally, &[first, second]);
        }
        tally
    }
}

fn touched_charts(name: &str, grammar: &[u64], graph: &[u64], layout: &Layout) {
    let chart = finished(grammar, graph);
    let text = case(name, grammar, graph, &chart, 64);
    let finished = Finished {
        grammar,
        graph,
        layout,
        chart,
        text,
    };
    for value in [0, 1, 2, 5, 9, 10, 64] {
        finished.touch_parts(|_| value).print(&format!("set {value}"));
    }
    finished.touch_parts(|part| layout.most(part)).print("set most");
    finished.touch_parts(|part| layout.get(&finished.chart, part) + 1).print("add 1");
    finished.touch_pairs().print("pairs 10000");
}

// ------------------------------------------------------------------------------ charts made by hand, for a graph of one edge

/// A chart that is filled item by item.
struct Chart<'a> {
    layout: &'a Layout,
    words: Vec<u64>,
}

impl Chart<'_> {
    /// A leaf of rule 0 and one of rule `rule`, then rule 0 on the graph's edge and its passive item, in a chart of 4,096 items.
    fn new(layout: &Layout, rule: u64) -> Chart<'_> {
        let words = vec![0; words_for(4096)];
        let mut chart = Chart { layout, words };
        chart.put(Part::Number, 4096);
        chart.set(0, [0, 0, 0], 0, 0);
        chart.set(1, [0, rule, 0], 0, 0);
        chart.set(2, [0, 0, 1], 0, 0);
        chart.set(3, [1, 1, 0], 2, 0);
        chart
    }

    fn put(&mut self, part: Part, value: u64) {
        self.layout.put(&mut self.words, part, value);
    }

    /// A handled item: kind, rule or symbol, plan node, and its partners; its edges and nodes are the graph's, but a leaf has no nodes.
    fn set(&mut self, j: usize, [kind, of, plan]: [u64; 3], first: usize, second: usize) {
        // The last places are outside the chart: a level that is not whole.
        if j < 4096 {
            let (a, b) = if kind == 0 && plan == 0 { (64, 64) } else { (0, 1) };
            let item = Item {
                kind,
                of,
                plan,
                edges: 1,
                count: 1,
                handled: 1,
                nodes: [a, b, 64, 64, 64, 64, 64, 64],
                first: first as u64,
                second: second as u64,
            };
            self.layout.put_item(&mut self.words, j, item);
        }
    }

    /// Each passive item stands by rule 1 for the one below it.
    fn nested(layout: &Layout) -> Chart<'_> {
        let mut chart = Chart::new(layout, 1);
        for j in (4..4096).step_by(2) {
            chart.set(j, [0, 1, 1], 1, j - 1);
            chart.set(j + 1, [1, 1, 0], j, 0);
        }
        chart
    }

    /// Each passive item has by rule 2 the one below it twice.
    fn doubled(layout: &Layout) -> Chart<'_> {
        let mut chart = Chart::new(layout, 2);
        for j in (4..4096).step_by(3) {
            chart.set(j, [0, 2, 1], 1, j - 1);
            chart.set(j + 1, [0, 2, 2], j, j - 1);
            chart.set(j + 2, [1, 1, 0], j + 1, 0);
        }
        chart
    }
}

const ROOM: usize = 65_536;

/// All 4,096 items; then with the last passive item under the lowest renaming; then of six items, with the passive one above that renaming under it.
fn nested_charts(grammar: &[u64], graph: &[u64], layout: &Layout) {
    let mut chart = Chart::nested(layout);
    case("nested-4096", grammar, graph, &chart.words, ROOM);
    chart.put(Part::Field(4, SECOND), 4095);
    case("circle-4096", grammar, graph, &chart.words, ROOM);
    chart.put(Part::Field(4, SECOND), 5);
    chart.put(Part::Number, 6);
    case("circle-6", grammar, graph, &chart.words, ROOM);
}

/// All 4,096 items, 1,364 levels; then 12 levels with 8,191 applications, and 11 with 4,095.
fn doubled_charts(grammar: &[u64], graph: &[u64], layout: &Layout) {
    let mut chart = Chart::doubled(layout);
    case("doubled-4096", grammar, graph, &chart.words, ROOM);
    chart.put(Part::Number, 40);
    case("doubled-40", grammar, graph, &chart.words, ROOM);
    chart.put(Part::Number, 37);
    case("doubled-37", grammar, graph, &chart.words, ROOM);
}

/// A derivation of n applications, each but the last one a renaming of the next.
fn nested_file(grammar: &[u64], graph: &[u64], n: usize) {
    let mut text = format!("D{n:4}\n");
    for i in 0..n {
        let (rule, part) = if i + 1 < n { (1, i + 1) } else { (0, 0) };
        text += &format!("A{i:4}{rule:4}{:4}{:4}{part:4}\n", 0, 1);
    }
    println!("nested-file {n} {}", replay_number(grammar, graph, text.as_bytes()));
}

pub fn print_all(data: &Data, layout: &Layout) {
    let a = data.grammar("g-a.txt");
    for name in ["k1", "k3", "k4", "k6"] {
        let graph = data.graph(&a, &format!("h-{name}.txt"));
        case(&format!("write-{name}"), &a, &graph, &finished(&a, &graph), 64);
    }
    let k2 = data.graph(&a, "h-k2.txt");
    case("k10-58", &a, &k2, &finished(&a, &k2), 58);
    case("k10-57", &a, &k2, &finished(&a, &k2), 57);
    touched_charts("write-k2", &a, &k2, layout);
    let b = data.grammar("g-b.txt");
    touched_charts("write-k5", &b, &data.graph(&b, "h-k5.txt"), layout);
    // With this grammar K6's graph has two derivations.
    let two = data.grammar("g-two.txt");
    touched_charts("write-two", &two, &data.graph(&two, "h-k6.txt"), layout);
    // Rule 1 renames, rule 2 has two nonterminal edges.
    let nested = data.grammar("g-nested.txt");
    let k1 = data.graph(&nested, "h-k1.txt");
    nested_charts(&nested, &k1, layout);
    doubled_charts(&nested, &k1, layout);
    nested_file(&nested, &k1, 4096);
    nested_file(&nested, &k1, 4097);
}
