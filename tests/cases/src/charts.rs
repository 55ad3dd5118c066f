//! K1 to K9 and further graphs through start and run: each line has the numbers that they answer, and the steps done; then touched charts.

use crate::layout::{words_for, Layout, Part, COUNT, EDGES, FIRST, HANDLED, KIND, NODES, OF, PLAN};
use crate::{kept, Data};
use bobbinmarl::calls::{self, Outcome};

fn steps(outcome: Outcome) -> u64 {
    match outcome {
        Outcome::Unfinished(steps) | Outcome::Done(steps) => steps,
        Outcome::Unfit | Outcome::TooSmall => 0,
    }
}

/// The words of a chart of so many items, which say something else.
pub fn lent(items: usize) -> Vec<u64> {
    vec![7; words_for(items)]
}

/// Starts and runs in pieces of these steps, on one line.
fn run(name: &str, grammar: &[u64], graph: &[u64], chart: &mut [u64], pieces: &[u64]) {
    print!("{name} {}", calls::start(grammar, graph, chart).number());
    for &piece in pieces {
        let outcome = calls::run(grammar, graph, chart, piece);
        print!(" {} {}", outcome.number(), steps(outcome));
    }
    println!();
}

/// The chart of ten items after all steps.
pub fn finished(grammar: &[u64], graph: &[u64]) -> Vec<u64> {
    let mut chart = lent(10);
    calls::start(grammar, graph, &mut chart);
    calls::run(grammar, graph, &mut chart, u64::MAX);
    chart
}

/// K9: no steps on a fresh chart.
fn no_steps(grammar: &[u64], graph: &[u64]) {
    let mut chart = lent(10);
    let started = calls::start(grammar, graph, &mut chart).number();
    let before = chart.clone();
    let outcome = calls::run(grammar, graph, &mut chart, 0);
    println!("k9 {started} {} {} {}", outcome.number(), steps(outcome), kept(chart == before));
}

/// K2's finished chart with another number somewhere: no steps. In item 0, a leaf's: kind, rule, plan node, edges and a node; the first partner of
/// item 2, the number of items; then what is not asked: count and handled word of item 0, and the mark.
fn touched(grammar: &[u64], graph: &[u64], layout: &Layout) {
    let parts = [
        ("kind-0", Part::Field(0, KIND), 2),
        ("of-0", Part::Field(0, OF), 2),
        ("plan-0", Part::Field(0, PLAN), 3),
        ("edges-0", Part::Field(0, EDGES), 4),
        ("node-0", Part::Field(0, NODES), 3),
        ("first-2", Part::Field(2, FIRST), 10),
        ("number", Part::Number, 11),
        ("count-0", Part::Field(0, COUNT), 99),
        ("handled-0", Part::Field(0, HANDLED), 0),
        ("mark", Part::Mark, 5),
    ];
    for (name, part, value) in parts {
        let mut chart = finished(grammar, graph);
        layout.put(&mut chart, part, value);
        let before = chart.clone();
        let outcome = calls::run(grammar, graph, &mut chart, 0);
        println!(
            "touched-chart {name} {value} {} {} {}",
            outcome.number(),
            steps(outcome),
            kept(chart == before)
        );
    }
}

fn with_k2(grammar: &[u64], graph: &[u64], layout: &Layout) {
    run("k7", grammar, graph, &mut lent(9), &[u64::MAX]);
    run("k7", grammar, graph, &mut lent(10), &[u64::MAX]);
    run("k8", grammar, graph, &mut lent(10), &[9, 1]);
    no_steps(grammar, graph);
    touched(grammar, graph, layout);
    let mut one = lent(1);
    let words = one.len();
    run("size-0", grammar, graph, &mut one[..words - 1], &[0]);
    run("size-1", grammar, graph, &mut one, &[0]);
}

pub fn print_all(data: &Data, layout: &Layout) {
    let mut chart = lent(2048);
    let mut whole = |name: &str, grammar: &str, graph: &str| {
        let grammar = data.grammar(grammar);
        run(name, &grammar, &data.graph(&grammar, graph), &mut chart, &[u64::MAX]);
    };
    for name in ["k1", "k2", "k3", "k4", "k6", "path"] {
        whole(name, "g-a.txt", &format!("h-{name}.txt"));
    }
    whole("k5", "g-b.txt", "h-k5.txt");
    whole("ends", "g-ends.txt", "h-k5.txt");
    whole("join", "g-join.txt", "h-k2.txt");
    let grammar = data.grammar("g-a.txt");
    with_k2(&grammar, &data.graph(&grammar, "h-k2.txt"), layout);
}
