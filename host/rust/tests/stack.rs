//! Derivations that nest as deep as can be, and the stack for them.

mod common;

use bobbinmarl::calls::{self, Answer, Application, Verdict};
use bobbinmarl::{text_of, with_stack, Chart, Grammar, Graph, Item, Refusal, STACK_BYTES};
use common::example;
use common::layout::{words_for, Layout, Part};
use std::thread;

/// The stack of the tests' own threads where nothing else is said.
const USUAL_STACK: usize = 2 << 20;

/// Rule 0 is for an edge, rule 1 renames.
const GRAMMAR: &str = "\
G   2   2   1
S   0   0   2
S   1   1   2
R   0   1   2   1   2   0   1
E   0   0   1
P   0   0   0
P   1   0   0
R   1   1   2   1   2   0   1
E   1   0   1
P   0   0   0
P   1   0   0
";

fn grammar() -> Grammar {
    Grammar::read(GRAMMAR.as_bytes()).unwrap()
}

/// A derivation of K1's graph by n applications, each but the last one a renaming of the next.
fn nested(n: u64) -> Vec<u8> {
    let row = |i: u64| {
        let (rule, part) = if i + 1 < n { (1, i + 1) } else { (0, 0) };
        format!("A{i:4}{rule:4}   0   1{part:4}\n")
    };
    let rows: String = (0..n).map(row).collect();
    format!("D{n:4}\n{rows}").into_bytes()
}

fn on_stack<T: Send>(bytes: usize, work: impl FnOnce() -> T + Send) -> T {
    thread::scope(|scope| {
        let thread = thread::Builder::new()
            .stack_size(bytes)
            .spawn_scoped(scope, work)
            .unwrap();
        thread.join().unwrap()
    })
}

fn on_usual_stack<T: Send>(work: impl FnOnce() -> T + Send) -> T {
    on_stack(USUAL_STACK, work)
}

/// The owning types need no more than the usual stack, since they see to it themselves.
#[test]
fn nested_renamings_replay() {
    on_usual_stack(|| {
        let grammar = grammar();
        let graph = Graph::read(&grammar, &example("k1", "graph.txt")).unwrap();
        for n in [1, 2, 4095, 4096] {
            assert_eq!(graph.replay(&nested(n)), Ok(()), "{n} applications");
        }
        assert_eq!(graph.replay(&nested(4097)), Err(Refusal::NoDerivation));
        let mut bad = nested(4096);
        let last = bad.len() - 2;
        bad[last] = b'1';
        assert_eq!(graph.replay(&bad), Err(Refusal::NoDerivation));
    });
}

/// A call over slices takes the stack of its caller.
#[test]
fn nested_renamings_replay_over_slices() {
    let grammar = grammar();
    let graph = Graph::read(&grammar, &example("k1", "graph.txt")).unwrap();
    let text = nested(4096);
    let verdict = on_stack(STACK_BYTES, || calls::replay(grammar.table(), graph.table(), &text));
    assert_eq!(verdict, Verdict::Passed);
}

/// A run takes less than 512 KiB. Text and records take buffers of some 300 KiB each besides: the owning types take them elsewhere than on the caller's stack.
#[test]
fn owned_charts_need_little_stack() {
    on_stack(512 << 10, || {
        let grammar = Grammar::read(&example("k2", "grammar.txt")).unwrap();
        let graph = Graph::read(&grammar, &example("k2", "graph.txt")).unwrap();
        let mut chart = Chart::start(&graph, 10).unwrap();
        assert_eq!(chart.run(10), Ok(10));
        let mut out = vec![0; 58];
        assert_eq!(chart.write(&mut out), Ok(58));
        let mut rows = vec![Application::default(); 2];
        assert_eq!(chart.fill(&mut rows), Ok(2));
        assert_eq!(text_of(&rows), out);
        assert_eq!(chart.applications().unwrap(), rows);
        assert_eq!(graph.replay(&chart.derivation().unwrap()), Ok(()));
    });
}

/// A chart of 4,096 items that spells the deepest derivation a chart can: leaves (which have no nodes), rule 0 on the graph's
/// edge, and above it each passive item by rule 1 for the one below it.
fn deepest_chart() -> Vec<u64> {
    let layout = Layout::learn();
    let mut words = vec![0; words_for(4096)];
    layout.put(&mut words, Part::Number, 4096);
    let mut put = |place: usize, kind: u64, of: u64, plan: u64, first: usize, second: usize| {
        let (a, b) = if (kind, plan) == (0, 0) { (64, 64) } else { (0, 1) };
        let item = Item {
            kind,
            of,
            plan,
            edges: 1,
            count: 1,
            handled: 1,
            nodes: [a, b, 64, 64, 64, 64, 64, 64],
            first: first as u64,
            second: second as u64,
        };
        layout.put_item(&mut words, place, item);
    };
    put(0, 0, 0, 0, 0, 0);
    put(1, 0, 1, 0, 0, 0);
    put(2, 0, 0, 1, 0, 0);
    put(3, 1, 1, 0, 2, 0);
    for j in (4..4096).step_by(2) {
        put(j, 0, 1, 1, 1, j - 1);
        put(j + 1, 1, 1, 0, j, 0);
    }
    words
}

#[test]
fn the_deepest_chart_is_written() {
    let grammar = grammar();
    let graph = Graph::read(&grammar, &example("k1", "graph.txt")).unwrap();
    let chart = deepest_chart();
    let mut out = vec![b'x'; 45040 + 1];
    let answer = with_stack(|| calls::write(grammar.table(), graph.table(), &chart, &mut out));
    assert_eq!(answer, Answer::Written(45040));
    assert_eq!(out[..45040], nested(2047));
    assert_eq!(out[45040..], *b"x");
}

/// The same as records, with one behind them that stays.
#[test]
fn the_deepest_chart_is_filled() {
    let grammar = grammar();
    let graph = Graph::read(&grammar, &example("k1", "graph.txt")).unwrap();
    let chart = deepest_chart();
    let guard = Application {
        rule: 77,
        ..Application::default()
    };
    let mut rows = vec![guard; 2047 + 1];
    let answer = with_stack(|| calls::fill(grammar.table(), graph.table(), &chart, &mut rows[..2046]));
    assert_eq!(answer, Answer::NoRoom);
    assert!(rows.iter().all(|record| *record == guard));
    let answer = with_stack(|| calls::fill(grammar.table(), graph.table(), &chart, &mut rows));
    assert_eq!(answer, Answer::Written(2047));
    assert_eq!(text_of(&rows[..2047]), nested(2047));
    assert!(rows[..2047]
        .iter()
        .all(|record| (record.node_count, record.part_count) == (2, 1)));
    assert_eq!(rows[2047], guard);
}

/// The graph of a path with so many edges from node 0 to the last.
fn path(edges: usize) -> Vec<u8> {
    let lines: String = (0..edges).map(|i| format!("E   0{i:4}{:4}\n", i + 1)).collect();
    format!("H{:4}{edges:4}   0{edges:4}\n{lines}", edges + 1).into_bytes()
}

/// A path of n edges has a closure of n² + 2n + 2 items: 62 edges are the most that a chart holds, and one more is one
/// item too many.
#[test]
fn the_longest_path_is_derived_and_replays() {
    on_usual_stack(|| {
        let grammar = Grammar::read(&example("k2", "grammar.txt")).unwrap();
        let graph = Graph::read(&grammar, &path(62)).unwrap();
        let mut chart = Chart::start(&graph, 4096).unwrap();
        assert_eq!(chart.run(4096), Ok(62 * 62 + 2 * 62 + 2));
        let derivation = chart.derivation().unwrap();
        assert!(derivation.starts_with(b"D  62\n"));
        assert_eq!(graph.replay(&derivation), Ok(()));
        assert_eq!(text_of(&chart.applications().unwrap()), derivation);
        let graph = Graph::read(&grammar, &path(63)).unwrap();
        assert_eq!(Chart::start(&graph, 4096).unwrap().run(4096), Err(Refusal::TooSmall));
    });
}

#[test]
fn panics_go_through() {
    let caught = std::panic::catch_unwind(|| with_stack(|| panic!("told")));
    assert_eq!(caught.unwrap_err().downcast_ref::<&str>(), Some(&"told"));
}

/// What is read may be shared between threads.
#[test]
fn types_are_send_and_sync() {
    fn both<T: Send + Sync>() {}
    both::<Grammar>();
    both::<Graph<'static>>();
    both::<Chart<'static>>();
    both::<Refusal>();
    both::<Application>();
}
