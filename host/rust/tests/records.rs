//! Application records, beside the text that the same chart is written as.

mod common;

use bobbinmarl::calls::{self, Answer, Application, Outcome, Verdict};
use bobbinmarl::{text_of, Chart, Grammar, Graph, Item, Refusal, DERIVATION_BYTES, MOST_APPLICATIONS};
use common::layout::{words_for, Layout, Part, SECOND};
use common::{example, names, root, texts, unchanged, Lent};
use std::collections::BTreeSet;
use std::mem::{offset_of, size_of};

/// The records of K2's derivation.
const K2: [Application; 2] = [
    Application {
        rule: 1,
        node_count: 3,
        part_count: 2,
        nodes: [0, 2, 1, 0, 0, 0, 0, 0],
        parts: [0, 1, 0, 0, 0, 0, 0, 0],
    },
    Application {
        rule: 0,
        node_count: 2,
        part_count: 1,
        nodes: [1, 2, 0, 0, 0, 0, 0, 0],
        parts: [1, 0, 0, 0, 0, 0, 0, 0],
    },
];

/// A finished chart of ten items for K2, and a row of so many records.
fn finished_k2(rows: usize) -> Lent {
    Lent::run_for("k2", 10, 0, 10).with_rows(rows)
}

/// Fills a row that holds the derivation: its records. Records behind them stay, and so does all else.
fn filled(lent: &mut Lent) -> Vec<Application> {
    let mut before = lent.clone();
    let Answer::Written(count) = lent.fill() else {
        panic!("the row is not filled");
    };
    let records = lent.rows()[..count].to_vec();
    before.rows()[..count].copy_from_slice(&records);
    assert!(*lent == before, "more than {count} records changed");
    records
}

#[test]
fn layout_of_the_header() {
    assert_eq!(size_of::<Application>(), 152);
    let offsets = [
        offset_of!(Application, rule),
        offset_of!(Application, node_count),
        offset_of!(Application, part_count),
        offset_of!(Application, nodes),
        offset_of!(Application, parts),
    ];
    assert_eq!(offsets, [0, 8, 16, 24, 88]);
}

#[test]
fn records_of_k2() {
    for length in 2..6 {
        assert_eq!(filled(&mut finished_k2(length)), K2, "a row of {length}");
    }
    assert_eq!((K2[0].nodes(), K2[0].parts()), (&[0, 2, 1][..], &[0, 1][..]));
    assert_eq!((K2[1].nodes(), K2[1].parts()), (&[1, 2][..], &[1][..]));
}

/// The examples that `derive` derives, with the number of applications.
fn derivable() -> Vec<(String, usize)> {
    let folders = names("examples").into_iter().filter(|name| {
        let folder = root().join("examples").join(name);
        folder.is_dir()
    });
    let counted = folders.filter_map(|folder| {
        let expected = String::from_utf8(example(&folder, "expected")).unwrap();
        let count = expected.lines().next()?.strip_prefix('D')?.trim().parse().ok()?;
        Some((folder, count))
    });
    counted.collect()
}

/// The nodes and edges of each rule, by a grammar's text.
fn sizes_of_rules(grammar: &[u8]) -> Vec<(u64, u64)> {
    let lines = std::str::from_utf8(grammar).unwrap().lines();
    let rules = lines.filter_map(|line| line.strip_prefix('R'));
    let sizes = rules.map(|fields| {
        let fields: Vec<u64> = fields.split_whitespace().map(|field| field.parse().unwrap()).collect();
        (fields[2], fields[3])
    });
    sizes.collect()
}

/// As many nodes and parts as the rule has, and 0 in every other place.
fn has_its_size(record: &Application, sizes: &[(u64, u64)]) -> bool {
    let unused = record.nodes[record.nodes().len()..]
        .iter()
        .chain(&record.parts[record.parts().len()..]);
    (record.node_count, record.part_count) == sizes[record.rule as usize] && unused.copied().all(|place| place == 0)
}

#[test]
fn records_of_the_examples_are_their_texts() {
    let examples = derivable();
    assert!(!examples.is_empty());
    for (folder, count) in examples {
        let mut lent = Lent::run_for(&folder, 2048, DERIVATION_BYTES, 2048).with_rows(count + 3);
        let records = filled(&mut lent);
        assert_eq!(records.len(), count, "{folder}");
        let sizes = sizes_of_rules(&example(&folder, "grammar.txt"));
        assert!(
            records.iter().all(|record| has_its_size(record, &sizes)),
            "{folder}: {records:?}"
        );
        let Answer::Written(bytes) = lent.write() else {
            panic!("{folder} is not written");
        };
        let text = text_of(&records);
        assert_eq!(text, lent.out()[..bytes], "{folder}");
        assert_eq!(lent.replay(&text), Verdict::Passed, "{folder}");
    }
}

/// Every row that is too short, and one that is just long enough.
#[test]
fn room_for_the_records() {
    for (folder, count) in derivable() {
        let lent = Lent::run_for(&folder, 2048, 0, 2048);
        for length in 0..count {
            let mut lent = lent.clone().with_rows(length);
            let answer = unchanged(&mut lent, |lent| lent.fill());
            assert_eq!(answer, Answer::NoRoom, "{folder}, a row of {length}");
        }
        assert_eq!(filled(&mut lent.with_rows(count)).len(), count, "{folder}");
    }
}

#[test]
fn refused_tables_and_charts_leave_the_row() {
    for at in [0, 1, 2, 1664] {
        let mut lent = finished_k2(3);
        lent.grammar()[at] += 9999;
        assert_eq!(unchanged(&mut lent, |lent| lent.fill()), Answer::Unfit, "word {at}");
    }
    for at in [0, 1, 64] {
        let mut lent = finished_k2(3);
        lent.graph()[at] += 9999;
        assert_eq!(unchanged(&mut lent, |lent| lent.fill()), Answer::Unfit, "word {at}");
    }
    let (grammar, graph) = texts("k2");
    for words in [0, 1, 2, words_for(1) - 1, words_for(4097)] {
        let mut lent = Lent::new(1665, 65, words, 0).with_rows(3);
        assert_eq!(unchanged(&mut lent, |lent| lent.fill()), Answer::Unfit);
        assert_eq!((lent.read_grammar(&grammar), lent.read_graph(&graph)), (Ok(()), Ok(())));
        assert_eq!(unchanged(&mut lent, |lent| lent.fill()), Answer::Unfit, "{words} words");
    }
}

#[test]
fn charts_that_are_too_small_leave_the_row() {
    for items in 2..10 {
        let mut lent = Lent::run_for("k2", items, 0, 10).with_rows(3);
        assert_eq!(unchanged(&mut lent, |lent| lent.run(0)), Outcome::TooSmall);
        assert_eq!(unchanged(&mut lent, |lent| lent.fill()), Answer::TooSmall);
    }
}

#[test]
fn unfinished_charts_leave_the_row() {
    for steps in 0..10 {
        let mut lent = Lent::run_for("k2", 10, 0, steps).with_rows(3);
        assert_eq!(unchanged(&mut lent, |lent| lent.fill()), Answer::Unfinished(steps));
    }
}

#[test]
fn underivable_graphs_leave_the_row() {
    for folder in ["k3", "k4", "k6"] {
        let mut lent = Lent::run_for(folder, 20, 0, 20).with_rows(3);
        assert_eq!(
            unchanged(&mut lent, |lent| lent.fill()),
            Answer::Underivable,
            "{folder}"
        );
    }
}

/// A row of no records: 12 comes behind every other refusal.
#[test]
fn rows_of_length_zero() {
    assert_eq!(calls::fill(&[], &[], &[], &mut []), Answer::Unfit);
    assert_eq!(unchanged(&mut finished_k2(0), |lent| lent.fill()), Answer::NoRoom);
    let cases = [
        ("k2", 9, 9, Answer::TooSmall),
        ("k2", 10, 9, Answer::Unfinished(9)),
        ("k3", 10, 10, Answer::Underivable),
    ];
    for (folder, items, steps, answer) in cases {
        let mut lent = Lent::run_for(folder, items, 0, steps);
        assert_eq!(unchanged(&mut lent, |lent| lent.fill()), answer, "{folder}");
    }
}

/// A chart whose goal is its own part: it leads to no derivation, and that comes ahead of a short row.
#[test]
fn a_chart_that_leads_to_no_derivation() {
    let layout = Layout::learn();
    for length in [0, 3] {
        let mut lent = finished_k2(length);
        let is_goal = |item: &Item| (item.kind, item.of, item.edges) == (1, 1, 3);
        let goal = lent.items().iter().position(is_goal).unwrap();
        let root = lent.items()[goal].first as usize;
        lent.touch(&layout, Part::Field(root, SECOND), goal as u64);
        assert_eq!(unchanged(&mut lent, |lent| lent.run(0)), Outcome::Done(10));
        assert_eq!(
            unchanged(&mut lent, |lent| lent.fill()),
            Answer::Unfit,
            "a row of {length}"
        );
    }
}

/// Writes and fills: a refusal is the same of both and changes nothing, and else both are one derivation.
fn written_and_filled(lent: &mut Lent) -> Answer {
    let (mut text, mut row) = (lent.clone(), lent.clone());
    let (written, filled) = (text.write(), row.fill());
    if let (Answer::Written(bytes), Answer::Written(count)) = (written, filled) {
        assert_eq!(text_of(&row.rows()[..count]), text.out()[..bytes]);
        assert_eq!(lent.replay(&text.out()[..bytes]), Verdict::Passed);
        lent.rows()[..count].copy_from_slice(&row.rows()[..count]);
    } else {
        assert_eq!(filled, written);
    }
    assert!(row == *lent, "more changed than the records");
    filled
}

/// Finished charts that are small, each with as many items as it holds.
const SMALL: [(&str, usize); 4] = [("k2", 10), ("renaming", 8), ("rank0", 14), ("pump", 15)];

fn finished(folder: &str, items: usize) -> Lent {
    Lent::run_for(folder, items, 1000, items as u64).with_rows(40)
}

/// Every field, the number of items and the mark set to values in and out of their ranges.
#[test]
fn touched_charts_are_filled_as_they_are_written() {
    let layout = Layout::learn();
    let mut seen = BTreeSet::new();
    for (folder, items) in SMALL {
        let finished = finished(folder, items);
        for part in layout.parts(items) {
            for value in [0, 1, 2, 3, 4, 5, 7, 8, 10, 14, 63, 64, 65, layout.most(part)] {
                let mut lent = finished.clone();
                lent.touch(&layout, part, value);
                seen.insert(written_and_filled(&mut lent).number());
            }
        }
    }
    assert_eq!(seen, BTreeSet::from([0, 8, 9, 10, 11]));
}

/// Every bit of their words changed.
#[test]
fn changed_bits_are_filled_as_they_are_written() {
    for (folder, items) in SMALL {
        let mut lent = finished(folder, items);
        for bit in 0..64 * words_for(items) {
            lent.chart()[bit / 64] ^= 1 << (bit % 64);
            written_and_filled(&mut lent);
            lent.chart()[bit / 64] ^= 1 << (bit % 64);
        }
    }
}

/// Slices that are only read may be one and the same.
#[test]
fn shared_slices_may_overlap() {
    let mut table = vec![0; calls::grammar_words()];
    assert_eq!(calls::read_grammar(&example("k2", "grammar.txt"), &mut table), Ok(()));
    let mut rows = K2;
    assert_eq!(calls::fill(&table, &table, &table, &mut rows), Answer::Unfit);
    assert_eq!(rows, K2);
}

/// Puts a chart of so many items, with so many steps done, to a test.
fn with_chart(folder: &str, items: usize, steps: u64, test: impl FnOnce(Chart)) {
    let (grammar, graph) = texts(folder);
    let grammar = Grammar::read(&grammar).unwrap();
    let graph = Graph::read(&grammar, &graph).unwrap();
    let mut chart = Chart::start(&graph, items).unwrap();
    let _ = chart.run(steps);
    test(chart);
}

/// The same through the owning types.
#[test]
fn owned_charts() {
    with_chart("k2", 2048, 2048, |chart| {
        let mut rows = [K2[1]; 3];
        assert_eq!(chart.fill(&mut rows[..1]), Err(Refusal::NoRoom));
        assert_eq!(rows, [K2[1]; 3]);
        rows[1] = K2[0];
        rows[2] = K2[0];
        assert_eq!(chart.fill(&mut rows), Ok(2));
        assert_eq!(rows, [K2[0], K2[1], K2[0]]);
        assert_eq!(chart.applications().unwrap(), K2);
    });
    with_chart("k2", 2048, 9, |chart| {
        assert_eq!(chart.applications(), Err(Refusal::Unfinished(9)))
    });
    with_chart("k2", 9, 9, |chart| {
        assert_eq!(chart.applications(), Err(Refusal::TooSmall))
    });
    with_chart("k3", 9, 9, |chart| {
        assert_eq!(chart.applications(), Err(Refusal::Underivable))
    });
    with_chart("too-many-items", 2117, 2117, |chart| {
        let rows = chart.applications().unwrap();
        assert_eq!(rows.len(), 45);
        assert_eq!(text_of(&rows), chart.derivation().unwrap());
    });
}

#[test]
fn rows_as_texts() {
    assert_eq!(text_of(&[]), b"D   0\n");
    assert_eq!(text_of(&K2), example("k2", "derivation.txt"));
    // 4,096 records with every place in use fill the longest derivation.
    let full = Application {
        rule: 9999,
        node_count: 8,
        part_count: 8,
        nodes: [9999; 8],
        parts: [0; 8],
    };
    let longest = text_of(&[full; MOST_APPLICATIONS]);
    assert_eq!(longest.len(), DERIVATION_BYTES);
    let line = format!("A{:4}9999{}{}\n", 4095, "9999".repeat(8), "   0".repeat(8));
    assert!(longest.ends_with(line.as_bytes()));
}

/// Rows that the library has not filled: no count goes beyond its places, and no number beyond its field.
#[test]
fn rows_from_elsewhere_as_texts() {
    let counts = Application {
        node_count: 9,
        part_count: u64::MAX,
        ..Application::default()
    };
    assert_eq!((counts.nodes(), counts.parts()), (&[0; 8][..], &[0; 8][..]));
    assert_eq!(
        text_of(&[counts]),
        format!("D   1\nA{}\n", "   0".repeat(18)).as_bytes()
    );
    let wide = Application {
        parts: [10_000, 0, 0, 0, 0, 0, 0, 0],
        ..K2[1]
    };
    assert_eq!(
        text_of(&[K2[0], wide]),
        b"D   2\nA   0   1   0   2   1   0   1\nA   1   0   1   2   ?\n"
    );
}
