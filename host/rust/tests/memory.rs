//! What the calls leave as it was: all that is lent, compared before and after.

mod common;

use bobbinmarl::calls::{self, Answer, Fault, Outcome, Verdict};
use bobbinmarl::{Item, DERIVATION_BYTES};
use common::layout::{words_for, Layout, Part, COUNT, EDGES, FIRST, HANDLED, KIND, NODES, OF, PLAN, SECOND};
use common::{example, stored, texts, unchanged, with_line, Lent};

const K2_BYTES: usize = 58;

#[test]
fn words_to_lend() {
    assert_eq!((calls::grammar_words(), calls::graph_words()), (1665, 65));
    assert_eq!([0, 4097, usize::MAX].map(calls::chart_words), [None; 3]);
    assert_eq!(DERIVATION_BYTES, 303_110);
}

/// So many words hold so many items, and one word less holds one item less. Words whose bits are all 1 name more items than they hold.
#[test]
fn words_of_a_chart() {
    for items in [1, 2, 3, 10, 2048, 4095, 4096] {
        let words = calls::chart_words(items).unwrap();
        assert_eq!(words, words_for(items));
        assert_eq!(calls::items(&vec![u64::MAX; words]), items as u64);
        assert_eq!(calls::items(&vec![u64::MAX; words - 1]), items as u64 - 1);
    }
}

#[test]
fn short_tables_are_refused() {
    let (grammar, graph) = texts("k2");
    for words in [0, 1, 100, 1664] {
        let mut lent = Lent::new(words, 65, words_for(1), 0);
        assert_eq!(
            unchanged(&mut lent, |lent| lent.read_grammar(&grammar)),
            Err(Fault::Table)
        );
        assert_eq!(unchanged(&mut lent, |lent| lent.read_graph(&graph)), Err(Fault::Table));
    }
    for words in [0, 1, 10, 64] {
        let mut lent = Lent::new(1665, words, words_for(1), 0);
        assert_eq!(lent.read_grammar(&grammar), Ok(()));
        assert_eq!(unchanged(&mut lent, |lent| lent.read_graph(&graph)), Err(Fault::Table));
    }
}

/// A fault of the text comes ahead of a short table of its own, and behind the grammar's table.
#[test]
fn order_of_the_questions() {
    let (grammar, graph) = texts("k2");
    let bad_grammar = with_line(&grammar, "P   1   1   1", "P   1   0   1\n");
    let bad_graph = with_line(&graph, "E   0   1   2", "E   0   1   3\n");
    let mut lent = Lent::new(1664, 64, words_for(1), 0);
    assert_eq!(
        unchanged(&mut lent, |lent| lent.read_grammar(&bad_grammar)),
        Err(Fault::Plan)
    );
    assert_eq!(
        unchanged(&mut lent, |lent| lent.read_graph(&bad_graph)),
        Err(Fault::Table)
    );
    let mut lent = Lent::new(1665, 64, words_for(1), 0);
    assert_eq!(lent.read_grammar(&grammar), Ok(()));
    assert_eq!(
        unchanged(&mut lent, |lent| lent.read_graph(&bad_graph)),
        Err(Fault::Node)
    );
}

/// Longer tables are taken, and what lies behind stays. The largest grammar and graph fill theirs to the last word.
#[test]
fn words_behind_the_tables_stay() {
    let (grammar, graph) = (stored("g-big.txt"), stored("h-big.txt"));
    let mut lent = Lent::new(1665 + 7, 65 + 7, words_for(1), 0);
    let mut before = lent.clone();
    assert_eq!(lent.read_grammar(&grammar), Ok(()));
    assert!(lent.grammar()[..1665] != before.grammar()[..1665]);
    before.grammar()[..1665].copy_from_slice(&lent.grammar()[..1665]);
    assert!(lent == before, "only the grammar table changed");
    assert_eq!(lent.read_graph(&graph), Ok(()));
    assert!(lent.graph()[..65] != before.graph()[..65]);
    before.graph()[..65].copy_from_slice(&lent.graph()[..65]);
    assert!(lent == before, "only the graph table changed");
    let mut exact = Lent::new(1665, 65, words_for(1), 0);
    assert_eq!(
        (exact.read_grammar(&grammar), exact.read_graph(&graph)),
        (Ok(()), Ok(()))
    );
    assert!(exact.grammar() == &lent.grammar()[..1665] && exact.graph() == &lent.graph()[..65]);
}

/// Every call on tables that no texts have filled is 8. The derivation and the chart would pass else.
fn refused_tables(lent: &mut Lent) {
    let derivation = example("k2", "derivation.txt");
    assert_eq!(unchanged(lent, |lent| lent.start()), Outcome::Unfit);
    assert_eq!(unchanged(lent, |lent| lent.run(5)), Outcome::Unfit);
    assert_eq!(unchanged(lent, |lent| lent.write()), Answer::Unfit);
    assert_eq!(unchanged(lent, |lent| lent.replay(&derivation)), Verdict::Unfit);
}

#[test]
fn touched_tables_are_refused() {
    let graph = example("k2", "graph.txt");
    for at in [0, 1, 2, 1664] {
        let mut lent = Lent::run_for("k2", 10, K2_BYTES, 10);
        lent.grammar()[at] += 9999;
        assert_eq!(unchanged(&mut lent, |lent| lent.read_graph(&graph)), Err(Fault::Table));
        assert_eq!(unchanged(&mut lent, |lent| lent.read_graph(b"x")), Err(Fault::Table));
        refused_tables(&mut lent);
    }
    for at in [0, 1, 64] {
        let mut lent = Lent::run_for("k2", 10, K2_BYTES, 10);
        lent.graph()[at] += 9999;
        refused_tables(&mut lent);
    }
}

/// The same with memory that was never a table.
#[test]
fn unread_tables_are_refused() {
    let mut lent = Lent::full(10, K2_BYTES);
    refused_tables(&mut lent);
    assert_eq!(lent.read_grammar(&example("k2", "grammar.txt")), Ok(()));
    refused_tables(&mut lent);
}

/// Charts too short for one item, and of 4,097.
#[test]
fn charts_of_no_size_are_refused() {
    let derivation = example("k2", "derivation.txt");
    for words in [0, 1, 2, words_for(1) - 1, words_for(4097), words_for(4097) + 1] {
        let mut lent = Lent::new(1665, 65, words, K2_BYTES);
        let (grammar, graph) = texts("k2");
        assert_eq!((lent.read_grammar(&grammar), lent.read_graph(&graph)), (Ok(()), Ok(())));
        assert_eq!(
            unchanged(&mut lent, |lent| lent.start()),
            Outcome::Unfit,
            "{words} words"
        );
        assert_eq!(
            unchanged(&mut lent, |lent| lent.run(1)),
            Outcome::Unfit,
            "{words} words"
        );
        assert_eq!(
            unchanged(&mut lent, |lent| lent.write()),
            Answer::Unfit,
            "{words} words"
        );
        assert_eq!(unchanged(&mut lent, |lent| lent.replay(&derivation)), Verdict::Passed);
    }
}

/// A chart holds as many items as fit; words behind the last one stay, and so does all else that is lent.
#[test]
fn words_behind_the_last_item_stay() {
    for (words, items) in [
        (words_for(1), 1),
        (words_for(2) - 1, 1),
        (words_for(10), 10),
        (words_for(11) - 1, 10),
        (words_for(4097) - 1, 4096),
    ] {
        let mut lent = Lent::new(1665, 65, words, K2_BYTES);
        let (grammar, graph) = texts("k2");
        assert_eq!((lent.read_grammar(&grammar), lent.read_graph(&graph)), (Ok(()), Ok(())));
        let mut before = lent.clone();
        let (started, ran) = (lent.start(), lent.run(items as u64));
        if items < 10 {
            assert_eq!((started, ran), (Outcome::TooSmall, Outcome::TooSmall));
        } else {
            assert_eq!((started, ran), (Outcome::Done(0), Outcome::Done(10)));
        }
        let behind = words_for(items);
        assert_eq!(lent.chart()[behind..], before.chart()[behind..]);
        assert!(lent.same_but_chart(&before));
    }
}

/// A start looks at the chart's size alone.
#[test]
fn a_start_does_not_look_at_the_words() {
    let mut first = Lent::run_for("pump", 15, 0, 15);
    let mut second = Lent::run_for("pump", 15, 0, 4);
    assert_eq!((first.start(), second.start()), (Outcome::Done(0), Outcome::Done(0)));
    assert_eq!(
        (first.run(14), second.run(14)),
        (Outcome::Unfinished(14), Outcome::Unfinished(14))
    );
    assert_eq!((first.run(1), second.run(1)), (Outcome::Done(15), Outcome::Done(15)));
    assert!(first.chart() == second.chart());
}

#[test]
fn k9_no_steps_change_nothing() {
    let mut lent = Lent::run_for("k2", 10, K2_BYTES, 0);
    assert_eq!(unchanged(&mut lent, |lent| lent.run(0)), Outcome::Unfinished(0));
    assert_eq!(lent.run(5), Outcome::Unfinished(5));
    assert_eq!(unchanged(&mut lent, |lent| lent.run(0)), Outcome::Unfinished(5));
    assert_eq!(lent.run(5), Outcome::Done(10));
    assert_eq!(unchanged(&mut lent, |lent| lent.run(0)), Outcome::Done(10));
    assert_eq!(unchanged(&mut lent, |lent| lent.run(u64::MAX)), Outcome::Done(10));
}

/// A run of waiting items changes the chart alone, and a writing then nothing.
#[test]
fn unfinished_charts() {
    let mut lent = Lent::run_for("k2", 10, K2_BYTES, 0);
    for steps in 1..10 {
        let before = lent.clone();
        assert_eq!(lent.run(1), Outcome::Unfinished(steps));
        assert!(lent != before && lent.same_but_chart(&before));
        assert_eq!(unchanged(&mut lent, |lent| lent.write()), Answer::Unfinished(steps));
    }
    assert_eq!(lent.run(1), Outcome::Done(10));
}

/// A chart that is found too small says so ever after, and keeps the items that it has handled.
#[test]
fn charts_that_are_too_small() {
    for items in 2..10 {
        let mut lent = Lent::run_for("k2", items, K2_BYTES, 0);
        let before = lent.clone();
        assert_eq!(lent.run(100), Outcome::TooSmall, "{items} items");
        assert!(lent.same_but_chart(&before));
        assert_eq!(lent.items().len(), items);
        assert!(lent.items().iter().any(|item| item.handled == 1));
        for _ in 0..2 {
            assert_eq!(unchanged(&mut lent, |lent| lent.run(100)), Outcome::TooSmall);
            assert_eq!(unchanged(&mut lent, |lent| lent.write()), Answer::TooSmall);
        }
        assert_eq!(lent.start(), Outcome::Done(0));
        assert_eq!(lent.run(0), Outcome::Unfinished(0));
    }
}

/// One run of all steps, against runs in pieces of every size.
#[test]
fn pieces_equal_one_run() {
    for (folder, closure) in [
        ("k2", 10),
        ("k3", 8),
        ("pump", 15),
        ("rank0", 14),
        ("renaming", 8),
        ("parallel", 5),
    ] {
        let mut whole = Lent::run_for(folder, 20, 0, closure);
        for piece in 1..=closure {
            let mut lent = Lent::run_for(folder, 20, 0, 0);
            let mut done = 0;
            while done < closure {
                done = closure.min(done + piece);
                let outcome = lent.run(piece);
                let due = if done < closure {
                    Outcome::Unfinished(done)
                } else {
                    Outcome::Done(done)
                };
                assert_eq!(outcome, due, "{folder} in pieces of {piece}");
            }
            assert!(lent.chart() == whole.chart(), "{folder} in pieces of {piece}");
        }
    }
}

/// The same on the largest chart: a path of 45 edges with a closure of 2,117 items.
#[test]
fn pieces_of_a_large_chart() {
    let mut whole = Lent::run_for("too-many-items", 4096, 0, 4096);
    let mut lent = Lent::run_for("too-many-items", 4096, 0, 0);
    for piece in 1..=21 {
        assert_eq!(lent.run(100), Outcome::Unfinished(100 * piece));
    }
    assert_eq!(lent.run(100), Outcome::Done(2117));
    assert!(lent.chart() == whole.chart());
}

/// K10 with every length of output up to two bytes more than are needed.
#[test]
fn room_for_the_derivation() {
    let derivation = example("k2", "derivation.txt");
    for length in 0..K2_BYTES {
        let mut lent = Lent::run_for("k2", 10, length, 10);
        assert_eq!(
            unchanged(&mut lent, |lent| lent.write()),
            Answer::NoRoom,
            "{length} bytes"
        );
    }
    for length in K2_BYTES..K2_BYTES + 3 {
        let mut lent = Lent::run_for("k2", 10, length, 10);
        let mut before = lent.clone();
        assert_eq!(lent.write(), Answer::Written(K2_BYTES));
        assert_eq!(lent.out()[..K2_BYTES], derivation);
        before.out()[..K2_BYTES].copy_from_slice(&derivation);
        assert!(lent == before, "{length} bytes: the rest stays");
    }
}

#[test]
fn underivable_graphs() {
    for (folder, closure) in [("k3", 8), ("k4", 5), ("k6", 8)] {
        let mut lent = Lent::run_for(folder, 20, 100, 20);
        assert_eq!(unchanged(&mut lent, |lent| lent.run(20)), Outcome::Done(closure));
        assert_eq!(unchanged(&mut lent, |lent| lent.write()), Answer::Underivable);
    }
}

/// Charts that something else has written to: 8 where an item names what does not exist, else by what stands there.
#[test]
fn touched_charts() {
    // (part, value, what a run of no steps says): as in tests/cases/expected.
    let cases = [
        (Part::Field(0, KIND), 2, Outcome::Unfit),
        (Part::Field(0, OF), 2, Outcome::Unfit),
        (Part::Field(0, PLAN), 3, Outcome::Unfit),
        (Part::Field(0, EDGES), 4, Outcome::Unfit),
        (Part::Field(0, NODES), 3, Outcome::Unfit),
        (Part::Field(2, FIRST), 10, Outcome::Unfit),
        (Part::Number, 11, Outcome::Unfit),
        (Part::Field(0, COUNT), 99, Outcome::Done(10)),
        (Part::Field(0, HANDLED), 0, Outcome::Unfinished(9)),
        (Part::Mark, 5, Outcome::TooSmall),
    ];
    let layout = Layout::learn();
    for (part, value, outcome) in cases {
        let mut lent = Lent::run_for("k2", 10, K2_BYTES, 10);
        lent.touch(&layout, part, value);
        assert_eq!(
            unchanged(&mut lent, |lent| lent.run(0)),
            outcome,
            "{part:?} set to {value}"
        );
        let answer = match outcome {
            Outcome::Unfit => Answer::Unfit,
            Outcome::TooSmall => Answer::TooSmall,
            Outcome::Unfinished(steps) => Answer::Unfinished(steps),
            Outcome::Done(_) => Answer::Written(K2_BYTES),
        };
        let before = lent.clone();
        assert_eq!(lent.write(), answer, "{part:?} set to {value}");
        assert!((lent == before) == !matches!(answer, Answer::Written(_)));
    }
}

/// A chart whose items lead nowhere: the goal made its own part. 8 comes behind 11, and no byte is written.
#[test]
fn a_chart_that_leads_to_no_derivation() {
    let mut lent = Lent::run_for("k2", 10, K2_BYTES, 10);
    // Of the goal: kind 1, symbol 1, both edges. Its first partner is the root item it was made from.
    let is_goal = |item: &Item| (item.kind, item.of, item.edges) == (1, 1, 3);
    let goal = lent.items().iter().position(is_goal).unwrap();
    let root = lent.items()[goal].first as usize;
    lent.touch(&Layout::learn(), Part::Field(root, SECOND), goal as u64);
    assert_eq!(unchanged(&mut lent, |lent| lent.run(0)), Outcome::Done(10));
    assert_eq!(unchanged(&mut lent, |lent| lent.write()), Answer::Unfit);
}

#[test]
fn replay_changes_nothing() {
    let mut lent = Lent::read("k2", 1, 0);
    let good = example("k2", "derivation.txt");
    assert_eq!(unchanged(&mut lent, |lent| lent.replay(&good)), Verdict::Passed);
    for at in 0..good.len() {
        let mut bad = good.clone();
        bad[at] ^= 1;
        assert_eq!(
            unchanged(&mut lent, |lent| lent.replay(&bad)),
            Verdict::NoDerivation,
            "byte {at}"
        );
        assert_eq!(
            unchanged(&mut lent, |lent| lent.replay(&good[..at])),
            Verdict::NoDerivation,
            "{at} bytes"
        );
    }
}

#[test]
fn slices_of_length_zero() {
    assert_eq!(calls::read_grammar(&[], &mut []), Err(Fault::Letter));
    assert_eq!(
        calls::read_grammar(&example("k2", "grammar.txt"), &mut []),
        Err(Fault::Table)
    );
    assert_eq!(calls::read_graph(&[], &[], &mut []), Err(Fault::Table));
    assert_eq!(calls::start(&[], &[], &mut []), Outcome::Unfit);
    assert_eq!(calls::run(&[], &[], &mut [], 0), Outcome::Unfit);
    assert_eq!(calls::write(&[], &[], &[], &mut []), Answer::Unfit);
    assert_eq!(calls::replay(&[], &[], &[]), Verdict::Unfit);
    let mut lent = Lent::run_for("k2", 10, 0, 10);
    assert_eq!(unchanged(&mut lent, |lent| lent.read_grammar(&[])), Err(Fault::Letter));
    assert_eq!(unchanged(&mut lent, |lent| lent.read_graph(&[])), Err(Fault::Letter));
    assert_eq!(unchanged(&mut lent, |lent| lent.write()), Answer::NoRoom);
    assert_eq!(unchanged(&mut lent, |lent| lent.replay(&[])), Verdict::NoDerivation);
}

/// Slices that are only read may be one and the same.
#[test]
fn shared_slices_may_overlap() {
    let mut table = vec![0; calls::grammar_words()];
    assert_eq!(calls::read_grammar(&example("k2", "grammar.txt"), &mut table), Ok(()));
    assert_eq!(
        calls::replay(&table, &table, &example("k2", "derivation.txt")),
        Verdict::Unfit
    );
    assert_eq!(calls::write(&table, &table, &table, &mut [0; K2_BYTES]), Answer::Unfit);
}
