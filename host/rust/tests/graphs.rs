//! K1 to K10 of 01 and the folders of examples/, through the owning types.

mod common;

use bobbinmarl::{parse, Chart, Grammar, Graph, Refusal};
use common::{example, names, root, texts};

/// Does the example as `derive` does, on a chart of so many items: the steps, and the derivation or its refusal.
fn derived(folder: &str, items: usize) -> Result<(u64, Result<Vec<u8>, Refusal>), Refusal> {
    let (grammar, graph) = texts(folder);
    let grammar = Grammar::read(&grammar).map_err(Refusal::Grammar)?;
    let graph = Graph::read(&grammar, &graph).map_err(Refusal::Graph)?;
    let mut chart = Chart::start(&graph, items)?;
    let steps = chart.run(items as u64)?;
    let derivation = chart.derivation();
    if let Ok(text) = &derivation {
        assert_eq!(graph.replay(text), Ok(()), "{folder}: what is written replays");
    }
    Ok((steps, derivation))
}

/// The number of applications, by the first line.
fn applications(derivation: &[u8]) -> usize {
    let text = std::str::from_utf8(derivation).unwrap();
    let count = text.lines().next().and_then(|line| line.strip_prefix('D')).unwrap();
    assert_eq!(text.lines().count() - 1, count.trim().parse::<usize>().unwrap());
    text.lines().count() - 1
}

fn accepted(folder: &str) -> (u64, usize) {
    let (steps, derivation) = derived(folder, 2048).unwrap();
    (steps, applications(&derivation.unwrap()))
}

fn underivable(folder: &str) -> u64 {
    let (steps, derivation) = derived(folder, 2048).unwrap();
    assert_eq!(derivation, Err(Refusal::Underivable));
    steps
}

#[test]
fn k1_to_k6() {
    assert_eq!(accepted("k1"), (5, 1));
    assert_eq!(accepted("k2"), (10, 2));
    assert_eq!(underivable("k3"), 8);
    assert_eq!(underivable("k4"), 5);
    assert_eq!(accepted("k5"), (6, 2));
    assert_eq!(underivable("k6"), 8);
}

#[test]
fn k7_a_chart_of_nine_is_too_small_and_one_of_ten_is_not() {
    assert_eq!(derived("k2", 9), Err(Refusal::TooSmall));
    let (steps, derivation) = derived("k2", 10).unwrap();
    assert_eq!((steps, derivation.unwrap().len()), (10, 58));
}

/// Puts a chart of 2,048 items on K2 to a test.
fn with_k2(test: impl FnOnce(&Graph, Chart)) {
    let (grammar, graph) = texts("k2");
    let grammar = Grammar::read(&grammar).unwrap();
    let graph = Graph::read(&grammar, &graph).unwrap();
    test(&graph, Chart::start(&graph, 2048).unwrap());
}

#[test]
fn k8_nine_steps_leave_one() {
    with_k2(|_, mut chart| {
        assert_eq!(chart.run(9), Err(Refusal::Unfinished(9)));
        assert_eq!(chart.derivation(), Err(Refusal::Unfinished(9)));
        assert_eq!(chart.run(1), Ok(10));
        assert_eq!(chart.run(1), Ok(10));
    });
}

#[test]
fn k9_no_steps_change_nothing() {
    with_k2(|_, mut chart| {
        let before = chart.words().to_vec();
        assert_eq!(chart.run(0), Err(Refusal::Unfinished(0)));
        assert_eq!(chart.words(), before);
    });
}

#[test]
fn k10_the_derivation_has_58_bytes() {
    with_k2(|graph, mut chart| {
        assert_eq!(chart.run(2048), Ok(10));
        let mut out = [b'x'; 60];
        assert_eq!(chart.write(&mut out[..57]), Err(Refusal::NoRoom));
        assert_eq!(out, [b'x'; 60]);
        assert_eq!(chart.write(&mut out[..58]), Ok(58));
        assert_eq!(out[..58], example("k2", "derivation.txt"));
        assert_eq!(out[58..], *b"xx");
        assert_eq!(graph.replay(&out[..58]), Ok(()));
        assert_eq!(graph.replay(&out[..57]), Err(Refusal::NoDerivation));
        assert_eq!(graph.replay(&out[..59]), Err(Refusal::NoDerivation));
    });
}

/// A chart that is started again is as new.
#[test]
fn restart() {
    with_k2(|graph, mut chart| {
        assert_eq!(chart.run(2048), Ok(10));
        assert_eq!(chart.restart(), Ok(()));
        assert_eq!(chart.run(0), Err(Refusal::Unfinished(0)));
        assert_eq!(chart.derivation(), Err(Refusal::Unfinished(0)));
        assert_eq!(chart.run(2048), Ok(10));
        assert_eq!(chart.derivation().unwrap(), example("k2", "derivation.txt"));
        assert_eq!((chart.items(), chart.graph().table()), (2048, graph.table()));
    });
}

fn number_line(number: u64) -> Vec<u8> {
    format!("N{number:4}\n").into_bytes()
}

/// What `derive` prints, said by the wrapper.
fn printed(folder: &str) -> Vec<u8> {
    match derived(folder, 2048) {
        Ok((steps, Ok(mut text))) => {
            text.extend(format!("C{steps:4}\n").into_bytes());
            text
        }
        Ok((_, Err(refusal))) | Err(refusal) => number_line(refusal.number()),
    }
}

fn replayed(folder: &str) -> Vec<u8> {
    let (grammar, graph) = texts(folder);
    let grammar = Grammar::read(&grammar).unwrap();
    let graph = Graph::read(&grammar, &graph).unwrap();
    let verdict = graph.replay(&example(folder, "derivation.txt"));
    number_line(verdict.map_or_else(Refusal::number, |()| 0))
}

#[test]
fn examples_are_as_expected() {
    let folders: Vec<String> = names("examples")
        .into_iter()
        .filter(|name| root().join("examples").join(name).is_dir())
        .collect();
    assert!(!folders.is_empty());
    for folder in &folders {
        assert_eq!(printed(folder), example(folder, "expected"), "{folder}");
        if root().join("examples").join(folder).join("derivation.txt").exists() {
            assert_eq!(replayed(folder), example(folder, "expected-replay"), "{folder}");
        }
    }
}

#[test]
fn parse_does_all_at_once() {
    let (grammar, graph) = texts("k2");
    assert_eq!(parse(&grammar, &graph, 10).unwrap(), example("k2", "derivation.txt"));
    assert_eq!(parse(&grammar, &graph, 9), Err(Refusal::TooSmall));
    let (grammar, graph) = texts("too-many-items");
    assert_eq!(parse(&grammar, &graph, 2048), Err(Refusal::TooSmall));
    assert_eq!(parse(&grammar, &graph, 2116), Err(Refusal::TooSmall));
    assert_eq!(applications(&parse(&grammar, &graph, 2117).unwrap()), 45);
}
