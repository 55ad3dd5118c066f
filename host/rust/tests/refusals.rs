//! Every refusal, seen through the wrapper, with its number and its words.

mod common;

use bobbinmarl::calls::{self, Outcome};
use bobbinmarl::{parse, Chart, Fault, Grammar, Graph, Refusal, MOST_ITEMS};
use common::{example, file, names, reading_number, stored, texts, with_line, Lent, STORED};
use std::collections::{BTreeMap, BTreeSet};
use std::error::Error;

/// Changes of one line of K2's files, by the file, with the number that they get: the samples of docs/REFUSALS.md.
const SAMPLES: [(&str, &str, &str, u64); 15] = [
    ("grammar", "S   0   0   2", "S 0 0 2\n", 1),
    ("graph", "E   0   1   2", "E   0   1   2", 1),
    ("grammar", "P   1   1   1", "", 2),
    ("graph", "E   0   1   2", "E   0   1   2\nE   0   0   1\n", 2),
    ("grammar", "S   1   1   2", "S   1   1   5\n", 3),
    ("graph", "E   0   0   1", "E   1   0   1\n", 3),
    ("grammar", "G   2   2   1", "G   2   2   0\n", 3),
    ("graph", "H   3   2   0   2", "H   3   2   0\n", 4),
    ("grammar", "S   0   0   2", "S   0   0   2   0\n", 4),
    ("graph", "E   0   1   2", "E   0   1   3\n", 5),
    ("graph", "E   0   1   2", "E   0   1   1\n", 5),
    ("grammar", "E   1   2   1", "E   1   2   2\n", 5),
    ("graph", "H   3   2   0   2", "H   4   2   0   2\n", 6),
    ("grammar", "E   1   2   1", "E   1   0   2\n", 6),
    ("grammar", "P   1   1   1", "P   1   0   1\n", 7),
];

/// The refusal of K2 with one line of one file changed.
fn sample(which: &str, old: &str, new: &str) -> Refusal {
    let (mut grammar, mut graph) = texts("k2");
    match which {
        "grammar" => grammar = with_line(&grammar, old, new),
        _ => graph = with_line(&graph, old, new),
    }
    parse(&grammar, &graph, 2048).unwrap_err()
}

#[test]
fn samples_of_the_document() {
    for (which, old, new, number) in SAMPLES {
        let refusal = sample(which, old, new);
        assert_eq!(refusal.number(), number, "{which}: {new:?} for {old:?}");
        assert_eq!(
            matches!(refusal, Refusal::Grammar(_)),
            which == "grammar",
            "{which}: {new:?} for {old:?}"
        );
    }
}

/// One refusal of each number, from files and from what a program lends.
fn one_of_each() -> Vec<Refusal> {
    let (grammar_text, graph_text) = texts("k2");
    let grammar = Grammar::read(&grammar_text).unwrap();
    let graph = Graph::read(&grammar, &graph_text).unwrap();
    let mut chart = Chart::start(&graph, 2048).unwrap();
    let waiting = chart.run(3);
    chart.run(2048).unwrap();
    let mut all: Vec<Refusal> = SAMPLES
        .iter()
        .map(|(which, old, new, _)| sample(which, old, new))
        .collect();
    all.push(Chart::start(&graph, 0).unwrap_err());
    all.push(parse(&grammar_text, &graph_text, 9).unwrap_err());
    all.push(waiting.unwrap_err());
    all.push(parse(&grammar_text, &example("k3", "graph.txt"), 2048).unwrap_err());
    all.push(chart.write(&mut [0; 57]).unwrap_err());
    all.push(graph.replay(b"").unwrap_err());
    all
}

/// The sentences of include/bobbinmarl.h by their numbers: lines of ' *', blanks, a number, two blanks and the words.
fn sentences() -> BTreeMap<u64, String> {
    let header = String::from_utf8(file("include/bobbinmarl.h")).unwrap();
    let rows = header
        .lines()
        .filter_map(|line| line.strip_prefix(" *  ")?.trim_start().split_once("  "));
    rows.filter_map(|(number, words)| Some((number.parse().ok()?, String::from(words))))
        .collect()
}

#[test]
fn every_number_has_the_words_of_the_header() {
    let sentences = sentences();
    let seen: BTreeMap<u64, Refusal> = one_of_each()
        .into_iter()
        .map(|refusal| (refusal.number(), refusal))
        .collect();
    assert_eq!(
        seen.keys().copied().collect::<Vec<u64>>(),
        (1..=13).collect::<Vec<u64>>()
    );
    assert_eq!(
        sentences.keys().copied().collect::<Vec<u64>>(),
        (0..=13).collect::<Vec<u64>>()
    );
    for (number, refusal) in seen {
        assert_eq!(refusal.sentence(), sentences[&number]);
        assert!(
            refusal
                .to_string()
                .ends_with(&format!("{} (refusal {number})", sentences[&number])),
            "{refusal}"
        );
    }
    assert_eq!(Fault::Table.sentence(), sentences[&8]);
}

#[test]
fn errors_name_their_text_and_their_source() {
    let plan = sample("grammar", "P   1   1   1", "P   1   0   1\n");
    assert_eq!(
        plan.to_string(),
        "grammar: the plan breaks its rules, or is not whole (refusal 7)"
    );
    assert_eq!(plan.source().unwrap().to_string(), Fault::Plan.to_string());
    let node = sample("graph", "H   3   2   0   2", "H   4   2   0   2\n");
    assert_eq!(node.to_string(), "graph: a node is on no edge (refusal 6)");
    assert!(Refusal::Underivable.source().is_none());
}

/// The number in a name such as g-7-leaf.txt.
fn number_in(name: &str) -> Option<u64> {
    name.split('-').nth(1)?.parse().ok()
}

/// The stored texts that must be refused, of grammars (g-) or graphs (h-): numbers and names.
fn refused(kind: &str) -> Vec<(u64, String)> {
    let names = names(STORED).into_iter().filter(|name| name.starts_with(kind));
    names.filter_map(|name| Some((number_in(&name)?, name))).collect()
}

fn numbers(texts: &[(u64, String)]) -> BTreeSet<u64> {
    texts.iter().map(|(number, _)| *number).collect()
}

/// Nothing that is lent changes.
#[test]
fn stored_grammars() {
    let refused = refused("g-");
    assert_eq!(numbers(&refused), (1..=7).collect());
    for (number, name) in refused {
        let text = stored(&name);
        let mut lent = Lent::full(1, 0);
        let before = lent.clone();
        let reading = lent.read_grammar(&text);
        assert_eq!(reading_number(reading), number, "{name}");
        assert!(lent == before, "{name}");
        assert_eq!(Grammar::read(&text).err(), reading.err(), "{name}");
    }
}

/// The same for graphs, with grammar A or, by its name, one whose start has rank 0.
#[test]
fn stored_graphs() {
    let refused = refused("h-");
    assert_eq!(numbers(&refused), (1..=6).collect());
    for (number, name) in refused {
        let text = stored(&name);
        let grammar = stored(if name.contains("rank0") {
            "g-rank0.txt"
        } else {
            "g-a.txt"
        });
        let mut lent = Lent::full(1, 0);
        assert_eq!(lent.read_grammar(&grammar), Ok(()));
        let before = lent.clone();
        let reading = lent.read_graph(&text);
        assert_eq!(reading_number(reading), number, "{name}");
        assert!(lent == before, "{name}");
        let owned = Grammar::read(&grammar).unwrap();
        assert_eq!(Graph::read(&owned, &text).err(), reading.err(), "{name}");
    }
}

#[test]
fn sizes_of_charts() {
    let (grammar, graph) = texts("k1");
    let grammar = Grammar::read(&grammar).unwrap();
    let graph = Graph::read(&grammar, &graph).unwrap();
    for items in [0, MOST_ITEMS + 1, 2 * MOST_ITEMS, usize::MAX] {
        assert_eq!(calls::chart_words(items), None);
        assert_eq!(Chart::start(&graph, items).unwrap_err(), Refusal::Unfit);
    }
    // The two leaf items of grammar A's rules do not fit into one.
    assert_eq!(Chart::start(&graph, 1).unwrap_err(), Refusal::TooSmall);
    for items in [2, MOST_ITEMS] {
        assert!(calls::chart_words(items).is_some());
        assert_eq!(Chart::start(&graph, items).unwrap().items(), items);
    }
}

/// A chart that is too small says so ever after.
#[test]
fn too_small_stays() {
    let (grammar, graph) = texts("k2");
    let grammar = Grammar::read(&grammar).unwrap();
    let graph = Graph::read(&grammar, &graph).unwrap();
    let mut chart = Chart::start(&graph, 9).unwrap();
    for _ in 0..3 {
        assert_eq!(chart.run(100), Err(Refusal::TooSmall));
        assert_eq!(chart.derivation(), Err(Refusal::TooSmall));
    }
    assert_eq!(chart.restart(), Ok(()));
    assert_eq!(chart.run(0), Err(Refusal::Unfinished(0)));
}

/// What the calls say of a start, a run and a writing is what the owning types say.
#[test]
fn outcomes_have_their_numbers() {
    let mut lent = Lent::read("k2", 10, 58);
    assert_eq!(lent.start(), Outcome::Done(0));
    assert_eq!(lent.run(4), Outcome::Unfinished(4));
    assert_eq!(lent.run(u64::MAX), Outcome::Done(10));
    assert_eq!(lent.write(), calls::Answer::Written(58));
    assert_eq!(lent.out(), example("k2", "derivation.txt"));
}
