//! The items of a chart, told field by field.

mod common;

use bobbinmarl::calls::{self, Outcome};
use bobbinmarl::{Chart, Grammar, Graph, Item};
use common::layout::{words_for, Layout, Part};
use common::{texts, unchanged, Lent};

/// What an item is: kind, rule or symbol, plan node, edges, count and nodes, without how it was found.
type Said = (u64, u64, u64, u64, u64, [u64; 8]);

fn said(item: &Item) -> Said {
    (item.kind, item.of, item.plan, item.edges, item.count, item.nodes)
}

/// The nodes at the first places, and none at the others.
fn nodes<const N: usize>(known: [u64; N]) -> [u64; 8] {
    std::array::from_fn(|k| known.get(k).copied().unwrap_or(64))
}

/// The closure of K2, a path of two edges: by rule 0 an edge, by rule 1 an edge and a path behind it.
fn closure_of_k2() -> Vec<Said> {
    vec![
        (0, 0, 0, 0, 0, nodes([])),
        (0, 0, 1, 1, 0, nodes([0, 1])),
        (0, 0, 1, 2, 0, nodes([1, 2])),
        (0, 1, 0, 0, 0, nodes([])),
        (0, 1, 1, 1, 0, nodes([0, 64, 1])),
        (0, 1, 1, 2, 0, nodes([1, 64, 2])),
        (0, 1, 2, 3, 1, nodes([0, 2])),
        (1, 1, 0, 1, 1, nodes([0, 1])),
        (1, 1, 0, 2, 1, nodes([1, 2])),
        (1, 1, 0, 3, 2, nodes([0, 2])),
    ]
}

#[test]
fn items_of_k2() {
    let mut lent = Lent::run_for("k2", 12, 0, 0);
    let mut items: Vec<Said> = lent.items().iter().map(said).collect();
    items.sort();
    // Before any step there are the leaves, and they wait.
    assert_eq!(items, [closure_of_k2()[0], closure_of_k2()[3]]);
    assert!(lent.items().iter().all(|item| item.handled == 0));
    assert_eq!(lent.run(12), Outcome::Done(10));
    let mut items: Vec<Said> = unchanged(&mut lent, |lent| lent.items()).iter().map(said).collect();
    items.sort();
    assert_eq!(items, closure_of_k2());
    assert!(lent.items().iter().all(|item| item.handled == 1));
}

/// Partners are earlier items, or graph edges: what they have makes up what the item has.
#[test]
fn partners_of_k2() {
    let items = Lent::run_for("k2", 12, 0, 12).items();
    for item in &items {
        let first = items[item.first as usize];
        match (item.kind, item.of, item.plan) {
            (0, _, 0) => assert_eq!((item.first, item.second), (0, 0)),
            (0, rule, plan) if (rule, plan) != (1, 2) => {
                assert_eq!(
                    (first.of, first.plan, first.edges | 1 << item.second),
                    (rule, plan - 1, item.edges)
                );
            }
            (0, rule, _) => {
                let second = items[item.second as usize];
                assert_eq!((first.of, first.plan, second.kind), (rule, 1, 1));
                assert_eq!(
                    (first.edges | second.edges, first.count + second.count),
                    (item.edges, item.count)
                );
            }
            _ => assert_eq!((first.kind, first.edges, first.count + 1), (0, item.edges, item.count)),
        }
    }
}

/// Places that have no item, in charts of every kind.
#[test]
fn places_without_an_item() {
    let mut lent = Lent::run_for("k2", 12, 0, 12);
    for place in [10, 11, 12, 4096, 1 << 59, u64::MAX] {
        assert_eq!(unchanged(&mut lent, |lent| calls::item(lent.chart(), place)), None);
    }
    for words in 0..words_for(1) {
        let chart = vec![u64::MAX; words];
        assert_eq!(
            (calls::items(&chart), calls::item(&chart, 0)),
            (0, None),
            "{words} words"
        );
    }
    let chart = vec![0; words_for(3)];
    assert_eq!((calls::items(&chart), calls::item(&chart, 0)), (0, None));
}

/// A field that is set is told, and no other changes with it.
#[test]
fn each_field_is_told_alone() {
    let layout = Layout::learn();
    let lent = Lent::run_for("k2", 12, 0, 12);
    for part in layout.parts(10).skip(2) {
        let Part::Field(place, field) = part else {
            panic!("the number and the mark come first");
        };
        let mut touched = lent.clone();
        touched.touch(&layout, part, layout.most(part) / 3);
        let mut items = lent.items();
        let mut fields = items[place].fields();
        fields[field] = layout.most(part) / 3;
        items[place] = Item::from(fields);
        assert_eq!(touched.items(), items, "field {field} of {place}");
    }
}

/// The same through the owning type.
#[test]
fn items_of_owned_charts() {
    let (grammar, graph) = texts("k2");
    let grammar = Grammar::read(&grammar).unwrap();
    let graph = Graph::read(&grammar, &graph).unwrap();
    let mut chart = Chart::start(&graph, 12).unwrap();
    assert_eq!((chart.items(), chart.item_count()), (12, 2));
    assert_eq!(chart.run(12), Ok(10));
    let mut items: Vec<Said> = (0..chart.item_count())
        .map(|place| said(&chart.item(place).unwrap()))
        .collect();
    items.sort();
    assert_eq!(items, closure_of_k2());
    assert_eq!(chart.item(10), None);
}
