//! Question 8 past start: whether each item names what exists.

use super::items::{bits, Item, Key, BYTES};
use super::Chart;
use crate::model::PlanNode;

impl Chart<'_> {
    /// Question 8 past start: no more items than the chart holds, and each names a plan node or a
    /// nonterminal, graph nodes, graph edges and partner items that exist.
    pub fn check_items(&self) -> bool {
        let all_edges = self.graph.all_edges();
        self.items.len() <= self.capacity
            && self.items.iter().all(|item| {
                item.key.edges & !all_edges == 0
                    && self.nodes_exist(&item.key)
                    && self.partners_exist(item)
            })
    }

    /// The item's slot exists, and its places hold a graph node just where it has one.
    fn nodes_exist(&self, key: &Key) -> bool {
        let slot = key.slot as usize;
        let domain = match self.slots.get(slot) {
            Some(s) => s.open,
            None => match self.grammar.symbols.get(slot - self.slots.len()) {
                Some(symbol) if symbol.nonterminal => (1 << symbol.rank) - 1,
                _ => return false,
            },
        };
        key.places.0 | BYTES[domain as usize] == u64::MAX
            && bits(domain as u64).all(|at| key.places.get(at) < self.graph.nodes)
    }

    /// The slot must exist.
    fn partners_exist(&self, item: &Item) -> bool {
        let is_item = |number: u32| (number as usize) < self.items.len();
        let (first, second) = item.back;
        let Some(slot) = self.slots.get(item.key.slot as usize) else {
            return is_item(first);
        };
        let rule = &self.grammar.rules[slot.rule as usize];
        let plan_node = item.key.slot - self.first_slot[slot.rule as usize];
        match rule.plan[plan_node as usize] {
            PlanNode::Leaf => true,
            PlanNode::Introduce { edge, .. }
                if !self.grammar.is_nonterminal(rule.edges[edge].symbol) =>
            {
                is_item(first) && (second as usize) < self.graph.edges.len()
            }
            _ => is_item(first) && is_item(second),
        }
    }
}

#[cfg(test)]
mod tests {
    use super::*;
    use crate::chart::items::{Places, NONE, NO_PLACES};
    use crate::chart::Answer;
    use crate::check::{grammar_a, plain_graph};

    /// Each thing an item names, set to one that does not exist, is found.
    #[test]
    fn check_items_finds_what_does_not_exist() {
        let (grammar, graph) = (grammar_a(), plain_graph(3, &[0, 2], &[[0, 1], [1, 2]]));
        let mut chart = Chart::start(&grammar, &graph, 10).unwrap();
        assert_eq!(chart.run_to_end(), Answer::Done(10));
        assert!(chart.check_items());
        let items = chart.items.clone();
        let count = items.len() as u32;
        let symbols_from = chart.slots.len() as u32;
        let mut found = |at: usize, touch: &dyn Fn(&mut Item)| {
            touch(&mut chart.items[at]);
            let passed = chart.check_items();
            chart.items = items.clone();
            !passed
        };
        for (at, item) in items.iter().enumerate() {
            assert!(found(at, &|i| i.key.slot = symbols_from + 2), "slot {at}");
            assert!(found(at, &|i| i.key.slot = symbols_from), "terminal {at}");
            assert!(found(at, &|i| i.key.edges |= 1 << 2), "edges {at}");
            // No item of this grammar has all eight places.
            let empty = (0..8).find(|&p| item.key.places.get(p) == 0xFF).unwrap();
            let filled = item.key.places.with(empty, 0);
            assert!(found(at, &|i| i.key.places = filled), "places {at}");
            if item.key.places != NO_PLACES {
                let outside = Places(item.key.places.0 & !BYTES[1] | 3);
                assert!(found(at, &|i| i.key.places = outside), "node {at}");
            }
            let is_leaf = item.back == (NONE, NONE);
            if !is_leaf {
                assert!(found(at, &|i| i.back.0 = count), "first partner {at}");
            }
            if !is_leaf && item.key.slot < symbols_from {
                assert!(found(at, &|i| i.back.1 = count), "second partner {at}");
            }
        }
        chart.capacity = 9;
        assert!(!chart.check_items());
    }
}
