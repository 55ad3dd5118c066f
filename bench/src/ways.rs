//! How often the rules of the closure make an item, new or again: a number of the input alone, which any chart
//! parser has to work off. Counted by a plain closure of its own, which is not timed.

use second::{Edge, Grammar, Graph, PlanNode};
use std::collections::HashSet;

pub struct Ways {
    /// The items of the closure.
    pub items: usize,
    /// How often some rule of the closure makes one of them.
    pub made: usize,
}

pub fn count(grammar: &Grammar, graph: &Graph) -> Ways {
    let mut closure = Closure::new(grammar, graph);
    let mut next = 0;
    while next < closure.items.len() {
        closure.handle(next);
        next += 1;
    }
    Ways {
        items: closure.items.len(),
        made: closure.made,
    }
}

/// A graph node for each rule node, or for each position of a passive item; `NO_NODE` where there is none.
type Map = [u8; 8];

const NO_NODE: u8 = u8::MAX;

/// A slot is a plan node of a rule or, past these, a symbol.
#[derive(Clone, Copy, PartialEq, Eq, Hash)]
struct Item {
    slot: usize,
    edges: u64,
    map: Map,
}

/// What the items of a plan node are put into.
#[derive(Clone, Copy)]
enum Above {
    Passive,
    Introduce { parent: usize, edge: usize },
    Join { parent: usize, sibling: usize },
}

struct Slot {
    rule: usize,
    open: u8,
    above: Above,
}

struct Closure<'a> {
    grammar: &'a Grammar,
    graph: &'a Graph,
    incidence: Vec<u64>,
    slots: Vec<Slot>,
    /// By symbol the slots under plan nodes that introduce it.
    users: Vec<Vec<usize>>,
    items: Vec<Item>,
    known: HashSet<Item>,
    /// By slot the items handled.
    handled: Vec<Vec<usize>>,
    made: usize,
}

impl<'a> Closure<'a> {
    fn new(grammar: &'a Grammar, graph: &'a Graph) -> Self {
        let mut closure = Closure {
            grammar,
            graph,
            incidence: graph.incidence(),
            slots: Vec::new(),
            users: vec![Vec::new(); grammar.symbols.len()],
            items: Vec::new(),
            known: HashSet::new(),
            handled: Vec::new(),
            made: 0,
        };
        for rule in 0..grammar.rules.len() {
            closure.add_slots(rule);
        }
        let slots = closure.slots.len() + grammar.symbols.len();
        closure.handled.resize(slots, Vec::new());
        closure.make_leaves();
        closure
    }

    fn add_slots(&mut self, number: usize) {
        let rule = &self.grammar.rules[number];
        let first = self.slots.len();
        for below in second::chart::edges_below(&rule.plan) {
            self.slots.push(Slot {
                rule: number,
                open: second::chart::open_rule_nodes(&rule.external, &rule.edges, below),
                above: Above::Passive,
            });
        }
        for (at, node) in rule.plan.iter().enumerate() {
            let parent = first + at;
            match *node {
                PlanNode::Leaf => {}
                PlanNode::Introduce { child, edge } => {
                    self.slots[first + child].above = Above::Introduce { parent, edge };
                    self.users[rule.edges[edge].symbol].push(first + child);
                }
                PlanNode::Join { left, right } => {
                    for (own, other) in [(left, right), (right, left)] {
                        let sibling = first + other;
                        self.slots[first + own].above = Above::Join { parent, sibling };
                    }
                }
            }
        }
    }

    fn make_leaves(&mut self) {
        let plans = self.grammar.rules.iter().flat_map(|rule| &rule.plan);
        for (slot, node) in plans.enumerate() {
            if *node == PlanNode::Leaf {
                self.make(slot, 0, [NO_NODE; 8]);
            }
        }
    }

    fn make(&mut self, slot: usize, edges: u64, map: Map) {
        self.made += 1;
        let item = Item { slot, edges, map };
        if self.known.insert(item) {
            self.items.push(item);
        }
    }

    /// The item with all items handled before it, and with the graph's edges.
    fn handle(&mut self, number: usize) {
        let item = self.items[number];
        self.handled[item.slot].push(number);
        if item.slot >= self.slots.len() {
            let symbol = item.slot - self.slots.len();
            for at in 0..self.users[symbol].len() {
                self.join_all(self.users[symbol][at], item);
            }
            return;
        }
        let rule = &self.grammar.rules[self.slots[item.slot].rule];
        match self.slots[item.slot].above {
            Above::Passive => {
                let mut map = [NO_NODE; 8];
                for (position, &node) in rule.external.iter().enumerate() {
                    map[position] = item.map[node];
                }
                self.make(self.slots.len() + rule.nonterminal, item.edges, map);
            }
            Above::Introduce { parent, edge } => {
                let edge = &rule.edges[edge];
                if self.grammar.is_nonterminal(edge.symbol) {
                    self.join_all(self.slots.len() + edge.symbol, item);
                } else {
                    self.join_graph_edges(parent, edge, item);
                }
            }
            Above::Join { sibling, .. } => self.join_all(sibling, item),
        }
    }

    fn join_graph_edges(&mut self, parent: usize, edge: &Edge, item: Item) {
        let graph = self.graph;
        for (number, graph_edge) in graph.edges.iter().enumerate() {
            if graph_edge.symbol == edge.symbol {
                let mut map = [NO_NODE; 8];
                for (&node, &image) in edge.nodes.iter().zip(&graph_edge.nodes) {
                    map[node] = image as u8;
                }
                self.join(parent, (item.edges, item.map), (1 << number, map));
            }
        }
    }

    /// Joins the item with all handled ones of another slot. One of the two is active and has the plan node that
    /// they meet at above it.
    fn join_all(&mut self, other: usize, item: Item) {
        let active = if item.slot < self.slots.len() { item.slot } else { other };
        let (parent, edge) = match self.slots[active].above {
            Above::Introduce { parent, edge } => (parent, Some(edge)),
            Above::Join { parent, .. } => (parent, None),
            Above::Passive => unreachable!("a root joins nothing"),
        };
        for at in 0..self.handled[other].len() {
            let partner = self.items[self.handled[other][at]];
            self.join(
                parent,
                (item.edges, self.placed(item, active, edge)),
                (partner.edges, self.placed(partner, active, edge)),
            );
        }
    }

    /// The item's map over rule nodes; a passive item is placed on the rule edge.
    fn placed(&self, item: Item, active: usize, edge: Option<usize>) -> Map {
        if item.slot < self.slots.len() {
            return item.map;
        }
        let rule = &self.grammar.rules[self.slots[active].rule];
        let mut map = [NO_NODE; 8];
        if let Some(edge) = edge {
            for (position, &node) in rule.edges[edge].nodes.iter().enumerate() {
                map[node] = item.map[position];
            }
        }
        map
    }

    fn join(&mut self, parent: usize, a: (u64, Map), b: (u64, Map)) {
        if a.0 & b.0 == 0 {
            if let Some(map) = self.joined(parent, a.0 | b.0, a.1, b.1) {
                self.make(parent, a.0 | b.0, map);
            }
        }
    }

    /// The joined map without its closed nodes, if it is a function, one-to-one, and closes no open graph node.
    fn joined(&self, parent: usize, edges: u64, a: Map, b: Map) -> Option<Map> {
        let mut map = a;
        let mut images = 0u64;
        for node in 0..8 {
            if map[node] == NO_NODE {
                map[node] = b[node];
            } else if b[node] != NO_NODE && b[node] != map[node] {
                return None;
            }
            if map[node] == NO_NODE {
                continue;
            }
            let image = map[node] as usize;
            if images >> image & 1 == 1 {
                return None;
            }
            images |= 1 << image;
            if self.slots[parent].open >> node & 1 == 0 {
                if self.graph.external.contains(&image) || self.incidence[image] & !edges != 0 {
                    return None;
                }
                map[node] = NO_NODE;
            }
        }
        Some(map)
    }
}
