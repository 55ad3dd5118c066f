//! What follows from a grammar and a graph before any item is made: where the items of each plan
//! node go, and which graph edges can meet them.

use super::items::NONE;
use crate::model::{Edge, Grammar, Graph, PlanNode, Rule};

/// What the items of a plan node are put into.
#[derive(Clone, Copy)]
pub(super) enum Above {
    /// The root: a passive item of this slot.
    Passive {
        slot: u32,
    },
    /// The parent introduces a rule edge.
    Terminal {
        parent: u32,
        symbol: u32,
    },
    Nonterminal {
        parent: u32,
        symbol: u32,
    },
    /// The parent joins it with a sibling.
    Join {
        parent: u32,
        sibling: u32,
    },
}

pub(super) struct Slot {
    pub rule: u32,
    pub open: u8,
    pub above: Above,
    /// The rule nodes of the edge this plan node introduces, in order; their set.
    pub edge_nodes: [u8; 4],
    pub edge_set: u8,
    /// The rule node by whose image handled items here are listed, so that partners are looked
    /// for only where they can agree. `pivot_at` is its position on the edge introduced above.
    pub pivot: Option<u8>,
    pub pivot_at: u8,
    /// Where the heads of the lists of this slot begin.
    pub lists: u32,
}

/// Where handled passive items of a symbol go: the child slots under the plan nodes that
/// introduce an edge of it, and its own lists (all, then by position and node).
#[derive(Clone, Default)]
pub(super) struct SymbolUse {
    pub children: Vec<u32>,
    pub lists: u32,
    pub rank: usize,
}

/// The slots of a grammar: its rules' plan nodes, one rule after the other.
pub(super) struct Slots {
    pub all: Vec<Slot>,
    /// The first slot of each rule.
    pub first: Vec<u32>,
    /// By symbol.
    pub uses: Vec<SymbolUse>,
    /// The lists of handled items, of symbols and slots, by graph node or one for all.
    pub lists: u32,
    nodes: u32,
}

impl Slots {
    pub fn of(grammar: &Grammar, graph: &Graph) -> Self {
        let plan_nodes = grammar.rules.iter().map(|r| r.plan.len()).sum();
        let mut slots = Slots {
            all: Vec::with_capacity(plan_nodes),
            first: Vec::with_capacity(grammar.rules.len()),
            uses: vec![SymbolUse::default(); grammar.symbols.len()],
            lists: 0,
            nodes: graph.nodes as u32,
        };
        for (symbol, s) in grammar.symbols.iter().enumerate() {
            slots.uses[symbol].rank = s.rank;
            if s.nonterminal {
                slots.uses[symbol].lists = slots.lists;
                slots.lists += 1 + s.rank as u32 * slots.nodes;
            }
        }
        for (number, rule) in grammar.rules.iter().enumerate() {
            slots.first.push(slots.all.len() as u32);
            slots.add_rule(grammar, number, rule, plan_nodes);
        }
        slots
    }

    fn add_rule(&mut self, grammar: &Grammar, number: usize, rule: &Rule, plan_nodes: usize) {
        let first = self.all.len();
        for (at, &below) in edges_below(&rule.plan).iter().enumerate() {
            let mut slot = Slot {
                rule: number as u32,
                open: open_rule_nodes(&rule.external, &rule.edges, below),
                // Its place above is known only with its parent, further down the plan.
                above: Above::Passive {
                    slot: (plan_nodes + rule.nonterminal) as u32,
                },
                edge_nodes: [0; 4],
                edge_set: 0,
                pivot: None,
                pivot_at: 0,
                lists: NONE,
            };
            if let PlanNode::Introduce { edge, .. } = rule.plan[at] {
                slot.edge_set = node_set(&rule.edges[edge].nodes);
                for (position, &n) in rule.edges[edge].nodes.iter().enumerate() {
                    slot.edge_nodes[position] = n as u8;
                }
            }
            self.all.push(slot);
            let parent = first + at;
            match rule.plan[at] {
                PlanNode::Leaf => {}
                PlanNode::Introduce { child, edge } => {
                    let symbol = rule.edges[edge].symbol;
                    self.put_under_edge(first + child, parent, symbol, grammar);
                }
                PlanNode::Join { left, right } => {
                    self.put_under_join(first + left, first + right, parent);
                }
            }
        }
    }

    /// `parent` introduces an edge of `symbol` over `child`.
    fn put_under_edge(&mut self, child: usize, parent: usize, symbol: usize, grammar: &Grammar) {
        let Slot {
            edge_nodes,
            edge_set,
            ..
        } = self.all[parent];
        let (parent, label) = (parent as u32, symbol as u32);
        let below = &mut self.all[child];
        if !grammar.is_nonterminal(symbol) {
            below.above = Above::Terminal {
                parent,
                symbol: label,
            };
            return;
        }
        below.above = Above::Nonterminal {
            parent,
            symbol: label,
        };
        let rank = edge_set.count_ones() as usize;
        let shared = (0..rank).find(|&at| below.open >> edge_nodes[at] & 1 == 1);
        if let Some(position) = shared {
            below.pivot = Some(edge_nodes[position]);
            below.pivot_at = position as u8;
        }
        self.uses[symbol].children.push(child as u32);
        self.add_lists(child);
    }

    fn put_under_join(&mut self, left: usize, right: usize, parent: usize) {
        let shared = self.all[left].open & self.all[right].open;
        let pivot = (shared != 0).then(|| shared.trailing_zeros() as u8);
        for (own, other) in [(left, right), (right, left)] {
            self.all[own].above = Above::Join {
                parent: parent as u32,
                sibling: other as u32,
            };
            self.all[own].pivot = pivot;
            self.add_lists(own);
        }
    }

    /// Lists by graph node where there is a pivot, else one.
    fn add_lists(&mut self, slot: usize) {
        self.all[slot].lists = self.lists;
        self.lists += match self.all[slot].pivot {
            Some(_) => self.nodes,
            None => 1,
        };
    }
}

/// Graph edges by label, and by label, position and node.
pub(super) struct Labels {
    pub labelled: Vec<u64>,
    pub attached: Vec<u64>,
    /// Where the sets of a label begin in `attached`.
    pub attached_at: Vec<u32>,
}

impl Labels {
    pub fn of(grammar: &Grammar, graph: &Graph) -> Self {
        let mut labels = Labels {
            labelled: vec![0; grammar.symbols.len()],
            attached: Vec::new(),
            attached_at: vec![NONE; grammar.symbols.len()],
        };
        for (number, edge) in graph.edges.iter().enumerate() {
            labels.labelled[edge.symbol] |= 1 << number;
            if labels.attached_at[edge.symbol] == NONE {
                let begin = labels.attached.len();
                labels.attached_at[edge.symbol] = begin as u32;
                labels
                    .attached
                    .resize(begin + edge.nodes.len() * graph.nodes, 0);
            }
            let base = labels.attached_at[edge.symbol] as usize;
            for (position, &node) in edge.nodes.iter().enumerate() {
                labels.attached[base + position * graph.nodes + node] |= 1 << number;
            }
        }
        labels
    }
}

/// Per plan node the rule edges introduced at it or under it.
pub fn edges_below(plan: &[PlanNode]) -> Vec<u8> {
    let mut below = Vec::with_capacity(plan.len());
    for p in plan {
        below.push(match *p {
            PlanNode::Leaf => 0,
            PlanNode::Introduce { child, edge } => below[child] | 1 << edge,
            PlanNode::Join { left, right } => below[left] | below[right],
        });
    }
    below
}

/// The rule nodes open over the rule edges `below`.
pub fn open_rule_nodes(external: &[usize], edges: &[Edge], below: u8) -> u8 {
    let (mut inside, mut outside) = (0u8, 0u8);
    for (number, edge) in edges.iter().enumerate() {
        let set = node_set(&edge.nodes);
        if below >> number & 1 == 1 {
            inside |= set;
        } else {
            outside |= set;
        }
    }
    inside & (outside | node_set(external))
}

fn node_set(nodes: &[usize]) -> u8 {
    nodes.iter().fold(0, |set, &n| set | 1 << n)
}
