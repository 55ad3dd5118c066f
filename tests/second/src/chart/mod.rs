//! A chart parser over 01's items: closure by an agenda of least count, with back-pointers.
//! Built for speed: packed items, a hash index, and lists of handled items by what can join.

mod existence;
mod extract;
mod items;
mod slots;

use crate::model::{Grammar, Graph, PlanNode};
use items::{bits, Index, Item, Key, Part, Places, ALL, BYTES, NONE, NO_PLACES};
pub use slots::{edges_below, open_rule_nodes};
use slots::{Above, Labels, Slot, Slots, SymbolUse};

/// The result of a start or a run.
#[derive(Clone, Copy, Debug, PartialEq, Eq)]
pub enum Answer {
    /// All items handled; the steps done since start.
    Done(usize),
    /// 10: all steps given are done and items are left; the steps done since start.
    StepsUp(usize),
    /// 9: the closure has more items than the chart holds. The steps done by then are the
    /// program's free choice and not to be compared.
    TooSmall,
}

/// An untouched chart. Two programs may differ, and so are not to be compared, in: the order
/// among equal counts; by it, on a chart that cannot hold the closure, whether a run of few steps
/// says 9 already or still 10, and the steps done when 9 comes; which of several fewest
/// derivations is written, and so its length and from which output size on it is 12. All else,
/// the steps, the counts and the number of applications among it, 01 fixes.
pub struct Chart<'a> {
    grammar: &'a Grammar,
    graph: &'a Graph,
    slots: Vec<Slot>,
    first_slot: Vec<u32>,
    uses: Vec<SymbolUse>,
    /// Graph edges by label, and by label, position and node.
    labelled: Vec<u64>,
    attached: Vec<u64>,
    attached_at: Vec<u32>,
    /// Per graph node the edges it lies on.
    incident: Vec<u64>,
    external: u64,
    edge_image: Vec<u64>,

    capacity: usize,
    items: Vec<Item>,
    index: Index,
    /// Unhandled items by count; an entry is stale if its item is handled or has another count.
    agenda: Vec<Vec<u32>>,
    least: usize,
    heads: Vec<u32>,
    /// For handled passive items the next in the list by each position, then in the list of all.
    passive_next: Vec<[u32; ALL + 1]>,
    steps: usize,
    too_small: bool,
}

impl<'a> Chart<'a> {
    /// A start: 8 for a chart of a size not allowed; else the leaf items are made present. Whether
    /// they fit is told by `state`.
    pub fn start(grammar: &'a Grammar, graph: &'a Graph, capacity: usize) -> Result<Self, u8> {
        if !(1..=4_096).contains(&capacity) {
            return Err(8);
        }
        Ok(Self::start_any_size(grammar, graph, capacity))
    }

    pub fn start_any_size(grammar: &'a Grammar, graph: &'a Graph, capacity: usize) -> Self {
        let mut chart = Self::tables(grammar, graph, capacity);
        for (number, rule) in grammar.rules.iter().enumerate() {
            for (at, node) in rule.plan.iter().enumerate() {
                if *node == PlanNode::Leaf {
                    let slot = chart.first_slot[number] + at as u32;
                    let key = Key {
                        edges: 0,
                        places: NO_PLACES,
                        slot,
                    };
                    chart.add(key, 0, 0, (NONE, NONE));
                }
            }
        }
        chart
    }

    /// What follows from grammar and graph before any item is made.
    fn tables(grammar: &'a Grammar, graph: &'a Graph, capacity: usize) -> Self {
        let slots = Slots::of(grammar, graph);
        let labels = Labels::of(grammar, graph);
        let image = |nodes: &[usize]| nodes.iter().fold(0, |set, &n| set | 1u64 << n);
        Chart {
            grammar,
            graph,
            slots: slots.all,
            first_slot: slots.first,
            uses: slots.uses,
            labelled: labels.labelled,
            attached: labels.attached,
            attached_at: labels.attached_at,
            incident: graph.incidence(),
            external: image(&graph.external),
            edge_image: graph.edges.iter().map(|e| image(&e.nodes)).collect(),
            capacity,
            items: Vec::with_capacity(capacity.min(256)),
            index: Index::new(),
            agenda: Vec::new(),
            least: 0,
            heads: vec![NONE; slots.lists as usize],
            passive_next: Vec::new(),
            steps: 0,
            too_small: false,
        }
    }

    /// What a run of 0 steps says.
    pub fn state(&self) -> Answer {
        if self.too_small {
            Answer::TooSmall
        } else if self.steps == self.items.len() {
            Answer::Done(self.steps)
        } else {
            Answer::StepsUp(self.steps)
        }
    }

    /// Does the steps given or as many as are left.
    pub fn run(&mut self, steps: usize) -> Answer {
        for _ in 0..steps {
            if self.too_small {
                break;
            }
            match self.next_item() {
                Some(item) => self.handle(item),
                None => break,
            }
        }
        self.state()
    }

    /// Handles the waiting items of least count, those included that this adds with the same
    /// count. What is handled then, and so what is present, hangs on no order among equal counts.
    pub fn run_level(&mut self) -> Answer {
        let mut level = None;
        while !self.too_small {
            let Some(item) = self.next_item() else { break };
            if level.is_some_and(|level| level != self.least) {
                self.agenda[self.least].push(item);
                break;
            }
            level = Some(self.least);
            self.handle(item);
        }
        self.state()
    }

    pub fn run_to_end(&mut self) -> Answer {
        self.run(usize::MAX)
    }

    pub fn steps_done(&self) -> usize {
        self.steps
    }

    pub fn items_present(&self) -> usize {
        self.items.len()
    }

    /// An unhandled item of least count. Counts never fall below one already handled, so the
    /// agenda is passed through once.
    fn next_item(&mut self) -> Option<u32> {
        while self.least < self.agenda.len() {
            while let Some(number) = self.agenda[self.least].pop() {
                let item = &self.items[number as usize];
                if !item.handled && item.count as usize == self.least {
                    return Some(number);
                }
            }
            self.least += 1;
        }
        None
    }

    /// One step: the item joined with all handled items and graph edges.
    fn handle(&mut self, number: u32) {
        self.steps += 1;
        self.items[number as usize].handled = true;
        let item = self.items[number as usize].clone();
        if item.key.slot as usize >= self.slots.len() {
            self.handle_passive(number, &item);
        } else {
            self.handle_active(number, &item);
        }
    }

    fn handle_active(&mut self, number: u32, item: &Item) {
        let slot = item.key.slot as usize;
        let own = self.part(item);
        match self.slots[slot].above {
            Above::Passive { slot: passive } => {
                let rule = &self.grammar.rules[self.slots[slot].rule as usize];
                let mut places = NO_PLACES;
                for (position, &node) in rule.external.iter().enumerate() {
                    places = places.with(position, item.key.places.get(node));
                }
                let key = Key {
                    edges: item.key.edges,
                    places,
                    slot: passive,
                };
                self.add(key, item.image, item.count + 1, (number, NONE));
            }
            Above::Terminal { parent, symbol } => {
                self.join_edges(parent, symbol as usize, (number, item, own));
            }
            Above::Nonterminal { parent, symbol } => {
                self.enlist(number, slot);
                let first = self.uses[symbol as usize].lists as usize;
                let (list, by) = match self.slots[slot].pivot {
                    Some(pivot) => {
                        let at = self.slots[slot].pivot_at as usize;
                        let image = item.key.places.get(pivot as usize);
                        (first + 1 + at * self.graph.nodes + image, at)
                    }
                    None => (first, ALL),
                };
                self.join_listed(parent, (number, item, own), list, Some(by));
            }
            Above::Join { parent, sibling } => {
                self.enlist(number, slot);
                let list = self.list_of(sibling as usize, self.slots[slot].pivot, item);
                self.join_listed(parent, (number, item, own), list, None);
            }
        }
    }

    /// Joins an item with each graph edge of the label that `parent` introduces.
    fn join_edges(&mut self, parent: u32, symbol: usize, (number, item, own): (u32, &Item, Part)) {
        let mut candidates = self.labelled[symbol] & !item.key.edges;
        if candidates == 0 {
            return;
        }
        let base = self.attached_at[symbol] as usize;
        let Slot {
            edge_nodes,
            edge_set,
            ..
        } = self.slots[parent as usize];
        let nodes = &edge_nodes[..self.uses[symbol].rank];
        for (position, &node) in nodes.iter().enumerate() {
            if own.domain >> node & 1 == 1 {
                let image = item.key.places.get(node as usize);
                candidates &= self.attached[base + position * self.graph.nodes + image];
            }
        }
        for edge in bits(candidates) {
            let mut places = NO_PLACES;
            for (position, &node) in self.graph.edges[edge].nodes.iter().enumerate() {
                places = places.with(edge_nodes[position] as usize, node);
            }
            let other = Part {
                places,
                domain: edge_set,
                image: self.edge_image[edge],
            };
            let edges = item.key.edges | 1 << edge;
            self.join(parent, own, other, edges, item.count, (number, edge as u32));
            if self.too_small {
                return;
            }
        }
    }

    fn handle_passive(&mut self, number: u32, item: &Item) {
        let symbol = item.key.slot as usize - self.slots.len();
        let (lists, rank) = (self.uses[symbol].lists as usize, self.uses[symbol].rank);
        let mut next = [NONE; ALL + 1];
        next[ALL] = std::mem::replace(&mut self.heads[lists], number);
        for (position, next) in next[..rank].iter_mut().enumerate() {
            let node = item.key.places.get(position);
            let head = &mut self.heads[lists + 1 + position * self.graph.nodes + node];
            *next = std::mem::replace(head, number);
        }
        self.items[number as usize].next = self.passive_next.len() as u32;
        self.passive_next.push(next);

        for at in 0..self.uses[symbol].children.len() {
            let child = &self.slots[self.uses[symbol].children[at] as usize];
            let Above::Nonterminal { parent, .. } = child.above else {
                unreachable!()
            };
            let list = match child.pivot {
                Some(_) => item.key.places.get(child.pivot_at as usize),
                None => 0,
            };
            let list = child.lists as usize + list;
            let placed = self.placed(parent, item);
            self.join_listed(parent, (number, item, placed), list, None);
            if self.too_small {
                return;
            }
        }
    }

    /// Joins one item, as the part it is at `parent`, with each handled item of a list: of active
    /// items, or of passive ones, linked by the place `by` of their rows.
    #[inline(always)]
    fn join_listed(
        &mut self,
        parent: u32,
        (number, item, own): (u32, &Item, Part),
        list: usize,
        by: Option<usize>,
    ) {
        let is_passive = item.key.slot as usize >= self.slots.len();
        let mut partner = self.heads[list];
        while partner != NONE {
            let other = &self.items[partner as usize];
            let next = match by {
                Some(by) => self.passive_next[other.next as usize][by],
                None => other.next,
            };
            if other.key.edges & item.key.edges == 0 {
                let edges = other.key.edges | item.key.edges;
                let count = other.count + item.count;
                let part = match by {
                    Some(_) => self.placed(parent, other),
                    None => self.part(other),
                };
                // A passive item stands second.
                let back = if is_passive {
                    (partner, number)
                } else {
                    (number, partner)
                };
                self.join(parent, own, part, edges, count, back);
                if self.too_small {
                    return;
                }
            }
            partner = next;
        }
    }

    fn part(&self, item: &Item) -> Part {
        let domain = self.slots[item.key.slot as usize].open;
        Part {
            places: item.key.places,
            domain,
            image: item.image,
        }
    }

    /// A passive item as a map from the rule nodes of the edge that `parent` introduces.
    fn placed(&self, parent: u32, passive: &Item) -> Part {
        let slot = &self.slots[parent as usize];
        let rank = slot.edge_set.count_ones() as usize;
        let mut places = NO_PLACES;
        for position in 0..rank {
            places = places.with(
                slot.edge_nodes[position] as usize,
                passive.key.places.get(position),
            );
        }
        Part {
            places,
            domain: slot.edge_set,
            image: passive.image,
        }
    }

    fn list_of(&self, slot: usize, pivot: Option<u8>, item: &Item) -> usize {
        let at = pivot.map_or(0, |node| item.key.places.get(node as usize));
        self.slots[slot].lists as usize + at
    }

    /// Puts a handled active item on its slot's list.
    fn enlist(&mut self, number: u32, slot: usize) {
        let list = self.list_of(slot, self.slots[slot].pivot, &self.items[number as usize]);
        self.items[number as usize].next = std::mem::replace(&mut self.heads[list], number);
    }

    /// Joins two maps at a plan node, if 01's conditions hold of the joined map.
    fn join(&mut self, parent: u32, a: Part, b: Part, edges: u64, count: u32, back: (u32, u32)) {
        let shared = a.domain & b.domain;
        if (a.places.0 ^ b.places.0) & BYTES[shared as usize] != 0 {
            return; // not a function
        }
        if (a.image & b.image).count_ones() != shared.count_ones() {
            return; // not one-to-one: an image in common beyond the shared nodes
        }
        let mut places = a.places.0 & b.places.0;
        let mut image = a.image | b.image;
        // Every open graph node of a part is an image there, so only the image of a rule node
        // that closes here could be open in the new set without being an image.
        let closing = (a.domain | b.domain) & !self.slots[parent as usize].open;
        for node in bits(closing as u64) {
            let graph_node = Places(places).get(node);
            if self.external >> graph_node & 1 == 1 || self.incident[graph_node] & !edges != 0 {
                return;
            }
            image &= !(1 << graph_node);
        }
        places |= BYTES[closing as usize];
        self.add(
            Key {
                edges,
                places: Places(places),
                slot: parent,
            },
            image,
            count,
            back,
        );
    }

    /// Makes an item present, or lowers the count of the one there.
    fn add(&mut self, key: Key, image: u64, count: u32, back: (u32, u32)) {
        let at = self.index.place(&self.items, &key);
        let found = self.index.table[at];
        if found != NONE {
            let item = &mut self.items[found as usize];
            if count < item.count {
                debug_assert!(!item.handled);
                item.count = count;
                item.back = back;
                self.push_agenda(found, count);
            }
        } else if self.items.len() >= self.capacity {
            self.too_small = true;
        } else {
            let number = self.items.len() as u32;
            self.items.push(Item {
                key,
                image,
                count,
                handled: false,
                back,
                next: NONE,
            });
            self.index.take(&self.items, at, number);
            self.push_agenda(number, count);
        }
    }

    fn push_agenda(&mut self, number: u32, count: u32) {
        let count = count as usize;
        if self.agenda.len() <= count {
            self.agenda.resize_with(count + 1, Vec::new);
        }
        self.agenda[count].push(number);
    }

    /// The count of an active item, if present. `map` holds a graph node for each open rule node.
    pub fn active_count(
        &self,
        rule: usize,
        plan_node: usize,
        edges: u64,
        map: &[Option<usize>],
    ) -> Option<usize> {
        let mut places = NO_PLACES;
        for (at, image) in map.iter().enumerate() {
            if let Some(node) = *image {
                places = places.with(at, node);
            }
        }
        self.count_of(Key {
            edges,
            places,
            slot: self.first_slot[rule] + plan_node as u32,
        })
    }

    /// The count of a passive item, if present.
    pub fn passive_count(&self, symbol: usize, edges: u64, nodes: &[usize]) -> Option<usize> {
        self.count_of(self.passive_key(symbol, edges, nodes))
    }

    fn count_of(&self, key: Key) -> Option<usize> {
        self.index
            .get(&self.items, &key)
            .map(|number| self.items[number as usize].count as usize)
    }

    fn passive_key(&self, symbol: usize, edges: u64, nodes: &[usize]) -> Key {
        let mut places = NO_PLACES;
        for (position, &node) in nodes.iter().enumerate() {
            places = places.with(position, node);
        }
        Key {
            edges,
            places,
            slot: (self.slots.len() + symbol) as u32,
        }
    }

    fn goal_key(&self) -> Key {
        self.passive_key(
            self.grammar.start,
            self.graph.all_edges(),
            &self.graph.external,
        )
    }

    /// The least count of the goal; meant for a chart with nothing left.
    pub fn goal_count(&self) -> Option<usize> {
        self.count_of(self.goal_key())
    }
}
