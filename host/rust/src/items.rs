//! The items of a chart: their fields by name, wherever they stand in its words.

/// An item of a chart, and how it was found.
#[derive(Clone, Copy, Debug, Default, PartialEq, Eq)]
pub struct Item {
    /// 0: an active item, of a rule at a plan node; 1: a passive one, of a symbol.
    pub kind: u64,
    /// The number of the rule (kind 0) or of the symbol (kind 1).
    pub of: u64,
    /// The plan node of an active item; a passive one has 0.
    pub plan: u64,
    /// The graph edges that it stands for: bit i for edge i.
    pub edges: u64,
    /// The applications that it takes, as found so far; of a handled item the fewest.
    pub count: u64,
    /// 0: it waits.
    pub handled: u64,
    /// The graph node of each rule node (kind 0) or external node (kind 1) that it knows; 64: none.
    pub nodes: [u64; 8],
    /// The place of the item that it was made from; a leaf has 0.
    pub first: u64,
    /// The graph edge, or the place of the other item, that it was made with; 0 where there is none.
    pub second: u64,
}

impl Item {
    /// How many fields it has, each node one.
    pub const FIELDS: usize = 16;

    /// The fields in the order of the header.
    pub fn fields(&self) -> [u64; Item::FIELDS] {
        let mut fields = [0; Item::FIELDS];
        fields[..6].copy_from_slice(&[self.kind, self.of, self.plan, self.edges, self.count, self.handled]);
        fields[6..14].copy_from_slice(&self.nodes);
        fields[14..].copy_from_slice(&[self.first, self.second]);
        fields
    }
}

impl From<[u64; Item::FIELDS]> for Item {
    /// The item of its fields in that order.
    fn from(fields: [u64; Item::FIELDS]) -> Item {
        let [kind, of, plan, edges, count, handled, a, b, c, d, e, f, g, h, first, second] = fields;
        Item {
            kind,
            of,
            plan,
            edges,
            count,
            handled,
            nodes: [a, b, c, d, e, f, g, h],
            first,
            second,
        }
    }
}
