//! Items packed into a few words, and the index that finds them.

/// No item, no list.
pub(super) const NONE: u32 = u32::MAX;

/// Where a row of `passive_next` links all items of a symbol: behind the four positions.
pub(super) const ALL: usize = 4;

/// Eight places of one byte: graph nodes by rule node (active) or by position (passive).
/// An empty place is 0xFF, so that the union of two agreeing maps is a bitwise and.
#[derive(Clone, Copy, PartialEq, Eq)]
pub(super) struct Places(pub u64);

pub(super) const NO_PLACES: Places = Places(u64::MAX);

impl Places {
    pub fn get(self, at: usize) -> usize {
        (self.0 >> (8 * at) & 0xFF) as usize
    }

    /// `at` must be empty.
    pub fn with(self, at: usize, node: usize) -> Places {
        Places(self.0 & !((0xFF ^ node as u64) << (8 * at)))
    }
}

/// All bits of the bytes whose number is in `set`.
const fn bytes_of(set: u8) -> u64 {
    let mut mask = 0;
    let mut at = 0;
    while at < 8 {
        if set >> at & 1 == 1 {
            mask |= 0xFF << (8 * at);
        }
        at += 1;
    }
    mask
}

pub(super) static BYTES: [u64; 256] = {
    let mut table = [0; 256];
    let mut set = 0;
    while set < 256 {
        table[set] = bytes_of(set as u8);
        set += 1;
    }
    table
};

/// What makes two items the same item. A slot is a plan node of a rule, or past these a symbol.
#[derive(Clone, Copy, PartialEq, Eq)]
pub(super) struct Key {
    pub edges: u64,
    pub places: Places,
    pub slot: u32,
}

impl Key {
    /// Multiply and rotate: a bad spread costs time only.
    fn hash(&self) -> u64 {
        const ODD: u64 = 0x9E37_79B9_7F4A_7C15;
        let mut hash = self.edges.wrapping_mul(ODD).rotate_left(29);
        hash = (hash ^ self.places.0).wrapping_mul(ODD).rotate_left(29);
        hash = (hash ^ self.slot as u64).wrapping_mul(ODD);
        hash ^ hash >> 32
    }
}

/// Finds items by key: a hash map with open addressing that holds item numbers only, as the keys
/// stand in the items.
pub(super) struct Index {
    /// A power of two of places, at most half of them taken.
    pub table: Vec<u32>,
    pub taken: usize,
}

impl Index {
    pub fn new() -> Self {
        Index {
            table: vec![NONE; 256],
            taken: 0,
        }
    }

    /// Where the key's item number stands, or the empty place where it belongs.
    pub fn place(&self, items: &[Item], key: &Key) -> usize {
        let last = self.table.len() - 1;
        let mut at = key.hash() as usize & last;
        loop {
            let number = self.table[at];
            if number == NONE || items[number as usize].key == *key {
                return at;
            }
            at = (at + 1) & last;
        }
    }

    pub fn get(&self, items: &[Item], key: &Key) -> Option<u32> {
        let number = self.table[self.place(items, key)];
        (number != NONE).then_some(number)
    }

    /// Takes the empty place `at` for item `number`, which is in `items` already.
    pub fn take(&mut self, items: &[Item], at: usize, number: u32) {
        self.table[at] = number;
        self.taken += 1;
        if 2 * self.taken > self.table.len() {
            let old = std::mem::take(&mut self.table);
            self.table = vec![NONE; 4 * old.len()];
            for number in old.into_iter().filter(|&n| n != NONE) {
                let at = self.place(items, &items[number as usize].key);
                self.table[at] = number;
            }
        }
    }
}

/// One part of a join, before it is known to fit: a map, its domain and its image.
#[derive(Clone, Copy)]
pub(super) struct Part {
    pub places: Places,
    pub domain: u8,
    pub image: u64,
}

#[derive(Clone)]
pub(super) struct Item {
    pub key: Key,
    pub image: u64,
    pub count: u32,
    pub handled: bool,
    /// What it was made from, by the kind of its slot: the child and the graph edge, the child
    /// and the passive item, the two children, or the root item.
    pub back: (u32, u32),
    /// Active: the next in its slot's list of handled items. Passive: its row in `passive_next`.
    pub next: u32,
}

/// The numbers in a set, the least first.
pub(super) fn bits(mut set: u64) -> impl Iterator<Item = usize> {
    std::iter::from_fn(move || {
        if set == 0 {
            return None;
        }
        let at = set.trailing_zeros() as usize;
        set &= set - 1;
        Some(at)
    })
}
