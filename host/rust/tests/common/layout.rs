//! Where the parts of a chart stand in its words, learnt by asking: a bit is changed, and the item or the number of items that changes with it
//! tells whose bit it is. Tests that touch a chart go by it, so that they hold for every layout.

use bobbinmarl::calls;
use bobbinmarl::{Item, MOST_ITEMS};
use std::collections::BTreeSet;

// The fields of an item, in the order of `Item::fields`.
pub const KIND: usize = 0;
pub const OF: usize = 1;
pub const PLAN: usize = 2;
pub const EDGES: usize = 3;
pub const COUNT: usize = 4;
pub const HANDLED: usize = 5;
pub const NODES: usize = 6;
pub const FIRST: usize = 14;
pub const SECOND: usize = 15;

/// How many words a chart of so many items has, also where the library has none of that size: each item takes as many as the others.
pub fn words_for(items: usize) -> usize {
    let words = |items| calls::chart_words(items).expect("one item or two");
    words(1) + (items - 1) * (words(2) - words(1))
}

/// A part of a chart that is a number.
#[derive(Clone, Copy, Debug, PartialEq, Eq)]
pub enum Part {
    /// How many items there are.
    Number,
    /// Whether one item more was found than the chart holds: 0 no.
    Mark,
    /// A field of the item at a place.
    Field(usize, usize),
}

/// A bit of a chart: its word, and its place there.
type Bit = (usize, u32);

/// The bits of each part, the lowest first; of fields those at place 0.
pub struct Layout {
    number: Vec<Bit>,
    mark: Vec<Bit>,
    fields: Vec<Vec<Bit>>,
}

fn bits_of(words: usize) -> impl Iterator<Item = Bit> {
    (0..words).flat_map(|word| (0..64).map(move |bit| (word, bit)))
}

fn flip(chart: &mut [u64], (word, bit): Bit) {
    chart[word] ^= 1 << bit;
}

fn fields_of(chart: &[u64]) -> [u64; Item::FIELDS] {
    calls::item(chart, 0).expect("an item").fields()
}

/// In a chart whose bits are all 1 each field has its greatest value, and loses what a bit that is changed stands for.
fn learn_fields() -> Vec<Vec<Bit>> {
    let mut chart = vec![u64::MAX; words_for(1)];
    let greatest = fields_of(&chart);
    let mut fields = greatest.map(|most| vec![(0, 0); most.count_ones() as usize]);
    let mut learnt = 0;
    for bit in bits_of(chart.len()) {
        flip(&mut chart, bit);
        for ((bits, most), left) in fields.iter_mut().zip(greatest).zip(fields_of(&chart)) {
            if most != left {
                bits[(most - left).ilog2() as usize] = bit;
                learnt += 1;
            }
        }
        flip(&mut chart, bit);
    }
    let width: usize = fields.iter().map(Vec::len).sum();
    assert_eq!(learnt, width, "each bit of a field is one bit of the chart");
    fields.to_vec()
}

/// In the largest chart whose bits are all 0 a bit of the number counts as many items as it stands for, or as many as there is room for.
fn learn_number() -> Vec<Bit> {
    let mut chart = vec![0; words_for(MOST_ITEMS)];
    let mut bits = Vec::new();
    for bit in bits_of(words_for(1)) {
        flip(&mut chart, bit);
        bits.push((calls::items(&chart), bit));
        flip(&mut chart, bit);
    }
    bits.retain(|(items, _)| *items > 0);
    bits.sort();
    bits.into_iter().map(|(_, bit)| bit).collect()
}

impl Layout {
    pub fn learn() -> Layout {
        let (number, fields) = (learn_number(), learn_fields());
        let known: BTreeSet<Bit> = number.iter().chain(fields.iter().flatten()).copied().collect();
        // What no item and no number of items has is the mark's.
        let mark = bits_of(words_for(1)).filter(|bit| !known.contains(bit)).collect();
        Layout { number, mark, fields }
    }

    /// The number, the mark, and the fields at so many places.
    pub fn parts(&self, items: usize) -> impl Iterator<Item = Part> {
        let fields = (0..items).flat_map(|place| (0..Item::FIELDS).map(move |field| Part::Field(place, field)));
        [Part::Number, Part::Mark].into_iter().chain(fields)
    }

    fn bits(&self, part: Part) -> impl Iterator<Item = Bit> + '_ {
        let (bits, behind) = match part {
            Part::Number => (&self.number, 0),
            Part::Mark => (&self.mark, 0),
            Part::Field(place, field) => (&self.fields[field], words_for(place + 1) - words_for(1)),
        };
        bits.iter().map(move |(word, bit)| (word + behind, *bit))
    }

    /// The greatest value that a part has room for.
    pub fn most(&self, part: Part) -> u64 {
        u64::MAX >> (64 - self.bits(part).count())
    }

    pub fn get(&self, chart: &[u64], part: Part) -> u64 {
        let bits = self.bits(part).enumerate();
        bits.map(|(k, (word, bit))| (chart[word] >> bit & 1) << k).sum()
    }

    /// Sets a part, whether or not the chart has an item there; an item that it has then says so.
    pub fn put(&self, chart: &mut [u64], part: Part, value: u64) {
        assert!(value <= self.most(part), "{part:?} has no room for {value}");
        for (k, (word, bit)) in self.bits(part).enumerate() {
            chart[word] = chart[word] & !(1 << bit) | (value >> k & 1) << bit;
        }
        if let Part::Field(place, field) = part {
            let told = calls::item(chart, place as u64).map(|item| item.fields()[field]);
            assert!(told.is_none_or(|told| told == value), "{part:?} is {value}");
        }
    }

    /// All fields of the item at a place.
    pub fn put_item(&self, chart: &mut [u64], place: usize, item: Item) {
        for (field, value) in item.fields().into_iter().enumerate() {
            self.put(chart, Part::Field(place, field), value);
        }
    }
}
