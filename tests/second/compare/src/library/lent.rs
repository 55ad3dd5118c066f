//! Memory to lend to the library: it holds what no call has written, and shows what a call changed.

use bobbinmarl::calls::Application;
use second::gen::Rng;
use std::ops::Range;

/// The words of a record: three, and twice eight places.
const RECORD_WORDS: usize = 19;

pub struct Lent<T> {
    pub now: Vec<T>,
    before: Vec<T>,
}

impl<T: Copy + PartialEq> Lent<T> {
    pub fn of(now: Vec<T>) -> Self {
        let before = now.clone();
        Lent { now, before }
    }

    /// From here on, changes are those against what it holds now.
    pub fn settle(&mut self) {
        self.before.copy_from_slice(&self.now);
    }

    pub fn unchanged(&self) -> bool {
        self.unchanged_from(0)
    }

    pub fn unchanged_from(&self, at: usize) -> bool {
        self.now[at..] == self.before[at..]
    }

    pub fn unchanged_outside(&self, range: Range<usize>) -> bool {
        self.now[..range.start] == self.before[..range.start] && self.unchanged_from(range.end)
    }
}

pub fn words(rng: &mut Rng, length: usize) -> Lent<u64> {
    // Small numbers too: they look most like what a call would leave.
    let small = rng.coin();
    let word = |_| match rng.word() {
        word if small => word >> 60,
        word => word,
    };
    Lent::of((0..length).map(word).collect())
}

pub fn bytes(rng: &mut Rng, length: usize) -> Lent<u8> {
    let words = (0..length.div_ceil(8)).map(|_| rng.word());
    let mut bytes: Vec<u8> = words.flat_map(u64::to_le_bytes).collect();
    bytes.truncate(length);
    Lent::of(bytes)
}

pub fn records(rng: &mut Rng, length: usize) -> Lent<Application> {
    let noise = words(rng, RECORD_WORDS * length).now;
    Lent::of(noise.chunks_exact(RECORD_WORDS).map(record).collect())
}

/// A record of any words: a rule, two counts, and the places that follow them.
fn record(words: &[u64]) -> Application {
    let places = |from: usize| std::array::from_fn(|at| words[from + at]);
    Application {
        rule: words[0],
        node_count: words[1],
        part_count: words[2],
        nodes: places(3),
        parts: places(11),
    }
}

/// A length that does not hold `needed`.
pub fn shorter(rng: &mut Rng, needed: usize) -> usize {
    match rng.below(3) {
        0 => needed - 1,
        1 => rng.below(needed.min(20)),
        _ => rng.below(needed),
    }
}

/// A length that holds `needed`, mostly just so.
pub fn enough(rng: &mut Rng, needed: usize) -> usize {
    needed + if rng.one_in(4) { rng.range(1, 40) } else { 0 }
}
