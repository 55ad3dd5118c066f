//! Repeated, interleaved timing.

use crate::sides::Phases;
use std::time::Duration;

/// How long each side of a measurement is repeated.
#[derive(Clone, Copy)]
pub struct Effort {
    pub batches: usize,
    /// The least time of a batch; a batch has at least one repetition.
    pub batch: Duration,
    pub warm_up: bool,
}

pub const FULL: Effort = Effort {
    batches: 7,
    batch: Duration::from_millis(40),
    warm_up: true,
};

pub const QUICK: Effort = Effort {
    batches: 1,
    batch: Duration::ZERO,
    warm_up: false,
};

/// Seconds of one repetition: of all phases, and of each.
#[derive(Clone, Copy, Default)]
pub struct Timing {
    pub median: f64,
    pub least: f64,
    pub phases: [f64; 3],
}

/// Times the sides by turns, batch for batch, so that a slower spell of the machine falls on all.
pub fn interleaved<const N: usize>(effort: Effort, mut sides: [&mut dyn FnMut() -> Phases; N]) -> [Timing; N] {
    let mut repetitions = [1u32; N];
    if effort.warm_up {
        for (side, repetitions) in sides.iter_mut().zip(&mut repetitions) {
            side();
            let once: Duration = side().iter().sum();
            let wanted = effort.batch.as_secs_f64() / once.as_secs_f64().max(1e-9);
            *repetitions = wanted.ceil().clamp(1.0, 1e6) as u32;
        }
    }
    let mut batches: [Vec<[f64; 3]>; N] = std::array::from_fn(|_| Vec::new());
    for _ in 0..effort.batches {
        for at in 0..N {
            batches[at].push(batch(&mut *sides[at], repetitions[at]));
        }
    }
    batches.map(|times| timing(&times))
}

/// The mean seconds of each phase over a batch.
fn batch(side: &mut dyn FnMut() -> Phases, repetitions: u32) -> [f64; 3] {
    let mut sums = [Duration::ZERO; 3];
    for _ in 0..repetitions {
        for (sum, time) in sums.iter_mut().zip(side()) {
            *sum += time;
        }
    }
    sums.map(|sum| sum.as_secs_f64() / f64::from(repetitions))
}

fn timing(batches: &[[f64; 3]]) -> Timing {
    let totals: Vec<f64> = batches.iter().map(|phases| phases.iter().sum()).collect();
    let phase = |at: usize| median(batches.iter().map(|phases| phases[at]).collect());
    Timing {
        least: totals.iter().copied().fold(f64::INFINITY, f64::min),
        median: median(totals),
        phases: [phase(0), phase(1), phase(2)],
    }
}

fn median(mut values: Vec<f64>) -> f64 {
    values.sort_by(f64::total_cmp);
    values[values.len() / 2]
}
