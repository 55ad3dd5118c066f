//! Cases shared out to threads. Each case has its own random numbers, whichever thread takes it.

use crate::report::Totals;
use second::gen::Rng;
use std::sync::atomic::{AtomicUsize, Ordering};
use std::sync::Mutex;
use std::time::{Duration, Instant};

pub const WORKERS: usize = 2;
/// The library wants 8 MiB for its deepest replay; the rest is for what stands above it.
const STACK: usize = 16 << 20;

pub trait Worker: Send {
    fn check(&mut self, rng: &mut Rng, case: usize);
    fn totals(self) -> Totals;
}

/// Runs the cases 0 to `cases` and adds up what the workers met. A case that panics, or takes
/// longer than `limit`, ends the whole program with status 2: nothing can be said of the rest.
pub fn run<W: Worker>(workers: Vec<W>, seed: u64, cases: usize, limit: Duration) -> Totals {
    let next = AtomicUsize::new(0);
    let base = Rng::new(seed).word();
    // Per worker the case it is at and since when; none when it has ended.
    let at: Vec<Mutex<Option<(usize, Instant)>>> = workers
        .iter()
        .map(|_| Mutex::new(Some((0, Instant::now()))))
        .collect();
    let mut totals = Totals::default();
    std::thread::scope(|scope| {
        let mut handles = Vec::new();
        for (mut worker, at) in workers.into_iter().zip(&at) {
            let next = &next;
            let work = move || loop {
                let case = next.fetch_add(1, Ordering::Relaxed);
                if case >= cases {
                    *at.lock().unwrap() = None;
                    return worker.totals();
                }
                *at.lock().unwrap() = Some((case, Instant::now()));
                let mut rng = Rng::new(base.wrapping_add(case as u64));
                worker.check(&mut rng, case);
            };
            let builder = std::thread::Builder::new().stack_size(STACK);
            handles.push(builder.spawn_scoped(scope, work).expect("a thread starts"));
        }
        scope.spawn(|| watch(&at, limit));
        for (handle, at) in handles.into_iter().zip(&at) {
            match handle.join() {
                Ok(met) => totals.add(met),
                Err(_) => give_up(*at.lock().unwrap(), "panicked"),
            }
        }
    });
    totals
}

fn watch(workers: &[Mutex<Option<(usize, Instant)>>], limit: Duration) {
    loop {
        std::thread::sleep(Duration::from_millis(50));
        let at: Vec<_> = workers.iter().map(|w| *w.lock().unwrap()).collect();
        if at.iter().all(Option::is_none) {
            return;
        }
        let mut late = at.iter().flatten().filter(|at| at.1.elapsed() > limit);
        if let Some(late) = late.next() {
            give_up(Some(*late), "did not end");
        }
    }
}

fn give_up(at: Option<(usize, Instant)>, what: &str) -> ! {
    let case = at.map_or(0, |(case, _)| case);
    println!("case {case} {what}");
    std::process::exit(2);
}
