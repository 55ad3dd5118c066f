//! The stack that a call may take.

use std::panic::resume_unwind;
use std::thread;

/// Stack that is enough for every call: the replay of 4,096 applications, each under the one before, takes about a third of it.
///
/// A thread of Rust has 2 MiB unless its builder says more, and so has a test. [`Graph::replay`](crate::Graph::replay),
/// [`Chart::write`](crate::Chart::write), [`Chart::derivation`](crate::Chart::derivation), [`Chart::fill`](crate::Chart::fill),
/// [`Chart::applications`](crate::Chart::applications) and [`parse`](crate::parse) therefore work on a thread of their own with
/// this stack; of [`calls`](crate::calls), see to it for [`write`](crate::calls::write), [`fill`](crate::calls::fill) and
/// [`replay`](crate::calls::replay). All other calls take less than 512 KiB.
pub const STACK_BYTES: usize = 8 << 20;

/// Does the work on a thread of its own with [`STACK_BYTES`] of stack, and waits for it. A panic of the work goes on here.
///
/// # Panics
/// If the system gives no thread.
pub fn with_stack<T: Send>(work: impl FnOnce() -> T + Send) -> T {
    let name = String::from("bobbinmarl");
    thread::scope(|scope| {
        let thread = thread::Builder::new()
            .name(name)
            .stack_size(STACK_BYTES)
            .spawn_scoped(scope, work)
            .expect("a thread for a deep call");
        thread.join().unwrap_or_else(|panic| resume_unwind(panic))
    })
}
