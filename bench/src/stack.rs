//! The stack that each call needs: the least with which a thread gets through it, each try in a process of its
//! own, as one that fails dies.

use crate::inputs::{input, Kind};
use crate::limits;
use crate::sides::Lent;
use bobbinmarl::calls::{self, Answer, Outcome, Verdict};
use std::process::{Command, Stdio};

/// What is tried, by the name that the process is given.
pub const CALLS: [(&str, &str); 7] = [
    ("read_grammar", "the longest grammar"),
    ("read_graph", "the longest graph"),
    ("start", "circle, 4,000 items"),
    ("run", "circle, 4,000 items"),
    ("write", "circle, 4,000 items"),
    ("replay-16", "16 nested applications"),
    ("replay-4096", "4,096 nested applications"),
];

/// Page by page: a thread's stack is rounded up to these.
const PAGE_KIB: usize = 4;

/// Nothing is known to need so much.
const MOST_KIB: usize = 16 * 1_024;

/// The least stack in KiB, the start of the thread itself included.
pub fn least_kib(call: &str) -> Result<usize, String> {
    // `low` fails or is too small for any thread, `high` passes.
    let (mut low, mut high) = (4, MOST_KIB / PAGE_KIB);
    if !passes(call, high * PAGE_KIB)? {
        return Err(format!("{call} fails with {MOST_KIB} KiB of stack"));
    }
    while high - low > 1 {
        let middle = (low + high) / 2;
        if passes(call, middle * PAGE_KIB)? {
            high = middle;
        } else {
            low = middle;
        }
    }
    Ok(high * PAGE_KIB)
}

fn passes(call: &str, kib: usize) -> Result<bool, String> {
    let program = std::env::current_exe().map_err(|error| error.to_string())?;
    let status = Command::new(program)
        .args(["--stack-try", call, &kib.to_string()])
        .stderr(Stdio::null())
        .status()
        .map_err(|error| error.to_string())?;
    Ok(status.success())
}

/// One try: everything is made ready outside, then a thread with so much stack does the call.
pub fn try_call(call: &str, kib: usize) -> Result<(), String> {
    let work = prepared(call)?;
    let right = std::thread::Builder::new()
        .stack_size(kib * 1_024)
        .spawn(work)
        .map_err(|error| error.to_string())?
        .join()
        .map_err(|_| "the thread panics".to_string())?;
    if right {
        Ok(())
    } else {
        Err(format!("{call} answers wrong"))
    }
}

type Work = Box<dyn FnOnce() -> bool + Send>;

fn prepared(call: &str) -> Result<Work, String> {
    let mut lent = Lent::new();
    let largest = limits::grammar().text();
    if let Some(depth) = call.strip_prefix("replay-") {
        let depth = depth.parse().map_err(|_| "no depth")?;
        lent.read(&limits::deep_grammar().text(), &limits::deep_graph().text());
        let text = limits::derivation(depth);
        return Ok(Box::new(move || {
            calls::replay(&lent.grammar, &lent.graph, &text) == Verdict::Passed
        }));
    }
    match call {
        "read_grammar" => {
            return Ok(Box::new(move || {
                calls::read_grammar(&largest, &mut lent.grammar).is_ok()
            }))
        }
        "read_graph" => {
            let text = limits::graph().text();
            lent.read(&largest, &text);
            return Ok(Box::new(move || {
                calls::read_graph(&lent.grammar, &text, &mut lent.graph).is_ok()
            }));
        }
        _ => {}
    }
    let circle = input(Kind::Circle, 4_000);
    lent.read(&circle.grammar.text(), &circle.graph.text());
    let done = |outcome| matches!(outcome, Outcome::Done(_));
    match call {
        "start" => Ok(Box::new(move || done(lent.start()))),
        "run" => {
            lent.start();
            Ok(Box::new(move || done(lent.run())))
        }
        "write" => {
            lent.start();
            lent.run();
            Ok(Box::new(move || matches!(lent.write(), Answer::Written(_))))
        }
        other => Err(format!("no call '{other}'")),
    }
}
