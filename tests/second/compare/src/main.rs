//! Holds the proved parser against the second one, through its static library and through its two
//! programs: `compare --derive PATH --replay PATH [--seed S] [--cases N] [--program-cases N]`.
#![forbid(unsafe_code)]

mod cases;
mod library;
mod programs;
mod report;
mod workers;

use programs::Programs;
use report::Totals;
use std::path::PathBuf;
use std::time::Instant;

struct Options {
    programs: Programs,
    seed: u64,
    cases: usize,
    program_cases: usize,
}

fn options() -> Option<Options> {
    let (mut derive, mut replay): (Option<PathBuf>, Option<PathBuf>) = (None, None);
    let (mut seed, mut cases, mut program_cases) = (1, 40_000, 2_000);
    let mut arguments = std::env::args().skip(1);
    while let Some(name) = arguments.next() {
        let value = arguments.next()?;
        match name.as_str() {
            // A relative path would be looked up from the scratch folder.
            "--derive" => derive = Some(std::fs::canonicalize(value).ok()?),
            "--replay" => replay = Some(std::fs::canonicalize(value).ok()?),
            "--seed" => seed = value.parse().ok()?,
            "--cases" => cases = value.parse().ok()?,
            "--program-cases" => program_cases = value.parse().ok()?,
            _ => return None,
        }
    }
    let programs = Programs {
        derive: derive?,
        replay: replay?,
    };
    Some(Options {
        programs,
        seed,
        cases,
        program_cases,
    })
}

/// Runs one comparison and prints what it met; its mismatches.
fn part(name: &str, seed: u64, cases: usize, compare: impl Fn() -> (Totals, usize)) -> usize {
    println!("{name}, seed {seed}");
    let begin = Instant::now();
    let (totals, mismatches) = compare();
    totals.print();
    println!("{:.1} s", begin.elapsed().as_secs_f64());
    println!("cases {cases}, mismatches {mismatches}");
    mismatches
}

fn main() {
    let Some(Options {
        programs,
        seed,
        cases,
        program_cases,
    }) = options()
    else {
        eprintln!(
            "usage: compare --derive PATH --replay PATH [--seed S] [--cases N] [--program-cases N]"
        );
        std::process::exit(2);
    };
    let of_library = part("library", seed, cases, || library::compare(seed, cases));
    let of_programs = part("programs", seed, program_cases, || {
        programs::compare(&programs, seed, program_cases)
    });
    let mismatches = of_library + of_programs;
    println!("cases {}, mismatches {mismatches}", cases + program_cases);
    if mismatches > 0 {
        std::process::exit(1);
    }
}
