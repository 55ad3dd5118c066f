//! Runs the self-check: `selfcheck [--seed S] [--cases N]`; fails on any mismatch.

use std::time::Instant;

fn main() {
    let (mut seed, mut cases) = (1u64, 20_000usize);
    let mut arguments = std::env::args().skip(1);
    while let Some(name) = arguments.next() {
        let value = arguments.next().and_then(|v| v.parse::<u64>().ok());
        match (name.as_str(), value) {
            ("--seed", Some(v)) => seed = v,
            ("--cases", Some(v)) => cases = v as usize,
            _ => {
                eprintln!("usage: selfcheck [--seed S] [--cases N]");
                std::process::exit(2);
            }
        }
    }
    println!("seed {seed}");
    let begin = Instant::now();
    let report = second::check::run(seed, cases);
    println!("{report:#?}");
    println!("{:.1} s", begin.elapsed().as_secs_f64());
    println!("cases {}, mismatches {}", report.cases, report.mismatches);
    if report.mismatches > 0 {
        std::process::exit(1);
    }
}
