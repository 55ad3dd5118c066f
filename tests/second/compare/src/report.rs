//! What was met, counted, so that a reader sees that the cases were not all of one kind; and the
//! log of mismatches.

use std::collections::BTreeMap;
use std::path::PathBuf;
use std::sync::Mutex;

/// The files of so many mismatches are saved.
const SAVED: usize = 5;

/// The numbers of 01's questions, and 0 for a call that refuses nothing.
const NUMBERS: usize = 14;

/// Counts by group and name, answers by call and number, and greatest values by name.
#[derive(Default)]
pub struct Totals {
    counts: BTreeMap<&'static str, BTreeMap<String, usize>>,
    answers: BTreeMap<&'static str, [usize; NUMBERS]>,
    greatest: BTreeMap<&'static str, usize>,
}

impl Totals {
    pub fn count(&mut self, group: &'static str, name: impl ToString) {
        *self
            .counts
            .entry(group)
            .or_default()
            .entry(name.to_string())
            .or_default() += 1;
    }

    /// A call was answered with a number, which is the one due.
    pub fn answered(&mut self, call: &'static str, number: u8) {
        self.answers.entry(call).or_default()[number as usize] += 1;
    }

    pub fn greatest(&mut self, name: &'static str, value: usize) {
        let most = self.greatest.entry(name).or_default();
        *most = value.max(*most);
    }

    pub fn has_answered(&self, call: &str, number: u8) -> bool {
        let answers = self.answers.get(call);
        answers.is_some_and(|answers| answers[number as usize] > 0)
    }

    pub fn has(&self, group: &str, name: &str) -> bool {
        let group = self.counts.get(group);
        group.is_some_and(|names| names.contains_key(name))
    }

    pub fn add(&mut self, other: Totals) {
        for (group, names) in other.counts {
            let mine = self.counts.entry(group).or_default();
            for (name, count) in names {
                *mine.entry(name).or_default() += count;
            }
        }
        for (call, answers) in other.answers {
            let mine = self.answers.entry(call).or_default();
            for (count, more) in mine.iter_mut().zip(answers) {
                *count += more;
            }
        }
        for (name, value) in other.greatest {
            self.greatest(name, value);
        }
    }

    pub fn print(&self) {
        for (group, names) in &self.counts {
            println!("{group}");
            for (name, count) in names {
                println!("{count:10}  {name}");
            }
        }
        println!("greatest");
        for (name, value) in &self.greatest {
            println!("{value:10}  {name}");
        }
        let row = |head: &str, cells: &mut dyn Iterator<Item = usize>| {
            let cells: String = cells.map(|n| format!("{n:8}")).collect();
            println!("{head:12}{cells}");
        };
        println!("answers by call and number");
        row("", &mut (0..NUMBERS));
        for (call, answers) in &self.answers {
            row(call, &mut answers.iter().copied());
        }
    }
}

pub struct Log {
    seed: u64,
    /// Which comparison this is.
    part: &'static str,
    mismatches: Mutex<usize>,
}

impl Log {
    pub fn new(part: &'static str, seed: u64) -> Self {
        Log {
            seed,
            part,
            mismatches: Mutex::new(0),
        }
    }

    pub fn mismatches(&self) -> usize {
        *self.mismatches.lock().unwrap()
    }

    /// Tells of a mismatch in a case and saves its files.
    pub fn mismatch(&self, case: usize, what: &str, files: &[(&str, &[u8])]) {
        let mut mismatches = self.mismatches.lock().unwrap();
        *mismatches += 1;
        println!("MISMATCH {} case {case}: {what}", self.part);
        if *mismatches > SAVED {
            return;
        }
        let name = format!(
            "{}-seed-{}-case-{case}-{}",
            self.part, self.seed, *mismatches
        );
        let folder = PathBuf::from("mismatch").join(name);
        // What an earlier run left there.
        let _ = std::fs::remove_dir_all(&folder);
        let saved = std::fs::create_dir_all(&folder).and_then(|()| {
            files
                .iter()
                .try_for_each(|(name, text)| std::fs::write(folder.join(name), text))
        });
        if let Err(e) = saved {
            println!("{} not saved: {e}", folder.display());
        }
    }
}
