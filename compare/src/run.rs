//! The comparison of all operations, on all cores.

use crate::op::Timed;
use crate::trial::{Outcome, Tally, Trial};
use std::sync::Mutex;
use std::sync::atomic::{AtomicU64, Ordering};
use std::thread;
use std::time::Instant;

/// How many cases a thread takes at a time, at most.
const CHUNK: u64 = 1 << 12;

/// Prints a line for each trial, and tells whether all agree.
pub fn run<'a>(trials: impl Iterator<Item = &'a dyn Trial>, count: u64, seed: u64) -> bool {
    println!("seed {seed}");
    let mut good = true;
    for trial in trials {
        let note = trial.note().map_or(String::new(), |note| format!("   {note}"));
        let cases = trial.cases(count);
        if cases == 0 {
            println!("{:<35}{note}", trial.name());
            continue;
        }
        let start = Instant::now();
        let tally = compare(trial, cases, seed);
        let outcomes: Vec<String> = (Outcome::NAMES.iter().zip(tally.outcomes))
            .filter(|&(_, n)| n != 0)
            .map(|(name, n)| format!("{name} {n}"))
            .collect();
        println!(
            "{:<35} {:>11} cases {:>11} differences   {:.1} s   agreed: {}{note}",
            trial.name(),
            tally.cases,
            tally.differences,
            start.elapsed().as_secs_f64(),
            outcomes.join(", ")
        );
        for (case, text) in &tally.first {
            println!("  case {case}: {text}");
        }
        good &= tally.differences == 0;
    }
    good
}

/// Names the archive's functions that none here is.
pub fn name_unknown(functions: &[Box<dyn Timed>]) {
    let known = |name: &str| functions.iter().any(|function| Some(function.name()) == name.strip_prefix("gf_"));
    for name in env!("GF_EXPORTED").split_whitespace().filter(|name| !known(name)) {
        println!("{name} is exported, and unknown here");
    }
}

fn compare(trial: &dyn Trial, cases: u64, seed: u64) -> Tally {
    let chunk = CHUNK.min(cases / 64 + 1);
    let next = AtomicU64::new(0);
    let all = Mutex::new(Tally::default());
    let work = || {
        loop {
            let from = next.fetch_add(chunk, Ordering::Relaxed);
            if from >= cases {
                return;
            }
            let tally = trial.compare(from..cases.min(from + chunk), seed);
            all.lock().expect("no thread panics").add(tally);
        }
    };
    thread::scope(|scope| {
        for _ in 0..thread::available_parallelism().map_or(2, |n| n.get()) {
            scope.spawn(work);
        }
    });
    all.into_inner().expect("no thread panics")
}
