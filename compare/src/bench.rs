//! Both sides timed on the same inputs in one process.

use crate::op::{Timed, Timing};
use std::time::Instant;

/// How many times each side is timed, in turn, and how many passes over the
/// inputs one timing takes.
const ROUNDS: usize = 41;
const PASSES: usize = 8;

/// Prints a line for each input set.
pub fn bench(functions: &[Box<dyn Timed>]) {
    println!("{:<35} {:<24} {:>9} {:>9} {:>7}", "function", "inputs", "ours ns", "Rust ns", "ratio");
    for function in functions {
        if let Some(note) = function.note() {
            println!("{:<35} {note}", function.name());
        }
        for mut timing in function.timings() {
            let (mut ours, mut rust) = (Vec::new(), Vec::new());
            for _ in 0..ROUNDS {
                ours.push(nanoseconds(&mut timing.ours));
                rust.push(nanoseconds(&mut timing.rust));
            }
            let (ours, rust) = (median(ours), median(rust));
            println!("{:<35} {:<24} {ours:>9.2} {rust:>9.2} {:>7.2}", function.name(), timing.set, ours / rust);
        }
    }
}

/// The time of one call.
fn nanoseconds(pass: &mut dyn FnMut()) -> f64 {
    let start = Instant::now();
    for _ in 0..PASSES {
        pass();
    }
    start.elapsed().as_nanos() as f64 / (PASSES * Timing::CALLS) as f64
}

fn median(mut times: Vec<f64>) -> f64 {
    times.sort_by(f64::total_cmp);
    times[times.len() / 2]
}
