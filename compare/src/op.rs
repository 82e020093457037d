//! What an exported function is to the harness.

use crate::inputs::{Draw, Rng};
use crate::lent::{Ins, Lent, Side};
use crate::trial::Trial;
use crate::words::Record;
use std::hint::black_box;
use std::slice;

/// An input set, and one pass over it for each side.
pub struct Timing<'a> {
    pub set: &'static str,
    pub ours: Box<dyn FnMut() + 'a>,
    pub rust: Box<dyn FnMut() + 'a>,
}

impl<'a> Timing<'a> {
    /// How many calls a pass makes.
    pub const CALLS: usize = 2048;

    /// Both sides, each on its own calls, with room for so many numbers.
    pub fn of(set: &'static str, sides: [(&'a dyn Side, &'static [Ins]); 2], room: usize) -> Timing<'a> {
        let [ours, rust] = sides.map(|(side, lent)| -> Box<dyn FnMut() + 'a> {
            let mut out = vec![0.0; room];
            Box::new(move || side.pass(black_box(lent), Lent::to_write(&mut out)))
        });
        Timing { set, ours, rust }
    }

    /// Both sides on the same calls, each of which has a room of its own.
    pub fn with_rooms(set: &'static str, sides: [&'a dyn Side; 2], calls: &'static [(Ins, Lent)]) -> Timing<'a> {
        let [ours, rust] = sides.map(|side| -> Box<dyn FnMut() + 'a> {
            Box::new(move || calls.iter().for_each(|(ins, out)| side.pass(black_box(slice::from_ref(ins)), *out)))
        });
        Timing { set, ours, rust }
    }

    /// The inputs of a pass, kept for good.
    pub fn inputs<I>(draw: Draw<I>) -> &'static [I] {
        let drawn = (0..Self::CALLS as u64).map(|i| draw(i, &mut Rng::at(1, i)));
        drawn.collect::<Vec<I>>().leak()
    }
}

/// An exported function and its judge.
pub trait Timed: Trial {
    /// Input sets with both sides to be timed on them; none if the archive
    /// lacks the function.
    fn timings(&self) -> Vec<Timing<'_>>;
}

/// One whose answers are recorded.
pub trait Op: Timed {
    /// Recorded answers, the judge's alone.
    fn records(&self) -> Vec<Record>;

    /// The Rust and the archive's function, if it has one, of a call that
    /// lends slices.
    fn sides(&self) -> Option<[Option<&dyn Side>; 2]>;

    /// The judge's refusals in their order: what it answers to a call with
    /// every fault, while one fault after another is mended.
    #[cfg(test)]
    fn refusals(&self) -> Vec<u32>;
}
