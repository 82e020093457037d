//! Numbers as words, shown and recorded. README.md has the form of what is
//! recorded.

use crate::judge::{GROUP_SIZE, WRONG_INPUT};
use std::collections::BTreeMap;

/// The most words that a replay holds of a call's inputs.
pub const ROOM: usize = 192;

/// An input, and what is to be answered.
#[derive(PartialEq)]
pub struct Record {
    /// The words of each slice or lone number.
    pub given: Vec<Vec<u64>>,
    /// How many words there is room for.
    room: usize,
    pub status: u32,
    /// None of a refusal.
    pub result: Vec<u64>,
}

impl Record {
    /// Of a call that answered so, and left these words in the room for its
    /// result; none is lent to one that is refused before room is looked at.
    pub fn new(given: Vec<Vec<u64>>, status: u32, left: Vec<u64>) -> Record {
        let room = if [WRONG_INPUT, GROUP_SIZE].contains(&status) { 0 } else { left.len() };
        Record { given, room, status, result: if status == 0 { left } else { vec![] } }
    }

    pub fn bytes(&self, [family, place]: [u8; 2]) -> Vec<u8> {
        let byte = |length: usize| u8::try_from(length).expect("lengths are recorded as bytes");
        let mut head = [family, place, 0, 0, 0, 0, byte(self.room), self.status as u8];
        for (length, given) in head[2..6].iter_mut().zip(&self.given) {
            *length = byte(given.len());
        }
        let words = self.given.iter().flatten().chain(&self.result);
        head.into_iter().chain(words.flat_map(|word| word.to_le_bytes())).collect()
    }
}

pub fn shown(bits: u64) -> String {
    format!("{bits:#018x} ({:e})", f64::from_bits(bits))
}

/// Numbers with commas.
pub fn list(numbers: &[f64]) -> String {
    numbers.iter().map(|number| shown(number.to_bits())).collect::<Vec<String>>().join(", ")
}

pub fn shown_narrow(bits: u64) -> String {
    format!("{bits:#010x} ({:e})", f32::from_bits(bits as u32))
}

/// The bits of a result, with one pattern for every NaN.
#[inline]
pub fn plain(bits: u64) -> u64 {
    if f64::from_bits(bits).is_nan() { 0x7ff8_0000_0000_0000 } else { bits }
}

/// How many are recorded of a function of numbers and of the grid.
pub const NUMBERS: usize = 300;

/// How many are recorded of a call at least, and how many of these at least
/// are drawn.
const CALLS: usize = 60;
const DRAWN: usize = 20;

/// How many are drawn to choose from.
const CHOICE: u64 = 4000;

/// The fixed inputs, and drawn ones of each kind of outcome in turn.
pub fn sample<I: Copy>(fixed: &[I], drawn: impl Fn(u64) -> I, kind: impl Fn(&I) -> usize) -> Vec<I> {
    let mut kinds: BTreeMap<usize, Vec<I>> = BTreeMap::new();
    (0..CHOICE).map(drawn).for_each(|input| kinds.entry(kind(&input)).or_default().push(input));
    let most = kinds.values().map(Vec::len).max().unwrap_or(0);
    let in_turn = (0..most).flat_map(|i| kinds.values().filter_map(move |inputs| inputs.get(i).copied()));
    let room = CALLS.saturating_sub(fixed.len()).max(DRAWN);
    fixed.iter().copied().chain(in_turn.take(room)).collect()
}
