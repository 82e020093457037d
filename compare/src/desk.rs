//! Functions that are lent slices of any lengths and kinds: what is lent lies on
//! a desk, and is tried, timed and recorded alike for all of them.

use crate::inputs::{Rng, mixed};
use crate::lent::{Lent, Side};
use crate::op::{Op, Timed, Timing};
use crate::trial::{Outcome, Trial};
use crate::words::Record;
use std::ops::Range;

/// A word that nobody may write, or that nothing was written to yet.
pub trait Word: Copy + PartialEq {
    fn beside(place: u64) -> Self;
}

impl Word for u64 {
    fn beside(place: u64) -> u64 {
        mixed(place)
    }
}

impl Word for u32 {
    fn beside(place: u64) -> u32 {
        mixed(!place) as u32
    }
}

/// Slices of words of one size, inputs before rooms, and words beside each.
#[derive(Clone, PartialEq)]
pub struct Row<W> {
    words: Vec<W>,
    at: Vec<Range<usize>>,
    inputs: usize,
}

/// How many words are beside each slice; an odd number, so that a u32 lies at
/// any alignment that it may.
const GUARD: usize = 5;

impl<W: Word> Row<W> {
    fn new() -> Row<W> {
        let mut row = Row { words: vec![], at: vec![], inputs: 0 };
        row.guard(GUARD);
        row
    }

    fn guard(&mut self, count: usize) {
        let from = self.words.len() as u64;
        self.words.extend((from..from + count as u64).map(W::beside));
    }

    fn put(&mut self, words: impl Iterator<Item = W>) {
        let from = self.words.len();
        self.words.extend(words);
        self.at.push(from..self.words.len());
        self.inputs += 1;
        self.guard(GUARD);
    }

    fn make_room(&mut self, len: usize) {
        let from = self.words.len();
        self.guard(len + GUARD);
        self.at.push(from..from + len);
    }

    pub fn lent(&mut self, i: usize) -> Lent {
        let at = &self.at[i];
        Lent { at: self.words.as_mut_ptr().wrapping_add(at.start).cast(), len: at.len() }
    }

    pub fn slice(&self, i: usize) -> &[W] {
        &self.words[self.at[i].clone()]
    }

    /// Whether all but what is in the rooms is the same.
    fn keeps(&self, other: &Row<W>) -> bool {
        let in_room = |i: usize| self.at[self.inputs..].iter().any(|room| room.contains(&i));
        self.words.iter().zip(&other.words).enumerate().all(|(i, (a, b))| a == b || in_room(i))
    }
}

/// What a call is lent, and beside it what nobody may write.
#[derive(Clone, PartialEq)]
pub struct Desk {
    /// Of 64 bits.
    pub numbers: Row<u64>,
    /// Of 32 bits.
    pub words: Row<u32>,
}

impl Desk {
    pub fn new() -> Desk {
        Desk { numbers: Row::new(), words: Row::new() }
    }

    pub fn numbers(mut self, numbers: &[f64]) -> Desk {
        self.numbers.put(numbers.iter().map(|number| number.to_bits()));
        self
    }

    pub fn wholes(mut self, numbers: &[i32]) -> Desk {
        self.words.put(numbers.iter().map(|&number| number as u32));
        self
    }

    /// Room for so many numbers.
    pub fn room(mut self, len: usize) -> Desk {
        self.numbers.make_room(len);
        self
    }

    /// Room for so many words.
    pub fn slots(mut self, len: usize) -> Desk {
        self.words.make_room(len);
        self
    }

    /// Whether all is as expected: the numbers of a room by `agrees`, and all
    /// else bit for bit.
    pub fn is(&self, expected: &Desk, room: usize, agrees: fn(f64, f64) -> bool) -> bool {
        let room = &self.numbers.at[room];
        let words = self.numbers.words.iter().zip(&expected.numbers.words).enumerate();
        let mut alike = words.map(|(i, (&is, &expected))| {
            is == expected || (room.contains(&i) && agrees(f64::from_bits(expected), f64::from_bits(is)))
        });
        self.words == expected.words && alike.all(|is| is)
    }
}

/// The outcome of a call that answers yes or no.
pub fn seen(status: u32, yes: bool) -> usize {
    match status {
        0 if yes => Outcome::YES,
        0 => Outcome::NO,
        _ => status as usize,
    }
}

/// What one such function has of its own.
pub trait Laid: Send + Sync + Sized {
    type Given: Clone + Send + Sync;
    type Side: Send + Sync + ?Sized;

    fn name(&self) -> &'static str;

    fn drawn(rng: &mut Rng) -> Self::Given;

    /// What is lent for an input.
    fn lay(given: &Self::Given) -> Desk;

    fn put(desk: &mut Desk, side: &Self::Side) -> u32;

    fn outcome(&self, status: u32, desk: &Desk) -> usize;

    /// Whether what is left is right, where both sides answered this.
    fn agrees(&self, _: &Self::Given, _status: u32, expected: &Desk, desk: &Desk) -> bool {
        desk == expected
    }

    /// An input, and what the judge and ours answered and left.
    fn shown(&self, given: &Self::Given, judge: (u32, &Desk), ours: (u32, &Desk)) -> String;

    fn timings(of: &Both<Self>) -> Vec<Timing<'_>>;

    /// The inputs that are recorded.
    fn recorded(of: &Both<Self>) -> Vec<Self::Given>;

    /// The words of each input, and what is left of the result.
    fn words(&self, given: &Self::Given, desk: &Desk) -> (Vec<Vec<u64>>, Vec<u64>);

    fn sides(of: &Both<Self>) -> [Option<&dyn Side>; 2];

    /// An input with every fault, then with one fewer after another, and last
    /// with none.
    #[cfg(test)]
    fn mended() -> Vec<Self::Given>;
}

/// Both sides of a function, and what is always tried.
pub struct Both<L: Laid> {
    pub of: L,
    pub ours: Option<Box<L::Side>>,
    pub judge: Box<L::Side>,
    pub fixed: Vec<L::Given>,
}

impl<L: Laid> Both<L> {
    pub fn given(&self, case: u64, rng: &mut Rng) -> L::Given {
        match self.fixed.get(case as usize) {
            Some(given) => given.clone(),
            None => L::drawn(rng),
        }
    }

    /// Puts one case to both sides: for the judge and ours what was answered
    /// and all that is left.
    fn make(&self, case: u64, mut rng: Rng) -> (L::Given, [(u32, Desk); 2]) {
        let given = self.given(case, &mut rng);
        let made = [Some(&self.judge), self.ours.as_ref()].map(|side| {
            let mut desk = L::lay(&given);
            let status = L::put(&mut desk, side.expect("exported"));
            (status, desk)
        });
        (given, made)
    }

    /// What the judge answers, and what it leaves.
    pub fn judged(&self, given: &L::Given) -> (u32, Desk) {
        let mut desk = L::lay(given);
        let status = L::put(&mut desk, &self.judge);
        (status, desk)
    }
}

impl<L: Laid> Trial for Both<L> {
    fn name(&self) -> &'static str {
        self.of.name()
    }

    fn note(&self) -> Option<&str> {
        self.ours.is_none().then_some("not exported yet")
    }

    fn cases(&self, count: u64) -> u64 {
        if self.ours.is_none() { 0 } else { count.max(self.fixed.len() as u64) }
    }

    fn agree(&self, case: u64, rng: Rng) -> Option<usize> {
        let (given, [(judge, expected), (ours, desk)]) = self.make(case, rng);
        let agree = judge == ours && self.of.agrees(&given, judge, &expected, &desk);
        agree.then(|| self.of.outcome(judge, &expected))
    }

    fn describe(&self, case: u64, rng: Rng) -> String {
        let (given, [(judge, expected), (ours, desk)]) = self.make(case, rng);
        let mut text = self.name().to_string() + &self.of.shown(&given, (judge, &expected), (ours, &desk));
        if !desk.numbers.keeps(&expected.numbers) || !desk.words.keeps(&expected.words) {
            text += "\n      an input, or a number beside what was lent, was written";
        }
        text
    }
}

impl<L: Laid> Timed for Both<L> {
    fn timings(&self) -> Vec<Timing<'_>> {
        L::timings(self)
    }
}

impl<L: Laid> Op for Both<L> {
    /// Each once.
    fn records(&self) -> Vec<Record> {
        let mut once: Vec<Record> = vec![];
        for given in L::recorded(self) {
            let (status, desk) = self.judged(&given);
            let (inputs, left) = self.of.words(&given, &desk);
            let record = Record::new(inputs, status, left);
            if !once.contains(&record) {
                once.push(record);
            }
        }
        once
    }

    fn sides(&self) -> Option<[Option<&dyn Side>; 2]> {
        Some(L::sides(self))
    }

    #[cfg(test)]
    fn refusals(&self) -> Vec<u32> {
        let mut answers: Vec<u32> = L::mended().iter().map(|given| self.judged(given).0).collect();
        answers.dedup();
        assert_eq!(answers.pop(), Some(0), "the last has no fault");
        for case in 0..20_000 {
            let status = self.judged(&self.given(case, &mut Rng::at(1, case))).0;
            assert!(status == 0 || answers.contains(&status), "{}: {status} is not met", self.name());
        }
        answers
    }
}
