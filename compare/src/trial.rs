//! Cases that are tried, and what comes of them.

use crate::inputs::Rng;
use std::ops::Range;

/// The kinds of outcome that are counted.
pub struct Outcome;

impl Outcome {
    pub const NAMES: [&'static str; 24] = [
        "done",
        "refused 1",
        "refused 2",
        "refused 3",
        "refused 4",
        "refused 5",
        "refused 6",
        "refused 7",
        "refused 8",
        "refused 9",
        "refused 10",
        "refused 11",
        "refused 12",
        "refused 13",
        "refused 14",
        "no",
        "yes",
        "zero",
        "subnormal",
        "normal",
        "infinite",
        "NaN",
        "a place",
        "none",
    ];
    pub const NO: usize = 15;
    pub const YES: usize = 16;
    /// The first of the kinds of number.
    pub const NUMBER: usize = 17;
    pub const PLACE: usize = 22;
    pub const NONE: usize = 23;
}

/// How many differing cases are described.
const DESCRIBED: usize = 5;

/// What came of some cases.
#[derive(Default)]
pub struct Tally {
    pub cases: u64,
    pub differences: u64,
    /// The first differing cases, by number, with what differs.
    pub first: Vec<(u64, String)>,
    pub outcomes: [u64; Outcome::NAMES.len()],
}

impl Tally {
    pub fn add(&mut self, other: Tally) {
        self.cases += other.cases;
        self.differences += other.differences;
        self.first.extend(other.first);
        self.first.sort();
        self.first.truncate(DESCRIBED);
        for (mine, others) in self.outcomes.iter_mut().zip(other.outcomes) {
            *mine += others;
        }
    }
}

/// Cases on which answers are compared.
pub trait Trial: Sync {
    fn name(&self) -> &'static str;

    /// What is to be said of the archive, if it lacks something.
    fn note(&self) -> Option<&str>;

    /// How many cases to try where `count` are asked for.
    fn cases(&self, count: u64) -> u64;

    /// Tries one case: the kind of outcome if all agree, else nothing.
    fn agree(&self, case: u64, rng: Rng) -> Option<usize>;

    /// The input of a case and what each side answers.
    fn describe(&self, case: u64, rng: Rng) -> String;

    /// Tries a run of cases.
    fn compare(&self, cases: Range<u64>, seed: u64) -> Tally {
        let mut tally = Tally { cases: cases.end - cases.start, ..Tally::default() };
        for case in cases {
            match self.agree(case, Rng::at(seed, case)) {
                Some(outcome) => tally.outcomes[outcome] += 1,
                None => {
                    tally.differences += 1;
                    if tally.first.len() < DESCRIBED {
                        tally.first.push((case, self.describe(case, Rng::at(seed, case))));
                    }
                }
            }
        }
        tally
    }
}
