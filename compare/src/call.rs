//! Calls that lend slices.

use crate::inputs::{self, Draw, MISSING, Rng, mixed};
use crate::judge::{self, NO_PLACE};
use crate::lent::{INPUTS, Input, Ins, Lent, Shape, Side, Single};
use crate::op::{Op, Timed, Timing};
use crate::trial::{Outcome, Trial};
use crate::words::{self, Record};

/// What is exported, with both sides of it. Written by `call!`.
pub struct Exported {
    /// Its C name.
    pub name: &'static str,
    pub takes: &'static [Shape],
    pub gives: Shape,
    pub ours: Option<Box<dyn Side>>,
    pub rust: Box<dyn Side>,
}

/// Inputs to be timed on, and against whom if not the call's own Rust.
struct Set<I> {
    name: &'static str,
    drawn: Draw<I>,
    against: Option<Box<dyn Side>>,
}

/// A call that reads lent slices, writes one or a lone result, and answers a
/// refusal or 0.
pub struct Call<I> {
    of: Exported,
    agrees: fn(f64, f64) -> bool,
    fixed: Vec<I>,
    /// Always tried too, and not recorded.
    tried: Vec<I>,
    drawn: Draw<I>,
    /// Of drawn inputs some numbers are missing.
    struck: bool,
    sets: Vec<Set<I>>,
    timed_against: Option<Box<dyn Side>>,
    recorded: Option<fn() -> Vec<Record>>,
    #[cfg(test)]
    mended: Vec<I>,
}

impl<I: Input> Call<I> {
    /// A call with no inputs.
    pub fn new(of: Exported) -> Self {
        let agrees = if matches!(of.gives, Shape::Verdict | Shape::Place) { judge::equal } else { judge::signed };
        let drawn = |_, _: &mut Rng| unreachable!("no inputs are given");
        Call {
            of,
            agrees,
            fixed: vec![],
            tried: vec![],
            drawn,
            struck: false,
            sets: vec![],
            timed_against: None,
            recorded: None,
            #[cfg(test)]
            mended: vec![],
        }
    }

    /// Inputs that are always tried, and recorded.
    pub fn fixed(mut self, fixed: Vec<I>) -> Self {
        self.fixed.extend(fixed);
        self
    }

    /// Inputs of the right lengths with every fault, then with one fewer after
    /// another, and last with none, where a call has more than one refusal
    /// behind the lengths. They are always tried too.
    pub fn mended(mut self, inputs: Vec<I>) -> Self {
        #[cfg(test)]
        self.mended.extend(&inputs);
        self.fixed.extend(inputs);
        self
    }

    /// Inputs of which every number is missing in turn, and several are: they
    /// are always tried, and of the first each number once is recorded. Of
    /// drawn inputs some are struck so.
    pub fn missing(mut self, of: &[I]) -> Self {
        self.struck = true;
        for (k, &input) in of.iter().enumerate() {
            for (r, record) in input.records().into_iter().take(self.of.takes.len()).enumerate() {
                for (i, numbers) in inputs::struck(record).into_iter().enumerate() {
                    let mut struck = input;
                    struck.records_mut()[r].copy_from_slice(&numbers);
                    let (place, way) = (i / MISSING.len(), i % MISSING.len());
                    let recorded = k == 0 && place < record.len() && way == place % MISSING.len();
                    if recorded { &mut self.fixed } else { &mut self.tried }.push(struck);
                }
            }
        }
        self
    }

    /// Inputs that are always tried, and not recorded.
    pub fn tried(mut self, inputs: Vec<I>) -> Self {
        self.tried.extend(inputs);
        self
    }

    /// Where all further inputs come from.
    pub fn drawn(mut self, drawn: Draw<I>) -> Self {
        self.drawn = drawn;
        self
    }

    /// A set of inputs to be timed on.
    pub fn timed(mut self, set: &'static str, drawn: Draw<I>) -> Self {
        self.sets.push(Set { name: set, drawn, against: None });
        self
    }

    /// One that is timed against the Rust of `other`.
    pub fn timed_by<J>(mut self, set: &'static str, drawn: Draw<I>, other: Call<J>) -> Self {
        self.sets.push(Set { name: set, drawn, against: Some(other.of.rust) });
        self
    }

    /// One that is timed against a function of the archive, if it has that.
    pub fn timed_beside(mut self, set: &'static str, drawn: Draw<I>, beside: Option<Box<dyn Side>>) -> Self {
        self.sets.extend(beside.map(|side| Set { name: set, drawn, against: Some(side) }));
        self
    }

    /// Its judge is not what it is timed against; the Rust of `other` is.
    pub fn timed_against(mut self, other: Self) -> Self {
        self.timed_against = Some(other.of.rust);
        self
    }

    /// Zeros of either sign agree.
    pub fn zeros_alike(mut self) -> Self {
        self.agrees = judge::matches;
        self
    }

    /// Results are to agree bit for bit.
    pub fn bit_for_bit(mut self) -> Self {
        self.agrees = judge::equal;
        self
    }

    /// Its answers are recorded in a form of their own.
    pub fn recorded(mut self, records: fn() -> Vec<Record>) -> Self {
        self.recorded = Some(records);
        self
    }

    pub fn op(self) -> Box<dyn Op> {
        Box::new(self)
    }

    /// How many inputs are always tried.
    fn always(&self) -> u64 {
        (self.fixed.len() + self.tried.len()) as u64
    }

    fn input(&self, case: u64, rng: &mut Rng) -> I {
        match self.fixed.iter().chain(&self.tried).nth(case as usize) {
            Some(&input) => input,
            None => self.draw(case - self.always(), rng),
        }
    }

    fn draw(&self, case: u64, rng: &mut Rng) -> I {
        let mut input = (self.drawn)(case, rng);
        if self.struck {
            inputs::strike_or_mend(rng, &mut input.records_mut());
        }
        input
    }

    /// The lengths of this case: one call in eight has wrong ones, where
    /// only one slice is one short or one long, or any slice has any length.
    fn lengths(&self, case: u64, input: &I, rng: &mut Rng) -> [usize; INPUTS + 1] {
        let right = self.right_lengths(input);
        if case < self.always() || rng.below(8) != 0 {
            return right;
        }
        let mut len = right;
        let last = INPUTS + usize::from(matches!(self.of.gives, Shape::Slice(_)));
        let is_slice = |i: usize| i == INPUTS || matches!(self.of.takes.get(i), Some(Shape::Slice(_)));
        let slices = || (0..last).filter(|&i| is_slice(i));
        if rng.below(2) == 0 {
            let one = slices().nth(rng.below(slices().count() as u64) as usize).expect("a slice is lent");
            len[one] = right[one] - 1 + 2 * rng.below(2) as usize;
        } else {
            slices().for_each(|i| len[i] = rng.below(right[i] as u64 + 3) as usize);
        }
        len
    }

    /// The lengths of an input's records, and of the result.
    fn right_lengths(&self, input: &I) -> [usize; INPUTS + 1] {
        let mut right = [0; INPUTS + 1];
        for (len, record) in right.iter_mut().zip(input.records()) {
            *len = record.len();
        }
        right[INPUTS] = self.of.gives.len();
        right
    }

    /// Lays out the numbers of a case.
    fn lay(&self, input: I, len: [usize; INPUTS + 1]) -> Desk {
        let mut desk = Desk { words: BESIDE, at: [0; INPUTS + 1], len };
        let mut at = GUARD;
        for (i, record) in input.records().into_iter().enumerate().take(self.of.takes.len()) {
            desk.at[i] = at;
            for (word, number) in desk.words[at..][..len[i]].iter_mut().zip(record) {
                *word = number.to_bits();
            }
            at += record.len() + GUARD + 2;
        }
        desk.at[INPUTS] = at;
        desk
    }

    /// The kind of outcome, where this is left of a call.
    fn outcome(&self, status: u32, desk: &Desk) -> usize {
        match status {
            0 => match (self.of.gives, desk.word()) {
                (Shape::Verdict, 0) => Outcome::NO,
                (Shape::Verdict, _) => Outcome::YES,
                (Shape::Place, NO_PLACE) => Outcome::NONE,
                (Shape::Place, _) => Outcome::PLACE,
                _ => 0,
            },
            _ => status as usize,
        }
    }

    /// Puts one case to both sides: what was lent, and for the judge and
    /// ours what was answered and what is left.
    fn make(&self, case: u64, mut rng: Rng) -> (Desk, [(u32, Desk); 2]) {
        let input = self.input(case, &mut rng);
        let before = self.lay(input, self.lengths(case, &input, &mut rng));
        let made = [Some(&self.of.rust), self.of.ours.as_ref()].map(|side| {
            let mut desk = before.clone();
            let status = desk.put_to(side.expect("exported").as_ref());
            (status, desk)
        });
        (before, made)
    }
}

#[cfg(test)]
impl<I: Input> Call<I> {
    /// The same call by another than the archive's function.
    pub fn by(mut self, ours: Box<dyn Side>) -> Self {
        self.of.ours = Some(ours);
        self
    }

    /// What the judge answers, with these lengths.
    fn judged(&self, input: I, len: [usize; INPUTS + 1]) -> u32 {
        self.lay(input, len).put_to(self.of.rust.as_ref())
    }

    /// Inputs as of `mended`. Where a call has one refusal behind the lengths,
    /// or none, any that meets it and any that is accepted.
    fn mended_inputs(&self) -> Vec<I> {
        if !self.mended.is_empty() {
            return self.mended.clone();
        }
        let inputs = || (0..TRIED).map(|case| self.input(case, &mut Rng::at(1, case)));
        let is_refused = |&input: &I| self.judged(input, self.right_lengths(&input)) != 0;
        let refused = inputs().find(is_refused);
        refused.into_iter().chain(inputs().find(|input| !is_refused(input))).collect()
    }
}

/// How many cases show which refusals a call has.
#[cfg(test)]
const TRIED: u64 = 20_000;

/// The numbers of a call: its slices, and beside them others that nobody may
/// write.
#[derive(Clone)]
struct Desk {
    words: [u64; WORDS],
    /// Where the inputs and the result are lent, and at what length.
    at: [usize; INPUTS + 1],
    len: [usize; INPUTS + 1],
}

/// How many numbers are between a slice that is two too long and the next.
const GUARD: usize = 2;
const WORDS: usize = 224;

/// What is on the desk beside the inputs, and before there is a result.
const BESIDE: [u64; WORDS] = {
    let mut words = [0; WORDS];
    let mut i = 0;
    while i < WORDS {
        words[i] = mixed(i as u64 + 1);
        i += 1;
    }
    words
};

impl Desk {
    fn put_to(&mut self, side: &dyn Side) -> u32 {
        let base = self.words.as_mut_ptr().cast::<f64>();
        let lent: [Lent; INPUTS + 1] =
            std::array::from_fn(|i| Lent { at: base.wrapping_add(self.at[i]), len: self.len[i] });
        let [ins @ .., out] = lent;
        side.call(&ins, out)
    }

    fn numbers(&self, i: usize) -> &[u64] {
        &self.words[self.at[i]..][..self.len[i]]
    }

    /// The first half of the result's first word.
    fn word(&self) -> u32 {
        let [a, b, c, d, ..] = self.words[self.at[INPUTS]].to_ne_bytes();
        u32::from_ne_bytes([a, b, c, d])
    }

    /// Whether all is as expected: the result by `agrees`, all else by its
    /// bits.
    fn is(&self, expected: &Desk, agrees: fn(f64, f64) -> bool) -> bool {
        let result = self.at[INPUTS]..self.at[INPUTS] + self.len[INPUTS];
        self.words == expected.words
            || (self.words.iter().zip(&expected.words).enumerate()).all(|(i, (&is, &expected))| {
                is == expected || (result.contains(&i) && agrees(f64::from_bits(expected), f64::from_bits(is)))
            })
    }
}

impl<I: Input> Trial for Call<I> {
    fn name(&self) -> &'static str {
        self.of.name.trim_start_matches("gf_")
    }

    fn note(&self) -> Option<&str> {
        self.of.ours.is_none().then_some("not exported yet")
    }

    fn cases(&self, count: u64) -> u64 {
        if self.of.ours.is_none() { 0 } else { count.max(self.always()) }
    }

    fn agree(&self, case: u64, rng: Rng) -> Option<usize> {
        let (_, [(judge, expected), (ours, desk)]) = self.make(case, rng);
        // A refusal leaves the result as it was, bit for bit.
        let agrees = if judge == 0 { self.agrees } else { judge::equal };
        (judge == ours && desk.is(&expected, agrees)).then(|| self.outcome(judge, &expected))
    }

    fn describe(&self, case: u64, rng: Rng) -> String {
        let (before, [(judge, expected), (ours, desk)]) = self.make(case, rng);
        let list = |words: &[u64]| {
            let words: Vec<String> = words.iter().map(|&bits| words::shown(bits)).collect();
            format!("[{}]", words.join(", "))
        };
        let result = |desk: &Desk| match self.of.gives {
            Shape::Verdict | Shape::Place => format!("{:#018x}", desk.numbers(INPUTS)[0]),
            _ => list(desk.numbers(INPUTS)),
        };
        let given = |(i, &shape): (usize, &Shape)| match shape {
            Shape::Single => format!("[{}]", words::shown_narrow(Single::at(before.numbers(i)[0]).to_bits().into())),
            _ => list(before.numbers(i)),
        };
        let ins: Vec<String> = self.of.takes.iter().enumerate().map(given).collect();
        let mut text = format!("{}({}; out of {})", self.name(), ins.join(", "), before.len[INPUTS]);
        text += &format!("\n      judge {judge} {}", result(&expected));
        text += &format!("\n      ours  {ours} {}", result(&desk));
        let out = before.at[INPUTS]..before.at[INPUTS] + before.len[INPUTS];
        if (0..WORDS).any(|i| !out.contains(&i) && desk.words[i] != before.words[i]) {
            text += "\n      an input, or a number beside what was lent, was written";
        }
        text
    }
}

impl<I: Input> Timed for Call<I> {
    fn timings<'a>(&'a self) -> Vec<Timing<'a>> {
        let Some(ours) = &self.of.ours else {
            return vec![];
        };
        let timing = |set: &'a Set<I>| {
            let rust = set.against.as_ref().or(self.timed_against.as_ref()).unwrap_or(&self.of.rust);
            let inputs = Timing::inputs(set.drawn).iter();
            let lent: &'static [Ins] =
                inputs.map(|input| input.records().map(Lent::to_read)).collect::<Vec<_>>().leak();
            Timing::of(set.name, [(ours.as_ref(), lent), (rust.as_ref(), lent)], self.of.gives.len())
        };
        self.sets.iter().map(timing).collect()
    }
}

impl<I: Input> Op for Call<I> {
    fn records(&self) -> Vec<Record> {
        if let Some(records) = self.recorded {
            return records();
        }
        let answered = |input: I| {
            let mut desk = self.lay(input, self.right_lengths(&input));
            let status = desk.put_to(self.of.rust.as_ref());
            (status, desk)
        };
        let recorded = |input: I| {
            let (status, desk) = answered(input);
            let given = |(i, &shape): (usize, &Shape)| match shape {
                Shape::Single => vec![words::plain(f64::from(Single::at(desk.numbers(i)[0])).to_bits())],
                _ => desk.numbers(i).to_vec(),
            };
            let given = self.of.takes.iter().enumerate().map(given).collect();
            let left = match self.of.gives {
                Shape::Verdict | Shape::Place => vec![desk.word().into()],
                _ => desk.numbers(INPUTS).iter().map(|&bits| words::plain(bits)).collect(),
            };
            Record::new(given, status, left)
        };
        let drawn = |case| self.draw(case, &mut Rng::at(1, case));
        let kind = |&input: &I| {
            let (status, desk) = answered(input);
            self.outcome(status, &desk)
        };
        words::sample(&self.fixed, drawn, kind).into_iter().map(recorded).collect()
    }

    fn sides(&self) -> Option<[Option<&dyn Side>; 2]> {
        Some([Some(self.of.rust.as_ref()), self.of.ours.as_deref()])
    }

    #[cfg(test)]
    fn refusals(&self) -> Vec<u32> {
        let inputs = self.mended_inputs();
        let faulty = inputs[0];
        // Slices of no length: each input, with the result; then the result.
        let mut short = self.right_lengths(&faulty);
        let mut answers = vec![];
        if matches!(self.of.gives, Shape::Slice(_)) {
            short[INPUTS] = 0;
        }
        for (i, _) in self.of.takes.iter().enumerate().filter(|(_, shape)| matches!(shape, Shape::Slice(_))) {
            let mut len = short;
            len[i] = 0;
            answers.push(self.judged(faulty, len));
        }
        answers.push(self.judged(faulty, short));
        answers.extend(inputs.into_iter().map(|input| self.judged(input, self.right_lengths(&input))));
        answers.dedup();
        assert_eq!(answers.pop(), Some(0), "{}: the last has no fault", self.name());
        for case in 0..TRIED {
            let mut rng = Rng::at(1, case);
            let input = self.input(case, &mut rng);
            let status = self.judged(input, self.lengths(case, &input, &mut rng));
            assert!(status == 0 || answers.contains(&status), "{}: {status} is not met", self.name());
        }
        answers
    }
}
