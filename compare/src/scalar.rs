//! Functions of one or two numbers.

use crate::inputs::{Draw, Rng};
use crate::lent::Side;
use crate::op::{Op, Timed, Timing};
use crate::trial::{Outcome, Trial};
use crate::words::{self, Record, shown, shown_narrow};
use std::hint::black_box;
use std::num::FpCategory;

/// The bits of one or two numbers; the second is 0 where there is one.
pub type Numbers = [u64; 2];

/// A function of numbers, by its signature.
#[derive(Clone, Copy)]
pub enum Function {
    One(unsafe extern "C" fn(f64) -> f64),
    Two(unsafe extern "C" fn(f64, f64) -> f64),
    Narrow(unsafe extern "C" fn(f64) -> f32),
    Widen(unsafe extern "C" fn(f32) -> f64),
}

impl Function {
    #[inline]
    fn call(self, [x, y]: Numbers) -> u64 {
        // These functions have no condition to be called.
        unsafe {
            match self {
                Function::One(f) => f(f64::from_bits(x)).to_bits(),
                Function::Two(f) => f(f64::from_bits(x), f64::from_bits(y)).to_bits(),
                Function::Narrow(f) => f(f64::from_bits(x)).to_bits().into(),
                Function::Widen(f) => f(f32::from_bits(x as u32)).to_bits(),
            }
        }
    }

    /// What the answers on all inputs add up to, by exclusive or. Which
    /// function it is is settled before the first call.
    fn fold(self, inputs: &[Numbers]) -> u64 {
        fn all(inputs: &[Numbers], call: impl Fn(Numbers) -> u64) -> u64 {
            inputs.iter().fold(0, |all, &input| all ^ call(input))
        }
        match self {
            Function::One(f) => all(inputs, |input| Function::One(f).call(input)),
            Function::Two(f) => all(inputs, |input| Function::Two(f).call(input)),
            Function::Narrow(f) => all(inputs, |input| Function::Narrow(f).call(input)),
            Function::Widen(f) => all(inputs, |input| Function::Widen(f).call(input)),
        }
    }

    /// The numbers that it looks at.
    fn takes(self, input: &Numbers) -> &[u64] {
        match self {
            Function::Two(_) => input,
            _ => &input[..1],
        }
    }

    fn show_input(self, [x, y]: Numbers) -> String {
        match self {
            Function::Two(_) => format!("{}, {}", shown(x), shown(y)),
            Function::Widen(_) => shown_narrow(x),
            _ => shown(x),
        }
    }

    fn show_output(self, bits: u64) -> String {
        match self {
            Function::Narrow(_) => shown_narrow(bits),
            _ => shown(bits),
        }
    }

    /// The output, with one pattern for every NaN.
    #[inline]
    fn plain(self, bits: u64) -> u64 {
        match self {
            Function::Narrow(_) if f32::from_bits(bits as u32).is_nan() => 0x7fc0_0000,
            Function::Narrow(_) => bits,
            _ => words::plain(bits),
        }
    }

    /// The kind of an output.
    #[inline]
    fn kind(self, bits: u64) -> usize {
        let category = match self {
            Function::Narrow(_) => f32::from_bits(bits as u32).classify(),
            _ => f64::from_bits(bits).classify(),
        };
        let kind = match category {
            FpCategory::Zero => 0,
            FpCategory::Subnormal => 1,
            FpCategory::Normal => 2,
            FpCategory::Infinite => 3,
            FpCategory::Nan => 4,
        };
        Outcome::NUMBER + kind
    }
}

/// A function of numbers and its judge. They agree where the bits are equal
/// or both are NaN: IEEE 754 and the rule fix the signs of these zeros.
pub struct Scalar {
    pub name: &'static str,
    pub ours: Option<Function>,
    pub rust: Function,
    /// What is expected of an input to which the Rust answers this.
    pub expected: fn(Numbers, u64) -> u64,
    /// Inputs that are recorded and always tried.
    pub notable: Vec<Numbers>,
    /// Inputs that are recorded besides.
    pub more: Vec<Numbers>,
    /// Inputs that are always tried after these.
    pub systematic: Vec<Numbers>,
    /// Further inputs.
    pub drawn: Draw<Numbers>,
    /// How many there are, where the drawn inputs are all there are.
    pub every: Option<u64>,
    /// Input sets for timing.
    pub sets: Vec<(&'static str, Draw<Numbers>)>,
}

impl Scalar {
    /// A function of which the Rust's answers are expected, with no inputs.
    pub fn new(name: &'static str, ours: Option<Function>, rust: Function) -> Self {
        let (notable, more, systematic, sets) = (vec![], vec![], vec![], vec![]);
        let drawn = |_, _: &mut Rng| unreachable!("no inputs are given");
        let expected = |_, rust| rust;
        Scalar { name, ours, rust, expected, notable, more, systematic, drawn, every: None, sets }
    }

    #[inline]
    fn input(&self, case: u64, mut rng: Rng) -> Numbers {
        let (notable, systematic) = (self.notable.len() as u64, self.systematic.len() as u64);
        if case >= notable + systematic {
            (self.drawn)(case - notable - systematic, &mut rng)
        } else if case >= notable {
            self.systematic[(case - notable) as usize]
        } else {
            self.notable[case as usize]
        }
    }

    #[inline]
    fn judge(&self, input: Numbers) -> u64 {
        (self.expected)(input, self.rust.call(input))
    }

    fn ours(&self) -> Function {
        self.ours.expect("exported")
    }
}

/// The least count for which every input is tried, where these can be
/// counted out.
const TRY_EVERY: u64 = 10_000_000;

impl Trial for Scalar {
    fn name(&self) -> &'static str {
        self.name
    }

    fn note(&self) -> Option<&str> {
        self.ours.is_none().then_some("not exported yet")
    }

    fn cases(&self, count: u64) -> u64 {
        let always = (self.notable.len() + self.systematic.len()) as u64;
        match self.every {
            _ if self.ours.is_none() => 0,
            Some(every) if count >= TRY_EVERY => always + every,
            _ => count.max(always),
        }
    }

    #[inline]
    fn agree(&self, case: u64, rng: Rng) -> Option<usize> {
        let input = self.input(case, rng);
        let (judge, ours) = (self.judge(input), self.ours().call(input));
        (self.rust.plain(judge) == self.rust.plain(ours)).then(|| self.rust.kind(judge))
    }

    fn describe(&self, case: u64, rng: Rng) -> String {
        let input = self.input(case, rng);
        format!(
            "{}({})\n      judge {}\n      ours  {}",
            self.name,
            self.rust.show_input(input),
            self.rust.show_output(self.judge(input)),
            self.rust.show_output(self.ours().call(input))
        )
    }
}

impl Timed for Scalar {
    fn timings(&self) -> Vec<Timing<'_>> {
        let Some(ours) = self.ours else {
            return vec![];
        };
        let timing = |&(set, draw): &(&'static str, Draw<Numbers>)| {
            let inputs = Timing::inputs(draw);
            let pass = |f: Function| {
                move || {
                    black_box(black_box(f).fold(black_box(inputs)));
                }
            };
            Timing { set, ours: Box::new(pass(ours)), rust: Box::new(pass(self.rust)) }
        };
        self.sets.iter().map(timing).collect()
    }
}

impl Op for Scalar {
    fn records(&self) -> Vec<Record> {
        let drawn = (0..).map(|case| (self.drawn)(case, &mut Rng::at(1, case)));
        let inputs = self.notable.iter().copied().chain(drawn).take(words::NUMBERS).chain(self.more.iter().copied());
        let answer = |input| self.rust.plain(self.judge(input));
        let given = |input| self.rust.takes(&input).iter().map(|&word| vec![word]).collect();
        inputs.map(|input| Record::new(given(input), 0, vec![answer(input)])).collect()
    }

    fn sides(&self) -> Option<[Option<&dyn Side>; 2]> {
        None
    }

    #[cfg(test)]
    fn refusals(&self) -> Vec<u32> {
        vec![]
    }
}
