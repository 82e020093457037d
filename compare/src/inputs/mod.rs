//! Inputs: fixed lists, and draws from a generator. Here and in `number.rs`
//! numbers are given by their bits, those of an f32 in the low half.

mod batch;
mod blocking;
mod camera;
mod clip;
mod damage;
mod exact_box;
mod farm;
mod file;
mod group;
mod hail;
mod missing;
mod nearest;
mod notable_file;
mod number;
mod oblique;
mod portfolio;
mod solid;
mod space;
mod two_matrices;
mod view;
mod volume;
mod whole;

pub use batch::*;
pub use blocking::*;
pub use camera::*;
pub use clip::*;
pub use damage::*;
pub use exact_box::*;
pub use farm::*;
pub use file::*;
pub use group::*;
pub use hail::*;
pub use missing::*;
pub use nearest::*;
pub use notable_file::*;
pub use number::*;
pub use oblique::*;
pub use portfolio::*;
pub use solid::*;
pub use space::*;
pub use two_matrices::*;
pub use view::*;
pub use volume::*;
pub use whole::*;

use crate::judge::{FEWEST_PLANES, MOST_PLANES};

/// Splitmix64.
pub struct Rng(u64);

impl Rng {
    /// The generator of one case, whichever thread draws it.
    pub fn at(seed: u64, case: u64) -> Rng {
        Rng(mixed(seed).wrapping_add(case.wrapping_mul(0xd1b5_4a32_d192_ed03)))
    }

    pub fn bits(&mut self) -> u64 {
        self.0 = self.0.wrapping_add(0x9e37_79b9_7f4a_7c15);
        mixed(self.0)
    }

    /// A number below `n`.
    pub fn below(&mut self, n: u64) -> u64 {
        ((self.bits() as u128 * n as u128) >> 64) as u64
    }

    pub fn pick<T: Copy>(&mut self, from: &[T]) -> T {
        from[self.below(from.len() as u64) as usize]
    }

    /// One of the two signs.
    fn sign(&mut self) -> u64 {
        self.bits() & SIGN
    }

    /// True once in `n` times.
    pub fn once_in(&mut self, n: u64) -> bool {
        self.below(n) == 0
    }

    /// A number from `low` up to `high`.
    pub fn between(&mut self, low: f64, high: f64) -> f64 {
        low + (high - low) * ((self.bits() >> 11) as f64 / (1_u64 << 53) as f64)
    }

    /// A whole number of at most this size.
    pub fn whole(&mut self, size: i64) -> i64 {
        self.below(2 * size as u64 + 1) as i64 - size
    }

    /// One of the numbers at most `steps` away from `x`.
    pub fn about(&mut self, x: f64, steps: u64) -> f64 {
        f64::from_bits(near(self, x.to_bits(), steps))
    }
}

/// Draws an input, by its number and a generator.
pub type Draw<I> = fn(u64, &mut Rng) -> I;

pub const fn mixed(x: u64) -> u64 {
    let x = (x ^ x >> 30).wrapping_mul(0xbf58_476d_1ce4_e5b9);
    let x = (x ^ x >> 27).wrapping_mul(0x94d0_49bb_1331_11eb);
    x ^ x >> 31
}

pub const SIGN: u64 = 1 << 63;
const FRACTION: u64 = (1 << 52) - 1;
const INFINITY: u64 = 0x7ff << 52;

/// The largest finite f32, by its bits.
const LAST_NARROW: u64 = 0x7f7f_ffff;

// Numbers of every kind.

/// Numbers with a place of their own, without their signs.
const SPECIAL: [u64; 28] = [
    0,
    1,
    2,
    FRACTION / 2,
    FRACTION,
    f64::MIN_POSITIVE.to_bits(),
    f64::MIN_POSITIVE.to_bits() + 1,
    1e-200_f64.to_bits(),
    1e-10_f64.to_bits(),
    0.1_f64.to_bits(),
    0.5_f64.to_bits(),
    1.0_f64.to_bits() - 1,
    1.0_f64.to_bits(),
    1.0_f64.to_bits() + 1,
    2.0_f64.to_bits(),
    3.0_f64.to_bits(),
    4.0_f64.to_bits(),
    10.0_f64.to_bits(),
    1e10_f64.to_bits(),
    1e200_f64.to_bits(),
    f64::MAX.to_bits() - 1,
    f64::MAX.to_bits(),
    INFINITY,
    // NaN: the usual one, signalling ones, the largest payload, others.
    INFINITY | 1 << 51,
    INFINITY | 1,
    INFINITY | FRACTION,
    INFINITY | 1 << 51 | 1,
    INFINITY | 0x0007_1234_5678_9abc,
];

/// The special numbers with both signs.
pub fn special() -> Vec<u64> {
    both_signs(SPECIAL.into_iter())
}

fn both_signs(of: impl Iterator<Item = u64>) -> Vec<u64> {
    of.flat_map(|bits| [bits, bits | SIGN]).collect()
}

/// Both signs and every exponent with the fractions of [`pattern`], for a
/// format of these widths.
pub fn systematic(exponent: u32, fraction: u32) -> Vec<u64> {
    let patterns: Vec<u64> = (0..3 * fraction + 2).map(|i| pattern(i, fraction)).collect();
    (0..2 << exponent).flat_map(|high| patterns.iter().map(move |low| high << fraction | low)).collect()
}

/// Of `width` bits none, all, one, some low ones or some high ones.
fn pattern(i: u32, width: u32) -> u64 {
    let all = (1 << width) - 1;
    match (i / width, i % width) {
        (0, at) => 1 << at,
        (1, at) => all >> at,
        (2, at) => all << at & all,
        (_, 0) => 0,
        _ => 1 << (width - 1) | 1,
    }
}

/// A number of any kind.
pub fn any(rng: &mut Rng) -> u64 {
    match rng.below(8) {
        0..3 => rng.bits(),
        3 => rng.sign() | rng.pick(&SPECIAL),
        4 => (rng.bits() & !FRACTION) | pattern(rng.below(158) as u32, 52),
        5 => rng.sign() | subnormal(rng),
        6 => rng.sign() | INFINITY | rng.bits() & FRACTION,
        _ => ordinary(rng),
    }
}

/// A number of either sign, from 2^-20 to 2^20 in size.
pub fn ordinary(rng: &mut Rng) -> u64 {
    rng.sign() | (1003 + rng.below(40)) << 52 | rng.bits() & FRACTION
}

/// A subnormal number above zero, or zero.
pub fn subnormal(rng: &mut Rng) -> u64 {
    rng.bits() & FRACTION >> rng.below(52)
}

/// `bits` moved by at most `steps` numbers up or down, and not past zero.
fn near(rng: &mut Rng, bits: u64, steps: u64) -> u64 {
    let moved = (bits & !SIGN) + rng.below(2 * steps + 1);
    bits & SIGN | moved.saturating_sub(steps)
}

/// Two numbers: unrelated, equal, opposite, or next to each other.
pub fn pair(rng: &mut Rng) -> [u64; 2] {
    let x = any(rng);
    match rng.below(8) {
        0..2 => [x, any(rng)],
        2 => [x, x],
        3 => [x, x ^ SIGN],
        4 => [x, near(rng, x, 2)],
        5 => [ordinary(rng), ordinary(rng)],
        6 => [rng.sign(), rng.sign()],
        _ if rng.once_in(2) => [rng.sign(), x],
        _ => [x, rng.sign()],
    }
}

/// Pairs on which a least or a greatest goes wrong: zeros of two signs, one
/// NaN or two, infinities, neighbours.
pub fn notable_pairs() -> Vec<[u64; 2]> {
    let few = [0.0, 1.0, f64::INFINITY, f64::NAN].map(f64::to_bits);
    let few = both_signs(few.into_iter().chain([1, INFINITY | 1, 1.0_f64.to_bits() + 1]));
    few.iter().flat_map(|&x| few.iter().map(move |&y| [x, y])).collect()
}

/// Equal operands, the two zeros among them, which [`notable_pairs`] has few
/// of.
pub fn equal_pairs() -> Vec<[u64; 2]> {
    let numbers = [0.0, f64::MIN_POSITIVE, 1e-10, 0.1, 0.5, 2.0, 3.0, 1e10, 1e200, f64::MAX].map(f64::to_bits);
    let same = both_signs(numbers.into_iter()).into_iter().map(|x| [x, x]);
    same.chain([[0, SIGN], [SIGN, 0], [1, 1], [SIGN | 1, SIGN | 1]]).collect()
}

/// All pairs of special numbers.
pub fn special_pairs() -> Vec<[u64; 2]> {
    let special = special();
    special.iter().flat_map(|&x| special.iter().map(move |&y| [x, y])).collect()
}
