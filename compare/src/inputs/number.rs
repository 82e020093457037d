//! Inputs of the functions of numbers, and of the survey grid.

use super::*;
use std::sync::LazyLock;

// Square roots.

/// A number to take the root of.
pub fn radicand(rng: &mut Rng) -> u64 {
    match rng.below(8) {
        0 => rng.bits() & !SIGN,
        1 => any(rng),
        2 => square(rng),
        3 => {
            let at = square(rng);
            near(rng, at, 2)
        }
        4 => near_midpoint(rng),
        5 => {
            let power = rng.below(2047) << 52;
            near(rng, power, 4)
        }
        // The square of a full significand: the root is near a number.
        6 => {
            let root = f64::from_bits((1023 - 480 + rng.below(960)) << 52 | rng.bits() & FRACTION);
            near(rng, (root * root).to_bits(), 1)
        }
        _ => subnormal(rng),
    }
}

/// Perfect squares, powers of two, and numbers whose root is hard to round,
/// with their neighbours.
pub fn squares() -> Vec<u64> {
    let exact = [4.0, 9.0, 2.25, 1e6, 94_906_265.0 * 94_906_265.0].map(f64::to_bits);
    let powers = [1, 2, 52, 1022, 1023, 1024, 2045, 2046].map(|exponent: u64| exponent << 52);
    let hard = (0..24).map(|case| near_midpoint(&mut Rng::at(0, case)));
    exact.into_iter().chain(powers).chain(hard).flat_map(|x| [x - 1, x, x + 1]).collect()
}

/// A perfect square of at most 27 bits, scaled by a power of four.
pub fn square(rng: &mut Rng) -> u64 {
    let width = 1 + rng.below(27);
    let root = 1 + rng.below((1 << width) - 1);
    scaled((root * root) as f64, 2 * rng.below(1022) as i32 - 1074)
}

/// A number whose root is as near to the middle of two numbers as can be.
///
/// The middle is y of 54 bits, odd. A small c of 1 more than a multiple of 8
/// has square roots y modulo 2^s; those y of the right size give
/// y² - c = x · 2^s with x of 53 bits, and its root is y - c / 2y or nearly.
pub fn near_midpoint(rng: &mut Rng) -> u64 {
    loop {
        let size = rng.below(24);
        let c = (8 * (rng.below(2 << size) as i64 - (1 << size)) + 1) as u64;
        let s = 54 + rng.below(2) as u32;
        let mut y = 1_u64;
        for k in 3..s {
            if y.wrapping_mul(y).wrapping_sub(c) >> k & 1 == 1 {
                y += 1 << (k - 1);
            }
        }
        // The four roots are ±y and ±y + 2^(s-1).
        let y = if rng.below(2) == 0 { y } else { y.wrapping_neg() };
        let y = y.wrapping_add(rng.below(2) << (s - 1)) & ((1 << s) - 1);
        let x = ((y as u128 * y as u128).wrapping_sub(c as i64 as i128 as u128)) >> s;
        if y >> 53 == 1 && x >> 52 == 1 {
            // An even power of two keeps the root's significand.
            let power = 2 * rng.below(990) as i32 - 1020;
            return scaled(x as f64, s as i32 % 2 + power);
        }
    }
}

/// `x` times two to the `power`, rounded only below the normal numbers.
fn scaled(x: f64, power: i32) -> u64 {
    let half = power / 2;
    let two_to = |power: i32| f64::from_bits(((1023 + power) as u64) << 52);
    (x * two_to(half) * two_to(power - half)).to_bits()
}

// Narrowing.

/// A number to narrow.
pub fn wide(rng: &mut Rng) -> u64 {
    match rng.below(8) {
        0 => rng.bits(),
        1 => any(rng),
        2 => rng.sign() | (1023 - 152 + rng.below(282)) << 52 | rng.bits() & FRACTION,
        3 => rng.sign() | (1023 - 152 + rng.below(282)) << 52 | pattern(rng.below(158) as u32, 52),
        4 => {
            let at = narrow_number(rng);
            rng.sign() | f64::from(f32::from_bits(at as u32)).to_bits()
        }
        5 => {
            let at = narrow_number(rng);
            rng.sign() | tie(at)
        }
        _ => {
            let at = narrow_number(rng);
            let steps = 1 << rng.below(4);
            rng.sign() | near(rng, tie(at), steps)
        }
    }
}

/// A number that narrows to a subnormal one, or to the first normal one.
pub fn wide_subnormal(rng: &mut Rng) -> u64 {
    rng.sign() | (1023 - 149 + rng.below(23)) << 52 | rng.bits() & FRACTION
}

/// A finite f32 above or at zero: any, subnormal, or one of the last.
fn narrow_number(rng: &mut Rng) -> u64 {
    match rng.below(4) {
        0..2 => rng.below(LAST_NARROW + 1),
        2 => rng.below(0x80_0000) >> rng.below(23),
        _ => LAST_NARROW - rng.below(4),
    }
}

/// The middle of this f32 and the next, where 2^128 follows the last.
pub fn tie(narrow: u64) -> u64 {
    let value = |bits: u64| match bits > LAST_NARROW {
        true => 2.0 * f64::from(f32::from_bits(0x7f00_0000)),
        false => f64::from(f32::from_bits(bits as u32)),
    };
    (value(narrow) / 2.0 + value(narrow + 1) / 2.0).to_bits()
}

/// Middles with their neighbours, at the edges of f32.
pub fn ties() -> Vec<u64> {
    let at = [0, 1, 2, 3, 0x7f_fffe, 0x7f_ffff, 0x80_0000, 0x80_0001, 0x3f80_0000, 0x3f80_0001, LAST_NARROW - 1];
    let around = |middle: u64| [middle - 1, middle, middle + 1];
    both_signs(at.into_iter().chain([LAST_NARROW]).map(tie).flat_map(around))
}

/// The special numbers of f32, with both signs.
pub fn narrow_special() -> Vec<u64> {
    let infinity = 0x7f80_0000;
    let numbers = [
        0,
        1,
        2,
        0x3f_ffff,
        0x7f_ffff,
        0x80_0000,
        0x80_0001,
        0x3f7f_ffff,
        0x3f80_0000,
        0x3f80_0001,
        0x4049_0fdb,
        LAST_NARROW - 1,
        LAST_NARROW,
        infinity,
        infinity | 1 << 22,
        infinity | 1,
        infinity | 0x7f_ffff,
    ];
    numbers.into_iter().flat_map(|bits| [bits, bits | 1 << 31]).collect()
}

/// The f32 patterns, each once in 2^32 cases and spread from the start.
pub fn narrow_pattern(case: u64) -> u64 {
    (case as u32).wrapping_mul(0x9e37_79b1) as u64
}

// The survey grid.

/// Metres that the grid has to place with care, with both signs.
pub fn notable_metres() -> Vec<u64> {
    let places = [0.125, 0.375, 0.005, 0.004, 0.015, 0.025, 1.0, 2.5, 100.0, 655.0, 655.355, 655.36, 655.365, 656.0];
    let around = |x: f64| (x.to_bits() - 2..=x.to_bits() + 2).collect::<Vec<u64>>();
    // The metres whose product with 100 is the number before a half.
    let before_half = (around(0.005).into_iter()).filter(|&x| f64::from_bits(x) * 100.0 == 0.49999999999999994);
    both_signs(places.into_iter().flat_map(around).chain(before_half).chain([1e6_f64, 1e300].map(f64::to_bits)))
}

/// A coordinate in metres.
pub fn metres(rng: &mut Rng) -> u64 {
    let sign = rng.sign();
    let whole = rng.below(65_540) >> rng.below(17);
    sign | match rng.below(9) {
        // About a half, a whole number of centimetres, or the last of them.
        0..3 => near(rng, ((whole as f64 + 0.5) / 100.0).to_bits(), 3),
        3 => near(rng, (whole as f64 / 100.0).to_bits(), 3),
        4 => {
            let at = rng.pick(&[655.36, 655.365, 655.355, 655.375]);
            near(rng, f64::to_bits(at), 8)
        }
        // An odd number of eighths, whose product is a half, and its neighbours.
        5 => {
            let eighths = 2 * rng.below(2622) + 1;
            near(rng, (eighths as f64 / 8.0).to_bits(), 1)
        }
        6 => ((rng.bits() >> 11) as f64 / (1_u64 << 53) as f64 * 656.0).to_bits(),
        7 => (1000 + rng.below(32)) << 52 | rng.bits() & FRACTION,
        _ => any(rng) & !SIGN,
    }
}

/// A coordinate that is on the grid, in metres.
pub fn metres_on_grid(rng: &mut Rng) -> u64 {
    let at = metres(rng);
    match f64::from_bits(at).abs() < 655.36 {
        true => at,
        false => ((rng.below(131_073) as f64 - 65_536.0) / 100.0).to_bits(),
    }
}

/// A point in metres. One in three is on the grid, one has a drawn
/// coordinate, and one takes its turn in a list of notable ones, each of
/// which comes in each place.
pub fn survey_point(case: u64, rng: &mut Rng) -> [u64; 3] {
    let mut point = [0; 3].map(|_| metres_on_grid(rng));
    let turn = case / 3;
    let place = &mut point[(turn % 3) as usize];
    match case % 3 {
        0 => *place = notable_metres_at(turn / 3).unwrap_or(*place),
        1 => *place = metres(rng),
        _ => {}
    }
    point
}

fn notable_metres_at(case: u64) -> Option<u64> {
    static ALL: LazyLock<Vec<u64>> = LazyLock::new(|| [notable_metres(), special(), systematic(11, 52)].concat());
    ALL.get(case as usize).copied()
}

#[cfg(test)]
mod tests {
    use super::*;

    #[test]
    fn roots_near_a_midpoint() {
        for case in 0..10_000 {
            let x = near_midpoint(&mut Rng::at(7, case));
            let (x, exponent) = (x & FRACTION | 1 << 52, (x >> 52) as i32 - 1075);
            // The root of x · 2^54 or x · 2^55 is near an odd whole number.
            let square = (x as u128) << if exponent % 2 == 0 { 54 } else { 55 };
            let root = square.isqrt() | 1;
            let off = [root - 2, root, root + 2].map(|y| square.abs_diff(y * y)).into_iter().min();
            assert!(off.unwrap() < 1 << 28, "{x:#x} {exponent}");
        }
    }

    #[test]
    fn the_product_before_a_half_is_reached() {
        assert!(notable_metres().iter().any(|&x| f64::from_bits(x) * 100.0 == 0.49999999999999994));
    }
}
