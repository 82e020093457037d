//! What each function is to answer, and when two numbers agree.
//!
//! The Rust's functions of numbers have the C signatures of ours, so that
//! both are called, and timed, through the same kind of pointer.

use std::cmp::Ordering;

// Paper 01's refusals.

pub const WRONG_INPUT: u32 = 1;
pub const WRONG_OUTPUT: u32 = 2;
/// A kind or flag outside its values.
pub const NO_SUCH_VALUE: u32 = 3;
pub const SINGULAR: u32 = 4;
pub const MISS: u32 = 5;
pub const NO_PROJECTION: u32 = 6;
pub const OFF_GRID: u32 = 7;

// Paper 02's.

/// A number of the result is not finite.
pub const NOT_FINITE: u32 = 8;
/// No farm file: its directory, or where its sections lie.
pub const NO_FARM_FILE: u32 = 9;
/// A section of a farm file is not as long as its record.
pub const WRONG_SECTION: u32 = 10;
/// An empty group, or one of more numbers than 256 boxes have.
pub const GROUP_SIZE: u32 = 11;
/// A count of planes that is not whole, or outside its limits.
pub const NO_COUNT: u32 = 12;
/// A number of a verdict's records is missing: a NaN or an infinity.
pub const MISSING_NUMBER: u32 = 13;

/// A segment that is to be out of view is in it.
pub const IN_VIEW: u32 = 14;

/// No place, and what fills a slot that is not used.
pub const NO_PLACE: u32 = u32::MAX;

/// How many planes a volume has at least and at most.
pub const FEWEST_PLANES: usize = 6;
pub const MOST_PLANES: usize = 14;

/// The last check of a verdict, made of every record that is lent: no number
/// is a NaN or an infinity, whether or not the verdict looks at it.
pub fn finite(record: &[f64]) -> Result<(), u32> {
    if record.iter().all(|x| x.is_finite()) { Ok(()) } else { Err(MISSING_NUMBER) }
}

/// Paper 01's rule: equal bits, both NaN, or both zero.
pub fn matches(judge: f64, ours: f64) -> bool {
    judge.to_bits() == ours.to_bits() || (judge.is_nan() && ours.is_nan()) || (judge == 0.0 && ours == 0.0)
}

/// Equal bits, or both NaN, where the signs of zeros are fixed.
pub fn signed(judge: f64, ours: f64) -> bool {
    judge.to_bits() == ours.to_bits() || (judge.is_nan() && ours.is_nan())
}

/// Equal bits, for results that hold no NaN besides.
pub fn equal(judge: f64, ours: f64) -> bool {
    judge.to_bits() == ours.to_bits()
}

pub extern "C" fn sqrt(x: f64) -> f64 {
    x.sqrt()
}

pub extern "C" fn abs(x: f64) -> f64 {
    x.abs()
}

pub extern "C" fn min(x: f64, y: f64) -> f64 {
    x.min(y)
}

pub extern "C" fn max(x: f64, y: f64) -> f64 {
    x.max(y)
}

/// Paper 02's minimum and maximum: the Rust's where the operands differ; of
/// zeros the negative one, or the positive one, if either is.
pub fn least(x: f64, y: f64) -> f64 {
    if x == y { f64::from_bits(x.to_bits() | y.to_bits()) } else { x.min(y) }
}

pub fn greatest(x: f64, y: f64) -> f64 {
    if x == y { f64::from_bits(x.to_bits() & y.to_bits()) } else { x.max(y) }
}

pub extern "C" fn narrow(x: f64) -> f32 {
    x as f32
}

pub extern "C" fn widen(x: f32) -> f64 {
    x as f64
}

/// The largest size of a grid coordinate.
const LARGEST: u128 = 65_536;

/// The whole centimetres of a point in metres, by whole numbers alone after
/// the one rounded product.
pub fn grid(p: &[f64; 3]) -> Result<[f64; 3], u32> {
    let mut whole = [0.0; 3];
    for (whole, metres) in whole.iter_mut().zip(p) {
        *whole = nearest_whole(metres * 100.0).ok_or(OFF_GRID)? as f64;
    }
    Ok(whole)
}

/// The whole number nearest to `x`, of two the even one, if `x` is finite and
/// that number is on the grid.
fn nearest_whole(x: f64) -> Option<i64> {
    let bits = x.to_bits();
    let (exponent, fraction) = ((bits >> 52 & 0x7ff) as i32, bits & ((1 << 52) - 1));
    // The size of x is significand · 2^scale.
    let (significand, scale) = match exponent {
        0x7ff => return None,
        0 => (fraction, -1074),
        _ => (fraction | 1 << 52, exponent - 1075),
    };
    let size = match scale {
        // At least 2^52.
        0.. => return None,
        // Of significand / 2^-scale the whole part, or the next.
        -60..0 => {
            let (whole, rest) = ((significand >> -scale) as u128, significand & ((1 << -scale) - 1));
            match (2 * rest).cmp(&(1 << -scale)) {
                Ordering::Less => whole,
                Ordering::Equal => whole + whole % 2,
                Ordering::Greater => whole + 1,
            }
        }
        // Below 2^53 / 2^61, which is less than a half.
        _ => 0,
    };
    let signed = if x < 0.0 { -(size as i64) } else { size as i64 };
    (size <= LARGEST).then_some(signed)
}

/// The grid as Rust would have it, with `f64::round_ties_even`, to time against.
pub fn grid_by_round(p: &[f64; 3]) -> Result<[f64; 3], u32> {
    let whole = p.map(|metres| (metres * 100.0).round_ties_even());
    if !whole.iter().all(|n| n.abs() <= LARGEST as f64) {
        return Err(OFF_GRID);
    }
    // A sum with +0 turns -0 into +0.
    Ok(whole.map(|n| n + 0.0))
}

#[cfg(test)]
mod tests {
    use super::*;

    #[test]
    fn zeros_of_two_signs() {
        for (x, y, low, high) in
            [(0.0, 0.0, 0.0, 0.0), (0.0, -0.0, -0.0, 0.0), (-0.0, 0.0, -0.0, 0.0), (-0.0, -0.0, -0.0, -0.0)]
        {
            assert!(equal(least(x, y), low) && equal(greatest(x, y), high), "{x} {y}");
        }
        assert!(equal(least(f64::NAN, -0.0), -0.0) && equal(greatest(1.0, f64::NAN), 1.0));
        assert!(least(f64::NAN, f64::NAN).is_nan());
    }

    #[test]
    fn the_grid_points() {
        let centimetres = |x: f64| grid(&[x; 3]).map(|whole| whole[0].to_bits());
        let passes = |n: f64| Ok(n.to_bits());
        let refused = Err(OFF_GRID);
        assert_eq!(centimetres(0.125), passes(12.0));
        assert_eq!(centimetres(-0.125), passes(-12.0));
        assert_eq!(centimetres(0.375), passes(38.0));
        assert_eq!(centimetres(0.005), passes(0.0));
        assert_eq!(centimetres(-0.005), passes(0.0));
        assert_eq!(centimetres(0.015), passes(2.0));
        assert_eq!(centimetres(655.365), passes(65_536.0));
        assert_eq!(centimetres(655.3650000000001), refused);
        assert_eq!(centimetres(655.0), passes(65_500.0));
        assert_eq!(centimetres(655.36), passes(65_536.0));
        assert_eq!(centimetres(656.0), refused);
        assert_eq!(centimetres(-0.004), passes(0.0));
        assert_eq!(centimetres(-0.0), passes(0.0));
        assert_eq!(centimetres(f64::NAN), refused);
        assert_eq!(centimetres(f64::NEG_INFINITY), refused);
        assert_eq!(centimetres(f64::MAX), refused);
        assert_eq!(centimetres(f64::from_bits(1)), passes(0.0));
    }
}
