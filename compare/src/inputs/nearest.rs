//! Several ranges, a point, and the square of a distance.

use super::*;
use crate::rust;
use std::array;

/// The most ranges of a call.
pub const MOST_RANGES: usize = 1024;

/// What a hail report asks of the blocks' ranges: which is nearest to a point,
/// and which are within a distance of it.
pub struct Report {
    pub ranges: Vec<Range>,
    pub p: Point,
    /// The square of that distance.
    pub limit: f64,
}

/// How many ranges there are: mostly few, and one in 64 times the most.
fn range_count(rng: &mut Rng) -> usize {
    match rng.below(64) {
        0..6 => 1,
        6..24 => 2,
        24..56 => 3 + rng.below(6) as usize,
        56..62 => 9 + rng.below(32) as usize,
        62 => 41 + rng.below(983) as usize,
        _ => MOST_RANGES,
    }
}

/// The square of the distance from a point to a range.
pub fn square_to(r: &Range, p: &Point) -> f64 {
    rust::range(r).distance_squared(rust::point(p))
}

pub fn report(rng: &mut Rng) -> Report {
    let size = range_count(rng);
    let (mut ranges, mut p) = match rng.below(8) {
        0..2 => crowded(rng, size),
        2 => (repeated(rng, size), point(rng)),
        3 => mirrored(rng, size),
        4 => ((0..size).map(|_| ordinary_range(rng)).collect(), ordinary_point(rng)),
        5 => far_off(rng, size),
        _ => {
            let (first, p) = range_and_point(rng);
            (std::iter::once(first).chain((1..size).map(|_| range(rng))).collect(), p)
        }
    };
    // Empty ones where they stand, all or some of them.
    if rng.once_in(8) {
        let one_in = rng.pick(&[1, 1, 2, 4]);
        ranges.iter_mut().for_each(|r| {
            if rng.once_in(one_in) {
                empty_on_an_axis(rng, r);
            }
        });
    }
    // A number that is none, of a range or of the point.
    if rng.once_in(8) {
        let at = rng.below(size as u64) as usize;
        for _ in 0..1 + rng.below(6) {
            ranges[at][rng.below(6) as usize] = f64::NAN;
        }
    }
    if rng.once_in(16) {
        for _ in 0..1 + rng.below(4) {
            p[rng.below(3) as usize] = f64::NAN;
        }
    }
    let limit = limit(rng, &ranges, &p);
    Report { ranges, p, limit }
}

/// Small whole ranges about a small whole point, many as near as others.
fn crowded(rng: &mut Rng, size: usize) -> (Vec<Range>, Point) {
    let p = whole_point(rng, 6);
    ((0..size).map(|_| whole_range(rng, 6)).collect(), p)
}

/// A few ranges again and again, once in eight times with a number moved by
/// one step.
fn repeated(rng: &mut Rng, size: usize) -> Vec<Range> {
    let few: Vec<Range> = (0..1 + rng.below(3)).map(|_| range(rng)).collect();
    let again = |_| {
        let mut r = few[rng.below(few.len() as u64) as usize];
        if rng.once_in(8) {
            let i = rng.below(6) as usize;
            r[i] = rng.about(r[i], 1);
        }
        r
    };
    (0..size).map(again).collect()
}

/// Ranges and their images on other sides of a zero point, which are exactly
/// as near; some with their axes exchanged, of which rounding may tell.
fn mirrored(rng: &mut Rng, size: usize) -> (Vec<Range>, Point) {
    let few: Vec<Range> = (0..1 + rng.below(4)).map(|_| ordinary_range(rng)).collect();
    let image = |_| {
        let mut r = few[rng.below(few.len() as u64) as usize];
        for i in 0..3 {
            if rng.once_in(2) {
                (r[i], r[i + 3]) = (-r[i + 3], -r[i]);
            }
        }
        if rng.once_in(4) {
            let turn = rng.below(3) as usize;
            r = array::from_fn(|i| r[i / 3 * 3 + (i + turn) % 3]);
        }
        r
    };
    ((0..size).map(image).collect(), array::from_fn(|_| zero(rng)))
}

/// Ranges and a point so far out that squares, or differences, are infinite
/// or just not.
fn far_off(rng: &mut Rng, size: usize) -> (Vec<Range>, Point) {
    const OUT: [f64; 9] = [0.0, 1.0, 7.7e153, 1.2e154, 1.34078079e154, 1.4e154, 1e200, f64::MAX, f64::INFINITY];
    let out = |rng: &mut Rng| {
        let x = rng.pick(&OUT);
        signed(rng, x, 0)
    };
    let far_range = |_| {
        let (a, b): (Point, Point) = (array::from_fn(|_| out(rng)), array::from_fn(|_| out(rng)));
        array::from_fn(|i| if i < 3 { a[i].min(b[i]) } else { a[i - 3].max(b[i - 3]) })
    };
    ((0..size).map(far_range).collect(), array::from_fn(|_| out(rng)))
}

/// Makes a range empty along one axis, by little or much.
fn empty_on_an_axis(rng: &mut Rng, r: &mut Range) {
    let i = rng.below(3) as usize;
    if !(r[i] > r[i + 3]) {
        (r[i], r[i + 3]) = (r[i + 3], r[i]);
    }
    if r[i] == r[i + 3] {
        r[i] = r[i + 3] + rng.pick(&[1.0, 1e-3, f64::INFINITY]);
    }
}

/// The square of a distance: that of one of the ranges or next to it, or one
/// at which something is decided.
fn limit(rng: &mut Rng, ranges: &[Range], p: &Point) -> f64 {
    let of_one = square_to(&ranges[rng.below(ranges.len() as u64) as usize], p);
    match rng.below(16) {
        0..5 => of_one,
        5..7 => of_one.next_down(),
        7 => of_one.next_up(),
        8..10 => zero(rng),
        10 => rng.pick(&[f64::NAN, f64::NAN, -f64::NAN, f64::from_bits(INFINITY | 1)]),
        11 => rng.pick(&[f64::INFINITY, f64::INFINITY, f64::NEG_INFINITY, f64::MAX]),
        12 => odd(rng),
        13 => rng.whole(60) as f64,
        _ => rng.between(0.0, 200.0),
    }
}
