//! Points, matrices and ranges.

use super::*;
use std::array;

pub type Point = [f64; 3];
pub type Matrix = [f64; 16];
pub type Range = [f64; 6];

pub const IDENTITY: Matrix = diagonal([1.0, 1.0, 1.0, 1.0]);

pub const fn diagonal([a, b, c, d]: [f64; 4]) -> Matrix {
    [a, 0.0, 0.0, 0.0, 0.0, b, 0.0, 0.0, 0.0, 0.0, c, 0.0, 0.0, 0.0, 0.0, d]
}

/// `matrix` with some of its entries replaced.
pub fn with<const N: usize>(mut record: [f64; N], entries: &[(usize, f64)]) -> [f64; N] {
    entries.iter().for_each(|&(i, x)| record[i] = x);
    record
}

/// Numbers at which something is decided.
const THRESHOLDS: [f64; 12] = [0.0, 1e-13, 1e-12, 1e-10, 1e-6, 0.5, 1.0, 2.0, 1e6, 1e10, 1e-5, 1e-20];

/// Numbers alike in kind: ordinary, whole, at thresholds, far out, or any.
/// Once in four times one or two of them are odd.
pub fn numbers<const N: usize>(rng: &mut Rng) -> [f64; N] {
    let kind = rng.below(16);
    let mut all = array::from_fn(|_| match kind {
        0..6 => rng.between(-10.0, 10.0),
        6..9 => rng.whole(6) as f64,
        9 => rng.whole(65_536) as f64,
        10..12 => f64::from_bits(ordinary(rng)),
        12 => {
            let at = rng.pick(&THRESHOLDS);
            signed(rng, at, 2)
        }
        13 => rng.between(-10.0, 10.0) * rng.pick(&[1e-160, 1e-110, 1e-80, 1e-10, 1.0, 1e77, 1e103, 1e154]),
        14 => rng.between(-10.0, 10.0) * rng.pick(&[1.0, 1.0, 0.0, 1e-10]),
        _ => f64::from_bits(any(rng)),
    });
    if rng.once_in(4) {
        for _ in 0..1 + rng.below(2) {
            all[rng.below(N as u64) as usize] = odd(rng);
        }
    }
    all
}

/// A number of either sign, at most `steps` away from ±`x`.
pub fn signed(rng: &mut Rng, x: f64, steps: u64) -> f64 {
    let x = rng.about(x, steps);
    if rng.once_in(2) { -x } else { x }
}

/// A zero of either sign.
pub fn zero(rng: &mut Rng) -> f64 {
    f64::from_bits(rng.sign())
}

/// A number that is seldom met.
pub fn odd(rng: &mut Rng) -> f64 {
    match rng.below(8) {
        0..2 => {
            let at = rng.pick(&THRESHOLDS);
            signed(rng, at, 3)
        }
        2 => rng.pick(&[0.0, -0.0, f64::INFINITY, f64::NEG_INFINITY, f64::NAN]),
        3 => rng.pick(&[1e200, -1e200, 1e-200, 1e308, -1e308, 5e-324, -5e-324, f64::MAX]),
        _ => f64::from_bits(any(rng)),
    }
}

// Points and directions.

pub fn point(rng: &mut Rng) -> Point {
    numbers(rng)
}

/// A point with coordinates of ordinary size.
pub fn ordinary_point(rng: &mut Rng) -> Point {
    array::from_fn(|_| rng.between(-10.0, 10.0))
}

pub fn whole_point(rng: &mut Rng, size: i64) -> Point {
    array::from_fn(|_| rng.whole(size) as f64)
}

pub fn dot(a: Point, b: Point) -> f64 {
    a[0] * b[0] + a[1] * b[1] + a[2] * b[2]
}

pub fn cross(a: Point, b: Point) -> Point {
    [a[1] * b[2] - a[2] * b[1], a[2] * b[0] - a[0] * b[2], a[0] * b[1] - a[1] * b[0]]
}

/// The way from `b` to `a`.
pub fn difference(a: Point, b: Point) -> Point {
    array::from_fn(|i| a[i] - b[i])
}

/// `a` and `t` times `b`.
pub fn along(a: Point, t: f64, b: Point) -> Point {
    array::from_fn(|i| a[i] + t * b[i])
}

/// `a` and `t` times the way to `b`.
pub fn mix(a: Point, b: Point, t: f64) -> Point {
    array::from_fn(|i| a[i] + t * (b[i] - a[i]))
}

pub fn unit(rng: &mut Rng) -> Point {
    loop {
        let v = array::from_fn(|_| rng.between(-1.0, 1.0));
        let length = dot(v, v).sqrt();
        if length > 0.1 {
            return v.map(|x| x / length);
        }
    }
}

/// One of the six directions of the axes.
pub fn axis(rng: &mut Rng) -> Point {
    let mut v = [0.0; 3];
    v[rng.below(3) as usize] = if rng.once_in(2) { -1.0 } else { 1.0 };
    v
}

// Matrices.

/// Three rows and a translation.
pub fn placement_of(rows: [Point; 3], [x, y, z]: Point) -> Matrix {
    let [a, b, c] = rows;
    [a[0], a[1], a[2], 0.0, b[0], b[1], b[2], 0.0, c[0], c[1], c[2], 0.0, x, y, z, 1.0]
}

/// Turned anyhow, without scale.
fn turned_rows(rng: &mut Rng) -> [Point; 3] {
    let (u, other) = (unit(rng), unit(rng));
    let v = cross(u, other);
    let length = dot(v, v).sqrt().max(1e-3);
    let v = v.map(|x| x / length);
    [u, v, cross(u, v)]
}

/// A turn of quarters, mirrors among them.
pub fn quarter_rows(rng: &mut Rng) -> [Point; 3] {
    Turn::numbered(rng.below(Turn::COUNT)).rows().map(|row| row.map(|x| x as f64))
}

/// Turned, scaled and moved, as objects are placed.
pub fn placement(rng: &mut Rng) -> Matrix {
    let scale: Point = array::from_fn(|_| rng.between(0.2, 4.0));
    let rows = turned_rows(rng);
    placement_of(array::from_fn(|i| rows[i].map(|x| x * scale[i])), ordinary_point(rng))
}

/// Turned and moved, sizes kept.
pub fn rigid_placement(rng: &mut Rng) -> Matrix {
    placement_of(turned_rows(rng), ordinary_point(rng))
}

/// Turned by quarters and moved by whole numbers.
pub fn quarter_placement(rng: &mut Rng) -> Matrix {
    let size = rng.pick(&[0, 8, 100, 65_536]);
    placement_of(quarter_rows(rng), whole_point(rng, size))
}

pub fn matrix(rng: &mut Rng) -> Matrix {
    match rng.below(16) {
        0..3 => numbers(rng),
        3..5 => {
            let m: Matrix = numbers(rng);
            with(m, &[(3, 0.0), (7, 0.0), (11, 0.0), (15, 1.0)])
        }
        5..7 => placement(rng),
        7 => quarter_placement(rng),
        8 => {
            let mut m = IDENTITY;
            for _ in 0..rng.below(4) {
                m[rng.below(16) as usize] = odd(rng);
            }
            m
        }
        9..12 => near_singular(rng),
        12 => singular(rng),
        13 => projected(&projection(rng)),
        // A determinant that is infinite, zero or NaN by its size alone.
        14 => {
            let d = array::from_fn(|_| signed_pick(rng, &[1e200, 1e150, 1e-200, 1e103, 1.0, 1.0, f64::INFINITY]));
            let m = diagonal(d);
            if rng.once_in(2) { with(m, &[(rng.below(16) as usize, odd(rng))]) } else { m }
        }
        _ => array::from_fn(|_| rng.whole(3) as f64),
    }
}

fn signed_pick(rng: &mut Rng, from: &[f64]) -> f64 {
    let x = rng.pick(from);
    signed(rng, x, 0)
}

/// A matrix whose determinant is about as large as the inverse or a box
/// accepts.
pub fn near_singular(rng: &mut Rng) -> Matrix {
    let limit = rng.pick(&[1e-12, 1e-12, 1e-13]);
    if rng.once_in(2) {
        // The product of the diagonal, in the places of a turn.
        let mut m = placement_of(quarter_rows(rng), [0.0; 3]);
        let row = rng.below(4) as usize;
        let size = rng.about(limit, 2);
        m[4 * row..][..4].iter_mut().for_each(|x| *x *= size);
        if rng.once_in(2) {
            let row = rng.below(4) as usize;
            m[4 * row..][..4].iter_mut().for_each(|x| *x *= 2.0);
            m[4 * ((row + 1) % 4)..][..4].iter_mut().for_each(|x| *x *= 0.5);
        }
        return m;
    }
    let mut m: Matrix = array::from_fn(|_| rng.between(-3.0, 3.0));
    let size = rng.about(1.0, 4) * limit / determinant(&m);
    m[..4].iter_mut().for_each(|x| *x *= size);
    m
}

/// A matrix whose rows lie in fewer than four directions, rounding apart.
fn singular(rng: &mut Rng) -> Matrix {
    let whole = rng.once_in(2);
    let mut m: Matrix = array::from_fn(|_| if whole { rng.whole(9) as f64 } else { rng.between(-9.0, 9.0) });
    let (a, b, c) = (rng.whole(2) as f64, rng.whole(2) as f64, rng.between(-2.0, 2.0));
    let c = if whole { 0.0 } else { c };
    let to = rng.below(4) as usize;
    for k in 0..4 {
        let row = |i: usize| m[4 * ((to + i) % 4) + k];
        m[4 * to + k] = a * row(1) + b * row(2) + c * row(3);
    }
    m
}

/// The determinant, by minors of two rows; for choosing inputs only.
fn determinant(m: &Matrix) -> f64 {
    let minor = |row: usize, a: usize, b: usize| m[row + a] * m[row + 4 + b] - m[row + b] * m[row + 4 + a];
    minor(0, 0, 1) * minor(8, 2, 3) - minor(0, 0, 2) * minor(8, 1, 3)
        + minor(0, 0, 3) * minor(8, 1, 2)
        + minor(0, 1, 2) * minor(8, 0, 3)
        - minor(0, 1, 3) * minor(8, 0, 2)
        + minor(0, 2, 3) * minor(8, 0, 1)
}

/// A matrix and a point; once in four times their w is zero or next to it.
pub fn matrix_and_point(rng: &mut Rng) -> (Matrix, Point) {
    let (mut m, p) = (matrix(rng), point(rng));
    match rng.below(16) {
        0..2 => {
            let p = whole_point(rng, 9);
            let last = whole_point(rng, 4);
            m = with(m, &[(3, last[0]), (7, last[1]), (11, last[2]), (15, -dot(p, last))]);
            (m, p)
        }
        2 => {
            let w = rng.pick(&[0.0, -0.0, 5e-324, 1e-310, -1e-320, 3e-308, 1e308, f64::INFINITY]);
            (with(m, &[(3, 0.0), (7, 0.0), (11, 0.0), (15, w)]), p)
        }
        3 => (with(m, &[(15, rng.between(0.1, 3.0))]), p),
        _ => (m, p),
    }
}

// Ranges.

/// The range that the Rust has for empty.
pub const EMPTY: Range = {
    let far = f32::MAX as f64;
    [far, far, far, -far, -far, -far]
};

/// A range: mostly one with min below max, or flat, or empty, or any.
pub fn range(rng: &mut Rng) -> Range {
    let mut r: Range = numbers(rng);
    let kind = rng.below(16);
    for i in 0..3 {
        let (a, b) = (r[i], r[i + 3]);
        if kind < 12 && a > b {
            (r[i], r[i + 3]) = (b, a);
        }
        if kind == 10 || (kind == 11 && rng.once_in(2)) {
            r[i + 3] = r[i];
        }
    }
    match kind {
        12 => {
            // Empty on one axis alone, by little or much.
            let i = rng.below(3) as usize;
            r[i] = if rng.once_in(2) { rng.about(r[i + 3], 1) } else { r[i + 3] + 1.0 };
            r
        }
        15 if rng.once_in(4) => EMPTY,
        15 if rng.once_in(2) => [-1.0, -1.0, -1.0, 1.0, 1.0, 1.0].map(|x: f64| x * f64::INFINITY),
        _ => r,
    }
}

/// Two ranges: unrelated, equal, or alike in some numbers.
pub fn two_ranges(rng: &mut Rng) -> (Range, Range) {
    let (mut a, mut b) = (range(rng), range(rng));
    match rng.below(5) {
        0 => {
            for i in 0..6 {
                if rng.once_in(2) {
                    b[i] = a[(i + 3 * rng.below(2) as usize) % 6];
                }
            }
        }
        1 if rng.once_in(4) => b = a,
        1 => b = a.map(|x| x + 0.0 * x),
        2 => {
            for i in 0..6 {
                if rng.once_in(2) {
                    (a[i], b[i]) = (zero(rng), zero(rng));
                }
            }
        }
        _ => {}
    }
    (a, b)
}

/// A range and a matrix; once in four times half their numbers are zeros of
/// either sign.
pub fn range_and_matrix(rng: &mut Rng) -> (Range, Matrix) {
    let (mut r, mut m) = (range(rng), matrix(rng));
    if rng.once_in(4) {
        for x in r.iter_mut().chain(&mut m) {
            if rng.once_in(2) {
                *x = zero(rng);
            }
        }
    }
    (r, m)
}

/// A range and a point: unrelated, or with coordinates at or beside the
/// range's.
pub fn range_and_point(rng: &mut Rng) -> (Range, Point) {
    let (r, mut p) = (range(rng), point(rng));
    if rng.once_in(2) {
        for i in 0..3 {
            p[i] = match rng.below(6) {
                0 => r[i],
                1 => r[i + 3],
                2 => {
                    let at = rng.pick(&[r[i], r[i + 3]]);
                    rng.about(at, 1)
                }
                3 => r[i] * 0.5 + r[i + 3] * 0.5,
                4 => r[i] - 1.0,
                _ => p[i],
            };
        }
    }
    (r, p)
}

/// A range of ordinary size that holds points.
pub fn ordinary_range(rng: &mut Rng) -> Range {
    let (a, b) = (ordinary_point(rng), ordinary_point(rng));
    array::from_fn(|i| if i < 3 { a[i].min(b[i]) } else { a[i - 3].max(b[i - 3]) })
}
