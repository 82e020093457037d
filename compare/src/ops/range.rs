//! Ranges.

use crate::exported::{call, of_archive};
use crate::inputs::{self, EMPTY, IDENTITY, Range, with};
use crate::op::Op;
use crate::rust::{matrix, of_corners, of_range, point, range};
use crate::signs;

pub fn all() -> Vec<Box<dyn Op>> {
    vec![is_empty(), union(), intersection(), midpoint(), distance_squared(), transformed(), corners()]
}

const UNIT: Range = [0.0, 0.0, 0.0, 1.0, 1.0, 1.0];
const NAN: f64 = f64::NAN;
const FAR: f64 = f64::INFINITY;

/// Ranges on which a port goes wrong.
fn fixed() -> Vec<Range> {
    vec![
        UNIT,
        EMPTY,
        [0.0; 6],
        [0.0, -0.0, 0.0, -0.0, 0.0, -0.0],
        // Empty on one axis.
        with(UNIT, &[(0, 2.0)]),
        with(UNIT, &[(1, 2.0)]),
        with(UNIT, &[(2, 2.0)]),
        with(UNIT, &[(0, 1.0 + f64::EPSILON)]),
        // NaN alone is not empty.
        [NAN; 6],
        with(UNIT, &[(0, NAN)]),
        with(UNIT, &[(4, NAN)]),
        with(UNIT, &[(0, NAN), (1, 2.0)]),
        [-FAR, -FAR, -FAR, FAR, FAR, FAR],
        [FAR, FAR, FAR, -FAR, -FAR, -FAR],
        [1e308, 1e308, 5e-324, 1.7e308, 1.2e308, 5e-324],
        [-1e308, -1e308, -3.0, 1e308, 1e308, 7.0],
        [2.0, 3.0, 4.0, 5.0, 7.0, 11.0],
        [-5.0, -7.0, -11.0, -2.0, -3.0, -4.0],
    ]
}

fn fixed_pairs() -> Vec<(Range, Range)> {
    let mut pairs: Vec<(Range, Range)> = fixed().into_iter().map(|r| (r, UNIT)).collect();
    pairs.extend(fixed().into_iter().map(|r| (EMPTY, r)));
    // Zeros of either sign, and a union that comes out empty.
    let zeros = |bits: u8| -> Range { std::array::from_fn(|i| if bits >> i & 1 == 1 { -0.0 } else { 0.0 }) };
    pairs.extend([(0, 63), (63, 0), (0b010101, 0b001110), (0b001110, 0b010101)].map(|(a, b)| (zeros(a), zeros(b))));
    pairs.push(([NAN, NAN, NAN, 0.0, -0.0, 0.0], [5.0, 5.0, 5.0, NAN, NAN, NAN]));
    // Two that are empty, in different ways.
    pairs.push((with(UNIT, &[(0, 2.0)]), with(UNIT, &[(1, 3.0)])));
    pairs.push((with(UNIT, &[(1, 3.0)]), with(UNIT, &[(0, 2.0)])));
    pairs
}

fn is_empty() -> Box<dyn Op> {
    call!(gf_range_is_empty(r: 6) -> bool { Ok(range(r).is_empty()) })
        .fixed(fixed().into_iter().map(|r| (r,)).collect())
        .drawn(|_, rng| (inputs::range(rng),))
        .timed("ordinary", |_, rng| (inputs::ordinary_range(rng),))
        .op()
}

fn union() -> Box<dyn Op> {
    call!(gf_range_union(a: 6, b: 6) -> [f64; 6] { Ok(signs::union(a, b)) })
        .timed_against(call!(gf_range_union(a: 6, b: 6) -> [f64; 6] { Ok(of_range(range(a).union(range(b)))) }))
        .fixed(fixed_pairs())
        .drawn(|_, rng| inputs::two_ranges(rng))
        .timed("ordinary", |_, rng| (inputs::ordinary_range(rng), inputs::ordinary_range(rng)))
        .timed("z from 0", |_, rng| (inputs::ground_range(rng), inputs::ground_range(rng)))
        .op()
}

fn intersection() -> Box<dyn Op> {
    let rust = call!(gf_range_intersection(a: 6, b: 6) -> [f64; 6] { Ok(of_range(range(a).intersection(range(b)))) });
    call!(gf_range_intersection(a: 6, b: 6) -> [f64; 6] { Ok(signs::intersection(a, b)) })
        .timed_against(rust)
        .fixed(fixed_pairs())
        .drawn(|_, rng| inputs::two_ranges(rng))
        .timed("ordinary", |_, rng| (inputs::ordinary_range(rng), inputs::ordinary_range(rng)))
        .timed("z from 0", |_, rng| (inputs::ground_range(rng), inputs::ground_range(rng)))
        .op()
}

fn midpoint() -> Box<dyn Op> {
    call!(gf_range_midpoint(r: 6) -> [f64; 3] { Ok(range(r).midpoint().into()) })
        .fixed(fixed().into_iter().map(|r| (r,)).collect())
        .drawn(|_, rng| (inputs::range(rng),))
        .timed("ordinary", |_, rng| (inputs::ordinary_range(rng),))
        .op()
}

fn distance_squared() -> Box<dyn Op> {
    let mut fixed: Vec<(Range, [f64; 3])> = fixed().into_iter().map(|r| (r, [3.0, -2.0, 0.5])).collect();
    fixed.extend([
        (UNIT, [NAN; 3]),
        (UNIT, [NAN, 2.0, 0.0]),
        (UNIT, [0.0, 1.0, 0.5]),
        (UNIT, [-0.0, 1.0 + f64::EPSILON, 0.5]),
        (UNIT, [FAR, 0.0, 0.0]),
        // Below the min and above the max at once.
        (EMPTY, [0.0; 3]),
        (with(UNIT, &[(0, 5.0)]), [3.0, 0.0, 0.0]),
        (with(UNIT, &[(0, 5.0)]), [4.5, 0.0, 0.0]),
    ]);
    call!(gf_range_distance_squared(r: 6, p: 3) -> f64 { Ok(range(r).distance_squared(point(p))) })
        .fixed(fixed)
        .drawn(|_, rng| inputs::range_and_point(rng))
        .timed("ordinary", |_, rng| (inputs::ordinary_range(rng), inputs::ordinary_point(rng)))
        .op()
}

fn transformed() -> Box<dyn Op> {
    let turned = [0.0, 1.0, 0.0, 0.0, -1.0, 0.0, 0.0, 0.0, 0.0, 0.0, 1.0, 0.0, 5.0, 6.0, 7.0, 1.0];
    let mut fixed: Vec<_> = fixed().into_iter().map(|r| (r, turned)).collect();
    fixed.extend([
        // An empty range comes back as it is.
        (EMPTY, [NAN; 16]),
        (with(UNIT, &[(1, 2.0)]), [NAN; 16]),
        (UNIT, [NAN; 16]),
        // The last column is not looked at.
        (UNIT, with(turned, &[(3, 1.0), (7, NAN), (11, FAR), (15, 0.0)])),
        (UNIT, with(IDENTITY, &[(0, FAR)])),
        ([-1.0, -1.0, -1.0, 1.0, 1.0, 1.0], with(IDENTITY, &[(1, -3.0), (6, 0.1), (8, -0.7)])),
        // All products and the translation -0, and all but one.
        ([-0.0; 6], [1.0, 1.0, 1.0, 0.0, 1.0, 1.0, 1.0, 0.0, 1.0, 1.0, 1.0, 0.0, -0.0, -0.0, 0.0, 1.0]),
        (
            [-0.0, -0.0, -0.0, 0.0, -0.0, -0.0],
            [1.0, 1.0, 1.0, 0.0, 1.0, 1.0, 1.0, 0.0, 1.0, 1.0, 1.0, 0.0, -0.0, -0.0, -0.0, 1.0],
        ),
    ]);
    let rust = call!(gf_range_transformed(r: 6, m: 16) -> [f64; 6] { Ok(of_range(range(r).transformed(matrix(m)))) });
    call!(gf_range_transformed(r: 6, m: 16) -> [f64; 6] { Ok(signs::transformed(r, m)) })
        .timed_against(rust)
        .fixed(fixed)
        .drawn(|_, rng| inputs::range_and_matrix(rng))
        .timed("placements", |_, rng| (inputs::ordinary_range(rng), inputs::placement(rng)))
        .timed("identity, z from 0", |_, rng| (inputs::ground_range(rng), IDENTITY))
        .timed("placements, z from 0", |_, rng| (inputs::ground_range(rng), inputs::placement(rng)))
        .op()
}

fn corners() -> Box<dyn Op> {
    call!(gf_range_corners(r: 6) -> [f64; 24] { Ok(of_corners(range(r).corners())) })
        .fixed(fixed().into_iter().map(|r| (r,)).collect())
        .drawn(|_, rng| (inputs::range(rng),))
        .timed("ordinary", |_, rng| (inputs::ordinary_range(rng),))
        .op()
}
