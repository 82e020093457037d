//! Boxes and views of planes in any direction: whether they share an exact
//! point.
//!
//! The judge is the elimination of Fourier and Motzkin, which looks for no
//! point. What asks for one is in `vertices.rs`.

use crate::inputs::{Whole, WholePlane};
use std::array;

/// A condition on a point: the dot product with `of` is at least `least`.
#[derive(Clone, Copy)]
struct Condition {
    of: [i64; 3],
    least: i64,
}

impl Condition {
    /// Both, with weights that take a coordinate out. Of the first the entry
    /// there is above zero, of the second below.
    fn with(&self, other: &Condition, axis: usize) -> Condition {
        let (a, b) = (-other.of[axis], self.of[axis]);
        Condition { of: array::from_fn(|i| a * self.of[i] + b * other.of[i]), least: a * self.least + b * other.least }
    }
}

/// What is left of conditions where a coordinate may be any: each that rises
/// along it with each that falls, and those that do not ask for it.
fn without(axis: usize, conditions: &[Condition]) -> Vec<Condition> {
    let of_sign = |sign: i64| conditions.iter().filter(move |c| c.of[axis].signum() == sign);
    let falling: Vec<&Condition> = of_sign(-1).collect();
    let pairs = of_sign(1).flat_map(|rising| falling.iter().map(move |falls| rising.with(falls, axis)));
    of_sign(0).copied().chain(pairs).collect()
}

/// Whether a number meets conditions on z alone: the greatest of the lower
/// bounds is not above the least of the upper ones.
fn some_z(conditions: &[Condition]) -> bool {
    let product = |a: i64, b: i64| i128::from(a) * i128::from(b);
    // Over denominators above zero.
    let (mut low, mut high): (Option<(i64, i64)>, Option<(i64, i64)>) = (None, None);
    for c in conditions {
        match c.of[2] {
            0 if c.least > 0 => return false,
            0 => {}
            by if by > 0 => {
                if low.is_none_or(|(n, d)| product(n, by) < product(c.least, d)) {
                    low = Some((c.least, by));
                }
            }
            by => {
                if high.is_none_or(|(n, d)| product(-c.least, d) < product(n, -by)) {
                    high = Some((-c.least, -by));
                }
            }
        }
    }
    let (Some((n, d)), Some((m, e))) = (low, high) else {
        return true;
    };
    product(n, e) <= product(m, d)
}

fn conditions(planes: &[WholePlane], [least, greatest]: [Whole; 2]) -> Vec<Condition> {
    let unit = |i: usize, by: i64| array::from_fn(|j| if i == j { by } else { 0 });
    let faces = (0..3).flat_map(|i| {
        [Condition { of: unit(i, 1), least: least[i] }, Condition { of: unit(i, -1), least: -greatest[i] }]
    });
    faces.chain(planes.iter().map(|plane| Condition { of: plane.normal, least: plane.distance })).collect()
}

/// Whether a box, from its least to its greatest corner, and a view share an
/// exact point. Within the limits entries are below 2^8, 2^16 and 2^32 from
/// step to step, and what they are compared with below 2^25, 2^34 and 2^51, so
/// that 64 bits hold them, and 128 the products of the last comparison.
pub fn box_by_elimination(planes: &[WholePlane], corners: [Whole; 2]) -> bool {
    some_z(&without(1, &without(0, &conditions(planes, corners))))
}

/// The eight corners.
pub fn corners([least, greatest]: [Whole; 2]) -> [Whole; 8] {
    array::from_fn(|k| array::from_fn(|i| if k >> i & 1 == 0 { least[i] } else { greatest[i] }))
}

/// What the corners settle: a plane that none of them satisfies is a no, and
/// one that satisfies all planes a yes.
fn by_corners(planes: &[WholePlane], box_corners: [Whole; 2]) -> Option<bool> {
    let mut in_view = [true; 8];
    let all = corners(box_corners);
    for plane in planes {
        let satisfies = all.map(|corner| plane.reach(corner) >= 0);
        if satisfies == [false; 8] {
            return Some(false);
        }
        in_view = array::from_fn(|k| in_view[k] && satisfies[k]);
    }
    in_view.contains(&true).then_some(true)
}

/// The judge: what the corners do not settle is eliminated.
pub fn shares_a_point(planes: &[WholePlane], corners: [Whole; 2]) -> bool {
    by_corners(planes, corners).unwrap_or_else(|| box_by_elimination(planes, corners))
}

/// Whether three whole numbers over a fourth of at least 1 are a point of the
/// box and of the view.
pub fn is_shared(planes: &[WholePlane], [least, greatest]: [Whole; 2], witness: [i64; 4]) -> bool {
    let [x, y, z, k] = witness.map(i128::from);
    let p = [x, y, z];
    let in_box = |i: usize| i128::from(least[i]) * k <= p[i] && p[i] <= i128::from(greatest[i]) * k;
    let along = |plane: &WholePlane| -> i128 { (0..3).map(|i| i128::from(plane.normal[i]) * p[i]).sum() };
    // Beyond this a product could pass what 128 bits hold.
    let small = p.iter().all(|x| x.abs() < 1 << 100);
    k >= 1 && small && (0..3).all(in_box) && planes.iter().all(|plane| along(plane) >= i128::from(plane.distance) * k)
}

#[cfg(test)]
mod tests {
    use super::super::box_by_vertices;
    use super::*;
    use crate::inputs::{self, Rng};

    /// Elimination, with the corners asked first and without, and the search for
    /// a vertex, of which many are left to either when the corners are asked.
    #[test]
    fn elimination_and_search_agree() {
        let mut left = [0; 2];
        for case in 0..200_000 {
            let (planes, box_corners) = inputs::oblique(&mut Rng::at(5, case));
            let verdict = box_by_elimination(&planes, box_corners);
            assert_eq!(shares_a_point(&planes, box_corners), verdict, "{planes:?} {box_corners:?}");
            let found = box_by_vertices(&planes, box_corners);
            assert_eq!(found.is_some(), verdict, "{planes:?} {box_corners:?}");
            assert!(found.is_none_or(|(p, k)| is_shared(&planes, box_corners, [p[0], p[1], p[2], k])));
            left[usize::from(verdict)] += u64::from(by_corners(&planes, box_corners).is_none());
        }
        assert!(left.iter().all(|&n| n > 10_000), "{left:?} no and yes that the corners do not settle");
    }

    /// What touches by construction does, until a plane is moved inward.
    #[test]
    fn touching_counts() {
        let mut moved_in = 0;
        for case in 0..100_000 {
            let ((planes, box_corners), moved) = inputs::touching(&mut Rng::at(5, case));
            assert_eq!(shares_a_point(&planes, box_corners), moved < 1, "{planes:?} {box_corners:?}");
            moved_in += u64::from(moved == 1);
        }
        assert!(moved_in > 15_000, "{moved_in}");
    }

    /// Numbers at their limits stay below what is said of them.
    #[test]
    fn bounds() {
        let planes = [[128; 3], [-128; 3], [128, -128, 128], [-128, 128, 127]];
        let planes = planes.map(|normal| WholePlane { normal, distance: -(1 << 24) });
        let largest = |all: &[Condition]| {
            let entry = all.iter().flat_map(|c| c.of).map(i64::abs).max().expect("some");
            (entry, all.iter().map(|c| c.least.abs()).max().expect("some"))
        };
        let first = conditions(&planes, [[-65_536; 3], [65_536; 3]]);
        let second = without(0, &first);
        let third = without(1, &second);
        for ((entry, least), (most, bound)) in
            [&first, &second, &third].map(|all| largest(all)).into_iter().zip([(8, 25), (16, 34), (32, 51)])
        {
            assert!(entry < 1 << most && least < 1 << bound, "{entry} {least}");
        }
    }
}
