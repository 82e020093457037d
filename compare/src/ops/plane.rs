//! Planes.

use crate::exported::{call, of_archive};
use crate::inputs::{self, IDENTITY, Matrix, Plane, Point, diagonal, with};
use crate::judge::SINGULAR;
use crate::op::Op;
use crate::rust::{homogeneous, matrix, of_plane, plane, point};
use openusd::gf;

pub fn all() -> Vec<Box<dyn Op>> {
    vec![new(), from_points(), from_equation(), distance(), on_positive_side(), transformed()]
}

const NAN: f64 = f64::NAN;
const FAR: f64 = f64::INFINITY;

/// Normals on which a port goes wrong: zero, short, about as long as counts,
/// of a length that is computed as zero or infinite.
fn normals() -> Vec<Point> {
    vec![
        [1.0, 0.0, 0.0],
        [0.0, -1.0, 0.0],
        [3.0, 4.0, 12.0],
        [1.0, 2.0, 3.0],
        [0.1, -0.7, 0.3],
        [0.0; 3],
        [-0.0, 0.0, -0.0],
        [1e-11, 0.0, 0.0],
        [5e-11, 5e-11, 0.0],
        [1e-10, 0.0, 0.0],
        [9e-11, 0.0, 0.0],
        [1.1e-10, 0.0, 0.0],
        [1e-200, 0.0, 0.0],
        [1e-162, 1e-162, 0.0],
        [5e-324, 0.0, 0.0],
        [1e200, 0.0, 0.0],
        [1e200, -1e200, 1e200],
        [FAR, 0.0, 1.0],
        [NAN, 1.0, 2.0],
        [NAN; 3],
    ]
}

/// Planes of these normals, as they are given.
fn fixed() -> Vec<Plane> {
    let distances = [5.0, -2.5, 0.0, -0.0, NAN, FAR, 1e308];
    let planes = normals().into_iter().enumerate();
    planes.map(|(i, normal)| inputs::plane_of(normal, distances[i % distances.len()])).collect()
}

fn new() -> Box<dyn Op> {
    let fixed = fixed().into_iter().map(|[x, y, z, distance]| ([x, y, z], distance)).collect();
    call!(gf_plane_new(normal: 3; distance: f64) -> [f64; 4] { Ok(of_plane(gf::Plane::new(point(normal), distance))) })
        .fixed(fixed)
        .drawn(|_, rng| (inputs::normal(rng), inputs::distance(rng)))
        .timed("ordinary", |_, rng| (inputs::ordinary_point(rng), rng.between(-9.0, 9.0)))
        .op()
}

fn from_points() -> Box<dyn Op> {
    let fixed = vec![
        ([0.0; 3], [1.0, 0.0, 0.0], [0.0, 1.0, 0.0]),
        ([1.0, 2.0, 3.0], [4.0, -1.0, 2.0], [0.0, 7.0, -5.0]),
        // In a line, and all alike.
        ([0.0; 3], [1.0, 1.0, 1.0], [2.0, 2.0, 2.0]),
        ([1.0; 3], [1.0; 3], [1.0; 3]),
        // So small that the normal stays short.
        ([0.0; 3], [1e-6, 0.0, 0.0], [0.0, 1e-6, 0.0]),
        ([5.0, 0.0, 0.0], [5.0, 1e-5, 0.0], [5.0, 0.0, 1e-5]),
        ([0.0; 3], [1e-200, 0.0, 0.0], [0.0, 1e-200, 0.0]),
        ([0.0; 3], [1e200, 0.0, 0.0], [0.0, 1e200, 0.0]),
        ([NAN, 0.0, 0.0], [1.0, 0.0, 0.0], [0.0, 1.0, 0.0]),
    ];
    call!(gf_plane_from_points(p0: 3, p1: 3, p2: 3) -> [f64; 4] {
        Ok(of_plane(gf::Plane::from_points(point(p0), point(p1), point(p2))))
    })
    .fixed(fixed)
    .drawn(|_, rng| inputs::three_points(rng).into())
    .timed("ordinary", |_, rng| [(); 3].map(|_| inputs::ordinary_point(rng)).into())
    .op()
}

fn from_equation() -> Box<dyn Op> {
    call!(gf_plane_from_equation(equation: 4) -> [f64; 4] {
        Ok(of_plane(gf::Plane::from_equation(homogeneous(equation))))
    })
    .fixed(fixed().into_iter().chain(normals().into_iter().map(|v| inputs::plane_of(v, 7.0))).map(|e| (e,)).collect())
    .drawn(|_, rng| (inputs::plane_of(inputs::normal(rng), inputs::distance(rng)),))
    .timed("ordinary", |_, rng| (inputs::plane_of(inputs::ordinary_point(rng), rng.between(-9.0, 9.0)),))
    .op()
}

/// Planes with points on them, beside them, and at no distance at all.
fn fixed_points() -> Vec<(Plane, Point)> {
    let mut fixed: Vec<(Plane, Point)> = fixed().into_iter().map(|plane| (plane, [1.0, -2.0, 3.0])).collect();
    fixed.extend([
        ([0.0, 1.0, 0.0, 2.0], [5.0, 2.0, 5.0]),
        ([0.0, 1.0, 0.0, 2.0], [5.0, 2.0 - f64::EPSILON, 5.0]),
        ([0.0, -1.0, 0.0, -2.0], [5.0, 2.0, 5.0]),
        ([1.0, 0.0, 0.0, 0.0], [-0.0, 0.0, 0.0]),
        ([1.0, 0.0, 0.0, 0.0], [-5e-324, 0.0, 0.0]),
        // Not of unit length: the distance is in lengths of the normal.
        ([3.0, 0.0, 0.0, 6.0], [2.0, 0.0, 0.0]),
        ([3.0, 0.0, 0.0, 6.0], [1.9, 0.0, 0.0]),
        // Other axes than the normal's count where they are not finite.
        ([1.0, 0.0, 0.0, 0.0], [1.0, NAN, 0.0]),
        ([1.0, 0.0, 0.0, 0.0], [1.0, FAR, 0.0]),
        ([1.0, 0.0, 0.0, 0.0], [FAR, 0.0, 0.0]),
    ]);
    fixed
}

fn distance() -> Box<dyn Op> {
    call!(gf_plane_distance(given: 4, p: 3) -> f64 { Ok(plane(given).distance(point(p))) })
        .fixed(fixed_points())
        .drawn(|_, rng| inputs::plane_and_point(rng))
        .timed("ordinary", |_, rng| (inputs::ordinary_plane(rng), inputs::ordinary_point(rng)))
        .op()
}

fn on_positive_side() -> Box<dyn Op> {
    call!(gf_plane_on_positive_side(given: 4, p: 3) -> bool { Ok(plane(given).on_positive_side(point(p))) })
        .fixed(fixed_points())
        .drawn(|_, rng| inputs::plane_and_point(rng))
        .timed("ordinary", |_, rng| (inputs::ordinary_plane(rng), inputs::ordinary_point(rng)))
        .op()
}

/// Matrices of docs/DIFFERENCES.md, each with what becomes of the plane where z
/// is 5: one without inverse, and one whose inverse is of zeros.
fn told() -> [(Matrix, Option<Plane>); 2] {
    [(diagonal([1.0, 1.0, 0.0, 1.0]), None), (diagonal([1e100, 1e100, 1e100, 1e10]), Some([0.0, 0.0, 0.0, -0.0]))]
}

fn transformed() -> Box<dyn Op> {
    let moved = with(diagonal([2.0, 3.0, 5.0, 1.0]), &[(1, 0.5), (12, 7.0), (13, -1.0)]);
    let first = |x: f64| with(IDENTITY, &[(0, x)]);
    let mut fixed: Vec<_> = fixed().into_iter().map(|plane| (plane, moved)).collect();
    let given = [0.6, 0.8, 0.0, 2.0];
    let matrices =
        [first(1e-12), first(2e-12), first(1e-13), [NAN; 16], [0.0; 16], diagonal([1e200, 1e200, 1e200, 1.0])];
    fixed.extend(matrices.map(|m| (given, m)));
    fixed.extend([(given, diagonal([1e12, 1e12, 1e12, 1.0])), (given, with(IDENTITY, &[(3, 1.0), (15, 2.0)]))]);
    call!(gf_plane_transformed(given: 4, m: 16) -> [f64; 4] {
        Ok(of_plane(plane(given).transformed(matrix(m)).ok_or(SINGULAR)?))
    })
    .fixed(fixed)
    .tried(told().map(|(m, _)| ([0.0, 0.0, 1.0, 5.0], m)).into())
    .drawn(|_, rng| inputs::plane_and_matrix(rng))
    .timed("placements", |_, rng| (inputs::ordinary_plane(rng), inputs::placement(rng)))
    .op()
}

#[cfg(test)]
mod tests {
    use super::*;

    #[test]
    fn planes_that_are_told_of() {
        for (m, under) in told() {
            let bits = |plane: Plane| plane.map(f64::to_bits);
            let answered = plane(&[0.0, 0.0, 1.0, 5.0]).transformed(matrix(&m)).map(of_plane);
            assert_eq!(answered.map(bits), under.map(bits), "{m:?}");
        }
    }
}
