//! Matrices and what they move.

use crate::exported::{call, of_archive};
use crate::inputs::{self, IDENTITY, Matrix, diagonal, with};
use crate::judge::SINGULAR;
use crate::op::Op;
use crate::rust::{homogeneous, matrix, of_homogeneous, point};

pub fn all() -> Vec<Box<dyn Op>> {
    vec![
        product(),
        transpose(),
        inverse(),
        transform(),
        transform_affine(),
        transform_dir(),
        transform_homogeneous(),
        determinant3(),
        is_right_handed(),
    ]
}

/// Matrices on which a port goes wrong.
fn fixed() -> Vec<Matrix> {
    let first = |x: f64| with(IDENTITY, &[(0, x)]);
    let up = |x: f64| f64::from_bits(x.to_bits() + 1);
    vec![
        IDENTITY,
        [0.0; 16],
        [f64::NAN; 16],
        first(1e-12),
        first(-1e-12),
        first(up(1e-12)),
        first(2e-12),
        first(-2e-12),
        first(1e-13),
        first(up(1e-13)),
        first(f64::NAN),
        first(f64::INFINITY),
        // Infinite determinants, the last by overflow in a cofactor alone.
        diagonal([1e200, 1e200, 1e200, 1.0]),
        diagonal([1e200, 1e200, -1e200, 1.0]),
        diagonal([1e-200, 1e200, 1e200, 1.0]),
        diagonal([1.0, 1e-200, 1e-200, 1.0]),
        // Divided and multiplied by the reciprocal these differ.
        diagonal([3.0, 5.0, 7.0, 1.0]),
        std::array::from_fn(|i| [2.0, -1.0, 3.0, 0.5, 7.0][i % 5] + (i / 4) as f64),
        [0.0, 1.0, 0.0, 0.0, -1.0, 0.0, 0.0, 0.0, 0.0, 0.0, 1.0, 0.0, 5.0, 6.0, 7.0, 1.0],
        with(diagonal([1.0, 1.0, -1.0, 1.0]), &[(12, 4.0)]),
        // Equal rows.
        std::array::from_fn(|i| (i % 4) as f64 + 1.0),
        // A mirrored determinant that rounds to zero from below.
        with(diagonal([1e-300, -1e-300, 1.0, 1.0]), &[]),
    ]
}

fn product() -> Box<dyn Op> {
    let fixed = fixed();
    let pairs = fixed.iter().zip(fixed.iter().rev()).map(|(&a, &b)| (a, b)).collect();
    call!(gf_product(a: 16, b: 16) -> [f64; 16] { Ok((matrix(a) * matrix(b)).0) })
        .fixed(pairs)
        .drawn(|_, rng| (inputs::matrix(rng), inputs::matrix(rng)))
        .timed("placements", |_, rng| (inputs::placement(rng), inputs::placement(rng)))
        .op()
}

fn transpose() -> Box<dyn Op> {
    call!(gf_transpose(m: 16) -> [f64; 16] { Ok(matrix(m).transpose().0) })
        .fixed(vec![(std::array::from_fn(|i| i as f64),)])
        .drawn(|_, rng| (inputs::numbers(rng),))
        .timed("placements", |_, rng| (inputs::placement(rng),))
        .op()
}

/// Matrices of docs/DIFFERENCES.md, each with its inverse: one that has none,
/// and two whose determinant is infinite and whose cofactors are not.
fn told() -> [(Matrix, Option<Matrix>); 3] {
    [
        (diagonal([1.0, 1.0, 0.0, 1.0]), None),
        (diagonal([1e100, 1e100, 1e100, 1e10]), Some([0.0; 16])),
        (diagonal([1e78; 4]), Some([0.0; 16])),
    ]
}

fn inverse() -> Box<dyn Op> {
    call!(gf_inverse(m: 16) -> [f64; 16] { Ok(matrix(m).inverse().ok_or(SINGULAR)?.0) })
        .fixed(fixed().into_iter().map(|m| (m,)).collect())
        .tried(told().map(|(m, _)| (m,)).into())
        .drawn(|_, rng| (inputs::matrix(rng),))
        .timed("placements", |_, rng| (inputs::placement(rng),))
        .op()
}

/// Matrices with points whose w is zero, of either sign, or subnormal.
fn fixed_points() -> Vec<(Matrix, [f64; 3])> {
    let w = |x: f64| with(IDENTITY, &[(12, 2.0), (15, x)]);
    let mut fixed = vec![
        (w(0.0), [1.0, 2.0, 3.0]),
        (w(-0.0), [1.0, 2.0, 3.0]),
        (w(5e-324), [1.0, 0.0, -1.0]),
        (w(1e-310), [1.0, 0.0, -1.0]),
        (w(3.0), [1.0, 2.0, 3.0]),
        (w(49.0), [1.0, 2.0, 5.0]),
        (w(f64::INFINITY), [1.0, 0.0, -1.0]),
        (with(IDENTITY, &[(3, 1.0), (7, -2.0), (15, 3.0)]), [1.0, 2.0, 3.0]),
        (IDENTITY, [f64::NAN, 1.0, -0.0]),
        (IDENTITY, [1e308, -1e308, f64::INFINITY]),
    ];
    fixed.extend(self::fixed().into_iter().map(|m| (m, [1.0, -2.0, 3.0])));
    fixed
}

fn transform() -> Box<dyn Op> {
    call!(gf_transform(m: 16, p: 3) -> [f64; 3] { Ok(matrix(m).transform(point(p)).into()) })
        .fixed(fixed_points())
        .drawn(|_, rng| inputs::matrix_and_point(rng))
        .timed("placements", |_, rng| (inputs::placement(rng), inputs::ordinary_point(rng)))
        .op()
}

fn transform_affine() -> Box<dyn Op> {
    call!(gf_transform_affine(m: 16, p: 3) -> [f64; 3] { Ok(matrix(m).transform_affine(point(p)).into()) })
        .fixed(fixed_points())
        .drawn(|_, rng| inputs::matrix_and_point(rng))
        .timed("placements", |_, rng| (inputs::placement(rng), inputs::ordinary_point(rng)))
        .op()
}

fn transform_dir() -> Box<dyn Op> {
    call!(gf_transform_dir(m: 16, p: 3) -> [f64; 3] { Ok(matrix(m).transform_dir(point(p)).into()) })
        .fixed(fixed_points())
        .drawn(|_, rng| inputs::matrix_and_point(rng))
        .timed("placements", |_, rng| (inputs::placement(rng), inputs::ordinary_point(rng)))
        .op()
}

fn transform_homogeneous() -> Box<dyn Op> {
    let fixed = fixed_points().into_iter().map(|(m, [x, y, z])| (m, [x, y, z, 2.0])).collect();
    call!(gf_transform_homogeneous(m: 16, v: 4) -> [f64; 4] {
        Ok(of_homogeneous(matrix(m).transform_homogeneous(homogeneous(v))))
    })
    .fixed(fixed)
    .drawn(|_, rng| (inputs::matrix(rng), inputs::numbers(rng)))
    .timed("placements", |_, rng| (inputs::placement(rng), inputs::ordinary_plane(rng)))
    .op()
}

fn determinant3() -> Box<dyn Op> {
    call!(gf_determinant3(m: 16) -> f64 { Ok(matrix(m).determinant3()) })
        .fixed(fixed().into_iter().map(|m| (m,)).collect())
        .drawn(|_, rng| (inputs::matrix(rng),))
        .timed("placements", |_, rng| (inputs::placement(rng),))
        .op()
}

fn is_right_handed() -> Box<dyn Op> {
    call!(gf_is_right_handed(m: 16) -> bool { Ok(matrix(m).is_right_handed()) })
        .fixed(fixed().into_iter().map(|m| (m,)).collect())
        .drawn(|_, rng| (inputs::matrix(rng),))
        .timed("placements", |_, rng| (inputs::placement(rng),))
        .op()
}

#[cfg(test)]
mod tests {
    use super::*;
    use openusd::gf::{Mat4d, Plane, Vec3d};

    #[test]
    fn inverses_that_are_told_of() {
        for (m, inverse) in told() {
            assert_eq!(matrix(&m).inverse().map(|m| m.0), inverse, "{m:?}");
        }
    }

    /// The same table's plane under the inverse that Gf documents of a singular
    /// matrix, and under that of the Rust's own method of that kind, whose last
    /// number is 1.
    #[test]
    fn a_plane_under_the_largest_single() {
        let (m, largest) = (matrix(&told()[0].0), f64::from(f32::MAX));
        let plane = Plane::new(Vec3d { x: 0.0, y: 0.0, z: 1.0 }, 5.0);
        let under = |inverse: Mat4d| Plane::from_equation(inverse.transpose().transform_homogeneous(plane.equation()));
        assert_eq!(plane.transformed(m), None);
        assert_eq!(under(matrix(&diagonal([largest; 4]))), plane);
        assert_eq!(m.inverse_or_max().0, diagonal([largest, largest, largest, 1.0]));
        assert_eq!(under(m.inverse_or_max()), Plane { distance: 1.4693680261090186e-38, ..plane });
    }
}
