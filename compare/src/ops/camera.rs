//! Cameras.

use crate::exported::{call, of_archive};
use crate::inputs::{self, IDENTITY, Matrix, Projection, Rng, diagonal, with};
use crate::judge::{NO_PROJECTION, NOT_FINITE, SINGULAR};
use crate::lent::Single;
use crate::op::Op;
use crate::rust::{matrix, of_camera};
use openusd::gf;

pub fn all() -> Vec<Box<dyn Op>> {
    vec![set_from_view_and_projection()]
}

/// A view, a projection and a focal length.
type Given = (Matrix, Matrix, f32);

const NAN: f64 = f64::NAN;
const FAR: f64 = f64::INFINITY;
const SEEN: Projection = [0.0, -0.5, 0.7, -0.25, 0.3, 1.0, 100.0];

/// A view that is turned by a quarter and moved.
const VIEW: Matrix = [0.0, 1.0, 0.0, 0.0, -1.0, 0.0, 0.0, 0.0, 0.0, 0.0, 1.0, 0.0, 5.0, -6.0, 7.0, 1.0];

fn set_from_view_and_projection() -> Box<dyn Op> {
    call!(gf_camera_set_from_view_and_projection(view: 16, projection: 16; focal_length: f32) -> [f64; 24] {
        let mut camera = gf::Camera::default();
        if !camera.set_from_view_and_projection(matrix(view), matrix(projection), focal_length) {
            return Err(refusal(view, projection));
        }
        let numbers = of_camera(&camera);
        if numbers.iter().all(|x| x.is_finite()) { Ok(numbers) } else { Err(NOT_FINITE) }
    })
    .fixed(fixed().into_iter().map(|(_, given)| lent(given)).collect())
    .tried(told().map(|(_, given)| lent(given)).into())
    .mended(mended().map(lent).into())
    .drawn(|_, rng| lent(inputs::camera(rng)))
    .timed("perspective", |_, rng| lent(ordinary(rng, 0.0)))
    .timed("orthographic", |_, rng| lent(ordinary(rng, 1.0)))
    .op()
}

/// What docs/DIFFERENCES.md tells of cameras, with what the Rust answers.
fn told() -> [(bool, Given); 9] {
    let seen = |kind: f64, left: f64, right: f64| inputs::projected(&[kind, left, right, -0.5, 0.5, 2.0, 10.0]);
    let (perspective, parallel) = (seen(0.0, -1.0, 1.0), seen(1.0, -1.0, 1.0));
    [
        // An infinite determinant with finite cofactors: a transform of zeros.
        (true, (diagonal([1e100, 1e100, 1e100, 1e10]), perspective, 50.0)),
        (true, (diagonal([1e78; 4]), perspective, 50.0)),
        // Set by the Rust, and with a number that is not finite.
        (true, (diagonal([1e200, 1e200, 1e200, 1.0]), perspective, 50.0)),
        (true, (diagonal([1e-309, 1e154, 1e154, 1.0]), perspective, 50.0)),
        (true, (IDENTITY, parallel, f32::NAN)),
        (true, (IDENTITY, parallel, f32::INFINITY)),
        // Set by the C++ alone: no inverse, a skew, an aperture past the last f32.
        (false, (diagonal([1.0, 1.0, 0.0, 1.0]), perspective, 50.0)),
        (false, (IDENTITY, with(perspective, &[(4, 0.5)]), 50.0)),
        (false, (IDENTITY, seen(0.0, -1e38, 1e38), 50.0)),
    ]
}

/// No inverse, no projection and no focal length; then mended in this order.
fn mended() -> [Given; 4] {
    let (none, seen) = ([0.0; 16], inputs::projected(&SEEN));
    [(none, none, f32::NAN), (VIEW, none, f32::NAN), (VIEW, seen, f32::NAN), (VIEW, seen, 50.0)]
}

/// Why the Rust sets no camera.
#[cold]
fn refusal(view: &Matrix, projection: &Matrix) -> u32 {
    if matrix(view).inverse().is_none() {
        SINGULAR
    } else if gf::ProjectionParams::from_matrix(matrix(projection)).is_none() {
        NO_PROJECTION
    } else {
        NOT_FINITE
    }
}

fn lent((view, projection, focal_length): Given) -> (Matrix, Matrix, Single) {
    (view, projection, focal_length.into())
}

fn ordinary(rng: &mut Rng, kind: f64) -> Given {
    let record = with(inputs::ordinary_projection(rng), &[(0, kind)]);
    (inputs::rigid_placement(rng), inputs::projected(&record), inputs::lens(rng))
}

/// What is always tried, with what is to be answered: 0 or a refusal.
fn fixed() -> Vec<(u32, Given)> {
    let kinds = [0.0, 1.0];
    let damages = kinds.into_iter().flat_map(|kind| damages(inputs::projected(&with(SEEN, &[(0, kind)]))));
    damages.chain(kinds.into_iter().flat_map(volumes)).chain(narrowed()).collect()
}

/// This projection with focal lengths of every kind, with views, and damaged.
fn damages(m: Matrix) -> Vec<(u32, Given)> {
    let first = |x: f64| with(IDENTITY, &[(0, x)]);
    let mut fixed = Vec::new();
    let lengths = [50.0, 35.7, 0.0, -0.0, -50.0, 1e-45, f32::MIN_POSITIVE, 1e30];
    fixed.extend(lengths.map(|x| (0, (VIEW, m, x))));
    let payloads = [0x7f80_0001, 0xffc1_2345, 0x7fff_ffff].map(f32::from_bits);
    let none = [f32::INFINITY, f32::NEG_INFINITY, f32::NAN].into_iter().chain(payloads);
    fixed.extend(none.map(|x| (NOT_FINITE, (VIEW, m, x))));
    // Views: scaled, turned over, with a w; about as small as counts.
    let good = [
        IDENTITY,
        diagonal([3.0, 5.0, 7.0, 1.0]),
        first(-1.0),
        with(VIEW, &[(3, 0.5), (15, 2.0)]),
        first(up(1e-12)),
        first(-2e-12),
        first(1e300),
    ];
    fixed.extend(good.map(|view| (0, (view, m, 50.0))));
    let singular =
        [[0.0; 16], [NAN; 16], first(1e-12), first(-1e-12), first(5e-13), first(1e-13), with(VIEW, &[(13, NAN)])];
    fixed.extend(singular.map(|view| (SINGULAR, (view, m, 50.0))));
    // Views whose determinant or whose inverse is not finite.
    let overflowing = [
        diagonal([1e200, 1e200, 1e200, 1.0]),
        diagonal([1e200, -1e200, 1.0, 1.0]),
        diagonal([1e-309, 1e154, 1e154, 1.0]),
        with(first(1e-10), &[(12, 1e300)]),
    ];
    fixed.extend(overflowing.map(|view| (NOT_FINITE, (view, m, 50.0))));
    // Damaged by what is let pass, and by more.
    let passing = [(1, 1e-6), (15, m[15] - 9e-7), (11, m[11] + 9e-7), (8, m[8] + 5e-7)];
    fixed.extend(passing.map(|entry| (0, (VIEW, with(m, &[entry]), 50.0))));
    let failing = [(1, 1.1e-6), (15, 0.5), (11, m[11] - 1.1e-6), (11, -0.5), (11, 1e-6), (11, -1e-6)];
    let broken = [(2, FAR), (3, NAN), (0, 0.0), (14, FAR)];
    fixed.extend(failing.into_iter().chain(broken).map(|entry| (NO_PROJECTION, (VIEW, with(m, &[entry]), 50.0))));
    // The earliest of two refusals.
    let bent = with(m, &[(1, 2e-6)]);
    fixed.extend([
        (SINGULAR, (first(1e-12), bent, 50.0)),
        (SINGULAR, (first(1e-12), m, f32::NAN)),
        (NO_PROJECTION, (VIEW, bent, f32::NAN)),
        (NO_PROJECTION, (overflowing[0], bent, 50.0)),
    ]);
    fixed
}

fn set(status: u32, kind: f64, entries: &[(usize, f64)], focal_length: f32) -> (u32, Given) {
    (status, (VIEW, inputs::projected(&with(with(SEEN, &[(0, kind)]), entries)), focal_length))
}

/// Volumes of all kinds, with numbers at the ends of f32.
fn volumes(kind: f64) -> Vec<(u32, Given)> {
    let set = |status, entries: &[_], focal_length| set(status, kind, entries, focal_length);
    // Near above far, behind, on both sides; a window turned over.
    let mut fixed = vec![
        set(0, &[(5, 100.0), (6, 1.0)], 50.0),
        set(0, &[(5, -2.0)], 50.0),
        set(0, &[(5, -2.0), (6, -1.0)], 50.0),
        set(0, &[(1, 0.7), (2, -0.5)], 50.0),
    ];
    // One number alone past the last f32: a size, an offset, a distance.
    let last = f64::from(f32::MAX);
    let size = last / if kind == 0.0 { 50.0 } else { 10.0 };
    for axis in [1, 3] {
        let window = |status, low, high, focal_length| set(status, &[(axis, low), (axis + 1, high)], focal_length);
        fixed.extend([
            window(0, -0.4999 * size, 0.4999 * size, 50.0),
            window(NOT_FINITE, -0.5001 * size, 0.5001 * size, 50.0),
            window(0, 0.9 * size, 1.0999 * size, 50.0),
            window(NOT_FINITE, 0.9 * size, 1.1001 * size, 50.0),
            window(0, -1e-41, 1e-41, 1.0),
            // So far to the side that its edges are not to be scaled first.
            window(0, 1e8 + 0.1, 1e8 + 0.1 + 0.1, 50.0),
        ]);
    }
    fixed.extend([
        set(0, &[(5, 0.9999 * last), (6, 0.5 * last)], 50.0),
        set(NOT_FINITE, &[(5, 1.0001 * last), (6, 0.5 * last)], 50.0),
        set(NOT_FINITE, &[(6, -1.0001 * last), (5, 0.5 * last)], 50.0),
        set(0, &[(5, 1e-42), (6, 3e-42)], 50.0),
        // The longest lens, which only a perspective window is scaled by.
        set(if kind == 0.0 { NOT_FINITE } else { 0 }, &[], f32::MAX),
        set(0, &[(2, 0.1), (4, 0.1)], f32::MAX),
    ]);
    fixed
}

/// Numbers in or beside the middle of two f32, where the last bit of all that
/// leads to them counts.
fn narrowed() -> Vec<(u32, Given)> {
    let mut fixed = Vec::new();
    let middle = f64::from_bits(inputs::tie(f32::MAX.to_bits().into()));
    for axis in [1, 3] {
        let window = |status, kind, size: f64, focal_length| {
            set(status, kind, &[(axis, -0.5 * size), (axis + 1, 0.5 * size)], focal_length)
        };
        let past = middle / 31.0;
        fixed.extend([
            // A tenth of 29 or 43, divided by a tenth, is the number above
            // or below; a tenth of 43 times ten is 43.
            window(0, 0.0, 1.0 + 1.0 / (1 << 20) as f64, 29.0),
            window(0, 0.0, 1.0 + 1.0 / (1 << 19) as f64, 43.0),
            // Ten times this is the middle, and divided by a tenth it is not.
            window(0, 1.0, 0.10000001788139343, 50.0),
            window(NOT_FINITE, 0.0, past, 31.0),
            window(0, 0.0, down(past), 31.0),
        ]);
    }
    // The far distance is twice the last row's entry, bit for bit.
    let far = |x: f64| {
        let m = with(inputs::projected(&SEEN), &[(10, -1.5), (14, -0.5 * x)]);
        (VIEW, m, 50.0)
    };
    fixed.extend([f32::MAX.into(), down(middle), -down(middle)].map(|x| (0, far(x))));
    fixed.extend([middle, -middle, up(middle)].map(|x| (NOT_FINITE, far(x))));
    fixed
}

fn up(x: f64) -> f64 {
    f64::from_bits(x.to_bits() + 1)
}

fn down(x: f64) -> f64 {
    f64::from_bits(x.to_bits() - 1)
}

#[cfg(test)]
mod tests {
    use super::*;

    #[test]
    fn cameras_that_are_told_of() {
        for (i, (answer, (view, projection, focal_length))) in told().into_iter().enumerate() {
            let mut camera = gf::Camera::default();
            let set = camera.set_from_view_and_projection(matrix(&view), matrix(&projection), focal_length);
            let numbers = of_camera(&camera);
            assert_eq!(set, answer, "{i}");
            assert_eq!(numbers.iter().all(|x| x.is_finite()), i < 2 || !answer, "{i}");
            if i < 2 {
                assert_eq!(numbers[..16], [0.0; 16], "{i}");
                assert_eq!(numbers[16..], [0.0, 50.0, 100.0, 50.0, 0.0, 0.0, 2.0, 10.0], "{i}");
            }
        }
        let why = told().into_iter().skip(6).map(|(_, (view, projection, _))| refusal(&view, &projection));
        assert_eq!(why.collect::<Vec<_>>(), [SINGULAR, NO_PROJECTION, NOT_FINITE]);
    }

    #[test]
    fn fixed_inputs_are_answered_as_they_are_meant() {
        let recorded = set_from_view_and_projection().records();
        for (record, (status, (view, projection, focal_length))) in recorded.iter().zip(fixed()) {
            assert_eq!(record.status, status, "{view:?} {projection:?} {focal_length:e}");
            let widened = if focal_length.is_nan() { f64::NAN } else { focal_length.into() };
            assert_eq!(record.given[2], [widened.to_bits()], "{focal_length:e}");
        }
        assert!(recorded.len() > fixed().len());
    }
}
