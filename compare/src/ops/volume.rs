//! The volume of a view and a projection matrix.

use crate::exported::{call, of_archive};
use crate::inputs::{self, IDENTITY, Matrix, Projection, diagonal, with};
use crate::judge::{NOT_FINITE, SINGULAR, WRONG_INPUT};
use crate::op::Op;
use crate::rust::{matrix, of_ray};
use openusd::gf::{Mat4d, Ray, Vec3d};
use std::array;

pub fn all() -> Vec<Box<dyn Op>> {
    vec![from_view_and_projection()]
}

/// A view and a projection.
type Given = (Matrix, Matrix);

const SEEN: Projection = [0.0, -0.5, 0.7, -0.25, 0.3, 1.0, 100.0];

/// A view that is turned by a quarter and moved.
const VIEW: Matrix = [0.0, 1.0, 0.0, 0.0, -1.0, 0.0, 0.0, 0.0, 0.0, 0.0, 1.0, 0.0, 5.0, -6.0, 7.0, 1.0];

/// The corners of the window, in the order of a volume's rays.
const CORNERS: [(f64, f64); 4] = [(-1.0, -1.0), (-1.0, 1.0), (1.0, 1.0), (1.0, -1.0)];

fn from_view_and_projection() -> Box<dyn Op> {
    call!(gf_volume_from_view_and_projection(view: 16, projection: 16) -> [f64; 49] { seen(view, projection) })
    .fixed(fixed().into_iter().map(|(_, given)| given).collect())
    .mended(mended().into())
    .drawn(|_, rng| inputs::two_matrices(rng))
    .timed("perspective", |_, rng| (inputs::rigid_placement(rng), projected(rng, 0.0)))
    .timed("orthographic", |_, rng| (inputs::rigid_placement(rng), projected(rng, 1.0)))
    .op()
}

/// The count of planes, the planes and the rays.
fn seen(view: &Matrix, projection: &Matrix) -> Result<[f64; 49], u32> {
    let seen = matrix(view) * matrix(projection);
    let back = seen.inverse().ok_or(SINGULAR)?;
    let mut numbers = [6.0; 49];
    numbers[1..25].copy_from_slice(planes(&seen.0).as_flattened());
    numbers[25..].copy_from_slice(CORNERS.map(|(x, y)| of_ray(ray(back, x, y))).as_flattened());
    if numbers.iter().all(|x| x.is_finite()) { Ok(numbers) } else { Err(NOT_FINITE) }
}

/// What `camera_view` prints for these bytes, and 0 or the number of the refusal.
pub fn seen_bytes(given: &[u8]) -> (Vec<u8>, usize) {
    let numbers: Vec<f64> = given.as_chunks().0.iter().map(|bytes| f64::from_le_bytes(*bytes)).collect();
    let volume = match numbers.as_chunks().0 {
        [view, projection] if given.len() == 256 => seen(view, projection),
        _ => Err(WRONG_INPUT),
    };
    match volume {
        Ok(numbers) => (inputs::bytes_of(&numbers), 0),
        Err(refusal) => (format!("refused {refusal}\n").into_bytes(), refusal as usize),
    }
}

/// The two matrices of a camera.
pub fn two_matrices_seen() -> Vec<f64> {
    [VIEW, inputs::projected(&SEEN)].concat()
}

fn projected(rng: &mut inputs::Rng, kind: f64) -> Matrix {
    inputs::projected(&with(inputs::ordinary_projection(rng), &[(0, kind)]))
}

/// Left and right, bottom and top, near and far: the last column and another one
/// added, and the other one taken away.
fn planes(m: &Matrix) -> [[f64; 4]; 6] {
    let column = |j: usize| [m[j], m[4 + j], m[8 + j], m[12 + j]];
    let last = column(3);
    array::from_fn(|i| {
        let other = column(i / 2);
        let [a, b, c, d]: [f64; 4] =
            array::from_fn(|k| if i % 2 == 0 { last[k] + other[k] } else { last[k] - other[k] });
        [a, b, c, -d]
    })
}

/// From a corner of the near plane into the view.
fn ray(back: Mat4d, x: f64, y: f64) -> Ray {
    let [start, toward] = [-1.0, 0.0].map(|z| back.transform(Vec3d { x, y, z }));
    Ray::new(start, (toward - start).normalize())
}

/// Missing numbers, which give no inverse and nothing finite; an inverse that is not
/// finite; and a view.
fn mended() -> [Given; 3] {
    let vast = diagonal([1e200, 1e200, 1e200, 1.0]);
    [([f64::NAN; 16], IDENTITY), (vast, IDENTITY), (VIEW, inputs::projected(&SEEN))]
}

/// What is always tried, with what is to be answered: 0 or a refusal.
fn fixed() -> Vec<(u32, Given)> {
    let perspective = inputs::projected(&SEEN);
    let parallel = inputs::projected(&with(SEEN, &[(0, 1.0)]));
    let endless = with(perspective, &[(10, -1.0), (14, -2.0)]);
    let first = |x: f64| with(IDENTITY, &[(0, x)]);
    let mut fixed = Vec::new();
    for projection in [perspective, parallel, endless, IDENTITY] {
        let views = [
            IDENTITY,
            VIEW,
            diagonal([3.0, 5.0, 7.0, 1.0]),
            first(-1.0),
            first(2.0),
            with(VIEW, &[(3, 0.5), (15, 2.0)]),
            with(VIEW, &[(12, 1e15)]),
        ];
        fixed.extend(views.map(|view| (0, (view, projection))));
        let none = [[0.0; 16], first(0.0), first(1e-14), diagonal([1.0, 1.0, 0.0, 1.0]), first(f64::NAN), [f64::NAN; 16]];
        fixed.extend(none.map(|view| (SINGULAR, (view, projection))));
    }
    // About as small as counts.
    fixed.extend([(SINGULAR, 1e-12), (0, 2e-12), (SINGULAR, -1e-12), (0, -2e-12)].map(|(status, x)| (status, (first(x), IDENTITY))));
    // An inverse, and a number that is not finite: in the product, in a sum of
    // columns, in a ray.
    let overflowing = [
        (diagonal([1e200, 1e200, 1e200, 1.0]), IDENTITY),
        (with(IDENTITY, &[(0, 1e308), (3, 1e308)]), IDENTITY),
        (with(IDENTITY, &[(12, 1e308), (15, -1e308)]), IDENTITY),
        (with(first(1e-10), &[(12, 1e300)]), IDENTITY),
        (diagonal([1e308, 1.0, 1.0, 1.0]), diagonal([10.0, 1.0, 1.0, 1.0])),
    ];
    fixed.extend(overflowing.map(|given| (NOT_FINITE, given)));
    fixed
}

#[cfg(test)]
mod tests {
    use super::*;
    use crate::inputs::Rng;
    use crate::rust::of_frustum;
    use openusd::gf::Camera;

    #[test]
    fn fixed_inputs_are_answered_as_they_are_meant() {
        let recorded = from_view_and_projection().records();
        for (record, (status, given)) in recorded.iter().zip(fixed()) {
            assert_eq!(record.status, status, "{given:?}");
        }
        assert!(recorded.len() > fixed().len());
    }

    fn volume_of((view, projection): &Given) -> [f64; 49] {
        seen(view, projection).expect("a view")
    }

    fn dot(a: &[f64], b: &[f64; 3]) -> f64 {
        a[0] * b[0] + a[1] * b[1] + a[2] * b[2]
    }

    /// A ray starts at a corner of the near plane, has unit length, and stays on
    /// the two sides that meet in its edge, into the view.
    #[test]
    fn rays_run_along_the_edges() {
        // The planes that meet in each edge, by their places.
        let edges = [[0, 2], [0, 3], [1, 3], [1, 2]];
        for case in 0..20_000 {
            let rng = &mut Rng::at(7, case);
            let projection =
                if rng.once_in(3) { inputs::without_far_end(rng) } else { inputs::projected(&inputs::ordinary_projection(rng)) };
            let volume = volume_of(&(inputs::rigid_placement(rng), projection));
            let plane = |i: usize| -> &[f64] { &volume[1 + 4 * i..][..4] };
            // How far a point is in front of a plane.
            let front = |i: usize, p: &[f64; 3]| {
                let n = plane(i);
                (dot(n, p) - n[3]) / dot(n, &[n[0], n[1], n[2]]).sqrt()
            };
            for (corner, sides) in edges.into_iter().enumerate() {
                let numbers = &volume[25 + 6 * corner..][..6];
                let start = [numbers[0], numbers[1], numbers[2]];
                let direction = [numbers[3], numbers[4], numbers[5]];
                let size = start.iter().fold(1.0_f64, |a, x| a.max(x.abs()));
                assert!((dot(&direction, &direction) - 1.0).abs() < 1e-12, "{case}");
                let later: [f64; 3] = array::from_fn(|i| start[i] + 5.0 * direction[i]);
                for side in sides {
                    assert!(front(side, &start).abs() < 1e-9 * size, "{case} {corner} {side}");
                    assert!(front(side, &later).abs() < 1e-8 * size, "{case} {corner} {side}");
                }
                assert!(front(4, &start).abs() < 1e-9 * size, "{case} {corner}");
                assert!(front(4, &later) > 1e-3, "{case} {corner}");
            }
        }
    }

    /// What docs/DIFFERENCES.md tells: points beside the right plane on which the
    /// two ways part, by a last digit and by what f32 cannot hold.
    #[test]
    fn sides_that_are_told_of() {
        let told = [(0.2, [10_000.0, 0.0, -50_000.0], [true, false]), (0.1234, [6170.00005, 0.0, -50_000.0], [false, true])];
        for (window, p, sides) in told {
            let projection = inputs::projected(&[0.0, -window, window, -0.25, 0.25, 100.0, 60_000.0]);
            let mut camera = Camera::default();
            assert!(camera.set_from_view_and_projection(matrix(&IDENTITY), matrix(&projection), 50.0));
            let (ours, theirs) = (volume_of(&(IDENTITY, projection)), of_frustum(&camera.frustum()));
            let right = [&ours[5..9], &theirs[4..8]];
            assert_eq!(right.map(|plane| dot(plane, &p) - plane[3] >= 0.0), sides, "{window}");
        }
    }

    /// The Rust's own way to planes goes through f32 and angles. For rigid views
    /// it has every point on the same side that is further from the plane than a
    /// millionth of how far it is from the mast and from the origin.
    #[test]
    fn sides_are_those_of_the_camera() {
        let (mut apart, mut furthest) = (0_u64, 0.0_f64);
        for case in 0..40_000 {
            let rng = &mut Rng::at(11, case);
            let (view, record) = (inputs::rigid_placement(rng), inputs::ordinary_projection(rng));
            let projection = inputs::projected(&record);
            let mut camera = Camera::default();
            assert!(camera.set_from_view_and_projection(matrix(&view), matrix(&projection), 50.0), "{case}");
            let theirs = of_frustum(&camera.frustum());
            let ours = volume_of(&(view, projection));
            let mast = matrix(&view).inverse().expect("rigid").transform(Vec3d { x: 0.0, y: 0.0, z: 0.0 });
            for _ in 0..8 {
                let p: [f64; 3] = array::from_fn(|_| rng.between(-1500.0, 1500.0));
                let away = ((p[0] - mast.x).powi(2) + (p[1] - mast.y).powi(2) + (p[2] - mast.z).powi(2)).sqrt();
                let size = away + mast.x.abs() + mast.y.abs() + mast.z.abs();
                // The Rust's planes are left, right, bottom, top, near, far too.
                for i in 0..6 {
                    let [a, b] = [&ours[1 + 4 * i..][..4], &theirs[4 * i..][..4]];
                    let length = dot(a, &[a[0], a[1], a[2]]).sqrt();
                    let (here, there) = ((dot(a, &p) - a[3]) / length, dot(b, &p) - b[3]);
                    furthest = furthest.max((here - there).abs() / size);
                    apart += u64::from((here >= 0.0) != (there >= 0.0));
                    assert!((here - there).abs() <= 1e-6 * size, "{case} {i}: {here} {there} of {size}");
                }
            }
        }
        println!("sides apart {apart} of {}, distances apart at most {furthest:e} of the size", 40_000 * 8 * 6);
    }
}
