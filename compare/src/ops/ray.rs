//! Rays.

use crate::exported::{call, of_archive};
use crate::inputs::{self, IDENTITY, Point, Ray, ray_of, with};
use crate::judge::MISS;
use crate::op::Op;
use crate::rust::{matrix, of_ray, plane, point, ray};

pub fn all() -> Vec<Box<dyn Op>> {
    vec![ray_point(), transformed(), intersect_plane(), intersect_triangle()]
}

const NAN: f64 = f64::NAN;
const FAR: f64 = f64::INFINITY;

fn ray_point() -> Box<dyn Op> {
    let oblique = ray_of([1.0, 2.0, 3.0], [0.1, -0.7, 0.3]);
    let distances = [0.0, -0.0, 1.0, 3.0, -2.0, 1e-310, 1e308, FAR, NAN];
    call!(gf_ray_point(given: 6; distance: f64) -> [f64; 3] { Ok(ray(given).point(distance).into()) })
        .fixed(distances.map(|distance| (oblique, distance)).into())
        .drawn(|_, rng| (inputs::ray(rng), inputs::distance(rng)))
        .timed("ordinary", |_, rng| (inputs::ordinary_ray(rng), rng.between(0.0, 9.0)))
        .op()
}

fn transformed() -> Box<dyn Op> {
    let oblique = ray_of([1.0, 2.0, 3.0], [0.1, -0.7, 0.3]);
    let w = |x: f64| with(IDENTITY, &[(12, 2.0), (15, x)]);
    let matrices = [w(1.0), w(3.0), w(0.0), w(-0.0), w(5e-324), w(FAR), [NAN; 16]];
    call!(gf_ray_transformed(given: 6, m: 16) -> [f64; 6] { Ok(of_ray(ray(given).transformed(matrix(m)))) })
        .fixed(matrices.map(|m| (oblique, m)).into())
        .drawn(|_, rng| {
            let (m, start) = inputs::matrix_and_point(rng);
            (ray_of(start, inputs::point(rng)), m)
        })
        .timed("placements", |_, rng| (inputs::ordinary_ray(rng), inputs::placement(rng)))
        .op()
}

/// Rays of docs/DIFFERENCES.md, from one above the floor, each with the distance
/// at which it meets the floor.
fn told() -> [(Ray, Option<f64>); 2] {
    [(-9e-11, None), (-1e-10, Some(1e10))].map(|(down, meets)| (ray_of([0.0, 0.0, 1.0], [0.0, 0.0, down]), meets))
}

fn intersect_plane() -> Box<dyn Op> {
    let floor = [0.0, 0.0, 1.0, 0.0];
    let down = |z: f64, facing: f64| ray_of([0.0, 0.0, z], [1.0, 0.0, facing]);
    let below = f64::from_bits(1e-10_f64.to_bits() - 1);
    let fixed = vec![
        (down(5.0, -1.0), floor),
        (down(5.0, 1.0), floor),
        (down(-5.0, 1.0), floor),
        // They hardly face each other.
        (down(5.0, -9e-11), floor),
        (down(5.0, -below), floor),
        (down(5.0, -1e-10), floor),
        (down(-5.0, 1e-10), floor),
        (down(5.0, 0.0), floor),
        (down(5.0, NAN), floor),
        // On the plane: at distance 0 of either sign.
        (down(0.0, -1.0), floor),
        (down(0.0, 1.0), floor),
        (down(-0.0, 1.0), floor),
        (down(5e-324, 3.0), floor),
        // At an infinite distance.
        (down(1e308, -1e-10), floor),
        (down(FAR, -1.0), floor),
        (down(1.0, -FAR), floor),
        // Planes of other lengths than 1: normal times distance is on them.
        (ray_of([20.0, 0.0, 0.0], [-1.0, 0.0, 0.0]), [3.0, 0.0, 0.0, 6.0]),
        (ray_of([10.0, 0.0, 0.0], [-1.0, 0.0, 0.0]), [3.0, 0.0, 0.0, 6.0]),
        (ray_of([10.0, 0.0, 0.0], [1.0, 0.0, 0.0]), [0.5, 0.0, 0.0, 6.0]),
        (ray_of([10.0, 1.0, 0.0], [1.0, 2.0, 3.0]), [0.0, 0.0, 0.0, 6.0]),
        (ray_of([0.0; 3], [0.0; 3]), floor),
        (ray_of([1.0, 2.0, 3.0], [-0.3, 0.1, -0.7]), [0.6, 0.0, 0.8, 1.5]),
        (down(5.0, -1.0), [0.0, 0.0, 1.0, NAN]),
        (down(5.0, -1.0), [0.0, 0.0, 1.0, -FAR]),
    ];
    call!(gf_ray_intersect_plane(given: 6, on: 4) -> [f64; 2] {
        let (distance, front) = ray(given).intersect_plane(&plane(on)).ok_or(MISS)?;
        Ok([distance, front.into()])
    })
    .fixed(fixed)
    .tried(told().map(|(ray, _)| (ray, floor)).into())
    .drawn(|_, rng| inputs::ray_and_plane(rng))
    .timed("ordinary", |_, rng| (inputs::ordinary_ray(rng), inputs::ordinary_plane(rng)))
    .op()
}

/// Rays at the triangle (0,0), (1,s), (0,1) of a plane of two axes, where the
/// weights come out as they go in.
fn weights() -> Vec<(Ray, [Point; 3])> {
    let at = |alpha: f64, beta: f64, s: f64| {
        let down = ray_of([alpha, beta + s * alpha, 2.0], [0.0, 0.0, -1.0]);
        (down, [[0.0; 3], [1.0, s, 0.0], [0.0, 1.0, 0.0]])
    };
    let below = -f64::from_bits(1e-10_f64.to_bits() - 1);
    let mut all = vec![at(0.25, 0.5, 0.0), at(0.1, 0.3, 0.0), at(1.0 / 3.0, 1.0 / 7.0, 0.0), at(1.0 / 3.0, 0.1, 0.5)];
    // Corners and edges; weights short of zero by what counts, less and more.
    for x in [0.0, -0.0, 1.0, -1e-10, below, -5e-11, -1.1e-10, 1.0 + f64::EPSILON, 1.0 + 5e-11, -0.1, 1.1] {
        all.extend([at(x, 0.0, 0.0), at(0.0, x, 0.0), at(x, 0.5, 0.0)]);
    }
    // Gamma in single precision: -1e-10 becomes less than that.
    all.extend([at(0.5, 0.5 + 1e-10, 0.0), at(0.5, 0.5 + 9e-11, 0.0), at(0.5, 0.5 + 2e-10, 0.0)]);
    // The first axis for alpha unless the second is more than 1e-10.
    all.extend([1e-10, 2e-10, 1e-11, -1.0].map(|s| at(0.25, 0.25, s)));
    all
}

fn intersect_triangle() -> Box<dyn Op> {
    let mut fixed = weights();
    let down = ray_of([0.25, 0.25, 1.0], [0.0, 0.0, -1.0]);
    let at = |x: f64, y: f64| ray_of([x, y, 1.0], [0.0, 0.0, -1.0]);
    let tiny = [[0.0; 3], [0.0, 1e-11, 0.0], [1.0, 0.0, 0.0]];
    fixed.extend([
        // Weights that are NaN pass.
        (at(0.5, 0.0), tiny),
        (at(0.5, 0.5), tiny),
        (at(1.5, 0.0), tiny),
        // No area.
        (down, [[0.0; 3]; 3]),
        (down, [[0.0; 3], [1.0, 1.0, 0.0], [2.0, 2.0, 0.0]]),
        // From behind, from the plane, away, along.
        (ray_of([0.25, 0.25, -1.0], [0.0, 0.0, 2.0]), [[0.0; 3], [1.0, 0.0, 0.0], [0.0, 1.0, 0.0]]),
        (ray_of([0.25, 0.25, 0.0], [0.0, 0.0, -1.0]), [[0.0; 3], [1.0, 0.0, 0.0], [0.0, 1.0, 0.0]]),
        (ray_of([0.25, 0.25, -1.0], [0.0, 0.0, -1.0]), [[0.0; 3], [1.0, 0.0, 0.0], [0.0, 1.0, 0.0]]),
        (ray_of([0.25, 0.25, 1.0], [1.0, 0.0, -9e-11]), [[0.0; 3], [1.0, 0.0, 0.0], [0.0, 1.0, 0.0]]),
        // The plane faces two axes alike, and all three.
        (ray_of([5.0, 0.25, 0.25], [-1.0, 0.0, 0.0]), [[1.0, 0.0, 0.0], [0.0, 1.0, 0.0], [0.5, 0.5, 1.0]]),
        (ray_of([5.0, 5.0, 5.0], [-1.0, -1.0, -1.0]), [[1.0, 0.0, 0.0], [0.0, 1.0, 0.0], [0.0, 0.0, 1.0]]),
        (ray_of([5.0, 0.2, 0.3], [-1.0, 0.0, 0.0]), [[0.0; 3], [0.0, 1.0, 0.0], [0.0, 0.0, 1.0]]),
        (ray_of([0.2, 5.0, 0.3], [0.0, -1.0, 0.0]), [[0.0; 3], [0.0, 0.0, 1.0], [1.0, 0.0, 0.0]]),
        (down, [[NAN, 0.0, 0.0], [1.0, 0.0, 0.0], [0.0, 1.0, 0.0]]),
        (down, [[-1e200, 0.0, 0.0], [1e200, 0.0, 0.0], [0.0, 1e200, 0.0]]),
    ]);
    call!(gf_ray_intersect_triangle(given: 6, p0: 3, p1: 3, p2: 3) -> [f64; 5] {
        let hit = ray(given).intersect_triangle(point(p0), point(p1), point(p2)).ok_or(MISS)?;
        let [gamma, alpha, beta] = hit.barycentric.into();
        Ok([hit.distance, gamma, alpha, beta, hit.front_facing.into()])
    })
    .fixed(fixed.into_iter().map(|(ray, [a, b, c])| (ray, a, b, c)).collect())
    .drawn(|_, rng| {
        let (ray, [a, b, c]) = inputs::ray_and_triangle(rng);
        (ray, a, b, c)
    })
    .timed("ordinary", |_, rng| {
        let [a, b, c] = [(); 3].map(|_| inputs::ordinary_point(rng));
        let start = inputs::ordinary_point(rng);
        let onto = inputs::mix(inputs::mix(a, b, rng.between(-0.3, 1.3)), c, rng.between(-0.3, 1.3));
        (ray_of(start, std::array::from_fn(|i| onto[i] - start[i])), a, b, c)
    })
    .op()
}

#[cfg(test)]
mod tests {
    use super::*;

    #[test]
    fn rays_that_are_told_of() {
        for (given, meets) in told() {
            let answered = ray(&given).intersect_plane(&plane(&[0.0, 0.0, 1.0, 0.0]));
            assert_eq!(answered, meets.map(|distance| (distance, true)), "{given:?}");
        }
    }
}
