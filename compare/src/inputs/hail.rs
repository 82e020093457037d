//! Hail: several rays and one triangle.

use super::*;
use std::array;

/// How many rays are put to a triangle: mostly few; now and then as many as a
/// panel of a net gets, and a few hundred.
fn ray_count(rng: &mut Rng) -> usize {
    match rng.below(256) {
        0..24 => 1,
        24..72 => 2,
        72..240 => 3 + rng.below(6) as usize,
        240..254 => 9 + rng.below(32) as usize,
        _ => 100 + rng.below(200) as usize,
    }
}

/// The place of some weights in a triangle.
fn weighed([a, b, c]: [Point; 3], alpha: f64, beta: f64) -> Point {
    along(along(a, alpha, difference(b, a)), beta, difference(c, a))
}

/// A triangle and rays at it: each as the first one of `ray_and_triangle`, that
/// one moved along or turned back, aimed at a place by its weights, along a side,
/// or any.
pub fn rays_and_triangle(rng: &mut Rng) -> (Vec<Ray>, [Point; 3]) {
    let (first, corners) = ray_and_triangle(rng);
    let rays = (0..ray_count(rng)).map(|i| {
        let start: Point = array::from_fn(|k| first[k]);
        let direction: Point = array::from_fn(|k| first[3 + k]);
        match rng.below(8) {
            _ if i == 0 => first,
            0 => ray_of(along(start, rng.pick(&[-1.0, 1.0, 2.0, 8.0]), direction), direction),
            1 => ray_of(start, direction.map(|x| -x)),
            2 => ray_of(start, difference(corners[1], corners[0])),
            3 => ray(rng),
            4 => {
                let (alpha, beta) = (rng.pick(&WEIGHTS), rng.pick(&WEIGHTS));
                ray_of(along(weighed(corners, alpha, beta), -2.0, direction), direction)
            }
            _ => {
                let onto = weighed(corners, rng.between(-0.1, 1.1), rng.between(-0.1, 1.1));
                let toward = if rng.once_in(2) { direction } else { unit(rng) };
                ray_of(along(onto, -rng.between(-1.0, 9.0), toward), toward)
            }
        }
    });
    (rays.collect(), corners)
}

/// Weights at which a hit is decided.
const WEIGHTS: [f64; 10] = [0.0, 1.0, 0.5, 0.25, -1e-10, -9.9e-11, -1.1e-10, -5e-11, 1.0 + 5e-11, 0.5 + 1e-10];

/// A panel of a net hung in the air, and so many rays that fall onto it or just
/// beside it.
pub fn hail_on_a_panel(rng: &mut Rng, count: usize) -> (Vec<Ray>, [Point; 3]) {
    let corners = [[0.0, 0.0], [6.0, 0.0], [6.0, 6.0]].map(|[x, y]| [x, y, rng.between(4.0, 5.0)]);
    let rays = (0..count).map(|_| {
        let onto = weighed(corners, rng.between(-0.05, 1.05), rng.between(-0.05, 1.05));
        let fall = [rng.between(-0.5, 0.5), rng.between(-0.5, 0.5), -1.0];
        let length = dot(fall, fall).sqrt();
        ray_of(along(onto, -300.0, fall), fall.map(|x| x / length))
    });
    (rays.collect(), corners)
}
