//! Segments that are out of view, and the planes that put them there: one of
//! them, two, several, or none whose absence would help.

use super::*;
use std::array;

/// Where a plane is put: among others where there is room, or in the place of
/// one of them.
fn put<T>(rng: &mut Rng, planes: &mut Vec<T>, plane: T) {
    let place = rng.below(planes.len() as u64) as usize;
    if planes.len() < MOST_PLANES && !rng.once_in(4) {
        planes.insert(if rng.once_in(3) { planes.len() } else { place }, plane);
    } else {
        planes[place] = plane;
    }
}

/// How many planes are put there to hide a segment.
fn screens(rng: &mut Rng) -> u64 {
    rng.pick(&[0, 0, 1, 1, 1, 2, 2, 3])
}

/// A plane that hides a segment from some place on: both ends are behind it,
/// an end just is or touches it, it is crossed, or it is one of the others
/// again or a unit further in.
fn whole_screen(rng: &mut Rng, planes: &[WholePlane], a: Whole, b: Whole) -> WholePlane {
    let normal = whole_normal(rng);
    let (from, to) = (whole_dot(normal, a), whole_dot(normal, b));
    let other = planes[rng.below(planes.len() as u64) as usize];
    let plane = match rng.below(8) {
        0..3 => WholePlane { normal, distance: from.max(to) + rng.pick(&[1, 1, 2, 1000]) },
        3 => WholePlane { normal, distance: rng.pick(&[from, to]) + rng.pick(&[0, 1]) },
        4..6 => WholePlane { normal, distance: from + ((to - from) as f64 * rng.between(0.0, 1.0)) as i64 },
        6 => other,
        _ => WholePlane { distance: other.distance + 1, ..other },
    };
    if plane.within_limits() { plane } else { other }
}

/// Segment planes and a segment between grid points, mostly out of view:
/// crossings that all but coincide, lines that graze, others, with screens
/// among the planes.
pub fn farm_blocked(rng: &mut Rng) -> (Vec<WholePlane>, Whole, Whole) {
    let (six, a, b) = match rng.below(4) {
        0 => grazing(rng),
        1 => farm_segment(rng),
        _ => near_tie(rng),
    };
    let mut planes = among_others(rng, &six);
    for _ in 0..screens(rng) {
        let screen = whole_screen(rng, &planes, a, b);
        put(rng, &mut planes, screen);
    }
    (planes, a, b)
}

/// The same of any numbers. Crossings are mostly at one of few places, so that
/// they come out as equal numbers or as neighbours.
fn screen(rng: &mut Rng, planes: &[Plane], a: Point, b: Point) -> Plane {
    let normal = match rng.below(4) {
        0 => axis(rng),
        1 => whole_point(rng, 3),
        _ => unit(rng),
    };
    let other = rng.pick(planes);
    let (from, to) = (dot(normal, a), dot(normal, b));
    let at = rng.pick(&[0.25, 0.5, 0.5, 0.75]);
    let distance = match rng.below(8) {
        0..2 => from.max(to) + rng.pick(&[0.5, 1.0, 1e-9 * from.abs().max(to.abs())]),
        2 => rng.pick(&[from, to]),
        3..5 => from + (to - from) * at,
        5 => rng.about(from + (to - from) * at, 2),
        6 => return other,
        _ => return with(other, &[(3, rng.about(other[3], 1))]),
    };
    plane_of(normal, distance)
}

/// A segment along x from 0 to 8 and a plane for each number: it comes in there
/// by one from 1 to 7, goes out there by one from -1 to -7, is in front of the
/// plane by 0, and has both ends behind it by any other.
pub fn across(at: &[i64]) -> (Vec<Plane>, Point, Point) {
    let planes = at.iter().map(|&at| match at {
        1..8 => [1.0, 0.0, 0.0, at as f64],
        -7..0 => [-1.0, 0.0, 0.0, at as f64],
        0 => [0.0, 0.0, 0.0, -1.0],
        _ => [0.0, 1.0, 0.0, 1.0],
    });
    (planes.collect(), [0.0; 3], [8.0, 0.0, 0.0])
}

/// A volume and a segment that is mostly out of it. Three in eight are of the
/// farm grid, one is of planes across the segment, one is any.
pub fn volume_and_blocked(rng: &mut Rng) -> (Volume, Point, Point) {
    let (planes, a, b) = match rng.below(8) {
        0..3 => {
            let (planes, a, b) = farm_blocked(rng);
            (farm_planes(&planes), floats(a), floats(b))
        }
        3 => return volume_and_segment(rng),
        4 => {
            let count = FEWEST_PLANES as u64 + rng.below((MOST_PLANES - FEWEST_PLANES) as u64 + 1);
            let idle = rng.below(4);
            let at = |rng: &mut Rng| if rng.below(4) < idle { 0 } else { rng.whole(8) };
            across(&(0..count).map(|_| at(rng)).collect::<Vec<i64>>())
        }
        _ => {
            let (six, a, b) = six_and_segment(rng);
            let mut planes = six[..24].as_chunks::<4>().0.to_vec();
            for _ in 0..screens(rng) {
                let screen = screen(rng, &planes, a, b);
                put(rng, &mut planes, screen);
            }
            (planes, a, b)
        }
    };
    let rays: [f64; 24] = array::from_fn(|_| rng.whole(3) as f64);
    let volume = Volume::new(&planes, &rays);
    let volume = if rng.once_in(16) { volume.counted(other_planes(rng, planes.len() as f64)) } else { volume };
    if rng.once_in(2) { (volume, a, b) } else { (volume, b, a) }
}
