//! Volumes, and what is looked for in them.

use super::*;
use crate::rust;
use openusd::gf;
use std::sync::LazyLock;
use std::{array, iter};

/// A volume and its eight corners; the farm's and odd ones have none, and
/// things near the origin are looked for in them.
#[derive(Clone, Copy)]
struct View {
    volume: Six,
    corners: [Point; 8],
    /// The corners are whole.
    whole: bool,
}

/// Paper 01's cube.
pub const CUBE: Six = {
    let mut volume = [0.0; 48];
    let mut axis = 0;
    while axis < 3 {
        volume[8 * axis + axis] = 1.0;
        volume[8 * axis + 4 + axis] = -1.0;
        volume[8 * axis + 7] = -10.0;
        axis += 1;
    }
    volume
};

/// The corners of a range, in any order.
fn corners_of(r: Range) -> [Point; 8] {
    array::from_fn(|i| array::from_fn(|axis| r[if i >> axis & 1 == 0 { axis } else { axis + 3 }]))
}

/// The inside of a range, with rays along its edges in z.
fn aligned(r: Range, whole: bool) -> View {
    let mut volume = CUBE;
    for axis in 0..3 {
        volume[8 * axis + 3] = r[axis];
        volume[8 * axis + 7] = -r[axis + 3];
    }
    for (i, [x, y]) in [[0, 1], [0, 4], [3, 4], [3, 1]].into_iter().enumerate() {
        volume[24 + 6 * i..][..6].copy_from_slice(&[r[x], r[y], r[2], 0.0, 0.0, 1.0]);
    }
    View { volume, corners: corners_of(r), whole }
}

/// What a frustum sees.
fn seen(frustum: &gf::Frustum) -> View {
    View { volume: rust::of_frustum(frustum), corners: frustum.corners().map(<[f64; 3]>::from), whole: false }
}

/// Some frustums, half of them orthographic.
static FRUSTUMS: LazyLock<Vec<View>> = LazyLock::new(|| {
    let one = |case: u64| {
        let rng = &mut Rng::at(0, case);
        let turn = gf::Rotation::new(rust::point(&unit(rng)), rng.between(0.0, 360.0));
        let corner =
            |rng: &mut Rng, sign: f64| gf::Vec2d { x: sign * rng.between(0.2, 2.0), y: sign * rng.between(0.2, 2.0) };
        let near = rng.between(0.5, 3.0);
        seen(&gf::Frustum {
            position: if case % 4 < 2 { gf::Vec3d::default() } else { rust::point(&ordinary_point(rng)) },
            rotation: if case % 8 < 4 { gf::Rotation::IDENTITY } else { turn },
            window: gf::Range2d::new(corner(rng, -1.0), corner(rng, 1.0)),
            near_far: gf::Range1d::new(near, near + rng.between(1.0, 20.0)),
            view_distance: 5.0,
            projection: if case.is_multiple_of(2) { gf::Projection::Perspective } else { gf::Projection::Orthographic },
        })
    };
    (0..512).map(one).collect()
});

fn view(rng: &mut Rng) -> View {
    let mut view = match rng.below(8) {
        0..3 => aligned(whole_range(rng, 10), true),
        3 => aligned(ordinary_range(rng), false),
        4..7 => FRUSTUMS[rng.below(FRUSTUMS.len() as u64) as usize],
        _ => View { volume: numbers(rng), corners: corners_of(ordinary_range(rng)), whole: false },
    };
    match rng.below(8) {
        // Planes of other lengths than 1.
        0 => {
            let by = rng.pick(&[2.0, 0.5, 3.0, 1e-5, 1e-12, 1e5]);
            let one = rng.below(6) as usize;
            let all = rng.once_in(2);
            for (i, plane) in view.volume[..24].chunks_exact_mut(4).enumerate() {
                if all || i == one {
                    plane.iter_mut().for_each(|x| *x *= by);
                }
            }
        }
        1 => view.volume[rng.below(48) as usize] = odd(rng),
        _ => {}
    }
    view
}

/// A place: a corner, on an edge, inside, about, or anywhere.
fn place(rng: &mut Rng, view: &View) -> Point {
    let corner = |rng: &mut Rng| view.corners[rng.below(8) as usize];
    let (a, b) = (corner(rng), corner(rng));
    match rng.below(8) {
        0..2 => a,
        2 => mix(a, b, 0.5),
        3 => mix(a, b, rng.between(-0.3, 1.3)),
        4..6 => mix(mix(a, b, rng.between(0.0, 1.0)), mix(corner(rng), corner(rng), 0.5), rng.between(0.0, 1.0)),
        6 => {
            let p = mix(a, b, 0.5);
            let beside = rng.below(3) as usize;
            with(p, &[(beside, if view.whole { p[beside] + rng.whole(2) as f64 } else { rng.about(p[beside], 2) })])
        }
        _ => point(rng),
    }
}

/// A way to go from a place.
fn way(rng: &mut Rng, view: &View) -> Point {
    match rng.below(8) {
        0..3 if view.whole => whole_point(rng, 3),
        3 => axis(rng),
        4 => whole_point(rng, 2),
        _ => ordinary_point(rng),
    }
}

pub fn volume_and_point(rng: &mut Rng) -> (Volume, Point) {
    let view = view(rng);
    (screened(rng, view.volume), place(rng, &view))
}

/// A volume and a segment, which mostly passes through some place of it, both
/// ends outside. One in four is the farm's.
pub fn volume_and_segment(rng: &mut Rng) -> (Volume, Point, Point) {
    let (six, a, b) = six_and_segment(rng);
    (screened(rng, six), a, b)
}

pub(super) fn six_and_segment(rng: &mut Rng) -> (Six, Point, Point) {
    if rng.once_in(4) {
        let (planes, a, b) = farm_segment(rng);
        return (farm_six(&planes), floats(a), floats(b));
    }
    let view = view(rng);
    let through = place(rng, &view);
    match rng.below(8) {
        0 => (view.volume, through, place(rng, &view)),
        1 => (view.volume, through, through),
        2 if view.whole => underflow(rng, &view),
        2 => {
            // So far that a crossing is NaN.
            let far = rng.pick(&[1.2e308, 1e300, 1e154]);
            let b = point(rng);
            let beside = rng.below(3) as usize;
            (view.volume, with(through, &[(beside, -far)]), with(b, &[(beside, far)]))
        }
        _ => {
            let d = way(rng, &view);
            let (s, t) = if view.whole && rng.once_in(2) {
                (rng.below(20) as f64, rng.below(20) as f64)
            } else {
                (rng.between(0.0, 10.0), rng.between(0.0, 10.0))
            };
            (view.volume, along(through, s, d), along(through, -t, d))
        }
    }
}

/// A segment along a plane whose normal is so short that a denominator is 0:
/// that plane's crossing is infinite or NaN, and others are not.
fn underflow(rng: &mut Rng, view: &View) -> (Six, Point, Point) {
    let (axis, side) = (rng.below(3) as usize, rng.below(2) as usize);
    let plane = 8 * axis + 4 * side;
    let mut volume = view.volume;
    volume[plane..plane + 4].fill(0.0);
    volume[plane + axis] = f64::from_bits((1023 - 540) << 52);
    volume[plane + 3] = 5e-324;
    // Times the normal this is the least number.
    let unit = f64::from_bits((1023 - 534) << 52);
    let mut end = || {
        let p: Point = array::from_fn(|i| mix(view.corners[0], view.corners[7], rng.between(-1.0, 2.0))[i]);
        with(p, &[(axis, unit * rng.pick(&[0.4, 0.4, 0.6, 0.6, 1.6]))])
    };
    let (a, b) = (end(), end());
    (volume, a, b)
}

/// A volume and a triangle: three places, or one around some place of it.
pub fn volume_and_triangle(rng: &mut Rng) -> (Volume, Point, Point, Point) {
    let view = view(rng);
    let [a, b, c] = match rng.below(8) {
        0..2 => array::from_fn(|_| place(rng, &view)),
        2 => three_points(rng),
        _ => {
            let middle = place(rng, &view);
            let (u, v) = (way(rng, &view), way(rng, &view));
            // Across the view, or across the planes 4 and 5.
            let size = rng.pick(&[0.5, 1.0, 2.0, 5.0, 30.0, 100.0]);
            let spread = |s: f64, t: f64| along(along(middle, s * size, u), t * size, v);
            [spread(2.0, 0.0), spread(-1.0, 2.0), spread(-1.0, -2.0)]
        }
    };
    (screened(rng, view.volume), a, b, c)
}

/// A box with a corner, or its middle, at a place of the view.
fn box_at(rng: &mut Rng, view: &View) -> Boxed {
    let at = place(rng, view);
    let size: Point = if view.whole { whole_point(rng, 5) } else { ordinary_point(rng) }.map(f64::abs);
    let outward: Point = array::from_fn(|_| rng.pick(&[0.0, 0.0, 1.0, 0.5]));
    let rows = match rng.below(4) {
        0 => [[1.0, 0.0, 0.0], [0.0, 1.0, 0.0], [0.0, 0.0, 1.0]],
        1..3 => quarter_rows(rng),
        _ => {
            let m = placement(rng);
            [[m[0], m[1], m[2]], [m[4], m[5], m[6]], [m[8], m[9], m[10]]]
        }
    };
    // The range's own corner is anywhere; the translation brings it there.
    let own = if view.whole { whole_point(rng, 9) } else { ordinary_point(rng) };
    let placed: Point = array::from_fn(|k| own[0] * rows[0][k] + own[1] * rows[1][k] + own[2] * rows[2][k]);
    let translation = array::from_fn(|i| at[i] - placed[i]);
    let range: Range = array::from_fn(|i| match i {
        0..3 => own[i] - size[i] * outward[i],
        _ => own[i - 3] + size[i - 3] * (1.0 - outward[i - 3]),
    });
    let mut m = placement_of(rows, translation);
    match rng.below(16) {
        0 => m = with(m, &[(rng.below(16) as usize, odd(rng))]),
        // No inverse, so the range is taken as it stands.
        1 => m = with(m, &[(0, 0.0), (1, 0.0), (2, 0.0)]),
        2 => m = m.map(|x| x * 0.000_562_341_325_190_349_1),
        _ => {}
    }
    let range = if rng.once_in(16) { with(range, &[(0, range[3] + 1.0)]) } else { range };
    box_of(range, m, rng.below(2) as f64)
}

pub fn volume_and_box(rng: &mut Rng) -> (Volume, Boxed) {
    let view = view(rng);
    if rng.once_in(4) {
        return (screened(rng, view.volume), boxed(rng));
    }
    if rng.once_in(5) {
        let (planes, farm_box) = farm_box_view(rng);
        return (screened(rng, farm_six(&planes)), farm_box.record());
    }
    (screened(rng, view.volume), box_at(rng, &view))
}

/// A volume and boxes to look for in it, as a farm file has them.
pub fn volume_and_boxes(rng: &mut Rng, count: usize) -> (Volume, Vec<Boxed>) {
    if rng.once_in(5) {
        let (planes, first) = farm_box_view(rng);
        let others = (1..count).map(|_| farm_box(rng).record());
        let boxes = iter::once(first.record()).chain(others).collect();
        return (surveyed(rng, farm_six(&planes)), boxes);
    }
    let view = view(rng);
    let boxes = (0..count).map(|_| if rng.once_in(6) { boxed(rng) } else { box_at(rng, &view) }).collect();
    (surveyed(rng, view.volume), boxes)
}

/// A box and a matrix into clip space, whose sides the box often touches.
pub fn box_and_view(rng: &mut Rng) -> (Boxed, Matrix) {
    let view_projection = |rng: &mut Rng| {
        let projected = projected(&ordinary_projection(rng));
        if rng.once_in(2) {
            return projected;
        }
        (rust::matrix(&placement(rng)) * rust::matrix(&projected)).0
    };
    match rng.below(8) {
        // The sides of clip space, in halves.
        0..3 => {
            let mut r = whole_range(rng, 4).map(|x| x / 2.0);
            if rng.once_in(8) {
                r.reverse();
            }
            let m = match rng.below(4) {
                0 => quarter_placement(rng),
                1 => with(IDENTITY, &[(rng.below(16) as usize, rng.whole(2) as f64)]),
                _ => IDENTITY,
            };
            let placed = if rng.once_in(2) { IDENTITY } else { placement_of(quarter_rows(rng), [0.0; 3]) };
            (box_of(r, placed, rng.below(2) as f64), m)
        }
        3..6 => (ordinary_box(rng), view_projection(rng)),
        6 => (boxed(rng), view_projection(rng)),
        _ => (boxed(rng), matrix(rng)),
    }
}

// What is timed.

/// A frustum's volume and things about it, as a view is asked.
pub fn asked(rng: &mut Rng) -> (Six, Point, Point, Point, Boxed) {
    let view = FRUSTUMS[rng.below(FRUSTUMS.len() as u64) as usize];
    let points = [(); 3].map(|_| about(rng, &view));
    let placed = placed_at(points[0], placement(rng));
    (view.volume, points[0], points[1], points[2], box_of(ordinary_range(rng), placed, 0.0))
}

/// A frustum's volume of so many planes and boxes about it, placed in one way.
pub fn boxes_asked(
    rng: &mut Rng,
    planes: usize,
    count: usize,
    placement: fn(&mut Rng) -> Matrix,
) -> (Volume, Vec<Boxed>) {
    let view = FRUSTUMS[rng.below(FRUSTUMS.len() as u64) as usize];
    let one = |_| {
        let placed = placed_at(about(rng, &view), placement(rng));
        box_of(ordinary_range(rng), placed, 0.0)
    };
    (with_planes(view.volume, planes), (0..count).map(one).collect())
}

/// A point in the view or not far from it.
fn about(rng: &mut Rng, view: &View) -> Point {
    let a = mix(rng.pick(&view.corners), rng.pick(&view.corners), rng.between(-0.5, 1.5));
    mix(a, rng.pick(&view.corners), rng.between(-0.5, 1.5))
}

/// A placement with another translation.
fn placed_at([x, y, z]: Point, placement: Matrix) -> Matrix {
    with(placement, &[(12, x), (13, y), (14, z)])
}
