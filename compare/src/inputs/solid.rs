//! Boxes, planes, rays and projections.

use super::*;
use crate::rust;
use std::array;

pub type Boxed = [f64; 23];
pub type Plane = [f64; 4];
pub type Ray = [f64; 6];
pub type Projection = [f64; 7];

/// Records put after each other.
pub fn joined<const N: usize>(parts: &[&[f64]]) -> [f64; N] {
    let mut all = [0.0; N];
    let mut at = 0;
    for part in parts {
        all[at..at + part.len()].copy_from_slice(part);
        at += part.len();
    }
    assert_eq!(at, N);
    all
}

/// A kind or flag: one of its values, or, once in 24 times, another number.
fn value(rng: &mut Rng) -> f64 {
    match rng.below(24) {
        0 => {
            let near_one = rng.about(1.0, 1);
            rng.pick(&[0.5, 2.0, -1.0, f64::NAN, 5e-324, -5e-324, f64::INFINITY, 0.999, near_one])
        }
        1..4 => -0.0,
        n => (n % 2) as f64,
    }
}

// Boxes.

pub fn box_of(range: Range, matrix: Matrix, flag: f64) -> Boxed {
    joined(&[&range, &matrix, &[flag]])
}

pub fn boxed(rng: &mut Rng) -> Boxed {
    match rng.below(4) {
        0 => box_of(ordinary_range(rng), placement(rng), value(rng)),
        1 => box_of(whole_range(rng, 9), quarter_placement(rng), value(rng)),
        _ => box_of(range(rng), matrix(rng), value(rng)),
    }
}

/// A box as objects have it.
pub fn ordinary_box(rng: &mut Rng) -> Boxed {
    box_of(ordinary_range(rng), placement(rng), 0.0)
}

/// An ordinary range whose least z is 0, as a block's on flat land.
pub fn ground_range(rng: &mut Rng) -> Range {
    let mut r = ordinary_range(rng);
    (r[2], r[5]) = (0.0, r[5].abs());
    r
}

/// A block on flat land that is surveyed where it stands.
pub fn ground_box(rng: &mut Rng) -> Boxed {
    box_of(ground_range(rng), IDENTITY, 0.0)
}

/// A range of whole numbers that holds points.
pub fn whole_range(rng: &mut Rng, size: i64) -> Range {
    let a: [i64; 3] = array::from_fn(|_| rng.whole(size));
    let b: [i64; 3] = array::from_fn(|_| rng.whole(size));
    array::from_fn(|i| if i < 3 { a[i].min(b[i]) } else { a[i - 3].max(b[i - 3]) } as f64)
}

/// Two boxes to combine: unrelated; placed alike; nearly alike, so that the
/// two volumes are about as far apart as counts as equal; of volumes beyond
/// the numbers.
pub fn two_boxes(rng: &mut Rng) -> (Boxed, Boxed) {
    let (a, b) = match rng.below(12) {
        0..5 => (boxed(rng), boxed(rng)),
        5 => {
            let (a, b) = (boxed(rng), boxed(rng));
            let same = box_of(*b.first_chunk().expect("a range"), *a[6..].first_chunk().expect("a matrix"), b[22]);
            (a, same)
        }
        6 => (ordinary_box(rng), ordinary_box(rng)),
        7 => (flat_box(rng), if rng.once_in(2) { flat_box(rng) } else { boxed(rng) }),
        8 => slightly_turned(rng),
        9..11 => volumes_at_tolerance(rng),
        _ => {
            let size = rng.pick(&[1e80, 1e103, 1e120, 1e150, 1e200]);
            let far = |rng: &mut Rng| {
                let r = ordinary_range(rng).map(|x| x * size);
                let m = if rng.once_in(2) { IDENTITY } else { placement(rng) };
                box_of(r, m, value(rng))
            };
            (far(rng), if rng.once_in(3) { ordinary_box(rng) } else { far(rng) })
        }
    };
    if rng.once_in(2) { (a, b) } else { (b, a) }
}

/// A box whose matrix has no inverse, or hardly one.
fn flat_box(rng: &mut Rng) -> Boxed {
    let m = match rng.below(4) {
        0 => near_singular(rng),
        1 => with(placement(rng), &[(5 * rng.below(3) as usize, 0.0)]),
        2 => with(placement(rng), &[(4, 0.0), (5, 0.0), (6, 0.0)]),
        _ => with(placement(rng), &[(rng.below(16) as usize, f64::NAN)]),
    };
    box_of(if rng.once_in(8) { range(rng) } else { ordinary_range(rng) }, m, value(rng))
}

/// Two boxes of which one is turned against the other by about a millionth.
fn slightly_turned(rng: &mut Rng) -> (Boxed, Boxed) {
    let angle = 1e-6 * rng.pick(&[0.1, 0.3, 0.5, 1.0, 2.0, 3.0]) * rng.between(0.8, 1.2);
    let m = with(IDENTITY, &[(0, angle.cos()), (1, angle.sin()), (4, -angle.sin()), (5, angle.cos())]);
    let r = ordinary_range(rng);
    (box_of(r, IDENTITY, value(rng)), box_of(if rng.once_in(2) { r } else { ordinary_range(rng) }, m, value(rng)))
}

/// A point at the origin and a sheared box: in the point's space both have
/// the volume (w + k·h)·h·d, in the box's w·h·d. These differ by about a
/// millionth of the larger, or by about 1e-10.
fn volumes_at_tolerance(rng: &mut Rng) -> (Boxed, Boxed) {
    let (h, d) = ((1 + rng.below(4)) as f64, (1 + rng.below(4)) as f64);
    let (w, k) = match rng.below(3) {
        0 => {
            let k = (1 + rng.below(4)) as f64;
            (999_999.0 * k * h + rng.pick(&[0.0, 0.0, 1.0, -1.0, 0.5]), k)
        }
        1 => (0.0, rng.about(1e-10 / (h * h * d), 2)),
        _ => {
            let k = rng.between(0.5, 2.0);
            (rng.about(999_999.0 * k * h, 4), k)
        }
    };
    let point = box_of([0.0; 6], IDENTITY, value(rng));
    (point, box_of([0.0, 0.0, 0.0, w, h, d], with(IDENTITY, &[(4, k)]), value(rng)))
}

/// A box and a matrix to be applied after its own.
pub fn box_and_matrix(rng: &mut Rng) -> (Boxed, Matrix) {
    match rng.below(4) {
        0 => (box_of(whole_range(rng, 9), quarter_placement(rng), value(rng)), quarter_placement(rng)),
        1 => (ordinary_box(rng), placement(rng)),
        _ => (boxed(rng), matrix(rng)),
    }
}

// Planes.

/// A normal: unit, along an axis, whole, about as long as counts, or any.
pub fn normal(rng: &mut Rng) -> Point {
    match rng.below(8) {
        0 => unit(rng),
        1 => axis(rng),
        2 => whole_point(rng, 9),
        3 => {
            let length = rng.pick(&[1e-10, 1e-10, 1e-11, 1e-9, 1e-160, 1e-200, 5e-324, 1e155, 1e200]);
            let length = rng.about(length, 3);
            let v = if rng.once_in(2) { axis(rng) } else { unit(rng) };
            v.map(|x| x * length)
        }
        4 => ordinary_point(rng),
        _ => numbers(rng),
    }
}

pub fn distance(rng: &mut Rng) -> f64 {
    match rng.below(4) {
        0 => rng.between(-20.0, 20.0),
        1 => rng.whole(20) as f64,
        _ => numbers::<1>(rng)[0],
    }
}

pub fn plane(rng: &mut Rng) -> Plane {
    let v = if rng.once_in(2) { unit(rng) } else { normal(rng) };
    plane_of(v, distance(rng))
}

/// A plane of unit normal.
pub fn ordinary_plane(rng: &mut Rng) -> Plane {
    plane_of(unit(rng), rng.between(-9.0, 9.0))
}

pub fn plane_of([x, y, z]: Point, distance: f64) -> Plane {
    [x, y, z, distance]
}

/// A plane and a point, often on it or a step beside.
pub fn plane_and_point(rng: &mut Rng) -> (Plane, Point) {
    match rng.below(4) {
        0 => (plane(rng), point(rng)),
        1 => {
            let (v, p) = (whole_point(rng, 9), whole_point(rng, 100));
            (plane_of(v, dot(p, v) + rng.pick(&[0.0, 0.0, 1e-10, -1e-10, 1.0])), p)
        }
        _ => {
            let (v, p) = (if rng.once_in(2) { unit(rng) } else { normal(rng) }, point(rng));
            let at = dot(p, v);
            (plane_of(v, rng.about(at, 1)), p)
        }
    }
}

/// Three points: apart, whole, in a line, alike, or any.
pub fn three_points(rng: &mut Rng) -> [Point; 3] {
    match rng.below(8) {
        0..2 => array::from_fn(|_| ordinary_point(rng)),
        2..4 => array::from_fn(|_| whole_point(rng, 4)),
        4 => {
            let (a, b) = (numbers(rng), numbers(rng));
            let t = if rng.once_in(2) { rng.whole(3) as f64 } else { rng.between(-1.0, 2.0) };
            [a, b, mix(a, b, t)]
        }
        5 => {
            // So small that the normal is not made unit length.
            let size = rng.pick(&[1e-5, 1e-6, 1e-11, 1e-100]);
            let a = if rng.once_in(2) { [0.0; 3] } else { ordinary_point(rng) };
            [a, along(a, size, ordinary_point(rng)), along(a, size, ordinary_point(rng))]
        }
        _ => array::from_fn(|_| point(rng)),
    }
}

/// A plane and a matrix.
pub fn plane_and_matrix(rng: &mut Rng) -> (Plane, Matrix) {
    (plane(rng), if rng.once_in(3) { placement(rng) } else { matrix(rng) })
}

// Rays.

pub fn ray_of(start: Point, direction: Point) -> Ray {
    joined(&[&start, &direction])
}

pub fn ray(rng: &mut Rng) -> Ray {
    ray_of(point(rng), if rng.once_in(2) { unit(rng) } else { point(rng) })
}

/// A ray of unit direction.
pub fn ordinary_ray(rng: &mut Rng) -> Ray {
    ray_of(ordinary_point(rng), unit(rng))
}

/// A ray and a plane; often they face each other as little as counts, or the
/// ray starts on the plane.
pub fn ray_and_plane(rng: &mut Rng) -> (Ray, Plane) {
    match rng.below(6) {
        0 => (ray(rng), plane(rng)),
        1 => (ordinary_ray(rng), ordinary_plane(rng)),
        2..4 => {
            let v = axis(rng);
            let facing = signed(rng, 1e-10, 2);
            let facing = if rng.once_in(4) { facing * rng.pick(&[0.9, 1.1, 0.0]) } else { facing };
            let direction = array::from_fn(|i| if v[i] != 0.0 { v[i] * facing } else { rng.between(-1.0, 1.0) });
            (ray_of(ordinary_point(rng), direction), plane_of(v, rng.between(-9.0, 9.0)))
        }
        4 => {
            let (v, d) = (if rng.once_in(2) { axis(rng) } else { whole_point(rng, 3) }, rng.whole(5) as f64);
            let mut start = v.map(|x| x * d);
            let beside = rng.below(3) as usize;
            if v[beside] == 0.0 {
                start[beside] = rng.whole(9) as f64;
            }
            (ray_of(start, whole_point(rng, 3)), plane_of(v, d))
        }
        _ => (ray_of(whole_point(rng, 9), whole_point(rng, 3)), plane_of(whole_point(rng, 3), rng.whole(5) as f64)),
    }
}

/// A weight at which a hit is decided.
fn weight(rng: &mut Rng) -> f64 {
    match rng.below(8) {
        0 => -rng.about(1e-10, 2),
        1 => rng.pick(&[0.0, -0.0, 1.0, 0.5, 0.25, -5e-11, 1.0 + 5e-11, -1e-9, 1e-10]),
        2 => rng.about(1.0, 2),
        3 => rng.between(-0.2, 1.2),
        _ => rng.between(0.0, 1.0),
    }
}

/// A ray and a triangle that it is aimed at.
pub fn ray_and_triangle(rng: &mut Rng) -> (Ray, [Point; 3]) {
    match rng.below(8) {
        0 => (ray(rng), three_points(rng)),
        // In a plane of two axes, where the weights come out as they go in.
        1..4 => {
            let size = rng.pick(&[1.0, 1.0, 2.0, 0.5, 1024.0, 1e-5]);
            let (alpha, mut beta) = (weight(rng), weight(rng));
            match rng.below(6) {
                0 => beta = 1.0 - alpha,
                1 => beta = 1.0 - alpha + rng.pick(&[5e-11, 1e-10, 9.9999999e-11, 1.1e-10, 1e-17, -1e-10]),
                _ => {}
            }
            let slope = rng.pick(&[0.0, 0.0, 1e-10, 2e-10, 1e-11, 1.0]);
            let slope = rng.about(slope, 1);
            let turn = Turn::numbered(rng.below(Turn::COUNT));
            let moved = |[x, y, z]: Point| {
                let rows = turn.rows();
                array::from_fn(|k| x * rows[0][k] as f64 + y * rows[1][k] as f64 + z * rows[2][k] as f64)
            };
            let start = [size * alpha, size * (beta + slope * alpha), rng.pick(&[1.0, 2.0, 0.0, -1.0])];
            let triangle = [[0.0; 3], [size, size * slope, 0.0], [0.0, size, 0.0]];
            (ray_of(moved(start), moved([0.0, 0.0, -1.0])), triangle.map(moved))
        }
        // At a corner, an edge or the inside of any triangle.
        4..6 => {
            let corners = three_points(rng);
            let onto = aimed(rng, corners);
            let toward = if rng.once_in(2) { unit(rng) } else { whole_point(rng, 3) };
            let back = if rng.once_in(2) { rng.whole(3) as f64 } else { rng.between(-1.0, 9.0) };
            (ray_of(along(onto, -back, toward), toward), corners)
        }
        // Two of the three differences vanish where the third is tiny.
        6 => {
            let tiny = rng.pick(&[1e-11, 9e-11, 1e-10, 2e-10, 1e-12]);
            let p1 = if rng.once_in(2) { [0.0, tiny, 0.0] } else { [tiny, 0.0, 0.0] };
            let p2 = if rng.once_in(2) { [1.0, 0.0, 0.0] } else { [0.5, 1.0, 0.0] };
            let start = [rng.pick(&[0.0, 0.25, 0.5, 1.0]), rng.pick(&[0.0, 1e-12, 5e-12, 0.25]), 1.0];
            (ray_of(start, [0.0, 0.0, signed(rng, 1.0, 0)]), [[0.0; 3], p1, p2])
        }
        _ => {
            let corners = array::from_fn(|_| ordinary_point(rng));
            let onto = aimed(rng, corners);
            let start = ordinary_point(rng);
            (ray_of(start, array::from_fn(|i| onto[i] - start[i])), corners)
        }
    }
}

/// A point of the triangle's plane: a corner, on an edge, or about the inside.
fn aimed(rng: &mut Rng, [a, b, c]: [Point; 3]) -> Point {
    match rng.below(4) {
        0 => rng.pick(&[a, b, c]),
        1 => mix(a, b, rng.pick(&[0.5, 0.25, 1.0])),
        2 => mix(b, c, 0.5),
        _ => {
            let (s, t) = (rng.between(-0.1, 1.1), rng.between(-0.1, 1.1));
            mix(mix(a, b, s), c, t)
        }
    }
}

// Projections.

pub fn projection(rng: &mut Rng) -> Projection {
    if rng.once_in(4) {
        return joined(&[&[value(rng)], &numbers::<6>(rng)]);
    }
    let window: [f64; 4] = array::from_fn(|_| match rng.below(4) {
        0 => rng.whole(4) as f64,
        _ => rng.between(-3.0, 3.0),
    });
    let near = rng.pick(&[0.1, 1.0, 0.0, 1e-3, 1e-7, 2.0]) * rng.between(0.5, 2.0);
    let far = near + rng.pick(&[1.0, 10.0, 1e3, 1e7, 1e-7, 0.0]) * rng.between(0.5, 2.0);
    joined(&[&[value(rng)], &window, &[near, far]])
}

/// A projection as cameras have it.
pub fn ordinary_projection(rng: &mut Rng) -> Projection {
    let (x, y) = (rng.between(0.1, 2.0), rng.between(0.1, 2.0));
    let near = rng.between(0.1, 2.0);
    [rng.below(2) as f64, -x, x * rng.between(0.9, 1.1), -y, y, near, near + rng.between(10.0, 1000.0)]
}

/// The matrix of a projection, and of none the identity.
pub fn projected(record: &Projection) -> Matrix {
    rust::projection(record).map_or(IDENTITY, |params| params.matrix().0)
}

/// A matrix that is a projection, or one but for what is tested.
pub fn projection_matrix(rng: &mut Rng) -> Matrix {
    let record = if rng.once_in(2) { ordinary_projection(rng) } else { projection(rng) };
    let mut m = projected(&record);
    match rng.below(8) {
        0 if rng.once_in(2) => {
            let side = rng.pick(&[1.0, -1.0]) * 1e-6 + 1e-12 * rng.between(-1.5, 1.5);
            far_window(side, rng.between(1.0, 2.0))
        }
        0..2 => m,
        2..4 => {
            // About a millionth off, in one entry.
            let i = rng.below(16) as usize;
            let scale = m[i].abs().max(1.0);
            let off = signed(rng, 1e-6, 4) * rng.pick(&[1.0, 1.0, 0.999, 1.001]);
            m[i] += off * scale;
            m
        }
        4 => {
            let at = rng.pick(&[-1.0 - 1e-6, -1.0 + 1e-6, 1e-6, -1e-6, -0.5, 0.0, -1.0, 1.0]);
            let at = if rng.once_in(2) { rng.about(at, 4) } else { at * rng.pick(&[0.999999, 1.0, 1.000001]) };
            with(m, &[(11, at)])
        }
        5 => with(m, &[(rng.pick(&[0, 5, 10, 14]), rng.pick(&[0.0, -0.0, 1.0, -1.0, 1e-300]))]),
        6 => with(m, &[(rng.below(16) as usize, odd(rng))]),
        _ => matrix(rng),
    }
}

/// A projection whose window is so far to the side that its width is read as
/// 1, where the matrix has 2 and `off` times 2 for the 2 over it. So the first
/// entry is `off` from the one built, and both are above 1.
pub fn far_window(off: f64, side: f64) -> Matrix {
    let first = 2.0 * (1.0 + off);
    let center = side * (1_u64 << 34) as f64;
    let entries = [(0, first), (8, center * first), (10, -1.5), (11, -1.0), (14, -2.5), (15, 0.0)];
    with(IDENTITY, &entries)
}
