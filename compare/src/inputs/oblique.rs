//! Boxes under planes in any direction, on the farm grid: what touches the
//! view in one point, what just does not, and entries at their limits.

use super::*;
use std::array;

/// The planes of a view, and the least and the greatest corner of a box.
pub type Oblique = (Vec<WholePlane>, [Whole; 2]);

/// The dot products with `normal` that are `by` further in than `p`.
fn plane_at(normal: Whole, p: Whole, by: i64) -> WholePlane {
    WholePlane { normal, distance: whole_dot(normal, p) + by }
}

fn whole_cross(a: Whole, b: Whole) -> Whole {
    [a[1] * b[2] - a[2] * b[1], a[2] * b[0] - a[0] * b[2], a[0] * b[1] - a[1] * b[0]]
}

fn clamped(p: Whole) -> Whole {
    p.map(|x| x.clamp(-COORDINATE, COORDINATE))
}

/// The box of two opposite corners.
fn of_corners(a: Whole, b: Whole) -> [Whole; 2] {
    [array::from_fn(|i| a[i].min(b[i])), array::from_fn(|i| a[i].max(b[i]))]
}

/// A box of any size, about a point or anywhere; one in four is flat.
fn corners_near(rng: &mut Rng, p: Whole) -> [Whole; 2] {
    let size = rng.pick(&[1, 3, 10, 400, 5000, COORDINATE]);
    let mut near = || clamped(array::from_fn(|i| p[i] + rng.whole(size)));
    let (a, b) = (near(), near());
    let flat = rng.once_in(4);
    of_corners(a, array::from_fn(|i| if flat && rng.once_in(2) { a[i] } else { b[i] }))
}

fn corners_anywhere(rng: &mut Rng) -> [Whole; 2] {
    match rng.below(8) {
        0 => [[-COORDINATE; 3], [COORDINATE; 3]],
        1..4 => farm_box(rng).placed(),
        _ => {
            let p = grid_point(rng);
            corners_near(rng, p)
        }
    }
}

/// A grid point of a box: of a corner, an edge or a face, or inside.
fn within_box(rng: &mut Rng, [least, greatest]: [Whole; 2]) -> Whole {
    array::from_fn(|i| match rng.below(5) {
        0 | 1 => least[i],
        2 | 3 => greatest[i],
        _ => least[i] + rng.below((greatest[i] - least[i]) as u64 + 1) as i64,
    })
}

/// A direction in which no point of the box is further than `p`.
fn outward(rng: &mut Rng, [least, greatest]: [Whole; 2], p: Whole) -> Whole {
    let size = rng.pick(&[1, 3, NORMAL]);
    array::from_fn(|i| match (p[i] == least[i], p[i] == greatest[i]) {
        (true, true) => rng.whole(size),
        (true, false) => -rng.whole(size).abs(),
        (false, true) => rng.whole(size).abs(),
        (false, false) => 0,
    })
}

/// Planes whose normals add up to a direction in which no point of the box is
/// further than `p`, and which go through it: what they leave of the box lies on
/// all of them. One may be moved by a unit, inward so that nothing is left.
pub fn touching(rng: &mut Rng) -> (Oblique, i64) {
    let corners = corners_anywhere(rng);
    let p = within_box(rng, corners);
    loop {
        let sum = outward(rng, corners, p);
        let parts = 1 + rng.below(4) as usize;
        let size = rng.pick(&[1, 2, NORMAL / parts as i64]);
        let mut normals: Vec<Whole> = (1..parts).map(|_| array::from_fn(|_| rng.whole(size))).collect();
        normals.push(array::from_fn(|i| sum[i] - normals.iter().map(|normal| normal[i]).sum::<i64>()));
        let mut planes: Vec<WholePlane> = normals.into_iter().map(|normal| plane_at(normal, p, 0)).collect();
        let moved = rng.pick(&[-1, 0, 0, 0, 1]);
        planes[rng.below(parts as u64) as usize].distance += moved;
        if planes.iter().all(WholePlane::within_limits) {
            // Others that keep the point in view.
            for _ in 0..rng.below(3) {
                let reach = rng.pick(&[0, 0, 1, 5, 1 << 20]);
                planes.push(plane_by(rng, p, reach));
            }
            return ((planes, corners), moved);
        }
    }
}

/// Four planes about a point that is mostly no grid point: three through it,
/// and the fourth as near to it as it can be, on the one side or the other. Their
/// normals, with weights above zero, add up to nothing, so that what they leave
/// is that point, a body about as small, or nothing.
fn small_body(rng: &mut Rng) -> (Vec<WholePlane>, Whole) {
    let about = grid_point(rng);
    loop {
        let size = rng.pick(&[2, 9, NORMAL, NORMAL]);
        let mut normals: [Whole; 4] = array::from_fn(|_| array::from_fn(|_| rng.whole(size)));
        let without = |n: &[Whole; 4], i: usize| {
            let [a, b, c] = array::from_fn(|k| n[(i + 1 + k) % 4]);
            whole_dot(a, whole_cross(b, c)) * if i % 2 == 0 { 1 } else { -1 }
        };
        let weights: [i64; 4] = array::from_fn(|i| without(&normals, i));
        if weights.contains(&0) {
            continue;
        }
        for i in 0..4 {
            normals[i] = normals[i].map(|x| x * weights[i].signum());
        }
        let [a, b, c, d] = normals;
        let mut planes: Vec<WholePlane> =
            [a, b, c].into_iter().map(|normal| plane_at(normal, about, rng.whole(2 * size))).collect();
        // The fourth at the vertex of the three, by Cramer's rule, rounded
        // either way.
        let (bc, ca, ab) = (whole_cross(b, c), whole_cross(c, a), whole_cross(a, b));
        let determinant = i128::from(whole_dot(a, bc));
        let along: i128 = (0..3)
            .map(|i| {
                let number = planes[0].distance * bc[i] + planes[1].distance * ca[i] + planes[2].distance * ab[i];
                i128::from(number) * i128::from(d[i])
            })
            .sum();
        let floor = (along * determinant.signum()).div_euclid(determinant.abs()) as i64;
        planes.push(WholePlane { normal: d, distance: floor + rng.pick(&[0, 0, 1, -1]) });
        if planes.iter().all(WholePlane::within_limits) {
            return (planes, about);
        }
    }
}

/// A view of a few planes, and a box: before others stand among them.
fn few(rng: &mut Rng) -> Oblique {
    match rng.below(10) {
        0..3 => touching(rng).0,
        3..5 => {
            let (planes, about) = small_body(rng);
            (planes, corners_near(rng, about))
        }
        // All small.
        5 => {
            let planes = (0..4 + rng.below(4))
                .map(|_| WholePlane { normal: array::from_fn(|_| rng.whole(2)), distance: rng.whole(6) - 2 })
                .collect();
            let (a, b) = (array::from_fn(|_| rng.whole(4)), array::from_fn(|_| rng.whole(4)));
            (planes, of_corners(a, b))
        }
        // Entries and coordinates at their limits.
        6 => {
            let edge = |rng: &mut Rng, limit: i64| rng.pick(&[-1, 1]) * (limit - rng.below(2) as i64);
            let p: Whole = array::from_fn(|_| edge(rng, COORDINATE));
            let q: Whole = array::from_fn(|i| if rng.once_in(3) { p[i] } else { -p[i] });
            let planes = (0..3 + rng.below(4)).map(|_| {
                let normal: Whole = array::from_fn(|_| edge(rng, NORMAL));
                let through = within_box(rng, of_corners(p, q));
                let by = rng.pick(&[-1, 0, 0, 1, 1000]);
                let plane = plane_at(normal, through, by);
                WholePlane { distance: plane.distance.clamp(-DISTANCE, DISTANCE), ..plane }
            });
            (planes.collect(), of_corners(p, q))
        }
        // A camera's.
        7 => {
            let draw = rng.pick::<fn(&mut Rng) -> _>(&[orchard_block, small_farm_block, hedge_row]);
            let (planes, block): ([WholePlane; 6], FarmBox) = draw(rng);
            (planes.to_vec(), block.placed())
        }
        // Through the box or beside it.
        _ => {
            let corners = corners_anywhere(rng);
            let planes = (0..2 + rng.below(6)).map(|_| {
                let p = within_box(rng, corners);
                let reach = match rng.below(4) {
                    0 => 0,
                    1 => rng.whole(2),
                    _ => rng.whole(1 << 20),
                };
                plane_by(rng, p, reach)
            });
            (planes.collect(), corners)
        }
    }
}

/// A plane that says little: one of these again, further out, from its other
/// side, or with a normal of zeros.
fn further(rng: &mut Rng, planes: &[WholePlane]) -> WholePlane {
    let one = rng.pick(planes);
    let out = match rng.below(16) {
        0..4 => 0,
        4..8 => -1,
        _ => -rng.whole(1 << 20).abs(),
    };
    let other = match rng.below(32) {
        0..18 => WholePlane { distance: one.distance + out, ..one },
        // Its other side, at a distance or at none.
        18..22 => {
            let slack = rng.pick(&[0, 1, 1, 200, 1 << 20]);
            WholePlane { normal: one.normal.map(|x| -x), distance: -one.distance - slack }
        }
        22..28 => WholePlane { normal: [0; 3], distance: rng.pick(&[0, 0, -1, -DISTANCE]) },
        28 => WholePlane { normal: one.normal.map(|x| -x), distance: 1 - one.distance },
        29 => WholePlane { normal: [0; 3], distance: rng.pick(&[1, DISTANCE, 0]) },
        30 => WholePlane { distance: one.distance + 1, ..one },
        _ => idle_plane(rng),
    };
    if other.within_limits() { other } else { one }
}

/// A view of any permitted count of planes, and a box.
pub fn oblique(rng: &mut Rng) -> Oblique {
    let (few, corners) = few(rng);
    let least = few.len().max(FEWEST_PLANES);
    let count = if rng.once_in(3) { least } else { least + rng.below((MOST_PLANES - least) as u64 + 1) as usize };
    let mut planes = few.clone();
    // All idle, or what says little of the few.
    let idle = rng.once_in(4);
    while planes.len() < count {
        let other = if idle { idle_plane(rng) } else { further(rng, &few) };
        planes.insert(rng.below(planes.len() as u64 + 1) as usize, other);
    }
    (planes, corners)
}

/// A camera on a mast and a block of an orchard, in centimetres from the
/// middle of the farm: as of a season's portfolio, by quarter turns.
pub fn orchard_block(rng: &mut Rng) -> ([WholePlane; 6], FarmBox) {
    let side = rng.between(600.0, 1200.0);
    let size = [rng.between(10.0, 50.0), rng.between(10.0, 50.0), rng.between(2.0, 6.0)];
    block_on(rng, side, size)
}

/// The same on a farm of 100 to 200 m, where a block takes more of the view.
pub fn small_farm_block(rng: &mut Rng) -> ([WholePlane; 6], FarmBox) {
    let side = rng.between(100.0, 200.0);
    let size = [rng.between(10.0, 50.0), rng.between(10.0, 50.0), rng.between(2.0, 6.0)];
    block_on(rng, side, size)
}

/// A hedge row of 50 to 150 m on such a farm.
pub fn hedge_row(rng: &mut Rng) -> ([WholePlane; 6], FarmBox) {
    let side = rng.between(100.0, 200.0);
    let size = [rng.between(1.0, 3.0), rng.between(50.0, 150.0), rng.between(2.0, 6.0)];
    block_on(rng, side, size)
}

fn block_on(rng: &mut Rng, side: f64, size: Point) -> ([WholePlane; 6], FarmBox) {
    let camera = mast_camera(rng, side);
    let centimetres = |x: f64, limit: i64| ((x * 100.0).round() as i64).clamp(-limit, limit);
    let six = crate::rust::of_frustum(&camera);
    let planes = array::from_fn(|i| {
        let [x, y, z, distance] = *six[4 * i..].first_chunk().expect("six planes");
        let normal = [x, y, z].map(|x| (x * NORMAL as f64).round() as i64);
        // As far from the middle of the farm.
        let moved = distance - y * side / 2.0;
        WholePlane { normal, distance: centimetres(moved * NORMAL as f64, DISTANCE) }
    });
    let from = if rng.once_in(2) { [-0.5, -0.5, 0.0] } else { [0.0; 3] };
    let corner = |part: f64| array::from_fn(|i| centimetres((from[i] + part) * size[i], COORDINATE));
    // About the vertical.
    let quarters = (0..Turn::COUNT).map(Turn::numbered).filter(|turn| turn.rows()[2] == [0, 0, 1]);
    let mut placement = quarters.collect::<Vec<_>>()[rng.below(8) as usize];
    let [x, y] = somewhere(rng, side);
    let z = rng.between(-3.0, 3.0);
    placement.translation = [x, y - side / 2.0, z].map(|x| centimetres(x, COORDINATE - 8000));
    (planes, FarmBox { min: corner(0.0), max: corner(1.0), placement, flag: false })
}

/// An orchard's block by so many planes.
pub fn screened_block(rng: &mut Rng, count: usize) -> (Vec<WholePlane>, FarmBox) {
    let (six, block) = orchard_block(rng);
    (with_screens(rng, &six, count), block)
}

/// With screens behind the six, up to so many planes: each hides a part of the
/// farm.
pub fn with_screens(rng: &mut Rng, six: &[WholePlane; 6], count: usize) -> Vec<WholePlane> {
    let mut planes = six.to_vec();
    while planes.len() < count {
        let (sine, cosine) = rng.between(0.0, 360.0).to_radians().sin_cos();
        let normal = [sine, cosine, rng.between(-0.2, 0.2)].map(|x| (x * NORMAL as f64).round() as i64);
        // Some 100 to 600 m from the middle.
        let distance = -(rng.between(10_000.0, 60_000.0) * NORMAL as f64) as i64;
        planes.push(WholePlane { normal, distance: distance.clamp(-DISTANCE, DISTANCE) });
    }
    planes
}

/// The view of the most planes, and the box, on which our search has the most
/// steps of 4,800,000 that were tried: half of them drawn, half by changing an
/// entry or a few of the one before that had the most.
pub fn dearest() -> (Vec<WholePlane>, FarmBox) {
    let planes = DEAREST.map(|[x, y, z, distance]| WholePlane { normal: [x, y, z], distance });
    (planes.to_vec(), FarmBox { min: [-60_000; 3], max: [60_000; 3], placement: Turn::numbered(0), flag: false })
}

const DEAREST: [[i64; 4]; MOST_PLANES] = [
    [-39, 128, 6, 300_068],
    [-90, 58, 92, -2_848_573],
    [74, -80, -48, 1_643_513],
    [-61, 106, -21, -648_056],
    [105, 96, 90, 6_577_131],
    [-59, -128, 19, -5_126_341],
    [-72, 84, 44, -1_510_895],
    [128, -7, -127, 5_448_767],
    [106, -127, -9, 2_191_095],
    [-18, 86, 79, 940_346],
    [-121, 72, -118, -4_013_062],
    [-117, 85, 100, -3_447_892],
    [-67, 88, 2, -1_235_365],
    [-128, -73, -57, -7_133_699],
];

/// A box by whole numbers as it is lent, each slice of any length.
#[derive(Clone, Debug)]
pub struct WholeBox {
    pub view: Vec<i32>,
    pub corners: Vec<i32>,
    /// The room for a witness.
    pub room: usize,
}

/// How many numbers a witness has.
pub const WITNESS: usize = 4;

impl WholeBox {
    pub fn of(planes: &[WholePlane], [least, greatest]: [Whole; 2]) -> WholeBox {
        let WholeAsked { view, p0, p1 } = WholeAsked::of(planes, least, greatest);
        WholeBox { view, corners: [p0, p1].concat(), room: WITNESS }
    }

    /// With another number in front of the view.
    pub fn counted(mut self, count: i32) -> WholeBox {
        self.view[0] = count;
        self
    }

    /// With other lengths.
    pub fn cut(mut self, view: usize, corners: usize, room: usize) -> WholeBox {
        self.view.resize(view, 1);
        self.corners.resize(corners, 1);
        self.room = room;
        self
    }

    /// With the least and the greatest along an axis exchanged.
    pub fn turned_over(mut self, axis: usize) -> WholeBox {
        self.corners.swap(axis, 3 + axis);
        self
    }

    /// How many numbers have a limit: all beside the count.
    pub fn limited(&self) -> usize {
        self.view.len() - 1 + self.corners.len()
    }

    /// With a number at a place among these: its limit, or one beside or
    /// beyond it.
    pub fn extreme(mut self, place: usize, kind: usize) -> WholeBox {
        let planes = self.view.len() - 1;
        let (number, limit) = match place {
            _ if place >= planes => (&mut self.corners[place - planes], COORDINATE),
            _ if place % 4 == 3 => (&mut self.view[1 + place], DISTANCE),
            _ => (&mut self.view[1 + place], NORMAL),
        };
        *number = EXTREMES[kind](limit as i32);
        self
    }
}

/// What is lent: one in four times with a number at or past its limit, corners
/// exchanged, another count or other lengths, or several of these.
pub fn whole_box(rng: &mut Rng) -> WholeBox {
    let (planes, corners) = oblique(rng);
    let mut asked = WholeBox::of(&planes, corners);
    let faults = match rng.below(32) {
        0 => 2,
        1 => 3,
        2..8 => 1,
        _ => 0,
    };
    for _ in 0..faults {
        let (view, count) = (asked.view.len(), asked.view.first().copied().unwrap_or(0));
        let (corners, room) = (asked.corners.len(), asked.room);
        asked = match rng.below(12) {
            0..4 if view > 0 && asked.limited() > 0 => {
                let place = rng.below(asked.limited() as u64) as usize;
                asked.extreme(place, rng.below(EXTREMES.len() as u64) as usize)
            }
            4..6 if corners == 6 => asked.turned_over(rng.below(3) as usize),
            6 if view > 0 => asked.counted(rng.pick(&WHOLE_COUNTS)),
            7 if view > 0 => asked.counted(count.wrapping_add(rng.pick(&[-1, 1, 2, 1 << 8, 1 << 16, 1 << 30]))),
            8 => asked.cut(view, rng.pick(&[0, 1, 3, 5, 7, 8]), room),
            9 => asked.cut(view, corners, rng.pick(&[0, 1, 3, 5, 8])),
            _ => {
                let most = whole_length(MOST_PLANES);
                let any = rng.below(whole_length(PLANES_TRIED) as u64 + 30) as usize;
                // One number more or less, a plane, the four rays.
                let lengths = [view + 1, view.saturating_sub(1), view + 4, view.saturating_sub(4), view + 24];
                let lengths = [&lengths[..], &[24, 25, 26, 48, 49, most, most + 1, most + 4, any, any, 0]].concat();
                asked.cut(rng.pick(&lengths), corners, room)
            }
        };
    }
    asked
}

#[cfg(test)]
mod tests {
    use super::*;

    #[test]
    fn obliques_are_within_the_limits_and_of_every_count() {
        let mut counts = [0; MOST_PLANES + 1];
        for case in 0..100_000 {
            let (planes, corners) = oblique(&mut Rng::at(3, case));
            counts[planes.len()] += 1;
            assert!(planes.iter().all(WholePlane::within_limits), "{case}: {planes:?}");
            assert!(corners.iter().all(|&p| on_grid(p)) && (0..3).all(|i| corners[0][i] <= corners[1][i]), "{case}");
        }
        assert!(counts[FEWEST_PLANES..].iter().all(|&n| n > 2000), "{counts:?}");
    }
}
