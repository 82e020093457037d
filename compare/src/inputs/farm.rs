//! The farm grid: whole points, planes, turns and boxes within its
//! limits, and segments whose crossings all but coincide.

use super::*;
use std::array;

/// The largest sizes of a coordinate, a normal's entry and a distance.
pub const COORDINATE: i64 = 65_536;
pub const NORMAL: i64 = 128;
pub const DISTANCE: i64 = 1 << 24;

pub type Whole = [i64; 3];

pub fn whole_dot(a: Whole, b: Whole) -> i64 {
    a[0] * b[0] + a[1] * b[1] + a[2] * b[2]
}

pub fn floats(p: Whole) -> Point {
    p.map(|x| x as f64)
}

pub fn on_grid(p: Whole) -> bool {
    p.iter().all(|x| x.abs() <= COORDINATE)
}

#[derive(Clone, Copy, Debug)]
pub struct WholePlane {
    pub normal: Whole,
    pub distance: i64,
}

impl WholePlane {
    /// How far a point is on the plane's side, in lengths of the normal.
    pub fn reach(&self, p: Whole) -> i64 {
        whole_dot(self.normal, p) - self.distance
    }

    pub fn within_limits(&self) -> bool {
        self.normal.iter().all(|x| x.abs() <= NORMAL) && self.distance.abs() <= DISTANCE
    }
}

/// Paper 01's cube: x at least 0 and at most 10, then y and z alike.
pub const WHOLE_CUBE: [WholePlane; 6] = [
    WholePlane { normal: [1, 0, 0], distance: 0 },
    WholePlane { normal: [-1, 0, 0], distance: -10 },
    WholePlane { normal: [0, 1, 0], distance: 0 },
    WholePlane { normal: [0, -1, 0], distance: -10 },
    WholePlane { normal: [0, 0, 1], distance: 0 },
    WholePlane { normal: [0, 0, -1], distance: -10 },
];

pub(super) fn farm_planes(planes: &[WholePlane]) -> Vec<[f64; 4]> {
    planes.iter().map(|plane| plane_of(floats(plane.normal), plane.distance as f64)).collect()
}

/// A volume of these planes; its rays are not looked at.
pub fn farm_volume(planes: &[WholePlane]) -> Volume {
    Volume::new(&farm_planes(planes), &[0.0; 24])
}

pub fn farm_six(planes: &[WholePlane; 6]) -> Six {
    joined(&[farm_planes(planes).as_flattened(), &[0.0; 24]])
}

/// A quarter-turn placement.
#[derive(Clone, Copy, Debug)]
pub struct Turn {
    /// The column in which each row has its one entry, and that entry.
    column: [usize; 3],
    entry: Whole,
    pub translation: Whole,
}

impl Turn {
    pub const COUNT: u64 = 48;

    /// One of the turns without translation.
    pub fn numbered(i: u64) -> Turn {
        let columns = [[0, 1, 2], [1, 2, 0], [2, 0, 1], [0, 2, 1], [2, 1, 0], [1, 0, 2]];
        let entry = array::from_fn(|row| if i >> row & 1 == 0 { 1 } else { -1 });
        Turn { column: columns[(i / 8) as usize], entry, translation: [0; 3] }
    }

    pub fn rows(&self) -> [Whole; 3] {
        array::from_fn(|row| array::from_fn(|k| if k == self.column[row] { self.entry[row] } else { 0 }))
    }

    pub fn direction(&self, p: Whole) -> Whole {
        let mut turned = [0; 3];
        for row in 0..3 {
            turned[self.column[row]] = self.entry[row] * p[row];
        }
        turned
    }

    pub fn point(&self, p: Whole) -> Whole {
        let turned = self.direction(p);
        array::from_fn(|i| turned[i] + self.translation[i])
    }

    /// The point that is moved to `p`.
    pub fn back(&self, p: Whole) -> Whole {
        array::from_fn(|row| self.entry[row] * (p[self.column[row]] - self.translation[self.column[row]]))
    }

    pub fn plane(&self, plane: &WholePlane) -> WholePlane {
        let normal = self.direction(plane.normal);
        WholePlane { normal, distance: plane.distance + whole_dot(normal, self.translation) }
    }

    /// This placement with another after it.
    pub fn then(&self, next: &Turn) -> Turn {
        Turn {
            column: self.column.map(|k| next.column[k]),
            entry: array::from_fn(|row| self.entry[row] * next.entry[self.column[row]]),
            translation: next.point(self.translation),
        }
    }

    pub fn matrix(&self) -> Matrix {
        placement_of(self.rows().map(floats), floats(self.translation))
    }
}

#[derive(Clone, Copy, Debug)]
pub struct FarmBox {
    pub min: Whole,
    pub max: Whole,
    pub placement: Turn,
    pub flag: bool,
}

impl FarmBox {
    pub fn record(&self) -> Boxed {
        let range: Range = joined(&[&floats(self.min), &floats(self.max)]);
        box_of(range, self.placement.matrix(), self.flag.into())
    }

    /// The least and the greatest of the placed corners on each axis.
    pub fn placed(&self) -> [Whole; 2] {
        let (a, b) = (self.placement.point(self.min), self.placement.point(self.max));
        [array::from_fn(|i| a[i].min(b[i])), array::from_fn(|i| a[i].max(b[i]))]
    }

    pub fn within_limits(&self) -> bool {
        [self.min, self.max, self.placement.translation].into_iter().chain(self.placed()).all(on_grid)
    }
}

// Draws.

pub fn coordinate(rng: &mut Rng) -> i64 {
    let size = rng.pick(&[3, 10, 200, COORDINATE, COORDINATE]);
    match rng.below(16) {
        0 => rng.pick(&[COORDINATE, -COORDINATE]),
        _ => rng.whole(size),
    }
}

pub fn grid_point(rng: &mut Rng) -> Whole {
    array::from_fn(|_| coordinate(rng))
}

/// A normal of a segment plane.
pub(super) fn whole_normal(rng: &mut Rng) -> Whole {
    let size = rng.pick(&[1, 2, NORMAL, NORMAL]);
    match rng.below(8) {
        0 => array::from_fn(|_| rng.pick(&[NORMAL, -NORMAL])),
        1 => axis(rng).map(|x| x as i64),
        _ => array::from_fn(|_| rng.whole(size)),
    }
}

/// A plane which a point is `reach` beyond, if there is such a plane within
/// the limits.
pub(super) fn plane_by(rng: &mut Rng, p: Whole, reach: i64) -> WholePlane {
    for _ in 0..4 {
        let normal = whole_normal(rng);
        let plane = WholePlane { normal, distance: whole_dot(normal, p) - reach };
        if plane.within_limits() {
            return plane;
        }
    }
    // Of any point, since reach is below 2^23 in size.
    let normal = axis(rng).map(|x| x as i64);
    WholePlane { normal, distance: whole_dot(normal, p) - reach }
}

/// Planes and a point, mostly on or just inside all of them.
pub fn farm_point(rng: &mut Rng) -> ([WholePlane; 6], Whole) {
    let p = grid_point(rng);
    let planes = array::from_fn(|_| {
        let reach = match rng.below(24) {
            0 => -1,
            1 => -rng.whole(70_000).abs(),
            2..12 => 0,
            12..14 => 1,
            _ => rng.whole(1 << 22).abs(),
        };
        plane_by(rng, p, reach)
    });
    (planes, p)
}

/// These planes among others, up to the most that a volume may have: others
/// are of the same kind, the same plane again or mostly one further out, so
/// that those that matter stand at any place.
pub fn among_others(rng: &mut Rng, six: &[WholePlane; 6]) -> Vec<WholePlane> {
    let mut planes = six.to_vec();
    if rng.once_in(3) {
        return planes;
    }
    for _ in 0..rng.below((MOST_PLANES - FEWEST_PLANES) as u64 + 1) {
        let one = six[rng.below(6) as usize];
        let further = match rng.below(64) {
            0 => 1,
            1..16 => 0,
            16..40 => -1,
            _ => -rng.whole(1 << 20).abs(),
        };
        let other = WholePlane { distance: one.distance + further, ..one };
        let at = rng.below(planes.len() as u64 + 1) as usize;
        planes.insert(at, if other.within_limits() { other } else { one });
    }
    planes
}

/// A plane that every grid point satisfies.
pub(super) fn idle_plane(rng: &mut Rng) -> WholePlane {
    let normal = rng.pick(&[[0, 0, 0], [1, 0, 0], [0, -1, 0], [2, 3, -5]]);
    WholePlane { normal, distance: -COORDINATE * 10 }
}

/// Planes and a segment.
pub fn farm_segment(rng: &mut Rng) -> ([WholePlane; 6], Whole, Whole) {
    match rng.below(8) {
        // All small: crossings at the same place, ends on planes.
        0 => {
            let planes =
                array::from_fn(|_| WholePlane { normal: array::from_fn(|_| rng.whole(2)), distance: rng.whole(6) - 3 });
            (planes, array::from_fn(|_| rng.whole(6)), array::from_fn(|_| rng.whole(6)))
        }
        // Each plane crossed somewhere, or not at all.
        1 => {
            let (p0, p1) = (grid_point(rng), grid_point(rng));
            let planes = array::from_fn(|_| {
                let normal = whole_normal(rng);
                let (a, b) = (whole_dot(normal, p0), whole_dot(normal, p1));
                let t = if rng.once_in(2) { rng.between(0.3, 0.7) } else { rng.between(-0.5, 1.5) };
                let plane = WholePlane { normal, distance: a + ((b - a) as f64 * t) as i64 };
                if plane.within_limits() { plane } else { idle_plane(rng) }
            });
            (planes, p0, p1)
        }
        2 => {
            let (planes, p0) = farm_point(rng);
            (planes, p0, grid_point(rng))
        }
        _ => near_tie(rng),
    }
}

/// A segment that enters one plane at A/B and leaves another at c/d, where
/// A·d − c·B is as near to zero as it can be, or zero.
pub fn near_tie(rng: &mut Rng) -> ([WholePlane; 6], Whole, Whole) {
    let (p0, p1) = if rng.once_in(2) {
        // Nearly from corner to corner: denominators near 3·2^24.
        let corner: Whole = array::from_fn(|_| rng.pick(&[COORDINATE, -COORDINATE]));
        let inward = |rng: &mut Rng, x: i64| x - x.signum() * (rng.below(40) as i64);
        (array::from_fn(|i| inward(rng, -corner[i])), array::from_fn(|i| inward(rng, corner[i])))
    } else {
        (grid_point(rng), grid_point(rng))
    };
    let way: Whole = array::from_fn(|i| p1[i] - p0[i]);
    let mut planes = [(); 6].map(|_| idle_plane(rng));
    for pair in 0..1 + rng.below(2) as usize {
        for _ in 0..8 {
            let long = rng.once_in(2);
            let [enter, leave] = [1, -1].map(|sign| {
                let normal = if long {
                    way.map(|x| sign * x.signum() * (NORMAL - rng.below(4) as i64))
                } else {
                    whole_normal(rng)
                };
                let facing = whole_dot(normal, way);
                if facing * sign < 0 { normal.map(|x| -x) } else { normal }
            });
            let (b, d) = (whole_dot(enter, way), -whole_dot(leave, way));
            if b <= 0 || d <= 0 {
                continue;
            }
            let Some((a, c)) = adjacent(rng, b, d) else {
                continue;
            };
            let enter = WholePlane { normal: enter, distance: whole_dot(enter, p0) + a };
            let leave = WholePlane { normal: leave, distance: whole_dot(leave, p0) - c };
            if enter.within_limits() && leave.within_limits() {
                let (i, j) = (rng.below(3) as usize, rng.below(3) as usize);
                (planes[(2 * i + pair) % 6], planes[(2 * j + pair + 1) % 6]) = (enter, leave);
                break;
            }
        }
    }
    // What was entered is left where the ends change places.
    if rng.once_in(2) { (planes, p0, p1) } else { (planes, p1, p0) }
}

/// A segment through a grid point in which it touches the view, or just does
/// not: planes through that point that it comes in by, others that it goes out
/// by, some that it lies in, and one of them moved by one unit at most.
pub fn grazing(rng: &mut Rng) -> ([WholePlane; 6], Whole, Whole) {
    let p = grid_point(rng);
    let size = rng.pick(&[1, 3, 100, COORDINATE]);
    let way: Whole = array::from_fn(|_| rng.whole(size));
    let end = |rng: &mut Rng, sign: i64| -> Whole {
        let steps = rng.pick(&[0, 1, 1, 2, 7]);
        let end = array::from_fn(|i| p[i] + sign * steps * way[i]);
        if on_grid(end) { end } else { p }
    };
    let (p0, p1) = (end(rng, -1), end(rng, 1));
    let mut planes = [(); 6].map(|_| match rng.below(8) {
        0 => idle_plane(rng),
        _ => plane_by(rng, p, 0),
    });
    // An edge, as of the cube: one plane comes in where another goes out.
    for (at, sign) in [(rng.below(3) as usize, 1), (3 + rng.below(3) as usize, -1)] {
        for _ in 0..8 {
            let normal = whole_normal(rng);
            let normal = if whole_dot(normal, way) * sign < 0 { normal.map(|x| -x) } else { normal };
            let plane = WholePlane { normal, distance: whole_dot(normal, p) };
            if plane.within_limits() {
                planes[at] = plane;
                break;
            }
        }
    }
    let moved = &mut planes[rng.below(6) as usize];
    let distance = moved.distance + rng.pick(&[-1, 0, 0, 1]);
    moved.distance = distance.clamp(-DISTANCE, DISTANCE);
    (planes, p0, p1)
}

/// A from 1 to b and c from 0 up to d such that a/b and c/d are equal, or
/// neighbours among fractions of these denominators.
fn adjacent(rng: &mut Rng, b: i64, d: i64) -> Option<(i64, i64)> {
    let (g, inverse) = inverse_modulo(d, b);
    let (b_part, times) = (b / g, rng.below(g as u64) as i64);
    let steps = rng.pick(&[-1, 0, 0, 1]);
    let least = (i128::from(steps) * i128::from(inverse)).rem_euclid(i128::from(b_part)) as i64;
    let a = least + times * b_part;
    let a = if a == 0 { b } else { a };
    let c = (i128::from(a) * i128::from(d) - i128::from(steps * g)) / i128::from(b);
    (0 <= c && c < i128::from(d)).then_some((a, c as i64))
}

/// The greatest common divisor g of x and n, and y such that x·y is g modulo n.
fn inverse_modulo(x: i64, n: i64) -> (i64, i64) {
    let (mut r, mut next) = (n, x % n);
    let (mut y, mut next_y) = (0, 1);
    while next != 0 {
        let q = r / next;
        (r, next) = (next, r - q * next);
        (y, next_y) = (next_y, y - q * next_y);
    }
    (r, y)
}

/// A grid box.
pub fn farm_box(rng: &mut Rng) -> FarmBox {
    let (a, b) = (grid_point(rng), grid_point(rng));
    let flat = rng.once_in(4);
    let b = if flat { array::from_fn(|i| if rng.once_in(2) { a[i] } else { b[i] }) } else { b };
    let mut placement = Turn::numbered(rng.below(Turn::COUNT));
    for _ in 0..3 {
        placement.translation = grid_point(rng);
        let (p, q) = (placement.back(a), placement.back(b));
        if on_grid(p) && on_grid(q) {
            break;
        }
        placement.translation = [0; 3];
    }
    let (p, q) = (placement.back(a), placement.back(b));
    let (min, max) = (array::from_fn(|i| p[i].min(q[i])), array::from_fn(|i| p[i].max(q[i])));
    FarmBox { min, max, placement, flag: rng.once_in(2) }
}

/// The least and the greatest of the placed corners of boxes on each axis.
pub fn placed_together(boxes: &[FarmBox]) -> [Whole; 2] {
    let extreme = |of: usize, pick: fn(i64, i64) -> i64| -> Whole {
        array::from_fn(|i| boxes.iter().map(|b| b.placed()[of][i]).reduce(pick).expect("a box"))
    };
    [extreme(0, i64::min), extreme(1, i64::max)]
}

/// A range with grid corners about a point, or anywhere; one in eight is
/// empty.
fn farm_range(rng: &mut Rng, p: Whole) -> [Whole; 2] {
    if rng.once_in(4) {
        return farm_box(rng).placed();
    }
    let size = rng.pick(&[2, 4, 30, 5000, COORDINATE]);
    let mut near = || -> Whole { array::from_fn(|i| (p[i] + rng.whole(size)).clamp(-COORDINATE, COORDINATE)) };
    let (a, b) = (near(), near());
    let (mut low, mut high): (Whole, Whole) = (array::from_fn(|i| a[i].min(b[i])), array::from_fn(|i| a[i].max(b[i])));
    if rng.once_in(8) {
        let i = rng.below(3) as usize;
        (low[i], high[i]) = (high[i], low[i]);
    }
    [low, high]
}

/// A range turned about a point, or mirrored there, which is as near to it; the
/// range itself where that is off the grid.
fn as_near(rng: &mut Rng, range: [Whole; 2], p: Whole) -> [Whole; 2] {
    let turn = Turn::numbered(rng.below(Turn::COUNT));
    let moved = range.map(|corner| -> Whole {
        let turned = turn.direction(array::from_fn(|i| corner[i] - p[i]));
        array::from_fn(|i| p[i] + turned[i])
    });
    // Least and greatest change places along the axes that are mirrored.
    let mirrored = turn.direction([1; 3]).map(|x| x < 0);
    let [low, high]: [Whole; 2] =
        array::from_fn(|of| array::from_fn(|i| moved[if mirrored[i] { 1 - of } else { of }][i]));
    if on_grid(low) && on_grid(high) { [low, high] } else { range }
}

/// Ranges with grid corners, of which many are as near to a grid point as
/// others.
pub fn farm_report(rng: &mut Rng) -> (Vec<[Whole; 2]>, Whole) {
    let size = if rng.once_in(512) { 1 + rng.below(MOST_RANGES as u64) } else { 1 + rng.below(12) };
    let p = grid_point(rng);
    let mut ranges: Vec<[Whole; 2]> = vec![farm_range(rng, p)];
    while ranges.len() < size as usize {
        let before = ranges[rng.below(ranges.len() as u64) as usize];
        let next = if rng.once_in(2) { as_near(rng, before, p) } else { farm_range(rng, p) };
        ranges.push(next);
    }
    (ranges, p)
}

/// A whole number as a float; a zero has either sign.
pub fn float_of(rng: &mut Rng, x: i64) -> f64 {
    if x == 0 { zero(rng) } else { x as f64 }
}

/// Axis planes about a grid box; three in four times they share a point.
pub fn farm_box_view(rng: &mut Rng) -> ([WholePlane; 6], FarmBox) {
    let farm_box = farm_box(rng);
    (axis_planes(rng, farm_box.placed()), farm_box)
}

/// Axis planes about a group of grid boxes.
pub fn farm_group_view(rng: &mut Rng, most: u64) -> ([WholePlane; 6], Vec<FarmBox>) {
    let boxes: Vec<FarmBox> = (0..1 + rng.below(most)).map(|_| farm_box(rng)).collect();
    (axis_planes(rng, placed_together(&boxes)), boxes)
}

/// Axis planes about what lies from a least to a greatest corner.
fn axis_planes(rng: &mut Rng, [least, greatest]: [Whole; 2]) -> [WholePlane; 6] {
    let shared: Whole = array::from_fn(|i| match rng.below(8) {
        0..2 => least[i],
        2..4 => greatest[i],
        4 => least[i] - 1,
        5 => greatest[i] + 1,
        6 => rng.pick(&[least[i], greatest[i]]) + rng.whole(3),
        _ => coordinate(rng),
    });
    let sharing = !rng.once_in(4);
    array::from_fn(|_| {
        let normal = axis(rng).map(|x| x as i64);
        let slack = if rng.once_in(2) { 0 } else { rng.pick(&[1, 2, 1000, 200_000]) };
        let slack = if sharing || rng.once_in(2) { slack } else { -slack };
        WholePlane { normal, distance: whole_dot(normal, shared) - slack }
    })
}

/// A turn after which all this is within the limits still.
pub fn turn_within(rng: &mut Rng, number: u64, holds: impl Fn(&Turn) -> bool) -> Turn {
    let still = Turn::numbered(number % Turn::COUNT);
    for size in [COORDINATE, COORDINATE, 1000, 5] {
        let turn = Turn { translation: array::from_fn(|_| rng.whole(size)), ..still };
        if holds(&turn) {
            return turn;
        }
    }
    still
}

#[cfg(test)]
mod tests {
    use super::*;

    #[test]
    fn what_is_drawn_is_within_the_limits() {
        let mut near = 0;
        for case in 0..200_000 {
            let rng = &mut Rng::at(3, case);
            let (planes, p) = farm_point(rng);
            assert!(on_grid(p) && planes.iter().all(WholePlane::within_limits));
            let (planes, a, b) = farm_segment(rng);
            assert!(on_grid(a) && on_grid(b), "{case}: {planes:?} {a:?} {b:?}");
            assert!(planes.iter().all(WholePlane::within_limits), "{case}: {planes:?} {a:?} {b:?}");
            near += u64::from(planes.iter().any(|plane| (plane.reach(a) - plane.reach(b)).abs() > 49_000_000));
            let (planes, a, b) = grazing(rng);
            assert!(on_grid(a) && on_grid(b) && planes.iter().all(WholePlane::within_limits), "{case}");
            let (planes, farm_box) = farm_box_view(rng);
            assert!(farm_box.within_limits() && planes.iter().all(WholePlane::within_limits));
        }
        assert!(near > 10_000, "{near} denominators near 3·2^24");
    }

    #[test]
    fn turns_are_48_and_go_back() {
        let p = [3, 50, 700];
        let mut seen: Vec<Whole> = (0..Turn::COUNT).map(|i| Turn::numbered(i).point(p)).collect();
        seen.sort();
        seen.dedup();
        assert_eq!(seen.len(), 48);
        for i in 0..Turn::COUNT {
            let turn = Turn { translation: [1, -2, 3], ..Turn::numbered(i) };
            assert_eq!(turn.back(turn.point(p)), p);
            let next = Turn { translation: [5, 7, 11], ..Turn::numbered(47 - i) };
            assert_eq!(turn.then(&next).point(p), next.point(turn.point(p)));
        }
    }
}
