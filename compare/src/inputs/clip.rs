//! Clip space: boxes and cameras of whole numbers within its limits,
//! and exact points that lie just inside, on or just outside a side.

use super::*;
use std::array;

/// The largest sizes of an entry of a box's and of a camera's matrix.
pub const BOX_ENTRY: i64 = 65_536;
pub const CAMERA_ENTRY: i64 = 4_096;

pub type WholeMatrix = [[i64; 4]; 4];

pub fn whole_matrix(m: &WholeMatrix) -> Matrix {
    array::from_fn(|i| m[i / 4][i % 4] as f64)
}

/// A box whose matrix is affine; it need be no placement.
#[derive(Clone, Copy, Debug)]
pub struct ClipBox {
    pub min: Whole,
    pub max: Whole,
    pub matrix: WholeMatrix,
    pub flag: f64,
}

impl ClipBox {
    pub fn record(&self) -> Boxed {
        box_of(joined(&[&floats(self.min), &floats(self.max)]), whole_matrix(&self.matrix), self.flag)
    }

    pub fn corner(&self, k: usize) -> ExactPoint {
        ExactPoint { numbers: array::from_fn(|i| if k >> i & 1 == 1 { self.max[i] } else { self.min[i] }), k: 1 }
    }
}

/// Three whole numbers over one, which is at least 1.
#[derive(Clone, Copy, Debug)]
pub struct ExactPoint {
    pub numbers: Whole,
    pub k: i64,
}

impl ExactPoint {
    /// The row of its numbers times each column, and k times the translation.
    pub fn through(numbers: [i128; 3], k: i64, m: &WholeMatrix) -> [i128; 4] {
        array::from_fn(|j| sum_at(numbers, k, &m.map(|row| row[j])))
    }

    /// Where the box's matrix places it, over the same k.
    pub fn placed(&self, b: &ClipBox) -> [i128; 3] {
        let [x, y, z, _] = ExactPoint::through(self.numbers.map(i128::from), self.k, &b.matrix);
        [x, y, z]
    }
}

// Draws.

/// A whole number of at most this size, mostly small or at the limit.
fn entry(rng: &mut Rng, most: i64) -> i64 {
    match rng.below(8) {
        0 => 0,
        1 => rng.pick(&[most, -most]),
        2 => rng.pick(&[1, -1]),
        3 => rng.whole(most.min(100)),
        4 => rng.whole(most),
        _ => rng.whole(most.min(3)),
    }
}

/// The upper three by three of a box's matrix: quarter turns and mirrors,
/// scales of either sign, singular ones, and any.
fn upper(rng: &mut Rng, most: i64) -> [Whole; 3] {
    let any = |rng: &mut Rng| -> Whole { array::from_fn(|_| entry(rng, most)) };
    match rng.below(8) {
        0 | 1 => Turn::numbered(rng.below(Turn::COUNT)).rows(),
        2 => array::from_fn(|i| array::from_fn(|j| if i == j { entry(rng, most) } else { 0 })),
        // Of rank two at most, and of rank one.
        3 => {
            let (a, b) = (any(rng), any(rng));
            let third = rng.pick(&[a, b, [0; 3], a.map(|x| -x)]);
            [a, b, third]
        }
        4 => {
            let (row, times) =
                (array::from_fn(|_| rng.whole(most.min(200))), [(); 3].map(|_| rng.whole(most.min(300))));
            times.map(|n| Whole::map(row, |x| n * x))
        }
        5 => array::from_fn(|_| array::from_fn(|_| rng.pick(&[most, -most]))),
        _ => array::from_fn(|_| any(rng)),
    }
}

/// A box; one range in three has no volume.
fn clip_box(rng: &mut Rng) -> ClipBox {
    let (far, most) = rng.pick(&[(4, 3), (50, 10), (COORDINATE, 3), (COORDINATE, BOX_ENTRY), (COORDINATE, BOX_ENTRY)]);
    let ends: [Whole; 2] =
        array::from_fn(|_| array::from_fn(|_| if rng.once_in(8) { entry(rng, far) } else { rng.whole(far) }));
    let flat = rng.once_in(3);
    let [min, max] = [i64::min, i64::max].map(|pick| -> Whole { array::from_fn(|i| pick(ends[0][i], ends[1][i])) });
    let max = array::from_fn(|i| if flat && !rng.once_in(3) { min[i] } else { max[i] });
    let [a, b, c] = upper(rng, most).map(|[x, y, z]| [x, y, z, 0]);
    let [x, y, z] = array::from_fn(|_| entry(rng, most));
    ClipBox { min, max, matrix: [a, b, c, [x, y, z, 1]], flag: rng.pick(&[0.0, 1.0, -0.0]) }
}

/// An exact point of a box's range: a corner, or along each axis a bound, next
/// to one, or between them.
fn point_of(rng: &mut Rng, b: &ClipBox) -> ExactPoint {
    let k = match rng.below(4) {
        0 => 1,
        1 => 1 + rng.below(4) as i64,
        2 => 1 + rng.below(1_000) as i64,
        _ => 1 + rng.below(1_000_000) as i64,
    };
    let kinds = if rng.once_in(4) { 2 } else { 6 };
    let numbers = array::from_fn(|i| {
        let (low, high) = (k * b.min[i], k * b.max[i]);
        match rng.below(kinds) {
            0 => low,
            1 => high,
            2 => (low + 1).min(high),
            3 => (high - 1).max(low),
            _ => low + rng.below((high - low) as u64 + 1) as i64,
        }
    });
    ExactPoint { numbers, k }
}

type Column = [i64; 4];

fn within(column: &Column) -> bool {
    column.iter().all(|x| x.abs() <= CAMERA_ENTRY)
}

/// The column of w, mostly such that w is above zero at the point; at the
/// limits as large as it can be.
fn last_column(rng: &mut Rng, p: [i128; 3], k: i64) -> Column {
    let column: Column = match rng.below(6) {
        0 => [0, 0, 0, 1 + rng.below(CAMERA_ENTRY as u64) as i64],
        1 => [0, 0, rng.pick(&[1, -1]), entry(rng, CAMERA_ENTRY)],
        2 | 3 => {
            array::from_fn(|i| if i < 3 && p[i] < 0 { -CAMERA_ENTRY } else { CAMERA_ENTRY } / rng.pick(&[1, 1, 1, 7]))
        }
        _ => array::from_fn(|_| entry(rng, CAMERA_ENTRY)),
    };
    if sum_at(p, k, &column) < 0 && !rng.once_in(8) { column.map(|x| -x) } else { column }
}

/// The sum of a column at a placed point over k.
fn sum_at(p: [i128; 3], k: i64, column: &Column) -> i128 {
    (0..3).map(|i| p[i] * i128::from(column[i])).sum::<i128>() + i128::from(k) * i128::from(column[3])
}

/// How far inside a side the point is, as a column: its sum at the point is
/// near zero, above or below it. The side passes through the range there.
fn depth_near(rng: &mut Rng, p: [i128; 3], k: i64, last: &Column) -> Column {
    let steep = if last.iter().any(|x| x.abs() == CAMERA_ENTRY) { 2 * CAMERA_ENTRY } else { 3 };
    let mut depth: Column = array::from_fn(|i| if i < 3 { entry(rng, steep) } else { 0 });
    let least = -sum_at(p, k, &depth).div_euclid(i128::from(k)) + i128::from(rng.pick(&[-1, -1, 0, 0, 0, 1, 1]));
    match i64::try_from(least) {
        Ok(least) if least.abs() <= 2 * CAMERA_ENTRY => depth[3] = least,
        // Along the side: its translation alone tells how far.
        _ => depth = [0, 0, 0, rng.pick(&[-1, 0, 0, 1, 1, 1, 2])],
    }
    depth
}

/// The column of x, y or z: in the middle, anywhere, or such that the point is
/// a little inside a side, on it or a little outside. Of four such sides it is
/// the one that the fewest corners are inside, mostly with the point.
fn other_column(rng: &mut Rng, b: &ClipBox, p: [i128; 3], k: i64, last: &Column) -> Column {
    let side = rng.pick(&[1, -1]);
    match rng.below(8) {
        0 => return [0; 4],
        1 => return array::from_fn(|_| entry(rng, CAMERA_ENTRY)),
        _ => {}
    }
    let corners: [[i128; 3]; 8] = array::from_fn(|k| b.corner(k).placed(b));
    let drawn = [(); 4].map(|_| depth_near(rng, p, k, last));
    let beside = |depth: &Column| -> Column { array::from_fn(|i| side * (last[i] - depth[i])) };
    let held = !rng.once_in(3);
    let inside = |depth: &Column| corners.iter().filter(|&&corner| sum_at(corner, 1, depth) > 0).count();
    let fewest = (drawn.iter().filter(|depth| within(&beside(depth))))
        .min_by_key(|depth| (held && sum_at(p, k, depth) <= 0, inside(depth)));
    fewest.map_or(last.map(|x| side * x), beside)
}

/// A block turned by 45 degrees beside an edge of the clip volume from −1 to
/// 1: it has a corner inside each side, and no point inside all.
pub const BESIDE_EDGE: ClipBox =
    ClipBox { min: [0; 3], max: [1; 3], matrix: [[3, -3, 0, 0], [1, 1, 0, 0], [0, 0, 1, 0], [0, 3, 0, 1]], flag: 0.0 };

pub const WHOLE_IDENTITY: WholeMatrix = [[1, 0, 0, 0], [0, 1, 0, 0], [0, 0, 1, 0], [0, 0, 0, 1]];

/// A box, a camera's matrix and an exact point of the box's range.
pub fn clip_case(case: u64, rng: &mut Rng) -> (ClipBox, WholeMatrix, ExactPoint) {
    if case == 0 {
        return (BESIDE_EDGE, WHOLE_IDENTITY, BESIDE_EDGE.corner(0));
    }
    let b = clip_box(rng);
    let point = point_of(rng, &b);
    let placed = point.placed(&b);
    let last = last_column(rng, placed, point.k);
    let others: [Column; 3] = array::from_fn(|_| other_column(rng, &b, placed, point.k, &last));
    let camera = array::from_fn(|i| [others[0][i], others[1][i], others[2][i], last[i]]);
    (b, camera, point)
}

/// A camera's whole matrix that has an inverse, and a grid point: just inside a
/// side of the clip volume, on it, just outside, or anywhere.
pub fn seen_case(rng: &mut Rng) -> (WholeMatrix, Whole) {
    loop {
        let at = if rng.once_in(2) { grid_point(rng) } else { array::from_fn(|_| rng.whole(50)) };
        let there = ClipBox { min: at, max: at, matrix: WHOLE_IDENTITY, flag: 0.0 };
        let p = at.map(i128::from);
        let last = last_column(rng, p, 1);
        let others: [Column; 3] = array::from_fn(|_| other_column(rng, &there, p, 1, &last));
        let camera = array::from_fn(|i| [others[0][i], others[1][i], others[2][i], last[i]]);
        if whole_determinant(&camera) != 0 {
            return (camera, at);
        }
    }
}

/// The determinant, by minors of two rows.
pub fn whole_determinant(m: &WholeMatrix) -> i128 {
    let minor = |row: usize, a: usize, b: usize| {
        let at = |i: usize, j: usize| i128::from(m[i][j]);
        at(row, a) * at(row + 1, b) - at(row, b) * at(row + 1, a)
    };
    minor(0, 0, 1) * minor(2, 2, 3) - minor(0, 0, 2) * minor(2, 1, 3)
        + minor(0, 0, 3) * minor(2, 1, 2)
        + minor(0, 1, 2) * minor(2, 0, 3)
        - minor(0, 1, 3) * minor(2, 0, 2)
        + minor(0, 2, 3) * minor(2, 0, 1)
}

#[cfg(test)]
mod tests {
    use super::*;

    fn within_limits(b: &ClipBox, camera: &WholeMatrix) -> bool {
        let sizes = |m: &WholeMatrix, most| m.as_flattened().iter().all(|x| x.abs() <= most);
        let ordered = (0..3).all(|i| b.min[i] <= b.max[i]);
        let affine = b.matrix.map(|row| row[3]) == [0, 0, 0, 1];
        on_grid(b.min)
            && on_grid(b.max)
            && ordered
            && affine
            && sizes(&b.matrix, BOX_ENTRY)
            && sizes(camera, CAMERA_ENTRY)
    }

    fn holds(b: &ClipBox, p: &ExactPoint) -> bool {
        p.k >= 1 && (0..3).all(|i| p.k * b.min[i] <= p.numbers[i] && p.numbers[i] <= p.k * b.max[i])
    }

    fn determinant(m: &WholeMatrix) -> i128 {
        let m = m.map(|row| row.map(i128::from));
        let minor = |a: usize, b: usize| m[1][a] * m[2][b] - m[1][b] * m[2][a];
        m[0][0] * minor(1, 2) - m[0][1] * minor(0, 2) + m[0][2] * minor(0, 1)
    }

    /// All within the limits, and of each kind enough: points just inside, on
    /// and just outside each side, at any size of w; singular and mirrored
    /// matrices; ranges of no volume; entries at their limits.
    #[test]
    fn points_beside_each_side() {
        let mut sides = [[0_u64; 3]; 6];
        let [mut singular, mut mirrored, mut flat, mut largest, mut far] = [0_u64; 5];
        for case in 0..200_000 {
            let (b, camera, p) = clip_case(case, &mut Rng::at(3, case));
            assert!(within_limits(&b, &camera) && holds(&b, &p), "{case}: {b:?} {camera:?} {p:?}");
            let clip = ExactPoint::through(p.placed(&b), p.k, &camera);
            for (side, seen) in sides.iter_mut().enumerate() {
                let depth = clip[3] - if side % 2 == 0 { clip[side / 2] } else { -clip[side / 2] };
                let k = i128::from(p.k);
                let kinds = [0 < depth && depth <= k, depth == 0, -k <= depth && depth < 0];
                (0..3).for_each(|i| seen[i] += u64::from(kinds[i]));
                far += u64::from(kinds[0] && clip[3] / k > 1 << 44);
            }
            let det = determinant(&b.matrix);
            singular += u64::from(det == 0);
            mirrored += u64::from(det < 0);
            flat += u64::from(b.min != b.max && (0..3).any(|i| b.min[i] == b.max[i]));
            let at_limit = |m: &WholeMatrix, most: i64| m.as_flattened().iter().any(|x| x.abs() == most);
            largest += u64::from(at_limit(&b.matrix, BOX_ENTRY) && at_limit(&camera, CAMERA_ENTRY));
        }
        assert!(sides.iter().flatten().all(|&n| n > 4_000), "{sides:?}");
        assert!(
            [singular, mirrored, flat, largest].iter().all(|&n| n > 20_000),
            "{singular} {mirrored} {flat} {largest}"
        );
        assert!(far > 1_000, "{far} just inside with w above 2^44");
    }
}
