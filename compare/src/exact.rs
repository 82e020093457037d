//! Exact verdicts on the farm grid, by whole numbers alone.

mod boxes;
mod vertices;

pub use boxes::*;
pub use vertices::*;

use crate::inputs::{ClipBox, ExactPoint, Whole, WholeMatrix, WholePlane};

/// Whether a point satisfies all planes.
pub fn point(planes: &[WholePlane], p: Whole) -> bool {
    planes.iter().all(|plane| plane.reach(p) >= 0)
}

/// A fraction whose denominator is above zero.
type Fraction = (i128, i128);

fn less((a, b): Fraction, (c, d): Fraction) -> bool {
    a * d < c * b
}

/// Whether some exact point of the closed segment satisfies all planes.
///
/// The point m/k of the way along satisfies a plane if reach(p0) and m/k
/// times the rise to reach(p1) are not below zero together: a least or a
/// greatest m/k for each plane.
pub fn segment(planes: &[WholePlane], p0: Whole, p1: Whole) -> bool {
    let (mut least, mut greatest): (Fraction, Fraction) = ((0, 1), (1, 1));
    for plane in planes {
        let reach = i128::from(plane.reach(p0));
        let rise = i128::from(plane.reach(p1)) - reach;
        if rise == 0 && reach < 0 {
            return false;
        }
        if rise > 0 && less(least, (-reach, rise)) {
            least = (-reach, rise);
        }
        if rise < 0 && less((reach, -rise), greatest) {
            greatest = (reach, -rise);
        }
    }
    !less(greatest, least)
}

/// The same by another way, without any fraction: Fourier's elimination of
/// m/k. What is asked of it is `reach + m/k times rise` at least 0, of each
/// plane, of m/k itself and of 1 less m/k. It can be met just where nothing that
/// does not rise asks for too much, and where every condition that rises can be
/// met together with every one that falls.
pub fn segment_by_pairs(planes: &[WholePlane], p0: Whole, p1: Whole) -> bool {
    let of_plane = |plane: &WholePlane| {
        let reach = i128::from(plane.reach(p0));
        (reach, i128::from(plane.reach(p1)) - reach)
    };
    let all: Vec<(i128, i128)> = planes.iter().map(of_plane).chain([(0, 1), (1, -1)]).collect();
    let (rising, others): (Vec<_>, Vec<_>) = all.into_iter().partition(|&(_, rise)| rise > 0);
    others.iter().all(|&(reach, rise)| match rise {
        0 => reach >= 0,
        // Added up with weights that take m/k out.
        _ => rising.iter().all(|&(its_reach, its_rise)| its_reach * -rise + reach * its_rise >= 0),
    })
}

/// The first place without whose plane some exact point of the closed segment
/// satisfies the others.
pub fn blocking(planes: &[WholePlane], p0: Whole, p1: Whole) -> Option<usize> {
    (0..planes.len()).find(|&place| {
        let mut left = planes.to_vec();
        left.remove(place);
        segment(&left, p0, p1)
    })
}

/// The least and the greatest coordinates that axis planes allow, where they
/// bound them.
fn allowed(planes: &[WholePlane]) -> [Whole; 2] {
    let (mut least, mut greatest) = ([i64::MIN; 3], [i64::MAX; 3]);
    for plane in planes {
        let axis = (0..3).find(|&i| plane.normal[i] != 0).expect("an axis plane");
        if plane.normal[axis] > 0 {
            least[axis] = least[axis].max(plane.distance);
        } else {
            greatest[axis] = greatest[axis].min(-plane.distance);
        }
    }
    [least, greatest]
}

/// Whether axis planes share an exact point. Bounds are whole, so a whole
/// point is shared if any is.
pub fn share_a_point(planes: &[WholePlane]) -> bool {
    let [least, greatest] = allowed(planes);
    (0..3).all(|i| least[i] <= greatest[i])
}

/// Whether a placed box, from its least to its greatest corner, and the view
/// of axis planes share an exact point.
pub fn placed_box(planes: &[WholePlane], [from, to]: [Whole; 2]) -> bool {
    let [least, greatest] = allowed(planes);
    (0..3).all(|i| least[i].max(from[i]) <= greatest[i].min(to[i]))
}

/// The square of the distance from a point to a range, from its least to its
/// greatest corner; nothing where the range is empty.
pub fn square_to(&[low, high]: &[Whole; 2], p: Whole) -> Option<i64> {
    let outside = |i: usize| (low[i] - p[i]).max(p[i] - high[i]).max(0);
    (0..3).all(|i| low[i] <= high[i]).then(|| (0..3).map(|i| outside(i) * outside(i)).sum())
}

/// The first place whose square is the least, if any range is not empty.
pub fn nearest(ranges: &[[Whole; 2]], p: Whole) -> Option<usize> {
    let squares: Vec<Option<i64>> = ranges.iter().map(|range| square_to(range, p)).collect();
    let least = squares.iter().flatten().min()?;
    squares.iter().position(|square| square.as_ref() == Some(least))
}

/// The places whose squares are at most `limit`, rising.
pub fn within(ranges: &[[Whole; 2]], p: Whole, limit: i64) -> Vec<usize> {
    (0..ranges.len()).filter(|&i| square_to(&ranges[i], p).is_some_and(|square| square <= limit)).collect()
}

/// The clip point of an exact point of a box's range, multiplied through by
/// the point's k: x, y, z and w.
pub fn clip_point(b: &ClipBox, camera: &WholeMatrix, p: &ExactPoint) -> [i128; 4] {
    ExactPoint::through(p.placed(b), p.k, camera)
}

/// Whether x, y and z are each strictly between −w and w.
pub fn in_clip_volume([x, y, z, w]: [i128; 4]) -> bool {
    [x, y, z].into_iter().all(|x| -w < x && x < w)
}

/// Whether along each axis some corner's clip point is above −w and some
/// corner's is below w.
pub fn each_side(b: &ClipBox, camera: &WholeMatrix) -> bool {
    let corners: [[i128; 4]; 8] = std::array::from_fn(|k| clip_point(b, camera, &b.corner(k)));
    (0..3).all(|i| corners.iter().any(|c| -c[3] < c[i]) && corners.iter().any(|c| c[i] < c[3]))
}

#[cfg(test)]
mod tests {
    use super::*;
    use crate::inputs::{
        self, BESIDE_EDGE, FarmBox, Rng, Turn, WHOLE_CUBE, WHOLE_IDENTITY, among_others, grazing, near_tie,
    };

    /// Both ways, on crossings that coincide or all but do.
    #[test]
    fn segments_by_pairs() {
        let (mut yes, mut ties) = (0, 0);
        for case in 0..300_000 {
            let rng = &mut Rng::at(5, case);
            let (six, a, b) = if case % 2 == 0 { near_tie(rng) } else { grazing(rng) };
            let planes = among_others(rng, &six);
            let verdict = segment(&planes, a, b);
            assert_eq!(segment_by_pairs(&planes, a, b), verdict, "{planes:?} {a:?} {b:?}");
            yes += u64::from(verdict);
            // What is one further in at every plane that is not idle.
            let strict: Vec<WholePlane> =
                planes.iter().map(|plane| WholePlane { distance: plane.distance + 1, ..*plane }).collect();
            ties += u64::from(verdict && !segment(&strict, a, b));
        }
        assert!(yes > 90_000 && yes < 210_000 && ties > 50_000, "{yes} yes, {ties} that only just are");
    }

    /// Paper 01's cube and marked verdicts, but for the tenth: an empty range
    /// is no grid box.
    #[test]
    fn the_marked_verdicts() {
        let cube = WHOLE_CUBE;
        let segment = |a, b| segment(&cube, a, b);
        let unplaced = |min, max| placed_box(&cube, [min, max]);
        let turned = |x| {
            let is_it = |turn: &Turn| turn.rows() == [[0, 1, 0], [-1, 0, 0], [0, 0, 1]];
            let mut placement = (0..Turn::COUNT).map(Turn::numbered).find(is_it).expect("a turn");
            placement.translation = [x, 0, 0];
            placed_box(&cube, FarmBox { min: [0; 3], max: [1; 3], placement, flag: false }.placed())
        };
        assert!(share_a_point(&cube));
        assert!(point(&cube, [0, 0, 0]));
        assert!(!point(&cube, [11, 5, 5]));
        assert!(segment([-5, 5, 5], [15, 5, 5]));
        assert!(segment([-5, 5, 5], [5, -5, 5]));
        assert!(!segment([-6, 5, 5], [5, -6, 5]));
        assert!(!segment([-1, 0, 0], [-1, 10, 10]));
        assert!(!segment([11, 5, 5], [11, 5, 5]));
        assert!(unplaced([10, 0, 0], [12, 1, 1]));
        assert!(!unplaced([11, 0, 0], [12, 1, 1]));
        assert!(turned(0));
        assert!(!turned(-1));
    }

    /// Corners inside each side and no common point: x + y is at least 3 in
    /// the block, and below 2 in the clip volume.
    #[test]
    fn a_block_beside_an_edge() {
        assert!(each_side(&BESIDE_EDGE, &WHOLE_IDENTITY));
        for at in 0..11_i64.pow(3) {
            let point = ExactPoint { numbers: [at % 11, at / 11 % 11, at / 121], k: 10 };
            let clip = clip_point(&BESIDE_EDGE, &WHOLE_IDENTITY, &point);
            assert!(clip[0] + clip[1] >= 30 && clip[3] == 10 && !in_clip_volume(clip));
        }
    }

    /// A test by seven corners loses a box of which a point is in the clip
    /// volume, whichever corner it leaves out; so does one that lets no corner
    /// pass that is inside by one unit alone.
    #[test]
    fn tests_that_lose_a_box() {
        let mut lost = [0_u64; 9];
        for case in 0..100_000 {
            let (b, camera, point) = inputs::clip_case(case, &mut Rng::at(5, case));
            if !in_clip_volume(clip_point(&b, &camera, &point)) {
                continue;
            }
            assert!(each_side(&b, &camera));
            let corners: [[i128; 4]; 8] = std::array::from_fn(|k| clip_point(&b, &camera, &b.corner(k)));
            for (slip, lost) in lost.iter_mut().enumerate() {
                let (used, least) = if slip < 8 { (!(1 << slip), 1) } else { (!0, 2) };
                let some = |i: usize, sign: i128| {
                    (0..8).any(|k| used >> k & 1 == 1 && corners[k][3] - sign * corners[k][i] >= least)
                };
                *lost += u64::from(!(0..3).all(|i| some(i, 1) && some(i, -1)));
            }
        }
        assert!(lost.iter().all(|&n| n > 100), "{lost:?}");
    }
}
