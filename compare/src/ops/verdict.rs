//! Verdicts on what is in a volume.

#[cfg(test)]
mod slips;

use crate::call::Call;
use crate::exported::{call, of_archive};
use crate::inputs::{self, Boxed, CUBE, IDENTITY, Matrix, Point, Range, Six, Volume, box_of, diagonal, with};
use crate::judge::{FEWEST_PLANES, MOST_PLANES, finite};
use crate::op::Op;
use crate::rust::{ask, boxed, boxed_without_inverse, count_by_length, held, matrix, planes, point, rays};
use openusd::gf;

pub fn all() -> Vec<Box<dyn Op>> {
    vec![of_point().op(), of_segment().op(), of_triangle().op(), of_box().op(), of_view_volume().op()]
}

const NAN: f64 = f64::NAN;
const FAR: f64 = f64::INFINITY;

/// The cube with every odd count, and with others than its own.
pub(super) fn odd_counts() -> impl Iterator<Item = Volume> {
    let six = inputs::COUNTS.into_iter().map(|count| Volume::of(CUBE).counted(count));
    let full = inputs::with_planes(CUBE, MOST_PLANES);
    let most_planes = MOST_PLANES as f64;
    let most = [6.0, most_planes - 1.0, most_planes, most_planes + 1.0, most_planes + 0.5, 32.0, NAN]
        .into_iter()
        .map(move |count| full.counted(count));
    // Fifty and 52 numbers behind a count of six, and a plane too many.
    let more = [7, 8, MOST_PLANES - 1, MOST_PLANES + 1].map(|planes| inputs::with_planes(CUBE, planes).counted(6.0));
    let few = [5].map(|planes| inputs::with_planes(CUBE, planes));
    let many = inputs::TOO_MANY.map(|planes| inputs::with_planes(CUBE, planes));
    let counted_as_most = inputs::TOO_MANY.map(|planes| inputs::with_planes(CUBE, planes).counted(most_planes));
    six.chain(most).chain(more).chain(few).chain(many).chain(counted_as_most)
}

const UNIT: Range = [0.0, 0.0, 0.0, 1.0, 1.0, 1.0];

/// Volumes of which each number is to be missing in turn: six planes, screens,
/// no count, another length.
pub(super) fn struck_volumes() -> [Volume; 5] {
    let [no_count, other_length, six] = mended();
    [six, inputs::with_planes(CUBE, 7), inputs::with_planes(CUBE, MOST_PLANES), no_count, other_length]
}

/// A volume with no count and another length than any; then with a count, and
/// then with its length.
pub(super) fn mended() -> [Volume; 3] {
    let long = inputs::with_planes(CUBE, 8);
    [long.counted(NAN), long.counted(7.0), Volume::of(CUBE)]
}

fn point_seen(volume: &[f64], count: usize, p: &Point) -> bool {
    ask(volume, count, |v| v.intersects_point(point(p)), |v| v.intersects_point(point(p)))
}

fn timed_point(rng: &mut inputs::Rng, count: usize) -> (Volume, Point) {
    let (six, p, ..) = inputs::asked(rng);
    (inputs::with_planes(six, count), p)
}

/// Finite numbers by which an operation overflows: here two products, whose sum
/// is then a NaN. Each has its verdict, which is not the exact one.
fn overflowing_point() -> (Six, Point, bool) {
    (with(CUBE, &[(0, 1e308), (1, -1e308)]), [10.0, 10.0, 5.0], false)
}

fn of_point() -> Call<(Volume, Point)> {
    let points: [Point; 19] = [
        // Two of the marked verdicts.
        [0.0, 0.0, 0.0],
        [11.0, 5.0, 5.0],
        // Outside each plane alone, and on it.
        [-1.0, 5.0, 5.0],
        [5.0, -1.0, 5.0],
        [5.0, 11.0, 5.0],
        [5.0, 5.0, -1.0],
        [5.0, 5.0, 11.0],
        [10.0, 10.0, 10.0],
        [10.000000000000002, 5.0, 5.0],
        [5.0, 5.0, 10.000000000000002],
        [-5e-324, 5.0, 5.0],
        [-0.0, 5.0, 5.0],
        [5.0, 5.0, 5.0],
        // Missing.
        [NAN, 5.0, 5.0],
        [5.0, 5.0, NAN],
        [FAR, 5.0, 5.0],
        [5.0, -FAR, 5.0],
        [1e308, 1e308, 1e308],
        [0.5, 0.5, 0.5],
    ];
    let short = [2, 10, 18].map(|i: usize| with(CUBE, &[(i % 4, 1e-13)]));
    let fixed = points.map(|p| (CUBE, p)).into_iter();
    let counts = odd_counts().map(|volume| (volume, [5.0; 3]));
    let screened = points.map(|p| (inputs::with_planes(CUBE, MOST_PLANES), p));
    let more =
        [(short[0], [0.5; 3]), ([0.0; 48], [1.0; 3]), ([NAN; 48], [1.0; 3]), (with(CUBE, &[(3, NAN)]), [5.0; 3])];
    let (overflows, far, _) = overflowing_point();
    let more = more.into_iter().chain([(overflows, far)]);
    let struck = struck_volumes().into_iter().flat_map(|volume| [[5.0; 3], [-1.0, 5.0, 5.0]].map(|p| (volume, p)));
    let six = call!(gf_intersects_point(volume: 49, p: 3) -> bool { Ok(planes(volume).intersects_point(point(p))) });
    let six_tested = call!(gf_intersects_point(volume: 49, p: 3) -> bool {
        (finite(volume)?, finite(p)?);
        Ok(planes(volume).intersects_point(point(p)))
    });
    let many =
        call!(gf_intersects_point(volume: Volume, p: 3) -> bool { Ok(point_seen(volume, count_by_length(volume), p)) });
    let many_tested = call!(gf_intersects_point(volume: Volume, p: 3) -> bool {
        (finite(volume)?, finite(p)?);
        Ok(point_seen(volume, count_by_length(volume), p))
    });
    let mut mended_points = mended().map(|volume| (volume, [5.0, 5.0, NAN])).to_vec();
    mended_points.push((Volume::of(CUBE), [5.0; 3]));
    call!(gf_intersects_point(volume: Volume, p: 3) -> bool {
        let count = held(volume)?;
        (finite(volume)?, finite(p)?);
        Ok(point_seen(volume, count, p))
    })
    .fixed(fixed.chain(more).map(|(six, p)| (Volume::of(six), p)).chain(counts).chain(screened).collect())
    .mended(mended_points)
    .missing(&struck.collect::<Vec<_>>())
    .drawn(|_, rng| inputs::volume_and_point(rng))
    .timed_by("frustums", |_, rng| timed_point(rng, 6), six)
    .timed_by("frustums, both test", |_, rng| timed_point(rng, 6), six_tested)
    .timed_by("frustums, the most planes", |_, rng| timed_point(rng, MOST_PLANES), many)
    .timed_by("the most planes, both test", |_, rng| timed_point(rng, MOST_PLANES), many_tested)
}

pub(super) fn segment_seen(volume: &[f64], count: usize, p0: &Point, p1: &Point) -> bool {
    let (p0, p1) = (point(p0), point(p1));
    ask(volume, count, |v| v.intersects_segment(p0, p1), |v| v.intersects_segment(p0, p1))
}

fn timed_segment(rng: &mut inputs::Rng, count: usize) -> (Volume, Point, Point) {
    let (six, a, b, ..) = inputs::asked(rng);
    (inputs::with_planes(six, count), a, b)
}

fn of_segment() -> Call<(Volume, Point, Point)> {
    let tiny = 2.0_f64.powi(-534);
    // Its distances differ by a number whose product with the way is 0.
    let underflow = with(CUBE, &[(0, 2.0_f64.powi(-540)), (3, 5e-324)]);
    let segments: [(Point, Point); 20] = [
        // The marked verdicts.
        ([-5.0, 5.0, 5.0], [15.0, 5.0, 5.0]),
        ([-5.0, 5.0, 5.0], [5.0, -5.0, 5.0]),
        ([-6.0, 5.0, 5.0], [5.0, -6.0, 5.0]),
        ([-1.0, 0.0, 0.0], [-1.0, 10.0, 10.0]),
        ([11.0, 5.0, 5.0], [11.0, 5.0, 5.0]),
        // Through an edge and a corner, and beside them.
        ([15.0, 5.0, 5.0], [5.0, 15.0, 5.0]),
        ([15.0, 5.0, 5.000000001], [5.0, 15.000000001, 5.0]),
        ([-1.0, -1.0, 1.0], [1.0, 1.0, -1.0]),
        ([-5.0, 5.0, 0.0], [5.0, -5.0, 0.0]),
        ([-5.0, -5.0, 5.0], [5.0, 5.0, -5.0]),
        ([-5.0, -5.0, 6.0], [5.0, 5.0, -7.0]),
        // An end inside, an end on a plane, both inside.
        ([5.0, 5.0, 5.0], [50.0, 5.0, 5.0]),
        ([50.0, 5.0, 5.0], [10.0, 5.0, 5.0]),
        ([1.0, 2.0, 3.0], [4.0, 5.0, 6.0]),
        ([-0.0, 20.0, 5.0], [-0.0, -20.0, 5.0]),
        // A crossing that is NaN is passed over: exactly, this is outside.
        ([-1.2e308, 20.0, 5.0], [1.3e308, -1e6, 5.0]),
        ([1.3e308, -1e6, 5.0], [-1.2e308, 20.0, 5.0]),
        // Missing, and only far.
        ([NAN, 5.0, 5.0], [5.0, 5.0, 50.0]),
        ([-FAR, 5.0, 5.0], [FAR, 5.0, 5.0]),
        ([-1e200, 5.0, 5.0], [1e200, 5.0, 5.0]),
    ];
    let between = with(CUBE, &[(9, 2.0_f64.powi(-540)), (11, 5e-324)]);
    let more = [
        (underflow, [0.4 * tiny, 5.0, 5.0], [0.6 * tiny, -1.0, 5.0]),
        (underflow, [0.6 * tiny, -1.0, 5.0], [0.4 * tiny, 5.0, 5.0]),
        // Left at 0.2 and entered at 0.5, and in between NaN.
        (between, [8.0, 0.6 * tiny, -5.0], [18.0, 0.4 * tiny, 5.0]),
        (between, [18.0, 0.4 * tiny, 5.0], [8.0, 0.6 * tiny, -5.0]),
    ];
    let ties = (0..16).map(|case| {
        let (planes, a, b) = inputs::near_tie(&mut inputs::Rng::at(2, case));
        (inputs::farm_six(&planes), inputs::floats(a), inputs::floats(b))
    });
    let six = segments.map(|(a, b)| (CUBE, a, b)).into_iter().chain(more).chain(ties);
    let counts = odd_counts().map(|volume| (volume, [-5.0, 5.0, 5.0], [15.0, 5.0, 5.0]));
    // A shed that hides what has x + y above 12, as the last of 7 planes to the most.
    let sheds = (7..=MOST_PLANES).map(|count| {
        let mut more = vec![[-1.0, 0.0, 0.0, -20.0]; count - 6];
        more[count - 7] = [-1.0, -1.0, 0.0, -12.0];
        (Volume::with_more(CUBE, &more), [-2.0, 13.0, 5.0], [13.0, 4.0, 5.0])
    });
    // An end in view, both ends outside, both behind one plane.
    let lines = [([5.0; 3], [50.0, 5.0, 5.0]), ([-5.0, 5.0, 5.0], [15.0, 5.0, 5.0]), ([-1.0; 3], [-1.0, 10.0, 10.0])];
    let struck = struck_volumes().into_iter().flat_map(|volume| lines.map(|(p0, p1)| (volume, p0, p1)));
    let mut mended_lines = mended().map(|volume| (volume, [-5.0, 5.0, 5.0], [5.0, 5.0, FAR])).to_vec();
    mended_lines.push((Volume::of(CUBE), [-5.0, 5.0, 5.0], [5.0; 3]));
    let by_six = call!(gf_intersects_segment(volume: 49, p0: 3, p1: 3) -> bool {
        Ok(planes(volume).intersects_segment(point(p0), point(p1)))
    });
    let by_six_tested = call!(gf_intersects_segment(volume: 49, p0: 3, p1: 3) -> bool {
        (finite(volume)?, finite(p0)?, finite(p1)?);
        Ok(planes(volume).intersects_segment(point(p0), point(p1)))
    });
    let by_many = call!(gf_intersects_segment(volume: Volume, p0: 3, p1: 3) -> bool {
        Ok(segment_seen(volume, count_by_length(volume), p0, p1))
    });
    let by_many_tested = call!(gf_intersects_segment(volume: Volume, p0: 3, p1: 3) -> bool {
        (finite(volume)?, finite(p0)?, finite(p1)?);
        Ok(segment_seen(volume, count_by_length(volume), p0, p1))
    });
    call!(gf_intersects_segment(volume: Volume, p0: 3, p1: 3) -> bool {
        let count = held(volume)?;
        (finite(volume)?, finite(p0)?, finite(p1)?);
        Ok(segment_seen(volume, count, p0, p1))
    })
    .fixed(six.map(|(six, a, b)| (Volume::of(six), a, b)).chain(counts).chain(sheds).collect())
    .mended(mended_lines)
    .missing(&struck.collect::<Vec<_>>())
    .drawn(|_, rng| inputs::volume_and_segment(rng))
    .timed_by("frustums", |_, rng| timed_segment(rng, 6), by_six)
    .timed_by("frustums, both test", |_, rng| timed_segment(rng, 6), by_six_tested)
    .timed_by("frustums, the most planes", |_, rng| timed_segment(rng, MOST_PLANES), by_many)
    .timed_by("the most planes, both test", |_, rng| timed_segment(rng, MOST_PLANES), by_many_tested)
}

fn triangle_seen(volume: &[f64], count: usize, p0: &Point, p1: &Point, p2: &Point) -> bool {
    planes(volume).intersects_triangle_by(point(p0), point(p1), point(p2), &rays(volume, count))
}

fn timed_triangle(rng: &mut inputs::Rng, count: usize) -> (Volume, Point, Point, Point) {
    let (six, a, b, c, _) = inputs::asked(rng);
    (inputs::with_planes(six, count), a, b, c)
}

fn of_triangle() -> Call<(Volume, Point, Point, Point)> {
    // The cube with all rays but some pointing away.
    let rays_at = |which: &[usize]| -> Six {
        let mut volume = CUBE;
        for (i, [x, y]) in [[0.0, 0.0], [0.0, 10.0], [10.0, 10.0], [10.0, 0.0]].into_iter().enumerate() {
            let z = if which.contains(&i) { 1.0 } else { -1.0 };
            volume[24 + 6 * i..][..6].copy_from_slice(&[x, y, 0.0, 0.0, 0.0, z]);
        }
        volume
    };
    // Around the cube, between planes 4 and 5, and through each of these.
    let around = |z: [f64; 3]| [[-30.0, -30.0, z[0]], [60.0, -30.0, z[1]], [-30.0, 60.0, z[2]]];
    let levels = [around([5.0; 3]), around([5.0, -9.0, 5.0]), around([5.0, 5.0, 19.0]), around([1.0, 9.0, 10.0])];
    let mut fixed: Vec<(Six, [Point; 3])> = vec![];
    for which in [&[0, 1, 2, 3][..], &[], &[0], &[1], &[2], &[3]] {
        fixed.extend(levels.map(|triangle| (rays_at(which), triangle)));
    }
    let all = rays_at(&[0, 1, 2, 3]);
    fixed.extend([
        // A corner inside; an edge through; all behind one plane; no area.
        (all, [[5.0, 5.0, 5.0], [50.0, 0.0, 0.0], [0.0, 50.0, 0.0]]),
        (all, [[-5.0, 5.0, 5.0], [15.0, 5.0, 5.0], [5.0, 5.0, 50.0]]),
        (all, [[-1.0, 0.0, 0.0], [-1.0, 9.0, 0.0], [-2.0, 0.0, 9.0]]),
        (all, [[-5.0, 5.0, 5.0], [5.0, -5.0, 5.0], [-5.0, -5.0, 5.0]]),
        (all, [[11.0, 5.0, 5.0]; 3]),
        (all, [[-30.0, -30.0, 5.0], [60.0, 60.0, 5.0], [15.0, 15.0, 5.0]]),
        (all, [[-30.0, -20.0, 5.0], [0.0, 10.1, 5.0], [-30.0, -20.0, 5.0]]),
        (all, [[NAN, 5.0, 5.0], [5.0, 50.0, 5.0], [50.0, 5.0, 5.0]]),
        (all, [[10.0, 0.0, 0.0], [20.0, 0.0, 0.0], [20.0, 10.0, 10.0]]),
        ([0.0; 48], [[1.0, 2.0, 3.0], [4.0, 5.0, 6.0], [7.0, 8.0, 10.0]]),
        // Behind a plane each.
        (all, [[-9.0, 5.0, 5.0], [19.0, -40.0, 5.0], [5.0, 50.0, 50.0]]),
    ]);
    fixed.extend(inexact_triangles().map(|(six, triangle, _)| (six, triangle)));
    // Screens that hide all of the cube, of which a triangle takes no notice;
    // its rays stand behind them.
    let hidden = [7, (FEWEST_PLANES + MOST_PLANES) / 2, MOST_PLANES].map(|count| {
        let more = vec![[0.0, 0.0, 1.0, 50.0]; count - 6];
        move |&(six, triangle): &(Six, [Point; 3])| (Volume::with_more(six, &more), triangle)
    });
    let screened: Vec<(Volume, [Point; 3])> = hidden.iter().flat_map(|hide| fixed.iter().map(hide)).collect();
    let counts = odd_counts().map(|volume| (volume, [[5.0; 3]; 3]));
    let fixed = fixed.into_iter().map(|(six, triangle)| (Volume::of(six), triangle)).chain(screened).chain(counts);
    // A corner in view; around it, so that rays are asked; all behind one plane.
    let asked =
        [[[5.0; 3], [50.0, 0.0, 0.0], [0.0, 50.0, 0.0]], around([5.0; 3]), [[-1.0; 3], [-1.0, 9.0, 0.0], [-2.0; 3]]];
    let struck = struck_volumes().into_iter().flat_map(|volume| asked.map(|[a, b, c]| (volume, a, b, c)));
    let mut mended_triangles = mended().map(|volume| (volume, [5.0; 3], [6.0; 3], [7.0, NAN, 7.0])).to_vec();
    mended_triangles.push((Volume::of(CUBE), [5.0; 3], [6.0; 3], [7.0; 3]));
    let by_six = call!(gf_intersects_triangle(volume: 49, p0: 3, p1: 3, p2: 3) -> bool {
        Ok(triangle_seen(volume, 6, p0, p1, p2))
    });
    let by_six_tested = call!(gf_intersects_triangle(volume: 49, p0: 3, p1: 3, p2: 3) -> bool {
        (finite(volume)?, finite(p0)?, finite(p1)?, finite(p2)?);
        Ok(triangle_seen(volume, 6, p0, p1, p2))
    });
    let by_many = call!(gf_intersects_triangle(volume: Volume, p0: 3, p1: 3, p2: 3) -> bool {
        Ok(triangle_seen(volume, count_by_length(volume), p0, p1, p2))
    });
    call!(gf_intersects_triangle(volume: Volume, p0: 3, p1: 3, p2: 3) -> bool {
        let count = held(volume)?;
        (finite(volume)?, finite(p0)?, finite(p1)?, finite(p2)?);
        Ok(triangle_seen(volume, count, p0, p1, p2))
    })
    .fixed(fixed.map(|(volume, [a, b, c])| (volume, a, b, c)).collect())
    .mended(mended_triangles)
    .missing(&struck.collect::<Vec<_>>())
    .drawn(|_, rng| inputs::volume_and_triangle(rng))
    .timed_by("frustums", |_, rng| timed_triangle(rng, 6), by_six)
    .timed_by("frustums, both test", |_, rng| timed_triangle(rng, 6), by_six_tested)
    .timed_by("frustums, the most planes", |_, rng| timed_triangle(rng, MOST_PLANES), by_many)
}

fn box_seen(volume: &[f64], count: usize, b: &Boxed, tests: bool) -> Result<bool, u32> {
    let record = b;
    let b = boxed(record)?;
    if tests {
        (finite(volume)?, finite(record)?);
    }
    Ok(ask(volume, count, |v| v.intersects_bbox(&b), |v| v.intersects_bbox(&b)))
}

pub(super) fn timed_box(rng: &mut inputs::Rng, count: usize) -> (Volume, Boxed) {
    let (six, [x, y, z], ..) = inputs::asked(rng);
    let placed = with(inputs::rigid_placement(rng), &[(12, x), (13, y), (14, z)]);
    (inputs::with_planes(six, count), box_of(inputs::ordinary_range(rng), placed, 0.0))
}

/// A matrix whose determinant is the difference of two products that overflow, a
/// NaN, so that it counts as one without inverse, with its verdict, which is
/// not the exact one.
fn overflowing_box() -> (Six, Boxed, bool) {
    let m = with(IDENTITY, &[(0, 2e200), (1, 1e200), (4, 1e200), (5, 1e200), (12, -50.0)]);
    (CUBE, box_of(UNIT, m, 0.0), true)
}

/// Boxes that are always asked of a view, each with its volume.
pub(super) fn asked_boxes() -> Vec<(Volume, Boxed)> {
    let turned = |x: f64| {
        let rows = [[0.0, 1.0, 0.0], [-1.0, 0.0, 0.0], [0.0, 0.0, 1.0]];
        inputs::placement_of(rows, [x, 0.0, 0.0])
    };
    let boxes: [Boxed; 25] = [
        // The marked verdicts.
        unplaced([10.0, 0.0, 0.0, 12.0, 1.0, 1.0]),
        unplaced([11.0, 0.0, 0.0, 12.0, 1.0, 1.0]),
        unplaced([1.0, 0.0, 0.0, 0.0, 1.0, 1.0]),
        box_of(UNIT, turned(0.0), 0.0),
        box_of(UNIT, turned(-1.0), 0.0),
        // Touching from outside, and just not, on each side.
        unplaced([-2.0, 0.0, 0.0, 0.0, 1.0, 1.0]),
        unplaced([-2.0, 0.0, 0.0, -1.0, 1.0, 1.0]),
        unplaced([0.0, -2.0, 0.0, 1.0, 0.0, 1.0]),
        unplaced([0.0, 10.0, 0.0, 1.0, 11.0, 1.0]),
        unplaced([0.0, 0.0, -2.0, 1.0, 1.0, 0.0]),
        unplaced([0.0, 0.0, 10.0, 1.0, 1.0, 11.0]),
        unplaced([0.0, 0.0, 10.5, 1.0, 1.0, 11.0]),
        unplaced([-50.0, -50.0, -50.0, 50.0, 50.0, 50.0]),
        // Without inverse the range is taken as it stands, and with none of
        // the translation.
        box_of(UNIT, with(diagonal([0.0, 1.0, 1.0, 1.0]), &[(12, 50.0)]), 0.0),
        box_of([20.0, 0.0, 0.0, 21.0, 1.0, 1.0], [0.0; 16], 1.0),
        box_of(UNIT, [NAN; 16], 1.0),
        box_of([20.0, 0.0, 0.0, 21.0, 1.0, 1.0], diagonal([1e-13, 1.0, 1.0, 1.0]), 0.0),
        box_of([20.0, 0.0, 0.0, 21.0, 1.0, 1.0], diagonal([1.1e-13, 1.0, 1.0, 1.0]), 0.0),
        // An infinite determinant is no reason to leave the matrix out.
        box_of([-20.0, -1.0, -1.0, -1.0, -1.0, -1.0], diagonal([1e200, 1e200, 1e200, 1.0]), 0.0),
        box_of([-5.0, -5.0, -5.0, 5.0, 5.0, 5.0], diagonal([1e200, 1e200, 1e200, 1.0]), 0.0),
        // Missing, a flag too.
        unplaced([NAN, 0.0, 0.0, 1.0, 1.0, 1.0]),
        unplaced([NAN; 6]),
        box_of(UNIT, IDENTITY, 0.5),
        box_of([1.0, 0.0, 0.0, 0.0, 1.0, 1.0], IDENTITY, NAN),
        box_of(UNIT, IDENTITY, -0.0),
    ];
    // Planes of which the normal under the box's matrix is short or long.
    let scaled = |by: f64| std::array::from_fn(|i| CUBE[i] * by);
    let placed = box_of([2.0, 0.0, 0.0, 3.0, 1.0, 1.0], diagonal([5.0, 0.5, 0.25, 1.0]), 1.0);
    let mut more: Vec<(Six, Boxed)> = [2.0, 1e-11, 1e-5, 1e-200].map(|by| (scaled(by), placed)).into();
    // No plane here looks at the least x, which is missing.
    let upward = with(CUBE, &[(4, 1.0), (7, 0.0)]);
    more.extend([
        (upward, unplaced([NAN, 0.0, 0.0, 1.0, 1.0, 1.0])),
        (upward, unplaced([0.0, 0.0, 0.0, NAN, 1.0, 1.0])),
    ]);
    more.extend(inexact_boxes().map(|(six, b, _)| (six, b)));
    let (six, b, _) = overflowing_box();
    more.push((six, b));
    // A count that is none comes before a flag that is none.
    let counts = odd_counts().flat_map(|volume| [0.0, 0.5].map(|flag| (volume, box_of(UNIT, IDENTITY, flag))));
    // A wall at x = 6 as the last of 7 planes to the most.
    let walls = (7..=MOST_PLANES).map(|count| {
        let mut more = vec![[-1.0, 0.0, 0.0, -20.0]; count - 6];
        more[count - 7] = [-1.0, 0.0, 0.0, -6.0];
        (Volume::with_more(CUBE, &more), unplaced([7.0, 0.0, 0.0, 9.0, 1.0, 1.0]))
    });
    let fixed = boxes.map(|b| (CUBE, b)).into_iter().chain(more).map(|(six, b)| (Volume::of(six), b));
    fixed.chain(counts).chain(walls).collect()
}

fn unplaced(r: Range) -> Boxed {
    box_of(r, IDENTITY, 0.0)
}

/// A volume and a box with every fault of a call, mended one after another.
pub(super) fn mended_boxes() -> Vec<(Volume, Boxed)> {
    let unmeasured = with(UNIT, &[(4, NAN)]);
    let mut all = mended().map(|volume| (volume, box_of(unmeasured, IDENTITY, 0.5))).to_vec();
    all.extend([unmeasured, UNIT].map(|range| (Volume::of(CUBE), unplaced(range))));
    all
}

/// Volumes and boxes of which any number may be missing.
pub(super) fn struck_boxes() -> Vec<(Volume, Boxed)> {
    // In view; of an empty range; without inverse; with no flag; outside.
    let asked = [
        unplaced(UNIT),
        unplaced([1.0, 0.0, 0.0, 0.0, 1.0, 1.0]),
        box_of(UNIT, [0.0; 16], 1.0),
        box_of(UNIT, IDENTITY, 0.5),
        unplaced([-2.0, 0.0, 0.0, -1.0, 1.0, 1.0]),
    ];
    struck_volumes().into_iter().flat_map(|volume| asked.map(|b| (volume, b))).collect()
}

fn of_box() -> Call<(Volume, Boxed)> {
    let scaled_boxes = |_, rng: &mut inputs::Rng| {
        let (six, _, _, _, b) = inputs::asked(rng);
        (Volume::of(six), b)
    };
    let six =
        || call!(gf_intersects_bbox(volume: 49, b: 23) -> bool { Ok(planes(volume).intersects_bbox(&boxed(b)?)) });
    let six_tested = call!(gf_intersects_bbox(volume: 49, b: 23) -> bool {
        (finite(volume)?, finite(b)?);
        Ok(planes(volume).intersects_bbox(&boxed(b)?))
    });
    let many = call!(gf_intersects_bbox(volume: Volume, b: 23) -> bool { box_seen(volume, count_by_length(volume), b, false) });
    let many_tested =
        call!(gf_intersects_bbox(volume: Volume, b: 23) -> bool { box_seen(volume, count_by_length(volume), b, true) });
    call!(gf_intersects_bbox(volume: Volume, b: 23) -> bool { box_seen(volume, held(volume)?, b, true) })
        .fixed(asked_boxes())
        .tried(super::exact_box::parted())
        .tried(told_boxes())
        .mended(mended_boxes())
        .missing(&struck_boxes())
        .drawn(|_, rng| inputs::volume_and_box(rng))
        .timed_by("frustums, scaled boxes", scaled_boxes, six())
        .timed_by("frustums, rigid boxes", |_, rng| timed_box(rng, 6), six())
        .timed_by("rigid boxes, both test", |_, rng| timed_box(rng, 6), six_tested)
        .timed_by("the most planes, rigid boxes", |_, rng| timed_box(rng, MOST_PLANES), many)
        .timed_by("the most planes, both test", |_, rng| timed_box(rng, MOST_PLANES), many_tested)
}

/// Boxes of docs/DIFFERENCES.md, "Exact geometry", each with its verdict,
/// which is the exact one of the fourth alone.
fn inexact_boxes() -> [(Six, Boxed, bool); 4] {
    let unplaced = |r: Range| box_of(r, IDENTITY, 0.0);
    // x from 6 to 4; an edge at the origin that points to -x.
    let crossed = with(CUBE, &[(3, 6.0), (7, -4.0)]);
    let mut edge = CUBE;
    edge[..16].copy_from_slice(
        [[1.0, 1.0, 0.0, 0.0], [1.0, -1.0, 0.0, 0.0], [-1.0, 0.0, 0.0, -10.0], [0.0, -1.0, 0.0, -10.0]].as_flattened(),
    );
    // x + y + z at most 3: one placed block, which touches it, by two records.
    let slope = with(CUBE, &[(4, -1.0), (5, -1.0), (6, -1.0), (7, -3.0)]);
    [
        (crossed, unplaced([0.0, 0.0, 0.0, 10.0, 10.0, 10.0]), true),
        (edge, unplaced([-3.0, -5.0, 0.0, -1.0, 5.0, 1.0]), true),
        (slope, unplaced([0.0, 0.0, 3.0, 1.0, 1.0, 4.0]), false),
        (slope, box_of(UNIT, with(IDENTITY, &[(14, 3.0)]), 0.0), true),
    ]
}

/// Further boxes of that table, each with its verdict, which is not the exact
/// one: without inverse, so that the range is taken as it stands; and one that
/// touches a plane in a face.
fn inexactly_placed() -> [(Six, Boxed, bool); 4] {
    let beside = [20.0, 0.0, 0.0, 21.0, 1.0, 1.0];
    let flat = diagonal([0.0, 1.0, 1.0, 1.0]);
    let far = [5e5, 5e5, 5e5, 6e5, 6e5, 6e5];
    let long = with(CUBE, &[(0, 49.0), (3, 343.0)]);
    [
        (CUBE, box_of(beside, flat, 0.0), false),
        (CUBE, box_of(far, diagonal([1e-5, 1e-5, 1e-5, 1.0]), 0.0), false),
        (CUBE, box_of(UNIT, with(flat, &[(12, 50.0)]), 0.0), true),
        (long, unplaced([6.0, 0.0, 0.0, 7.0, 1.0, 1.0]), false),
    ]
}

/// The same without their verdicts.
pub(super) fn told_boxes() -> Vec<(Volume, Boxed)> {
    inexactly_placed().map(|(six, b, _)| (Volume::of(six), b)).into()
}

/// Triangles of the same table, each with its verdict, which is not the exact
/// one.
fn inexact_triangles() -> [(Six, [Point; 3], bool); 3] {
    // x, y and z from 0 to 2, seen from above: near is z at most 2.
    let planes = [
        [1.0, 0.0, 0.0, 0.0],
        [-1.0, 0.0, 0.0, -2.0],
        [0.0, 1.0, 0.0, 0.0],
        [0.0, -1.0, 0.0, -2.0],
        [0.0, 0.0, -1.0, -2.0],
        [0.0, 0.0, 1.0, 0.0],
    ];
    let rays = [[0.0, 0.0], [0.0, 2.0], [2.0, 2.0], [2.0, 0.0]].map(|[x, y]| [x, y, 2.0, 0.0, 0.0, -1.0]);
    let mut small = CUBE;
    small[..24].copy_from_slice(planes.as_flattened());
    small[24..].copy_from_slice(rays.as_flattened());
    [
        (CUBE, [[-100.0, -100.0, 5.0], [100.0, -100.0, 5.0], [0.0, 200.0, 5.0]], false),
        (small, [[1.0, -1.0, -1.0], [1.0, 6.0, -1.0], [1.0, -1.0, 6.0]], false),
        (small, [[-1.0, 0.0, 0.0], [0.0, -1.0, 0.0], [0.0, 0.0, -1.0]], true),
    ]
}

/// A box of one point whose x in clip space is the sum of two products that
/// overflow, a NaN, with its verdict, which is not the exact one.
fn overflowing_clip() -> (Boxed, Matrix, bool) {
    let m = with(IDENTITY, &[(0, 1e308), (4, -1e308), (15, 100.0)]);
    (box_of([10.0, 10.0, 0.0, 10.0, 10.0, 0.0], IDENTITY, 0.0), m, false)
}

/// A range that touches the clip volume of the identity in a face, and is not in
/// view there.
fn touching_clip() -> Range {
    [1.0, 0.0, 0.0, 2.0, 0.5, 0.5]
}

/// The verdict of the Rust in clip space.
fn clip_seen(b: &Boxed, m: &Matrix) -> Result<bool, u32> {
    Ok(gf::Frustum::intersects_view_volume(&boxed_without_inverse(b)?, matrix(m)))
}

fn of_view_volume() -> Call<(Boxed, Matrix)> {
    let perspective: Matrix = gf::ProjectionParams::matrix(
        &crate::rust::projection(&[0.0, -1.0, 1.0, -1.0, 1.0, 1.0, 10.0]).expect("a kind"),
    )
    .0;
    let unplaced = |r: Range| box_of(r, IDENTITY, 0.0);
    let moved = |x: f64| box_of(UNIT, with(IDENTITY, &[(14, x)]), 0.0);
    let (far, overflows, _) = overflowing_clip();
    let fixed: Vec<(Boxed, Matrix)> = vec![
        (far, overflows),
        // Strict: touching a side is outside.
        (unplaced(UNIT), IDENTITY),
        (unplaced([1.0, 0.0, 0.0, 2.0, 1.0, 1.0]), IDENTITY),
        (unplaced([0.9999999999999999, 0.0, 0.0, 2.0, 1.0, 1.0]), IDENTITY),
        (unplaced([-2.0, 0.0, 0.0, -1.0, 1.0, 1.0]), IDENTITY),
        (unplaced([0.0, 1.0, 0.0, 1.0, 2.0, 1.0]), IDENTITY),
        (unplaced([0.0, -2.0, 0.0, 1.0, -1.0, 1.0]), IDENTITY),
        (unplaced([0.0, 0.0, 1.0, 1.0, 1.0, 2.0]), IDENTITY),
        (unplaced([0.0, 0.0, -2.0, 1.0, 1.0, -1.0]), IDENTITY),
        (unplaced([-5.0, -5.0, -5.0, 5.0, 5.0, 5.0]), IDENTITY),
        // Emptiness is not asked for.
        (unplaced([0.5, 0.5, 0.5, -0.5, -0.5, -0.5]), IDENTITY),
        (unplaced([2.0, 0.0, 0.0, -2.0, 1.0, 1.0]), IDENTITY),
        (unplaced(inputs::EMPTY), IDENTITY),
        // The matrix counts even without an inverse.
        (box_of(UNIT, diagonal([0.0, 1.0, 1.0, 1.0]), 0.0), IDENTITY),
        (box_of(UNIT, with(diagonal([0.0, 1.0, 1.0, 1.0]), &[(12, 5.0)]), 0.0), IDENTITY),
        (box_of(UNIT, [0.0; 16], 0.0), IDENTITY),
        (box_of(UNIT, [NAN; 16], 0.0), IDENTITY),
        (unplaced(UNIT), [NAN; 16]),
        (unplaced([NAN, 0.0, 0.0, 0.5, 0.5, 0.5]), IDENTITY),
        // Before, in and behind a camera.
        (moved(-5.0), perspective),
        (moved(5.0), perspective),
        (moved(-2.0), perspective),
        (moved(-1.0), perspective),
        (moved(-10.0), perspective),
        (moved(-11.0), perspective),
        (moved(-12.0), perspective),
        (box_of(UNIT, with(IDENTITY, &[(12, 5.0), (14, -6.0)]), 1.0), perspective),
        (box_of(UNIT, with(IDENTITY, &[(12, 6.0), (14, -6.0)]), 1.0), perspective),
        (unplaced([-0.5, -0.5, -0.5, 0.5, 0.5, 0.5]), diagonal([1.0, 1.0, 1.0, -1.0])),
        (unplaced([-0.5, -0.5, -0.5, 0.5, 0.5, 0.5]), diagonal([1.0, 1.0, 1.0, 0.0])),
        (box_of(UNIT, IDENTITY, 0.25), IDENTITY),
        (box_of(UNIT, IDENTITY, NAN), [NAN; 16]),
        (box_of(UNIT, IDENTITY, -0.0), IDENTITY),
    ];
    let no_matrix = with(IDENTITY, &[(15, NAN)]);
    let mended_boxes =
        vec![(box_of(UNIT, IDENTITY, 0.5), no_matrix), (unplaced(UNIT), no_matrix), (unplaced(UNIT), IDENTITY)];
    // In view; of an empty range; without inverse; with no flag; outside.
    let struck = [
        (unplaced(UNIT), IDENTITY),
        (unplaced(inputs::EMPTY), IDENTITY),
        (box_of(UNIT, [0.0; 16], 1.0), perspective),
        (box_of(UNIT, IDENTITY, 0.5), IDENTITY),
        (moved(5.0), perspective),
    ];
    let untested = call!(gf_intersects_view_volume(b: 23, m: 16) -> bool { clip_seen(b, m) });
    let timed = |_, rng: &mut inputs::Rng| (inputs::ordinary_box(rng), perspective_view(rng));
    call!(gf_intersects_view_volume(b: 23, m: 16) -> bool {
        let placed = boxed_without_inverse(b)?;
        (finite(b)?, finite(m)?);
        Ok(gf::Frustum::intersects_view_volume(&placed, matrix(m)))
    })
    .fixed(fixed)
    .tried(vec![(unplaced(touching_clip()), IDENTITY)])
    .mended(mended_boxes)
    .missing(&struck)
    .drawn(|_, rng| inputs::box_and_view(rng))
    .timed_by("cameras", timed, untested)
    .timed("cameras, both test", timed)
}

/// From the world into a camera's clip space.
fn perspective_view(rng: &mut inputs::Rng) -> Matrix {
    let record = with(inputs::ordinary_projection(rng), &[(0, 0.0)]);
    (matrix(&inputs::placement(rng)) * matrix(&inputs::projected(&record))).0
}

#[cfg(test)]
mod tests {
    use super::*;
    use crate::exact;
    use crate::inputs::{FarmBox, Rng, Turn, WholePlane, farm_volume};

    /// Both are compared by `run` too, being fixed inputs.
    #[test]
    fn verdicts_that_are_not_exact() {
        for (six, b, verdict) in inexact_boxes() {
            assert_eq!(box_seen(Volume::of(six).numbers(), 6, &b, true), Ok(verdict), "{b:?}");
        }
        for (six, [p0, p1, p2], verdict) in inexact_triangles() {
            assert_eq!(triangle_seen(Volume::of(six).numbers(), 6, &p0, &p1, &p2), verdict, "{p0:?}");
        }
        for (six, b, verdict) in inexactly_placed() {
            assert_eq!(box_seen(Volume::of(six).numbers(), 6, &b, true), Ok(verdict), "{b:?}");
        }
        let touching = |least: f64| clip_seen(&unplaced(with(touching_clip(), &[(0, least)])), &IDENTITY);
        assert_eq!([touching(1.0), touching(0.99)], [Ok(false), Ok(true)]);
        let (slope, ..) = inexact_boxes()[2];
        assert!(point_seen(Volume::of(slope).numbers(), 6, &[0.0, 0.0, 3.0]));
    }

    /// Finite records by which NaN comes about, docs/DIFFERENCES.md, "Exact
    /// geometry". They are fixed inputs too.
    #[test]
    fn verdicts_by_overflow() {
        let (six, p, verdict) = overflowing_point();
        assert_eq!(point_seen(Volume::of(six).numbers(), 6, &p), verdict);
        // The same plane, and the same x, by numbers that do not overflow.
        assert_eq!(point_seen(Volume::of(with(six, &[(0, 1.0), (1, -1.0)])).numbers(), 6, &p), !verdict);
        let plane = crate::rust::plane(six.first_chunk().expect("a plane"));
        assert!(plane.distance(point(&p)).is_nan());
        let (six, b, verdict) = overflowing_box();
        assert_eq!(box_seen(Volume::of(six).numbers(), 6, &b, true), Ok(verdict));
        assert!(boxed(&b).expect("a flag").is_degenerate());
        let (b, m, verdict) = overflowing_clip();
        assert_eq!(clip_seen(&b, &m), Ok(verdict));
        assert_eq!(clip_seen(&b, &with(m, &[(0, 1.0), (4, -1.0)])), Ok(!verdict));
    }

    /// docs/DIFFERENCES.md, "Missing numbers": what the Rust answers, in its
    /// order, where ours refuses with 13.
    #[test]
    fn what_the_rust_answers_to_missing_numbers() {
        let of_point = |six: Six, p: Point| point_seen(Volume::of(six).numbers(), 6, &p);
        assert!(!of_point(CUBE, [NAN, 5.0, 5.0]));
        assert!(of_point(with(CUBE, &[(47, NAN)]), [5.0; 3]));
        assert!(of_point(with(CUBE, &[(3, -FAR)]), [5.0; 3]));
        let of_segment = |p0: Point, p1: Point| segment_seen(Volume::of(CUBE).numbers(), 6, &p0, &p1);
        assert!(of_segment([5.0; 3], [NAN, 5.0, 5.0]));
        assert!(!of_segment([-FAR, 5.0, 5.0], [FAR, 5.0, 5.0]));
        let of_triangle = |six: Six, [a, b, c]: [Point; 3]| triangle_seen(Volume::of(six).numbers(), 6, &a, &b, &c);
        assert!(of_triangle(CUBE, [[5.0; 3], [NAN; 3], [NAN; 3]]));
        // A ray of the cube along z, from the origin, through a net around it.
        let ray = with(CUBE, &[(29, 1.0)]);
        let net = [[-30.0, -30.0, 5.0], [60.0, -30.0, 5.0], [-30.0, 60.0, 5.0]];
        assert!(of_triangle(ray, net));
        assert!(!of_triangle(with(ray, &[(24, NAN)]), net));
        let of_box = |b: Boxed| box_seen(Volume::of(CUBE).numbers(), 6, &b, false);
        assert_eq!(of_box(box_of(UNIT, [NAN; 16], 0.0)), Ok(true));
        assert_eq!(of_box(box_of([1.0, 0.0, 0.0, 0.0, 1.0, 1.0], [NAN; 16], 0.0)), Ok(false));
        assert_eq!(of_box(box_of([0.0, 0.0, 0.0, FAR, 1.0, 1.0], IDENTITY, 0.0)), Ok(false));
        assert_eq!(clip_seen(&box_of([NAN, 0.0, 0.0, 0.5, 0.5, 0.5], IDENTITY, 0.0), &IDENTITY), Ok(true));
        assert_eq!(clip_seen(&box_of(UNIT, IDENTITY, 0.0), &[NAN; 16]), Ok(false));
    }

    /// docs/VERDICTS.md, "A survey with missing numbers": least and greatest pass
    /// over a NaN, so that the combined box holds none.
    #[test]
    fn a_combined_box_can_lose_a_missing_number() {
        let [a, b] = [[NAN, 0.0, 0.0, 1.0, 1.0, 1.0], [2.0, 0.0, 0.0, 3.0, 1.0, 1.0]]
            .map(|r: Range| boxed(&box_of(r, IDENTITY, 0.0)).expect("a flag"));
        let kept = crate::rust::of_box(gf::BBox3d::combine(&a, &b));
        assert_eq!(kept, box_of([2.0, 0.0, 0.0, 3.0, 1.0, 1.0], IDENTITY, 0.0));
        assert_eq!(box_seen(Volume::of(CUBE).numbers(), 6, &kept, true), Ok(true));
    }

    /// How many of 100,000 grid boxes get a no from an oblique segment plane,
    /// where their furthest corner is this far along its normal from it. The
    /// other planes hold all of each box.
    fn refused_by_oblique_planes(size: i64, coordinate: i64, ahead: i64) -> usize {
        let wall = |axis: usize, side: i64| {
            let normal = std::array::from_fn(|i| if i == axis { side } else { 0 });
            WholePlane { normal, distance: -100_000 }
        };
        let drawn = |case: u64| {
            let rng = &mut Rng::at(7, case);
            let mut whole = |size: i64| -> [i64; 3] { std::array::from_fn(|_| rng.whole(size)) };
            let (normal, a, b) = (whole(size), whole(coordinate), whole(coordinate));
            let mut placement = Turn::numbered(case % Turn::COUNT);
            placement.translation = whole(coordinate);
            let (min, max) = (std::array::from_fn(|i| a[i].min(b[i])), std::array::from_fn(|i| a[i].max(b[i])));
            let given = FarmBox { min, max, placement, flag: false };
            let [from, to] = given.placed();
            let furthest = std::array::from_fn(|i| if normal[i] > 0 { to[i] } else { from[i] });
            let distance = WholePlane { normal, distance: 0 }.reach(furthest) - ahead;
            let oblique = normal.iter().filter(|&&x| x != 0).count() > 1 && distance.abs() <= 16_777_216;
            let planes = [(0, 1), (1, 1), (1, -1), (2, 1), (2, -1)].map(|(axis, side)| wall(axis, side));
            let planes = [&[WholePlane { normal, distance }][..], &planes].concat();
            assert_eq!(exact::point(&planes, furthest), ahead >= 0);
            oblique.then(|| (farm_volume(&planes), given.record()))
        };
        let mut all = (0..).filter_map(drawn).take(100_000);
        all.by_ref().filter(|(volume, b)| box_seen(volume.numbers(), 6, b, true) == Ok(false)).count()
    }

    /// docs/VERDICTS.md, "What is not promised".
    #[test]
    fn touching_an_oblique_plane() {
        for (size, coordinate) in [(3, 10), (3, 1000), (128, 1000), (128, 20_000)] {
            let refused = refused_by_oblique_planes(size, coordinate, 0);
            println!("normals to {size}, coordinates to {coordinate}: {refused} of 100,000 get no");
            assert!((18_000..27_000).contains(&refused), "{refused}");
            assert_eq!(refused_by_oblique_planes(size, coordinate, 1), 0);
            assert_eq!(refused_by_oblique_planes(size, coordinate, -1), 100_000);
        }
    }
}
