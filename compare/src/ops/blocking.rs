//! Which plane alone hides a segment, and which planes a box is behind.

#[cfg(test)]
mod slips;

use super::verdict::{
    asked_boxes, mended, mended_boxes, odd_counts, segment_seen, struck_boxes, struck_volumes, timed_box, told_boxes,
};
use crate::call::Call;
use crate::exported::{call, of_archive};
use crate::inputs::{self, Boxed, CUBE, IDENTITY, Plane, Point, Range, Rng, Volume, box_of, with};
use crate::judge::{FEWEST_PLANES, IN_VIEW, MOST_PLANES, NO_PLACE, finite};
use crate::lent::{Ins, Lent, Pointer, Side};
use crate::op::Op;
use crate::rust::{boxed, count_by_length, held, plane, point};
use openusd::gf::{BBox3d, Screens};

pub fn all() -> Vec<Box<dyn Op>> {
    vec![of_segment().op(), of_box().op()]
}

/// Whether the Rust has the segment in view by the planes left without one.
fn seen_without(volume: &[f64], count: usize, place: usize, p0: &Point, p1: &Point) -> bool {
    let records = &volume[1..].as_chunks().0[..count];
    let mut left = [plane(&[0.0; 4]); MOST_PLANES];
    for (to, (_, record)) in left.iter_mut().zip(records.iter().enumerate().filter(|&(i, _)| i != place)) {
        *to = plane(record);
    }
    Screens { planes: &left[..count - 1] }.intersects_segment(point(p0), point(p1))
}

/// The first place, from 0 up, without whose plane a segment that is not in
/// view is.
fn blocking(volume: &[f64], count: usize, p0: &Point, p1: &Point) -> Result<u32, u32> {
    if segment_seen(volume, count, p0, p1) {
        return Err(IN_VIEW);
    }
    let place = (0..count).find(|&place| seen_without(volume, count, place, p0, p1));
    Ok(place.map_or(NO_PLACE, |place| place as u32))
}

/// A sight line over the cube, and a shed that hides it: docs/VERDICTS.md,
/// "Which screen?". Without the plane of y at most 10, as without the shed's,
/// some of it is in view.
const OVER: [Point; 2] = [[-2.0, 13.0, 5.0], [13.0, 4.0, 5.0]];
const SHED: Plane = [-1.0, -1.0, 0.0, -12.0];

/// A line that begins in the cube, and all of which is behind the shed.
const BEYOND: [Point; 2] = [[8.0, 6.0, 5.0], [12.0, 9.0, 5.0]];

/// A wall that has both lines behind it, and one far off.
const WALL: Plane = [0.0, 0.0, 1.0, 6.0];
const FAR_OFF: Plane = [-1.0, 0.0, 0.0, -20.0];

/// Planes that every point satisfies, and none does.
const IDLE: Plane = [0.0, 0.0, 0.0, -1.0];
const NEVER: Plane = [0.0, 0.0, 0.0, 1.0];

type Asked = (Volume, Point, Point);

fn cube_with(more: &[Plane]) -> Volume {
    Volume::with_more(CUBE, more)
}

fn across(at: &[i64]) -> Asked {
    let (planes, a, b) = inputs::across(at);
    (Volume::new(&planes, &[0.0; 24]), a, b)
}

/// Segments, each with its answer.
fn worked() -> Vec<(Asked, Result<u32, u32>)> {
    let over = |volume: Volume| (volume, OVER[0], OVER[1]);
    let beyond = |volume: Volume| (volume, BEYOND[0], BEYOND[1]);
    let cube = |a: Point, b: Point| (Volume::of(CUBE), a, b);
    let none = Ok(NO_PLACE);
    let mut all = vec![
        // The shed alone; twice; with a wall; in front of the six.
        (over(Volume::of(CUBE)), Err(IN_VIEW)),
        (over(cube_with(&[SHED])), Ok(3)),
        (over(cube_with(&[SHED, SHED])), Ok(3)),
        (over(cube_with(&[SHED, WALL])), none),
        (over(cube_with(&[WALL])), Ok(6)),
        (over(shed_in_front()), Ok(0)),
        (beyond(Volume::of(CUBE)), Err(IN_VIEW)),
        (beyond(cube_with(&[SHED])), Ok(6)),
        (beyond(cube_with(&[SHED, SHED])), none),
        (beyond(cube_with(&[SHED, WALL])), none),
        (beyond(shed_in_front()), Ok(0)),
        // Behind one of the six, so that five are left.
        (cube([-1.0, 5.0, 5.0], [-2.0, 6.0, 6.0]), Ok(0)),
        (cube([11.0, 5.0, 5.0], [12.0, 6.0, 6.0]), Ok(1)),
        (cube([5.0, -1.0, 5.0], [6.0, -2.0, 6.0]), Ok(2)),
        (cube([5.0, 11.0, 5.0], [6.0, 12.0, 6.0]), Ok(3)),
        (cube([5.0, 5.0, -1.0], [6.0, 6.0, -2.0]), Ok(4)),
        (cube([5.0, 5.0, 11.0], [6.0, 6.0, 12.0]), Ok(5)),
        // Cases 5, 6 and 7 of the marked verdicts, and beside a corner.
        (cube([-6.0, 5.0, 5.0], [5.0, -6.0, 5.0]), Ok(0)),
        (cube([5.0, -6.0, 5.0], [-6.0, 5.0, 5.0]), Ok(0)),
        (cube([-1.0, 0.0, 0.0], [-1.0, 10.0, 10.0]), Ok(0)),
        (cube([11.0, 5.0, 5.0], [11.0, 5.0, 5.0]), Ok(1)),
        (cube([16.0, 5.0, 5.0], [5.0, 16.0, 5.0]), Ok(1)),
        (cube([-3.0, 1.0, 2.0], [6.0, -2.0, -5.0]), Ok(0)),
        // Behind two of the six; behind one, and lost without it too; behind
        // one, and touching without it.
        (cube([11.0, 11.0, 5.0], [12.0, 12.0, 5.0]), none),
        (cube([-6.0, 5.0, 11.0], [5.0, -6.0, 11.0]), none),
        (cube([-5.0, 5.0, 11.0], [5.0, -5.0, 11.0]), Ok(5)),
        (cube([5.0, 5.0, 11.0], [50.0, 5.0, 11.0]), Ok(5)),
        // As many planes as there may be, those behind the six one further out.
        ((inputs::with_planes(CUBE, MOST_PLANES), [-1.0, 5.0, 5.0], [-1.0, 6.0, 6.0]), Ok(0)),
        ((inputs::with_planes(CUBE, MOST_PLANES), [-2.0, 5.0, 5.0], [-2.0, 6.0, 6.0]), none),
        // A crossing that is NaN is passed over: in view, and behind a wall.
        (cube([-1.2e308, 20.0, 5.0], [1.3e308, -1e6, 5.0]), Err(IN_VIEW)),
        ((cube_with(&[WALL]), [-1.2e308, 20.0, 5.0], [1.3e308, -1e6, 5.0]), Ok(6)),
        // The first end is in view but for a plane, though by rounding the
        // segment crosses another at -infinity.
        (rounded(&[IDLE; 5]), Err(IN_VIEW)),
        (rounded(&[IDLE, IDLE, NEVER, IDLE, IDLE]), Ok(3)),
        (back(rounded(&[IDLE, IDLE, NEVER, IDLE, IDLE])), Ok(3)),
        (rounded(&[IDLE, NEVER, IDLE, NEVER, IDLE]), none),
        // Out at 0.2 and in at 0.5, and in between a crossing that is NaN; back
        // in at 0.8 and out at 0.5, and one at infinity.
        (underflowing(), Ok(1)),
        (back(underflowing()), Ok(4)),
    ];
    // The shed at each place behind the six, of each count.
    for count in FEWEST_PLANES + 1..=MOST_PLANES {
        for place in FEWEST_PLANES..count {
            let mut more = vec![FAR_OFF; count - FEWEST_PLANES];
            more[place - FEWEST_PLANES] = SHED;
            all.push((beyond(cube_with(&more)), Ok(place as u32)));
        }
    }
    // Planes across the segment: in at the places above 0, out at those below.
    let lists: [(&[i64], Result<u32, u32>); 26] = [
        (&[5, -3, 0, 0, 0, 0], Ok(0)),
        (&[-3, 5, 0, 0, 0, 0], Ok(0)),
        (&[0, 0, 0, 0, -3, 5], Ok(4)),
        (&[0, 5, 5, -3, 0, 0], Ok(3)),
        (&[0, 5, -3, -3, 0, 0], Ok(1)),
        (&[5, 5, -3, -3, 0, 0], none),
        (&[0, 0, 0, 6, 4, -4], Ok(3)),
        (&[-4, 6, 4, 0, 0, 0], Ok(0)),
        (&[4, 6, -4, 0, 0, 0], Ok(1)),
        (&[4, 6, -4, -4, 0, 0], Ok(1)),
        (&[6, 4, 4, -4, -5, 0], Ok(0)),
        (&[6, 5, -4, -7, 0, 0], Ok(2)),
        (&[6, 5, -4, -6, 0, 0], Ok(2)),
        (&[6, 5, -4, -5, 0, 0], none),
        (&[6, 3, -4, -5, 0, 0], Ok(0)),
        (&[3, 6, -4, -7, 0, 0], Ok(1)),
        (&[-7, -4, 3, 6, 0, 0], Ok(1)),
        (&[1, 2, 3, 4, 5, 6, 7, -1, -2, -3, -4, -5, -6, -7], none),
        (&[1, 2, 3, 4, 5, 6, 7, -5, -6, -7, -7, -7, -7, -6], none),
        (&[1, 2, 3, 4, 5, 5, 7, -5, -6, -7, -7, -7, -7, -6], Ok(6)),
        (&[0, 8, 0, 0, 0, 0], Ok(1)),
        (&[8, 8, 0, 0, 0, 0], none),
        (&[8, 5, -3, 0, 0, 0], none),
        (&[5, -3, 0, 0, 0, 8], none),
        (&[8, 3, -5, 0, 0, 0], Ok(0)),
        (&[3, -5, 0, 0, 0, 0], Err(IN_VIEW)),
    ];
    all.extend(lists.map(|(at, answer)| (across(at), answer)));
    all
}

/// A segment along a plane whose normal is so short that a denominator is 0.
fn underflowing() -> Asked {
    let (short, tiny) = (2.0_f64.powi(-540), 2.0_f64.powi(-534));
    let six = with(CUBE, &[(9, short), (11, 5e-324)]);
    (Volume::of(six), [8.0, 0.6 * tiny, -5.0], [18.0, 0.4 * tiny, 5.0])
}

/// The same from the second end to the first.
fn back((volume, p0, p1): Asked) -> Asked {
    (volume, p1, p0)
}

/// The shed's plane, and the cube's behind it.
fn shed_in_front() -> Volume {
    Volume::new(&[&[SHED][..], CUBE[..24].as_chunks().0].concat(), &[0.0; 24])
}

/// Sums that are rounded differently for two ends: both are about 2^53 out
/// along two axes, and the first is in front of the slope, the second behind
/// it, while along it the way from one to the other comes out as 0.
fn rounded(others: &[Plane; 5]) -> Asked {
    let far = 2.0_f64.powi(53);
    let planes = [&[[1.0, 1.0, 1.0, 1.5]][..], others].concat();
    (Volume::new(&planes, &[0.0; 24]), [far, 1.5, -far], [1.0, far, 1.0 - far])
}

/// Every way in which four planes of six can lie across a segment, both ways.
fn systematic() -> Vec<Asked> {
    let at = [0, 8, 3, 4, 5, -3, -4, -5];
    let one = |i: usize| {
        let [a, b, c, d] = [0, 3, 6, 9].map(|shift| at[i >> shift & 7]);
        let asked = across(&[a, b, 0, c, 0, d]);
        [asked, back(asked)]
    };
    (0..8_usize.pow(4)).flat_map(one).collect()
}

/// A frustum of so many planes and a segment that is out of its view.
fn timed(rng: &mut Rng, count: usize) -> Asked {
    loop {
        let (six, a, b, ..) = inputs::asked(rng);
        let volume = inputs::with_planes(six, count);
        if !segment_seen(volume.numbers(), count, &a, &b) {
            return (volume, a, b);
        }
    }
}

/// The same with the most planes, of which the last alone hides the segment.
fn timed_screen(rng: &mut Rng) -> Asked {
    loop {
        let (six, a, b, ..) = inputs::asked(rng);
        let before = inputs::with_planes(six, MOST_PLANES - 1);
        if segment_seen(before.numbers(), MOST_PLANES - 1, &a, &b) {
            let planes = &before.numbers()[1..][..4 * (MOST_PLANES - 1)];
            let (x, y) = (inputs::dot([0.6, 0.8, 0.0], a), inputs::dot([0.6, 0.8, 0.0], b));
            let planes = [planes.as_chunks().0, &[[0.6, 0.8, 0.0, x.max(y) + 1.0]]].concat();
            return (Volume::new(&planes, &[0.0; 24]), a, b);
        }
    }
}

type Verdict = unsafe extern "C" fn(*const f64, usize, *const f64, usize, *const f64, usize, *mut u32) -> u32;

/// Our own verdict on the segment, as many times as there are planes.
fn verdicts() -> Option<Box<dyn Side>> {
    let verdict: Option<Verdict> = of_archive!(
        gf_intersects_segment:
            fn(_: *const f64, _: usize, _: *const f64, _: usize, _: *const f64, _: usize, _: *mut u32) -> u32
    );
    // What is lent is as long as it says, and is not lent twice.
    verdict.map(|f| -> Box<dyn Side> {
        Box::new(Pointer(f, |f: Verdict, &[volume, p0, p1, _]: &Ins, out: Lent| unsafe {
            let at = |lent: Lent| lent.at.cast_const();
            let once = |_| f(at(volume), volume.len, at(p0), p0.len, at(p1), p1.len, out.at.cast());
            (0..count_by_length(volume.slice())).map(once).fold(0, u32::max)
        }))
    })
}

fn of_segment() -> Call<Asked> {
    let hidden = ([-2.0, 5.0, 5.0], [-1.0, 6.0, 6.0]);
    let seen = ([-5.0, 5.0, 5.0], [15.0, 5.0, 5.0]);
    let lost = ([11.0, 11.0, 5.0], [12.0, 12.0, 5.0]);
    let counts = odd_counts().flat_map(|volume| [hidden, seen].map(|(a, b)| (volume, a, b)));
    let struck = struck_volumes().into_iter().flat_map(|volume| [hidden, seen, lost].map(|(a, b)| (volume, a, b)));
    let unmeasured = [15.0, 5.0, f64::NAN];
    let mut mended_segments = mended().map(|volume| (volume, seen.0, unmeasured)).to_vec();
    mended_segments.extend([seen, hidden].map(|(a, b)| (Volume::of(CUBE), a, b)));
    // Without tests.
    let untested = || {
        call!(gf_blocking_plane(volume: Volume, p0: 3, p1: 3) -> u32 {
            blocking(volume, count_by_length(volume), p0, p1)
        })
    };
    call!(gf_blocking_plane(volume: Volume, p0: 3, p1: 3) -> u32 {
        let count = held(volume)?;
        (finite(volume)?, finite(p0)?, finite(p1)?);
        blocking(volume, count, p0, p1)
    })
    .fixed(worked().into_iter().map(|(asked, _)| asked).chain(counts).collect())
    .mended(mended_segments)
    .missing(&struck.collect::<Vec<_>>())
    .tried(systematic())
    .drawn(|_, rng| inputs::volume_and_blocked(rng))
    .timed_by("frustums", |_, rng| timed(rng, FEWEST_PLANES), untested())
    .timed_by("the most planes", |_, rng| timed(rng, MOST_PLANES), untested())
    .timed_by("the most, the last hides", |_, rng| timed_screen(rng), untested())
    .timed_beside("frustums, 6 verdicts", |_, rng| timed(rng, FEWEST_PLANES), verdicts())
    .timed_beside("the most, 14 verdicts", |_, rng| timed(rng, MOST_PLANES), verdicts())
    .timed_beside("the last hides, 14 verdicts", |_, rng| timed_screen(rng), verdicts())
}

/// The planes that a box is wholly behind, a bit for each place: those by which
/// alone the Rust does not have it in view.
pub fn behind(volume: &[f64], count: usize, b: &BBox3d) -> u32 {
    let records = &volume[1..].as_chunks().0[..count];
    let sees = |record: &Plane| Screens { planes: &[plane(record)] }.intersects_bbox(b);
    records.iter().enumerate().map(|(i, record)| u32::from(!sees(record)) << i).sum()
}

/// Boxes beside the cube, with a shed and a wall, each with its answer.
fn worked_boxes() -> Vec<((Volume, Boxed), u32)> {
    let unplaced = |r: Range| box_of(r, IDENTITY, 0.0);
    let cube = |r: Range| (Volume::of(CUBE), unplaced(r));
    let most = inputs::with_planes(CUBE, MOST_PLANES);
    let mut all = vec![
        (cube([1.0, 1.0, 1.0, 2.0, 2.0, 2.0]), 0),
        // Touching, and behind each plane alone.
        (cube([10.0, 0.0, 0.0, 12.0, 1.0, 1.0]), 0),
        (cube([-2.0, 0.0, 0.0, -1.0, 1.0, 1.0]), 1 << 0),
        (cube([11.0, 0.0, 0.0, 12.0, 1.0, 1.0]), 1 << 1),
        (cube([0.0, -2.0, 0.0, 1.0, -1.0, 1.0]), 1 << 2),
        (cube([0.0, 11.0, 0.0, 1.0, 12.0, 1.0]), 1 << 3),
        (cube([0.0, 0.0, -2.0, 1.0, 1.0, -1.0]), 1 << 4),
        (cube([0.0, 0.0, 11.0, 1.0, 1.0, 12.0]), 1 << 5),
        // Behind three, at a corner; behind opposite ones, as none can be but
        // an empty range.
        (cube([11.0, 11.0, 11.0, 12.0, 12.0, 12.0]), 0b10_1010),
        (cube([1.0, 0.0, 0.0, 0.0, 1.0, 1.0]), 0b11_1111),
        ((most, unplaced([1.0, 0.0, 0.0, 0.0, 1.0, 1.0])), (1 << MOST_PLANES) - 1),
        ((cube_with(&[SHED]), unplaced([8.0, 6.0, 5.0, 9.0, 7.0, 6.0])), 1 << 6),
        ((cube_with(&[SHED, WALL]), unplaced([8.0, 6.0, 4.0, 9.0, 7.0, 5.0])), 0b1100_0000),
        ((shed_in_front(), unplaced([8.0, 6.0, 5.0, 9.0, 7.0, 6.0])), 1 << 0),
        // A plane that nothing satisfies is one that everything is behind.
        ((cube_with(&[NEVER, IDLE]), unplaced([1.0, 1.0, 1.0, 2.0, 2.0, 2.0])), 1 << 6),
    ];
    // The shed at each place behind the six, of each count.
    for count in FEWEST_PLANES + 1..=MOST_PLANES {
        for place in FEWEST_PLANES..count {
            let mut more = vec![FAR_OFF; count - FEWEST_PLANES];
            more[place - FEWEST_PLANES] = SHED;
            all.push(((cube_with(&more), unplaced([8.0, 6.0, 5.0, 9.0, 7.0, 6.0])), 1 << place));
        }
    }
    all
}

/// The same without their answers.
pub fn asked_to_explain() -> Vec<(Volume, Boxed)> {
    worked_boxes().into_iter().map(|(asked, _)| asked).collect()
}

fn of_box() -> Call<(Volume, Boxed)> {
    let fixed = asked_to_explain().into_iter().chain(asked_boxes());
    // Without tests.
    let untested = || {
        call!(gf_blocking_planes(volume: Volume, b: 23) -> u32 {
            Ok(behind(volume, count_by_length(volume), &boxed(b)?))
        })
    };
    call!(gf_blocking_planes(volume: Volume, b: 23) -> u32 {
        let count = held(volume)?;
        let placed = boxed(b)?;
        (finite(volume)?, finite(b)?);
        Ok(behind(volume, count, &placed))
    })
    .fixed(fixed.collect())
    .tried(super::exact_box::parted())
    .tried(told_boxes())
    .mended(mended_boxes())
    .missing(&struck_boxes())
    .drawn(|_, rng| inputs::volume_and_box(rng))
    .timed_by("frustums, rigid boxes", |_, rng| timed_box(rng, FEWEST_PLANES), untested())
    .timed_by("the most planes, rigid boxes", |_, rng| timed_box(rng, MOST_PLANES), untested())
}

#[cfg(test)]
mod tests {
    use super::*;

    #[test]
    fn the_worked_boxes() {
        for (i, ((volume, b), answer)) in worked_boxes().into_iter().enumerate() {
            let count = held(volume.numbers()).expect("a count");
            assert_eq!(behind(volume.numbers(), count, &boxed(&b).expect("a box")), answer, "{i}: {b:?}");
        }
    }

    /// docs/DIFFERENCES.md, "Exact geometry": the last touches its first plane in
    /// a face, and has its bit.
    #[test]
    fn the_boxes_that_are_told_of() {
        let bits = |(volume, b): (Volume, Boxed)| behind(volume.numbers(), 6, &boxed(&b).expect("a box"));
        assert_eq!(told_boxes().into_iter().map(bits).collect::<Vec<_>>(), [0b10, 0b10_1010, 0, 1]);
    }

    #[test]
    fn the_worked_segments() {
        for (i, ((volume, p0, p1), answer)) in worked().into_iter().enumerate() {
            let count = held(volume.numbers()).expect("a count");
            assert_eq!(blocking(volume.numbers(), count, &p0, &p1), answer, "{i}: {p0:?} to {p1:?}");
        }
    }

    /// What is drawn has enough of each: places of the six and behind them,
    /// none, and in view already.
    #[test]
    fn what_is_drawn() {
        let (mut six, mut behind, mut none, mut seen) = (0, 0, 0, 0);
        for case in 0..100_000 {
            let (volume, p0, p1) = inputs::volume_and_blocked(&mut Rng::at(4, case));
            let Ok(count) = held(volume.numbers()) else {
                continue;
            };
            match blocking(volume.numbers(), count, &p0, &p1) {
                Err(_) => seen += 1,
                Ok(NO_PLACE) => none += 1,
                Ok(0..6) => six += 1,
                Ok(_) => behind += 1,
            }
        }
        assert!([six, behind, none, seen].iter().all(|&n| n > 5_000), "{six} {behind} {none} {seen}");
    }
}
