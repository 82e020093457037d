//! The whole-number engine: whether a segment is in view, in signed 32-bit
//! numbers.

#[cfg(test)]
mod slips;

use super::verdict::segment_seen;
use crate::desk::{Both, Desk, Laid, seen};
use crate::exact;
use crate::exported::of_archive;
use crate::inputs::{
    self, COORDINATE, DISTANCE, EXTREMES, NORMAL, PLANES_TRIED, Rng, TOO_MANY, WHOLE_COUNTS, WHOLE_CUBE, Whole,
    WholeAsked, WholePlane, farm_volume, floats, on_grid, whole_length,
};
use crate::judge::{FEWEST_PLANES, MOST_PLANES, NO_COUNT, OFF_GRID, WRONG_INPUT};
use crate::lent::{Ins, Lent, Pointer, Side};
use crate::op::{Op, Timing};

pub fn all() -> Vec<Box<dyn Op>> {
    vec![Box::new(of_archive())]
}

/// The planes and the ends of what is lent, if nothing refuses it.
fn accepted(view: &[i32], p0: &[i32], p1: &[i32]) -> Result<(Vec<WholePlane>, Whole, Whole), u32> {
    let end = |p: &[i32]| -> Result<Whole, u32> {
        let p: [i32; 3] = p.try_into().map_err(|_| WRONG_INPUT)?;
        Ok(p.map(i64::from))
    };
    let (p0, p1) = (end(p0)?, end(p1)?);
    if view.len() < whole_length(FEWEST_PLANES) {
        return Err(WRONG_INPUT);
    }
    let count = (FEWEST_PLANES..=MOST_PLANES).find(|&n| i64::from(view[0]) == n as i64).ok_or(NO_COUNT)?;
    if view.len() != whole_length(count) {
        return Err(WRONG_INPUT);
    }
    let of_numbers = |numbers: &[i32; 4]| {
        let [x, y, z, distance] = numbers.map(i64::from);
        WholePlane { normal: [x, y, z], distance }
    };
    let planes: Vec<WholePlane> = view[1..].as_chunks().0.iter().map(of_numbers).collect();
    let within = on_grid(p0) && on_grid(p1) && planes.iter().all(WholePlane::within_limits);
    if within { Ok((planes, p0, p1)) } else { Err(OFF_GRID) }
}

/// The judge: by exact whole numbers, no crossing of which is ever formed.
fn judge(view: &[i32], p0: &[i32], p1: &[i32], out: &mut u32) -> u32 {
    match accepted(view, p0, p1) {
        Ok((planes, p0, p1)) => {
            *out = exact::segment_by_pairs(&planes, p0, p1).into();
            0
        }
        Err(refusal) => refusal,
    }
}

/// What the Rust's floats say of an accepted record.
fn by_floats(planes: &[WholePlane], p0: Whole, p1: Whole) -> bool {
    segment_seen(farm_volume(planes).numbers(), planes.len(), &floats(p0), &floats(p1))
}

/// Whether a number is at most so large; the least has no negation.
fn is_within(x: i32, limit: i64) -> bool {
    i64::from(x.unsigned_abs()) <= limit
}

/// The engine as one would write it in Rust, to be timed against.
fn plain(view: &[i32], p0: &[i32], p1: &[i32], out: &mut u32) -> u32 {
    let (&[x0, y0, z0], &[x1, y1, z1]) = (p0, p1) else {
        return WRONG_INPUT;
    };
    if view.len() < whole_length(FEWEST_PLANES) {
        return WRONG_INPUT;
    }
    let count = view[0];
    if !(FEWEST_PLANES as i32..=MOST_PLANES as i32).contains(&count) {
        return NO_COUNT;
    }
    if view.len() != whole_length(count as usize) {
        return WRONG_INPUT;
    }
    let planes = view[1..].as_chunks::<4>().0;
    let normal_within = |plane: &[i32; 4]| plane[..3].iter().all(|&x| is_within(x, NORMAL));
    let ends_within = [x0, y0, z0, x1, y1, z1].into_iter().all(|x| is_within(x, COORDINATE));
    if !ends_within || !planes.iter().all(|plane| normal_within(plane) && is_within(plane[3], DISTANCE)) {
        return OFF_GRID;
    }
    *out = crosses(planes, [x0, y0, z0].map(i64::from), [x1, y1, z1].map(i64::from)).into();
    0
}

/// What planes leave of a segment, from one fraction to another.
fn crosses(planes: &[[i32; 4]], p0: Whole, p1: Whole) -> bool {
    let (mut start, mut end): ((i64, i64), (i64, i64)) = ((0, 1), (1, 1));
    for numbers in planes {
        let [x, y, z, distance] = numbers.map(i64::from);
        let reach = |p: Whole| x * p[0] + y * p[1] + z * p[2] - distance;
        let (d0, d1) = (reach(p0), reach(p1));
        match (d0 < 0, d1 < 0) {
            (true, true) => return false,
            (true, false) if start.0 * (d1 - d0) < -d0 * start.1 => start = (-d0, d1 - d0),
            (false, true) if d0 * end.1 < end.0 * (d0 - d1) => end = (d0, d0 - d1),
            _ => {}
        }
    }
    start.0 * end.1 <= end.0 * start.1
}

type Ours = unsafe extern "C" fn(*const i32, usize, *const i32, usize, *const i32, usize, *mut u32) -> u32;
type Rust = fn(&[i32], &[i32], &[i32], &mut u32) -> u32;
type OurFloats = unsafe extern "C" fn(*const f64, usize, *const f64, usize, *const f64, usize, *mut u32) -> u32;

// What a side is lent, in this order: the view and the two ends, as i32; then
// the verdict, as u32.

/// What is lent for an input, as the harness hands it on.
pub fn whole_lent(asked: &WholeAsked) -> Ins {
    [Lent::wholes(&asked.view), Lent::wholes(&asked.p0), Lent::wholes(&asked.p1), Lent::NONE]
}

fn rust_side(f: Rust) -> Box<dyn Side> {
    Box::new(Pointer(f, |f: Rust, &[view, p0, p1, _]: &Ins, out: Lent| unsafe {
        f(view.whole_slice(), p0.whole_slice(), p1.whole_slice(), out.word())
    }))
}

/// What ours is timed against.
struct Engine {
    plain: Box<dyn Side>,
    our_floats: Option<Box<dyn Side>>,
}

// What is lent is as long as it says, and is not lent twice.

fn of_archive() -> Both<Engine> {
    let ours: Option<Ours> = of_archive!(
        gf_whole_intersects_segment:
            fn(_: *const i32, _: usize, _: *const i32, _: usize, _: *const i32, _: usize, _: *mut u32) -> u32
    );
    by(ours.map(|f| -> Box<dyn Side> {
        Box::new(Pointer(f, |f: Ours, &[view, p0, p1, _]: &Ins, out: Lent| unsafe {
            let at = |lent: Lent| lent.at.cast_const().cast();
            f(at(view), view.len, at(p0), p0.len, at(p1), p1.len, out.at.cast())
        }))
    }))
}

fn by(ours: Option<Box<dyn Side>>) -> Both<Engine> {
    let floats: Option<OurFloats> = of_archive!(
        gf_intersects_segment:
            fn(_: *const f64, _: usize, _: *const f64, _: usize, _: *const f64, _: usize, _: *mut u32) -> u32
    );
    let our_floats = floats.map(|f| -> Box<dyn Side> {
        Box::new(Pointer(f, |f: OurFloats, &[volume, p0, p1, _]: &Ins, out: Lent| unsafe {
            let at = |lent: Lent| lent.at.cast_const();
            f(at(volume), volume.len, at(p0), p0.len, at(p1), p1.len, out.at.cast())
        }))
    });
    Both { of: Engine { plain: rust_side(plain), our_floats }, ours, judge: rust_side(judge), fixed: fixed() }
}

/// What the Rust's floats say, of what is accepted.
fn of_floats(asked: &WholeAsked) -> Option<bool> {
    let (planes, p0, p1) = accepted(&asked.view, &asked.p0, &asked.p1).ok()?;
    Some(by_floats(&planes, p0, p1))
}

/// A segment with its ends in either order.
fn both_ways(planes: &[WholePlane], p0: Whole, p1: Whole) -> [WholeAsked; 2] {
    [WholeAsked::of(planes, p0, p1), WholeAsked::of(planes, p1, p0)]
}

/// The cube with further planes behind it, a little further out.
pub(super) fn cube_of(count: usize) -> Vec<WholePlane> {
    let further = |i: usize| WholePlane { distance: WHOLE_CUBE[i % 6].distance - 1, ..WHOLE_CUBE[i % 6] };
    (0..count).map(|i| if i < 6 { WHOLE_CUBE[i] } else { further(i) }).collect()
}

/// Lines that graze the cube, or just do not, and others about it.
const ABOUT_CUBE: [(Whole, Whole); 18] = [
    // The marked verdicts.
    ([-5, 5, 5], [15, 5, 5]),
    ([-5, 5, 5], [5, -5, 5]),
    ([-6, 5, 5], [5, -6, 5]),
    ([-1, 0, 0], [-1, 10, 10]),
    ([11, 5, 5], [11, 5, 5]),
    // Just beside an edge, on one side and on the other.
    ([-5, 5, 5], [6, -6, 5]),
    ([-5, 6, 5], [6, -5, 5]),
    ([-6, 6, 5], [6, -5, 5]),
    // Through a corner, and beside it.
    ([-1, -1, 2], [1, 1, -2]),
    ([-5, 5, 0], [5, -5, 0]),
    ([-3, 1, 2], [6, -2, -4]),
    ([-3, 1, 2], [6, -2, -5]),
    // Along an edge and along a side; an end that touches from outside.
    ([0, 0, -5], [0, 0, 15]),
    ([0, -3, 5], [0, 13, 5]),
    ([-4, 5, 5], [0, 5, 5]),
    ([10, 10, 10], [11, 11, 11]),
    // An end in view, both ends, and a point that touches.
    ([5, 5, 5], [50, 5, 5]),
    ([10, 0, 10], [10, 0, 10]),
];

/// What goes wrong in such an engine.
fn fixed() -> Vec<WholeAsked> {
    let mut all: Vec<WholeAsked> = vec![];
    for (p0, p1) in ABOUT_CUBE {
        all.extend(both_ways(&WHOLE_CUBE, p0, p1));
    }
    let (p0, p1) = (ABOUT_CUBE[1].0, ABOUT_CUBE[1].1);
    all.extend(at_the_limits());
    // Lines that graze, and crossings that all but coincide.
    for case in 0..24 {
        for draw in [inputs::grazing, inputs::near_tie] {
            let (planes, p0, p1) = draw(&mut Rng::at(2, case));
            all.push(WholeAsked::of(&planes, p0, p1));
        }
    }
    // Every count: case 4 of the marked verdicts, then with a plane at the end
    // that just touches too, that is just past, that both ends are behind.
    for count in FEWEST_PLANES..=MOST_PLANES {
        let cube = cube_of(count);
        all.push(WholeAsked::of(&cube, p0, p1));
        for (normal, distance) in [([1, 1, 0], 0), ([1, 1, 0], 1), ([-1, 0, 0], -4), ([0, 0, 1], 6), ([0, 0, 0], 1)] {
            let mut planes = cube.clone();
            planes[count - 1] = WholePlane { normal, distance };
            all.push(WholeAsked::of(&planes, p0, p1));
        }
    }
    // Numbers at their limits and past them, at every place of a view of few
    // planes and of many.
    let idle = |count: usize| {
        WholeAsked::of(&vec![WholePlane { normal: [1, -2, 3], distance: -400_000 }; count], [1, 2, 3], [-40, 50, 60])
    };
    for count in [FEWEST_PLANES, FEWEST_PLANES + 1, MOST_PLANES] {
        for place in 0..idle(count).limited() {
            all.extend((0..EXTREMES.len()).map(|kind| idle(count).extreme(place, kind)));
        }
    }
    // Numbers that are no count, on views of several lengths.
    for count in WHOLE_COUNTS {
        for planes in [FEWEST_PLANES, FEWEST_PLANES + 1, MOST_PLANES].into_iter().chain(TOO_MANY) {
            all.push(WholeAsked::of(&cube_of(planes), p0, p1).counted(count));
        }
    }
    // Other lengths: below the least, beside it, with rays, with one plane
    // more or less than the count says.
    let six = || WholeAsked::of(&WHOLE_CUBE, p0, p1);
    let lengths = [0, 1, 2, 5, 21, 23, 24, 26, 27, 28, 29, 31, 33, 48, 49, 200].into_iter();
    let lengths = lengths.chain([MOST_PLANES, PLANES_TRIED].map(whole_length));
    all.extend(lengths.map(|view| six().cut(view, 3, 3)));
    all.extend([0, 1, 2, 4, 5, 6].map(|end| six().cut(25, end, 3)));
    all.extend([0, 1, 2, 4, 5, 6].map(|end| six().cut(25, 3, end)));
    for count in FEWEST_PLANES..=MOST_PLANES {
        let right = whole_length(count);
        let cube = || WholeAsked::of(&cube_of(count), p0, p1);
        all.extend(
            [right - 4, right - 1, right + 1, right + 2, right + 4, right + 24].map(|view| cube().cut(view, 3, 3)),
        );
    }
    // More than one fault, to tell their order.
    let far = || six().extreme(0, 5);
    all.push(far().counted(5));
    all.push(far().counted(7));
    all.push(far().cut(29, 3, 3));
    all.push(far().cut(25, 2, 3));
    all.push(six().counted(5).cut(24, 3, 3));
    all.push(six().counted(5).cut(29, 3, 3));
    all.push(six().counted(5).cut(25, 3, 4));
    all.push(six().counted(5).cut(25, 0, 0));
    all.push(far().counted(MOST_PLANES as i32 + 1).cut(24, 2, 2));
    all
}

/// The largest numbers that there are: distances of 41,943,040 and
/// denominators of 3·2^24, met exactly, missed by one, passed by one.
fn at_the_limits() -> Vec<WholeAsked> {
    let corner = |x: i64| [x * COORDINATE; 3];
    let mut all = vec![];
    for (of_in, of_out) in [(NORMAL, NORMAL), (NORMAL, NORMAL - 1), (NORMAL - 1, NORMAL)] {
        for distance in [DISTANCE, DISTANCE - 1, -DISTANCE, 1 - DISTANCE, 0, 1] {
            for further in [-1, 0, 1] {
                // So far out that every grid point satisfies them.
                let mut planes = WHOLE_CUBE.map(|plane| WholePlane { distance: -DISTANCE, ..plane });
                planes[0] = WholePlane { normal: [of_in; 3], distance };
                let out = -distance + further;
                planes[5] = WholePlane { normal: [-of_out; 3], distance: out.clamp(-DISTANCE, DISTANCE) };
                all.extend(both_ways(&planes, corner(-1), corner(1)));
            }
        }
    }
    all
}

/// What a pass puts to the engines: in whole numbers, and the same as floats.
fn timed(count: usize) -> [&'static [Ins]; 2] {
    let asked: &'static [WholeAsked] = (0..Timing::CALLS as u64)
        .map(|case| inputs::whole_timed(&mut Rng::at(1, case), count))
        .collect::<Vec<_>>()
        .leak();
    let of_floats = |asked: &WholeAsked| -> Ins {
        let (planes, p0, p1) = accepted(&asked.view, &asked.p0, &asked.p1).expect("it is within its limits");
        let number = |numbers: &[f64]| Lent::to_read(numbers.to_vec().leak());
        [number(farm_volume(&planes).numbers()), number(&floats(p0)), number(&floats(p1)), Lent::NONE]
    };
    let whole: Vec<Ins> = asked.iter().map(whole_lent).collect();
    [whole.leak(), asked.iter().map(of_floats).collect::<Vec<Ins>>().leak()]
}

/// Whether a view is among the recorded answers, should it be listed there: of
/// the right length or at least two away from it. A replay tries one number less
/// and one more.
pub(super) fn view_is_recorded(view: &[i32]) -> bool {
    let right = usize::try_from(view.first().copied().unwrap_or(0)).ok().map(whole_length);
    let apart = right.is_none_or(|right| right == view.len() || right.abs_diff(view.len()) > 1);
    apart && (26..=whole_length(PLANES_TRIED)).contains(&(view.len() + 1))
}

/// Some of those that are fixed, evenly, and of the refusals a few each.
pub(super) fn some_of<L: Laid>(of: &Both<L>, fixed: &[&L::Given]) -> Vec<L::Given> {
    let refused = |refusal: u32| {
        let refused = fixed.iter().filter(move |given| of.judged(given).0 == refusal);
        refused.step_by(17).take(4)
    };
    let refused = [WRONG_INPUT, NO_COUNT, OFF_GRID].into_iter().flat_map(refused);
    fixed.iter().step_by(fixed.len() / 24).chain(refused).map(|&given| given.clone()).collect()
}

/// Slices of whole numbers, and a verdict.
pub(super) fn whole_words(desk: &Desk, inputs: usize) -> (Vec<Vec<u64>>, Vec<u64>) {
    let words = |i: usize| desk.words.slice(i).iter().map(|&word| word.into()).collect();
    ((0..inputs).map(words).collect(), words(inputs))
}

impl Laid for Engine {
    type Given = WholeAsked;
    type Side = dyn Side;

    fn name(&self) -> &'static str {
        "whole_intersects_segment"
    }

    fn drawn(rng: &mut Rng) -> WholeAsked {
        inputs::whole_asked(rng)
    }

    fn lay(asked: &WholeAsked) -> Desk {
        Desk::new().wholes(&asked.view).wholes(&asked.p0).wholes(&asked.p1).slots(1)
    }

    fn put(desk: &mut Desk, side: &dyn Side) -> u32 {
        let [view, p0, p1, out] = [0, 1, 2, 3].map(|i| desk.words.lent(i));
        side.call(&[view, p0, p1, Lent::NONE], out)
    }

    fn outcome(&self, status: u32, desk: &Desk) -> usize {
        seen(status, desk.words.slice(3) == [1])
    }

    /// The Rust's floats are to say the same.
    fn agrees(&self, asked: &WholeAsked, _: u32, expected: &Desk, desk: &Desk) -> bool {
        let floats = of_floats(asked).map(u32::from);
        desk == expected && floats.is_none_or(|verdict| expected.words.slice(3) == [verdict])
    }

    fn shown(&self, asked: &WholeAsked, judge: (u32, &Desk), ours: (u32, &Desk)) -> String {
        let mut text = format!("({:?}, {:?}, {:?})", asked.view, asked.p0, asked.p1);
        text += &format!("\n      judge  {} {:?}", judge.0, judge.1.words.slice(3));
        text += &format!("\n      ours   {} {:?}", ours.0, ours.1.words.slice(3));
        if let Some(verdict) = of_floats(asked) {
            text += &format!("\n      floats 0 {}", u32::from(verdict));
        }
        text
    }

    /// Against the plain copy, and against our own engine of floats.
    fn timings(of: &Both<Engine>) -> Vec<Timing<'_>> {
        let (Some(ours), Some(our_floats)) = (&of.ours, &of.of.our_floats) else {
            return vec![];
        };
        let timing = |(against_plain, against_floats, count): (&'static str, &'static str, usize)| {
            let [whole, floats] = timed(count);
            let ours = (ours.as_ref(), whole);
            [
                Timing::of(against_plain, [ours, (of.of.plain.as_ref(), whole)], 1),
                Timing::of(against_floats, [ours, (our_floats.as_ref(), floats)], 1),
            ]
        };
        let sets = [
            ("frustums, plain i64", "frustums, our floats", FEWEST_PLANES),
            ("the same, the most", "the most, our floats", MOST_PLANES),
        ];
        sets.into_iter().flat_map(timing).collect()
    }

    /// Those about the cube, some of each kind of the other fixed ones, and
    /// drawn ones of each outcome.
    fn recorded(of: &Both<Engine>) -> Vec<WholeAsked> {
        let fits = |asked: &WholeAsked| asked.p0.len() == 3 && asked.p1.len() == 3 && view_is_recorded(&asked.view);
        let (about, others) = of.fixed.split_at(2 * ABOUT_CUBE.len());
        let others: Vec<&WholeAsked> = others.iter().filter(|asked| fits(asked)).collect();
        let drawn = (0..).map(|case| inputs::whole_asked(&mut Rng::at(1, case))).filter(fits);
        about.iter().step_by(2).cloned().chain(some_of(of, &others)).chain(drawn.take(DRAWN)).collect()
    }

    fn words(&self, _: &WholeAsked, desk: &Desk) -> (Vec<Vec<u64>>, Vec<u64>) {
        whole_words(desk, 3)
    }

    fn sides(of: &Both<Engine>) -> [Option<&dyn Side>; 2] {
        [Some(of.judge.as_ref()), of.ours.as_deref()]
    }

    /// No end and no view; no count; another length; a number past its limit.
    #[cfg(test)]
    fn mended() -> Vec<WholeAsked> {
        let six = || WholeAsked::of(&WHOLE_CUBE, [0; 3], [1; 3]).extreme(0, 5);
        vec![
            six().counted(5).cut(24, 2, 2),
            six().counted(5).cut(29, 3, 3),
            six().cut(29, 3, 3),
            six(),
            WholeAsked::of(&WHOLE_CUBE, [0; 3], [1; 3]),
        ]
    }
}

/// How many drawn ones are recorded.
const DRAWN: usize = 16;

#[cfg(test)]
mod tests {
    use super::*;
    use crate::trial::{Outcome, Trial};

    /// Cases 3 to 7 of the marked verdicts.
    #[test]
    fn the_marked_verdicts() {
        let engine = by(None);
        let verdict = |i: usize| engine.judged(&engine.fixed[2 * i]).1.words.slice(3)[0];
        assert_eq!([0, 1, 2, 3, 4].map(verdict), [1, 1, 0, 0, 0]);
        // A corner, touched and passed by: docs/VERDICTS.md.
        assert_eq!([10, 11].map(verdict), [1, 0]);
    }

    /// The Rust's floats say what is exact, of all that is tried; and so does
    /// the plain copy, which gives the refusals too.
    #[test]
    fn floats_and_the_plain_copy_agree() {
        let engine = by(Some(rust_side(plain)));
        let tally = engine.compare(0..engine.cases(0) + 300_000, 1);
        assert_eq!(tally.differences, 0, "{:?}", tally.first);
        for kind in [Outcome::YES, Outcome::NO, 1, 7, 12] {
            assert!(tally.outcomes[kind] > 5_000, "{}: {}", Outcome::NAMES[kind], tally.outcomes[kind]);
        }
    }

    /// Products of fractions are below 2^51, and met near there.
    #[test]
    fn products_of_crossings() {
        let mut most = 0;
        for asked in fixed() {
            let Ok((planes, p0, p1)) = accepted(&asked.view, &asked.p0, &asked.p1) else {
                continue;
            };
            let reaches =
                || planes.iter().map(|plane| (plane.reach(p0).abs(), (plane.reach(p1) - plane.reach(p0)).abs()));
            let numerator = reaches().map(|(reach, _)| reach).max().unwrap_or(0);
            most = most.max(numerator * reaches().map(|(_, rise)| rise).max().unwrap_or(0));
        }
        assert_eq!(most, 41_943_040 * 3 * (1 << 24));
        assert!(most < 1 << 51);
    }
}
