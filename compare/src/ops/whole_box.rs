//! The exact verdict on a box, in signed 32-bit numbers, with a point that is
//! in view.

#[cfg(test)]
mod slips;

use super::whole::{cube_of, some_of, view_is_recorded, whole_words};
use crate::desk::{Both, Desk, Laid, seen};
use crate::exact;
use crate::exported::of_archive;
use crate::inputs::{
    self, COORDINATE, DISTANCE, EXTREMES, NORMAL, Oblique, PLANES_TRIED, Rng, TOO_MANY, WHOLE_COUNTS, WHOLE_CUBE,
    WITNESS, Whole, WholeBox, WholePlane, farm_volume, on_grid, whole_length,
};
use crate::judge::{FEWEST_PLANES, MOST_PLANES, NO_COUNT, OFF_GRID, WRONG_INPUT, WRONG_OUTPUT};
use crate::lent::{Ins, Lent, Pointer, Side};
use crate::op::{Op, Timing};
use std::slice;

pub fn all() -> Vec<Box<dyn Op>> {
    vec![Box::new(of_archive())]
}

/// The planes of a view that is long enough for the fewest.
fn planes_of(view: &[i32]) -> Vec<WholePlane> {
    let of_numbers = |numbers: &[i32; 4]| {
        let [x, y, z, distance] = numbers.map(i64::from);
        WholePlane { normal: [x, y, z], distance }
    };
    view[1..].as_chunks().0.iter().map(of_numbers).collect()
}

/// The planes and the corners of what is lent, if nothing refuses it.
fn accepted(view: &[i32], corners: &[i32], room: usize) -> Result<Oblique, u32> {
    let &[a, b, c, x, y, z] = corners else {
        return Err(WRONG_INPUT);
    };
    let corners = [[a, b, c], [x, y, z]].map(|p| p.map(i64::from));
    if view.len() < whole_length(FEWEST_PLANES) {
        return Err(WRONG_INPUT);
    }
    let count = (FEWEST_PLANES..=MOST_PLANES).find(|&n| i64::from(view[0]) == n as i64).ok_or(NO_COUNT)?;
    if view.len() != whole_length(count) {
        return Err(WRONG_INPUT);
    }
    if room != WITNESS {
        return Err(WRONG_OUTPUT);
    }
    let planes = planes_of(view);
    let ordered = (0..3).all(|i| corners[0][i] <= corners[1][i]);
    let within = corners.into_iter().all(on_grid) && planes.iter().all(WholePlane::within_limits);
    if within && ordered { Ok((planes, corners)) } else { Err(OFF_GRID) }
}

/// The judge, which knows no point: the witness stays as it is.
fn judge(view: &[i32], corners: &[i32], witness: &mut [i64], out: &mut u32) -> u32 {
    match accepted(view, corners, witness.len()) {
        Ok((planes, corners)) => {
            *out = exact::shares_a_point(&planes, corners).into();
            0
        }
        Err(refusal) => refusal,
    }
}

/// The engine as one would write it in Rust, by vertices: to be timed against.
fn plain(view: &[i32], corners: &[i32], witness: &mut [i64], out: &mut u32) -> u32 {
    let (planes, corners) = match accepted(view, corners, witness.len()) {
        Ok(asked) => asked,
        Err(refusal) => return refusal,
    };
    let is_reached = |plane: &WholePlane| {
        let furthest: Whole = std::array::from_fn(|i| corners[usize::from(plane.normal[i] > 0)][i]);
        plane.reach(furthest) >= 0
    };
    let shared = if planes.iter().all(is_reached) { exact::box_by_vertices(&planes, corners) } else { None };
    if let Some((p, k)) = shared {
        witness.copy_from_slice(&[p[0], p[1], p[2], k]);
    }
    *out = shared.is_some().into();
    0
}

type Ours = unsafe extern "C" fn(*const i32, usize, *const i32, usize, *mut i64, usize, *mut u32) -> u32;
type Rust = fn(&[i32], &[i32], &mut [i64], &mut u32) -> u32;
type OurFiled = unsafe extern "C" fn(*const f64, usize, *const f64, usize, *mut u32) -> u32;

// What a side is lent, in this order: the view and the corners, as i32, and the
// witness, as i64; then the verdict, as u32.

/// What is lent for an input, with a witness of its length.
pub fn whole_box_lent(asked: &WholeBox, witness: &mut [i64]) -> Ins {
    let witness = Lent { at: witness.as_mut_ptr().cast(), len: witness.len() };
    [Lent::wholes(&asked.view), Lent::wholes(&asked.corners), witness, Lent::NONE]
}

unsafe fn point<'a>(lent: Lent) -> &'a mut [i64] {
    unsafe { slice::from_raw_parts_mut(lent.at.cast(), lent.len) }
}

fn rust_side(f: Rust) -> Box<dyn Side> {
    Box::new(Pointer(f, |f: Rust, &[view, corners, witness, _]: &Ins, out: Lent| unsafe {
        f(view.whole_slice(), corners.whole_slice(), point(witness), out.word())
    }))
}

/// What ours is timed against.
struct Engine {
    plain: Box<dyn Side>,
    our_filed: Option<Box<dyn Side>>,
}

// What is lent is as long as it says, and is not lent twice.

fn of_archive() -> Both<Engine> {
    let ours: Option<Ours> = of_archive!(
        gf_whole_intersects_bbox:
            fn(_: *const i32, _: usize, _: *const i32, _: usize, _: *mut i64, _: usize, _: *mut u32) -> u32
    );
    by(ours.map(|f| -> Box<dyn Side> {
        Box::new(Pointer(f, |f: Ours, &[view, corners, witness, _]: &Ins, out: Lent| unsafe {
            let at = |lent: Lent| lent.at.cast_const().cast();
            f(at(view), view.len, at(corners), corners.len, witness.at.cast(), witness.len, out.at.cast())
        }))
    }))
}

fn by(ours: Option<Box<dyn Side>>) -> Both<Engine> {
    let filed: Option<OurFiled> = of_archive!(
        gf_intersects_bbox: fn(_: *const f64, _: usize, _: *const f64, _: usize, _: *mut u32) -> u32
    );
    let our_filed = filed.map(|f| -> Box<dyn Side> {
        Box::new(Pointer(f, |f: OurFiled, &[volume, b, ..]: &Ins, out: Lent| unsafe {
            f(volume.at.cast_const(), volume.len, b.at.cast_const(), b.len, out.at.cast())
        }))
    });
    Both { of: Engine { plain: rust_side(plain), our_filed }, ours, judge: rust_side(judge), fixed: fixed() }
}

/// What was left in the room for a witness.
fn witness(desk: &Desk) -> impl Iterator<Item = i64> {
    desk.numbers.slice(0).iter().map(|&word| word as i64)
}

/// Whether what was left beside a yes is a point of box and view.
fn is_witness(asked: &WholeBox, desk: &Desk) -> bool {
    let Ok((planes, corners)) = accepted(&asked.view, &asked.corners, asked.room) else {
        return false;
    };
    let witness: Vec<i64> = witness(desk).collect();
    witness[..].try_into().is_ok_and(|witness| exact::is_shared(&planes, corners, witness))
}

fn plane([x, y, z, distance]: [i64; 4]) -> WholePlane {
    WholePlane { normal: [x, y, z], distance }
}

/// The three kinds in which the filed verdict goes wrong: a yes where nothing is
/// seen, and a no where the block touches, of which the same placed block gets a
/// yes by another record.
pub(super) fn parting() -> [(Vec<WholePlane>, [Whole; 2]); 4] {
    let beside = [[1, -1, 0, 0], [1, 1, 0, 0], [0, 0, 1, 0], [0, 0, -1, -1], [1, 0, 0, 1], [-1, 0, 0, -2]];
    let slope = [[-1, -1, -1, -3], [1, 0, 0, 0], [0, 1, 0, 0], [0, 0, 1, 0], [-1, 0, 0, -10], [0, -1, 0, -10]];
    let edge = [[1, 1, 0, 0], [1, -1, 0, 0], [-1, 0, 0, -10], [0, -1, 0, -10], [0, 0, 1, 0], [0, 0, -1, -10]];
    [
        (beside.map(plane).to_vec(), [[2, 3, 0], [3, 4, 1]]),
        (slope.map(plane).to_vec(), [[0, 0, 3], [1, 1, 4]]),
        (edge.map(plane).to_vec(), [[-3, -5, 0], [-1, 5, 1]]),
        // Planes that share no point.
        (cube_with(&[(0, [1, 0, 0, 6]), (1, [-1, 0, 0, -4])]), [[0; 3], [10; 3]]),
    ]
}

fn cube_with(planes: &[(usize, [i64; 4])]) -> Vec<WholePlane> {
    let mut cube = WHOLE_CUBE.to_vec();
    planes.iter().for_each(|&(i, numbers)| cube[i] = plane(numbers));
    cube
}

/// Boxes about the cube: touching each side, an edge and a corner, just not;
/// flat ones, a point; around it, inside it.
const ABOUT_CUBE: [[Whole; 2]; 16] = [
    // The marked verdicts.
    [[10, 0, 0], [12, 1, 1]],
    [[11, 0, 0], [12, 1, 1]],
    [[-1, 0, 0], [0, 1, 1]],
    [[-2, 0, 0], [-1, 1, 1]],
    [[0, -2, 0], [1, 0, 1]],
    [[0, 10, 0], [1, 12, 1]],
    [[0, 0, -2], [1, 1, 0]],
    [[0, 0, 10], [1, 1, 12]],
    [[0, 0, 11], [1, 1, 12]],
    [[10, 10, 0], [12, 12, 1]],
    [[10, 10, 10], [12, 12, 12]],
    [[10, 10, 11], [12, 12, 12]],
    [[5, 5, 5], [5, 5, 5]],
    [[10, -3, 4], [10, 13, 4]],
    [[-50, -50, -50], [50, 50, 50]],
    [[2, 3, 4], [5, 6, 7]],
];

/// What goes wrong in such an engine.
fn fixed() -> Vec<WholeBox> {
    let mut all: Vec<WholeBox> = parting().iter().map(|(planes, corners)| WholeBox::of(planes, *corners)).collect();
    all.extend(ABOUT_CUBE.map(|corners| WholeBox::of(&WHOLE_CUBE, corners)));
    all.extend(degenerate());
    all.extend(at_the_limits());
    // What touches by construction, and any.
    for case in 0..200 {
        let ((mut planes, corners), _) = inputs::touching(&mut Rng::at(2, case));
        planes.extend(cube_of(FEWEST_PLANES.saturating_sub(planes.len())).iter().map(|_| plane([0, 0, 0, -1])));
        all.push(WholeBox::of(&planes, corners));
        let (planes, corners) = inputs::oblique(&mut Rng::at(2, case));
        all.push(WholeBox::of(&planes, corners));
    }
    // Every count: as a cube, then with a plane at the end that the box just
    // touches, that is just past it, and that together with others leaves nothing.
    for count in FEWEST_PLANES..=MOST_PLANES {
        let cube = cube_of(count);
        let corners = [[2, 3, 4], [5, 6, 7]];
        all.push(WholeBox::of(&cube, corners));
        for numbers in [[1, 1, 1, 18], [1, 1, 1, 19], [-1, 0, 0, -2], [0, 0, 0, 1], [0, 0, 0, 0]] {
            let mut planes = cube.clone();
            planes[count - 1] = plane(numbers);
            all.push(WholeBox::of(&planes, corners));
            // x + y + z at most 17 besides, at the front and just before.
            for at in [0, count - 2] {
                let mut both = planes.clone();
                both[at] = plane([-1, -1, -1, -17]);
                all.push(WholeBox::of(&both, corners));
            }
        }
    }
    all.extend(faulty());
    all
}

/// Planes that say nothing or all alone, repeated and opposite ones, flat boxes.
fn degenerate() -> Vec<WholeBox> {
    let boxes = [
        [[2, 3, 4], [5, 6, 7]],
        [[2, 3, 4], [2, 6, 7]],
        [[2, 3, 4], [5, 3, 7]],
        [[2, 3, 4], [5, 6, 4]],
        [[2, 3, 4], [2, 3, 7]],
        [[3, 3, 3], [3, 3, 3]],
    ];
    let mut all = vec![];
    for corners in boxes {
        let mut with = |planes: &[(usize, [i64; 4])]| all.push(WholeBox::of(&cube_with(planes), corners));
        for distance in [-DISTANCE, -1, 0, 1, DISTANCE] {
            with(&[(0, [0, 0, 0, distance])]);
            with(&[(5, [0, 0, 0, distance])]);
        }
        // A slab of no width through the box, one that is empty, one beside it.
        for (normal, distance) in [([1, 1, 1], 9), ([1, 1, 1], 10), ([1, -1, 0], 0), ([3, 5, -7], 1), ([128; 3], 1152)]
        {
            let [x, y, z]: Whole = normal;
            for further in [-1, 0, 1] {
                with(&[(1, [x, y, z, distance]), (4, [-x, -y, -z, further - distance])]);
                with(&[(1, [x, y, z, distance]), (2, [x, y, z, distance]), (3, [-x, -y, -z, further - distance])]);
            }
        }
        // All six alike.
        all.push(WholeBox::of(&[plane([1, 1, 1, 13]); 6], corners));
        all.push(WholeBox::of(&[plane([-1, 2, -1, 0]); 6], corners));
    }
    all
}

/// The largest numbers that there are, met, missed by one and passed by one.
fn at_the_limits() -> Vec<WholeBox> {
    let mut all = vec![];
    let whole = [[-COORDINATE; 3], [COORDINATE; 3]];
    for (a, b) in [(NORMAL, NORMAL), (NORMAL, NORMAL - 1), (NORMAL - 1, NORMAL)] {
        for distance in [DISTANCE, DISTANCE - 1, -DISTANCE, 0, 1] {
            for further in [-1, 0, 1] {
                let out = (further - distance).clamp(-DISTANCE, DISTANCE);
                let planes = cube_with(&[
                    (0, [a, a, a, distance]),
                    (1, [-b, -b, -b, out]),
                    (2, [a, -b, 0, distance.clamp(-1000, 1000)]),
                    (3, [-a, b, 1, -1]),
                    (4, [0, a, -b, 0]),
                    (5, [b, b, -a, -DISTANCE]),
                ]);
                all.push(WholeBox::of(&planes, whole));
            }
        }
    }
    all
}

/// What is refused: numbers past their limits at every place, corners in the
/// wrong order, counts, lengths, and several of these.
fn faulty() -> Vec<WholeBox> {
    let mut all = vec![];
    let corners = [[1, 2, 3], [40, 50, 60]];
    let idle = |count: usize| WholeBox::of(&vec![plane([1, -2, 3, -400_000]); count], corners);
    for count in [FEWEST_PLANES, FEWEST_PLANES + 1, MOST_PLANES] {
        for place in 0..idle(count).limited() {
            all.extend((0..EXTREMES.len()).map(|kind| idle(count).extreme(place, kind)));
        }
    }
    let six = || WholeBox::of(&WHOLE_CUBE, corners);
    all.extend((0..3).map(|axis| six().turned_over(axis)));
    all.extend((0..3).map(|axis| WholeBox::of(&WHOLE_CUBE, [[7, 7, 7], [7, 7, 7]]).turned_over(axis)));
    for axis in 0..3 {
        let mut by_one = WholeBox::of(&WHOLE_CUBE, [[7, 7, 7], [7, 7, 7]]);
        by_one.corners[axis] = 8;
        all.push(by_one);
    }
    for count in WHOLE_COUNTS {
        for planes in [FEWEST_PLANES, FEWEST_PLANES + 1, MOST_PLANES].into_iter().chain(TOO_MANY) {
            all.push(WholeBox::of(&cube_of(planes), corners).counted(count));
        }
    }
    let lengths = [0, 1, 2, 5, 21, 23, 24, 26, 27, 28, 29, 31, 33, 48, 49, 200].into_iter();
    let lengths = lengths.chain([MOST_PLANES, PLANES_TRIED].map(whole_length));
    all.extend(lengths.map(|view| six().cut(view, 6, 4)));
    all.extend([0, 1, 3, 5, 7, 8, 12].map(|box_length| six().cut(25, box_length, 4)));
    all.extend([0, 1, 2, 3, 5, 6, 8].map(|room| six().cut(25, 6, room)));
    for count in FEWEST_PLANES..=MOST_PLANES {
        let right = whole_length(count);
        let cube = || WholeBox::of(&cube_of(count), corners);
        all.extend(
            [right - 4, right - 1, right + 1, right + 2, right + 4, right + 24].map(|view| cube().cut(view, 6, 4)),
        );
    }
    // More than one fault, to tell their order.
    let far = || six().extreme(0, 5);
    all.extend([
        far().counted(5),
        far().counted(7),
        far().cut(29, 6, 4),
        far().cut(25, 5, 4),
        far().cut(25, 6, 3),
        far().counted(5).cut(25, 6, 3),
        far().cut(29, 6, 3),
        six().cut(25, 5, 3),
        six().cut(24, 6, 5),
        six().counted(5).cut(25, 6, 3),
        six().counted(5).cut(24, 6, 4),
        six().counted(5).cut(29, 6, 4),
        six().counted(5).cut(25, 7, 4),
        six().counted(5).cut(25, 0, 0),
        six().turned_over(0).cut(25, 6, 5),
        six().turned_over(1).counted(5),
        six().turned_over(2).cut(29, 6, 4),
        far().counted(MOST_PLANES as i32 + 1).cut(24, 5, 5),
    ]);
    all
}

/// What a pass puts to the engines: in whole numbers, and the same as records.
fn timed(draw: impl Fn(u64, &mut Rng) -> (Vec<WholePlane>, inputs::FarmBox)) -> [&'static [Ins]; 2] {
    let asked: Vec<(Vec<WholePlane>, inputs::FarmBox)> =
        (0..Timing::CALLS as u64).map(|case| draw(case, &mut Rng::at(1, case))).collect();
    let whole = |(planes, block): &(Vec<WholePlane>, inputs::FarmBox)| -> Ins {
        let asked: &'static WholeBox = Box::leak(Box::new(WholeBox::of(planes, block.placed())));
        whole_box_lent(asked, vec![0; WITNESS].leak())
    };
    let filed = |(planes, block): &(Vec<WholePlane>, inputs::FarmBox)| -> Ins {
        let number = |numbers: &[f64]| Lent::to_read(numbers.to_vec().leak());
        [number(farm_volume(planes).numbers()), number(&block.record()), Lent::NONE, Lent::NONE]
    };
    let [mut wholes, mut records] = [vec![], vec![]];
    wholes.extend(asked.iter().map(whole));
    records.extend(asked.iter().map(filed));
    [wholes.leak(), records.leak()]
}

/// How many drawn ones are recorded.
const DRAWN: usize = 20;

impl Laid for Engine {
    type Given = WholeBox;
    type Side = dyn Side;

    fn name(&self) -> &'static str {
        "whole_intersects_bbox"
    }

    fn drawn(rng: &mut Rng) -> WholeBox {
        inputs::whole_box(rng)
    }

    fn lay(asked: &WholeBox) -> Desk {
        Desk::new().wholes(&asked.view).wholes(&asked.corners).slots(1).room(asked.room)
    }

    fn put(desk: &mut Desk, side: &dyn Side) -> u32 {
        let [view, corners, out] = [0, 1, 2].map(|i| desk.words.lent(i));
        side.call(&[view, corners, desk.numbers.lent(0), Lent::NONE], out)
    }

    fn outcome(&self, status: u32, desk: &Desk) -> usize {
        seen(status, desk.words.slice(2) == [1])
    }

    /// Beside a yes any point that is one, and all else as the judge left it.
    fn agrees(&self, asked: &WholeBox, status: u32, expected: &Desk, desk: &Desk) -> bool {
        match status == 0 && expected.words.slice(2) == [1] {
            true => is_witness(asked, desk) && desk.is(expected, 0, |_, _| true),
            false => desk == expected,
        }
    }

    fn shown(&self, asked: &WholeBox, judge: (u32, &Desk), ours: (u32, &Desk)) -> String {
        let (verdict, left) = (ours.1.words.slice(2), witness(ours.1).collect::<Vec<i64>>());
        let mut text = format!("({:?}, {:?}, room {})", asked.view, asked.corners, asked.room);
        text += &format!("\n      judge  {} {:?}", judge.0, judge.1.words.slice(2));
        text += &format!("\n      ours   {} {verdict:?} {left:?}", ours.0);
        if ours.0 == 0 && verdict == [1] && !is_witness(asked, ours.1) {
            text += "\n      which is no point of box and view";
        }
        text
    }

    /// Against our own filed verdict on the same blocks, and against the plain
    /// copy.
    fn timings(of: &Both<Engine>) -> Vec<Timing<'_>> {
        let (Some(ours), Some(our_filed)) = (&of.ours, &of.of.our_filed) else {
            return vec![];
        };
        let filed_beside = |set: &'static str, [whole, filed]: [&'static [Ins]; 2]| {
            Timing::of(set, [(ours.as_ref(), whole), (our_filed.as_ref(), filed)], 1)
        };
        let timing = |(against_filed, against_plain, count): (&'static str, &'static str, usize)| {
            let [whole, filed] = timed(|_, rng| inputs::screened_block(rng, count));
            let plain = [ours, &of.of.plain].map(|side| (side.as_ref(), whole));
            [filed_beside(against_filed, [whole, filed]), Timing::of(against_plain, plain, 1)]
        };
        let sets = [
            ("orchard, our filed", "orchard, plain i64", FEWEST_PLANES),
            ("14, our filed", "14, plain i64", MOST_PLANES),
        ];
        let worst = filed_beside("the worst, our filed", timed(|_, _| inputs::dearest()));
        sets.into_iter().flat_map(timing).chain([worst]).collect()
    }

    /// Those that part from the filed verdict and those about the cube, some of
    /// each kind of the other fixed ones, and drawn ones.
    fn recorded(of: &Both<Engine>) -> Vec<WholeBox> {
        let fits =
            |asked: &WholeBox| asked.corners.len() == 6 && asked.room == WITNESS && view_is_recorded(&asked.view);
        let (first, others) = of.fixed.split_at(parting().len() + ABOUT_CUBE.len());
        let others: Vec<&WholeBox> = others.iter().filter(|asked| fits(asked)).collect();
        let drawn = (0..).map(|case| inputs::whole_box(&mut Rng::at(1, case))).filter(fits);
        first.iter().cloned().chain(some_of(of, &others)).chain(drawn.take(DRAWN)).collect()
    }

    fn words(&self, _: &WholeBox, desk: &Desk) -> (Vec<Vec<u64>>, Vec<u64>) {
        whole_words(desk, 2)
    }

    /// The search for a vertex beside ours; the judge is another.
    fn sides(of: &Both<Engine>) -> [Option<&dyn Side>; 2] {
        [Some(of.of.plain.as_ref()), of.ours.as_deref()]
    }

    /// No box and no view; no count; another length; no room; a number past its
    /// limit.
    #[cfg(test)]
    fn mended() -> Vec<WholeBox> {
        let right = || WholeBox::of(&WHOLE_CUBE, [[0; 3], [1; 3]]);
        let six = || right().extreme(0, 5);
        vec![
            six().counted(5).cut(24, 5, 3),
            six().counted(5).cut(29, 6, 3),
            six().cut(29, 6, 3),
            six().cut(25, 6, 3),
            six(),
            right(),
        ]
    }
}

#[cfg(test)]
mod tests {
    use super::*;
    use crate::trial::{Outcome, Trial};

    /// The exact verdicts on what the filed verdict parts from, and on the
    /// marked boxes.
    #[test]
    fn worked_verdicts() {
        let engine = by(None);
        let verdict = |i: usize| engine.judged(&engine.fixed[i]).1.words.slice(2)[0];
        assert_eq!([0, 1, 2, 3].map(verdict), [0, 1, 0, 0]);
        assert_eq!([4, 5, 6, 7].map(verdict), [1, 0, 1, 0]);
    }

    /// The search for a vertex finds a point where the judge says yes, and no
    /// other, of all that is tried; and it gives the refusals too.
    #[test]
    fn the_plain_search_agrees() {
        let engine = by(Some(rust_side(plain)));
        let tally = engine.compare(0..engine.cases(0) + 300_000, 1);
        assert_eq!(tally.differences, 0, "{:?}", tally.first);
        for kind in [Outcome::YES, Outcome::NO, 1, 2, 7, 12] {
            assert!(tally.outcomes[kind] > 2_000, "{}: {}", Outcome::NAMES[kind], tally.outcomes[kind]);
        }
    }
}
