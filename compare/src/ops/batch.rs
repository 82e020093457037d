//! One volume and several boxes: the verdict on each box, in one call.

#[cfg(test)]
mod slips;

use crate::desk::{Both, Desk, Laid, seen};
use crate::exported::of_archive;
use crate::inputs::{
    self, Boxed, CUBE, IDENTITY, Matrix, NO_FLAGS, Range, Rng, TOO_MANY, Volume, box_of, diagonal, volume_length, with,
};
use crate::judge::{FEWEST_PLANES, MOST_PLANES, WRONG_INPUT, WRONG_OUTPUT, finite};
use crate::lent::{Ins, Lent, Pointer, Side};
use crate::op::{Op, Timing};
use crate::rust::{ask, boxed, boxed_without_inverse, count_by_length, held};
use crate::words::{self, ROOM};
use openusd::gf::BBox3d;

pub fn all() -> Vec<Box<dyn Op>> {
    vec![Box::new(of_archive())]
}

/// The numbers of a box.
const BOX: usize = 23;

/// The boxes, if nothing refuses the call.
fn accepted<'a>(volume: &[f64], boxes: &'a [f64], slots: usize) -> Result<&'a [Boxed], u32> {
    if volume.len() < volume_length(FEWEST_PLANES) || boxes.is_empty() {
        return Err(WRONG_INPUT);
    }
    let (records, []) = boxes.as_chunks() else {
        return Err(WRONG_INPUT);
    };
    held(volume)?;
    if slots != records.len() {
        return Err(WRONG_OUTPUT);
    }
    for record in records {
        boxed_without_inverse(record)?;
    }
    (finite(volume)?, finite(boxes)?);
    Ok(records)
}

/// The verdict on each box, in its slot.
fn each(records: &[Boxed], out: &mut [u32], sees: impl Fn(&BBox3d) -> bool) -> Result<(), u32> {
    for (slot, record) in out.iter_mut().zip(records) {
        *slot = sees(&boxed(record)?).into();
    }
    Ok(())
}

/// The Rust's verdicts: the planes are made once, then box by box.
fn by_loop(volume: &[f64], records: &[Boxed], out: &mut [u32]) -> Result<(), u32> {
    let count = count_by_length(volume);
    // Only one of the two is asked.
    let slots = std::cell::RefCell::new(out);
    ask(
        volume,
        count,
        |v| each(records, &mut slots.borrow_mut(), |b| v.intersects_bbox(b)),
        |v| each(records, &mut slots.borrow_mut(), |b| v.intersects_bbox(b)),
    )
}

fn status(answer: Result<(), u32>) -> u32 {
    answer.err().unwrap_or(0)
}

fn judge(volume: &[f64], boxes: &[f64], out: &mut [u32]) -> u32 {
    status(accepted(volume, boxes, out.len()).and_then(|records| by_loop(volume, records, out)))
}

/// To be timed against: without any test but that of the flags.
fn untested(volume: &[f64], boxes: &[f64], out: &mut [u32]) -> u32 {
    status(by_loop(volume, boxes.as_chunks().0, out))
}

/// The same behind a plain pass over all numbers.
fn tested(volume: &[f64], boxes: &[f64], out: &mut [u32]) -> u32 {
    status(finite(volume).and(finite(boxes)).and_then(|()| by_loop(volume, boxes.as_chunks().0, out)))
}

type Ours = unsafe extern "C" fn(*const f64, usize, *const f64, usize, *mut u32, usize) -> u32;
type Rust = fn(&[f64], &[f64], &mut [u32]) -> u32;

// What a side is lent, in this order: the volume and the boxes; then the slots,
// which are u32.

fn rust_side(f: Rust) -> Box<dyn Side> {
    Box::new(Pointer(f, |f: Rust, &[volume, boxes, ..]: &Ins, out: Lent| unsafe {
        f(volume.slice(), boxes.slice(), out.slots())
    }))
}

/// What ours is timed against, and how many of the fixed ones are recorded, should
/// they be fit for it: those in front.
struct Batch {
    untested: Box<dyn Side>,
    tested: Box<dyn Side>,
    recorded: usize,
}

// What is lent is as long as it says, and is not lent twice.
fn of_archive() -> Both<Batch> {
    let ours: Option<Ours> = of_archive!(
        gf_intersects_bboxes: fn(_: *const f64, _: usize, _: *const f64, _: usize, _: *mut u32, _: usize) -> u32
    );
    by(ours.map(|f| -> Box<dyn Side> {
        Box::new(Pointer(f, |f: Ours, &[volume, boxes, ..]: &Ins, out: Lent| unsafe {
            f(volume.at.cast_const(), volume.len, boxes.at.cast_const(), boxes.len, out.at.cast(), out.len)
        }))
    }))
}

fn by(ours: Option<Box<dyn Side>>) -> Both<Batch> {
    let mut fixed = fixed();
    let recorded = fixed.len();
    fixed.extend(missing());
    let [judge, untested, tested] = [judge as Rust, untested, tested].map(rust_side);
    Both { of: Batch { untested, tested, recorded }, ours, judge, fixed }
}

/// What a call is given: numbers of any count, and so many slots.
#[derive(Clone)]
struct Given {
    volume: Vec<f64>,
    boxes: Vec<f64>,
    slots: usize,
}

impl Given {
    fn of(volume: &Volume, boxes: &[Boxed]) -> Given {
        Given { volume: volume.numbers().to_vec(), boxes: boxes.as_flattened().to_vec(), slots: boxes.len() }
    }

    /// With other lengths.
    fn cut(mut self, volume: usize, boxes: usize, slots: usize) -> Given {
        self.volume.resize(volume, 0.5);
        self.boxes.resize(boxes, 0.5);
        self.slots = slots;
        self
    }

    /// With other numbers of the boxes.
    fn with(mut self, numbers: &[(usize, f64)]) -> Given {
        for &(at, number) in numbers {
            self.boxes[at] = number;
        }
        self
    }

    /// Whether it can be recorded: at most three boxes and their slots, and a
    /// volume of any number of planes.
    fn is_recorded(&self) -> bool {
        let volume = self.volume.len();
        let planes = volume % 4 == 1 && volume >= volume_length(FEWEST_PLANES);
        let boxes = self.slots < 4 && self.boxes.len() == BOX * self.slots;
        planes && boxes && volume + self.boxes.len() <= ROOM
    }
}

const UNIT: Range = [0.0, 0.0, 0.0, 1.0, 1.0, 1.0];
const NAN: f64 = f64::NAN;

fn unplaced(range: Range) -> Boxed {
    box_of(range, IDENTITY, 0.0)
}

/// Turned by a quarter about z, and moved along x.
fn turned(x: f64) -> Matrix {
    inputs::placement_of([[0.0, 1.0, 0.0], [-1.0, 0.0, 0.0], [0.0, 0.0, 1.0]], [x, 0.0, 0.0])
}

/// Boxes of every kind, each with its verdict by the cube.
fn kinds() -> [(Boxed, bool); 16] {
    let past = [20.0, 0.0, 0.0, 21.0, 1.0, 1.0];
    [
        // The marked verdicts.
        (unplaced([10.0, 0.0, 0.0, 12.0, 1.0, 1.0]), true),
        (unplaced([11.0, 0.0, 0.0, 12.0, 1.0, 1.0]), false),
        (unplaced([1.0, 0.0, 0.0, 0.0, 1.0, 1.0]), false),
        (box_of(UNIT, turned(0.0), 0.0), true),
        (box_of(UNIT, turned(-1.0), 0.0), false),
        // In the middle, and all around.
        (unplaced([4.0, 4.0, 4.0, 6.0, 6.0, 6.0]), true),
        (unplaced([-50.0, -50.0, -50.0, 50.0, 50.0, 50.0]), true),
        // Scaled, so that one touches and the other just does not.
        (box_of([2.0, 0.0, 0.0, 3.0, 1.0, 1.0], diagonal([5.0, 0.5, 0.25, 1.0]), 1.0), true),
        (box_of([2.001, 0.0, 0.0, 3.0, 1.0, 1.0], diagonal([5.0, 0.5, 0.25, 1.0]), 1.0), false),
        // Sheared: only its upper end leans into the view.
        (box_of([-3.0, 1.0, 0.0, -2.0, 2.0, 4.0], with(IDENTITY, &[(8, 0.5)]), 0.0), true),
        (box_of([-3.0, 1.0, 0.0, -2.0, 2.0, 3.0], with(IDENTITY, &[(8, 0.5)]), 0.0), false),
        // Without inverse: as it stands, and with none of the translation.
        (box_of(UNIT, with(diagonal([0.0, 1.0, 1.0, 1.0]), &[(12, 50.0)]), 0.0), true),
        (box_of(past, [0.0; 16], 1.0), false),
        (box_of(past, diagonal([1.1e-13, 1.0, 1.0, 1.0]), 0.0), true),
        // Of no volume, and an infinite determinant.
        (unplaced([5.0; 6]), true),
        (box_of([-5.0, -5.0, -5.0, 5.0, 5.0, 5.0], diagonal([1e200, 1e200, 1e200, 1.0]), 0.0), true),
    ]
}

/// x from 0 to 10, y from 0 to 20 and z from -5 to 30, so that no two axes are
/// alike, and a slope; boxes that are in and out along each.
fn oblong() -> (Volume, Vec<Boxed>) {
    let six = with(CUBE, &[(15, -20.0), (19, -5.0), (23, -30.0)]);
    let volume = Volume::with_more(six, &[[-0.6, -0.0, -0.8, -20.0]]);
    let at = |[x, y, z]: [f64; 3]| unplaced([x, y, z, x + 1.0, y + 1.0, z + 1.0]);
    let corners = [
        [5.0, 15.0, 0.0],
        [15.0, 5.0, 0.0],
        [5.0, 5.0, 15.0],
        [5.0, 25.0, 5.0],
        [2.0, 2.0, -5.5],
        [-5.5, 2.0, 2.0],
        [9.0, 1.0, 25.0],
        [1.0, 19.0, 22.0],
        [3.0, -5.5, 3.0],
    ];
    (volume, corners.map(at).to_vec())
}

/// A wall at x = 6 as the last of so many planes.
fn walled(count: usize) -> Volume {
    let mut more = vec![[-1.0, 0.0, 0.0, -20.0]; count - FEWEST_PLANES];
    more[count - FEWEST_PLANES - 1] = [-1.0, 0.0, 0.0, -6.0];
    Volume::with_more(CUBE, &more)
}

/// What goes wrong in a batch.
fn fixed() -> Vec<Given> {
    let cube = Volume::of(CUBE);
    let kinds = kinds().map(|(b, _)| b);
    let [touching, outside, empty, ..] = kinds;
    let mut all = vec![];
    // Each alone; each with the next, in either order, and with two more; all.
    for i in 0..kinds.len() {
        let next = |k: usize| kinds[(i + k) % kinds.len()];
        all.push(Given::of(&cube, &[next(0)]));
        all.push(Given::of(&cube, &[next(0), next(1)]));
        all.push(Given::of(&cube, &[next(1), next(0)]));
        all.push(Given::of(&cube, &[next(0), next(5), next(2)]));
    }
    let reversed: Vec<Boxed> = kinds.into_iter().rev().collect();
    all.extend([Given::of(&cube, &kinds), Given::of(&cube, &reversed)]);
    // One that differs from the others, at each place of one to nine.
    for count in 1..=9 {
        for place in 0..count {
            for [one, others] in [[touching, outside], [outside, touching], [empty, touching]] {
                let mut boxes = vec![others; count];
                boxes[place] = one;
                all.push(Given::of(&cube, &boxes));
            }
        }
    }
    // No two axes alike; every count of planes, and a wall as the last.
    let (oblong, about) = oblong();
    all.extend(about.chunks(3).map(|boxes| Given::of(&oblong, boxes)));
    all.push(Given::of(&oblong, &about));
    let beside = [unplaced([7.0, 0.0, 0.0, 9.0, 1.0, 1.0]), touching, unplaced([5.0, 0.0, 0.0, 7.0, 1.0, 1.0])];
    for count in FEWEST_PLANES..=MOST_PLANES {
        all.push(Given::of(&inputs::with_planes(CUBE, count), &beside));
        all.push(Given::of(&inputs::with_planes(CUBE, count), &[outside]));
        if count > FEWEST_PLANES {
            all.push(Given::of(&walled(count), &beside));
        }
    }
    // Many boxes, the last or the first of which differs.
    for count in [62, 63, 64, 255, 256, 257, 1000, 1024] {
        let mut boxes = vec![outside; count];
        (boxes[0], boxes[count - 1]) = (touching, empty);
        all.push(Given::of(&cube, &boxes));
        boxes.reverse();
        boxes[count / 2] = kinds[5];
        all.push(Given::of(&inputs::with_planes(CUBE, MOST_PLANES), &boxes));
    }
    all.extend(faults());
    all
}

/// Other lengths, counts and flags, one at a time and several.
fn faults() -> Vec<Given> {
    let cube = Volume::of(CUBE);
    let [touching, outside, empty, ..] = kinds().map(|(b, _)| b);
    let three = || Given::of(&cube, &[touching, outside, empty]);
    let (six, seven) = (volume_length(FEWEST_PLANES), volume_length(FEWEST_PLANES + 1));
    let mut all = vec![Given::of(&cube, &[])];
    all.extend([0, 1, 25, 48, 50, 51, 52, seven, 72, 81].map(|volume| three().cut(volume, 3 * BOX, 3)));
    all.extend([0, 1, 2, 22, 24, 45, 47, 68, 70].map(|boxes| three().cut(six, boxes, 3)));
    all.extend([0, 1, 22, 24, 47, 68, 70].map(|boxes| three().cut(six, boxes, boxes / BOX)));
    all.extend([0, 1, 2, 4, 6, BOX, 63, 3 * BOX].map(|slots| three().cut(six, 3 * BOX, slots)));
    // Counts that are none, or not the volume's: of one box and of three.
    let most = MOST_PLANES as f64;
    let volumes = inputs::COUNTS.into_iter().map(|count| cube.counted(count));
    let full = inputs::with_planes(CUBE, MOST_PLANES);
    let volumes = volumes.chain([6.0, most - 1.0, most + 1.0, NAN].map(|count| full.counted(count)));
    let many = TOO_MANY.map(|planes| inputs::with_planes(CUBE, planes));
    for volume in volumes.chain(many).chain(many.map(|volume| volume.counted(most))) {
        all.push(Given::of(&volume, &[touching]));
        all.push(Given::of(&volume, &[outside, touching, empty]));
    }
    // Flags that are none, at each place, and that are one.
    for place in 0..3 {
        let flag = BOX * place + 22;
        all.extend(NO_FLAGS.iter().chain(&[-0.0, 1.0]).map(|&x| three().with(&[(flag, x)])));
        // A number that is missing, of a box before or behind, or of this one.
        for number in [0, 22 - 1, BOX, 2 * BOX - 2, 2 * BOX, 3 * BOX - 2] {
            all.push(three().with(&[(flag, 0.5), (number, NAN)]));
            all.push(three().with(&[(flag, NAN), (number, f64::INFINITY)]));
        }
        let mut struck = three().with(&[(flag, 2.0)]);
        struck.volume[six - 1] = NAN;
        all.push(struck);
    }
    // Every set of faults: a volume too short for any, no count, another length;
    // no boxes; other slots; a flag; a number.
    for faults in 0..128_u32 {
        let has = |fault: u32| faults >> fault & 1 == 1;
        let mut given = three();
        if has(1) {
            given.volume[0] = 6.5;
        }
        if has(5) {
            given.boxes[2 * BOX + 22] = 0.5;
        }
        if has(6) {
            given.boxes[BOX + 7] = NAN;
        }
        let volume = match (has(0), has(2)) {
            (true, _) => six - 1,
            (_, true) => seven,
            _ => six,
        };
        all.push(given.cut(volume, 3 * BOX + usize::from(has(3)), 3 + usize::from(has(4))));
    }
    all
}

/// Every number missing in every way, of the volume and of boxes of several
/// kinds, also where it is not looked at; and numbers at the edges.
fn missing() -> Vec<Given> {
    let kinds = kinds().map(|(b, _)| b);
    let boxes = [kinds[0], kinds[2], kinds[12]];
    let mut all = vec![];
    for planes in [FEWEST_PLANES, FEWEST_PLANES + 1, MOST_PLANES] {
        let given = Given::of(&inputs::with_planes(CUBE, planes), &boxes);
        all.extend(inputs::struck(&given.volume).into_iter().map(|volume| Given { volume, ..given.clone() }));
    }
    let given = Given::of(&Volume::of(CUBE), &boxes);
    all.extend(inputs::struck(&given.boxes).into_iter().map(|boxes| Given { boxes, ..given.clone() }));
    all
}

/// A batch, one in four times with other lengths.
fn drawn(rng: &mut Rng) -> Given {
    let (volume, boxes) = inputs::batch(rng);
    let given = Given::of(&volume, &boxes);
    let (view, numbers, count) = (given.volume.len(), given.boxes.len(), given.slots);
    let volume_lengths = [0, 1, 25, 48, 49, 50, 53, view - 1, view + 1, view + 4, view - 4, view + 24];
    let any = |rng: &mut Rng| rng.below(volume_length(MOST_PLANES) as u64 + 9) as usize;
    match rng.below(24) {
        0 => given.cut(view, numbers - 1 + 2 * rng.below(2) as usize, count),
        1 => given.cut(view, numbers, rng.pick(&[0, 1, count - 1, count + 1, 2 * count, BOX * count, 63])),
        2 => given.cut(rng.pick(&volume_lengths), numbers, count),
        3 => given.cut(any(rng), numbers, count),
        4 => {
            let numbers = rng.below(4 * BOX as u64) as usize;
            given.cut(view, numbers, if rng.once_in(4) { count } else { numbers / BOX })
        }
        5 => {
            let numbers = rng.pick(&[0, BOX, 2 * BOX, numbers, numbers, numbers - 1]);
            given.cut(rng.pick(&volume_lengths), numbers, rng.pick(&[0, 1, 2, 3, count]))
        }
        _ => given,
    }
}

/// Batches of so many boxes, as many boxes in all as a pass has calls
/// elsewhere; the last batch has what is left.
fn timed(planes: usize, count: usize, placement: fn(&mut Rng) -> Matrix) -> &'static [(Ins, Lent)] {
    let sizes = (0..Timing::CALLS.div_ceil(count)).map(|i| count.min(Timing::CALLS - i * count));
    let batch = |(i, size): (usize, usize)| {
        let (volume, boxes) = inputs::boxes_asked(&mut Rng::at(1, i as u64), planes, size, placement);
        let number = |numbers: &[f64]| Lent::to_read(numbers.to_vec().leak());
        let slots = vec![0_u32; size].leak();
        let ins = [number(volume.numbers()), number(boxes.as_flattened()), Lent::NONE, Lent::NONE];
        (ins, Lent { at: slots.as_mut_ptr().cast(), len: size })
    };
    sizes.enumerate().map(batch).collect::<Vec<_>>().leak()
}

impl Laid for Batch {
    type Given = Given;
    type Side = dyn Side;

    fn name(&self) -> &'static str {
        "intersects_bboxes"
    }

    fn drawn(rng: &mut Rng) -> Given {
        drawn(rng)
    }

    fn lay(given: &Given) -> Desk {
        Desk::new().numbers(&given.volume).numbers(&given.boxes).slots(given.slots)
    }

    fn put(desk: &mut Desk, side: &dyn Side) -> u32 {
        let ins = [desk.numbers.lent(0), desk.numbers.lent(1), Lent::NONE, Lent::NONE];
        side.call(&ins, desk.words.lent(0))
    }

    /// A yes is a box in view.
    fn outcome(&self, status: u32, desk: &Desk) -> usize {
        seen(status, desk.words.slice(0).contains(&1))
    }

    fn shown(&self, given: &Given, judge: (u32, &Desk), ours: (u32, &Desk)) -> String {
        let Given { volume, boxes, slots } = given;
        let mut text = format!("([{}], {} numbers; {slots} slots)", words::list(volume), boxes.len());
        for (i, record) in boxes.chunks(BOX).enumerate() {
            text += &format!("\n      {i} [{}]", words::list(record));
        }
        text += &format!("\n      judge {} {:?}", judge.0, judge.1.words.slice(0));
        text + &format!("\n      ours  {} {:?}", ours.0, ours.1.words.slice(0))
    }

    /// The time is of one box.
    fn timings(of: &Both<Batch>) -> Vec<Timing<'_>> {
        let Some(ours) = &of.ours else {
            return vec![];
        };
        let timing =
            |(set, planes, count, placement, tests): (&'static str, usize, usize, fn(&mut Rng) -> Matrix, bool)| {
                let rust = if tests { &of.of.tested } else { &of.of.untested };
                Timing::with_rooms(set, [ours.as_ref(), rust.as_ref()], timed(planes, count, placement))
            };
        let (few, most) = (FEWEST_PLANES, MOST_PLANES);
        let (rigid, scaled): (fn(&mut Rng) -> Matrix, fn(&mut Rng) -> Matrix) =
            (inputs::rigid_placement, inputs::placement);
        let sets = [
            ("63 rigid boxes", few, 63, rigid, false),
            ("63 rigid, both test", few, 63, rigid, true),
            ("63 scaled boxes", few, 63, scaled, false),
            ("63 scaled, both test", few, 63, scaled, true),
            ("1000 rigid boxes", few, 1000, rigid, false),
            ("1000 scaled boxes", few, 1000, scaled, false),
            ("the most planes, 63 rigid", most, 63, rigid, false),
            ("the most planes, 63 scaled", most, 63, scaled, false),
        ];
        sets.map(timing).into()
    }

    /// The fixed ones of at most three boxes, and drawn ones. A replay tries
    /// slots one less and one more where there are two or more, which is
    /// behind a wrong length; so that of these one box alone is recorded.
    fn recorded(of: &Both<Batch>) -> Vec<Given> {
        let fits = |given: &Given| given.is_recorded() && (given.slots < 2 || of.judged(given).0 != WRONG_INPUT);
        let (fixed, struck) = of.fixed.split_at(of.of.recorded);
        let fixed = fixed.iter().chain(struck.iter().step_by(STEP)).cloned().filter(fits);
        let drawn = (0..).map(|case| drawn(&mut Rng::at(1, case))).filter(fits).take(RECORDED);
        fixed.chain(drawn).collect()
    }

    fn words(&self, _: &Given, desk: &Desk) -> (Vec<Vec<u64>>, Vec<u64>) {
        let given = [0, 1].map(|i| desk.numbers.slice(i).to_vec()).to_vec();
        (given, desk.words.slice(0).iter().map(|&slot| slot.into()).collect())
    }

    fn sides(of: &Both<Batch>) -> [Option<&dyn Side>; 2] {
        [Some(of.judge.as_ref()), of.ours.as_deref()]
    }

    /// No volume and no boxes; no count; another length; no slots; no flag; a
    /// number that is missing.
    #[cfg(test)]
    fn mended() -> Vec<Given> {
        let [touching, ..] = kinds().map(|(b, _)| b);
        let given = |count: f64, flag: f64, number: f64| {
            let boxes = [touching, with(touching, &[(0, number), (22, flag)])];
            Given::of(&Volume::of(CUBE).counted(count), &boxes)
        };
        vec![
            given(5.0, 0.5, NAN).cut(48, BOX + 1, 1),
            given(5.0, 0.5, NAN).cut(53, 2 * BOX, 1),
            given(6.0, 0.5, NAN).cut(53, 2 * BOX, 1),
            given(6.0, 0.5, NAN).cut(49, 2 * BOX, 1),
            given(6.0, 0.5, NAN),
            given(6.0, 1.0, NAN),
            given(6.0, 1.0, 1.0),
        ]
    }
}

/// How many drawn ones are recorded, and of those with a missing number one in
/// how many.
const RECORDED: usize = 20;
const STEP: usize = 61;

#[cfg(test)]
mod tests {
    use super::*;

    #[test]
    fn verdicts_by_the_cube() {
        let mut slots = [9; 16];
        let boxes = kinds().map(|(b, _)| b);
        assert_eq!(judge(Volume::of(CUBE).numbers(), boxes.as_flattened(), &mut slots), 0);
        assert_eq!(slots, kinds().map(|(_, yes)| u32::from(yes)));
    }

    /// What a batch answers is what `intersects_bbox` answers of each box, and
    /// a refusal but that of the slots is the first, in this order, that any
    /// box gets.
    #[test]
    fn a_batch_is_its_boxes() {
        let single = super::super::verdict::all().into_iter().find(|op| op.name() == "intersects_bbox").expect("it is");
        let [Some(single), _] = single.sides().expect("it lends slices") else {
            unreachable!("the Rust is there");
        };
        let (mut answered, mut refused) = (0, 0);
        for case in 0..20_000 {
            let (volume, boxes) = inputs::batch(&mut Rng::at(9, case));
            let mut slots = vec![7; boxes.len()];
            let status = judge(volume.numbers(), boxes.as_flattened(), &mut slots);
            let alone = boxes.iter().map(|record| {
                let mut out = [0.0];
                let status = single.call(&Lent::all(&[volume.numbers(), record]), Lent::to_write(&mut out));
                (status, out[0].to_bits() as u32)
            });
            let alone: Vec<(u32, u32)> = alone.collect();
            let first = [12, 1, 3, 13].into_iter().find(|&refusal| alone.iter().any(|&(status, _)| status == refusal));
            assert_eq!(status, first.unwrap_or(0), "case {case}");
            if status == 0 {
                assert_eq!(slots, alone.iter().map(|&(_, yes)| yes).collect::<Vec<u32>>(), "case {case}");
                answered += 1;
            } else {
                assert!(slots.iter().all(|&slot| slot == 7), "case {case}");
                refused += 1;
            }
        }
        assert!(answered > 10_000 && refused > 3_000, "{answered} answered, {refused} refused");
    }
}
