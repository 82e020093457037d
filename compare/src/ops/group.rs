//! Groups of boxes: a slice of box records, of any number.

use super::bbox;
use crate::desk::{Both, Desk, Laid};
use crate::exported::of_archive;
use crate::inputs::{self, Boxed, MOST_BOXES, Rng};
use crate::judge;
use crate::lent::{Ins, Lent, Pointer, Side};
use crate::op::{Op, Timing};
use crate::rust::{boxed, of_box};
use crate::words;
use openusd::gf::BBox3d;

pub fn all() -> Vec<Box<dyn Op>> {
    vec![Box::new(of_archive())]
}

/// The numbers of a box, and the most of a group.
const BOX: usize = 23;
const MOST: usize = MOST_BOXES * BOX;

/// The Rust's `combine`, repeated from left to right.
fn combined(boxes: &[f64], out: &mut [f64]) -> Result<(), u32> {
    if boxes.is_empty() || boxes.len() > MOST {
        return Err(judge::GROUP_SIZE);
    }
    let (records, []) = boxes.as_chunks::<BOX>() else {
        return Err(judge::WRONG_INPUT);
    };
    let out: &mut Boxed = out.try_into().map_err(|_| judge::WRONG_OUTPUT)?;
    let mut group = boxed(&records[0])?;
    for record in &records[1..] {
        group = BBox3d::combine(&group, &boxed(record)?);
    }
    // A single box comes back as it is.
    *out = if let [single] = records { *single } else { of_box(group) };
    Ok(())
}

fn rust(boxes: &[f64], out: &mut [f64]) -> u32 {
    combined(boxes, out).err().unwrap_or(0)
}

type Ours = unsafe extern "C" fn(*const f64, usize, *mut f64, usize) -> u32;
type Rust = fn(&[f64], &mut [f64]) -> u32;

struct Group;

fn of_archive() -> Both<Group> {
    let ours: Option<Ours> =
        of_archive!(gf_bbox_combine_group: fn(_: *const f64, _: usize, _: *mut f64, _: usize) -> u32);
    // What is lent is as long as it says, and is not lent twice.
    let ours = ours.map(|f| -> Box<dyn Side> {
        Box::new(Pointer(f, |f: Ours, ins: &Ins, out: Lent| unsafe {
            f(ins[0].at.cast_const(), ins[0].len, out.at, out.len)
        }))
    });
    let judge = Box::new(Pointer(rust as Rust, |f: Rust, ins: &Ins, out: Lent| unsafe {
        f(ins[0].slice(), std::slice::from_raw_parts_mut(out.at, out.len))
    }));
    let fixed = fixed().into_iter().map(|group| (group, BOX)).collect();
    Both { of: Group, ours, judge, fixed }
}

/// Groups on which a port goes wrong: none, one, two and three of the boxes of
/// `combine`.
fn fixed() -> Vec<Vec<f64>> {
    let boxes = bbox::fixed();
    let of = |size: usize| boxes.windows(size).map(|group| group.as_flattened().to_vec()).collect::<Vec<_>>();
    [vec![vec![]], of(1), of(2), of(3)].concat()
}

/// What is lent of a group, and how much room for its result: one in four
/// times another length, one short or long, at a limit, or any.
fn lent(mut numbers: Vec<f64>, rng: &mut Rng) -> (Vec<f64>, usize) {
    let mut room = BOX;
    match rng.below(16) {
        0 => {
            let len = numbers.len() - 1 + 2 * rng.below(2) as usize;
            numbers.resize(len, 1.0);
        }
        1 => room = rng.pick(&[0, 1, BOX - 1, BOX + 1, 2 * BOX]),
        2 => numbers.resize(rng.pick(&[0, 1, BOX - 1, BOX + 1, MOST - 1, MOST, MOST + 1, MOST + 2, MOST + BOX]), 1.0),
        3 => {
            numbers.resize(rng.below(3 * BOX as u64) as usize, 1.0);
            room = rng.below(2 * BOX as u64) as usize;
        }
        _ => {}
    }
    (numbers, room)
}

impl Laid for Group {
    /// The numbers of a group, and how long the slice for the result is.
    type Given = (Vec<f64>, usize);
    type Side = dyn Side;

    fn name(&self) -> &'static str {
        "bbox_combine_group"
    }

    fn drawn(rng: &mut Rng) -> (Vec<f64>, usize) {
        lent(inputs::group(rng).into_flattened(), rng)
    }

    fn lay((group, room): &(Vec<f64>, usize)) -> Desk {
        Desk::new().numbers(group).room(*room)
    }

    fn put(desk: &mut Desk, side: &dyn Side) -> u32 {
        side.call(&[desk.numbers.lent(0), Lent::NONE, Lent::NONE, Lent::NONE], desk.numbers.lent(1))
    }

    fn outcome(&self, status: u32, _: &Desk) -> usize {
        status as usize
    }

    /// A combined box by the rule of agreement, and bit for bit a single one, a
    /// refused one and all else.
    fn agrees(&self, (group, _): &(Vec<f64>, usize), status: u32, expected: &Desk, desk: &Desk) -> bool {
        let by_rule = status == 0 && group.len() > BOX;
        desk.is(expected, 1, if by_rule { judge::matches } else { judge::equal })
    }

    fn shown(&self, (group, room): &(Vec<f64>, usize), judge: (u32, &Desk), ours: (u32, &Desk)) -> String {
        let boxes: Vec<String> = group.chunks(BOX).map(words::list).collect();
        let out = |desk: &Desk| {
            let numbers: Vec<f64> = desk.numbers.slice(1).iter().map(|&bits| f64::from_bits(bits)).collect();
            words::list(&numbers)
        };
        let mut text = format!("({} numbers; out of {room})\n      [{}]", group.len(), boxes.join("]\n      ["));
        text += &format!("\n      judge {} [{}]", judge.0, out(judge.1));
        text + &format!("\n      ours  {} [{}]", ours.0, out(ours.1))
    }

    /// Eight groups of the most boxes are a pass, as many boxes as a pass has
    /// calls elsewhere: the time is of one box of a group.
    fn timings(of: &Both<Group>) -> Vec<Timing<'_>> {
        let Some(ours) = &of.ours else {
            return vec![];
        };
        let timing = |set, boxes: &'static [Boxed]| {
            let lent: &'static [Ins] = (boxes.chunks(MOST_BOXES))
                .map(|group| [Lent::to_read(group.as_flattened()), Lent::NONE, Lent::NONE, Lent::NONE])
                .collect::<Vec<Ins>>()
                .leak();
            Timing::of(set, [ours, &of.judge].map(|side| (side.as_ref(), lent)), BOX)
        };
        vec![
            timing("a box of 256", Timing::inputs(|_, rng| inputs::ordinary_box(rng))),
            timing("a box of 256, z from 0", Timing::inputs(|_, rng| inputs::ground_box(rng))),
        ]
    }

    /// The fixed groups, and drawn ones of at most three boxes.
    fn recorded(of: &Both<Group>) -> Vec<(Vec<f64>, usize)> {
        let drawn = (0..).map(|case| inputs::group(&mut Rng::at(1, case))).filter(|group| group.len() <= 3);
        let drawn = drawn.take(20).map(|group| (group.into_flattened(), BOX));
        of.fixed.iter().cloned().chain(drawn).collect()
    }

    fn words(&self, _: &(Vec<f64>, usize), desk: &Desk) -> (Vec<Vec<u64>>, Vec<u64>) {
        let left = desk.numbers.slice(1).iter().map(|&bits| words::plain(bits)).collect();
        (vec![desk.numbers.slice(0).to_vec()], left)
    }

    fn sides(of: &Both<Group>) -> [Option<&dyn Side>; 2] {
        [Some(of.judge.as_ref()), of.ours.as_deref()]
    }

    /// Too many and not whole boxes; not whole boxes; no room; no flag.
    #[cfg(test)]
    fn mended() -> Vec<(Vec<f64>, usize)> {
        let given = [(MOST + 1, 0.5, 0), (2 * BOX + 1, 0.5, 0), (2 * BOX, 0.5, 0), (2 * BOX, 0.5, BOX)];
        let given = given.into_iter().chain([(2 * BOX, 1.0, BOX)]);
        given.map(|(numbers, flag, room)| (vec![flag; numbers], room)).collect()
    }
}

#[cfg(test)]
mod tests {
    use super::*;
    use crate::inputs::{CUBE, IDENTITY, Volume, box_of};
    use crate::rust::planes;

    /// Two boxes beside the cube of the marked verdicts, one on either side: docs/VERDICTS.md.
    #[test]
    fn a_group_in_view_of_members_that_are_not() {
        let cube = Volume::of(CUBE);
        let [left, right] = [-3.0, 11.0].map(|x| box_of([x, 4.0, 4.0, x + 2.0, 6.0, 6.0], IDENTITY, 0.0));
        let mut group = [0.0; BOX];
        assert_eq!(rust([left, right].as_flattened(), &mut group), 0);
        assert_eq!(group, box_of([-3.0, 4.0, 4.0, 13.0, 6.0, 6.0], IDENTITY, 0.0));
        let in_view = |record: &Boxed| planes(cube.numbers()).intersects_bbox(&boxed(record).expect("a flag"));
        assert_eq!([in_view(&left), in_view(&right), in_view(&group)], [false, false, true]);
    }
}
