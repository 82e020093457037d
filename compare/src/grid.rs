//! The farm grid by a second judge, exact whole numbers: verdicts, turns,
//! combining, what is nearest, both engines on lines that graze, which plane
//! hides a line, clip space, and blocks under planes in any direction. The Rust
//! is judged as the archive is.

use crate::exact;
use crate::inputs::{
    self, FarmBox, Rng, Turn, Whole, WholeAsked, WholeBox, WholePlane, among_others, farm_volume, floats, on_grid,
};
use crate::judge::{FEWEST_PLANES, IN_VIEW, NO_PLACE};
use crate::lent::{Ins, Lent, Side};
use crate::op::Op;
use crate::ops::{whole_box_lent, whole_lent};
use crate::trial::{Outcome, Trial};
use std::fmt::Debug;

/// A function that is asked, by its name.
#[derive(Clone, Copy)]
enum Ask {
    Point,
    Segment,
    Box,
    Transform,
    Product,
    Combine,
    AlignedRange,
    Group,
    Nearest,
    Within,
    WholeSegment,
    ViewVolume,
    Blocking,
    Behind,
    WholeBox,
    ExactBox,
    Volume,
}

const NAMES: [&str; 17] = [
    "intersects_point",
    "intersects_segment",
    "intersects_bbox",
    "transform",
    "product",
    "bbox_combine",
    "bbox_aligned_range",
    "bbox_combine_group",
    "range_nearest",
    "range_within",
    "whole_intersects_segment",
    "intersects_view_volume",
    "blocking_plane",
    "blocking_planes",
    "whole_intersects_bbox",
    "exact_bbox",
    "volume_from_view_and_projection",
];

/// One who answers: the Rust, or the archive.
struct Engine<'a> {
    who: &'static str,
    functions: [Option<&'a dyn Side>; NAMES.len()],
}

impl Engine<'_> {
    fn call(&self, ask: Ask, records: &[&[f64]], out: Lent) -> Result<(), String> {
        self.lend(ask, &Lent::all(records), out)
    }

    fn lend(&self, ask: Ask, ins: &Ins, out: Lent) -> Result<(), String> {
        match self.functions[ask as usize].expect("asked only if exported").call(ins, out) {
            0 => Ok(()),
            refusal => Err(format!("{} of {} is refused: {refusal}", NAMES[ask as usize], self.who)),
        }
    }

    /// The place that is nearest.
    fn nearest(&self, ranges: &[f64], p: &[f64]) -> Result<u32, String> {
        let mut place = [0.0];
        self.call(Ask::Nearest, &[ranges, p], Lent::to_write(&mut place))?;
        Ok(place[0].to_bits() as u32)
    }

    /// How many are within a distance, and the slots.
    fn within(&self, ranges: &[f64], p: &[f64], limit: f64) -> Result<(u32, Vec<u32>), String> {
        let mut found = [0.0];
        let mut slots = vec![0; ranges.len() / 6];
        let limit = [limit];
        let mut ins = Lent::all(&[ranges, p, &limit]);
        ins[3] = Lent { at: slots.as_mut_ptr().cast(), len: slots.len() };
        self.lend(Ask::Within, &ins, Lent::to_write(&mut found))?;
        Ok((found[0].to_bits() as u32, slots))
    }

    fn numbers<const N: usize>(&self, ask: Ask, records: &[&[f64]]) -> Result<[f64; N], String> {
        let mut out = [0.0; N];
        self.call(ask, records, Lent::to_write(&mut out))?;
        Ok(out)
    }

    fn verdict(&self, ask: Ask, records: &[&[f64]]) -> Result<bool, String> {
        let mut out = [0.0];
        self.call(ask, records, Lent::to_write(&mut out))?;
        Ok(out[0].to_bits() as u32 == 1)
    }

    /// The verdict on a segment in whole numbers. Beside the Rust, which has no
    /// such engine, this is its judge.
    fn whole_verdict(&self, asked: &WholeAsked) -> Result<bool, String> {
        let mut out = [0.0];
        self.lend(Ask::WholeSegment, &whole_lent(asked), Lent::to_write(&mut out))?;
        Ok(out[0].to_bits() as u32 == 1)
    }

    /// The exact verdict on a box in whole numbers, of which a yes is to come
    /// with a point of both, and a no to leave what was there. Beside the Rust,
    /// which has no such engine, this is a plain search.
    fn shared(&self, planes: &[WholePlane], corners: [Whole; 2]) -> Result<bool, String> {
        let before = [1, -2, 3, -4];
        let (mut out, mut witness) = ([0.0], before);
        let asked = WholeBox::of(planes, corners);
        let ins = whole_box_lent(&asked, &mut witness);
        self.lend(Ask::WholeBox, &ins, Lent::to_write(&mut out))?;
        let verdict = out[0].to_bits() as u32 == 1;
        let right = if verdict { exact::is_shared(planes, corners, witness) } else { witness == before };
        self.expect("whether the witness is right", right, true, &(planes, corners, witness))?;
        Ok(verdict)
    }

    /// The exact verdict on a box's record.
    fn exact(&self, planes: &[WholePlane], record: &[f64; 23]) -> Result<bool, String> {
        self.verdict(Ask::ExactBox, &[farm_volume(planes).numbers(), record])
    }

    /// The place of the plane that hides a segment; nothing where the segment is
    /// in view.
    fn blocking(&self, records: &[&[f64]]) -> Result<Option<u32>, String> {
        let mut place = [0.0];
        let function = self.functions[Ask::Blocking as usize].expect("asked only if exported");
        match function.call(&Lent::all(records), Lent::to_write(&mut place)) {
            0 => Ok(Some(place[0].to_bits() as u32)),
            IN_VIEW => Ok(None),
            refusal => Err(format!("blocking_plane of {} is refused: {refusal}", self.who)),
        }
    }

    /// The planes that a box is wholly behind, a bit for each.
    fn behind(&self, planes: &[WholePlane], record: &[f64; 23]) -> Result<u32, String> {
        let mut bits = [0.0];
        self.call(Ask::Behind, &[farm_volume(planes).numbers(), record], Lent::to_write(&mut bits))?;
        Ok(bits[0].to_bits() as u32)
    }

    /// Whether an answer is the one expected.
    fn expect<T: PartialEq + Debug>(&self, what: &str, answer: T, expected: T, of: &dyn Debug) -> Result<(), String> {
        if answer == expected {
            return Ok(());
        }
        Err(format!("{what} of {}: {answer:?}, exactly {expected:?}\n      {of:?}", self.who))
    }

    /// A point moved by a turn, which is to be where it is exactly.
    fn moved(&self, turn: &Turn, p: Whole) -> Result<[f64; 3], String> {
        let moved = self.numbers(Ask::Transform, &[&turn.matrix(), &floats(p)])?;
        self.expect("a point turned", moved, floats(turn.point(p)), &(turn, p))?;
        Ok(moved)
    }
}

/// Draws a case and asks all engines: the kind of outcome, or what differs.
type Try = fn(&[Engine], u64, &mut Rng) -> Result<usize, String>;

pub struct Farm<'a> {
    name: &'static str,
    tried: Try,
    engines: Vec<Engine<'a>>,
    lacking: bool,
}

pub fn all(ops: &[Box<dyn Op>]) -> Vec<Farm<'_>> {
    let farm = |name, needs: &[Ask], tried| {
        let side = |of: usize, name: &str| ops.iter().find(|op| op.name() == name)?.sides()?[of];
        let engine = |(of, who)| Engine { who, functions: NAMES.map(|name| side(of, name)) };
        let able = |engine: &Engine| needs.iter().all(|&ask| engine.functions[ask as usize].is_some());
        let engines: Vec<Engine> = [(0, "the Rust"), (1, "ours")].map(engine).into_iter().filter(able).collect();
        let lacking = engines.len() < 2;
        Farm { name, tried, engines, lacking }
    };
    vec![
        farm("points", &[Ask::Point], points),
        farm("segments", &[Ask::Segment], segments),
        farm("boxes", &[Ask::Box], boxes),
        farm("turned points", &[Ask::Point, Ask::Transform], turned_points),
        farm("turned segments", &[Ask::Segment, Ask::Transform], turned_segments),
        farm("turned boxes", &[Ask::Box, Ask::Product], turned_boxes),
        farm("combined boxes", &[Ask::Combine, Ask::AlignedRange], combined),
        farm("grouped boxes", &[Ask::Group, Ask::AlignedRange], grouped),
        farm("members of groups", &[Ask::Group, Ask::Box], members),
        farm("nearest ranges", &[Ask::Nearest], nearest),
        farm("ranges within", &[Ask::Within], within),
        farm("near ties", &[Ask::Segment, Ask::WholeSegment], near_ties),
        farm("grazing lines", &[Ask::Segment, Ask::WholeSegment], grazing_lines),
        farm("hidden lines", &[Ask::Blocking], hidden_lines),
        farm("planes behind", &[Ask::Behind], planes_behind),
        farm("oblique planes behind", &[Ask::Behind], oblique_behind),
        farm("points in clip space", &[Ask::ViewVolume], clipped),
        farm("points of whole views", &[Ask::Volume, Ask::Point], seen_points),
        farm("oblique blocks", &[Ask::WholeBox], oblique_blocks),
        farm("turned oblique blocks", &[Ask::WholeBox], turned_blocks),
        farm("blocks and a plane more", &[Ask::WholeBox], screened_blocks),
        farm("records of blocks", &[Ask::WholeBox, Ask::ExactBox], block_records),
        farm("turned records of blocks", &[Ask::ExactBox, Ask::Product], turned_records),
        farm("blocks by axis planes", &[Ask::Box, Ask::WholeBox, Ask::ExactBox], axis_blocks),
    ]
}

fn outcome(verdict: bool) -> usize {
    if verdict { Outcome::YES } else { Outcome::NO }
}

fn points(engines: &[Engine], _: u64, rng: &mut Rng) -> Result<usize, String> {
    let (six, p) = inputs::farm_point(rng);
    let planes = among_others(rng, &six);
    let exact = exact::point(&planes, p);
    for engine in engines {
        let verdict = engine.verdict(Ask::Point, &[farm_volume(&planes).numbers(), &floats(p)])?;
        engine.expect("a point", verdict, exact, &(&planes, p))?;
    }
    Ok(outcome(exact))
}

fn segments(engines: &[Engine], _: u64, rng: &mut Rng) -> Result<usize, String> {
    let (six, a, b) = inputs::farm_segment(rng);
    let planes = among_others(rng, &six);
    let exact = exact::segment(&planes, a, b);
    for engine in engines {
        let verdict = engine.verdict(Ask::Segment, &[farm_volume(&planes).numbers(), &floats(a), &floats(b)])?;
        engine.expect("a segment", verdict, exact, &(&planes, a, b))?;
    }
    Ok(outcome(exact))
}

fn boxes(engines: &[Engine], _: u64, rng: &mut Rng) -> Result<usize, String> {
    let (planes, given) = loop {
        let (six, given) = inputs::farm_box_view(rng);
        let planes = among_others(rng, &six);
        if exact::share_a_point(&planes) {
            break (planes, given);
        }
    };
    let exact = exact::placed_box(&planes, given.placed());
    for engine in engines {
        let verdict = engine.verdict(Ask::Box, &[farm_volume(&planes).numbers(), &given.record()])?;
        engine.expect("a box", verdict, exact, &(&planes, given))?;
    }
    Ok(outcome(exact))
}

/// How far the placed box reaches past a plane, exactly: below 0 where no point
/// of it satisfies the plane.
fn reach(plane: &WholePlane, corners: [Whole; 2]) -> i64 {
    exact::corners(corners).map(|p| plane.reach(p)).into_iter().max().expect("eight corners")
}

/// By axis planes a bit is set just where no exact point of the placed box
/// satisfies the plane.
fn planes_behind(engines: &[Engine], _: u64, rng: &mut Rng) -> Result<usize, String> {
    let (six, given) = inputs::farm_box_view(rng);
    let planes = among_others(rng, &six);
    let bit = |(i, plane): (usize, &WholePlane)| u32::from(reach(plane, given.placed()) < 0) << i;
    let exact: u32 = planes.iter().enumerate().map(bit).sum();
    for engine in engines {
        let bits = engine.behind(&planes, &given.record())?;
        engine.expect("the planes behind", bits, exact, &(&planes, given))?;
    }
    Ok(outcome(exact == 0))
}

/// By planes in any direction a bit that is set means that no point of the placed
/// box is strictly in front, and one that is not that some point satisfies the
/// plane. What just touches may get either.
fn oblique_behind(engines: &[Engine], _: u64, rng: &mut Rng) -> Result<usize, String> {
    let (planes, corners) = inputs::oblique(rng);
    let record = inputs::placed_block(rng, corners).record();
    let mut kind = 0;
    for engine in engines {
        let bits = engine.behind(&planes, &record)?;
        for (i, plane) in planes.iter().enumerate() {
            let (set, reach) = (bits >> i & 1 == 1, reach(plane, corners));
            engine.expect("a plane behind", set && reach > 0 || !set && reach < 0, false, &(&planes, corners, i))?;
        }
        kind = outcome(bits == 0);
    }
    Ok(kind)
}

/// Planes under a turn, where they stay within the limits.
fn turned(planes: &[WholePlane], turn: &Turn) -> Vec<WholePlane> {
    planes.iter().map(|plane| turn.plane(plane)).collect()
}

fn turn_of(rng: &mut Rng, case: u64, planes: &[WholePlane], holds: impl Fn(&Turn) -> bool) -> Turn {
    inputs::turn_within(rng, case, |turn| turned(planes, turn).iter().all(WholePlane::within_limits) && holds(turn))
}

fn turned_points(engines: &[Engine], case: u64, rng: &mut Rng) -> Result<usize, String> {
    let (six, p) = inputs::farm_point(rng);
    let planes = among_others(rng, &six);
    let turn = turn_of(rng, case, &planes, |turn| on_grid(turn.point(p)));
    let before = exact::point(&planes, p);
    for engine in engines {
        let verdict = engine.verdict(Ask::Point, &[farm_volume(&planes).numbers(), &floats(p)])?;
        engine.expect("a point", verdict, before, &(&planes, p))?;
        let moved = engine.moved(&turn, p)?;
        let after = engine.verdict(Ask::Point, &[farm_volume(&turned(&planes, &turn)).numbers(), &moved])?;
        engine.expect("a point turned with its planes", after, before, &(&planes, p, turn))?;
    }
    Ok(outcome(before))
}

fn turned_segments(engines: &[Engine], case: u64, rng: &mut Rng) -> Result<usize, String> {
    let (six, a, b) = inputs::farm_segment(rng);
    let planes = among_others(rng, &six);
    let turn = turn_of(rng, case, &planes, |turn| on_grid(turn.point(a)) && on_grid(turn.point(b)));
    let before = exact::segment(&planes, a, b);
    for engine in engines {
        let verdict = engine.verdict(Ask::Segment, &[farm_volume(&planes).numbers(), &floats(a), &floats(b)])?;
        engine.expect("a segment", verdict, before, &(&planes, a, b))?;
        let ends = [engine.moved(&turn, a)?, engine.moved(&turn, b)?];
        let after =
            engine.verdict(Ask::Segment, &[farm_volume(&turned(&planes, &turn)).numbers(), &ends[0], &ends[1]])?;
        engine.expect("a segment turned with its planes", after, before, &(&planes, a, b, turn))?;
    }
    Ok(outcome(before))
}

fn turned_boxes(engines: &[Engine], case: u64, rng: &mut Rng) -> Result<usize, String> {
    let (six, given) = inputs::farm_box_view(rng);
    let planes = among_others(rng, &six);
    let after = |turn: &Turn| FarmBox { placement: given.placement.then(turn), ..given };
    let turn = turn_of(rng, case, &planes, |turn| after(turn).within_limits());
    let mut kind = 0;
    for engine in engines {
        // The planes need not share a point for this.
        let before = engine.verdict(Ask::Box, &[farm_volume(&planes).numbers(), &given.record()])?;
        if exact::share_a_point(&planes) {
            engine.expect("a box", before, exact::placed_box(&planes, given.placed()), &(&planes, given))?;
        }
        let placement: [f64; 16] = engine.numbers(Ask::Product, &[&given.placement.matrix(), &turn.matrix()])?;
        engine.expect("a placement turned", placement, after(&turn).placement.matrix(), &(given, turn))?;
        let mut moved = given.record();
        moved[6..22].copy_from_slice(&placement);
        let verdict = engine.verdict(Ask::Box, &[farm_volume(&turned(&planes, &turn)).numbers(), &moved])?;
        engine.expect("a box turned with its planes", verdict, before, &(&planes, given, turn))?;
        kind = outcome(before);
    }
    Ok(kind)
}

/// The most boxes in a list.
const LIST: u64 = 8;

/// The range that grid boxes are placed in together.
fn range_of(list: &[FarmBox]) -> [f64; 6] {
    inputs::joined(&inputs::placed_together(list).map(floats).each_ref().map(|corner| &corner[..]))
}

fn combined(engines: &[Engine], _: u64, rng: &mut Rng) -> Result<usize, String> {
    let list: Vec<FarmBox> = (0..1 + rng.below(LIST)).map(|_| inputs::farm_box(rng)).collect();
    let exact = range_of(&list);
    let order = rng.bits();
    for engine in engines {
        let rng = &mut Rng::at(order, 0);
        let mut left: Vec<[f64; 23]> = list.iter().map(FarmBox::record).collect();
        while left.len() > 1 {
            let a = left.swap_remove(rng.below(left.len() as u64) as usize);
            let b = left.swap_remove(rng.below(left.len() as u64) as usize);
            left.push(engine.numbers(Ask::Combine, &[&a, &b])?);
        }
        let range = engine.numbers(Ask::AlignedRange, &[&left[0]])?;
        engine.expect("the range of boxes combined", range, exact, &list)?;
    }
    Ok(0)
}

/// A list in any order and in any parts: some of what is left, taken in any
/// order, are grouped and their result takes their place, until one is left.
fn grouped(engines: &[Engine], _: u64, rng: &mut Rng) -> Result<usize, String> {
    let size = if rng.once_in(512) { 1 + rng.below(600) } else { 1 + rng.below(12) };
    let list: Vec<FarmBox> = (0..size).map(|_| inputs::farm_box(rng)).collect();
    let exact = range_of(&list);
    let order = rng.bits();
    for engine in engines {
        let rng = &mut Rng::at(order, 0);
        let mut left: Vec<[f64; 23]> = list.iter().map(FarmBox::record).collect();
        loop {
            let most = left.len().min(inputs::MOST_BOXES) as u64;
            let size = if rng.once_in(4) { most } else { 1 + rng.below(most) };
            let group: Vec<[f64; 23]> =
                (0..size).map(|_| left.swap_remove(rng.below(left.len() as u64) as usize)).collect();
            left.push(engine.numbers(Ask::Group, &[group.as_flattened()])?);
            if left.len() == 1 {
                break;
            }
        }
        let range = engine.numbers(Ask::AlignedRange, &[&left[0]])?;
        engine.expect("the range of boxes grouped", range, exact, &list)?;
    }
    Ok(0)
}

/// A group that is out of a view has no member in it.
fn members(engines: &[Engine], _: u64, rng: &mut Rng) -> Result<usize, String> {
    let (six, list) = inputs::farm_group_view(rng, LIST);
    let planes = among_others(rng, &six);
    let volume = farm_volume(&planes);
    let records: Vec<[f64; 23]> = list.iter().map(FarmBox::record).collect();
    let mut kind = 0;
    for engine in engines {
        let group: [f64; 23] = engine.numbers(Ask::Group, &[records.as_flattened()])?;
        let verdict = engine.verdict(Ask::Box, &[volume.numbers(), &group])?;
        for record in &records {
            let member = engine.verdict(Ask::Box, &[volume.numbers(), record])?;
            engine.expect("a member of a group that is out", member && !verdict, false, &(&planes, &list))?;
        }
        kind = outcome(verdict);
    }
    Ok(kind)
}

/// Ranges and a point as they are lent.
fn lent(rng: &mut Rng, ranges: &[[Whole; 2]], p: Whole) -> (Vec<f64>, [f64; 3]) {
    let numbers = ranges.as_flattened().as_flattened().iter().map(|&x| inputs::float_of(rng, x)).collect();
    (numbers, p.map(|x| inputs::float_of(rng, x)))
}

fn nearest(engines: &[Engine], _: u64, rng: &mut Rng) -> Result<usize, String> {
    let (ranges, p) = inputs::farm_report(rng);
    let exact = exact::nearest(&ranges, p);
    let (numbers, at) = lent(rng, &ranges, p);
    for engine in engines {
        let place = engine.nearest(&numbers, &at)?;
        engine.expect("the nearest range", place, exact.map_or(NO_PLACE, |i| i as u32), &(&ranges, p))?;
    }
    Ok(if exact.is_some() { Outcome::PLACE } else { Outcome::NONE })
}

/// A square, mostly that of one of the ranges or next to it.
fn limit(rng: &mut Rng, ranges: &[[Whole; 2]], p: Whole) -> i64 {
    let of_one = exact::square_to(&ranges[rng.below(ranges.len() as u64) as usize], p).unwrap_or(0);
    match rng.below(8) {
        0..4 => of_one,
        4 => of_one - 1,
        5 => of_one + 1,
        6 => 0,
        _ => rng.whole(1 << 36),
    }
}

fn within(engines: &[Engine], _: u64, rng: &mut Rng) -> Result<usize, String> {
    let (ranges, p) = inputs::farm_report(rng);
    let limit = limit(rng, &ranges, p);
    let exact = exact::within(&ranges, p, limit);
    let mut slots: Vec<u32> = exact.iter().map(|&i| i as u32).collect();
    slots.resize(ranges.len(), NO_PLACE);
    let (numbers, at) = lent(rng, &ranges, p);
    let square = inputs::float_of(rng, limit);
    for engine in engines {
        let left = engine.within(&numbers, &at, square)?;
        engine.expect("the ranges within", left, (exact.len() as u32, slots.clone()), &(&ranges, p, limit))?;
    }
    Ok(if exact.is_empty() { Outcome::NONE } else { Outcome::PLACE })
}

/// Both engines, of floats and of whole numbers, on one segment.
fn by_both(engines: &[Engine], rng: &mut Rng, six: &[WholePlane; 6], a: Whole, b: Whole) -> Result<usize, String> {
    let planes = among_others(rng, six);
    let exact = exact::segment(&planes, a, b);
    let volume = farm_volume(&planes);
    for engine in engines {
        let by_floats = engine.verdict(Ask::Segment, &[volume.numbers(), &floats(a), &floats(b)])?;
        engine.expect("a segment", by_floats, exact, &(&planes, a, b))?;
        let whole = engine.whole_verdict(&WholeAsked::of(&planes, a, b))?;
        engine.expect("a segment in whole numbers", whole, exact, &(&planes, a, b))?;
    }
    Ok(outcome(exact))
}

fn near_ties(engines: &[Engine], _: u64, rng: &mut Rng) -> Result<usize, String> {
    let (six, a, b) = inputs::near_tie(rng);
    by_both(engines, rng, &six, a, b)
}

fn grazing_lines(engines: &[Engine], _: u64, rng: &mut Rng) -> Result<usize, String> {
    let (six, a, b) = inputs::grazing(rng);
    by_both(engines, rng, &six, a, b)
}

/// The plane that alone hides a line, or that the line is in view.
fn hidden_lines(engines: &[Engine], _: u64, rng: &mut Rng) -> Result<usize, String> {
    let (planes, a, b) = inputs::farm_blocked(rng);
    let place = exact::blocking(&planes, a, b).map_or(NO_PLACE, |place| place as u32);
    let exact = (!exact::segment(&planes, a, b)).then_some(place);
    let volume = farm_volume(&planes);
    for engine in engines {
        let answer = engine.blocking(&[volume.numbers(), &floats(a), &floats(b)])?;
        engine.expect("what hides a line", answer, exact, &(&planes, a, b))?;
    }
    Ok(match exact {
        None => IN_VIEW as usize,
        Some(NO_PLACE) => Outcome::NONE,
        Some(_) => Outcome::PLACE,
    })
}

/// A box of which an exact point is in the clip volume is not lost; and the
/// verdict is the exact one of its corners. A yes is a point in the volume.
fn clipped(engines: &[Engine], case: u64, rng: &mut Rng) -> Result<usize, String> {
    let (given, camera, point) = inputs::clip_case(case, rng);
    let inside = exact::in_clip_volume(exact::clip_point(&given, &camera, &point));
    let by_corners = exact::each_side(&given, &camera);
    for engine in engines {
        let verdict = engine.verdict(Ask::ViewVolume, &[&given.record(), &inputs::whole_matrix(&camera)])?;
        engine.expect("a box lost", inside && !verdict, false, &(given, camera, point))?;
        engine.expect("a box in clip space", verdict, by_corners, &(given, camera))?;
    }
    Ok(outcome(inside))
}

/// By the volume of two matrices whose product is whole, a grid point is in view
/// just where its clip point has x, y and z from −w to w; and the volume's planes
/// are the sums and differences of columns, exactly.
fn seen_points(engines: &[Engine], _: u64, rng: &mut Rng) -> Result<usize, String> {
    let (camera, p) = inputs::seen_case(rng);
    let (view, projection) = inputs::parted(rng, &camera);
    let [x, y, z, w] = inputs::ExactPoint::through(p.map(i128::from), 1, &camera);
    let inside = [x, y, z].iter().all(|&c| -w <= c && c <= w);
    let planes: Vec<f64> = (0..24)
        .map(|i| {
            let (side, k) = (i / 4, i % 4);
            let (last, other) = (camera[k][3], camera[k][side / 2]);
            let number = if side % 2 == 0 { last + other } else { last - other };
            (if k == 3 { -number } else { number }) as f64
        })
        .collect();
    for engine in engines {
        let volume: [f64; 49] = engine.numbers(Ask::Volume, &[&view, &projection])?;
        engine.expect("the planes of a whole view", &volume[1..25], &planes[..], &(view, projection))?;
        let verdict = engine.verdict(Ask::Point, &[&volume, &floats(p)])?;
        engine.expect("a point of a whole view", verdict, inside, &(camera, p))?;
    }
    Ok(outcome(inside))
}

/// Blocks that touch a plane, an edge or a corner of the view, or just do not.
fn oblique_blocks(engines: &[Engine], _: u64, rng: &mut Rng) -> Result<usize, String> {
    let (planes, corners) = inputs::oblique(rng);
    let exact = exact::shares_a_point(&planes, corners);
    for engine in engines {
        engine.expect("a block", engine.shared(&planes, corners)?, exact, &(&planes, corners))?;
    }
    Ok(outcome(exact))
}

fn turned_corners([a, b]: [Whole; 2], turn: &Turn) -> [Whole; 2] {
    FarmBox { min: a, max: b, placement: *turn, flag: false }.placed()
}

fn turned_blocks(engines: &[Engine], case: u64, rng: &mut Rng) -> Result<usize, String> {
    let (planes, corners) = inputs::oblique(rng);
    let turn = turn_of(rng, case, &planes, |turn| turned_corners(corners, turn).into_iter().all(on_grid));
    let exact = exact::shares_a_point(&planes, corners);
    for engine in engines {
        engine.expect("a block", engine.shared(&planes, corners)?, exact, &(&planes, corners))?;
        let after = engine.shared(&turned(&planes, &turn), turned_corners(corners, &turn))?;
        engine.expect("a block turned with its planes", after, exact, &(&planes, corners, turn))?;
    }
    Ok(outcome(exact))
}

/// A plane more, at any place, never turns a no into a yes.
fn screened_blocks(engines: &[Engine], _: u64, rng: &mut Rng) -> Result<usize, String> {
    let (planes, corners) = loop {
        let (planes, corners) = inputs::oblique(rng);
        if planes.len() > FEWEST_PLANES {
            break (planes, corners);
        }
    };
    let mut fewer = planes.clone();
    fewer.remove(rng.below(planes.len() as u64) as usize);
    let exact = exact::shares_a_point(&planes, corners);
    for engine in engines {
        let (before, after) = (engine.shared(&fewer, corners)?, engine.shared(&planes, corners)?);
        engine.expect("a block", after, exact, &(&planes, corners))?;
        engine.expect("a no that a plane more makes a yes", after && !before, false, &(&fewer, &planes, corners))?;
    }
    Ok(outcome(exact))
}

/// A record's verdict is that of its placed box in whole numbers, and of two
/// records of one placed block it is one.
fn block_records(engines: &[Engine], _: u64, rng: &mut Rng) -> Result<usize, String> {
    let (planes, corners) = inputs::oblique(rng);
    let blocks = [(); 2].map(|_| inputs::placed_block(rng, corners));
    let mut records = blocks.map(|block| block.record());
    records.iter_mut().for_each(|record| inputs::any_zeros(rng, record));
    let exact = exact::shares_a_point(&planes, corners);
    for engine in engines {
        engine.expect("a block", engine.shared(&planes, corners)?, exact, &(&planes, corners))?;
        for record in &records {
            engine.expect("a block's record", engine.exact(&planes, record)?, exact, &(&planes, corners, record))?;
        }
    }
    Ok(outcome(exact))
}

/// A record's placement takes the product with the turn.
fn turned_records(engines: &[Engine], case: u64, rng: &mut Rng) -> Result<usize, String> {
    let (planes, corners) = inputs::oblique(rng);
    let block = inputs::placed_block(rng, corners);
    let after = |turn: &Turn| FarmBox { placement: block.placement.then(turn), ..block };
    let turn = turn_of(rng, case, &planes, |turn| after(turn).within_limits());
    let exact = exact::shares_a_point(&planes, corners);
    for engine in engines {
        engine.expect("a block's record", engine.exact(&planes, &block.record())?, exact, &(&planes, block))?;
        let placement: [f64; 16] = engine.numbers(Ask::Product, &[&block.placement.matrix(), &turn.matrix()])?;
        let mut moved = block.record();
        moved[6..22].copy_from_slice(&placement);
        let verdict = engine.exact(&turned(&planes, &turn), &moved)?;
        engine.expect("a record turned with its planes", verdict, exact, &(&planes, block, turn))?;
    }
    Ok(outcome(exact))
}

/// For axis planes that share a point the filed verdict is the exact one.
fn axis_blocks(engines: &[Engine], _: u64, rng: &mut Rng) -> Result<usize, String> {
    let (planes, given) = loop {
        let (six, given) = inputs::farm_box_view(rng);
        let planes = among_others(rng, &six);
        if exact::share_a_point(&planes) {
            break (planes, given);
        }
    };
    let exact = exact::shares_a_point(&planes, given.placed());
    for engine in engines {
        let filed = engine.verdict(Ask::Box, &[farm_volume(&planes).numbers(), &given.record()])?;
        engine.expect("the filed verdict on a block", filed, exact, &(&planes, given))?;
        engine.expect("a block", engine.shared(&planes, given.placed())?, exact, &(&planes, given))?;
        engine.expect("a block's record", engine.exact(&planes, &given.record())?, exact, &(&planes, given))?;
    }
    Ok(outcome(exact))
}

impl Trial for Farm<'_> {
    fn name(&self) -> &'static str {
        self.name
    }

    fn note(&self) -> Option<&str> {
        self.lacking.then_some("the Rust alone: not exported yet")
    }

    fn cases(&self, count: u64) -> u64 {
        count
    }

    fn agree(&self, case: u64, mut rng: Rng) -> Option<usize> {
        (self.tried)(&self.engines, case, &mut rng).ok()
    }

    fn describe(&self, case: u64, mut rng: Rng) -> String {
        (self.tried)(&self.engines, case, &mut rng).err().unwrap_or_default()
    }
}

#[cfg(test)]
mod tests {
    use super::*;
    use crate::inputs::{ClipBox, ExactPoint, WHOLE_IDENTITY, WholeMatrix, whole_matrix};
    use crate::rust;
    use openusd::gf;

    /// Past the limits a clip point is rounded and a box is lost: x is 2^54,
    /// and w one more.
    #[test]
    fn past_the_limits_a_box_is_lost() {
        let lost = |scale: i64, camera: i64| {
            let mut matrix: WholeMatrix = WHOLE_IDENTITY;
            matrix[0][0] = scale;
            let far = [inputs::COORDINATE, 0, 0];
            let given = ClipBox { min: far, max: far, matrix, flag: 0.0 };
            let camera: WholeMatrix = [[camera, 0, 0, camera], [0; 4], [0; 4], [0, 0, 0, 1]];
            assert!(exact::in_clip_volume(exact::clip_point(&given, &camera, &ExactPoint { numbers: far, k: 1 })));
            let boxed = rust::boxed_without_inverse(&given.record()).expect("a flag");
            !gf::Frustum::intersects_view_volume(&boxed, rust::matrix(&whole_matrix(&camera)))
        };
        assert!(!lost(inputs::BOX_ENTRY, inputs::CAMERA_ENTRY));
        assert!(lost(1 << 26, inputs::CAMERA_ENTRY));
        assert!(lost(inputs::BOX_ENTRY, 1 << 22));
    }
}
