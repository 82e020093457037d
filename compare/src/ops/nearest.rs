//! Several ranges and a point: which range is nearest, and which are within a
//! distance.

#[cfg(test)]
mod slips;

use crate::desk::{Both, Desk, Laid};
use crate::exported::of_archive;
use crate::inputs::{self, EMPTY, MOST_RANGES, Point, Range, Report, Rng, square_to, with};
use crate::judge::{NO_PLACE, WRONG_INPUT, WRONG_OUTPUT};
use crate::lent::{Ins, Lent, Pointer, Side};
use crate::op::{Op, Timing};
use crate::rust::{point, range};
use crate::trial::Outcome;
use crate::words;
use openusd::gf::Vec3d;

pub fn all() -> Vec<Box<dyn Op>> {
    vec![Box::new(nearest_of_archive()), Box::new(within_of_archive())]
}

/// The numbers of a range, and the most of a call.
const RANGE: usize = 6;
const MOST: usize = MOST_RANGES * RANGE;

/// From 1 to the most ranges, and a point.
fn checked<'a>(ranges: &'a [f64], p: &[f64]) -> Result<(&'a [Range], Vec3d), u32> {
    if ranges.is_empty() || ranges.len() > MOST {
        return Err(WRONG_INPUT);
    }
    let (records, []) = ranges.as_chunks() else {
        return Err(WRONG_INPUT);
    };
    Ok((records, point(p.try_into().map_err(|_| WRONG_INPUT)?)))
}

/// The first range with the least of the Rust's squared distances; empty
/// ranges and distances that are NaN are passed over.
fn nearest(ranges: &[f64], p: &[f64], place: &mut u32) -> u32 {
    let (records, p) = match checked(ranges, p) {
        Ok(given) => given,
        Err(refusal) => return refusal,
    };
    let (mut found, mut least) = (NO_PLACE, 0.0);
    for (i, record) in records.iter().enumerate() {
        let one = range(record);
        if one.is_empty() {
            continue;
        }
        let distance = one.distance_squared(p);
        if !distance.is_nan() && (found == NO_PLACE || distance < least) {
            (found, least) = (i as u32, distance);
        }
    }
    *place = found;
    0
}

/// The places of the ranges that are not empty and whose squared distance, by
/// the Rust, is at most `limit`.
fn within(ranges: &[f64], p: &[f64], limit: f64, out: &mut [u32], found: &mut u32) -> u32 {
    let (records, p) = match checked(ranges, p) {
        Ok(given) => given,
        Err(refusal) => return refusal,
    };
    if out.len() != records.len() {
        return WRONG_OUTPUT;
    }
    let mut count = 0;
    for (i, record) in records.iter().enumerate() {
        let one = range(record);
        if !one.is_empty() && one.distance_squared(p) <= limit {
            out[count] = i as u32;
            count += 1;
        }
    }
    out[count..].fill(NO_PLACE);
    *found = count as u32;
    0
}

type OurNearest = unsafe extern "C" fn(*const f64, usize, *const f64, usize, *mut u32) -> u32;
type OurWithin = unsafe extern "C" fn(*const f64, usize, *const f64, usize, f64, *mut u32, usize, *mut u32) -> u32;
type RustNearest = fn(&[f64], &[f64], &mut u32) -> u32;
type RustWithin = fn(&[f64], &[f64], f64, &mut [u32], &mut u32) -> u32;

// What a side is lent, in this order: the ranges, the point, the limit and the
// slots; then the place, or the number found. Slots and the latter are u32.

/// One of the two functions.
struct Search {
    name: &'static str,
    lists: bool,
}

// What is lent is as long as it says, and is not lent twice.

fn nearest_of_archive() -> Both<Search> {
    let ours: Option<OurNearest> = of_archive!(
        gf_range_nearest: fn(_: *const f64, _: usize, _: *const f64, _: usize, _: *mut u32) -> u32
    );
    nearest_by(ours.map(|f| -> Box<dyn Side> {
        Box::new(Pointer(f, |f: OurNearest, &[ranges, p, ..]: &Ins, out: Lent| unsafe {
            f(ranges.at.cast_const(), ranges.len, p.at.cast_const(), p.len, out.at.cast())
        }))
    }))
}

fn nearest_by(ours: Option<Box<dyn Side>>) -> Both<Search> {
    let judge = Box::new(Pointer(nearest as RustNearest, |f: RustNearest, &[ranges, p, ..]: &Ins, out: Lent| unsafe {
        f(ranges.slice(), p.slice(), out.word())
    }));
    Both { of: Search { name: "range_nearest", lists: false }, ours, judge, fixed: fixed() }
}

fn within_of_archive() -> Both<Search> {
    let ours: Option<OurWithin> = of_archive!(
        gf_range_within:
            fn(_: *const f64, _: usize, _: *const f64, _: usize, _: f64, _: *mut u32, _: usize, _: *mut u32) -> u32
    );
    within_by(ours.map(|f| -> Box<dyn Side> {
        Box::new(Pointer(f, |f: OurWithin, &[ranges, p, limit, out]: &Ins, found: Lent| unsafe {
            let (ranges_at, p_at) = (ranges.at.cast_const(), p.at.cast_const());
            f(ranges_at, ranges.len, p_at, p.len, *limit.at, out.at.cast(), out.len, found.at.cast())
        }))
    }))
}

fn within_by(ours: Option<Box<dyn Side>>) -> Both<Search> {
    let judge =
        Box::new(Pointer(within as RustWithin, |f: RustWithin, &[ranges, p, limit, out]: &Ins, found: Lent| unsafe {
            f(ranges.slice(), p.slice(), *limit.at, out.slots(), found.word())
        }));
    Both { of: Search { name: "range_within", lists: true }, ours, judge, fixed: fixed() }
}

/// What a call is given: numbers of any count, and so many slots.
#[derive(Clone)]
struct Given {
    ranges: Vec<f64>,
    p: Vec<f64>,
    limit: f64,
    slots: usize,
}

impl Given {
    fn of(ranges: &[Range], p: Point, limit: f64) -> Given {
        Given { ranges: ranges.as_flattened().to_vec(), p: p.to_vec(), limit, slots: ranges.len() }
    }

    /// With other lengths: of the numbers of ranges, of the point, of slots.
    fn cut(mut self, ranges: usize, p: usize, slots: usize) -> Given {
        self.ranges.resize(ranges, 0.5);
        self.p.resize(p, 0.5);
        self.slots = slots;
        self
    }

    /// Whether it is among the recorded answers, should it be listed there: of
    /// at most three ranges with a point and their slots. A replay tries one
    /// number less and one more, so that numbers which are no ranges are at
    /// least two away from such as are.
    fn is_recorded(&self) -> bool {
        let numbers = self.ranges.len();
        let apart = matches!(numbers % RANGE, 0 | 2..=4);
        numbers <= 3 * RANGE && apart && self.p.len() == 3 && self.slots == numbers / RANGE
    }
}

const UNIT: Range = [0.0, 0.0, 0.0, 1.0, 1.0, 1.0];
const NAN: f64 = f64::NAN;
const FAR: f64 = f64::INFINITY;

/// A block on the ground from `x`, one long.
fn block(x: f64) -> Range {
    [x, 0.0, 0.0, x + 1.0, 1.0, 1.0]
}

/// What goes wrong in a search for the least, and in a list.
fn fixed() -> Vec<Given> {
    let beside = [3.0, 0.5, 0.5];
    // Two and four away from that point, on either side; and none.
    let (left, right, further) = (block(0.0), block(5.0), block(7.0));
    let none = with(block(3.0), &[(0, 4.0), (3, 3.5)]);
    let mut all = vec![];
    // Inside, touching, just outside; zeros of either sign.
    for p in [[0.5; 3], [1.0, 1.0, 1.0], [0.0, -0.0, 1.0], [1.0 + f64::EPSILON, 0.5, 0.5], [-5e-324, 0.0, 0.0]] {
        all.extend([0.0, -0.0, 5e-324, -5e-324].map(|limit| Given::of(&[UNIT], p, limit)));
    }
    // As near on either side, exactly so, at each place; a limit that is
    // their square, and the numbers beside it.
    for limit in [4.0, 4.0_f64.next_down(), 4.0_f64.next_up(), 16.0, 0.0, -1.0, NAN, -NAN, FAR, -FAR] {
        all.push(Given::of(&[left, right, further], beside, limit));
        all.push(Given::of(&[further, right, left], beside, limit));
    }
    let orders: [&[Range]; 9] = [
        &[left, left],
        &[right, left, right],
        &[left, further, right],
        &[further, left, left],
        &[further, further, left],
        &[none, right, left],
        &[right, none, left],
        &[none, none, further],
        &[left, right, none],
    ];
    all.extend(orders.map(|order| Given::of(order, beside, 4.0)));
    // Empty ones that would be nearest, along each axis; all empty.
    for i in 0..3 {
        let slight = with(UNIT, &[(i, 1.0 + f64::EPSILON)]);
        all.push(Given::of(&[slight, further], [0.5; 3], 100.0));
        all.push(Given::of(&[further, with(UNIT, &[(i, 2.0)]), left], beside, 100.0));
        all.push(Given::of(&[slight], [0.5; 3], FAR));
    }
    all.push(Given::of(&[EMPTY], beside, FAR));
    all.push(Given::of(&[none, EMPTY, with(UNIT, &[(2, 3.0)])], beside, FAR));
    all.push(Given::of(&[EMPTY, EMPTY, EMPTY], [NAN; 3], FAR));
    // A NaN of the point adds nothing.
    for p in [[NAN; 3], [NAN, 0.5, 0.5], [3.0, NAN, 9.0], [NAN, 3.0, NAN], [-NAN, 0.5, 7.0]] {
        all.push(Given::of(&[further, left, right], p, 0.0));
        all.push(Given::of(&[none, left], p, 70.0));
    }
    // Nor does a NaN of a range, on its side; it makes no range empty.
    for i in 0..6 {
        all.push(Given::of(&[right, with(left, &[(i, NAN)]), left], beside, 4.0));
        all.push(Given::of(&[with(right, &[(i, NAN)])], beside, 4.0));
    }
    all.push(Given::of(&[left, [NAN; 6]], beside, 0.0));
    all.push(Given::of(&[[NAN; 6]], [NAN; 3], -0.0));
    all.push(Given::of(&[with(none, &[(1, NAN)]), further], beside, FAR));
    // Distances that are infinite, by a number or because a square is; they
    // count, behind all others.
    for (p, limit) in [([FAR, 0.5, 0.5], FAR), ([-FAR, 0.5, 0.5], f64::MAX), ([1e200, 0.5, 0.5], FAR)] {
        all.push(Given::of(&[UNIT], p, limit));
        all.push(Given::of(&[left, right], p, limit));
        all.push(Given::of(&[none, right, left], p, limit));
    }
    let (all_of_it, half) = ([-FAR, -FAR, -FAR, FAR, FAR, FAR], [FAR, -FAR, -FAR, FAR, FAR, FAR]);
    all.push(Given::of(&[half, left], beside, FAR));
    all.push(Given::of(&[half, half], beside, FAR));
    all.push(Given::of(&[half, half], beside, NAN));
    all.push(Given::of(&[left, all_of_it, half], beside, 0.0));
    all.push(Given::of(&[left, half], [FAR; 3], 0.0));
    all.push(Given::of(&[left, all_of_it], [-FAR; 3], 0.0));
    all.push(Given::of(&[block(1.35e154), block(1.34e154)], [0.0, 0.5, 0.5], f64::MAX));
    // As many as may be, and one more: the nearest in front, at the end, twice.
    for (at, again) in [(0, 0), (1023, 1023), (255, 256), (256, 512), (0, 1023), (1, 1022)] {
        let mut many = vec![further; MOST_RANGES];
        (many[at], many[again]) = (left, right);
        all.push(Given::of(&many, beside, 4.0));
        all.push(Given::of(&many, beside, 16.0));
        many.push(UNIT);
        all.push(Given::of(&many, beside, 4.0));
    }
    all.push(Given::of(&[none; MOST_RANGES], beside, FAR));
    // Numbers that are no ranges, other points, other slots.
    let three = || Given::of(&[left, right, further], beside, 4.0);
    all.push(Given::of(&[], beside, 4.0));
    all.extend([2, 3, 4, 8, 9, 10, 15].map(|numbers| three().cut(numbers, 3, numbers / RANGE)));
    all.extend([1, 5, 7, 11, 13, 17, 19].map(|numbers| three().cut(numbers, 3, 3)));
    all.extend([MOST - 1, MOST + 1, MOST + RANGE, 2 * MOST].map(|numbers| three().cut(numbers, 3, MOST_RANGES)));
    all.extend([0, 1, 2, 4, 6].map(|numbers| three().cut(3 * RANGE, numbers, 3)));
    all.extend([0, 1, 2, 4, 18].map(|slots| three().cut(3 * RANGE, 3, slots)));
    all.extend([MOST_RANGES - 1, MOST_RANGES + 1, MOST].map(|slots| three().cut(MOST, 3, slots)));
    // More than one of these.
    all.push(three().cut(3 * RANGE + 1, 2, 3));
    all.push(three().cut(3 * RANGE, 4, 2));
    all.push(three().cut(2 * RANGE + 1, 3, 4));
    all.push(three().cut(0, 3, 3));
    all.push(three().cut(0, 0, 0));
    all
}

/// What is lent of a report: one in four times other lengths.
fn lent(report: Report, rng: &mut Rng) -> Given {
    let given = Given::of(&report.ranges, report.p, report.limit);
    let (numbers, count) = (given.ranges.len(), given.slots);
    match rng.below(20) {
        0 => given.cut(numbers - 1 + 2 * rng.below(2) as usize, 3, count),
        1 => given.cut(numbers, rng.pick(&[0, 1, 2, 4, 6]), count),
        2 => given.cut(numbers, 3, rng.pick(&[0, 1, count - 1, count + 1, 2 * count, RANGE * count])),
        3 => {
            let at =
                [0, 1, RANGE - 1, RANGE + 1, MOST - RANGE, MOST - 1, MOST, MOST + 1, MOST + RANGE, MOST + 2 * RANGE];
            let numbers = rng.pick(&at);
            given.cut(numbers, 3, if rng.once_in(4) { count } else { numbers / RANGE })
        }
        4 => given.cut(rng.below(4 * RANGE as u64) as usize, rng.pick(&[2, 3, 3, 3, 4]), rng.below(5) as usize),
        _ => given,
    }
}

/// Blocks of a farm, and where hail was seen.
fn farm(case: u64) -> (Vec<Range>, Point) {
    let rng = &mut Rng::at(1, case);
    let blocks = (0..MOST_RANGES).map(|_| {
        let (x, y, z) = (rng.between(0.0, 1000.0), rng.between(0.0, 1000.0), rng.between(0.0, 5.0));
        [x, y, z, x + rng.between(10.0, 50.0), y + rng.between(10.0, 50.0), z + rng.between(2.0, 6.0)]
    });
    let blocks = blocks.collect();
    (blocks, [rng.between(0.0, 1000.0), rng.between(0.0, 1000.0), 0.0])
}

impl Laid for Search {
    type Given = Given;
    type Side = dyn Side;

    fn name(&self) -> &'static str {
        self.name
    }

    fn drawn(rng: &mut Rng) -> Given {
        lent(inputs::report(rng), rng)
    }

    /// The slots, and then the place or the number found.
    fn lay(Given { ranges, p, limit, slots }: &Given) -> Desk {
        Desk::new().numbers(ranges).numbers(p).numbers(&[*limit]).slots(*slots).slots(1)
    }

    fn put(desk: &mut Desk, side: &dyn Side) -> u32 {
        let [ranges, p, limit] = [0, 1, 2].map(|i| desk.numbers.lent(i));
        side.call(&[ranges, p, limit, desk.words.lent(0)], desk.words.lent(1))
    }

    fn outcome(&self, status: u32, desk: &Desk) -> usize {
        let none = if self.lists { 0 } else { NO_PLACE };
        match status {
            0 if desk.words.slice(1) == [none] => Outcome::NONE,
            0 => Outcome::PLACE,
            _ => status as usize,
        }
    }

    fn shown(&self, given: &Given, judge: (u32, &Desk), ours: (u32, &Desk)) -> String {
        let mut text = format!("({} numbers, [{}]", given.ranges.len(), words::list(&given.p));
        if self.lists {
            text += &format!(", {}; {} slots", words::shown(given.limit.to_bits()), given.slots);
        }
        text += ")";
        for (i, record) in given.ranges.chunks(RANGE).enumerate() {
            let square = <&Range>::try_from(record).ok().zip(<&Point>::try_from(&given.p[..]).ok());
            let square = square.map_or(String::new(), |(r, p)| format!(" squared {:e}", square_to(r, p)));
            text += &format!("\n      {i} [{}]{square}", words::list(record));
        }
        text += &format!("\n      judge {} {:?}", judge.0, self.answer(judge.1));
        text + &format!("\n      ours  {} {:?}", ours.0, self.answer(ours.1))
    }

    /// Two lists of the most ranges are a pass, as many ranges as a pass has
    /// calls elsewhere: the time is of one range of a list.
    fn timings(of: &Both<Search>) -> Vec<Timing<'_>> {
        let Some(ours) = &of.ours else {
            return vec![];
        };
        let sets: [(&'static str, usize, bool); 2] = match of.of.lists {
            true => [("a range of 1024, half in", MOST_RANGES / 2, false), ("a range of 1024, 16 in", 16, false)],
            false => [("a range of 1024", 1, false), ("the same, ever nearer", 1, true)],
        };
        let timing = |(set, found, falling): (&'static str, usize, bool)| {
            let lists = (0..(Timing::CALLS / MOST_RANGES) as u64).map(|case| {
                let (mut blocks, p) = farm(case);
                let mut squares: Vec<f64> = blocks.iter().map(|r| square_to(r, &p)).collect();
                squares.sort_by(f64::total_cmp);
                if falling {
                    blocks.sort_by(|a, b| f64::total_cmp(&square_to(b, &p), &square_to(a, &p)));
                }
                let slots = vec![0_u32; MOST_RANGES].leak();
                let number = |numbers: Vec<f64>| Lent::to_read(numbers.leak());
                let listed = Lent { at: slots.as_mut_ptr().cast(), len: MOST_RANGES };
                [number(blocks.into_flattened()), number(p.to_vec()), number(vec![squares[found - 1]]), listed]
            });
            let lent: &'static [Ins] = lists.collect::<Vec<Ins>>().leak();
            Timing::of(set, [ours, &of.judge].map(|side| (side.as_ref(), lent)), 1)
        };
        sets.map(timing).into()
    }

    /// The fixed ones of at most three ranges, and drawn ones.
    fn recorded(of: &Both<Search>) -> Vec<Given> {
        let drawn = (0..).map(|case| inputs::report(&mut Rng::at(1, case)));
        let drawn = drawn.map(|report| Given::of(&report.ranges, report.p, report.limit));
        let drawn = drawn.filter(Given::is_recorded).take(RECORDED);
        of.fixed.iter().filter(|given| given.is_recorded()).cloned().chain(drawn).collect()
    }

    /// The limit is given to a list alone.
    fn words(&self, _: &Given, desk: &Desk) -> (Vec<Vec<u64>>, Vec<u64>) {
        let given = if self.lists { 0..3 } else { 0..2 };
        let given = given.map(|i| desk.numbers.slice(i).to_vec()).collect();
        (given, self.answer(desk).into_iter().map(u64::from).collect())
    }

    fn sides(of: &Both<Search>) -> [Option<&dyn Side>; 2] {
        [Some(of.judge.as_ref()), of.ours.as_deref()]
    }

    /// Too many numbers that are no ranges; no ranges; no point; no slots.
    #[cfg(test)]
    fn mended() -> Vec<Given> {
        let three = || Given::of(&[UNIT; 3], [0.5; 3], 1.0);
        let lengths = [(MOST + 1, 2, 2), (MOST - 1, 2, 2), (18, 2, 2), (18, 3, 2), (18, 3, 3)];
        lengths.map(|(numbers, p, slots)| three().cut(numbers, p, slots)).to_vec()
    }
}

impl Search {
    /// The place; or the number found, and the slots.
    fn answer(&self, desk: &Desk) -> Vec<u32> {
        let listed = if self.lists { desk.words.slice(0) } else { &[] };
        [desk.words.slice(1), listed].concat()
    }
}

/// How many drawn ones are recorded.
const RECORDED: usize = 20;

#[cfg(test)]
mod tests {
    use super::*;

    /// No difference of two numbers of which one is less is a NaN, and no sum
    /// of squares, so that no range is passed over for its distance.
    #[test]
    fn no_distance_is_a_nan() {
        let special: Vec<f64> = inputs::special().into_iter().map(f64::from_bits).collect();
        for &min in &special {
            for &max in &special {
                let along = |&p: &f64| square_to(&[min, 0.0, 0.0, max, 0.0, 0.0], &[p, 0.0, 0.0]);
                assert!(special.iter().map(along).all(|square| square >= 0.0), "{min} to {max}");
            }
        }
        for case in 0..300_000 {
            let report = inputs::report(&mut Rng::at(1, case));
            assert!(report.ranges.iter().all(|r| square_to(r, &report.p) >= 0.0), "case {case}");
        }
    }
}
