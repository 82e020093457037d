//! The exact verdict on a box, by a volume and a box as records of floats.

#[cfg(test)]
mod slips;

use super::verdict::{mended, odd_counts, struck_volumes};
use super::whole_box::parting;
use crate::call::Call;
use crate::exact;
use crate::exported::{call, of_archive};
use crate::inputs::{
    self, Boxed, COORDINATE, CUBE, DISTANCE, FarmBox, IDENTITY, NORMAL, Oblique, Range, Rng, Turn, Volume, Whole,
    WholePlane, box_of, diagonal, farm_volume, with,
};
use crate::judge::{FEWEST_PLANES, MOST_PLANES, NO_SUCH_VALUE, OFF_GRID, finite};
use crate::lent::{Ins, Lent, Pointer, Side};
use crate::op::Op;
use crate::rust::held;
use std::array;

pub fn all() -> Vec<Box<dyn Op>> {
    vec![of_block().op()]
}

/// A float that is a whole number of at most this size; a zero of either sign
/// is 0.
fn whole(x: f64, limit: i64) -> Result<i64, u32> {
    if x.fract() == 0.0 && x.abs() <= limit as f64 { Ok(x as i64) } else { Err(OFF_GRID) }
}

fn segment_plane(&[x, y, z, distance]: &[f64; 4]) -> Result<WholePlane, u32> {
    let normal = [whole(x, NORMAL)?, whole(y, NORMAL)?, whole(z, NORMAL)?];
    Ok(WholePlane { normal, distance: whole(distance, DISTANCE)? })
}

/// Paper 01's quarter-turn placement: the three rows and the translation.
fn placement(matrix: &[f64; 16]) -> Result<([Whole; 3], Whole), u32> {
    let entry = |row: usize, column: usize| matrix[4 * row + column];
    for (row, last) in [0.0, 0.0, 0.0, 1.0].into_iter().enumerate() {
        if entry(row, 3) != last {
            return Err(OFF_GRID);
        }
    }
    // In every row and in every column one entry is 1 or −1, and the others 0.
    let is_turned = |three: [f64; 3]| {
        three.iter().filter(|x| x.abs() == 1.0).count() == 1 && three.iter().filter(|x| **x == 0.0).count() == 2
    };
    let of_row = |row: usize| is_turned(array::from_fn(|column| entry(row, column)));
    let of_column = |column: usize| is_turned(array::from_fn(|row| entry(row, column)));
    if !(0..3).all(|i| of_row(i) && of_column(i)) {
        return Err(OFF_GRID);
    }
    let rows = array::from_fn(|row| array::from_fn(|column| entry(row, column) as i64));
    let translation =
        [whole(entry(3, 0), COORDINATE)?, whole(entry(3, 1), COORDINATE)?, whole(entry(3, 2), COORDINATE)?];
    Ok((rows, translation))
}

/// The least and the greatest of the placed corners of a grid box.
fn grid_box(b: &Boxed) -> Result<[Whole; 2], u32> {
    let mut range = [0; 6];
    for (to, &x) in range.iter_mut().zip(b) {
        *to = whole(x, COORDINATE)?;
    }
    let [min, max]: [Whole; 2] = [array::from_fn(|i| range[i]), array::from_fn(|i| range[3 + i])];
    if (0..3).any(|i| min[i] > max[i]) {
        return Err(OFF_GRID);
    }
    let (rows, translation) = placement(b[6..].first_chunk().expect("a matrix"))?;
    let moved = |p: Whole| -> Whole {
        array::from_fn(|i| (0..3).map(|row| p[row] * rows[row][i]).sum::<i64>() + translation[i])
    };
    let placed = exact::corners([min, max]).map(moved);
    let of = |pick: fn(i64, i64) -> i64| -> Whole {
        array::from_fn(|i| placed.iter().map(|p| p[i]).reduce(pick).expect("eight corners"))
    };
    if placed.into_iter().all(inputs::on_grid) { Ok([of(i64::min), of(i64::max)]) } else { Err(OFF_GRID) }
}

/// A volume and a box in whole numbers, if nothing refuses them.
fn accepted(volume: &[f64], b: &Boxed) -> Result<Oblique, u32> {
    let count = held(volume)?;
    if b[22] != 0.0 && b[22] != 1.0 {
        return Err(NO_SUCH_VALUE);
    }
    (finite(volume)?, finite(b)?);
    let planes = volume[1..][..4 * count].as_chunks().0.iter().map(segment_plane);
    Ok((planes.collect::<Result<_, u32>>()?, grid_box(b)?))
}

/// Whether a box as it is placed and a view share an exact point.
pub fn block_seen(volume: &[f64], b: &Boxed) -> Result<bool, u32> {
    accepted(volume, b).map(|(planes, corners)| exact::shares_a_point(&planes, corners))
}

const UNIT: Range = [0.0, 0.0, 0.0, 1.0, 1.0, 1.0];

/// The inputs that part from the filed verdict, and one placed block by two
/// records, of which it gives one no and the other yes.
pub fn parted() -> Vec<(Volume, Boxed)> {
    let identity = Turn::numbered(0);
    let record = |[min, max]: [Whole; 2]| FarmBox { min, max, placement: identity, flag: false }.record();
    let mut all: Vec<(Volume, Boxed)> =
        parting().iter().map(|(planes, corners)| (farm_volume(planes), record(*corners))).collect();
    let slope = all[1].0;
    all.insert(2, (slope, box_of(UNIT, with(IDENTITY, &[(14, 3.0)]), 0.0)));
    all
}

/// A block that stands otherwise along each axis: turned about the vertical,
/// mirrored, moved.
const BLOCK: Range = [1.0, 2.0, 3.0, 5.0, 9.0, 4.0];

fn turned(i: u64) -> Boxed {
    let mut turn = Turn::numbered(i);
    turn.translation = [2, -1, 5];
    box_of(BLOCK, turn.matrix(), 1.0)
}

/// Boxes that are just no grid boxes, and such as just are.
fn nearly() -> Vec<Boxed> {
    let limit = COORDINATE as f64;
    let placed = |entries: &[(usize, f64)]| box_of(UNIT, with(IDENTITY, entries), 0.0);
    let mut all = vec![
        unplaced(UNIT),
        unplaced([-limit, -limit, -limit, limit, limit, limit]),
        unplaced([0.0; 6]),
        unplaced([1.0, 0.0, 0.0, 0.0, 1.0, 1.0]),
        unplaced([0.0, 0.0, 1.0, 1.0, 1.0, 0.0]),
        box_of([0.0, 1.0, 0.0, 1.0, 0.0, 1.0], IDENTITY, 1.0),
        box_of(UNIT, [0.0; 16], 0.0),
        box_of(UNIT, diagonal([0.0, 1.0, 1.0, 1.0]), 0.0),
        box_of(UNIT, diagonal([2.0, 0.5, 1.0, 1.0]), 0.0),
        // Two entries in a row, in a column, a row without one.
        placed(&[(1, 1.0)]),
        placed(&[(0, 0.0), (1, 1.0)]),
        placed(&[(1, 1.0), (5, 0.0)]),
        placed(&[(9, -1.0), (5, 0.0)]),
        placed(&[(4, 1.0), (5, 0.0)]),
        placed(&[(0, 0.0)]),
        placed(&[(0, 0.0), (2, 1.0), (10, 0.0), (8, -1.0)]),
        placed(&[(10, 1.0000000000000002)]),
        placed(&[(2, 5e-324)]),
        // Placed corners at the grid's edge, and past it.
        placed(&[(12, limit - 1.0)]),
        placed(&[(12, limit)]),
        placed(&[(13, -limit)]),
        placed(&[(14, limit + 1.0)]),
        placed(&[(14, -limit - 1.0)]),
        placed(&[(12, 0.5)]),
        box_of([-1.0, 0.0, 0.0, 0.0, 1.0, 1.0], with(IDENTITY, &[(12, limit)]), 0.0),
        box_of([-1.0, 0.0, 0.0, 0.0, 1.0, 1.0], with(IDENTITY, &[(12, limit + 1.0)]), 0.0),
        box_of([0.0, 0.0, 0.0, 1.0, 1.0, limit], with(IDENTITY, &[(10, -1.0), (14, 1.0)]), 0.0),
        box_of([0.0, 0.0, 0.0, 1.0, 1.0, limit], with(IDENTITY, &[(10, -1.0), (14, -1.0)]), 0.0),
        // On the grid where they are placed alone.
        box_of([limit + 1.0, 0.0, 0.0, limit + 1.0, 1.0, 1.0], with(IDENTITY, &[(12, -1.0)]), 0.0),
        box_of([0.0, 0.0, -limit - 2.0, 1.0, 1.0, -limit], with(IDENTITY, &[(14, limit)]), 0.0),
        box_of([-limit, 0.0, 0.0, 1.0 - limit, 1.0, 1.0], with(IDENTITY, &[(12, limit + 1.0)]), 0.0),
        box_of(UNIT, IDENTITY, -0.0),
        box_of(UNIT, IDENTITY, 1.0),
    ];
    for i in 0..6 {
        for x in [0.5, -0.5, 1e-9, limit, limit + 1.0, -limit - 1.0, limit.next_up(), 1e300, 4_294_967_296.0] {
            all.push(unplaced(with(UNIT, &[(i, x)])));
        }
    }
    for i in 0..16 {
        for x in [0.5, 2.0, -2.0, 1.0, -1.0, 0.0, 5e-324, -5e-324, 0.9999999999999999, 1e300, 4_294_967_297.0] {
            all.push(placed(&[(i, x)]));
        }
    }
    all.extend((0..Turn::COUNT).map(turned));
    all
}

/// Planes that are just no segment planes, at each place of six and of the
/// most, and such as just are.
fn nearly_planes() -> Vec<Volume> {
    let mut all = vec![];
    for count in [FEWEST_PLANES, MOST_PLANES] {
        let cube = inputs::with_planes(CUBE, count);
        for place in 1..=4 * count {
            let limit = if place % 4 == 0 { DISTANCE } else { NORMAL } as f64;
            for x in [0.5, -0.0, limit, -limit, limit + 1.0, -limit - 1.0, limit.next_up(), 5e-324, 1e300] {
                let mut volume = cube;
                volume.numbers_mut()[place] = x;
                all.push(volume);
            }
        }
        // Normals of zeros.
        for distance in [-1.0, -0.0, 0.0, 1.0, DISTANCE as f64 + 1.0] {
            let mut volume = cube;
            volume.numbers_mut()[4 * count - 3..=4 * count].copy_from_slice(&[0.0, -0.0, 0.0, distance]);
            all.push(volume);
        }
    }
    all
}

/// Rays are not looked at, but for missing numbers.
fn any_rays() -> Vec<Volume> {
    let ray = |x: f64| with(CUBE, &[(24, x), (30, -x), (47, 0.5 * x)]);
    [0.5, 1e308, 5e-324, 65_537.0].map(|x| Volume::of(ray(x))).to_vec()
}

fn of_filed() -> Option<Box<dyn Side>> {
    type Filed = unsafe extern "C" fn(*const f64, usize, *const f64, usize, *mut u32) -> u32;
    let filed: Option<Filed> = of_archive!(
        gf_intersects_bbox: fn(_: *const f64, _: usize, _: *const f64, _: usize, _: *mut u32) -> u32
    );
    // What is lent is as long as it says, and is not lent twice.
    filed.map(|f| -> Box<dyn Side> {
        Box::new(Pointer(f, |f: Filed, &[volume, b, ..]: &Ins, out: Lent| unsafe {
            f(volume.at.cast_const(), volume.len, b.at.cast_const(), b.len, out.at.cast())
        }))
    })
}

fn timed_block(rng: &mut Rng, count: usize) -> (Volume, Boxed) {
    let (planes, block) = inputs::screened_block(rng, count);
    (farm_volume(&planes), block.record())
}

fn dearest_block() -> (Volume, Boxed) {
    let (planes, block) = inputs::dearest();
    (farm_volume(&planes), block.record())
}

/// A range with a half, and one with a number missing besides.
const HALF: Range = [0.0, 0.0, 0.0, 0.5, 1.0, 1.0];
const UNMEASURED: Range = [0.0, 0.0, 0.0, 0.5, f64::NAN, 1.0];

fn unplaced(range: Range) -> Boxed {
    box_of(range, IDENTITY, 0.0)
}

/// What goes wrong in such a reading.
fn always() -> Vec<(Volume, Boxed)> {
    let cube = || Volume::of(CUBE);
    let mut all: Vec<(Volume, Boxed)> = nearly().into_iter().map(|b| (cube(), b)).collect();
    all.extend(nearly_planes().into_iter().chain(any_rays()).map(|volume| (volume, unplaced(UNIT))));
    // What touches by construction, and any, with zeros of either sign.
    for case in 0..120 {
        let rng = &mut Rng::at(2, case);
        let (planes, corners) = inputs::oblique(rng);
        let (mut volume, mut b) = (farm_volume(&planes), inputs::placed_block(rng, corners).record());
        all.push((volume, b));
        inputs::negative_zeros(volume.numbers_mut());
        inputs::negative_zeros(&mut b);
        all.push((volume, b));
    }
    // A block by each turn, and of each zero the other.
    let slope = parted()[1].0;
    for mut b in (0..Turn::COUNT).map(turned) {
        all.push((slope, b));
        inputs::negative_zeros(&mut b);
        all.push((cube(), b));
    }
    // A count that is none comes before a flag that is none.
    all.extend(odd_counts().flat_map(|volume| [0.0, 0.5].map(|flag| (volume, box_of(UNIT, IDENTITY, flag)))));
    // A flag that is none, and a missing number, before the grid.
    all.extend([
        (cube(), box_of(HALF, IDENTITY, 0.5)),
        (cube(), box_of(HALF, IDENTITY, f64::NAN)),
        (cube(), unplaced(UNMEASURED)),
        (Volume::of(with(CUBE, &[(0, 0.5)])), unplaced(with(UNIT, &[(0, f64::INFINITY)]))),
        (Volume::of(with(CUBE, &[(47, f64::NAN)])), unplaced(HALF)),
    ]);
    all
}

/// One in so many of these is recorded.
const RECORDED: usize = 14;

fn of_block() -> Call<(Volume, Boxed)> {
    let recorded = parted().into_iter().chain(always().into_iter().step_by(RECORDED));
    let mut mended_boxes = mended().map(|volume| (volume, box_of(UNMEASURED, IDENTITY, 0.5))).to_vec();
    mended_boxes.extend([UNMEASURED, HALF, UNIT].map(|range| (Volume::of(CUBE), unplaced(range))));
    // In view; of an empty range; no grid box; with no flag; outside.
    let asked = [
        unplaced(UNIT),
        unplaced([1.0, 0.0, 0.0, 0.0, 1.0, 1.0]),
        box_of(HALF, IDENTITY, 1.0),
        box_of(UNIT, IDENTITY, 0.5),
        unplaced([-2.0, 0.0, 0.0, -1.0, 1.0, 1.0]),
    ];
    let struck = struck_volumes().into_iter().flat_map(|volume| asked.map(|b| (volume, b)));
    call!(gf_exact_bbox(volume: Volume, b: 23) -> bool { block_seen(volume, b) })
        .fixed(recorded.collect())
        .tried(always())
        .mended(mended_boxes)
        .missing(&struck.collect::<Vec<_>>())
        .drawn(|_, rng| inputs::exact_box(rng))
        .timed_beside("orchard, our filed", |_, rng| timed_block(rng, FEWEST_PLANES), of_filed())
        .timed_beside("14, our filed", |_, rng| timed_block(rng, MOST_PLANES), of_filed())
        .timed_beside("the worst, our filed", |_, _| dearest_block(), of_filed())
}

#[cfg(test)]
mod tests {
    use super::*;
    use crate::rust::{ask, boxed};

    /// What the filed verdict of the Rust says of those it parts from, and the
    /// exact one: docs/VERDICTS.md and docs/DIFFERENCES.md.
    #[test]
    fn the_filed_verdict_parts() {
        let both = parted().into_iter().map(|(volume, b)| {
            let placed = boxed(&b).expect("a flag");
            let count = held(volume.numbers()).expect("a count");
            let filed = ask(volume.numbers(), count, |v| v.intersects_bbox(&placed), |v| v.intersects_bbox(&placed));
            (filed, block_seen(volume.numbers(), &b))
        });
        let expected = [(true, Ok(false)), (false, Ok(true)), (true, Ok(true)), (true, Ok(false)), (true, Ok(false))];
        assert_eq!(both.collect::<Vec<_>>(), expected);
    }

    /// How often the filed verdict of the Rust says yes and the exact one no, of
    /// blocks that it says yes of, by six planes and by a screen or more besides:
    /// docs/DIFFERENCES.md. On farms of a portfolio, on small ones, and of hedge
    /// rows there.
    #[test]
    fn how_often_the_filed_verdict_parts() {
        let parted = |(count, draw): (usize, fn(&mut Rng) -> ([WholePlane; 6], FarmBox))| {
            let (mut yes, mut unseen, mut lost) = (0_u64, 0, 0);
            for case in 0..100_000 {
                let rng = &mut Rng::at(4, case);
                let (six, block) = draw(rng);
                let (volume, b) = (farm_volume(&inputs::with_screens(rng, &six, count)), block.record());
                let placed = boxed(&b).expect("a flag");
                let filed =
                    ask(volume.numbers(), count, |v| v.intersects_bbox(&placed), |v| v.intersects_bbox(&placed));
                let exact = block_seen(volume.numbers(), &b).expect("it is of the grid");
                yes += u64::from(filed);
                unseen += u64::from(filed && !exact);
                lost += u64::from(!filed && exact);
            }
            (yes, unseen, lost)
        };
        let farm: fn(&mut Rng) -> ([WholePlane; 6], FarmBox) = inputs::orchard_block;
        let asked = [(6, farm), (7, farm), (14, farm), (6, inputs::small_farm_block), (6, inputs::hedge_row)];
        let parted = asked.map(parted);
        println!("yes, of which nothing is seen, and no that is seen: {parted:?}");
        assert!(parted.iter().all(|&(yes, unseen, _)| yes > 1000 && unseen > 0), "{parted:?}");
    }

    /// Of what just is a grid box or just none, and of drawn ones, enough of each.
    #[test]
    fn near_the_grid() {
        let verdicts: Vec<Result<bool, u32>> =
            nearly().iter().map(|b| block_seen(Volume::of(CUBE).numbers(), b)).collect();
        let (accepted, refused) =
            (verdicts.iter().filter(|v| v.is_ok()).count(), verdicts.iter().filter(|v| v.is_err()).count());
        assert!(accepted > 60 && refused > 100, "{accepted} accepted, {refused} refused");
        let mut kinds = std::collections::BTreeMap::<String, u64>::new();
        for case in 0..50_000 {
            let (volume, b) = inputs::exact_box(&mut Rng::at(3, case));
            *kinds.entry(format!("{:?}", block_seen(volume.numbers(), &b))).or_default() += 1;
        }
        for kind in ["Ok(true)", "Ok(false)", "Err(7)", "Err(3)", "Err(12)", "Err(1)", "Err(13)"] {
            let met = kinds.get(kind).copied().unwrap_or(0);
            assert!(met > 100 || kind == "Err(13)", "{kind}: {met}");
        }
    }
}
