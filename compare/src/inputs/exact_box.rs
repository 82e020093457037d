//! What the exact verdict on a box is lent as records: segment planes and grid
//! boxes as floats, with zeros of either sign, and what is just none of these.

use super::*;
use std::array;

/// A record of a box that stands from a least to a greatest corner, by any
/// quarter turn and a translation that leaves all of it on the grid.
pub fn placed_block(rng: &mut Rng, [least, greatest]: [Whole; 2]) -> FarmBox {
    let mut placement = Turn::numbered(rng.below(Turn::COUNT));
    for size in [COORDINATE, COORDINATE, 100, 0] {
        let at_limit = size > 0 && rng.once_in(8);
        placement.translation =
            array::from_fn(|_| if at_limit { rng.pick(&[-COORDINATE, COORDINATE]) } else { rng.whole(size) });
        if [least, greatest].into_iter().all(|p| on_grid(placement.back(p))) {
            break;
        }
    }
    let (p, q) = (placement.back(least), placement.back(greatest));
    let (min, max) = (array::from_fn(|i| p[i].min(q[i])), array::from_fn(|i| p[i].max(q[i])));
    FarmBox { min, max, placement, flag: rng.once_in(2) }
}

/// Zeros of either sign in place of zeros.
pub fn any_zeros(rng: &mut Rng, record: &mut [f64]) {
    record.iter_mut().filter(|x| **x == 0.0).for_each(|x| *x = zero(rng));
}

/// All zeros negative.
pub fn negative_zeros(record: &mut [f64]) {
    record.iter_mut().filter(|x| **x == 0.0).for_each(|x| *x = -0.0);
}

/// Where the record of a box has its matrix.
const MATRIX: usize = 6;

/// Numbers that are no entry of a placement, or another.
const ENTRIES: [f64; 11] = [0.5, 2.0, -2.0, 1.0, -1.0, 0.0, 5e-324, 1e-12, -0.999, 1.0000000000000002, 1e300];

/// A box that is just none of the grid: a half, two entries in a row, a
/// corner off the grid, a last column that is another, an empty range.
pub fn off_grid(rng: &mut Rng, b: &mut Boxed) {
    let limit = COORDINATE as f64;
    match rng.below(10) {
        0 => b[rng.below(6) as usize] += rng.pick(&[0.5, -0.5, 1e-9, 0.25]),
        1 => {
            let i = rng.below(6) as usize;
            b[i] = rng.about(b[i], 2);
        }
        2 => b[rng.below(6) as usize] = rng.pick(&[limit, limit + 1.0, -limit - 1.0, limit.next_up(), 1e300, -4e9]),
        3..5 => b[MATRIX + 4 * rng.below(3) as usize + rng.below(3) as usize] = rng.pick(&ENTRIES),
        // An entry in another row or in another column, so that two are in one.
        5 => {
            let (from, to, other) = (rng.below(3) as usize, rng.below(3) as usize, rng.below(3) as usize);
            let by_row = rng.once_in(2);
            let at = |i: usize| MATRIX + if by_row { 4 * i + other } else { 4 * other + i };
            let entry = b[at(from)];
            b[at(from)] = b[at(to)];
            b[at(to)] = entry;
        }
        6 => b[MATRIX + 4 * rng.below(4) as usize + 3] = rng.pick(&[1.0, -1.0, 0.0, 0.5, 2.0, 1e-300]),
        7 => b[MATRIX + 12 + rng.below(3) as usize] += rng.pick(&[0.5, 1.0, -1.0, limit, -limit, 2.0 * limit]),
        8 => {
            let i = rng.below(3) as usize;
            b.swap(i, 3 + i);
        }
        // A placed corner just past the grid's edge, or at it.
        _ => {
            let axis = rng.below(3) as usize;
            let (at, sign) = (rng.below(2) as usize, rng.pick(&[-1.0, 1.0]));
            let corner: Point = array::from_fn(|i| b[3 * at + i]);
            let placed: f64 = (0..3).map(|row| corner[row] * b[MATRIX + 4 * row + axis]).sum();
            b[MATRIX + 12 + axis] = sign * (limit + rng.below(2) as f64) - placed;
        }
    }
}

/// A volume of which a plane is just no segment plane, or still one.
pub fn off_planes(rng: &mut Rng, volume: &mut Volume) {
    let planes = (volume.numbers().len() - 25) / 4;
    let place = 1 + rng.below(4 * planes as u64) as usize;
    let limit = if place % 4 == 0 { DISTANCE } else { NORMAL } as f64;
    let number = &mut volume.numbers_mut()[place];
    *number = match rng.below(6) {
        0 => *number + rng.pick(&[0.5, -0.5, 0.25, 1e-9]),
        1 => rng.about(*number, 2),
        2 => rng.pick(&[limit, -limit]),
        3 => rng.pick(&[limit + 1.0, -limit - 1.0, limit.next_up(), 2.0 * limit]),
        4 => rng.pick(&[5e-324, -5e-324, 1e300, -1e18, 4_294_967_296.0, 9.3e18]),
        _ => rng.pick(&[0.0, -0.0, 1.0, -1.0]),
    };
}

/// Records of an exact verdict. One in three has a fault or two: a plane or a
/// box that just is none, a flag, a count, a plane more than the count says.
pub fn exact_box(rng: &mut Rng) -> (Volume, Boxed) {
    let (planes, corners) = oblique(rng);
    let mut b = placed_block(rng, corners).record();
    let mut volume = farm_volume(&planes);
    let rays = volume.numbers().len() - 24;
    if rng.once_in(2) {
        any_zeros(rng, &mut b);
        any_zeros(rng, volume.numbers_mut());
    }
    // The rays may be any finite numbers.
    if rng.once_in(4) {
        volume.numbers_mut()[rays + rng.below(24) as usize] = rng.pick(&[1e308, -7.5, 0.1, 5e-324]);
    }
    let faults = match rng.below(12) {
        0 => 2,
        1..4 => 1,
        _ => 0,
    };
    for _ in 0..faults {
        match rng.below(12) {
            0..5 => off_grid(rng, &mut b),
            5..8 => off_planes(rng, &mut volume),
            8..10 => b[22] = rng.pick(&[0.5, 2.0, -1.0, -0.0, f64::NAN, 1.0000000000000002, 5e-324]),
            10 => volume = volume.counted(other_planes(rng, planes.len() as f64)),
            _ => volume = with_planes_cut(&volume, rng),
        }
    }
    (volume, b)
}

/// A plane more or less than the count says.
fn with_planes_cut(volume: &Volume, rng: &mut Rng) -> Volume {
    let count = volume.numbers()[0];
    let mut planes = volume.numbers()[1..volume.numbers().len() - 24].as_chunks::<4>().0.to_vec();
    if planes.len() > FEWEST_PLANES && rng.once_in(2) {
        planes.pop();
    } else if planes.len() < PLANES_TRIED {
        planes.push([0.0, 0.0, 1.0, -100.0]);
    }
    Volume::new(&planes, &[0.0; 24]).counted(count)
}
