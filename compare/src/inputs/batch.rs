//! Batches: one volume and several boxes.

use super::*;

/// How many boxes are in a batch: mostly few; now and then about as many as a
/// farm file may have, and about a thousand.
fn batch_size(rng: &mut Rng) -> usize {
    match rng.below(256) {
        0..24 => 1,
        24..72 => 2,
        72..240 => 3 + rng.below(6) as usize,
        240..251 => 9 + rng.below(32) as usize,
        251..255 => 62 + rng.below(4) as usize,
        _ => 200 + rng.below(900) as usize,
    }
}

/// A number that is no flag.
pub const NO_FLAGS: [f64; 8] = [0.5, 2.0, -1.0, f64::NAN, 5e-324, -5e-324, f64::INFINITY, 1.0 + f64::EPSILON];

/// A volume and boxes to look for in it. One in eight volumes has a count that
/// is none or not its own, or too many planes; in one in twelve batches a
/// single flag, at any place, is none; and some numbers are missing.
pub fn batch(rng: &mut Rng) -> (Volume, Vec<Boxed>) {
    let count = batch_size(rng);
    let (mut volume, mut boxes) = volume_and_boxes(rng, count);
    match rng.below(64) {
        0..6 => volume = volume.counted(other_planes(rng, volume.numbers()[0])),
        6..8 => volume = with_planes(CUBE, rng.pick(&TOO_MANY)),
        _ => {}
    }
    for given in &mut boxes {
        given[22] = rng.pick(&[0.0, -0.0, 1.0]);
    }
    if rng.once_in(12) {
        boxes[rng.below(count as u64) as usize][22] = rng.pick(&NO_FLAGS);
    }
    strike_or_mend(rng, &mut [volume.numbers_mut(), boxes.as_flattened_mut()]);
    (volume, boxes)
}
