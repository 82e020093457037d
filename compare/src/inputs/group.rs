//! Groups of boxes.

use super::*;

/// The most boxes of a group.
pub const MOST_BOXES: usize = 256;

/// How many boxes are in a group: mostly few, and one in 64 times the most.
fn group_size(rng: &mut Rng) -> usize {
    match rng.below(64) {
        0..6 => 1,
        6..24 => 2,
        24..56 => 3 + rng.below(6) as usize,
        56..62 => 9 + rng.below(24) as usize,
        62 => 33 + rng.below(223) as usize,
        _ => MOST_BOXES,
    }
}

/// The boxes of a group: on the grid; as objects have them, alone and with one
/// of any kind among them; of any kind; in pairs whose volumes are compared.
pub fn group(rng: &mut Rng) -> Vec<Boxed> {
    let size = group_size(rng);
    let mut boxes: Vec<Boxed> = match rng.below(8) {
        0..3 => (0..size).map(|_| farm_box(rng).record()).collect(),
        3 => (0..size).map(|_| ordinary_box(rng)).collect(),
        4..6 => (0..size).map(|_| boxed(rng)).collect(),
        6 => (0..size.div_ceil(2)).flat_map(|_| <[Boxed; 2]>::from(two_boxes(rng))).take(size).collect(),
        _ => {
            let mut boxes: Vec<Boxed> = (0..size).map(|_| ordinary_box(rng)).collect();
            boxes[rng.below(size as u64) as usize] = boxed(rng);
            boxes
        }
    };
    for given in &mut boxes {
        given[22] = rng.pick(&[0.0, -0.0, 1.0]);
    }
    // A single number that is no flag, at any place.
    if rng.once_in(12) {
        let at = rng.below(size as u64) as usize;
        boxes[at][22] = rng.pick(&NO_FLAGS);
    }
    boxes
}
