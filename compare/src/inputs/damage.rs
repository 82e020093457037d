//! Farm files with damage of every kind.

use super::file::{gap, laid, other_length};
use super::*;
use crate::reader::LARGEST;

/// A flag that is none.
fn other_flag(rng: &mut Rng) -> f64 {
    let near_one = if rng.once_in(2) { 1.0_f64.next_up() } else { 1.0_f64.next_down() };
    let any = odd(rng);
    let nan = f64::from_bits(INFINITY | rng.sign() | 1 << rng.below(52));
    rng.pick(&[2.0, 0.5, -1.0, -2.0, f64::INFINITY, f64::from_bits(1), -f64::from_bits(1), near_one, nan, nan, any])
}

/// A count that is wrong, or of more or fewer sections than there are.
fn other_count(rng: &mut Rng, count: u32) -> u32 {
    match rng.below(8) {
        0..2 => count.wrapping_sub(1),
        2..4 => count.wrapping_add(1),
        4 => rng.pick(&[0, 1, 2, 63, 64, 65, 66, u32::MAX, 1 << 31]),
        // The same in its low bits.
        5 => count | 1 << (6 + rng.below(26)),
        6 => rng.pick(&[count.swap_bytes(), count.wrapping_neg()]),
        _ => rng.bits() as u32,
    }
}

/// A place that a section may have by mistake.
fn other_offset(rng: &mut Rng, file: &FarmFile, i: usize) -> u32 {
    let (offset, length, size) = (file.offset(i), file.length(i), file.bytes.len() as u32);
    let directory = 4 + 8 * file.pairs() as u32;
    let before = i.saturating_sub(1);
    let at = match rng.below(12) {
        0..2 => offset,
        2 => directory,
        3 => file.end(before),
        4 => file.offset(before),
        5 => size,
        6 => size.wrapping_sub(length),
        7 => 0_u32.wrapping_sub(length),
        8 => 0_u32.wrapping_sub(rng.below(u64::from(length) + 2) as u32),
        9 => rng.pick(&[0, 4, 1 << 31, u32::MAX]),
        10 => rng.below(u64::from(size) + 2) as u32,
        _ => rng.bits() as u32,
    };
    near_by(rng, at)
}

/// A length that does not go with the place of a section.
fn beyond_length(rng: &mut Rng, file: &FarmFile, i: usize) -> u32 {
    let (offset, length, size) = (file.offset(i), file.length(i), file.bytes.len() as u32);
    let next = if i + 1 < file.pairs() { file.offset(i + 1) } else { size };
    let at = match rng.below(12) {
        0 => 0,
        1 => length,
        2..4 => next.wrapping_sub(offset),
        4 => size.wrapping_sub(offset),
        // So long that the end is a place in the file, modulo 2^32.
        5..7 => 0_u32.wrapping_sub(offset),
        7 => (rng.below(u64::from(size) + 2) as u32).wrapping_sub(offset),
        8 => rng.pick(&[u32::MAX, 1 << 31, 1 << 16]),
        9 => length | 1 << (9 + rng.below(23)),
        10 => other_length(rng) as u32,
        _ => rng.bits() as u32,
    };
    near_by(rng, at)
}

/// This number, or one beside it.
fn near_by(rng: &mut Rng, at: u32) -> u32 {
    at.wrapping_add(rng.pick(&[0, 0, 1, u32::MAX]))
}

/// One damage, or none if it does not fit. Whatever the file was, it is still
/// a string of bytes.
fn damage(rng: &mut Rng, file: &mut FarmFile) {
    let pairs = file.pairs();
    if pairs == 0 {
        return;
    }
    let i = rng.below(pairs as u64) as usize;
    let directory = 4 + 8 * pairs;
    match rng.below(42) {
        0..6 => file.set_flag(if i == 0 { 1 } else { i }.min(pairs - 1), other_flag(rng)),
        6..8 => file.set_count(other_count(rng, pairs as u32)),
        8..13 => file.set_offset(i, other_offset(rng, file, i)),
        13..18 => file.set_length(i, beyond_length(rng, file, i)),
        // Of no length: at the end of the one before, inside it, at the end.
        18..20 => {
            if rng.once_in(2) {
                file.set_offset(i, other_offset(rng, file, i));
            }
            file.set_length(i, 0);
        }
        20 => {
            let other = if rng.once_in(2) { (i + 1) % pairs } else { rng.below(pairs as u64) as usize };
            file.exchange(i, other);
        }
        21 => {
            let other = rng.below(pairs as u64) as usize;
            (file.set_offset(i, file.offset(other)), file.set_length(i, file.length(other)));
        }
        // A byte or a bit of the directory.
        22..24 => file.bytes[rng.below(directory as u64) as usize] = rng.bits() as u8,
        24 => file.bytes[rng.below(directory as u64) as usize] ^= 1 << rng.below(8),
        // Cut off: by a little, in the directory, anywhere.
        25..28 => {
            let size = file.bytes.len();
            let left = match rng.below(4) {
                0..2 => size - 1 - rng.below(8.min(size as u64)) as usize,
                2 => rng.below(directory as u64 + 1) as usize,
                _ => rng.below(size as u64) as usize,
            };
            file.bytes.truncate(left);
        }
        28 => {
            let length = gap(rng);
            file.fill(rng, length);
        }
        29 if rng.once_in(16) => {
            let size = LARGEST - 1 + rng.below(4) as usize;
            file.fill_to(rng, size);
        }
        // Any bytes at all.
        30 if rng.once_in(8) => {
            let length = rng.below(700) as usize;
            file.bytes.truncate(rng.pick(&[0, 4, 4, 12]));
            file.fill(rng, length);
        }
        // The count of planes, as far as it is in the file.
        31..34 => {
            let count = file.bytes.get(file.offset(0) as usize..).and_then(|bytes| bytes.first_chunk());
            file.set_number(0, 0, other_planes(rng, count.map_or(0.0, |count| f64::from_le_bytes(*count))));
        }
        // A missing number at any place of a section, of the last or of the
        // volume's rays.
        34..41 => {
            let i = rng.pick(&[i, i, pairs - 1]);
            let numbers = u64::from(file.length(i) / 8).clamp(1, 160);
            let number =
                if i == 0 && rng.once_in(2) { numbers - 1 - rng.below(24.min(numbers)) } else { rng.below(numbers) };
            file.set_number(i, number as usize, missing(rng));
        }
        // Any numbers.
        _ => file.set_number(i, rng.below(49) as usize, odd(rng)),
    }
}

/// A file, well formed or damaged, in `file`.
pub fn farm_file(rng: &mut Rng, file: &mut FarmFile) {
    laid(rng, file, 8);
    let damages = match rng.below(16) {
        0..6 => 0,
        6..13 => 1,
        _ => 2 + rng.below(3),
    };
    (0..damages).for_each(|_| damage(rng, file));
}

#[cfg(test)]
mod tests {
    use super::*;
    use crate::reader::{self, BOXES};

    #[test]
    fn drawn_files_meet_every_answer() {
        let mut statuses = [0; 14];
        let (mut yes, mut no, mut full) = (0, 0, 0);
        let mut file = FarmFile::default();
        for case in 0..100_000 {
            farm_file(&mut Rng::at(1, case), &mut file);
            let (mut out, mut count) = ([0; BOXES], 0);
            let status = reader::farm_file(&file.bytes, &mut out, &mut count);
            statuses[status as usize] += 1;
            let verdicts = &out[..count as usize];
            yes += verdicts.iter().filter(|&&slot| slot == 1).count();
            no += verdicts.iter().filter(|&&slot| slot == 0).count();
            full += u32::from(verdicts.len() == BOXES);
        }
        let [done, large, _, flag, _, _, _, _, _, lie, length, _, planes, missing] = statuses;
        assert_eq!(done + large + flag + lie + length + planes + missing, 100_000);
        assert!(done > 30_000 && lie > 20_000 && length > 5_000 && flag > 5_000 && large > 30, "{statuses:?}");
        assert!(planes > 3_000 && missing > 5_000, "{statuses:?}");
        assert!(yes > 30_000 && no > 30_000 && full > 300, "{yes} {no} {full}");
    }
}
