//! Farm files at every boundary, each with the refusal that is due for
//! it, or 0.

use super::*;
use crate::judge::{MISSING_NUMBER, NO_COUNT, NO_FARM_FILE, NO_SUCH_VALUE, WRONG_INPUT, WRONG_SECTION};
use crate::reader::{self, BOX, BOXES, LARGEST, LEAST_VOLUME, volume_bytes};
use crate::rust;

pub struct NotableFile {
    pub what: String,
    pub refusal: u32,
    pub bytes: Vec<u8>,
}

/// Blocks in the cube of the marked verdicts, touching it, and outside it, in turn.
fn block(i: usize) -> Boxed {
    let x = [3.0, 10.0, 11.0, -1.0][i % 4];
    box_of([x, 0.0, 0.0, x + 1.0, 1.0, 1.0], IDENTITY, [0.0, 1.0, -0.0][i % 3])
}

/// These blocks in a volume.
fn orchard(volume: Volume, boxes: usize) -> Orchard {
    Orchard::new((volume, (0..boxes).map(block).collect()))
}

/// A well-formed file of these blocks in the cube, without gaps.
fn plain(boxes: usize) -> FarmFile {
    viewed(Volume::of(CUBE), boxes)
}

/// The same in another volume.
fn viewed(volume: Volume, boxes: usize) -> FarmFile {
    orchard(volume, boxes).file(&mut Rng::at(0, 0), |_| 0)
}

/// The same with a gap before every section and at the end.
fn gapped(boxes: usize) -> FarmFile {
    let gap = |i: usize| 1 + 5 * i % 12;
    orchard(Volume::of(CUBE), boxes).file(&mut Rng::at(0, 1), gap)
}

/// A file of this many boxes whose sections have these lengths, one after
/// another.
fn of_lengths(boxes: usize, others: &[(usize, usize)]) -> FarmFile {
    viewed_of_lengths(Volume::of(CUBE), boxes, others)
}

/// The same in another volume.
fn viewed_of_lengths(volume: Volume, boxes: usize, others: &[(usize, usize)]) -> FarmFile {
    let rng = &mut Rng::at(0, 2);
    let mut file = FarmFile::default();
    file.begin(1 + boxes);
    for i in 0..=boxes {
        match i {
            0 => file.put(0, &bytes_of(volume.numbers())),
            _ => file.put(i, &bytes_of(&block(i - 1))),
        }
        if let Some(&(_, length)) = others.iter().find(|&&(section, _)| section == i) {
            file.cut(rng, i, length);
        }
    }
    file
}

struct List(Vec<NotableFile>);

impl List {
    fn add(&mut self, refusal: u32, what: impl Into<String>, file: FarmFile) {
        self.0.push(NotableFile { what: what.into(), refusal, bytes: file.bytes });
    }

    /// A file after an edit.
    fn edited(&mut self, refusal: u32, what: &str, mut file: FarmFile, edit: impl FnOnce(&mut FarmFile)) {
        edit(&mut file);
        self.add(refusal, what, file);
    }
}

/// Files that are recorded, and always tried.
pub fn notable_files() -> Vec<NotableFile> {
    let mut list = List(vec![]);
    good(&mut list);
    sizes_and_counts(&mut list);
    places(&mut list);
    no_length(&mut list);
    past_the_end(&mut list);
    lengths(&mut list);
    planes(&mut list);
    flags(&mut list);
    several(&mut list);
    missing_numbers(&mut list);
    list.0
}

/// The first drawn file of this many boxes, two of them at least, that has
/// both verdicts.
fn of_both_verdicts(case: u64, boxes: usize, gaps: bool) -> FarmFile {
    let both = |file: &FarmFile| {
        let lines = reader::lines(&file.bytes);
        boxes < 2 || lines.contains("yes") && lines.contains("no")
    };
    let drawn = |i: u64| well_formed(&mut Rng::at(case, i), boxes, gaps);
    (0..).map(drawn).find(both).expect("one of them has")
}

fn good(list: &mut List) {
    for (boxes, gaps) in [(1, false), (2, false), (3, true), (4, true), (5, false)] {
        let file = if gaps { gapped(boxes) } else { plain(boxes) };
        list.add(0, format!("{boxes} boxes, gaps: {gaps}"), file);
    }
    for place in 0..4 {
        let only = |i: usize| if i == place { 11 } else { 0 };
        let orchard = Orchard::new((Volume::of(CUBE), vec![block(0), block(2)]));
        list.add(0, format!("a gap at place {place} alone"), orchard.file(&mut Rng::at(0, 3), only));
    }
    // A gap that would be read as sections in view, and one that would not.
    for byte in [0, 0xff] {
        list.edited(0, "a gap of one byte over and over", gapped(2), |file| {
            let size = file.bytes.len();
            file.bytes.resize(size + BOX, byte);
        });
    }
    let (few, many) = ([1, 1, 2, 2, 3, 4, 5, 6, 7, 8, 9, 11], [16, 33, 48, 63]);
    for (case, &boxes) in few.iter().chain(&many).enumerate() {
        list.add(0, format!("{boxes} drawn boxes"), of_both_verdicts(case as u64, boxes, case % 3 != 0));
    }
    // As large as can be, and as small.
    for (number, x) in [(0, f64::MIN), (3, -0.0), (5, f64::MAX), (6, 0.0), (11, 1e200), (18, f64::MIN), (21, 5e-324)] {
        list.edited(0, "a box with a seldom number", plain(3), |file| file.set_number(2, number, x));
    }
    for (number, x) in [(1, f64::MAX), (4, -0.0), (8, f64::MIN), (25, f64::MAX), (48, 5e-324)] {
        list.edited(0, "a volume with a seldom number", plain(3), |file| file.set_number(0, number, x));
    }
    for (flag, box_of) in [(0.0, 1), (-0.0, 2), (1.0, 3)] {
        list.edited(0, "each flag that there is", plain(3), |file| file.set_flag(box_of, flag));
    }
}

fn sizes_and_counts(list: &mut List) {
    let rng = &mut Rng::at(0, 5);
    let mut large = gapped(2);
    large.fill_to(rng, LARGEST);
    list.add(0, "as large as can be", large.clone());
    large.fill(rng, 1);
    list.add(WRONG_INPUT, "a byte too large", large);
    for bytes in [&[][..], &[2], &[2, 0], &[2, 0, 0], &[0, 0, 0]] {
        list.add(NO_FARM_FILE, "under 4 bytes", FarmFile { bytes: bytes.into() });
    }
    for count in [0, 1, 2, 64, u32::MAX] {
        list.add(NO_FARM_FILE, "a count alone", FarmFile { bytes: count.to_le_bytes().into() });
    }
    for count in [0, 1, 65, 66, 258, 65_538, 1 << 25, 1 << 31 | 2, u32::MAX - 1, u32::MAX] {
        list.edited(NO_FARM_FILE, "another count", plain(1), |file| file.set_count(count));
    }
    // The volume alone; a box too many; one fewer than there are.
    list.add(NO_FARM_FILE, "no box", plain(0));
    list.add(0, "63 boxes", plain(BOXES));
    list.add(NO_FARM_FILE, "64 boxes", plain(BOXES + 1));
    list.edited(0, "a pair that is not counted", plain(3), |file| file.set_count(3));
    for size in [5, 11, 12, 13, 19, 20, 21] {
        list.edited(NO_FARM_FILE, "ends about the directory's end", plain(1), |file| file.bytes.truncate(size));
    }
    list.edited(NO_FARM_FILE, "a directory of 64 that does not fit", plain(BOXES), |file| file.bytes.truncate(515));
}

fn places(list: &mut List) {
    list.edited(NO_FARM_FILE, "the volume begins in the directory", plain(1), |file| file.set_offset(0, 19));
    list.edited(NO_FARM_FILE, "the volume begins at the start", plain(1), |file| file.set_offset(0, 0));
    list.edited(NO_FARM_FILE, "the volume begins behind the count", plain(1), |file| file.set_offset(0, 4));
    list.edited(NO_FARM_FILE, "a box begins in the directory", gapped(1), |file| file.set_offset(1, 8));
    for i in [1, 3, 5] {
        list.edited(NO_FARM_FILE, "a byte of the section before", plain(5), |file| {
            file.set_offset(i, file.offset(i) - 1);
        });
        list.edited(NO_FARM_FILE, "all of the section before", plain(5), |file| {
            file.set_offset(i, file.offset(i - 1));
        });
        list.edited(0, "a byte after the section before", plain(5), |file| {
            file.bytes.insert(file.offset(i) as usize, 0x5a);
            (i..=5).for_each(|j| file.set_offset(j, file.offset(j) + 1));
        });
    }
    for (i, j) in [(0, 1), (1, 2), (3, 5), (4, 5)] {
        list.edited(NO_FARM_FILE, "not in the order of offsets", gapped(5), |file| file.exchange(i, j));
    }
    list.edited(NO_FARM_FILE, "two boxes in the same place", gapped(3), |file| file.set_offset(3, file.offset(2)));
    list.edited(NO_FARM_FILE, "a box in the volume", gapped(2), |file| file.set_offset(1, file.offset(0) + 100));
    list.edited(NO_FARM_FILE, "the last in a gap behind the first box", gapped(3), |file| {
        file.set_offset(3, file.end(1));
        file.set_length(3, 1);
    });
}

fn no_length(list: &mut List) {
    list.add(WRONG_SECTION, "no lengths at the directory's end", of_lengths(1, &[(0, 0), (1, 0)]));
    let none: Vec<(usize, usize)> = (0..=BOXES).map(|i| (i, 0)).collect();
    list.add(WRONG_SECTION, "64 sections of no length", of_lengths(BOXES, &none));
    for i in 0..=3 {
        list.add(WRONG_SECTION, "of no length, between others", of_lengths(3, &[(i, 0)]));
    }
    list.edited(NO_FARM_FILE, "of no length, in the directory", plain(1), |file| {
        (file.set_offset(0, 19), file.set_length(0, 0));
    });
    for back in [1, 50, 184] {
        list.edited(NO_FARM_FILE, "of no length, in the section before", plain(3), |file| {
            (file.set_offset(2, file.end(1) - back), file.set_length(2, 0));
        });
        list.edited(NO_FARM_FILE, "of no length and the last, in the section before", plain(3), |file| {
            (file.set_offset(3, file.end(2) - back), file.set_length(3, 0));
        });
    }
    list.edited(WRONG_SECTION, "of no length, at the end of the section before", plain(3), |file| {
        (file.set_offset(2, file.end(1)), file.set_length(2, 0));
    });
    list.edited(WRONG_SECTION, "of no length, at the file's end", plain(3), |file| {
        (file.set_offset(3, file.bytes.len() as u32), file.set_length(3, 0));
    });
    for offset in [1, 1000] {
        list.edited(NO_FARM_FILE, "of no length, behind the file's end", plain(3), |file| {
            (file.set_offset(3, file.bytes.len() as u32 + offset), file.set_length(3, 0));
        });
    }
    list.edited(NO_FARM_FILE, "of no length, at 2^32 - 1", plain(3), |file| {
        (file.set_offset(3, u32::MAX), file.set_length(3, 0));
    });
}

fn past_the_end(list: &mut List) {
    list.edited(NO_FARM_FILE, "a byte is missing", plain(2), FarmFile::shorten);
    list.edited(NO_FARM_FILE, "one byte past the end", plain(2), |file| file.set_length(2, 185));
    list.edited(NO_FARM_FILE, "moved past the end by one", plain(2), |file| file.set_offset(2, file.offset(2) + 1));
    list.edited(NO_FARM_FILE, "a byte at the file's end", plain(2), |file| {
        (file.set_offset(2, file.bytes.len() as u32), file.set_length(2, 1));
    });
    list.edited(NO_FARM_FILE, "the volume passes the end", plain(2), |file| file.set_length(0, 100_000));
    list.edited(WRONG_SECTION, "a last section up to the end", gapped(2), |file| {
        file.set_length(2, file.bytes.len() as u32 - file.offset(2));
    });
    // Offset plus length wraps to a place in the file.
    for offset in [184, 183, 100, 92, 1] {
        list.edited(NO_FARM_FILE, "a box about 2^32", plain(2), |file| {
            file.set_offset(2, 0_u32.wrapping_sub(offset));
        });
        list.edited(NO_FARM_FILE, "a box in the middle about 2^32", plain(3), |file| {
            file.set_offset(2, 0_u32.wrapping_sub(offset));
        });
    }
    list.edited(NO_FARM_FILE, "the volume about 2^32", plain(1), |file| file.set_offset(0, 0_u32.wrapping_sub(300)));
    for i in 0..=2 {
        list.edited(NO_FARM_FILE, "a length that wraps to no length", plain(2), |file| {
            file.set_length(i, 0_u32.wrapping_sub(file.offset(i)));
        });
        list.edited(NO_FARM_FILE, "a length that wraps to the next section", plain(2), |file| {
            file.set_length(i, u32::MAX);
        });
    }
    list.edited(NO_FARM_FILE, "an offset of 2^31", plain(2), |file| file.set_offset(2, 1 << 31));
    list.edited(NO_FARM_FILE, "a length of 2^31", plain(2), |file| file.set_length(2, 1 << 31));
    list.edited(NO_FARM_FILE, "the right place modulo 2^16", plain(2), |file| {
        file.set_offset(2, file.offset(2) + (1 << 16));
    });
}

fn lengths(list: &mut List) {
    for length in [0, 7, 8, BOX, 383, 384, 385, 391, 393, 399, 400, 416, 424] {
        list.add(WRONG_SECTION, format!("a volume of {length} bytes"), of_lengths(1, &[(0, length)]));
    }
    for length in [183, 185, 176, 192, LEAST_VOLUME, 1] {
        for i in [1, 2, 3] {
            list.add(WRONG_SECTION, format!("a box of {length} bytes"), of_lengths(3, &[(i, length)]));
        }
    }
    list.add(WRONG_SECTION, "lengths exchanged", of_lengths(1, &[(0, BOX), (1, LEAST_VOLUME)]));
    list.edited(WRONG_SECTION, "a length with a byte less than there is room for", gapped(2), |file| {
        file.set_length(1, 183);
    });
}

/// The cube and a wall at x = 2 as the plane at this place behind the six;
/// the others are further out.
fn walled(planes: usize, place: usize) -> Volume {
    let mut more = vec![[-1.0, 0.0, 0.0, -20.0]; planes - FEWEST_PLANES];
    more[place] = [-1.0, 0.0, 0.0, -2.0];
    Volume::with_more(CUBE, &more)
}

/// How many planes the volume has, and how long it is.
fn planes(list: &mut List) {
    for count in [7, MOST_PLANES] {
        list.add(0, format!("{count} planes, some further out"), viewed(with_planes(CUBE, count), 4));
    }
    list.add(0, "a wall as the last of 7 planes, and a block before it", viewed(walled(7, 0), 4));
    for count in [8, 11, MOST_PLANES - 1, MOST_PLANES] {
        list.add(0, format!("a wall as the last of {count} planes"), viewed(walled(count, count - 7), 1));
    }
    let further = MOST_PLANES - FEWEST_PLANES;
    for place in [0, 1, further / 2] {
        list.add(0, format!("a wall at place {place} of {further}"), viewed(walled(MOST_PLANES, place), 1));
    }
    let walled_rays = Volume::new(&CUBE[..24].as_chunks().0.repeat(2)[..7], &[-1.0; 24]);
    list.add(0, "rays that would be walls", viewed(walled_rays, 4));
    // A count that is none, and one of another length.
    for count in COUNTS {
        let refusal = match count {
            6.0 => 0,
            _ if rust::counted(count).is_ok() => WRONG_SECTION,
            _ => NO_COUNT,
        };
        list.add(refusal, format!("a count of {count}"), viewed(Volume::of(CUBE).counted(count), 1));
    }
    let (one_less, too_many) = ((MOST_PLANES - 1) as f64, (MOST_PLANES + 1) as f64);
    let in_a_byte = (MOST_PLANES + 256) as f64;
    for (count, refusal) in
        [(6.0, WRONG_SECTION), (one_less, WRONG_SECTION), (too_many, NO_COUNT), (in_a_byte, NO_COUNT)]
    {
        let volume = with_planes(CUBE, MOST_PLANES).counted(count);
        list.add(refusal, format!("a count of {count} for {MOST_PLANES} planes"), viewed(volume, 1));
    }
    list.add(WRONG_SECTION, "a count of 6 for 7 planes", viewed(with_planes(CUBE, 7).counted(6.0), 1));
    let five = Volume::new(&CUBE[..20].as_chunks().0, &[0.0; 24]);
    list.add(WRONG_SECTION, "5 planes", viewed(five, 1));
    for count in TOO_MANY {
        list.add(NO_COUNT, format!("{count} planes, too many"), viewed(with_planes(CUBE, count), 1));
    }
    // Lengths about those of 7 planes and of the most.
    for length in [392, 423, 425, 432, 456] {
        let file = viewed_of_lengths(with_planes(CUBE, 7), 1, &[(0, length)]);
        list.add(WRONG_SECTION, format!("7 planes in {length} bytes"), file);
    }
    let most = volume_bytes(MOST_PLANES);
    for length in [LEAST_VOLUME, most - 32, most - 8, most - 1, most + 1, most + 8] {
        let file = viewed_of_lengths(with_planes(CUBE, MOST_PLANES), 1, &[(0, length)]);
        list.add(WRONG_SECTION, format!("{MOST_PLANES} planes in {length} bytes"), file);
    }
    // No count, in less than there is room for six planes, and in more.
    let nan = f64::NAN;
    for (count, length) in [(nan, 0), (nan, 8), (5.0, 360), (nan, 384), (too_many, 384), (nan, 391), (6.5, 391)] {
        let file = viewed_of_lengths(Volume::of(CUBE).counted(count), 1, &[(0, length)]);
        list.add(WRONG_SECTION, format!("a count of {count} in {length} bytes"), file);
    }
    let more = [(nan, 393), (too_many, 393), (6.5, 399), (-6.0, 400), (nan, 424), (5.0, most), (too_many, most + 31)];
    for (count, length) in more {
        let file = viewed_of_lengths(Volume::of(CUBE).counted(count), 1, &[(0, length)]);
        list.add(NO_COUNT, format!("a count of {count} in {length} bytes"), file);
    }
    // The record without its count, and the same with a number behind it.
    let without = |length: usize| {
        let mut file = FarmFile::default();
        file.begin(2);
        file.put(0, &bytes_of(&[&CUBE[..], &[0.0]].concat())[..length]);
        file.put(1, &bytes_of(&block(0)));
        file
    };
    list.add(WRONG_SECTION, "six planes and four rays alone", without(384));
    list.add(NO_COUNT, "a number behind six planes and four rays", without(392));
}

fn flags(list: &mut List) {
    let nan = f64::NAN;
    let signalling = f64::from_bits(0x7ff0_0000_0000_0001);
    let near_one = [1.0_f64.next_up(), 1.0_f64.next_down()];
    let least = f64::from_bits(1);
    let wrong = [2.0, nan, -nan, signalling, 0.5, -1.0, least, -least, f64::INFINITY, near_one[0], near_one[1]];
    for (case, flag) in wrong.into_iter().enumerate() {
        let i = [1, 2, 3][case % 3];
        list.edited(NO_SUCH_VALUE, "another flag", gapped(3), |file| file.set_flag(i, flag));
    }
    list.edited(NO_SUCH_VALUE, "another flag at the last of 63", plain(BOXES), |file| file.set_flag(BOXES, 2.0));
}

/// Of several damages the first in the order of the checks counts, wherever
/// in the file it is.
fn several(list: &mut List) {
    list.edited(NO_FARM_FILE, "a wrong length, and an overlap after it", of_lengths(5, &[(1, 183)]), |file| {
        file.set_offset(5, file.offset(5) - 1);
    });
    list.edited(
        NO_FARM_FILE,
        "a wrong volume, and a last box past the end",
        of_lengths(3, &[(0, 385)]),
        FarmFile::shorten,
    );
    list.edited(WRONG_SECTION, "a wrong flag, and a wrong length after it", of_lengths(9, &[(9, 185)]), |file| {
        file.set_flag(1, 2.0);
    });
    list.edited(WRONG_SECTION, "a wrong volume, and a wrong flag after it", of_lengths(3, &[(0, 383)]), |file| {
        file.set_flag(3, f64::NAN);
    });
    list.edited(
        WRONG_SECTION,
        "another length than the count's, and a wrong flag",
        of_lengths(3, &[(0, 400)]),
        |file| {
            file.set_flag(1, 2.0);
        },
    );
    for (i, length) in [(1, 183), (3, 0), (2, 392)] {
        let too_many = (MOST_PLANES + 1) as f64;
        let file = viewed_of_lengths(Volume::of(CUBE).counted(too_many), 3, &[(i, length)]);
        list.add(NO_COUNT, format!("no count, and a box of {length} bytes"), file);
    }
    for count in [5.0, f64::NAN] {
        list.edited(NO_COUNT, "no count, and a wrong flag", viewed(Volume::of(CUBE).counted(count), 2), |file| {
            file.set_flag(2, 2.0);
        });
    }
    list.edited(
        NO_COUNT,
        "no count, a wrong length and a wrong flag",
        viewed_of_lengths(Volume::of(CUBE).counted(262.0), 2, &[(0, 393), (1, 185)]),
        |file| file.set_flag(2, 2.0),
    );
    list.edited(
        WRONG_SECTION,
        "a short volume, no count and a wrong flag",
        viewed_of_lengths(Volume::of(CUBE).counted(-6.0), 2, &[(0, 384)]),
        |file| file.set_flag(2, 2.0),
    );
    list.edited(NO_FARM_FILE, "no count, and an overlap", viewed(Volume::of(CUBE).counted(6.5), 3), |file| {
        file.set_offset(3, file.offset(3) - 1);
    });
    list.edited(
        NO_FARM_FILE,
        "no count, and a byte missing at the end",
        viewed(Volume::of(CUBE).counted(f64::INFINITY), 2),
        FarmFile::shorten,
    );
    list.edited(WRONG_SECTION, "a wrong length whose own flag is wrong", of_lengths(2, &[(2, 192)]), |file| {
        file.set_flag(2, 0.5);
    });
    list.edited(NO_FARM_FILE, "a wrong flag, and an overlap after it", plain(5), |file| {
        file.set_flag(1, 2.0);
        file.set_offset(5, file.offset(5) - 1);
    });
    list.edited(NO_FARM_FILE, "a wrong flag, and a byte missing at the end", gapped(2), |file| {
        file.set_flag(1, -1.0);
        file.bytes.truncate(file.end(2) as usize - 1);
    });
    list.edited(NO_FARM_FILE, "a wrong length, a wrong flag and 65 sections", plain(BOXES + 1), |file| {
        file.set_flag(1, 2.0);
        file.set_length(3, 100);
    });
    list.edited(NO_FARM_FILE, "of no length, and an overlap after it", of_lengths(4, &[(1, 0)]), |file| {
        file.set_offset(3, file.offset(3) - 1);
    });
    list.edited(WRONG_SECTION, "a wrong flag, and of no length at the end", of_lengths(2, &[(2, 0)]), |file| {
        file.set_flag(1, 3.0);
    });
    list.edited(NO_SUCH_VALUE, "a wrong flag, and an empty range before it", plain(3), |file| {
        file.set_number(1, 0, 99.0);
        file.set_flag(3, 2.0);
    });
}

/// Missing numbers: at places that a verdict would not look at too, and with
/// what is refused before them.
fn missing_numbers(list: &mut List) {
    let ways = || MISSING.into_iter().cycle();
    let volume = |planes: usize| viewed(with_planes(CUBE, planes), 2);
    // The first six planes, screens, rays.
    let (seven, most) = (1 + 4 * 7, 1 + 4 * MOST_PLANES);
    for (number, x) in [1, 4, 8, 23, 24, 25, 27, 28, seven, seven + 5, seven + 6, seven + 23].into_iter().zip(ways()) {
        list.edited(MISSING_NUMBER, "missing in a volume of 7 planes", volume(7), |file| file.set_number(0, number, x));
    }
    for (number, x) in [1, 25, most - 4, most - 1, most, most + 12, most + 23].into_iter().zip(ways()) {
        list.edited(MISSING_NUMBER, "missing in a volume of the most planes", volume(MOST_PLANES), |file| {
            file.set_number(0, number, x);
        });
    }
    // The range and the matrix, of any box.
    for (number, x) in [0, 2, 3, 5, 6, 9, 13, 18, 20, 21].into_iter().zip(ways()) {
        let i = 1 + number % 3;
        list.edited(MISSING_NUMBER, "missing in a box", gapped(3), |file| file.set_number(i, number, x));
    }
    let far = f64::INFINITY;
    list.edited(MISSING_NUMBER, "missing in the last of 63 boxes", plain(BOXES), |file| file.set_number(BOXES, 7, far));
    // An empty range, and a matrix without inverse: nothing looks at the matrix.
    for (number, x) in [(1, -far), (6, f64::NAN), (21, far)] {
        list.edited(MISSING_NUMBER, "missing in a box with an empty range", plain(2), |file| {
            (file.set_number(2, 3, -99.0), file.set_number(2, number, x));
        });
        list.edited(MISSING_NUMBER, "missing in a box without inverse", plain(2), |file| {
            (6..22).for_each(|i| file.set_number(1, i, 0.0));
            file.set_number(1, number, x);
        });
    }
    list.edited(MISSING_NUMBER, "nothing is there", plain(2), |file| {
        (1..49).for_each(|number| file.set_number(0, number, f64::NAN));
        (0..22).for_each(|number| (1..3).for_each(|i| file.set_number(i, number, f64::NAN)));
    });
    // What is refused before: a flag of any box, a count, a length, a place.
    for (i, flag, of, number) in
        [(1, 2.0, 0, 1), (2, f64::NAN, 0, 48), (3, far, 1, 0), (2, 0.5, 2, 21), (1, -far, 3, 4)]
    {
        list.edited(NO_SUCH_VALUE, &format!("a wrong flag in {i}, missing in {of}"), plain(3), |file| {
            (file.set_number(of, number, -far), file.set_flag(i, flag));
        });
    }
    for count in [5.0, f64::NAN, far] {
        list.edited(NO_COUNT, "no count, and missing", viewed(Volume::of(CUBE).counted(count), 1), |file| {
            (file.set_number(0, 7, f64::NAN), file.set_number(1, 6, f64::NAN));
        });
    }
    for others in [[(0, 400)], [(2, 185)], [(0, 391)]] {
        list.edited(WRONG_SECTION, "a wrong length, and missing", of_lengths(2, &others), |file| {
            (file.set_number(0, 7, far), file.set_number(1, 6, f64::NAN));
        });
    }
    list.edited(NO_FARM_FILE, "an overlap, and missing", plain(3), |file| {
        (file.set_number(0, 7, far), file.set_number(1, 6, f64::NAN));
        file.set_offset(3, file.offset(3) - 1);
    });
    // Gaps are unread: before the volume, before a box, at the end.
    for place in 0..4 {
        let mut file = FarmFile::default();
        let rng = &mut Rng::at(0, 7);
        file.begin(3);
        for i in 0..4 {
            if i == place {
                file.fill_missing(rng, BOX);
            }
            match i {
                0 => file.put(0, &bytes_of(Volume::of(CUBE).numbers())),
                3 => {}
                _ => file.put(i, &bytes_of(&block(2 * i))),
            }
        }
        list.add(0, format!("a gap of missing numbers at place {place}"), file);
    }
}

/// Small files of which each number is missing in each way, and each box by
/// itself: of seven planes, of an empty range, with a wrong flag.
pub fn struck_files() -> Vec<Vec<u8>> {
    let mut bases = [viewed(with_planes(CUBE, 7), 1), gapped(2), plain(2), plain(2)];
    bases[2].set_number(2, 3, -99.0);
    bases[3].set_flag(1, 0.5);
    let mut all = vec![];
    for base in bases {
        for i in 0..base.pairs() {
            for number in 0..base.length(i) as usize / 8 {
                all.extend(MISSING.map(|x| {
                    let mut file = base.clone();
                    file.set_number(i, number, x);
                    file.bytes
                }));
            }
        }
    }
    all
}

/// A file of the largest size with as many boxes as it can have, of both
/// verdicts, and the same with a byte more.
pub fn largest_and_refused() -> [Vec<u8>; 2] {
    let rng = &mut Rng::at(0, 7);
    let mut file = of_both_verdicts(0, BOXES, true);
    file.fill_to(rng, LARGEST);
    let largest = file.bytes.clone();
    file.fill_to(rng, LARGEST + 1);
    [largest, file.bytes]
}

/// Files at the largest size, which are always tried and not recorded.
pub fn large_files() -> Vec<Vec<u8>> {
    let rng = &mut Rng::at(0, 6);
    let mut all = vec![];
    let notable = notable_files();
    let first_of = |refusal: u32| {
        let found = notable.iter().find(|file| file.refusal == refusal && file.bytes.len() > 500);
        FarmFile { bytes: found.expect("one of each").bytes.clone() }
    };
    for refusal in [0, NO_FARM_FILE, WRONG_SECTION, NO_COUNT, NO_SUCH_VALUE, MISSING_NUMBER] {
        for size in [LARGEST - 1, LARGEST, LARGEST + 1, LARGEST + 2, 2 * LARGEST, 2 * LARGEST + 1] {
            let mut file = first_of(refusal);
            file.fill_to(rng, size);
            all.push(file.bytes);
        }
    }
    // Its last box ends where the file does, and a byte before.
    for size in [LARGEST, LARGEST + 1] {
        for before in [0, 1] {
            let mut file = plain(63);
            let record = file.bytes[file.offset(63) as usize..].to_vec();
            file.fill_to(rng, size - record.len() - before);
            file.put(63, &record);
            file.fill_to(rng, size);
            all.push(file.bytes);
        }
    }
    all.extend([LARGEST, LARGEST + 1].map(|size| vec![0; size]));
    all.extend([LARGEST, LARGEST + 1].map(|size| vec![2; size]));
    all
}

/// Two small files, cut off at each byte.
pub fn truncated_files() -> Vec<Vec<u8>> {
    let cut = |file: FarmFile| (0..=file.bytes.len()).map(move |size| file.bytes[..size].to_vec());
    cut(plain(1)).chain(cut(gapped(2))).collect()
}

/// Two small files, each byte of their directories and of their counts of
/// planes replaced by every other.
pub fn corrupted_files() -> Vec<Vec<u8>> {
    let mut all = vec![];
    for file in [plain(1), gapped(2)] {
        let count = file.offset(0) as usize;
        for at in (0..4 + 8 * file.pairs()).chain(count..count + 8) {
            for by in 1..=u8::MAX {
                let mut bytes = file.bytes.clone();
                bytes[at] ^= by;
                all.push(bytes);
            }
        }
    }
    all
}

#[cfg(test)]
mod tests {
    use super::*;

    #[test]
    fn notable_files_are_answered_as_said() {
        for file in notable_files() {
            let status = reader::farm_file(&file.bytes, &mut [0; BOXES], &mut 0);
            assert_eq!(status, file.refusal, "{}", file.what);
        }
    }

    #[test]
    fn each_verdict_is_met_alone_and_in_full_files() {
        let texts: Vec<String> = notable_files().iter().map(|file| reader::lines(&file.bytes)).collect();
        assert!(texts.iter().any(|text| text == "1 yes\n") && texts.iter().any(|text| text == "1 no\n"));
        let full: Vec<&String> = texts.iter().filter(|text| text.lines().count() == BOXES).collect();
        assert!(full.len() > 1 && full.iter().all(|text| text.contains("yes") && text.contains("no")));
    }
}
