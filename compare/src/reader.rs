//! The farm file, read by the words of its form, with the Rust's verdict on
//! each box: the judge of `gf_farm_file` and of the programs.

use crate::judge::{
    FEWEST_PLANES, MISSING_NUMBER, MOST_PLANES, NO_FARM_FILE, NO_SUCH_VALUE, WRONG_INPUT, WRONG_OUTPUT, WRONG_SECTION,
};
use crate::inputs::Boxed;
use crate::ops::{behind, block_seen};
use crate::rust::{ask, boxed, counted};
use openusd::gf::BBox3d;

/// How many bytes a farm file has at most.
pub const LARGEST: usize = 65_536;

/// The bytes of the record of a volume with so many planes: their count, the
/// planes, four rays.
pub const fn volume_bytes(planes: usize) -> usize {
    8 * (1 + 4 * planes + 4 * 6)
}

/// The bytes of the least record of a volume, and of a box's.
pub const LEAST_VOLUME: usize = volume_bytes(FEWEST_PLANES);
pub const BOX: usize = 8 * 23;

/// How many sections a farm file has at least and at most, the volume's
/// among them.
pub const SECTIONS: std::ops::RangeInclusive<u32> = 2..=64;

/// How many boxes a farm file has at most.
pub const BOXES: usize = 63;

/// What fills the slots that no box has.
pub const NONE: u32 = u32::MAX;

/// The sections of a file, in their order: offset and length, 32 bits each.
type Directory<'a> = &'a [[u8; 8]];

/// Where a section begins and how long it is, in 64 bits, where their sum
/// cannot overflow.
fn section(pair: &[u8; 8]) -> (u64, u64) {
    let [a, b, c, d, e, f, g, h] = *pair;
    (u32::from_le_bytes([a, b, c, d]).into(), u32::from_le_bytes([e, f, g, h]).into())
}

/// The directory of a file whose sections lie behind it, one after another,
/// in the file.
fn directory(file: &[u8]) -> Option<Directory<'_>> {
    let (count, rest) = file.split_first_chunk()?;
    let count = u32::from_le_bytes(*count);
    if !SECTIONS.contains(&count) {
        return None;
    }
    let pairs = rest.as_chunks().0.get(..count as usize)?;
    let mut end = 4 + 8 * u64::from(count);
    for (offset, length) in pairs.iter().map(section) {
        if offset < end || offset + length > file.len() as u64 {
            return None;
        }
        end = offset + length;
    }
    Some(pairs)
}

/// The numbers of the record that a section holds.
fn record<const N: usize>(file: &[u8], pair: &[u8; 8]) -> [f64; N] {
    let words = file[section(pair).0 as usize..].as_chunks().0;
    words.first_chunk::<N>().expect("the section is as long").map(f64::from_le_bytes)
}

/// Whether every number of a section is finite.
fn is_finite(file: &[u8], pair: &[u8; 8]) -> bool {
    let (offset, length) = section(pair);
    let words = file[offset as usize..][..length as usize].as_chunks().0;
    words.iter().all(|word| f64::from_le_bytes(*word).is_finite())
}

/// How many planes the volume has, its section and those of the boxes, or the
/// number of the first check that fails; each is made over the whole file
/// before the next. The last is left out where it is only timed without.
fn checked(file: &[u8], tests: bool) -> Result<(usize, &[u8; 8], Directory<'_>), u32> {
    let (volume, boxes) = directory(file).and_then(|pairs| pairs.split_first()).ok_or(NO_FARM_FILE)?;
    if section(volume).1 < LEAST_VOLUME as u64 {
        return Err(WRONG_SECTION);
    }
    let [count] = record(file, volume);
    let planes = counted(count)?;
    let holds = |pair: &[u8; 8], length: usize| section(pair).1 == length as u64;
    if !holds(volume, volume_bytes(planes)) || !boxes.iter().all(|pair| holds(pair, BOX)) {
        return Err(WRONG_SECTION);
    }
    let flag = |pair: &[u8; 8]| record::<23>(file, pair)[22];
    if !boxes.iter().all(|pair| matches!(flag(pair), 0.0 | 1.0)) {
        return Err(NO_SUCH_VALUE);
    }
    if tests && !(is_finite(file, volume) && boxes.iter().all(|pair| is_finite(file, pair))) {
        return Err(MISSING_NUMBER);
    }
    Ok((planes, volume, boxes))
}

/// The count and the planes of a volume, and zeros behind them.
fn volume_of(file: &[u8], pair: &[u8; 8], planes: usize) -> [f64; 1 + 4 * MOST_PLANES] {
    let mut numbers = [0.0; 1 + 4 * MOST_PLANES];
    let words = file[section(pair).0 as usize..].as_chunks().0;
    for (to, word) in numbers.iter_mut().zip(&words[..1 + 4 * planes]) {
        *to = f64::from_le_bytes(*word);
    }
    numbers
}

/// The verdict on each box in its slot, and what fills the others.
fn verdicts(file: &[u8], boxes: Directory<'_>, sees: impl Fn(&BBox3d) -> bool) -> [u32; BOXES] {
    let mut slots = [NONE; BOXES];
    for (slot, pair) in slots.iter_mut().zip(boxes) {
        *slot = sees(&boxed(&record(file, pair)).expect("its flag is 0 or 1")).into();
    }
    slots
}

/// `gf_farm_file`: the verdict on each box in its slot and how many there
/// are, or the number of a refusal, which leaves both as they were.
pub fn farm_file(file: &[u8], out: &mut [u32], count: &mut u32) -> u32 {
    read(file, out, count, true)
}

/// The same without the test for missing numbers, to be timed against.
pub fn untested_farm_file(file: &[u8], out: &mut [u32], count: &mut u32) -> u32 {
    read(file, out, count, false)
}

fn read(file: &[u8], out: &mut [u32], count: &mut u32, tests: bool) -> u32 {
    if file.len() > LARGEST {
        return WRONG_INPUT;
    }
    if out.len() != BOXES {
        return WRONG_OUTPUT;
    }
    let (planes, volume, boxes) = match checked(file, tests) {
        Ok(sections) => sections,
        Err(refusal) => return refusal,
    };
    let slots = ask(
        &volume_of(file, volume, planes),
        planes,
        |six| verdicts(file, boxes, |b| six.intersects_bbox(b)),
        |screens| verdicts(file, boxes, |b| screens.intersects_bbox(b)),
    );
    out.copy_from_slice(&slots);
    *count = boxes.len() as u32;
    0
}

/// The lines that the program is to print for a file.
pub fn lines(file: &[u8]) -> String {
    let (mut out, mut count) = ([0; BOXES], 0);
    match farm_file(file, &mut out, &mut count) {
        0 => {
            let line = |(i, &yes): (usize, &u32)| format!("{} {}\n", i + 1, if yes == 1 { "yes" } else { "no" });
            out[..count as usize].iter().enumerate().map(line).collect()
        }
        refusal => format!("refused {refusal}\n"),
    }
}

/// What is told of a box: its verdict, whether its range is empty, the planes
/// that it is wholly behind, a bit for each, how many planes there are, and the
/// exact verdict, where there is one.
#[derive(Clone, Copy)]
pub struct Told {
    pub yes: bool,
    pub empty: bool,
    pub behind: u32,
    pub planes: usize,
    pub exact: Option<bool>,
}

impl Told {
    fn of(volume: &[f64], planes: usize, record: &Boxed) -> Told {
        let placed = boxed(record).expect("its flag is 0 or 1");
        Told {
            yes: ask(volume, planes, |v| v.intersects_bbox(&placed), |v| v.intersects_bbox(&placed)),
            empty: placed.range.is_empty(),
            behind: behind(volume, planes, &placed),
            planes,
            exact: block_seen(volume, record).ok(),
        }
    }

    /// The line of a box.
    pub fn line(&self, number: usize) -> String {
        let mut line = format!("{number} {}", word(self.yes));
        if !self.yes && self.empty {
            line += " empty";
        } else if !self.yes {
            for place in (0..self.planes).filter(|place| self.behind >> place & 1 == 1) {
                line += &format!(" {place}");
            }
        }
        match self.exact {
            Some(exact) if exact != self.yes => line + " exact-" + word(exact) + "\n",
            _ => line + "\n",
        }
    }
}

fn word(yes: bool) -> &'static str {
    if yes { "yes" } else { "no" }
}

/// What is told of each box of a file, or the number of a refusal.
pub fn told(file: &[u8]) -> Result<Vec<Told>, u32> {
    if file.len() > LARGEST {
        return Err(WRONG_INPUT);
    }
    let (planes, pair, boxes) = checked(file, true)?;
    let (offset, length) = section(pair);
    let words = file[offset as usize..][..length as usize].as_chunks().0;
    let volume: Vec<f64> = words.iter().map(|word| f64::from_le_bytes(*word)).collect();
    Ok(boxes.iter().map(|pair| Told::of(&volume, planes, &record(file, pair))).collect())
}

/// The lines that `explain` is to print for a file.
pub fn explained(file: &[u8]) -> String {
    match told(file) {
        Ok(all) => all.iter().enumerate().map(|(i, told)| told.line(i + 1)).collect(),
        Err(refusal) => format!("refused {refusal}\n"),
    }
}

#[cfg(test)]
mod tests {
    use super::*;
    use crate::inputs::Rng;
    use crate::planted::slips;
    use crate::program;

    slips! {
        None
        // The places.
        PlacesFromOne LastPlaneLeftOut FirstPlaneLeftOut ReachedPlanes Falling FirstPlaceAlone SixAlone BitsPrinted
        PlacesBehindAYes PlacesOfAnEmptyRange TwoSpaces CommaBetween
        // The words.
        EmptyIsAllPlaces EmptyLeftOut EmptyBehindAYes NoWithoutReason
        // The exact verdict.
        ExactNever ExactAlways ExactWhereAlike ExactTurned ExactNoAlone ExactYesAlone ExactOffTheGridIsNo ExactInFront
    }

    /// The line of a box with a slip.
    fn slipped(slip: Slip, told: &Told, number: usize) -> String {
        let bits = match slip {
            Slip::LastPlaneLeftOut => told.behind & !(1 << (told.planes - 1)),
            Slip::FirstPlaneLeftOut => told.behind & !1,
            Slip::ReachedPlanes => told.behind ^ ((1 << told.planes) - 1),
            Slip::SixAlone => told.behind & 63,
            Slip::FirstPlaceAlone => told.behind & told.behind.wrapping_neg(),
            _ => told.behind,
        };
        let mut places: Vec<usize> = (0..told.planes).filter(|place| bits >> place & 1 == 1).collect();
        if slip == Slip::Falling {
            places.reverse();
        }
        let gap = match slip {
            Slip::TwoSpaces => "  ",
            Slip::CommaBetween => ",",
            _ => " ",
        };
        let mut reason: String = match slip {
            Slip::BitsPrinted => format!(" {bits}"),
            Slip::PlacesFromOne => places.iter().map(|place| format!(" {}", place + 1)).collect(),
            _ => places.iter().map(|place| format!("{gap}{place}")).collect(),
        };
        if told.empty && slip != Slip::EmptyIsAllPlaces {
            reason = match slip {
                Slip::EmptyLeftOut => String::new(),
                Slip::PlacesOfAnEmptyRange => format!("{reason} empty"),
                _ => String::from(" empty"),
            };
        }
        if told.yes {
            reason = match slip {
                Slip::PlacesBehindAYes => (0..told.planes).map(|place| format!(" {place}")).collect(),
                Slip::EmptyBehindAYes => String::from(" empty"),
                _ => String::new(),
            };
        } else if slip == Slip::NoWithoutReason {
            reason = String::new();
        }
        let exact = match slip {
            Slip::ExactNever => None,
            Slip::ExactAlways => told.exact,
            Slip::ExactWhereAlike => told.exact.filter(|&exact| exact == told.yes),
            Slip::ExactTurned => told.exact.filter(|&exact| exact != told.yes).map(|exact| !exact),
            Slip::ExactNoAlone => told.exact.filter(|&exact| exact != told.yes && !exact),
            Slip::ExactYesAlone => told.exact.filter(|&exact| exact != told.yes && exact),
            Slip::ExactOffTheGridIsNo => Some(told.exact.unwrap_or(false)).filter(|&exact| exact != told.yes),
            _ => told.exact.filter(|&exact| exact != told.yes),
        };
        let exact = exact.map_or(String::new(), |exact| format!(" exact-{}", word(exact)));
        let [first, second] = if slip == Slip::ExactInFront { [exact, reason] } else { [reason, exact] };
        format!("{number} {}{first}{second}\n", word(told.yes))
    }

    /// Each slip is found by the files that are always tried with `explain`.
    #[test]
    fn slips_in_explained_lines() {
        let all: Vec<Vec<Told>> = program::explained_files().iter().filter_map(|file| told(file).ok()).collect();
        for &slip in ALL {
            let differs = |told: &Told| slipped(slip, told, 7) != told.line(7);
            assert_eq!(all.iter().flatten().any(differs), slip != Slip::None, "{slip:?}");
        }
    }

    /// `cut -d ' ' -f 1,2` of the explained lines gives the program's.
    #[test]
    fn the_first_two_words() {
        let drawn = (0..2000).map(|case| program::drawn_to_explain(&mut Rng::at(3, case)).bytes);
        for file in program::explained_files().into_iter().chain(drawn) {
            let cut = |line: &str| line.splitn(3, ' ').take(2).collect::<Vec<_>>().join(" ") + "\n";
            assert_eq!(explained(&file).lines().map(cut).collect::<String>(), lines(&file));
        }
    }

    /// The smallest file: the volume and a box in view, written out.
    #[test]
    fn one_box_in_view() {
        let mut file: Vec<u8> = vec![2, 0, 0, 0, 20, 0, 0, 0, 0x88, 1, 0, 0, 0x9c, 1, 0, 0, 0xb8, 0, 0, 0];
        let cube = [[1, 0, 0, 0], [-1, 0, 0, -10], [0, 1, 0, 0], [0, -1, 0, -10], [0, 0, 1, 0], [0, 0, -1, -10]];
        let rays = [0; 24];
        let range = [10, 0, 0, 12, 1, 1];
        let placed = [1, 0, 0, 0, 0, 1, 0, 0, 0, 0, 1, 0, 0, 0, 0, 1, 0];
        for number in [6].iter().chain(cube.as_flattened()).chain(&rays).chain(&range).chain(&placed) {
            file.extend(f64::from(*number).to_le_bytes());
        }
        assert_eq!(lines(&file), "1 yes\n");
        file[412..420].copy_from_slice(&11_f64.to_le_bytes());
        assert_eq!(lines(&file), "1 no\n");
        // The last number of the last ray, an entry of the matrix; a flag.
        for (at, refusal) in [(404, 13), (468, 13), (588, 3)] {
            let mut file = file.clone();
            file[at..at + 8].copy_from_slice(&f64::NAN.to_le_bytes());
            assert_eq!(lines(&file), format!("refused {refusal}\n"));
        }
    }

    /// The same box, and a wall behind the cube's planes at x = 9.
    #[test]
    fn one_box_behind_a_wall() {
        let mut file: Vec<u8> = vec![2, 0, 0, 0, 20, 0, 0, 0, 0xa8, 1, 0, 0, 0xbc, 1, 0, 0, 0xb8, 0, 0, 0];
        let cube = [[1, 0, 0, 0], [-1, 0, 0, -10], [0, 1, 0, 0], [0, -1, 0, -10], [0, 0, 1, 0], [0, 0, -1, -10]];
        let wall = [-1, 0, 0, -9];
        let rays = [0; 24];
        let range = [10, 0, 0, 12, 1, 1];
        let placed = [1, 0, 0, 0, 0, 1, 0, 0, 0, 0, 1, 0, 0, 0, 0, 1, 0];
        for number in [7].iter().chain(cube.as_flattened()).chain(&wall).chain(&rays).chain(&range).chain(&placed) {
            file.extend(f64::from(*number).to_le_bytes());
        }
        assert_eq!(lines(&file), "1 no\n");
        file[444..452].copy_from_slice(&9_f64.to_le_bytes());
        assert_eq!(lines(&file), "1 yes\n");
        file[20..28].copy_from_slice(&6_f64.to_le_bytes());
        assert_eq!(lines(&file), "refused 10\n");
        file[20..28].copy_from_slice(&7.5_f64.to_le_bytes());
        assert_eq!(lines(&file), "refused 12\n");
    }
}
