//! A second reader of farm files with one slip at a time: each must be found
//! by the files that are tried.

use crate::farm::{FarmFiles, Reader};
use crate::judge::MOST_PLANES;
use crate::planted::{found, slips};
use crate::reader::BOXES;
use crate::rust::{boxed, plane};
use crate::trial::Trial;
use openusd::gf::{Plane, Screens};
use std::slice;

slips! {
    None
    // The size, and the room for the result.
    LargestRefused LargerAllowed SizeAfterDirectory RoomBeforeSize RoomAfterDirectory RoomAfterLengths RoomAfterFlags
    LongerRoomAllowed ShorterRoomAllowed
    // The count.
    CountZeroAllowed CountOneAllowed Count64Refused Count65Allowed CountInAByte CountInTwoBytes CountSigned BigEndian
    // The directory and where sections lie.
    ShortFileIsTen
    SumIn32Bits SumSigned OffsetIn16Bits LengthIn16Bits
    StartInDirectory StartInDirectoryByOne StartInCount
    OverlapAllowed OverlapByOne OverlapOfLast OverlapOfFirst Unsorted EqualOffsets StartAtEndRefused
    EndPassed EndPassedByOne EndPassedByLast EndAtEndRefused
    EmptySkipped EmptyStartUnchecked EmptyEndUnchecked EmptyAtEndRefused
    // Lengths.
    LongerAllowed LongerVolumeAllowed ShorterAllowed LengthInWords VolumeUnchecked LastUnchecked FirstUnchecked
    EitherLength VolumeInPlanes
    // How many planes, and when that is asked.
    ShortBy384 ShortBy391 ShortBy393 ShortBy400
    PlanesFiveAllowed PlanesSixAlone PlanesSixRefused PlanesMostRefused PlanesMoreAllowed
    PlanesTruncated PlanesRounded PlanesIn32Bits PlanesInAByte PlanesUnsigned PlanesNanAllowed PlanesByLength
    PlanesAreTen PlanesAreThree PlanesBeforeShort PlanesAfterVolume PlanesAfterBoxes PlanesAfterFlags PlanesFirst
    // Flags.
    NegativeZeroRefused NanAllowed NonZeroAllowed FlagBits FirstFlagUnchecked LastFlagUnchecked FlagTruncated
    // Missing numbers: which are looked for, what is one, and when.
    MissingUnchecked MissingVolume MissingSixPlanes MissingScreens MissingLastPlane MissingRays MissingLastRay
    MissingLastOfVolume MissingBoxes MissingFirstBox MissingLastBox MissingRanges MissingMatrices MissingLastEntry
    MissingEmptyBoxes MissingInfinities MissingPositive MissingNegative MissingNans MissingSignalling MissingLargest
    MissingGaps MissingGapBefore MissingBehindSections MissingBeforeFlags MissingWithFlags MissingBeforePlanes
    MissingBeforeLengths MissingFirst MissingFlag MissingCount MissingIsThree MissingIsEight MissingIsNo
    // The order.
    SectionBySection LengthsWithPlaces FlagsWithLengths FlagsFirst LengthsFirst
    // What is read.
    GapRead GapReadBeforeVolume GapReadAtLast VolumeAtDirectorysEnd BoxByOne
    PlanesAtOldPlace PlanesByOne PlanesSixUsed PlanesLastUnused PlanesSeventhUnused PlanesUsedTo12
    PlanesUsedToOneLess PlanesAllUsed RaysUsed RaysInFront
    // The result.
    LastNotJudged SlotByOne Inverted UnusedLeft UnusedZero UnusedOneShort CountOfSections CountNotWritten
    CountOnRefusal OutOnRefusal OutOnFlag OutOnMissing FileWritten BesideWritten BesideCountWritten
}

/// The most planes.
const MOST: u64 = MOST_PLANES as u64;

/// A number of the file, zeros where it has ended.
fn number(file: &[u8], at: u64, bytes: u64) -> u64 {
    (0..bytes).rev().fold(0, |number, i| number << 8 | u64::from(*file.get((at + i) as usize).unwrap_or(&0)))
}

/// Whether a section of this many bytes is too short for any volume.
fn is_short(slip: Slip, length: u64) -> bool {
    length
        < match slip {
            Slip::ShortBy384 => 384,
            Slip::ShortBy391 => 391,
            Slip::ShortBy393 => 393,
            Slip::ShortBy400 => 400,
            _ => 392,
        }
}

/// How many planes the volume says that it has.
fn stated(slip: Slip, file: &[u8], sections: &Sections) -> Result<u64, u32> {
    let number = f64::from_bits(number(file, read_from(slip, sections, 0), 8));
    let number = match slip {
        Slip::PlanesTruncated => number.trunc(),
        Slip::PlanesRounded => number.round(),
        Slip::PlanesUnsigned => number.abs(),
        Slip::PlanesNanAllowed if number.is_nan() => 6.0,
        Slip::PlanesIn32Bits if number.fract() == 0.0 => (number as i64 as u32).into(),
        Slip::PlanesInAByte if number.fract() == 0.0 => (number as i64 as u8).into(),
        Slip::PlanesByLength => sections.length[0].saturating_sub(200) as f64 / 32.0,
        _ => number,
    };
    let (least, most) = match slip {
        Slip::PlanesFiveAllowed => (5, MOST),
        Slip::PlanesSixAlone => (6, 6),
        Slip::PlanesSixRefused => (7, MOST),
        Slip::PlanesMostRefused => (6, MOST - 1),
        Slip::PlanesMoreAllowed => (6, MOST + 1),
        _ => (6, MOST),
    };
    let none = match slip {
        Slip::PlanesAreTen => 10,
        Slip::PlanesAreThree => 3,
        _ => 12,
    };
    (least..=most).find(|&n| n as f64 == number).ok_or(none)
}

/// The checks of the volume: too short for any, its count, its length.
fn volume_checked(slip: Slip, file: &[u8], sections: &Sections) -> Result<(), u32> {
    let length = sections.length[0];
    if slip == Slip::EmptySkipped && length == 0 {
        return Ok(());
    }
    if slip == Slip::PlanesBeforeShort {
        stated(slip, file, sections)?;
    }
    if is_short(slip, length) && !matches!(slip, Slip::VolumeUnchecked | Slip::ShorterAllowed) {
        return Err(10);
    }
    let planes = match slip {
        Slip::PlanesAfterVolume => {
            let number = f64::from_bits(number(file, sections.at[0], 8));
            if number.fract() != 0.0 || 200.0 + 32.0 * number != length as f64 {
                return Err(10);
            }
            stated(slip, file, sections)?
        }
        // Looked at later.
        Slip::PlanesAfterFlags => stated(slip, file, sections).unwrap_or((length - 200) / 32),
        _ => stated(slip, file, sections)?,
    };
    let wanted = 8 * (25 + 4 * planes);
    let fits = match slip {
        Slip::LongerAllowed | Slip::LongerVolumeAllowed => length >= wanted,
        Slip::ShorterAllowed => length <= wanted,
        Slip::LengthInWords => length / 8 == wanted / 8,
        Slip::VolumeInPlanes => (length - 200) / 32 == planes,
        Slip::VolumeUnchecked => true,
        Slip::EitherLength => length == wanted || length == 184,
        Slip::PlanesAfterFlags if stated(slip, file, sections).is_err() => true,
        _ => length == wanted,
    };
    if fits { Ok(()) } else { Err(10) }
}

fn record<const N: usize>(file: &[u8], at: u64) -> [f64; N] {
    std::array::from_fn(|i| f64::from_bits(number(file, at + 8 * i as u64, 8)))
}

struct Sections {
    at: Vec<u64>,
    length: Vec<u64>,
    size: u64,
}

/// Whether section `i` lies where it may.
fn lies_well(slip: Slip, sections: &Sections, i: usize) -> bool {
    let Sections { at, length, size } = sections;
    let (count, last) = (at.len() as u64, at.len() - 1);
    let directory = match slip {
        Slip::StartInDirectory => 0,
        Slip::StartInDirectoryByOne => 3 + 8 * count,
        Slip::StartInCount => 4,
        _ => 4 + 8 * count,
    };
    let sum = |i: usize| match slip {
        Slip::SumIn32Bits => (at[i] + length[i]) & 0xffff_ffff,
        Slip::SumSigned => ((at[i] + length[i]) as u32 as i32).max(0) as u64,
        _ => at[i] + length[i],
    };
    let before = match (i, slip) {
        (0, _) => directory,
        (_, Slip::OverlapAllowed) => at[i - 1],
        (_, Slip::OverlapByOne) => sum(i - 1).saturating_sub(1),
        (_, Slip::OverlapOfLast) if i == last => at[i - 1],
        (1, Slip::OverlapOfFirst) => at[0],
        (_, Slip::Unsorted) => directory,
        (_, Slip::EqualOffsets) if at[i] == at[i - 1] => at[i],
        (_, Slip::StartAtEndRefused) => sum(i - 1) + 1,
        _ => sum(i - 1),
    };
    let size = match slip {
        Slip::EndPassed => u64::MAX,
        Slip::EndPassedByOne => size + 1,
        Slip::EndPassedByLast if i == last => u64::MAX,
        Slip::EndAtEndRefused => size - 1,
        Slip::EmptyEndUnchecked if length[i] == 0 => u64::MAX,
        Slip::EmptyAtEndRefused if length[i] == 0 => size - 1,
        _ => *size,
    };
    let starts = match slip {
        Slip::EmptySkipped | Slip::EmptyStartUnchecked if length[i] == 0 => true,
        _ => before <= at[i],
    };
    let ends = (slip == Slip::EmptySkipped && length[i] == 0) || sum(i) <= size;
    starts && ends
}

/// Whether box `i` has its length.
fn has_length(slip: Slip, sections: &Sections, i: usize) -> bool {
    let (length, wanted) = (sections.length[i], 184);
    match slip {
        Slip::LongerAllowed => length >= wanted,
        Slip::ShorterAllowed => length <= wanted,
        Slip::LengthInWords => length / 8 == wanted / 8,
        Slip::FirstUnchecked if i == 1 => true,
        Slip::LastUnchecked if i + 1 == sections.at.len() => true,
        Slip::EitherLength => length == 392 || length == 184,
        Slip::EmptySkipped if length == 0 => true,
        _ => length == wanted,
    }
}

fn has_flag(slip: Slip, file: &[u8], sections: &Sections, i: usize) -> bool {
    let bits = number(file, sections.at[i] + 176, 8);
    let flag = f64::from_bits(bits);
    match slip {
        _ if i == 0 => true,
        Slip::NegativeZeroRefused => bits == 0 || flag == 1.0,
        Slip::NanAllowed => flag.is_nan() || flag == 0.0 || flag == 1.0,
        Slip::NonZeroAllowed => !flag.is_nan(),
        Slip::FlagBits => bits <= 1 || flag == 0.0 || flag == 1.0,
        Slip::FirstFlagUnchecked if i == 1 => true,
        Slip::LastFlagUnchecked if i + 1 == sections.at.len() => true,
        Slip::FlagTruncated => (0.0..2.0).contains(&flag.trunc()),
        _ => flag == 0.0 || flag == 1.0,
    }
}

/// Whether a number counts as missing.
fn is_missing(slip: Slip, x: f64) -> bool {
    let bits = x.to_bits();
    match slip {
        Slip::MissingInfinities => x.is_nan(),
        Slip::MissingPositive => x.is_nan() || x == f64::NEG_INFINITY,
        Slip::MissingNegative => x.is_nan() || x == f64::INFINITY,
        Slip::MissingNans => x.is_infinite(),
        Slip::MissingSignalling => x.is_infinite() || x.is_nan() && bits >> 51 & 1 == 1,
        Slip::MissingLargest => !(x.abs() < f64::MAX),
        _ => !x.is_finite(),
    }
}

/// Whether number `n` of section `i`, of `numbers`, is not looked at.
fn is_passed(slip: Slip, file: &[u8], sections: &Sections, i: usize, n: u64, numbers: u64) -> bool {
    let last = sections.at.len() - 1;
    let (volume, ray) = (i == 0, i == 0 && n + 24 >= numbers);
    let plane = volume && n > 0 && !ray;
    let is_empty = || {
        let range: [f64; 6] = record(file, sections.at[i]);
        (0..3).any(|axis| range[axis] > range[axis + 3])
    };
    match slip {
        Slip::MissingUnchecked => true,
        Slip::MissingVolume => volume,
        Slip::MissingSixPlanes => plane && n < 25,
        Slip::MissingScreens => plane && n >= 25,
        Slip::MissingLastPlane => plane && n + 28 >= numbers,
        Slip::MissingRays => ray,
        Slip::MissingLastRay => volume && n + 6 >= numbers,
        Slip::MissingLastOfVolume => volume && n + 1 == numbers,
        Slip::MissingBoxes => !volume,
        Slip::MissingFirstBox => i == 1,
        Slip::MissingLastBox => i == last,
        Slip::MissingRanges => !volume && n < 6,
        Slip::MissingMatrices => !volume && n >= 6,
        Slip::MissingLastEntry => !volume && n == 21,
        Slip::MissingEmptyBoxes => !volume && is_empty(),
        Slip::MissingIsNo => !volume,
        _ => false,
    }
}

/// Whether a section lacks a number, or with some slips what is beside it.
fn lacks(slip: Slip, file: &[u8], sections: &Sections, i: usize) -> bool {
    let (at, length) = (sections.at[i], sections.length[i]);
    let next = sections.at.get(i + 1).copied().unwrap_or(sections.size);
    let (from, to) = match slip {
        Slip::MissingGaps => (at, next.max(at + length)),
        Slip::MissingGapBefore if i == 0 => (4 + 8 * sections.at.len() as u64, at + length),
        Slip::MissingBehindSections if i + 1 == sections.at.len() => (at, sections.size),
        _ => (at, at + length),
    };
    let numbers = to.min(sections.size).saturating_sub(from) / 8;
    let missing = |n: u64| is_missing(slip, f64::from_bits(number(file, from + 8 * n, 8)));
    (0..numbers).any(|n| missing(n) && !is_passed(slip, file, sections, i, n, numbers))
}

/// The sections, where the count may stand and the directory fits.
fn sections(slip: Slip, file: &[u8]) -> Result<Sections, u32> {
    let size = file.len() as u64;
    if size < 4 {
        return Err(if slip == Slip::ShortFileIsTen { 10 } else { 9 });
    }
    let count = match slip {
        Slip::CountInAByte => number(file, 0, 1),
        Slip::CountInTwoBytes => number(file, 0, 2),
        Slip::CountSigned => (number(file, 0, 4) as u32 as i32).unsigned_abs().into(),
        Slip::BigEndian => (number(file, 0, 4) as u32).swap_bytes().into(),
        _ => number(file, 0, 4),
    };
    let least = match slip {
        Slip::CountZeroAllowed if count == 0 => return Err(0),
        Slip::CountOneAllowed => 1,
        _ => 2,
    };
    let most = match slip {
        Slip::Count64Refused => 63,
        Slip::Count65Allowed => 65,
        _ => 64,
    };
    if count < least || count > most {
        return Err(9);
    }
    if 4 + 8 * count > size {
        return Err(9);
    }
    let bytes = |slip_of: Slip| if slip == slip_of { 2 } else { 4 };
    let at = (0..count).map(|i| number(file, 4 + 8 * i, bytes(Slip::OffsetIn16Bits))).collect();
    let length = (0..count).map(|i| number(file, 8 + 8 * i, bytes(Slip::LengthIn16Bits))).collect();
    Ok(Sections { at, length, size })
}

/// Where a section's numbers are read from.
fn read_from(slip: Slip, sections: &Sections, i: usize) -> u64 {
    let (at, directory) = (&sections.at, 4 + 8 * sections.at.len() as u64);
    match slip {
        Slip::GapRead if i > 0 => at[i - 1] + sections.length[i - 1],
        Slip::GapReadBeforeVolume if i == 0 => directory,
        Slip::GapReadAtLast if i + 1 == at.len() => sections.size.saturating_sub(184),
        Slip::VolumeAtDirectorysEnd if i == 0 => 20,
        Slip::BoxByOne if i > 0 => at[i] + 1,
        _ => at[i],
    }
}

fn checked(slip: Slip, file: &[u8]) -> Result<Sections, u32> {
    let found = sections(slip, file)?;
    let all = 0..found.at.len();
    let lies = |i: usize| if lies_well(slip, &found, i) { Ok(()) } else { Err(9) };
    let length = |i: usize| match i {
        0 => volume_checked(slip, file, &found),
        _ if has_length(slip, &found, i) => Ok(()),
        _ => Err(10),
    };
    let flag = |i: usize| if has_flag(slip, file, &found, i) { Ok(()) } else { Err(3) };
    let finite = |i: usize| match slip {
        _ if !lacks(slip, file, &found, i) => Ok(()),
        Slip::MissingIsThree => Err(3),
        Slip::MissingIsEight => Err(8),
        _ => Err(13),
    };
    match slip {
        Slip::MissingFirst => all.clone().try_for_each(finite)?,
        Slip::MissingBeforePlanes => {
            all.clone().try_for_each(lies)?;
            if !is_short(slip, found.length[0]) {
                all.clone().try_for_each(finite)?;
            }
        }
        Slip::MissingBeforeLengths => {
            all.clone().try_for_each(lies)?;
            if !is_short(slip, found.length[0]) {
                stated(slip, file, &found)?;
                all.clone().try_for_each(finite)?;
            }
        }
        Slip::MissingBeforeFlags => {
            all.clone().try_for_each(lies)?;
            all.clone().try_for_each(length)?;
            all.clone().try_for_each(finite)?;
        }
        Slip::MissingWithFlags => {
            all.clone().try_for_each(lies)?;
            all.clone().try_for_each(length)?;
            all.clone().try_for_each(|i| flag(i).and(finite(i)))?;
        }
        // A NaN or an infinity in the place of a flag, or of the count.
        Slip::MissingFlag => {
            all.clone().try_for_each(lies)?;
            all.clone().try_for_each(length)?;
            let given = |i: usize| f64::from_bits(number(file, found.at[i] + 176, 8));
            if all.clone().skip(1).any(|i| !given(i).is_finite()) {
                return Err(13);
            }
        }
        Slip::MissingCount => {
            all.clone().try_for_each(lies)?;
            let count = f64::from_bits(number(file, found.at[0], 8));
            if !is_short(slip, found.length[0]) && !count.is_finite() {
                return Err(13);
            }
        }
        Slip::SectionBySection => {
            all.clone().try_for_each(|i| lies(i).and(length(i)).and(flag(i)).and(finite(i)))?;
        }
        Slip::LengthsWithPlaces => all.clone().try_for_each(|i| lies(i).and(length(i)))?,
        Slip::FlagsWithLengths => {
            all.clone().try_for_each(lies)?;
            all.clone().try_for_each(|i| length(i).and(flag(i)))?;
        }
        Slip::FlagsFirst => {
            all.clone().try_for_each(lies)?;
            all.clone().try_for_each(flag)?;
        }
        Slip::LengthsFirst => all.clone().try_for_each(length)?,
        Slip::PlanesFirst => stated(slip, file, &found).map(|_| ())?,
        Slip::PlanesAfterBoxes => {
            all.clone().try_for_each(lies)?;
            all.clone().skip(1).try_for_each(length)?;
        }
        _ => {}
    }
    all.clone().try_for_each(lies)?;
    if slip == Slip::RoomAfterLengths {
        return all.clone().try_for_each(length).map(|()| found);
    }
    all.clone().try_for_each(length)?;
    all.clone().try_for_each(flag)?;
    if slip == Slip::PlanesAfterFlags {
        stated(slip, file, &found)?;
    }
    all.clone().try_for_each(finite)?;
    Ok(found)
}

/// The planes that are used.
fn used_planes(slip: Slip, file: &[u8], sections: &Sections) -> Vec<Plane> {
    let count = stated(slip, file, sections).unwrap_or(6);
    let used = match slip {
        Slip::PlanesSixUsed => 6,
        Slip::PlanesLastUnused => count - 1,
        Slip::PlanesUsedTo12 => count.min(12),
        Slip::PlanesUsedToOneLess => count.min(MOST - 1),
        Slip::PlanesAllUsed => MOST,
        Slip::RaysUsed => count + 6,
        _ => count,
    };
    let first = match slip {
        Slip::PlanesAtOldPlace => 0,
        Slip::PlanesByOne => 16,
        Slip::RaysInFront => 8 + 192,
        _ => 8,
    };
    let at = read_from(slip, sections, 0) + first;
    let places = (0..used).filter(|&i| slip != Slip::PlanesSeventhUnused || i != 6);
    places.map(|i| plane(&record(file, at + 32 * i))).collect()
}

/// Reads a file with a slip.
fn read(slip: Slip, file: &[u8], out: &mut [u32], count: &mut u32) -> u32 {
    let most = match slip {
        Slip::LargestRefused => 65_535,
        Slip::LargerAllowed => 65_537,
        _ => 65_536,
    };
    let too_large = file.len() > most;
    let no_room = match slip {
        Slip::LongerRoomAllowed => out.len() < BOXES,
        Slip::ShorterRoomAllowed => {
            out.len() > BOXES || out.len() < checked(slip, file).map_or(BOXES, |s| s.at.len() - 1)
        }
        _ => out.len() != BOXES,
    };
    let answer = match checked(slip, file) {
        _ if slip == Slip::RoomBeforeSize && no_room => Err(2),
        Err(refusal) if slip == Slip::SizeAfterDirectory && !no_room => Err(refusal),
        _ if too_large => Err(1),
        Err(9) if slip == Slip::RoomAfterDirectory => Err(9),
        Err(refusal @ 9..) if slip == Slip::RoomAfterLengths => Err(refusal),
        Err(refusal) if slip == Slip::RoomAfterFlags => Err(refusal),
        _ if no_room => Err(2),
        answer => answer,
    };
    let found = match answer {
        Ok(found) => found,
        Err(refusal) => {
            match slip {
                Slip::CountOnRefusal => *count = 0,
                Slip::OutOnRefusal => out.iter_mut().for_each(|slot| *slot = u32::MAX),
                Slip::OutOnFlag if refusal == 3 => out[0] = 1,
                Slip::OutOnMissing if refusal == 13 => out[0] = 1,
                _ => {}
            }
            return refusal;
        }
    };
    let boxes = (found.at.len() - 1).min(out.len());
    let planes = used_planes(slip, file, &found);
    let view = Screens { planes: &planes };
    let used = boxes - usize::from(slip == Slip::LastNotJudged);
    for i in 1..=used {
        let mut one: [f64; 23] = record(file, read_from(slip, &found, i));
        one[22] = 0.0;
        let lacks = slip == Slip::MissingIsNo && one.iter().any(|x| !x.is_finite());
        let yes = !lacks && view.intersects_bbox(&boxed(&one).expect("its flag is 0"));
        let slot = if slip == Slip::SlotByOne { i % out.len() } else { i - 1 };
        out[slot] = u32::from(yes != (slip == Slip::Inverted));
    }
    let unused = &mut out[used..];
    match slip {
        Slip::UnusedLeft | Slip::SlotByOne => {}
        Slip::UnusedZero => unused.fill(0),
        Slip::UnusedOneShort => unused.iter_mut().skip(1).for_each(|slot| *slot = u32::MAX),
        _ => unused.fill(u32::MAX),
    }
    match slip {
        Slip::CountNotWritten => {}
        Slip::CountOfSections => *count = boxes as u32 + 1,
        _ => *count = boxes as u32,
    }
    0
}

fn reader(slip: Slip) -> Reader {
    // What is lent is as long as it says; one word and one byte more is there.
    Box::new(move |file, size, out, slots, count| unsafe {
        match slip {
            Slip::FileWritten if size > 100 => *file.cast_mut().add(100) ^= 1,
            Slip::BesideWritten => *out.add(slots) = u32::MAX,
            Slip::BesideCountWritten => *count.add(1) = 0,
            _ => {}
        }
        read(slip, slice::from_raw_parts(file, size), slice::from_raw_parts_mut(out, slots), &mut *count)
    })
}

#[test]
fn a_second_reader_agrees() {
    let farm = FarmFiles::of(Some(reader(Slip::None)));
    let fixed = farm.cases(0);
    let tally = farm.compare(0..fixed + 300_000, 1);
    assert_eq!(tally.differences, 0, "{:?}", tally.first);
}

/// By the files that are always tried, and by drawn ones alone as well.
#[test]
fn each_slip_is_found() {
    for &slip in ALL.iter().filter(|&&slip| slip != Slip::None) {
        let farm = FarmFiles::of(Some(reader(slip)));
        assert_eq!(found(&farm, 200_000), [true; 2], "{slip:?} by the fixed files, and by the drawn ones");
    }
}
