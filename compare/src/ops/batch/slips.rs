//! A second batch with one slip at a time: each must be found by the inputs
//! that are tried.

use super::*;
use crate::judge::NO_COUNT;
use crate::planted::{found, slips};
use crate::rust::plane;
use openusd::gf::{Plane, Screens};

slips! {
    None
    // Lengths, the count and the slots, and when they are looked at.
    ShortVolumeAllowed NoBoxAllowed NumbersLeftOver LongerVolumeAllowed ShorterVolumeAllowed FewerPlanesAllowed
    MorePlanesAllowed CountInAByte CountFirst CountBeforeBoxes LengthBeforeCount RoomFirst RoomBeforeCount
    RoomBeforeLength RoomAfterFlags RoomAfterNumbers RoomUnchecked LongerRoomAllowed ShorterRoomAllowed RoomInNumbers
    RoomOfAFarmFile
    // Flags.
    FlagsFirst FlagsBeforeCount FlagsBeforeLength FirstFlagAlone LastFlagUnchecked FlagsUnchecked NegativeZeroRefused
    OneRefused NonZeroAllowed NanFlagIsMissing
    // Numbers that are missing.
    MissingFirst MissingBeforeCount MissingBeforeLength MissingBeforeRoom MissingBeforeFlags MissingOfVolumeBeforeFlags
    BoxByBox VolumeUntested RaysUntested ScreensUntested LastPlaneUntested FirstBoxTested LastBoxUntested
    RangesTestedAlone MatrixUntested EmptyUntested DegenerateUntested InfinitiesAllowed NegativeInfinityAllowed
    NanAllowed SumTested
    // The planes.
    SixPlanesUsed LastPlaneUnused PairsOfPlanes CountGathered OneFurther AxesExchanged LastAxesExchanged
    DistancesReversed AllPlacesUsed OtherPlacesZero PlanesOfTheFirstBox
    // The boxes.
    LastBoxLeftOut FirstBoxLeftOut FirstBoxForAll FirstMatrixForAll LastMatrixKept BoxByOne BoxesReversed
    EmptyIsSeen EmptyEndsBatch DegenerateByMatrix DegenerateStays OnlyOneByte FourAtATime
    // The answer, and what may not be written.
    StopAtFirstNo StopAtFirstYes NoForAll YesForAll Inverted YesIsAllOnes NoNotWritten YesNotWritten SlotByOne
    SlotsReversed SlotsOnRefusal SlotsBeforeTheFlag VolumeWritten BoxWritten BesideSlots BesideBoxes
}

fn is_flag(slip: Slip, flag: f64) -> bool {
    match slip {
        Slip::FlagsUnchecked => true,
        Slip::NegativeZeroRefused => flag.to_bits() == 0 || flag == 1.0,
        Slip::OneRefused => flag == 0.0,
        Slip::NonZeroAllowed => !flag.is_nan(),
        Slip::NanFlagIsMissing if flag.is_nan() => true,
        _ => flag == 0.0 || flag == 1.0,
    }
}

fn no_flag(slip: Slip, records: &[Boxed]) -> bool {
    let last = records.len().saturating_sub(1);
    let seen = match slip {
        Slip::FirstFlagAlone => &records[..records.len().min(1)],
        Slip::LastFlagUnchecked => &records[..last],
        _ => records,
    };
    !seen.iter().all(|record| is_flag(slip, record[22]))
}

fn is_missing(slip: Slip, x: f64) -> bool {
    match slip {
        Slip::InfinitiesAllowed => x.is_nan(),
        Slip::NegativeInfinityAllowed => x.is_nan() || x == f64::INFINITY,
        Slip::NanAllowed => x.is_infinite(),
        _ => !x.is_finite(),
    }
}

fn volume_missing(slip: Slip, volume: &[f64]) -> bool {
    let rays = volume.len().saturating_sub(24);
    let tested = match slip {
        Slip::VolumeUntested => 0..0,
        Slip::RaysUntested => 0..rays,
        _ => 0..volume.len(),
    };
    tested.into_iter().any(|i| match slip {
        Slip::ScreensUntested if (25..rays).contains(&i) => false,
        Slip::LastPlaneUntested if (rays.saturating_sub(4)..rays).contains(&i) => false,
        _ => is_missing(slip, volume[i]),
    })
}

fn box_missing(slip: Slip, record: &Boxed) -> bool {
    let tested = match slip {
        Slip::RangesTestedAlone | Slip::MatrixUntested => 0..6,
        Slip::EmptyUntested if (0..3).any(|i| record[i] > record[i + 3]) => 0..0,
        Slip::DegenerateUntested if boxed(&with(*record, &[(22, 0.0)])).is_ok_and(|b| b.is_degenerate()) => 0..6,
        _ => 0..23,
    };
    tested.into_iter().any(|i| is_missing(slip, record[i]))
}

fn missing_number(slip: Slip, volume: &[f64], records: &[Boxed]) -> bool {
    if slip == Slip::SumTested {
        // One sum in place of a test of each: it overflows.
        return !volume.iter().chain(records.as_flattened()).sum::<f64>().is_finite();
    }
    let last = records.len().saturating_sub(1);
    let seen = match slip {
        Slip::FirstBoxTested => &records[..records.len().min(1)],
        Slip::LastBoxUntested => &records[..last],
        _ => records,
    };
    volume_missing(slip, volume) || seen.iter().any(|record| box_missing(slip, record))
}

fn stated(slip: Slip, volume: &[f64]) -> Option<usize> {
    let number = volume.first().copied().unwrap_or(0.0);
    let number =
        if slip == Slip::CountInAByte && number.fract() == 0.0 { f64::from(number as i64 as u8) } else { number };
    let (fewest, most) = match slip {
        Slip::FewerPlanesAllowed => (5, MOST_PLANES),
        Slip::MorePlanesAllowed => (6, MOST_PLANES + 1),
        _ => (6, MOST_PLANES),
    };
    (fewest..=most).find(|&n| n as f64 == number)
}

fn refused(slip: Slip, volume: &[f64], boxes: &[f64], room: usize) -> u32 {
    let (records, left) = boxes.as_chunks::<BOX>();
    let short = volume.len() < if slip == Slip::ShortVolumeAllowed { 25 } else { 49 };
    let no_boxes =
        (boxes.is_empty() && slip != Slip::NoBoxAllowed) || (!left.is_empty() && slip != Slip::NumbersLeftOver);
    let count = stated(slip, volume);
    let other_length = count.is_none_or(|count| {
        let right = volume_length(count);
        match slip {
            Slip::LongerVolumeAllowed => volume.len() < right,
            Slip::ShorterVolumeAllowed => volume.len() > right,
            _ => volume.len() != right,
        }
    });
    let no_room = match slip {
        Slip::RoomUnchecked => false,
        Slip::LongerRoomAllowed => room < records.len(),
        Slip::ShorterRoomAllowed => room > records.len(),
        Slip::RoomInNumbers => room != boxes.len(),
        Slip::RoomOfAFarmFile => room != records.len() && room != 63,
        _ => room != records.len(),
    };
    let no_flag = no_flag(slip, records);
    let missing = missing_number(slip, volume, records);
    match slip {
        Slip::CountFirst if count.is_none() => 12,
        Slip::RoomFirst if no_room => 2,
        Slip::FlagsFirst if no_flag => 3,
        Slip::MissingFirst if missing => 13,
        _ if short => 1,
        Slip::CountBeforeBoxes if count.is_none() => 12,
        _ if no_boxes => 1,
        Slip::LengthBeforeCount if other_length => 1,
        Slip::RoomBeforeCount if no_room => 2,
        Slip::FlagsBeforeCount if no_flag => 3,
        Slip::MissingBeforeCount if missing => 13,
        _ if count.is_none() => NO_COUNT,
        Slip::RoomBeforeLength if no_room => 2,
        Slip::FlagsBeforeLength if no_flag => 3,
        Slip::MissingBeforeLength if missing => 13,
        _ if other_length => 1,
        Slip::MissingBeforeRoom if missing => 13,
        Slip::RoomAfterFlags if no_flag => 3,
        Slip::RoomAfterNumbers if no_flag => 3,
        Slip::RoomAfterNumbers if missing => 13,
        _ if no_room => 2,
        Slip::MissingBeforeFlags if missing => 13,
        Slip::MissingOfVolumeBeforeFlags if volume_missing(slip, volume) => 13,
        // Each box is finished before the next.
        Slip::BoxByBox => {
            let of_box = |record: &Boxed| match record {
                _ if !is_flag(slip, record[22]) => Some(3),
                _ => box_missing(slip, record).then_some(13),
            };
            let of_volume = volume_missing(slip, volume).then_some(13);
            records.iter().find_map(of_box).or(of_volume).unwrap_or(0)
        }
        _ if no_flag => 3,
        _ if missing => 13,
        _ => 0,
    }
}

/// A plane in the space of a box.
fn carried(plane: &Plane, b: &BBox3d) -> Plane {
    Plane::from_equation(b.matrix().transpose().transform_homogeneous(plane.equation()))
}

/// The planes as they are gathered.
fn gathered(slip: Slip, volume: &[f64], records: &[Boxed]) -> Vec<Plane> {
    let count = stated(slip, volume).unwrap_or(6).min((volume.len().saturating_sub(1)) / 4);
    let number = |i: usize| volume.get(i).copied().unwrap_or(0.0);
    let used = match slip {
        Slip::SixPlanesUsed => 6.min(count),
        Slip::LastPlaneUnused => count - 1,
        Slip::PairsOfPlanes => count / 2 * 2,
        // What stands behind the planes, in a record of the most.
        Slip::AllPlacesUsed => MOST_PLANES,
        Slip::OtherPlacesZero => MOST_PLANES,
        _ => count,
    };
    let first = match slip {
        Slip::CountGathered => 0,
        Slip::OneFurther => 2,
        _ => 1,
    };
    let at = |i: usize| -> [f64; 4] { std::array::from_fn(|k| number(first + 4 * i + k)) };
    let one = |i: usize| {
        let [x, y, z, distance] = at(i);
        match slip {
            Slip::AxesExchanged => [y, x, z, distance],
            Slip::LastAxesExchanged => [x, z, y, distance],
            Slip::DistancesReversed => [x, y, z, at(used - 1 - i)[3]],
            // Places beyond the count that were filled so that they hide all.
            Slip::OtherPlacesZero if i >= count => [0.0, 0.0, 0.0, 1.0],
            _ => [x, y, z, distance],
        }
    };
    let mut planes: Vec<Plane> = (0..used).map(|i| plane(&one(i))).collect();
    // Made once in the space of the first box.
    if slip == Slip::PlanesOfTheFirstBox && records.len() > 1 {
        let b = boxed(&records[0]).expect("its flag is one");
        if !b.is_degenerate() {
            planes = planes.iter().map(|plane| carried(plane, &b)).collect();
        }
    }
    planes
}

/// The box that is judged at a place.
fn asked(slip: Slip, boxes: &[f64], place: usize) -> Boxed {
    let records = boxes.as_chunks::<BOX>().0;
    let mut record = records[place];
    let matrix_of = |other: usize, mut record: Boxed| {
        record[6..22].copy_from_slice(&records[other][6..22]);
        record
    };
    match slip {
        Slip::FirstBoxForAll => record = records[0],
        Slip::FirstMatrixForAll => record = matrix_of(0, record),
        // A degenerate box is taken in the space of the one before.
        Slip::LastMatrixKept if place > 0 => {
            let is_degenerate = boxed(&with(record, &[(22, 0.0)])).is_ok_and(|b| b.is_degenerate());
            record = if is_degenerate { matrix_of(place - 1, record) } else { record };
        }
        Slip::BoxByOne if place > 0 => {
            let from = (BOX * place + 1).min(boxes.len() - BOX);
            record.copy_from_slice(&boxes[from..][..BOX]);
        }
        Slip::BoxesReversed => record = records[records.len() - 1 - place],
        Slip::PlanesOfTheFirstBox
            if records.len() > 1 && !boxed(&with(records[0], &[(22, 0.0)])).expect("a flag").is_degenerate() =>
        {
            record[6..22].copy_from_slice(&IDENTITY);
        }
        _ => {}
    }
    record[22] = 0.0;
    record
}

fn seen(slip: Slip, view: &Screens, record: &Boxed) -> bool {
    let b = boxed(record).expect("its flag is 0");
    if slip == Slip::EmptyIsSeen && b.range().is_empty() {
        return true;
    }
    if slip == Slip::DegenerateByMatrix && b.is_degenerate() && !b.range().is_empty() {
        return view.planes.iter().all(|plane| carried(plane, &b).reaches_positive_side(b.range()));
    }
    view.intersects_bbox(&b)
}

/// The verdicts in their slots.
fn answered(slip: Slip, volume: &[f64], boxes: &[f64], out: &mut [u32]) {
    let records = boxes.as_chunks::<BOX>().0;
    let planes = gathered(slip, volume, records);
    let view = Screens { planes: &planes };
    let count = records.len().min(out.len());
    let places = match slip {
        Slip::LastBoxLeftOut => 0..count.saturating_sub(1),
        Slip::FirstBoxLeftOut => 1..count,
        Slip::OnlyOneByte => 0..count % 256,
        Slip::FourAtATime if count > 4 => 0..count / 4 * 4,
        _ => 0..count,
    };
    let (mut no, mut yes, mut degenerate) = (false, false, false);
    for place in places {
        let mut record = asked(slip, boxes, place);
        // Once a box was degenerate, all are taken so.
        degenerate |= boxed(&record).expect("its flag is 0").is_degenerate();
        if slip == Slip::DegenerateStays && degenerate {
            record[6..22].copy_from_slice(&IDENTITY);
        }
        let mut verdict = seen(slip, &view, &record);
        match slip {
            Slip::NoForAll => verdict &= !no,
            Slip::YesForAll => verdict |= yes,
            Slip::Inverted => verdict = !verdict,
            _ => {}
        }
        (no, yes) = (no | !verdict, yes | verdict);
        let slot = match slip {
            Slip::SlotByOne => (place + 1) % out.len(),
            Slip::SlotsReversed => out.len() - 1 - place,
            _ => place,
        };
        match (slip, verdict) {
            (Slip::YesIsAllOnes, true) => out[slot] = u32::MAX,
            (Slip::NoNotWritten, false) | (Slip::YesNotWritten, true) => {}
            _ => out[slot] = verdict.into(),
        }
        let ends = match slip {
            Slip::StopAtFirstNo => !verdict,
            Slip::StopAtFirstYes => verdict,
            Slip::EmptyEndsBatch => boxed(&record).expect("its flag is 0").range().is_empty(),
            _ => false,
        };
        if ends {
            return;
        }
    }
}

/// A batch with a slip. One number more than what is lent is there.
fn side(slip: Slip) -> Box<dyn Side> {
    Box::new(Pointer(slip, |slip: Slip, &[volume, boxes, ..]: &Ins, out: Lent| unsafe {
        match slip {
            Slip::VolumeWritten if volume.len > 0 => *volume.at = 6.0 + *volume.at,
            Slip::BoxWritten if boxes.len > 0 => *boxes.at = 0.25 + *boxes.at,
            Slip::BesideBoxes => *boxes.at.add(boxes.len) = 0.25,
            Slip::BesideSlots => *out.at.cast::<u32>().add(out.len) = 0,
            _ => {}
        }
        let (volume, boxes, slots) = (volume.slice(), boxes.slice(), out.slots());
        let status = refused(slip, volume, boxes, slots.len());
        if status == 0 {
            answered(slip, volume, boxes, slots);
            return 0;
        }
        match slip {
            Slip::SlotsOnRefusal => slots.fill(0),
            // Box by box, until one is refused.
            Slip::SlotsBeforeTheFlag if status == 3 => {
                let flags = boxes.as_chunks::<BOX>().0.iter().map(|record| record[22]);
                let before = flags.take_while(|&flag| is_flag(slip, flag)).count();
                answered(slip, volume, &boxes[..BOX * before], &mut slots[..before]);
            }
            _ => {}
        }
        status
    }))
}

/// By the inputs that are always tried, and by drawn ones alone as well.
#[test]
fn each_slip_is_found() {
    for &slip in ALL {
        let found = found(&by(Some(side(slip))), 60_000);
        assert_eq!(found, [slip != Slip::None; 2], "{slip:?} by the fixed inputs, and by the drawn ones");
    }
}
