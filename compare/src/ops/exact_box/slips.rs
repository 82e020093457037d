//! A second reading of volume and box with one slip at a time: each must be
//! found by the inputs that are tried.

use super::*;
use crate::judge::{MISSING_NUMBER, NO_COUNT, WRONG_INPUT};
use crate::planted::{found, slips};
use crate::rust::counted;

slips! {
    None
    // The refusals and their order.
    GridBeforeCount GridBeforeLength GridBeforeFlag GridBeforeMissing MissingBeforeCount
    MissingBeforeFlag FlagBeforeCount MissingUntested RaysUntested MatrixUntested FlagUnchecked OffGridIsNo OffGridIsMissing
    // Negative zeros.
    NegativeZeroInPlanes NegativeZeroInRange NegativeZeroInTurn NegativeZeroInTranslation NegativeZeroInColumn NegativeZeroFlag
    // What is a segment plane.
    ZeroNormalRefused PlanesUnchecked SixPlanesChecked LastPlaneUnchecked HalvesRounded HalvesTruncated NormalUnlimited
    NormalLikeCoordinate DistanceUnlimited DistanceLikeCoordinate StrictNormal StrictDistance LimitsOneWider RaysChecked
    // What is a grid box.
    EmptyAllowed FlatRefused RangeUnlimited StrictRange LimitsOfADistance RangeHalves PlacedUnlimited StrictPlaced
    TranslationUnlimited StrictTranslation TranslationHalves MirrorsRefused TurnsRefused ScalesAllowed ColumnsUnchecked
    RowsUnchecked LastColumnUnchecked CornerEntryUnchecked FlagOneRefused
    // Where the box stands.
    LeastAndGreatestKept TranslationLost TurnedTheOtherWay RangeAsItStands ExtentsExchanged MirrorLost
    // The verdict.
    Filed ReachAlone LastPlaneOut SixPlanesUsed Above
    // The answer.
    YesIsAllOnes WordOnRefusal
}

fn number(slip: Slip, x: f64, limit: i64, strict: bool, negative_zero: bool) -> Result<i64, u32> {
    if negative_zero && x == 0.0 && x.is_sign_negative() {
        return Err(OFF_GRID);
    }
    let limit = limit - i64::from(strict) + i64::from(slip == Slip::LimitsOneWider);
    let x = match slip {
        Slip::HalvesRounded => x.round_ties_even(),
        Slip::HalvesTruncated => x.trunc(),
        _ => x,
    };
    whole(x, limit)
}

/// Past any number that is tried.
const NO_LIMIT: i64 = 1 << 40;

fn plane_of(slip: Slip, numbers: &[f64; 4]) -> Result<WholePlane, u32> {
    let negative_zero = slip == Slip::NegativeZeroInPlanes;
    let limit = match slip {
        Slip::NormalUnlimited => NO_LIMIT,
        Slip::NormalLikeCoordinate => COORDINATE,
        _ => NORMAL,
    };
    let of_normal = |x: f64| number(slip, x, limit, slip == Slip::StrictNormal, negative_zero);
    let normal = [of_normal(numbers[0])?, of_normal(numbers[1])?, of_normal(numbers[2])?];
    if slip == Slip::ZeroNormalRefused && normal == [0; 3] {
        return Err(OFF_GRID);
    }
    let limit = match slip {
        Slip::DistanceUnlimited => NO_LIMIT,
        Slip::DistanceLikeCoordinate => COORDINATE,
        _ => DISTANCE,
    };
    Ok(WholePlane { normal, distance: number(slip, numbers[3], limit, slip == Slip::StrictDistance, negative_zero)? })
}

/// A number of a plane that goes untested, as it is.
fn untested(numbers: &[f64; 4]) -> WholePlane {
    let [x, y, z, distance] = numbers.map(|x| x as i64 % NO_LIMIT);
    WholePlane { normal: [x, y, z], distance }
}

fn planes_of(slip: Slip, volume: &[f64]) -> Result<Vec<WholePlane>, u32> {
    let records = volume[1..volume.len() - 24].as_chunks::<4>().0;
    let last = records.len() - 1;
    let of_record = |(i, record): (usize, &[f64; 4])| match slip {
        Slip::PlanesUnchecked => Ok(untested(record)),
        Slip::SixPlanesChecked if i >= 6 => Ok(untested(record)),
        Slip::LastPlaneUnchecked if i == last => Ok(untested(record)),
        _ => plane_of(slip, record),
    };
    if slip == Slip::RaysChecked && volume[volume.len() - 24..].iter().any(|&x| whole(x, COORDINATE).is_err()) {
        return Err(OFF_GRID);
    }
    records.iter().enumerate().map(of_record).collect()
}

fn is_turn(slip: Slip, m: &[f64; 16]) -> bool {
    let negative = |slipped: Slip, x: f64| slip == slipped && x == 0.0 && x.is_sign_negative();
    let entry = |row: usize, column: usize| m[4 * row + column];
    let is_unit = |x: f64| match slip {
        Slip::MirrorsRefused => x == 1.0,
        Slip::ScalesAllowed => x != 0.0 && x.fract() == 0.0 && x.abs() < 1e9,
        _ => x.abs() == 1.0,
    };
    let of = |three: [f64; 3]| {
        three.iter().filter(|&&x| is_unit(x)).count() == 1
            && three.iter().filter(|&&x| x == 0.0 && !negative(Slip::NegativeZeroInTurn, x)).count() == 2
    };
    let rows = (0..3).all(|row| of(array::from_fn(|column| entry(row, column))));
    let columns = (0..3).all(|column| of(array::from_fn(|row| entry(row, column))));
    let last = (0..3).all(|row| entry(row, 3) == 0.0 && !negative(Slip::NegativeZeroInColumn, entry(row, 3)));
    let unturned = (0..3).all(|i| entry(i, i) != 0.0);
    (rows || slip == Slip::RowsUnchecked)
        && (columns || slip == Slip::ColumnsUnchecked)
        && (last || slip == Slip::LastColumnUnchecked)
        && (entry(3, 3) == 1.0 || [Slip::CornerEntryUnchecked, Slip::LastColumnUnchecked].contains(&slip))
        && (unturned || slip != Slip::TurnsRefused)
}

fn standing(slip: Slip, b: &Boxed) -> Result<[Whole; 2], u32> {
    let limit = match slip {
        Slip::RangeUnlimited => NO_LIMIT,
        Slip::LimitsOfADistance => DISTANCE,
        _ => COORDINATE,
    };
    let mut range = [0; 6];
    for (to, &x) in range.iter_mut().zip(b) {
        let x = if slip == Slip::RangeHalves { x.trunc() } else { x };
        *to = number(slip, x, limit, slip == Slip::StrictRange, slip == Slip::NegativeZeroInRange)?;
    }
    let [min, max]: [Whole; 2] = [array::from_fn(|i| range[i]), array::from_fn(|i| range[3 + i])];
    let empty = (0..3).any(|i| min[i] > max[i] || (slip == Slip::FlatRefused && min[i] == max[i]));
    let m: &[f64; 16] = b[6..].first_chunk().expect("a matrix");
    if (empty && slip != Slip::EmptyAllowed) || !is_turn(slip, m) || (slip == Slip::FlagOneRefused && b[22] == 1.0) {
        return Err(OFF_GRID);
    }
    let limit = if slip == Slip::TranslationUnlimited { NO_LIMIT } else { COORDINATE };
    let along = |x: f64| {
        let x = if slip == Slip::TranslationHalves { x.trunc() } else { x };
        number(slip, x, limit, slip == Slip::StrictTranslation, slip == Slip::NegativeZeroInTranslation)
    };
    let translation = [along(m[12])?, along(m[13])?, along(m[14])?];
    let translation = if slip == Slip::TranslationLost { [0; 3] } else { translation };
    let entry = |row: usize, column: usize| {
        let (row, column) = if slip == Slip::TurnedTheOtherWay { (column, row) } else { (row, column) };
        let x = m[4 * row + column] as i64;
        if slip == Slip::MirrorLost { x.abs() } else { x }
    };
    let moved = |p: Whole| -> Whole {
        array::from_fn(|i| (0..3).map(|row| p[row].wrapping_mul(entry(row, i))).sum::<i64>() + translation[i])
    };
    let (a, b) = match slip {
        Slip::RangeAsItStands => (min, max),
        // The sizes along the axes stay as they were.
        Slip::ExtentsExchanged => (moved(min), array::from_fn(|i| moved(min)[i] + max[i] - min[i])),
        _ => (moved(min), moved(max)),
    };
    let on_grid = [a, b].iter().flatten().all(|x| x.abs() <= COORDINATE - i64::from(slip == Slip::StrictPlaced));
    if !on_grid && slip != Slip::PlacedUnlimited {
        return Err(OFF_GRID);
    }
    if slip == Slip::LeastAndGreatestKept {
        return Ok([a, b]);
    }
    Ok([array::from_fn(|i| a[i].min(b[i])), array::from_fn(|i| a[i].max(b[i]))])
}

fn is_missing(slip: Slip, volume: &[f64], b: &Boxed) -> bool {
    let looked_at = if slip == Slip::RaysUntested { &volume[..volume.len() - 24] } else { volume };
    let of_box = if slip == Slip::MatrixUntested { &b[..6] } else { &b[..] };
    finite(looked_at).is_err() || finite(of_box).is_err()
}

fn seen(slip: Slip, planes: &[WholePlane], corners: [Whole; 2]) -> bool {
    let used = match slip {
        Slip::LastPlaneOut => &planes[..planes.len() - 1],
        Slip::SixPlanesUsed => &planes[..6],
        _ => planes,
    };
    let reach = |plane: &WholePlane| exact::corners(corners).into_iter().map(|p| plane.reach(p)).max();
    match slip {
        Slip::ReachAlone => used.iter().all(|plane| reach(plane) >= Some(0)),
        Slip::Above => used.iter().all(|plane| reach(plane) > Some(0)) && exact::shares_a_point(used, corners),
        _ if (0..3).any(|i| corners[0][i] > corners[1][i]) => false,
        _ => exact::shares_a_point(used, corners),
    }
}

fn answered(slip: Slip, volume: &[f64], b: &[f64]) -> Result<bool, u32> {
    let Ok(b): Result<&Boxed, _> = b.try_into() else {
        return Err(WRONG_INPUT);
    };
    if volume.len() < 49 {
        return Err(WRONG_INPUT);
    }
    let count = counted(volume[0]);
    let other = count.is_ok_and(|count| volume.len() != 25 + 4 * count);
    let no_flag = match slip {
        Slip::FlagUnchecked => false,
        Slip::NegativeZeroFlag => b[22].to_bits() != 0 && b[22] != 1.0,
        _ => b[22] != 0.0 && b[22] != 1.0,
    };
    let missing = is_missing(slip, volume, b) && slip != Slip::MissingUntested;
    let asked = planes_of(slip, volume).and_then(|planes| Ok((planes, standing(slip, b)?)));
    let off = asked.is_err();
    match slip {
        Slip::GridBeforeCount if off => return Err(OFF_GRID),
        Slip::MissingBeforeCount if missing => return Err(MISSING_NUMBER),
        Slip::FlagBeforeCount if no_flag => return Err(NO_SUCH_VALUE),
        _ if count.is_err() => return Err(NO_COUNT),
        Slip::GridBeforeLength if off => return Err(OFF_GRID),
        _ if other => return Err(WRONG_INPUT),
        Slip::GridBeforeFlag if off => return Err(OFF_GRID),
        Slip::MissingBeforeFlag if missing => return Err(MISSING_NUMBER),
        _ if no_flag => return Err(NO_SUCH_VALUE),
        Slip::GridBeforeMissing if off => return Err(OFF_GRID),
        _ if missing => return Err(MISSING_NUMBER),
        Slip::OffGridIsNo if off => return Ok(false),
        Slip::OffGridIsMissing if off => return Err(MISSING_NUMBER),
        _ => {}
    }
    let (planes, corners) = asked?;
    if slip == Slip::Filed {
        let placed = crate::rust::boxed(b)?;
        return Ok(crate::rust::ask(
            volume,
            planes.len(),
            |v| v.intersects_bbox(&placed),
            |v| v.intersects_bbox(&placed),
        ));
    }
    Ok(seen(slip, &planes, corners))
}

fn side(slip: Slip) -> Box<dyn Side> {
    Box::new(Pointer(slip, |slip: Slip, &[volume, b, ..]: &Ins, out: Lent| {
        // What is lent is as long as it says.
        let (volume, b) = unsafe { (volume.slice(), b.slice()) };
        let verdict = unsafe { &mut *out.at.cast::<u32>() };
        match answered(slip, volume, b) {
            Ok(true) if slip == Slip::YesIsAllOnes => *verdict = u32::MAX,
            Ok(is) => *verdict = is.into(),
            Err(refusal) => {
                if slip == Slip::WordOnRefusal {
                    *verdict = 0;
                }
                return refusal;
            }
        }
        0
    }))
}

/// By the inputs that are always tried, and by drawn ones alone as well.
#[test]
fn each_slip_is_found() {
    let found = |&slip: &Slip| (slip, found(&of_block().by(side(slip)), 60_000));
    let wrong: Vec<_> = ALL.iter().map(found).filter(|&(slip, by)| by != [slip != Slip::None; 2]).collect();
    assert!(wrong.is_empty(), "by the fixed inputs, and by the drawn ones: {wrong:?}");
}
