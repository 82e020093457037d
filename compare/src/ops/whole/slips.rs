//! A second engine with one slip at a time: each must be found by the inputs
//! that are tried.

use super::*;
use crate::planted::{found, slips};

slips! {
    None
    // Lengths and counts, and when they are looked at.
    ShorterEndAllowed LongerEndAllowed SecondEndUnchecked ShortViewAllowed FewerPlanesAllowed MorePlanesAllowed
    MostRefused FewestRefused LongerViewAllowed ShorterViewAllowed RaysAllowed CountInAByte CountInTwoBytes CountFirst
    LengthBeforeCount LimitsFirst LimitsBeforeCount LimitsBeforeLength LengthForCount
    // Limits.
    SixPlanesLimited FirstPlaneLimited LastPlaneUnlimited FirstEndUnlimited SecondEndUnlimited StrictCoordinate
    StrictNormal StrictDistance LeastPasses UpperAlone LowerAlone DistanceLikeCoordinate NormalLikeCoordinate
    DistanceUnlimited LimitsOneWider
    // The verdict.
    AtLeast SixPlanesUsed FirstPlaneUsed LastPlaneUnseen TouchingIsBehind BothBehindMissed EitherBehindIsNo
    ProductsIn32 CrossingsInF32 OtherEnd DistanceAdded OpenSegment WholeLine LeastStart GreatestEnd InAndOutSwapped
    NumeratorsAlone FirstTieIsNo ZeroNormalIsNo EndInFrontIsYes
    // The answer, and what may not be written.
    YesIsAllOnes NoNotWritten WordOnRefusal ViewWritten EndWritten BesideView BesideWord
}

fn limits_hold(slip: Slip, view: &[i32], p0: &[i32], p1: &[i32]) -> bool {
    let within = |x: i32, limit: i64, strict: bool| match slip {
        Slip::LeastPasses => i64::from(x.wrapping_abs()) <= limit,
        Slip::UpperAlone => i64::from(x) <= limit,
        Slip::LowerAlone => i64::from(x) >= -limit,
        Slip::LimitsOneWider => is_within(x, limit + 1),
        _ if strict => is_within(x, limit - 1),
        _ => is_within(x, limit),
    };
    let planes = view.get(1..).unwrap_or(&[]).as_chunks::<4>().0;
    let seen = match slip {
        Slip::SixPlanesLimited => 6.min(planes.len()),
        Slip::FirstPlaneLimited => 1.min(planes.len()),
        Slip::LastPlaneUnlimited => planes.len().saturating_sub(1),
        _ => planes.len(),
    };
    let normal = if slip == Slip::NormalLikeCoordinate { COORDINATE } else { NORMAL };
    let distance = if slip == Slip::DistanceLikeCoordinate { COORDINATE } else { DISTANCE };
    let of_plane = |plane: &[i32; 4]| {
        plane[..3].iter().all(|&x| within(x, normal, slip == Slip::StrictNormal))
            && (slip == Slip::DistanceUnlimited || within(plane[3], distance, slip == Slip::StrictDistance))
    };
    let of_end = |p: &[i32]| p.iter().all(|&x| within(x, COORDINATE, slip == Slip::StrictCoordinate));
    planes[..seen].iter().all(of_plane)
        && (slip == Slip::FirstEndUnlimited || of_end(p0))
        && (slip == Slip::SecondEndUnlimited || of_end(p1))
}

fn refused(slip: Slip, view: &[i32], p0: &[i32], p1: &[i32]) -> u32 {
    let no_point = |p: &[i32]| match slip {
        Slip::ShorterEndAllowed => p.len() > 3,
        Slip::LongerEndAllowed => p.len() < 3,
        _ => p.len() != 3,
    };
    let no_ends = no_point(p0) || (slip != Slip::SecondEndUnchecked && no_point(p1));
    let short = view.len() < if slip == Slip::ShortViewAllowed { 1 } else { 25 };
    let count = match slip {
        Slip::CountInAByte => view.first().map_or(0, |&x| i64::from(x as u8)),
        Slip::CountInTwoBytes => view.first().map_or(0, |&x| i64::from(x as u16)),
        _ => view.first().map_or(0, |&x| i64::from(x)),
    };
    let (fewest, most) = match slip {
        Slip::FewerPlanesAllowed => (5, MOST_PLANES as i64),
        Slip::MorePlanesAllowed => (6, MOST_PLANES as i64 + 1),
        Slip::MostRefused => (6, MOST_PLANES as i64 - 1),
        Slip::FewestRefused => (7, MOST_PLANES as i64),
        _ => (6, MOST_PLANES as i64),
    };
    let no_count = count < fewest || most < count;
    let right = 1 + 4 * count;
    let other = match slip {
        Slip::LongerViewAllowed => (view.len() as i64) < right,
        Slip::ShorterViewAllowed => right < view.len() as i64,
        Slip::RaysAllowed => ![right, right + 24].contains(&(view.len() as i64)),
        _ => view.len() as i64 != right,
    };
    let past = !limits_hold(slip, view, p0, p1);
    match slip {
        Slip::LimitsFirst if past => 7,
        Slip::CountFirst if no_count => 12,
        _ if no_ends || short => 1,
        Slip::LengthBeforeCount if other => 1,
        Slip::LimitsBeforeCount if past => 7,
        _ if no_count && slip == Slip::LengthForCount => 1,
        _ if no_count => 12,
        Slip::LimitsBeforeLength if past => 7,
        _ if other => 1,
        _ if past => 7,
        _ => 0,
    }
}

type Fraction = (i64, i64);

fn above(slip: Slip, a: Fraction, b: Fraction) -> bool {
    match slip {
        Slip::ProductsIn32 => (a.0 as i32).wrapping_mul(b.1 as i32) > (b.0 as i32).wrapping_mul(a.1 as i32),
        Slip::CrossingsInF32 => a.0 as f32 / a.1 as f32 > b.0 as f32 / b.1 as f32,
        Slip::NumeratorsAlone => a.0 > b.0,
        _ => a.0.wrapping_mul(b.1) > b.0.wrapping_mul(a.1),
    }
}

fn seen(slip: Slip, view: &[i32], p0: &[i32], p1: &[i32]) -> bool {
    // A number past the end, where a slip takes too few, is 1.
    let point = |p: &[i32]| -> Whole { std::array::from_fn(|i| p.get(i).map_or(1, |&x| i64::from(x))) };
    let (p0, p1) = (point(p0), point(p1));
    let planes = view.get(1..).unwrap_or(&[]).as_chunks::<4>().0;
    let used = match slip {
        Slip::SixPlanesUsed => 6.min(planes.len()),
        Slip::FirstPlaneUsed => 1.min(planes.len()),
        Slip::LastPlaneUnseen => planes.len().saturating_sub(1),
        _ => planes.len(),
    };
    let (mut start, mut end): (Fraction, Fraction) = ((0, 1), (1, 1));
    if slip == Slip::WholeLine {
        (start, end) = ((-(1 << 40), 1), (1 << 40, 1));
    }
    for numbers in &planes[..used] {
        let [x, y, z, distance] = numbers.map(i64::from);
        if slip == Slip::ZeroNormalIsNo && [x, y, z] == [0; 3] {
            return false;
        }
        let reach = |p: Whole| {
            let along = x.wrapping_mul(p[0]).wrapping_add(y.wrapping_mul(p[1])).wrapping_add(z.wrapping_mul(p[2]));
            if slip == Slip::DistanceAdded { along.wrapping_add(distance) } else { along.wrapping_sub(distance) }
        };
        let (d0, d1) = (reach(p0), reach(p1));
        let is_behind = |d: i64| if slip == Slip::TouchingIsBehind { d <= 0 } else { d < 0 };
        let (behind0, behind1) = (is_behind(d0), is_behind(d1));
        if slip == Slip::EndInFrontIsYes && !behind0 && !behind1 {
            return true;
        }
        if slip == Slip::EitherBehindIsNo && (behind0 || behind1) {
            return false;
        }
        if slip == Slip::WholeLine && d0 != d1 {
            let at = if d0 < d1 { (-d0, d1 - d0) } else { (d0, d0 - d1) };
            match d0 < d1 {
                true if above(slip, at, start) => start = at,
                false if above(slip, end, at) => end = at,
                _ => {}
            }
            continue;
        }
        if behind0 && behind1 {
            if slip == Slip::BothBehindMissed {
                continue;
            }
            return false;
        }
        if behind0 == behind1 {
            continue;
        }
        let way = d1.wrapping_sub(d0).wrapping_abs();
        let at = if slip == Slip::OtherEnd { (d1.wrapping_abs(), way) } else { (d0.wrapping_abs(), way) };
        let comes_in = behind0 != (slip == Slip::InAndOutSwapped);
        if comes_in {
            if above(slip, at, start) != (slip == Slip::LeastStart && start != (0, 1)) {
                start = at;
            }
        } else if above(slip, end, at) != (slip == Slip::GreatestEnd && end != (1, 1)) {
            end = at;
        }
    }
    match slip {
        Slip::AtLeast => above(slip, end, start),
        Slip::FirstTieIsNo if start.0 > 0 && end.0 < end.1 => above(slip, end, start),
        Slip::OpenSegment if start == (0, 1) || end == (1, 1) => above(slip, end, start),
        _ => !above(slip, start, end),
    }
}

/// An engine with a slip. One number more than what is lent is there.
fn side(slip: Slip) -> Box<dyn Side> {
    Box::new(Pointer(slip, |slip: Slip, &[view, p0, p1, _]: &Ins, out: Lent| unsafe {
        match slip {
            Slip::ViewWritten if view.len > 0 => *view.at.cast::<i32>() = 1,
            Slip::EndWritten if p1.len > 0 => *p1.at.cast::<i32>() = 1,
            Slip::BesideView => *view.at.cast::<i32>().add(view.len) = 1,
            Slip::BesideWord => *out.at.cast::<u32>().add(1) = 1,
            _ => {}
        }
        let (view, p0, p1) = (view.whole_slice(), p0.whole_slice(), p1.whole_slice());
        let status = refused(slip, view, p0, p1);
        if status != 0 {
            if slip == Slip::WordOnRefusal {
                *out.word() = 0;
            }
            return status;
        }
        match (slip, seen(slip, view, p0, p1)) {
            (Slip::YesIsAllOnes, true) => *out.word() = u32::MAX,
            (Slip::NoNotWritten, false) => {}
            (_, is) => *out.word() = is.into(),
        }
        0
    }))
}

/// By the inputs that are always tried, and by drawn ones alone as well.
#[test]
fn each_slip_is_found() {
    for &slip in ALL {
        let found = found(&by(Some(side(slip))), 100_000);
        assert_eq!(found, [slip != Slip::None; 2], "{slip:?} by the fixed inputs, and by the drawn ones");
    }
}
