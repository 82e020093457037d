//! The five verdicts once more, with one slip at a time in how missing numbers
//! are refused: each must be found by the inputs that are tried.

use super::*;
use crate::judge::{MISSING_NUMBER, NO_COUNT, NO_SUCH_VALUE, WRONG_INPUT};
use crate::lent::{Input, Ins, Lent, Pointer, Side};
use crate::planted::{found, slips};
use crate::rust::counted;

slips! {
    None
    // Which numbers are tested.
    NothingTested FirstNumberUntested LastNumberUntested OddOneUntested NoUntested YesUntested
    VolumeUntested SixPlanesUntested FirstPlaneUntested ScreensUntested LastPlaneUntested DistancesUntested
    RaysUntested FirstRayUntested LastRayUntested DirectionsUntested
    FirstPointUntested SecondPointUntested ThirdPointUntested
    BoxUntested RangeUntested BoxMatrixUntested LastColumnUntested EmptyBoxUntested EmptyMatrixUntested
    SingularMatrixUntested ClipMatrixUntested
    // What is missing.
    InfinitiesAccepted PositiveInfinityAccepted NegativeInfinityAccepted NansAccepted NegativeNanAccepted
    SignallingNanAccepted PayloadAccepted LargestRefused NarrowTested SubnormalRefused SumTested
    // When it is refused, and how.
    First BeforeCount BeforeLength BeforeFlag NanCountIsMissing NanFlagIsMissing IsEight IsThree AnsweredNo
    VerdictWritten
}

#[derive(Clone, Copy, Debug, PartialEq)]
enum Kind {
    Point,
    Segment,
    Triangle,
    Box,
    Clip,
}

impl Kind {
    /// How many points are lent behind a volume.
    fn points(self) -> usize {
        match self {
            Kind::Point => 1,
            Kind::Segment => 2,
            Kind::Triangle => 3,
            Kind::Box | Kind::Clip => 0,
        }
    }

    fn by_volume(self) -> bool {
        self != Kind::Clip
    }

    /// Where the box is, if there is one.
    fn boxed(self) -> Option<usize> {
        match self {
            Kind::Box => Some(1),
            Kind::Clip => Some(0),
            _ => None,
        }
    }

    fn inputs(self) -> usize {
        if self.boxed().is_some() { 2 } else { 1 + self.points() }
    }
}

/// Whether a slip is one that this kind can have.
fn shows(slip: Slip, kind: Kind) -> bool {
    match slip {
        Slip::None => false,
        Slip::OddOneUntested
        | Slip::VolumeUntested
        | Slip::SixPlanesUntested
        | Slip::FirstPlaneUntested
        | Slip::ScreensUntested
        | Slip::LastPlaneUntested
        | Slip::DistancesUntested
        | Slip::RaysUntested
        | Slip::FirstRayUntested
        | Slip::LastRayUntested
        | Slip::DirectionsUntested
        | Slip::BeforeCount
        | Slip::BeforeLength
        | Slip::NanCountIsMissing => kind.by_volume(),
        Slip::FirstPointUntested => kind.points() > 0,
        Slip::SecondPointUntested => kind.points() > 1,
        Slip::ThirdPointUntested => kind.points() > 2,
        Slip::BoxUntested
        | Slip::RangeUntested
        | Slip::BoxMatrixUntested
        | Slip::LastColumnUntested
        | Slip::EmptyBoxUntested
        | Slip::EmptyMatrixUntested
        | Slip::SingularMatrixUntested
        | Slip::BeforeFlag
        | Slip::NanFlagIsMissing => kind.boxed().is_some(),
        Slip::ClipMatrixUntested => kind == Kind::Clip,
        _ => true,
    }
}

fn is_empty(b: &[f64]) -> bool {
    b.len() == 23 && (0..3).any(|i| b[i] > b[i + 3])
}

fn is_singular(b: &[f64]) -> bool {
    <&Boxed>::try_from(b).is_ok_and(|b| boxed(&with(*b, &[(22, 0.0)])).expect("a flag").is_degenerate())
}

/// Whether number `i` of record `r` is tested.
fn is_tested(slip: Slip, kind: Kind, records: &[&[f64]], r: usize, i: usize) -> bool {
    let len = records[r].len();
    let of_volume = kind.by_volume() && r == 0;
    let ray = of_volume && i + 24 >= len;
    let plane = of_volume && i > 0 && !ray;
    let point = if kind.boxed().is_none() { r } else { 0 };
    let of_box = kind.boxed() == Some(r);
    let of_matrix = of_box && (6..22).contains(&i);
    !match slip {
        Slip::NothingTested => true,
        Slip::FirstNumberUntested => i == usize::from(of_volume),
        Slip::LastNumberUntested => i + 1 + usize::from(of_box) == len,
        Slip::OddOneUntested => i + 1 == len && len % 2 == 1,
        Slip::VolumeUntested => of_volume,
        Slip::SixPlanesUntested => plane && i < 25,
        Slip::FirstPlaneUntested => plane && i < 5,
        Slip::ScreensUntested => plane && i >= 25,
        Slip::LastPlaneUntested => plane && i + 28 >= len,
        Slip::DistancesUntested => plane && i % 4 == 0,
        Slip::RaysUntested => ray,
        Slip::FirstRayUntested => ray && i + 18 < len,
        Slip::LastRayUntested => ray && i + 6 >= len,
        Slip::DirectionsUntested => ray && (i + 24 - len) % 6 >= 3,
        Slip::FirstPointUntested => point == 1,
        Slip::SecondPointUntested => point == 2,
        Slip::ThirdPointUntested => point == 3,
        Slip::BoxUntested => of_box,
        Slip::RangeUntested => of_box && i < 6,
        Slip::BoxMatrixUntested => of_matrix,
        Slip::LastColumnUntested => of_matrix && i % 4 == 1,
        Slip::EmptyBoxUntested => of_box && is_empty(records[r]),
        Slip::EmptyMatrixUntested => of_matrix && is_empty(records[r]),
        Slip::SingularMatrixUntested => of_matrix && is_singular(records[r]),
        Slip::ClipMatrixUntested => kind == Kind::Clip && r == 1,
        _ => false,
    }
}

fn is_missing(slip: Slip, x: f64) -> bool {
    let bits = x.to_bits();
    match slip {
        Slip::InfinitiesAccepted => x.is_nan(),
        Slip::PositiveInfinityAccepted => !x.is_finite() && x != FAR,
        Slip::NegativeInfinityAccepted => !x.is_finite() && x != -FAR,
        Slip::NansAccepted => x.is_infinite(),
        Slip::NegativeNanAccepted => x.is_infinite() || x.is_nan() && x.is_sign_positive(),
        Slip::SignallingNanAccepted => x.is_infinite() || x.is_nan() && bits >> 51 & 1 == 1,
        Slip::PayloadAccepted => !x.is_finite() && bits << 13 == 0,
        Slip::LargestRefused => !(x.abs() < f64::MAX),
        Slip::NarrowTested => !(x as f32).is_finite(),
        Slip::SubnormalRefused => !x.is_finite() || x.is_subnormal(),
        _ => !x.is_finite(),
    }
}

fn any_missing(slip: Slip, kind: Kind, records: &[&[f64]]) -> bool {
    if slip == Slip::SumTested {
        return !records.iter().copied().flatten().sum::<f64>().is_finite();
    }
    let tested = |r: usize, i: usize| is_tested(slip, kind, records, r, i);
    let mut all =
        records.iter().enumerate().flat_map(|(r, record)| record.iter().enumerate().map(move |(i, &x)| (r, i, x)));
    all.any(|(r, i, x)| is_missing(slip, x) && tested(r, i))
}

fn seen(kind: Kind, records: &[&[f64]]) -> bool {
    let p = |i: usize| -> &Point { records[i].try_into().expect("a point") };
    let b = |i: usize| -> &Boxed { records[i].try_into().expect("a box") };
    let count = || count_by_length(records[0]);
    match kind {
        Kind::Point => point_seen(records[0], count(), p(1)),
        Kind::Segment => segment_seen(records[0], count(), p(1), p(2)),
        Kind::Triangle => triangle_seen(records[0], count(), p(1), p(2), p(3)),
        Kind::Box => box_seen(records[0], count(), b(1), false).expect("a flag"),
        Kind::Clip => clip_seen(b(0), records[1].try_into().expect("a matrix")).expect("a flag"),
    }
}

fn answered(slip: Slip, kind: Kind, records: &[&[f64]]) -> Result<bool, u32> {
    let missing = any_missing(slip, kind, records);
    let refused_at = |at: Slip| if slip == at && missing { Err(MISSING_NUMBER) } else { Ok(()) };
    let has_length = |(r, record): (usize, &&[f64])| match (kind, r) {
        (Kind::Clip, 1) => record.len() == 16,
        _ if kind.boxed() == Some(r) => record.len() == 23,
        (_, 0) => record.len() >= 49,
        _ => record.len() == 3,
    };
    refused_at(Slip::First)?;
    if !records.iter().enumerate().all(has_length) {
        return Err(WRONG_INPUT);
    }
    if kind.by_volume() {
        let volume = records[0];
        refused_at(Slip::BeforeCount)?;
        if slip == Slip::NanCountIsMissing && !volume[0].is_finite() {
            return Err(MISSING_NUMBER);
        }
        let count = counted(volume[0]).map_err(|_| NO_COUNT)?;
        refused_at(Slip::BeforeLength)?;
        if volume.len() != 25 + 4 * count {
            return Err(WRONG_INPUT);
        }
    }
    if let Some(b) = kind.boxed() {
        refused_at(Slip::BeforeFlag)?;
        let flag = records[b][22];
        if slip == Slip::NanFlagIsMissing && !flag.is_finite() {
            return Err(MISSING_NUMBER);
        }
        if flag != 0.0 && flag != 1.0 {
            return Err(NO_SUCH_VALUE);
        }
    }
    match (slip, missing) {
        (_, false) => Ok(seen(kind, records)),
        (Slip::IsEight, _) => Err(8),
        (Slip::IsThree, _) => Err(3),
        (Slip::AnsweredNo, _) => Ok(false),
        (Slip::NoUntested, _) if !seen(kind, records) => Ok(false),
        (Slip::YesUntested, _) if seen(kind, records) => Ok(true),
        _ => Err(MISSING_NUMBER),
    }
}

fn side(slip: Slip, kind: Kind) -> Box<dyn Side> {
    Box::new(Pointer((slip, kind), |(slip, kind): (Slip, Kind), ins: &Ins, out: Lent| {
        // What is lent is as long as it says.
        let records = ins.map(|lent| unsafe { lent.slice() });
        let verdict = unsafe { &mut *out.at.cast::<u32>() };
        match answered(slip, kind, &records[..kind.inputs()]) {
            Ok(is) => {
                *verdict = is.into();
                0
            }
            Err(refusal) => {
                if slip == Slip::VerdictWritten && refusal == MISSING_NUMBER {
                    *verdict = 0;
                }
                refusal
            }
        }
    }))
}

/// By the inputs that are always tried, and by drawn ones alone as well; what
/// is no slip of a kind is none that is found.
fn each_is_found<I: Input>(kind: Kind, call: fn() -> Call<I>) {
    for &slip in ALL {
        let call = call().by(side(slip, kind));
        let by = found(&call, 100_000);
        assert_eq!(by, [shows(slip, kind); 2], "{kind:?}, {slip:?} by the fixed inputs, and by the drawn ones");
    }
}

#[test]
fn each_slip_is_found() {
    each_is_found(Kind::Point, of_point);
    each_is_found(Kind::Segment, of_segment);
    each_is_found(Kind::Triangle, of_triangle);
    each_is_found(Kind::Box, of_box);
    each_is_found(Kind::Clip, of_view_volume);
}
