//! A second search, and a second list, with one slip at a time: each must be
//! found by the inputs that are tried.

use super::*;
use crate::planted::{found_by, slips};
use crate::trial::Trial;

slips! {
    None
    // Lengths, and when they are looked at.
    NoRangeAllowed MostRefused MoreAllowed NumbersLeftOver LongerPointAllowed ShorterPointAllowed
    RoomFirst RoomAfterRanges LongerRoomAllowed ShorterRoomAllowed RoomUnchecked
    // What counts.
    EmptyCounted EmptyByX EmptyByAllAxes FlatIsEmpty NanIsEmpty NanRangeSkipped NanPointSkipped NanPointNone
    InfiniteSkipped FromInfinity FromMost ZeroSkipped
    // What is nearest.
    LastOnTie TieAtOddPlaces StopAtZero LastUnseen FirstUnseen Furthest ByMidpoint
    // What is within.
    LessThan NanLimitAll NegativeZeroBelowZero LimitSquared Rooted LimitMagnitude
    // The answer.
    NoneIsCount NoneIsZero PlaceFromOne PlaceInAByte UnusedZero UnusedLeft UnusedOneShort UnusedIsCount
    OrderFalling OrderByDistance SlotsAtPlaces FoundIsSlots FoundOneLess WordNotWritten
    // What may not be written.
    WordOnRefusal SlotsOnRefusal RangeWritten PointWritten BesideSlots BesideWord BesideRanges
}

fn is_empty(slip: Slip, r: &Range) -> bool {
    let above = |i: usize| r[i] > r[i + 3];
    match slip {
        Slip::EmptyCounted => false,
        Slip::EmptyByX => above(0),
        Slip::EmptyByAllAxes => (0..3).all(above),
        Slip::FlatIsEmpty => (0..3).any(|i| r[i] >= r[i + 3]),
        Slip::NanIsEmpty => !(0..3).all(|i| r[i] <= r[i + 3]),
        _ => (0..3).any(above),
    }
}

fn square(slip: Slip, r: &Range, p: &[f64]) -> f64 {
    let along = |i: usize| {
        let (p, min, max) = (p[i], r[i], r[i + 3]);
        let outside = match slip {
            Slip::ByMidpoint => p - (min * 0.5 + max * 0.5),
            _ if p < min => min - p,
            _ if p > max => p - max,
            Slip::NanPointSkipped if p.is_nan() => p,
            _ => 0.0,
        };
        outside * outside
    };
    along(0) + along(1) + along(2)
}

/// The squares of the ranges that count, at their places.
fn counted(slip: Slip, ranges: &[f64], p: &[f64]) -> Vec<(usize, f64)> {
    let records = ranges.as_chunks::<RANGE>().0;
    let seen = match slip {
        Slip::LastUnseen => 0..records.len().saturating_sub(1),
        Slip::FirstUnseen => 1..records.len(),
        _ => 0..records.len(),
    };
    let all = seen.filter(|&i| !is_empty(slip, &records[i])).map(|i| (i, square(slip, &records[i], p)));
    let counts = |&(i, d): &(usize, f64)| match slip {
        Slip::NanRangeSkipped if records[i].iter().any(|x| x.is_nan()) => false,
        Slip::NanPointNone if p.iter().any(|x| x.is_nan()) => false,
        Slip::InfiniteSkipped => d.is_finite(),
        Slip::ZeroSkipped => d != 0.0,
        _ => !d.is_nan(),
    };
    all.filter(counts).collect()
}

fn refused(slip: Slip, ranges: &[f64], p: &[f64], room: Option<usize>) -> u32 {
    let most = match slip {
        Slip::MostRefused => MOST - 1,
        Slip::MoreAllowed => MOST + RANGE,
        _ => MOST,
    };
    let wrong_ranges = (ranges.is_empty() && slip != Slip::NoRangeAllowed)
        || ranges.len() > most
        || (ranges.len() % RANGE != 0 && slip != Slip::NumbersLeftOver);
    let wrong_point = match slip {
        Slip::LongerPointAllowed => p.len() < 3,
        Slip::ShorterPointAllowed => p.len() > 3,
        _ => p.len() != 3,
    };
    let count = ranges.len() / RANGE;
    let wrong_room = room.is_some_and(|room| match slip {
        Slip::LongerRoomAllowed => room < count,
        Slip::ShorterRoomAllowed => room > count,
        Slip::RoomUnchecked => false,
        _ => room != count,
    });
    match slip {
        Slip::RoomFirst if wrong_room => 2,
        _ if wrong_ranges => 1,
        Slip::RoomAfterRanges if wrong_room => 2,
        _ if wrong_point => 1,
        _ if wrong_room => 2,
        _ => 0,
    }
}

/// The point as it is read, should it be of another length.
fn read(p: &[f64]) -> Vec<f64> {
    p.iter().copied().chain([0.0; 3]).take(3).collect()
}

fn place_of(slip: Slip, ranges: &[f64], p: &[f64]) -> u32 {
    let mut found: Option<(usize, f64)> = match slip {
        Slip::FromInfinity => Some((NO_PLACE as usize, FAR)),
        Slip::FromMost => Some((NO_PLACE as usize, f64::MAX)),
        _ => None,
    };
    for (i, d) in counted(slip, ranges, &read(p)) {
        let is_nearer = |least: f64| match slip {
            Slip::LastOnTie => d <= least,
            Slip::TieAtOddPlaces => d < least || (d == least && i % 2 == 1),
            Slip::StopAtZero => d < least && d > 0.0,
            Slip::Furthest => d > least,
            _ => d < least,
        };
        if found.is_none_or(|(_, least)| is_nearer(least)) {
            found = Some((i, d));
        }
    }
    match (slip, found) {
        (Slip::NoneIsCount, None) => (ranges.len() / RANGE) as u32,
        (Slip::NoneIsZero, None) => 0,
        (_, None) => NO_PLACE,
        (Slip::PlaceFromOne, Some((i, _))) => i as u32 + 1,
        (Slip::PlaceInAByte, Some((i, _))) => i as u8 as u32,
        (_, Some((i, _))) => i as u32,
    }
}

fn places_within(slip: Slip, ranges: &[f64], p: &[f64], limit: f64) -> Vec<u32> {
    let is_within = |d: f64| match slip {
        Slip::LessThan => d < limit,
        Slip::NanLimitAll => !(d > limit),
        Slip::NegativeZeroBelowZero => d <= limit && !limit.is_sign_negative(),
        Slip::LimitSquared => d <= limit * limit,
        Slip::Rooted => d.sqrt() <= limit,
        Slip::LimitMagnitude => d <= limit.abs(),
        _ => d <= limit,
    };
    let mut found: Vec<(usize, f64)> =
        counted(slip, ranges, &read(p)).into_iter().filter(|&(_, d)| is_within(d)).collect();
    match slip {
        Slip::OrderFalling => found.reverse(),
        Slip::OrderByDistance => found.sort_by(|a, b| f64::total_cmp(&a.1, &b.1)),
        _ => {}
    }
    let place = |(i, _): (usize, f64)| match slip {
        Slip::PlaceFromOne => i as u32 + 1,
        Slip::PlaceInAByte => i as u8 as u32,
        _ => i as u32,
    };
    found.into_iter().map(place).collect()
}

fn listed(slip: Slip, ranges: &[f64], p: &[f64], limit: f64, out: &mut [u32]) -> u32 {
    let places = places_within(slip, ranges, p, limit);
    match slip {
        Slip::UnusedLeft => {}
        Slip::UnusedZero => out.fill(0),
        Slip::UnusedIsCount => out.fill(places.len() as u32),
        Slip::UnusedOneShort => out.iter_mut().skip(places.len() + 1).for_each(|slot| *slot = NO_PLACE),
        _ => out.fill(NO_PLACE),
    }
    for (at, &place) in places.iter().enumerate() {
        let at = if slip == Slip::SlotsAtPlaces { place as usize } else { at };
        if let Some(slot) = out.get_mut(at) {
            *slot = place;
        }
    }
    match slip {
        Slip::FoundIsSlots => out.len() as u32,
        Slip::FoundOneLess => (places.len() as u32).saturating_sub(1),
        _ => places.len() as u32,
    }
}

/// Either of the two with a slip. One number more than what is lent is there.
fn side(slip: Slip, lists: bool) -> Box<dyn Side> {
    Box::new(Pointer((slip, lists), |(slip, lists): (Slip, bool), ins: &Ins, out: Lent| unsafe {
        let &[ranges, p, limit, listing] = ins;
        match slip {
            Slip::RangeWritten if ranges.len > 0 => *ranges.at = 0.25,
            Slip::PointWritten if p.len > 0 => *p.at = 0.25,
            Slip::BesideRanges => *ranges.at.add(ranges.len) = 0.25,
            Slip::BesideSlots => *listing.at.cast::<u32>().add(listing.len) = NO_PLACE,
            Slip::BesideWord => *out.at.cast::<u32>().add(1) = 0,
            _ => {}
        }
        let status = refused(slip, ranges.slice(), p.slice(), lists.then_some(listing.len));
        match slip {
            _ if status == 0 => {}
            Slip::WordOnRefusal => *out.word() = NO_PLACE,
            Slip::SlotsOnRefusal => listing.slots().fill(NO_PLACE),
            _ => {}
        }
        if status != 0 {
            return status;
        }
        let answer = match lists {
            true => listed(slip, ranges.slice(), p.slice(), *limit.at, listing.slots()),
            false => place_of(slip, ranges.slice(), p.slice()),
        };
        if slip != Slip::WordNotWritten {
            *out.word() = answer;
        }
        0
    }))
}

fn both(slip: Slip) -> [Both<Search>; 2] {
    [nearest_by(Some(side(slip, false))), within_by(Some(side(slip, true)))]
}

#[test]
fn a_second_search_agrees() {
    for search in both(Slip::None) {
        let tally = search.compare(0..search.cases(0) + 100_000, 1);
        assert_eq!(tally.differences, 0, "{}: {:?}", search.name(), tally.first);
    }
}

/// By the inputs that are always tried, and by drawn ones alone as well.
#[test]
fn each_slip_is_found() {
    for &slip in ALL.iter().filter(|&&slip| slip != Slip::None) {
        let [nearest, within] = both(slip);
        let by = found_by(&[&nearest, &within], 100_000);
        assert_eq!(by, [true; 2], "{slip:?} by the fixed inputs, and by the drawn ones");
    }
}
