//! A second operation with one slip at a time: each must be found by the inputs
//! that are tried.

use super::*;
use crate::planted::{found, slips};
use openusd::gf;

slips! {
    None
    // Lengths, and when they are looked at.
    NoRayAllowed NumbersLeftOver FirstPointUnchecked SecondPointUnchecked ThirdPointUnchecked LongerPointsAllowed
    RoomFirst RoomUnchecked LongerRoomAllowed SlotsUnchecked LongerSlotsAllowed SlotsInNumbers RoomOfSixes RoomIsARefusedInput
    // The triangle.
    PointsExchanged FirstTwoExchanged FrontOfTheFirst FlatTriangleHits
    // The rays.
    LastRayLeftOut FirstRayLeftOut FirstRayForAll RayByOne RaysReversed StartOfTheFirst MissEndsAll
    // The answer, and what may not be written.
    MissAsHit HitAsMiss MissIsOne HitIsOne MissNotWritten MissNotCleared MissLeavesDistance MissIsNegativeZero
    WeightsExchanged FrontTurned GammaUnrounded SlotByOne SlotsReversed NumbersByOne
    OutOnRefusal SlotsOnRefusal RayWritten PointWritten BesideOut BesideSlots
}

fn refused(slip: Slip, rays: &[f64], corners: [&[f64]; 3], room: usize, slots: usize) -> u32 {
    let count = rays.len() / RAY;
    let points = [Slip::FirstPointUnchecked, Slip::SecondPointUnchecked, Slip::ThirdPointUnchecked];
    let no_point = (0..3).any(|i| match slip {
        _ if slip == points[i] => corners[i].len() < 3,
        Slip::LongerPointsAllowed => corners[i].len() < 3,
        _ => corners[i].len() != 3,
    });
    let short = corners.iter().any(|corner| corner.len() < 3);
    let no_rays = (rays.is_empty() && slip != Slip::NoRayAllowed)
        || (!rays.len().is_multiple_of(RAY) && slip != Slip::NumbersLeftOver);
    let no_room = match slip {
        Slip::RoomUnchecked => false,
        Slip::LongerRoomAllowed => room < HIT * count,
        Slip::RoomOfSixes => room != HIT * count && room != RAY * count,
        _ => room != HIT * count,
    };
    let no_slots = match slip {
        Slip::SlotsUnchecked => false,
        Slip::LongerSlotsAllowed => slots < count,
        Slip::SlotsInNumbers => slots != count && slots != HIT * count,
        _ => slots != count,
    };
    match slip {
        Slip::RoomFirst if no_room || no_slots => 2,
        _ if no_rays || no_point || short => 1,
        Slip::RoomIsARefusedInput if no_room => 1,
        _ if no_room || no_slots => 2,
        _ => 0,
    }
}

/// What the slip makes of a ray.
fn hit(slip: Slip, given: &Ray, [a, b, c]: [&Point; 3], first: &Ray) -> Option<[f64; HIT]> {
    let corners = match slip {
        Slip::PointsExchanged => [a, c, b],
        Slip::FirstTwoExchanged => [b, a, c],
        _ => [a, b, c],
    };
    let moved = std::array::from_fn(|k| if k < 3 { first[k] } else { given[k] });
    let given = if slip == Slip::StartOfTheFirst { &moved } else { given };
    let mut hit = hit_of(given, corners);
    if slip == Slip::FlatTriangleHits && hit.is_none() {
        let [a, b, c] = corners.map(point);
        let facing = gf::Plane::from_points(a, b, c).normal.dot(ray(given).direction);
        hit = (facing == 0.0).then_some([0.0; HIT]);
    }
    let numbers = hit.as_mut()?;
    match slip {
        Slip::WeightsExchanged => numbers.swap(2, 3),
        Slip::FrontTurned => numbers[4] = 1.0 - numbers[4],
        Slip::GammaUnrounded => numbers[1] = 1.0 - (numbers[2] + numbers[3]),
        Slip::FrontOfTheFirst => numbers[4] = hit_of(first, corners).map_or(numbers[4], |hit| hit[4]),
        _ => {}
    }
    hit
}

fn answered(slip: Slip, rays: &[f64], corners: [&[f64]; 3], out: &mut [f64], slots: &mut [u32]) {
    let corners = corners.map(|corner| corner.first_chunk().expect("three numbers"));
    let records = rays.as_chunks::<RAY>().0;
    let count = records.len().min(slots.len()).min(out.len() / HIT);
    let places = match slip {
        Slip::LastRayLeftOut => 0..count.saturating_sub(1),
        Slip::FirstRayLeftOut => 1.min(count)..count,
        _ => 0..count,
    };
    for place in places {
        let given = match slip {
            Slip::FirstRayForAll => records[0],
            Slip::RaysReversed => records[count - 1 - place],
            Slip::RayByOne if place > 0 => {
                let from = (RAY * place + 1).min(rays.len() - RAY);
                *rays[from..].first_chunk().expect("it fits")
            }
            _ => records[place],
        };
        let hit = hit(slip, &given, corners, &records[0]);
        let slot = match slip {
            Slip::SlotByOne => (place + 1) % count,
            Slip::SlotsReversed => count - 1 - place,
            _ => place,
        };
        let at = if slip == Slip::NumbersByOne { HIT * ((place + 1) % count) } else { HIT * place };
        match (slip, hit) {
            (Slip::MissNotWritten, Option::None) => continue,
            (Slip::MissAsHit, Option::None) | (Slip::HitAsMiss, Some(_)) => {
                slots[slot] = if hit.is_some() { MISS } else { 0 }
            }
            (Slip::MissIsOne, Option::None) | (Slip::HitIsOne, Some(_)) => slots[slot] = 1,
            _ => slots[slot] = if hit.is_some() { 0 } else { MISS },
        }
        match (slip, hit) {
            (_, Some(numbers)) => out[at..at + HIT].copy_from_slice(&numbers),
            (Slip::MissNotCleared, Option::None) => {}
            (Slip::MissLeavesDistance, Option::None) => {
                let [a, b, c] = corners.map(point);
                let plane = gf::Plane::from_points(a, b, c);
                let distance = ray(&given).intersect_plane(&plane).map_or(0.0, |(distance, _)| distance);
                out[at..at + HIT].copy_from_slice(&[distance, 0.0, 0.0, 0.0, 0.0]);
            }
            (Slip::MissIsNegativeZero, Option::None) => out[at..at + HIT].fill(-0.0),
            (_, Option::None) => out[at..at + HIT].fill(0.0),
        }
        if slip == Slip::MissEndsAll && hit.is_none() {
            return;
        }
    }
}

/// The operation with a slip. One number more than what is lent is there.
fn side(slip: Slip) -> Box<Call> {
    Box::new(move |&[rays, a, b, c]: &Ins, out: Lent, status: Lent| unsafe {
        match slip {
            Slip::RayWritten if rays.len > 0 => *rays.at = 0.25 + *rays.at,
            Slip::PointWritten if b.len > 0 => *b.at = 0.25 + *b.at,
            Slip::BesideOut => *out.at.add(out.len) = 0.25,
            Slip::BesideSlots => *status.at.cast::<u32>().add(status.len) = 0,
            _ => {}
        }
        let (rays, corners) = (rays.slice(), [a.slice(), b.slice(), c.slice()]);
        let (out, slots) = (slice::from_raw_parts_mut(out.at, out.len), status.slots());
        let status = refused(slip, rays, corners, out.len(), slots.len());
        match slip {
            _ if status == 0 => answered(slip, rays, corners, out, slots),
            Slip::OutOnRefusal => out.fill(0.0),
            Slip::SlotsOnRefusal => slots.fill(0),
            _ => {}
        }
        status
    })
}

/// By the inputs that are always tried, and by drawn ones alone as well.
#[test]
fn each_slip_is_found() {
    for &slip in ALL {
        let found = found(&by(Some(side(slip))), 60_000);
        assert_eq!(found, [slip != Slip::None; 2], "{slip:?} by the fixed inputs, and by the drawn ones");
    }
}
