//! A second engine with one slip at a time: each must be found by the inputs
//! that are tried.

use super::*;
use crate::exact::{Shared, cross, faces, satisfies, vertex};
use crate::inputs::whole_dot;
use crate::planted::{found, slips};

slips! {
    None
    // Lengths and counts, and when they are looked at.
    ShorterBoxAllowed LongerBoxAllowed ShortViewAllowed FewerPlanesAllowed MorePlanesAllowed MostRefused FewestRefused
    LongerViewAllowed ShorterViewAllowed RaysAllowed CountInAByte CountFirst LengthBeforeCount LimitsFirst
    LimitsBeforeCount LimitsBeforeLength LimitsBeforeRoom RoomFirst RoomBeforeCount RoomBeforeLength
    RoomUnchecked LongerRoomAllowed ShorterRoomAllowed RoomIsOne
    // Limits.
    SixPlanesLimited LastPlaneUnlimited LeastUnlimited GreatestUnlimited StrictCoordinate StrictNormal StrictDistance
    LeastPasses DistanceLikeCoordinate NormalLikeCoordinate CoordinateLikeDistance LimitsOneWider OrderUnchecked
    OrderByX OrderByAll FlatRefused
    // The verdict.
    Above AboveAtVertices ReachAlone CornersAlone NeighboursAlone PlanesAlone FacesAlone LastFaceOut FirstFaceOut
    LastPlaneOut FirstPlaneOut SixPlanesUsed MinorsSign DistancesSign NextPlaneAlone EarlierUnchecked FacesUnchecked ZeroNormalIsNo ZeroNormalIsYes ProductsIn32 CoordinatesIn32
    RoundedVertices DistanceAdded StopAtFirstSearch
    // The witness.
    WitnessOutside WitnessOfAFace WitnessLeast WitnessBefore WitnessOverZero WitnessNegative WitnessUnscaled WitnessOnNo
    WitnessOnRefusal WitnessNotWritten WitnessExchanged
    // The answer, and what may not be written.
    YesIsAllOnes NoNotWritten WordOnRefusal ViewWritten CornersWritten BesideView BesideWord BesideWitness
}

fn limits_hold(slip: Slip, view: &[i32], corners: &[i32]) -> bool {
    let within = |x: i32, limit: i64, strict: bool| {
        let size = if slip == Slip::LeastPasses { i64::from(x.wrapping_abs()) } else { i64::from(x).abs() };
        size <= limit - i64::from(strict) + i64::from(slip == Slip::LimitsOneWider)
    };
    let planes = view.get(1..).unwrap_or(&[]).as_chunks::<4>().0;
    let seen = match slip {
        Slip::SixPlanesLimited => 6.min(planes.len()),
        Slip::LastPlaneUnlimited => planes.len().saturating_sub(1),
        _ => planes.len(),
    };
    let normal = if slip == Slip::NormalLikeCoordinate { COORDINATE } else { NORMAL };
    let distance = if slip == Slip::DistanceLikeCoordinate { COORDINATE } else { DISTANCE };
    let coordinate = if slip == Slip::CoordinateLikeDistance { DISTANCE } else { COORDINATE };
    let of_plane = |plane: &[i32; 4]| {
        plane[..3].iter().all(|&x| within(x, normal, slip == Slip::StrictNormal))
            && within(plane[3], distance, slip == Slip::StrictDistance)
    };
    let of_corner = |(i, &x): (usize, &i32)| match slip {
        Slip::LeastUnlimited if i < 3 => true,
        Slip::GreatestUnlimited if i >= 3 => true,
        _ => within(x, coordinate, slip == Slip::StrictCoordinate),
    };
    let past = |i: usize| match (corners.get(i), corners.get(3 + i)) {
        (Some(least), Some(greatest)) => greatest < least || (slip == Slip::FlatRefused && greatest == least),
        _ => false,
    };
    let ordered = match slip {
        Slip::OrderUnchecked => true,
        Slip::OrderByX => !past(0),
        Slip::OrderByAll => !(0..3).all(past),
        _ => !(0..3).any(past),
    };
    planes[..seen].iter().all(of_plane) && corners.iter().enumerate().all(of_corner) && ordered
}

fn refused(slip: Slip, view: &[i32], corners: &[i32], room: usize) -> u32 {
    let no_box = match slip {
        Slip::ShorterBoxAllowed => corners.len() > 6,
        Slip::LongerBoxAllowed => corners.len() < 6,
        _ => corners.len() != 6,
    };
    let short = view.len() < if slip == Slip::ShortViewAllowed { 1 } else { 25 };
    let count = match slip {
        Slip::CountInAByte => view.first().map_or(0, |&x| i64::from(x as u8)),
        _ => view.first().map_or(0, |&x| i64::from(x)),
    };
    let (fewest, most) = match slip {
        Slip::FewerPlanesAllowed => (5, MOST_PLANES as i64),
        Slip::MorePlanesAllowed => (6, MOST_PLANES as i64 + 1),
        Slip::MostRefused => (6, MOST_PLANES as i64 - 1),
        Slip::FewestRefused => (7, MOST_PLANES as i64),
        _ => (6, MOST_PLANES as i64),
    };
    let no_count = count < fewest || most < count;
    let right = 1 + 4 * count;
    let other = match slip {
        Slip::LongerViewAllowed => (view.len() as i64) < right,
        Slip::ShorterViewAllowed => right < view.len() as i64,
        Slip::RaysAllowed => ![right, right + 24].contains(&(view.len() as i64)),
        _ => view.len() as i64 != right,
    };
    let no_room = match slip {
        Slip::LongerRoomAllowed => room < 4,
        Slip::ShorterRoomAllowed => room > 4,
        Slip::RoomUnchecked => false,
        _ => room != 4,
    };
    let past = !limits_hold(slip, view, corners);
    match slip {
        Slip::LimitsFirst if past => 7,
        Slip::CountFirst if no_count => 12,
        Slip::RoomFirst if no_room => 2,
        _ if no_box || short => 1,
        Slip::LengthBeforeCount if other => 1,
        Slip::LimitsBeforeCount if past => 7,
        Slip::RoomBeforeCount if no_room => 2,
        _ if no_count => 12,
        Slip::LimitsBeforeLength if past => 7,
        Slip::RoomBeforeLength if no_room => 2,
        _ if other => 1,
        Slip::LimitsBeforeRoom if past => 7,
        _ if no_room => {
            if slip == Slip::RoomIsOne {
                1
            } else {
                2
            }
        }
        _ if past => 7,
        _ => 0,
    }
}

/// Cramer's rule.
fn met(slip: Slip, a: &WholePlane, b: &WholePlane, c: &WholePlane) -> Option<Shared> {
    let determinant = whole_dot(a.normal, cross(b.normal, c.normal));
    match slip {
        // As if the determinant that stands for y came without its sign.
        Slip::MinorsSign => vertex(a, b, c).map(|([x, y, z], k)| ([x, -y, z], k)),
        Slip::DistancesSign => vertex(a, b, c).map(|(p, k)| (p.map(|x| -x), k)),
        Slip::ProductsIn32 => {
            let (bc, ca, ab) = (cross(b.normal, c.normal), cross(c.normal, a.normal), cross(a.normal, b.normal));
            let sign = determinant.signum() as i32;
            let product = |x: i64, y: i64| (x as i32).wrapping_mul(y as i32);
            let number = |i: usize| {
                let sum = product(a.distance, bc[i]).wrapping_add(product(b.distance, ca[i]));
                i64::from(sum.wrapping_add(product(c.distance, ab[i])).wrapping_mul(sign))
            };
            (determinant != 0).then_some((std::array::from_fn(number), determinant.abs()))
        }
        Slip::RoundedVertices => {
            let (numbers, k) = vertex(a, b, c)?;
            Some((numbers.map(|x| (x as f64 / k as f64).round() as i64), 1))
        }
        _ => vertex(a, b, c),
    }
}

fn holds(slip: Slip, plane: &WholePlane, at: Shared, of_vertex: bool) -> bool {
    let (p, k) = at;
    let reach = whole_dot(plane.normal, p).wrapping_sub(plane.distance.wrapping_mul(k));
    match slip {
        Slip::ZeroNormalIsNo if plane.normal == [0; 3] => false,
        Slip::ZeroNormalIsYes if plane.normal == [0; 3] => true,
        Slip::Above if !of_vertex => reach > 0,
        Slip::AboveAtVertices if of_vertex => reach > 0,
        Slip::CoordinatesIn32 => (whole_dot(plane.normal, p) as i32).wrapping_sub((plane.distance * k) as i32) >= 0,
        Slip::DistanceAdded => whole_dot(plane.normal, p) + plane.distance * k >= 0,
        _ => satisfies(plane, at),
    }
}

/// A vertex of the constraint at a place and two before it.
fn searched(slip: Slip, all: &[WholePlane], next: usize) -> Option<Shared> {
    let may = |i: usize| match slip {
        Slip::PlanesAlone => i >= 6,
        Slip::FacesAlone => i < 6,
        _ => true,
    };
    for second in (0..next).filter(|&i| may(i)) {
        for third in (0..second).filter(|&i| may(i)) {
            if slip == Slip::NeighboursAlone && second - third > 1 && next - second > 1 {
                continue;
            }
            let Some(p) = met(slip, &all[next], &all[second], &all[third]) else {
                continue;
            };
            let checked = |i: usize| match slip {
                Slip::NextPlaneAlone => i == next,
                Slip::EarlierUnchecked => i < 6 || i + 1 >= next,
                Slip::FacesUnchecked => i >= 6,
                _ => true,
            };
            let on_it = |i: usize| [second, third, next].contains(&i);
            let satisfies = |i: usize| match slip {
                Slip::AboveAtVertices if on_it(i) => true,
                _ => holds(slip, &all[i], p, true),
            };
            if (0..=next).filter(|&i| checked(i)).all(satisfies) {
                return Some(p);
            }
        }
    }
    None
}

fn seen(slip: Slip, planes: &[WholePlane], corners: [Whole; 2]) -> Option<Shared> {
    let used = match slip {
        Slip::SixPlanesUsed => &planes[..6.min(planes.len())],
        Slip::LastPlaneOut => &planes[..planes.len().saturating_sub(1)],
        Slip::FirstPlaneOut => planes.get(1..).unwrap_or(&[]),
        _ => planes,
    };
    let furthest =
        |plane: &WholePlane| -> Whole { std::array::from_fn(|i| corners[usize::from(plane.normal[i] > 0)][i]) };
    let reached = |plane: &WholePlane| holds(slip, plane, (furthest(plane), 1), false);
    if !used.iter().all(reached) {
        return None;
    }
    if slip == Slip::ReachAlone {
        return Some((corners[0], 1));
    }
    if slip == Slip::CornersAlone {
        let is_in_view = |&p: &Whole| used.iter().all(|plane| plane.reach(p) >= 0);
        return exact::corners(corners).into_iter().find(is_in_view).map(|p| (p, 1));
    }
    let mut all: Vec<WholePlane> = faces(corners).into_iter().chain(used.iter().copied()).collect();
    match slip {
        Slip::LastFaceOut => all[5] = plane([0, 0, 0, 0]),
        Slip::FirstFaceOut => all[0] = plane([0, 0, 0, 0]),
        _ => {}
    }
    let mut at = (corners[0], 1);
    let mut before = at;
    for next in 6..all.len() {
        if holds(slip, &all[next], at, false) {
            continue;
        }
        before = at;
        at = searched(slip, &all, next)?;
        if slip == Slip::StopAtFirstSearch {
            break;
        }
    }
    Some(if slip == Slip::WitnessBefore { before } else { at })
}

/// What is put down for a point.
fn witness(slip: Slip, (p, k): Shared, corners: [Whole; 2]) -> [i64; 4] {
    let [x, y, z] = p;
    match slip {
        Slip::WitnessOutside => [x, y, corners[1][2] * k + 1, k],
        Slip::WitnessOfAFace => [x, y, corners[1][2] * k, k],
        Slip::WitnessLeast => [corners[0][0], corners[0][1], corners[0][2], 1],
        Slip::WitnessOverZero => [x, y, z, 0],
        Slip::WitnessNegative => [-x, -y, -z, -k],
        Slip::WitnessUnscaled => [x, y, z, 1],
        Slip::WitnessExchanged => [y, x, z, k],
        _ => [x, y, z, k],
    }
}

/// An engine with a slip. One number more than what is lent is there.
fn side(slip: Slip) -> Box<dyn Side> {
    Box::new(Pointer(slip, |slip: Slip, &[view, corners, room, _]: &Ins, out: Lent| unsafe {
        match slip {
            Slip::ViewWritten if view.len > 0 => *view.at.cast::<i32>() = 1,
            Slip::CornersWritten if corners.len > 0 => *corners.at.cast::<i32>() = 1,
            Slip::BesideView => *view.at.cast::<i32>().add(view.len) = 1,
            Slip::BesideWord => *out.at.cast::<u32>().add(1) = 1,
            Slip::BesideWitness => *room.at.cast::<i64>().add(room.len) = 1,
            _ => {}
        }
        let (view, corners, room) = (view.whole_slice(), corners.whole_slice(), point(room));
        let status = refused(slip, view, corners, room.len());
        if status != 0 {
            if slip == Slip::WordOnRefusal {
                *out.word() = 0;
            }
            if slip == Slip::WitnessOnRefusal {
                room.fill(0);
            }
            return status;
        }
        // A number past the end, where a slip takes too few, is 1.
        let at = |i: usize| corners.get(i).map_or(1, |&x| i64::from(x));
        let corners = [[at(0), at(1), at(2)], [at(3), at(4), at(5)]];
        let planes = if view.is_empty() { vec![] } else { planes_of(view) };
        let shared = seen(slip, &planes, corners);
        match shared {
            Some(_) if slip == Slip::WitnessNotWritten => {}
            Some(p) => {
                for (to, x) in room.iter_mut().zip(witness(slip, p, corners)) {
                    *to = x;
                }
            }
            None if slip == Slip::WitnessOnNo => room.fill(0),
            None => {}
        }
        match (slip, shared.is_some()) {
            (Slip::YesIsAllOnes, true) => *out.word() = u32::MAX,
            (Slip::NoNotWritten, false) => {}
            (_, is) => *out.word() = is.into(),
        }
        0
    }))
}

/// By the inputs that are always tried, and by drawn ones alone as well. None is
/// there for a face that the search takes no vertex of and that is still asked:
/// what is left on the next plane has a vertex of two others too. Nor is one for
/// a determinant below zero whose sign is lost: its vertex then satisfies no two
/// opposite faces and is passed over, and around what is left there is another
/// with a determinant above zero.
#[test]
fn each_slip_is_found() {
    let found = |&slip: &Slip| (slip, found(&by(Some(side(slip))), 60_000));
    let wrong: Vec<_> = ALL.iter().map(found).filter(|&(slip, by)| by != [slip != Slip::None; 2]).collect();
    assert!(wrong.is_empty(), "by the fixed inputs, and by the drawn ones: {wrong:?}");
}
