//! A second search for the plane with one slip at a time: each must be found by
//! the inputs that are tried.

use super::*;
use crate::judge::{MISSING_NUMBER, NO_COUNT, WRONG_INPUT};
use crate::planted::{found, slips};
use crate::rust::counted;

slips! {
    None
    // The checks and their order.
    InViewFirst InViewBeforeCount InViewBeforeLength InViewBeforeMissing InViewIsNone InViewIsZero InViewIsMiss
    MissingFirst MissingBeforeCount MissingUntested RaysUntested ScreensUntested SecondEndUntested InfinitiesAllowed
    SixPlanesRefused
    // Which places are tried.
    HighestPlace ScreensAlone SixAlone SixLeft FirstUntried LastUntried OddUntried
    // Which plane is named without the smaller test.
    FirstBehind FirstBehindOrTried FirstCrossed GreatestStart LeastEnd BehindAlone BothBehindUntried
    // What is left without a plane.
    OneFewer NextToo TwoWithout AllBefore AllBehindIt DuplicatesToo SixUsed NothingLeft
    // The smaller test.
    AtLeast OpenEnds EndsNotAsked SecondEndNotAsked TouchingIsBehind BothBehindPasses SecondGreatestStays
    SecondLeastStays TieIsOne NanIsLess NanIsMore CrossingsInF32
    // The answer, and what may not be written.
    NoneIsCount NoneIsZero NoneIsRefused PlaceFromOne PlaceOfRecord PlaceBehindSix PlaceFromBehind WordNotWritten
    WordOnRefusal WordOnInView VolumeWritten EndWritten BesideWord
}

struct View<'a> {
    planes: &'a [Plane],
    p0: Point,
    p1: Point,
}

fn distance(plane: &Plane, p: Point) -> f64 {
    inputs::dot([plane[0], plane[1], plane[2]], p) - plane[3]
}

impl View<'_> {
    fn is_behind(&self, slip: Slip, plane: &Plane) -> [bool; 2] {
        [self.p0, self.p1].map(|p| match slip {
            Slip::TouchingIsBehind => !(distance(plane, p) > 0.0),
            _ => !(distance(plane, p) >= 0.0),
        })
    }

    /// Where the segment crosses a plane.
    fn crossing(&self, slip: Slip, plane: &Plane) -> f64 {
        let way = inputs::difference(self.p1, self.p0);
        let crossing = -distance(plane, self.p0) / inputs::dot([plane[0], plane[1], plane[2]], way);
        if slip == Slip::CrossingsInF32 { f64::from(crossing as f32) } else { crossing }
    }

    /// The verdict by the planes at some places. `whole` is that of all of them.
    fn seen(&self, slip: Slip, left: &[usize], whole: bool) -> bool {
        let slip = if whole { Slip::None } else { slip };
        let planes = || left.iter().map(|&i| &self.planes[i]);
        let behind: Vec<[bool; 2]> = planes().map(|plane| self.is_behind(slip, plane)).collect();
        if slip != Slip::BothBehindPasses && behind.contains(&[true; 2]) {
            return false;
        }
        let in_front = |end: usize| behind.iter().all(|behind| !behind[end]);
        let asked = match slip {
            Slip::EndsNotAsked => false,
            Slip::SecondEndNotAsked => in_front(0),
            _ => in_front(0) || in_front(1),
        };
        if asked {
            return true;
        }
        let (mut start, mut end) = (0.0_f64, 1.0_f64);
        for (plane, behind) in planes().zip(&behind) {
            let crossing = self.crossing(slip, plane);
            let later = |a: f64, b: f64| match slip {
                Slip::NanIsLess | Slip::NanIsMore if b.is_nan() => b,
                _ => a.max(b),
            };
            let sooner = |a: f64, b: f64| match slip {
                Slip::NanIsMore | Slip::NanIsLess if b.is_nan() => b,
                _ => a.min(b),
            };
            match behind {
                [true, false] => start = later(start, crossing),
                [false, true] => end = sooner(end, crossing),
                _ => {}
            }
            if start > end || (slip == Slip::NanIsLess && !(start <= end)) {
                return false;
            }
        }
        match slip {
            Slip::AtLeast => start < end,
            Slip::OpenEnds if start == 0.0 || end == 1.0 => start < end,
            _ => true,
        }
    }

    /// The places of the planes left without one.
    fn without(&self, slip: Slip, place: usize) -> Vec<usize> {
        let count = self.planes.len();
        let stays = |&i: &usize| match slip {
            Slip::OneFewer => i != place && i + 1 != count,
            Slip::NextToo => i != place && i != place + 1,
            Slip::AllBefore => i < place,
            Slip::AllBehindIt => i > place,
            Slip::DuplicatesToo => self.planes[i] != self.planes[place],
            Slip::SixUsed => i != place && i < 6,
            Slip::NothingLeft => false,
            _ => i != place,
        };
        (0..count).filter(stays).collect()
    }

    /// The greatest crossing by which the segment comes in, or the least by
    /// which it goes out, and how many planes have it; also without a plane.
    fn extreme(&self, comes_in: bool, left: &[usize]) -> (f64, usize) {
        let crossed = |i: &&usize| self.is_behind(Slip::None, &self.planes[**i]) == [comes_in, !comes_in];
        let crossings = left.iter().filter(crossed).map(|&i| self.crossing(Slip::None, &self.planes[i]));
        let crossings: Vec<f64> = crossings.collect();
        let most = match comes_in {
            true => crossings.iter().copied().fold(0.0, f64::max),
            false => crossings.iter().copied().fold(1.0, f64::min),
        };
        (most, crossings.iter().filter(|&&x| x == most).count())
    }

    /// Whether the plane at a place is named.
    fn is_named(&self, slip: Slip, place: usize) -> bool {
        let count = self.planes.len();
        let all: Vec<usize> = (0..count).collect();
        let behind = self.is_behind(Slip::None, &self.planes[place]);
        let left = self.without(slip, place);
        let (start, starts) = self.extreme(true, &all);
        let (end, ends) = self.extreme(false, &all);
        let crossing = self.crossing(Slip::None, &self.planes[place]);
        match slip {
            Slip::FirstBehind => behind == [true; 2],
            Slip::FirstBehindOrTried => behind == [true; 2] || self.seen(slip, &left, false),
            Slip::FirstCrossed => behind[0] != behind[1],
            // The plane of the greatest start, or of the least end, whatever
            // else is there.
            Slip::GreatestStart if behind == [true, false] => crossing == start,
            Slip::LeastEnd if behind == [false, true] => crossing == end,
            Slip::BehindAlone => behind == [true; 2] && self.seen(slip, &left, false),
            Slip::BothBehindUntried => behind != [true; 2] && self.seen(slip, &left, false),
            // The second greatest start, or the second least end, is never
            // taken in: without its plane nothing is left of that side.
            Slip::SecondGreatestStays if behind == [true, false] && starts == 1 && crossing == start => {
                left.iter().all(|&i| self.is_behind(Slip::None, &self.planes[i]) != [true; 2])
            }
            Slip::SecondLeastStays if behind == [false, true] && ends == 1 && crossing == end => {
                left.iter().all(|&i| self.is_behind(Slip::None, &self.planes[i]) != [true; 2])
            }
            // Of two planes that have the greatest start one is left out, and
            // the other with it.
            Slip::TieIsOne if behind == [true, false] && starts > 1 && crossing == start => {
                let others: Vec<usize> =
                    left.into_iter().filter(|&i| self.crossing(slip, &self.planes[i]) != start).collect();
                self.seen(slip, &others, false)
            }
            Slip::TwoWithout => (0..count).any(|other| {
                let left: Vec<usize> = (0..count).filter(|&i| i != place && i != other).collect();
                self.seen(slip, &left, false)
            }),
            _ => self.seen(slip, &left, false),
        }
    }

    fn place(&self, slip: Slip) -> Option<usize> {
        let count = self.planes.len();
        let tried = |&i: &usize| match slip {
            Slip::ScreensAlone => i >= 6,
            Slip::SixAlone => i < 6,
            Slip::SixLeft => count > 6,
            Slip::FirstUntried => i > 0,
            Slip::LastUntried => i + 1 < count,
            Slip::OddUntried => i % 2 == 0,
            _ => true,
        };
        let mut places = (0..count).filter(tried).filter(|&place| self.is_named(slip, place));
        if slip == Slip::HighestPlace { places.next_back() } else { places.next() }
    }
}

fn is_missing(slip: Slip, volume: &[f64], p0: &[f64], p1: &[f64]) -> bool {
    let missing = |x: &f64| if slip == Slip::InfinitiesAllowed { x.is_nan() } else { !x.is_finite() };
    let rays = volume.len().saturating_sub(24);
    let of_volume = volume.iter().enumerate().any(|(i, x)| match slip {
        Slip::RaysUntested if i >= rays => false,
        Slip::ScreensUntested if (25..rays).contains(&i) => false,
        _ => missing(x),
    });
    let of_ends = p0.iter().any(missing) || (slip != Slip::SecondEndUntested && p1.iter().any(missing));
    slip != Slip::MissingUntested && (of_volume || of_ends)
}

/// The planes of a record, as far as it goes, and its ends.
fn asked(volume: &[f64], p0: &[f64], p1: &[f64]) -> (Vec<Plane>, Point, Point) {
    let count = volume.first().map_or(0, |&number| counted(number).unwrap_or(6));
    let planes = volume.get(1..).unwrap_or(&[]).as_chunks().0.iter().take(count).copied().collect();
    let end = |p: &[f64]| std::array::from_fn(|i| p.get(i).copied().unwrap_or(0.0));
    (planes, end(p0), end(p1))
}

fn answered(slip: Slip, volume: &[f64], p0: &[f64], p1: &[f64]) -> Result<u32, u32> {
    let (planes, a, b) = asked(volume, p0, p1);
    let view = View { planes: &planes, p0: a, p1: b };
    let in_view = view.seen(slip, &(0..planes.len()).collect::<Vec<_>>(), true);
    let missing = is_missing(slip, volume, p0, p1);
    let no_count = volume.first().is_none_or(|&number| counted(number).is_err());
    let refusal = match slip {
        Slip::MissingFirst if missing => Some(MISSING_NUMBER),
        Slip::InViewFirst if in_view => Some(IN_VIEW),
        _ if volume.len() < 49 || p0.len() != 3 || p1.len() != 3 => Some(WRONG_INPUT),
        Slip::MissingBeforeCount if missing => Some(MISSING_NUMBER),
        Slip::InViewBeforeCount if in_view => Some(IN_VIEW),
        _ if no_count => Some(NO_COUNT),
        Slip::SixPlanesRefused if planes.len() == 6 => Some(NO_COUNT),
        Slip::InViewBeforeLength if in_view => Some(IN_VIEW),
        _ if held(volume).is_err() => Some(WRONG_INPUT),
        Slip::InViewBeforeMissing if in_view => Some(IN_VIEW),
        _ if missing => Some(MISSING_NUMBER),
        Slip::InViewIsNone if in_view => return Ok(NO_PLACE),
        Slip::InViewIsZero if in_view => return Ok(0),
        Slip::InViewIsMiss if in_view => Some(5),
        _ if in_view => Some(IN_VIEW),
        _ => None,
    };
    if let Some(refusal) = refusal {
        return Err(refusal);
    }
    match (slip, view.place(slip)) {
        (Slip::NoneIsCount, None) => Ok(planes.len() as u32),
        (Slip::NoneIsZero, None) => Ok(0),
        (Slip::NoneIsRefused, None) => Err(5),
        (_, None) => Ok(NO_PLACE),
        (Slip::PlaceFromOne, Some(i)) => Ok(i as u32 + 1),
        (Slip::PlaceOfRecord, Some(i)) => Ok(1 + 4 * i as u32),
        (Slip::PlaceBehindSix, Some(i)) => Ok((i as u32).wrapping_sub(6)),
        (Slip::PlaceFromBehind, Some(i)) => Ok((planes.len() - 1 - i) as u32),
        (_, Some(i)) => Ok(i as u32),
    }
}

/// A search with a slip. One number more than what is lent is there.
fn side(slip: Slip) -> Box<dyn Side> {
    Box::new(Pointer(slip, |slip: Slip, &[volume, p0, p1, _]: &Ins, out: Lent| unsafe {
        match slip {
            Slip::VolumeWritten if volume.len > 0 => *volume.at += 1.0,
            Slip::EndWritten if p1.len > 0 => *p1.at += 1.0,
            Slip::BesideWord => *out.at.cast::<u32>().add(1) = 0,
            _ => {}
        }
        let place = out.at.cast::<u32>();
        match answered(slip, volume.slice(), p0.slice(), p1.slice()) {
            Ok(_) if slip == Slip::WordNotWritten => 0,
            Ok(answer) => {
                *place = answer;
                0
            }
            Err(refusal) => {
                let written = slip == Slip::WordOnRefusal || (slip == Slip::WordOnInView && refusal == IN_VIEW);
                if written {
                    *place = NO_PLACE;
                }
                refusal
            }
        }
    }))
}

/// By the inputs that are always tried, and by drawn ones alone as well.
#[test]
fn each_slip_is_found() {
    for &slip in ALL {
        let call = of_segment().by(side(slip));
        let by = found(&call, 60_000);
        assert_eq!(by, [slip != Slip::None; 2], "{slip:?} by the fixed inputs, and by the drawn ones");
    }
}
