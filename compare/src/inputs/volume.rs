//! The record of a volume: how many planes it has, these, and four rays.

use super::*;

/// How many numbers the record of so many planes has.
pub const fn volume_length(planes: usize) -> usize {
    1 + 4 * planes + 24
}

/// Six planes and four rays, without their count.
pub type Six = [f64; 48];

/// The most planes of a record that is tried: one more than the 32 that there could once be.
pub const PLANES_TRIED: usize = 33;

/// Numbers of planes that are too many: one more than the most, the most that
/// there could once be, and one more than these.
pub const TOO_MANY: [usize; 3] = [MOST_PLANES + 1, PLANES_TRIED - 1, PLANES_TRIED];

/// A record of a volume, of up to so many planes.
#[derive(Clone, Copy)]
pub struct Volume {
    numbers: [f64; volume_length(PLANES_TRIED)],
    len: usize,
}

impl Volume {
    /// These planes, with their count in front and the rays behind.
    pub fn new(planes: &[[f64; 4]], rays: &[f64; 24]) -> Volume {
        let mut numbers = [0.0; volume_length(PLANES_TRIED)];
        let len = volume_length(planes.len());
        numbers[0] = planes.len() as f64;
        numbers[1..][..4 * planes.len()].copy_from_slice(planes.as_flattened());
        numbers[len - 24..len].copy_from_slice(rays);
        Volume { numbers, len }
    }

    pub fn of(six: Six) -> Volume {
        Volume::with_more(six, &[])
    }

    /// With further planes behind the six.
    pub fn with_more(six: Six, more: &[[f64; 4]]) -> Volume {
        let (planes, rays) = six.split_at(24);
        let planes = [planes.as_chunks().0, more].concat();
        Volume::new(&planes, rays.first_chunk().expect("four rays"))
    }

    /// With another number in front.
    pub fn counted(mut self, count: f64) -> Volume {
        self.numbers[0] = count;
        self
    }

    pub fn numbers(&self) -> &[f64] {
        &self.numbers[..self.len]
    }

    pub fn numbers_mut(&mut self) -> &mut [f64] {
        &mut self.numbers[..self.len]
    }
}

/// The most planes, as a volume states them.
const MOST: f64 = MOST_PLANES as f64;

/// Numbers that are no count, and some that are.
pub const COUNTS: [f64; 28] = [
    6.0,
    7.0,
    MOST - 1.0,
    MOST,
    5.0,
    MOST + 1.0,
    32.0,
    33.0,
    0.0,
    -0.0,
    1.0,
    -6.0,
    -1.0,
    6.5,
    5.999999999999999,
    6.000000000000001,
    MOST.next_down(),
    MOST.next_up(),
    5e-324,
    262.0,
    65_542.0,
    4_294_967_302.0,
    18_446_744_073_709_551_622.0,
    1e308,
    f64::INFINITY,
    f64::NEG_INFINITY,
    f64::NAN,
    -f64::NAN,
];

/// A plane to put behind the six: one of them, mostly moved outward or
/// scaled, or any.
fn further_plane(rng: &mut Rng, six: &Six) -> [f64; 4] {
    let mut plane = six[..24].as_chunks::<4>().0[rng.below(6) as usize];
    match rng.below(16) {
        0..4 => {}
        4..8 => plane[3] -= rng.pick(&[0.5, 1.0, 2.0, 1000.0]),
        8 => plane[3] += rng.pick(&[0.5, 1.0]),
        9 => plane[3] = rng.about(plane[3], 2),
        10..13 => plane = plane.map(|x| 2.0 * x),
        13 => plane = plane.map(|x| x * 1e-12),
        14 => plane[rng.below(4) as usize] = odd(rng),
        _ => plane = std::array::from_fn(|_| rng.whole(3) as f64),
    }
    plane
}

/// A record of six planes and so many behind them.
fn with_further(rng: &mut Rng, six: Six, further: usize) -> Volume {
    let more: Vec<[f64; 4]> = (0..further).map(|_| further_plane(rng, &six)).collect();
    Volume::with_more(six, &more)
}

/// A record of six planes, and half the time of others behind them; once in
/// a while with a count that is none, or not its own.
pub fn screened(rng: &mut Rng, six: Six) -> Volume {
    let further = if rng.below(2) == 0 { 0 } else { rng.below((MOST_PLANES - FEWEST_PLANES) as u64 + 1) as usize };
    let volume = with_further(rng, six, further);
    if rng.once_in(64) {
        let planes = rng.pick(&TOO_MANY);
        return with_further(rng, six, planes - FEWEST_PLANES);
    }
    match rng.below(32) {
        0..3 => volume.counted(other_planes(rng, volume.numbers[0])),
        _ => volume,
    }
}

/// A record of six planes, and one time in three of others behind them: few,
/// any number, as many as there can be.
pub fn surveyed(rng: &mut Rng, six: Six) -> Volume {
    let most = (MOST_PLANES - FEWEST_PLANES) as u64;
    let further = match rng.below(12) {
        0..2 => 1 + rng.below(3),
        2 => rng.below(most),
        3 => most,
        _ => 0,
    };
    with_further(rng, six, further as usize)
}

/// A count of planes that is none, or not this one.
pub fn other_planes(rng: &mut Rng, count: f64) -> f64 {
    match rng.below(3) {
        0 => rng.pick(&COUNTS),
        1 => count + rng.pick(&[-1.0, 1.0, 0.5, 256.0, 4_294_967_296.0]),
        _ => odd(rng),
    }
}

/// A record of so many planes, those behind the six a little further out.
pub fn with_planes(six: Six, count: usize) -> Volume {
    let planes = six[..24].as_chunks::<4>().0;
    let more: Vec<[f64; 4]> =
        (FEWEST_PLANES..count).map(|i| with(planes[i % 6], &[(3, planes[i % 6][3] - 1.0)])).collect();
    Volume::with_more(six, &more)
}
