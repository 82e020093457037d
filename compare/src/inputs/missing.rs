//! Missing survey numbers: NaN and infinities, in what is otherwise a record.

use super::*;

/// The ways in which a number is missing: NaN of both signs, quiet and
/// signalling, with payloads, and the infinities.
pub const MISSING: [f64; 7] = [
    f64::NAN,
    f64::INFINITY,
    f64::from_bits(SIGN | INFINITY | 1 << 51 | 0x1234),
    f64::NEG_INFINITY,
    f64::from_bits(INFINITY | 1),
    f64::from_bits(SIGN | INFINITY | 1 << 50),
    f64::from_bits(SIGN | INFINITY | FRACTION),
];

/// Numbers at the edges, which are not missing.
pub const EDGES: [f64; 3] = [f64::MAX, f64::MIN, 5e-324];

/// A missing number: one of `MISSING`, or a NaN of any bits.
pub fn missing(rng: &mut Rng) -> f64 {
    if rng.once_in(4) {
        return f64::from_bits(rng.sign() | INFINITY | 1 << rng.below(52) | rng.bits() & FRACTION);
    }
    rng.pick(&MISSING)
}

/// A number that is not finite becomes a large one of its sign, whose sums and
/// products overflow.
pub fn mend(rng: &mut Rng, record: &mut [f64]) {
    for x in record.iter_mut().filter(|x| !x.is_finite()) {
        *x = rng.pick(&[f64::MAX, 1e308, 1e200, 1e154]).copysign(*x);
    }
}

/// Leaves out one number of some records or more: one of a record, one of
/// all, a few, a row of them.
fn strike(rng: &mut Rng, records: &mut [&mut [f64]]) {
    let of_one = rng.below(records.len() as u64) as usize;
    let total: usize = records.iter().map(|record| record.len()).sum();
    let mut all = records.iter_mut().flat_map(|record| record.iter_mut());
    match rng.below(8) {
        0..3 => {
            let record = &mut *records[of_one];
            record[rng.below(record.len() as u64) as usize] = missing(rng);
        }
        3..6 => *all.nth(rng.below(total as u64) as usize).expect("there are as many") = missing(rng),
        6 => {
            let mut places: Vec<&mut f64> = all.collect();
            for _ in 0..2 + rng.below(3) {
                *places[rng.below(total as u64) as usize] = missing(rng);
            }
        }
        _ => {
            let (first, x) = (rng.below(total as u64) as usize, missing(rng));
            all.skip(first).take(1 + rng.below(24) as usize).for_each(|place| *place = x);
        }
    }
}

/// Of the records of a call: one in eight times some numbers are missing, and
/// else, but for one in eight again, none is.
pub fn strike_or_mend(rng: &mut Rng, records: &mut [&mut [f64]]) {
    match rng.below(8) {
        0 => strike(rng, records),
        1 => {}
        _ => records.iter_mut().for_each(|record| mend(rng, record)),
    }
}

/// A record of numbers with each missing in each way; then with two beside
/// each other, all, all but the first and all but the last missing; then with
/// each at the edges, and two beside each other.
pub fn struck(record: &[f64]) -> Vec<Vec<f64>> {
    let last = record.len() - 1;
    let with_places = |places: std::ops::RangeInclusive<usize>, x: f64| {
        let mut numbers = record.to_vec();
        numbers[places].fill(x);
        numbers
    };
    let one = (0..=last).flat_map(|i| MISSING.map(|x| with_places(i..=i, x)));
    let two = (0..last).map(|i| with_places(i..=i + 1, MISSING[i % MISSING.len()]));
    let many =
        MISSING.into_iter().flat_map(|x| [0..=last, 1..=last, 0..=last - 1].map(|places| with_places(places, x)));
    let edges = (0..=last).flat_map(|i| EDGES.map(|x| with_places(i..=i, x)));
    let sums = (0..last).map(|i| with_places(i..=i + 1, f64::MAX));
    one.chain(two).chain(many).chain(edges).chain(sums).collect()
}
