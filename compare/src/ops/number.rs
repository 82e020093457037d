//! Functions of numbers, and the survey grid.

use crate::exported::{call, of_archive};
use crate::inputs::{self, Rng};
use crate::judge;
use crate::op::Op;
use crate::scalar::Function::{Narrow, One, Two, Widen};
use crate::scalar::{Numbers, Scalar};
use crate::words::{self, Record};

pub fn all() -> Vec<Box<dyn Op>> {
    vec![sqrt(), abs(), min(), max(), narrow(), widen(), grid()]
}

fn sqrt() -> Box<dyn Op> {
    Box::new(Scalar {
        notable: ones([inputs::special(), inputs::squares()].concat()),
        systematic: ones(inputs::systematic(11, 52)),
        drawn: |_, rng| [inputs::radicand(rng), 0],
        sets: vec![
            ("ordinary", |_, rng| [inputs::ordinary(rng) & !inputs::SIGN, 0]),
            ("small squares", |_, rng| [((1 + rng.below(1000)).pow(2) as f64).to_bits(), 0]),
            ("within 4 ulp of 1", |_, rng| [1.0_f64.to_bits() - 4 + rng.below(9), 0]),
            ("subnormal", |_, rng| [inputs::subnormal(rng), 0]),
        ],
        ..Scalar::new("sqrt", of_archive!(gf_sqrt: fn(x: f64) -> f64).map(One), One(judge::sqrt))
    })
}

fn abs() -> Box<dyn Op> {
    Box::new(Scalar {
        notable: ones(inputs::special()),
        more: ones(inputs::equal_pairs().into_iter().map(|[x, _]| x).take(12).collect()),
        systematic: ones(inputs::systematic(11, 52)),
        drawn: |_, rng| [inputs::any(rng), 0],
        sets: vec![("ordinary", |_, rng| [inputs::ordinary(rng), 0])],
        ..Scalar::new("abs", of_archive!(gf_abs: fn(x: f64) -> f64).map(One), One(judge::abs))
    })
}

fn min() -> Box<dyn Op> {
    let ours = of_archive!(gf_min: fn(x: f64, y: f64) -> f64).map(Two);
    least_or_greatest(Scalar::new("min", ours, Two(judge::min)), |[x, y], rust| if equal(x, y) { x | y } else { rust })
}

fn max() -> Box<dyn Op> {
    let ours = of_archive!(gf_max: fn(x: f64, y: f64) -> f64).map(Two);
    least_or_greatest(Scalar::new("max", ours, Two(judge::max)), |[x, y], rust| if equal(x, y) { x & y } else { rust })
}

/// Equal numbers have the same bits, but for the sign of a zero.
fn equal(x: u64, y: u64) -> bool {
    f64::from_bits(x) == f64::from_bits(y)
}

/// Paper 02's rule, where the Rust's answer is expected of operands that differ.
fn least_or_greatest(function: Scalar, expected: fn(Numbers, u64) -> u64) -> Box<dyn Op> {
    Box::new(Scalar {
        expected,
        notable: inputs::notable_pairs(),
        more: inputs::equal_pairs(),
        systematic: inputs::special_pairs(),
        drawn: |_, rng| inputs::pair(rng),
        sets: vec![("ordinary", |_, rng| [inputs::ordinary(rng), inputs::ordinary(rng)])],
        ..function
    })
}

fn narrow() -> Box<dyn Op> {
    Box::new(Scalar {
        notable: ones([inputs::special(), inputs::ties()].concat()),
        systematic: ones(inputs::systematic(11, 52)),
        drawn: |_, rng| [inputs::wide(rng), 0],
        sets: vec![
            ("ordinary", |_, rng| [inputs::ordinary(rng), 0]),
            ("to subnormal", |_, rng| [inputs::wide_subnormal(rng), 0]),
            ("any", |_, rng| [inputs::wide(rng), 0]),
        ],
        ..Scalar::new("narrow", of_archive!(gf_narrow: fn(x: f64) -> f32).map(Narrow), Narrow(judge::narrow))
    })
}

fn widen() -> Box<dyn Op> {
    Box::new(Scalar {
        notable: ones(inputs::narrow_special()),
        systematic: ones(inputs::systematic(8, 23)),
        drawn: |case, _| [inputs::narrow_pattern(case), 0],
        every: Some(1 << 32),
        sets: vec![("any", |_, rng| [rng.bits() >> 32, 0]), ("subnormal", |_, rng| [rng.bits() >> 41, 0])],
        ..Scalar::new("widen", of_archive!(gf_widen: fn(x: f32) -> f64).map(Widen), Widen(judge::widen))
    })
}

fn grid() -> Box<dyn Op> {
    fn on_grid(_: u64, rng: &mut Rng) -> ([f64; 3],) {
        (std::array::from_fn(|_| f64::from_bits(inputs::metres_on_grid(rng))),)
    }
    call!(gf_grid(p: 3) -> [f64; 3] { judge::grid(p) })
        .timed_against(call!(gf_grid(p: 3) -> [f64; 3] { judge::grid_by_round(p) }))
        .bit_for_bit()
        .drawn(|case, rng| (inputs::survey_point(case, rng).map(f64::from_bits),))
        .timed("on the grid", on_grid)
        .recorded(recorded_grid)
        .op()
}

/// Grid points whose three coordinates are one number.
fn recorded_grid() -> Vec<Record> {
    let notable = inputs::notable_metres().into_iter().chain(inputs::special());
    let drawn = (0..).map(|case| inputs::metres(&mut Rng::at(1, case)));
    let record = |x| {
        let answer = judge::grid(&[f64::from_bits(x); 3]);
        let left = answer.unwrap_or_default().map(f64::to_bits).to_vec();
        Record::new(vec![vec![x; 3]], answer.err().unwrap_or(0), left)
    };
    notable.chain(drawn).take(words::NUMBERS).map(record).collect()
}

/// Inputs of one number each.
fn ones(numbers: Vec<u64>) -> Vec<Numbers> {
    numbers.into_iter().map(|x| [x, 0]).collect()
}

#[cfg(test)]
mod tests {
    use super::*;

    #[test]
    fn the_exact_grid_is_that_of_round_ties_even() {
        for case in 0..2_000_000 {
            let x = f64::from_bits(inputs::metres(&mut Rng::at(1, case)));
            let bits = |whole: [f64; 3]| whole.map(f64::to_bits);
            assert_eq!(judge::grid(&[x; 3]).map(bits), judge::grid_by_round(&[x; 3]).map(bits), "{x:e}");
        }
    }
}
