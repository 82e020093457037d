//! The Rust's ranges with the signs of zeros that are fixed: what is chosen of two equal numbers has its rule's sign, and all else the Rust's bits.

use crate::inputs::{Matrix, Range};
use crate::judge::{greatest, least};
use crate::rust::{matrix, of_range, range};
use std::array;

/// `rust`, but the choice of `pick` where it is between equal numbers.
fn chosen(rust: f64, x: f64, y: f64, pick: fn(f64, f64) -> f64) -> f64 {
    if x == y { pick(x, y) } else { rust }
}

pub fn union(a: &Range, b: &Range) -> Range {
    let rust = of_range(range(a).union(range(b)));
    if range(a).is_empty() || range(b).is_empty() {
        return rust;
    }
    array::from_fn(|i| chosen(rust[i], a[i], b[i], if i < 3 { least } else { greatest }))
}

pub fn intersection(a: &Range, b: &Range) -> Range {
    let rust = of_range(range(a).intersection(range(b)));
    array::from_fn(|i| chosen(rust[i], a[i], b[i], if i < 3 { greatest } else { least }))
}

/// A bound that is zero has the sign of its sum by the rule.
pub fn transformed(r: &Range, m: &Matrix) -> Range {
    let rust = of_range(range(r).transformed(matrix(m)));
    if range(r).is_empty() {
        return rust;
    }
    let sum = |j: usize, pick: fn(f64, f64) -> f64| {
        (0..3).fold(m[12 + j], |sum, i| sum + pick(r[i] * m[4 * i + j], r[3 + i] * m[4 * i + j]))
    };
    array::from_fn(|i| if rust[i] == 0.0 { sum(i % 3, if i < 3 { least } else { greatest }) } else { rust[i] })
}
