//! What a camera is set from: a view, a projection and a focal length.

use super::*;

/// A view, a projection and a focal length: all as cameras have them, one of
/// them odd, numbers at the edge of f32, or all odd.
pub fn camera(rng: &mut Rng) -> (Matrix, Matrix, f32) {
    let (mut view, mut projection, mut focal_length) = (ordinary_view(rng), volume(rng), lens(rng));
    match rng.below(16) {
        0..2 => {}
        2..5 => view = odd_view(rng),
        5..8 => projection = projection_matrix(rng),
        8 => focal_length = any_single(rng),
        9..14 => {
            focal_length = edge_lens(rng);
            projection = at_edge(rng, focal_length);
        }
        _ => (view, projection, focal_length) = (odd_view(rng), projection_matrix(rng), any_single(rng)),
    }
    (view, projection, focal_length)
}

/// Turned by quarters, rigid, or scaled too.
fn ordinary_view(rng: &mut Rng) -> Matrix {
    match rng.below(4) {
        0..2 => quarter_placement(rng),
        2 => rigid_placement(rng),
        _ => placement(rng),
    }
}

/// A view that has hardly an inverse or none, or one that is not finite.
fn odd_view(rng: &mut Rng) -> Matrix {
    match rng.below(8) {
        0..2 => near_singular(rng),
        // So large that the determinant is infinite.
        2 => {
            let (m, size) = (ordinary_view(rng), rng.pick(&[1e150, 1e102, 1e103, 1e200]));
            let rows = 4 + 4 * rng.below(3) as usize;
            std::array::from_fn(|i| if i < rows { m[i] * size } else { m[i] })
        }
        // Moved so far that the way back is hardly a number, or none.
        3 => {
            let (row, size) = (rng.below(3) as usize, rng.pick(&[1e-10, 1e-5, 0.5, 1.0]));
            let far = f64::MAX * size * rng.pick(&[1.0, 1.0, 0.5, 2.0]);
            let far = signed(rng, far.min(f64::MAX), 2);
            with(IDENTITY, &[(5 * row, size), (12 + row, far)])
        }
        4 => {
            let m = ordinary_view(rng);
            with(m, &[(rng.below(16) as usize, odd(rng))])
        }
        _ => matrix(rng),
    }
}

/// The matrix of a volume of any size, before or behind the camera, turned
/// over or not.
fn volume(rng: &mut Rng) -> Matrix {
    if rng.once_in(2) {
        return projected(&ordinary_projection(rng));
    }
    let size = |rng: &mut Rng| rng.between(0.5, 2.0) * rng.pick(&[1.0, 1.0, 1e-3, 1e4, 1e-20, 1e20, 1e-42, 1e36]);
    let (width, height) = (size(rng), size(rng));
    let aside = |rng: &mut Rng| if rng.once_in(2) { 0.0 } else { rng.between(-3.0, 3.0) };
    let (x, y) = (aside(rng) * width, aside(rng) * height);
    let near = signed(rng, 1.0, 0) * size(rng);
    let far = near * rng.pick(&[2.0, 100.0, 1e4, 0.5, 0.01, -1.0, -3.0]) * rng.between(0.9, 1.1);
    projected(&[rng.below(2) as f64, x - width, x + width, y - height, y + height, near, far])
}

// Focal lengths.

/// A focal length as lenses have it.
pub fn lens(rng: &mut Rng) -> f32 {
    rng.between(1.0, 200.0) as f32
}

/// A focal length at which the edges of f32 are met: ordinary, whole, much
/// less or more, below zero.
fn edge_lens(rng: &mut Rng) -> f32 {
    match rng.below(8) {
        0..3 => lens(rng),
        3 => (1 + rng.below(200)) as f32,
        4 => -lens(rng),
        5 => lens(rng) * rng.pick(&[1e-44, 1e-38, 1e-20, 1e20, 1e36]),
        // One that a tenth of it, divided by a tenth, is not.
        _ => loop {
            let x = lens(rng);
            if f64::from(x) * 0.1 / 0.1 != f64::from(x) {
                break x;
            }
        },
    }
}

/// Any f32: special, of any bits, subnormal, or of ordinary size.
fn any_single(rng: &mut Rng) -> f32 {
    let bits = match rng.below(4) {
        0..2 => narrow_special()[rng.below(34) as usize],
        2 => rng.bits() >> 32,
        _ => rng.bits() >> 41 | (rng.bits() >> 63) << 31,
    };
    f32::from_bits(bits as u32)
}

// The edges of f32.

/// A projection for which one of the numbers that are held as f32 is about
/// where narrowing decides: the middle of two, the last, the subnormal.
fn at_edge(rng: &mut Rng, focal_length: f32) -> Matrix {
    let mut record = ordinary_projection(rng);
    let edge = edge(rng);
    let aperture = if record[0] == 1.0 { 10.0 } else { f64::from(focal_length) };
    match rng.below(4) {
        // A width or a height, or where its middle is.
        axis @ 0..2 => {
            let (first, aside) = (1 + 2 * axis as usize, rng.pick(&[0.0, 0.0, 0.5, 2.0, -3.0]));
            let of_offset = aside != 0.0 && rng.once_in(2);
            let size = edge / aperture / if of_offset { aside } else { 1.0 };
            record[first] = aside * size - 0.5 * size;
            record[first + 1] = aside * size + 0.5 * size;
        }
        2 => (record[5], record[6]) = (edge, edge * rng.pick(&[0.5, 0.2, 0.999, -0.25])),
        _ => (record[5], record[6]) = (edge * rng.pick(&[0.5, 0.2, 0.999, -0.25]), edge),
    }
    let mut m = projected(&record);
    if rng.once_in(2) {
        let at = rng.pick(&[0, 5, 14]);
        m[at] = rng.about(m[at], 3);
    }
    m
}

/// A number that narrowing decides on.
fn edge(rng: &mut Rng) -> f64 {
    let last = f64::from_bits(tie(LAST_NARROW));
    match rng.below(4) {
        0 => signed(rng, last, 6),
        1 => signed(rng, f64::from(f32::MAX), 6),
        2 => f64::from_bits(wide_subnormal(rng)),
        _ => f64::from_bits(wide(rng)),
    }
}
