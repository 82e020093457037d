//! Boxes.

use crate::exported::{call, of_archive};
use crate::inputs::{self, Boxed, EMPTY, IDENTITY, Matrix, Range, box_of, diagonal, with};
use crate::op::Op;
use crate::rust::{boxed, boxed_without_inverse, matrix, of_box, of_range};
use crate::signs;

pub fn all() -> Vec<Box<dyn Op>> {
    vec![combine(), transform(), volume(), aligned_range(), centroid()]
}

const UNIT: Range = [0.0, 0.0, 0.0, 1.0, 1.0, 1.0];
const NAN: f64 = f64::NAN;
const FAR: f64 = f64::INFINITY;
const TURNED: Matrix = [0.0, 1.0, 0.0, 0.0, -1.0, 0.0, 0.0, 0.0, 0.0, 0.0, 1.0, 0.0, 5.0, 6.0, 7.0, 1.0];
/// A tenth of the way beyond what a box accepts as inverse.
const FLAT: Matrix = diagonal([9e-14, 1.0, 1.0, 1.0]);

/// Boxes on which a port goes wrong.
pub(super) fn fixed() -> Vec<Boxed> {
    let sheared = with(IDENTITY, &[(1, 0.5), (6, -0.25), (12, 3.0)]);
    vec![
        box_of(UNIT, IDENTITY, 0.0),
        box_of(UNIT, IDENTITY, -0.0),
        box_of(UNIT, TURNED, 1.0),
        box_of(UNIT, sheared, 0.0),
        box_of(EMPTY, IDENTITY, 0.0),
        box_of(EMPTY, IDENTITY, 1.0),
        box_of(with(UNIT, &[(1, 2.0)]), sheared, 1.0),
        // Without inverse: flat, NaN, at the limit; and just with one.
        box_of([2.0, 2.0, 2.0, 3.0, 3.0, 3.0], FLAT, 0.0),
        box_of(UNIT, diagonal([1.0, 0.0, 1.0, 1.0]), 1.0),
        box_of(UNIT, [NAN; 16], 0.0),
        box_of(UNIT, with(TURNED, &[(13, NAN)]), 0.0),
        box_of(UNIT, diagonal([1e-13, 1.0, 1.0, 1.0]), 0.0),
        box_of(UNIT, diagonal([1.1e-13, 1.0, 1.0, 1.0]), 0.0),
        // An infinite determinant has an inverse, of zeros and NaN.
        box_of(UNIT, diagonal([1e200, 1e200, 1e200, 1.0]), 0.0),
        // Volumes that are infinite or NaN.
        box_of([0.0, 0.0, 0.0, 1e155, 1e155, 1.0], IDENTITY, 0.0),
        box_of([0.0, 0.0, 0.0, FAR, 0.0, 1.0], IDENTITY, 0.0),
        box_of([-1e308, 0.0, 0.0, 1e308, 1.0, 1.0], IDENTITY, 0.0),
        box_of([NAN, 0.0, 0.0, 1.0, 1.0, 1.0], IDENTITY, 0.0),
        // The last column is not 0,0,0,1.
        box_of(UNIT, with(IDENTITY, &[(3, 1.0), (15, 2.0)]), 0.0),
        box_of([0.0, 0.0, 0.0, -0.0, 1.0, 1.0], diagonal([-2.0, 3.0, 5.0, 1.0]), 0.0),
        // Flags that are none.
        box_of(UNIT, IDENTITY, 0.5),
        box_of(UNIT, IDENTITY, 2.0),
        box_of(UNIT, IDENTITY, -1.0),
        box_of(UNIT, IDENTITY, NAN),
        box_of(EMPTY, [NAN; 16], 1.0 + f64::EPSILON),
    ]
}

fn combine() -> Box<dyn Op> {
    let boxes = fixed();
    let flat = box_of([2.0, 2.0, 2.0, 3.0, 3.0, 3.0], FLAT, 1.0);
    let empty = box_of(with(UNIT, &[(0, 9.0)]), FLAT, 0.0);
    // Each with a placed one, and with one that has no inverse or no points.
    let mut pairs: Vec<(Boxed, Boxed)> = vec![(empty, boxes[4]), (empty, boxes[5]), (boxes[5], empty)];
    for (i, &b) in boxes.iter().enumerate() {
        pairs.push(if i % 2 == 0 { (boxes[2], b) } else { (b, boxes[3]) });
        pairs.push(if i % 3 == 0 { (b, empty) } else { (flat, b) });
    }
    // A point and a sheared box whose volumes differ by just what counts as
    // equal, by less and by more.
    let point = box_of([0.0; 6], IDENTITY, 0.0);
    let sheared = |w: f64, k: f64| box_of([0.0, 0.0, 0.0, w, 1.0, 1.0], with(IDENTITY, &[(4, k)]), 1.0);
    let apart = [(999_999.0, 1.0), (1_000_000.0, 1.0), (999_998.0, 1.0), (0.0, 1e-10), (0.0, 2e-10), (0.0, 5e-11)];
    pairs.extend(apart.map(|(w, k)| (point, sheared(w, k))));
    pairs.extend(apart.map(|(w, k)| (sheared(w, k), point)));
    // Infinite in the first's space, finite in the second's; the other way.
    let long = [0.0, 0.0, 0.0, 1e-10, 1e155, 1e155];
    let rolled = [0.0, 0.0, 1.0, 0.0, 1.0, 0.0, 0.0, 0.0, 0.0, 1.0, 0.0, 0.0, 0.0, 0.0, 0.0, 1.0];
    pairs.extend([(point, box_of(long, rolled, 0.0)), (box_of(long, rolled, 0.0), point)]);
    pairs.extend([(box_of([0.0, 0.0, 0.0, 1e155, 1e155, 1.0], IDENTITY, 0.0), box_of(long, rolled, 0.0))]);
    call!(gf_bbox_combine(a: 23, b: 23) -> [f64; 23] {
        let (a, b) = (boxed(a)?, boxed(b)?);
        Ok(of_box(openusd::gf::BBox3d::combine(&a, &b)))
    })
    // Of equal zeros the Rust takes either.
    .zeros_alike()
    .fixed(pairs)
    .drawn(|_, rng| inputs::two_boxes(rng))
    .timed("placed", |_, rng| (inputs::ordinary_box(rng), inputs::ordinary_box(rng)))
    .timed("identity, z from 0", |_, rng| (inputs::ground_box(rng), inputs::ground_box(rng)))
    .op()
}

fn transform() -> Box<dyn Op> {
    let fixed = fixed().into_iter().map(|b| (b, TURNED));
    let more = [(box_of(UNIT, TURNED, 0.0), [NAN; 16]), (box_of(UNIT, TURNED, 1.0), diagonal([1e-14, 1.0, 1.0, 1.0]))];
    call!(gf_bbox_transform(b: 23, m: 16) -> [f64; 23] {
        let mut placed = boxed_without_inverse(b)?;
        placed.transform(matrix(m));
        Ok(of_box(placed))
    })
    .fixed(fixed.chain(more).collect())
    .drawn(|_, rng| inputs::box_and_matrix(rng))
    .timed("placed", |_, rng| (inputs::ordinary_box(rng), inputs::placement(rng)))
    .op()
}

fn volume() -> Box<dyn Op> {
    call!(gf_bbox_volume(b: 23) -> f64 { Ok(boxed_without_inverse(b)?.volume()) })
        .fixed(fixed().into_iter().map(|b| (b,)).collect())
        .drawn(|_, rng| (inputs::boxed(rng),))
        .timed("placed", |_, rng| (inputs::ordinary_box(rng),))
        .op()
}

fn aligned_range() -> Box<dyn Op> {
    let rust =
        call!(gf_bbox_aligned_range(b: 23) -> [f64; 6] { Ok(of_range(boxed_without_inverse(b)?.aligned_range())) });
    call!(gf_bbox_aligned_range(b: 23) -> [f64; 6] {
        boxed_without_inverse(b)?;
        Ok(signs::transformed(b.first_chunk().expect("a range"), b[6..].first_chunk().expect("a matrix")))
    })
    .timed_against(rust)
    .fixed(fixed().into_iter().map(|b| (b,)).collect())
    .drawn(|_, rng| (inputs::boxed(rng),))
    .timed("placed", |_, rng| (inputs::ordinary_box(rng),))
    .timed("identity, z from 0", |_, rng| (inputs::ground_box(rng),))
    .op()
}

fn centroid() -> Box<dyn Op> {
    call!(gf_bbox_centroid(b: 23) -> [f64; 3] { Ok(boxed_without_inverse(b)?.centroid().into()) })
        .fixed(fixed().into_iter().map(|b| (b,)).collect())
        .drawn(|_, rng| (inputs::boxed(rng),))
        .timed("placed", |_, rng| (inputs::ordinary_box(rng),))
        .op()
}

#[cfg(test)]
mod tests {
    use super::*;
    use crate::inputs::Rng;

    /// These methods answer the same without the inverse.
    #[test]
    fn the_inverse_is_not_looked_at() {
        for case in 0..100_000 {
            let record = inputs::boxed(&mut Rng::at(1, case));
            let (Ok(with), Ok(without)) = (boxed(&record), boxed_without_inverse(&record)) else {
                continue;
            };
            let bits = |b: openusd::gf::BBox3d| {
                let centroid: [f64; 3] = b.centroid().into();
                let all = of_range(b.aligned_range()).into_iter().chain(centroid).chain([b.volume()]);
                all.map(f64::to_bits).collect::<Vec<u64>>()
            };
            assert_eq!(bits(with), bits(without));
        }
    }
}
