//! Projections.

use crate::exported::{call, of_archive};
use crate::inputs::{self, IDENTITY, Matrix, Projection, diagonal, with};
use crate::judge::NO_PROJECTION;
use crate::op::Op;
use crate::rust::{matrix, of_projection, projection};
use openusd::gf;

pub fn all() -> Vec<Box<dyn Op>> {
    vec![build(), recover()]
}

const NAN: f64 = f64::NAN;
const FAR: f64 = f64::INFINITY;
const SEEN: Projection = [0.0, -0.5, 0.7, -0.25, 0.3, 1.0, 100.0];

fn build() -> Box<dyn Op> {
    let mut fixed: Vec<(Projection,)> =
        [0.0, -0.0, 1.0, 0.5, 2.0, -1.0, NAN, FAR, 5e-324].map(|kind| (with(SEEN, &[(0, kind)]),)).into();
    for kind in [0.0, 1.0] {
        let of = |entries: &[(usize, f64)]| (with(with(SEEN, &[(0, kind)]), entries),);
        // A window or a depth of no size, one turned over, numbers far out.
        fixed.extend([of(&[(2, -0.5)]), of(&[(4, -0.25)]), of(&[(6, 1.0)]), of(&[(1, 0.7), (2, -0.5)])]);
        fixed.extend([of(&[(5, 0.0)]), of(&[(6, FAR)]), of(&[(6, 1e308), (5, 1e308)]), of(&[(3, NAN)])]);
        fixed.extend([of(&[(1, -1e308), (2, 1e308)]), of(&[(5, 1e200), (6, 1e201)]), of(&[(1, -0.7)])]);
    }
    call!(gf_projection_matrix(given: 7) -> [f64; 16] { Ok(projection(given)?.matrix().0) })
        .fixed(fixed)
        .drawn(|_, rng| (inputs::projection(rng),))
        .timed("ordinary", |_, rng| (inputs::ordinary_projection(rng),))
        .op()
}

fn recover() -> Box<dyn Op> {
    let kinds = [inputs::projected(&SEEN), inputs::projected(&with(SEEN, &[(0, 1.0)]))];
    let mut fixed: Vec<Matrix> = kinds.into();
    fixed.extend([IDENTITY, [0.0; 16], [NAN; 16], diagonal([1.0, 1.0, -1.0, 1.0])]);
    for m in kinds {
        // The kind: a millionth off, more, between.
        fixed.extend(
            [-1.0 - 1e-6, -1.0 - 9e-7, -1.0 + 1.1e-6, 1e-6, -9e-7, -0.5, 1.0, NAN].map(|x| with(m, &[(11, x)])),
        );
        // An entry that should be 0 or 1, by what is let pass and more.
        fixed.extend([1e-6, -1e-6, 1.1e-6, FAR, NAN].map(|x| with(m, &[(1, x)])));
        fixed.extend([(3, 1e-6), (15, 1e-6), (15, 1.0 + 1e-6), (12, 2e-6), (8, 0.5)].map(|entry| with(m, &[entry])));
        // What is recovered is not finite.
        fixed.extend([(0, 0.0), (5, -0.0), (10, 0.0), (10, 1.0), (10, -1.0), (14, FAR)].map(|e| with(m, &[e])));
    }
    // Off by a millionth of the larger of the given and the built entry, but
    // by more of the smaller.
    for off in [-1e-6 + 5e-13, 1e-6 + 5e-13, -1e-6 - 5e-13, 1e-6 + 2e-12] {
        fixed.push(inputs::far_window(off, 1.0));
    }
    call!(gf_projection_from_matrix(m: 16) -> [f64; 7] {
        Ok(of_projection(gf::ProjectionParams::from_matrix(matrix(m)).ok_or(NO_PROJECTION)?))
    })
    .fixed(fixed.into_iter().map(|m| (m,)).collect())
    .drawn(|_, rng| (inputs::projection_matrix(rng),))
    .timed("ordinary", |_, rng| (inputs::projected(&inputs::ordinary_projection(rng)),))
    .op()
}
