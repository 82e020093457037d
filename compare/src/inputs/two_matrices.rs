//! What a volume is made of: a view and a projection matrix.

use super::*;
use std::array;

/// A view and a projection: as cameras have them, scaled or mirrored, without a
/// far end, in whole numbers, hardly with an inverse, or odd.
pub fn two_matrices(rng: &mut Rng) -> (Matrix, Matrix) {
    match rng.below(16) {
        0..3 => (rigid_placement(rng), projected(&ordinary_projection(rng))),
        3 => (placement(rng), projected(&ordinary_projection(rng))),
        4 => (mirrored(rng), projected(&ordinary_projection(rng))),
        5 | 6 => (rigid_placement(rng), without_far_end(rng)),
        7..10 => whole_matrices(rng),
        10 => {
            let (view, camera) = (quarter_placement(rng), near_singular(rng));
            if rng.once_in(2) { (view, camera) } else { (camera, view) }
        }
        11 => {
            let (view, projection) = (rigid_placement(rng), projected(&ordinary_projection(rng)));
            (view, with(projection, &[(rng.below(16) as usize, odd(rng))]))
        }
        12 | 13 => {
            let (view, projection, _) = camera(rng);
            (view, projection)
        }
        _ => (matrix(rng), matrix(rng)),
    }
}

/// Turned and moved, and seen in a mirror.
fn mirrored(rng: &mut Rng) -> Matrix {
    let m = rigid_placement(rng);
    let row = rng.below(3) as usize;
    array::from_fn(|i| if i / 4 == row { -m[i] } else { m[i] })
}

/// A perspective projection that ends nowhere: z becomes −z − 2 near, and w −z.
pub fn without_far_end(rng: &mut Rng) -> Matrix {
    let m = projected(&with(ordinary_projection(rng), &[(0, 0.0)]));
    with(m, &[(10, -1.0), (14, -2.0 * rng.between(0.1, 2.0))])
}

/// A turn of quarters and what follows it, so that their product is a camera's
/// whole matrix.
fn whole_matrices(rng: &mut Rng) -> (Matrix, Matrix) {
    let (camera, _) = seen_case(rng);
    parted(rng, &camera)
}

/// Two matrices of whole numbers whose product is this one: a turn of quarters
/// that moves a little, and what is left.
pub fn parted(rng: &mut Rng, camera: &WholeMatrix) -> (Matrix, Matrix) {
    let rows = Turn::numbered(rng.below(Turn::COUNT)).rows();
    let moved: Whole = array::from_fn(|_| rng.whole(9));
    let back = |to: usize| -> [i64; 4] { array::from_fn(|j| (0..3).map(|i| rows[i][to] * camera[i][j]).sum()) };
    let [a, b, c] = [back(0), back(1), back(2)];
    let last = array::from_fn(|j| camera[3][j] - moved[0] * a[j] - moved[1] * b[j] - moved[2] * c[j]);
    let view = placement_of(rows.map(floats), floats(moved));
    (view, whole_matrix(&[a, b, c, last]))
}

#[cfg(test)]
mod tests {
    use super::*;

    /// The parts of a whole matrix give it again.
    #[test]
    fn parts_of_a_whole_matrix() {
        for case in 0..20_000 {
            let rng = &mut Rng::at(5, case);
            let (camera, _) = seen_case(rng);
            let (view, projection) = parted(rng, &camera);
            let product: Matrix =
                array::from_fn(|i| (0..4).map(|k| view[i / 4 * 4 + k] * projection[4 * k + i % 4]).sum());
            assert_eq!(product, whole_matrix(&camera), "{case}");
        }
    }
}
