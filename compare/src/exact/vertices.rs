//! The exact verdict on a box by a search for a point, as the engine is to do
//! it: to be timed against, and to hold the judge to.

use crate::inputs::{Whole, WholePlane, whole_dot};
use std::array;

/// A point: three whole numbers over one of at least 1.
pub type Shared = (Whole, i64);

pub fn faces([least, greatest]: [Whole; 2]) -> [WholePlane; 6] {
    array::from_fn(|i| {
        let (axis, sign) = (i / 2, if i % 2 == 0 { 1 } else { -1 });
        let bound = if sign > 0 { least[axis] } else { -greatest[axis] };
        WholePlane { normal: array::from_fn(|j| if j == axis { sign } else { 0 }), distance: bound }
    })
}

pub fn cross(a: Whole, b: Whole) -> Whole {
    [a[1] * b[2] - a[2] * b[1], a[2] * b[0] - a[0] * b[2], a[0] * b[1] - a[1] * b[0]]
}

/// The point that lies on three planes, if there is just one: Cramer's rule.
pub fn vertex(a: &WholePlane, b: &WholePlane, c: &WholePlane) -> Option<Shared> {
    let (bc, ca, ab) = (cross(b.normal, c.normal), cross(c.normal, a.normal), cross(a.normal, b.normal));
    let determinant = whole_dot(a.normal, bc);
    let sign = determinant.signum();
    let numbers = array::from_fn(|i| sign * (a.distance * bc[i] + b.distance * ca[i] + c.distance * ab[i]));
    (determinant != 0).then_some((numbers, sign * determinant))
}

pub fn satisfies(plane: &WholePlane, (p, k): Shared) -> bool {
    whole_dot(plane.normal, p) >= plane.distance * k
}

/// A point of a box and a view, if they share one. The planes are taken one by
/// one with a point of the box that satisfies those taken. Where the next
/// fails there, some point that satisfies it too lies on it, and then so does a
/// vertex.
pub fn box_by_vertices(planes: &[WholePlane], corners: [Whole; 2]) -> Option<Shared> {
    let constraints: Vec<WholePlane> = faces(corners).into_iter().chain(planes.iter().copied()).collect();
    let mut at: Shared = (corners[0], 1);
    for next in 6..constraints.len() {
        if satisfies(&constraints[next], at) {
            continue;
        }
        let pairs = (0..next).flat_map(|i| (0..i).map(move |j| (i, j)));
        let mut vertices = pairs.filter_map(|(i, j)| vertex(&constraints[next], &constraints[i], &constraints[j]));
        at = vertices.find(|&p| constraints[..=next].iter().all(|plane| satisfies(plane, p)))?;
    }
    Some(at)
}
