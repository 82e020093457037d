//! The exported functions: one function here for each.

mod batch;
mod bbox;
mod blocking;
mod camera;
mod exact_box;
mod group;
mod hail;
mod matrix;
mod nearest;
mod number;
mod plane;
mod projection;
mod range;
mod ray;
mod verdict;
mod volume;
mod whole;
mod whole_box;

pub use blocking::{asked_to_explain, behind};
pub use exact_box::{block_seen, parted};
pub use volume::{seen_bytes, two_matrices_seen};
pub use whole::whole_lent;
pub use whole_box::whole_box_lent;

use crate::op::Op;

pub fn all() -> Vec<Box<dyn Op>> {
    let files = [
        number::all(),
        matrix::all(),
        range::all(),
        bbox::all(),
        plane::all(),
        ray::all(),
        projection::all(),
        verdict::all(),
        camera::all(),
        group::all(),
        nearest::all(),
        whole::all(),
        batch::all(),
        blocking::all(),
        hail::all(),
        whole_box::all(),
        exact_box::all(),
        volume::all(),
    ];
    files.into_iter().flatten().collect()
}
