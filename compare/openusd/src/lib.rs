//! The original gf, assembled by the build script, and what its test shim
//! adds: [`gf::FrustumPlanes::intersects_triangle_by`] takes four rays in
//! place of those of the frustum.

include!(concat!(env!("OUT_DIR"), "/lib.rs"));

/// What the triangle method asks a frustum for.
trait PickRay {
    fn pick_ray(&self, window_pos: gf::Vec2d) -> gf::Ray;
}

/// The rays at (−1,−1), (−1,1), (1,1) and (1,−1), in this order.
impl PickRay for [gf::Ray; 4] {
    fn pick_ray(&self, at: gf::Vec2d) -> gf::Ray {
        match (at.x, at.y) {
            (-1.0, -1.0) => self[0],
            (-1.0, 1.0) => self[1],
            (1.0, 1.0) => self[2],
            (1.0, -1.0) => self[3],
            _ => panic!("no ray is given at {at:?}"),
        }
    }
}
