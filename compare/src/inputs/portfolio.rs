//! A season's portfolio: farms as a survey has them, each by its number
//! alone. In metres; x and y lie in the ground, z is upward.

use super::*;
use crate::rust;
use openusd::gf;
use std::array;

/// How a block is placed on its farm.
#[derive(Clone, Copy, PartialEq)]
pub enum Placed {
    /// Turned about the vertical and moved.
    Rigid,
    /// Scaled on each axis by 0.5 to 2 before that.
    Scaled,
    /// With sides that lean by up to a half before that.
    Sheared,
}

/// A farm with what its rate asks for.
pub struct SurveyedFarm {
    /// What the mast's camera sees of it.
    pub view: Volume,
    /// The camera's view, its projection and its focal length.
    pub camera: (Matrix, Matrix, f32),
    pub blocks: Vec<(Placed, Boxed)>,
    /// Three corners of each panel of the hail net.
    pub panels: Vec<[Point; 3]>,
    /// Hail, with each triangle that a ray is tried on.
    pub hail: Vec<(Ray, [Point; 3])>,
}

impl SurveyedFarm {
    /// How many blocks of each kind a farm has, and in all.
    const BLOCKS: [(Placed, usize); 3] = [(Placed::Rigid, 25), (Placed::Scaled, 25), (Placed::Sheared, 13)];
    pub const BLOCK_COUNT: usize = 63;

    /// How many panels a net has along each side, and how long and wide one is.
    const PANELS: usize = 4;
    const PANEL: f64 = 6.0;

    /// How many rays meet a net.
    const RAYS: usize = 64;

    /// A square of 600 to 1,200 m with the mast in the middle of its south
    /// side.
    pub fn drawn(rng: &mut Rng) -> SurveyedFarm {
        let side = rng.between(600.0, 1200.0);
        let camera = mast_camera(rng, side);
        let kinds = Self::BLOCKS.into_iter().flat_map(|(placed, count)| (0..count).map(move |_| placed));
        let blocks = kinds.map(|placed| (placed, block(rng, side, placed))).collect();
        let net = Self::net(rng, side);
        let panels: Vec<[Point; 4]> = (0..Self::PANELS * Self::PANELS)
            .map(|i| {
                let (row, column) = (i / Self::PANELS, i % Self::PANELS);
                [(0, 0), (0, 1), (1, 1), (1, 0)].map(|(down, along)| net[row + down][column + along])
            })
            .collect();
        SurveyedFarm {
            view: Volume::of(rust::of_frustum(&camera)),
            camera: (camera.view_matrix().0, camera.projection_matrix().0, lens(rng)),
            blocks,
            panels: panels.iter().map(|&[a, b, c, _]| [a, b, c]).collect(),
            hail: (0..Self::RAYS).flat_map(|_| hail(rng, &panels)).collect(),
        }
    }

    /// The corners of a net's panels, hung 4 to 5 m high.
    fn net(rng: &mut Rng, side: f64) -> [[Point; Self::PANELS + 1]; Self::PANELS + 1] {
        let [x, y] = somewhere(rng, side);
        array::from_fn(|row| {
            array::from_fn(|column| {
                [x + Self::PANEL * column as f64, y + Self::PANEL * row as f64, rng.between(4.0, 5.0)]
            })
        })
    }
}

/// Anywhere on a farm.
pub(super) fn somewhere(rng: &mut Rng, side: f64) -> [f64; 2] {
    [rng.between(-0.5, 0.5) * side, rng.between(0.0, 1.0) * side]
}

/// The camera on a mast of 12 to 25 m. It looks north, up to 15 degrees to
/// either side and up to 5 down, as far as the farm is wide, 60 degrees
/// across.
pub(super) fn mast_camera(rng: &mut Rng, side: f64) -> gf::Frustum {
    let (turn, down) = (rng.between(-15.0, 15.0).to_radians(), rng.between(0.0, 5.0).to_radians());
    let forward = [down.cos() * turn.sin(), down.cos() * turn.cos(), -down.sin()];
    let right = [turn.cos(), -turn.sin(), 0.0];
    let placed = placement_of([right, cross(right, forward), forward.map(|x| -x)], [0.0, 0.0, rng.between(12.0, 25.0)]);
    let corner = gf::Vec2d { x: 30_f64.to_radians().tan(), y: 0.3 };
    gf::Frustum::from_matrix(
        rust::matrix(&placed),
        gf::Range2d::new(gf::Vec2d { x: -corner.x, y: -corner.y }, corner),
        gf::Range1d::new(1.0, side),
        gf::Projection::Perspective,
    )
}

/// A planted block of 10 to 50 m by 10 to 50 m, 2 to 6 m high, in its own
/// space: about the middle of its ground, or from a corner of it.
fn block(rng: &mut Rng, side: f64, placed: Placed) -> Boxed {
    let size = [rng.between(10.0, 50.0), rng.between(10.0, 50.0), rng.between(2.0, 6.0)];
    let from = if rng.once_in(2) { [-0.5, -0.5, 0.0] } else { [0.0; 3] };
    let range = array::from_fn(|i| if i < 3 { from[i] * size[i] } else { (1.0 + from[i - 3]) * size[i - 3] });
    let (sine, cosine) = rng.between(0.0, 360.0).to_radians().sin_cos();
    let [u, v, w] = [[cosine, sine, 0.0], [-sine, cosine, 0.0], [0.0, 0.0, 1.0]];
    let rows = match placed {
        Placed::Rigid => [u, v, w],
        Placed::Scaled => [u, v, w].map(|row| {
            let scale = rng.between(0.5, 2.0);
            row.map(|x| x * scale)
        }),
        Placed::Sheared => [u, along(v, rng.between(-0.5, 0.5), u), along(w, rng.between(-0.5, 0.5), v)],
    };
    let [x, y] = somewhere(rng, side);
    box_of(range, placement_of(rows, [x, y, rng.between(-3.0, 3.0)]), 0.0)
}

/// A ray of hail that meets a panel or just not, tried on both triangles of
/// the panel.
fn hail(rng: &mut Rng, panels: &[[Point; 4]]) -> [(Ray, [Point; 3]); 2] {
    let [a, b, c, d] = rng.pick(panels);
    let (s, t) = (rng.between(-0.05, 1.05), rng.between(-0.05, 1.05));
    let onto = mix(mix(a, b, s), mix(d, c, s), t);
    let fall = [rng.between(-0.5, 0.5), rng.between(-0.5, 0.5), -1.0];
    let length = dot(fall, fall).sqrt();
    let ray = ray_of(along(onto, -300.0, fall), fall.map(|x| x / length));
    [(ray, [a, b, c]), (ray, [a, c, d])]
}

#[cfg(test)]
mod tests {
    use super::*;

    #[test]
    fn blocks_are_about_half_in_view() {
        let mut seen = 0;
        for number in 0..200 {
            let farm = SurveyedFarm::drawn(&mut Rng::at(1, number));
            assert_eq!(farm.blocks.len(), SurveyedFarm::BLOCK_COUNT);
            let planes = rust::planes(farm.view.numbers());
            let in_view = |block: &Boxed| planes.intersects_bbox(&rust::boxed(block).expect("a flag"));
            seen += farm.blocks.iter().filter(|(_, block)| in_view(block)).count();
        }
        assert!((5000..7600).contains(&seen), "{seen} of 12600");
    }
}
