//! The Rust's types from the records, and back.

use crate::judge::{FEWEST_PLANES, MOST_PLANES, NO_COUNT, NO_SUCH_VALUE, WRONG_INPUT};
use openusd::gf::{
    BBox3d, Camera, Frustum, FrustumPlanes, Mat4d, Plane, Projection, ProjectionParams, Range1d, Range2d, Range3d, Ray,
    Rotation, Screens, Vec2d, Vec3d, Vec4d,
};

/// `N` numbers of a record, from `at` on.
fn part<const N: usize>(record: &[f64], at: usize) -> &[f64; N] {
    record[at..].first_chunk().expect("a record is long enough")
}

pub fn point(p: &[f64; 3]) -> Vec3d {
    Vec3d::from(*p)
}

pub fn homogeneous(&[x, y, z, w]: &[f64; 4]) -> Vec4d {
    Vec4d { x, y, z, w }
}

pub fn of_homogeneous(v: Vec4d) -> [f64; 4] {
    [v.x, v.y, v.z, v.w]
}

pub fn matrix(m: &[f64; 16]) -> Mat4d {
    Mat4d(*m)
}

pub fn range(&[a, b, c, x, y, z]: &[f64; 6]) -> Range3d {
    Range3d::new(Vec3d { x: a, y: b, z: c }, Vec3d { x, y, z })
}

pub fn of_range(range: Range3d) -> [f64; 6] {
    let (min, max) = (range.min(), range.max());
    [min.x, min.y, min.z, max.x, max.y, max.z]
}

pub fn of_corners(corners: [Vec3d; 8]) -> [f64; 24] {
    let mut numbers = [0.0; 24];
    for (to, corner) in numbers.chunks_exact_mut(3).zip(corners) {
        to.copy_from_slice(&<[f64; 3]>::from(corner));
    }
    numbers
}

/// 0, of either sign, or 1.
fn flag(number: f64) -> Result<bool, u32> {
    match number {
        0.0 => Ok(false),
        1.0 => Ok(true),
        _ => Err(NO_SUCH_VALUE),
    }
}

/// A box with its inverse, which follows from its matrix.
pub fn boxed(record: &[f64; 23]) -> Result<BBox3d, u32> {
    let zero_area_primitives = flag(record[22])?;
    let placed = BBox3d::new(range(part(record, 0)), matrix(part(record, 6)));
    Ok(BBox3d { zero_area_primitives, ..placed })
}

/// A box for those methods that do not look at its inverse, so that the time
/// of one is not theirs.
pub fn boxed_without_inverse(record: &[f64; 23]) -> Result<BBox3d, u32> {
    Ok(BBox3d {
        range: range(part(record, 0)),
        matrix: matrix(part(record, 6)),
        inverse: None,
        zero_area_primitives: flag(record[22])?,
    })
}

pub fn of_box(placed: BBox3d) -> [f64; 23] {
    let mut numbers = [0.0; 23];
    numbers[..6].copy_from_slice(&of_range(placed.range));
    numbers[6..22].copy_from_slice(&placed.matrix.0);
    numbers[22] = placed.zero_area_primitives.into();
    numbers
}

/// A plane as it is given, unnormalised too.
pub fn plane(&[x, y, z, distance]: &[f64; 4]) -> Plane {
    Plane { normal: Vec3d { x, y, z }, distance }
}

pub fn of_plane(plane: Plane) -> [f64; 4] {
    [plane.normal.x, plane.normal.y, plane.normal.z, plane.distance]
}

pub fn ray(record: &[f64; 6]) -> Ray {
    Ray::new(point(part(record, 0)), point(part(record, 3)))
}

pub fn of_ray(ray: Ray) -> [f64; 6] {
    let (start, direction) = (ray.start, ray.direction);
    [start.x, start.y, start.z, direction.x, direction.y, direction.z]
}

pub fn projection(&[kind, left, right, bottom, top, near, far]: &[f64; 7]) -> Result<ProjectionParams, u32> {
    let projection = if flag(kind)? { Projection::Orthographic } else { Projection::Perspective };
    Ok(ProjectionParams { projection, left, right, bottom, top, near, far })
}

/// The number of a kind of projection.
fn of_kind(kind: Projection) -> f64 {
    if kind == Projection::Orthographic { 1.0 } else { 0.0 }
}

pub fn of_projection(params: ProjectionParams) -> [f64; 7] {
    let kind = of_kind(params.projection);
    [kind, params.left, params.right, params.bottom, params.top, params.near, params.far]
}

/// Paper 02's record of a camera: where it sits, its kind, its lens and film
/// back, its clipping range.
pub fn of_camera(camera: &Camera) -> [f64; 24] {
    let singles = [
        camera.focal_length,
        camera.horizontal_aperture,
        camera.vertical_aperture,
        camera.horizontal_aperture_offset,
        camera.vertical_aperture_offset,
        camera.clipping_range.min(),
        camera.clipping_range.max(),
    ];
    let mut numbers = [0.0; 24];
    numbers[..16].copy_from_slice(&camera.transform.0);
    numbers[16] = of_kind(camera.projection);
    numbers[17..].copy_from_slice(&singles.map(f64::from));
    numbers
}

/// Any frustum. The shim's methods do not look at it.
const SOME_FRUSTUM: Frustum = Frustum {
    position: Vec3d { x: 0.0, y: 0.0, z: 0.0 },
    rotation: Rotation::IDENTITY,
    window: Range2d::new(Vec2d { x: 0.0, y: 0.0 }, Vec2d { x: 0.0, y: 0.0 }),
    near_far: Range1d::new(0.0, 0.0),
    view_distance: 0.0,
    projection: Projection::Perspective,
};

/// How many planes a volume's first number states: a whole count within the
/// limits.
pub fn counted(number: f64) -> Result<usize, u32> {
    (FEWEST_PLANES..=MOST_PLANES).find(|&n| n as f64 == number).ok_or(NO_COUNT)
}

/// How many planes a volume's record holds, where it has room for six: those
/// that it states, and then the length of that count.
pub fn held(volume: &[f64]) -> Result<usize, u32> {
    let count = counted(volume[0])?;
    if volume.len() != 1 + 4 * count + 24 {
        return Err(WRONG_INPUT);
    }
    Ok(count)
}

/// The six planes in front of a volume.
pub fn planes(volume: &[f64]) -> FrustumPlanes {
    let front: &[f64; 25] = part(volume, 0);
    FrustumPlanes { frustum: SOME_FRUSTUM, planes: std::array::from_fn(|i| plane(part(front, 1 + 4 * i))) }
}

/// Asks the Rust about a volume of so many planes: as it is where they are
/// six, and its copy over a list of planes where they are more.
pub fn ask<T>(
    volume: &[f64],
    count: usize,
    six: impl FnOnce(FrustumPlanes) -> T,
    more: impl FnOnce(Screens) -> T,
) -> T {
    if count == 6 {
        return six(planes(volume));
    }
    let mut list = [plane(&[0.0; 4]); MOST_PLANES];
    for (to, numbers) in list.iter_mut().zip(volume[1..][..4 * count].as_chunks().0) {
        *to = plane(numbers);
    }
    more(Screens { planes: &list[..count] })
}

/// How many planes there are by the length alone, for what is timed.
pub fn count_by_length(volume: &[f64]) -> usize {
    (volume.len() - 25) / 4
}

/// The rays of a volume of so many planes.
pub fn rays(volume: &[f64], count: usize) -> [Ray; 4] {
    let behind: &[f64; 24] = part(volume, 1 + 4 * count);
    std::array::from_fn(|i| ray(part(behind, 6 * i)))
}

/// The volume that a frustum sees.
pub fn of_frustum(frustum: &Frustum) -> [f64; 48] {
    let corners = [(-1.0, -1.0), (-1.0, 1.0), (1.0, 1.0), (1.0, -1.0)];
    let rays = corners.map(|(x, y)| of_ray(frustum.pick_ray(Vec2d { x, y })));
    let planes = frustum.planes().planes.map(of_plane);
    let mut numbers = [0.0; 48];
    numbers[..24].copy_from_slice(planes.as_flattened());
    numbers[24..].copy_from_slice(rays.as_flattened());
    numbers
}
