//! That the assembled gf answers, and that its shim changes nothing else.

use openusd::gf::{BBox3d, Camera, Frustum, FrustumPlanes, Mat4d, Plane, Range3d, Ray, Screens, Vec2d, Vec3d, vec3d};

/// Planes as they are given, without being made unit length.
fn view(planes: [([f64; 3], f64); 6]) -> FrustumPlanes {
    FrustumPlanes {
        frustum: Frustum::default(),
        planes: planes.map(|(normal, distance)| Plane { normal: normal.into(), distance }),
    }
}

/// Paper 01's cube from 0 to 10.
fn cube() -> FrustumPlanes {
    view([
        ([1.0, 0.0, 0.0], 0.0),
        ([-1.0, 0.0, 0.0], -10.0),
        ([0.0, 1.0, 0.0], 0.0),
        ([0.0, -1.0, 0.0], -10.0),
        ([0.0, 0.0, 1.0], 0.0),
        ([0.0, 0.0, -1.0], -10.0),
    ])
}

fn boxed(min: [f64; 3], max: [f64; 3], matrix: Mat4d) -> BBox3d {
    BBox3d::new(Range3d::new(min.into(), max.into()), matrix)
}

#[test]
fn the_twelve_marked_verdicts() {
    let cube = cube();
    let point = |p: [f64; 3]| cube.intersects_point(p.into());
    let segment = |a: [f64; 3], b: [f64; 3]| cube.intersects_segment(a.into(), b.into());
    let unplaced = |min, max| cube.intersects_bbox(&boxed(min, max, Mat4d::IDENTITY));
    let turned = |x: f64| {
        let rows = [0.0, 1.0, 0.0, 0.0, -1.0, 0.0, 0.0, 0.0, 0.0, 0.0, 1.0, 0.0, x, 0.0, 0.0, 1.0];
        cube.intersects_bbox(&boxed([0.0; 3], [1.0; 3], Mat4d(rows)))
    };
    let verdicts = [
        point([0.0, 0.0, 0.0]),
        point([11.0, 5.0, 5.0]),
        segment([-5.0, 5.0, 5.0], [15.0, 5.0, 5.0]),
        segment([-5.0, 5.0, 5.0], [5.0, -5.0, 5.0]),
        segment([-6.0, 5.0, 5.0], [5.0, -6.0, 5.0]),
        segment([-1.0, 0.0, 0.0], [-1.0, 10.0, 10.0]),
        segment([11.0, 5.0, 5.0], [11.0, 5.0, 5.0]),
        unplaced([10.0, 0.0, 0.0], [12.0, 1.0, 1.0]),
        unplaced([11.0, 0.0, 0.0], [12.0, 1.0, 1.0]),
        unplaced([1.0, 0.0, 0.0], [0.0, 1.0, 1.0]),
        turned(0.0),
        turned(-1.0),
    ];
    let yes = [true, false, true, true, false, false, false, true, false, false, true, false];
    assert_eq!(verdicts, yes);
}

#[test]
fn the_inverse_refuses_at_its_threshold() {
    let first = |x: f64| {
        let mut m = Mat4d::IDENTITY;
        m.0[0] = x;
        m.inverse()
    };
    assert_eq!(first(1e-12), None);
    assert_eq!(first(2e-12).map(|m| m.0[0]), Some(1.0 / 2e-12));
    assert_eq!(Mat4d::IDENTITY * Mat4d::IDENTITY, Mat4d::IDENTITY);
}

#[test]
fn a_camera_is_set_from_two_matrices() {
    let mut camera = Camera::default();
    let projection = Mat4d::perspective(-0.5, 0.5, -0.25, 0.25, 1.0, 3.0);
    assert!(camera.set_from_view_and_projection(Mat4d::translation(vec3d(1.0, 2.0, 3.0)), projection, 32.0));
    assert_eq!(camera.transform, Mat4d::translation(vec3d(-1.0, -2.0, -3.0)));
    assert_eq!([camera.horizontal_aperture, camera.vertical_aperture], [32.0, 16.0]);
    assert_eq!([camera.clipping_range.min(), camera.clipping_range.max()], [1.0, 3.0]);
    assert!(!camera.set_from_view_and_projection(Mat4d([0.0; 16]), projection, 32.0));
}

#[test]
fn open_fields_hold_any_plane_and_box() {
    let plane = Plane { normal: vec3d(3.0, 0.0, 0.0), distance: 6.0 };
    assert_eq!(plane.distance(vec3d(5.0, 1.0, 1.0)), 9.0);
    // A point of the plane is taken as normal times distance, 18 along x.
    let ray = Ray::new(vec3d(20.0, 0.0, 0.0), vec3d(-1.0, 0.0, 0.0));
    assert_eq!(ray.intersect_plane(&plane), Some((2.0, true)));

    let mut flat = Mat4d::IDENTITY;
    flat.0[0] = 0.0;
    let flat = boxed([0.0; 3], [1.0; 3], flat);
    assert!(flat.inverse.is_none() && flat.is_degenerate());
    let both = BBox3d::combine(&flat, &BBox3d { zero_area_primitives: true, ..flat });
    assert_eq!(both.range, Range3d::new(vec3d(0.0, 0.0, 0.0), vec3d(0.0, 1.0, 1.0)));
    assert!(both.zero_area_primitives);
}

#[test]
fn the_triangle_method_takes_the_rays_it_is_given() {
    let frustum = Frustum::default();
    let planes = frustum.planes();
    let at = |x, y| frustum.pick_ray(Vec2d { x, y });
    let rays = [at(-1.0, -1.0), at(-1.0, 1.0), at(1.0, 1.0), at(1.0, -1.0)];
    // Rays that look away from everything in front.
    let away = [Ray::new(Vec3d::default(), vec3d(0.0, 0.0, 1.0)); 4];

    let mut surrounding = 0;
    let mut state = 1_u64;
    let mut coordinate = || {
        state = state.wrapping_mul(6364136223846793005).wrapping_add(1442695040888963407);
        (state >> 40) as f64 / (1 << 17) as f64 - 64.0
    };
    for _ in 0..200_000 {
        let [a, b, c] = [0; 3].map(|_| vec3d(coordinate(), coordinate(), coordinate() / 8.0));
        let asked = planes.intersects_triangle(a, b, c);
        assert_eq!(asked, planes.intersects_triangle_by(a, b, c, &rays));
        surrounding += u32::from(asked != planes.intersects_triangle_by(a, b, c, &away));
    }
    assert!(surrounding > 100, "{surrounding} triangles were settled by a ray");
}

#[test]
fn a_list_of_planes_is_asked_as_the_six_are() {
    let planes = Frustum::default().planes();
    let six = Screens { planes: &planes.planes };
    // The same planes again, up to as many as a mask has bits.
    let most = u32::BITS as usize;
    let more: Vec<Plane> = (0..most).map(|i| planes.planes[i % 6]).collect();
    let mut yes = [0; 3];
    let mut state = 1_u64;
    let mut coordinate = || {
        state = state.wrapping_mul(6364136223846793005).wrapping_add(1442695040888963407);
        (state >> 40) as f64 / (1 << 20) as f64 - 8.0
    };
    for count in (6..=most).cycle().take(100_000) {
        let [a, b] = [0; 2].map(|_| vec3d(coordinate(), coordinate(), coordinate()));
        let b_box = BBox3d::new(Range3d::new(a, a + vec3d(1.0, 2.0, 3.0)), Mat4d::IDENTITY);
        let asked = [planes.intersects_point(a), planes.intersects_segment(a, b), planes.intersects_bbox(&b_box)];
        for list in [&six, &Screens { planes: &more[..count] }] {
            let listed = [list.intersects_point(a), list.intersects_segment(a, b), list.intersects_bbox(&b_box)];
            assert_eq!(listed, asked, "{count} planes");
        }
        yes.iter_mut().zip(asked).for_each(|(yes, asked)| *yes += u32::from(asked));
    }
    assert!(yes.iter().all(|&yes| (1000..99_000).contains(&yes)), "{yes:?}");
}
