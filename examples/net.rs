//! Hail on a net, from Rust; net.c does the same in C. `examples/run` builds and runs both.

// As include/gf.h declares them. Nothing checks these declarations against the archive.
#[rustfmt::skip]
extern "C" {
    fn gf_ray_intersect_triangle(
        ray: *const f64, ray_len: usize, a: *const f64, a_len: usize, b: *const f64, b_len: usize, c: *const f64, c_len: usize,
        out: *mut f64, out_len: usize,
    ) -> u32;
    fn gf_rays_intersect_triangle(
        rays: *const f64, rays_len: usize, a: *const f64, a_len: usize, b: *const f64, b_len: usize, c: *const f64, c_len: usize,
        out: *mut f64, out_len: usize, status: *mut u32, status_len: usize,
    ) -> u32;
}

type Point = [f64; 3];
type Hit = [f64; 5];

/// Each hit, or none where a ray misses; or the number of the refusal. The calls are safe: a slice's pointer and length
/// belong together, and the results are values of their own, so that they overlap nothing.
fn hits(rays: &[f64], [a, b, c]: &[Point; 3], slots: usize) -> Result<Vec<Option<Hit>>, u32> {
    let (mut out, mut status) = (vec![[0.0; 5]; HAIL.len()], vec![0; slots]);
    let numbers = out.as_flattened_mut();
    let refusal = unsafe {
        gf_rays_intersect_triangle(
            rays.as_ptr(), rays.len(), a.as_ptr(), a.len(), b.as_ptr(), b.len(), c.as_ptr(), c.len(),
            numbers.as_mut_ptr(), numbers.len(), status.as_mut_ptr(), status.len(),
        )
    };
    match refusal {
        0 => Ok(out.into_iter().zip(status).map(|(hit, slot)| (slot == 0).then_some(hit)).collect()),
        _ => Err(refusal),
    }
}

fn alone(ray: &[f64; 6], [a, b, c]: &[Point; 3]) -> u32 {
    let mut out = [0.0; 5];
    unsafe {
        gf_ray_intersect_triangle(
            ray.as_ptr(), ray.len(), a.as_ptr(), a.len(), b.as_ptr(), b.len(), c.as_ptr(), c.len(), out.as_mut_ptr(), out.len(),
        )
    }
}

/// Each ray is where a hailstone comes from and the way that it falls, in metres. The last one is already below the net.
const HAIL: [[f64; 6]; 4] = [
    [1.0, 2.0, 14.0, 0.0, 0.0, -1.0],
    [8.0, 2.0, 14.0, -0.5, 0.0, -1.0],
    [9.0, 2.0, 14.0, 0.0, 0.0, -1.0],
    [1.0, 2.0, 3.0, 0.0, 0.0, -1.0],
];

fn main() {
    // Half of a panel of 6 by 6 metres, hung level at 4.
    let net = [[0.0, 0.0, 4.0], [6.0, 0.0, 4.0], [0.0, 6.0, 4.0]];
    // One call for all of them: the plane of the net is made once.
    let rays = HAIL.as_flattened();
    for (i, hit) in hits(rays, &net, HAIL.len()).expect("right lengths").into_iter().enumerate() {
        match hit {
            Some([distance, gamma, alpha, beta, front]) => {
                let side = if front == 1.0 { "above" } else { "below" };
                println!("hailstone {i}: meets the net after {distance:.2} of its ways, weights {gamma:.3} {alpha:.3} {beta:.3}, from {side}");
            }
            None => println!("hailstone {i}: misses"),
        }
    }
    // The single call answers the same: 0 and the numbers of a hit, or 5.
    for (i, ray) in HAIL.iter().enumerate() {
        println!("hailstone {i} alone: {}", alone(ray, &net));
    }
    println!("with a number too few: refused {}", hits(&rays[1..], &net, HAIL.len()).expect_err("no whole rays"));
    println!("with a slot too few: refused {}", hits(rays, &net, HAIL.len() - 1).expect_err("no slot for each"));
}
