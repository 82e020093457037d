//! The view of a mast camera from the two matrices that its maker sends, from Rust; mast.c does the same in C. `examples/run` builds and runs both.

// As include/gf.h declares them. Nothing checks these declarations against the archive.
extern "C" {
    fn gf_volume_from_view_and_projection(v: *const f64, v_len: usize, p: *const f64, p_len: usize, out: *mut f64, out_len: usize) -> u32;
    fn gf_product(a: *const f64, a_len: usize, b: *const f64, b_len: usize, out: *mut f64, out_len: usize) -> u32;
    fn gf_intersects_point(v: *const f64, v_len: usize, p: *const f64, p_len: usize, out: *mut u32) -> u32;
    fn gf_intersects_segment(v: *const f64, v_len: usize, a: *const f64, a_len: usize, b: *const f64, b_len: usize, out: *mut u32) -> u32;
    fn gf_intersects_bbox(v: *const f64, v_len: usize, b: *const f64, b_len: usize, out: *mut u32) -> u32;
    fn gf_intersects_view_volume(b: *const f64, b_len: usize, m: *const f64, m_len: usize, out: *mut u32) -> u32;
}

type Matrix = [f64; 16];
type Volume = [f64; 49];
type Point = [f64; 3];
type Block = [f64; 23];

/// What a call wrote, or the number of its refusal. The calls are safe: a slice's pointer and length belong together, and
/// the result is a value of its own, so that it overlaps nothing.
fn answer<T>(mut out: T, call: impl FnOnce(&mut T) -> u32) -> Result<T, u32> {
    match call(&mut out) {
        0 => Ok(out),
        refusal => Err(refusal),
    }
}

fn volume(view: &Matrix, projection: &Matrix) -> Result<Volume, u32> {
    answer([0.0; 49], |out| unsafe { gf_volume_from_view_and_projection(view.as_ptr(), 16, projection.as_ptr(), 16, out.as_mut_ptr(), 49) })
}

fn product(a: &Matrix, b: &Matrix) -> Result<Matrix, u32> {
    answer([0.0; 16], |out| unsafe { gf_product(a.as_ptr(), 16, b.as_ptr(), 16, out.as_mut_ptr(), 16) })
}

fn point_in_view(v: &Volume, p: &Point) -> Result<u32, u32> {
    answer(0, |out| unsafe { gf_intersects_point(v.as_ptr(), 49, p.as_ptr(), 3, out) })
}

fn segment_in_view(v: &Volume, a: &Point, b: &Point) -> Result<u32, u32> {
    answer(0, |out| unsafe { gf_intersects_segment(v.as_ptr(), 49, a.as_ptr(), 3, b.as_ptr(), 3, out) })
}

fn box_in_view(v: &Volume, b: &Block) -> Result<u32, u32> {
    answer(0, |out| unsafe { gf_intersects_bbox(v.as_ptr(), 49, b.as_ptr(), 23, out) })
}

fn box_in_clip_space(b: &Block, m: &Matrix) -> Result<u32, u32> {
    answer(0, |out| unsafe { gf_intersects_view_volume(b.as_ptr(), 23, m.as_ptr(), 16, out) })
}

/// Centimetres, x east, y north, z up. The camera hangs 1200 above the ground and looks north: its x is east, its y is up and it looks
/// along its -z.
const VIEW: Matrix = [1.0, 0.0, 0.0, 0.0, 0.0, 0.0, -1.0, 0.0, 0.0, 1.0, 0.0, 0.0, 0.0, -1200.0, 0.0, 1.0];

/// It sees as far to either side as ahead, half as far up and down, from 100 to 60000.
const PROJECTION: Matrix =
    [1.0, 0.0, 0.0, 0.0, 0.0, 2.0, 0.0, 0.0, 0.0, 0.0, -1.003338898163606, -1.0, 0.0, 0.0, -200.33388981636060, 0.0];

/// A row of cherries from 0, 0, 0 to 4000, 300, 350, turned by 30 degrees and moved to a place.
fn block(x: f64, y: f64) -> Block {
    let (c, s) = (0.8660254037844387, 0.5);
    [0.0, 0.0, 0.0, 4000.0, 300.0, 350.0, c, s, 0.0, 0.0, -s, c, 0.0, 0.0, 0.0, 0.0, 1.0, 0.0, x, y, 0.0, 1.0, 0.0]
}

fn print_answer(what: &str, answer: Result<u32, u32>) {
    match answer {
        Ok(yes) => println!("{what}: {}", if yes == 1 { "yes" } else { "no" }),
        Err(refusal) => println!("{what}: refused {refusal}"),
    }
}

/// A block by the planes of the volume, and by the product of the two matrices.
fn print_block(what: &str, volume: &Volume, seen: &Matrix, x: f64, y: f64) {
    print_answer(what, box_in_view(volume, &block(x, y)));
    print_answer("  the same in clip space", box_in_clip_space(&block(x, y), seen));
}

fn print_plane(name: &str, volume: &Volume, place: usize) {
    let plane = &volume[1 + 4 * place..][..4];
    println!("{name}: {:.3} {:.3} {:.3}; {:.3}", plane[0], plane[1], plane[2], plane[3]);
}

fn main() -> Result<(), u32> {
    let (mast, seen) = (volume(&VIEW, &PROJECTION)?, product(&VIEW, &PROJECTION)?);
    for (place, name) in ["left", "right", "bottom", "top", "near", "far"].into_iter().enumerate() {
        print_plane(name, &mast, place);
    }

    let (west, east) = ([-6000.0, 5000.0, 100.0], [6000.0, 5000.0, 100.0]);
    print_answer("a tree", point_in_view(&mast, &[1000.0, 5000.0, 300.0]));
    print_answer("a roof above the view", point_in_view(&mast, &[1000.0, 1500.0, 2100.0]));
    print_answer("a line across the view", segment_in_view(&mast, &west, &east));
    print_answer("a line beside it", segment_in_view(&mast, &east, &[9000.0, 4000.0, 100.0]));
    print_block("a row ahead", &mast, &seen, -1000.0, 6000.0);
    print_block("a row east of the view", &mast, &seen, 8000.0, 2000.0);

    // A camera that sees without an end has a far plane that everything satisfies.
    let mut endless = PROJECTION;
    (endless[10], endless[14]) = (-1.0, -200.0);
    let mut volume_of = volume(&VIEW, &endless);
    print_answer("a camera without an end", volume_of.map(|_| 1));
    let kept = volume_of?;
    print_plane("far", &kept, 5);

    // Matrices that flatten the world give no view.
    let flat = [1.0, 0.0, 0.0, 0.0, 0.0, 1.0, 0.0, 0.0, 0.0, 0.0, 0.0, 0.0, 0.0, 0.0, 0.0, 1.0];
    volume_of = volume(&VIEW, &flat);
    print_answer("a flat projection", volume_of.map(|_| 1));
    print_plane("far, as before", &kept, 5);
    Ok(())
}
