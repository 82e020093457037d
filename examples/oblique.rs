//! Blocks under oblique planes, by the filed verdict and by the exact one: the three ways in which they part. oblique.c does the same
//! in C. `examples/run` builds and runs both.

// As include/gf.h declares them. Nothing checks these declarations against the archive.
extern "C" {
    fn gf_intersects_bbox(volume: *const f64, volume_len: usize, bbox: *const f64, bbox_len: usize, out: *mut u32) -> u32;
    fn gf_exact_bbox(volume: *const f64, volume_len: usize, bbox: *const f64, bbox_len: usize, out: *mut u32) -> u32;
    fn gf_whole_intersects_bbox(view: *const i32, view_len: usize, bounds: *const i32, bounds_len: usize, witness: *mut i64, witness_len: usize, out: *mut u32) -> u32;
}

/// What a call wrote, or the number of its refusal. The calls are safe: a slice's pointer and length belong together, and
/// the results are values of their own, so that they overlap nothing.
fn answer(call: impl FnOnce(&mut u32) -> u32) -> Result<bool, u32> {
    let mut yes = 0;
    match call(&mut yes) {
        0 => Ok(yes == 1),
        refusal => Err(refusal),
    }
}

fn filed(volume: &[f64], block: &[f64]) -> Result<bool, u32> {
    answer(|out| unsafe { gf_intersects_bbox(volume.as_ptr(), volume.len(), block.as_ptr(), block.len(), out) })
}

fn exact(volume: &[f64], block: &[f64]) -> Result<bool, u32> {
    answer(|out| unsafe { gf_exact_bbox(volume.as_ptr(), volume.len(), block.as_ptr(), block.len(), out) })
}

fn whole(view: &[i32], bounds: &[i32], at: &mut [i64]) -> Result<bool, u32> {
    answer(|out| unsafe {
        gf_whole_intersects_bbox(view.as_ptr(), view.len(), bounds.as_ptr(), bounds.len(), at.as_mut_ptr(), at.len(), out)
    })
}

fn print_verdict(what: &str, verdict: Result<bool, u32>) {
    match verdict {
        Ok(yes) => println!("  {what}: {}", if yes { "yes" } else { "no" }),
        Err(refusal) => println!("  {what}: refused {refusal}"),
    }
}

/// At most as far from the x axis as along it, and from 1 to 2 along it: the count of planes, then each normal and distance.
const WEDGE: [i32; 25] = [6, 1, -1, 0, 0, 1, 1, 0, 0, 0, 0, 1, 0, 0, 0, -1, -1, 1, 0, 0, 1, -1, 0, 0, -2];

/// x + y + z at most 3; x, y and z at least 0; x and y at most 10.
const SLOPE: [i32; 25] = [6, -1, -1, -1, -3, 1, 0, 0, 0, 0, 1, 0, 0, 0, 0, 1, 0, -1, 0, 0, -10, 0, -1, 0, -10];

/// 2x + y and x + 2y at least 2, 3x + 3y at most 4: only where x and y are 2/3. z from 0 to 1, x at least 0.
const LINE: [i32; 25] = [6, 2, 1, 0, 2, 1, 2, 0, 2, -3, -3, 0, -4, 0, 0, 1, 0, 0, 0, -1, -1, 1, 0, 0, 0];

/// The record of the range from least to greatest, moved by shift.
fn placed(least: [f64; 3], greatest: [f64; 3], shift: [f64; 3]) -> [f64; 23] {
    let mut block = [0.0; 23];
    for i in 0..3 {
        (block[i], block[3 + i], block[6 + 5 * i], block[18 + i]) = (least[i], greatest[i], 1.0, shift[i]);
    }
    block[21] = 1.0;
    block
}

/// The view as the record of a volume, whose rays are zeros.
fn print_both(view: &[i32; 25], block: &[f64; 23]) {
    let volume: Vec<f64> = view.iter().map(|&x| f64::from(x)).chain([0.0; 24]).collect();
    print_verdict("filed", filed(&volume, block));
    print_verdict("exact", exact(&volume, block));
}

/// A block that no matrix moves, and a point of it that is in view.
fn print_block(what: &str, view: &[i32; 25], least: [i32; 3], greatest: [i32; 3]) {
    println!("{what}");
    print_both(view, &placed(least.map(f64::from), greatest.map(f64::from), [0.0; 3]));
    let mut at = [0; 4];
    let verdict = whole(view, [least, greatest].as_flattened(), &mut at);
    print_verdict("in whole numbers", verdict);
    if verdict == Ok(true) {
        let [x, y, z, k] = at;
        println!("  in view at {x}, {y}, {z} over {k}");
    }
}

fn main() {
    print_block("beside the wedge, 2 3 0 to 3 4 1", &WEDGE, [2, 3, 0], [3, 4, 1]);
    print_block("touching the slope, 0 0 3 to 1 1 4", &SLOPE, [0, 0, 3], [1, 1, 4]);
    println!("the same block, 0 0 0 to 1 1 1 moved by 0 0 3");
    print_both(&SLOPE, &placed([0.0; 3], [1.0; 3], [0.0, 0.0, 3.0]));
    print_block("about a view that is a line, 0 0 0 to 1 1 1", &LINE, [0; 3], [1; 3]);
    println!("moved by half a centimetre");
    print_both(&LINE, &placed([0.0; 3], [1.0; 3], [0.0, 0.0, 0.5]));
}
