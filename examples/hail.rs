//! A hail report through the C library, from Rust; hail.c does the same in C. `examples/run` builds and runs both.

// As include/gf.h declares them. Nothing checks these declarations against the archive.
extern "C" {
    fn gf_grid(p: *const f64, p_len: usize, out: *mut f64, out_len: usize) -> u32;
    fn gf_sqrt(x: f64) -> f64;
    fn gf_bbox_aligned_range(b: *const f64, b_len: usize, out: *mut f64, out_len: usize) -> u32;
    fn gf_range_distance_squared(range: *const f64, range_len: usize, p: *const f64, p_len: usize, out: *mut f64) -> u32;
    fn gf_range_nearest(ranges: *const f64, ranges_len: usize, p: *const f64, p_len: usize, place: *mut u32) -> u32;
    fn gf_range_within(ranges: *const f64, ranges_len: usize, p: *const f64, p_len: usize, limit: f64, out: *mut u32, out_len: usize, found: *mut u32) -> u32;
}

/// What a call wrote, or the number of its refusal. The calls are safe: a slice's pointer and length belong together, and
/// the result is a value of its own, so that it overlaps nothing.
fn answer<T>(mut out: T, call: impl FnOnce(&mut T) -> u32) -> Result<T, u32> {
    match call(&mut out) {
        0 => Ok(out),
        refusal => Err(refusal),
    }
}

fn grid(p: &[f64]) -> Result<[f64; 3], u32> {
    answer([0.0; 3], |out| unsafe { gf_grid(p.as_ptr(), p.len(), out.as_mut_ptr(), out.len()) })
}

fn aligned_range(b: &[f64]) -> Result<[f64; 6], u32> {
    answer([0.0; 6], |out| unsafe { gf_bbox_aligned_range(b.as_ptr(), b.len(), out.as_mut_ptr(), out.len()) })
}

fn distance_squared(range: &[f64], p: &[f64]) -> Result<f64, u32> {
    answer(0.0, |out| unsafe { gf_range_distance_squared(range.as_ptr(), range.len(), p.as_ptr(), p.len(), out) })
}

/// The place of the nearest range, if there is one.
fn nearest(ranges: &[f64], p: &[f64]) -> Result<Option<usize>, u32> {
    let place = answer(0, |out| unsafe { gf_range_nearest(ranges.as_ptr(), ranges.len(), p.as_ptr(), p.len(), out) })?;
    Ok((place != u32::MAX).then_some(place as usize))
}

/// The places of the ranges within a radius, by so many slots.
fn within(ranges: &[f64], p: &[f64], radius: f64, slots: usize) -> Result<Vec<usize>, u32> {
    let (slots, found) = answer((vec![0; slots], 0), |(slots, found)| unsafe {
        let limit = radius * radius;
        gf_range_within(ranges.as_ptr(), ranges.len(), p.as_ptr(), p.len(), limit, slots.as_mut_ptr(), slots.len(), found)
    })?;
    Ok(slots[..found as usize].iter().map(|&place| place as usize).collect())
}

const NAMES: [&str; 4] = ["south block", "north block", "cleared block", "packing shed"];

fn print_place(what: &str, place: Result<Option<usize>, u32>) {
    match place {
        Ok(place) => println!("{what}: {}", place.map_or("none", |i| NAMES[i])),
        Err(refusal) => println!("{what}: refused {refusal}"),
    }
}

fn print_list(what: &str, places: Result<Vec<usize>, u32>) {
    match places {
        Ok(places) => {
            let names: Vec<&str> = places.iter().map(|&i| NAMES[i]).collect();
            let comma = if names.is_empty() { "" } else { ", " };
            println!("{what}: {}{comma}{}", names.len(), names.join(" and "));
        }
        Err(refusal) => println!("{what}: refused {refusal}"),
    }
}

fn main() -> Result<(), u32> {
    let upright = [1.0, 0.0, 0.0, 0.0, 0.0, 1.0, 0.0, 0.0, 0.0, 0.0, 1.0, 0.0, 0.0, 0.0, 0.0, 1.0];
    let turned = [0.0, 1.0, 0.0, 0.0, -1.0, 0.0, 0.0, 0.0, 0.0, 0.0, 1.0, 0.0, 4600.0, 2000.0, 0.0, 1.0];
    // Corners in centimetres, and placements. Nothing stands on the cleared block: its range is empty, and keeps its place.
    let blocks = [
        ([200.0, -900.0, 0.0, 1200.0, -100.0, 300.0], upright),
        ([0.0, 0.0, 0.0, 800.0, 600.0, 250.0], turned),
        ([3000.0, 2000.0, 1.0, 2000.0, 1000.0, 0.0], upright),
        ([5000.0, 100.0, 0.0, 5200.0, 300.0, 350.0], upright),
    ];
    // The range that each block is placed in: what distances are measured to.
    let mut ranges = vec![];
    for (corners, placement) in blocks {
        ranges.extend(aligned_range(&[&corners[..], &placement, &[0.0]].concat())?);
    }
    let (hail, shed) = (grid(&[26.0, 9.5, 0.0])?, grid(&[51.0, 2.0, 0.0])?);
    println!("hail at, in centimetres: {:.0} {:.0} {:.0}", hail[0], hail[1], hail[2]);

    // South and north block are equally near: the first is named.
    let place = nearest(&ranges, &hail)?;
    print_place("nearest", Ok(place));
    let first = 6 * place.expect("some block stands");
    let square = distance_squared(&ranges[first..first + 6], &hail)?;
    println!("its distance squared, and the distance: {square:.0} {:.0}", unsafe { gf_sqrt(square) });

    // What is exactly as far as the radius counts.
    print_list("within 17.50 metres", within(&ranges, &hail, 1750.0, 4));
    print_list("within 17.49 metres", within(&ranges, &hail, 1749.0, 4));

    print_place("nearest to a point in the shed", nearest(&ranges, &shed));
    print_place("nearest of the cleared block alone", nearest(&ranges[12..18], &hail));
    print_place("nearest of no blocks", nearest(&[], &hail));
    print_list("within, with a slot too few", within(&ranges, &hail, 1750.0, 3));
    Ok(())
}
