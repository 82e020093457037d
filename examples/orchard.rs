//! One orchard through the C library, from Rust; orchard.c does the same in C. `examples/run` builds and runs both.

// As include/gf.h declares them. Nothing checks these declarations against the archive.
extern "C" {
    fn gf_grid(p: *const f64, p_len: usize, out: *mut f64, out_len: usize) -> u32;
    fn gf_intersects_segment(v: *const f64, v_len: usize, a: *const f64, a_len: usize, b: *const f64, b_len: usize, out: *mut u32) -> u32;
    fn gf_intersects_bbox(v: *const f64, v_len: usize, b: *const f64, b_len: usize, out: *mut u32) -> u32;
    fn gf_intersects_bboxes(v: *const f64, v_len: usize, boxes: *const f64, boxes_len: usize, out: *mut u32, out_len: usize) -> u32;
    fn gf_bbox_combine(a: *const f64, a_len: usize, b: *const f64, b_len: usize, out: *mut f64, out_len: usize) -> u32;
    fn gf_bbox_combine_group(boxes: *const f64, boxes_len: usize, out: *mut f64, out_len: usize) -> u32;
    fn gf_bbox_aligned_range(b: *const f64, b_len: usize, out: *mut f64, out_len: usize) -> u32;
    fn gf_projection_matrix(p: *const f64, p_len: usize, out: *mut f64, out_len: usize) -> u32;
    fn gf_camera_set_from_view_and_projection(v: *const f64, v_len: usize, p: *const f64, p_len: usize, focal_length: f32, out: *mut f64, out_len: usize) -> u32;
    fn gf_farm_file(file: *const u8, file_len: usize, out: *mut u32, out_len: usize, count: *mut u32) -> u32;
}

/// What a call wrote, or the number of its refusal. The calls are safe: a slice's pointer and length belong together, and
/// the result is a value of its own, so that it overlaps nothing.
fn answer<T>(mut out: T, call: impl FnOnce(&mut T) -> u32) -> Result<T, u32> {
    match call(&mut out) {
        0 => Ok(out),
        refusal => Err(refusal),
    }
}

fn grid(p: &[f64]) -> Result<[f64; 3], u32> {
    answer([0.0; 3], |out| unsafe { gf_grid(p.as_ptr(), p.len(), out.as_mut_ptr(), out.len()) })
}

fn segment_in_view(v: &[f64], a: &[f64], b: &[f64]) -> Result<u32, u32> {
    answer(0, |out| unsafe { gf_intersects_segment(v.as_ptr(), v.len(), a.as_ptr(), a.len(), b.as_ptr(), b.len(), out) })
}

fn box_in_view(v: &[f64], b: &[f64]) -> Result<u32, u32> {
    answer(0, |out| unsafe { gf_intersects_bbox(v.as_ptr(), v.len(), b.as_ptr(), b.len(), out) })
}

/// The verdict on each of several boxes, by so many slots.
fn boxes_in_view(v: &[f64], boxes: &[f64], slots: usize) -> Result<Vec<u32>, u32> {
    answer(vec![0; slots], |out| unsafe {
        gf_intersects_bboxes(v.as_ptr(), v.len(), boxes.as_ptr(), boxes.len(), out.as_mut_ptr(), out.len())
    })
}

fn combine(a: &[f64], b: &[f64]) -> Result<[f64; 23], u32> {
    answer([0.0; 23], |out| unsafe { gf_bbox_combine(a.as_ptr(), a.len(), b.as_ptr(), b.len(), out.as_mut_ptr(), out.len()) })
}

fn combine_group(boxes: &[f64]) -> Result<[f64; 23], u32> {
    answer([0.0; 23], |out| unsafe { gf_bbox_combine_group(boxes.as_ptr(), boxes.len(), out.as_mut_ptr(), out.len()) })
}

fn aligned_range(b: &[f64]) -> Result<[f64; 6], u32> {
    answer([0.0; 6], |out| unsafe { gf_bbox_aligned_range(b.as_ptr(), b.len(), out.as_mut_ptr(), out.len()) })
}

fn projection_matrix(p: &[f64]) -> Result<[f64; 16], u32> {
    answer([0.0; 16], |out| unsafe { gf_projection_matrix(p.as_ptr(), p.len(), out.as_mut_ptr(), out.len()) })
}

fn camera(v: &[f64], p: &[f64], focal_length: f32) -> Result<[f64; 24], u32> {
    answer([0.0; 24], |out| unsafe {
        gf_camera_set_from_view_and_projection(v.as_ptr(), v.len(), p.as_ptr(), p.len(), focal_length, out.as_mut_ptr(), out.len())
    })
}

/// The verdicts on the boxes of a farm file.
fn farm_file(file: &[u8]) -> Result<Vec<u32>, u32> {
    let (slots, count) = answer(([0; 63], 0), |(slots, count)| unsafe {
        gf_farm_file(file.as_ptr(), file.len(), slots.as_mut_ptr(), slots.len(), count)
    })?;
    Ok(slots[..count as usize].to_vec())
}

/// A farm file of these records: the count, where each begins and how many bytes it has, and their numbers.
fn made_file(records: &[&[f64]]) -> Vec<u8> {
    let mut file = (records.len() as u32).to_le_bytes().to_vec();
    let mut offset = 4 + 8 * records.len();
    for record in records {
        file.extend((offset as u32).to_le_bytes());
        file.extend((8 * record.len() as u32).to_le_bytes());
        offset += 8 * record.len();
    }
    file.extend(records.concat().iter().flat_map(|number| number.to_le_bytes()));
    file
}

fn print_verdict(what: &str, verdict: Result<u32, u32>) {
    match verdict {
        Ok(yes) => println!("{what}: {}", if yes == 1 { "yes" } else { "no" }),
        Err(refusal) => println!("{what}: refused {refusal}"),
    }
}

fn print_slots(what: &str, slots: Result<Vec<u32>, u32>) {
    let words = |slots: Vec<u32>| slots.iter().map(|&yes| if yes == 1 { "yes" } else { "no" }).collect::<Vec<_>>().join(" ");
    println!("{what}: {}", slots.map_or_else(|refusal| format!("refused {refusal}"), words));
}

fn print_numbers<const N: usize>(what: &str, numbers: Result<[f64; N], u32>) {
    match numbers {
        Ok(n) => println!("{what}: {}", n.map(|x| format!("{x:.0}")).join(" ")),
        Err(refusal) => println!("{what}: refused {refusal}"),
    }
}

fn main() -> Result<(), u32> {
    // A volume: how many planes it has, these, and four rays, which stay zero.
    let volume = |planes: &[[f64; 4]]| [&[planes.len() as f64][..], planes.as_flattened(), &[0.0; 24]].concat();
    // x from 0 to 4000, y from 0 to 3000, z from 0 to 600 centimetres.
    let mut planes = vec![[1.0, 0.0, 0.0, 0.0], [-1.0, 0.0, 0.0, -4000.0], [0.0, 1.0, 0.0, 0.0]];
    planes.extend([[0.0, -1.0, 0.0, -3000.0], [0.0, 0.0, 1.0, 0.0], [0.0, 0.0, -1.0, -600.0]]);
    let view = volume(&planes);
    // A shed hides what lies beyond y = 1600.
    planes.push([0.0, -1.0, 0.0, -1600.0]);
    let past_shed = volume(&planes);
    let mut miscounted = view.clone();
    miscounted[0] = 6.5;
    let rows = |m: [[f64; 4]; 4]| m.concat();
    let upright = rows([[1.0, 0.0, 0.0, 0.0], [0.0, 1.0, 0.0, 0.0], [0.0, 0.0, 1.0, 0.0], [0.0, 0.0, 0.0, 1.0]]);
    let turned = rows([[0.0, 1.0, 0.0, 0.0], [-1.0, 0.0, 0.0, 0.0], [0.0, 0.0, 1.0, 0.0], [4600.0, 2000.0, 0.0, 1.0]]);
    let south = [&[200.0, -900.0, 0.0, 1200.0, -100.0, 300.0][..], &upright[..], &[0.0]].concat();
    let north = [&[0.0, 0.0, 0.0, 800.0, 600.0, 250.0][..], &turned[..], &[0.0]].concat();

    let tree = grid(&[12.34, 20.5, 1.6])?;
    print_numbers("tree in centimetres", Ok(tree));
    let mast = [-500.0, 1500.0, 550.0];
    print_verdict("line from the mast to the tree in view", segment_in_view(&view, &mast, &tree));
    print_verdict("the same past a shed", segment_in_view(&past_shed, &mast, &tree));
    print_verdict("the same by six and a half planes", segment_in_view(&miscounted, &mast, &tree));
    print_verdict("south block in view", box_in_view(&view, &south));
    print_verdict("north block, which touches, in view", box_in_view(&view, &north));
    // The same from a survey that has no height for it.
    let mut unmeasured = north.clone();
    unmeasured[5] = f64::NAN;
    print_verdict("north block without its height", box_in_view(&view, &unmeasured));
    print_numbers("both blocks, least and greatest", combine(&south, &north).and_then(|both| aligned_range(&both)));

    // The whole orchard, with a packing shed: which of it is in view; as one group; then north block and shed first, and their result
    // with the south block.
    let shed = [&[5000.0, 100.0, 0.0, 5200.0, 300.0, 350.0][..], &upright[..], &[0.0]].concat();
    let all = [&south[..], &north, &shed].concat();
    print_slots("south block, north block and shed in one call", boxes_in_view(&view, &all, 3));
    print_slots("the same with a slot too few", boxes_in_view(&view, &all, 2));
    let range_of = |boxes: &[&[f64]]| combine_group(&boxes.concat()).and_then(|group| aligned_range(&group));
    print_numbers("the orchard as one group", range_of(&[&south, &north, &shed]));
    let part = combine_group(&[&north[..], &shed[..]].concat())?;
    print_numbers("the orchard by its parts", range_of(&[&south, &part]));
    print_numbers("a group of no blocks", combine_group(&[]));

    // A mast camera as its maker sends it: where it stands, and the window at a distance of one that it looks through.
    let camera_view = rows([[1.0, 0.0, 0.0, 0.0], [0.0, 1.0, 0.0, 0.0], [0.0, 0.0, 1.0, 0.0], [-2000.0, 500.0, -300.0, 1.0]]);
    let projection = projection_matrix(&[0.0, -1.0, 1.0, -0.5, 0.5, 100.0, 5000.0])?;
    let place_and_lens = |camera: [f64; 24]| <[f64; 12]>::try_from(&camera[12..]).unwrap();
    print_numbers("camera at, and its lens", camera(&camera_view, &projection, 50.0).map(place_and_lens));
    print_numbers("camera with a focal length of 3e38", camera(&camera_view, &projection, 3e38).map(place_and_lens));

    let file = made_file(&[&view, &south, &north]);
    for (i, verdict) in farm_file(&file)?.into_iter().enumerate() {
        print_verdict(&format!("farm file, block {}", i + 1), Ok(verdict));
    }
    print_verdict("farm file without its last byte", farm_file(&file[..file.len() - 1]).map(|_| 0));
    print_numbers("tree at 656 metres", grid(&[656.0, 0.0, 0.0]));
    Ok(())
}
