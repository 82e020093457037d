//! Which screen hides a sight line, from Rust; screen.c does the same in C. `examples/run` builds and runs both.

// As include/gf.h declares them. Nothing checks these declarations against the archive.
extern "C" {
    fn gf_intersects_segment(v: *const f64, v_len: usize, a: *const f64, a_len: usize, b: *const f64, b_len: usize, out: *mut u32) -> u32;
    fn gf_blocking_plane(v: *const f64, v_len: usize, a: *const f64, a_len: usize, b: *const f64, b_len: usize, place: *mut u32) -> u32;
}

/// What a call wrote, or the number of its refusal. The calls are safe: a slice's pointer and length belong together, and
/// the result is a value of its own, so that it overlaps nothing.
fn answer<T>(mut out: T, call: impl FnOnce(&mut T) -> u32) -> Result<T, u32> {
    match call(&mut out) {
        0 => Ok(out),
        refusal => Err(refusal),
    }
}

type Plane = [f64; 4];
type Line = [[f64; 3]; 2];

/// The volume of these planes: their count, these, and four rays of zeros.
fn volume(planes: &[Plane]) -> Vec<f64> {
    [&[planes.len() as f64][..], planes.as_flattened(), &[0.0; 24]].concat()
}

fn segment_in_view(planes: &[Plane], [a, b]: &Line) -> Result<u32, u32> {
    let v = volume(planes);
    answer(0, |out| unsafe { gf_intersects_segment(v.as_ptr(), v.len(), a.as_ptr(), a.len(), b.as_ptr(), b.len(), out) })
}

/// The place of the plane that alone hides a line, if there is one.
fn blocking_plane(planes: &[Plane], [a, b]: &Line) -> Result<Option<usize>, u32> {
    let v = volume(planes);
    let place = answer(0, |out| unsafe { gf_blocking_plane(v.as_ptr(), v.len(), a.as_ptr(), a.len(), b.as_ptr(), b.len(), out) })?;
    Ok((place != u32::MAX).then_some(place as usize))
}

const NAMES: [&str; 8] =
    ["x at least 0", "x at most 10", "y at least 0", "y at most 10", "z at least 0", "z at most 10", "the shed", "the wall"];

fn print_screen(what: &str, planes: &[Plane], line: &Line) {
    match blocking_plane(planes, line) {
        Ok(Some(place)) => println!("{what}: plane {place}, {}", NAMES[place]),
        Ok(None) => println!("{what}: no single plane"),
        Err(refusal) => println!("{what}: refused {refusal}"),
    }
}

fn print_verdict(what: &str, planes: &[Plane], line: &Line) {
    match segment_in_view(planes, line) {
        Ok(yes) => println!("{what}: {}", if yes == 1 { "yes" } else { "no" }),
        Err(refusal) => println!("{what}: refused {refusal}"),
    }
}

fn main() {
    // The cube's six planes, a shed that leaves what has x + y at most 12, and a wall that leaves what has z at least 6.
    let mut planes = vec![[1.0, 0.0, 0.0, 0.0], [-1.0, 0.0, 0.0, -10.0], [0.0, 1.0, 0.0, 0.0], [0.0, -1.0, 0.0, -10.0]];
    planes.extend([[0.0, 0.0, 1.0, 0.0], [0.0, 0.0, -1.0, -10.0], [-1.0, -1.0, 0.0, -12.0], [0.0, 0.0, 1.0, 6.0]]);
    let (cube, with_shed, with_wall) = (&planes[..6], &planes[..7], &planes[..8]);
    let without = |place: usize| [&with_shed[..place], &with_shed[place + 1..]].concat();
    let over = [[-2.0, 13.0, 5.0], [13.0, 4.0, 5.0]];
    let beyond = [[8.0, 6.0, 5.0], [12.0, 9.0, 5.0]];

    // The line over the shed is hidden by two planes together; without either it is seen, and the lower place is named.
    print_verdict("line over the shed", with_shed, &over);
    print_screen("what hides it", with_shed, &over);
    print_verdict("without y at most 10", &without(3), &over);
    print_verdict("without the shed", &without(6), &over);

    // A line all of which is behind the shed; with the wall before it no single plane is to blame.
    print_screen("what hides a line behind the shed", with_shed, &beyond);
    print_screen("the same with a wall", with_wall, &beyond);

    // By the six planes of the cube, of which five are left. Both ends of the second line are behind z at most 10, and without
    // that plane it still misses the cube.
    print_screen("what hides a line beside the cube", cube, &[[-1.0, 0.0, 0.0], [-1.0, 10.0, 10.0]]);
    print_screen("what hides a line above and past it", cube, &[[-6.0, 5.0, 11.0], [5.0, -6.0, 11.0]]);

    // A line in view has nothing that hides it; a missing number is refused first.
    print_screen("what hides the first line from the cube alone", cube, &over);
    print_screen("the same with an end unmeasured", cube, &[over[0], [13.0, 4.0, f64::NAN]]);
}
