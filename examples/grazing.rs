//! Two lines past an edge of the cube in whole numbers, and why one counts; grazing.c does the same in C. `examples/run` builds and
//! runs both.

// As include/gf.h declares them. Nothing checks these declarations against the archive.
extern "C" {
    fn gf_whole_intersects_segment(view: *const i32, view_len: usize, p0: *const i32, p0_len: usize, p1: *const i32, p1_len: usize, out: *mut u32) -> u32;
    fn gf_intersects_segment(volume: *const f64, volume_len: usize, p0: *const f64, p0_len: usize, p1: *const f64, p1_len: usize, out: *mut u32) -> u32;
}

/// What a call wrote, or the number of its refusal. The calls are safe: a slice's pointer and length belong together, and
/// the result is a value of its own, so that it overlaps nothing.
fn answer(call: impl FnOnce(&mut u32) -> u32) -> Result<bool, u32> {
    let mut yes = 0;
    match call(&mut yes) {
        0 => Ok(yes == 1),
        refusal => Err(refusal),
    }
}

fn in_whole_numbers(view: &[i32], p0: &[i32], p1: &[i32]) -> Result<bool, u32> {
    answer(|out| unsafe {
        gf_whole_intersects_segment(view.as_ptr(), view.len(), p0.as_ptr(), p0.len(), p1.as_ptr(), p1.len(), out)
    })
}

fn in_floats(volume: &[f64], p0: &[f64], p1: &[f64]) -> Result<bool, u32> {
    answer(|out| unsafe {
        gf_intersects_segment(volume.as_ptr(), volume.len(), p0.as_ptr(), p0.len(), p1.as_ptr(), p1.len(), out)
    })
}

fn print_verdict(what: &str, verdict: Result<bool, u32>) {
    match verdict {
        Ok(yes) => println!("{what}: {}", if yes { "yes" } else { "no" }),
        Err(refusal) => println!("{what}: refused {refusal}"),
    }
}

const NAMES: [&str; 6] = ["x at least 0", "x at most 10", "y at least 0", "y at most 10", "z at least 0", "z at most 10"];

/// The cube: the count of planes, then each plane's normal and distance.
const CUBE: [i32; 25] = [6, 1, 0, 0, 0, -1, 0, 0, -10, 0, 1, 0, 0, 0, -1, 0, -10, 0, 0, 1, 0, 0, 0, -1, -10];

/// How far an end is on a plane's side: end times normal, less the plane's distance.
fn distance(plane: &[i32], p: &[i32; 3]) -> i64 {
    (0..3).map(|i| i64::from(plane[i]) * i64::from(p[i])).sum::<i64>() - i64::from(plane[3])
}

fn print_case(number: u32, p0: [i32; 3], p1: [i32; 3]) {
    let spaced = |p: [i32; 3]| p.map(|x| x.to_string()).join(" ");
    println!("case {number}, from {} to {}", spaced(p0), spaced(p1));
    // The planes that the segment crosses, and at which fraction of its way.
    for (plane, name) in CUBE[1..].chunks(4).zip(NAMES) {
        let (d0, d1) = (distance(plane, &p0), distance(plane, &p1));
        if (d0 < 0) != (d1 < 0) {
            let way = if d0 < 0 { "in" } else { "out" };
            println!("  {name}: distances {d0} and {d1}, {way} at {}/{}", d0.abs(), (d1 - d0).abs());
        }
    }
    print_verdict("  in whole numbers", in_whole_numbers(&CUBE, &p0, &p1));
    // The same numbers as floats, which hold each of them without loss; the rays are zeros.
    let volume: Vec<f64> = CUBE.iter().map(|&x| f64::from(x)).chain([0.0; 24]).collect();
    print_verdict("  in floats", in_floats(&volume, &p0.map(f64::from), &p1.map(f64::from)));
}

fn main() {
    print_case(4, [-5, 5, 5], [5, -5, 5]);
    print_case(5, [-6, 5, 5], [5, -6, 5]);
    let (p0, past_edge) = ([-5, 5, 5], [5, -65537, 5]);
    print_verdict("the first line, on to the grid's edge", in_whole_numbers(&CUBE, &p0, &[65536, -65536, 5]));
    print_verdict("past the grid's edge", in_whole_numbers(&CUBE, &p0, &past_edge));
    let (mut five, mut seven) = ([0; 25], [0; 25]);
    (five[0], seven[0]) = (5, 7);
    print_verdict("past it, and the view counts five planes", in_whole_numbers(&five, &p0, &past_edge));
    print_verdict("past it, and the view counts a plane that it lacks", in_whole_numbers(&seven, &p0, &past_edge));
}
