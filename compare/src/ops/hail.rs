//! Several rays and one triangle: where each ray meets it, in one call.

#[cfg(test)]
mod slips;

use crate::desk::{Both, Desk, Laid, seen};
use crate::exported::of_archive;
use crate::inputs::{self, Point, Ray, Rng, ray_of};
use crate::judge::{self, MISS, WRONG_INPUT, WRONG_OUTPUT};
use crate::lent::{Ins, Lent, Pointer, Side};
use crate::op::{Op, Timing};
use crate::rust::{point, ray};
use crate::words;
use std::slice;

pub fn all() -> Vec<Box<dyn Op>> {
    vec![Box::new(of_archive())]
}

/// The numbers of a ray, and of its hit.
const RAY: usize = 6;
const HIT: usize = 5;

/// The Rust's answer to one ray, as the single call writes it.
fn hit_of(given: &Ray, corners: [&Point; 3]) -> Option<[f64; HIT]> {
    let [a, b, c] = corners.map(point);
    let hit = ray(given).intersect_triangle(a, b, c)?;
    let [gamma, alpha, beta] = hit.barycentric.into();
    Some([hit.distance, gamma, alpha, beta, hit.front_facing.into()])
}

/// The Rust's single calls, ray by ray, after the refusals in their order.
fn judge(rays: &[f64], corners: [&[f64]; 3], out: &mut [f64], status: &mut [u32]) -> u32 {
    let (rays, []) = rays.as_chunks::<RAY>() else {
        return WRONG_INPUT;
    };
    let [Ok(a), Ok(b), Ok(c)] = corners.map(<&Point>::try_from) else {
        return WRONG_INPUT;
    };
    if rays.is_empty() {
        return WRONG_INPUT;
    }
    if out.len() != HIT * rays.len() || status.len() != rays.len() {
        return WRONG_OUTPUT;
    }
    for ((given, numbers), slot) in rays.iter().zip(out.as_chunks_mut::<HIT>().0).zip(status) {
        let hit = hit_of(given, [a, b, c]);
        *slot = if hit.is_some() { 0 } else { MISS };
        *numbers = hit.unwrap_or_default();
    }
    0
}

#[rustfmt::skip]
type Ours = unsafe extern "C" fn(
    *const f64, usize, *const f64, usize, *const f64, usize, *const f64, usize, *mut f64, usize, *mut u32, usize,
) -> u32;
type Rust = fn(&[f64], [&[f64]; 3], &mut [f64], &mut [u32]) -> u32;

/// What a call is lent: the rays, the three points; then numbers and slots.
type Call = dyn Fn(&Ins, Lent, Lent) -> u32 + Send + Sync;

// What is lent is as long as it says, and is not lent twice.

fn by_rust(f: Rust) -> Box<Call> {
    Box::new(move |&[rays, a, b, c]: &Ins, out: Lent, status: Lent| unsafe {
        let out = slice::from_raw_parts_mut(out.at, out.len);
        f(rays.slice(), [a.slice(), b.slice(), c.slice()], out, status.slots())
    })
}

fn by_archive(f: Ours) -> Box<Call> {
    Box::new(move |ins: &Ins, out: Lent, status: Lent| unsafe { called(f, ins, out, status) })
}

unsafe fn called(f: Ours, &[rays, a, b, c]: &Ins, out: Lent, status: Lent) -> u32 {
    let read = |lent: Lent| lent.at.cast_const();
    #[rustfmt::skip]
    return unsafe {
        f(
            read(rays), rays.len, read(a), a.len, read(b), b.len, read(c), c.len,
            out.at, out.len, status.at.cast(), status.len,
        )
    };
}

/// Numbers and slots of a right call, in one room: five numbers for each ray,
/// then the slots.
fn rooms(rays: Lent, out: Lent) -> (Lent, Lent) {
    let count = rays.len / RAY;
    (Lent { at: out.at, len: HIT * count }, Lent { at: out.at.wrapping_add(HIT * count), len: count })
}

/// Both sides with one room for both results.
struct Hail {
    sides: [Option<Box<dyn Side>>; 2],
}

fn of_archive() -> Both<Hail> {
    #[rustfmt::skip]
    let ours: Option<Ours> = of_archive!(
        gf_rays_intersect_triangle: fn(
            _: *const f64, _: usize, _: *const f64, _: usize, _: *const f64, _: usize, _: *const f64, _: usize,
            _: *mut f64, _: usize, _: *mut u32, _: usize,
        ) -> u32
    );
    let archive = ours.map(|f| -> Box<dyn Side> {
        Box::new(Pointer(f, |f: Ours, ins: &Ins, out: Lent| {
            let (out, status) = rooms(ins[0], out);
            unsafe { called(f, ins, out, status) }
        }))
    });
    let rust: Box<dyn Side> = Box::new(Pointer(judge as Rust, |f: Rust, ins: &Ins, out: Lent| unsafe {
        let (out, status) = rooms(ins[0], out);
        let [rays, a, b, c] = ins.map(|lent| lent.slice());
        f(rays, [a, b, c], slice::from_raw_parts_mut(out.at, out.len), status.slots())
    }));
    Both { of: Hail { sides: [Some(rust), archive] }, ..by(ours.map(by_archive)) }
}

fn by(ours: Option<Box<Call>>) -> Both<Hail> {
    Both { of: Hail { sides: [None, None] }, ours, judge: by_rust(judge), fixed: fixed() }
}

/// What a call is given: numbers of any count, and so much room.
#[derive(Clone)]
struct Given {
    rays: Vec<f64>,
    corners: [Vec<f64>; 3],
    room: usize,
    slots: usize,
}

impl Given {
    fn of(rays: &[Ray], corners: [Point; 3]) -> Given {
        let (room, slots) = (HIT * rays.len(), rays.len());
        Given { rays: rays.as_flattened().to_vec(), corners: corners.map(|p| p.to_vec()), room, slots }
    }

    /// With other lengths.
    fn cut(mut self, rays: usize, corners: [usize; 3], room: usize, slots: usize) -> Given {
        self.rays.resize(rays, 0.5);
        for (corner, len) in self.corners.iter_mut().zip(corners) {
            corner.resize(len, 0.5);
        }
        (self.room, self.slots) = (room, slots);
        self
    }
}

const FLOOR: [Point; 3] = [[0.0; 3], [1.0, 0.0, 0.0], [0.0, 1.0, 0.0]];

/// From above at weights of the floor's second point and third.
fn down(alpha: f64, beta: f64) -> Ray {
    ray_of([alpha, beta, 2.0], [0.0, 0.0, -1.0])
}

/// Rays of every kind at the floor: half of them hit.
fn kinds() -> Vec<Ray> {
    let (nan, far) = (f64::NAN, f64::INFINITY);
    let mut all = vec![
        down(0.25, 0.5),
        down(2.0, 0.5),
        // From below, from the plane, away, along, and hardly facing.
        ray_of([0.25, 0.25, -1.0], [0.0, 0.0, 2.0]),
        ray_of([0.25, 0.25, 0.0], [0.0, 0.0, -1.0]),
        ray_of([0.25, 0.25, -1.0], [0.0, 0.0, -1.0]),
        ray_of([0.25, 0.25, 1.0], [1.0, 0.0, 0.0]),
        ray_of([0.25, 0.25, 1.0], [1.0, 0.0, -9e-11]),
        ray_of([0.25, 0.25, 1e-10], [0.1, 0.0, -1e-10]),
        // Numbers that are none.
        ray_of([nan, 0.25, 1.0], [0.0, 0.0, -1.0]),
        ray_of([0.25, 0.25, nan], [0.0, 0.0, -1.0]),
        ray_of([0.25, 0.25, 1.0], [0.0, nan, -1.0]),
        ray_of([0.25, 0.25, far], [0.0, 0.0, -1.0]),
        ray_of([0.25, 0.25, 1.0], [0.0, 0.0, -far]),
        ray_of([0.25, 0.25, 1e300], [0.0, 0.0, -1e-300]),
        ray_of([0.0; 3], [0.0; 3]),
        down(1.0 / 3.0, 1.0 / 7.0),
        down(0.5, 0.5 + 1e-10),
        down(0.5, 0.5 + 2e-10),
    ];
    // Weights short of zero by what counts, less and more.
    for x in [0.0, -0.0, 1.0, -1e-10, -f64::from_bits(1e-10_f64.to_bits() - 1), -1.1e-10, 1.0 + f64::EPSILON] {
        all.extend([down(x, 0.0), down(0.0, x), down(x, 0.5)]);
    }
    all
}

/// What goes wrong with many rays on one triangle.
fn fixed() -> Vec<Given> {
    let kinds = kinds();
    let [hit, miss] = [kinds[0], kinds[1]];
    let other = ray_of([0.5, 0.25, -3.0], [0.0, 0.0, 1.5]);
    let mut all = vec![];
    // Each alone, each with others before and behind, all; on triangles that face
    // each axis, either way, on none and on one that is NaN or large.
    let tiny = [[0.0; 3], [0.0, 1e-11, 0.0], [1.0, 0.0, 0.0]];
    let mut triangles = vec![FLOOR, [FLOOR[0], FLOOR[2], FLOOR[1]], [FLOOR[1], FLOOR[2], FLOOR[0]], tiny];
    triangles.extend([FLOOR.map(|[x, y, z]| [z, x, y]), FLOOR.map(|[x, y, z]| [y, z, x])]);
    triangles.push([[0.0; 3]; 3]);
    triangles.push([[0.0; 3], [1.0, 1.0, 0.0], [2.0, 2.0, 0.0]]);
    triangles.push([[0.0, 0.0, 0.5], [2.0, 0.25, 0.0], [-0.5, 1.0, 1.0]]);
    triangles.push([[f64::NAN, 0.0, 0.0], FLOOR[1], FLOOR[2]]);
    triangles.push([[-1e200, 0.0, 0.0], [1e200, 0.0, 0.0], [0.0, 1e200, 0.0]]);
    triangles.push([[0.0; 3], [f64::INFINITY, 0.0, 0.0], FLOOR[2]]);
    for i in 0..kinds.len() {
        let next = |k: usize| kinds[(i + k) % kinds.len()];
        all.extend([Given::of(&[next(0)], FLOOR), Given::of(&[next(0), hit, next(2)], FLOOR)]);
        all.push(Given::of(&[miss, next(0)], triangles[i % triangles.len()]));
    }
    let reversed: Vec<Ray> = kinds.iter().rev().copied().collect();
    for triangle in triangles {
        all.extend([Given::of(&kinds, triangle), Given::of(&reversed, triangle)]);
    }
    // One that differs from the others, at each place of one to nine.
    for count in 1..=9 {
        for place in 0..count {
            for [one, others] in [[hit, miss], [miss, hit], [other, hit]] {
                let mut rays = vec![others; count];
                rays[place] = one;
                all.push(Given::of(&rays, FLOOR));
            }
        }
    }
    // Many, of which the first and the last differ.
    for count in [16, 63, 64, 128, 255, 256, 257, 1000] {
        let mut rays = vec![miss; count];
        (rays[0], rays[count - 1]) = (hit, other);
        all.push(Given::of(&rays, FLOOR));
    }
    all.extend(faults());
    all
}

/// Other lengths, one at a time and several.
fn faults() -> Vec<Given> {
    let three = || Given::of(&[down(0.25, 0.5), down(2.0, 0.5), down(0.1, 0.1)], FLOOR);
    let right = [3; 3];
    let mut all = vec![Given::of(&[], FLOOR)];
    all.extend([0, 1, 5, 6, 7, 12, 15, 17, 19, 23, 24].map(|rays| three().cut(rays, right, 15, 3)));
    all.extend([0, 1, 5, 7, 11, 13, 17, 19].map(|rays| three().cut(rays, right, HIT * (rays / RAY), rays / RAY)));
    for len in [0, 1, 2, 4, 6] {
        all.extend([[len, 3, 3], [3, len, 3], [3, 3, len]].map(|corners| three().cut(18, corners, 15, 3)));
    }
    all.extend([0, 1, 3, 5, 10, 14, 16, 18, 20].map(|room| three().cut(18, right, room, 3)));
    all.extend([0, 1, 2, 4, 5, 6, 15, 18].map(|slots| three().cut(18, right, 15, slots)));
    // Room for the other count.
    all.extend([three().cut(18, right, 10, 2), three().cut(18, right, 20, 4), three().cut(12, right, 15, 3)]);
    // Every set of faults.
    for faults in 0..64_u32 {
        let has = |fault: u32| (faults >> fault & 1) as usize;
        all.push(three().cut(18 + has(0), [3 + has(1), 3 - has(2), 3 + has(3)], 15 - has(4), 3 + has(5)));
    }
    all
}

/// Rays, one in four times with other lengths.
fn drawn(rng: &mut Rng) -> Given {
    let (rays, corners) = inputs::rays_and_triangle(rng);
    let given = Given::of(&rays, corners);
    let (numbers, count, right) = (given.rays.len(), rays.len(), [3; 3]);
    let beside = |rng: &mut Rng, x: usize| (x + 2 * rng.below(2) as usize).saturating_sub(1);
    match rng.below(24) {
        0 => given.cut(beside(rng, numbers), right, HIT * count, count),
        1 => {
            let mut corners = right;
            corners[rng.below(3) as usize] = rng.pick(&[0, 1, 2, 4, 6]);
            given.cut(numbers, corners, HIT * count, count)
        }
        2 => given.cut(numbers, right, rng.pick(&[0, count, HIT * count - 1, HIT * count + 1, 6 * count]), count),
        3 => given.cut(numbers, right, HIT * count, rng.pick(&[0, 1, count - 1, count + 1, HIT * count])),
        4 => {
            let numbers = rng.below(5 * RAY as u64) as usize;
            given.cut(numbers, right, HIT * (numbers / RAY), numbers / RAY)
        }
        5 => {
            let any = |rng: &mut Rng| rng.below(6) as usize;
            let corners = [any(rng), 3, any(rng)];
            given.cut(rng.pick(&[0, numbers - 1, numbers]), corners, rng.pick(&[0, HIT * count]), any(rng))
        }
        _ => given,
    }
}

/// Calls of so many rays each, as many rays in all as a pass has calls
/// elsewhere, each with a triangle of its own; with room for both results.
fn timed(count: usize) -> &'static [(Ins, Lent)] {
    let call = |i: usize| {
        let (rays, [a, b, c]) = inputs::hail_on_a_panel(&mut Rng::at(1, i as u64), count);
        let number = |numbers: &[f64]| Lent::to_read(numbers.to_vec().leak());
        let ins = [number(rays.as_flattened()), number(&a), number(&b), number(&c)];
        (ins, Lent::to_write(vec![0.0; (HIT + 1) * count].leak()))
    };
    (0..Timing::CALLS / count).map(call).collect::<Vec<_>>().leak()
}

/// How many drawn ones are recorded.
const RECORDED: usize = 20;

impl Laid for Hail {
    type Given = Given;
    type Side = Call;

    fn name(&self) -> &'static str {
        "rays_intersect_triangle"
    }

    fn drawn(rng: &mut Rng) -> Given {
        drawn(rng)
    }

    fn lay(Given { rays, corners: [a, b, c], room, slots }: &Given) -> Desk {
        Desk::new().numbers(rays).numbers(a).numbers(b).numbers(c).room(*room).slots(*slots)
    }

    fn put(desk: &mut Desk, side: &Call) -> u32 {
        let [rays, a, b, c, out] = [0, 1, 2, 3, 4].map(|i| desk.numbers.lent(i));
        side(&[rays, a, b, c], out, desk.words.lent(0))
    }

    fn outcome(&self, status: u32, desk: &Desk) -> usize {
        seen(status, desk.words.slice(0).contains(&0))
    }

    /// A NaN of a hit may be any.
    fn agrees(&self, _: &Given, _: u32, expected: &Desk, desk: &Desk) -> bool {
        desk.is(expected, 4, judge::signed)
    }

    fn shown(&self, given: &Given, judge: (u32, &Desk), ours: (u32, &Desk)) -> String {
        let Given { rays, corners, room, slots } = given;
        let mut text = format!("({} numbers; room for {room}; {slots} slots)", rays.len());
        for corner in corners {
            text += &format!("\n      [{}]", words::list(corner));
        }
        let hits = |desk: &Desk, i: usize| {
            let hit = desk.numbers.slice(4).iter().skip(HIT * i).take(HIT);
            let hit: Vec<f64> = hit.map(|&bits| f64::from_bits(bits)).collect();
            format!("{:?} [{}]", desk.words.slice(0).get(i), words::list(&hit))
        };
        for (i, ray) in rays.chunks(RAY).enumerate() {
            text += &format!("\n      {i} [{}]", words::list(ray));
            text += &format!("\n        judge {} {}", judge.0, hits(judge.1, i));
            text += &format!("\n        ours  {} {}", ours.0, hits(ours.1, i));
        }
        text
    }

    /// The time is of one ray.
    fn timings(of: &Both<Hail>) -> Vec<Timing<'_>> {
        let [Some(rust), Some(ours)] = &of.of.sides else {
            return vec![];
        };
        let timing =
            |(set, count): (&'static str, usize)| Timing::with_rooms(set, [ours.as_ref(), rust.as_ref()], timed(count));
        [("1 ray", 1), ("4 rays", 4), ("16 rays", 16), ("128 rays", 128)].map(timing).into()
    }

    /// The fixed ones of at most three rays whose lengths are right, or that have
    /// no ray; and drawn ones.
    fn recorded(of: &Both<Hail>) -> Vec<Given> {
        let fits = |given: &Given| {
            let right = given.corners.iter().all(|corner| corner.len() == 3);
            right && given.slots < 4 && given.rays.len() == RAY * given.slots && given.room == HIT * given.slots
        };
        let drawn = (0..).map(|case| drawn(&mut Rng::at(1, case))).filter(fits).take(RECORDED);
        of.fixed.iter().cloned().filter(fits).chain(drawn).collect()
    }

    /// The numbers of all hits, and then the slots.
    fn words(&self, _: &Given, desk: &Desk) -> (Vec<Vec<u64>>, Vec<u64>) {
        let given = [0, 1, 2, 3].map(|i| desk.numbers.slice(i).to_vec()).to_vec();
        let hits = desk.numbers.slice(4).iter().map(|&bits| words::plain(bits));
        (given, hits.chain(desk.words.slice(0).iter().map(|&slot| slot.into())).collect())
    }

    fn sides(of: &Both<Hail>) -> [Option<&dyn Side>; 2] {
        [of.of.sides[0].as_deref(), of.of.sides[1].as_deref()]
    }

    /// No rays, no points and no room; no room; no fault.
    #[cfg(test)]
    fn mended() -> Vec<Given> {
        let given = || Given::of(&[down(0.25, 0.5), down(2.0, 0.5)], FLOOR);
        vec![given().cut(0, [0; 3], 0, 0), given().cut(12, [3; 3], 0, 0), given()]
    }
}

#[cfg(test)]
mod tests {
    use super::*;

    /// What many rays are answered with is what the single call answers of each,
    /// and a miss leaves zeros.
    #[test]
    fn many_rays_are_the_single_call_for_each() {
        let single =
            super::super::ray::all().into_iter().find(|op| op.name() == "ray_intersect_triangle").expect("it is");
        let [Some(single), _] = single.sides().expect("it lends slices") else {
            unreachable!("the Rust is there");
        };
        let (mut hits, mut misses) = (0, 0);
        for case in 0..20_000 {
            let (rays, [a, b, c]) = inputs::rays_and_triangle(&mut Rng::at(9, case));
            let (mut out, mut slots) = (vec![7.0; HIT * rays.len()], vec![7; rays.len()]);
            assert_eq!(judge(rays.as_flattened(), [&a, &b, &c], &mut out, &mut slots), 0);
            for (i, given) in rays.iter().enumerate() {
                let mut alone = [0.0; HIT];
                let status = single.call(&Lent::all(&[given, &a, &b, &c]), Lent::to_write(&mut alone));
                assert_eq!(slots[i], status, "case {case}");
                let same = |k: usize| judge::signed(alone[k], out[HIT * i + k]);
                assert!((0..HIT).all(same), "case {case}");
                *if status == 0 { &mut hits } else { &mut misses } += 1;
            }
        }
        assert!(hits > 30_000 && misses > 30_000, "{hits} hits, {misses} misses");
    }
}
