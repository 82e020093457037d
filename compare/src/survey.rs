//! A season's portfolio put to both sides: how many blocks, rays, planes and
//! cameras a second, and how much of our time goes into roots.

use crate::exported::of_archive;
use crate::inputs::{Boxed, Placed, Point, Ray, Rng, SurveyedFarm, Volume, cross, difference, dot};
use crate::judge;
use crate::lent::{Ins, Lent, Record, Side, Single};
use crate::op::Op;
use crate::rust;
use openusd::gf;
use std::array;
use std::hint::black_box;
use std::iter::Sum;
use std::time::{Duration, Instant};

/// How many farms are in memory at a time, and how many times each side is
/// timed on them, in turn; the median counts.
const BATCH: u64 = 32;
const ROUNDS: usize = 3;

type Root = unsafe extern "C" fn(f64) -> f64;

/// What a call gives.
#[derive(Clone, Copy)]
enum Gives {
    /// A yes or no, in the first half of a number.
    Verdict,
    Numbers(usize),
    /// A yes or no for each of so many, two in a number.
    Slots(usize),
    /// Five numbers for each ray that is lent, and behind them all a slot for
    /// each, two in a number.
    Hits,
}

impl Gives {
    /// How many numbers, or slots, it is lent.
    fn room(self, ins: &Ins) -> usize {
        match self {
            Gives::Verdict => 1,
            Gives::Numbers(room) | Gives::Slots(room) => room,
            Gives::Hits => 6 * self.settles(ins),
        }
    }

    /// How many things it settles.
    fn settles(self, ins: &Ins) -> usize {
        match self {
            Gives::Slots(slots) => slots,
            Gives::Hits => ins[0].len / 6,
            Gives::Verdict | Gives::Numbers(_) => 1,
        }
    }

    /// How many of these were answered with a yes or a hit, or with a result
    /// where there is no verdict.
    fn yes(self, ins: &Ins, answer: &[f64]) -> usize {
        let settles = self.settles(ins);
        let words = |numbers: &[f64]| {
            let words = |number: &f64| [number.to_bits() as u32, (number.to_bits() >> 32) as u32];
            numbers.iter().flat_map(words).take(settles).collect::<Vec<u32>>()
        };
        match self {
            Gives::Numbers(_) => 1,
            Gives::Verdict | Gives::Slots(_) => words(answer).into_iter().filter(|&word| word == 1).count(),
            Gives::Hits => words(&answer[5 * settles..]).into_iter().filter(|&slot| slot == 0).count(),
        }
    }
}

/// One kind of call that a farm asks for.
struct Work<'a> {
    name: &'static str,
    rust: &'a dyn Side,
    ours: &'a dyn Side,
    gives: Gives,
    calls: Box<dyn Fn(&Farm) -> Vec<Ins>>,
    roots: Box<dyn Fn(&Farm) -> Vec<f64>>,
    /// It is part of the whole portfolio, and not there by another way already.
    counts: bool,
}

/// A farm, with its blocks one behind another, the rays of a panel one behind
/// another for each of its triangles, and its focal length as they are lent.
struct Farm {
    surveyed: SurveyedFarm,
    blocks: Vec<Boxed>,
    hail: Vec<([Point; 3], Vec<Ray>)>,
    focal_length: Single,
}

/// What came of some calls.
#[derive(Clone, Copy, Default)]
struct Spent {
    /// How many things they settle: as many as there are calls, but for a batch.
    settled: usize,
    /// Answered with a yes, or with a result where there is no verdict.
    yes: usize,
    differences: usize,
    ours: Duration,
    rust: Duration,
    roots: usize,
    in_roots: Duration,
}

/// Surveys so many farms, and tells whether both sides agree.
pub fn survey(ops: &[Box<dyn Op>], farms: u64, seed: u64) -> Result<bool, String> {
    let all = works(ops)?;
    let root: Option<Root> = of_archive!(gf_sqrt: fn(x: f64) -> f64);
    let root = root.ok_or("the archive has no gf_sqrt")?;
    let mut spent = vec![Spent::default(); all.len()];
    for (batch, first) in (0..farms).step_by(BATCH as usize).enumerate() {
        let numbers = first..farms.min(first + BATCH);
        let farms: Vec<Farm> = numbers.map(|number| Farm::drawn(&mut Rng::at(seed, number))).collect();
        for (work, spent) in all.iter().zip(&mut spent) {
            *spent = [*spent, work.spent(&farms, root, batch % 2 == 0)].into_iter().sum();
        }
    }
    print(&all, &spent, farms, seed);
    Ok(spent.iter().all(|spent| spent.differences == 0))
}

/// The kinds of call; blocks first, one by one by how they are placed, then all
/// of a farm in one call, which is how a farm asks where the archive has it.
fn works(ops: &[Box<dyn Op>]) -> Result<Vec<Work<'_>>, String> {
    let work = |name, function: &str, gives, calls, roots| {
        let op = ops.iter().find(|op| op.name() == function);
        match op.and_then(|op| op.sides()) {
            Some([Some(rust), Some(ours)]) => Ok(Work { name, rust, ours, gives, calls, roots, counts: true }),
            _ => Err(format!("the archive has no {function}")),
        }
    };
    let blocks = |name, placed| work(name, "intersects_bbox", Gives::Verdict, block_calls(placed), block_roots(placed));
    let mut all = vec![
        blocks("blocks, rigid", Placed::Rigid)?,
        blocks("blocks, scaled", Placed::Scaled)?,
        blocks("blocks, sheared", Placed::Sheared)?,
    ];
    let batches = work(
        "blocks, in one call",
        "intersects_bboxes",
        Gives::Slots(SurveyedFarm::BLOCK_COUNT),
        Box::new(|farm: &Farm| vec![Lent::all(&[farm.surveyed.view.numbers(), farm.blocks.as_flattened()])]),
        Box::new(|farm: &Farm| farm.blocks.iter().flat_map(|block| box_roots(&farm.surveyed.view, block)).collect()),
    );
    match batches {
        Ok(batches) => {
            all.iter_mut().for_each(|work| work.counts = false);
            all.push(batches);
        }
        Err(lacking) => println!("{lacking}: a farm's blocks are asked for one by one"),
    }
    let mut single = work(
        "rays, one by one",
        "ray_intersect_triangle",
        Gives::Numbers(5),
        Box::new(|farm: &Farm| farm.surveyed.hail.iter().map(|(ray, [a, b, c])| Lent::all(&[ray, a, b, c])).collect()),
        Box::new(|farm: &Farm| farm.surveyed.hail.iter().map(|&(_, corners)| plane_root(corners)).collect()),
    )?;
    let together = work(
        "rays, by triangle",
        "rays_intersect_triangle",
        Gives::Hits,
        Box::new(|farm: &Farm| {
            farm.hail.iter().map(|([a, b, c], rays)| Lent::all(&[rays.as_flattened(), a, b, c])).collect()
        }),
        Box::new(|farm: &Farm| farm.hail.iter().map(|&(corners, _)| plane_root(corners)).collect()),
    );
    single.counts = together.is_err();
    all.push(single);
    match together {
        Ok(together) => all.push(together),
        Err(lacking) => println!("{lacking}: rays are asked for one by one"),
    }
    all.extend([
        work(
            "planes from points",
            "plane_from_points",
            Gives::Numbers(4),
            Box::new(|farm: &Farm| farm.surveyed.panels.iter().map(|[a, b, c]| Lent::all(&[a, b, c])).collect()),
            Box::new(|farm: &Farm| farm.surveyed.panels.iter().map(|&corners| plane_root(corners)).collect()),
        )?,
        work(
            "cameras",
            "camera_set_from_view_and_projection",
            Gives::Numbers(24),
            Box::new(|farm: &Farm| {
                let (view, projection, _) = &farm.surveyed.camera;
                vec![Lent::all(&[view, projection, farm.focal_length.numbers()])]
            }),
            Box::new(|_: &Farm| vec![]),
        )?,
    ]);
    Ok(all)
}

/// How many of the works are blocks one by one.
const BLOCKS: usize = 3;

fn block_calls(placed: Placed) -> Box<dyn Fn(&Farm) -> Vec<Ins>> {
    Box::new(move |farm| {
        let blocks = farm.surveyed.blocks.iter().filter(|block| block.0 == placed);
        blocks.map(|(_, block)| Lent::all(&[farm.surveyed.view.numbers(), block])).collect()
    })
}

// The roots that our calls take, by the number that each is taken of.

fn block_roots(placed: Placed) -> Box<dyn Fn(&Farm) -> Vec<f64>> {
    Box::new(move |farm| {
        let blocks = farm.surveyed.blocks.iter().filter(|block| block.0 == placed);
        blocks.flat_map(|(_, block)| box_roots(&farm.surveyed.view, block)).collect()
    })
}

/// Of each plane that the box verdict carries into the box's space, up to the
/// first that the box does not reach, but for those that need none.
fn box_roots(view: &Volume, block: &Boxed) -> Vec<f64> {
    let block = rust::boxed(block).expect("a flag");
    let into = if block.is_degenerate() { gf::Mat4d::IDENTITY } else { block.matrix().transpose() };
    let mut roots = vec![];
    for plane in rust::planes(view.numbers()).planes {
        let carried = into.transform_homogeneous(plane.equation());
        if !filter_settles(block.range(), carried) {
            let normal = [carried.x, carried.y, carried.z];
            roots.push(dot(normal, normal));
        }
        if !gf::Plane::from_equation(carried).reaches_positive_side(block.range()) {
            break;
        }
    }
    roots
}

/// The engine's own rule for planes whose normal's length is not needed:
/// `filtered_of` of crates/verdict/specs/Steps/Filter.antt is trusted and tells
/// the side.
fn filter_settles(range: gf::Range3d, carried: gf::Vec4d) -> bool {
    let (min, max) = (range.min(), range.max());
    let normal = [carried.x, carried.y, carried.z];
    let terms: [_; 3] = array::from_fn(|i| normal[i] * if normal[i] >= 0.0 { max[i] } else { min[i] });
    let estimate = terms[0] + terms[1] + terms[2] + carried.w;
    let extent: f64 = (0..3).map(|i| min[i].abs()).chain((0..3).map(|i| max[i].abs())).sum();
    let square = dot(normal, normal);
    let size = extent * (3.0 + square) + carried.w.abs();
    let error = size * 1e-11;
    let trusted = extent < 1e18 && 1e-9 * 1e-9 < square && square < 1e18 * 1e18 && 1e-90 < size && size < 1e90;
    trusted && (error <= estimate || estimate < -error)
}

/// Of the normal of a plane through three points.
fn plane_root([a, b, c]: [Point; 3]) -> f64 {
    let normal = cross(difference(b, a), difference(c, a));
    dot(normal, normal)
}

impl Farm {
    fn drawn(rng: &mut Rng) -> Farm {
        let surveyed = SurveyedFarm::drawn(rng);
        let blocks = surveyed.blocks.iter().map(|&(_, block)| block).collect();
        let mut hail: Vec<([Point; 3], Vec<Ray>)> = vec![];
        for &(ray, corners) in &surveyed.hail {
            match hail.iter_mut().find(|(triangle, _)| *triangle == corners) {
                Some((_, rays)) => rays.push(ray),
                None => hail.push((corners, vec![ray])),
            }
        }
        Farm { focal_length: surveyed.camera.2.into(), blocks, hail, surveyed }
    }
}

impl Work<'_> {
    /// Compares the sides on all calls of some farms, which brings these to
    /// the processor, then times them in turn.
    fn spent(&self, farms: &[Farm], root: Root, ours_first: bool) -> Spent {
        let calls: Vec<Ins> = farms.iter().flat_map(&self.calls).collect();
        let roots: Vec<f64> = farms.iter().flat_map(&self.roots).collect();
        let settled = calls.iter().map(|ins| self.gives.settles(ins)).sum();
        let mut spent = Spent { settled, roots: roots.len(), ..Spent::default() };
        for ins in &calls {
            let (rust, ours) = (self.answer(self.rust, ins), self.answer(self.ours, ins));
            let agree = rust.0 == ours.0 && rust.1.iter().zip(&ours.1).all(|(&rust, &ours)| judge::signed(rust, ours));
            spent.differences += usize::from(!agree);
            spent.yes += if ours.0 == 0 { self.gives.yes(ins, &ours.1) } else { 0 };
        }
        // A call takes of it as much as is its own.
        let mut out = vec![0.0; calls.iter().map(|ins| self.gives.room(ins)).max().unwrap_or(0)];
        let mut pass = |side: &dyn Side| {
            let (calls, out) = (black_box(&calls[..]), Lent::to_write(&mut out));
            timed(|| side.pass(calls, out))
        };
        let mut times = [(); 3].map(|()| vec![]);
        for _ in 0..ROUNDS {
            for ours in [ours_first, !ours_first] {
                times[usize::from(ours)].push(pass(if ours { self.ours } else { self.rust }));
            }
            times[2].push(timed(|| take(black_box(root), &roots)));
        }
        // No root is no time, where the clock has some.
        if roots.is_empty() {
            times[2].fill(Duration::ZERO);
        }
        [spent.rust, spent.ours, spent.in_roots] = times.map(median);
        spent
    }

    /// The status of a call and what it writes.
    fn answer(&self, side: &dyn Side, ins: &Ins) -> (u32, Vec<f64>) {
        let mut out = vec![0.0; self.gives.room(ins)];
        let status = side.call(ins, Lent::to_write(&mut out));
        (status, out)
    }
}

fn timed(work: impl FnOnce()) -> Duration {
    let start = Instant::now();
    work();
    start.elapsed()
}

fn take(root: Root, of: &[f64]) {
    for &x in of {
        // It has no condition to be called.
        black_box(unsafe { root(black_box(x)) });
    }
}

fn median(mut times: Vec<Duration>) -> Duration {
    times.sort();
    times[times.len() / 2]
}

impl Sum for Spent {
    fn sum<I: Iterator<Item = Spent>>(all: I) -> Spent {
        all.fold(Spent::default(), |a, b| Spent {
            settled: a.settled + b.settled,
            yes: a.yes + b.yes,
            differences: a.differences + b.differences,
            ours: a.ours + b.ours,
            rust: a.rust + b.rust,
            roots: a.roots + b.roots,
            in_roots: a.in_roots + b.in_roots,
        })
    }
}

fn print(all: &[Work], spent: &[Spent], farms: u64, seed: u64) {
    println!("{farms} farms, seed {seed}");
    println!(
        "{:<20} {:>10} {:>6} {:>12} {:>14} {:>14} {:>12} {:>10} {:>9}",
        "work", "asked", "yes", "differences", "ours a second", "Rust a second", "ours / Rust", "roots", "in roots"
    );
    for (i, (work, spent_on)) in all.iter().zip(spent).enumerate() {
        line(work.name, spent_on);
        if i + 1 == BLOCKS {
            line("blocks, one by one", &spent[..BLOCKS].iter().copied().sum());
        }
    }
    let whole: Spent = all.iter().zip(spent).filter(|(work, _)| work.counts).map(|(_, spent)| *spent).sum();
    let [ours, rust] = [whole.ours, whole.rust].map(|time| time.as_secs_f64());
    let in_roots = whole.in_roots.as_secs_f64() / ours;
    println!(
        "whole portfolio: ours {ours:.3} s, Rust {rust:.3} s, ours / Rust {:.2}, of our time in roots {:.0} %",
        ours / rust,
        100.0 * in_roots
    );
}

fn line(name: &str, spent: &Spent) {
    let settled = spent.settled as f64;
    let [ours, rust, in_roots] = [spent.ours, spent.rust, spent.in_roots].map(|time| time.as_secs_f64());
    println!(
        "{name:<20} {:>10} {:>4.0} % {:>12} {:>14.0} {:>14.0} {:>12.2} {:>10} {:>7.0} %",
        spent.settled,
        100.0 * spent.yes as f64 / settled,
        spent.differences,
        settled / ours,
        settled / rust,
        ours / rust,
        spent.roots,
        100.0 * in_roots / ours
    );
}
