//! Farm files in memory: the archive's reader and its judge.

use crate::exported::of_archive;
use crate::inputs::{self, FarmFile, Matrix, Rng, mixed};
use crate::judge::{FEWEST_PLANES, MOST_PLANES};
use crate::op::{Timed, Timing};
use crate::reader::{self, BOXES, NONE};
use crate::trial::Trial;
use std::cell::RefCell;
use std::hint::black_box;
use std::slice;
use std::sync::LazyLock;

/// A reader of farm files: it is lent the file, slots for the verdicts and
/// the count, and answers 0 or the number of a refusal.
pub type Reader = Box<dyn Fn(*const u8, usize, *mut u32, usize, *mut u32) -> u32 + Send + Sync>;

/// Farm files and who reads them.
pub struct FarmFiles {
    judge: Reader,
    ours: Option<Reader>,
}

/// A reader in Rust behind the same pointers.
fn behind_pointers(read: impl Fn(&[u8], &mut [u32], &mut u32) -> u32 + Send + Sync + 'static) -> Reader {
    // What is lent is as long as it says, and is not lent twice.
    Box::new(move |file, size, out, slots, count| unsafe {
        read(slice::from_raw_parts(file, size), slice::from_raw_parts_mut(out, slots), &mut *count)
    })
}

impl FarmFiles {
    /// The archive's reader, if it has one.
    pub fn of_archive() -> FarmFiles {
        let ours = of_archive!(
            gf_farm_file: fn(_: *const u8, _: usize, _: *mut u32, _: usize, _: *mut u32) -> u32
        );
        FarmFiles::of(ours.map(|f| -> Reader {
            Box::new(move |file, size, out, slots, count| unsafe { f(file, size, out, slots, count) })
        }))
    }

    pub fn of(ours: Option<Reader>) -> FarmFiles {
        FarmFiles { judge: behind_pointers(reader::farm_file), ours }
    }

    /// Draws a file, and how many slots are lent with it.
    fn draw(&self, case: u64, mut rng: Rng, file: &mut FarmFile) -> usize {
        let fixed = &*FIXED;
        let turn = case as usize / fixed.len();
        if turn < ROUNDS.len() {
            file.bytes.clone_from(&fixed[case as usize % fixed.len()]);
            return ROUNDS[turn];
        }
        inputs::farm_file(&mut rng, file);
        match rng.below(8) {
            0 => rng.pick(&[0, 1, 2, BOXES - 1, BOXES + 1, 2 * BOXES, MOST_SLOTS]),
            _ => BOXES,
        }
    }
}

#[cfg(test)]
impl FarmFiles {
    /// The judge's refusals in their order: what it answers to a file with
    /// every fault, while one fault after another is mended.
    pub fn refusals(&self) -> Vec<u32> {
        let mut desk = Desk::default();
        let mut judged = |mended: usize| {
            desk.slots = faulty(mended, &mut desk.file);
            desk.lay(0);
            desk.put_to(&self.judge).status
        };
        let mut answers: Vec<u32> = (0..=FAULTS).map(&mut judged).collect();
        assert_eq!(answers.pop(), Some(0), "the last has no fault");
        let notable = inputs::notable_files().into_iter().map(|file| file.refusal);
        assert!(notable.into_iter().all(|status| status == 0 || answers.contains(&status)));
        answers
    }
}

/// How many faults a file can have: its size, the slots lent with it, where
/// its sections lie, a volume too short for any, its count, lengths, flags,
/// missing numbers.
#[cfg(test)]
const FAULTS: usize = 8;

/// A file with all of these but the first, and how many slots are lent.
#[cfg(test)]
fn faulty(mended: usize, file: &mut FarmFile) -> usize {
    use crate::inputs::{CUBE, IDENTITY, Volume, box_of, bytes_of};
    let has = |fault: usize| fault >= mended;
    let rng = &mut Rng::at(1, 0);
    let edge = if has(7) { f64::NAN } else { 1.0 };
    let block = box_of([0.0, 0.0, 0.0, 1.0, edge, 1.0], IDENTITY, if has(6) { 2.0 } else { 0.0 });
    let volume = Volume::of(CUBE).counted(if has(4) { f64::NAN } else { 6.0 });
    file.begin(3);
    file.put(0, &bytes_of(volume.numbers()));
    if has(5) {
        file.cut(rng, 0, if has(3) { reader::LEAST_VOLUME - 8 } else { reader::LEAST_VOLUME + 8 });
    }
    file.put(1, &bytes_of(&block));
    if has(5) {
        file.cut(rng, 1, reader::BOX - 1);
    }
    file.put(2, &bytes_of(&block));
    if has(2) {
        file.set_offset(2, file.offset(2) - 1);
    }
    if has(0) {
        file.fill_to(rng, reader::LARGEST + 1);
    }
    if has(1) { BOXES - 1 } else { BOXES }
}

/// Files that are always tried.
static FIXED: LazyLock<Vec<Vec<u8>>> = LazyLock::new(|| {
    let notable = inputs::notable_files().into_iter().map(|file| file.bytes).collect();
    [notable, inputs::large_files(), inputs::truncated_files(), inputs::corrupted_files(), inputs::struck_files()]
        .concat()
});

/// How many slots each of these is tried with.
const ROUNDS: [usize; 5] = [BOXES, BOXES - 1, BOXES + 1, 0, 1];
const MOST_SLOTS: usize = 130;

/// What a call is lent, among words and bytes that nobody may write.
#[derive(Default)]
struct Desk {
    file: FarmFile,
    /// The file once more, as it is lent.
    lent: Vec<u8>,
    slots: usize,
    /// How many bytes are before the lent file.
    before: usize,
}

/// How many bytes are behind the lent file, and at least before it, and how
/// many words on either side of the lent slots and of the count.
const BESIDE: usize = 16;
const SIDE: usize = 4;
const WORDS: usize = SIDE + MOST_SLOTS + SIDE;

/// What is on the desk before there is a result.
const BLANK: [u32; WORDS] = {
    let mut words = [0; WORDS];
    let mut i = 0;
    while i < WORDS {
        words[i] = mixed(i as u64 + 1) as u32;
        i += 1;
    }
    words
};

/// What a call leaves.
#[derive(Clone, PartialEq)]
struct Left {
    status: u32,
    out: [u32; WORDS],
    count: [u32; 2 * SIDE + 1],
    /// The file and the bytes beside it are as they were.
    kept: bool,
}

impl Desk {
    /// Lays out the file at any alignment.
    fn lay(&mut self, before: usize) {
        self.before = BESIDE + before;
        self.lent.clear();
        self.lent.resize(self.before, 0xa5);
        self.lent.extend_from_slice(&self.file.bytes);
        self.lent.resize(self.lent.len() + BESIDE, 0xa5);
    }

    fn put_to(&mut self, reader: &Reader) -> Left {
        let mut left = Left { status: 0, out: BLANK, count: [0x5a5a_5a5a; 2 * SIDE + 1], kept: false };
        let file = self.lent.as_mut_ptr().wrapping_add(self.before);
        let out = left.out.as_mut_ptr().wrapping_add(SIDE);
        let count = left.count.as_mut_ptr().wrapping_add(SIDE);
        left.status = reader(file.cast_const(), self.file.bytes.len(), out, self.slots, count);
        let (before, rest) = self.lent.split_at(self.before);
        let (file, behind) = rest.split_at(self.file.bytes.len());
        left.kept = file == self.file.bytes && before.iter().chain(behind).all(|&byte| byte == 0xa5);
        left
    }
}

impl Left {
    /// The slots: yes, no, unused, and what else is there.
    fn shown(&self, slots: usize) -> String {
        let mark = |(i, &slot): (usize, &u32)| match slot {
            0 => 'n',
            1 => 'y',
            NONE => '-',
            _ if slot == BLANK[SIDE + i] => '.',
            _ => '?',
        };
        let marks: String = self.out[SIDE..][..slots].iter().enumerate().map(mark).collect();
        let kept = if self.kept { "" } else { "   the file or a byte beside it was written" };
        format!("{} [{marks}] {:#x}{kept}", self.status, self.count[SIDE])
    }
}

thread_local! {
    static DESK: RefCell<Desk> = RefCell::default();
}

impl FarmFiles {
    /// Puts a case to both: what the judge leaves, and what ours does.
    fn made<T>(&self, case: u64, rng: Rng, then: impl FnOnce(&Desk, Left, Left) -> T) -> T {
        DESK.with_borrow_mut(|desk| {
            desk.slots = self.draw(case, rng, &mut desk.file);
            desk.lay(case as usize % 8);
            let judge = desk.put_to(&self.judge);
            let ours = desk.put_to(self.ours.as_ref().expect("exported"));
            then(desk, judge, ours)
        })
    }
}

impl Trial for FarmFiles {
    fn name(&self) -> &'static str {
        "farm_file"
    }

    fn note(&self) -> Option<&str> {
        self.ours.is_none().then_some("not exported yet")
    }

    fn cases(&self, count: u64) -> u64 {
        if self.ours.is_none() { 0 } else { count.max((ROUNDS.len() * FIXED.len()) as u64) }
    }

    fn agree(&self, case: u64, rng: Rng) -> Option<usize> {
        self.made(case, rng, |_, judge, ours| (judge == ours).then_some(judge.status as usize))
    }

    fn describe(&self, case: u64, rng: Rng) -> String {
        self.made(case, rng, |desk, judge, ours| {
            let slots = desk.slots;
            let (judge, ours) = (judge.shown(slots), ours.shown(slots));
            format!("{}; {slots} slots\n      judge {judge}\n      ours  {ours}", described(&desk.file.bytes))
        })
    }
}

/// What a file is, if it is a notable one; its size, its count and its pairs,
/// as far as they are in the file.
pub fn described(file: &[u8]) -> String {
    let notable = inputs::notable_files().into_iter().find(|notable| notable.bytes == file);
    let what = notable.map_or(String::from("a file"), |notable| notable.what);
    let numbers: Vec<u32> = file.as_chunks().0.iter().take(129).map(|number| u32::from_le_bytes(*number)).collect();
    let [count, pairs @ ..] = &numbers[..] else {
        return format!("{what}, {} bytes, {file:?}", file.len());
    };
    let pairs = &pairs.as_chunks::<2>().0;
    let pairs = &pairs[..pairs.len().min(*count as usize)];
    format!("{what}, {} bytes, {count} sections: {pairs:?}", file.len())
}

/// How many files are read in turn where they are timed.
const TIMED: usize = 32;

impl Timed for FarmFiles {
    fn timings(&self) -> Vec<Timing<'_>> {
        let Some(ours) = &self.ours else {
            return vec![];
        };
        let untested: &'static Reader = Box::leak(Box::new(behind_pointers(reader::untested_farm_file)));
        let timing = |set, planes, placement: fn(&mut Rng) -> Matrix, rust| {
            let drawn = (0..TIMED as u64).map(|i| inputs::full_file(&mut Rng::at(1, i), planes, placement).bytes);
            let files: &'static [Vec<u8>] = drawn.collect::<Vec<_>>().leak();
            let pass = |reader| Box::new(move || all(reader, files));
            Timing { set, ours: pass(ours), rust: pass(rust) }
        };
        vec![
            timing("63 rigid boxes", FEWEST_PLANES, inputs::rigid_placement, untested),
            timing("63 rigid, both test", FEWEST_PLANES, inputs::rigid_placement, &self.judge),
            timing("63 scaled boxes", FEWEST_PLANES, inputs::placement, untested),
            timing("the most planes, 63 rigid boxes", MOST_PLANES, inputs::rigid_placement, untested),
        ]
    }
}

/// Reads the files in turn, as many as a pass makes calls.
fn all(reader: &Reader, files: &[Vec<u8>]) {
    let (mut out, mut count) = ([0; BOXES], 0);
    for i in 0..Timing::CALLS {
        let file = black_box(&files[i % TIMED][..]);
        let status = black_box(reader)(file.as_ptr(), file.len(), out.as_mut_ptr(), BOXES, &mut count);
        black_box((status, &out, count));
    }
}
