//! Farm files in the making: their bytes, and well-formed ones with gaps.

use super::*;
use crate::reader::{BOX, BOXES, LARGEST, LEAST_VOLUME, volume_bytes};
use std::sync::LazyLock;

/// The bytes of a farm file, which may be damaged.
#[derive(Clone, Default)]
pub struct FarmFile {
    pub bytes: Vec<u8>,
}

/// Where a flag is in the record of a box.
const FLAG: usize = BOX - 8;

impl FarmFile {
    /// Begins anew, with room for a directory of this many sections.
    pub fn begin(&mut self, sections: usize) {
        self.bytes.clear();
        self.bytes.extend((sections as u32).to_le_bytes());
        self.bytes.resize(4 + 8 * sections, 0);
    }

    /// Puts a section at the end.
    pub fn put(&mut self, i: usize, record: &[u8]) {
        self.set_offset(i, self.bytes.len() as u32);
        self.set_length(i, record.len() as u32);
        self.bytes.extend_from_slice(record);
    }

    /// Gives the section at the end another length.
    pub fn cut(&mut self, rng: &mut Rng, i: usize, length: usize) {
        self.bytes.truncate(self.offset(i) as usize + length);
        let missing = self.offset(i) as usize + length - self.bytes.len();
        self.fill(rng, missing);
        self.set_length(i, length as u32);
    }

    /// Puts bytes of any kind at the end.
    pub fn fill(&mut self, rng: &mut Rng, length: usize) {
        for left in (0..length).step_by(NOISE_BYTES / 2).map(|done| (length - done).min(NOISE_BYTES / 2)) {
            let from = rng.below((NOISE_BYTES - left + 1) as u64) as usize;
            self.bytes.extend_from_slice(&NOISE[from..][..left]);
        }
    }

    /// Puts missing numbers at the end, as long as there is room for a whole
    /// one, and other bytes behind them.
    pub fn fill_missing(&mut self, rng: &mut Rng, length: usize) {
        (0..length / 8).for_each(|_| self.bytes.extend(missing(rng).to_le_bytes()));
        self.fill(rng, length % 8);
    }

    /// Fills up to this size.
    pub fn fill_to(&mut self, rng: &mut Rng, size: usize) {
        self.fill(rng, size.saturating_sub(self.bytes.len()));
    }

    /// Takes a byte from the end.
    pub fn shorten(&mut self) {
        self.bytes.pop();
    }

    /// How many pairs the directory has, as far as it is in the file.
    pub fn pairs(&self) -> usize {
        let stated = self.bytes.first_chunk().map_or(0, |count| u32::from_le_bytes(*count));
        (stated as usize).min(self.bytes.len().saturating_sub(4) / 8)
    }

    pub fn set_count(&mut self, count: u32) {
        self.set(0, count);
    }

    pub fn offset(&self, i: usize) -> u32 {
        self.at(4 + 8 * i)
    }

    pub fn set_offset(&mut self, i: usize, offset: u32) {
        self.set(4 + 8 * i, offset);
    }

    pub fn length(&self, i: usize) -> u32 {
        self.at(8 + 8 * i)
    }

    pub fn set_length(&mut self, i: usize, length: u32) {
        self.set(8 + 8 * i, length);
    }

    /// Where a section ends, modulo 2^32.
    pub fn end(&self, i: usize) -> u32 {
        self.offset(i).wrapping_add(self.length(i))
    }

    /// Exchanges two pairs of the directory.
    pub fn exchange(&mut self, i: usize, j: usize) {
        let (a, b) = ((self.offset(i), self.length(i)), (self.offset(j), self.length(j)));
        (self.set_offset(i, b.0), self.set_length(i, b.1));
        (self.set_offset(j, a.0), self.set_length(j, a.1));
    }

    /// Sets a number of a section's record, if it is in the file.
    pub fn set_number(&mut self, i: usize, number: usize, x: f64) {
        let at = self.offset(i) as usize + 8 * number;
        if let Some(bytes) = self.bytes.get_mut(at..at.saturating_add(8)) {
            bytes.copy_from_slice(&x.to_le_bytes());
        }
    }

    pub fn set_flag(&mut self, i: usize, flag: f64) {
        self.set_number(i, FLAG / 8, flag);
    }

    fn at(&self, at: usize) -> u32 {
        u32::from_le_bytes(*self.bytes[at..].first_chunk().expect("in the file"))
    }

    fn set(&mut self, at: usize, number: u32) {
        self.bytes[at..at + 4].copy_from_slice(&number.to_le_bytes());
    }
}

/// Bytes of any kind.
static NOISE: LazyLock<Vec<u8>> =
    LazyLock::new(|| (0..NOISE_BYTES as u64 / 8).flat_map(|i| mixed(i + 1).to_le_bytes()).collect());
const NOISE_BYTES: usize = 1 << 17;

/// The bytes of a record.
pub fn bytes_of(record: &[f64]) -> Vec<u8> {
    record.iter().flat_map(|x| x.to_le_bytes()).collect()
}

/// The records of a file: its volume and boxes to choose from.
pub struct Orchard {
    volume: Vec<u8>,
    boxes: Vec<Vec<u8>>,
}

impl Orchard {
    pub fn new((volume, boxes): (Volume, Vec<Boxed>)) -> Orchard {
        Orchard { volume: bytes_of(volume.numbers()), boxes: boxes.iter().map(|b| bytes_of(b)).collect() }
    }

    /// With as many boxes as there can be, and no number missing.
    fn drawn(rng: &mut Rng) -> Orchard {
        let (mut volume, mut boxes) = volume_and_boxes(rng, BOXES);
        mend(rng, volume.numbers_mut());
        boxes.iter_mut().for_each(|b| mend(rng, b));
        Orchard::new((volume, boxes))
    }

    /// The file of all records in their order, with gaps of these lengths:
    /// before each section, and at the end.
    pub fn file(&self, rng: &mut Rng, gap: impl Fn(usize) -> usize) -> FarmFile {
        let mut file = FarmFile::default();
        file.begin(1 + self.boxes.len());
        for i in 0..=self.boxes.len() {
            file.fill(rng, gap(i));
            file.put(i, self.record(i));
        }
        file.fill(rng, gap(1 + self.boxes.len()));
        file
    }

    fn record(&self, i: usize) -> &[u8] {
        if i == 0 { &self.volume } else { &self.boxes[i - 1] }
    }
}

/// Orchards that most files are made of.
static ORCHARDS: LazyLock<Vec<Orchard>> =
    LazyLock::new(|| (0..256).map(|case| Orchard::drawn(&mut Rng::at(0, case))).collect());

/// How many boxes a file has: few, any number, as many as there can be;
/// seldom one too many or none.
fn boxes(rng: &mut Rng) -> usize {
    match rng.below(64) {
        0 => BOXES,
        1 => rng.pick(&[BOXES - 1, BOXES + 1, 0]),
        2..5 => 1 + rng.below(BOXES as u64) as usize,
        5..20 => 1,
        20..30 => 2,
        _ => 1 + rng.below(9) as usize,
    }
}

/// How long a gap is, where a file has gaps.
pub(super) fn gap(rng: &mut Rng) -> usize {
    match rng.below(8) {
        0..4 => 1 + rng.below(9) as usize,
        4..6 => 8 * (1 + rng.below(8)) as usize,
        6 => BOX,
        _ => 1 + rng.below(300) as usize,
    }
}

/// Puts a gap at the end, of any bytes or of missing numbers.
fn put_gap(rng: &mut Rng, file: &mut FarmFile) {
    let length = gap(rng);
    if rng.once_in(2) { file.fill(rng, length) } else { file.fill_missing(rng, length) }
}

/// A length that a section may have by mistake.
pub(super) fn other_length(rng: &mut Rng) -> usize {
    let any = volume_bytes(rng.below(MOST_PLANES as u64 + 2) as usize);
    let exact = rng.pick(&[LEAST_VOLUME, LEAST_VOLUME, BOX, BOX, any]);
    match rng.below(8) {
        0..2 => 0,
        2..4 => exact,
        4..6 => exact - 1 + 2 * rng.below(2) as usize,
        6 => exact - 8 + 16 * rng.below(2) as usize,
        _ => rng.below(500) as usize,
    }
}

/// Puts another volume in the place of that at the end: the cube with one
/// plane too few or too many; a record without its count; any length with any
/// count.
fn other_volume(rng: &mut Rng, file: &mut FarmFile) {
    let (most, next) = (volume_bytes(MOST_PLANES), volume_bytes(MOST_PLANES + 1));
    let lengths = [383, 384, 391, 392, 393, 399, 400, 424, most - 1, most, most + 1, next];
    let (own, length) = (file.length(0), rng.pick(&lengths));
    let whole = file.bytes.split_off(file.offset(0) as usize);
    match rng.below(4) {
        0 => {
            let many = with_planes(CUBE, rng.pick(&TOO_MANY));
            let few = Volume::new(&CUBE[..4 * (FEWEST_PLANES - 1)].as_chunks().0, &[0.0; 24]);
            file.put(0, &bytes_of(rng.pick(&[few, many]).numbers()));
        }
        1 => file.put(0, &whole[8..]),
        2 => {
            file.put(0, &whole);
            file.cut(rng, 0, length);
        }
        _ => {
            file.put(0, &whole);
            let count = f64::from_le_bytes(*whole.first_chunk().expect("a count"));
            file.set_number(0, 0, other_planes(rng, count));
            let length = if rng.once_in(2) { length } else { own as usize };
            file.cut(rng, 0, length);
        }
    }
}

/// A file in `file`, with gaps or none, its sections in their order, in the
/// file. One in `of_lengths` has sections of other lengths than their
/// records.
pub(super) fn laid(rng: &mut Rng, file: &mut FarmFile, of_lengths: u64) {
    let fresh = rng.once_in(32).then(|| Orchard::drawn(rng));
    let orchard = fresh.as_ref().unwrap_or(&ORCHARDS[rng.below(ORCHARDS.len() as u64) as usize]);
    let boxes = boxes(rng);
    // Out of 8, how often there is a gap.
    let gaps = rng.pick(&[0, 0, 0, 1, 3, 8]);
    let other_lengths = rng.once_in(of_lengths);
    let first_wrong = rng.below(boxes as u64 + 1) as usize;
    file.begin(1 + boxes);
    for i in 0..=boxes {
        if rng.below(8) < gaps {
            put_gap(rng, file);
        }
        let place = if i == 0 { 0 } else { 1 + rng.below(BOXES as u64) as usize };
        file.put(i, orchard.record(place));
        if rng.once_in(12) {
            // Any number but the count of planes and the flag.
            let (first, numbers) = if i == 0 { (1, file.length(0) / 8 - 1) } else { (0, 22) };
            let mut x = [odd(rng)];
            mend(rng, &mut x);
            file.set_number(i, first + rng.below(numbers.into()) as usize, x[0]);
        }
        if i == 0 && rng.once_in(32) {
            other_volume(rng, file);
        }
        if i > 0 {
            file.set_flag(i, rng.pick(&[0.0, 0.0, -0.0, 1.0]));
        }
        if other_lengths && (i == first_wrong || rng.once_in(8)) {
            let length = other_length(rng);
            file.cut(rng, i, length);
        }
    }
    if rng.below(8) < gaps {
        put_gap(rng, file);
    }
    if rng.once_in(1024) {
        let size = LARGEST - 1 + rng.below(3) as usize;
        file.fill_to(rng, size);
    }
}

/// A well-formed file of this many boxes, no number of which is missing, with a
/// gap of up to 20 bytes before every section and at the end, or with none.
pub fn well_formed(rng: &mut Rng, boxes: usize, gaps: bool) -> FarmFile {
    let (mut volume, mut records) = volume_and_boxes(rng, boxes);
    records.iter_mut().for_each(|record| record[FLAG / 8] = rng.pick(&[0.0, -0.0, 1.0]));
    mend(rng, volume.numbers_mut());
    records.iter_mut().for_each(|record| mend(rng, record));
    let most = if gaps { 20 } else { 0 };
    let lengths: Vec<usize> = (0..boxes + 2).map(|_| rng.below(most + 1) as usize).collect();
    Orchard::new((volume, records)).file(rng, |i| lengths[i])
}

/// A file with as many boxes as it can have, placed in one way, and a volume
/// of so many planes, to be timed on.
pub fn full_file(rng: &mut Rng, planes: usize, placement: fn(&mut Rng) -> Matrix) -> FarmFile {
    Orchard::new(boxes_asked(rng, planes, BOXES, placement)).file(rng, |_| 0)
}
