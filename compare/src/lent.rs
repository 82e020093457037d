//! What a call is lent, and its two sides.

use crate::inputs::{Volume, volume_length};
use crate::judge::FEWEST_PLANES;
use std::hint::black_box;
use std::{ptr, slice};

/// What is lent for an input or a result.
#[derive(Clone, Copy, PartialEq)]
pub enum Shape {
    /// A slice for a record of this many numbers.
    Slice(usize),
    /// A lone number, which has no length to be wrong.
    Number,
    /// A lone f32, in the first half of a word.
    Single,
    /// A yes or no, in the first half of a word.
    Verdict,
    /// A place, in the first half of a word.
    Place,
}

impl Shape {
    pub fn len(self) -> usize {
        match self {
            Shape::Slice(len) => len,
            Shape::Number | Shape::Single | Shape::Verdict | Shape::Place => 1,
        }
    }
}

/// A slice, or the place of a lone number, as it is lent.
#[derive(Clone, Copy)]
pub struct Lent {
    pub at: *mut f64,
    pub len: usize,
}

impl Lent {
    pub const NONE: Lent = Lent { at: ptr::dangling_mut(), len: 0 };

    pub fn to_read(numbers: &[f64]) -> Lent {
        Lent { at: numbers.as_ptr().cast_mut(), len: numbers.len() }
    }

    pub fn to_write(numbers: &mut [f64]) -> Lent {
        Lent { at: numbers.as_mut_ptr(), len: numbers.len() }
    }

    pub fn wholes(numbers: &[i32]) -> Lent {
        Lent { at: numbers.as_ptr().cast_mut().cast(), len: numbers.len() }
    }

    /// The inputs of a call, of which there are as many as records.
    pub fn all(records: &[&[f64]]) -> Ins {
        let mut ins = [Lent::NONE; INPUTS];
        for (lent, record) in ins.iter_mut().zip(records) {
            *lent = Lent::to_read(record);
        }
        ins
    }

    pub unsafe fn slice<'a>(self) -> &'a [f64] {
        unsafe { slice::from_raw_parts(self.at, self.len) }
    }

    pub unsafe fn whole_slice<'a>(self) -> &'a [i32] {
        unsafe { slice::from_raw_parts(self.at.cast(), self.len) }
    }

    /// The first word of 32 bits.
    pub unsafe fn word<'a>(self) -> &'a mut u32 {
        unsafe { &mut *self.at.cast() }
    }

    /// Words of 32 bits, as many as it is long.
    pub unsafe fn slots<'a>(self) -> &'a mut [u32] {
        unsafe { slice::from_raw_parts_mut(self.at.cast(), self.len) }
    }
}

/// An input that is lent as a slice, and what a reference sees of it.
pub trait Taken: Record {
    type Seen: ?Sized;
    const SHAPE: Shape;

    /// Nothing where its length is wrong.
    fn seen(lent: &[f64]) -> Option<&Self::Seen>;
}

impl<const N: usize> Taken for [f64; N] {
    type Seen = [f64; N];
    const SHAPE: Shape = Shape::Slice(N);

    fn seen(lent: &[f64]) -> Option<&[f64; N]> {
        lent.try_into().ok()
    }
}

/// A reference tells by the count whether a length from that of the fewest
/// planes on is right.
impl Taken for Volume {
    type Seen = [f64];
    const SHAPE: Shape = Shape::Slice(volume_length(FEWEST_PLANES));

    fn seen(lent: &[f64]) -> Option<&[f64]> {
        (lent.len() >= volume_length(FEWEST_PLANES)).then_some(lent)
    }
}

/// A lone number in, which is passed by itself.
pub trait Lone: Copy {
    type Input: Record;
    const SHAPE: Shape;

    unsafe fn passed(lent: Lent) -> Self;
}

impl Lone for f64 {
    type Input = f64;
    const SHAPE: Shape = Shape::Number;

    unsafe fn passed(lent: Lent) -> f64 {
        unsafe { *lent.at }
    }
}

impl Lone for f32 {
    type Input = Single;
    const SHAPE: Shape = Shape::Single;

    unsafe fn passed(lent: Lent) -> f32 {
        unsafe { *lent.at.cast() }
    }
}

/// How many inputs a call has at most.
pub const INPUTS: usize = 4;

/// What is lent for the inputs. What follows a call's own is not looked at.
pub type Ins = [Lent; INPUTS];

/// What a reference gives, and where it goes.
pub trait Answer {
    type Lent: ?Sized;
    const SHAPE: Shape;

    unsafe fn lent<'a>(lent: Lent) -> &'a mut Self::Lent;
    fn fits(lent: &Self::Lent) -> bool;
    fn store(self, to: &mut Self::Lent);
}

impl<const N: usize> Answer for [f64; N] {
    type Lent = [f64];
    const SHAPE: Shape = Shape::Slice(N);

    unsafe fn lent<'a>(lent: Lent) -> &'a mut [f64] {
        unsafe { slice::from_raw_parts_mut(lent.at, lent.len) }
    }

    fn fits(lent: &[f64]) -> bool {
        lent.len() == N
    }

    fn store(self, to: &mut [f64]) {
        to.copy_from_slice(&self);
    }
}

impl Answer for f64 {
    type Lent = f64;
    const SHAPE: Shape = Shape::Number;

    unsafe fn lent<'a>(lent: Lent) -> &'a mut f64 {
        unsafe { &mut *lent.at }
    }

    fn fits(_: &f64) -> bool {
        true
    }

    fn store(self, to: &mut f64) {
        *to = self;
    }
}

impl Answer for bool {
    type Lent = u32;
    const SHAPE: Shape = Shape::Verdict;

    unsafe fn lent<'a>(lent: Lent) -> &'a mut u32 {
        unsafe { lent.word() }
    }

    fn fits(_: &u32) -> bool {
        true
    }

    fn store(self, to: &mut u32) {
        *to = self.into();
    }
}

/// A place.
impl Answer for u32 {
    type Lent = u32;
    const SHAPE: Shape = Shape::Place;

    unsafe fn lent<'a>(lent: Lent) -> &'a mut u32 {
        unsafe { lent.word() }
    }

    fn fits(_: &u32) -> bool {
        true
    }

    fn store(self, to: &mut u32) {
        *to = self;
    }
}

/// One of the two sides of a call.
pub trait Side: Send + Sync {
    fn call(&self, ins: &Ins, out: Lent) -> u32;

    /// Calls it on each of `all`, to be timed.
    fn pass(&self, all: &[Ins], out: Lent);
}

/// A side that is reached through a pointer, and how it is called.
pub struct Pointer<F, C>(pub F, pub C);

impl<F, C> Side for Pointer<F, C>
where
    F: Copy + Send + Sync,
    C: Fn(F, &Ins, Lent) -> u32 + Send + Sync,
{
    fn call(&self, ins: &Ins, out: Lent) -> u32 {
        (self.1)(self.0, ins, out)
    }

    fn pass(&self, all: &[Ins], out: Lent) {
        let f = black_box(self.0);
        for ins in all {
            black_box((self.1)(f, ins, black_box(out)));
        }
    }
}

/// The inputs of a call: a tuple of records and lone numbers.
pub trait Input: Copy + Send + Sync + 'static {
    /// The numbers of each; none for what follows.
    fn records(&self) -> [&[f64]; INPUTS];

    /// Those of each that there is.
    fn records_mut(&mut self) -> Vec<&mut [f64]>;
}

/// A record or a lone number of a call's inputs.
pub trait Record: Copy + Send + Sync + 'static {
    fn numbers(&self) -> &[f64];
    fn numbers_mut(&mut self) -> &mut [f64];
}

impl<const N: usize> Record for [f64; N] {
    fn numbers(&self) -> &[f64] {
        self
    }

    fn numbers_mut(&mut self) -> &mut [f64] {
        self
    }
}

impl Record for Volume {
    fn numbers(&self) -> &[f64] {
        self.numbers()
    }

    fn numbers_mut(&mut self) -> &mut [f64] {
        self.numbers_mut()
    }
}

impl Record for f64 {
    fn numbers(&self) -> &[f64] {
        slice::from_ref(self)
    }

    fn numbers_mut(&mut self) -> &mut [f64] {
        slice::from_mut(self)
    }
}

/// An f32 among the inputs, in the first half of a word, so that a NaN keeps
/// its bits.
#[derive(Clone, Copy)]
pub struct Single(f64);

impl Single {
    pub fn at(word: u64) -> f32 {
        let [a, b, c, d, ..] = word.to_ne_bytes();
        f32::from_ne_bytes([a, b, c, d])
    }
}

impl From<f32> for Single {
    fn from(x: f32) -> Single {
        let [a, b, c, d] = x.to_ne_bytes();
        Single(f64::from_ne_bytes([a, b, c, d, 0, 0, 0, 0]))
    }
}

impl Record for Single {
    fn numbers(&self) -> &[f64] {
        slice::from_ref(&self.0)
    }

    fn numbers_mut(&mut self) -> &mut [f64] {
        slice::from_mut(&mut self.0)
    }
}

macro_rules! input {
    ($($record:ident $field:tt),*) => {
        impl<$($record: Record),*> Input for ($($record,)*) {
            fn records(&self) -> [&[f64]; INPUTS] {
                let mut records: [&[f64]; INPUTS] = [&[]; INPUTS];
                $(records[$field] = self.$field.numbers();)*
                records
            }

            fn records_mut(&mut self) -> Vec<&mut [f64]> {
                vec![$(self.$field.numbers_mut()),*]
            }
        }
    };
}

input!(A 0);
input!(A 0, B 1);
input!(A 0, B 1, C 2);
input!(A 0, B 1, C 2, D 3);
