//! Stands in for half. No operation that is compared uses `f16`; this one
//! holds an `f32` and is here so that the files compile.
#![allow(non_camel_case_types)]

use std::iter::Sum;
use std::ops::{Add, AddAssign, Div, DivAssign, Mul, MulAssign, Neg, Sub, SubAssign};

#[derive(Clone, Copy, Debug, Default, PartialEq, PartialOrd)]
pub struct f16(f32);

impl f16 {
    pub const ZERO: f16 = f16(0.0);
    pub const ONE: f16 = f16(1.0);

    pub const fn from_f32(x: f32) -> f16 {
        f16(x)
    }

    pub const fn to_f32(self) -> f32 {
        self.0
    }

    pub const fn from_f64(x: f64) -> f16 {
        f16(x as f32)
    }

    pub const fn to_f64(self) -> f64 {
        self.0 as f64
    }
}

macro_rules! operators {
    ($($op:ident $method:ident $assign:ident $assign_method:ident;)*) => {$(
        impl $op for f16 {
            type Output = f16;
            fn $method(self, other: f16) -> f16 {
                f16(self.0.$method(other.0))
            }
        }
        impl $assign for f16 {
            fn $assign_method(&mut self, other: f16) {
                *self = self.$method(other);
            }
        }
    )*};
}

operators! {
    Add add AddAssign add_assign;
    Sub sub SubAssign sub_assign;
    Mul mul MulAssign mul_assign;
    Div div DivAssign div_assign;
}

impl Neg for f16 {
    type Output = f16;
    fn neg(self) -> f16 {
        f16(-self.0)
    }
}

impl Sum for f16 {
    fn sum<I: Iterator<Item = f16>>(all: I) -> f16 {
        f16(all.map(f16::to_f32).sum())
    }
}

impl From<f16> for f32 {
    fn from(x: f16) -> f32 {
        x.to_f32()
    }
}

impl From<f16> for f64 {
    fn from(x: f16) -> f64 {
        x.to_f64()
    }
}
