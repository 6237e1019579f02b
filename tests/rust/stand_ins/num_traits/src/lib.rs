//! Stand-in for the crate num-traits: zero, subtraction, and a name that bounds the types of run ends.

use std::ops::Sub;

pub trait Zero: Sized {
    fn zero() -> Self;
}

pub trait Num: Zero + PartialEq + Sub<Output = Self> {}

pub trait ToPrimitive {}

macro_rules! numbers {
    ($($t:ty),*) => {$(
        impl Zero for $t {
            #[inline]
            fn zero() -> Self {
                0
            }
        }

        impl Num for $t {}

        impl ToPrimitive for $t {}
    )*};
}

numbers!(i16, i32, i64);
