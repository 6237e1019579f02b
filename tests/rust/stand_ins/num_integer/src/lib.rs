//! Stand-in for the crate num-integer: the bound of the types of offsets and sizes.

use num_traits::Num;

pub trait Integer: Num + Ord {}

impl Integer for i32 {}

impl Integer for i64 {}
