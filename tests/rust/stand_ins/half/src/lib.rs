//! Stand-in for the crate half: a type of two bytes. Only its size is read.

#[allow(non_camel_case_types)]
pub struct f16(pub u16);
