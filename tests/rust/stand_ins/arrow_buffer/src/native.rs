//! The numbers that buffers hold.

use std::fmt::Debug;

/// A number that any bytes of its width stand for.
///
/// # Safety
/// Every byte pattern of the type's width is a value of it.
pub unsafe trait ArrowNativeType: Copy + Debug + Default + PartialOrd + Send + Sync + 'static {
    /// The number as a place; the caller knows that it is not negative.
    fn as_usize(self) -> usize;

    /// The number as a place, none if it is negative.
    fn to_usize(self) -> Option<usize>;

    /// The place as a number; the caller knows that it fits.
    fn usize_as(place: usize) -> Self;
}

macro_rules! native {
    ($($t:ty),*) => {$(
        unsafe impl ArrowNativeType for $t {
            #[inline]
            fn as_usize(self) -> usize {
                self as usize
            }

            #[inline]
            fn to_usize(self) -> Option<usize> {
                usize::try_from(self).ok()
            }

            #[inline]
            fn usize_as(place: usize) -> Self {
                place as $t
            }
        }
    )*};
}

native!(i8, i16, i32, i64, u8, u16, u32, u64, u128);

/// A number of 32 bytes. Only its size is read.
#[allow(non_camel_case_types)]
pub struct i256(pub [u64; 4]);

/// Months, days and nanoseconds, 16 bytes. Only its size is read.
#[repr(C)]
pub struct IntervalMonthDayNano {
    pub months: i32,
    pub days: i32,
    pub nanoseconds: i64,
}
