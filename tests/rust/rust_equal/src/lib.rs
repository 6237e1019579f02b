//! The Rust's `equal` and its `from_utf8` for a benchmark in C, librust_equal.a:
//!
//!     void *rust_load(const uint8_t *image, size_t len);          an accepted image as ArrayData
//!     int32_t rust_equal(const void *left, const void *right);    0 no, 1 yes, 2 a panic
//!     uint64_t rust_time(const uint8_t *left, size_t left_len, const uint8_t *right, size_t right_len, size_t calls);
//!                                                                 nanoseconds of `equal` alone, the median of the calls
//!     void rust_free(void *array);
//!     size_t rust_from_utf8(const uint8_t *image, size_t len, const struct column *column);
//!                                                                 texts.rs

mod texts;

use std::slice::from_raw_parts;

use arrow_data::ArrayData;
use harness::{Masks, ask_equal, load, time_equal};

/// # Safety
/// `image` points to `len` bytes of an accepted image.
#[unsafe(no_mangle)]
pub unsafe extern "C" fn rust_load(image: *const u8, len: usize) -> *mut ArrayData {
    Box::into_raw(Box::new(load(unsafe { from_raw_parts(image, len) }, Masks::WithNulls)))
}

/// # Safety
/// Both come from `rust_load`.
#[unsafe(no_mangle)]
pub unsafe extern "C" fn rust_equal(left: *const ArrayData, right: *const ArrayData) -> i32 {
    unsafe { ask_equal(&*left, &*right) }.number() as i32
}

/// # Safety
/// `left` and `right` point to so many bytes of accepted images, and `calls` is not 0.
#[unsafe(no_mangle)]
pub unsafe extern "C" fn rust_time(left: *const u8, left_len: usize, right: *const u8, right_len: usize, calls: usize) -> u64 {
    unsafe { time_equal(from_raw_parts(left, left_len), from_raw_parts(right, right_len), calls) }
}

/// # Safety
/// `array` comes from `rust_load` and is not used again.
#[unsafe(no_mangle)]
pub unsafe extern "C" fn rust_free(array: *mut ArrayData) {
    drop(unsafe { Box::from_raw(array) });
}
