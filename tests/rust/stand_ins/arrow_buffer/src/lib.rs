//! Stand-in for the crate arrow-buffer, written from the Arrow Columnar Format: buffers, bitmaps and what is found in them.
//!
//! As in the original, no accessor copies, and bits are read 64 at a time, so that timing the copied module is fair.

pub mod bit_chunk_iterator;
pub mod bit_iterator;
pub mod bit_util;
mod buffer;
mod native;
mod run_ends;

pub use buffer::{BooleanBuffer, Buffer, NullBuffer, ScalarBuffer};
pub use native::{ArrowNativeType, IntervalMonthDayNano, i256};
pub use run_ends::RunEndBuffer;
