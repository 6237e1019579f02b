//! Bytes in aligned memory, and what is read out of them.

use std::fmt;
use std::marker::PhantomData;
use std::ops::Deref;
use std::sync::Arc;

use crate::bit_iterator::Words;
use crate::bit_util::get_bit;
use crate::native::ArrowNativeType;

#[repr(C, align(64))]
#[derive(Clone, Copy)]
struct Line([u8; 64]);

/// Bytes that are shared and never change, in memory aligned to 64 bytes.
#[derive(Clone)]
pub struct Buffer {
    /// holds the memory
    _lines: Arc<[Line]>,
    start: *const u8,
    len: usize,
}

// SAFETY: the bytes are never written after `new`
unsafe impl Send for Buffer {}
unsafe impl Sync for Buffer {}

impl Buffer {
    /// A copy of the bytes.
    pub fn new(bytes: &[u8]) -> Self {
        let mut lines = vec![Line([0; 64]); bytes.len().div_ceil(64)];
        for (line, part) in lines.iter_mut().zip(bytes.chunks(64)) {
            line.0[..part.len()].copy_from_slice(part);
        }
        let lines: Arc<[Line]> = lines.into();
        let start = lines.as_ptr().cast::<u8>();
        Self { _lines: lines, start, len: bytes.len() }
    }

    #[inline]
    pub fn len(&self) -> usize {
        self.len
    }

    #[inline]
    pub fn is_empty(&self) -> bool {
        self.len == 0
    }

    #[inline]
    pub fn as_slice(&self) -> &[u8] {
        // SAFETY: `start` and `len` lie in the memory that `_lines` holds
        unsafe { std::slice::from_raw_parts(self.start, self.len) }
    }

    /// The bytes as numbers; they must be aligned, and whole numbers.
    #[inline]
    pub fn typed_data<T: ArrowNativeType>(&self) -> &[T] {
        // SAFETY: every byte pattern is a value of T, and the alignment is looked at
        let (before, numbers, after) = unsafe { self.as_slice().align_to::<T>() };
        assert!(before.is_empty() && after.is_empty(), "not aligned, or not whole numbers");
        numbers
    }

    /// The bytes from `start` on, `len` of them, without a copy.
    pub fn slice_with_length(&self, start: usize, len: usize) -> Self {
        assert!(start.saturating_add(len) <= self.len, "bytes out of bounds");
        // SAFETY: start is within the bytes
        Self { _lines: self._lines.clone(), start: unsafe { self.start.add(start) }, len }
    }

    /// How many of the `len` bits from bit `offset` on are set.
    pub fn count_set_bits_offset(&self, offset: usize, len: usize) -> usize {
        Words::new(self.as_slice(), offset, len).count_ones()
    }
}

impl fmt::Debug for Buffer {
    fn fmt(&self, f: &mut fmt::Formatter) -> fmt::Result {
        self.as_slice().fmt(f)
    }
}

impl Deref for Buffer {
    type Target = [u8];

    #[inline]
    fn deref(&self) -> &[u8] {
        self.as_slice()
    }
}

/// A buffer's bytes as numbers.
#[derive(Clone, Debug)]
pub struct ScalarBuffer<T> {
    buffer: Buffer,
    of: PhantomData<T>,
}

impl<T: ArrowNativeType> ScalarBuffer<T> {
    /// The numbers from number `offset` on, `len` of them.
    pub fn new(buffer: Buffer, offset: usize, len: usize) -> Self {
        let width = size_of::<T>();
        let start = offset.checked_mul(width).expect("offset too large");
        let bytes = len.checked_mul(width).expect("length too large");
        let buffer = buffer.slice_with_length(start, bytes);
        assert!(buffer.as_ptr().cast::<T>().is_aligned(), "not aligned");
        Self { buffer, of: PhantomData }
    }
}

impl<T: ArrowNativeType> Deref for ScalarBuffer<T> {
    type Target = [T];

    #[inline]
    fn deref(&self) -> &[T] {
        // SAFETY: aligned and whole, as `new` saw to
        unsafe { std::slice::from_raw_parts(self.buffer.as_ptr().cast(), self.buffer.len() / size_of::<T>()) }
    }
}

/// The bits of a buffer from bit `offset` on, `len` of them.
#[derive(Clone, Debug)]
pub struct BooleanBuffer {
    buffer: Buffer,
    offset: usize,
    len: usize,
}

impl BooleanBuffer {
    pub fn new(buffer: Buffer, offset: usize, len: usize) -> Self {
        assert!(offset.saturating_add(len) <= buffer.len().saturating_mul(8), "bits out of bounds");
        Self { buffer, offset, len }
    }

    #[inline]
    pub fn value(&self, i: usize) -> bool {
        assert!(i < self.len, "bit out of bounds");
        get_bit(&self.buffer, self.offset + i)
    }

    pub fn slice(&self, start: usize, len: usize) -> Self {
        assert!(start.saturating_add(len) <= self.len, "bits out of bounds");
        Self { buffer: self.buffer.clone(), offset: self.offset + start, len }
    }
}

/// A null mask: a set bit stands for a row that is not null.
#[derive(Clone, Debug)]
pub struct NullBuffer {
    bits: BooleanBuffer,
    null_count: usize,
}

impl NullBuffer {
    pub fn new(bits: BooleanBuffer) -> Self {
        let null_count = bits.len - bits.buffer.count_set_bits_offset(bits.offset, bits.len);
        Self { bits, null_count }
    }

    #[inline]
    pub fn null_count(&self) -> usize {
        self.null_count
    }

    #[inline]
    pub fn is_null(&self, i: usize) -> bool {
        !self.bits.value(i)
    }

    /// The mask's bytes, those before its first bit too.
    #[inline]
    pub fn validity(&self) -> &[u8] {
        &self.bits.buffer
    }

    /// The mask's first bit.
    #[inline]
    pub fn offset(&self) -> usize {
        self.bits.offset
    }

    #[inline]
    pub fn buffer(&self) -> &Buffer {
        &self.bits.buffer
    }

    pub fn slice(&self, start: usize, len: usize) -> Self {
        Self::new(self.bits.slice(start, len))
    }
}
