//! A range of bits as words of 64, the first bit of the range in bit 0 of the first word.

use crate::bit_util::{low_ones, short_word};

pub struct BitChunks<'a> {
    /// from the byte that holds the first bit to that of the last
    bytes: &'a [u8],
    /// the first bit's place in its byte
    shift: usize,
    len: usize,
}

impl<'a> BitChunks<'a> {
    /// The `len` bits of `bytes` from bit `offset` on.
    #[inline]
    pub fn new(bytes: &'a [u8], offset: usize, len: usize) -> Self {
        let end = (offset + len).div_ceil(8);
        assert!(end <= bytes.len(), "bits out of bounds");
        Self { bytes: &bytes[offset / 8..end], shift: offset % 8, len }
    }

    /// The whole words, and then always one more with the bits that remain, zeros above them.
    #[inline]
    pub fn iter_padded(self) -> impl Iterator<Item = u64> + 'a {
        let Self { bytes, shift, len } = self;
        let words = len / 64;
        let whole = (0..words).map(move |k| {
            // SAFETY: the range goes on to bit shift + 64 * (k + 1) at least, so eight bytes are there, and a ninth where
            // the shift is not 0
            unsafe {
                let low = bytes.as_ptr().add(8 * k).cast::<u64>().read_unaligned().to_le();
                if shift == 0 { low } else { (low >> shift) | ((*bytes.get_unchecked(8 * k + 8) as u64) << (64 - shift)) }
            }
        });
        let tail = &bytes[8 * words..];
        let low = short_word(&tail[..tail.len().min(8)]) >> shift;
        let high = if tail.len() > 8 { (tail[8] as u64) << (64 - shift) } else { 0 };
        whole.chain(std::iter::once((low | high) & low_ones(len % 64)))
    }
}
