//! Where the set bits of a range are: their places, and the runs of them, counted from the start of the range.

use crate::bit_util::{low_ones, short_word};

/// The words of a range of bits, as its bytes lie: the range's first bit is bit `shift` of the first word. Bits outside the
/// range are 0.
#[derive(Clone)]
pub(crate) struct Words<'a> {
    bytes: &'a [u8],
    next: usize,
    shift: usize,
    /// the number of the range's bits in its last byte's word
    tail: usize,
}

impl<'a> Words<'a> {
    #[inline]
    pub(crate) fn new(bytes: &'a [u8], offset: usize, len: usize) -> Self {
        let shift = offset % 8;
        let bytes = if len == 0 { &[] } else { &bytes[offset / 8..(offset + len).div_ceil(8)] };
        let tail = if len == 0 { 0 } else { (shift + len - 1) % 64 + 1 };
        Self { bytes, next: 0, shift, tail }
    }

    pub(crate) fn count_ones(self) -> usize {
        let Self { bytes, shift, tail, .. } = self;
        if bytes.len() <= 16 {
            return self.map(|word| word.count_ones() as usize).sum();
        }
        let last = (bytes.len() - 1) / 8 * 8;
        let first = short_word(&bytes[..8]) & !low_ones(shift);
        let middle = bytes[8..last].chunks_exact(8).map(|word| short_word(word).count_ones() as usize);
        let end = short_word(&bytes[last..]) & low_ones(tail);
        first.count_ones() as usize + middle.sum::<usize>() + end.count_ones() as usize
    }
}

impl Iterator for Words<'_> {
    type Item = u64;

    #[inline]
    fn next(&mut self) -> Option<u64> {
        let rest = &self.bytes[self.next..];
        let mut word = match rest.first_chunk::<8>() {
            Some(eight) => u64::from_le_bytes(*eight),
            None if rest.is_empty() => return None,
            None => short_word(rest),
        };
        if self.next == 0 {
            word &= !low_ones(self.shift);
        }
        if rest.len() <= 8 {
            word &= low_ones(self.tail);
        }
        self.next += rest.len().min(8);
        Some(word)
    }
}

/// The places of the set bits, rising.
pub struct BitIndexIterator<'a> {
    words: Words<'a>,
    word: u64,
    /// the place of the word's bit 0 in the range, less than 0 for the first word's bits before the range
    base: isize,
}

impl<'a> BitIndexIterator<'a> {
    #[inline]
    pub fn new(bytes: &'a [u8], offset: usize, len: usize) -> Self {
        let mut words = Words::new(bytes, offset, len);
        let word = words.next().unwrap_or(0);
        Self { words, word, base: -((offset % 8) as isize) }
    }
}

impl Iterator for BitIndexIterator<'_> {
    type Item = usize;

    #[inline]
    fn next(&mut self) -> Option<usize> {
        while self.word == 0 {
            self.word = self.words.next()?;
            self.base += 64;
        }
        let bit = self.word.trailing_zeros();
        self.word &= self.word - 1;
        Some((self.base + bit as isize) as usize)
    }
}

/// The longest runs of set bits, as start and end, rising.
pub struct BitSliceIterator<'a> {
    words: Words<'a>,
    /// the set bits of the current word that have not been given
    word: u64,
    base: isize,
    len: usize,
}

impl<'a> BitSliceIterator<'a> {
    #[inline]
    pub fn new(bytes: &'a [u8], offset: usize, len: usize) -> Self {
        let mut words = Words::new(bytes, offset, len);
        let word = words.next().unwrap_or(0);
        Self { words, word, base: -((offset % 8) as isize), len }
    }

    #[inline]
    fn advance(&mut self) -> Option<()> {
        self.word = self.words.next()?;
        self.base += 64;
        Some(())
    }
}

impl Iterator for BitSliceIterator<'_> {
    type Item = (usize, usize);

    #[inline]
    fn next(&mut self) -> Option<(usize, usize)> {
        while self.word == 0 {
            self.advance()?;
        }
        let first = self.word.trailing_zeros();
        let start = (self.base + first as isize) as usize;
        // the first unset bit after it
        let mut unset = !(self.word | low_ones(first as usize));
        while unset == 0 {
            if self.advance().is_none() {
                self.word = 0;
                return Some((start, self.len));
            }
            unset = !self.word;
        }
        let bit = unset.trailing_zeros();
        self.word &= !low_ones(bit as usize);
        Some((start, (self.base + bit as isize) as usize))
    }
}
