//! Single bits, least significant first.

/// Bit `i` of the bytes.
#[inline]
pub fn get_bit(bytes: &[u8], i: usize) -> bool {
    bytes[i / 8] >> (i % 8) & 1 == 1
}

/// 64 bits with the `count` lowest set, `count` at most 64.
#[inline]
pub(crate) fn low_ones(count: usize) -> u64 {
    if count < 64 { (1 << count) - 1 } else { u64::MAX }
}

/// Up to eight bytes as a number, the first lowest.
#[inline]
pub(crate) fn short_word(bytes: &[u8]) -> u64 {
    let mut word = [0; 8];
    word[..bytes.len()].copy_from_slice(bytes);
    u64::from_le_bytes(word)
}
