//! What the readers of bits find is what single bits say, for ranges at all places and of many lengths.

use arrow_buffer::bit_chunk_iterator::BitChunks;
use arrow_buffer::bit_iterator::{BitIndexIterator, BitSliceIterator};
use arrow_buffer::bit_util::get_bit;
use arrow_buffer::{Buffer, RunEndBuffer, ScalarBuffer};

/// Bytes with short and long runs of set and unset bits.
fn patterns() -> Vec<Vec<u8>> {
    let mut state = 1u64;
    let mut next = move || {
        state = state.wrapping_mul(6364136223846793005).wrapping_add(1442695040888963407);
        (state >> 33) as u8
    };
    let mixed = (0..40).map(|_| next()).collect();
    let long = (0..40).map(|k| [0xff, 0xff, 0xff, 0x00, 0x7f][k / 9 % 5]).collect();
    vec![vec![0; 40], vec![0xff; 40], mixed, long]
}

fn each_range(check: impl Fn(&[u8], usize, usize, &[bool])) {
    for bytes in patterns() {
        for offset in 0..75 {
            for len in (0..80).chain([127, 128, 129, 191, 192, 193, 8 * bytes.len() - offset]) {
                let bits: Vec<bool> = (0..len).map(|i| get_bit(&bytes, offset + i)).collect();
                check(&bytes, offset, len, &bits);
            }
        }
    }
}

#[test]
fn chunks() {
    each_range(|bytes, offset, len, bits| {
        let words: Vec<u64> = BitChunks::new(bytes, offset, len).iter_padded().collect();
        assert_eq!(words.len(), len / 64 + 1);
        for (k, word) in words.iter().enumerate() {
            for i in 0..64 {
                assert_eq!(word >> i & 1 == 1, bits.get(64 * k + i).copied().unwrap_or(false));
            }
        }
    });
}

#[test]
fn indices() {
    each_range(|bytes, offset, len, bits| {
        let set: Vec<usize> = (0..len).filter(|&i| bits[i]).collect();
        assert_eq!(BitIndexIterator::new(bytes, offset, len).collect::<Vec<_>>(), set);
        assert_eq!(Buffer::new(bytes).count_set_bits_offset(offset, len), set.len());
    });
}

#[test]
fn slices() {
    each_range(|bytes, offset, len, bits| {
        let starts = (0..len).filter(|&i| bits[i] && (i == 0 || !bits[i - 1]));
        let runs: Vec<_> = starts.map(|i| (i, (i..len).find(|&j| !bits[j]).unwrap_or(len))).collect();
        assert_eq!(BitSliceIterator::new(bytes, offset, len).collect::<Vec<_>>(), runs);
    });
}

#[test]
fn run_ends() {
    let ends = [2i16, 3, 7, 12];
    let run = |row: usize| ends.iter().position(|&end| end as usize > row).unwrap();
    let bytes: Vec<u8> = ends.iter().flat_map(|end| end.to_le_bytes()).collect();
    for offset in 0..12 {
        for len in 1..=12 - offset {
            // SAFETY: the ends rise, and the last is 12
            let runs = unsafe { RunEndBuffer::new_unchecked(ScalarBuffer::<i16>::new(Buffer::new(&bytes), 0, 4), offset, len) };
            assert_eq!(runs.get_start_physical_index(), run(offset));
            assert_eq!(runs.get_end_physical_index(), run(offset + len - 1));
            let cut = ends[run(offset)..=run(offset + len - 1)].iter().map(|&end| (end - offset as i16).min(len as i16));
            assert_eq!(runs.sliced_values().collect::<Vec<_>>(), cut.collect::<Vec<_>>());
        }
    }
}
