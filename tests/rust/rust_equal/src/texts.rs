//! `std::str::from_utf8` for each value of a column of text, over the bytes of an image. Nothing is checked on the way: what
//! is timed is from_utf8, a bit of the bitmap, and two offsets or a view.

use std::slice::from_raw_parts;
use std::str::from_utf8;

/// Where a column stands in an image.
#[repr(C)]
pub struct Column {
    rows: u32,
    /// the place of row 0's offset or view
    first: u32,
    /// the bytes of an offset, 4 or 8, or of a view, 16
    width: u32,
    /// the place of the entry of the text's buffer, or of the first data buffer
    entry: u32,
    /// the bitmap's place, or 0
    bitmap: u32,
    /// the bit of row 0
    first_bit: u32,
}

/// The bytes that an entry and a view's inline text have.
const ENTRY: usize = 8;
const INLINE: usize = 12;

/// How many rows that are not null hold well-formed text.
///
/// # Safety
/// `image` points to `len` bytes of an accepted image, and `column` names a column of text or of its binary layout in it.
#[unsafe(no_mangle)]
pub unsafe extern "C" fn rust_from_utf8(image: *const u8, len: usize, column: &Column) -> usize {
    let image = Image(unsafe { from_raw_parts(image, len) });
    let (first, entry) = (column.first as usize, column.entry as usize);
    unsafe {
        match column.width {
            4 => {
                let text = image.u32(entry);
                well_formed(image, column, |row| {
                    let at = first + 4 * row;
                    image.part(text + image.u32(at), text + image.u32(at + 4))
                })
            }
            8 => {
                let text = image.u32(entry);
                well_formed(image, column, |row| {
                    let at = first + 8 * row;
                    image.part(text + image.u64(at), text + image.u64(at + 8))
                })
            }
            _ => well_formed(image, column, |row| image.view(first + 16 * row, entry)),
        }
    }
}

#[inline(always)]
unsafe fn well_formed<'a>(image: Image<'a>, column: &Column, value: impl Fn(usize) -> &'a [u8]) -> usize {
    let (rows, bitmap, first_bit) = (0..column.rows as usize, column.bitmap as usize, column.first_bit as usize);
    let asked = |row| from_utf8(value(row)).is_ok() as usize;
    if bitmap == 0 {
        rows.map(asked).sum()
    } else {
        rows.filter(|row| unsafe { image.bit(bitmap, first_bit + row) }).map(asked).sum()
    }
}

/// An accepted image, whose places are not looked at again.
#[derive(Clone, Copy)]
struct Image<'a>(&'a [u8]);

impl<'a> Image<'a> {
    #[inline(always)]
    unsafe fn u32(self, place: usize) -> usize {
        u32::from_le(unsafe { self.0.as_ptr().add(place).cast::<u32>().read_unaligned() }) as usize
    }

    #[inline(always)]
    unsafe fn u64(self, place: usize) -> usize {
        u64::from_le(unsafe { self.0.as_ptr().add(place).cast::<u64>().read_unaligned() }) as usize
    }

    #[inline(always)]
    unsafe fn bit(self, place: usize, bit: usize) -> bool {
        unsafe { self.0.get_unchecked(place + bit / 8) >> (bit % 8) & 1 == 1 }
    }

    #[inline(always)]
    unsafe fn part(self, start: usize, end: usize) -> &'a [u8] {
        unsafe { self.0.get_unchecked(start..end) }
    }

    /// The text of the view at a place, its data buffers counted from that of an entry on.
    #[inline(always)]
    unsafe fn view(self, place: usize, entry: usize) -> &'a [u8] {
        unsafe {
            let len = self.u32(place);
            let start =
                if len <= INLINE { place + 4 } else { self.u32(entry + ENTRY * self.u32(place + 8)) + self.u32(place + 12) };
            self.part(start, start + len)
        }
    }
}
