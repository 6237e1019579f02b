//! Cases in a file: for each, u32 length and bytes of the left image, the same of the right, u32 left start, u32 right start,
//! u32 count, and a byte. The byte's bit 0 asks for the range instead of the whole; its bit 1 leaves out the null masks that
//! have no null; its bit 2 asks for the first unequal row of the range too. Numbers are little-endian.

use std::io::Read;

use crate::Masks;

pub struct Case<'a> {
    pub left: &'a [u8],
    pub right: &'a [u8],
    pub range: Range,
    /// whole tables are asked about; the range only by the calls that have one
    pub whole: bool,
    pub masks: Masks,
    /// the Rust is asked for the first unequal row of the range
    pub rows: bool,
}

/// Left start, right start and count.
pub type Range = (usize, usize, usize);

/// The bytes of the file that the program's first argument names, or of standard input.
pub fn asked() -> std::io::Result<Vec<u8>> {
    let mut bytes = Vec::new();
    match std::env::args_os().nth(1) {
        Some(file) => bytes = std::fs::read(file)?,
        None => _ = std::io::stdin().read_to_end(&mut bytes)?,
    }
    Ok(bytes)
}

/// The cases of a file's bytes.
pub fn cases(mut bytes: &[u8]) -> impl Iterator<Item = Case<'_>> {
    std::iter::from_fn(move || {
        if bytes.is_empty() {
            return None;
        }
        let (left, right) = (image(&mut bytes), image(&mut bytes));
        let range = (number(&mut bytes), number(&mut bytes), number(&mut bytes));
        let kind = take(&mut bytes, 1)[0];
        Some(Case {
            left,
            right,
            range,
            whole: kind & 1 == 0,
            masks: if kind & 2 != 0 { Masks::WithNulls } else { Masks::All },
            rows: kind & 4 != 0,
        })
    })
}

fn image<'a>(bytes: &mut &'a [u8]) -> &'a [u8] {
    let len = number(bytes);
    take(bytes, len)
}

fn number(bytes: &mut &[u8]) -> usize {
    u32::from_le_bytes(take(bytes, 4).try_into().unwrap()) as usize
}

fn take<'a>(bytes: &mut &'a [u8], len: usize) -> &'a [u8] {
    let (taken, rest) = bytes.split_at_checked(len).expect("the file of cases is cut short");
    *bytes = rest;
    taken
}
