//! Answers cases by our library and by the Rust: a line for each with four words or more. The first three are ours: whether
//! the tables are equal (`-` where only the range is asked about), whether the range is, and its first unequal row, plus 1. Each
//! is the call's value, 0 for no and for none, or after an r the refusal's number, side and node. Then what the program `beside`
//! says.
//!
//!     both [FILE]    the cases of a file, or of standard input

use std::io::Write;

use harness::cases::Case;

type RangeCall = unsafe extern "C" fn(*const u8, usize, *const u8, usize, u32, u32, u32) -> u64;

// of libeditions_c.a and of libcalls_c.a: bits 0 to 7 the refusal; where it is 0 bits 8 to 63 the value, else bits 8 to 15 the
// side and bits 16 to 31 the node
unsafe extern "C" {
    fn editions_compare(left: *const u8, left_length: usize, right: *const u8, right_length: usize) -> u64;

    fn editions_compare_range(
        left: *const u8,
        left_length: usize,
        right: *const u8,
        right_length: usize,
        left_start: u32,
        right_start: u32,
        count: u32,
    ) -> u64;

    fn editions_first_difference(
        left: *const u8,
        left_length: usize,
        right: *const u8,
        right_length: usize,
        left_start: u32,
        right_start: u32,
        count: u32,
    ) -> u64;
}

fn word(answer: u64) -> String {
    match answer & 0xff {
        0 => (answer >> 8).to_string(),
        refusal => format!("r{refusal}.{}.{}", answer >> 8 & 0xff, answer >> 16),
    }
}

fn whole(case: &Case) -> String {
    if !case.whole {
        return "-".to_string();
    }
    // SAFETY: the call reads the two images and nothing else
    word(unsafe { editions_compare(case.left.as_ptr(), case.left.len(), case.right.as_ptr(), case.right.len()) })
}

fn range(call: RangeCall, case: &Case) -> String {
    let (left, right, (left_start, right_start, count)) = (case.left, case.right, case.range);
    // SAFETY: as above
    word(unsafe {
        call(left.as_ptr(), left.len(), right.as_ptr(), right.len(), left_start as u32, right_start as u32, count as u32)
    })
}

fn main() -> std::io::Result<()> {
    let bytes = harness::cases::asked()?;
    harness::quiet();
    let mut lines = Vec::new();
    for case in harness::cases::cases(&bytes) {
        let (range, first) = (range(editions_compare_range, &case), range(editions_first_difference, &case));
        writeln!(lines, "{} {range} {first} {}", whole(&case), harness::ask(&case))?;
    }
    std::io::stdout().write_all(&lines)
}
