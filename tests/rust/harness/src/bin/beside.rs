//! Answers cases by the Rust: a line for each, 0 no, 1 yes, 2 a panic, 3 an image that could not be read. Where rows are asked
//! for, the same for the range, and the first row that is unequal by itself, plus 1; 0 for none, `p` for a panic.
//!
//!     beside [FILE]    the cases of a file, or of standard input

use std::io::Write;

fn main() -> std::io::Result<()> {
    let bytes = harness::cases::asked()?;
    harness::quiet();
    let mut lines = Vec::new();
    for case in harness::cases::cases(&bytes) {
        writeln!(lines, "{}", harness::ask(&case))?;
    }
    std::io::stdout().write_all(&lines)
}
