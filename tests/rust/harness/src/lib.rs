//! Asks the Rust: reads images of document 01 into `ArrayData`, calls `equal` and `equal_range`, and catches panics.

pub mod cases;
mod image;

use std::fmt;
use std::hint::black_box;
use std::panic::{AssertUnwindSafe, catch_unwind};
use std::time::Instant;

use arrow_data::ArrayData;
use arrow_data::equal::{equal, equal_range};

pub use image::{Masks, load};

use cases::{Case, Range};

/// What the Rust does with a case.
#[derive(Clone, Copy, Debug, PartialEq, Eq)]
pub enum Answer {
    No,
    Yes,
    Panic,
    /// an image that cannot be made an `ArrayData`; the accepted ones all can
    NotRead,
}

impl Answer {
    pub fn number(self) -> u8 {
        self as u8
    }

    fn of(yes: bool) -> Self {
        if yes { Self::Yes } else { Self::No }
    }
}

/// Panics are answers here, and print nothing.
pub fn quiet() {
    std::panic::set_hook(Box::new(|_| {}));
}

/// What the Rust says of a case. In print: the answer's number, and where rows are asked for two more, what `equal_range`
/// says of the range, and the first row of the range that is unequal by itself, plus 1; 0 for none, `p` for a panic.
pub struct Said {
    answer: Answer,
    rows: Option<(Answer, Option<usize>)>,
}

impl fmt::Display for Said {
    fn fmt(&self, out: &mut fmt::Formatter) -> fmt::Result {
        write!(out, "{}", self.answer.number())?;
        match self.rows {
            None => Ok(()),
            Some((range, Some(first))) => write!(out, " {} {first}", range.number()),
            Some((range, None)) => write!(out, " {} p", range.number()),
        }
    }
}

pub fn ask(case: &Case) -> Said {
    let load = |image| catch_unwind(|| load(image, case.masks));
    let (Ok(left), Ok(right)) = (load(case.left), load(case.right)) else {
        return Said { answer: Answer::NotRead, rows: None };
    };
    let answer = if case.whole { ask_equal(&left, &right) } else { ask_range(&left, &right, case.range) };
    let rows = case.rows.then(|| (ask_range(&left, &right, case.range), ask_each(&left, &right, case.range)));
    Said { answer, rows }
}

/// `equal`, a panic being an answer of its own.
pub fn ask_equal(left: &ArrayData, right: &ArrayData) -> Answer {
    catch_unwind(AssertUnwindSafe(|| equal(left, right))).map_or(Answer::Panic, Answer::of)
}

/// `equal_range`, a panic being an answer of its own.
fn ask_range(left: &ArrayData, right: &ArrayData, (left_start, right_start, count): Range) -> Answer {
    catch_unwind(AssertUnwindSafe(|| equal_range(left, right, left_start, right_start, count)))
        .map_or(Answer::Panic, Answer::of)
}

/// The first row of a range, counted from its start, for which `equal_range` says no when it is asked about that row alone,
/// plus 1; 0 where it says yes for each. Nothing for a panic.
fn ask_each(left: &ArrayData, right: &ArrayData, (left_start, right_start, count): Range) -> Option<usize> {
    let equal = |k: &usize| equal_range(left, right, left_start + k, right_start + k, 1);
    catch_unwind(AssertUnwindSafe(|| (0..count).find(|k| !equal(k)).map_or(0, |k| k + 1))).ok()
}

/// The time of `equal` alone on two images, in nanoseconds: the median of so many calls.
pub fn time_equal(left: &[u8], right: &[u8], calls: usize) -> u64 {
    let (left, right) = (load(left, Masks::WithNulls), load(right, Masks::WithNulls));
    let mut times: Vec<u64> = (0..calls)
        .map(|_| {
            let start = Instant::now();
            black_box(equal(black_box(&left), black_box(&right)));
            start.elapsed().as_nanos() as u64
        })
        .collect();
    times.sort_unstable();
    times[calls / 2]
}
