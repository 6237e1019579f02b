//! Run ends, and the rows that are looked at: `len` rows from row `offset` on. A row's run is the first whose end is above
//! the row.

use crate::buffer::ScalarBuffer;
use crate::native::ArrowNativeType;

pub struct RunEndBuffer<E> {
    ends: ScalarBuffer<E>,
    offset: usize,
    len: usize,
}

impl<E: ArrowNativeType> RunEndBuffer<E> {
    /// # Safety
    /// The ends are positive and rise strictly, and the last is not below offset + len.
    pub unsafe fn new_unchecked(ends: ScalarBuffer<E>, offset: usize, len: usize) -> Self {
        Self { ends, offset, len }
    }

    #[inline]
    pub fn values(&self) -> &[E] {
        &self.ends
    }

    #[inline]
    pub fn offset(&self) -> usize {
        self.offset
    }

    fn physical_index(&self, row: usize) -> usize {
        let row = E::usize_as(self.offset + row);
        self.ends.partition_point(|end| *end <= row)
    }

    /// The run of the first row, 0 where there is none.
    pub fn get_start_physical_index(&self) -> usize {
        if self.offset == 0 || self.len == 0 { 0 } else { self.physical_index(0) }
    }

    /// The run of the last row, 0 where there is none.
    pub fn get_end_physical_index(&self) -> usize {
        if self.len == 0 { 0 } else { self.physical_index(self.len - 1) }
    }

    /// The ends of the runs that the rows lie in, counted from the first row and cut at the last.
    pub fn sliced_values(&self) -> impl Iterator<Item = E> + '_ {
        let runs = match self.len {
            0 => &self.ends[..0],
            _ => &self.ends[self.get_start_physical_index()..=self.get_end_physical_index()],
        };
        runs.iter().map(|end| E::usize_as((end.as_usize() - self.offset).min(self.len)))
    }
}
