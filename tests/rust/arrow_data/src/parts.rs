// Stand-in for the builder of `ArrayData`: its fields as they are given. A part of the copied module data, since the fields
// are private there.

use super::ArrayData;
use arrow_buffer::{Buffer, NullBuffer};
use arrow_schema::DataType;

impl ArrayData {
    pub fn from_parts(
        data_type: DataType,
        len: usize,
        offset: usize,
        nulls: Option<NullBuffer>,
        buffers: Vec<Buffer>,
        child_data: Vec<ArrayData>,
    ) -> Self {
        Self { data_type, len, offset, buffers, child_data, nulls }
    }
}
