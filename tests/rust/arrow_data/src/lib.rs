//! The equal module of the crate arrow-data, and the parts of its data.rs and byte_view.rs that it reads, copied by build.rs.

pub mod bit_iterator {
    pub use arrow_buffer::bit_iterator::*;
}

include!(concat!(env!("OUT_DIR"), "/modules.rs"));

pub use byte_view::ByteView;
pub use data::ArrayData;
pub(crate) use data::contains_nulls;
