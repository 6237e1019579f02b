//! From an image of document 01 to `ArrayData`. Each buffer is copied to aligned memory; names are given as hexadecimal text.
//!
//! The image is taken to be accepted: what is wrong in it panics here or later.

use std::fmt::Write;
use std::sync::Arc;

use arrow_buffer::{BooleanBuffer, Buffer, NullBuffer};
use arrow_data::ArrayData;
use arrow_schema::{DataType, Field, FieldRef, IntervalUnit, TimeUnit, UnionMode};

/// Which bitmaps become null masks.
#[derive(Clone, Copy, Debug, PartialEq, Eq)]
pub enum Masks {
    /// all of them, as after slicing in the Rust
    All,
    /// those with a null, as the Rust's builder has it
    WithNulls,
}

pub fn load(image: &[u8], masks: Masks) -> ArrayData {
    let reader = Reader { image, nodes: number(image, 0, NODES), masks };
    reader.array(0)
}

/// The number at a place that is counted from `start` on.
fn number(bytes: &[u8], start: usize, (place, width): Place) -> usize {
    bytes[start + place..start + place + width].iter().rev().fold(0, |value, byte| value << 8 | *byte as usize)
}

struct Reader<'a> {
    image: &'a [u8],
    nodes: usize,
    masks: Masks,
}

/// The sizes of the header, of a node's record and of a buffer's entry.
const HEADER: usize = 4;
const RECORD: usize = 44;
const ENTRY: usize = 8;

/// A place and a width, in bytes.
type Place = (usize, usize);

/// Of the header: the number of nodes.
const NODES: Place = (0, 2);

/// Of a record: its fields.
const CODE: Place = (0, 1);
const FLAGS: Place = (1, 1);
const ID: Place = (2, 1);
const NAME_LENGTH: Place = (3, 1);
const P1: Place = (4, 4);
const P2: Place = (8, 4);
const LENGTH: Place = (12, 4);
const OFFSET: Place = (16, 4);
const NAME_PLACE: Place = (20, 4);
const BITMAP_PLACE: Place = (24, 4);
const BITMAP_LENGTH: Place = (28, 4);
const FIRST_BIT: Place = (32, 4);
const FIRST_CHILD: Place = (36, 2);
const CHILD_COUNT: Place = (38, 2);
const FIRST_BUFFER: Place = (40, 2);
const BUFFER_COUNT: Place = (42, 2);

/// Of an entry: a buffer's place and length.
const ENTRY_PLACE: Place = (0, 4);
const ENTRY_LENGTH: Place = (4, 4);

const NULLABLE: usize = 1;
const HAS_BITMAP: usize = 2;

impl Reader<'_> {
    fn field(&self, node: usize, field: Place) -> usize {
        number(self.image, HEADER + RECORD * node, field)
    }

    fn children(&self, node: usize) -> std::ops::Range<usize> {
        let first = self.field(node, FIRST_CHILD);
        first..first + self.field(node, CHILD_COUNT)
    }

    fn bytes(&self, place: usize, len: usize) -> &[u8] {
        &self.image[place..place + len]
    }

    fn array(&self, node: usize) -> ArrayData {
        let len = self.field(node, LENGTH);
        let first = self.field(node, FIRST_BUFFER);
        let buffers = first..first + self.field(node, BUFFER_COUNT);
        ArrayData::from_parts(
            self.data_type(node),
            len,
            self.field(node, OFFSET),
            self.nulls(node, len),
            buffers.map(|buffer| self.buffer(buffer)).collect(),
            self.children(node).map(|child| self.array(child)).collect(),
        )
    }

    fn buffer(&self, buffer: usize) -> Buffer {
        let entry = HEADER + RECORD * self.nodes + ENTRY * buffer;
        Buffer::new(self.bytes(number(self.image, entry, ENTRY_PLACE), number(self.image, entry, ENTRY_LENGTH)))
    }

    fn nulls(&self, node: usize, len: usize) -> Option<NullBuffer> {
        if self.field(node, FLAGS) & HAS_BITMAP == 0 {
            return None;
        }
        let bytes = self.bytes(self.field(node, BITMAP_PLACE), self.field(node, BITMAP_LENGTH));
        let bits = BooleanBuffer::new(Buffer::new(bytes), self.field(node, FIRST_BIT), len);
        let nulls = NullBuffer::new(bits);
        (self.masks == Masks::All || nulls.null_count() != 0).then_some(nulls)
    }

    fn schema_field(&self, node: usize) -> FieldRef {
        let length = self.field(node, NAME_LENGTH);
        let mut name = String::with_capacity(2 * length);
        if length > 0 {
            for byte in self.bytes(self.field(node, NAME_PLACE), length) {
                write!(name, "{byte:02x}").unwrap();
            }
        }
        Arc::new(Field::new(name, self.data_type(node), self.field(node, FLAGS) & NULLABLE != 0))
    }

    fn only_child(&self, node: usize) -> FieldRef {
        self.schema_field(self.children(node).start)
    }

    fn data_type(&self, node: usize) -> DataType {
        let p1 = self.field(node, P1) as u32 as i32;
        let (precision, scale) = (p1 as u8, self.field(node, P2) as i8);
        match self.field(node, CODE) {
            0 => DataType::Null,
            1 => DataType::Boolean,
            code @ 2..=9 => integer(code),
            10 => DataType::Float16,
            11 => DataType::Float32,
            12 => DataType::Float64,
            13 => DataType::Date32,
            14 => DataType::Date64,
            15 => DataType::Decimal32(precision, scale),
            16 => DataType::Decimal64(precision, scale),
            17 => DataType::Decimal128(precision, scale),
            18 => DataType::Decimal256(precision, scale),
            19 => DataType::Time32(unit(p1)),
            20 => DataType::Time64(unit(p1)),
            21 => DataType::Timestamp(unit(p1), None),
            22 => DataType::Duration(unit(p1)),
            23 => DataType::Interval(IntervalUnit::YearMonth),
            24 => DataType::Interval(IntervalUnit::DayTime),
            25 => DataType::Interval(IntervalUnit::MonthDayNano),
            26 => DataType::Utf8,
            27 => DataType::Binary,
            28 => DataType::LargeUtf8,
            29 => DataType::LargeBinary,
            30 => DataType::FixedSizeBinary(p1),
            31 => DataType::Utf8View,
            32 => DataType::BinaryView,
            33 => DataType::List(self.only_child(node)),
            34 => DataType::LargeList(self.only_child(node)),
            35 => DataType::ListView(self.only_child(node)),
            36 => DataType::LargeListView(self.only_child(node)),
            37 => DataType::FixedSizeList(self.only_child(node), p1),
            38 => DataType::Struct(self.children(node).map(|child| self.schema_field(child)).collect::<Vec<_>>().into()),
            39 => self.union(node, UnionMode::Dense),
            40 => self.union(node, UnionMode::Sparse),
            41 => {
                let values = self.data_type(self.children(node).start);
                DataType::Dictionary(Box::new(integer(p1 as usize)), Box::new(values))
            }
            42 => DataType::Map(self.only_child(node), p1 == 1),
            43 => {
                let ends = self.children(node).start;
                DataType::RunEndEncoded(self.schema_field(ends), self.schema_field(ends + 1))
            }
            code => panic!("unknown code {code}"),
        }
    }

    fn union(&self, node: usize, mode: UnionMode) -> DataType {
        let fields = self.children(node).map(|child| (self.field(child, ID) as i8, self.schema_field(child)));
        DataType::Union(fields.collect::<Vec<_>>().into(), mode)
    }
}

fn integer(code: usize) -> DataType {
    match code {
        2 => DataType::Int8,
        3 => DataType::Int16,
        4 => DataType::Int32,
        5 => DataType::Int64,
        6 => DataType::UInt8,
        7 => DataType::UInt16,
        8 => DataType::UInt32,
        9 => DataType::UInt64,
        _ => panic!("{code} is no integer's code"),
    }
}

fn unit(p1: i32) -> TimeUnit {
    match p1 {
        0 => TimeUnit::Second,
        1 => TimeUnit::Millisecond,
        2 => TimeUnit::Microsecond,
        3 => TimeUnit::Nanosecond,
        _ => panic!("{p1} is no unit"),
    }
}
