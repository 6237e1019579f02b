//! Stand-in for the crate arrow-schema: the types of the Arrow Columnar Format, and when two are the same.
//!
//! A type is the same as another if its variant, its parameters and its children's fields are; a field if its name, type,
//! nullable flag and metadata are. Variants and the forms of their parts are those that the copied module names.

use std::collections::HashMap;
use std::ops::Deref;
use std::sync::Arc;

#[derive(Clone, Copy, Debug, PartialEq, Eq)]
pub enum TimeUnit {
    Second,
    Millisecond,
    Microsecond,
    Nanosecond,
}

#[derive(Clone, Copy, Debug, PartialEq, Eq)]
pub enum IntervalUnit {
    YearMonth,
    DayTime,
    MonthDayNano,
}

#[derive(Clone, Copy, Debug, PartialEq, Eq)]
pub enum UnionMode {
    Sparse,
    Dense,
}

#[derive(Clone, Debug, PartialEq, Eq)]
pub enum DataType {
    Null,
    Boolean,
    Int8,
    Int16,
    Int32,
    Int64,
    UInt8,
    UInt16,
    UInt32,
    UInt64,
    Float16,
    Float32,
    Float64,
    Timestamp(TimeUnit, Option<Arc<str>>),
    Date32,
    Date64,
    Time32(TimeUnit),
    Time64(TimeUnit),
    Duration(TimeUnit),
    Interval(IntervalUnit),
    Binary,
    FixedSizeBinary(i32),
    LargeBinary,
    BinaryView,
    Utf8,
    LargeUtf8,
    Utf8View,
    List(FieldRef),
    ListView(FieldRef),
    FixedSizeList(FieldRef, i32),
    LargeList(FieldRef),
    LargeListView(FieldRef),
    Struct(Fields),
    Union(UnionFields, UnionMode),
    Dictionary(Box<DataType>, Box<DataType>),
    Decimal32(u8, i8),
    Decimal64(u8, i8),
    Decimal128(u8, i8),
    Decimal256(u8, i8),
    Map(FieldRef, bool),
    RunEndEncoded(FieldRef, FieldRef),
}

#[derive(Clone, Debug, PartialEq, Eq)]
pub struct Field {
    name: String,
    data_type: DataType,
    nullable: bool,
    metadata: HashMap<String, String>,
}

pub type FieldRef = Arc<Field>;

impl Field {
    pub fn new(name: String, data_type: DataType, nullable: bool) -> Self {
        Self { name, data_type, nullable, metadata: HashMap::new() }
    }

    pub fn data_type(&self) -> &DataType {
        &self.data_type
    }

    pub fn is_nullable(&self) -> bool {
        self.nullable
    }

    pub fn metadata(&self) -> &HashMap<String, String> {
        &self.metadata
    }
}

/// The fields of a Struct, in their order.
#[derive(Clone, Debug, PartialEq, Eq)]
pub struct Fields(Arc<[FieldRef]>);

impl From<Vec<FieldRef>> for Fields {
    fn from(fields: Vec<FieldRef>) -> Self {
        Self(fields.into())
    }
}

impl Deref for Fields {
    type Target = [FieldRef];

    fn deref(&self) -> &[FieldRef] {
        &self.0
    }
}

/// The fields of a Union with their type ids, in their order.
#[derive(Clone, Debug, PartialEq, Eq)]
pub struct UnionFields(Arc<[(i8, FieldRef)]>);

impl From<Vec<(i8, FieldRef)>> for UnionFields {
    fn from(fields: Vec<(i8, FieldRef)>) -> Self {
        Self(fields.into())
    }
}

impl UnionFields {
    pub fn iter(&self) -> impl Iterator<Item = (i8, &FieldRef)> + '_ {
        self.0.iter().map(|(id, field)| (*id, field))
    }
}
