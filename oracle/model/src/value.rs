//! Value lists: a record is one byte of kind and a body whose length the kind
//! fixes. Refusal 10, and which kind belongs to which type.

use crate::schema::Type;
use crate::sort::Sort;

/// A part of a text area.
#[derive(Debug, Clone, Copy, PartialEq, Eq)]
pub struct Range {
    pub start: usize,
    pub length: usize,
}

impl Range {
    /// The bytes of the range; `None` if it leaves the area.
    pub fn of(self, area: &[u8]) -> Option<&[u8]> {
        area.get(self.start..self.start + self.length)
    }
}

/// A record of a value list. Floats are their bits, a Bool is its body. Ranges are of
/// two or of four bytes a number: kinds 8, 9 and 12, or 17, 18 and 19.
#[derive(Debug, Clone, Copy, PartialEq, Eq)]
pub enum Value {
    Null,
    SmallInt(i16),
    Int(i32),
    BigInt(i64),
    Real(u32),
    DoublePrecision(u64),
    Numeric { unscaled: i128, scale: u8 },
    Bool(u8),
    Char(Range),
    Varchar(Range),
    Date(i32),
    Time(i64),
    Bit(Range),
    Timestamp(i64),
}

/// The body length of a kind; `None` if it is unknown.
fn body_length(kind: u8) -> Option<usize> {
    const LENGTHS: [usize; 14] = [0, 2, 4, 8, 4, 8, 17, 1, 4, 4, 4, 8, 4, 8];
    match kind {
        0..=13 => Some(LENGTHS[usize::from(kind)]),
        17..=19 => Some(8),
        _ => None,
    }
}

impl Value {
    /// The kind, of a range that of two bytes a number.
    pub fn kind(&self) -> u8 {
        match self {
            Value::Null => 0,
            Value::SmallInt(_) => 1,
            Value::Int(_) => 2,
            Value::BigInt(_) => 3,
            Value::Real(_) => 4,
            Value::DoublePrecision(_) => 5,
            Value::Numeric { .. } => 6,
            Value::Bool(_) => 7,
            Value::Char(_) => 8,
            Value::Varchar(_) => 9,
            Value::Date(_) => 10,
            Value::Time(_) => 11,
            Value::Bit(_) => 12,
            Value::Timestamp(_) => 13,
        }
    }

    /// Whether the kind is the column's; that of null is no column's.
    pub fn matches(&self, ty: Type) -> bool {
        let kind = match ty {
            Type::SmallInt => 1,
            Type::Int => 2,
            Type::BigInt => 3,
            Type::Real => 4,
            Type::DoublePrecision => 5,
            Type::Numeric { .. } | Type::Decimal { .. } => 6,
            Type::Bool => 7,
            Type::Char(_) | Type::Character(_) => 8,
            Type::Varchar(_) | Type::VarcharChars(_) => 9,
            Type::Date => 10,
            Type::Time => 11,
            Type::Bit(_) => 12,
            Type::Timestamp => 13,
        };
        self.kind() == kind
    }

    /// The kind that a row of this sort reads into.
    pub fn kind_of(&self, sort: Sort) -> u8 {
        match (sort, self) {
            (Sort::Long, Value::Char(_)) => 17,
            (Sort::Long, Value::Varchar(_)) => 18,
            (Sort::Long, Value::Bit(_)) => 19,
            _ => self.kind(),
        }
    }

    /// The record's bytes, as a row of this sort reads.
    pub fn record(&self, sort: Sort) -> Vec<u8> {
        let body = match *self {
            Value::Null => vec![],
            Value::SmallInt(v) => v.to_le_bytes().to_vec(),
            Value::Int(v) | Value::Date(v) => v.to_le_bytes().to_vec(),
            Value::BigInt(v) | Value::Time(v) | Value::Timestamp(v) => v.to_le_bytes().to_vec(),
            Value::Real(bits) => bits.to_le_bytes().to_vec(),
            Value::DoublePrecision(bits) => bits.to_le_bytes().to_vec(),
            Value::Numeric { unscaled, scale } => [&unscaled.to_le_bytes()[..], &[scale]].concat(),
            Value::Bool(v) => vec![v],
            Value::Char(range) | Value::Varchar(range) | Value::Bit(range) => match sort {
                Sort::Short => [two_bytes(range.start), two_bytes(range.length)].concat(),
                Sort::Long => [four_bytes(range.start), four_bytes(range.length)].concat(),
            },
        };
        [vec![self.kind_of(sort)], body].concat()
    }
}

/// The bytes of a value list, as a row of this sort reads.
pub fn list(values: &[Value], sort: Sort) -> Vec<u8> {
    let record = |value: &Value| value.record(sort);
    values.iter().flat_map(record).collect()
}

/// A number of two bytes, little-endian.
pub fn two_bytes(number: usize) -> [u8; 2] {
    u16::try_from(number).expect("two bytes").to_le_bytes()
}

/// A number of four bytes, little-endian.
pub fn four_bytes(number: usize) -> [u8; 4] {
    u32::try_from(number).expect("four bytes").to_le_bytes()
}

/// The values of a list for this many columns, or the place of 10. All records
/// are judged before their count, the text area's length last, by the sort of the row
/// that they are for. Every known kind is taken for either sort.
pub fn check_list(
    list: &[u8],
    columns: usize,
    area_len: usize,
    sort: Sort,
) -> Result<Vec<Value>, usize> {
    let mut values = Vec::new();
    let mut at = 0;
    while at < list.len() {
        // An unknown kind, or a body that is cut.
        let Some(body) = body_length(list[at]) else {
            return Err(at);
        };
        let Some(bytes) = list.get(at + 1..at + 1 + body) else {
            return Err(at);
        };
        values.push(value(list[at], bytes));
        at += 1 + body;
    }
    if values.len() != columns {
        return Err(list.len());
    }
    if area_len > sort.limit() {
        return Err(0);
    }
    Ok(values)
}

/// The value of a known kind and its whole body.
fn value(kind: u8, body: &[u8]) -> Value {
    let range = || Range {
        start: usize::from(body[0]) + 256 * usize::from(body[1]),
        length: usize::from(body[2]) + 256 * usize::from(body[3]),
    };
    let wide_range = || Range {
        start: u32::from_le_bytes(array(&body[..4])) as usize,
        length: u32::from_le_bytes(array(&body[4..])) as usize,
    };
    match kind {
        0 => Value::Null,
        1 => Value::SmallInt(i16::from_le_bytes(array(body))),
        2 => Value::Int(i32::from_le_bytes(array(body))),
        3 => Value::BigInt(i64::from_le_bytes(array(body))),
        4 => Value::Real(u32::from_le_bytes(array(body))),
        5 => Value::DoublePrecision(u64::from_le_bytes(array(body))),
        6 => Value::Numeric {
            unscaled: i128::from_le_bytes(array(&body[..16])),
            scale: body[16],
        },
        7 => Value::Bool(body[0]),
        8 => Value::Char(range()),
        9 => Value::Varchar(range()),
        10 => Value::Date(i32::from_le_bytes(array(body))),
        11 => Value::Time(i64::from_le_bytes(array(body))),
        12 => Value::Bit(range()),
        13 => Value::Timestamp(i64::from_le_bytes(array(body))),
        17 => Value::Char(wide_range()),
        18 => Value::Varchar(wide_range()),
        _ => Value::Bit(wide_range()),
    }
}

/// The bytes as an array of exactly their number.
pub fn array<const N: usize>(bytes: &[u8]) -> [u8; N] {
    bytes.try_into().expect("as many bytes as the kind fixes")
}
