//! Value lists with their text area, from 01, and the Rust's values for them.

use crate::column::ColumnType;
use crate::{LIMIT, Refusal, RowSort};
use rookdb::chrono::{Datelike, NaiveDate, NaiveDateTime, NaiveTime, Timelike};
use rookdb::types::value::{DataValue, NumericValue, OrderedF32, OrderedF64};
use std::ops::RangeInclusive;

/// The dates of 01, days from 1970-01-01: the years 1 to 9999.
pub const DATES: RangeInclusive<i32> = -719_162..=2_932_896;

/// The times of 01 to be written, in microseconds.
pub const TIMES: RangeInclusive<i64> = 0..=86_399_999_999;

/// The timestamps of 01, in microseconds: the years 1 to 9999.
pub const TIMESTAMPS: RangeInclusive<i64> = -62_135_596_800_000_000..=253_402_300_799_999_999;

const DAY: i64 = 86_400_000_000;

/// A part of the text area.
#[derive(Debug, Clone, Copy, PartialEq, Eq)]
pub struct TextRange {
    pub start: usize,
    pub length: usize,
}

impl TextRange {
    pub fn end(self) -> usize {
        self.start + self.length
    }

    /// The bytes of the range, if it is inside the text area.
    pub fn of(self, text: &[u8]) -> Option<&[u8]> {
        text.get(self.start..self.end())
    }

    /// Whether two bytes do not hold its numbers.
    fn is_wide(self) -> bool {
        self.start.max(self.length) > usize::from(u16::MAX)
    }

    /// Both numbers in two bytes each, or in four.
    fn write(self, wide: bool, out: &mut Vec<u8>) {
        for number in [self.start, self.length] {
            let number = u32::try_from(number).expect("a number of four bytes");
            out.extend(&number.to_le_bytes()[..if wide { 4 } else { 2 }]);
        }
    }

    /// Both numbers of a body of four bytes or of eight.
    fn read(body: &[u8]) -> Self {
        let (start, length) = body.split_at(body.len() / 2);
        let number = |bytes: &[u8]| match bytes.len() {
            2 => usize::from(u16::from_le_bytes(array(bytes))),
            _ => u32::from_le_bytes(array(bytes)) as usize,
        };
        TextRange {
            start: number(start),
            length: number(length),
        }
    }
}

/// One record of a value list. Floats are their bits. Of a range two kinds tell, with
/// numbers of two bytes and of four.
#[derive(Debug, Clone, Copy, PartialEq, Eq)]
pub enum Record {
    Null,
    SmallInt(i16),
    Int(i32),
    BigInt(i64),
    Real(u32),
    DoublePrecision(u64),
    Numeric { unscaled: i128, scale: u8 },
    Bool(u8),
    Char(TextRange),
    Varchar(TextRange),
    Date(i32),
    Time(i64),
    Bit(TextRange),
    Timestamp(i64),
}

impl Record {
    /// The kind, of a range that with numbers of two bytes.
    pub fn kind(&self) -> u8 {
        match self {
            Record::Null => 0,
            Record::SmallInt(_) => 1,
            Record::Int(_) => 2,
            Record::BigInt(_) => 3,
            Record::Real(_) => 4,
            Record::DoublePrecision(_) => 5,
            Record::Numeric { .. } => 6,
            Record::Bool(_) => 7,
            Record::Char(_) => 8,
            Record::Varchar(_) => 9,
            Record::Date(_) => 10,
            Record::Time(_) => 11,
            Record::Bit(_) => 12,
            Record::Timestamp(_) => 13,
        }
    }

    /// The kind with numbers of four bytes, if the record has a range.
    pub fn wide_kind(&self) -> Option<u8> {
        match self {
            Record::Char(_) => Some(17),
            Record::Varchar(_) => Some(18),
            Record::Bit(_) => Some(19),
            _ => None,
        }
    }

    /// Puts the record at the end, with numbers of four bytes where two do not hold
    /// them.
    pub fn write(&self, out: &mut Vec<u8>) {
        self.write_as(self.range().is_some_and(TextRange::is_wide), out);
    }

    /// Puts the record at the end, a range with numbers of four bytes or of two.
    pub fn write_as(&self, wide: bool, out: &mut Vec<u8>) {
        let kind = self.wide_kind().filter(|_| wide);
        out.push(kind.unwrap_or(self.kind()));
        match *self {
            Record::Null => {}
            Record::SmallInt(v) => out.extend(v.to_le_bytes()),
            Record::Int(v) | Record::Date(v) => out.extend(v.to_le_bytes()),
            Record::Real(v) => out.extend(v.to_le_bytes()),
            Record::DoublePrecision(v) => out.extend(v.to_le_bytes()),
            Record::BigInt(v) | Record::Time(v) | Record::Timestamp(v) => {
                out.extend(v.to_le_bytes());
            }
            Record::Numeric { unscaled, scale } => {
                out.extend(unscaled.to_le_bytes());
                out.push(scale);
            }
            Record::Bool(v) => out.push(v),
            Record::Char(range) | Record::Varchar(range) | Record::Bit(range) => {
                range.write(wide, out);
            }
        }
    }

    /// The record that starts `bytes`, with its length; `None` if its kind is
    /// unknown or it is cut.
    pub fn read(bytes: &[u8]) -> Option<(Record, usize)> {
        let length = body_length(bytes[0])?;
        let body = bytes.get(1..1 + length)?;
        let record = match bytes[0] {
            0 => Record::Null,
            1 => Record::SmallInt(i16::from_le_bytes(array(body))),
            2 => Record::Int(i32::from_le_bytes(array(body))),
            3 => Record::BigInt(i64::from_le_bytes(array(body))),
            4 => Record::Real(u32::from_le_bytes(array(body))),
            5 => Record::DoublePrecision(u64::from_le_bytes(array(body))),
            6 => Record::Numeric {
                unscaled: i128::from_le_bytes(array(&body[..16])),
                scale: body[16],
            },
            7 => Record::Bool(body[0]),
            8 | 17 => Record::Char(TextRange::read(body)),
            9 | 18 => Record::Varchar(TextRange::read(body)),
            10 => Record::Date(i32::from_le_bytes(array(body))),
            11 => Record::Time(i64::from_le_bytes(array(body))),
            12 | 19 => Record::Bit(TextRange::read(body)),
            _ => Record::Timestamp(i64::from_le_bytes(array(body))),
        };
        Some((record, 1 + length))
    }

    /// The record's text range, if its kind has one.
    pub fn range(&self) -> Option<TextRange> {
        match self {
            Record::Char(range) | Record::Varchar(range) | Record::Bit(range) => Some(*range),
            _ => None,
        }
    }

    /// The record with another text range, if its kind has one.
    pub fn with_range(self, range: TextRange) -> Self {
        match self {
            Record::Char(_) => Record::Char(range),
            Record::Varchar(_) => Record::Varchar(range),
            Record::Bit(_) => Record::Bit(range),
            other => other,
        }
    }

    /// Whether the record's kind is that of the column's type. Null has none.
    pub fn matches(&self, ty: &ColumnType) -> bool {
        let kind = match ty {
            ColumnType::SmallInt => 1,
            ColumnType::Int => 2,
            ColumnType::BigInt => 3,
            ColumnType::Real => 4,
            ColumnType::DoublePrecision => 5,
            ColumnType::Numeric { .. } | ColumnType::Decimal { .. } => 6,
            ColumnType::Bool => 7,
            ColumnType::Char(_) | ColumnType::Character(_) => 8,
            ColumnType::Varchar(_) | ColumnType::VarcharChars(_) => 9,
            ColumnType::Date => 10,
            ColumnType::Time => 11,
            ColumnType::Bit(_) => 12,
            ColumnType::Timestamp => 13,
        };
        self.kind() == kind
    }
}

/// The body length of a value kind; `None` if the kind is unknown.
pub fn body_length(kind: u8) -> Option<usize> {
    const LENGTHS: [usize; 14] = [0, 2, 4, 8, 4, 8, 17, 1, 4, 4, 4, 8, 4, 8];
    match kind {
        17..=19 => Some(8),
        _ => LENGTHS.get(usize::from(kind)).copied(),
    }
}

fn array<const N: usize>(body: &[u8]) -> [u8; N] {
    body.try_into().expect("a body of this length")
}

/// A value list with its text area.
#[derive(Debug, Clone, PartialEq, Eq)]
pub struct ValueList {
    pub bytes: Vec<u8>,
    pub text: Vec<u8>,
}

/// What the Rust is given for a value list.
#[derive(Debug, Clone, PartialEq, Eq)]
pub struct RustValues {
    /// The columns before `outside`, or all of them.
    pub values: Vec<Option<DataValue>>,
    /// The first column whose value lies outside 01's domain. 01 answers 12
    /// there, unless it refuses a column before.
    pub outside: Option<usize>,
}

impl ValueList {
    pub fn of_records(records: &[Record], text: Vec<u8>) -> Self {
        let mut bytes = Vec::new();
        for record in records {
            record.write(&mut bytes);
        }
        ValueList { bytes, text }
    }

    /// The list of these records as a row of this sort reads them: kinds 17, 18 and 19
    /// of a long row.
    pub fn of_records_of(of: RowSort, records: &[Record], text: Vec<u8>) -> Self {
        let mut bytes = Vec::new();
        for record in records {
            record.write_as(of == RowSort::Long, &mut bytes);
        }
        ValueList { bytes, text }
    }

    /// The list of these values, its texts end to end; `None` if the text area
    /// passes its limit. Parts of a microsecond are dropped.
    pub fn of_rust(values: &[Option<DataValue>]) -> Option<Self> {
        let mut text = Vec::new();
        let records: Option<Vec<Record>> = values
            .iter()
            .map(|value| match value {
                None => Some(Record::Null),
                Some(value) => from_rust(value, &mut text),
            })
            .collect();
        Some(Self::of_records(&records?, text))
    }

    /// The records, however many, or refusal 10: the first unknown or cut one.
    pub fn all_records(&self) -> Result<Vec<Record>, Refusal> {
        let mut records = Vec::new();
        let mut at = 0;
        while at < self.bytes.len() {
            let (record, length) = Record::read(&self.bytes[at..]).ok_or(Refusal::new(10, at))?;
            records.push(record);
            at += length;
        }
        Ok(records)
    }

    /// The records, or refusal 10: the first unknown or cut record, then the
    /// count, then the text area.
    pub fn records(&self, count: usize) -> Result<Vec<Record>, Refusal> {
        self.records_of(count, RowSort::Short)
    }

    /// The same of a list for a row of a sort.
    pub fn records_of(&self, count: usize, of: RowSort) -> Result<Vec<Record>, Refusal> {
        let records = self.all_records()?;
        if records.len() != count {
            return Err(Refusal::new(10, self.bytes.len()));
        }
        if self.text.len() > of.limit() {
            return Err(Refusal::new(10, 0));
        }
        Ok(records)
    }

    /// The Rust's values for columns of these types, or refusal 10.
    pub fn to_rust(&self, types: &[ColumnType]) -> Result<RustValues, Refusal> {
        let records = self.records(types.len())?;
        let mut values = Vec::new();
        for (ty, record) in types.iter().zip(&records) {
            match to_rust(ty, record, &self.text) {
                Ok(value) => values.push(value),
                Err(Outside) => break,
            }
        }
        let outside = (values.len() < types.len()).then_some(values.len());
        Ok(RustValues { values, outside })
    }
}

/// The value lies outside 01's domain: the Rust has no such value, or 01 limits
/// what the Rust would take, or the Rust panics in a debug build (the least
/// Numeric). 01 answers 12.
#[derive(Debug, Clone, Copy, PartialEq, Eq)]
pub struct Outside;

/// The Rust's value for a record in a column of this type. The kind is judged
/// before the body, so where it does not match any value of that kind will do.
pub fn to_rust(
    ty: &ColumnType,
    record: &Record,
    text: &[u8],
) -> Result<Option<DataValue>, Outside> {
    if *record == Record::Null {
        return Ok(None);
    }
    if !record.matches(ty) {
        return Ok(Some(of_kind(record)));
    }
    value_of(ty, record, text).map(Some).ok_or(Outside)
}

/// The value of a record that matches the type; `None` outside 01's domain.
fn value_of(ty: &ColumnType, record: &Record, text: &[u8]) -> Option<DataValue> {
    Some(match *record {
        Record::Bool(v) => DataValue::Bool(boolean(v)?),
        Record::Char(range) => DataValue::Char(string(range.of(text)?)?),
        Record::Varchar(range) => DataValue::Varchar(string(range.of(text)?)?),
        Record::Bit(range) => DataValue::Bit(bit_string(bit_length(ty), range.of(text)?)?),
        Record::Numeric { unscaled, .. } if unscaled == i128::MIN => return None,
        Record::Date(days) => DataValue::Date(date(days)?),
        Record::Time(micros) => DataValue::Time(time(micros)?),
        Record::Timestamp(micros) => DataValue::Timestamp(timestamp(micros)?),
        _ => of_kind(record),
    })
}

/// A value of the record's kind: the record's own where every body of the kind
/// is a value, else a plain one.
fn of_kind(record: &Record) -> DataValue {
    match *record {
        Record::SmallInt(v) => DataValue::SmallInt(v),
        Record::Int(v) => DataValue::Int(v),
        Record::BigInt(v) => DataValue::BigInt(v),
        Record::Real(bits) => DataValue::Real(OrderedF32(f32::from_bits(bits))),
        Record::DoublePrecision(bits) => {
            DataValue::DoublePrecision(OrderedF64(f64::from_bits(bits)))
        }
        Record::Numeric { unscaled, scale } => DataValue::numeric(NumericValue { unscaled, scale }),
        Record::Bool(_) => DataValue::Bool(false),
        Record::Char(_) => DataValue::Char(String::new()),
        Record::Varchar(_) => DataValue::Varchar(String::new()),
        Record::Bit(_) => DataValue::Bit(String::new()),
        Record::Date(_) => DataValue::Date(NaiveDate::default()),
        Record::Time(_) => DataValue::Time(NaiveTime::default()),
        Record::Timestamp(_) => DataValue::Timestamp(NaiveDateTime::default()),
        Record::Null => unreachable!("null is no value"),
    }
}

fn boolean(byte: u8) -> Option<bool> {
    (byte <= 1).then_some(byte == 1)
}

fn string(bytes: &[u8]) -> Option<String> {
    String::from_utf8(bytes.to_vec()).ok()
}

fn bit_length(ty: &ColumnType) -> usize {
    match *ty {
        ColumnType::Bit(n) => usize::from(n),
        _ => unreachable!("a Bit record matches a Bit column only"),
    }
}

/// The Rust's string for n packed bits, high bit first; `None` if the bytes are
/// not as many as n bits fill.
fn bit_string(n: usize, packed: &[u8]) -> Option<String> {
    let bit = |i: usize| (packed[i / 8] >> (7 - i % 8)) & 1;
    (packed.len() == n.div_ceil(8)).then(|| (0..n).map(|i| char::from(b'0' + bit(i))).collect())
}

/// The packed bytes of the Rust's string, spare bits zero.
fn packed_bits(bits: &str) -> Vec<u8> {
    let mut packed = vec![0; bits.len().div_ceil(8)];
    for (i, bit) in bits.bytes().enumerate() {
        packed[i / 8] |= (bit & 1) << (7 - i % 8);
    }
    packed
}

/// chrono counts days from 0001-01-01, which is its day 1.
const EPOCH_DAY: i32 = 719_163;

fn date(days: i32) -> Option<NaiveDate> {
    if !DATES.contains(&days) {
        return None;
    }
    NaiveDate::from_num_days_from_ce_opt(days + EPOCH_DAY)
}

fn time(micros: i64) -> Option<NaiveTime> {
    if !TIMES.contains(&micros) {
        return None;
    }
    let seconds = (micros / 1_000_000) as u32;
    let nanos = (micros % 1_000_000 * 1_000) as u32;
    NaiveTime::from_num_seconds_from_midnight_opt(seconds, nanos)
}

fn timestamp(micros: i64) -> Option<NaiveDateTime> {
    let days = i32::try_from(micros.div_euclid(DAY)).ok()?;
    let time = time(micros.rem_euclid(DAY))?;
    Some(NaiveDateTime::new(date(days)?, time))
}

fn days(date: NaiveDate) -> i32 {
    date.num_days_from_ce() - EPOCH_DAY
}

fn micros_of_day(time: NaiveTime) -> i64 {
    i64::from(time.num_seconds_from_midnight()) * 1_000_000 + i64::from(time.nanosecond()) / 1_000
}

fn micros(timestamp: NaiveDateTime) -> i64 {
    i64::from(days(timestamp.date())) * DAY + micros_of_day(timestamp.time())
}

/// The record of a value, its text appended to the text area; `None` if the
/// range passes the limit.
fn from_rust(value: &DataValue, text: &mut Vec<u8>) -> Option<Record> {
    Some(match value {
        DataValue::SmallInt(v) => Record::SmallInt(*v),
        DataValue::Int(v) => Record::Int(*v),
        DataValue::BigInt(v) => Record::BigInt(*v),
        DataValue::Real(v) => Record::Real(v.0.to_bits()),
        DataValue::DoublePrecision(v) => Record::DoublePrecision(v.0.to_bits()),
        DataValue::Numeric(v) => Record::Numeric {
            unscaled: v.unscaled,
            scale: v.scale,
        },
        DataValue::Bool(v) => Record::Bool(u8::from(*v)),
        DataValue::Char(v) => Record::Char(append(v.as_bytes(), text)?),
        DataValue::Varchar(v) => Record::Varchar(append(v.as_bytes(), text)?),
        DataValue::Date(v) => Record::Date(days(*v)),
        DataValue::Time(v) => Record::Time(micros_of_day(*v)),
        DataValue::Bit(v) => Record::Bit(append(&packed_bits(v), text)?),
        DataValue::Timestamp(v) => Record::Timestamp(micros(*v)),
    })
}

/// Puts bytes at the end of the text area; `None` if it passes the limit.
pub fn append(bytes: &[u8], text: &mut Vec<u8>) -> Option<TextRange> {
    append_up_to(LIMIT, bytes, text)
}

/// The same with this limit.
pub fn append_up_to(limit: usize, bytes: &[u8], text: &mut Vec<u8>) -> Option<TextRange> {
    let range = TextRange {
        start: text.len(),
        length: bytes.len(),
    };
    (range.end() <= limit).then(|| {
        text.extend(bytes);
        range
    })
}

/// Whether a record with its text area is this value of the Rust. The spare bits
/// of a Bit do not count.
pub fn is_value(record: &Record, text: &[u8], value: Option<&DataValue>) -> bool {
    match (record, value) {
        (Record::Null, None) => true,
        (Record::Char(range), Some(DataValue::Char(v)))
        | (Record::Varchar(range), Some(DataValue::Varchar(v))) => {
            range.of(text) == Some(v.as_bytes())
        }
        (Record::Bit(range), Some(DataValue::Bit(v))) => range
            .of(text)
            .is_some_and(|packed| bit_string(v.len(), packed).as_ref() == Some(v)),
        (_, Some(v)) => record.range().is_none() && from_rust(v, &mut Vec::new()) == Some(*record),
        (_, None) => false,
    }
}

/// Whether 01 takes a value that the Rust read: it limits dates and timestamps
/// to the years 1 to 9999.
pub fn in_domain(value: &DataValue) -> bool {
    match value {
        DataValue::Date(v) => DATES.contains(&days(*v)),
        DataValue::Timestamp(v) => TIMESTAMPS.contains(&micros(*v)),
        _ => true,
    }
}
