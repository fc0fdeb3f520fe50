//! Value lists, in which values pass to the library.
use crate::raw::{limit, value_kind};
use crate::{DataType, Schema, Value};
use alloc::vec::Vec;

/// The most bytes that a value takes in a list.
pub(crate) const RECORD: usize = limit::RECORD;

/// The length in a range that no bit string has, so that the library refuses it with 12.
const NO_LENGTH: usize = 0xFFFF;

/// A kind that no value has, and that the library refuses.
const NO_KIND: u8 = 14;
const _: () = {
    let mut at = 0;
    while at < value_kind::ALL.len() {
        assert!(value_kind::ALL[at].1 != NO_KIND);
        at += 1;
    }
};

/// Lends a number for each column, which takes no memory of the heap.
#[inline(always)]
pub(crate) fn with_counts<R>(columns: usize, then: impl FnOnce(&mut [u32]) -> R) -> R {
    const FEW: usize = 32;
    let (mut few, mut many);
    let counts: &mut [u32] = if columns <= FEW {
        few = [0; FEW];
        &mut few[..columns]
    } else {
        many = [0; limit::COLUMNS];
        &mut many[..columns]
    };
    then(counts)
}

/// The text of a value, or the bytes of its bits: what its record has a range for.
#[inline]
pub(crate) fn text<'v>(value: &'v Value<'_>) -> &'v [u8] {
    match value {
        Value::Text(text) => text.as_bytes(),
        Value::Bit(bits) => bits.as_bytes(),
        _ => &[],
    }
}

/// Writes the record of a value for a column of this type, and hands back its length: a byte of kind, then the value.
/// Its text begins at `start` of the text area. The type, if there is such a column, chooses the kind of a text and
/// says how many bits are due.
#[inline(always)]
pub(crate) fn write(
    value: &Value<'_>,
    data_type: impl FnOnce() -> Option<DataType>,
    start: usize,
    record: &mut [u8; RECORD],
) -> usize {
    match value {
        Value::Null => put(record, value_kind::NULL, []),
        Value::SmallInt(n) => put(record, value_kind::SMALL_INT, n.to_le_bytes()),
        Value::Int(n) => put(record, value_kind::INT, n.to_le_bytes()),
        Value::BigInt(n) => put(record, value_kind::BIG_INT, n.to_le_bytes()),
        Value::Real(x) => put(record, value_kind::REAL, x.to_le_bytes()),
        Value::DoublePrecision(x) => put(record, value_kind::DOUBLE_PRECISION, x.to_le_bytes()),
        Value::Numeric(n) => {
            record[RECORD - 1] = n.scale();
            put(record, value_kind::NUMERIC, n.unscaled().to_le_bytes()) + 1
        }
        Value::Bool(b) => put(record, value_kind::BOOL, [u8::from(*b)]),
        Value::Text(text) => {
            let kind = match data_type() {
                Some(DataType::Char(_) | DataType::Character(_)) => value_kind::CHAR,
                _ => value_kind::VARCHAR,
            };
            put_range(record, kind, start, text.len())
        }
        Value::Date(date) => put(record, value_kind::DATE, date.days().to_le_bytes()),
        Value::Time(time) => put(record, value_kind::TIME, time.micros().to_le_bytes()),
        Value::Bit(bits) => {
            // Other bits than are due can fill as many bytes, so the library would not see it.
            let due = !matches!(data_type(), Some(DataType::Bit(n)) if n != bits.len());
            let length = if due {
                bits.as_bytes().len()
            } else {
                NO_LENGTH
            };
            put_range(record, value_kind::BIT, start, length)
        }
        Value::Timestamp(timestamp) => put(
            record,
            value_kind::TIMESTAMP,
            timestamp.micros().to_le_bytes(),
        ),
        Value::Unknown { .. } => put(record, NO_KIND, []),
    }
}

#[inline(always)]
fn put<const N: usize>(record: &mut [u8; RECORD], kind: u8, body: [u8; N]) -> usize {
    record[0] = kind;
    record[1..1 + N].copy_from_slice(&body);
    1 + N
}

/// Start and length of a text or of bits: two bytes each, or where these do not hold a number, four bytes each, in the
/// kind that is for it. The sort of the row does not matter: either takes both.
#[inline(always)]
fn put_range(record: &mut [u8; RECORD], kind: u8, start: usize, length: usize) -> usize {
    if let (Ok(start), Ok(length)) = (u16::try_from(start), u16::try_from(length)) {
        let range = u32::from(start) | u32::from(length) << 16;
        return put(record, kind, range.to_le_bytes());
    }
    put_wide_range(record, kind, start, length)
}

#[cold]
fn put_wide_range(record: &mut [u8; RECORD], kind: u8, start: usize, length: usize) -> usize {
    let wide = match kind {
        value_kind::CHAR => value_kind::LONG_CHAR,
        value_kind::VARCHAR => value_kind::LONG_VARCHAR,
        _ => value_kind::LONG_BIT,
    };
    // Numbers past four bytes leave every text area that the library takes.
    let number = |n: usize| u64::from(u32::try_from(n).unwrap_or(u32::MAX));
    let range = number(start) | number(length) << 32;
    put(record, wide, range.to_le_bytes())
}

/// A value list and its text area, whose memory is kept from one row to the next.
#[derive(Debug, Clone, Default)]
pub(crate) struct ValueList {
    bytes: Vec<u8>,
    length: usize,
    text: Vec<u8>,
    text_length: usize,
}

impl ValueList {
    /// Makes it the list of these values.
    pub(crate) fn fill(&mut self, schema: &Schema, values: &[Value<'_>]) {
        let room = RECORD * values.len();
        if self.bytes.len() < room {
            self.bytes.resize(room, 0);
        }
        self.text_length = 0;
        let mut rest = self.bytes.as_mut_slice();
        for (column, value) in values.iter().enumerate() {
            let Some(record) = rest.first_chunk_mut() else {
                break;
            };
            let length = write(value, || schema.data_type(column), self.text_length, record);
            rest = &mut rest[length..];
            let text = text(value);
            if !text.is_empty() {
                let end = self.text_length + text.len();
                if self.text.len() < end {
                    self.text.resize(end.saturating_mul(2), 0);
                }
                copy(text, &mut self.text[self.text_length..end]);
                self.text_length = end;
            }
        }
        let left = rest.len();
        self.length = self.bytes.len() - left;
    }

    pub(crate) fn bytes(&self) -> &[u8] {
        &self.bytes[..self.length]
    }

    pub(crate) fn text(&self) -> &[u8] {
        &self.text[..self.text_length]
    }
}

/// Copies a text to a place of its length. A short one is copied as its first and its last bytes, which may overlap:
/// most texts are short, and a call of `memcpy` would take longer.
#[inline(always)]
fn copy(text: &[u8], place: &mut [u8]) {
    match text.len() {
        4..=7 => ends::<4>(text, place),
        8..=15 => ends::<8>(text, place),
        16..=32 => ends::<16>(text, place),
        _ => place.copy_from_slice(text),
    }
}

#[inline(always)]
fn ends<const N: usize>(text: &[u8], place: &mut [u8]) {
    if let (Some(first), Some(last)) = (text.first_chunk::<N>(), text.last_chunk::<N>()) {
        if let Some(start) = place.first_chunk_mut() {
            *start = *first;
        }
        if let Some(end) = place.last_chunk_mut() {
            *end = *last;
        }
    }
}
