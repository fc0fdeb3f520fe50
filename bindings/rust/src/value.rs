//! The value of a column.
use crate::{Bits, Date, Numeric, Time, Timestamp};
use alloc::borrow::Cow;
use core::cmp::Ordering;
use core::fmt;

/// The value of a column, its text or bits owned or borrowed. A value that was read borrows from the row's bytes.
///
/// Two values are equal as the format's same content has it: a Numeric by number and scale, a Bit by its bits, text
/// by its bytes, floats by value, so that the two zeros are equal, and every NaN equals every NaN. Values of one kind
/// have an order, texts by their bytes; there is none between kinds, between a null and a value, between Numerics of
/// another scale, bit strings of another length, or a NaN and a number.
///
/// It prints as text: a Numeric with its sign and point, days and times by ISO 8601, bits as 0s and 1s.
#[derive(Debug, Clone, Default)]
#[non_exhaustive]
pub enum Value<'a> {
    /// No value.
    #[default]
    Null,
    /// Of a `SmallInt`.
    SmallInt(i16),
    /// Of an `Int`.
    Int(i32),
    /// Of a `BigInt`.
    BigInt(i64),
    /// Of a `Real`.
    Real(f32),
    /// Of a `DoublePrecision`.
    DoublePrecision(f64),
    /// Of a `Numeric` or a `Decimal`, with the type's scale.
    Numeric(Numeric),
    /// Of a `Bool`.
    Bool(bool),
    /// Of a `Char` or a `Character`, with the blanks up to its length when it was read; or of a `Varchar` or a
    /// `VarcharChars`.
    Text(Cow<'a, str>),
    /// Of a `Date`.
    Date(Date),
    /// Of a `Time`.
    Time(Time),
    /// Of a `Bit`.
    Bit(Bits<'a>),
    /// Of a `Timestamp`.
    Timestamp(Timestamp),
    /// Read by a newer library, of a kind that this crate does not know.
    Unknown {
        /// The kind's number in the value list.
        kind: u8,
    },
}

impl Value<'_> {
    /// Whether it is null.
    pub fn is_null(&self) -> bool {
        matches!(self, Value::Null)
    }

    /// The same value with a text of its own.
    pub fn into_owned(self) -> Value<'static> {
        match self {
            Value::Null => Value::Null,
            Value::SmallInt(n) => Value::SmallInt(n),
            Value::Int(n) => Value::Int(n),
            Value::BigInt(n) => Value::BigInt(n),
            Value::Real(x) => Value::Real(x),
            Value::DoublePrecision(x) => Value::DoublePrecision(x),
            Value::Numeric(n) => Value::Numeric(n),
            Value::Bool(b) => Value::Bool(b),
            Value::Text(text) => Value::Text(Cow::Owned(text.into_owned())),
            Value::Date(date) => Value::Date(date),
            Value::Time(time) => Value::Time(time),
            Value::Bit(bits) => Value::Bit(bits.into_owned()),
            Value::Timestamp(timestamp) => Value::Timestamp(timestamp),
            Value::Unknown { kind } => Value::Unknown { kind },
        }
    }

    /// The same value, its text borrowed from this one.
    pub fn borrowed(&self) -> Value<'_> {
        match self {
            Value::Text(text) => Value::Text(Cow::Borrowed(text)),
            Value::Bit(bits) => Value::Bit(bits.borrowed()),
            value => value.clone(),
        }
    }

    /// What an error calls a value of this kind.
    pub(crate) fn kind(&self) -> &'static str {
        match self {
            Value::Null => "null",
            Value::SmallInt(_) => "a SMALLINT",
            Value::Int(_) => "an INT",
            Value::BigInt(_) => "a BIGINT",
            Value::Real(_) => "a REAL",
            Value::DoublePrecision(_) => "a DOUBLE PRECISION",
            Value::Numeric(_) => "a NUMERIC",
            Value::Bool(_) => "a BOOLEAN",
            Value::Text(_) => "a text",
            Value::Date(_) => "a DATE",
            Value::Time(_) => "a TIME",
            Value::Bit(_) => "a BIT string",
            Value::Timestamp(_) => "a TIMESTAMP",
            Value::Unknown { .. } => "a value of unknown kind",
        }
    }
}

impl PartialEq for Value<'_> {
    fn eq(&self, other: &Value<'_>) -> bool {
        self.partial_cmp(other) == Some(Ordering::Equal)
    }
}

impl Eq for Value<'_> {}

impl PartialOrd for Value<'_> {
    fn partial_cmp(&self, other: &Value<'_>) -> Option<Ordering> {
        match (self, other) {
            (Value::Null, Value::Null) => Some(Ordering::Equal),
            (Value::SmallInt(a), Value::SmallInt(b)) => Some(a.cmp(b)),
            (Value::Int(a), Value::Int(b)) => Some(a.cmp(b)),
            (Value::BigInt(a), Value::BigInt(b)) => Some(a.cmp(b)),
            (Value::Real(a), Value::Real(b)) => by_value((*a).into(), (*b).into()),
            (Value::DoublePrecision(a), Value::DoublePrecision(b)) => by_value(*a, *b),
            (Value::Numeric(a), Value::Numeric(b)) => a.partial_cmp(b),
            (Value::Bool(a), Value::Bool(b)) => Some(a.cmp(b)),
            (Value::Text(a), Value::Text(b)) => Some(a.cmp(b)),
            (Value::Date(a), Value::Date(b)) => Some(a.cmp(b)),
            (Value::Time(a), Value::Time(b)) => Some(a.cmp(b)),
            (Value::Bit(a), Value::Bit(b)) => a.partial_cmp(b),
            (Value::Timestamp(a), Value::Timestamp(b)) => Some(a.cmp(b)),
            (Value::Unknown { kind: a }, Value::Unknown { kind: b }) if a == b => {
                Some(Ordering::Equal)
            }
            _ => None,
        }
    }
}

fn by_value(a: f64, b: f64) -> Option<Ordering> {
    match a.is_nan() && b.is_nan() {
        true => Some(Ordering::Equal),
        false => a.partial_cmp(&b),
    }
}

impl fmt::Display for Value<'_> {
    fn fmt(&self, f: &mut fmt::Formatter<'_>) -> fmt::Result {
        match self {
            Value::Null => f.pad("null"),
            Value::SmallInt(n) => n.fmt(f),
            Value::Int(n) => n.fmt(f),
            Value::BigInt(n) => n.fmt(f),
            Value::Real(x) => x.fmt(f),
            Value::DoublePrecision(x) => x.fmt(f),
            Value::Numeric(n) => n.fmt(f),
            Value::Bool(b) => b.fmt(f),
            Value::Text(text) => text.fmt(f),
            Value::Date(date) => date.fmt(f),
            Value::Time(time) => time.fmt(f),
            Value::Bit(bits) => bits.fmt(f),
            Value::Timestamp(timestamp) => timestamp.fmt(f),
            Value::Unknown { kind } => write!(f, "(kind {kind})"),
        }
    }
}
