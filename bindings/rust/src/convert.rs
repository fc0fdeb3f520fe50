//! Values of Rust's types: `get::<i32>`, `set(.., 4i16)`, `From` and `TryFrom`.
use crate::{Bits, DataType, Date, Numeric, Time, Timestamp, Value};
use alloc::borrow::Cow;
use alloc::string::String;
use core::fmt;

/// A type that a column is read as: `get::<i32>`, `get::<&str>`, `get::<Option<Date>>`. Each goes with one kind of
/// value, and nothing is rounded or cut: an `Int` is read as `i32` alone. An `Option` takes null too, a [`Value`]
/// takes all. A column of a type that does not go with it is refused whatever stands in the row, a null too.
///
/// A type of one's own is read as one of these:
///
/// ```
/// use rook_row::{ConvertError, DataType, FromValue, RowBuf, Schema, Value};
///
/// #[derive(Debug, PartialEq)]
/// struct Cars(i16);
///
/// impl<'a> FromValue<'a> for Cars {
///     fn reads(data_type: DataType) -> bool {
///         i16::reads(data_type)
///     }
///
///     fn from_value(value: Value<'a>) -> Result<Cars, ConvertError> {
///         i16::from_value(value).map(Cars)
///     }
/// }
///
/// let schema = Schema::new([("cars", DataType::SmallInt), ("unit", DataType::Varchar(16))])?;
/// let row = RowBuf::build(&schema, &[4i16.into(), Value::Null])?;
/// assert_eq!(row.get::<Cars>(&schema, "cars")?, Cars(4));
/// assert!(row.get::<Option<Cars>>(&schema, "unit").is_err());
/// # Ok::<(), rook_row::Error>(())
/// ```
pub trait FromValue<'a>: Sized {
    /// The value as this type.
    fn from_value(value: Value<'a>) -> Result<Self, ConvertError>;

    /// Whether columns of this type are read as it. If nothing is said, all are, and `from_value` alone decides.
    fn reads(data_type: DataType) -> bool {
        let _ = data_type;
        true
    }

    /// What an error calls it.
    fn rust_name() -> &'static str {
        core::any::type_name::<Self>()
    }
}

/// The types of columns with text.
macro_rules! text_type {
    () => {
        DataType::Char(_)
            | DataType::Character(_)
            | DataType::Varchar(_)
            | DataType::VarcharChars(_)
    };
}

/// What a column can be set to: `set(.., 4i16)`, `set(.., "7")`, `set(.., None::<i64>)`, or a [`Value`].
pub trait IntoValue<'v> {
    /// The value; `None` sets the column to null.
    fn into_value(self) -> Option<Value<'v>>;
}

/// A value is of another kind than the type that was asked for.
#[derive(Debug, Clone, Copy, PartialEq, Eq, Hash)]
pub struct ConvertError {
    pub(crate) found: &'static str,
    pub(crate) wanted: &'static str,
}

impl ConvertError {
    /// This value is not a `wanted`, the name of a type.
    pub fn new(found: &Value<'_>, wanted: &'static str) -> ConvertError {
        ConvertError {
            found: found.kind(),
            wanted,
        }
    }
}

impl fmt::Display for ConvertError {
    fn fmt(&self, f: &mut fmt::Formatter<'_>) -> fmt::Result {
        write!(f, "{} is not read as {}", self.found, self.wanted)
    }
}

impl core::error::Error for ConvertError {}

/// A Rust type, the case of `Value` and the types of columns that it goes with, and what it is called.
macro_rules! goes_with {
    ($($type:ty, $case:ident, $reads:pat, $name:literal;)*) => {$(
        impl<'a> From<$type> for Value<'a> {
            fn from(value: $type) -> Value<'a> {
                Value::$case(value.into())
            }
        }

        impl<'a> IntoValue<'a> for $type {
            fn into_value(self) -> Option<Value<'a>> {
                Some(self.into())
            }
        }

        impl<'a> FromValue<'a> for $type {
            #[inline]
            fn from_value(value: Value<'a>) -> Result<$type, ConvertError> {
                match value {
                    Value::$case(inner) => Ok(inner.into()),
                    other => Err(ConvertError::new(&other, $name)),
                }
            }

            #[inline]
            fn reads(data_type: DataType) -> bool {
                matches!(data_type, $reads)
            }

            fn rust_name() -> &'static str {
                $name
            }
        }

        impl<'a> TryFrom<Value<'a>> for $type {
            type Error = ConvertError;

            fn try_from(value: Value<'a>) -> Result<$type, ConvertError> {
                FromValue::from_value(value)
            }
        }
    )*};
}

goes_with! {
    i16, SmallInt, DataType::SmallInt, "i16";
    i32, Int, DataType::Int, "i32";
    i64, BigInt, DataType::BigInt, "i64";
    f32, Real, DataType::Real, "f32";
    f64, DoublePrecision, DataType::DoublePrecision, "f64";
    Numeric, Numeric, DataType::Numeric { .. } | DataType::Decimal { .. }, "Numeric";
    bool, Bool, DataType::Bool, "bool";
    String, Text, text_type!(), "String";
    Cow<'a, str>, Text, text_type!(), "Cow<str>";
    Date, Date, DataType::Date, "Date";
    Time, Time, DataType::Time, "Time";
    Bits<'a>, Bit, DataType::Bit(_), "Bits";
    Timestamp, Timestamp, DataType::Timestamp, "Timestamp";
}

/// A text lives as long as the bytes that it was read from; one that is owned is read as a `String`.
impl<'a> FromValue<'a> for &'a str {
    #[inline]
    fn from_value(value: Value<'a>) -> Result<&'a str, ConvertError> {
        match value {
            Value::Text(Cow::Borrowed(text)) => Ok(text),
            other => Err(ConvertError::new(&other, "&str")),
        }
    }

    #[inline]
    fn reads(data_type: DataType) -> bool {
        matches!(data_type, text_type!())
    }

    fn rust_name() -> &'static str {
        "&str"
    }
}

impl<'a> TryFrom<Value<'a>> for &'a str {
    type Error = ConvertError;

    fn try_from(value: Value<'a>) -> Result<&'a str, ConvertError> {
        FromValue::from_value(value)
    }
}

impl<'a> From<&'a str> for Value<'a> {
    fn from(text: &'a str) -> Value<'a> {
        Value::Text(Cow::Borrowed(text))
    }
}

impl<'a> From<&'a String> for Value<'a> {
    fn from(text: &'a String) -> Value<'a> {
        Value::Text(Cow::Borrowed(text))
    }
}

impl<'a> IntoValue<'a> for &'a str {
    fn into_value(self) -> Option<Value<'a>> {
        Some(self.into())
    }
}

impl<'a> IntoValue<'a> for &'a String {
    fn into_value(self) -> Option<Value<'a>> {
        Some(self.into())
    }
}

impl<'a> FromValue<'a> for Value<'a> {
    #[inline]
    fn from_value(value: Value<'a>) -> Result<Value<'a>, ConvertError> {
        Ok(value)
    }
}

/// `Value::Null` stays a value, which a set refuses with 11.
impl<'a> IntoValue<'a> for Value<'a> {
    fn into_value(self) -> Option<Value<'a>> {
        Some(self)
    }
}

impl<'a> IntoValue<'a> for &'a Value<'_> {
    fn into_value(self) -> Option<Value<'a>> {
        Some(self.borrowed())
    }
}

impl<'a, T: FromValue<'a>> FromValue<'a> for Option<T> {
    #[inline]
    fn from_value(value: Value<'a>) -> Result<Option<T>, ConvertError> {
        match value {
            Value::Null => Ok(None),
            value => T::from_value(value).map(Some),
        }
    }

    #[inline]
    fn reads(data_type: DataType) -> bool {
        T::reads(data_type)
    }

    fn rust_name() -> &'static str {
        T::rust_name()
    }
}

impl<'a, T: IntoValue<'a>> IntoValue<'a> for Option<T> {
    fn into_value(self) -> Option<Value<'a>> {
        self.and_then(T::into_value)
    }
}

impl<'a, T: Into<Value<'a>>> From<Option<T>> for Value<'a> {
    fn from(value: Option<T>) -> Value<'a> {
        value.map_or(Value::Null, Into::into)
    }
}
