//! The types of columns: their SQL names, and their records in a schema.
use crate::raw::kind;
use crate::ParseError;
use alloc::vec::Vec;
use core::fmt;
use core::str::FromStr;

/// The type of a column. Lengths are in bytes, of a `Bit` in bits, of a `VarcharChars` in characters.
///
/// It prints as its SQL name, and is read from it, in capitals or not:
///
/// ```
/// use rook_row::DataType;
///
/// assert_eq!("varchar(16)".parse(), Ok(DataType::Varchar(16)));
/// assert_eq!("varchar(16 characters)".parse(), Ok(DataType::VarcharChars(16)));
/// let fare: DataType = "NUMERIC(10,2)".parse()?;
/// assert_eq!(fare.to_string(), "NUMERIC(10,2)");
/// # Ok::<(), rook_row::ParseError>(())
/// ```
#[derive(Debug, Clone, Copy, PartialEq, Eq, Hash)]
#[non_exhaustive]
pub enum DataType {
    /// 16 bits, signed.
    SmallInt,
    /// 32 bits, signed.
    Int,
    /// 64 bits, signed.
    BigInt,
    /// A float of 32 bits.
    Real,
    /// A float of 64 bits.
    DoublePrecision,
    /// An exact decimal.
    Numeric {
        /// Decimal digits in all, 1 to 38.
        precision: u8,
        /// Digits behind the point, at most the precision.
        scale: u8,
    },
    /// The same as `Numeric`.
    Decimal {
        /// Decimal digits in all, 1 to 38.
        precision: u8,
        /// Digits behind the point, at most the precision.
        scale: u8,
    },
    /// True or false.
    Bool,
    /// Text of exactly so many bytes, filled up with blanks.
    Char(u16),
    /// The same as `Char`.
    Character(u16),
    /// Text of at most so many bytes.
    Varchar(u16),
    /// Text of at most so many characters (code points). It is a Varchar in all else.
    ///
    /// ```
    /// use rook_row::{DataType, RowBuf, Schema};
    ///
    /// let schema = Schema::new([("station", DataType::VarcharChars(10))])?;
    /// let mut row = RowBuf::build(&schema, &["Zürich Hbf".into()])?; // eleven bytes
    /// let refused = row.set(&schema, "station", "Zürich HB 7").unwrap_err();
    /// assert_eq!(
    ///     refused.to_string(),
    ///     "column 0 (station): 11 characters do not fit VARCHAR(10 CHARACTERS) (12)"
    /// );
    /// # Ok::<(), rook_row::Error>(())
    /// ```
    VarcharChars(u16),
    /// A day of the years 1 to 9999.
    Date,
    /// A time of day, in microseconds.
    Time,
    /// Exactly so many bits.
    Bit(u16),
    /// Day and time, in microseconds.
    Timestamp,
}

impl DataType {
    /// Adds the type's record to a schema: a byte of kind, then what the type was declared with.
    pub(crate) fn write(self, schema: &mut Vec<u8>) {
        schema.push(self.kind());
        match self {
            DataType::Numeric { precision, scale } | DataType::Decimal { precision, scale } => {
                schema.extend([precision, scale]);
            }
            DataType::Char(n)
            | DataType::Character(n)
            | DataType::Varchar(n)
            | DataType::VarcharChars(n)
            | DataType::Bit(n) => schema.extend(n.to_le_bytes()),
            _ => (),
        }
    }

    fn kind(self) -> u8 {
        match self {
            DataType::SmallInt => kind::SMALL_INT,
            DataType::Int => kind::INT,
            DataType::BigInt => kind::BIG_INT,
            DataType::Real => kind::REAL,
            DataType::DoublePrecision => kind::DOUBLE_PRECISION,
            DataType::Numeric { .. } => kind::NUMERIC,
            DataType::Decimal { .. } => kind::DECIMAL,
            DataType::Bool => kind::BOOL,
            DataType::Char(_) => kind::CHAR,
            DataType::Character(_) => kind::CHARACTER,
            DataType::Varchar(_) => kind::VARCHAR,
            DataType::VarcharChars(_) => kind::VARCHAR_CHARS,
            DataType::Date => kind::DATE,
            DataType::Time => kind::TIME,
            DataType::Bit(_) => kind::BIT,
            DataType::Timestamp => kind::TIMESTAMP,
        }
    }

    /// The type of the first record of a schema, and the record's length; none if its kind is unknown or it is cut
    /// off.
    pub(crate) fn read(schema: &[u8]) -> Option<(DataType, usize)> {
        let plain = match *schema.first()? {
            kind::SMALL_INT => DataType::SmallInt,
            kind::INT => DataType::Int,
            kind::BIG_INT => DataType::BigInt,
            kind::REAL => DataType::Real,
            kind::DOUBLE_PRECISION => DataType::DoublePrecision,
            kind::BOOL => DataType::Bool,
            kind::DATE => DataType::Date,
            kind::TIME => DataType::Time,
            kind::TIMESTAMP => DataType::Timestamp,
            _ => return DataType::read_declared(schema).map(|data_type| (data_type, 3)),
        };
        Some((plain, 1))
    }

    fn read_declared(schema: &[u8]) -> Option<DataType> {
        let &[kind, first, second] = schema.get(..3)? else {
            return None;
        };
        let (precision, scale) = (first, second);
        let n = u16::from_le_bytes([first, second]);
        match kind {
            kind::NUMERIC => Some(DataType::Numeric { precision, scale }),
            kind::DECIMAL => Some(DataType::Decimal { precision, scale }),
            kind::CHAR => Some(DataType::Char(n)),
            kind::CHARACTER => Some(DataType::Character(n)),
            kind::VARCHAR => Some(DataType::Varchar(n)),
            kind::BIT => Some(DataType::Bit(n)),
            kind::VARCHAR_CHARS => Some(DataType::VarcharChars(n)),
            _ => None,
        }
    }
}

/// The SQL name: `VARCHAR(16)`, `VARCHAR(16 CHARACTERS)`, `NUMERIC(10,2)`, `DOUBLE PRECISION`.
impl fmt::Display for DataType {
    fn fmt(&self, f: &mut fmt::Formatter<'_>) -> fmt::Result {
        let plain = match *self {
            DataType::SmallInt => "SMALLINT",
            DataType::Int => "INT",
            DataType::BigInt => "BIGINT",
            DataType::Real => "REAL",
            DataType::DoublePrecision => "DOUBLE PRECISION",
            DataType::Bool => "BOOLEAN",
            DataType::Date => "DATE",
            DataType::Time => "TIME",
            DataType::Timestamp => "TIMESTAMP",
            DataType::Numeric { precision, scale } => {
                return padded(f, format_args!("NUMERIC({precision},{scale})"))
            }
            DataType::Decimal { precision, scale } => {
                return padded(f, format_args!("DECIMAL({precision},{scale})"))
            }
            DataType::Char(n) => return padded(f, format_args!("CHAR({n})")),
            DataType::Character(n) => return padded(f, format_args!("CHARACTER({n})")),
            DataType::Varchar(n) => return padded(f, format_args!("VARCHAR({n})")),
            DataType::VarcharChars(n) => return padded(f, format_args!("VARCHAR({n} CHARACTERS)")),
            DataType::Bit(n) => return padded(f, format_args!("BIT({n})")),
        };
        f.pad(plain)
    }
}

/// Prints with the width and the alignment that were asked for.
pub(crate) fn padded(f: &mut fmt::Formatter<'_>, text: fmt::Arguments<'_>) -> fmt::Result {
    match f.width() {
        Some(_) => f.pad(&alloc::fmt::format(text)),
        None => f.write_fmt(text),
    }
}

/// The SQL name, in capitals or not. `NUMERIC(10)` has scale 0, and `VARCHAR(16 CHAR)` is in characters.
impl FromStr for DataType {
    type Err = ParseError;

    fn from_str(text: &str) -> Result<DataType, ParseError> {
        let error = || ParseError::new("data type", text);
        let upper = text.trim().to_ascii_uppercase();
        let Some((name, declared)) = upper.split_once('(') else {
            return plain(&upper).ok_or_else(error);
        };
        let declared = declared.strip_suffix(')').ok_or_else(error)?;
        sized(name.trim_end(), declared).ok_or_else(error)
    }
}

fn plain(name: &str) -> Option<DataType> {
    match name {
        "SMALLINT" => Some(DataType::SmallInt),
        "INT" | "INTEGER" => Some(DataType::Int),
        "BIGINT" => Some(DataType::BigInt),
        "REAL" => Some(DataType::Real),
        "DOUBLE PRECISION" | "DOUBLEPRECISION" | "FLOAT8" => Some(DataType::DoublePrecision),
        "BOOL" | "BOOLEAN" => Some(DataType::Bool),
        "DATE" => Some(DataType::Date),
        "TIME" => Some(DataType::Time),
        "TIMESTAMP" => Some(DataType::Timestamp),
        _ => None,
    }
}

fn sized(name: &str, declared: &str) -> Option<DataType> {
    let n = || declared.trim().parse().ok();
    match name {
        "CHAR" => n().map(DataType::Char),
        "CHARACTER" => n().map(DataType::Character),
        "VARCHAR" => varchar(declared.trim()),
        "BIT" => n().map(DataType::Bit),
        "NUMERIC" | "DECIMAL" => {
            let (precision, scale) = declared.split_once(',').unwrap_or((declared, "0"));
            let (precision, scale) = (precision.trim().parse().ok()?, scale.trim().parse().ok()?);
            Some(match name {
                "NUMERIC" => DataType::Numeric { precision, scale },
                _ => DataType::Decimal { precision, scale },
            })
        }
        _ => None,
    }
}

/// A length in bytes, or one in characters that says so.
fn varchar(declared: &str) -> Option<DataType> {
    let Some((n, unit)) = declared.split_once(char::is_whitespace) else {
        return declared.parse().ok().map(DataType::Varchar);
    };
    match unit.trim_start() {
        "CHARACTERS" | "CHAR" => n.parse().ok().map(DataType::VarcharChars),
        _ => None,
    }
}
