//! Refusals in plain words.
use super::{ColumnLabel, Error, Misfit, RowListFault, SchemaFault};
use crate::{DataType, Date, RowList, Time, Timestamp};
use core::fmt;

impl fmt::Display for ColumnLabel {
    fn fmt(&self, f: &mut fmt::Formatter<'_>) -> fmt::Result {
        match &self.name {
            Some(name) => write!(f, "column {} ({name})", self.number),
            None => write!(f, "column {}", self.number),
        }
    }
}

impl fmt::Display for SchemaFault {
    fn fmt(&self, f: &mut fmt::Formatter<'_>) -> fmt::Result {
        match self {
            SchemaFault::TooManyColumns => write!(f, "it has more than 256 columns"),
            SchemaFault::Precision { column, data_type } => write!(
                f,
                "{column}: {data_type}, but a precision is 1 to 38, and a scale not above it"
            ),
            SchemaFault::RowsTooLong { sort } => {
                write!(f, "its {sort} rows would pass {} bytes", sort.max_length())
            }
            SchemaFault::SameName { column } => {
                write!(f, "{column}: an earlier column has this name")
            }
        }
    }
}

impl fmt::Display for RowListFault {
    fn fmt(&self, f: &mut fmt::Formatter<'_>) -> fmt::Result {
        match self {
            RowListFault::TooManyBytes(bytes) => {
                write!(f, "{bytes} bytes, but {} are the most", RowList::MAX_BYTES)
            }
            RowListFault::TooManyRows => write!(f, "more than {} rows", RowList::MAX_ROWS),
            RowListFault::CutOff { row } => write!(f, "row {row} is cut off"),
        }
    }
}

/// What was given, and what the type holds.
fn misfit(f: &mut fmt::Formatter<'_>, misfit: Misfit, data_type: DataType) -> fmt::Result {
    match (misfit, data_type) {
        (Misfit::Bytes(bytes), _) => write!(f, "{bytes} bytes do not fit {data_type}"),
        (Misfit::Characters(count), _) => write!(f, "{count} characters do not fit {data_type}"),
        (Misfit::Scale(scale), _) => write!(f, "scale {scale} is not that of {data_type}"),
        (Misfit::Digits(digits), _) => write!(f, "{digits} digits do not fit {data_type}"),
        (Misfit::Bits(bits), _) => write!(f, "{bits} bits are not those of {data_type}"),
        (Misfit::Day(days), _) => {
            let (min, max) = (Date::MIN, Date::MAX);
            write!(f, "{} is not within {min} to {max}", Date::from_days(days))
        }
        (Misfit::Micros(micros), DataType::Time) => {
            let (min, max) = (Time::MIN, Time::MAX);
            write!(
                f,
                "{} is not within {min} to {max}",
                Time::from_micros(micros)
            )
        }
        (Misfit::Micros(micros), _) => {
            let (min, max) = (Timestamp::MIN, Timestamp::MAX);
            write!(
                f,
                "{} is not within {min} to {max}",
                Timestamp::from_micros(micros)
            )
        }
        (Misfit::Other, _) => write!(f, "the value does not suit {data_type}"),
    }
}

/// Column and reason in plain words, and the number.
impl fmt::Display for Error {
    fn fmt(&self, f: &mut fmt::Formatter<'_>) -> fmt::Result {
        self.reason(f)?;
        write!(f, " ({})", self.number())
    }
}

impl Error {
    fn reason(&self, f: &mut fmt::Formatter<'_>) -> fmt::Result {
        match self {
            Error::BadRecord { column, .. } => {
                write!(f, "schema: the type of column {column} is unknown or cut off")
            }
            Error::BadSchema { fault, .. } => write!(f, "schema: {fault}"),
            Error::RowTooShort { length } => write!(
                f,
                "the row has {length} bytes, fewer than its header says or than every row of the schema"
            ),
            Error::RowTooLong { length, sort } => {
                let most = sort.max_length();
                write!(f, "the row has {length} bytes, but {most} are the most of a {sort} row")
            }
            Error::WrongColumnCount { row, schema } => {
                write!(f, "the row has {row} columns, the schema {schema}")
            }
            Error::WrongVarcharCount { row, schema } => {
                write!(f, "the row has {row} Varchars, the schema {schema}")
            }
            Error::BadRange { column } => {
                write!(f, "{column}: its text leaves the row")
            }
            Error::NoValue { column, data_type } => {
                write!(f, "{column}: its bytes are no {data_type}")
            }
            Error::NoSuchColumn { column } => write!(f, "there is no column {column}"),
            Error::NoSuchName { name } => write!(f, "there is no column named {name}"),
            Error::RowLimit { sort } => {
                let most = sort.max_length();
                write!(f, "the row would pass {most} bytes, the most of a {sort} row")
            }
            Error::NoRoom => write!(f, "the buffer is too short for the row"),
            Error::NotSound => write!(f, "the row is not sound, so it cannot be edited"),
            Error::BadRowList { fault } => write!(f, "row list: {fault}"),
            Error::Unprintable { column, byte: b'"' } => {
                write!(f, "{column}: a double quote cannot be printed")
            }
            Error::Unprintable { column, byte } => {
                write!(f, "{column}: the byte {byte:02X} cannot be printed")
            }
            Error::ListedRow { row, cause } => {
                write!(f, "row {row}: ")?;
                cause.reason(f)
            }
            Error::Unknown { place, .. } => write!(
                f,
                "the library refuses at {place} for a reason that rook_row {} does not know",
                env!("CARGO_PKG_VERSION")
            ),
            of_values => of_values.reason_of_values(f),
        }
    }

    /// The reason of a refusal of values that were given or asked for.
    fn reason_of_values(&self, f: &mut fmt::Formatter<'_>) -> fmt::Result {
        match self {
            Error::BadValueList { values, due, .. } if values != due => {
                write!(f, "{values} values for {due} columns")
            }
            Error::BadValueList { text, sort, .. } if *text > sort.max_length() => {
                let most = sort.max_length();
                write!(
                    f,
                    "the texts have {text} bytes together, but {most} are the most of a {sort} row"
                )
            }
            Error::BadValueList { .. } => write!(f, "a value is of unknown kind"),
            Error::Unsuitable {
                column,
                data_type,
                misfit: why,
            } => {
                write!(f, "{column}: ")?;
                misfit(f, *why, *data_type)
            }
            of_kind => of_kind.reason_of_kind(f),
        }
    }

    /// The reason of 11.
    fn reason_of_kind(&self, f: &mut fmt::Formatter<'_>) -> fmt::Result {
        match self {
            Error::WrongKind {
                column,
                data_type,
                given,
            } => {
                write!(f, "{column}: {given} is given, but it is {data_type}")
            }
            Error::NullInSet { column } => {
                write!(f, "{column}: set does not take null, set_null does")
            }
            Error::NoText { column, data_type } => write!(f, "{column}: {data_type} has no text"),
            Error::NotReadAs {
                column,
                null: true,
                wanted,
                ..
            } => {
                write!(
                    f,
                    "{column}: it is null, which {wanted} has not, but Option<{wanted}>"
                )
            }
            Error::NotReadAs {
                column,
                data_type,
                wanted,
                ..
            } => {
                write!(f, "{column}: {data_type} is not read as {wanted}")
            }
            other => write!(f, "refused at {}", other.place()),
        }
    }
}
