//! Why a call refused.
use crate::raw::answer;
use crate::{Column, DataType, Sort};
use alloc::boxed::Box;

mod cause;
mod message;

pub(crate) use cause::Call;

/// Why a call refused: one or more cases for each number of the format's table, with what the library's answer means
/// for these columns and values. A refused call has changed nothing.
#[derive(Debug, Clone, PartialEq, Eq)]
#[non_exhaustive]
pub enum Error {
    /// 1: a schema record of unknown kind, or cut off.
    BadRecord {
        /// The record's first byte in the schema.
        at: usize,
        /// The record's column.
        column: usize,
    },
    /// 2: a schema that cannot be.
    BadSchema {
        /// The record's first byte in the schema, or for rows that are too long the schema's length.
        at: usize,
        /// What is wrong with it.
        fault: SchemaFault,
    },
    /// 3: a row shorter than its header or than the schema's shortest row.
    RowTooShort {
        /// The row's length.
        length: usize,
    },
    /// 4: a row above the [greatest length](Sort::max_length) of its sort.
    RowTooLong {
        /// The row's length.
        length: usize,
        /// Its sort, by its mark.
        sort: Sort,
    },
    /// 5: the row's header counts other columns than the schema has.
    WrongColumnCount {
        /// What the row counts.
        row: usize,
        /// What the schema has.
        schema: usize,
    },
    /// 6: the row's header counts other Varchars than the schema has.
    WrongVarcharCount {
        /// What the row counts.
        row: usize,
        /// What the schema has.
        schema: usize,
    },
    /// 7: a Varchar's range starts past its end, or ends past the row.
    BadRange {
        /// The column that was to be read.
        column: ColumnLabel,
    },
    /// 8: stored bytes that are no value of the column's type.
    NoValue {
        /// The column that was to be read.
        column: ColumnLabel,
        /// Its type.
        data_type: DataType,
    },
    /// 9: there is no column of this number.
    NoSuchColumn {
        /// The number.
        column: usize,
    },
    /// 9: there is no column of this name.
    NoSuchName {
        /// The name.
        name: Box<str>,
    },
    /// 10: not one value for each column, or texts that are together above the [greatest length](Sort::max_length) of
    /// the row's sort.
    BadValueList {
        /// The first byte of a bad record in the value list; for a wrong number of values the list's length, for the
        /// texts 0.
        at: usize,
        /// How many values were given.
        values: usize,
        /// How many are due.
        due: usize,
        /// The bytes of their texts.
        text: usize,
        /// The sort of the row.
        sort: Sort,
    },
    /// 11: a value of another kind than the column's type.
    WrongKind {
        /// The column.
        column: ColumnLabel,
        /// Its type.
        data_type: DataType,
        /// What was given: "an INT", "a text".
        given: &'static str,
    },
    /// 11: `Value::Null` given to a set.
    NullInSet {
        /// The column.
        column: ColumnLabel,
    },
    /// 11: the text of a column without text.
    NoText {
        /// The column.
        column: ColumnLabel,
        /// Its type.
        data_type: DataType,
    },
    /// 11: a column read as a Rust type that does not go with its type, or a null as a type without it.
    NotReadAs {
        /// The column.
        column: ColumnLabel,
        /// Its type.
        data_type: DataType,
        /// Whether it is a null.
        null: bool,
        /// The Rust type.
        wanted: &'static str,
    },
    /// 12: a value that the column's type does not hold.
    Unsuitable {
        /// The column.
        column: ColumnLabel,
        /// Its type.
        data_type: DataType,
        /// Why it does not hold it.
        misfit: Misfit,
    },
    /// 13: the row would pass the [greatest length](Sort::max_length) of its sort.
    RowLimit {
        /// The sort of the row.
        sort: Sort,
    },
    /// 14: the lent buffer is too short for the row. [`RowBuf`](crate::RowBuf) makes room by itself.
    NoRoom,
    /// 15: the row to be edited is not sound: a column of it cannot be read, or its texts are not where an edit needs
    /// them.
    NotSound,
    /// 16: bytes that are no row list, or a row that a list has no room for.
    BadRowList {
        /// What is wrong with it.
        fault: RowListFault,
    },
    /// 17: a text that cannot be printed.
    Unprintable {
        /// The column.
        column: ColumnLabel,
        /// The first byte of its text that cannot be: a double quote, or one below 32.
        byte: u8,
    },
    /// A refusal of a row of a row list, by its own number and place.
    ListedRow {
        /// The row in the list, counted from 0.
        row: usize,
        /// Why it is refused.
        cause: Box<Error>,
    },
    /// A refusal of a newer library, whose number this crate does not know.
    Unknown {
        /// The number.
        number: u32,
        /// The place.
        place: usize,
    },
}

/// A column as an error names it. It prints as `column 1 (unit)`, or `column 1` if it has no name.
#[derive(Debug, Clone, PartialEq, Eq)]
pub struct ColumnLabel {
    number: usize,
    name: Option<Box<str>>,
}

/// What is wrong with a schema.
#[derive(Debug, Clone, PartialEq, Eq)]
#[non_exhaustive]
pub enum SchemaFault {
    /// There are more than 256 columns.
    TooManyColumns,
    /// A precision outside 1 to 38, or a scale above it.
    Precision {
        /// The column.
        column: ColumnLabel,
        /// Its type.
        data_type: DataType,
    },
    /// Rows of this sort would be above its [greatest length](Sort::max_length) without any text.
    RowsTooLong {
        /// The sort of the row; when a schema is made, the long one, since it may be meant for either.
        sort: Sort,
    },
    /// An earlier column has the same name.
    SameName {
        /// The later of the two.
        column: ColumnLabel,
    },
}

/// What is wrong with a row list.
#[derive(Debug, Clone, Copy, PartialEq, Eq)]
#[non_exhaustive]
pub enum RowListFault {
    /// It has, or would have, so many bytes, which are more than 32,768.
    TooManyBytes(usize),
    /// It has, or would have, more than 512 rows.
    TooManyRows,
    /// It ends inside a row, or inside the row's length.
    CutOff {
        /// The row, counted from 0.
        row: usize,
    },
}

/// Why a type does not hold a value.
#[derive(Debug, Clone, Copy, PartialEq, Eq)]
#[non_exhaustive]
pub enum Misfit {
    /// A text has more bytes.
    Bytes(usize),
    /// A text has more characters.
    Characters(usize),
    /// A number has another scale.
    Scale(u8),
    /// A number has more digits.
    Digits(u32),
    /// A bit string has another length.
    Bits(u16),
    /// A day lies outside the range: days from 1970-01-01.
    Day(i32),
    /// A time of day or a timestamp lies outside the range: microseconds.
    Micros(i64),
    /// Another reason, of a newer library.
    Other,
}

impl core::error::Error for Error {}

impl Error {
    /// The number of the refusal in the format's table.
    pub fn number(&self) -> u32 {
        match self {
            Error::BadRecord { .. } => answer::BAD_RECORD,
            Error::BadSchema { .. } => answer::BAD_SCHEMA,
            Error::RowTooShort { .. } => answer::ROW_TOO_SHORT,
            Error::RowTooLong { .. } => answer::ROW_TOO_LONG,
            Error::WrongColumnCount { .. } => answer::WRONG_COLUMN_COUNT,
            Error::WrongVarcharCount { .. } => answer::WRONG_VARLEN_COUNT,
            Error::BadRange { .. } => answer::BAD_RANGE,
            Error::NoValue { .. } => answer::NO_VALUE,
            Error::NoSuchColumn { .. } | Error::NoSuchName { .. } => answer::NO_SUCH_COLUMN,
            Error::BadValueList { .. } => answer::BAD_VALUE_LIST,
            Error::WrongKind { .. }
            | Error::NullInSet { .. }
            | Error::NoText { .. }
            | Error::NotReadAs { .. } => answer::WRONG_KIND,
            Error::Unsuitable { .. } => answer::UNSUITABLE,
            Error::RowLimit { .. } => answer::ROW_LIMIT,
            Error::NoRoom => answer::NO_ROOM,
            Error::NotSound => answer::NOT_SOUND,
            Error::BadRowList { .. } => answer::BAD_LIST,
            Error::Unprintable { .. } => answer::UNPRINTABLE,
            Error::ListedRow { cause, .. } => cause.number(),
            Error::Unknown { number, .. } => *number,
        }
    }

    /// The place of the refusal: a byte of the schema for 1 and 2 and of the value list for 10, a column for 7, 8, 11,
    /// 12 and 17, else 0.
    pub fn place(&self) -> usize {
        match self {
            Error::BadRecord { at, .. }
            | Error::BadSchema { at, .. }
            | Error::BadValueList { at, .. } => *at,
            Error::BadRange { column }
            | Error::NoValue { column, .. }
            | Error::WrongKind { column, .. }
            | Error::NullInSet { column }
            | Error::NoText { column, .. }
            | Error::NotReadAs { column, .. }
            | Error::Unsuitable { column, .. }
            | Error::Unprintable { column, .. } => column.number,
            Error::ListedRow { cause, .. } => cause.place(),
            Error::Unknown { place, .. } => *place,
            _ => 0,
        }
    }
}

impl ColumnLabel {
    pub(crate) fn of(columns: &[Column], number: usize) -> ColumnLabel {
        let name = columns.get(number).and_then(Column::name).map(Box::from);
        ColumnLabel { number, name }
    }

    /// The column's number.
    pub fn number(&self) -> usize {
        self.number
    }

    /// The column's name, if it has one.
    pub fn name(&self) -> Option<&str> {
        self.name.as_deref()
    }
}
