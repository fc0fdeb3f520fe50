//! The numbers of the interface by name, as include/rook_row.h has them.

/// Modules of numbers. `ALL` has each with its name, for a test that compares them with the header.
macro_rules! numbers {
    ($($(#[$about:meta])* mod $module:ident: $type:ty { $($(#[$what:meta])* $name:ident = $number:literal,)* })*) => {$(
        $(#[$about])*
        pub mod $module {
            $($(#[$what])* pub const $name: $type = $number;)*

            #[doc(hidden)]
            pub const ALL: &[(&str, $type)] = &[$((stringify!($name), $name)),*];
        }
    )*};
}

numbers! {
    /// The kinds of schema records: a column's type.
    mod kind: u8 {
        /// `SmallInt`.
        SMALL_INT = 1,
        /// `Int`.
        INT = 2,
        /// `BigInt`.
        BIG_INT = 3,
        /// `Real`.
        REAL = 4,
        /// `DoublePrecision`.
        DOUBLE_PRECISION = 5,
        /// `Numeric`, with precision and scale.
        NUMERIC = 6,
        /// `Decimal`, with precision and scale.
        DECIMAL = 7,
        /// `Bool`.
        BOOL = 8,
        /// `Char`, with its bytes.
        CHAR = 9,
        /// `Character`, with its bytes.
        CHARACTER = 10,
        /// `Varchar`, with its most bytes.
        VARCHAR = 11,
        /// `Date`.
        DATE = 12,
        /// `Time`.
        TIME = 13,
        /// `Bit`, with its bits.
        BIT = 14,
        /// `Timestamp`.
        TIMESTAMP = 15,
        /// `VarcharChars`, with its most characters.
        VARCHAR_CHARS = 16,
    }

    /// The kinds of records in a value list.
    mod value_kind: u8 {
        /// Null.
        NULL = 0,
        /// Of a `SmallInt`.
        SMALL_INT = 1,
        /// Of an `Int`.
        INT = 2,
        /// Of a `BigInt`.
        BIG_INT = 3,
        /// Of a `Real`.
        REAL = 4,
        /// Of a `DoublePrecision`.
        DOUBLE_PRECISION = 5,
        /// Of a `Numeric` or a `Decimal`.
        NUMERIC = 6,
        /// Of a `Bool`.
        BOOL = 7,
        /// Of a `Char` or a `Character`, by a range of two-byte numbers.
        CHAR = 8,
        /// Of a `Varchar` or a `VarcharChars`, by a range of two-byte numbers.
        VARCHAR = 9,
        /// Of a `Date`.
        DATE = 10,
        /// Of a `Time`.
        TIME = 11,
        /// Of a `Bit`, by a range of two-byte numbers.
        BIT = 12,
        /// Of a `Timestamp`.
        TIMESTAMP = 13,
        /// As `CHAR`, by a range of four-byte numbers.
        LONG_CHAR = 17,
        /// As `VARCHAR`, by a range of four-byte numbers.
        LONG_VARCHAR = 18,
        /// As `BIT`, by a range of four-byte numbers.
        LONG_BIT = 19,
    }

    /// The numbers of answers: done, and the refusals.
    mod answer: u32 {
        /// The call is done.
        DONE = 0,
        /// A schema record of unknown kind, or cut off.
        BAD_RECORD = 1,
        /// A schema that no row can have.
        BAD_SCHEMA = 2,
        /// A row shorter than its header or than the schema's shortest row.
        ROW_TOO_SHORT = 3,
        /// A row above the limit of its sort.
        ROW_TOO_LONG = 4,
        /// The row's column count is not the schema's.
        WRONG_COLUMN_COUNT = 5,
        /// The row's Varchar count is not the schema's.
        WRONG_VARLEN_COUNT = 6,
        /// A wanted Varchar's range starts past its end, or ends past the row.
        BAD_RANGE = 7,
        /// A wanted column's bytes are no value of its type.
        NO_VALUE = 8,
        /// No such column.
        NO_SUCH_COLUMN = 9,
        /// A value list that is not what is due, or a text area above the limit of the row's sort.
        BAD_VALUE_LIST = 10,
        /// A value of another kind than the column's type, or null given to a set.
        WRONG_KIND = 11,
        /// A value that its type does not hold, or a range past the text area.
        UNSUITABLE = 12,
        /// The row would pass the limit of its sort.
        ROW_LIMIT = 13,
        /// No room in what was lent.
        NO_ROOM = 14,
        /// The row to be edited is not sound.
        NOT_SOUND = 15,
        /// Bytes that are no row list.
        BAD_LIST = 16,
        /// A text to be printed has a double quote or a byte below 32.
        UNPRINTABLE = 17,
    }

    /// The most of something that the format has.
    mod limit: usize {
        /// The columns of a schema.
        COLUMNS = 256,
        /// The bytes of a short row.
        ROW = 65_535,
        /// The bytes of the text area of a short row.
        TEXT = 65_535,
        /// The bytes of a long row.
        LONG_ROW = 1_048_576,
        /// The bytes of the text area of a long row.
        LONG_TEXT = 1_048_576,
        /// The bytes of a value record.
        RECORD = 18,
        /// The rows of a row list.
        LIST_ROWS = 512,
        /// The bytes of a row list.
        LIST = 32_768,
        /// The bytes of the lines that are printed of a row list.
        PRINTED = 64_512,
    }
}
