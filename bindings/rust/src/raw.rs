//! The library's calls: slices in, numbers out. Schemas and value lists are bytes.
//!
//! ```
//! use rook_row::raw;
//!
//! let schema = [2, 11, 5, 0, 1]; // Int, Varchar(5), SmallInt
//! let values = [2, 1, 0, 0, 0, 9, 0, 0, 2, 0, 0]; // Int 1; a Varchar, 2 bytes from byte 0 of the text; null
//! let mut buffer = [0; 20];
//! let mut counts = [0; 3]; // the code points of each text
//! assert_eq!(raw::build(&schema, false, &values, b"AB", &mut buffer, &mut counts), Ok(15));
//! assert_eq!(counts, [0, 2, 0]);
//! let row = [3, 0, 1, 0x80, 4, 0x0D, 0, 1, 0, 0, 0, 0, 0, 0x41, 0x42];
//! assert_eq!(buffer[..15], row);
//!
//! // columns 0 and 1, as a value list whose text area is the row
//! let mut list = [0; 54];
//! assert_eq!(raw::read(&schema, &row, &[0, 1], &mut list, &mut counts), Ok(11));
//! assert_eq!(list[..11], [2, 1, 0, 0, 0, 9, 13, 0, 2, 0, 0]);
//! assert_eq!(counts, [0, 2, 0]);
//! assert_eq!(raw::text(&schema, &row, 1), Ok(13..15));
//! assert_eq!(raw::same_content(&schema, &row, &row), Ok(true));
//! assert_eq!(raw::text_check(&row[13..15]), Some(2));
//! assert_eq!(raw::is_null(&row, 2), Ok(true));
//! assert_eq!(raw::is_null(&row, 3), Err(raw::Refusal { number: 9, place: 0 }));
//!
//! // column 1 edited in place: longer, then null
//! assert_eq!(raw::set(&schema, &mut buffer, 15, 1, &[9, 0, 0, 5, 0], b"ABCDE"), Ok(18));
//! assert_eq!(raw::set_null(&schema, &mut buffer, 18, 1), Ok(13));
//!
//! // the long row of the same values: offsets of four bytes, and ranges of four-byte numbers when it is read
//! assert_eq!(raw::build(&schema, true, &values, b"AB", &mut buffer, &mut counts), Ok(17));
//! let long = [3, 0, 1, 0xC0, 4, 0x0F, 0, 0, 0, 1, 0, 0, 0, 0, 0, 0x41, 0x42];
//! assert_eq!(buffer[..17], long);
//! assert_eq!(raw::read(&schema, &long, &[0, 1], &mut list, &mut counts), Ok(15));
//! assert_eq!(list[..15], [2, 1, 0, 0, 0, 18, 15, 0, 0, 0, 2, 0, 0, 0, 0]);
//! assert_eq!(raw::same_content(&schema, &row, &long), Ok(true));
//!
//! // a list of one row, after its length: platform 3, unit T41, arrival 0, no departure
//! let list = b"\x1D\0\x04\0\x02\x80\x08\x19\0\x1A\0\0\0\0\0\0\0\0\0\0\0\0\0\0\0\0\x003T41";
//! let mut lines = [0; 40];
//! assert_eq!(raw::occupations_print(list, &mut lines), Ok(32));
//! assert_eq!(&lines[..32], b"\"3\"|\"T41\"|1970-01-01 00:00:00|-\n");
//! ```
use alloc::string::String;
use alloc::vec;
use core::fmt;
use core::ops::Range;

mod numbers;
pub(crate) mod records;
#[doc(hidden)]
pub mod sys;

pub use numbers::{answer, kind, limit, value_kind};

/// Why a call refused: the format's number, and the place that goes with it.
#[derive(Debug, Clone, Copy, PartialEq, Eq, Hash)]
pub struct Refusal {
    /// One of [`answer`]; a newer library may have more.
    pub number: u32,
    /// A byte of the schema or the value list, a column, or 0.
    pub place: usize,
}

impl fmt::Display for Refusal {
    fn fmt(&self, f: &mut fmt::Formatter<'_>) -> fmt::Result {
        write!(f, "refused with {} at {}", self.number, self.place)
    }
}

impl core::error::Error for Refusal {}

/// Where the parts of a row stand: the counts of columns and Varchars, the bytes of the fixed columns, whether the row
/// is packed, and whether it is long.
#[repr(C)]
#[derive(Debug, Clone, Copy, PartialEq, Eq, Hash, Default)]
pub struct Layout {
    /// How many columns the row has.
    pub num_columns: usize,
    /// How many of them are Varchars.
    pub num_varlen_cols: usize,
    /// The bytes of the fixed columns, packed or padded as the row is.
    pub fixed_size: usize,
    /// Whether the fixed columns stand end to end: 1 if they do, else 0.
    pub packed: usize,
    /// Whether the row is of the long sort, with four bytes for each offset: 1 if it is, else 0.
    pub is_long: usize,
}

/// A row's length and layout. No call uses the layout that it gets; an accepted one stores the row's.
#[repr(C)]
#[derive(Debug, Clone, Copy, PartialEq, Eq, Hash, Default)]
pub struct Handle {
    /// The row's length.
    pub length: usize,
    /// Its layout.
    pub layout: Layout,
}

/// A row of nulls at the front of `out`, short or long; hands back its length.
pub fn fresh(schema: &[u8], is_long: bool, out: &mut [u8]) -> Result<usize, Refusal> {
    sys::rook_row_fresh(schema, is_long, out).result()
}

/// The row of a value list at the front of `out`, short or long; hands back its length. Texts and bit strings are
/// ranges of `text`, in two bytes a number or in four, whatever the row's sort is. The code points of each text, as it
/// is stored, go to the front of `counts`, a number for each column: 0 for a column that is null or has no text. A
/// Char counts with its blanks. A list of fewer numbers than columns gives 14.
pub fn build(
    schema: &[u8],
    is_long: bool,
    values: &[u8],
    text: &[u8],
    out: &mut [u8],
    counts: &mut [u32],
) -> Result<usize, Refusal> {
    sys::rook_row_build(schema, is_long, values, text, out, counts).result()
}

/// The wanted columns of a row as a value list at the front of `out`; hands back its length. A record for each
/// column of the schema, null for an unwanted one; texts are ranges of the row, of a long one in four bytes a number.
/// 18 bytes a column are always enough. The code points of each text go to the front of `counts` as in [`build`], 0 for
/// an unwanted column.
pub fn read(
    schema: &[u8],
    row: &[u8],
    wanted: &[u16],
    out: &mut [u8],
    counts: &mut [u32],
) -> Result<usize, Refusal> {
    sys::rook_row_read(schema, row, wanted, out, counts).result()
}

/// A column of the row in the first `row_length` bytes of `buf` set to the one value of the list, in place; hands
/// back the row's length afterwards.
pub fn set(
    schema: &[u8],
    buf: &mut [u8],
    row_length: usize,
    column: usize,
    values: &[u8],
    text: &[u8],
) -> Result<usize, Refusal> {
    sys::rook_row_set(schema, buf, row_length, column, values, text).result()
}

/// The column set to null, in place; the slot of a fixed column stays as it is.
pub fn set_null(
    schema: &[u8],
    buf: &mut [u8],
    row_length: usize,
    column: usize,
) -> Result<usize, Refusal> {
    sys::rook_row_set_null(schema, buf, row_length, column).result()
}

/// As `set`, on the row of a handle, which an accepted call changes.
pub fn handle_set(
    handle: &mut Handle,
    schema: &[u8],
    buf: &mut [u8],
    column: usize,
    values: &[u8],
    text: &[u8],
) -> Result<usize, Refusal> {
    sys::rook_row_handle_set(handle, schema, buf, column, values, text).result()
}

/// As `set_null`, on the row of a handle.
pub fn handle_set_null(
    handle: &mut Handle,
    schema: &[u8],
    buf: &mut [u8],
    column: usize,
) -> Result<usize, Refusal> {
    sys::rook_row_handle_set_null(handle, schema, buf, column).result()
}

/// Where the text of a column stands in the row: a Char with its blanks. A null has 0..0; a text that is empty and
/// not null has its own start.
pub fn text(schema: &[u8], row: &[u8], column: usize) -> Result<Range<usize>, Refusal> {
    sys::rook_row_text(schema, row, column).result()
}

/// Whether two rows of one schema have the same content. Floats compare by value, and every NaN equals every NaN.
pub fn same_content(schema: &[u8], a: &[u8], b: &[u8]) -> Result<bool, Refusal> {
    sys::rook_row_same_content(schema, a, b).result()
}

/// Whether a column of a row is null, by the row's own header and bitmap.
#[inline]
pub fn is_null(row: &[u8], column: usize) -> Result<bool, Refusal> {
    sys::rook_row_is_null(row, column).result()
}

/// How many code points a text has; none for bytes that are no text by RFC 3629 (UTF-8).
#[inline]
pub fn text_check(text: &[u8]) -> Option<usize> {
    sys::rook_text_check(text).result()
}

/// The most bytes of the lines that are printed of a row list.
pub const MAX_PRINTED: usize = limit::PRINTED;

/// The printed list of platform occupations: a line for each row of a row list at the front of `out`, in the order of
/// platforms, arrivals and the list; hands back their length. The rows have the columns Varchar(16), Varchar(64),
/// Timestamp, Timestamp, and each stands after its length in two bytes, the low one first. [`MAX_PRINTED`] bytes are
/// always enough. Refuses with 16 (the list), then row by row with 3, 5, 6 (the row), 7 and 8 (a column) and 17 (a
/// text with a double quote or a byte below 32), and last with 14.
pub fn occupations_print(list: &[u8], out: &mut [u8]) -> Result<usize, Refusal> {
    sys::rook_occupations_print(list, out).result()
}

/// The printed list as a text of its own.
pub(crate) fn printed(list: &[u8]) -> Result<String, Refusal> {
    // A row takes 27 bytes of the list at least, and its line 126 at most.
    let rows = list.len().min(limit::LIST) / 27;
    let mut lines = vec![0; (rows * 126).min(MAX_PRINTED)];
    let length = occupations_print(list, &mut lines)?;
    lines.truncate(length);
    // SAFETY: the lines are texts of the rows, which the library has checked, and ASCII between them.
    Ok(unsafe { String::from_utf8_unchecked(lines) })
}

/// The library's version, with a byte for each of its numbers: `0x000400` for 0.4.0.
pub fn version() -> u32 {
    sys::rook_row_version()
}
