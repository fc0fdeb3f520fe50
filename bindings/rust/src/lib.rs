//! The typed-row codec behind a safe interface.
//!
//! A row is one record of a table as bytes: a header, a bit for each null column, the fixed columns, the texts. The
//! calls that check, read and write it are those of `librook_row.a`, proved for every input; this crate turns types
//! and values into their bytes and back, and checks nothing again. Columns count from 0.
//!
//! ```
//! use rook_row::{DataType, Error, RowBuf, Schema, Value};
//!
//! // Platform occupations.
//! let schema = Schema::new([
//!     ("platform", DataType::Varchar(4)),
//!     ("unit", DataType::Varchar(16)),
//!     ("cars", DataType::SmallInt),
//! ])?;
//! let mut row = RowBuf::build(&schema, &["7".into(), "ET 41".into(), Value::Null])?;
//! assert_eq!(row.get::<&str>(&schema, "unit")?, "ET 41");
//! assert_eq!(row.get::<Option<i16>>(&schema, "cars")?, None);
//!
//! row.set(&schema, "platform", "12b")?; // the row grows
//! row.set(&schema, "cars", 4i16)?;
//! row.set_null(&schema, "unit")?;
//! assert_eq!(row.read(&schema)?, ["12b".into(), Value::Null, 4i16.into()]);
//!
//! // A refusal changes nothing, and says what the matter is.
//! let refused = row.set(&schema, "platform", "depot west").unwrap_err();
//! assert_eq!(refused.to_string(), "column 0 (platform): 10 bytes do not fit VARCHAR(4) (12)");
//! assert_eq!((refused.number(), refused.place()), (12, 0));
//! assert_eq!(row.get::<&str>(&schema, "platform")?, "12b");
//! # Ok::<(), Error>(())
//! ```
//!
//! A table lines up by the code points of its texts, which reading and building count on the way:
//! [`RowRef::widths`], [`Columns::width`] and [`Builder::build_with_widths`] hand them out. A width is a number of code
//! points, so a mark that is put on a letter counts by itself. The length of a [`DataType::VarcharChars`], whose texts
//! are declared in characters, is in code points too; that of a [`DataType::Varchar`] is in bytes.
//!
//! A row has at most 65,535 bytes, or 1,048,576 if it is made as a long one: with [`Schema::with_sort`] in the place of
//! the schema. [`Sort`] has an example.
//!
//! A [`RowList`] holds many rows as bytes, each after its length; [`print_occupations`] makes of one the sheet of
//! platform occupations, a line a row, that hangs on a wall.
//!
//! [`RowRef`] borrows its bytes, [`RowBuf`] owns them, as `str` and `String` do; [`RowMut`] edits a row in lent
//! memory. For many rows of one schema there are [`Reader`], [`Builder`] and [`Editor`], which keep their memory.
//! [`raw`] has the calls themselves: slices in, numbers out. The library keeps no state, so all of these may be used by
//! any number of threads, a reader, builder or editor by one at a time.
//!
//! The crate needs no more than `alloc`. Its features: `chrono` (chrono's dates and times as values), `serde` (types,
//! schemas and values), and `std`, which is on if nothing is said.

#![cfg_attr(not(test), no_std)]
#![deny(missing_docs)]
#![warn(clippy::undocumented_unsafe_blocks)]
// A cast that may change a number says why it does not.
#![warn(
    clippy::cast_possible_truncation,
    clippy::cast_possible_wrap,
    clippy::cast_sign_loss
)]

extern crate alloc;

mod bits;
mod builder;
mod calendar;
#[cfg(feature = "chrono")]
mod chrono;
mod convert;
mod data_type;
mod editor;
mod error;
mod list;
mod numeric;
mod occupations;
mod parse;
pub mod raw;
mod reader;
mod row;
mod row_buf;
mod row_list;
mod row_mut;
mod schema;
#[cfg(feature = "serde")]
mod serde;
mod sort;
mod value;

pub use bits::Bits;
pub use builder::Builder;
pub use calendar::{Date, Time, Timestamp};
pub use convert::{ConvertError, FromValue, IntoValue};
pub use data_type::DataType;
pub use editor::Editor;
pub use error::{ColumnLabel, Error, Misfit, RowListFault, SchemaFault};
pub use numeric::Numeric;
pub use occupations::{occupation_schema, print_occupations};
pub use parse::ParseError;
pub use reader::{ColumnType, ColumnTypes, Columns, PlaceAsked, Reader, Values};
pub use row::RowRef;
pub use row_buf::RowBuf;
pub use row_list::{RowList, Rows};
pub use row_mut::RowMut;
pub use schema::{Column, ColumnIndex, Schema};
pub use sort::{RowFormat, Sort};
pub use value::Value;

/// The version of this crate.
pub const VERSION: &str = env!("CARGO_PKG_VERSION");

/// The version of the library that was linked: major, minor, patch. The first two are those of the crate, since
/// `build.rs` refuses another library.
///
/// ```
/// let (major, minor, _) = rook_row::library_version();
/// assert!(rook_row::VERSION.starts_with(&format!("{major}.{minor}.")));
/// ```
pub fn library_version() -> (u8, u8, u8) {
    let [patch, minor, major, _] = raw::version().to_le_bytes();
    (major, minor, patch)
}
