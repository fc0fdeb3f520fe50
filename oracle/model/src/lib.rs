//! The calls of document 01 ("01" in all files here), as the requests of document
//! 02 changed them, as plain, slow code: a schema is a list of types, a value list
//! a list of values, a row a concatenation. Written from these alone, to compare
//! faster code with.
//!
//! - `schema`: schema bytes to a list of types, refusals 1 and 2;
//! - `value`: value lists to a list of values, refusal 10, matching;
//! - `stored`: a value's stored form: which suit, written, read, the same;
//! - `text`: which text is valid, and its code points;
//! - `sort`: short and long rows;
//! - `layout`: where the parts of a row are;
//! - `read`, `build`, `edit`, `handle`: the calls on rows;
//! - `row_list`: the rows of a list, refusal 16;
//! - `calendar`: the date and time of a moment;
//! - `print`: the call on a row list, and what the program prints.
//!
//! An output buffer or a list of counts is changed by a call that answers 0 and by
//! no other, and then only where the result stands.

#![forbid(unsafe_code)]

pub mod build;
pub mod calendar;
pub mod edit;
pub mod handle;
pub mod layout;
pub mod print;
pub mod read;
pub mod row_list;
pub mod schema;
pub mod sort;
pub mod stored;
pub mod text;
pub mod value;

pub use build::{build, fresh};
pub use edit::{set, set_null};
pub use handle::{Handle, handle_set, handle_set_null};
pub use print::{occupations_print, report};
pub use read::{is_null, read, same_content, text};
pub use sort::Sort;
pub use text::text_check;

/// The most columns of a schema.
pub const MAX_COLUMNS: usize = 256;

/// A number of 01's table other than 0, and its place.
pub type Refusal = (u32, usize);

/// The answer of a call that writes bytes: how many the result has. After a
/// refusal the length is 0, but that of set and set null is the length passed.
#[derive(Debug, Clone, Copy, PartialEq, Eq)]
pub struct RowAnswer {
    pub number: u32,
    pub place: usize,
    pub length: usize,
}

impl RowAnswer {
    /// The answer to a call that refuses with this length.
    fn of(result: Result<usize, Refusal>, refused: usize) -> Self {
        let (number, place, length) = match result {
            Ok(length) => (0, 0, length),
            Err((number, place)) => (number, place, refused),
        };
        RowAnswer {
            number,
            place,
            length,
        }
    }
}

/// The answer of a call that tells a flag, 0 or 1; 0 after a refusal.
#[derive(Debug, Clone, Copy, PartialEq, Eq)]
pub struct FlagAnswer {
    pub number: u32,
    pub place: usize,
    pub flag: usize,
}

impl FlagAnswer {
    fn of(result: Result<bool, Refusal>) -> Self {
        let (number, place, flag) = match result {
            Ok(flag) => (0, 0, usize::from(flag)),
            Err((number, place)) => (number, place, 0),
        };
        FlagAnswer {
            number,
            place,
            flag,
        }
    }
}

/// The answer of the text call: the part of the row; 0 and 0 for a null and
/// after a refusal.
#[derive(Debug, Clone, Copy, PartialEq, Eq)]
pub struct TextAnswer {
    pub number: u32,
    pub place: usize,
    pub start: usize,
    pub length: usize,
}

/// The answer of the text check: 1 and the text's code points, or 0 and 0 for bytes
/// that are no text.
#[derive(Debug, Clone, Copy, PartialEq, Eq)]
pub struct CheckAnswer {
    pub valid: u32,
    pub points: usize,
}

/// Puts a result at the start of an output; 14 if it has no room.
fn put(result: &[u8], out: &mut [u8]) -> Result<usize, Refusal> {
    if result.len() > out.len() {
        return Err((14, 0));
    }
    out[..result.len()].copy_from_slice(result);
    Ok(result.len())
}

/// Puts a result at the start of an output and a number for each column at the
/// start of a list; 14, and neither is changed, if one of them has no room.
fn put_both(
    result: &[u8],
    out: &mut [u8],
    points: &[u32],
    counts: &mut [u32],
) -> Result<usize, Refusal> {
    if counts.len() < points.len() {
        return Err((14, 0));
    }
    let length = put(result, out)?;
    counts[..points.len()].copy_from_slice(points);
    Ok(length)
}
