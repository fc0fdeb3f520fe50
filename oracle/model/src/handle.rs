//! Edits over a handle, which is lent beside the buffer.

use crate::read::row_layout;
use crate::schema;
use crate::sort::Sort;
use crate::{RowAnswer, layout, set, set_null};

/// A row's length and of its layout the columns, the Varchars, the bytes of the fixed
/// columns with their padding, and both marks, 1 or 0 each.
#[derive(Debug, Clone, Copy, PartialEq, Eq)]
pub struct Handle {
    pub length: usize,
    pub columns: usize,
    pub varchars: usize,
    pub fixed: usize,
    pub packed: usize,
    pub is_long: usize,
}

/// A set on the handle's length, whatever else it holds.
pub fn handle_set(
    handle: &mut Handle,
    schema: &[u8],
    buf: &mut [u8],
    column: usize,
    values: &[u8],
    text: &[u8],
) -> RowAnswer {
    let answer = set(schema, buf, handle.length, column, values, text);
    store(handle, schema, buf, answer)
}

/// A set null on the handle's length.
pub fn handle_set_null(
    handle: &mut Handle,
    schema: &[u8],
    buf: &mut [u8],
    column: usize,
) -> RowAnswer {
    let answer = set_null(schema, buf, handle.length, column);
    store(handle, schema, buf, answer)
}

/// An accepted call stores the new length and the layout of the row; a refused one
/// leaves the handle as it was.
fn store(handle: &mut Handle, schema: &[u8], buf: &[u8], answer: RowAnswer) -> RowAnswer {
    if answer.number == 0 {
        let row = &buf[..answer.length];
        let sort = Sort::of_row(row);
        let types = schema::check(schema, sort).expect("an accepted schema");
        let layout = row_layout(&types, row).expect("the layout of an edited row");
        *handle = Handle {
            length: answer.length,
            columns: types.len(),
            varchars: layout.varchars,
            fixed: layout.minimum - layout.fixed,
            packed: usize::from(layout::number_at(row, 2) & layout::PACKED != 0),
            is_long: usize::from(sort == Sort::Long),
        };
    }
    answer
}
