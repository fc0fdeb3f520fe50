//! Editing: a sound row is taken apart, a part is changed, and it is put
//! together again, of the sort that its own mark tells.

use crate::build::{cell, join};
use crate::layout::{BITMAP, Layout, Place, end_of, null_bit, offsets};
use crate::read::{all_columns, row_layout};
use crate::schema::{self, Type};
use crate::sort::Sort;
use crate::value;
use crate::{Refusal, RowAnswer, put};

/// Whether the row may be edited: all columns read, each Varchar has offset 0
/// exactly if its bit says null, and the first non-zero offset is the minimum,
/// or the row's length is where there is none.
pub fn sound(types: &[Type], row: &[u8]) -> bool {
    if all_columns(types, row).is_err() {
        return false;
    }
    let layout = row_layout(types, row).expect("the layout of a row that reads");
    let offsets = offsets(&layout, row);
    let nulls_agree = (0..types.len()).all(|column| match layout.places[column] {
        Place::Slot { .. } => true,
        Place::Rank(rank) => null_bit(row, column) == (offsets[rank] == 0),
    });
    let first = offsets.iter().copied().find(|&offset| offset != 0);
    nulls_agree && first.unwrap_or(row.len()) == layout.minimum
}

/// Sets a column of the row that the buffer begins with to a value: 1, 2, 14
/// (row length), 15, 9, 10, 11, 12, 13, 14.
pub fn set(
    schema: &[u8],
    buf: &mut [u8],
    row_length: usize,
    column: usize,
    values: &[u8],
    text: &[u8],
) -> RowAnswer {
    let result = set_in(schema, buf, row_length, column, values, text);
    RowAnswer::of(result, row_length)
}

fn set_in(
    schema: &[u8],
    buf: &mut [u8],
    row_length: usize,
    column: usize,
    values: &[u8],
    text: &[u8],
) -> Result<usize, Refusal> {
    let (types, mut parts) = open(schema, buf, row_length, column)?;
    let sort = parts.layout.sort;
    let values = value::check_list(values, 1, text.len(), sort).map_err(|place| (10, place))?;
    let stored = cell(types[column], &values[0], text, column)?;
    parts.set(column, &stored);
    let row = parts.row();
    if row.len() > sort.limit() {
        return Err((13, 0));
    }
    put(&row, buf)
}

/// Sets a column of the row that the buffer begins with to null: 1, 2, 14, 15,
/// 9.
pub fn set_null(schema: &[u8], buf: &mut [u8], row_length: usize, column: usize) -> RowAnswer {
    let result = set_null_in(schema, buf, row_length, column);
    RowAnswer::of(result, row_length)
}

fn set_null_in(
    schema: &[u8],
    buf: &mut [u8],
    row_length: usize,
    column: usize,
) -> Result<usize, Refusal> {
    let (_, mut parts) = open(schema, buf, row_length, column)?;
    parts.set_null(column);
    put(&parts.row(), buf)
}

/// The parts of a sound row with such a column: 1, 2, 14, 15, 9.
fn open(
    schema: &[u8],
    buf: &[u8],
    row_length: usize,
    column: usize,
) -> Result<(Vec<Type>, Parts), Refusal> {
    let types = schema::check(schema, Sort::of_buffer(buf, row_length))?;
    let row = buf.get(..row_length).ok_or((14, 0))?;
    if !sound(&types, row) {
        return Err((15, 0));
    }
    if column >= types.len() {
        return Err((9, 0));
    }
    let parts = Parts::of(&types, row);
    Ok((types, parts))
}

/// A sound row apart. The header with its marks, spare bits of the bitmap, padding and the slots
/// of null columns are kept as they are.
struct Parts {
    layout: Layout,
    header: Vec<u8>,
    bitmap: Vec<u8>,
    /// The fixed columns with their padding.
    fixed: Vec<u8>,
    /// Of each Varchar, null or its text.
    payloads: Vec<Option<Vec<u8>>>,
}

impl Parts {
    fn of(types: &[Type], row: &[u8]) -> Self {
        let layout = row_layout(types, row).expect("the layout of a sound row");
        let offsets = offsets(&layout, row);
        let payload = |rank: usize| {
            let start = offsets[rank];
            let end = end_of(&offsets, rank, row.len());
            (start != 0).then(|| row[start..end].to_vec())
        };
        Parts {
            header: row[..BITMAP].to_vec(),
            bitmap: row[BITMAP..layout.table].to_vec(),
            fixed: row[layout.fixed..layout.minimum].to_vec(),
            payloads: (0..layout.varchars).map(payload).collect(),
            layout,
        }
    }

    /// The row of the parts.
    fn row(&self) -> Vec<u8> {
        let sort = self.layout.sort;
        join(
            sort,
            &self.header,
            &self.bitmap,
            &self.fixed,
            &self.payloads,
        )
    }

    /// Puts a stored form in a column and clears its bit.
    fn set(&mut self, column: usize, stored: &[u8]) {
        self.bitmap[column / 8] &= !(1 << (column % 8));
        match self.layout.places[column] {
            Place::Slot { start, size } => {
                let start = start - self.layout.fixed;
                self.fixed[start..start + size].copy_from_slice(stored);
            }
            Place::Rank(rank) => self.payloads[rank] = Some(stored.to_vec()),
        }
    }

    /// Makes a column null and sets its bit; a fixed column's slot stays.
    fn set_null(&mut self, column: usize) {
        self.bitmap[column / 8] |= 1 << (column % 8);
        if let Place::Rank(rank) = self.layout.places[column] {
            self.payloads[rank] = None;
        }
    }
}
