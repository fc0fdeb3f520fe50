//! Reading: chosen columns, a column's text, same content, the null flag.

use crate::layout::{BITMAP, Layout, PACKED, Place, end_of, null_bit, number_at, offsets};
use crate::schema::{self, Type};
use crate::sort::{LONG, Sort};
use crate::stored;
use crate::value::{self, Value};
use crate::{FlagAnswer, Refusal, RowAnswer, TextAnswer, put_both};

/// Reads the wanted columns as a value list whose text area is the row. The row's
/// own mark tells its sort before all else, and so the kinds of texts. Numbers of no
/// column are ignored; an unwanted column is null. The code points of each
/// text read go to `counts`, 0 for every other column.
pub fn read(
    schema: &[u8],
    row: &[u8],
    wanted: &[u16],
    out: &mut [u8],
    counts: &mut [u32],
) -> RowAnswer {
    RowAnswer::of(read_into(schema, row, wanted, out, counts), 0)
}

fn read_into(
    schema: &[u8],
    row: &[u8],
    wanted: &[u16],
    out: &mut [u8],
    counts: &mut [u32],
) -> Result<usize, Refusal> {
    let sort = Sort::of_row(row);
    let types = schema::check(schema, sort)?;
    let is_wanted = |column| wanted.iter().any(|&number| usize::from(number) == column);
    let values = columns(&types, row, is_wanted)?;
    let mut points = vec![0; types.len()];
    for column in 0..types.len() {
        if let Some(text) = stored::text_of(&values[column], row) {
            points[column] = stored::points(types[column], text);
        }
    }
    put_both(&value::list(&values, sort), out, &points, counts)
}

/// The wanted columns' values, null for the others: 4, 3, 5, 6, 3, then 7 and 8
/// by rising column.
pub fn columns(
    types: &[Type],
    row: &[u8],
    wanted: impl Fn(usize) -> bool,
) -> Result<Vec<Value>, Refusal> {
    let layout = row_layout(types, row)?;
    (0..types.len())
        .map(|column| match wanted(column) {
            true => column_value(types[column], &layout, row, column),
            false => Ok(Value::Null),
        })
        .collect()
}

/// All columns' values.
pub fn all_columns(types: &[Type], row: &[u8]) -> Result<Vec<Value>, Refusal> {
    columns(types, row, |_| true)
}

/// The layout that the row's header names, once header and minimum are right.
pub fn row_layout(types: &[Type], row: &[u8]) -> Result<Layout, Refusal> {
    let sort = Sort::of_row(row);
    if row.len() > sort.limit() {
        return Err((4, 0));
    }
    if row.len() < 4 {
        return Err((3, 0));
    }
    if number_at(row, 0) != types.len() {
        return Err((5, 0));
    }
    let second = number_at(row, 2);
    let layout = if second & PACKED != 0 {
        Layout::packed(types, sort)
    } else {
        Layout::padded(types, sort)
    };
    // Both marks are masked off.
    if second & !(PACKED | LONG) != layout.varchars {
        return Err((6, 0));
    }
    if row.len() < layout.minimum {
        return Err((3, 0));
    }
    Ok(layout)
}

/// One column's value, or 7 or 8. A set bit is null; so is a Varchar of offset
/// 0. An offset inside the header is read from there.
fn column_value(ty: Type, layout: &Layout, row: &[u8], column: usize) -> Result<Value, Refusal> {
    if null_bit(row, column) {
        return Ok(Value::Null);
    }
    let (start, end) = match layout.places[column] {
        Place::Slot { start, size } => (start, start + size),
        Place::Rank(rank) => {
            let offsets = offsets(layout, row);
            (offsets[rank], end_of(&offsets, rank, row.len()))
        }
    };
    if ty.is_varchar() && start == 0 {
        return Ok(Value::Null);
    }
    if start > end || end > row.len() {
        return Err((7, column));
    }
    stored::read(ty, &row[start..end], start).ok_or((8, column))
}

/// The text of a Char, Character or Varchar column as a part of the row: 9 and
/// 11 after 2, then as a read of that column.
pub fn text(schema: &[u8], row: &[u8], column: usize) -> TextAnswer {
    let (number, place, start, length) = match text_value(schema, row, column) {
        Ok(Value::Char(range) | Value::Varchar(range)) => (0, 0, range.start, range.length),
        Ok(_) => (0, 0, 0, 0),
        Err((number, place)) => (number, place, 0, 0),
    };
    TextAnswer {
        number,
        place,
        start,
        length,
    }
}

fn text_value(schema: &[u8], row: &[u8], column: usize) -> Result<Value, Refusal> {
    let types = schema::check(schema, Sort::of_row(row))?;
    match types.get(column) {
        None => Err((9, 0)),
        Some(ty) if ty.is_text() => {
            let values = columns(&types, row, |wanted| wanted == column)?;
            Ok(values[column])
        }
        Some(_) => Err((11, column)),
    }
}

/// Whether a read of all columns gives the same for both rows. Refuses as such
/// a read of the first row, then of the second; each is of its own sort.
pub fn same_content(schema: &[u8], a: &[u8], b: &[u8]) -> FlagAnswer {
    FlagAnswer::of(same_columns(schema, a, b))
}

fn same_columns(schema: &[u8], a: &[u8], b: &[u8]) -> Result<bool, Refusal> {
    let types = schema::check(schema, Sort::of_row(a))?;
    let of_a = all_columns(&types, a)?;
    schema::check(schema, Sort::of_row(b))?;
    let of_b = all_columns(&types, b)?;
    Ok((0..types.len()).all(|i| stored::same(types[i], &of_a[i], a, &of_b[i], b)))
}

/// The column's bit in the row's bitmap, by the header's count alone.
pub fn is_null(row: &[u8], column: usize) -> FlagAnswer {
    FlagAnswer::of(null_flag(row, column))
}

fn null_flag(row: &[u8], column: usize) -> Result<bool, Refusal> {
    if row.len() > Sort::of_row(row).limit() {
        return Err((4, 0));
    }
    if row.len() < 4 {
        return Err((3, 0));
    }
    let count = number_at(row, 0);
    if column >= count {
        return Err((9, 0));
    }
    // The whole bitmap, not only the column's byte.
    if row.len() < BITMAP + count.div_ceil(8) {
        return Err((3, 0));
    }
    Ok(null_bit(row, column))
}
