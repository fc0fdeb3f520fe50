//! Building: a row of nulls, and the row of a value list. Both are packed, and of the
//! sort that the caller chooses.

use crate::layout::PACKED;
use crate::schema::{self, Type};
use crate::sort::Sort;
use crate::stored;
use crate::value::{self, Value, two_bytes};
use crate::{Refusal, RowAnswer, put, put_both};

/// Writes the row of nulls.
pub fn fresh(schema: &[u8], sort: Sort, buf: &mut [u8]) -> RowAnswer {
    RowAnswer::of(fresh_into(schema, sort, buf), 0)
}

fn fresh_into(schema: &[u8], sort: Sort, buf: &mut [u8]) -> Result<usize, Refusal> {
    let types = schema::check(schema, sort)?;
    put(&packed_row(&types, sort, &vec![None; types.len()]), buf)
}

/// Writes the row of a value list: 1, 2, 10, then 11 and 12 by rising column,
/// 13, 14. The code points of each text, as it is stored, go to `counts`, 0 for
/// every other column.
pub fn build(
    schema: &[u8],
    sort: Sort,
    values: &[u8],
    text: &[u8],
    out: &mut [u8],
    counts: &mut [u32],
) -> RowAnswer {
    RowAnswer::of(build_into(schema, sort, values, text, out, counts), 0)
}

fn build_into(
    schema: &[u8],
    sort: Sort,
    values: &[u8],
    text: &[u8],
    out: &mut [u8],
    counts: &mut [u32],
) -> Result<usize, Refusal> {
    let types = schema::check(schema, sort)?;
    let values = value::check_list(values, types.len(), text.len(), sort);
    let values = values.map_err(|place| (10, place))?;
    let mut cells = Vec::new();
    for column in 0..types.len() {
        cells.push(match values[column] {
            Value::Null => None,
            value => Some(cell(types[column], &value, text, column)?),
        });
    }
    let row = packed_row(&types, sort, &cells);
    if row.len() > sort.limit() {
        return Err((13, 0));
    }
    let mut points = vec![0; types.len()];
    for (column, cell) in cells.iter().enumerate() {
        if let Some(stored) = cell {
            points[column] = stored::points(types[column], stored);
        }
    }
    put_both(&row, out, &points, counts)
}

/// The stored form of a value for a column, or 11 or 12. Null is of no
/// column's kind.
pub fn cell(ty: Type, value: &Value, area: &[u8], column: usize) -> Result<Vec<u8>, Refusal> {
    if !value.matches(ty) {
        return Err((11, column));
    }
    if !stored::suits(ty, value, area) {
        return Err((12, column));
    }
    Ok(stored::write(ty, value, area))
}

/// The packed row of one cell a column: null or a stored form. A null's slot is
/// zeros, bits past the last column are zero. The row may be of any length;
/// offsets past their width are cut, in a row that is refused.
pub fn packed_row(types: &[Type], sort: Sort, cells: &[Option<Vec<u8>>]) -> Vec<u8> {
    let varchars = types.iter().filter(|ty| ty.is_varchar()).count();
    let mut bitmap = vec![0; types.len().div_ceil(8)];
    let mut fixed = Vec::new();
    let mut payloads = Vec::new();
    for (column, (&ty, cell)) in types.iter().zip(cells).enumerate() {
        if cell.is_none() {
            bitmap[column / 8] |= 1 << (column % 8);
        }
        match ty.fixed_size() {
            Some(size) => fixed.extend(cell.clone().unwrap_or(vec![0; size])),
            None => payloads.push(cell.clone()),
        }
    }
    let second = varchars + PACKED + sort.mark();
    let header = [two_bytes(types.len()), two_bytes(second)].concat();
    join(sort, &header, &bitmap, &fixed, &payloads)
}

/// A row of its parts: header, bitmap, offset table, fixed columns, payloads.
/// A null Varchar's offset is 0, an empty one has its own.
pub fn join(
    sort: Sort,
    header: &[u8],
    bitmap: &[u8],
    fixed: &[u8],
    payloads: &[Option<Vec<u8>>],
) -> Vec<u8> {
    let width = sort.offset_width();
    let mut table = Vec::new();
    let mut end = header.len() + bitmap.len() + width * payloads.len() + fixed.len();
    for payload in payloads {
        let offset = payload.as_ref().map_or(0, |_| end);
        let bytes = offset.to_le_bytes();
        table.extend(&bytes[..width]);
        end += payload.as_ref().map_or(0, Vec::len);
    }
    let payloads: Vec<Vec<u8>> = payloads.iter().flatten().cloned().collect();
    [header, bitmap, &table, fixed, &payloads.concat()].concat()
}
