//! Row lists: rows, each after its length in two bytes. Refusal 16.

use crate::Refusal;
use crate::layout::number_at;

/// The most rows of a list.
pub const MAX_ROWS: usize = 512;

/// The most bytes of a list, the lengths of its rows among them.
pub const MAX_BYTES: usize = 32_768;

/// The rows of a list; 16 if it has more bytes or rows than it may, or ends
/// inside a length or a row. A row may have any bytes, or none.
pub fn rows(list: &[u8]) -> Result<Vec<&[u8]>, Refusal> {
    if list.len() > MAX_BYTES {
        return Err((16, 0));
    }
    let mut rows = Vec::new();
    let mut rest = list;
    while !rest.is_empty() {
        let has_length = rest.len() >= 2;
        if !has_length || rows.len() == MAX_ROWS {
            return Err((16, 0));
        }
        let end = 2 + number_at(rest, 0);
        // A row that is cut off.
        if end > rest.len() {
            return Err((16, 0));
        }
        rows.push(&rest[2..end]);
        rest = &rest[end..];
    }
    Ok(rows)
}

/// The list of these rows, of at most 65,535 bytes each.
pub fn list(rows: &[impl AsRef<[u8]>]) -> Vec<u8> {
    let mut list = Vec::new();
    for row in rows {
        let row = row.as_ref();
        list.extend(crate::value::two_bytes(row.len()));
        list.extend(row);
    }
    list
}
