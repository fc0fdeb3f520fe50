//! Rows by 01's layout rules and stored forms, without the Rust: for columns and for the
//! sort that it does not know. The values are good ones.

use crate::RowSort;
use crate::column::ColumnType;
use crate::layout::{Layout, PACKED, Place};
use crate::row::{clear_null_bit, offset, set_null_bit, set_offset};
use crate::value::{Record, TextRange, ValueList};

/// The row of nulls.
pub fn fresh(types: &[ColumnType], of: RowSort) -> Vec<u8> {
    of_records(types, of, &vec![Record::Null; types.len()], &[])
}

/// The row of a list, of any length.
pub fn built(types: &[ColumnType], of: RowSort, list: &ValueList) -> Vec<u8> {
    let records = list.records_of(types.len(), of).expect("a good list");
    of_records(types, of, &records, &list.text)
}

/// Offsets past their width are cut, in a row that is too long.
fn of_records(types: &[ColumnType], of: RowSort, records: &[Record], text: &[u8]) -> Vec<u8> {
    let layout = Layout::packed_of(types, of);
    let field = PACKED + of.mark() + layout.varchars as u16;
    let mut row = vec![0; layout.minimum];
    row[..2].copy_from_slice(&(types.len() as u16).to_le_bytes());
    row[2..4].copy_from_slice(&field.to_le_bytes());
    for (column, (ty, record)) in types.iter().zip(records).enumerate() {
        let Some(stored) = stored(ty, record, text) else {
            set_null_bit(&mut row, column);
            continue;
        };
        match layout.places[column] {
            Place::Fixed { start, size } => row[start..start + size].copy_from_slice(&stored),
            Place::Varchar { rank } => {
                let end = row.len();
                set_offset(&mut row, &layout, rank, end);
                row.extend(stored);
            }
        }
    }
    row
}

/// The row, packed or padded and sound, with a column set to the one value of a list,
/// or to null; of any length.
pub fn edited(types: &[ColumnType], row: &[u8], column: usize, list: &ValueList) -> Vec<u8> {
    let layout = Layout::of_row(types, row);
    let record = list.records_of(1, layout.sort).expect("a good list")[0];
    let stored = stored(&types[column], &record, &list.text);
    let mut row = row.to_vec();
    match stored {
        Some(_) => clear_null_bit(&mut row, column),
        None => set_null_bit(&mut row, column),
    }
    match (layout.places[column], stored) {
        (Place::Fixed { start, size }, Some(stored)) => {
            row[start..start + size].copy_from_slice(&stored);
        }
        (Place::Fixed { .. }, None) => {}
        (Place::Varchar { rank }, stored) => put(&mut row, &layout, rank, stored),
    }
    row
}

/// Puts a payload, or none, in the place of the one of this rank.
fn put(row: &mut Vec<u8>, layout: &Layout, rank: usize, stored: Option<Vec<u8>>) {
    let behind: Vec<usize> = (rank + 1..layout.varchars)
        .filter(|&rank| offset(row, layout, rank) != 0)
        .collect();
    let end = match behind.first() {
        Some(&next) => offset(row, layout, next),
        None => row.len(),
    };
    let start = match offset(row, layout, rank) {
        0 => end,
        start => start,
    };
    let own = stored.as_ref().map_or(0, |_| start);
    let bytes = stored.unwrap_or_default();
    for rank in behind {
        let moved = offset(row, layout, rank) - (end - start) + bytes.len();
        set_offset(row, layout, rank, moved);
    }
    set_offset(row, layout, rank, own);
    row.splice(start..end, bytes);
}

/// The bytes that a column holds for a good value; `None` for null.
fn stored(ty: &ColumnType, record: &Record, text: &[u8]) -> Option<Vec<u8>> {
    let bytes = |range: TextRange| range.of(text).expect("a range inside").to_vec();
    Some(match *record {
        Record::Null => return None,
        Record::Char(range) => {
            let mut bytes = bytes(range);
            bytes.resize(ty.fixed_size().expect("a slot"), b' ');
            bytes
        }
        Record::Varchar(range) => bytes(range),
        Record::Bit(range) => {
            let ColumnType::Bit(n) = *ty else {
                unreachable!("a Bit record matches a Bit column only")
            };
            let mut bytes = bytes(range);
            if let (Some(last), spare @ 1..) = (bytes.last_mut(), 7 - (usize::from(n) + 7) % 8) {
                *last &= 0xFF << spare;
            }
            bytes
        }
        Record::Numeric { unscaled, .. } => {
            let size = ty.fixed_size().expect("a slot");
            let digits = format!("{:0>width$}", unscaled.unsigned_abs(), width = 2 * size - 1);
            let sign = if unscaled < 0 { "D" } else { "C" };
            let nibbles = digits + sign;
            let byte = |at: usize| u8::from_str_radix(&nibbles[2 * at..2 * at + 2], 16);
            (0..size).map(|at| byte(at).expect("nibbles")).collect()
        }
        // The body behind the kind.
        _ => ValueList::of_records(&[*record], vec![]).bytes[1..].to_vec(),
    })
}
