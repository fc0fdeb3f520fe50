//! Row bytes, from 01: the padded form, the long twin, soundness, null slots zeroed.

use crate::column::{ColumnType, RustColumns};
use crate::layout::{BITMAP, Layout, PACKED, Place};
use crate::row_sort::LONG;
use crate::{LIMIT, RowSort, rust, value};

/// The column's bit in the null bitmap.
pub fn null_bit(row: &[u8], column: usize) -> bool {
    (row[BITMAP + column / 8] >> (column % 8)) & 1 == 1
}

pub fn clear_null_bit(row: &mut [u8], column: usize) {
    row[BITMAP + column / 8] &= !(1 << (column % 8));
}

pub fn set_null_bit(row: &mut [u8], column: usize) {
    row[BITMAP + column / 8] |= 1 << (column % 8);
}

/// The offset table's number of this rank.
pub fn offset(row: &[u8], layout: &Layout, rank: usize) -> usize {
    let width = layout.sort.offset_width();
    let at = layout.table + width * rank;
    let mut bytes = [0; 8];
    bytes[..width].copy_from_slice(&row[at..at + width]);
    usize::from_le_bytes(bytes)
}

/// Cuts a number that does not fit.
pub fn set_offset(row: &mut [u8], layout: &Layout, rank: usize, offset: usize) {
    let width = layout.sort.offset_width();
    let at = layout.table + width * rank;
    row[at..at + width].copy_from_slice(&offset.to_le_bytes()[..width]);
}

/// The padded form of a sound packed row: the flag clear, each slot at its
/// aligned start, `filler` between the slots, offsets moved with the payloads.
/// `None` if it passes the row limit.
pub fn padded(types: &[ColumnType], row: &[u8], filler: u8) -> Option<Vec<u8>> {
    let sort = RowSort::of_row(row);
    let from = Layout::packed_of(types, sort);
    let to = Layout::padded_of(types, sort);
    let shift = to.minimum - from.minimum;
    if row.len() + shift > sort.limit() {
        return None;
    }
    let fixed = from.table + sort.offset_width() * from.varchars;
    let mut out = row[..fixed].to_vec();
    out.resize(to.minimum, filler);
    out.extend(&row[from.minimum..]);
    out[3] &= !(PACKED >> 8) as u8;
    for rank in 0..from.varchars {
        let old = offset(row, &from, rank);
        if old != 0 {
            set_offset(&mut out, &to, rank, old + shift);
        }
    }
    for (old, new) in from.places.iter().zip(&to.places) {
        if let (Place::Fixed { start, size }, Place::Fixed { start: at, .. }) = (*old, *new) {
            out[at..at + size].copy_from_slice(&row[start..start + size]);
        }
    }
    Some(out)
}

/// The long twin of a short row, packed or padded: the mark set, offsets of four bytes,
/// moved with what stands behind the table. `None` if the row has another header than
/// its columns or less than their minimum.
pub fn long_twin(types: &[ColumnType], row: &[u8]) -> Option<Vec<u8>> {
    if row.len() < BITMAP || RowSort::of_row(row) == RowSort::Long {
        return None;
    }
    let from = Layout::of_row(types, row);
    let field = from.varchars as u16 | u16::from_le_bytes([row[2], row[3]]) & PACKED;
    let header = [types.len() as u16, field].map(u16::to_le_bytes).concat();
    if row[..BITMAP] != header || row.len() < from.minimum {
        return None;
    }
    let shift = 2 * from.varchars;
    let behind = from.table + shift;
    let mut out = row[..from.table].to_vec();
    out[3] |= (LONG >> 8) as u8;
    for rank in 0..from.varchars {
        let old = offset(row, &from, rank);
        // Of a place before the slots nothing is known but that it is not 0.
        let moved = if old < behind { old } else { old + shift };
        out.extend((moved as u32).to_le_bytes());
    }
    out.extend(&row[behind..]);
    Some(out)
}

/// Whether a read of all columns of a short row gives 0: the Rust reads them, and the
/// row and its dates are within 01's limits.
pub fn reads(columns: &RustColumns, row: &[u8]) -> bool {
    row.len() <= LIMIT
        && rust::read_all(&columns.rust, row)
            .ok()
            .is_some_and(|values| values.iter().flatten().all(value::in_domain))
}

/// Whether a short row may be edited: all columns read, each Varchar has offset 0
/// exactly if it is null, and the first other offset, or the row's length if
/// there is none, is the minimum.
pub fn is_sound(columns: &RustColumns, row: &[u8]) -> bool {
    if !reads(columns, row) {
        return false;
    }
    let layout = Layout::of_row(columns.types, row);
    let nulls_agree = layout
        .places
        .iter()
        .enumerate()
        .all(|(column, place)| match place {
            Place::Varchar { rank } => null_bit(row, column) == (offset(row, &layout, *rank) == 0),
            Place::Fixed { .. } => true,
        });
    let first = (0..layout.varchars)
        .map(|rank| offset(row, &layout, rank))
        .find(|&offset| offset != 0)
        .unwrap_or(row.len());
    nulls_agree && first == layout.minimum
}

/// Sets the slots of null fixed columns to zero, as demand 3 says.
pub fn zero_null_slots(types: &[ColumnType], row: &mut [u8]) {
    for (column, place) in Layout::of_row(types, row).places.into_iter().enumerate() {
        if let Place::Fixed { start, size } = place
            && null_bit(row, column)
        {
            row[start..start + size].fill(0);
        }
    }
}
