//! Where the parts of a row are, from 01's layout rules.

use crate::RowSort;
use crate::column::ColumnType;

/// Set in the header's second number of a packed row.
pub const PACKED: u16 = 0x8000;

/// The null bitmap follows the header.
pub const BITMAP: usize = 4;

#[derive(Debug, Clone, Copy, PartialEq, Eq)]
pub enum Place {
    /// A fixed column's slot, counted from the row's first byte.
    Fixed { start: usize, size: usize },
    /// A Varchar's rank in the offset table.
    Varchar { rank: usize },
}

#[derive(Debug, Clone, PartialEq, Eq)]
pub struct Layout {
    pub sort: RowSort,
    /// Where each column is, in schema order.
    pub places: Vec<Place>,
    pub varchars: usize,
    /// Where the offset table starts.
    pub table: usize,
    /// The number of bytes before the payloads.
    pub minimum: usize,
}

impl Layout {
    pub fn packed(types: &[ColumnType]) -> Self {
        Self::packed_of(types, RowSort::Short)
    }

    pub fn padded(types: &[ColumnType]) -> Self {
        Self::padded_of(types, RowSort::Short)
    }

    pub fn packed_of(types: &[ColumnType], sort: RowSort) -> Self {
        Self::new(types, sort, |_| 1)
    }

    pub fn padded_of(types: &[ColumnType], sort: RowSort) -> Self {
        Self::new(types, sort, ColumnType::alignment)
    }

    /// The layout that a row's header names; the row has four bytes or more.
    pub fn of_row(types: &[ColumnType], row: &[u8]) -> Self {
        let sort = RowSort::of_row(row);
        if is_packed(row) {
            Self::packed_of(types, sort)
        } else {
            Self::padded_of(types, sort)
        }
    }

    fn new(types: &[ColumnType], sort: RowSort, alignment: impl Fn(&ColumnType) -> usize) -> Self {
        let varchars = types.iter().filter(|ty| ty.is_variable_length()).count();
        let table = BITMAP + types.len().div_ceil(8);
        let fixed = table + sort.offset_width() * varchars;
        // The end of the fixed columns so far, counted from the first fixed byte.
        let mut end: usize = 0;
        let mut ranks = 0..varchars;
        let place = |ty: &ColumnType| match ty.fixed_size() {
            Some(size) => {
                let start = end.next_multiple_of(alignment(ty));
                end = start + size;
                Place::Fixed {
                    start: fixed + start,
                    size,
                }
            }
            None => Place::Varchar {
                rank: ranks.next().expect("a rank for each Varchar"),
            },
        };
        Layout {
            sort,
            places: types.iter().map(place).collect(),
            varchars,
            table,
            minimum: fixed + end,
        }
    }
}

/// Whether the header has the packed flag; the row has four bytes or more.
pub fn is_packed(row: &[u8]) -> bool {
    u16::from_le_bytes([row[2], row[3]]) & PACKED != 0
}
