//! Where the parts of a row are: header of four bytes, null bitmap, offset
//! table, fixed columns, payloads.

use crate::schema::Type;
use crate::sort::Sort;

/// Set in the header's second number of a packed row.
pub const PACKED: usize = 0x8000;

/// Where the null bitmap starts.
pub const BITMAP: usize = 4;

/// Where a column is.
#[derive(Debug, Clone, Copy, PartialEq, Eq)]
pub enum Place {
    /// A fixed column's slot, counted from the row's first byte.
    Slot { start: usize, size: usize },
    /// A Varchar's number in the offset table.
    Rank(usize),
}

#[derive(Debug, Clone, PartialEq, Eq)]
pub struct Layout {
    pub sort: Sort,
    /// Of each column, in schema order.
    pub places: Vec<Place>,
    pub varchars: usize,
    /// Where the offset table starts.
    pub table: usize,
    /// Where the fixed columns start.
    pub fixed: usize,
    /// The number of bytes before the payloads.
    pub minimum: usize,
}

impl Layout {
    /// Fixed columns end to end.
    pub fn packed(types: &[Type], sort: Sort) -> Self {
        Self::new(types, sort, |_| 1)
    }

    /// Each start rounded up to its alignment, counted from the first fixed
    /// byte, with no padding at the end.
    pub fn padded(types: &[Type], sort: Sort) -> Self {
        Self::new(types, sort, Type::alignment)
    }

    fn new(types: &[Type], sort: Sort, alignment: impl Fn(Type) -> usize) -> Self {
        let varchars = types.iter().filter(|ty| ty.is_varchar()).count();
        let table = BITMAP + types.len().div_ceil(8);
        let fixed = table + sort.offset_width() * varchars;
        let mut places = Vec::new();
        let mut rank = 0;
        let mut end = 0;
        for &ty in types {
            match ty.fixed_size() {
                Some(size) => {
                    while end % alignment(ty) != 0 {
                        end += 1;
                    }
                    let start = fixed + end;
                    places.push(Place::Slot { start, size });
                    end += size;
                }
                None => {
                    places.push(Place::Rank(rank));
                    rank += 1;
                }
            }
        }
        Layout {
            sort,
            places,
            varchars,
            table,
            fixed,
            minimum: fixed + end,
        }
    }
}

/// The number of two bytes, little-endian, at a place of the row.
pub fn number_at(row: &[u8], at: usize) -> usize {
    usize::from(row[at]) + 256 * usize::from(row[at + 1])
}

/// The column's bit in the null bitmap: one bit a column, low bit first.
pub fn null_bit(row: &[u8], column: usize) -> bool {
    row[BITMAP + column / 8] >> (column % 8) & 1 == 1
}

/// The numbers of the offset table.
pub fn offsets(layout: &Layout, row: &[u8]) -> Vec<usize> {
    let width = layout.sort.offset_width();
    let offset = |rank: usize| {
        let at = layout.table + width * rank;
        let bytes = row[at..at + width].iter().rev();
        bytes.fold(0, |number, &byte| 256 * number + usize::from(byte))
    };
    (0..layout.varchars).map(offset).collect()
}

/// Where the payload of this rank ends: at the next non-zero offset of a higher
/// rank, else at the row's end.
pub fn end_of(offsets: &[usize], rank: usize, row_length: usize) -> usize {
    let higher = &offsets[rank + 1..];
    higher
        .iter()
        .copied()
        .find(|&offset| offset != 0)
        .unwrap_or(row_length)
}
