//! The two sorts of rows, short and long. The Rust knows the short one alone.

use crate::LIMIT;

/// Set in the header's second number of a long row.
pub const LONG: u16 = 0x4000;

#[derive(Debug, Clone, Copy, PartialEq, Eq, PartialOrd, Ord)]
pub enum RowSort {
    Short,
    Long,
}

impl RowSort {
    pub const ALL: [RowSort; 2] = [RowSort::Short, RowSort::Long];

    /// The most bytes of a row and of a text area.
    pub fn limit(self) -> usize {
        match self {
            RowSort::Short => LIMIT,
            RowSort::Long => 1_048_576,
        }
    }

    /// The bytes of an offset.
    pub fn offset_width(self) -> usize {
        match self {
            RowSort::Short => 2,
            RowSort::Long => 4,
        }
    }

    /// What is set in the header's second number.
    pub fn mark(self) -> u16 {
        match self {
            RowSort::Short => 0,
            RowSort::Long => LONG,
        }
    }

    /// What the row's mark tells; under four bytes it has none.
    pub fn of_row(row: &[u8]) -> Self {
        match row {
            [_, _, _, high, ..] if high & (LONG >> 8) as u8 != 0 => RowSort::Long,
            _ => RowSort::Short,
        }
    }
}
