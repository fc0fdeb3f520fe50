//! The two sorts of rows: how long one may be, how wide its offsets are, and the mark
//! by which a row tells its sort.

use crate::layout::number_at;

/// Set in the header's second number of a long row.
pub const LONG: usize = 0x4000;

#[derive(Debug, Clone, Copy, PartialEq, Eq)]
pub enum Sort {
    Short,
    Long,
}

impl Sort {
    pub const ALL: [Sort; 2] = [Sort::Short, Sort::Long];

    /// The most bytes of a row, and of the text area of its values.
    pub fn limit(self) -> usize {
        match self {
            Sort::Short => 65_535,
            Sort::Long => 1_048_576,
        }
    }

    /// The bytes of each offset.
    pub fn offset_width(self) -> usize {
        match self {
            Sort::Short => 2,
            Sort::Long => 4,
        }
    }

    /// What is added to the header's second number.
    pub fn mark(self) -> usize {
        match self {
            Sort::Short => 0,
            Sort::Long => LONG,
        }
    }

    /// What a row's own mark tells, whatever else is wrong with the row; one under
    /// four bytes has none and counts as short.
    pub fn of_row(row: &[u8]) -> Self {
        if row.len() >= 4 && number_at(row, 2) & LONG != 0 {
            Sort::Long
        } else {
            Sort::Short
        }
    }

    /// The sort of the row that a buffer begins with; one past its buffer counts as
    /// short.
    pub fn of_buffer(buf: &[u8], row_length: usize) -> Self {
        match buf.get(..row_length) {
            Some(row) => Sort::of_row(row),
            None => Sort::Short,
        }
    }
}
