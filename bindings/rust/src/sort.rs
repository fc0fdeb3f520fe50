//! Short and long rows.
use crate::raw::limit;
use crate::Schema;
use core::fmt;

/// The sort of a row: how long it may be, and how many bytes each offset of a Varchar takes. It is chosen where a row
/// is made; the row's header keeps it, so that reading and editing are told by the row itself.
///
/// ```
/// use rook_row::{DataType, RowBuf, Schema, Sort};
///
/// let schema = Schema::new([("track", DataType::Int), ("remark", DataType::VarcharChars(65_535))])?;
/// let remark = "Überholung ".repeat(5_900); // 70,800 bytes
/// let values = [7.into(), (&remark).into()];
/// let refused = RowBuf::build(&schema, &values).unwrap_err();
/// assert_eq!(refused.to_string(), "the texts have 70800 bytes together, but 65535 are the most of a short row (10)");
///
/// let mut row = RowBuf::build(schema.with_sort(Sort::Long), &values)?;
/// assert!(row.is_long());
/// assert_eq!(row.get::<&str>(&schema, "remark")?, remark);
/// row.set(&schema, "remark", &remark[12..])?; // it stays long
/// # Ok::<(), rook_row::Error>(())
/// ```
#[derive(Debug, Clone, Copy, PartialEq, Eq, Hash, Default)]
pub enum Sort {
    /// Rows of at most 65,535 bytes, with two bytes for each offset.
    #[default]
    Short,
    /// Rows of at most 1,048,576 bytes, with four bytes for each offset.
    Long,
}

impl Sort {
    /// The greatest length of a row of this sort, and of the texts that one is made of or set to.
    ///
    /// ```
    /// use rook_row::Sort;
    ///
    /// assert_eq!(Sort::Short.max_length(), 65_535);
    /// assert_eq!(Sort::Long.max_length(), 1_048_576);
    /// ```
    pub const fn max_length(self) -> usize {
        match self {
            Sort::Short => limit::ROW,
            Sort::Long => limit::LONG_ROW,
        }
    }

    /// Whether it is the long one.
    pub const fn is_long(self) -> bool {
        matches!(self, Sort::Long)
    }

    /// The sort of a row by its mark, which a row under four bytes does not have.
    #[inline]
    pub(crate) const fn of(row: &[u8]) -> Sort {
        match row {
            [_, _, _, marks, ..] if *marks & 0x40 != 0 => Sort::Long,
            _ => Sort::Short,
        }
    }
}

impl fmt::Display for Sort {
    fn fmt(&self, f: &mut fmt::Formatter<'_>) -> fmt::Result {
        f.pad(match self {
            Sort::Short => "short",
            Sort::Long => "long",
        })
    }
}

/// What a row is made by: a schema, and the sort of its rows. A schema alone stands for short rows;
/// [`Schema::with_sort`] says which.
#[derive(Debug, Clone, Copy, PartialEq, Eq, Hash)]
pub struct RowFormat<'s> {
    schema: &'s Schema,
    sort: Sort,
}

impl<'s> RowFormat<'s> {
    pub(crate) const fn new(schema: &'s Schema, sort: Sort) -> RowFormat<'s> {
        RowFormat { schema, sort }
    }

    /// The schema.
    pub const fn schema(self) -> &'s Schema {
        self.schema
    }

    /// The sort of the rows.
    pub const fn sort(self) -> Sort {
        self.sort
    }

    /// The length of a row without text: of the row of nulls.
    ///
    /// ```
    /// use rook_row::{DataType, Schema, Sort};
    ///
    /// let schema = Schema::new([DataType::Int, DataType::Varchar(5), DataType::SmallInt])?;
    /// assert_eq!(schema.with_sort(Sort::Short).minimum(), 13);
    /// assert_eq!(schema.with_sort(Sort::Long).minimum(), 15); // the offset has two bytes more
    /// # Ok::<(), rook_row::Error>(())
    /// ```
    pub fn minimum(self) -> usize {
        self.schema.minimum_of(self.sort)
    }
}

impl<'s> From<&'s Schema> for RowFormat<'s> {
    fn from(schema: &'s Schema) -> RowFormat<'s> {
        schema.with_sort(Sort::Short)
    }
}
