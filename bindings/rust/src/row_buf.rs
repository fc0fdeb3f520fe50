//! Rows with bytes of their own.
use crate::{
    list, Builder, ColumnIndex, Error, FromValue, IntoValue, RowFormat, RowMut, RowRef, Schema,
    Sort, Value,
};
use alloc::vec;
use alloc::vec::Vec;

/// The readings of [`RowRef`], for a type that has `as_row`.
macro_rules! reads_as_a_row {
    () => {
        /// Whether the row is long, by its mark.
        #[inline]
        pub fn is_long(&self) -> bool {
            self.sort().is_long()
        }

        /// As [`RowRef::read`].
        pub fn read(&self, schema: &Schema) -> Result<Vec<Value<'_>>, Error> {
            self.as_row().read(schema)
        }

        /// As [`RowRef::read_with_widths`].
        pub fn read_with_widths(&self, schema: &Schema) -> Result<Vec<(Value<'_>, usize)>, Error> {
            self.as_row().read_with_widths(schema)
        }

        /// As [`RowRef::widths`].
        pub fn widths(&self, schema: &Schema) -> Result<Vec<usize>, Error> {
            self.as_row().widths(schema)
        }

        /// As [`RowRef::read_columns`].
        pub fn read_columns(
            &self,
            schema: &Schema,
            columns: &[impl ColumnIndex],
        ) -> Result<Vec<Value<'_>>, Error> {
            self.as_row().read_columns(schema, columns)
        }

        /// As [`RowRef::get`].
        pub fn get<'r, T: FromValue<'r>>(
            &'r self,
            schema: &Schema,
            column: impl ColumnIndex,
        ) -> Result<T, Error> {
            self.as_row().get(schema, column)
        }

        /// As [`RowRef::get_with_width`].
        pub fn get_with_width<'r, T: FromValue<'r>>(
            &'r self,
            schema: &Schema,
            column: impl ColumnIndex,
        ) -> Result<(T, usize), Error> {
            self.as_row().get_with_width(schema, column)
        }

        /// As [`RowRef::text`].
        pub fn text(
            &self,
            schema: &Schema,
            column: impl ColumnIndex,
        ) -> Result<Option<&str>, Error> {
            self.as_row().text(schema, column)
        }

        /// As [`RowRef::is_null`].
        #[inline]
        pub fn is_null(&self, column: usize) -> Result<bool, Error> {
            self.as_row().is_null(column)
        }

        /// As [`RowRef::same_content`].
        pub fn same_content(&self, schema: &Schema, other: RowRef<'_>) -> Result<bool, Error> {
            self.as_row().same_content(schema, other)
        }
    };
}
pub(crate) use reads_as_a_row;

/// A row with bytes of its own, which grows and shrinks with its texts. Equality is that of the bytes;
/// [`same_content`](RowBuf::same_content) compares values. To make or edit many rows, keep a [`Builder`] or an
/// [`Editor`](crate::Editor).
#[derive(Debug, Clone, PartialEq, Eq, Hash)]
pub struct RowBuf {
    bytes: Vec<u8>,
}

impl RowBuf {
    /// The row of nulls. Refuses with 2 (the schema serves long rows alone).
    pub fn fresh<'s>(format: impl Into<RowFormat<'s>>) -> Result<RowBuf, Error> {
        let format = format.into();
        let mut bytes = vec![0; format.minimum()];
        RowMut::fresh(format, &mut bytes)?;
        Ok(RowBuf { bytes })
    }

    /// The row of these values, one for each column. Refuses as [`Builder::build`].
    pub fn build<'s>(
        format: impl Into<RowFormat<'s>>,
        values: &[Value<'_>],
    ) -> Result<RowBuf, Error> {
        let mut builder = Builder::new(format);
        builder.build(values).map(RowRef::to_owned)
    }

    /// The row of these values and the widths of its columns, as [`Builder::build_with_widths`] has them.
    pub fn build_with_widths<'s>(
        format: impl Into<RowFormat<'s>>,
        values: &[Value<'_>],
    ) -> Result<(RowBuf, Vec<usize>), Error> {
        let mut builder = Builder::new(format);
        let (row, widths) = builder.build_with_widths(values)?;
        Ok((row.to_owned(), widths.to_vec()))
    }

    /// The row of these bytes, whatever they are: the calls check them.
    pub fn from_bytes(bytes: impl Into<Vec<u8>>) -> RowBuf {
        RowBuf {
            bytes: bytes.into(),
        }
    }

    /// The row's bytes.
    pub fn as_bytes(&self) -> &[u8] {
        &self.bytes
    }

    /// The row's bytes, without a copy.
    pub fn into_bytes(self) -> Vec<u8> {
        self.bytes
    }

    /// The row's sort, by its mark.
    #[inline]
    pub fn sort(&self) -> Sort {
        self.as_row().sort()
    }

    /// The row, borrowed.
    pub fn as_row(&self) -> RowRef<'_> {
        RowRef::new(&self.bytes)
    }

    reads_as_a_row!();

    /// Sets a column to a value; `None` of an `Option` sets it to null. Refuses with 15 (the row is not sound), 9 (no
    /// such column), 10 (a text above the [sort's length](Sort::max_length)), 11 and 12 (the value; `Value::Null` is
    /// 11), 13 (a row above that length).
    pub fn set<'v>(
        &mut self,
        schema: &Schema,
        column: impl ColumnIndex,
        value: impl IntoValue<'v>,
    ) -> Result<(), Error> {
        let column = column.number(schema)?;
        match value.into_value() {
            // No value lengthens a row by more than its text.
            Some(value) => self.edit(list::text(&value).len(), |row| {
                row.set_value(schema, column, &value)
            }),
            None => self.set_null(schema, column),
        }
    }

    /// Sets a column to null. The bytes of a fixed column stay as they are, only its bit says null. Refuses with 15
    /// (the row is not sound), 9 (no such column).
    pub fn set_null(&mut self, schema: &Schema, column: impl ColumnIndex) -> Result<(), Error> {
        let column = column.number(schema)?;
        self.edit(0, |row| row.set_null(schema, column))
    }

    /// An edit with so many bytes of room behind the row, which are given back after it.
    fn edit(
        &mut self,
        more: usize,
        edit: impl FnOnce(&mut RowMut<'_>) -> Result<(), Error>,
    ) -> Result<(), Error> {
        let length = self.bytes.len();
        let room = (length + more).min(self.sort().max_length());
        self.bytes.resize(room.max(length), 0);
        let mut row = RowMut::new(&mut self.bytes, length);
        let result = edit(&mut row);
        let length = row.len();
        self.bytes.truncate(length);
        result
    }
}

impl AsRef<[u8]> for RowBuf {
    fn as_ref(&self) -> &[u8] {
        &self.bytes
    }
}

impl<'a> From<&'a RowBuf> for RowRef<'a> {
    fn from(row: &'a RowBuf) -> RowRef<'a> {
        row.as_row()
    }
}

impl From<RowRef<'_>> for RowBuf {
    fn from(row: RowRef<'_>) -> RowBuf {
        row.to_owned()
    }
}
