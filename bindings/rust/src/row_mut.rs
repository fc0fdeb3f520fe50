//! Rows in lent memory, written and edited in place.
use crate::error::Call;
use crate::list::{self, RECORD};
use crate::raw::Refusal;
use crate::row_buf::reads_as_a_row;
use crate::{
    raw, Builder, ColumnIndex, Error, FromValue, IntoValue, RowFormat, RowRef, Schema, Sort, Value,
};
use alloc::vec::Vec;

/// A row at the front of a lent buffer, edited in place. Bytes behind the row stay as they are.
///
/// ```
/// use rook_row::{DataType, RowMut, Schema};
///
/// let schema = Schema::new([("platform", DataType::Varchar(4)), ("cars", DataType::SmallInt)])?;
/// let mut page = [0; 64];
/// let mut row = RowMut::fresh(&schema, &mut page)?;
/// row.set(&schema, "platform", "12b")?;
/// row.set(&schema, "cars", 4i16)?;
/// assert_eq!(row.get::<&str>(&schema, "platform")?, "12b");
/// assert_eq!(row.len(), schema.minimum() + 3);
/// # Ok::<(), rook_row::Error>(())
/// ```
#[derive(Debug)]
pub struct RowMut<'a> {
    buffer: &'a mut [u8],
    length: usize,
}

impl<'a> RowMut<'a> {
    /// The row in the first `length` bytes of the buffer, whatever they are: the calls check them.
    pub fn new(buffer: &'a mut [u8], length: usize) -> RowMut<'a> {
        RowMut { buffer, length }
    }

    /// The row of nulls. Refuses with 2 (the schema serves long rows alone), 14 (the buffer is too short).
    pub fn fresh<'s>(
        format: impl Into<RowFormat<'s>>,
        buffer: &'a mut [u8],
    ) -> Result<RowMut<'a>, Error> {
        let format = format.into();
        let length = raw::fresh(format.schema().as_bytes(), format.sort().is_long(), buffer)
            .map_err(|refusal| Error::new(refusal, Call::Build(format, &[])))?;
        Ok(RowMut { buffer, length })
    }

    /// The row of these values, one for each column. Refuses as [`Builder::build`], and with 14 (the buffer is too
    /// short).
    pub fn build<'s>(
        format: impl Into<RowFormat<'s>>,
        values: &[Value<'_>],
        buffer: &'a mut [u8],
    ) -> Result<RowMut<'a>, Error> {
        Builder::new(format).build_into(values, buffer)
    }

    /// The row's length.
    pub fn len(&self) -> usize {
        self.length
    }

    /// Whether the row has no bytes, and so is none.
    pub fn is_empty(&self) -> bool {
        self.length == 0
    }

    /// The row's sort, by its mark. A row that the buffer does not hold counts as short.
    #[inline]
    pub fn sort(&self) -> Sort {
        self.buffer.get(..self.length).map_or(Sort::Short, Sort::of)
    }

    /// The row, or what the buffer has of it.
    pub fn as_row(&self) -> RowRef<'_> {
        RowRef::new(&self.buffer[..self.length.min(self.buffer.len())])
    }

    /// The row, for as long as the buffer is lent.
    pub fn into_row(self) -> RowRef<'a> {
        let length = self.length.min(self.buffer.len());
        RowRef::new(&self.buffer[..length])
    }

    reads_as_a_row!();

    /// Sets a column to a value; `None` of an `Option` sets it to null. Refuses with 15 (the row is not sound), 9 (no
    /// such column), 10 (a text above the [sort's length](Sort::max_length)), 11 and 12 (the value; `Value::Null` is
    /// 11), 13 (a row above that length), 14 (the buffer is too short, for the row as it is or as it would be).
    pub fn set<'v>(
        &mut self,
        schema: &Schema,
        column: impl ColumnIndex,
        value: impl IntoValue<'v>,
    ) -> Result<(), Error> {
        let column = column.number(schema)?;
        match value.into_value() {
            Some(value) => self.set_value(schema, column, &value),
            None => self.set_null(schema, column),
        }
    }

    pub(crate) fn set_value(
        &mut self,
        schema: &Schema,
        column: usize,
        value: &Value<'_>,
    ) -> Result<(), Error> {
        let mut record = [0; RECORD];
        let end = list::write(value, || schema.data_type(column), 0, &mut record);
        self.length = raw::set(
            schema.as_bytes(),
            self.buffer,
            self.length,
            column,
            &record[..end],
            list::text(value),
        )
        .map_err(|refusal| self.refused(refusal, schema, column, Some(value)))?;
        Ok(())
    }

    /// Sets a column to null. The bytes of a fixed column stay as they are, only its bit says null. Refuses with 15
    /// (the row is not sound), 9 (no such column), 14 (the buffer does not hold the row).
    pub fn set_null(&mut self, schema: &Schema, column: impl ColumnIndex) -> Result<(), Error> {
        let column = column.number(schema)?;
        self.length = raw::set_null(schema.as_bytes(), self.buffer, self.length, column)
            .map_err(|refusal| self.refused(refusal, schema, column, None))?;
        Ok(())
    }

    #[cold]
    fn refused(
        &self,
        refusal: Refusal,
        schema: &Schema,
        column: usize,
        value: Option<&Value<'_>>,
    ) -> Error {
        let format = schema.with_sort(self.sort());
        Error::new(refusal, Call::Edit(format, column, value))
    }
}
