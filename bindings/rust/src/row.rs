//! Rows to read: bytes that are borrowed.
use crate::error::Call;
use crate::list::with_counts;
use crate::raw::records::{count_all, read_all, read_one, read_text};
use crate::{raw, ColumnIndex, Error, FromValue, Reader, RowBuf, Schema, Sort, Value};
use alloc::vec::Vec;

/// A row in borrowed bytes, to be read. What is read from it lives as long as the bytes:
///
/// ```
/// use rook_row::{Error, RowRef, Schema, Value};
///
/// fn values<'a>(schema: &Schema, page: &'a [u8]) -> Result<Vec<Value<'a>>, Error> {
///     RowRef::new(page).read(schema)
/// }
/// ```
///
/// Equality is that of the bytes; [`same_content`](RowRef::same_content) compares values. To read the same columns of
/// many rows, make a [`Reader`].
#[derive(Debug, Clone, Copy, PartialEq, Eq, Hash)]
pub struct RowRef<'a> {
    bytes: &'a [u8],
}

impl<'a> RowRef<'a> {
    /// The row of these bytes, whatever they are: the calls check them.
    pub const fn new(bytes: &'a [u8]) -> RowRef<'a> {
        RowRef { bytes }
    }

    /// The row's bytes.
    pub const fn as_bytes(self) -> &'a [u8] {
        self.bytes
    }

    /// The row's sort, by its mark. Bytes that have no mark, since they are under four, count as short.
    #[inline]
    pub const fn sort(self) -> Sort {
        Sort::of(self.bytes)
    }

    /// Whether the row is long, by its mark.
    #[inline]
    pub const fn is_long(self) -> bool {
        self.sort().is_long()
    }

    /// The values of all columns. Refuses with 2 (a short row, but the schema serves long ones alone), 3 to 6 (the
    /// row), 7 and 8 (a column).
    pub fn read(self, schema: &Schema) -> Result<Vec<Value<'a>>, Error> {
        with_counts(schema.len(), |counts| read_all(schema, self.bytes, counts))
            .map_err(|refusal| Error::new(refusal, Call::Read(schema, self.bytes)))
    }

    /// The values of all columns, each with its width: the code points of its text as it is stored, a Char's blanks
    /// with them, or 0 for a null and for a column without text. Refuses as [`read`](RowRef::read).
    ///
    /// ```
    /// use rook_row::{DataType, RowBuf, Schema};
    ///
    /// let schema = Schema::new([("unit", DataType::Varchar(16)), ("cars", DataType::SmallInt)])?;
    /// let row = RowBuf::build(&schema, &["Süd".into(), 4i16.into()])?; // four bytes
    /// assert_eq!(row.read_with_widths(&schema)?, [("Süd".into(), 3), (4i16.into(), 0)]);
    /// # Ok::<(), rook_row::Error>(())
    /// ```
    pub fn read_with_widths(self, schema: &Schema) -> Result<Vec<(Value<'a>, usize)>, Error> {
        with_counts(schema.len(), |counts| {
            let values = read_all(schema, self.bytes, counts)?;
            let widths = counts.iter().map(|&count| count as usize);
            Ok(values.into_iter().zip(widths).collect())
        })
        .map_err(|refusal| Error::new(refusal, Call::Read(schema, self.bytes)))
    }

    /// The widths of all columns, as [`read_with_widths`](RowRef::read_with_widths) has them.
    ///
    /// ```
    /// use rook_row::{DataType, RowBuf, Schema, Value};
    ///
    /// let schema = Schema::new([DataType::Char(5), DataType::Varchar(5), DataType::Varchar(5)])?;
    /// let row = RowBuf::build(&schema, &["é".into(), "é€".into(), Value::Null])?;
    /// assert_eq!(row.widths(&schema)?, [4, 2, 0]); // three blanks fill the five bytes
    /// # Ok::<(), rook_row::Error>(())
    /// ```
    pub fn widths(self, schema: &Schema) -> Result<Vec<usize>, Error> {
        with_counts(schema.len(), |counts| {
            count_all(schema, self.bytes, counts)?;
            Ok(counts.iter().map(|&count| count as usize).collect())
        })
        .map_err(|refusal| Error::new(refusal, Call::Read(schema, self.bytes)))
    }

    /// The values of these columns, in this order. Refuses with 9 (no such column), 3 to 6 (the row), 7 and 8 (one of
    /// these columns).
    pub fn read_columns(
        self,
        schema: &Schema,
        columns: &[impl ColumnIndex],
    ) -> Result<Vec<Value<'a>>, Error> {
        let mut reader = Reader::new(schema, columns)?;
        Ok(reader.read(self)?.iter().collect())
    }

    /// The value of a column. Refuses with 9 (no such column), 11 (its type is not read as `T`, whatever stands in the
    /// row), 3 to 6 (the row), 7 and 8 (the column), 11 (it is null, which only an `Option` takes).
    pub fn get<T: FromValue<'a>>(
        self,
        schema: &Schema,
        column: impl ColumnIndex,
    ) -> Result<T, Error> {
        self.get_with_width(schema, column).map(|(value, _)| value)
    }

    /// The value of a column and its width: the code points of its text as it is stored, a Char's blanks with them, or
    /// 0 for a null and for a column without text. Refuses as [`get`](RowRef::get).
    ///
    /// ```
    /// use rook_row::{DataType, RowBuf, Schema};
    ///
    /// let schema = Schema::new([("unit", DataType::Varchar(16))])?;
    /// let row = RowBuf::build(&schema, &["Süd".into()])?;
    /// let (unit, width) = row.get_with_width::<&str>(&schema, "unit")?;
    /// assert_eq!(format!("|{unit}{:1$}|", "", 8 - width), "|Süd     |");
    /// # Ok::<(), rook_row::Error>(())
    /// ```
    #[inline]
    pub fn get_with_width<T: FromValue<'a>>(
        self,
        schema: &Schema,
        column: impl ColumnIndex,
    ) -> Result<(T, usize), Error> {
        let column = column.number(schema)?;
        let data_type = match schema.data_type(column) {
            Some(data_type) if T::reads(data_type) => data_type,
            _ => return Err(Error::not_read_as(T::rust_name(), schema, column)),
        };
        let (value, width) = with_counts(schema.len(), |counts| {
            let value = read_one(schema, self.bytes, column, data_type, counts)?;
            Ok((value, counts[column] as usize))
        })
        .map_err(|refusal| Error::new(refusal, Call::Read(schema, self.bytes)))?;
        let value = T::from_value(value);
        let value = value.map_err(|error| Error::not_converted(error, schema, column))?;
        Ok((value, width))
    }

    /// The text of a Char, with its blanks, or of a Varchar; `None` for null. Refuses with 9 (no such column), 11 (a
    /// column without text), and as a read of that column.
    pub fn text(self, schema: &Schema, column: impl ColumnIndex) -> Result<Option<&'a str>, Error> {
        let column = column.number(schema)?;
        read_text(schema, self.bytes, column)
            .map_err(|refusal| Error::new(refusal, Call::Text(schema, self.bytes, column)))
    }

    /// Whether a column's bit says null, by the row's own header. In a row that is not sound, a Varchar without an
    /// offset reads as null although its bit is clear. Refuses with 4, 3 (the row), 9 (no such column).
    #[inline]
    pub fn is_null(self, column: usize) -> Result<bool, Error> {
        raw::is_null(self.bytes, column)
            .map_err(|refusal| Error::new(refusal, Call::Flag(self.bytes, column)))
    }

    /// Whether two rows of one schema have the same values, as [`Value`]'s equality has it. Refuses as a
    /// [`read`](RowRef::read) of this row, then of the other.
    pub fn same_content(self, schema: &Schema, other: RowRef<'_>) -> Result<bool, Error> {
        raw::same_content(schema.as_bytes(), self.bytes, other.bytes).map_err(|refusal| {
            // The row that a read refuses is the one that the refusal is about.
            let refused = if self.read(schema).is_err() {
                self
            } else {
                other
            };
            Error::new(refusal, Call::Read(schema, refused.bytes))
        })
    }

    /// The row with bytes of its own.
    pub fn to_owned(self) -> RowBuf {
        RowBuf::from_bytes(self.bytes)
    }
}

impl<'a> From<&'a [u8]> for RowRef<'a> {
    fn from(bytes: &'a [u8]) -> RowRef<'a> {
        RowRef::new(bytes)
    }
}

impl AsRef<[u8]> for RowRef<'_> {
    fn as_ref(&self) -> &[u8] {
        self.bytes
    }
}
