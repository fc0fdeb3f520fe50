//! Many rows built of values.
use crate::error::Call;
use crate::list::{with_counts, ValueList};
use crate::{raw, Error, RowFormat, RowMut, RowRef, Schema, Sort, Value};
use alloc::vec::Vec;

/// Builds rows of one schema and sort; its lists and the row's memory are kept from one row to the next.
///
/// ```
/// use rook_row::{Builder, DataType, Schema, Value};
///
/// let schema = Schema::new([("platform", DataType::Varchar(4)), ("cars", DataType::SmallInt)])?;
/// let mut builder = Builder::new(&schema);
/// for (platform, cars) in [("7", Some(4i16)), ("12b", None)] {
///     let row = builder.build(&[platform.into(), cars.into()])?;
///     assert_eq!(row.get::<Option<i16>>(&schema, "cars")?, cars);
/// }
/// # Ok::<(), rook_row::Error>(())
/// ```
#[derive(Debug, Clone)]
pub struct Builder {
    schema: Schema,
    sort: Sort,
    list: ValueList,
    row: Vec<u8>,
    /// Those of the row that was last built with widths.
    widths: Vec<usize>,
}

impl Builder {
    /// A builder of short rows of this schema, or of rows of [another sort](Schema::with_sort).
    pub fn new<'s>(format: impl Into<RowFormat<'s>>) -> Builder {
        let format = format.into();
        Builder {
            schema: format.schema().clone(),
            sort: format.sort(),
            list: ValueList::default(),
            row: Vec::new(),
            widths: Vec::new(),
        }
    }

    /// The row of these values, one for each column. Refuses with 2 (the schema serves long rows alone), 10 (not one
    /// for each column, or texts above the [sort's length](Sort::max_length)), 11 and 12 (a column's value), 13 (a row
    /// above that length).
    pub fn build(&mut self, values: &[Value<'_>]) -> Result<RowRef<'_>, Error> {
        let length = self.write(values, |_, _| ())?;
        Ok(RowRef::new(&self.row[..length]))
    }

    /// The row of these values and the widths of its columns: the code points of each text as it is stored, a Char's
    /// blanks with them, or 0 for a null and for a column without text. Refuses as [`build`](Builder::build).
    ///
    /// ```
    /// use rook_row::{Builder, DataType, Schema};
    ///
    /// let schema = Schema::new([("unit", DataType::Varchar(16)), ("cars", DataType::SmallInt)])?;
    /// let mut builder = Builder::new(&schema);
    /// let mut widest = 0;
    /// for unit in ["Süd", "ET 41"] {
    ///     let (row, widths) = builder.build_with_widths(&[unit.into(), 4i16.into()])?;
    ///     assert_eq!(row.get::<&str>(&schema, "unit")?, unit);
    ///     widest = widest.max(widths[0]);
    /// }
    /// assert_eq!(widest, 5);
    /// # Ok::<(), rook_row::Error>(())
    /// ```
    pub fn build_with_widths(
        &mut self,
        values: &[Value<'_>],
    ) -> Result<(RowRef<'_>, &[usize]), Error> {
        let length = self.write(values, |counts, widths| {
            widths.clear();
            widths.extend(counts.iter().map(|&count| count as usize));
        })?;
        Ok((RowRef::new(&self.row[..length]), &self.widths))
    }

    /// The row of these values at the front of a lent buffer. Refuses as [`build`](Builder::build), and with 14 (the
    /// buffer is too short).
    pub fn build_into<'b>(
        &mut self,
        values: &[Value<'_>],
        buffer: &'b mut [u8],
    ) -> Result<RowMut<'b>, Error> {
        self.list.fill(&self.schema, values);
        let length = with_counts(self.schema.len(), |counts| {
            write(self.format(), &self.list, values, buffer, counts)
        })?;
        Ok(RowMut::new(buffer, length))
    }

    fn format(&self) -> RowFormat<'_> {
        self.schema.with_sort(self.sort)
    }

    /// Writes the row of these values to the kept memory, and hands back its length; `then` is given the counts of code
    /// points, and the kept widths.
    #[inline]
    fn write(
        &mut self,
        values: &[Value<'_>],
        then: impl FnOnce(&[u32], &mut Vec<usize>),
    ) -> Result<usize, Error> {
        self.list.fill(&self.schema, values);
        // Only the texts of Varchars lengthen the row of nulls, and the text area has those and more.
        let room = self.format().minimum() + self.list.text().len();
        let room = room.min(self.sort.max_length());
        if self.row.len() < room {
            self.row.resize(room, 0);
        }
        with_counts(self.schema.len(), |counts| {
            let format = self.schema.with_sort(self.sort);
            let length = write(format, &self.list, values, &mut self.row, counts)?;
            then(counts, &mut self.widths);
            Ok(length)
        })
    }
}

fn write(
    format: RowFormat<'_>,
    list: &ValueList,
    values: &[Value<'_>],
    out: &mut [u8],
    counts: &mut [u32],
) -> Result<usize, Error> {
    raw::build(
        format.schema().as_bytes(),
        format.sort().is_long(),
        list.bytes(),
        list.text(),
        out,
        counts,
    )
    .map_err(|refusal| Error::new(refusal, Call::Build(format, values)))
}
