//! Many rows edited.
use crate::{list, ColumnIndex, Error, IntoValue, RowFormat, RowMut, RowRef, Schema, Sort};
use alloc::vec::Vec;

/// Edits rows of one schema, one after the other, in memory that is kept.
///
/// ```
/// use rook_row::{DataType, Editor, RowBuf, Schema};
///
/// let schema = Schema::new([("platform", DataType::Varchar(4)), ("cars", DataType::SmallInt)])?;
/// let rows = [RowBuf::build(&schema, &["7".into(), 4i16.into()])?];
///
/// let mut editor = Editor::new(&schema);
/// for row in &rows {
///     editor.open(row.as_row());
///     editor.set("platform", "12b")?;
///     editor.set("cars", None::<i16>)?;
///     assert_eq!(editor.row().get::<&str>(&schema, "platform")?, "12b");
/// }
/// # Ok::<(), rook_row::Error>(())
/// ```
#[derive(Debug, Clone)]
pub struct Editor {
    schema: Schema,
    /// Of the rows of nulls; another row has its own.
    sort: Sort,
    buffer: Vec<u8>,
    length: usize,
}

impl Editor {
    /// An editor of rows of this schema, with the row of nulls open: a short one, or of
    /// [another sort](Schema::with_sort). If the schema serves long rows alone, and short ones are asked for, no row is
    /// open, and edits refuse with 2. Rows of both sorts can be opened in any case.
    pub fn new<'s>(format: impl Into<RowFormat<'s>>) -> Editor {
        let format = format.into();
        let mut editor = Editor {
            schema: format.schema().clone(),
            sort: format.sort(),
            buffer: Vec::new(),
            length: 0,
        };
        editor.fresh();
        editor
    }

    /// Opens the row of nulls, as [`new`](Editor::new) does.
    pub fn fresh(&mut self) {
        let format = self.schema.with_sort(self.sort);
        make_room(&mut self.buffer, format.minimum());
        self.length = RowMut::fresh(format, &mut self.buffer).map_or(0, |row| row.len());
    }

    /// Opens a copy of this row, whatever its bytes are: the edits check them.
    pub fn open(&mut self, row: RowRef<'_>) {
        let bytes = row.as_bytes();
        make_room(&mut self.buffer, bytes.len());
        self.buffer[..bytes.len()].copy_from_slice(bytes);
        self.length = bytes.len();
    }

    /// The row as it is now.
    pub fn row(&self) -> RowRef<'_> {
        RowRef::new(&self.buffer[..self.length])
    }

    /// As [`RowBuf::set`](crate::RowBuf::set).
    pub fn set<'v>(
        &mut self,
        column: impl ColumnIndex,
        value: impl IntoValue<'v>,
    ) -> Result<(), Error> {
        let column = column.number(&self.schema)?;
        let Some(value) = value.into_value() else {
            return self.set_null(column);
        };
        // No value lengthens a row by more than its text.
        let room = self.length + list::text(&value).len();
        let room = room.min(self.row().sort().max_length());
        make_room(&mut self.buffer, room);
        let mut row = RowMut::new(&mut self.buffer, self.length);
        row.set_value(&self.schema, column, &value)?;
        self.length = row.len();
        Ok(())
    }

    /// As [`RowBuf::set_null`](crate::RowBuf::set_null).
    pub fn set_null(&mut self, column: impl ColumnIndex) -> Result<(), Error> {
        let mut row = RowMut::new(&mut self.buffer, self.length);
        row.set_null(&self.schema, column)?;
        self.length = row.len();
        Ok(())
    }
}

fn make_room(buffer: &mut Vec<u8>, room: usize) {
    if buffer.len() < room {
        buffer.resize(room, 0);
    }
}
