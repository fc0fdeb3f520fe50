//! Chosen columns of many rows.
use crate::error::Call;
use crate::raw::records::{Cursor, Records, Wanted};
use crate::{ColumnIndex, DataType, Error, FromValue, RowRef, Schema, Value};
use alloc::vec;
use alloc::vec::Vec;
use core::cell::Cell;

/// Reads chosen columns of rows of one schema. The columns are looked up once, and the memory for a read is kept, so
/// that [`read`](Reader::read) allocates nothing.
///
/// ```
/// use rook_row::{DataType, Reader, RowBuf, Schema, Value};
///
/// let schema = Schema::new([
///     ("platform", DataType::Varchar(4)),
///     ("unit", DataType::Varchar(16)),
///     ("cars", DataType::SmallInt),
/// ])?;
/// let rows = [RowBuf::build(&schema, &["7".into(), "ET 41".into(), 4i16.into()])?];
///
/// let mut reader = Reader::new(&schema, &["cars", "platform"])?;
/// for row in &rows {
///     let columns = reader.read(row)?;
///     assert!(columns.iter().eq([Value::SmallInt(4), Value::from("7")]));
///     assert_eq!(columns.get::<&str>("platform")?, "7");
///     assert_eq!(columns.get::<i16>(0)?, 4);
/// }
/// assert!(Reader::new(&schema, &["track"]).is_err());
/// # Ok::<(), rook_row::Error>(())
/// ```
#[derive(Debug, Clone)]
pub struct Reader {
    wanted: Wanted,
    /// For each column that was asked for, its rank among the wanted ones; empty if that is its own place.
    ranks: Vec<u16>,
    list: Vec<u8>,
    /// The code points of texts, a number for each column of the schema.
    counts: Vec<u32>,
}

impl Reader {
    /// A reader of these columns, in this order; a column may stand twice. Refuses with 9 (no such column).
    pub fn new(schema: &Schema, columns: &[impl ColumnIndex]) -> Result<Reader, Error> {
        let mut numbers = Vec::with_capacity(columns.len());
        for column in columns {
            let column = column.number(schema)?;
            match u16::try_from(column) {
                Ok(number) if column < schema.len() => numbers.push(number),
                _ => return Err(Error::NoSuchColumn { column }),
            }
        }
        Ok(Reader::of(schema, numbers))
    }

    /// The same reader, if its columns are read as these types, from the first on: a tuple of up to 16. So a type that
    /// does not go with its column is refused before there is a row; [`get`](Columns::get) refuses it too. Refuses with
    /// 9 (more types than columns), 11 (a column's type is not read as that type).
    ///
    /// ```
    /// use rook_row::{DataType, Reader, Schema};
    ///
    /// let schema = Schema::new([("unit", DataType::Varchar(16)), ("cars", DataType::SmallInt)])?;
    /// let reader = Reader::new(&schema, &["cars", "unit"])?;
    /// let refused = reader.clone().typed::<(Option<i64>, &str)>().unwrap_err();
    /// let message = "column 1 (cars): SMALLINT is not read as i64 (11)";
    /// assert_eq!(refused.to_string(), message);
    /// assert!(reader.typed::<(Option<i16>, &str)>().is_ok());
    /// # Ok::<(), rook_row::Error>(())
    /// ```
    pub fn typed<'a, T: ColumnTypes<'a>>(self) -> Result<Reader, Error> {
        let schema = self.wanted.schema();
        for (place, rust) in T::TYPES.iter().enumerate() {
            let Some(column) = number_at(&self.wanted, &self.ranks, place) else {
                return Err(Error::NoSuchColumn { column: place });
            };
            if !schema.data_type(column).is_some_and(rust.reads) {
                return Err(Error::not_read_as((rust.name)(), schema, column));
            }
        }
        Ok(self)
    }

    /// A reader of all columns.
    pub fn all(schema: &Schema) -> Reader {
        Reader::of(schema, (0..).take(schema.len()).collect())
    }

    fn of(schema: &Schema, asked: Vec<u16>) -> Reader {
        let wanted = Wanted::new(schema, asked.clone());
        let mut ranks = Vec::new();
        if wanted.numbers() != asked {
            #[allow(
                clippy::cast_possible_truncation,
                reason = "there are at most 256 columns"
            )]
            let rank = |number| wanted.numbers().partition_point(|other| other < number) as u16;
            ranks.extend(asked.iter().map(rank));
        }
        Reader {
            list: vec![0; wanted.room()],
            counts: vec![0; schema.len()],
            wanted,
            ranks,
        }
    }

    /// The values of the columns of a row. Refuses with 3 to 6 (the row), 7 and 8 (one of the columns).
    #[inline]
    pub fn read<'a>(&mut self, row: impl Into<RowRef<'a>>) -> Result<Columns<'_, 'a>, Error> {
        let row = row.into().as_bytes();
        let schema = self.wanted.schema();
        let records = self
            .wanted
            .read(row, &mut self.list, &mut self.counts)
            .map_err(|refusal| Error::new(refusal, Call::Read(schema, row)))?;
        Ok(Columns {
            wanted: &self.wanted,
            ranks: &self.ranks,
            counts: &self.counts,
            records,
            cursor: Cell::new(Cursor::default()),
        })
    }
}

/// The columns that a [`Reader`] has read of a row, in the order in which they were asked for.
#[derive(Debug, Clone)]
pub struct Columns<'r, 'a> {
    wanted: &'r Wanted,
    ranks: &'r [u16],
    counts: &'r [u32],
    records: Records<'r, 'a>,
    /// Where the last look was, so that one column after the other is found at once.
    cursor: Cell<Cursor>,
}

impl<'r, 'a> Columns<'r, 'a> {
    /// How many columns there are.
    pub fn len(&self) -> usize {
        self.iter().len()
    }

    /// Whether there is none.
    pub fn is_empty(&self) -> bool {
        self.len() == 0
    }

    /// The value of the column at this place among those that were asked for, or of this name. Refuses with 9 (there
    /// is none), 11 (its type is not read as `T`, whatever stands in the row; or it is null, which only an `Option`
    /// takes).
    #[inline(always)]
    pub fn get<T: FromValue<'a>>(&self, column: impl PlaceAsked) -> Result<T, Error> {
        let place = column.place(self)?;
        let rank = match self.ranks {
            [] => place,
            ranks => ranks
                .get(place)
                .map_or(usize::MAX, |&rank| usize::from(rank)),
        };
        let mut cursor = self.records.seek(self.cursor.get(), rank);
        if !self.records.data_type(cursor).is_some_and(T::reads) {
            return Err(self.not_read_as(place, T::rust_name()));
        }
        let read = self.records.next(&mut cursor, T::from_value);
        self.cursor.set(cursor);
        match read {
            Some(Ok(value)) => Ok(value),
            Some(Err(error)) => {
                let (schema, column) = (self.wanted.schema(), self.number(place));
                Err(Error::not_converted(error, schema, column))
            }
            None => Err(Error::NoSuchColumn { column: place }),
        }
    }

    /// There is no column at this place, or its type is not read as the Rust type of this name.
    #[cold]
    fn not_read_as(&self, place: usize, wanted: &'static str) -> Error {
        match number_at(self.wanted, self.ranks, place) {
            Some(column) => Error::not_read_as(wanted, self.wanted.schema(), column),
            None => Error::NoSuchColumn { column: place },
        }
    }

    /// The width of such a column: the code points of its text as it is stored, a Char's blanks with them, or 0 for a
    /// null and for a column without text. Refuses with 9 (there is none).
    ///
    /// ```
    /// use rook_row::{DataType, Reader, RowBuf, Schema};
    ///
    /// let schema = Schema::new([("unit", DataType::Varchar(16)), ("cars", DataType::SmallInt)])?;
    /// let row = RowBuf::build(&schema, &["Süd".into(), 4i16.into()])?;
    /// let mut reader = Reader::new(&schema, &["cars", "unit"])?;
    /// let columns = reader.read(&row)?;
    /// assert_eq!((columns.get::<&str>("unit")?, columns.width("unit")?), ("Süd", 3));
    /// assert!(columns.widths().eq([0, 3]));
    /// # Ok::<(), rook_row::Error>(())
    /// ```
    pub fn width(&self, column: impl PlaceAsked) -> Result<usize, Error> {
        let place = column.place(self)?;
        match place < self.len() {
            true => Ok(self.width_at(place)),
            false => Err(Error::NoSuchColumn { column: place }),
        }
    }

    /// The widths, in order, as [`width`](Columns::width) has them.
    pub fn widths(&self) -> impl ExactSizeIterator<Item = usize> + '_ {
        (0..self.len()).map(|place| self.width_at(place))
    }

    fn width_at(&self, place: usize) -> usize {
        self.counts
            .get(self.number(place))
            .map_or(0, |&count| count as usize)
    }

    /// The values, in order.
    #[inline]
    pub fn iter(&self) -> Values<'r, 'a> {
        Values {
            ranks: self.ranks,
            records: self.records,
            place: 0,
            cursor: Cursor::default(),
        }
    }

    /// The number of the column that was asked for at this place, or the place itself if there is none.
    fn number(&self, place: usize) -> usize {
        number_at(self.wanted, self.ranks, place).unwrap_or(place)
    }
}

/// The number of the column that was asked for at a place, by the wanted columns and their ranks.
fn number_at(wanted: &Wanted, ranks: &[u16], place: usize) -> Option<usize> {
    let rank = match ranks {
        [] => place,
        ranks => usize::from(*ranks.get(place)?),
    };
    wanted.numbers().get(rank).copied().map(usize::from)
}

/// The Rust types of a [`Reader`]'s columns, as a tuple of [`FromValue`]s.
pub trait ColumnTypes<'a> {
    /// Each of them.
    const TYPES: &'static [ColumnType];
}

/// A Rust type that a column is read as, one of [`ColumnTypes`].
#[derive(Debug, Clone, Copy)]
pub struct ColumnType {
    reads: fn(DataType) -> bool,
    name: fn() -> &'static str,
}

impl ColumnType {
    /// That of a type.
    pub const fn of<'a, T: FromValue<'a>>() -> ColumnType {
        ColumnType {
            reads: T::reads,
            name: T::rust_name,
        }
    }
}

macro_rules! tuples {
    ($first:ident $($more:ident)*) => {
        impl<'a, $first: FromValue<'a>, $($more: FromValue<'a>),*> ColumnTypes<'a> for ($first, $($more,)*) {
            const TYPES: &'static [ColumnType] =
                &[ColumnType::of::<$first>(), $(ColumnType::of::<$more>()),*];
        }

        tuples!($($more)*);
    };
    () => {};
}

tuples!(A B C D E F G H I J K L M N O P);

/// A column of those that a [`Reader`] was asked for, by its place among them or its name.
pub trait PlaceAsked {
    /// Its place. Refuses with 9 a name that was not asked for.
    fn place(&self, columns: &Columns<'_, '_>) -> Result<usize, Error>;
}

impl PlaceAsked for usize {
    #[inline(always)]
    fn place(&self, _: &Columns<'_, '_>) -> Result<usize, Error> {
        Ok(*self)
    }
}

impl PlaceAsked for &str {
    fn place(&self, columns: &Columns<'_, '_>) -> Result<usize, Error> {
        let number = columns.wanted.schema().column(self)?;
        (0..columns.len())
            .find(|&place| columns.number(place) == number)
            .ok_or_else(|| Error::NoSuchName {
                name: (*self).into(),
            })
    }
}

/// The values of [`Columns`], in order.
#[derive(Debug, Clone)]
pub struct Values<'r, 'a> {
    ranks: &'r [u16],
    records: Records<'r, 'a>,
    place: usize,
    cursor: Cursor,
}

impl<'a> Iterator for Values<'_, 'a> {
    type Item = Value<'a>;

    #[inline(always)]
    fn next(&mut self) -> Option<Value<'a>> {
        if self.ranks.is_empty() {
            return self.records.next(&mut self.cursor, |value| value);
        }
        let rank = usize::from(*self.ranks.get(self.place)?);
        self.place += 1;
        self.cursor = self.records.seek(self.cursor, rank);
        self.records.next(&mut self.cursor, |value| value)
    }

    #[inline]
    fn size_hint(&self) -> (usize, Option<usize>) {
        let left = match self.ranks {
            [] => self.records.left(self.cursor),
            ranks => ranks.len() - self.place,
        };
        (left, Some(left))
    }

    #[inline(always)]
    fn fold<B, F: FnMut(B, Value<'a>) -> B>(self, first: B, mut each: F) -> B {
        if self.ranks.is_empty() {
            return self.records.fold(self.cursor, first, each);
        }
        let mut result = first;
        for value in self {
            result = each(result, value);
        }
        result
    }
}

impl ExactSizeIterator for Values<'_, '_> {}

impl<'r, 'a> IntoIterator for Columns<'r, 'a> {
    type Item = Value<'a>;
    type IntoIter = Values<'r, 'a>;

    #[inline]
    fn into_iter(self) -> Values<'r, 'a> {
        self.iter()
    }
}

impl<'r, 'a> IntoIterator for &Columns<'r, 'a> {
    type Item = Value<'a>;
    type IntoIter = Values<'r, 'a>;

    #[inline]
    fn into_iter(self) -> Values<'r, 'a> {
        self.iter()
    }
}
