//! The columns of a table.
use crate::error::{Call, SchemaFault};
use crate::raw::records::Plan;
use crate::raw::{answer, Refusal};
use crate::{raw, ColumnLabel, DataType, Error, RowFormat, Sort};
use alloc::boxed::Box;
use alloc::string::String;
use alloc::sync::Arc;
use alloc::vec;
use alloc::vec::Vec;
use core::hash::{Hash, Hasher};

/// A column of a schema: its type, and its name if it has one. A [`DataType`] alone is one without a name, a pair of
/// name and type one with it.
#[derive(Debug, Clone, PartialEq, Eq, Hash)]
pub struct Column {
    name: Option<Box<str>>,
    data_type: DataType,
}

impl Column {
    /// Its name.
    pub fn name(&self) -> Option<&str> {
        self.name.as_deref()
    }

    /// Its type.
    pub fn data_type(&self) -> DataType {
        self.data_type
    }

    pub(crate) fn is_varchar(&self) -> bool {
        matches!(
            self.data_type,
            DataType::Varchar(_) | DataType::VarcharChars(_)
        )
    }
}

impl From<DataType> for Column {
    fn from(data_type: DataType) -> Column {
        let name = None;
        Column { name, data_type }
    }
}

impl From<&DataType> for Column {
    fn from(data_type: &DataType) -> Column {
        (*data_type).into()
    }
}

impl<N: Into<String>> From<(N, DataType)> for Column {
    fn from((name, data_type): (N, DataType)) -> Column {
        let name = Some(name.into().into_boxed_str());
        Column { name, data_type }
    }
}

impl<N: Into<String> + Clone> From<&(N, DataType)> for Column {
    fn from(column: &(N, DataType)) -> Column {
        column.clone().into()
    }
}

/// The columns of a table, at most 256, checked when it is made. A copy is cheap: it shares what it holds. It serves
/// short and long rows; one whose short rows would pass 65,535 bytes serves long ones alone, and where a short one is
/// made or read, that is refused with 2.
///
/// ```
/// use rook_row::{DataType, Schema};
///
/// let schema = Schema::new([("platform", DataType::Varchar(4)), ("cars", DataType::SmallInt)])?;
/// assert_eq!(schema.column("cars"), Ok(1));
/// assert!(schema.types().eq([DataType::Varchar(4), DataType::SmallInt]));
///
/// let refused = Schema::new([DataType::Numeric { precision: 4, scale: 5 }]).unwrap_err();
/// assert_eq!((refused.number(), refused.place()), (2, 0));
/// # Ok::<(), rook_row::Error>(())
/// ```
#[derive(Debug, Clone)]
pub struct Schema(Arc<Inner>);

/// The columns, and what is worked out from them once.
#[derive(Debug)]
struct Inner {
    columns: Vec<Column>,
    bytes: Vec<u8>,
    /// The numbers of the columns that have names, by rising name.
    named: Vec<u16>,
    varchars: usize,
    /// Of a long row.
    minimum: usize,
    plan: Plan,
}

/// Two schemas are equal if their columns have the same types and names.
impl PartialEq for Schema {
    fn eq(&self, other: &Schema) -> bool {
        self.columns() == other.columns()
    }
}

impl Eq for Schema {}

impl Hash for Schema {
    fn hash<H: Hasher>(&self, state: &mut H) {
        self.columns().hash(state);
    }
}

impl Schema {
    /// The schema of these columns: types, or pairs of name and type. Refuses with 2: more than 256 columns, a
    /// precision outside 1 to 38, a scale above the precision, rows above 1,048,576 bytes, or a name that two
    /// columns have.
    pub fn new<C: Into<Column>>(columns: impl IntoIterator<Item = C>) -> Result<Schema, Error> {
        Schema::checked(columns.into_iter().map(Into::into).collect())
    }

    /// The schema of such bytes as [`as_bytes`](Schema::as_bytes) gives, without names. Refuses with 1 (a record of
    /// unknown kind, or cut off) and as [`new`](Schema::new).
    pub fn from_bytes(bytes: &[u8]) -> Result<Schema, Error> {
        let (columns, known) = parse(bytes);
        // The library refuses it, unless it is newer and knows a type that this crate does not.
        match long_minimum(bytes) {
            Err(refusal) => Err(Error::new(refusal, Call::Schema(&columns))),
            Ok(_) if known < bytes.len() => Err(Error::BadRecord {
                at: known,
                column: columns.len(),
            }),
            Ok(_) => Schema::checked(columns),
        }
    }

    fn checked(columns: Vec<Column>) -> Result<Schema, Error> {
        let mut bytes = Vec::new();
        columns
            .iter()
            .for_each(|column| column.data_type.write(&mut bytes));
        let minimum =
            long_minimum(&bytes).map_err(|refusal| Error::new(refusal, Call::Schema(&columns)))?;
        let varchars = columns.iter().filter(|column| column.is_varchar()).count();
        let mut named: Vec<u16> = (0..)
            .take(columns.len())
            .filter(|&number| columns[usize::from(number)].name.is_some())
            .collect();
        named.sort_by_key(|&number| &columns[usize::from(number)].name);
        let name = |number: u16| &columns[usize::from(number)].name;
        if let Some(pair) = named.windows(2).find(|pair| name(pair[0]) == name(pair[1])) {
            let number = usize::from(pair[1]);
            return Err(Error::BadSchema {
                at: record_starts(&columns).nth(number).unwrap_or(0),
                fault: SchemaFault::SameName {
                    column: ColumnLabel::of(&columns, number),
                },
            });
        }
        Ok(Schema(Arc::new(Inner {
            plan: Plan::all(&columns),
            columns,
            bytes,
            named,
            varchars,
            minimum,
        })))
    }

    /// The records of the columns, end to end: the bytes that every call gets. Names are not in them.
    pub fn as_bytes(&self) -> &[u8] {
        &self.0.bytes
    }

    /// The columns.
    pub fn columns(&self) -> &[Column] {
        &self.0.columns
    }

    /// The types of the columns.
    pub fn types(&self) -> impl ExactSizeIterator<Item = DataType> + '_ {
        self.0.columns.iter().map(|column| column.data_type)
    }

    /// The number of columns.
    pub fn len(&self) -> usize {
        self.0.columns.len()
    }

    /// Whether there is no column.
    pub fn is_empty(&self) -> bool {
        self.0.columns.is_empty()
    }

    /// The number of the column with this name. Refuses with 9.
    pub fn column(&self, name: &str) -> Result<usize, Error> {
        let found = self
            .0
            .named
            .binary_search_by_key(&Some(name), |&number| self.name(usize::from(number)));
        match found {
            Ok(at) => Ok(usize::from(self.0.named[at])),
            Err(_) => Err(Error::NoSuchName { name: name.into() }),
        }
    }

    /// A column's name, if there is such a column and it has one.
    pub fn name(&self, column: usize) -> Option<&str> {
        self.0.columns.get(column)?.name()
    }

    /// A column's type, if there is such a column.
    pub fn data_type(&self, column: usize) -> Option<DataType> {
        self.0.columns.get(column).map(Column::data_type)
    }

    /// How a read of all columns is taken apart.
    pub(crate) fn plan(&self) -> &Plan {
        &self.0.plan
    }

    /// The length of a short row without text: of the row of nulls. [`RowFormat::minimum`] has that of a long one.
    pub fn minimum(&self) -> usize {
        self.minimum_of(Sort::Short)
    }

    #[inline]
    pub(crate) fn minimum_of(&self, sort: Sort) -> usize {
        match sort {
            // Its offsets have two bytes less.
            Sort::Short => self.0.minimum - 2 * self.0.varchars,
            Sort::Long => self.0.minimum,
        }
    }

    /// What rows of this sort are made by: it stands in the place of the schema where a row is made.
    ///
    /// ```
    /// use rook_row::{DataType, RowBuf, Schema, Sort};
    ///
    /// let schema = Schema::new([DataType::Int])?;
    /// assert!(!RowBuf::fresh(&schema)?.is_long());
    /// assert!(RowBuf::fresh(schema.with_sort(Sort::Long))?.is_long());
    /// # Ok::<(), rook_row::Error>(())
    /// ```
    pub const fn with_sort(&self, sort: Sort) -> RowFormat<'_> {
        RowFormat::new(self, sort)
    }
}

/// The length of the long row of nulls. A schema that is good for short rows is good for long ones.
fn long_minimum(schema: &[u8]) -> Result<usize, Refusal> {
    let in_room = |room| raw::fresh(schema, true, &mut vec![0; room]);
    match in_room(Sort::Short.max_length()) {
        // Few schemas are so long.
        Err(refusal) if refusal.number == answer::NO_ROOM => in_room(Sort::Long.max_length()),
        answer => answer,
    }
}

/// The columns of a schema's bytes as far as they are known, and the bytes that they take.
fn parse(bytes: &[u8]) -> (Vec<Column>, usize) {
    let (mut columns, mut at) = (Vec::new(), 0);
    while let Some((data_type, length)) = DataType::read(&bytes[at..]) {
        columns.push(data_type.into());
        at += length;
    }
    (columns, at)
}

/// Where the record of each column begins.
pub(crate) fn record_starts(columns: &[Column]) -> impl Iterator<Item = usize> + '_ {
    let mut bytes = Vec::new();
    columns.iter().map(move |column| {
        let start = bytes.len();
        column.data_type.write(&mut bytes);
        start
    })
}

/// A column by its number or its name.
pub trait ColumnIndex {
    /// The column's number. Refuses a name with 9; a number is returned as it is.
    fn number(&self, schema: &Schema) -> Result<usize, Error>;
}

impl ColumnIndex for usize {
    #[inline]
    fn number(&self, _: &Schema) -> Result<usize, Error> {
        Ok(*self)
    }
}

impl ColumnIndex for str {
    fn number(&self, schema: &Schema) -> Result<usize, Error> {
        schema.column(self)
    }
}

impl ColumnIndex for String {
    fn number(&self, schema: &Schema) -> Result<usize, Error> {
        schema.column(self)
    }
}

impl<C: ColumnIndex + ?Sized> ColumnIndex for &C {
    #[inline]
    fn number(&self, schema: &Schema) -> Result<usize, Error> {
        (**self).number(schema)
    }
}
