//! What must be answered, from what the Rust answers on 01's domain and from
//! what 01 says outside it. A disagreement of the two panics. The columns are
//! such as the Rust knows and the rows are short; of others it tells nothing.

use crate::column::RustColumns;
use crate::history::Call;
use crate::layout::{Layout, Place};
use crate::row::{is_sound, offset};
use crate::rust::{self, Outcome};
use crate::value::{self, Outside, Record, TextRange, ValueList, in_domain, is_value};
use crate::{LIMIT, RowSort};
use rookdb::types::datatype::DataType;
use rookdb::types::value::DataValue;

/// A refusal as far as the Rust tells it: which of 3, 5, 6 or 9 an `Internal`
/// is, it does not say.
#[derive(Debug, Clone, Copy, PartialEq, Eq)]
pub enum Refusal {
    Internal,
    Number(u32, usize),
}

impl Refusal {
    pub fn of((number, place): (u32, usize)) -> Self {
        match (number, place) {
            (3 | 5 | 6 | 9, 0) => Refusal::Internal,
            _ => Refusal::Number(number, place),
        }
    }
}

/// What the Rust reads: each column null or a value.
pub type Values = Vec<Option<DataValue>>;

/// The values of a read, or its refusal.
pub fn read(columns: &RustColumns, row: &[u8], wanted: &[u16]) -> Result<Values, Refusal> {
    let types = &columns.rust;
    if row.len() > LIMIT {
        return Err(Refusal::Number(4, 0));
    }
    match rust::read(types, row, wanted) {
        Outcome::Ok(values) if values.iter().flatten().all(in_domain) => Ok(values),
        Outcome::Internal => {
            // The header and the minimum, whatever is wanted.
            assert_eq!(rust::read(types, row, &[]), Outcome::Internal);
            Err(Refusal::Internal)
        }
        whole => Err(refused_column(types, row, wanted, &whole)),
    }
}

/// The refusal of a read that meets 7, 8 or a date that 01 does not take. The
/// columns are read one by one to learn the place; the whole read must agree.
fn refused_column(
    types: &[DataType],
    row: &[u8],
    wanted: &[u16],
    whole: &Outcome<Values>,
) -> Refusal {
    let mut wanted: Vec<u16> = wanted.to_vec();
    wanted.sort_unstable();
    wanted.dedup();
    for number in wanted {
        let column = usize::from(number);
        if column >= types.len() {
            break;
        }
        match rust::read(types, row, &[number]) {
            Outcome::Ok(values) if values[column].as_ref().is_none_or(in_domain) => {}
            // 01 limits dates and timestamps.
            Outcome::Ok(_) => return Refusal::Number(8, column),
            Outcome::TypeMismatch => {
                assert_eq!(*whole, Outcome::TypeMismatch);
                return Refusal::Number(8, column);
            }
            Outcome::Panicked => {
                assert_eq!(*whole, Outcome::Panicked);
                return Refusal::Number(7, column);
            }
            other => panic!("a read of one column came to {other:?}"),
        }
    }
    panic!("each column reads and the whole came to {whole:?}");
}

/// The value list of what the Rust read: a text or a Bit is a part of the row.
pub fn list(columns: &RustColumns, row: &[u8], values: &[Option<DataValue>]) -> Vec<u8> {
    let layout = Layout::of_row(columns.types, row);
    let mut bytes = Vec::new();
    for (value, place) in values.iter().zip(&layout.places) {
        record(value, row, &layout, *place).write(&mut bytes);
    }
    bytes
}

/// The record of a value that the Rust read at this place.
fn record(value: &Option<DataValue>, row: &[u8], layout: &Layout, place: Place) -> Record {
    let own = ValueList::of_rust(std::slice::from_ref(value)).expect("a text of a row");
    let own = own.records(1).expect("one record")[0];
    let Some(range) = own.range() else {
        return own;
    };
    let start = match place {
        Place::Fixed { start, .. } => start,
        Place::Varchar { rank } => offset(row, layout, rank),
    };
    let record = own.with_range(TextRange { start, ..range });
    assert!(is_value(&record, row, value.as_ref()), "{value:?}");
    record
}

/// The code points of each text that the Rust read, by std, of the bytes that are
/// stored; 0 for every other column.
pub fn points(columns: &RustColumns, row: &[u8], values: &[Option<DataValue>]) -> Vec<u32> {
    let layout = Layout::of_row(columns.types, row);
    let of =
        |(value, place): (&Option<DataValue>, &Place)| match record(value, row, &layout, *place) {
            Record::Char(range) | Record::Varchar(range) => {
                let text = std::str::from_utf8(&row[range.start..range.end()]).expect("a text");
                text.chars().count() as u32
            }
            _ => 0,
        };
    values.iter().zip(&layout.places).map(of).collect()
}

/// The code points of each text of a row that the Rust built.
pub fn built_points(columns: &RustColumns, row: &[u8]) -> Vec<u32> {
    let all: Vec<u16> = (0..columns.types.len() as u16).collect();
    let values = read(columns, row, &all).expect("a built row reads");
    points(columns, row, &values)
}

/// The part of the row that is a column's text, the empty one for null, or the
/// refusal.
pub fn text(columns: &RustColumns, row: &[u8], column: usize) -> Result<TextRange, Refusal> {
    match columns.types.get(column) {
        None => Err(Refusal::Internal),
        Some(ty) if ty.is_text() => {
            let values = read(columns, row, &[column as u16])?;
            let layout = Layout::of_row(columns.types, row);
            let record = record(&values[column], row, &layout, layout.places[column]);
            let null = TextRange {
                start: 0,
                length: 0,
            };
            Ok(record.range().unwrap_or(null))
        }
        Some(_) => Err(Refusal::Number(11, column)),
    }
}

/// Whether a read of all columns gives the same, or the refusal.
pub fn same_content(columns: &RustColumns, a: &[u8], b: &[u8]) -> Result<bool, Refusal> {
    let all: Vec<u16> = (0..columns.types.len() as u16).collect();
    let of_a = read(columns, a, &all)?;
    let of_b = read(columns, b, &all)?;
    Ok(of_a.iter().zip(&of_b).all(|(a, b)| match (a, b) {
        (Some(DataValue::Real(a)), Some(DataValue::Real(b))) => {
            a.0 == b.0 || a.0.is_nan() && b.0.is_nan()
        }
        (Some(DataValue::DoublePrecision(a)), Some(DataValue::DoublePrecision(b))) => {
            a.0 == b.0 || a.0.is_nan() && b.0.is_nan()
        }
        (Some(DataValue::Numeric(a)), Some(DataValue::Numeric(b))) => {
            (a.unscaled, a.scale) == (b.unscaled, b.scale)
        }
        (a, b) => a == b,
    }))
}

/// The flag, or the refusal. The Rust does not look at the Varchar count here, so it tells
/// the flags of long rows too.
pub fn null_flag(row: &[u8], column: usize) -> Result<bool, Refusal> {
    if row.len() > RowSort::of_row(row).limit() {
        return Err(Refusal::Number(4, 0));
    }
    match rust::is_null(row, column) {
        Outcome::Ok(flag) => Ok(flag),
        Outcome::Internal => Err(Refusal::Internal),
        other => panic!("the null flag came to {other:?}"),
    }
}

/// The row of nulls.
pub fn fresh(columns: &RustColumns) -> Vec<u8> {
    match rust::fresh(&columns.rust) {
        Outcome::Ok(row) => row,
        other => panic!("a fresh row came to {other:?}"),
    }
}

/// What the Rust says of a list with so many good records: its count is the one
/// refusal 10 that the Rust has.
pub fn counted(columns: &RustColumns, records: usize) -> Outcome<Vec<u8>> {
    rust::build(&columns.rust, &vec![None; records])
}

/// The row of a build, or its refusal. After a refusal the columns are built one
/// by one, the others null, to learn the place.
pub fn build(columns: &RustColumns, list: &ValueList) -> Result<Vec<u8>, (u32, usize)> {
    let types = &columns.rust;
    if let Ok(records) = list.all_records()
        && records.len() != types.len()
    {
        assert_eq!(counted(columns, records.len()), Outcome::Internal);
    }
    let given = list
        .to_rust(columns.types)
        .map_err(|refusal| (refusal.number, refusal.place))?;
    let whole = match given.outside {
        None => rust::build(types, &given.values),
        Some(_) => Outcome::Panicked,
    };
    if let Outcome::Ok(row) = whole {
        return if row.len() > LIMIT {
            Err((13, 0))
        } else {
            Ok(row)
        };
    }
    for (column, value) in given.values.iter().enumerate() {
        let mut alone = vec![None; types.len()];
        alone[column] = value.clone();
        let outcome = rust::build(types, &alone);
        let number = match outcome {
            Outcome::Ok(_) => continue,
            Outcome::Internal => 11,
            Outcome::TypeMismatch => 12,
            other => panic!("a build of one column came to {other:?}"),
        };
        if given.outside.is_none() {
            assert_eq!(whole, outcome, "the first bad column decides");
        }
        return Err((number, column));
    }
    let outside = given.outside.expect("a bad column");
    Err((12, outside))
}

/// The row after an edit, or its refusal: 15, 9, 10, 11, 12, 13.
pub fn edit(columns: &RustColumns, row: &[u8], call: &Call) -> Result<Vec<u8>, (u32, usize)> {
    if !is_sound(columns, row) {
        return Err((15, 0));
    }
    let types = &columns.rust;
    let (outcome, column) = match call {
        Call::SetNull { column } => (rust::set_null(types, row, *column), *column),
        Call::Set { column, values } => (set(columns, row, *column, values)?, *column),
    };
    match outcome {
        Outcome::Ok(row) if row.len() > LIMIT => Err((13, 0)),
        Outcome::Ok(row) => Ok(row),
        Outcome::Internal if column >= types.len() => Err((9, 0)),
        Outcome::Internal => Err((11, column)),
        Outcome::TypeMismatch => Err((12, column)),
        other => panic!("an edit of a sound row came to {other:?}"),
    }
}

/// What the Rust makes of a set, or the refusal of a value that it has not.
fn set(
    columns: &RustColumns,
    row: &[u8],
    column: usize,
    values: &ValueList,
) -> Result<Outcome<Vec<u8>>, (u32, usize)> {
    let types = &columns.rust;
    let Some(ty) = columns.types.get(column) else {
        return Ok(rust::set(types, row, column, &DataValue::Bool(false)));
    };
    let records = values
        .records(1)
        .map_err(|refusal| (refusal.number, refusal.place))?;
    match value::to_rust(ty, &records[0], &values.text) {
        Ok(Some(value)) => Ok(rust::set(types, row, column, &value)),
        Ok(None) => Err((11, column)),
        Err(Outside) => Err((12, column)),
    }
}
