//! What the comparisons of calls on rows share: a schema with a row, its own or
//! not, and what the Rust and 01 tell of it.

use crate::chars;
use crate::lent::After;
use cases::column::{ColumnType, RustColumns, to_rust_types};
use cases::expected::Refusal;
use cases::generate::kinds::Kinds;
use cases::generate::row;
use cases::generate::row::any_row_of;
use cases::generate::schema::{self, any_schema_of, any_type};
use cases::layout::Layout;
use cases::rng::Rng;
use cases::row_sort::LONG;
use cases::rust::Outcome;
use cases::schema::{read_schema_of, write_schema};
use cases::{LIMIT, RowSort};
use model::{RowAnswer, Sort};
use rookdb::types::datatype::DataType;

/// A schema and a row.
pub struct Given {
    pub sorts: Vec<String>,
    pub schema: Vec<u8>,
    /// The columns that the row was made for, often those of the schema.
    pub types: Vec<ColumnType>,
    pub row: Vec<u8>,
}

/// Columns of a good schema for rows of a sort: often a few with short slots, so that
/// little hides a fault and much is run.
pub fn any_types(rng: &mut Rng, kinds: Kinds, of: RowSort) -> Vec<ColumnType> {
    let columns = match rng.below(64) {
        0 => rng.pick(&[0, 100, 255, 256, 256]),
        1..=7 => {
            let types = schema::any_types(rng);
            return kinds.types_of(rng, types, of);
        }
        8..=40 => rng.between(1, 3),
        _ => rng.between(2, 12),
    };
    let types = (0..columns).map(|_| any_type(rng, 40)).collect();
    kinds.types_of(rng, types, of)
}

/// A row of any sort; where there are long ones, now and then with the mark changed, or,
/// of columns that no short row has room for, too short to have one.
pub fn any_row(
    rng: &mut Rng,
    types: &[ColumnType],
    kinds: Kinds,
    of: RowSort,
) -> (row::Sort, Vec<u8>) {
    let (sort, mut row) = any_row_of(rng, types, of);
    if kinds == Kinds::All && rng.one_in(24) && row.len() >= 4 {
        row[3] ^= (LONG >> 8) as u8;
    }
    if of == RowSort::Long && rng.one_in(6) && Layout::padded(types).minimum > LIMIT {
        row.truncate(rng.between(2, 3));
        row.push(0xC0);
        row.truncate(3);
    }
    (sort, row)
}

pub fn any_given(rng: &mut Rng, kinds: Kinds) -> Given {
    let of = kinds.row_sort(rng);
    let types = any_types(rng, kinds, of);
    let (sort, row) = any_row(rng, &types, kinds, of);
    let (schema_sort, schema) = any_schema_for(rng, &types, kinds, of);
    let mut sorts = vec![schema_sort, format!("row {sort:?}")];
    sorts.extend(long_sort(&row));
    Given {
        sorts,
        schema,
        types,
        row,
    }
}

/// What is told of a long row's length.
pub fn long_sort(row: &[u8]) -> Option<String> {
    (RowSort::of_row(row) == RowSort::Long).then(|| {
        let length = match row.len() {
            0..=65_535 => "up to 65,535 bytes",
            65_536..=1_048_575 => "up to 1,048,575 bytes",
            1_048_576 => "1,048,576 bytes",
            _ => "above 1,048,576 bytes",
        };
        format!("long row of {length}")
    })
}

/// The model's sort for one.
pub fn model_sort(of: RowSort) -> Sort {
    match of {
        RowSort::Short => Sort::Short,
        RowSort::Long => Sort::Long,
    }
}

/// Schema bytes for rows of a sort, good or not.
pub fn any_bytes(rng: &mut Rng, kinds: Kinds, of: RowSort) -> (schema::Sort, Vec<u8>) {
    let (sort, schema) = any_schema_of(rng, of);
    (sort, kinds.schema(rng, schema).bytes)
}

/// The schema of these columns; seldom one that differs by a column, or any. Where
/// Varchars count characters, now and then one that counts otherwise.
pub fn any_schema_for(
    rng: &mut Rng,
    types: &[ColumnType],
    kinds: Kinds,
    of: RowSort,
) -> (String, Vec<u8>) {
    match rng.below(32) {
        0 => {
            let (sort, schema) = any_bytes(rng, kinds, of);
            (format!("schema {sort:?}"), schema)
        }
        1 => (
            "schema with another column".into(),
            other_schema(rng, types),
        ),
        _ if to_rust_types(types).is_none() && rng.one_in(4) => {
            ("schema with other counts".into(), other_counts(rng, types))
        }
        _ => (size(types.len()).into(), write_schema(types)),
    }
}

/// Varchars of n one less or one more or of few, or bytes counted for characters, or the other
/// way about.
fn other_counts(rng: &mut Rng, types: &[ColumnType]) -> Vec<u8> {
    let mut types = types.to_vec();
    for ty in &mut types {
        let (ColumnType::Varchar(n) | ColumnType::VarcharChars(n)) = ty else {
            continue;
        };
        let n = *n;
        let few = rng.below(12) as u16;
        let other = match rng.below(8) {
            0..=2 => n.saturating_sub(1),
            3 => n.saturating_add(1),
            4 => n.min(few),
            _ => n,
        };
        let by_bytes = matches!(ty, ColumnType::Varchar(_)) != rng.one_in(4);
        *ty = match by_bytes {
            true => ColumnType::Varchar(other),
            false => ColumnType::VarcharChars(other),
        };
    }
    write_schema(&types)
}

/// A schema's sort by its columns.
pub fn size(columns: usize) -> &'static str {
    match columns {
        0 => "schema of no column",
        1..=9 => "schema of 1 to 9 columns",
        10..=99 => "schema of 10 to 99 columns",
        100..=255 => "schema of 100 to 255 columns",
        _ => "schema of 256 columns",
    }
}

/// A column changed, taken away or added, or two exchanged.
fn other_schema(rng: &mut Rng, types: &[ColumnType]) -> Vec<u8> {
    let mut types = types.to_vec();
    let at = rng.below(types.len() + 1);
    let own = at < types.len();
    match rng.below(4) {
        0 if own => types[at] = any_type(rng, 40),
        1 if own => drop(types.remove(at)),
        2 if own => {
            let with = rng.below(types.len());
            types.swap(at, with);
        }
        _ => types.insert(at, any_type(rng, 40)),
    }
    write_schema(&types)
}

/// The columns of a schema for rows of a sort, or the refusal that was added.
pub fn columns(schema: &[u8], of: RowSort) -> Result<Vec<ColumnType>, Refusal> {
    let types = read_schema_of(schema, of);
    types.map_err(|refusal| Refusal::Number(refusal.number, refusal.place))
}

/// The columns of a schema, of short rows, if the Rust knows them.
fn known(schema: &[u8], of: RowSort) -> Option<Vec<DataType>> {
    match of {
        RowSort::Short => to_rust_types(&columns(schema, of).ok()?),
        RowSort::Long => None,
    }
}

/// Whether the Rust knows such rows of a schema, one that is not refused.
pub fn is_known(schema: &[u8], of: RowSort) -> bool {
    known(schema, of).is_some()
}

/// What the Rust tells of a schema's columns, or the refusal of the schema; `None`
/// if the Rust does not know one of the columns, or the sort of the rows: then the
/// model judges alone.
pub fn by_rust<T>(
    schema: &[u8],
    of: RowSort,
    tell: impl FnOnce(&RustColumns) -> Result<T, Refusal>,
) -> Option<Result<T, Refusal>> {
    match columns(schema, of) {
        Ok(_) if of == RowSort::Long => None,
        Ok(types) => Some(tell(&RustColumns::of(&types)?)),
        Err(refusal) => Some(Err(refusal)),
    }
}

/// Who judges an answer beside the model.
pub fn judged(by_rust: bool) -> &'static str {
    match by_rust {
        true => "judged by the Rust",
        false => "judged by 01 alone",
    }
}

/// Who judges what is told of rows: the Rust where its outcome is that of the
/// number in 01's table, else 01 alone.
pub fn judge<T>(number: u32, rust: impl FnOnce() -> Outcome<T>) -> &'static str {
    judged(match number {
        0 | 3 | 5 | 6 | 9 => true,
        7 => matches!(rust(), Outcome::Panicked),
        8 => matches!(rust(), Outcome::TypeMismatch),
        _ => false,
    })
}

/// Who judges what is told of rows of a schema, whose columns and sort the Rust must
/// know.
pub fn judge_of<T>(
    schema: &[u8],
    of: RowSort,
    number: u32,
    rust: impl FnOnce(&[DataType]) -> Outcome<T>,
) -> &'static str {
    match known(schema, of) {
        Some(types) => judge(number, || rust(&types)),
        None => judged(false),
    }
}

/// The bytes that a call handed back in its output, or its refusal.
pub fn handed(after: &After<RowAnswer>) -> Result<Vec<u8>, Refusal> {
    let answer = after.answer;
    match answer.number {
        0 => {
            let bytes = after.output.get(..answer.length);
            Ok(bytes.unwrap_or_default().to_vec())
        }
        number => Err(Refusal::of((number, answer.place))),
    }
}

/// What is handed back of a result in this output: 14 if it has no room.
pub fn fitting(bytes: Vec<u8>, output: &[u8]) -> Result<Vec<u8>, Refusal> {
    let fits = bytes.len() <= output.len();
    fits.then_some(bytes).ok_or(Refusal::Number(14, 0))
}

/// What a call that counts code points leaves: the bytes that it handed back, and
/// the whole list of counts.
pub type Counted = (Vec<u8>, Vec<u32>);

/// As `handed`, with the list of counts.
pub fn handed_counts(after: &After<RowAnswer>) -> Result<Counted, Refusal> {
    Ok((handed(after)?, after.counts.clone()))
}

/// The lent list with these counts at its front: 14 if it has fewer numbers.
pub fn counted_in(points: &[u32], counts: &[u32]) -> Result<Vec<u32>, Refusal> {
    let rest = counts.get(points.len()..).ok_or(Refusal::Number(14, 0))?;
    Ok([points, rest].concat())
}

/// What is shown of Varchars that count characters, by a schema and an answer.
pub fn chars_sorts(schema: &[u8], shown: Option<chars::Shown>) -> impl Iterator<Item = String> {
    let shown = shown.map(chars::Shown::name);
    let sorts = chars::schema_sort(schema).into_iter().chain(shown);
    sorts.map(str::to_string)
}

/// Each sort once.
pub fn counted(sorts: Vec<String>) -> Vec<(String, u64)> {
    sorts.into_iter().map(|sort| (sort, 1)).collect()
}

/// An answer told apart from what is wanted, if it is.
pub fn apart<P: PartialEq + std::fmt::Debug>(
    judge: &str,
    port: &P,
    wanted: &P,
    input: impl FnOnce() -> String,
) -> Option<String> {
    (port != wanted).then(|| format!("{}\n  port   {port:?}\n  {judge:<6} {wanted:?}", input()))
}

/// An answer told apart from what the Rust tells, where it tells something.
pub fn apart_from_rust<P: PartialEq + std::fmt::Debug>(
    port: &P,
    told: &Option<P>,
    input: impl FnOnce() -> String,
) -> Option<String> {
    apart("Rust", port, told.as_ref()?, input)
}

#[cfg(test)]
mod tests {
    use super::{apart_from_rust, by_rust, is_known};
    use cases::RowSort::{self, Long, Short};
    use cases::expected::Refusal;

    #[test]
    fn who_tells_nothing_is_no_judge() {
        let apart = |told| apart_from_rust(&1, &told, String::new).is_some();
        assert!(apart(Some(2)));
        assert!(!apart(Some(1)));
        assert!(!apart(None));
    }

    #[test]
    fn a_refused_schema_is_told() {
        let told = by_rust(&[2, 17], Short, |columns| Ok(columns.types.len()));
        assert_eq!(told, Some(Err(Refusal::Number(1, 1))));
        let told = by_rust(&[2, 8], Short, |columns| Ok(columns.rust.len()));
        assert_eq!(told, Some(Ok(2)));
        assert!(is_known(&[2, 8], Short) && !is_known(&[2, 17], Short));
    }

    #[test]
    fn of_kind_16_the_rust_tells_nothing() {
        let told = by_rust(&[2, 16, 9, 0], Short, |columns| Ok(columns.types.len()));
        assert_eq!(told, None);
        assert!(!is_known(&[2, 16, 9, 0], Short));
        let told = by_rust(&[2, 16, 9], Short, |columns| Ok(columns.types.len()));
        assert_eq!(told, Some(Err(Refusal::Number(1, 1))));
    }

    #[test]
    fn of_long_rows_the_rust_tells_nothing() {
        let told = by_rust(&[2, 8], Long, |columns| Ok(columns.types.len()));
        assert_eq!(told, None);
        assert!(!is_known(&[2, 8], Long));
        // Of their schemas all is told but what is too much for a short row.
        let told = by_rust(&[2, 17], Long, |columns| Ok(columns.types.len()));
        assert_eq!(told, Some(Err(Refusal::Number(1, 1))));
        let wide = [9, 0xFF, 0xFF];
        let of = |of: RowSort| by_rust(&wide, of, |columns| Ok(columns.types.len()));
        assert_eq!(of(Short), Some(Err(Refusal::Number(2, 3))));
        assert_eq!(of(Long), None);
    }
}
