//! Rows as the Rust makes them; long rows, and rows with columns that it does not know,
//! are laid out without it. The other rows are made from these.

use crate::column::{ColumnType, RustColumns};
use crate::value::ValueList;
use crate::{RowSort, laid_out, rust};

/// The columns, if the Rust makes such rows of them.
fn known(types: &[ColumnType], of: RowSort) -> Option<RustColumns<'_>> {
    (of == RowSort::Short).then(|| RustColumns::of(types))?
}

/// The row of nulls.
pub fn fresh(types: &[ColumnType]) -> Vec<u8> {
    fresh_of(types, RowSort::Short)
}

pub fn fresh_of(types: &[ColumnType], of: RowSort) -> Vec<u8> {
    let Some(columns) = known(types, of) else {
        return laid_out::fresh(types, of);
    };
    rust::fresh(&columns.rust).ok().expect("a fresh row")
}

/// The row of a list without a bad value, of any length.
pub fn built(types: &[ColumnType], list: &ValueList) -> Vec<u8> {
    built_of(types, RowSort::Short, list)
}

pub fn built_of(types: &[ColumnType], of: RowSort, list: &ValueList) -> Vec<u8> {
    let Some(columns) = known(types, of) else {
        return laid_out::built(types, of, list);
    };
    let given = list.to_rust(types).expect("a good list");
    let row = rust::build(&columns.rust, &given.values);
    row.ok().expect("a row of a good list")
}

/// The row, sound, with a column set to the one value of such a list, or to null; of
/// any length.
pub fn edited(types: &[ColumnType], row: &[u8], column: usize, list: &ValueList) -> Vec<u8> {
    let Some(columns) = known(types, RowSort::of_row(row)) else {
        return laid_out::edited(types, row, column, list);
    };
    let given = list.to_rust(&types[column..=column]).expect("a good list");
    let edit = match &given.values[0] {
        Some(value) => rust::set(&columns.rust, row, column, value),
        None => rust::set_null(&columns.rust, row, column),
    };
    edit.ok().expect("an edit with a suitable value")
}
