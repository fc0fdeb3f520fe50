//! A history of edits, and what the Rust makes of it on 01's domain.

use crate::column::RustColumns;
use crate::value::{self, Outside, ValueList};
use crate::{LIMIT, rust};
use rookdb::types::value::DataValue;
use rust::Outcome;

/// One call on the row that the calls before left.
#[derive(Debug, Clone, PartialEq, Eq)]
pub enum Call {
    Set { column: usize, values: ValueList },
    SetNull { column: usize },
}

/// The answer to a call.
#[derive(Debug, Clone, Copy, PartialEq, Eq, PartialOrd, Ord)]
pub enum Answer {
    Accepted,
    /// The Rust refuses with `Internal`: 9 or 11.
    Internal,
    /// The Rust refuses with `TypeMismatch`: 12.
    TypeMismatch,
    /// 01 refuses with this number and the Rust is not asked, or its answer is
    /// outside 01's domain.
    Added(u32),
}

/// What a history leaves.
#[derive(Debug, Clone, PartialEq, Eq)]
pub struct Replay {
    pub row: Vec<u8>,
    /// Each column's last accepted value, null at first.
    pub sheet: Vec<Option<DataValue>>,
    pub answers: Vec<Answer>,
}

/// Runs the calls on a fresh row of the Rust. A refused call leaves the row and
/// the sheet as they were.
pub fn replay(columns: &RustColumns, calls: &[Call]) -> Replay {
    let row = rust::fresh(&columns.rust).ok().expect("a fresh row");
    let mut replay = Replay {
        row,
        sheet: vec![None; columns.types.len()],
        answers: Vec::new(),
    };
    for call in calls {
        let answer = match apply(columns, &replay.row, call) {
            Ok(edit) => {
                replay.row = edit.row;
                replay.sheet[edit.column] = edit.value;
                Answer::Accepted
            }
            Err(answer) => answer,
        };
        replay.answers.push(answer);
    }
    replay
}

/// An accepted call: the row after it, and what the column now holds.
struct Edit {
    row: Vec<u8>,
    column: usize,
    value: Option<DataValue>,
}

/// Refusals in 01's order: 9, 10, 11, 12, 13.
fn apply(columns: &RustColumns, row: &[u8], call: &Call) -> Result<Edit, Answer> {
    let types = &columns.rust;
    let (outcome, column, value) = match call {
        Call::SetNull { column } => (rust::set_null(types, row, *column), *column, None),
        Call::Set { column, values } => {
            let value = set_value(columns, row, *column, values)?;
            (rust::set(types, row, *column, &value), *column, Some(value))
        }
    };
    match outcome {
        Outcome::Ok(row) if row.len() > LIMIT => Err(Answer::Added(13)),
        Outcome::Ok(row) => Ok(Edit { row, column, value }),
        Outcome::Internal => Err(Answer::Internal),
        Outcome::TypeMismatch => Err(Answer::TypeMismatch),
        other => panic!("an edit of a sound row came to {other:?}"),
    }
}

/// The value that a set gives the Rust.
fn set_value(
    columns: &RustColumns,
    row: &[u8],
    column: usize,
    values: &ValueList,
) -> Result<DataValue, Answer> {
    let Some(ty) = columns.types.get(column) else {
        // 9 comes before the value list is read: the Rust's answer to any value.
        let outcome = rust::set(&columns.rust, row, column, &DataValue::Bool(false));
        assert_eq!(outcome, Outcome::Internal);
        return Err(Answer::Internal);
    };
    let records = values
        .records(1)
        .map_err(|refusal| Answer::Added(refusal.number))?;
    match value::to_rust(ty, &records[0], &values.text) {
        Ok(Some(value)) => Ok(value),
        // 01's table calls a null given to a set 11; the Rust's call takes none.
        Ok(None) => Err(Answer::Added(11)),
        Err(Outside) => Err(Answer::Added(12)),
    }
}
