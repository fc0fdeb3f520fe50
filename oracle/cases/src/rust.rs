//! The Rust's calls. A panic is caught and printed nowhere; an error keeps its
//! variant only, since 01 compares errors by variant.

use rookdb::backend::error::{RookError, RookResult};
use rookdb::types::datatype::DataType;
use rookdb::types::null_bitmap::is_column_null_in_row;
use rookdb::types::row::{Row, RowDecoder, serialize_nullable_typed_row};
use rookdb::types::value::DataValue;
use std::cell::Cell;
use std::panic::{self, AssertUnwindSafe};
use std::sync::Once;

#[derive(Debug, Clone, PartialEq, Eq)]
pub enum Outcome<T> {
    Ok(T),
    Internal,
    TypeMismatch,
    /// Another variant of `RookError`, by name.
    Other(&'static str),
    Panicked,
}

impl<T> Outcome<T> {
    pub fn ok(self) -> Option<T> {
        match self {
            Outcome::Ok(value) => Some(value),
            _ => None,
        }
    }
}

/// What a call of the Rust comes to.
pub fn call<T>(f: impl FnOnce() -> RookResult<T>) -> Outcome<T> {
    match guarded(f) {
        Ok(Ok(value)) => Outcome::Ok(value),
        Ok(Err(error)) => of_error(&error),
        Err(_) => Outcome::Panicked,
    }
}

fn of_error<T>(error: &RookError) -> Outcome<T> {
    Outcome::Other(match error {
        RookError::Internal(_) => return Outcome::Internal,
        RookError::TypeMismatch(_) => return Outcome::TypeMismatch,
        RookError::ConstraintViolation { .. } => "ConstraintViolation",
        RookError::NotFound { .. } => "NotFound",
        RookError::NotFoundIn { .. } => "NotFoundIn",
        RookError::AlreadyExists(_) => "AlreadyExists",
        RookError::AmbiguousColumn(_) => "AmbiguousColumn",
        RookError::InvalidIdentifier(_) => "InvalidIdentifier",
        RookError::Evaluation(_) => "Evaluation",
        RookError::InvalidQuery(_) => "InvalidQuery",
        RookError::Unsupported(_) => "Unsupported",
        RookError::IndexMaintenance(_) => "IndexMaintenance",
        RookError::Io(_) => "Io",
        RookError::Storage { .. } => "Storage",
        RookError::Contextual { .. } => "Contextual",
    })
}

thread_local! {
    /// Whether this thread is inside `guarded`.
    static SILENT: Cell<bool> = const { Cell::new(false) };
}

/// The value of `f`, or the message of its panic.
pub fn guarded<T>(f: impl FnOnce() -> T) -> Result<T, String> {
    silence();
    let outer = SILENT.replace(true);
    let result = panic::catch_unwind(AssertUnwindSafe(f));
    SILENT.set(outer);
    result.map_err(|payload| match payload.downcast::<String>() {
        Ok(message) => *message,
        Err(payload) => payload
            .downcast_ref::<&str>()
            .map_or(String::new(), |message| message.to_string()),
    })
}

/// Sets, once, a panic hook that is silent for threads inside `guarded` and the
/// former hook for all others, so that a failing test still says why.
fn silence() {
    static HOOK: Once = Once::new();
    HOOK.call_once(|| {
        let former = panic::take_hook();
        panic::set_hook(Box::new(move |info| {
            if !SILENT.get() {
                former(info);
            }
        }));
    });
}

/// Building: `serialize_nullable_typed_row`.
pub fn build(types: &[DataType], values: &[Option<DataValue>]) -> Outcome<Vec<u8>> {
    call(|| serialize_nullable_typed_row(types, values))
}

/// Fresh: `Row::new`, then `serialize`.
pub fn fresh(types: &[DataType]) -> Outcome<Vec<u8>> {
    call(|| Ok(Row::new(types.to_vec()).serialize()))
}

/// Reading: `RowDecoder::decode` after `only`.
pub fn read(types: &[DataType], row: &[u8], wanted: &[u16]) -> Outcome<Vec<Option<DataValue>>> {
    let columns = wanted.iter().map(|&column| usize::from(column));
    call(|| RowDecoder::new(types).only(columns).decode(row))
}

/// Reading all columns.
pub fn read_all(types: &[DataType], row: &[u8]) -> Outcome<Vec<Option<DataValue>>> {
    call(|| RowDecoder::new(types).decode(row))
}

/// Editing: `Row::deserialize`, `set_value`, `serialize`.
pub fn set(types: &[DataType], row: &[u8], column: usize, value: &DataValue) -> Outcome<Vec<u8>> {
    call(|| {
        let mut row = Row::deserialize(types, row)?;
        row.set_value(column, value)?;
        Ok(row.serialize())
    })
}

/// Editing: `Row::deserialize`, `set_null`, `serialize`.
pub fn set_null(types: &[DataType], row: &[u8], column: usize) -> Outcome<Vec<u8>> {
    call(|| {
        let mut row = Row::deserialize(types, row)?;
        row.set_null(column)?;
        Ok(row.serialize())
    })
}

/// The null flag: `is_column_null_in_row`.
pub fn is_null(row: &[u8], column: usize) -> Outcome<bool> {
    call(|| is_column_null_in_row(row, column))
}

#[cfg(test)]
mod tests {
    use super::{Outcome, call, guarded};
    use rookdb::backend::error::RookError;

    #[test]
    fn outcomes() {
        assert_eq!(call(|| Ok(7)), Outcome::Ok(7));
        assert_eq!(
            call::<()>(|| Err(RookError::Internal(String::new()))),
            Outcome::Internal
        );
        assert_eq!(
            call::<()>(|| Err(RookError::TypeMismatch(String::new()))),
            Outcome::TypeMismatch
        );
        assert_eq!(
            call::<()>(|| Err(RookError::Unsupported(String::new()))),
            Outcome::Other("Unsupported")
        );
        assert_eq!(call::<()>(|| panic!("no")), Outcome::Panicked);
    }

    #[test]
    fn messages_of_panics() {
        assert_eq!(guarded(|| 7), Ok(7));
        assert_eq!(guarded::<()>(|| panic!("plain")), Err("plain".to_string()));
        let number = 7;
        assert_eq!(
            guarded::<()>(|| panic!("made {number}")),
            Err("made 7".to_string())
        );
    }
}
