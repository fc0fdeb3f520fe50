//! Stand-in for RookDB's types/comparison.rs. row.rs puts `value_type_name` in
//! message texts only; error.rs turns `ComparisonError` into an error that no
//! call of 01 gives. Errors are compared by variant, so neither shows.

use crate::types::value::DataValue;
use std::fmt;

/// The value's type, for messages.
pub fn value_type_name(value: &DataValue) -> String {
    value.data_type().to_string()
}

/// The error of a comparison. Nothing here makes one.
#[derive(Debug)]
pub struct ComparisonError(pub String);

impl fmt::Display for ComparisonError {
    fn fmt(&self, f: &mut fmt::Formatter<'_>) -> fmt::Result {
        f.write_str(&self.0)
    }
}
