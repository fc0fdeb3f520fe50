//! Stand-in for RookDB's types/validation.rs. Only `parse_and_encode` and
//! `parse_numeric_literal` of value.rs call it, which 01 leaves out.

use crate::types::datatype::DataType;

/// Accepts every literal.
pub fn validate_value(_ty: &DataType, _input: &str) -> Result<(), String> {
    Ok(())
}

/// The literal without one pair of single quotes around it.
pub fn strip_enclosing_quotes(input: &str) -> &str {
    input
        .strip_prefix('\'')
        .and_then(|rest| rest.strip_suffix('\''))
        .unwrap_or(input)
}
