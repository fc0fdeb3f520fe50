//! Stand-in for RookDB's types/functions.rs. error.rs turns `FunctionError`
//! into an error that no call of 01 gives.

use std::fmt;

/// The error of an SQL function. Nothing here makes one.
#[derive(Debug)]
pub struct FunctionError(pub String);

impl fmt::Display for FunctionError {
    fn fmt(&self, f: &mut fmt::Formatter<'_>) -> fmt::Result {
        f.write_str(&self.0)
    }
}
