//! Why a text was not read.
use alloc::string::String;
use core::fmt;

/// A text that is not the name of a type, a number, a date and so on.
#[derive(Debug, Clone, PartialEq, Eq, Hash)]
pub struct ParseError {
    what: &'static str,
    text: String,
}

impl ParseError {
    pub(crate) fn new(what: &'static str, text: &str) -> ParseError {
        ParseError {
            what,
            text: text.into(),
        }
    }
}

impl fmt::Display for ParseError {
    fn fmt(&self, f: &mut fmt::Formatter<'_>) -> fmt::Result {
        write!(f, "{:?} is not a {}", self.text, self.what)
    }
}

impl core::error::Error for ParseError {}
