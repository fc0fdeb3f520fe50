//! Inputs at random. Each has a sort; `Sort::ALL` of a module names them all,
//! so that a caller can ask for one and a test can see that none is missing.

use crate::Refusal;

pub mod history;
pub mod kinds;
pub mod list;
pub mod made;
pub mod pair;
pub mod row;
pub mod row_list;
pub mod schema;
pub mod text;
pub mod value;
pub mod wanted;

/// What 01 says of an input, where the way it was made tells.
#[derive(Debug, Clone, Copy, PartialEq, Eq)]
pub enum Expected {
    Accepted,
    Refused(Refusal),
    Unknown,
}

impl Expected {
    fn refused(number: u32, place: usize) -> Self {
        Expected::Refused(Refusal::new(number, place))
    }
}
