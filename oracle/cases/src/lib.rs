//! Inputs for the calls of 01, deterministic from a seed, in both forms: the
//! bytes that 01 describes and the values that the Rust takes. Here and in all
//! files of this crate "01" is document 01, which says what each call hands
//! back, and "the Rust" is the original, the crate `rookdb`.
//!
//! What 01 says, written once more and apart from the port:
//! - `column`: the types of columns, and the Rust's types for them;
//! - `schema`: schema bytes and their columns, refusals 1 and 2;
//! - `value`: value lists with their text area and `Vec<Option<DataValue>>`,
//!   refusal 10, and which values lie outside 01's domain;
//! - `row_sort`: short and long rows;
//! - `layout`: places in packed and padded rows;
//! - `row`: the padded form of a row, its long twin, soundness, null slots zeroed;
//! - `laid_out`: rows of columns or of the sort that the Rust does not know;
//! - `history`: a history of edits and what the Rust makes of it;
//! - `expected`: what each call must answer, from what the Rust answers;
//! - `printed`: the same for the printed list.
//!
//! What runs and what makes them:
//! - `rust`: the Rust's calls, panics caught, errors by variant;
//! - `rng`: the source of the choices;
//! - `generate`: schemas, texts, values, value lists, rows, pairs of rows, row
//!   lists, wanted columns and histories, good and bad, each by a sort that the
//!   caller picks or at random.
//!
//! What is made for rows has two functions where it matters: the plain name is for
//! short rows, the one with `_of` for rows of a sort.
//!
//! tests/ checks all of this against the Rust. It also holds the findings about
//! the Rust (`findings.rs`) and 01's statements about it (`statements.rs`). No
//! program is here: a comparison with the port is built on this library.

pub mod column;
pub mod expected;
pub mod generate;
pub mod history;
pub mod laid_out;
pub mod layout;
pub mod printed;
pub mod rng;
pub mod row;
pub mod row_sort;
pub mod rust;
pub mod schema;
pub mod value;

/// The most bytes of a short row and of its text area.
pub const LIMIT: usize = 65_535;

pub use row_sort::RowSort;

/// The most columns of a schema.
pub const MAX_COLUMNS: usize = 256;

/// A number of 01's table other than 0, and its place.
#[derive(Debug, Clone, Copy, PartialEq, Eq)]
pub struct Refusal {
    pub number: u32,
    pub place: usize,
}

impl Refusal {
    pub fn new(number: u32, place: usize) -> Self {
        Refusal { number, place }
    }
}
