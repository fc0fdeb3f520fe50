//! The null flag against `is_column_null_in_row`, which tells it of long rows too; the
//! model judges number, place and flag.

use super::rows::{any_row, any_types, apart, counted, judge, long_sort};
use crate::lent::{asked, told};
use crate::{Compared, hex, port};
use cases::expected::{self, Refusal};
use cases::generate::kinds::Kinds;
use cases::generate::row::Sort;
use cases::rng::Rng;
use cases::rust;

/// A row of any sort, and a column at or near it or far off.
pub fn input(rng: &mut Rng, kinds: Kinds) -> (Sort, Vec<u8>, usize) {
    let of = kinds.row_sort(rng);
    let types = any_types(rng, kinds, of);
    let (sort, row) = any_row(rng, &types, kinds, of);
    let column = match rng.below(16) {
        0 => rng.any_size() as usize,
        1..=4 => types.len() + rng.below(10),
        _ => rng.below(types.len().max(1)),
    };
    (sort, row, column)
}

pub fn compare(rng: &mut Rng) -> Compared {
    let (sort, row, column) = input(rng, Kinds::All);
    let input = || format!("column {column} of row {}", hex(&row));
    let port = asked([&row], |[row]| port::is_null(row, column));
    let answer = port.answer;
    let flag = match answer.number {
        0 => Ok(answer.flag == 1),
        number => Err(Refusal::of((number, answer.place))),
    };
    let difference = apart("model", &port, &told(model::is_null(&row, column)), input)
        .or_else(|| apart("Rust", &flag, &expected::null_flag(&row, column), input));
    let mut sorts = vec![
        format!("row {sort:?}"),
        format!("answer {}", answer.number),
        judge(answer.number, || rust::is_null(&row, column)).to_string(),
    ];
    sorts.extend(long_sort(&row));
    Compared {
        sorts: counted(sorts),
        difference,
    }
}
