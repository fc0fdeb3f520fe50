//! Histories: set and set null calls, good and bad ones mixed.

use super::list::{self, AT_LONG_LIMIT, Sort as ListSort};
use super::row::unknown_column;
use super::text::densest;
use crate::column::ColumnType;
use crate::history::Call;
use crate::layout::Layout;
use crate::rng::Rng;
use crate::value::{Record, TextRange, ValueList};
use crate::{LIMIT, RowSort};

#[derive(Debug, Clone, Copy, PartialEq, Eq, PartialOrd, Ord)]
pub enum Sort {
    SetNull,
    /// A column number too large, in either call.
    Column,
    /// A set of a Varchar that brings a row without other payloads to exactly the limit,
    /// or above; of a long row where one text reaches so far, else to 65,535 bytes.
    AtLimit,
    Above,
    /// A set whose value list, for its one column, is of this sort. `Nulls` is a
    /// null given to a set.
    Set(ListSort),
}

impl Sort {
    pub const ALL: [Sort; 16] = [
        Sort::SetNull,
        Sort::Column,
        Sort::AtLimit,
        Sort::Above,
        Sort::Set(ListSort::Values),
        Sort::Set(ListSort::Nulls),
        Sort::Set(ListSort::TextAtLimit),
        Sort::Set(ListSort::UnknownKind),
        Sort::Set(ListSort::Cut),
        Sort::Set(ListSort::TooFew),
        Sort::Set(ListSort::TooMany),
        Sort::Set(ListSort::TextAbove),
        Sort::Set(ListSort::OtherKind),
        Sort::Set(ListSort::Unsuitable),
        Sort::Set(ListSort::Outside),
        Sort::Set(ListSort::Random),
    ];
}

/// A call of this sort on a short row; `None` if the column tried has none.
pub fn call(rng: &mut Rng, types: &[ColumnType], sort: Sort) -> Option<Call> {
    call_of(rng, types, RowSort::Short, sort)
}

/// The same on a row of a sort.
pub fn call_of(rng: &mut Rng, types: &[ColumnType], of: RowSort, sort: Sort) -> Option<Call> {
    if sort == Sort::Column {
        return Some(on_unknown_column(rng, types));
    }
    let column = rng.between(0, types.len().checked_sub(1)?);
    let values = match sort {
        Sort::AtLimit => long(types, column, of, 0)?,
        Sort::Above => long(types, column, of, rng.pick(&[1, 2, 1000]))?,
        Sort::Set(sort) => list::list_of(rng, &types[column..=column], of, sort)?.values,
        _ => return Some(Call::SetNull { column }),
    };
    Some(Call::Set { column, values })
}

/// A text for a Varchar that brings a row without other payloads past the limit by so
/// much.
fn long(types: &[ColumnType], column: usize, of: RowSort, past: usize) -> Option<ValueList> {
    let to = |limit: usize| text_to(types, column, of, limit + past);
    match of {
        RowSort::Short => to(LIMIT),
        RowSort::Long => to(of.limit()).or_else(|| to(LIMIT)),
    }
}

/// A text for a Varchar that brings a row without other payloads to this length.
fn text_to(types: &[ColumnType], column: usize, of: RowSort, row: usize) -> Option<ValueList> {
    let length = row.checked_sub(Layout::packed_of(types, of).minimum)?;
    let (text, fits) = match types[column] {
        ColumnType::Varchar(n) => (vec![b'x'; length], length <= n.into()),
        ColumnType::VarcharChars(n) => {
            let fits = length.div_ceil(4) <= n.into() && length <= of.limit();
            (densest(length), fits)
        }
        _ => return None,
    };
    let record = Record::Varchar(TextRange { start: 0, length });
    fits.then(|| ValueList::of_records(&[record], text))
}

fn on_unknown_column(rng: &mut Rng, types: &[ColumnType]) -> Call {
    let column = unknown_column(rng, types.len());
    if rng.one_in(2) {
        return Call::SetNull { column };
    }
    let (_, list) = list::any_list(rng, &[ColumnType::Int]);
    let values = list.values;
    Call::Set { column, values }
}

/// A history of this many calls on a short row, two thirds of them good or more.
pub fn history(rng: &mut Rng, types: &[ColumnType], length: usize) -> Vec<Call> {
    history_of(rng, types, RowSort::Short, length)
}

/// The same on a row of a sort.
pub fn history_of(rng: &mut Rng, types: &[ColumnType], of: RowSort, length: usize) -> Vec<Call> {
    let mut calls = Vec::new();
    while calls.len() < length {
        let sort = match rng.below(6) {
            0..=2 => Sort::Set(ListSort::Values),
            3 => Sort::SetNull,
            _ => rng.pick(&Sort::ALL),
        };
        let in_area = matches!(sort, Sort::Set(ListSort::TextAtLimit | ListSort::TextAbove));
        if of == RowSort::Long && in_area && !rng.one_in(AT_LONG_LIMIT) {
            continue;
        }
        calls.extend(call_of(rng, types, of, sort));
    }
    calls
}
