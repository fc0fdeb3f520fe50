//! What the Rust does not know; inputs for what it is asked are made without it.
//!
//! Varchars that count characters, in the place of Varchars that count bytes: what is
//! said of the schema and where the parts of its rows are stays the same. Long rows.
//! Ranges with numbers of four bytes, in the place of those of two: what is said of the
//! list stays the same but for places in it.

use super::Expected;
use super::list::List;
use super::pair::{self, Pair, any_mixed_pair, any_pair_of};
use super::row_list;
use super::schema::{Schema, with_minimum};
use crate::column::ColumnType;
use crate::history::Call;
use crate::layout::Layout;
use crate::rng::Rng;
use crate::row_sort::LONG;
use crate::schema::{VARCHAR, VARCHAR_CHARS, body_length};
use crate::value::{Record, TextRange, ValueList};
use crate::{LIMIT, Refusal, RowSort};

/// Which kinds of columns and of ranges, and which sorts of rows there are.
#[derive(Debug, Clone, Copy, PartialEq, Eq)]
pub enum Kinds {
    /// Those that the Rust knows. No choice is made.
    OfRust,
    /// All, of columns in about one schema of five, of rows in one of three.
    All,
}

/// Which Varchars of a schema count characters, or which ranges of a list are wide.
#[derive(Clone, Copy)]
enum Share {
    None,
    Half,
    All,
}

impl Share {
    fn takes(self, rng: &mut Rng) -> bool {
        match self {
            Share::None => false,
            Share::Half => rng.one_in(2),
            Share::All => true,
        }
    }
}

impl Kinds {
    /// More often than one in five: not every schema has a Varchar.
    fn share(self, rng: &mut Rng) -> Share {
        if self == Kinds::OfRust {
            return Share::None;
        }
        match rng.below(16) {
            0..=3 => Share::Half,
            4..=6 => Share::All,
            _ => Share::None,
        }
    }

    pub fn types(self, rng: &mut Rng, mut types: Vec<ColumnType>) -> Vec<ColumnType> {
        let share = self.share(rng);
        for ty in &mut types {
            if let ColumnType::Varchar(n) = *ty
                && share.takes(rng)
            {
                *ty = ColumnType::VarcharChars(n);
            }
        }
        types
    }

    /// One column alone, every other Varchar.
    pub fn column(self, rng: &mut Rng, ty: ColumnType) -> ColumnType {
        match ty {
            ColumnType::Varchar(n) if self == Kinds::All && rng.one_in(2) => {
                ColumnType::VarcharChars(n)
            }
            _ => ty,
        }
    }

    /// Changes records as far as kinds are known; the last one may be cut off.
    pub fn schema(self, rng: &mut Rng, mut schema: Schema) -> Schema {
        let share = self.share(rng);
        let mut at = 0;
        while let Some(kind) = schema.bytes.get_mut(at)
            && let Some(body) = body_length(*kind)
        {
            if *kind == VARCHAR && share.takes(rng) {
                *kind = VARCHAR_CHARS;
            }
            at += 1 + body;
        }
        schema
    }

    /// The sort of rows that are made next.
    pub fn row_sort(self, rng: &mut Rng) -> RowSort {
        match self == Kinds::All && rng.one_in(3) {
            true => RowSort::Long,
            false => RowSort::Short,
        }
    }

    /// Columns for rows of a sort. Of long rows they have now and then Varchars that
    /// reach past the limit, or slots that no short row has room for.
    pub fn types_of(self, rng: &mut Rng, types: Vec<ColumnType>, of: RowSort) -> Vec<ColumnType> {
        let mut types = self.types(rng, types);
        if of == RowSort::Short {
            return types;
        }
        match rng.below(96) {
            0..=3 => types.extend(vec![ColumnType::Varchar(u16::MAX); 17]),
            4 | 5 => types.extend(vec![ColumnType::VarcharChars(u16::MAX); 5]),
            6..=9 => {
                let more = rng.pick(&[1, 2, 1000, 70_000]);
                types = with_minimum(rng, vec![], of, LIMIT + more);
            }
            10 if rng.one_in(4) => types = with_minimum(rng, vec![], of, of.limit()),
            _ => {}
        }
        types.truncate(crate::MAX_COLUMNS);
        types
    }

    /// The list with ranges of four bytes a number: none of them, some or all.
    pub fn list(self, rng: &mut Rng, list: List) -> List {
        if self == Kinds::OfRust {
            return list;
        }
        let (values, place) = widened(rng, &list.values);
        let expected = match list.expected {
            Expected::Refused(refusal) if refusal.number == 10 && refusal.place > 0 => {
                Expected::Refused(Refusal::new(10, place(refusal.place)))
            }
            expected => expected,
        };
        List { values, expected }
    }

    /// The values with such ranges.
    pub fn values(self, rng: &mut Rng, values: ValueList) -> ValueList {
        match self {
            Kinds::OfRust => values,
            Kinds::All => widened(rng, &values).0,
        }
    }

    /// The calls with such lists.
    pub fn calls(self, rng: &mut Rng, calls: Vec<Call>) -> Vec<Call> {
        let mut call = |call: Call| match call {
            Call::Set { column, values } => {
                let values = self.values(rng, values);
                Call::Set { column, values }
            }
            call => call,
        };
        calls.into_iter().map(&mut call).collect()
    }

    /// Two rows: of the sort, or where long ones are wanted one of each. Columns that no
    /// short row has room for have one by its header alone.
    pub fn pair(self, rng: &mut Rng, types: &[ColumnType], of: RowSort) -> (pair::Sort, Pair) {
        let has_short = Layout::padded(types).minimum <= LIMIT;
        if of == RowSort::Long
            && has_short
            && rng.one_in(2)
            && let Some(pair) = any_mixed_pair(rng, types)
        {
            return pair;
        }
        let (sort, (a, mut b)) = any_pair_of(rng, types, of);
        if !has_short && rng.one_in(4) && b.len() >= 4 {
            b[3] ^= (LONG >> 8) as u8;
        }
        (sort, (a, b))
    }

    /// A row list, with long rows now and then.
    pub fn row_list(self, rng: &mut Rng) -> (row_list::Sort, Vec<u8>) {
        let (sort, list) = row_list::any_list(rng);
        match self.row_sort(rng) {
            RowSort::Short => (sort, list),
            RowSort::Long => (sort, row_list::with_long_rows(rng, &list)),
        }
    }
}

/// A range that leaves a text area of this length by numbers that two bytes do not hold;
/// some come to its inside where a sum is cut to 32 bits, or a number to 16.
fn far_outside(rng: &mut Rng, text: usize) -> TextRange {
    let most = usize::try_from(u32::MAX).expect("64 bits");
    let few = rng.between(0, text.min(20));
    let (start, length) = match rng.below(5) {
        0 => (most, most),
        1 => (most - few, few + 1),
        2 => (rng.between(0, text), most),
        3 => (0x1_0000 * rng.between(17, 0xFFFF), few),
        _ => (0, text + 0x1_0000 * rng.between(17, 0xFFEF)),
    };
    TextRange { start, length }
}

/// The list with ranges of four bytes a number, as far as its records are known and
/// whole, those outside the text area at times further outside; and where a place of it
/// then is.
fn widened(rng: &mut Rng, list: &ValueList) -> (ValueList, impl Fn(usize) -> usize + use<>) {
    let share = match rng.below(8) {
        0..=2 => Share::All,
        3 | 4 => Share::Half,
        _ => Share::None,
    };
    let mut bytes = Vec::new();
    let mut grown = Vec::new();
    let mut at = 0;
    while at < list.bytes.len()
        && let Some((record, length)) = Record::read(&list.bytes[at..])
    {
        let whole = &list.bytes[at..at + length];
        match record.range() {
            Some(range) if share.takes(rng) => {
                let is_inside = range.of(&list.text).is_some();
                let range = match is_inside || rng.one_in(2) {
                    true => range,
                    false => far_outside(rng, list.text.len()),
                };
                record.with_range(range).write_as(true, &mut bytes);
            }
            _ => bytes.extend(whole),
        }
        at += length;
        grown.push((at, bytes.len()));
    }
    let end = bytes.len();
    bytes.extend(&list.bytes[at..]);
    let text = list.text.clone();
    let place = move |old: usize| match grown.iter().find(|(before, _)| *before == old) {
        Some((_, after)) => *after,
        None => end + (old - at),
    };
    (ValueList { bytes, text }, place)
}
