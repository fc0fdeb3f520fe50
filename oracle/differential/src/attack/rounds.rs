//! The inputs of the attack. A round takes what the generators of the comparison
//! make for one schema, good, bad and at the limits, and calls on it many times,
//! as it is, damaged, and with outputs and lists of counts of every room.

use super::handle::{self, Handle};
use super::judge::Told;
use super::slots::{MOST_COUNTS, longest};
use super::{Attack, Call};
use crate::compare::{build, rows, text};
use cases::column::ColumnType;
use cases::generate::history::history_of;
use cases::generate::kinds::Kinds;
use cases::generate::list::{self, List, any_list_of, list_of};
use cases::generate::made;
use cases::generate::row::{self, any_column, sound_row_of};
use cases::generate::schema::any_type;
use cases::generate::wanted::any_wanted;
use cases::history;
use cases::rng::Rng;
use cases::schema::write_schema;
use cases::value::{Record, TextRange, ValueList};
use cases::{LIMIT, RowSort};
use std::sync::LazyLock;

/// The most calls of a round, and the bytes lent after which it ends.
const CALLS: usize = 160;
const BYTES: usize = 60_000;
/// The least calls of a round, whatever they take.
const LEAST: usize = 6;

/// Of the rounds on long rows one in so many is at their limit.
const AT_LONG_LIMIT: usize = 100;

/// The most bytes of a printed line, and the least that a row takes in a list.
const LONGEST_LINE: usize = 126;
const SHORTEST_ROW: usize = 27;

/// What stands in an output before a call.
static NOISE: LazyLock<Vec<u8>> = LazyLock::new(|| Rng::new(0).bytes(longest()));

/// The front of it, as far as it goes.
fn noise(rng: &mut Rng, length: usize) -> &'static [u8] {
    let end = length.max(3 * LIMIT).min(NOISE.len());
    let start = rng.below(end - length + 1);
    &NOISE[start..start + length]
}

/// Each call as often as it is to be tried.
const TRIED: [Call; 19] = [
    Call::Fresh,
    Call::Build,
    Call::Build,
    Call::Read,
    Call::Read,
    Call::Read,
    Call::Set,
    Call::Set,
    Call::Set,
    Call::SetNull,
    Call::HandleSet,
    Call::HandleSetNull,
    Call::Text,
    Call::Text,
    Call::SameContent,
    Call::SameContent,
    Call::IsNull,
    Call::TextCheck,
    Call::OccupationsPrint,
];

/// The columns of a schema, by its bytes and their number.
struct Columns {
    schema: Vec<u8>,
    number: usize,
}

impl Columns {
    fn of(types: &[ColumnType]) -> Self {
        Columns {
            schema: write_schema(types),
            number: types.len(),
        }
    }
}

/// What the calls of a round begin with.
struct Given {
    /// The sort of rows that it is made for; a call may be made for the other one.
    of: RowSort,
    /// The least calls, whatever they take.
    least: usize,
    types: Vec<ColumnType>,
    schema: Vec<u8>,
    rows: [Vec<u8>; 4],
    wanted: [Vec<u16>; 3],
    /// Columns, and value lists for them.
    sets: Vec<(usize, ValueList)>,
    /// Columns, and value lists for them.
    builds: [(Columns, ValueList); 2],
    schemas: [Vec<u8>; 2],
    texts: [Vec<u8>; 2],
    /// Of platform occupations.
    row_list: Vec<u8>,
    /// The row that edits are made on, in a buffer.
    buffer: Vec<u8>,
    length: usize,
    /// The length of the last result of each call.
    last: [usize; Call::ALL.len()],
}

impl Given {
    fn new(rng: &mut Rng) -> Self {
        let of = Kinds::All.row_sort(rng);
        let at_limit = of == RowSort::Long && rng.one_in(AT_LONG_LIMIT);
        let types = match at_limit {
            true => far_reaching(rng),
            false => rows::any_types(rng, Kinds::All, of),
        };
        let rows = match at_limit {
            true => rows_at_limit(rng, &types),
            false => any_rows(rng, &types, of),
        };
        let (_, schema) = rows::any_schema_for(rng, &types, Kinds::All, of);
        let other = build::any_given(rng, Kinds::All);
        let list = |rng: &mut Rng| {
            let list = match at_limit {
                true => list_at_limit(rng, &types),
                false => any_list_of(rng, &types, of).1,
            };
            Kinds::All.list(rng, list).values
        };
        let own = list(rng);
        let mut sets = any_sets(rng, &types, of, list);
        if at_limit {
            sets.extend(sets_at_limit(&types, &rows[1]));
        }
        Given {
            of,
            least: if at_limit { 4 * LEAST } else { LEAST },
            wanted: [(); 3].map(|()| any_wanted(rng, types.len()).1),
            sets,
            builds: [
                (Columns::of(&types), own),
                (Columns::of(&other.types), other.list),
            ],
            schemas: [rows::any_bytes(rng, Kinds::All, of).1, schema.clone()],
            texts: [(); 2].map(|()| text::text(rng).1),
            row_list: Kinds::All.row_list(rng).1,
            buffer: rows[1].clone(),
            length: rows[1].len(),
            last: [0; Call::ALL.len()],
            types,
            schema,
            rows,
        }
    }

    /// The sort that a row is made of: mostly the round's.
    fn is_long(&self, rng: &mut Rng) -> bool {
        (self.of == RowSort::Long) != rng.one_in(8)
    }

    /// A row to be edited, in a buffer with room for more or not.
    fn restart(&mut self, rng: &mut Rng) {
        let fresh;
        let row = match rng.below(8) {
            0 => &self.rows[0],
            1 => &self.rows[2],
            2 => {
                fresh = made::fresh_of(&self.types, self.of);
                &fresh
            }
            _ => &self.rows[1],
        };
        let spare = match rng.below(16) {
            0..=2 => 0,
            3..=6 => rng.between(1, 20),
            7 => LIMIT + 2,
            _ => rng.between(20, 600),
        };
        self.length = row.len();
        self.buffer.clone_from(row);
        self.buffer.extend_from_slice(noise(rng, spare));
    }
}

/// Columns, and value lists to set them to.
fn any_sets(
    rng: &mut Rng,
    types: &[ColumnType],
    of: RowSort,
    list: impl Fn(&mut Rng) -> ValueList,
) -> Vec<(usize, ValueList)> {
    let calls = history_of(rng, types, of, 6);
    let calls = Kinds::All.calls(rng, calls).into_iter();
    let sets = calls.map(|call| match call {
        history::Call::Set { column, values } => (column, values),
        history::Call::SetNull { column } => (column, list(rng)),
    });
    sets.collect()
}

/// Of a row at its limit, the Varchars that take more, with a text of as many bytes as
/// they have, and of one more or two, which are too many for the row.
fn sets_at_limit(types: &[ColumnType], row: &[u8]) -> Vec<(usize, ValueList)> {
    let schema = write_schema(types);
    let mut sets = Vec::new();
    for (column, ty) in types.iter().enumerate() {
        let own = model::text(&schema, row, column).length;
        if !ty.is_variable_length() || own + 2 > LIMIT {
            continue;
        }
        for length in [own, own + 1, own + 1, own + 2] {
            let record = Record::Varchar(TextRange { start: 0, length });
            sets.push((column, ValueList::of_records(&[record], vec![b'x'; length])));
        }
    }
    [sets.clone(), sets].concat()
}

/// Rows of a round: any, a sound one, and two to be compared.
fn any_rows(rng: &mut Rng, types: &[ColumnType], of: RowSort) -> [Vec<u8>; 4] {
    let (_, (a, b)) = Kinds::All.pair(rng, types, of);
    let any = rows::any_row(rng, types, Kinds::All, of).1;
    [any, sound_row_of(rng, types, of), a, b]
}

/// A few columns, and Varchars that bring a long row past its limit.
fn far_reaching(rng: &mut Rng) -> Vec<ColumnType> {
    let few = rng.below(3);
    let mut types: Vec<_> = (0..few).map(|_| any_type(rng, 40)).collect();
    types.extend(match rng.below(2) {
        0 => vec![ColumnType::Varchar(u16::MAX); 17],
        _ => vec![ColumnType::VarcharChars(u16::MAX); 5],
    });
    types
}

/// The same of rows at the limit of long ones: one above it, a sound one at it, and two
/// that are nearly the same.
fn rows_at_limit(rng: &mut Rng, types: &[ColumnType]) -> [Vec<u8>; 4] {
    let mut row = |sort: row::Sort| {
        let row = row::row_of(rng, types, RowSort::Long, sort);
        row.expect("columns that reach so far")
    };
    let (above, sound) = (row(row::Sort::Above), row(row::Sort::AtLimit));
    let mut other = sound.clone();
    if rng.one_in(2) {
        let at = rng.below(other.len());
        other[at] ^= 1;
    }
    [above, sound.clone(), sound, other]
}

/// A list whose row or text area is at the limit of long ones or above it, or a good one.
fn list_at_limit(rng: &mut Rng, types: &[ColumnType]) -> List {
    let sort = rng.pick(&[
        list::Sort::RowAtLimit,
        list::Sort::RowAbove,
        list::Sort::TextAtLimit,
        list::Sort::TextAbove,
        list::Sort::Good,
    ]);
    let list = list_of(rng, types, RowSort::Long, sort);
    list.expect("columns that reach so far")
}

/// Bytes with a few changed, some cut off or some added.
fn damage(rng: &mut Rng, bytes: &mut Vec<u8>) {
    let length = bytes.len();
    if length == 0 || rng.one_in(12) {
        let more = rng.between(1, 8);
        bytes.extend(rng.bytes(more));
        return;
    }
    // Half of them near the front, where headers and offsets are.
    let reach = if rng.one_in(2) {
        length.min(24)
    } else {
        length
    };
    let at = rng.below(reach);
    match rng.below(8) {
        // The mark of long rows, if these are a row.
        _ if length >= 4 && rng.one_in(16) => bytes[3] ^= 0x40,
        0..=2 => {
            for _ in 0..rng.between(1, 3) {
                bytes[rng.below(reach)] ^= 1 << rng.below(8);
            }
        }
        3 => bytes[at] = rng.pick(&[0x00, 0x01, 0x7F, 0x80, 0xC0, 0xED, 0xF4, 0xFF]),
        4 => bytes[at] = rng.byte(),
        5 if rng.one_in(4) => {
            // Of a header alone, or less; with marks at its end.
            bytes.truncate(rng.below(5));
            if let Some(last) = bytes.last_mut() {
                *last = rng.pick(&[*last, 0x40, 0xC0]);
            }
        }
        5 => bytes.truncate(rng.below(length)),
        6 => {
            let number = length + rng.below(3);
            let number = rng.pick(&[0, 1, 4, 0xFFFF, number.saturating_sub(1), at]) as u16;
            let [low, high] = number.to_le_bytes();
            bytes[at] = low;
            if let Some(next) = bytes.get_mut(at + 1) {
                *next = high;
            }
        }
        _ => bytes[at] = bytes[at].wrapping_add(rng.pick(&[1, 255])),
    }
}

/// The length of an output, by that of the last result and one that is enough.
fn room(rng: &mut Rng, last: usize, enough: usize) -> usize {
    match rng.below(16) {
        0..=4 => last,
        5 | 6 => last.saturating_sub(1),
        7 => last + 1,
        8 => rng.below(last + 1),
        9 => 0,
        _ => enough,
    }
}

impl Attack {
    /// Calls of a round, all of one kind if that is told, until a difference.
    pub fn round(&mut self, rng: &mut Rng, only: Option<Call>) {
        let mut given = Given::new(rng);
        let end = self.spent + BYTES;
        for number in 0..CALLS {
            if self.difference.is_some() || number >= given.least && self.spent > end {
                break;
            }
            let call = only.unwrap_or_else(|| rng.pick(&TRIED));
            let told = self.step(rng, &mut given, call);
            if told.number == 0 {
                given.last[call as usize] = told.handed[0];
            }
            self.counts.wide += u64::from(given.types.len() >= 256);
        }
    }

    /// The bytes, damaged once in so many times.
    fn varied(&mut self, rng: &mut Rng, bytes: &[u8], one_in: usize) -> Vec<u8> {
        let mut bytes = bytes.to_vec();
        if rng.one_in(one_in) {
            self.counts.damaged += 1;
            match rng.below(16) {
                0 => {
                    let length = rng.below(40);
                    bytes = rng.bytes(length);
                }
                _ => damage(rng, &mut bytes),
            }
        }
        bytes
    }

    fn step(&mut self, rng: &mut Rng, given: &mut Given, call: Call) -> Told {
        let last = given.last[call as usize];
        match call {
            Call::Fresh => {
                let schema = &given.schemas[rng.below(2)];
                let schema = self.varied(rng, schema, 4);
                let room = room(rng, last, given.of.limit().min(last + 2000));
                let is_long = given.is_long(rng);
                self.fresh(&schema, is_long, noise(rng, room))
            }
            Call::Build => self.build_step(rng, given, last),
            Call::Read => self.read_step(rng, given, last),
            Call::Set | Call::HandleSet => self.set_step(rng, given, call),
            Call::SetNull | Call::HandleSetNull => self.set_null_step(rng, given, call),
            Call::Text => {
                let schema = self.varied(rng, &given.schema, 24);
                let row = &given.rows[rng.below(4)];
                let row = self.varied(rng, row, 2);
                let column = text_column(rng, &given.types);
                self.text(&schema, &row, column)
            }
            Call::SameContent => {
                let schema = self.varied(rng, &given.schema, 24);
                let (a, b) = match rng.below(3) {
                    0 => (rng.below(4), rng.below(4)),
                    _ => (2, 3),
                };
                let a = self.varied(rng, &given.rows[a], 6);
                let b = self.varied(rng, &given.rows[b], 6);
                self.same_content(&schema, &a, &b)
            }
            Call::IsNull => {
                let row = &given.rows[rng.below(4)];
                let row = self.varied(rng, row, 2);
                let column = match rng.below(4) {
                    0 => any_column(rng, 8 * given.types.len()),
                    _ => any_column(rng, given.types.len()),
                };
                self.is_null(&row, column)
            }
            Call::TextCheck => {
                let text = &given.texts[rng.below(2)];
                let text = self.varied(rng, text, 2);
                self.text_check(&text)
            }
            Call::OccupationsPrint => {
                let list = self.varied(rng, &given.row_list, 3);
                let room = room(rng, last, LONGEST_LINE * list.len().div_ceil(SHORTEST_ROW));
                self.occupations_print(&list, noise(rng, room))
            }
        }
    }

    fn build_step(&mut self, rng: &mut Rng, given: &Given, last: usize) -> Told {
        let (columns, list) = &given.builds[rng.below(2)];
        let schema = self.varied(rng, &columns.schema, 24);
        let values = self.varied(rng, &list.bytes, 4);
        let text = self.varied(rng, &list.text, 8);
        let enough = match list.text.len() >= LIMIT && rng.one_in(2) {
            true => given.of.limit() + 600,
            false => last + 600,
        };
        let room = room(rng, last, enough);
        let out = noise(rng, room);
        let is_long = given.is_long(rng);
        self.build(
            &schema,
            is_long,
            &values,
            &text,
            out,
            any_counts(rng, columns.number),
        )
    }

    fn read_step(&mut self, rng: &mut Rng, given: &Given, last: usize) -> Told {
        let schema = self.varied(rng, &given.schema, 24);
        let row = &given.rows[rng.below(4)];
        let row = self.varied(rng, row, 2);
        let one = [any_column(rng, given.types.len()) as u16];
        let wanted = match rng.below(4) {
            3 => &one[..],
            number => &given.wanted[number],
        };
        let room = room(rng, last, 18 * given.types.len());
        let out = noise(rng, room);
        self.read(
            &schema,
            &row,
            wanted,
            out,
            any_counts(rng, given.types.len()),
        )
    }

    /// What an edit is made on, whether it is the row that the edits before left,
    /// and the row length stated.
    fn edited(&mut self, rng: &mut Rng, given: &mut Given) -> (Vec<u8>, bool, usize) {
        // Of a row at its limit few edits leave another such.
        if rng.one_in(if given.least > LEAST { 2 } else { 12 }) {
            given.restart(rng);
        }
        let buffer = self.varied(rng, &given.buffer, 6);
        let length = match rng.below(48) {
            0 => buffer.len() + rng.pick(&[1, 2, 70_000]),
            1 => rng.between(0, buffer.len()),
            2 => usize::MAX,
            _ => given.length,
        };
        let own = length == given.length && buffer == given.buffer;
        (buffer, own, length)
    }

    /// The row that an accepted edit left is edited further.
    fn accept(&self, given: &mut Given, told: Told) {
        if told.number == 0 {
            given.buffer.clone_from(&self.wanted[0]);
            given.length = told.handed[0];
        }
    }

    fn set_step(&mut self, rng: &mut Rng, given: &mut Given, call: Call) -> Told {
        let (buffer, own, length) = self.edited(rng, given);
        let (column, list) = &given.sets[rng.below(given.sets.len())];
        let column = match rng.one_in(16) {
            true => any_column(rng, given.types.len()),
            false => *column,
        };
        let schema = self.varied(rng, &given.schema, 32);
        let values = self.varied(rng, &list.bytes, 6);
        let text = self.varied(rng, &list.text, 10);
        let told = match call {
            Call::HandleSet => {
                let handle = any_handle(rng, length);
                self.handle_set(&schema, &buffer, &handle, column, &values, &text)
            }
            _ => self.set(&schema, &buffer, [length, column], &values, &text),
        };
        if own && schema == given.schema {
            self.accept(given, told);
        }
        told
    }

    fn set_null_step(&mut self, rng: &mut Rng, given: &mut Given, call: Call) -> Told {
        let (buffer, own, length) = self.edited(rng, given);
        let schema = self.varied(rng, &given.schema, 32);
        let column = any_column(rng, given.types.len());
        let told = match call {
            Call::HandleSetNull => {
                let handle = any_handle(rng, length);
                self.handle_set_null(&schema, &buffer, &handle, column)
            }
            _ => self.set_null(&schema, &buffer, [length, column]),
        };
        if own && schema == given.schema {
            self.accept(given, told);
        }
        told
    }
}

/// A list of numbers of four bytes for so many columns: mostly one for each, too few
/// now and then, or more.
fn any_counts(rng: &mut Rng, columns: usize) -> &'static [u8] {
    let numbers = match rng.below(16) {
        0 => 0,
        1 => columns.saturating_sub(1),
        2 => rng.below(columns + 1),
        3 => rng.between(columns, MOST_COUNTS),
        4..=6 => columns + rng.between(1, 4),
        _ => columns,
    };
    noise(rng, 4 * numbers)
}

/// A handle of this length, with anything in the place of the layout, or with what a
/// layout may have.
fn any_handle(rng: &mut Rng, length: usize) -> Handle {
    if rng.one_in(2) {
        let [columns, varchars, fixed] = [(); 3].map(|()| rng.below(40));
        let [packed, is_long] = [(); 2].map(|()| rng.below(2));
        return handle::bytes([length, columns, varchars, fixed, packed, is_long]);
    }
    let mut handle = [0; 48];
    handle[..8].copy_from_slice(&length.to_le_bytes());
    handle[8..].copy_from_slice(noise(rng, 40));
    handle
}

/// A column, one with text more often than not.
fn text_column(rng: &mut Rng, types: &[ColumnType]) -> usize {
    let column = any_column(rng, types.len());
    let is_text = |column: &usize| types[*column].is_text();
    if column >= types.len() || rng.one_in(4) {
        return column;
    }
    let next = (column..types.len()).chain(0..column).find(is_text);
    next.unwrap_or(column)
}
