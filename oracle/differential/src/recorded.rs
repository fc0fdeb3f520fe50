//! A sample of the Rust's answers as a file, for a program of the port that runs
//! with no Rust at hand. The file is a list of records. A record is the length
//! of what follows (four bytes, low byte first), a byte of kind, and fields,
//! each with its length in four bytes before it; the last field is the answer.
//! No record crosses the end of a block of 65,536 bytes: zeros fill the block.
//!
//! | kind | fields |
//! |---|---|
//! | 0 | a note to print; no answer |
//! | 1 | text; answer 1 or 0 |
//! | 2 | row, column (8 bytes); answer: variant, flag |
//! | 3 | schema; answer: columns, Varchars, fixed bytes packed and padded (4 bytes each) |
//! | 4 | schema of one column, value list, text area; answer: variant, stored form |
//! | 5 | schema of one column, its bytes, their place (8 bytes); answer: variant, value record |
//! | 6 | schema, row, wanted columns (2 bytes each); answer: variant, value list |
//! | 7 | schema, value list, text area; answer: variant, row |
//! | 8 | schema; answer: variant, row |
//! | 9 | schema, buffer, row length and column (8 bytes each), value list, text area; answer: variant, row length (8 bytes), buffer |
//! | 10 | schema, buffer, row length and column; answer: as for 9 |
//!
//! A variant is 0 for `Ok`, 1 for `Internal`, 2 for `TypeMismatch`, 3 for a panic.
//! 128 added to a kind says that the answer was changed by hand: a run must find
//! it wrong.

use crate::compare::value::{self, Handed};
use crate::compare::{build, edit, layout, null_flag, rows, text};
use cases::LIMIT;
use cases::RowSort;
use cases::column::{RustColumns, to_rust_types};
use cases::expected::{self, Refusal};
use cases::generate::history::{self, Sort};
use cases::generate::kinds::Kinds;
use cases::generate::list;
use cases::generate::row::sound_row;
use cases::generate::schema::any_schema;
use cases::generate::wanted::any_wanted;
use cases::history::Call;
use cases::rng::Rng;
use cases::rust::{self, Outcome};
use cases::schema::{read_schema, write_schema};

const NOTE: u8 = 0;
const TEXT: u8 = 1;
const NULL_FLAG: u8 = 2;
const LAYOUT: u8 = 3;
const STORED: u8 = 4;
const SLOT: u8 = 5;
const READ: u8 = 6;
const BUILT: u8 = 7;
const FRESH: u8 = 8;
const SET: u8 = 9;
const SET_NULL: u8 = 10;
const PLANTED: u8 = 128;

/// The seed that the file is made from.
const SEED: u64 = 20_261_115;

const BLOCK: usize = 65_536;

/// The columns of the inputs: the file stays as it is, whatever else is compared.
const KINDS: Kinds = Kinds::OfRust;

/// The longest input of a record, so that the file stays small.
const LONGEST: usize = 1500;

/// The most wanted columns of a record, which the program has room for.
const MOST_WANTED: usize = 64;

struct Record {
    kind: u8,
    inputs: Vec<Vec<u8>>,
    answer: Vec<u8>,
}

impl Record {
    /// The record with one bit of its answer changed.
    fn planted(mut self, rng: &mut Rng) -> Self {
        let at = rng.below(self.answer.len());
        self.answer[at] ^= 1;
        self.kind += PLANTED;
        self
    }

    fn write(&self, out: &mut Vec<u8>) {
        let mut body = vec![self.kind];
        for field in self.inputs.iter().chain([&self.answer]) {
            body.extend((field.len() as u32).to_le_bytes());
            body.extend(field);
        }
        if out.len() % BLOCK + 4 + body.len() > BLOCK {
            out.resize(out.len().next_multiple_of(BLOCK), 0);
        }
        out.extend((body.len() as u32).to_le_bytes());
        out.extend(body);
    }
}

fn text(rng: &mut Rng) -> Option<Record> {
    let (_, text) = text::text(rng);
    let answer = vec![u8::from(text::rust(&text).is_some())];
    (text.len() <= LONGEST).then(|| Record {
        kind: TEXT,
        inputs: vec![text],
        answer,
    })
}

fn null_flag(rng: &mut Rng) -> Option<Record> {
    let (_, row, column) = null_flag::input(rng, KINDS);
    if row.len() > LONGEST.min(LIMIT) {
        return None;
    }
    let answer = match rust::is_null(&row, column) {
        Outcome::Ok(null) => vec![0, u8::from(null)],
        Outcome::Internal => vec![1, 0],
        _ => return None,
    };
    Some(Record {
        kind: NULL_FLAG,
        inputs: vec![row, (column as u64).to_le_bytes().to_vec()],
        answer,
    })
}

fn layout(rng: &mut Rng) -> Option<Record> {
    let (_, schema) = any_schema(rng);
    let types = read_schema(&schema.bytes).ok()?;
    let told = layout::rust(&types)?.probe;
    let numbers = [told.columns, told.varlens, told.packed, told.padded];
    Some(Record {
        kind: LAYOUT,
        inputs: vec![schema.bytes],
        answer: numbers
            .iter()
            .flat_map(|&number| (number as u32).to_le_bytes())
            .collect(),
    })
}

/// The record of a call that hands bytes back, if it is short.
fn handed(kind: u8, inputs: Vec<Vec<u8>>, handed: Handed) -> Option<Record> {
    let answer = match handed {
        Ok(bytes) => [vec![0], bytes].concat(),
        Err(5 | 11) => vec![1],
        Err(8 | 12) => vec![2],
        Err(7) => vec![3],
        Err(_) => return None,
    };
    short(kind, inputs, answer)
}

fn short(kind: u8, inputs: Vec<Vec<u8>>, answer: Vec<u8>) -> Option<Record> {
    let length: usize = inputs.iter().map(Vec::len).sum();
    (length + answer.len() <= LONGEST).then_some(Record {
        kind,
        inputs,
        answer,
    })
}

fn value_stored(rng: &mut Rng) -> Option<Record> {
    let ty = value::any_column(rng, KINDS);
    let (_, list) = value::any_list(rng, &ty);
    let answer = value::rust_form(&ty, &list)?;
    let inputs = vec![write_schema(&[ty]), list.bytes, list.text];
    handed(STORED, inputs, answer)
}

fn slot_read(rng: &mut Rng) -> Option<Record> {
    let ty = value::any_column(rng, KINDS);
    let (_, bytes) = value::any_slot(rng, &ty);
    let start = value::any_start(rng);
    if value::refused_slot(&ty, &bytes, start, LONGEST).is_some() {
        return None;
    }
    let answer = value::rust_record(&ty, &bytes, start)?;
    let place = (start as u64).to_le_bytes().to_vec();
    handed(SLOT, vec![write_schema(&[ty]), bytes, place], answer)
}

/// What the Rust reads, where 01 says the same; 5 for each `Internal`.
fn read_by_both(schema: &[u8], row: &[u8], wanted: &[u16]) -> Option<Handed> {
    let types = rows::columns(schema, RowSort::of_row(row)).ok()?;
    let columns = RustColumns::of(&types)?;
    if RowSort::of_row(row) == RowSort::Long {
        // The Rust refuses what damage made a long row; where it is refused as one too,
        // the answer stands.
        let refused = model::read(schema, row, wanted, &mut [], &mut []).number;
        return matches!(refused, 3 | 5 | 6).then_some(Err(5));
    }
    let expected = expected::read(&columns, row, wanted);
    match (expected, rust::read(&columns.rust, row, wanted)) {
        (Ok(values), _) => Some(Ok(expected::list(&columns, row, &values))),
        (Err(Refusal::Internal), _) => Some(Err(5)),
        (Err(Refusal::Number(8, _)), Outcome::TypeMismatch) => Some(Err(8)),
        (Err(Refusal::Number(7, _)), Outcome::Panicked) => Some(Err(7)),
        _ => None,
    }
}

fn row_read(rng: &mut Rng) -> Option<Record> {
    let given = rows::any_given(rng, KINDS);
    let (_, wanted) = any_wanted(rng, given.types.len());
    if wanted.len() > MOST_WANTED || given.row.len() > LONGEST {
        return None;
    }
    let answer = read_by_both(&given.schema, &given.row, &wanted)?;
    let wanted = wanted.iter().flat_map(|n| n.to_le_bytes()).collect();
    handed(READ, vec![given.schema, given.row, wanted], answer)
}

fn row_built(rng: &mut Rng) -> Option<Record> {
    let given = match rng.below(3) {
        0 => build::refused_given(rng, KINDS)?,
        _ => build::any_given(rng, KINDS),
    };
    let list = given.list;
    let columns = RustColumns::of(&given.types)?;
    let answer = match build::rust_row(&columns, &list)? {
        Outcome::Ok(row) => Ok(row),
        Outcome::Internal => Err(11),
        Outcome::TypeMismatch => Err(12),
        _ => return None,
    };
    let inputs = vec![write_schema(&given.types), list.bytes, list.text];
    handed(BUILT, inputs, answer)
}

fn row_fresh(rng: &mut Rng) -> Option<Record> {
    let types = rows::any_types(rng, KINDS, RowSort::Short);
    let row = rust::fresh(&to_rust_types(&types)?).ok()?;
    handed(FRESH, vec![write_schema(&types)], Ok(row))
}

fn column_set(rng: &mut Rng) -> Option<Record> {
    let sort = match rng.below(8) {
        0..=4 => Sort::Set(list::Sort::Values),
        5 => Sort::Set(list::Sort::OtherKind),
        6 => Sort::Set(list::Sort::Unsuitable),
        _ => Sort::Column,
    };
    edited(rng, sort).filter(|record| record.kind == SET)
}

fn column_set_null(rng: &mut Rng) -> Option<Record> {
    let sort = match rng.below(8) {
        0 => Sort::Column,
        _ => Sort::SetNull,
    };
    edited(rng, sort).filter(|record| record.kind == SET_NULL)
}

/// An edit of this sort, of a sound row in a buffer with room for the result.
fn edited(rng: &mut Rng, sort: Sort) -> Option<Record> {
    let types = rows::any_types(rng, KINDS, RowSort::Short);
    let call = history::call(rng, &types, sort)?;
    let row = sound_row(rng, &types);
    let spare = rng.between(0, 60);
    let buffer = [row.clone(), rng.bytes(spare)].concat();
    let (variant, after) = match edit::rust_edit(&RustColumns::of(&types)?, &row, &call)? {
        // Most of them change a fixed column: half are enough.
        Outcome::Ok(after) if after.len() == row.len() && rng.one_in(2) => return None,
        Outcome::Ok(after) => (0, after),
        Outcome::Internal => (1, row.clone()),
        Outcome::TypeMismatch => (2, row.clone()),
        _ => return None,
    };
    // Bytes past the row's new end are as before.
    let tail = buffer.get(after.len()..)?;
    let length = (after.len() as u64).to_le_bytes();
    let answer = [&[variant], &length[..], &after, tail].concat();
    let schema = write_schema(&types);
    let numbers = |column: usize| {
        let numbers = [row.len() as u64, column as u64];
        numbers.into_iter().flat_map(u64::to_le_bytes).collect()
    };
    match call {
        Call::SetNull { column } => {
            let inputs = vec![schema, buffer, numbers(column)];
            short(SET_NULL, inputs, answer)
        }
        Call::Set { column, values } => {
            let inputs = vec![schema, buffer, numbers(column), values.bytes, values.text];
            short(SET, inputs, answer)
        }
    }
}

/// So many records, and before each hundred one with a wrong answer.
fn samples(rng: &mut Rng, make: fn(&mut Rng) -> Option<Record>, count: usize, out: &mut Vec<u8>) {
    let next = |rng: &mut Rng| {
        loop {
            if let Some(record) = make(rng) {
                return record;
            }
        }
    };
    for number in 0..count {
        if number % 100 == 0 {
            next(rng).planted(rng).write(out);
        }
        next(rng).write(out);
    }
}

/// The file.
pub fn file() -> Vec<u8> {
    let note = format!(
        "Answers of RookDB, commit 4401c3aafd, recorded by oracle/record with seed {SEED}\n"
    );
    let mut out = Vec::new();
    let note = Record {
        kind: NOTE,
        inputs: vec![],
        answer: note.into_bytes(),
    };
    note.write(&mut out);
    let mut rng = Rng::new(SEED);
    samples(&mut rng, text, 800, &mut out);
    samples(&mut rng, null_flag, 600, &mut out);
    samples(&mut rng, layout, 200, &mut out);
    samples(&mut rng, value_stored, 400, &mut out);
    samples(&mut rng, slot_read, 400, &mut out);
    samples(&mut rng, row_read, 800, &mut out);
    samples(&mut rng, row_built, 800, &mut out);
    samples(&mut rng, row_fresh, 200, &mut out);
    samples(&mut rng, column_set, 800, &mut out);
    samples(&mut rng, column_set_null, 400, &mut out);
    out
}
