//! The model compared with the Rust on all small rows of some schemas: every
//! bitmap, every offset up to past the row's end, payloads of three bytes.

mod common;

use cases::column::{ColumnType, RustColumns};
use cases::expected::{self, Refusal};
use cases::history::Call;
use cases::schema::write_schema;
use cases::value::{Record, TextRange, ValueList};
use common::{FILL, done, refused, small_rows, with_counts};

/// A letter and the two bytes of another.
const BYTES: [u8; 3] = [b'A', 0xC3, 0xA9];

/// All rows of up to this many bytes past the offset table.
fn rows(types: &[ColumnType], past: usize) -> Vec<Vec<u8>> {
    let varchars = types.iter().filter(|ty| ty.is_variable_length()).count();
    small_rows(types.len(), varchars, &BYTES, past)
}

fn reads(types: &[ColumnType], row: &[u8], wanted: &[u16]) {
    let schema = write_schema(types);
    let (answer, list, counts) = with_counts(99, types.len(), |out, counts| {
        model::read(&schema, row, wanted, out, counts)
    });
    let input = || format!("{types:?} {row:X?} {wanted:?}");
    let columns = RustColumns::of(types).unwrap();
    match expected::read(&columns, row, wanted) {
        Ok(values) => {
            assert_eq!(answer, done(list.len()), "{}", input());
            let wanted = expected::list(&columns, row, &values);
            assert_eq!(list, wanted, "{} {values:?}", input());
            let points = expected::points(&columns, row, &values);
            assert_eq!(counts, points, "{} {values:?}", input());
        }
        Err(refusal) => {
            let model = Refusal::of((answer.number, answer.place));
            assert_eq!((model, answer.length), (refusal, 0), "{}", input());
        }
    }
}

fn edits(types: &[ColumnType], row: &[u8], call: &Call) {
    let schema = write_schema(types);
    let mut before = row.to_vec();
    before.resize(row.len() + 2, FILL);
    let mut buf = before.clone();
    let answer = match call {
        Call::SetNull { column } => model::set_null(&schema, &mut buf, row.len(), *column),
        Call::Set { column, values } => {
            let (list, text) = (&values.bytes, &values.text);
            model::set(&schema, &mut buf, row.len(), *column, list, text)
        }
    };
    let mut after = before;
    let wanted = match expected::edit(&RustColumns::of(types).unwrap(), row, call) {
        Ok(new) if new.len() > after.len() => refused(14, 0, row.len()),
        Ok(new) => {
            after[..new.len()].copy_from_slice(&new);
            done(new.len())
        }
        Err((number, place)) => refused(number, place, row.len()),
    };
    assert_eq!(
        (answer, buf),
        (wanted, after),
        "{types:?} {row:X?} {call:?}"
    );
}

/// A set to each short text, and set null.
fn calls(types: &[ColumnType]) -> Vec<Call> {
    let mut calls = Vec::new();
    for column in 0..=types.len() {
        calls.push(Call::SetNull { column });
        for text in [&b""[..], b"B", b"BC", b"BCD", b"\xC3"] {
            let range = TextRange {
                start: 0,
                length: text.len(),
            };
            let record = match types.get(column) {
                Some(ColumnType::Bool) => Record::Bool(text.len() as u8),
                _ => Record::Varchar(range),
            };
            let values = ValueList::of_records(&[record], text.to_vec());
            calls.push(Call::Set { column, values });
        }
    }
    calls
}

/// The number of comparisons made.
fn compare(types: &[ColumnType], past: usize) -> usize {
    let columns: Vec<u16> = (0..types.len() as u16).collect();
    let calls = calls(types);
    let rows = rows(types, past);
    for row in &rows {
        for &column in &columns {
            reads(types, row, &[column]);
        }
        reads(types, row, &columns);
        for column in 0..=types.len() {
            let answer = model::is_null(row, column);
            let wanted = expected::null_flag(row, column);
            match answer.number {
                0 => assert_eq!(Ok(answer.flag == 1), wanted),
                number => assert_eq!(Err(Refusal::of((number, answer.place))), wanted),
            }
        }
        for call in &calls {
            edits(types, row, call);
        }
    }
    rows.len() * (2 * columns.len() + 2 + calls.len())
}

#[test]
fn all_small_rows() {
    let varchar = || ColumnType::Varchar(2);
    let mut compared = compare(&[varchar()], 4);
    compared += compare(&[varchar(), ColumnType::Bool], 3);
    compared += compare(&[ColumnType::Varchar(1), varchar()], 2);
    println!("{compared} comparisons");
}

#[test]
#[ignore = "takes minutes"]
fn all_larger_rows() {
    let varchar = || ColumnType::Varchar(2);
    let mut compared = compare(&[varchar()], 6);
    compared += compare(&[varchar(), varchar()], 3);
    compared += compare(&[varchar(), ColumnType::SmallInt, varchar()], 3);
    compared += compare(&[varchar(), varchar(), varchar()], 1);
    println!("{compared} comparisons");
}
