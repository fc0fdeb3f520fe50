//! Histories of edits, against `Row::deserialize`, then `set_value` or `set_null`,
//! then `serialize`, call by call on the row that the calls before left: rows byte
//! for byte and errors by variant on 01's domain. The model judges all of it:
//! number, place, length and every lent byte. A history from a fresh row leaves
//! what the builder makes of the last accepted values.

use super::rows::{self, apart, apart_from_rust, chars_sorts, fitting, handed, model_sort};
use crate::chars::{self, Shown};
use crate::lent::{After, called, written};
use crate::{Compared, hex, port};
use cases::column::{ColumnType, RustColumns};
use cases::expected::{self, Refusal};
use cases::generate::history::history_of;
use cases::generate::kinds::Kinds;
use cases::generate::made;
use cases::generate::row::sound_row_of;
use cases::history::Call;
use cases::rng::Rng;
use cases::row::{is_sound, zero_null_slots};
use cases::rust::{self, Outcome};
use cases::schema::write_schema;
use cases::value::{self, Record, ValueList, append_up_to};
use cases::{LIMIT, RowSort};
use model::RowAnswer;
use std::collections::BTreeMap;

/// A set: schema, buffer, row length, column, value list and text area.
type Set = fn(&mut [u8], &mut [u8], usize, usize, &mut [u8], &mut [u8]) -> RowAnswer;

/// The calls that are compared. One that sets to null has no list.
pub struct Calls {
    pub set: Set,
    pub set_null: fn(&mut [u8], &mut [u8], usize, usize) -> RowAnswer,
}

/// What an edit is lent: the buffer, and the row length stated.
struct Lent<'a> {
    schema: &'a [u8],
    buffer: &'a [u8],
    row_length: usize,
    call: &'a Call,
}

impl Lent<'_> {
    fn port(&self, calls: &Calls) -> After<RowAnswer> {
        let length = self.row_length;
        match self.call {
            Call::SetNull { column } => called(self.buffer, [self.schema], |[schema], buffer| {
                (calls.set_null)(schema, buffer, length, *column)
            }),
            Call::Set { column, values } => {
                let inputs = [self.schema, &values.bytes, &values.text];
                called(self.buffer, inputs, |[schema, list, text], buffer| {
                    (calls.set)(schema, buffer, length, *column, list, text)
                })
            }
        }
    }

    fn model(&self) -> After<RowAnswer> {
        written(self.buffer, |buffer| match self.call {
            Call::SetNull { column } => {
                model::set_null(self.schema, buffer, self.row_length, *column)
            }
            Call::Set { column, values } => {
                let (list, text) = (&values.bytes, &values.text);
                model::set(self.schema, buffer, self.row_length, *column, list, text)
            }
        })
    }

    fn row(&self) -> Option<&[u8]> {
        self.buffer.get(..self.row_length)
    }

    /// The sort of the row, short past its buffer.
    fn of(&self) -> RowSort {
        self.row().map_or(RowSort::Short, RowSort::of_row)
    }

    /// The row of the Rust, or the refusal.
    fn told(&self) -> Option<Result<Vec<u8>, Refusal>> {
        rows::by_rust(self.schema, self.of(), |columns| {
            let row = self.row().ok_or(Refusal::Number(14, 0))?;
            let row = expected::edit(columns, row, self.call).map_err(Refusal::of)?;
            fitting(row, self.buffer)
        })
    }

    fn input(&self) -> String {
        format!(
            "schema {}, row length {}, buffer {}, {:?}",
            hex(self.schema),
            self.row_length,
            hex(self.buffer),
            self.call
        )
    }

    /// What the port leaves, and the difference if there is one.
    fn compare(&self, calls: &Calls) -> (After<RowAnswer>, Option<String>) {
        let port = self.port(calls);
        let difference = apart("model", &port, &self.model(), || self.input())
            .or_else(|| apart_from_rust(&handed(&port), &self.told(), || self.input()));
        (port, difference)
    }

    /// Who judges an answer beside the model: the Rust where its outcome is that
    /// of the number in 01's table, else 01 alone.
    fn judge(&self, number: u32) -> &'static str {
        rows::judged(match number {
            0 => rows::is_known(self.schema, self.of()),
            9 | 11 => self.asked() == Some(Outcome::Internal),
            12 => self.asked() == Some(Outcome::TypeMismatch),
            _ => false,
        })
    }

    fn shown(&self, answer: RowAnswer) -> Option<Shown> {
        let (column, list) = match self.call {
            Call::SetNull { column } => (*column, None),
            Call::Set { column, values } => (*column, Some((&values.bytes[..], &values.text[..]))),
        };
        let answer = (answer.number, answer.place);
        chars::edit(self.schema, self.row(), column, list, answer)
    }

    /// What the Rust comes to, where it has this value.
    fn asked(&self) -> Option<Outcome<Vec<u8>>> {
        if self.of() == RowSort::Long {
            return None;
        }
        let types = rows::columns(self.schema, RowSort::Short).ok()?;
        let columns = RustColumns::of(&types)?;
        let row = self.row().filter(|row| is_sound(&columns, row))?;
        rust_edit(&columns, row, self.call)
    }
}

/// What the Rust makes of an edit of a sound row, where it has this value.
pub fn rust_edit(columns: &RustColumns, row: &[u8], call: &Call) -> Option<Outcome<Vec<u8>>> {
    let types = columns.types;
    match call {
        Call::SetNull { column } => Some(rust::set_null(&columns.rust, row, *column)),
        Call::Set { column, values } => {
            // The column is judged before the value.
            let ty = types.get(*column).unwrap_or(&ColumnType::Int);
            let record = match column < &types.len() {
                true => *values.records(1).ok()?.first()?,
                false => Record::Int(0),
            };
            let value = value::to_rust(ty, &record, &values.text).ok()??;
            Some(rust::set(&columns.rust, row, *column, &value))
        }
    }
}

/// The last accepted values of a history on a row of this sort: of each column null, or
/// a record with its text.
struct Sheet {
    of: RowSort,
    entries: Vec<(Record, Vec<u8>)>,
}

impl Sheet {
    fn of_nulls(columns: usize, of: RowSort) -> Self {
        let entries = vec![(Record::Null, vec![]); columns];
        Sheet { of, entries }
    }

    fn accept(&mut self, call: &Call) {
        match call {
            Call::SetNull { column } => self.entries[*column] = (Record::Null, vec![]),
            Call::Set { column, values } => {
                let record = values.records_of(1, self.of).expect("an accepted list")[0];
                let range = record.range().and_then(|range| range.of(&values.text));
                self.entries[*column] = (record, range.unwrap_or_default().to_vec());
            }
        }
    }

    /// The entries as one list, the texts end to end, in the kinds that a row of the sort
    /// reads into, whatever the calls used.
    fn list(&self) -> ValueList {
        let mut text = Vec::new();
        let limit = self.of.limit();
        let entry = |(record, bytes): &(Record, Vec<u8>)| match record.range() {
            Some(_) => {
                let range = append_up_to(limit, bytes, &mut text);
                record.with_range(range.expect("the texts of a row"))
            }
            None => *record,
        };
        let records: Vec<Record> = self.entries.iter().map(entry).collect();
        ValueList::of_records_of(self.of, &records, text)
    }
}

const FRESH: &str = "from fresh";

/// The most calls of a short history and of a long one.
const SHORT: usize = 12;
const LONG: usize = 400;

/// A row to begin with, and its sort.
fn any_start(rng: &mut Rng, types: &[ColumnType], of: RowSort) -> (&'static str, Vec<u8>) {
    match rng.below(16) {
        0..=7 => (FRESH, made::fresh_of(types, of)),
        8..=14 => ("from a sound row", sound_row_of(rng, types, of)),
        _ => {
            let (_, row) = rows::any_row(rng, types, Kinds::All, of);
            ("from any row", row)
        }
    }
}

/// The room past the row, in which later calls must fit.
fn any_spare(rng: &mut Rng) -> usize {
    match rng.below(16) {
        0..=2 => 0,
        3..=6 => rng.between(1, 20),
        7 => 70_000,
        _ => rng.between(20, 600),
    }
}

/// A length that is not the row's, seldom.
fn false_length(rng: &mut Rng, length: usize, buffer: usize) -> Option<usize> {
    match rng.below(64) {
        0 => Some(buffer + rng.pick(&[1, 2, 70_000])),
        1 => Some(rng.between(0, buffer)).filter(|&other| other != length),
        2 => Some(usize::MAX),
        _ => None,
    }
}

/// How many calls a history has: mostly a few, seldom hundreds; few on a row that no
/// short one is as long as.
fn any_length(rng: &mut Rng, row: usize) -> usize {
    match rng.below(40) {
        _ if row > LIMIT => rng.between(1, 6),
        0 => rng.between(SHORT + 1, LONG),
        _ => rng.between(1, SHORT),
    }
}

/// A history of the port's calls.
pub fn compare(rng: &mut Rng) -> Compared {
    let calls = Calls {
        set: port::set,
        set_null: port::set_null,
    };
    compare_with(&calls, rng)
}

/// A history of these calls, checked after each.
pub fn compare_with(calls: &Calls, rng: &mut Rng) -> Compared {
    let of = Kinds::All.row_sort(rng);
    let types = rows::any_types(rng, Kinds::All, of);
    let (start, row) = any_start(rng, &types, of);
    let (schema_sort, schema) = rows::any_schema_for(rng, &types, Kinds::All, of);
    let spare = any_spare(rng);
    let mut buffer = rng.bytes(row.len() + spare);
    buffer[..row.len()].copy_from_slice(&row);
    let mut length = row.len();
    // Whether the sheet tells what the calls leave.
    let told = start == FRESH && schema == write_schema(&types);
    let mut sheet = Sheet::of_nulls(types.len(), of);
    let mut sorts = BTreeMap::from([(schema_sort, 1), (format!("history {start}"), 1)]);
    let mut count = |sort: String| *sorts.entry(sort).or_default() += 1;
    chars_sorts(&schema, None).for_each(&mut count);
    rows::long_sort(&row).into_iter().for_each(&mut count);
    let calls_made = any_length(rng, row.len());
    let long = calls_made > SHORT;
    if long {
        count(format!("history of {} to {LONG} calls", SHORT + 1));
    }
    let history = history_of(rng, &types, of, calls_made);
    for call in &Kinds::All.calls(rng, history) {
        let stated = false_length(rng, length, row.len() + spare);
        let lent = Lent {
            schema: &schema,
            buffer: &buffer,
            row_length: stated.unwrap_or(length),
            call,
        };
        let (port, difference) = lent.compare(calls);
        let number = port.answer.number;
        let name = match call {
            Call::Set { .. } => "set",
            Call::SetNull { .. } => "set null",
        };
        count(format!("{name}: answer {number}"));
        count(format!("{name}: {}", lent.judge(number)));
        if let Some(shown) = lent.shown(port.answer) {
            count(format!("{name}: {}", shown.name()));
        }
        if long {
            let accepted = if number == 0 { "accepted" } else { "refused" };
            count(format!("call of a long history, {accepted}"));
        }
        if difference.is_some() {
            let sorts = sorts.into_iter().collect();
            return Compared { sorts, difference };
        }
        // A call with another length than the row's is not of the history.
        if number == 0 && stated.is_none() {
            length = port.answer.length;
            buffer = port.output;
            if told {
                sheet.accept(call);
            }
        }
    }
    let mut difference = None;
    if told {
        count("what a history leaves".into());
        if of == RowSort::Long {
            count("what a history of a long row leaves".into());
        }
        let mut left = buffer[..length].to_vec();
        zero_null_slots(&types, &mut left);
        let list = sheet.list();
        let input = || format!("schema {}, last accepted {list:?}", hex(&schema));
        let columns = RustColumns::of(&types);
        let by_rust = columns
            .filter(|_| of == RowSort::Short)
            .map(|columns| expected::build(&columns, &list));
        difference = apart_from_rust(&Ok(left.clone()), &by_rust, input);
        let model = written(&vec![0; length], |out| {
            let (list, text) = (&list.bytes, &list.text);
            model::build(&schema, model_sort(of), list, text, out, &mut [0; 256])
        });
        let left = Ok(left);
        difference = difference.or_else(|| apart("model", &left, &handed(&model), input));
        let built = called(
            &vec![0; length],
            [&schema, &list.bytes, &list.text],
            |[schema, list, text], out| {
                let is_long = port::is_long(model_sort(of));
                port::build(schema, is_long, list, text, out, &mut [0; 256])
            },
        );
        difference = difference.or_else(|| apart("port", &left, &handed(&built), input));
    }
    let sorts = sorts.into_iter().collect();
    Compared { sorts, difference }
}

#[cfg(test)]
mod tests {
    use super::{Calls, compare_with};
    use cases::rng::Rng;
    use std::collections::BTreeMap;

    /// The model in the port's place: it and the Rust agree, and every answer of
    /// the table occurs.
    #[test]
    fn the_judges_agree() {
        let calls = Calls {
            set: |schema, buffer, length, column, list, text| {
                model::set(schema, buffer, length, column, list, text)
            },
            set_null: |schema, buffer, length, column| {
                model::set_null(schema, buffer, length, column)
            },
        };
        let mut seen = BTreeMap::new();
        for case in 0..6000 {
            let compared = compare_with(&calls, &mut Rng::new(case));
            assert_eq!(compared.difference, None, "case {case}");
            for (sort, count) in compared.sorts {
                *seen.entry(sort).or_insert(0) += count;
            }
        }
        for number in [0, 1, 2, 9, 10, 11, 12, 13, 14, 15] {
            assert!(
                seen.contains_key(&format!("set: answer {number}")),
                "{number}: {seen:?}"
            );
        }
        for number in [0, 1, 2, 9, 14, 15] {
            assert!(seen.contains_key(&format!("set null: answer {number}")));
        }
    }
}
