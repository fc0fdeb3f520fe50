//! The model on columns that the Rust does not know, against the Rust with a Varchar
//! that takes every text in the place of each Varchar that counts characters, and
//! `chars` for the count: 8, 12 and 15 come in beside what it refuses.

mod common;

use cases::RowSort;
use cases::column::{ColumnType, RustColumns};
use cases::expected::{self, Refusal};
use cases::generate::kinds::Kinds;
use cases::generate::value::points;
use cases::generate::{Expected, history, list, row, schema, wanted};
use cases::history::Call;
use cases::rng::Rng;
use cases::row::is_sound;
use cases::schema::write_schema;
use cases::value::{Record, TextRange, ValueList};
use common::{FILL, NUMBER, ROOM, done, refused, small_rows};
use model::{RowAnswer, Sort};
use std::collections::BTreeMap;

/// Columns with one or more that count characters, and the same as the Rust is given
/// them.
struct Columns {
    types: Vec<ColumnType>,
    wide: Vec<ColumnType>,
}

impl Columns {
    fn any(rng: &mut Rng) -> Self {
        loop {
            let types = match rng.below(2) {
                0 => {
                    let columns = rng.between(1, 4);
                    schema::types(rng, columns)
                }
                _ => schema::any_types(rng),
            };
            let columns = Self::of(Kinds::All.types(rng, types));
            if columns.wide != columns.types {
                return columns;
            }
        }
    }

    fn of(types: Vec<ColumnType>) -> Self {
        let wide = types.iter().map(|ty| match ty {
            ColumnType::VarcharChars(_) => ColumnType::Varchar(u16::MAX),
            ty => ty.clone(),
        });
        let wide = wide.collect();
        Columns { types, wide }
    }

    fn rust(&self) -> RustColumns<'_> {
        RustColumns::of(&self.wide).expect("columns of the Rust")
    }

    /// Whether a text has more characters than the column counts.
    fn is_over(&self, column: usize, text: &[u8]) -> bool {
        match self.types[column] {
            ColumnType::VarcharChars(n) => points(text).is_some_and(|points| points > n.into()),
            _ => false,
        }
    }

    /// Whether a column of a row reads with more characters than it counts.
    fn reads_over(&self, row: &[u8], column: usize) -> bool {
        let text = expected::text(&self.rust(), row, column);
        text.is_ok_and(|range| self.is_over(column, &row[range.start..range.end()]))
    }
}

type Read = (Vec<u8>, Vec<u32>);

/// What a read must give: the first bad column decides.
fn wanted_read(columns: &Columns, row: &[u8], wanted: &[u16]) -> Result<Read, Refusal> {
    let rust = columns.rust();
    let read = expected::read(&rust, row, wanted);
    let first = match read {
        Err(Refusal::Number(7 | 8, column)) => column,
        Ok(_) => columns.types.len(),
        Err(refusal) => return Err(refusal),
    };
    let over = |&column: &usize| {
        wanted.contains(&(column as u16))
            && columns.types[column].is_variable_length()
            && columns.reads_over(row, column)
    };
    if let Some(column) = (0..first).find(over) {
        return Err(Refusal::Number(8, column));
    }
    let values = read?;
    let list = expected::list(&rust, row, &values);
    Ok((list, expected::points(&rust, row, &values)))
}

fn compare_read(columns: &Columns, row: &[u8], wanted: &[u16]) -> u32 {
    let schema = write_schema(&columns.types);
    let mut counts = vec![NUMBER; columns.types.len()];
    let room = 18 * columns.types.len();
    let (answer, list) = common::with_output(room, |out| {
        model::read(&schema, row, wanted, out, &mut counts)
    });
    let told = match answer.number {
        0 => Ok((list, counts)),
        number => Err(Refusal::of((number, answer.place))),
    };
    let asked = wanted_read(columns, row, wanted);
    assert_eq!(told, asked, "{:?} {row:X?} {wanted:?}", columns.types);
    answer.number
}

/// A row of any sort that is short.
fn any_short_row(rng: &mut Rng, types: &[ColumnType]) -> Vec<u8> {
    loop {
        let row = row::any_row(rng, types).1;
        if RowSort::of_row(&row) == RowSort::Short {
            return row;
        }
    }
}

fn read(rng: &mut Rng, seen: &mut BTreeMap<String, usize>) {
    let columns = Columns::any(rng);
    let row = any_short_row(rng, &columns.types);
    let wanted = wanted::any_wanted(rng, columns.types.len()).1;
    let number = compare_read(&columns, &row, &wanted);
    *seen.entry(format!("read {number}")).or_default() += 1;
}

/// What a build must give.
fn wanted_build(columns: &Columns, list: &ValueList) -> Result<Vec<u8>, (u32, usize)> {
    let built = expected::build(&columns.rust(), list);
    let first = match built {
        Err((11 | 12, column)) => column,
        Ok(_) | Err((13, _)) => columns.types.len(),
        Err(refusal) => return Err(refusal),
    };
    let records = list.records(columns.types.len()).expect("a good list");
    let over = |&column: &usize| {
        let range = records[column].range();
        let text = range.and_then(|range| range.of(&list.text));
        text.is_some_and(|text| columns.is_over(column, text))
    };
    match (0..first).find(over) {
        Some(column) => Err((12, column)),
        None => built,
    }
}

fn build(rng: &mut Rng, seen: &mut BTreeMap<String, usize>) {
    let columns = Columns::any(rng);
    let (sort, list) = list::any_list(rng, &columns.types);
    let schema = write_schema(&columns.types);
    let (answer, row) = common::build_in(&schema, &list.values.bytes, &list.values.text, ROOM);
    let told = match answer.number {
        0 => Ok(row),
        number => Err((number, answer.place)),
    };
    let asked = wanted_build(&columns, &list.values);
    assert_eq!(told, asked, "{:?} {:?}", columns.types, list.values);
    match list.expected {
        Expected::Accepted => assert_eq!(answer.number, 0, "{sort:?}"),
        Expected::Refused(refusal) => {
            assert_eq!(told, Err((refusal.number, refusal.place)), "{sort:?}");
        }
        Expected::Unknown => {}
    }
    *seen.entry(format!("build {}", answer.number)).or_default() += 1;
}

/// What an edit must give.
fn wanted_edit(columns: &Columns, row: &[u8], call: &Call) -> Result<Vec<u8>, (u32, usize)> {
    let rust = columns.rust();
    let mut all = 0..columns.types.len();
    let over = |column: usize| {
        columns.types[column].is_variable_length() && columns.reads_over(row, column)
    };
    if !is_sound(&rust, row) || all.any(over) {
        return Err((15, 0));
    }
    let edited = expected::edit(&rust, row, call);
    match (call, &edited) {
        (Call::Set { column, values }, Ok(_) | Err((13, _))) => {
            let range = values.records(1).expect("a good list")[0].range();
            let text = range.and_then(|range| range.of(&values.text));
            match text.is_some_and(|text| columns.is_over(*column, text)) {
                true => Err((12, *column)),
                false => edited,
            }
        }
        _ => edited,
    }
}

fn model_edit(schema: &[u8], buffer: &mut [u8], length: usize, call: &Call) -> RowAnswer {
    match call {
        Call::SetNull { column } => model::set_null(schema, buffer, length, *column),
        Call::Set { column, values } => {
            let (list, text) = (&values.bytes, &values.text);
            model::set(schema, buffer, length, *column, list, text)
        }
    }
}

/// The number of an edit's answer, and the row that it leaves.
fn compare_edit(columns: &Columns, row: &[u8], call: &Call, room: usize) -> (u32, Vec<u8>) {
    let mut before = row.to_vec();
    before.resize(room.max(row.len()), FILL);
    let mut buffer = before.clone();
    let answer = model_edit(&write_schema(&columns.types), &mut buffer, row.len(), call);
    let asked = wanted_edit(columns, row, call);
    let (wanted, after) = match asked {
        Ok(after) => (done(after.len()), after),
        Err((number, place)) => (refused(number, place, row.len()), row.to_vec()),
    };
    let input = || format!("{:?} {row:X?} {call:?}", columns.types);
    assert_eq!(answer, wanted, "{}", input());
    assert!(buffer[..after.len()] == after, "{}", input());
    assert!(buffer[after.len()..] == before[after.len()..]);
    (answer.number, after)
}

/// A history from a sound row, or an edit of any row.
fn edit(rng: &mut Rng, seen: &mut BTreeMap<String, usize>) {
    let columns = Columns::any(rng);
    let types = &columns.types;
    let (mut row, calls) = match rng.below(3) {
        0 => (any_short_row(rng, types), 1),
        _ => (row::sound_row(rng, types), rng.between(1, 8)),
    };
    for call in history::history(rng, types, calls) {
        let (number, after) = compare_edit(&columns, &row, &call, ROOM);
        *seen.entry(format!("edit {number}")).or_default() += 1;
        row = after;
    }
}

#[test]
fn as_a_varchar_of_every_text_with_chars_counted() {
    let mut seen = BTreeMap::new();
    let mut rng = Rng::new(1);
    for _ in 0..3000 {
        read(&mut rng, &mut seen);
        build(&mut rng, &mut seen);
        edit(&mut rng, &mut seen);
    }
    let met = |call: &str| -> Vec<u32> {
        let numbers = seen.keys().filter_map(|key| key.strip_prefix(call));
        let mut numbers: Vec<u32> = numbers.map(|number| number.parse().unwrap()).collect();
        numbers.sort_unstable();
        numbers
    };
    assert_eq!(met("read "), [0, 3, 4, 5, 6, 7, 8]);
    assert_eq!(met("build "), [0, 10, 11, 12, 13]);
    assert_eq!(met("edit "), [0, 9, 10, 11, 12, 13, 15]);
}

/// Reads and edits of all small rows with a letter and the two bytes of another.
#[test]
fn all_small_rows() {
    let chars = ColumnType::VarcharChars;
    let bytes = ColumnType::Varchar;
    for (types, past) in [
        (vec![chars(0)], 3),
        (vec![chars(1)], 4),
        (vec![chars(2)], 4),
        (vec![chars(1), bytes(1)], 2),
        (vec![bytes(1), chars(1)], 2),
    ] {
        let columns = Columns::of(types);
        let count = columns.types.len();
        let all: Vec<u16> = (0..count as u16).collect();
        let mut calls = Vec::new();
        for column in 0..count {
            calls.push(Call::SetNull { column });
            for text in [
                &b""[..],
                b"B",
                b"BC",
                "é".as_bytes(),
                "éB".as_bytes(),
                b"\xC3",
            ] {
                let length = text.len();
                let record = Record::Varchar(TextRange { start: 0, length });
                let values = ValueList::of_records(&[record], text.to_vec());
                calls.push(Call::Set { column, values });
            }
        }
        for row in small_rows(count, count, &[b'A', 0xC3, 0xA9], past) {
            compare_read(&columns, &row, &all);
            compare_read(&columns, &row, &all[count - 1..]);
            for call in &calls {
                compare_edit(&columns, &row, call, row.len() + 8);
            }
        }
    }
}

/// Rows of the sorts that must be sound are.
#[test]
fn sound_rows_are_sound() {
    let mut rng = Rng::new(2);
    for _ in 0..1500 {
        let types = Columns::any(&mut rng).types;
        let own = model::schema::check(&write_schema(&types), Sort::Short).expect("a good schema");
        for sort in row::Sort::SOUND {
            if let Some(row) = row::row(&mut rng, &types, sort) {
                assert!(
                    model::edit::sound(&own, &row),
                    "{sort:?} {types:?} {row:X?}"
                );
            }
        }
        if let Some(row) = row::row(&mut rng, &types, row::Sort::Payload) {
            let read = model::read::all_columns(&own, &row);
            assert!(matches!(read, Err((8, _))), "{types:?} {row:X?}");
        }
    }
}
