//! The model compared with the Rust on generated inputs, each call by what the
//! Rust makes of the same input; errors by variant, as in the third column of
//! 01's table. Where 01 leaves the Rust's domain, what 01 says stands instead.
//!
//! A few seconds run with the other tests. For longer, with counts, from a case
//! if one is given:
//! MODEL_SECONDS=60 MODEL_SEED=2 [MODEL_CASE=0] cargo test --release -p model
//! --test original -- --ignored --nocapture

mod common;

use cases::RowSort;
use cases::column::{ColumnType, RustColumns, to_rust_types};
use cases::expected::{self, Refusal};
use cases::generate::{Expected, history, list, pair, row, schema, text, wanted};
use cases::history::{Answer, Call, replay};
use cases::layout::Layout;
use cases::rng::Rng;
use cases::row::zero_null_slots;
use cases::rust;
use cases::schema::{read_schema, write_schema};
use cases::value::ValueList;
use common::{FILL, NUMBER, ROOM};
use model::{RowAnswer, Sort};
use rookdb::types::value::DataValue;
use std::collections::BTreeMap;
use std::fmt::Debug;
use std::time::{Duration, Instant};

/// How many comparisons of a call came to which number. For fresh, build and the
/// reads, 14 is the call run again with a byte too little room.
type Counts = BTreeMap<(&'static str, u32), u64>;

/// A comparison: the call's name, and one case of it. A case gives the numbers
/// that the model answered, or tells the difference.
type Comparison = (&'static str, fn(&mut Rng) -> Result<Vec<u32>, String>);

const ALL: [Comparison; 10] = [
    ("text check", text_check),
    ("schema", schema_check),
    ("fresh", fresh),
    ("build", build),
    ("read", read),
    ("stored forms", stored_forms),
    ("set and set null", edit),
    ("history", whole_history),
    ("null flag", null_flag),
    ("text and same content", text_and_same),
];

/// Runs a case by its number.
fn run(seed: u64, number: u64, counts: &mut Counts) -> Result<(), String> {
    let (call, compare) = ALL[(number % ALL.len() as u64) as usize];
    let mut rng = Rng::new(seed ^ number.wrapping_mul(0xD1B5_4A32_D192_ED03));
    // A panic of the model, or of what is expected, is told like a difference.
    let numbers = rust::guarded(|| compare(&mut rng))
        .and_then(|compared| compared)
        .map_err(|told| format!("{call}, seed {seed}, case {number}\n{told}"))?;
    for number in numbers {
        *counts.entry((call, number)).or_default() += 1;
    }
    Ok(())
}

#[test]
fn the_same_answers() {
    let mut counts = Counts::new();
    for number in 0..10_000 {
        if let Err(told) = run(1, number, &mut counts) {
            panic!("{told}");
        }
    }
    // Every number that a call may give was met.
    let met = |call: &str| -> Vec<u32> {
        let of_call = counts.keys().filter(|(name, _)| *name == call);
        of_call.map(|&(_, number)| number).collect()
    };
    assert_eq!(met("schema"), [0, 1, 2]);
    assert_eq!(met("build"), [0, 10, 11, 12, 13, 14]);
    assert_eq!(met("read"), [0, 3, 4, 5, 6, 7, 8, 14]);
    assert_eq!(met("stored forms"), [0, 8, 14]);
    assert_eq!(met("set and set null"), [0, 9, 10, 11, 12, 13, 14, 15]);
    assert_eq!(met("null flag"), [0, 3, 4, 9]);
}

#[test]
#[ignore = "runs for as long as it is told"]
fn for_a_time() {
    let number_of = |name: &str, other: u64| match std::env::var(name) {
        Ok(text) => text.parse().expect("a number"),
        Err(_) => other,
    };
    let seed = number_of("MODEL_SEED", 1);
    let end = Instant::now() + Duration::from_secs(number_of("MODEL_SECONDS", 30));
    let mut counts = Counts::new();
    let mut differences = Vec::new();
    let mut number = number_of("MODEL_CASE", 0);
    while Instant::now() < end && differences.len() < 10 {
        differences.extend(run(seed, number, &mut counts).err());
        number += 1;
    }
    for ((call, answer), count) in &counts {
        println!("{count:>10}  {call}: {answer}");
    }
    let compared: u64 = counts.values().sum();
    println!("{compared:>10}  comparisons in {number} cases with seed {seed}");
    assert!(differences.is_empty(), "{}", differences.join("\n"));
}

fn hex(bytes: &[u8]) -> String {
    let shown: String = bytes
        .iter()
        .take(200)
        .map(|b| format!("{b:02X} "))
        .collect();
    format!("{} bytes {shown}", bytes.len())
}

/// Nothing, or the two told apart.
fn same<T: PartialEq + Debug>(
    model: T,
    wanted: T,
    input: impl FnOnce() -> String,
) -> Result<(), String> {
    if model == wanted {
        return Ok(());
    }
    Err(format!(
        "  input  {}\n  model  {model:?}\n  wanted {wanted:?}",
        input()
    ))
}

/// Columns of a good schema: often one to three, so that little hides a fault.
fn any_types(rng: &mut Rng) -> Vec<ColumnType> {
    match rng.below(2) {
        0 => {
            let columns = rng.between(1, 3);
            schema::types(rng, columns)
        }
        _ => schema::any_types(rng),
    }
}

fn text_check(rng: &mut Rng) -> Result<Vec<u32>, String> {
    let length = rng.between(0, 12);
    let fault = rng.pick(&text::Fault::ALL);
    let bytes = match rng.below(4) {
        0 => text::any_valid(rng, length),
        1 => rng.bytes(length),
        _ => text::invalid(rng, fault, length).unwrap_or_default(),
    };
    let text = std::str::from_utf8(&bytes).ok();
    let wanted = model::CheckAnswer {
        valid: u32::from(text.is_some()),
        points: text.map_or(0, |text| text.chars().count()),
    };
    same(model::text_check(&bytes), wanted, || hex(&bytes))?;
    Ok(vec![wanted.valid])
}

fn schema_check(rng: &mut Rng) -> Result<Vec<u32>, String> {
    let (_, schema) = schema::any_schema(rng);
    let model = model::schema::check(&schema.bytes, Sort::Short).map(|types| types.len());
    let wanted = read_schema(&schema.bytes);
    let wanted = wanted
        .map(|types| types.len())
        .map_err(|refusal| (refusal.number, refusal.place));
    same(model, wanted, || hex(&schema.bytes))?;
    match schema.expected {
        Expected::Accepted => same(model.is_ok(), true, || hex(&schema.bytes))?,
        Expected::Refused(refusal) => {
            let refusal = (refusal.number, refusal.place);
            same(model, Err(refusal), || hex(&schema.bytes))?;
        }
        Expected::Unknown => {}
    }
    Ok(vec![model.err().map_or(0, |(number, _)| number)])
}

/// Runs a call with much room, with just enough and with a byte too little; the
/// answer with much room and its result.
fn with_rooms(
    mut call: impl FnMut(&mut [u8]) -> RowAnswer,
    numbers: &mut Vec<u32>,
) -> (RowAnswer, Vec<u8>) {
    let (answer, result) = common::with_output(ROOM, &mut call);
    numbers.push(answer.number);
    let exact = common::with_output(result.len(), &mut call);
    assert_eq!(exact, (answer, result.clone()));
    if let (0, Some(short)) = (answer.number, result.len().checked_sub(1)) {
        let (answer, _) = common::with_output(short, &mut call);
        assert_eq!(answer, common::refused(14, 0, 0));
        numbers.push(14);
    }
    (answer, result)
}

/// The result, or the refusal with length 0.
fn result_of(answer: RowAnswer, result: Vec<u8>) -> Result<Vec<u8>, (u32, usize)> {
    if answer.number == 0 {
        return Ok(result);
    }
    assert_eq!(answer.length, 0);
    Err((answer.number, answer.place))
}

fn fresh(rng: &mut Rng) -> Result<Vec<u32>, String> {
    let types = any_types(rng);
    let bytes = write_schema(&types);
    let mut numbers = Vec::new();
    let (answer, row) = with_rooms(|out| model::fresh(&bytes, Sort::Short, out), &mut numbers);
    let rust_types = to_rust_types(&types).unwrap();
    let wanted = rust::fresh(&rust_types).ok().ok_or((0, 0));
    same(result_of(answer, row), wanted, || format!("{types:?}"))?;
    Ok(numbers)
}

fn build(rng: &mut Rng) -> Result<Vec<u32>, String> {
    let types = any_types(rng);
    let (sort, list) = list::any_list(rng, &types);
    let bytes = write_schema(&types);
    let values = &list.values;
    let mut counts = vec![NUMBER; types.len()];
    let call = |out: &mut [u8]| {
        model::build(
            &bytes,
            Sort::Short,
            &values.bytes,
            &values.text,
            out,
            &mut counts,
        )
    };
    let mut numbers = Vec::new();
    let (answer, row) = with_rooms(call, &mut numbers);
    let input = || {
        let (list, text) = (hex(&values.bytes), hex(&values.text));
        format!("{sort:?} {types:?}\n  list {list}\n  text {text}")
    };
    let model = result_of(answer, row);
    let columns = RustColumns::of(&types).unwrap();
    same(&model, &expected::build(&columns, values), input)?;
    if let Ok(row) = &model {
        same(counts, expected::built_points(&columns, row), input)?;
    }
    if let Expected::Refused(refusal) = list.expected {
        same(&model, &Err((refusal.number, refusal.place)), input)?;
    }
    Ok(numbers)
}

/// A row of any sort that is short: of those whose damage makes them long ones the Rust
/// says but that it does not take them, by their Varchar count.
fn any_short_row(rng: &mut Rng, types: &[ColumnType]) -> (row::Sort, Vec<u8>) {
    loop {
        let (sort, row) = row::any_row(rng, types);
        if RowSort::of_row(&row) == RowSort::Short {
            return (sort, row);
        }
        let columns = to_rust_types(types).unwrap();
        assert_eq!(rust::read(&columns, &row, &[]), rust::Outcome::Internal);
    }
}

fn read(rng: &mut Rng) -> Result<Vec<u32>, String> {
    let types = any_types(rng);
    let (sort, row) = any_short_row(rng, &types);
    let (_, wanted) = wanted::any_wanted(rng, types.len());
    read_of(&types, &row, &wanted, sort)
}

/// A read of one fixed column whose slot is at an edge of its type or past it.
fn stored_forms(rng: &mut Rng) -> Result<Vec<u32>, String> {
    let precision = rng.between(1, 38) as u8;
    let precision = rng.pick(&[precision, 31, 32, 33, 34]);
    let scale = rng.between(0, precision.into()) as u8;
    let ty = match rng.below(8) {
        0..=2 => ColumnType::Time,
        3..=5 => ColumnType::Numeric { precision, scale },
        _ => schema::any_type(rng, 20),
    };
    let types = match ty.is_variable_length() {
        true => vec![ColumnType::Decimal { precision, scale }],
        false => vec![ty],
    };
    let mut numbers = Vec::new();
    for _ in 0..10 {
        let row = row::row(rng, &types, row::Sort::Stored).expect("a fixed column");
        numbers.extend(read_of(&types, &row, &[0], row::Sort::Stored)?);
    }
    Ok(numbers)
}

fn read_of(
    types: &[ColumnType],
    row: &[u8],
    wanted: &[u16],
    sort: row::Sort,
) -> Result<Vec<u32>, String> {
    let bytes = write_schema(types);
    let mut numbers = Vec::new();
    let mut counts = vec![NUMBER; types.len()];
    let call = |out: &mut [u8]| model::read(&bytes, row, wanted, out, &mut counts);
    let (answer, list) = with_rooms(call, &mut numbers);
    let input = || {
        format!(
            "{sort:?} {types:?}\n  row {}\n  wanted {wanted:?}",
            hex(row)
        )
    };
    let columns = RustColumns::of(types).unwrap();
    let wanted = expected::read(&columns, row, wanted);
    match (result_of(answer, list), wanted) {
        (Ok(list), Ok(values)) => {
            same(list, expected::list(&columns, row, &values), input)?;
            same(counts, expected::points(&columns, row, &values), input)?;
        }
        (model, wanted) => {
            let model = model.map(|_| ()).map_err(Refusal::of);
            same(model, wanted.map(|_| ()), input)?;
        }
    }
    Ok(numbers)
}

/// An edit on a row, sound or not, in a buffer with more or less room.
fn edit(rng: &mut Rng) -> Result<Vec<u32>, String> {
    let types = any_types(rng);
    let (sort, row) = match rng.below(4) {
        0 => any_short_row(rng, &types),
        _ => (row::Sort::Built, row::sound_row(rng, &types)),
    };
    let call = any_call(rng, &types);
    let mut room = row.len() + rng.pick(&[0, 1, 2, 10, 300, 70_000]);
    let mut stated = row.len();
    if rng.one_in(32) {
        stated = rng.pick(&[room + 1, usize::MAX]);
        room = row.len();
    }
    let wanted = if stated > room {
        Err((14, 0))
    } else {
        expected::edit(&RustColumns::of(&types).unwrap(), &row, &call)
    };
    let wanted = wanted.and_then(|row| {
        let fits = row.len() <= room;
        fits.then_some(row).ok_or((14, 0))
    });
    let mut before = row.clone();
    before.resize(room, FILL);
    let mut buf = before.clone();
    let answer = model_edit(&write_schema(&types), &mut buf, stated, &call);
    // The row, then the bytes as before; all as before after a refusal.
    let mut after = before;
    let answered = match &wanted {
        Ok(row) => {
            after[..row.len()].copy_from_slice(row);
            common::done(row.len())
        }
        Err((number, place)) => common::refused(*number, *place, stated),
    };
    let input = || format!("{sort:?} {types:?}\n  row {}\n  {call:?}", hex(&row));
    same(answer, answered, input)?;
    same(buf == after, true, input)?;
    Ok(vec![answer.number])
}

fn any_call(rng: &mut Rng, types: &[ColumnType]) -> Call {
    loop {
        let sort = match rng.below(4) {
            0 => history::Sort::Set(list::Sort::Values),
            1 => history::Sort::SetNull,
            _ => rng.pick(&history::Sort::ALL),
        };
        let sort = if types.is_empty() {
            history::Sort::Column
        } else {
            sort
        };
        if let Some(call) = history::call(rng, types, sort) {
            return call;
        }
    }
}

fn model_edit(schema: &[u8], buf: &mut [u8], length: usize, call: &Call) -> RowAnswer {
    match call {
        Call::Set { column, values } => {
            model::set(schema, buf, length, *column, &values.bytes, &values.text)
        }
        Call::SetNull { column } => model::set_null(schema, buf, length, *column),
    }
}

/// A history in one buffer, against the Rust's; then the builder's row of the
/// last accepted values, which is the row with null slots zeroed.
fn whole_history(rng: &mut Rng) -> Result<Vec<u32>, String> {
    let mut types = any_types(rng);
    if types.is_empty() {
        types.push(ColumnType::Varchar(9));
    }
    let length = rng.between(1, 12);
    let calls = history::history(rng, &types, length);
    let wanted = replay(&RustColumns::of(&types).unwrap(), &calls);
    let bytes = write_schema(&types);
    let mut buf = vec![FILL; ROOM];
    let mut length = model::fresh(&bytes, Sort::Short, &mut buf).length;
    let mut numbers = Vec::new();
    let input = || format!("{types:?}\n  {calls:?}");
    for (call, wanted) in calls.iter().zip(&wanted.answers) {
        let answer = model_edit(&bytes, &mut buf, length, call);
        let agrees = match wanted {
            Answer::Accepted => answer.number == 0,
            Answer::Internal => matches!(answer.number, 9 | 11),
            Answer::TypeMismatch => answer.number == 12,
            Answer::Added(number) => answer.number == *number,
        };
        same(agrees, true, || {
            format!("{}\n  {answer:?} {wanted:?}", input())
        })?;
        length = answer.length;
        numbers.push(answer.number);
    }
    let mut row = buf[..length].to_vec();
    same(&row, &wanted.row, input)?;
    zero_null_slots(&types, &mut row);
    if let Some(list) = ValueList::of_rust(&wanted.sheet) {
        let (answer, built) = common::build_in(&bytes, &list.bytes, &list.text, ROOM);
        same((answer.number, &built), (0, &row), input)?;
    }
    let payloads = wanted.sheet.iter().map(|value| match value {
        Some(DataValue::Varchar(text)) => text.len(),
        _ => 0,
    });
    let whole = Layout::packed(&types).minimum + payloads.sum::<usize>();
    same(row.len(), whole, input)?;
    Ok(numbers)
}

fn null_flag(rng: &mut Rng) -> Result<Vec<u32>, String> {
    let types = any_types(rng);
    let (sort, mut row) = row::any_row(rng, &types);
    if rng.one_in(4) {
        row.truncate(rng.between(0, 12));
    }
    let column = match rng.below(2) {
        0 => rng.below(20),
        _ => row::any_column(rng, types.len()),
    };
    let answer = model::is_null(&row, column);
    let input = || format!("{sort:?} column {column} of {}", hex(&row));
    let wanted = expected::null_flag(&row, column);
    match answer.number {
        0 => same(Ok(answer.flag == 1), wanted, input)?,
        number => {
            same((answer.place, answer.flag), (0, 0), input)?;
            same(Err(Refusal::of((number, 0))), wanted, input)?;
        }
    }
    Ok(vec![answer.number])
}

/// The text of a column, and the content of two rows, from what the Rust reads.
fn text_and_same(rng: &mut Rng) -> Result<Vec<u32>, String> {
    let types = any_types(rng);
    let bytes = write_schema(&types);
    let (sort, a) = any_short_row(rng, &types);
    let column = row::any_column(rng, types.len());
    let answer = model::text(&bytes, &a, column);
    let input = || format!("{sort:?} {types:?}\n  row {}\n  column {column}", hex(&a));
    let model = match answer.number {
        0 => Ok((answer.start, answer.length)),
        number => Err(Refusal::of((number, answer.place))),
    };
    let columns = RustColumns::of(&types).unwrap();
    let wanted = expected::text(&columns, &a, column);
    let wanted = wanted.map(|range| (range.start, range.length));
    same(model, wanted, input)?;
    let mut numbers = vec![answer.number];

    let (_, (a, b)) = pair::any_pair(rng, &types);
    if [&a, &b]
        .iter()
        .any(|row| RowSort::of_row(row) == RowSort::Long)
    {
        return Ok(numbers);
    }
    let answer = model::same_content(&bytes, &a, &b);
    let model = match answer.number {
        0 => Ok(answer.flag == 1),
        number => Err(Refusal::of((number, answer.place))),
    };
    let both = || format!("{types:?}\n  a {}\n  b {}", hex(&a), hex(&b));
    same(model, expected::same_content(&columns, &a, &b), both)?;
    numbers.push(answer.number);
    Ok(numbers)
}
