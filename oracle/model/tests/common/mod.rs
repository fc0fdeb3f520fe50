//! Short ways to write schemas, value lists and rows as bytes.
#![allow(dead_code)]

use model::schema::Type;
use model::value::{self, Range, Value};
use model::{FlagAnswer, RowAnswer, Sort, TextAnswer};

/// The limit of short rows.
pub const LIMIT: usize = 65_535;

/// Bytes written in hexadecimal, blanks between them as you like.
pub fn hex(digits: &str) -> Vec<u8> {
    let digits: String = digits.split_whitespace().collect();
    (0..digits.len())
        .step_by(2)
        .map(|at| u8::from_str_radix(&digits[at..at + 2], 16).expect("a byte"))
        .collect()
}

/// The schema bytes of these columns.
pub fn schema(types: &[Type]) -> Vec<u8> {
    types.iter().flat_map(|&ty| record(ty)).collect()
}

fn record(ty: Type) -> Vec<u8> {
    let with = |kind: u8, n: usize| vec![kind, (n % 256) as u8, (n / 256) as u8];
    match ty {
        Type::SmallInt => vec![1],
        Type::Int => vec![2],
        Type::BigInt => vec![3],
        Type::Real => vec![4],
        Type::DoublePrecision => vec![5],
        Type::Numeric { precision, scale } => vec![6, precision, scale],
        Type::Decimal { precision, scale } => vec![7, precision, scale],
        Type::Bool => vec![8],
        Type::Char(n) => with(9, n),
        Type::Character(n) => with(10, n),
        Type::Varchar(n) => with(11, n),
        Type::Date => vec![12],
        Type::Time => vec![13],
        Type::Bit(n) => with(14, n),
        Type::Timestamp => vec![15],
        Type::VarcharChars(n) => with(16, n),
    }
}

/// S of 01: Int, Varchar(5), SmallInt.
pub fn s() -> Vec<u8> {
    schema(&[Type::Int, Type::Varchar(5), Type::SmallInt])
}

/// Row 2 of 01: S of 1, "AB", null.
pub fn row_2() -> Vec<u8> {
    hex("03 00 01 80 04 0D 00 01 00 00 00 00 00 41 42")
}

pub fn range(start: usize, length: usize) -> Range {
    Range { start, length }
}

pub fn numeric(unscaled: i128, scale: u8) -> Value {
    Value::Numeric { unscaled, scale }
}

/// What fills outputs before a call.
pub const FILL: u8 = 0xEE;

/// More room than any result takes.
pub const ROOM: usize = 70_000;

pub fn done(length: usize) -> RowAnswer {
    refused(0, 0, length)
}

pub fn refused(number: u32, place: usize, length: usize) -> RowAnswer {
    RowAnswer {
        number,
        place,
        length,
    }
}

pub fn flag(number: u32, place: usize, flag: usize) -> FlagAnswer {
    FlagAnswer {
        number,
        place,
        flag,
    }
}

pub fn part(number: u32, place: usize, start: usize, length: usize) -> TextAnswer {
    TextAnswer {
        number,
        place,
        start,
        length,
    }
}

/// Runs a call on an output of this room. Nothing past the result is changed,
/// nothing at all after a refusal; the answer, and the result.
pub fn with_output(room: usize, call: impl FnOnce(&mut [u8]) -> RowAnswer) -> (RowAnswer, Vec<u8>) {
    let mut out = vec![FILL; room];
    let answer = call(&mut out);
    assert!(out[answer.length..].iter().all(|&byte| byte == FILL));
    out.truncate(answer.length);
    (answer, out)
}

/// What is in a lent list of numbers before a call.
pub const NUMBER: u32 = 0xA5A5_A5A5;

/// Runs a call on an output of this room and a list of so many numbers, which is
/// handed back whole. A refusal leaves it as it was.
pub fn with_counts(
    room: usize,
    numbers: usize,
    call: impl FnOnce(&mut [u8], &mut [u32]) -> RowAnswer,
) -> (RowAnswer, Vec<u8>, Vec<u32>) {
    let mut counts = vec![NUMBER; numbers];
    let (answer, result) = with_output(room, |out| call(out, &mut counts));
    if answer.number != 0 {
        assert!(counts.iter().all(|&count| count == NUMBER));
    }
    (answer, result, counts)
}

/// As many numbers as the columns of any schema.
pub const NUMBERS: usize = 256;

pub fn fresh(schema: &[u8], room: usize) -> (RowAnswer, Vec<u8>) {
    fresh_of(Sort::Short, schema, room)
}

pub fn fresh_of(sort: Sort, schema: &[u8], room: usize) -> (RowAnswer, Vec<u8>) {
    with_output(room, |out| model::fresh(schema, sort, out))
}

pub fn build_in(schema: &[u8], list: &[u8], text: &[u8], room: usize) -> (RowAnswer, Vec<u8>) {
    build_of(Sort::Short, schema, list, text, room)
}

pub fn build_of(
    sort: Sort,
    schema: &[u8],
    list: &[u8],
    text: &[u8],
    room: usize,
) -> (RowAnswer, Vec<u8>) {
    let (answer, row, _) = with_counts(room, NUMBERS, |out, counts| {
        model::build(schema, sort, list, text, out, counts)
    });
    (answer, row)
}

pub fn build(schema: &[u8], values: &[Value], text: &[u8]) -> (RowAnswer, Vec<u8>) {
    build_in(schema, &value::list(values, Sort::Short), text, ROOM)
}

/// A row that the build must give.
pub fn built(schema: &[u8], values: &[Value], text: &[u8]) -> Vec<u8> {
    let (answer, row) = build(schema, values, text);
    assert_eq!(answer, done(row.len()));
    row
}

pub fn read_in(schema: &[u8], row: &[u8], wanted: &[u16], room: usize) -> (RowAnswer, Vec<u8>) {
    let (answer, list, _) = with_counts(room, NUMBERS, |out, counts| {
        model::read(schema, row, wanted, out, counts)
    });
    (answer, list)
}

/// A read of the first 256 columns: the answer without its length, the values.
pub fn read_all(schema: &[u8], row: &[u8]) -> Result<Vec<Value>, (u32, usize)> {
    let wanted: Vec<u16> = (0..256).collect();
    let (answer, list) = read_in(schema, row, &wanted, ROOM);
    if answer.number != 0 {
        assert_eq!(answer.length, 0);
        return Err((answer.number, answer.place));
    }
    let sort = Sort::of_row(row);
    let columns = model::schema::check(schema, sort)
        .expect("a good schema")
        .len();
    Ok(value::check_list(&list, columns, row.len(), sort).expect("a value list"))
}

/// An edit of a row in a buffer of this room. The bytes past the row that it
/// leaves are as before; the answer, and that row.
fn edit(
    row: &[u8],
    room: usize,
    call: impl FnOnce(&mut [u8]) -> RowAnswer,
) -> (RowAnswer, Vec<u8>) {
    let mut before = row.to_vec();
    before.resize(room.max(row.len()), FILL);
    let mut buf = before.clone();
    let answer = call(&mut buf);
    let length = answer.length.min(buf.len());
    assert_eq!(buf[length..], before[length..]);
    if answer.number != 0 {
        assert_eq!(buf, before);
    }
    buf.truncate(length);
    (answer, buf)
}

pub fn set_in(
    schema: &[u8],
    row: &[u8],
    room: usize,
    column: usize,
    list: &[u8],
    text: &[u8],
) -> (RowAnswer, Vec<u8>) {
    edit(row, room, |buf| {
        model::set(schema, buf, row.len(), column, list, text)
    })
}

pub fn set(
    schema: &[u8],
    row: &[u8],
    column: usize,
    value: Value,
    text: &[u8],
) -> (RowAnswer, Vec<u8>) {
    let list = value.record(Sort::of_row(row));
    set_in(schema, row, ROOM, column, &list, text)
}

pub fn set_null(schema: &[u8], row: &[u8], column: usize) -> (RowAnswer, Vec<u8>) {
    edit(row, ROOM, |buf| {
        model::set_null(schema, buf, row.len(), column)
    })
}

/// All lists of this length of these members.
pub fn lists<T: Copy>(members: &[T], length: usize) -> Vec<Vec<T>> {
    (0..length).fold(vec![vec![]], |shorter, _| {
        let longer = |list: &Vec<T>| {
            let with = |&member: &T| [&list[..], &[member]].concat();
            members.iter().map(with).collect::<Vec<_>>()
        };
        shorter.iter().flat_map(longer).collect()
    })
}

/// All rows with these counts and up to so many of these bytes past the offset table:
/// every bitmap, every offset up to past the row's end.
pub fn small_rows(columns: usize, varchars: usize, bytes: &[u8], past: usize) -> Vec<Vec<u8>> {
    let most = 5 + 2 * varchars + past;
    let offsets: Vec<u16> = (0..=most as u16 + 1).collect();
    let payloads = (0..=past).flat_map(|length| lists(bytes, length));
    let payloads: Vec<Vec<u8>> = payloads.collect();
    let mut rows = Vec::new();
    for flag in [0x80, 0] {
        for bitmap in 0..1 << columns {
            for offsets in lists(&offsets, varchars) {
                for payload in &payloads {
                    let mut row = vec![columns as u8, 0, varchars as u8, flag, bitmap];
                    row.extend(offsets.iter().flat_map(|offset| offset.to_le_bytes()));
                    row.extend(payload);
                    rows.push(row);
                }
            }
        }
    }
    rows
}
