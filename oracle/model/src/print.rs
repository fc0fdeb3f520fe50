//! The printed list of platform occupations: a row list to lines of text.

use crate::read::all_columns;
use crate::schema::Type;
use crate::stored::text_of;
use crate::value::Value;
use crate::{Refusal, RowAnswer, calendar, put, row_list};
use std::cmp::Ordering;

/// Platform, unit, arrival, departure.
pub const COLUMNS: [Type; 4] = [
    Type::Varchar(16),
    Type::Varchar(64),
    Type::Timestamp,
    Type::Timestamp,
];

/// What a row says of a platform. Texts are bytes, moments microseconds.
#[derive(Debug, Clone, PartialEq, Eq)]
pub struct Occupation {
    pub platform: Option<Vec<u8>>,
    pub unit: Option<Vec<u8>>,
    pub arrival: Option<i64>,
    pub departure: Option<i64>,
}

/// Writes the lines of a row list at the start of `out`: 16, then the refusals
/// row by row, 14 last.
pub fn occupations_print(list: &[u8], out: &mut [u8]) -> RowAnswer {
    RowAnswer::of(lines(list).and_then(|lines| put(&lines, out)), 0)
}

/// All that the program prints for this input: the lines, or one line of the
/// refusal's number and place.
pub fn report(list: &[u8]) -> Vec<u8> {
    match lines(list) {
        Ok(lines) => lines,
        Err((number, place)) => format!("{number} {place}\n").into_bytes(),
    }
}

/// The lines of a row list, in their order.
pub fn lines(list: &[u8]) -> Result<Vec<u8>, Refusal> {
    let rows = row_list::rows(list)?;
    let mut occupations = rows
        .into_iter()
        .map(occupation)
        .collect::<Result<Vec<_>, Refusal>>()?;
    // Equal ones stay in the order of the input.
    occupations.sort_by(order);
    Ok(occupations.iter().flat_map(line).collect())
}

/// What a row of either sort says: the refusals of reading all columns, then 17 for a text
/// with a double quote or a byte below 32, place its column.
pub fn occupation(row: &[u8]) -> Result<Occupation, Refusal> {
    let values = all_columns(&COLUMNS, row)?;
    for (column, value) in values.iter().enumerate() {
        if text_of(value, row).is_some_and(unprintable) {
            return Err((17, column));
        }
    }
    let text = |column: usize| text_of(&values[column], row).map(<[u8]>::to_vec);
    let moment = |column: usize| match values[column] {
        Value::Timestamp(micros) => Some(micros),
        _ => None,
    };
    Ok(Occupation {
        platform: text(0),
        unit: text(1),
        arrival: moment(2),
        departure: moment(3),
    })
}

fn unprintable(text: &[u8]) -> bool {
    text.iter().any(|&byte| byte == b'"' || byte < 32)
}

/// By platform, then by arrival; null first.
pub fn order(a: &Occupation, b: &Occupation) -> Ordering {
    let platforms = nulls_first(&a.platform, &b.platform, |a, b| by_bytes(a, b));
    let arrivals = nulls_first(&a.arrival, &b.arrival, i64::cmp);
    platforms.then(arrivals)
}

fn nulls_first<T>(a: &Option<T>, b: &Option<T>, order: impl Fn(&T, &T) -> Ordering) -> Ordering {
    match (a, b) {
        (None, None) => Ordering::Equal,
        (None, Some(_)) => Ordering::Less,
        (Some(_), None) => Ordering::Greater,
        (Some(a), Some(b)) => order(a, b),
    }
}

/// By the first byte that differs; where none does, the shorter first.
fn by_bytes(a: &[u8], b: &[u8]) -> Ordering {
    for (x, y) in a.iter().zip(b) {
        if x != y {
            return x.cmp(y);
        }
    }
    a.len().cmp(&b.len())
}

/// The fields with a bar between them, and a line feed.
pub fn line(occupation: &Occupation) -> Vec<u8> {
    let fields = [
        text_field(&occupation.platform),
        text_field(&occupation.unit),
        moment_field(&occupation.arrival),
        moment_field(&occupation.departure),
    ];
    let mut line = fields.join(&b'|');
    line.push(b'\n');
    line
}

/// A text in double quotes, a null as a hyphen.
fn text_field(text: &Option<Vec<u8>>) -> Vec<u8> {
    match text {
        Some(text) => [b"\"", &text[..], b"\""].concat(),
        None => b"-".to_vec(),
    }
}

/// Date and time, a null as a hyphen.
fn moment_field(moment: &Option<i64>) -> Vec<u8> {
    match moment {
        Some(micros) => calendar::moment_text(*micros).into_bytes(),
        None => b"-".to_vec(),
    }
}
