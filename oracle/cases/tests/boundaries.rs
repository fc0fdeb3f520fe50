//! Every boundary of 01 occurs among the generated values. A value gets labels
//! for the edges that it is at, from the record alone, whatever the generator
//! meant it to be.

mod common;

use cases::column::ColumnType;
use cases::generate::list::{Sort, list};
use cases::generate::text::Fault;
use cases::generate::value::TYPES;
use cases::rng::Rng;
use cases::value::{DATES, Record, TIMES, TIMESTAMPS, TextRange};
use common::fault_of;
use std::collections::BTreeSet;
use std::fmt::Display;
use std::num::FpCategory;
use std::sync::LazyLock;

/// The labels of lists of one column, of every sort, many times.
static SEEN: LazyLock<BTreeSet<String>> = LazyLock::new(|| {
    let mut rng = Rng::new(1);
    let mut seen = BTreeSet::new();
    for ty in &types() {
        for sort in Sort::ALL {
            for _ in 0..times(sort) {
                let list = list(&mut rng, std::slice::from_ref(ty), sort).map(|list| list.values);
                if let Some(values) = list
                    && let Ok(records) = values.records(1)
                {
                    seen.extend(labels(ty, &records[0], &values.text));
                }
            }
        }
    }
    seen
});

/// One type of each kind, every precision, and lengths from none to the most.
fn types() -> Vec<ColumnType> {
    let mut types = TYPES.to_vec();
    for precision in 1..=38 {
        let scale = precision / 2;
        types.push(ColumnType::Numeric { precision, scale });
    }
    for n in [0, 1, 2, 40, 60_000] {
        types.extend([ColumnType::Char(n), ColumnType::Character(n)]);
        types.extend([ColumnType::Varchar(n), ColumnType::Bit(n)]);
    }
    types
}

/// The sorts at a limit have large text areas and no labels of their own.
fn times(sort: Sort) -> usize {
    match sort {
        Sort::TextAtLimit | Sort::RowAtLimit | Sort::TextAbove | Sort::RowAbove => 2,
        _ => 300,
    }
}

fn labels(ty: &ColumnType, record: &Record, text: &[u8]) -> Vec<String> {
    if !record.matches(ty) {
        return vec![format!("{ty:?} given kind {}", record.kind())];
    }
    let mut labels = vec![match *record {
        Record::SmallInt(v) => format!("SmallInt {v}"),
        Record::Int(v) => format!("Int {v}"),
        Record::BigInt(v) => format!("BigInt {v}"),
        Record::Real(bits) => {
            let value = f32::from_bits(bits);
            float_label(
                "Real",
                value.is_sign_negative(),
                value.classify(),
                bits.into(),
            )
        }
        Record::DoublePrecision(bits) => {
            let value = f64::from_bits(bits);
            float_label("Double", value.is_sign_negative(), value.classify(), bits)
        }
        Record::Numeric { unscaled, scale } => numeric_label(ty, unscaled, scale),
        Record::Bool(v) => format!("Bool {v}"),
        Record::Date(v) => format!("Date {v}"),
        Record::Time(v) => format!("Time {v}"),
        Record::Timestamp(v) => format!("Timestamp {v}"),
        Record::Char(range) | Record::Varchar(range) | Record::Bit(range) => {
            place_label(range, text.len())
        }
        Record::Null => unreachable!("null matches no type"),
    }];
    if let Some(bytes) = record.range().and_then(|range| range.of(text)) {
        labels.push(content_label(ty, bytes));
        labels.extend(length_label(ty, bytes.len()));
    }
    labels
}

/// The class of a float; a NaN by its bits.
fn float_label(name: &str, negative: bool, class: FpCategory, bits: u64) -> String {
    let sign = if negative { '-' } else { '+' };
    match class {
        FpCategory::Nan => format!("{name} NaN {bits:X}"),
        _ => format!("{name} {sign}{class:?}"),
    }
}

fn numeric_label(ty: &ColumnType, unscaled: i128, scale: u8) -> String {
    let (precision, own_scale) = match *ty {
        ColumnType::Numeric { precision, scale } => (precision, scale),
        ColumnType::Decimal { precision, scale } => (precision, scale),
        _ => unreachable!("a Numeric record matches these only"),
    };
    let above = 10_i128.pow(precision.into());
    let what = match unscaled {
        _ if scale != own_scale => "other scale",
        i128::MIN => "least i128",
        i128::MAX => "greatest i128",
        0 => "zero",
        _ if unscaled == above - 1 => "largest",
        _ if unscaled == 1 - above => "largest negative",
        _ if unscaled == above => "one above",
        _ if unscaled == -above => "one above, negative",
        _ if unscaled.abs() < above => "within",
        _ => "above",
    };
    format!("Numeric({precision}) {what}")
}

/// Where a range lies in the text area.
fn place_label(range: TextRange, text: usize) -> String {
    let place = match range.end() {
        end if end == text && range.length == 0 => "empty at the end",
        end if end == text => "at the end",
        end if end < text => "inside",
        end if end == text + 1 && range.length == 0 => "empty, one past",
        end if end == text + 1 && range.start == 0 => "all and one past",
        end if end == text + 1 => "one past",
        _ => "far outside",
    };
    format!("range {place}")
}

fn content_label(ty: &ColumnType, bytes: &[u8]) -> String {
    if matches!(ty, ColumnType::Bit(_)) {
        return "bits".to_string();
    }
    match std::str::from_utf8(bytes) {
        Err(error) => {
            let fault = fault_of(&bytes[error.valid_up_to()..]);
            format!("invalid by {:?}", fault.expect("a fault"))
        }
        Ok("") => "text empty".to_string(),
        Ok(text) => {
            let width = text.chars().map(char::len_utf8).max().unwrap();
            format!("text of {width}-byte characters")
        }
    }
}

/// How long the text or bit string is for the type.
fn length_label(ty: &ColumnType, length: usize) -> Option<String> {
    let (name, exactly) = match *ty {
        ColumnType::Char(n) => ("Char", n.into()),
        ColumnType::Character(n) => ("Character", n.into()),
        ColumnType::Varchar(n) => ("Varchar", n.into()),
        ColumnType::Bit(n) => ("Bit", usize::from(n).div_ceil(8)),
        _ => return None,
    };
    let what = match length {
        0 if exactly > 0 => "nothing",
        _ if length == exactly => "exactly",
        _ if length == exactly + 1 => "one more",
        _ if length + 1 == exactly => "one less",
        _ => "other",
    };
    Some(format!("{name}({exactly}) {what}"))
}

/// Labels of this name for each of these.
fn want<T: Display>(name: &str, whats: impl IntoIterator<Item = T>) {
    for what in whats {
        let label = format!("{name} {what}");
        assert!(SEEN.contains(&label), "{label}");
    }
}

#[test]
fn integers() {
    want("SmallInt", [i16::MIN, i16::MAX, 0, 1, -1]);
    want("Int", [i32::MIN, i32::MAX, 0, 1, -1]);
    want("BigInt", [i64::MIN, i64::MAX, 0, 1, -1]);
    want("Bool", [0, 1, 2, 255]);
}

#[test]
fn floats() {
    for name in ["Real", "Double"] {
        want(name, ["+Zero", "+Subnormal", "+Normal", "+Infinite"]);
        want(name, ["-Zero", "-Subnormal", "-Normal", "-Infinite"]);
        let nans = |label: &&String| label.starts_with(&format!("{name} NaN"));
        assert!(SEEN.iter().filter(nans).count() >= 5, "{name}");
    }
    // Quiet, of the other sign, signalling, all bits set.
    want("Real NaN", ["7FC00000", "FFC00000", "7F800001", "7FFFFFFF"]);
    want("Double NaN", ["7FF8000000000000", "FFF8000000000000"]);
    want("Double NaN", ["7FF0000000000001", "7FFFFFFFFFFFFFFF"]);
}

#[test]
fn numerics() {
    for precision in 1..=38 {
        let name = format!("Numeric({precision})");
        want(&name, ["zero", "within", "largest", "largest negative"]);
        want(&name, ["above", "one above", "one above, negative"]);
        want(&name, ["least i128", "greatest i128", "other scale"]);
    }
}

#[test]
fn dates_and_times() {
    for end in [*DATES.start(), DATES.end() + 1] {
        want("Date", [end - 1, end, 0, i32::MIN, i32::MAX]);
    }
    for end in [*TIMES.start(), TIMES.end() + 1] {
        want("Time", [end - 1, end, i64::MIN, i64::MAX]);
    }
    want("Time", [4_294_967_296_000_000_i64, -4_294_967_296_000_000]);
    for end in [*TIMESTAMPS.start(), TIMESTAMPS.end() + 1] {
        want("Timestamp", [end - 1, end, -1, 0, i64::MIN, i64::MAX]);
    }
}

#[test]
fn texts() {
    want("text", ["empty"]);
    want(
        "text of",
        (1..=4).map(|width| format!("{width}-byte characters")),
    );
    want("invalid by", Fault::ALL.map(|fault| format!("{fault:?}")));
    for name in ["Char", "Character", "Varchar"] {
        for n in [0, 1, 2, 40] {
            want(&format!("{name}({n})"), ["exactly", "one more"]);
        }
        want(&format!("{name}(60000)"), ["exactly", "other"]);
    }
}

#[test]
fn bit_strings() {
    for bytes in [0, 1, 5] {
        want(&format!("Bit({bytes})"), ["exactly", "one more"]);
    }
    want("Bit(5)", ["one less", "nothing"]);
    want("Bit(7500)", ["exactly", "one less", "one more", "nothing"]);
}

#[test]
fn ranges() {
    want("range", ["inside", "at the end", "empty at the end"]);
    want("range", ["one past", "all and one past", "empty, one past"]);
    want("range", ["far outside"]);
}

/// Every kind but its own, null among them, is given to every type.
#[test]
fn other_kinds() {
    for ty in &TYPES {
        let name = format!("{ty:?} given kind");
        let given = (0..=13).filter(|kind| SEEN.contains(&format!("{name} {kind}")));
        assert_eq!(given.count(), 13, "{name}");
    }
}
