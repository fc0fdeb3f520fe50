//! Findings: what the Rust does outside 01's domain, each with a smallest input.
//! Where a build with overflow checks differs from one without, the test asks
//! cfg!(debug_assertions), which goes with those checks in this workspace.

use cases::column::{RustColumns, of_rust_types};
use cases::row::{self, padded};
use cases::rust::{self, Outcome, guarded};
use cases::value::DATES;
use rookdb::chrono::{Datelike, NaiveDate, NaiveTime};
use rookdb::types::datatype::DataType;
use rookdb::types::row::{Row, RowDecoder, row_byte_size};
use rookdb::types::value::{DataValue, NumericValue};

fn varchar(text: &str) -> DataValue {
    DataValue::Varchar(text.to_string())
}

fn bit(bits: &str) -> DataValue {
    DataValue::Bit(bits.to_string())
}

fn numeric(unscaled: i128, scale: u8) -> DataValue {
    DataValue::numeric(NumericValue { unscaled, scale })
}

fn is_sound(types: &[DataType], row: &[u8]) -> bool {
    let types = of_rust_types(types);
    row::is_sound(&RustColumns::of(&types).unwrap(), row)
}

/// The message of the panic in an edit of a row's column 0; `None` if there is
/// no panic.
fn panic_of_edit(types: &[DataType], row: &[u8], value: Option<&DataValue>) -> Option<String> {
    let mut row = Row::deserialize(types, row).expect("a row that reads");
    guarded(|| match value {
        Some(value) => row.set_value(0, value),
        None => row.set_null(0),
    })
    .err()
}

/// A read panics where a Varchar's offset is past the row's end: 8 in a row of
/// 7 bytes. An offset of 7 is an empty text.
#[test]
fn reading_panics_for_an_offset_past_the_end() {
    let row = |offset| [0x01, 0x00, 0x01, 0x80, 0x00, offset, 0x00];
    for n in [0, 9] {
        let types = [DataType::Varchar(n)];
        assert_eq!(rust::read_all(&types, &row(8)), Outcome::Panicked);
        assert_eq!(
            rust::read_all(&types, &row(7)),
            Outcome::Ok(vec![Some(varchar(""))])
        );
        // An edit reads first, so it panics too.
        assert_eq!(rust::set_null(&types, &row(8), 0), Outcome::Panicked);
    }
}

/// Above 65,535 bytes an offset wraps: an empty Varchar after one of 65,527
/// bytes is built without complaint and reads back as null.
#[test]
fn an_offset_wraps_when_built() {
    let types = [DataType::Varchar(65_535), DataType::Varchar(0)];
    let values = |length| [Some(varchar(&"x".repeat(length))), Some(varchar(""))];
    let build = |length| rust::build(&types, &values(length)).ok().unwrap();

    let row = build(65_526);
    assert_eq!((row.len(), &row[5..9]), (65_535, &[9, 0, 0xFF, 0xFF][..]));
    assert_eq!(
        rust::read_all(&types, &row),
        Outcome::Ok(values(65_526).to_vec())
    );

    let row = build(65_527);
    assert_eq!((row.len(), &row[5..9]), (65_536, &[9, 0, 0, 0][..]));
    let [first, _] = values(65_527);
    assert_eq!(rust::read_all(&types, &row), Outcome::Ok(vec![first, None]));

    // One byte more: the second offset is 1, before the first one's 9.
    let row = build(65_528);
    assert_eq!((row.len(), &row[5..9]), (65_537, &[9, 0, 1, 0][..]));
    assert_eq!(rust::read_all(&types, &row), Outcome::Panicked);
}

/// An edit wraps it too.
#[test]
fn an_offset_wraps_when_edited() {
    let types = [DataType::Varchar(65_535), DataType::Varchar(0)];
    let row = rust::build(&types, &[None, Some(varchar(""))])
        .ok()
        .unwrap();
    assert_eq!(row, [2, 0, 2, 0x80, 1, 0, 0, 9, 0]);
    let text = varchar(&"x".repeat(65_527));
    let row = rust::set(&types, &row, 0, &text).ok().unwrap();
    assert_eq!(
        (row.len(), &row[..9]),
        (65_536, &[2, 0, 2, 0x80, 0, 9, 0, 0, 0][..])
    );
    assert_eq!(
        rust::read_all(&types, &row),
        Outcome::Ok(vec![Some(text), None])
    );
}

/// A leap second 23:59:60 is written as 86,400,000,000 and cannot be read again.
#[test]
fn a_leap_second_is_written_and_not_read() {
    let types = [DataType::Time];
    let leap = NaiveTime::from_num_seconds_from_midnight_opt(86_399, 1_000_000_000).unwrap();
    let value = DataValue::Time(leap);
    let row = rust::build(&types, &[Some(value.clone())]).ok().unwrap();
    assert_eq!(row[..5], [1, 0, 0, 0x80, 0]);
    assert_eq!(row[5..], 86_400_000_000_i64.to_le_bytes());
    assert_eq!(rust::read_all(&types, &row), Outcome::TypeMismatch);
    // Set, it leaves a row that no further edit accepts.
    let fresh = rust::fresh(&types).ok().unwrap();
    let row = rust::set(&types, &fresh, 0, &value).ok().unwrap();
    assert_eq!(rust::set_null(&types, &row, 0), Outcome::TypeMismatch);
}

/// Editing the unsound row 01 00 01 00 00 01 00 of Varchar(6), whose offset 1 is
/// in the header, panics: where the subtraction is checked there, else where the
/// wrapped place is used.
#[test]
fn editing_an_offset_in_the_header_panics() {
    let types = [DataType::Varchar(6)];
    let row = [0x01, 0x00, 0x01, 0x00, 0x00, 0x01, 0x00];
    assert_eq!(
        rust::read_all(&types, &row),
        Outcome::Ok(vec![Some(varchar("\0\u{1}\0\0\u{1}\0"))])
    );
    assert!(!is_sound(&types, &row));
    let values = ["", "a", "abcdef"].map(varchar);
    for value in values.iter().map(Some).chain([None]) {
        let message = panic_of_edit(&types, &row, value).expect("a panic");
        let overflow = message == "attempt to subtract with overflow";
        assert_eq!(overflow, cfg!(debug_assertions), "{message}");
    }
}

/// The unsound row 01 00 01 80 01 00 00 41 of Varchar(1), a null and a loose
/// byte, set to empty keeps the byte: the empty text is put behind it.
#[test]
fn editing_a_row_with_a_loose_byte_keeps_it() {
    let types = [DataType::Varchar(1)];
    let row = [0x01, 0x00, 0x01, 0x80, 0x01, 0x00, 0x00, 0x41];
    assert_eq!(rust::read_all(&types, &row), Outcome::Ok(vec![None]));
    let edited = [0x01, 0x00, 0x01, 0x80, 0x00, 0x08, 0x00, 0x41];
    assert_eq!(
        rust::set(&types, &row, 0, &varchar("")),
        Outcome::Ok(edited.to_vec())
    );
    assert!(!is_sound(&types, &row) && !is_sound(&types, &edited));
    assert_eq!(
        rust::read_all(&types, &edited),
        Outcome::Ok(vec![Some(varchar(""))])
    );
}

/// Nine bits in a Bit(1) spill into the next slot, or panic where there is none.
#[test]
fn nine_bits_in_one_spill_or_panic() {
    let nine = bit("111111111");
    let alone = [DataType::Bit(1)];
    let values = [Some(nine.clone())];
    assert_eq!(rust::build(&alone, &values), Outcome::Panicked);
    let fresh = rust::fresh(&alone).ok().unwrap();
    assert_eq!(rust::set(&alone, &fresh, 0, &nine), Outcome::Panicked);

    // Built before a null: the null's slot holds the ninth bit.
    let types = [DataType::Bit(1), DataType::Bool];
    let built = rust::build(&types, &[Some(nine.clone()), None]);
    assert_eq!(built, Outcome::Ok(vec![2, 0, 0, 0x80, 0b10, 0xFF, 0x80]));
    // Set before false: the column reads as true.
    let row = [2, 0, 0, 0x80, 0, 0, 0];
    let row = rust::set(&types, &row, 0, &nine).ok().unwrap();
    assert_eq!(row, [2, 0, 0, 0x80, 0, 0xFF, 0x80]);
    assert_eq!(
        rust::read_all(&types, &row),
        Outcome::Ok(vec![Some(bit("1")), Some(DataValue::Bool(true))])
    );
}

/// Other lengths of a Bit string that fit the slot are taken without complaint:
/// too few bits read back with zeros, up to eight in a Bit(1) are cut.
#[test]
fn other_bit_lengths_are_taken() {
    let read_back = |n, bits: &str| {
        let types = [DataType::Bit(n)];
        let row = rust::build(&types, &[Some(bit(bits))]).ok().unwrap();
        rust::read_all(&types, &row).ok().unwrap()
    };
    assert_eq!(read_back(1, ""), [Some(bit("0"))]);
    assert_eq!(read_back(1, "11111111"), [Some(bit("1"))]);
    assert_eq!(read_back(9, "1"), [Some(bit("100000000"))]);
}

/// The least i128 panics where `abs` is checked, else it is refused as any
/// number too long. Another scale is refused before in both.
#[test]
fn the_least_i128_panics_in_a_debug_build() {
    let types = [DataType::Numeric {
        precision: 38,
        scale: 0,
    }];
    let expected = if cfg!(debug_assertions) {
        Outcome::Panicked
    } else {
        Outcome::TypeMismatch
    };
    let least = numeric(i128::MIN, 0);
    let fresh = rust::fresh(&types).ok().unwrap();
    assert_eq!(rust::build(&types, &[Some(least.clone())]), expected);
    assert_eq!(rust::set(&types, &fresh, 0, &least), expected);
    let others = [numeric(i128::MIN, 1), numeric(i128::MIN + 1, 0)];
    for value in others {
        assert_eq!(rust::set(&types, &fresh, 0, &value), Outcome::TypeMismatch);
        let built = rust::build(&types, &[Some(value)]);
        assert_eq!(built, Outcome::TypeMismatch);
    }
}

/// Set null of a column with offset 0 and its bit clear, an offset in the header
/// behind it: a panic with overflow checks, done without.
#[test]
fn set_null_before_an_offset_in_the_header() {
    let types = [DataType::Varchar(8), DataType::Varchar(8)];
    let row = [2, 0, 2, 0, 0, 0, 0, 1, 0];
    assert!(matches!(rust::read_all(&types, &row), Outcome::Ok(_)));
    let expected = if cfg!(debug_assertions) {
        Outcome::Panicked
    } else {
        Outcome::Ok(vec![2, 0, 2, 0, 1, 0, 0, 1, 0])
    };
    assert_eq!(rust::set_null(&types, &row, 0), expected);
}

/// An edited padded row stays padded, though row_layout.rs says that a row is
/// packed the next time it is written.
#[test]
fn an_edited_padded_row_stays_padded() {
    let types = [DataType::Bool, DataType::SmallInt];
    let fresh = rust::fresh(&types).ok().unwrap();
    let row = padded(&of_rust_types(&types), &fresh, 0xEE).unwrap();
    assert_eq!(row, [2, 0, 0, 0, 0b11, 0, 0xEE, 0, 0]);
    let row = rust::set(&types, &row, 1, &DataValue::SmallInt(-1));
    assert_eq!(
        row,
        Outcome::Ok(vec![2, 0, 0, 0, 0b01, 0, 0xEE, 0xFF, 0xFF])
    );
}

/// chrono's dates are wider than 01's, for reading and for writing.
#[test]
fn dates_past_the_years_of_01_are_taken() {
    let types = [DataType::Date];
    let row = |days: i32| [&[1, 0, 0, 0x80, 0][..], &days.to_le_bytes()].concat();
    // chrono's day 1 is 01's first date.
    let days = |date: NaiveDate| date.num_days_from_ce() - 1 + DATES.start();
    let (first, last) = (days(NaiveDate::MIN), days(NaiveDate::MAX));
    assert!(first < DATES.start() - 1 && DATES.end() + 1 < last);
    for days in [DATES.start() - 1, DATES.end() + 1, first, last] {
        let values = rust::read_all(&types, &row(days)).ok().unwrap();
        assert_eq!(rust::build(&types, &values), Outcome::Ok(row(days)));
    }
    for days in [first - 1, last + 1, i32::MIN, i32::MAX] {
        assert_eq!(rust::read_all(&types, &row(days)), Outcome::TypeMismatch);
    }
}

/// `row_byte_size` counts 0 for a Varchar that building refuses.
#[test]
fn row_byte_size_counts_nothing_for_a_bad_value() {
    let types = [DataType::Varchar(1)];
    let size = |text| row_byte_size(&types, &[Some(&varchar(text))]);
    assert_eq!((size(""), size("a"), size("ab")), (7, 8, 7));
    assert_eq!(
        rust::build(&types, &[Some(varchar("ab"))]),
        Outcome::TypeMismatch
    );
}

/// `decode_into` leaves the columns before the one it refuses in the list lent
/// to it, and the old list where it refuses the header.
#[test]
fn decode_into_leaves_a_partial_list() {
    let decoder = RowDecoder::new(&[DataType::Bool, DataType::Char(1)]);
    let mut out = vec![None; 3];
    let row = [2, 0, 0, 0x80, 0, 1, 0xFF];
    assert!(decoder.decode_into(&row, &mut out).is_err());
    assert_eq!(out, [Some(DataValue::Bool(true))]);
    assert!(decoder.decode_into(&[], &mut out).is_err());
    assert_eq!(out, [Some(DataValue::Bool(true))]);
}

/// `get_value` takes an offset of 0 with the bit clear as empty text; the
/// decoder takes it as null, and so does 01.
#[test]
fn get_value_takes_offset_0_as_empty() {
    let types = [DataType::Varchar(1)];
    let row = [1, 0, 1, 0x80, 0, 0, 0];
    assert_eq!(rust::read_all(&types, &row), Outcome::Ok(vec![None]));
    let value = rust::call(|| Row::deserialize(&types, &row)?.get_value(0));
    assert_eq!(value, Outcome::Ok(Some(varchar(""))));
}
