//! The worked cases of 01, by their numbers.

mod common;

use common::*;
use model::Sort;
use model::schema::{Type, check};
use model::stored;
use model::text::is_text;
use model::value::Value;

#[test]
fn case_1_fresh() {
    let row = hex("03 00 01 80 07 00 00 00 00 00 00 00 00");
    assert_eq!(fresh(&s(), ROOM), (done(13), row));
}

#[test]
fn case_2_built() {
    let values = [Value::Int(1), Value::Varchar(range(0, 2)), Value::Null];
    assert_eq!(built(&s(), &values, b"AB"), row_2());
    assert_eq!(row_2().len(), 15);
}

#[test]
fn case_2_by_edits() {
    let (_, row) = fresh(&s(), ROOM);
    let (answer, row) = set(&s(), &row, 0, Value::Int(1), b"");
    assert_eq!(answer, done(13));
    let (answer, row) = set(&s(), &row, 1, Value::Varchar(range(0, 2)), b"AB");
    assert_eq!((answer, row), (done(15), row_2()));
}

#[test]
fn case_3_set_to_empty() {
    let row = hex("03 00 01 80 04 0D 00 01 00 00 00 00 00");
    let edit = set(&s(), &row_2(), 1, Value::Varchar(range(0, 0)), b"");
    assert_eq!(edit, (done(13), row));
}

#[test]
fn case_4_set_null() {
    let row = hex("03 00 01 80 06 00 00 01 00 00 00 00 00");
    assert_eq!(set_null(&s(), &row_2(), 1), (done(13), row));
}

#[test]
fn case_5_minimum() {
    let types = [Type::SmallInt, Type::Int];
    assert_eq!(
        model::layout::Layout::packed(&types, Sort::Short).minimum,
        11
    );
    assert_eq!(
        model::layout::Layout::padded(&types, Sort::Short).minimum,
        13
    );
    let values = Ok(vec![Value::SmallInt(1), Value::Int(2)]);
    let packed = hex("02 00 00 80 00 01 00 02 00 00 00");
    assert_eq!(read_all(&schema(&types), &packed), values);
    assert_eq!(read_all(&schema(&types), &packed[..10]), Err((3, 0)));
    let padded = hex("02 00 00 00 00 01 00 FF FF 02 00 00 00");
    assert_eq!(read_all(&schema(&types), &padded), values);
    assert_eq!(read_all(&schema(&types), &padded[..12]), Err((3, 0)));
}

#[test]
fn case_6_numeric() {
    let four = Type::Numeric {
        precision: 4,
        scale: 2,
    };
    assert_eq!(stored::write(four, &numeric(-1234, 2), b""), hex("01234D"));
    assert_eq!(
        stored::read(four, &hex("01234D"), 0),
        Some(numeric(-1234, 2))
    );
    let three = Type::Numeric {
        precision: 3,
        scale: 0,
    };
    assert_eq!(stored::write(three, &numeric(7, 0), b""), hex("00 7C"));
    assert_eq!(stored::read(three, &hex("00 7C"), 0), Some(numeric(7, 0)));
}

#[test]
fn case_7_time() {
    let read = |count: i64| stored::read(Type::Time, &count.to_le_bytes(), 0);
    assert_eq!(read(86_399_999_999), Some(Value::Time(86_399_999_999)));
    assert_eq!(read(86_400_000_000), None);
    assert_eq!(read(-1), None);
    assert_eq!(read(4_294_967_296_000_000), Some(Value::Time(0)));
}

#[test]
fn case_8_date() {
    let read = |days: i32| stored::read(Type::Date, &days.to_le_bytes(), 0);
    assert_eq!(read(2_932_896), Some(Value::Date(2_932_896)));
    assert_eq!(read(2_932_897), None);
}

#[test]
fn case_9_text() {
    assert!(!is_text(&hex("ED A0 80")));
    assert!(!is_text(&hex("C0 80")));
    assert!(!is_text(&hex("F4 90 80 80")));
    assert!(is_text(&hex("F4 8F BF BF")));
}

#[test]
fn case_10_limits() {
    let of = |length| [Value::Null, Value::Varchar(range(0, length)), Value::Null];
    let row = built(&s(), &of(5), b"ABCDEF");
    assert_eq!(row[13..], *b"ABCDE");
    assert_eq!(build(&s(), &of(6), b"ABCDEF").0, refused(12, 1, 0));

    assert_eq!(
        check(&[2; 256], Sort::Short).map(|types| types.len()),
        Ok(256)
    );
    assert_eq!(check(&[2; 257], Sort::Short), Err((2, 256)));

    // One Varchar: seven bytes before the payload.
    let one = schema_of_one(65_535);
    let text = vec![b'x'; 65_535];
    let row = built(&one, &[Value::Varchar(range(0, 65_528))], &text);
    assert_eq!(row.len(), 65_535);
    let above = build(&one, &[Value::Varchar(range(0, 65_529))], &text);
    assert_eq!(above.0, refused(13, 0, 0));
}

fn schema_of_one(n: usize) -> Vec<u8> {
    common::schema(&[Type::Varchar(n)])
}

#[test]
fn case_11_offset_0() {
    let mut row = row_2();
    row[5..7].fill(0);
    assert_eq!(row[4], 4);
    let values = vec![Value::Int(1), Value::Null, Value::Null];
    assert_eq!(read_all(&s(), &row), Ok(values));
    let edit = set(&s(), &row, 0, Value::Int(1), b"");
    assert_eq!(edit, (refused(15, 0, 15), row.clone()));
    assert_eq!(set_null(&s(), &row, 1), (refused(15, 0, 15), row));
}
