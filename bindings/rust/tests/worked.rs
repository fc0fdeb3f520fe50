//! The worked cases of the format's specification, by their numbers.
use rook_row::{DataType, Date, Error, Numeric, RowBuf, RowRef, Schema, Time, Value};

fn schema(types: &[DataType]) -> Schema {
    Schema::new(types).unwrap()
}

fn s() -> Schema {
    schema(&[DataType::Int, DataType::Varchar(5), DataType::SmallInt])
}

/// Case 2's row: 1, "AB", null.
fn row_2() -> RowBuf {
    RowBuf::build(&s(), &[1.into(), "AB".into(), Value::Null]).unwrap()
}

/// The row of one fixed column whose slot has these bytes.
fn slot(bytes: &[u8]) -> RowBuf {
    RowBuf::from_bytes([&[1, 0, 0, 0x80, 0], bytes].concat())
}

/// Number and place of a refusal.
fn refused<T>(result: Result<T, Error>) -> (u32, usize) {
    let error = result.err().expect("a refusal");
    (error.number(), error.place())
}

#[test]
fn case_1_fresh() {
    let row = RowBuf::fresh(&s()).unwrap();
    assert_eq!(row.as_bytes(), [3, 0, 1, 0x80, 7, 0, 0, 0, 0, 0, 0, 0, 0]);
    assert!(row.read(&s()).unwrap().iter().all(Value::is_null));
}

#[test]
fn case_2_built_and_read() {
    let row = row_2();
    let bytes = [3, 0, 1, 0x80, 4, 0x0D, 0, 1, 0, 0, 0, 0, 0, 0x41, 0x42];
    assert_eq!(row.as_bytes(), bytes);
    assert_eq!(
        row.read(&s()).unwrap(),
        [1.into(), "AB".into(), Value::Null]
    );
}

#[test]
fn case_2_by_a_history() {
    let mut row = RowBuf::fresh(&s()).unwrap();
    row.set(&s(), 0, 1).unwrap();
    row.set(&s(), 1, "AB").unwrap();
    assert_eq!(row, row_2());
}

#[test]
fn case_3_set_to_empty() {
    let mut row = row_2();
    row.set(&s(), 1, "").unwrap();
    assert_eq!(
        row.as_bytes(),
        [3, 0, 1, 0x80, 4, 0x0D, 0, 1, 0, 0, 0, 0, 0]
    );
    assert_eq!(row.text(&s(), 1), Ok(Some("")));
}

#[test]
fn case_4_set_null() {
    let mut row = row_2();
    row.set_null(&s(), 1).unwrap();
    assert_eq!(row.as_bytes(), [3, 0, 1, 0x80, 6, 0, 0, 1, 0, 0, 0, 0, 0]);
    assert_eq!(row.text(&s(), 1), Ok(None));
}

#[test]
fn case_5_packed_and_padded() {
    let schema = schema(&[DataType::SmallInt, DataType::Int]);
    let values = [Value::SmallInt(1), Value::Int(2)];
    let row = RowBuf::build(&schema, &values).unwrap();
    assert_eq!(row.as_bytes(), [2, 0, 0, 0x80, 0, 1, 0, 2, 0, 0, 0]);
    let padded = [2, 0, 0, 0, 0, 1, 0, 0, 0, 2, 0, 0, 0];
    assert_eq!(RowRef::new(&padded).read(&schema).unwrap(), values);
    assert_eq!(
        RowRef::new(&padded).same_content(&schema, row.as_row()),
        Ok(true)
    );
    assert_eq!(refused(RowRef::new(&padded[..12]).read(&schema)), (3, 0));
}

#[test]
fn case_6_numeric() {
    let built = |precision, number: Numeric| {
        let scale = number.scale();
        let schema = schema(&[DataType::Numeric { precision, scale }]);
        let row = RowBuf::build(&schema, &[number.into()]).unwrap();
        assert_eq!(row.get(&schema, 0), Ok(number));
        row.as_bytes()[5..].to_vec()
    };
    assert_eq!(built(4, Numeric::new(-1234, 2)), [0x01, 0x23, 0x4D]);
    assert_eq!(built(3, Numeric::new(7, 0)), [0x00, 0x7C]);
}

#[test]
fn case_7_time() {
    let schema = schema(&[DataType::Time]);
    let read = |micros: i64| {
        slot(&micros.to_le_bytes())
            .get(&schema, 0)
            .map(Time::micros)
    };
    assert_eq!(read(86_399_999_999), Ok(86_399_999_999));
    assert_eq!(refused(read(86_400_000_000)), (8, 0));
    assert_eq!(refused(read(-1)), (8, 0));
    assert_eq!(read(4_294_967_296_000_000), Ok(0));
}

#[test]
fn case_8_date() {
    let schema = schema(&[DataType::Date]);
    let read = |days: i32| slot(&days.to_le_bytes()).get::<Date>(&schema, 0);
    assert_eq!(read(2_932_896), Ok(Date::MAX));
    assert_eq!(refused(read(2_932_897)), (8, 0));
}

#[test]
fn case_9_text() {
    let read = |bytes: &[u8]| {
        let schema = schema(&[DataType::Char(bytes.len() as u16)]);
        slot(bytes).get::<String>(&schema, 0)
    };
    for invalid in [&b"\xED\xA0\x80"[..], b"\xC0\x80", b"\xF4\x90\x80\x80"] {
        assert_eq!(refused(read(invalid)), (8, 0));
        assert_eq!(rook_row::raw::text_check(invalid), None);
    }
    assert_eq!(read(b"\xF4\x8F\xBF\xBF").unwrap(), "\u{10FFFF}");
}

#[test]
fn case_10_limits() {
    let build = |text: &str| RowBuf::build(&s(), &[Value::Null, text.into(), Value::Null]);
    assert!(build("ABCDE").is_ok());
    assert_eq!(refused(build("ABCDEF")), (12, 1));

    let columns = |n| Schema::new(vec![DataType::Bool; n]);
    assert_eq!(columns(256).unwrap().minimum(), 4 + 32 + 256);
    assert_eq!(refused(columns(257)), (2, 256));

    let schema = schema(&[DataType::Varchar(65_535)]);
    let longest = "x".repeat(65_528);
    let mut row = RowBuf::build(&schema, &[longest.into()]).unwrap();
    assert_eq!(row.as_bytes().len(), 65_535);
    let more = "x".repeat(65_529);
    assert_eq!(refused(RowBuf::build(&schema, &[(&more).into()])), (13, 0));
    assert_eq!(refused(row.set(&schema, 0, &more)), (13, 0));
    assert_eq!(row.as_bytes().len(), 65_535);
}

#[test]
fn case_11_offset_without_null() {
    let mut bytes = row_2().into_bytes();
    bytes[5] = 0;
    let mut row = RowBuf::from_bytes(bytes);
    assert_eq!(row.is_null(1), Ok(false));
    assert_eq!(
        row.read(&s()).unwrap(),
        [1.into(), Value::Null, Value::Null]
    );
    assert_eq!(row.text(&s(), 1), Ok(None));
    let before = row.clone();
    assert_eq!(refused(row.set(&s(), 0, 2)), (15, 0));
    assert_eq!(row, before);
}
