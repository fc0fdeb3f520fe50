//! Each refusal: its number, place and message, and that it changes nothing.
use rook_row::raw::Refusal;
use rook_row::{
    Bits, Builder, Column, DataType, Date, Editor, Error, Numeric, Reader, RowBuf, RowMut, RowRef,
    Schema, Sort, Time, Timestamp, Value,
};

fn s() -> Schema {
    Schema::new([
        ("train", DataType::Int),
        ("unit", DataType::Varchar(5)),
        ("cars", DataType::SmallInt),
    ])
    .unwrap()
}

/// 1, "AB", null.
fn row() -> RowBuf {
    RowBuf::build(&s(), &[1.into(), "AB".into(), Value::Null]).unwrap()
}

/// The row with another byte at a place.
fn with(at: usize, byte: u8) -> RowBuf {
    let mut bytes = row().into_bytes();
    bytes[at] = byte;
    RowBuf::from_bytes(bytes)
}

fn told<T>(result: Result<T, Error>, number: u32, place: usize, message: &str) {
    let error = result.err().expect("a refusal");
    assert_eq!((error.number(), error.place()), (number, place));
    let error: &dyn std::error::Error = &error;
    assert_eq!(error.to_string(), format!("{message} ({number})"));
}

#[test]
fn schema_record() {
    let unknown = Schema::from_bytes(&[2, 11, 5, 0, 17]);
    assert_eq!(unknown, Err(Error::BadRecord { at: 4, column: 2 }));
    told(
        unknown,
        1,
        4,
        "schema: the type of column 2 is unknown or cut off",
    );
    let cut = Schema::from_bytes(&[2, 11, 5]);
    assert_eq!(cut, Err(Error::BadRecord { at: 1, column: 1 }));
}

#[test]
fn schema_limits() {
    let fare = |precision, scale| {
        let columns = [
            ("unit", DataType::Varchar(9)),
            ("fare", DataType::Numeric { precision, scale }),
        ];
        Schema::new(columns)
    };
    let rule = "but a precision is 1 to 38, and a scale not above it";
    let message = |name| format!("schema: column 1 (fare): {name}, {rule}");
    told(fare(39, 0), 2, 3, &message("NUMERIC(39,0)"));
    told(fare(4, 5), 2, 3, &message("NUMERIC(4,5)"));

    let many = Schema::new([DataType::Varchar(9); 257]);
    told(many, 2, 768, "schema: it has more than 256 columns");
    let bytes = vec![8; 257];
    told(
        Schema::from_bytes(&bytes),
        2,
        256,
        "schema: it has more than 256 columns",
    );

    let long = Schema::new([DataType::Char(65_535); 17]);
    told(
        long,
        2,
        51,
        "schema: its long rows would pass 1048576 bytes",
    );

    let twice = Schema::new([
        ("unit", DataType::Int),
        ("cars", DataType::Int),
        ("unit", DataType::Int),
    ]);
    told(
        twice,
        2,
        2,
        "schema: column 2 (unit): an earlier column has this name",
    );
}

#[test]
fn rows_of_another_shape() {
    let read = |row: &RowBuf| row.read(&s()).map(|_| ());
    let short = |n| {
        format!("the row has {n} bytes, fewer than its header says or than every row of the schema")
    };
    told(read(&RowBuf::from_bytes([3, 0, 1])), 3, 0, &short(3));
    told(
        read(&RowBuf::from_bytes(&row().as_bytes()[..12])),
        3,
        0,
        &short(12),
    );
    told(RowRef::new(&[3, 0, 1, 0x80]).is_null(0), 3, 0, &short(4));
    let long = RowBuf::from_bytes(vec![0; 65_536]);
    told(
        read(&long),
        4,
        0,
        "the row has 65536 bytes, but 65535 are the most of a short row",
    );
    told(
        read(&with(0, 4)),
        5,
        0,
        "the row has 4 columns, the schema 3",
    );
    told(
        read(&with(2, 2)),
        6,
        0,
        "the row has 2 Varchars, the schema 1",
    );
}

#[test]
fn columns_that_cannot_be_read() {
    let bad = with(5, 16);
    let leaves = "column 1 (unit): its text leaves the row";
    told(bad.read(&s()), 7, 1, leaves);
    told(bad.get::<&str>(&s(), "unit"), 7, 1, leaves);
    told(bad.text(&s(), "unit"), 7, 1, leaves);
    told(bad.same_content(&s(), row().as_row()), 7, 1, leaves);
    told(row().same_content(&s(), bad.as_row()), 7, 1, leaves);
    assert_eq!(bad.read_columns(&s(), &["train"]).unwrap(), [Value::Int(1)]);
    let no_text = "column 1 (unit): its bytes are no VARCHAR(5)";
    told(with(13, 0xFF).read(&s()), 8, 1, no_text);
    let mut reader = Reader::new(&s(), &["unit", "train"]).unwrap();
    told(reader.read(&with(13, 0xFF)).map(|_| ()), 8, 1, no_text);
}

/// A range inside the row that starts past its end.
#[test]
fn ranges_that_go_backwards() {
    let schema = Schema::new([DataType::Varchar(5), DataType::Varchar(5)]).unwrap();
    let mut bytes = RowBuf::build(&schema, &["AB".into(), "CD".into()])
        .unwrap()
        .into_bytes();
    // Header and bitmap have five bytes; the two offsets come after them.
    assert_eq!(bytes[5..9], [9, 0, 11, 0]);
    bytes[5..9].copy_from_slice(&[11, 0, 9, 0]);
    let message = "column 0: its text leaves the row";
    told(RowRef::new(&bytes).read(&schema), 7, 0, message);
    assert_eq!(RowRef::new(&bytes).get::<&str>(&schema, 1), Ok("ABCD"));
}

/// The refusal of a pair of rows tells of the row that cannot be read.
#[test]
fn the_refused_one_of_two_rows() {
    let message = "the row has 4 columns, the schema 3";
    told(row().same_content(&s(), with(0, 4).as_row()), 5, 0, message);
    told(with(0, 4).same_content(&s(), row().as_row()), 5, 0, message);
}

#[test]
fn no_such_column() {
    let mut row = row();
    told(row.is_null(3), 9, 0, "there is no column 3");
    told(row.text(&s(), 4), 9, 0, "there is no column 4");
    told(row.set(&s(), 5, 1), 9, 0, "there is no column 5");
    told(row.set_null(&s(), 6), 9, 0, "there is no column 6");
    told(row.get::<i32>(&s(), 7), 9, 0, "there is no column 7");
    told(
        row.get::<i32>(&s(), 70_000),
        9,
        0,
        "there is no column 70000",
    );
    told(Reader::new(&s(), &[0, 8]), 9, 0, "there is no column 8");
    told(
        Reader::new(&s(), &[65_536]),
        9,
        0,
        "there is no column 65536",
    );
    let message = "there is no column named track";
    told(s().column("track"), 9, 0, message);
    told(row.get::<i32>(&s(), "track"), 9, 0, message);
    told(row.set(&s(), "track", 1), 9, 0, message);
    told(Reader::new(&s(), &["unit", "track"]), 9, 0, message);
}

#[test]
fn value_lists() {
    told(
        RowBuf::build(&s(), &[1.into()]),
        10,
        5,
        "1 values for 3 columns",
    );
    let many = vec![Value::Null; 300];
    told(
        RowBuf::build(&s(), &many),
        10,
        300,
        "300 values for 3 columns",
    );
    let long = "x".repeat(65_536);
    let message = "the texts have 65536 bytes together, but 65535 are the most of a short row";
    let values = [Value::Null, (&long).into(), Value::Null];
    told(RowBuf::build(&s(), &values), 10, 0, message);
    told(row().set(&s(), 1, &long), 10, 0, message);
}

/// A value that a newer library read cannot be handed back to it by this crate.
#[test]
fn values_of_unknown_kind() {
    let message = "a value is of unknown kind";
    // Some of these the library knows, but only with what stands behind the kind.
    for kind in [1, 9, 12, 14, 16, 17, 18, 19, 20, 255] {
        let unknown = Value::Unknown { kind };
        told(row().set(&s(), 1, &unknown), 10, 0, message);
        let values = [Value::Null, unknown, 7i64.into()];
        told(RowBuf::build(&s(), &values), 10, 1, message);
    }
}

#[test]
fn values_of_another_kind() {
    let values = [1.into(), Value::Null, 1.into()];
    let message = "column 2 (cars): an INT is given, but it is SMALLINT";
    told(RowBuf::build(&s(), &values), 11, 2, message);
    told(row().set(&s(), "cars", 1), 11, 2, message);
    told(
        row().set(&s(), "cars", "1"),
        11,
        2,
        "column 2 (cars): a text is given, but it is SMALLINT",
    );
    told(
        row().set(&s(), "cars", Value::Null),
        11,
        2,
        "column 2 (cars): set does not take null, set_null does",
    );
    told(
        row().text(&s(), "cars"),
        11,
        2,
        "column 2 (cars): SMALLINT has no text",
    );
}

#[test]
fn columns_read_as_another_type() {
    let row = row();
    told(
        row.get::<i32>(&s(), "unit"),
        11,
        1,
        "column 1 (unit): VARCHAR(5) is not read as i32",
    );
    told(
        row.get::<&str>(&s(), "train"),
        11,
        0,
        "column 0 (train): INT is not read as &str",
    );
    let message = "column 2 (cars): it is null, which i16 has not, but Option<i16>";
    told(row.get::<i16>(&s(), "cars"), 11, 2, message);
    let mut reader = Reader::new(&s(), &["cars", "unit"]).unwrap();
    let columns = reader.read(&row).unwrap();
    told(columns.get::<i16>(0), 11, 2, message);
    told(
        columns.get::<bool>("unit"),
        11,
        1,
        "column 1 (unit): VARCHAR(5) is not read as bool",
    );
    told(
        columns.get::<i32>("train"),
        9,
        0,
        "there is no column named train",
    );
    told(columns.get::<i32>(2), 9, 0, "there is no column 2");
}

/// A row of nulls of one column, which is set to a value that its type does not hold.
fn unsuitable<'v>(column: impl Into<Column>, value: impl Into<Value<'v>>, message: &str) {
    let schema = Schema::new([column]).unwrap();
    let value = value.into();
    let mut row = RowBuf::fresh(&schema).unwrap();
    told(row.set(&schema, 0, &value), 12, 0, message);
    assert_eq!(row, RowBuf::fresh(&schema).unwrap());
    told(RowBuf::build(&schema, &[value]), 12, 0, message);
}

#[test]
fn values_that_do_not_suit() {
    unsuitable(
        ("unit", DataType::Varchar(4)),
        "depot 99",
        "column 0 (unit): 8 bytes do not fit VARCHAR(4)",
    );
    unsuitable(
        ("station", DataType::VarcharChars(8)),
        "Zürich HB",
        "column 0 (station): 9 characters do not fit VARCHAR(8 CHARACTERS)",
    );
    unsuitable(
        DataType::Char(1),
        "é",
        "column 0: 2 bytes do not fit CHAR(1)",
    );
    let fare = DataType::Numeric {
        precision: 4,
        scale: 2,
    };
    unsuitable(
        fare,
        Numeric::new(5, 1),
        "column 0: scale 1 is not that of NUMERIC(4,2)",
    );
    unsuitable(
        fare,
        Numeric::new(-12_345, 2),
        "column 0: 5 digits do not fit NUMERIC(4,2)",
    );
    let most = DataType::Decimal {
        precision: 38,
        scale: 0,
    };
    unsuitable(
        most,
        Numeric::new(i128::MIN, 0),
        "column 0: 39 digits do not fit DECIMAL(38,0)",
    );
    let bits: Bits = "1010101010".parse().unwrap();
    unsuitable(
        DataType::Bit(11),
        bits.clone(),
        "column 0: 10 bits are not those of BIT(11)",
    );
    unsuitable(
        DataType::Bit(2),
        bits,
        "column 0: 10 bits are not those of BIT(2)",
    );
    let range = "0001-01-01 to 9999-12-31";
    let day = Date::from_days(2_932_897);
    unsuitable(
        DataType::Date,
        day,
        &format!("column 0: 10000-01-01 is not within {range}"),
    );
    unsuitable(
        DataType::Time,
        Time::from_micros(86_400_000_000),
        "column 0: 24:00:00 is not within 00:00:00 to 23:59:59.999999",
    );
    unsuitable(
        DataType::Timestamp,
        Timestamp::from_micros(253_402_300_800_000_000),
        "column 0: 10000-01-01T00:00:00 is not within 0001-01-01T00:00:00 to 9999-12-31T23:59:59.999999",
    );
}

#[test]
fn rows_above_the_limit() {
    let schema = Schema::new([DataType::Varchar(65_535)]).unwrap();
    let text = "x".repeat(65_529);
    told(
        RowBuf::build(&schema, &[text.into()]),
        13,
        0,
        "the row would pass 65535 bytes, the most of a short row",
    );
}

/// Each refusal that depends on the sort of a row names the limit of its sort.
#[test]
fn limits_of_the_long_sort() {
    let schema = Schema::new(vec![DataType::VarcharChars(65_535); 17]).unwrap();
    let long = schema.with_sort(Sort::Long);
    let mut row = RowBuf::fresh(long).unwrap();
    let mut bytes = row.clone().into_bytes();
    bytes.resize(1_048_577, b'x');
    let message = "the row has 1048577 bytes, but 1048576 are the most of a long row";
    told(RowRef::new(&bytes).read(&schema), 4, 0, message);
    told(RowRef::new(&bytes).is_null(0), 4, 0, message);

    // 16 columns of 65,535 characters of a byte each are 16 bytes short of 1,048,576.
    let most = "x".repeat(65_535);
    let mut values = vec![Value::from(&most); 17];
    values[16] = "x".repeat(17).into();
    let message = "the texts have 1048577 bytes together, but 1048576 are the most of a long row";
    told(RowBuf::build(long, &values), 10, 0, message);
    values[16] = "x".repeat(16).into();
    let message = "the row would pass 1048576 bytes, the most of a long row";
    told(RowBuf::build(long, &values), 13, 0, message);
    for column in 0..15 {
        row.set(&schema, column, &most).unwrap();
    }
    let before = row.clone();
    told(row.set(&schema, 15, &most), 13, 0, message);
    assert_eq!(row, before);
}

/// A schema whose short rows would be too long serves long ones.
#[test]
fn schemas_of_long_rows_alone() {
    let schema = Schema::new([DataType::Char(65_000), DataType::Character(65_000)]).unwrap();
    let message = "schema: its short rows would pass 65535 bytes";
    let values = [Value::Null, Value::Null];
    told(RowBuf::fresh(&schema), 2, 6, message);
    told(RowBuf::build(&schema, &values), 2, 6, message);
    told(Builder::new(&schema).build(&values), 2, 6, message);
    told(RowMut::build(&schema, &values, &mut [0; 9]), 2, 6, message);
    let short = RowRef::new(&[2, 0, 0, 0x80, 3]);
    told(short.read(&schema), 2, 6, message);
    told(short.text(&schema, 0), 2, 6, message);
    told(short.to_owned().set_null(&schema, 0), 2, 6, message);
    let mut editor = Editor::new(&schema);
    told(editor.set(0, "x"), 2, 6, message);
    assert_eq!(editor.row().as_bytes(), []);

    let long = RowBuf::fresh(schema.with_sort(Sort::Long)).unwrap();
    assert_eq!(long.as_bytes().len(), 5 + 130_000);
    told(long.same_content(&schema, short), 2, 6, message);
    told(short.same_content(&schema, long.as_row()), 2, 6, message);
    editor.open(long.as_row());
    editor.set(0, "x").unwrap();
    let read = editor.row().read(&schema).unwrap();
    assert_eq!(read, [format!("{:65000}", "x").into(), Value::Null]);
}

#[test]
fn short_buffers() {
    let message = "the buffer is too short for the row";
    let values = [1.into(), "AB".into(), Value::Null];
    let mut buffer = [0xEE; 16];
    told(RowMut::fresh(&s(), &mut buffer[..12]), 14, 0, message);
    told(
        RowMut::build(&s(), &values, &mut buffer[..14]),
        14,
        0,
        message,
    );
    assert_eq!(buffer, [0xEE; 16]);
    let mut row = RowMut::build(&s(), &values, &mut buffer).unwrap();
    told(row.set(&s(), 1, "ABCD"), 14, 0, message);
    assert_eq!((row.len(), row.as_row()), (15, self::row().as_row()));
    let mut beyond = RowMut::new(&mut buffer, 17);
    told(beyond.set_null(&s(), 0), 14, 0, message);
    assert_eq!((beyond.len(), beyond.as_row().as_bytes().len()), (17, 16));
}

#[test]
fn rows_that_are_not_sound() {
    let message = "the row is not sound, so it cannot be edited";
    told(with(5, 0).set(&s(), 0, 2), 15, 0, message);
    told(
        RowBuf::from_bytes(vec![0; 65_536]).set_null(&s(), 0),
        15,
        0,
        message,
    );
}

#[test]
fn raw_refusals_print_too() {
    let refusal = Refusal {
        number: 9,
        place: 0,
    };
    assert_eq!(refusal.to_string(), "refused with 9 at 0");
}
