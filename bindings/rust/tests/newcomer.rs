//! What one types first.
use rook_row::{
    Builder, DataType, Date, Editor, Error, Numeric, Reader, RowBuf, RowMut, RowRef, Schema, Time,
    Timestamp, Value,
};

fn schema() -> Schema {
    Schema::new([
        ("platform", DataType::Varchar(4)),
        ("unit", DataType::Varchar(16)),
        ("arrival", DataType::Timestamp),
        ("cars", DataType::SmallInt),
        ("train", DataType::Int),
        ("metres", DataType::BigInt),
        ("track", DataType::Char(2)),
        (
            "fare",
            DataType::Numeric {
                precision: 5,
                scale: 2,
            },
        ),
    ])
    .unwrap()
}

fn arrival() -> Timestamp {
    "2026-11-16T06:12:00".parse().unwrap()
}

fn row() -> RowBuf {
    let values = [
        "7".into(),
        "ET 41".into(),
        arrival().into(),
        4i16.into(),
        41_007.into(),
        120i64.into(),
        "a".into(),
        Numeric::new(-56, 2).into(),
    ];
    RowBuf::build(&schema(), &values).unwrap()
}

#[test]
fn a_schema_is_checked_when_it_is_made() {
    let types = vec![DataType::Int, DataType::Varchar(5)];
    assert!(Schema::new(&types).is_ok() && Schema::new(types).is_ok());
    assert!(Schema::new(vec![DataType::Bool; 257]).is_err());
    let parsed: Vec<DataType> = ["INT", "VARCHAR(5)"]
        .iter()
        .map(|s| s.parse().unwrap())
        .collect();
    assert!(Schema::new(parsed).is_ok());
    let named = [(String::from("unit"), DataType::Int)];
    assert!(Schema::new(&named).is_ok() && Schema::new(named).is_ok());
}

#[test]
fn a_schema_is_read_back() {
    let schema = schema();
    assert_eq!(schema.column("cars"), Ok(3));
    assert_eq!(schema.name(3), Some("cars"));
    assert_eq!(schema.data_type(3), Some(DataType::SmallInt));
    assert_eq!(schema.types().len(), 8);
    assert_eq!(schema.columns()[6].name(), Some("track"));
    assert_eq!(schema.columns()[6].data_type(), DataType::Char(2));
    let mixed = Schema::new([DataType::Int]).unwrap();
    assert_eq!((mixed.name(0), mixed.column("cars").is_err()), (None, true));
}

#[test]
fn types_are_read_from_text() {
    assert_eq!("VARCHAR(16)".parse(), Ok(DataType::Varchar(16)));
    for text in ["VARCHAR(16 CHARACTERS)", "varchar ( 16  char ) "] {
        assert_eq!(text.parse(), Ok(DataType::VarcharChars(16)));
    }
    assert_eq!(
        " numeric ( 10 , 2 ) ".parse(),
        Ok(DataType::Numeric {
            precision: 10,
            scale: 2
        })
    );
    assert_eq!(
        "DECIMAL(7)".parse(),
        Ok(DataType::Decimal {
            precision: 7,
            scale: 0
        })
    );
    assert_eq!("integer".parse(), Ok(DataType::Int));
    assert_eq!("bool".parse(), Ok(DataType::Bool));
    for text in [
        "",
        "VARCHAR",
        "VARCHAR()",
        "VARCHAR(65536)",
        "VARCHAR(65536 CHARACTERS)",
        "VARCHAR(16 BITS)",
        "VARCHAR(16CHARACTERS)",
        "VARCHAR(CHARACTERS)",
        "VARCHAR(16 CHARACTERS 2)",
        "CHAR(16 CHARACTERS)",
        "CHAR(4",
        "INT(4)",
        "NUMERIC(a,2)",
    ] {
        let error = text.parse::<DataType>().unwrap_err();
        assert_eq!(error.to_string(), format!("{text:?} is not a data type"));
    }
}

#[test]
fn columns_are_got_by_type() {
    let (schema, row) = (schema(), row());
    assert_eq!(row.get::<i32>(&schema, "train"), Ok(41_007));
    assert_eq!(row.get::<i16>(&schema, 3), Ok(4));
    assert_eq!(row.get::<&str>(&schema, "unit"), Ok("ET 41"));
    assert_eq!(row.get::<String>(&schema, "track"), Ok("a ".into()));
    assert_eq!(row.get::<Option<i64>>(&schema, "metres"), Ok(Some(120)));
    assert_eq!(row.get::<Timestamp>(&schema, "arrival"), Ok(arrival()));
    let fare: Numeric = row.get(&schema, "fare").unwrap();
    assert_eq!(fare.to_string(), "-0.56");
}

#[test]
fn columns_are_set_to_what_one_has() {
    let (schema, mut row) = (schema(), row());
    row.set(&schema, "cars", 5i16).unwrap();
    row.set(&schema, "platform", "12b").unwrap();
    row.set(&schema, "unit", String::from("ET 42")).unwrap();
    let track = String::from("b");
    row.set(&schema, "track", &track).unwrap();
    row.set(&schema, "metres", None::<i64>).unwrap();
    row.set(&schema, "train", Some(7)).unwrap();
    row.set(&schema, "arrival", Value::Timestamp(arrival()))
        .unwrap();
    assert_eq!(row.get(&schema, "cars"), Ok(5i16));
    assert_eq!(row.get(&schema, "platform"), Ok("12b"));
    assert_eq!(row.get(&schema, "unit"), Ok("ET 42"));
    assert_eq!(row.get(&schema, "track"), Ok("b "));
    assert_eq!(row.get(&schema, "metres"), Ok(None::<i64>));
    assert_eq!(row.get(&schema, "train"), Ok(Some(7)));
}

/// Values outlive the function's own wrappers.
fn all<'a>(schema: &Schema, page: &'a [u8]) -> Result<Vec<Value<'a>>, Error> {
    RowRef::new(page).read(schema)
}

#[test]
fn values_live_as_long_as_the_bytes() {
    let row = row();
    let values = all(&schema(), row.as_bytes()).unwrap();
    assert_eq!(values[1], "ET 41".into());
    let unit: &str = {
        let view = row.as_row();
        view.get(&schema(), "unit").unwrap()
    };
    assert_eq!(unit, "ET 41");
}

#[test]
fn values_are_made_of_and_turned_into_rust_types() {
    assert_eq!(Value::from(4), Value::Int(4));
    assert_eq!(Value::from(None::<i32>), Value::Null);
    assert_eq!(Value::from(Some("7")), Value::from("7"));
    let n: i64 = Value::from(4i64).try_into().unwrap();
    let text: String = Value::from("7").try_into().unwrap();
    let borrowed: &str = Value::from("7").try_into().unwrap();
    assert_eq!((n, text.as_str(), borrowed), (4, "7", "7"));
    let error = i32::try_from(Value::from("7")).unwrap_err();
    assert_eq!(error.to_string(), "a text is not read as i32");
    assert!(Value::Null.is_null() && !Value::from(false).is_null());
    assert_eq!(Value::default(), Value::Null);
}

#[test]
fn values_print() {
    let printed = |value: Value| value.to_string();
    assert_eq!(printed(Value::Null), "null");
    assert_eq!(printed((-7i16).into()), "-7");
    assert_eq!(printed(2.5f32.into()), "2.5");
    assert_eq!(printed(true.into()), "true");
    assert_eq!(printed("ET 41".into()), "ET 41");
    for (unscaled, scale, text) in [
        (-56, 2, "-0.56"),
        (56, 2, "0.56"),
        (-1234, 2, "-12.34"),
        (5, 3, "0.005"),
        (-7, 0, "-7"),
        (0, 1, "0.0"),
        (i128::MIN, 38, "-1.70141183460469231731687303715884105728"),
    ] {
        assert_eq!(printed(Numeric::new(unscaled, scale).into()), text);
        assert_eq!(text.parse(), Ok(Numeric::new(unscaled, scale)));
    }
    assert_eq!(
        printed(Date::from_ymd(2024, 2, 29).unwrap().into()),
        "2024-02-29"
    );
    assert_eq!(
        printed(Time::from_hms(6, 12, 30).unwrap().into()),
        "06:12:30"
    );
    assert_eq!(printed(Time::from_micros(1).into()), "00:00:00.000001");
    assert_eq!(printed(arrival().into()), "2026-11-16T06:12:00");
    assert_eq!(
        printed(Timestamp::from_micros(-1).into()),
        "1969-12-31T23:59:59.999999"
    );
    assert_eq!(
        format!("{:>6}|{:<5}|", Value::from(4), Value::from("7")),
        "     4|7    |"
    );
    assert_eq!(
        format!("{:>8}", Value::from(Numeric::new(-56, 2))),
        "   -0.56"
    );
}

#[test]
fn values_have_an_order() {
    assert!(Value::from(1) < Value::from(2));
    assert!(Value::from("12b") < Value::from("7"));
    assert!(Value::from(Numeric::new(-56, 2)) < Value::from(Numeric::new(7, 2)));
    assert!(Value::from(Date::MIN) < Value::from(Date::MAX));
    assert!(Value::from(false) < Value::from(true));
    assert_eq!(Value::from(0.0), Value::from(-0.0));
    assert_eq!(Value::from(f64::NAN), Value::from(f64::NAN));
    for (a, b) in [
        (Value::from(1), Value::from(1i64)),
        (Value::Null, Value::from(1)),
        (Value::from(f64::NAN), Value::from(1.0)),
        (
            Value::from(Numeric::new(10, 1)),
            Value::from(Numeric::new(100, 2)),
        ),
    ] {
        assert_eq!((a.partial_cmp(&b), a == b), (None, false));
    }
    let mut platforms = [Value::from("7"), Value::from("12b"), Value::from("2")];
    platforms.sort_by(|a, b| a.partial_cmp(b).unwrap());
    assert_eq!(platforms.map(|value| value.to_string()), ["12b", "2", "7"]);
}

#[test]
fn errors_say_why() {
    let refused = row().set(&schema(), "platform", "depot 99").unwrap_err();
    let message = "column 0 (platform): 8 bytes do not fit VARCHAR(4) (12)";
    assert_eq!(refused.to_string(), message);
    match refused {
        Error::Unsuitable { column, .. } => {
            assert_eq!((column.number(), column.name()), (0, Some("platform")));
        }
        other => panic!("{other}"),
    }
}

fn sum(schema: &Schema, rows: &[RowBuf]) -> Result<i32, Box<dyn std::error::Error>> {
    let mut reader = Reader::new(schema, &["train"])?;
    let mut sum = 0;
    for row in rows {
        sum += reader.read(row)?.get::<i32>(0)?;
    }
    Ok(sum)
}

#[test]
fn errors_are_std_errors() {
    assert_eq!(sum(&schema(), &[row(), row()]).unwrap(), 82_014);
}

/// Rows, readers and the rest can be kept in a struct and sent to another thread.
#[test]
fn kept_and_sent() {
    struct Table {
        reader: Reader,
        builder: Builder,
        editor: Editor,
        rows: Vec<RowBuf>,
    }
    let schema = schema();
    let mut table = Table {
        reader: Reader::all(&schema),
        builder: Builder::new(&schema),
        editor: Editor::new(&schema),
        rows: vec![row()],
    };
    let read = std::thread::spawn(move || {
        let values = table.rows[0].read(&schema).unwrap();
        let built = table.builder.build(&values).unwrap();
        table.editor.open(built);
        table.reader.read(table.editor.row()).unwrap().len()
    });
    assert_eq!(read.join().unwrap(), 8);
}

#[test]
fn lent_memory() {
    let schema = schema();
    let mut page = [0; 256];
    let mut row = RowMut::fresh(&schema, &mut page).unwrap();
    row.set(&schema, "platform", "7").unwrap();
    assert_eq!(row.get::<Option<&str>>(&schema, "platform"), Ok(Some("7")));
}
