//! A Rust type is held to the schema, whatever stands in the row: a null too.
use rook_row::{
    Bits, ConvertError, DataType, Date, Error, FromValue, Numeric, Reader, RowBuf, RowRef, Schema,
    Time, Timestamp, Value,
};
use std::borrow::Cow;

const FARE: DataType = DataType::Numeric {
    precision: 5,
    scale: 2,
};
const TOLL: DataType = DataType::Decimal {
    precision: 5,
    scale: 2,
};

/// Every type of a column, and the Rust type that it is read as.
const TYPES: [(DataType, &str); 16] = [
    (DataType::SmallInt, "i16"),
    (DataType::Int, "i32"),
    (DataType::BigInt, "i64"),
    (DataType::Real, "f32"),
    (DataType::DoublePrecision, "f64"),
    (FARE, "Numeric"),
    (TOLL, "Numeric"),
    (DataType::Bool, "bool"),
    (DataType::Char(1), "&str"),
    (DataType::Character(1), "&str"),
    (DataType::Varchar(1), "&str"),
    (DataType::VarcharChars(1), "&str"),
    (DataType::Date, "Date"),
    (DataType::Time, "Time"),
    (DataType::Bit(3), "Bits"),
    (DataType::Timestamp, "Timestamp"),
];

fn schema() -> Schema {
    Schema::new(TYPES.map(|(data_type, _)| data_type)).unwrap()
}

/// The row of nulls, and a row of values.
fn rows() -> [RowBuf; 2] {
    let bits: Bits = "101".parse().unwrap();
    let values = [
        4i16.into(),
        4i32.into(),
        4i64.into(),
        4f32.into(),
        4f64.into(),
        Numeric::new(4, 2).into(),
        Numeric::new(4, 2).into(),
        true.into(),
        "7".into(),
        "7".into(),
        "7".into(),
        "7".into(),
        Date::MIN.into(),
        Time::MIN.into(),
        bits.into(),
        Timestamp::MIN.into(),
    ];
    let schema = schema();
    let built = RowBuf::build(&schema, &values).unwrap();
    [RowBuf::fresh(&schema).unwrap(), built]
}

/// Holds every way to read a column as `Option<T>` to whether its type is read as a `T`: for all columns, of nulls and
/// of values, by places that are the columns' own and by others.
fn held<'r, T: FromValue<'r>>(rows: &'r [RowBuf], wanted: &str, reads: impl Fn(&str) -> bool) {
    let schema = schema();
    let backwards: Vec<usize> = (0..TYPES.len()).rev().collect();
    for row in rows {
        let (mut all, mut turned) = (
            Reader::all(&schema),
            Reader::new(&schema, &backwards).unwrap(),
        );
        let (all, turned) = (all.read(row).unwrap(), turned.read(row).unwrap());
        for (column, (data_type, rust)) in TYPES.into_iter().enumerate() {
            let one = Reader::new(&schema, &[column]).unwrap();
            let got = [
                row.get::<Option<T>>(&schema, column).map(|_| ()),
                row.get_with_width::<Option<T>>(&schema, column).map(|_| ()),
                all.get::<Option<T>>(column).map(|_| ()),
                turned
                    .get::<Option<T>>(TYPES.len() - 1 - column)
                    .map(|_| ()),
                one.clone().typed::<(Option<T>,)>().map(|_| ()),
                one.typed::<(T,)>().map(|_| ()),
            ];
            for got in got {
                match reads(rust) {
                    true => assert_eq!(got, Ok(())),
                    false => {
                        let error = got.expect_err("another type");
                        assert_eq!((error.number(), error.place()), (11, column));
                        assert_eq!(
                            error.to_string(),
                            format!("column {column}: {data_type} is not read as {wanted} (11)")
                        );
                    }
                }
            }
        }
    }
}

#[test]
fn every_type_of_every_column() {
    let rows = rows();
    macro_rules! held {
        ($($type:ty as $name:literal for $rust:literal,)*) => {
            $(held::<$type>(&rows, $name, |rust| rust == $rust);)*
        };
    }
    held! {
        i16 as "i16" for "i16",
        i32 as "i32" for "i32",
        i64 as "i64" for "i64",
        f32 as "f32" for "f32",
        f64 as "f64" for "f64",
        Numeric as "Numeric" for "Numeric",
        bool as "bool" for "bool",
        &str as "&str" for "&str",
        String as "String" for "&str",
        Cow<str> as "Cow<str>" for "&str",
        Date as "Date" for "Date",
        Time as "Time" for "Time",
        Bits as "Bits" for "Bits",
        Timestamp as "Timestamp" for "Timestamp",
    }
    held::<Value>(&rows, "", |_| true);
    held::<Option<i16>>(&rows, "i16", |rust| rust == "i16");
}

fn cars() -> Schema {
    Schema::new([
        ("unit", DataType::Varchar(16)),
        ("cars", DataType::SmallInt),
    ])
    .unwrap()
}

/// The first value makes no difference.
#[test]
fn before_and_after_the_first_value() {
    let schema = cars();
    let message = "column 1 (cars): SMALLINT is not read as i64 (11)";
    let mut row = RowBuf::fresh(&schema).unwrap();
    let refused = row.get::<Option<i64>>(&schema, "cars").unwrap_err();
    assert_eq!(refused.to_string(), message);
    row.set(&schema, "cars", 4i16).unwrap();
    assert_eq!(row.get::<Option<i64>>(&schema, "cars"), Err(refused));
    // A null is told of only where the type fits.
    row.set_null(&schema, "cars").unwrap();
    let refused = row.get::<i64>(&schema, "cars").unwrap_err();
    assert_eq!(refused.to_string(), message);
    let null = row.get::<i16>(&schema, "cars").unwrap_err();
    assert_eq!(
        null.to_string(),
        "column 1 (cars): it is null, which i16 has not, but Option<i16> (11)"
    );
    let mut reader = Reader::new(&schema, &["cars"]).unwrap();
    let columns = reader.read(&row).unwrap();
    assert_eq!(
        columns.get::<Option<i64>>("cars").unwrap_err().to_string(),
        message
    );
    assert_eq!(columns.get::<i16>("cars"), Err(null));
    assert_eq!(columns.get::<Option<i16>>("cars"), Ok(None));
}

/// It is the schema that a type is held to: the row is not looked at. A column that is not there comes before it.
#[test]
fn before_the_row() {
    let schema = cars();
    for bytes in [&[][..], &[2, 0, 1, 0x80], &[9; 20]] {
        let row = RowRef::new(bytes);
        assert_eq!(row.get::<&str>(&schema, "cars").unwrap_err().number(), 11);
        let unreadable = row.get::<&str>(&schema, "unit").unwrap_err().number();
        assert!(matches!(unreadable, 3..=6));
        assert_eq!(
            row.get::<&str>(&schema, 2),
            Err(Error::NoSuchColumn { column: 2 })
        );
    }
}

/// A refused type leaves what was read as good as before.
#[test]
fn after_a_refused_type() {
    let schema = cars();
    let row = RowBuf::build(&schema, &["ET 41".into(), 4i16.into()]).unwrap();
    for order in [["unit", "cars"], ["cars", "unit"]] {
        let mut reader = Reader::new(&schema, &order).unwrap();
        let columns = reader.read(&row).unwrap();
        for _ in 0..2 {
            assert!(columns.get::<i64>("cars").is_err());
            assert_eq!(columns.get::<&str>("unit"), Ok("ET 41"));
            assert!(columns.get::<i64>("unit").is_err());
            assert_eq!(columns.get::<i16>("cars"), Ok(4));
            assert_eq!(
                columns.get::<i16>(2),
                Err(Error::NoSuchColumn { column: 2 })
            );
        }
    }
}

#[test]
fn typed_readers() {
    let schema = cars();
    let told = |result: Result<Reader, Error>| result.map(|_| ()).map_err(|why| why.to_string());
    let reader = |columns: &[&str]| Reader::new(&schema, columns).unwrap();
    type Pair<'a> = (Option<i16>, &'a str);
    assert_eq!(told(reader(&["cars", "unit"]).typed::<Pair>()), Ok(()));
    let message = |text: &str| Err(text.to_string());
    assert_eq!(
        told(reader(&["unit", "cars"]).typed::<Pair>()),
        message("column 0 (unit): VARCHAR(16) is not read as i16 (11)")
    );
    // Columns behind the last type are not looked at; a type behind the last column has none.
    assert_eq!(
        told(reader(&["cars", "unit", "cars"]).typed::<Pair>()),
        Ok(())
    );
    assert_eq!(
        told(reader(&["cars"]).typed::<Pair>()),
        message("there is no column 1 (9)")
    );
    assert_eq!(
        told(reader(&["cars", "cars"]).typed::<(i16, i16)>()),
        Ok(())
    );
    assert_eq!(
        told(reader(&["cars", "cars"]).typed::<(i16, i16, i16)>()),
        message("there is no column 2 (9)")
    );
    // Sixteen types, as many as there are.
    type Sixteen<'a> = (
        i16,
        i32,
        i64,
        f32,
        f64,
        Numeric,
        Numeric,
        bool,
        &'a str,
        String,
        Cow<'a, str>,
        Value<'a>,
        Date,
        Time,
        Bits<'a>,
        Timestamp,
    );
    assert!(Reader::all(&self::schema()).typed::<Sixteen>().is_ok());
}

/// A type of one's own that says nothing of columns takes what its `from_value` takes, and its null is a null.
#[derive(Debug, PartialEq)]
struct Any(String);

impl<'a> FromValue<'a> for Any {
    fn from_value(value: Value<'a>) -> Result<Any, ConvertError> {
        match value {
            Value::Int(_) => Err(ConvertError::new(&value, "Any")),
            value => Ok(Any(value.to_string())),
        }
    }
}

#[test]
fn types_of_ones_own() {
    let schema = Schema::new([DataType::SmallInt, DataType::Int]).unwrap();
    let row = RowBuf::build(&schema, &[4i16.into(), Value::Null]).unwrap();
    assert_eq!(row.get::<Any>(&schema, 0), Ok(Any("4".into())));
    assert_eq!(row.get::<Option<Any>>(&schema, 1), Ok(None));
    let row = RowBuf::build(&schema, &[4i16.into(), 4.into()]).unwrap();
    let refused = row.get::<Option<Any>>(&schema, 1).unwrap_err();
    assert_eq!(refused.to_string(), "column 1: INT is not read as Any (11)");
}
