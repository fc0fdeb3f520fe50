//! Every type there and back, and rows in memory of their own, borrowed and lent.
use rook_row::{
    Bits, Builder, DataType, Date, Editor, Numeric, RowBuf, RowMut, RowRef, Schema, Time,
    Timestamp, Value,
};

fn bits(text: &str) -> Value<'static> {
    text.parse::<Bits>().unwrap().into()
}

fn pairs() -> Vec<(DataType, Value<'static>)> {
    let numeric = |precision, scale| DataType::Numeric { precision, scale };
    let decimal = |precision, scale| DataType::Decimal { precision, scale };
    vec![
        (DataType::SmallInt, i16::MIN.into()),
        (DataType::Int, (-2).into()),
        (DataType::BigInt, i64::MAX.into()),
        (DataType::Real, (-0.5f32).into()),
        (DataType::DoublePrecision, f64::INFINITY.into()),
        (numeric(38, 38), Numeric::new(1 - 10i128.pow(38), 38).into()),
        (decimal(7, 2), Numeric::new(1_234_567, 2).into()),
        (DataType::Bool, true.into()),
        (DataType::Char(7), "Zürich".into()),
        (DataType::Character(3), "abc".into()),
        (DataType::Varchar(8), "東京".into()),
        (DataType::Date, Date::MIN.into()),
        (DataType::Time, Time::MAX.into()),
        (DataType::Bit(11), bits("10100101111")),
        (DataType::Timestamp, Timestamp::MAX.into()),
        (DataType::Varchar(0), "".into()),
        (DataType::VarcharChars(2), "東京".into()),
    ]
}

fn columns() -> (Schema, Vec<Value<'static>>) {
    let (types, values): (Vec<_>, Vec<_>) = pairs().into_iter().unzip();
    (Schema::new(types).unwrap(), values)
}

#[test]
fn every_type_has_its_record_and_its_name() {
    let records: [(&str, &[u8]); 16] = [
        ("SMALLINT", &[1]),
        ("INT", &[2]),
        ("BIGINT", &[3]),
        ("REAL", &[4]),
        ("DOUBLE PRECISION", &[5]),
        ("NUMERIC(4,2)", &[6, 4, 2]),
        ("DECIMAL(5,0)", &[7, 5, 0]),
        ("BOOLEAN", &[8]),
        ("CHAR(3)", &[9, 3, 0]),
        ("CHARACTER(300)", &[10, 0x2C, 1]),
        ("VARCHAR(16)", &[11, 16, 0]),
        ("DATE", &[12]),
        ("TIME", &[13]),
        ("BIT(11)", &[14, 11, 0]),
        ("TIMESTAMP", &[15]),
        ("VARCHAR(300 CHARACTERS)", &[16, 0x2C, 1]),
    ];
    for (name, record) in records {
        let data_type: DataType = name.parse().unwrap();
        let schema = Schema::new([data_type]).unwrap();
        assert_eq!(schema.as_bytes(), record);
        assert_eq!(
            Schema::from_bytes(record).unwrap().data_type(0),
            Some(data_type)
        );
        assert_eq!(data_type.to_string(), name);
        assert_eq!(name.to_lowercase().parse(), Ok(data_type));
    }
}

#[test]
fn every_type_is_read_back() {
    let (schema, values) = columns();
    assert_eq!(schema.len(), 17);
    assert_eq!(Schema::from_bytes(schema.as_bytes()), Ok(schema.clone()));
    let row = RowBuf::build(&schema, &values).unwrap();
    assert_eq!(row.read(&schema).unwrap(), values);
    for (column, value) in values.iter().enumerate() {
        assert_eq!(&row.get::<Value>(&schema, column).unwrap(), value);
    }
}

#[test]
fn every_type_is_set() {
    let (schema, values) = columns();
    let mut row = RowBuf::fresh(&schema).unwrap();
    let mut editor = Editor::new(&schema);
    for (column, value) in values.iter().enumerate().rev() {
        row.set(&schema, column, value).unwrap();
        editor.set(column, value).unwrap();
    }
    assert_eq!(row, RowBuf::build(&schema, &values).unwrap());
    assert_eq!(editor.row(), row.as_row());
    for column in 0..values.len() {
        row.set_null(&schema, column).unwrap();
        assert_eq!(row.is_null(column), Ok(true));
    }
    let fresh = RowBuf::fresh(&schema).unwrap();
    assert_eq!(row.as_bytes().len(), fresh.as_bytes().len());
    assert_eq!(row.same_content(&schema, fresh.as_row()), Ok(true));
}

/// Rows of the schemas whose rows are longest for their number of columns, so that the room made for them is seen
/// to do.
#[test]
fn room_for_every_schema() {
    let pairs = [
        (
            DataType::Numeric {
                precision: 38,
                scale: 0,
            },
            Numeric::new(1, 0).into(),
        ),
        (DataType::Varchar(9), "platform9".into()),
        (DataType::VarcharChars(9), "😀".repeat(9).into()),
        (DataType::Char(200), Value::from("é".repeat(100))),
        (DataType::Bit(1), bits("1")),
        (DataType::Bit(2000), bits(&"10".repeat(1000))),
    ];
    for (data_type, value) in pairs {
        for columns in [0, 1, 7, 8, 9, 256] {
            let schema = Schema::new(vec![data_type; columns]).unwrap();
            assert_eq!(
                RowBuf::fresh(&schema).unwrap().as_bytes().len(),
                schema.minimum()
            );
            let values = vec![value.clone(); columns];
            let row = RowBuf::build(&schema, &values).unwrap();
            assert_eq!(row.read(&schema).unwrap(), values);
        }
    }
    let schema = Schema::new([DataType::Char(65_530)]).unwrap();
    assert_eq!(RowBuf::fresh(&schema).unwrap().as_bytes().len(), 65_535);
}

#[test]
fn a_char_has_its_blanks() {
    let schema = Schema::new([DataType::Char(4)]).unwrap();
    let row = RowBuf::build(&schema, &["T1".into()]).unwrap();
    assert_eq!(row.read(&schema).unwrap(), ["T1  ".into()]);
    assert_eq!(row.text(&schema, 0), Ok(Some("T1  ")));
    let empty = Schema::new([DataType::Char(0)]).unwrap();
    let mut row = RowBuf::fresh(&empty).unwrap();
    assert_eq!(row.text(&empty, 0), Ok(None));
    row.set(&empty, 0, "").unwrap();
    assert_eq!(row.text(&empty, 0), Ok(Some("")));
}

#[test]
fn spare_bits_do_not_count() {
    let schema = Schema::new([DataType::Bit(3)]).unwrap();
    let given = Bits::new(vec![0xBF], 3).unwrap();
    let built = RowBuf::build(&schema, &[given.clone().into()]).unwrap();
    let read: Bits = built.get(&schema, 0).unwrap();
    assert_eq!((read.as_bytes(), &read), (&[0xA0][..], &given));
    let stored = RowRef::new(&[1, 0, 0, 0x80, 0, 0xBF]);
    assert_eq!(stored.get::<Bits>(&schema, 0), Ok(given));
    assert_eq!(stored.same_content(&schema, built.as_row()), Ok(true));
    assert_eq!(Bits::new(vec![0xBF], 9), None);
    assert_ne!(bits("101"), bits("1010"));
}

/// The equality of values is the format's same content.
#[test]
fn same_content_by_value() {
    let schema = Schema::new([DataType::Real, DataType::DoublePrecision]).unwrap();
    let row = |x: f32, y: f64| RowBuf::build(&schema, &[x.into(), y.into()]).unwrap();
    let zero = row(0.0, f64::NAN);
    for (other, same) in [
        (row(-0.0, -f64::NAN), true),
        (zero.clone(), true),
        (row(1.0, f64::NAN), false),
        (row(0.0, 0.0), false),
    ] {
        assert_eq!(zero.same_content(&schema, other.as_row()), Ok(same));
        assert_eq!(
            zero.read(&schema).unwrap() == other.read(&schema).unwrap(),
            same
        );
    }
    assert_ne!(zero, row(-0.0, -f64::NAN));
}

#[test]
fn owned_and_borrowed() {
    let schema = Schema::new([DataType::Varchar(9)]).unwrap();
    let page = RowBuf::build(&schema, &["7".into()]).unwrap().into_bytes();
    let row = RowRef::new(&page);
    let copy = row;
    let kept = row.get::<Value>(&schema, 0).unwrap().into_owned();
    assert_eq!(kept, "7".into());
    let mut owned = row.to_owned();
    owned.set(&schema, 0, "12b").unwrap();
    assert_eq!(owned.text(&schema, 0), Ok(Some("12b")));
    assert_eq!(copy.text(&schema, 0), Ok(Some("7")));
    assert_eq!(RowBuf::from(copy).as_ref(), copy.as_ref());
    assert_eq!(RowRef::from(&owned), owned.as_row());
}

#[test]
fn edited_in_lent_memory() {
    let schema = Schema::new([DataType::Varchar(9), DataType::Varchar(9)]).unwrap();
    let mut page = [0xEE; 20];
    let mut row = RowMut::fresh(&schema, &mut page).unwrap();
    assert!(!row.is_empty());
    row.set(&schema, 1, "AB").unwrap();
    row.set(&schema, 0, "CDE").unwrap();
    assert_eq!(row.read(&schema).unwrap(), ["CDE".into(), "AB".into()]);
    row.set(&schema, 0, None::<&str>).unwrap();
    assert_eq!((row.len(), row.text(&schema, 1)), (11, Ok(Some("AB"))));
    let row = row.into_row();
    assert_eq!(row.as_bytes().len(), 11);
    assert_eq!(page[14..], [0xEE; 6]);
}

/// A builder and an editor leave nothing of a row in the next, be it shorter, longer or refused.
#[test]
fn builder_and_editor_are_used_again() {
    let schema = Schema::new([DataType::Varchar(99), DataType::Char(3)]).unwrap();
    let mut builder = Builder::new(&schema);
    let mut editor = Editor::new(&schema);
    for length in [60, 3, 0, 7, 8, 15, 16, 17, 33, 99, 100, 4] {
        let text: String = ('a'..='z').cycle().take(length).collect();
        let values = [(&text).into(), "xyz".into()];
        if length > 99 {
            assert!(builder.build(&values).is_err());
            assert!(editor.set(0, &text).is_err());
            continue;
        }
        let row = builder.build(&values).unwrap().to_owned();
        assert_eq!(row.read(&schema).unwrap(), values);
        assert_eq!(row.as_bytes().len(), schema.minimum() + length);
        editor.fresh();
        editor.set(0, &text).unwrap();
        editor.set(1, "xyz").unwrap();
        assert_eq!(editor.row(), row.as_row());
        editor.open(row.as_row());
        editor.set_null(0).unwrap();
        assert_eq!(editor.row().as_bytes().len(), schema.minimum());
        let mut page = [0; 128];
        let lent = builder.build_into(&values, &mut page).unwrap();
        assert_eq!(lent.as_row(), row.as_row());
    }
}
