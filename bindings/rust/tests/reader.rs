//! Chosen columns: in the asked order, by place and name, from rows that outlive the reader's last read.
use rook_row::{DataType, Error, Reader, RowBuf, RowRef, Schema, Value};

fn table() -> (Schema, Vec<Value<'static>>) {
    let schema = Schema::new([
        ("platform", DataType::Varchar(4)),
        ("cars", DataType::SmallInt),
        ("unit", DataType::Varchar(16)),
        ("delay", DataType::DoublePrecision),
        ("track", DataType::Char(4)),
        ("flags", DataType::Bit(5)),
    ]);
    let bits: rook_row::Bits = "10110".parse().unwrap();
    let values = vec![
        "7".into(),
        4i16.into(),
        Value::Null,
        2.5.into(),
        "12a ".into(),
        bits.into(),
    ];
    (schema.unwrap(), values)
}

/// Every list of up to three columns, with repeats, by iterating, by `for_each`, and by place in any order.
#[test]
fn every_short_list() {
    let (schema, values) = table();
    let row = RowBuf::build(&schema, &values).unwrap();
    let n = schema.len();
    // Each list is one that stands before it, and a column more.
    let mut lists: Vec<Vec<usize>> = vec![vec![]];
    for count in 0..n * (1 + n * (1 + n)) {
        lists.push([&lists[count / n][..], &[count % n]].concat());
    }
    for list in lists {
        let mut reader = Reader::new(&schema, &list).unwrap();
        let columns = reader.read(&row).unwrap();
        let wanted: Vec<_> = list.iter().map(|&column| values[column].clone()).collect();
        assert_eq!(
            (columns.len(), columns.is_empty()),
            (list.len(), list.is_empty())
        );
        assert!(columns.iter().eq(wanted.iter().cloned()));
        let mut each = Vec::new();
        columns.iter().for_each(|value| each.push(value));
        assert_eq!(each, wanted);
        for place in (0..list.len()).chain((0..list.len()).rev()) {
            assert_eq!(columns.get::<Value>(place), Ok(wanted[place].clone()));
        }
        assert_eq!(row.read_columns(&schema, &list).unwrap(), wanted);
    }
}

#[test]
fn all_columns() {
    let (schema, values) = table();
    let row = RowBuf::build(&schema, &values).unwrap();
    let mut reader = Reader::all(&schema);
    let mut read = Vec::new();
    for value in reader.read(&row).unwrap() {
        read.push(value);
    }
    assert_eq!(read, values);
    let none = Schema::new::<DataType>([]).unwrap();
    assert!(none.is_empty());
    let empty = RowBuf::fresh(&none).unwrap();
    assert!(Reader::all(&none).read(&empty).unwrap().is_empty());
}

#[test]
fn by_name_and_place() {
    let (schema, values) = table();
    let row = RowBuf::build(&schema, &values).unwrap();
    let mut reader = Reader::new(&schema, &["unit", "cars", "platform"]).unwrap();
    let columns = reader.read(&row).unwrap();
    assert_eq!(columns.get::<&str>("platform"), Ok("7"));
    assert_eq!(columns.get::<i16>("cars"), Ok(4));
    assert_eq!(columns.get::<i16>(1), Ok(4));
    assert_eq!(columns.get::<Option<&str>>("unit"), Ok(None));
    assert!(columns.get::<f64>("delay").is_err());
}

/// Texts live as long as the page, not as the reader's read.
fn platforms<'a>(schema: &Schema, pages: &[&'a [u8]]) -> Result<Vec<&'a str>, Error> {
    let mut reader = Reader::new(schema, &["platform"])?;
    let mut found = Vec::new();
    for page in pages {
        found.push(reader.read(RowRef::new(page))?.get("platform")?);
    }
    Ok(found)
}

#[test]
fn texts_outlive_the_reader() {
    let (schema, mut values) = table();
    let first = RowBuf::build(&schema, &values).unwrap();
    values[0] = "12b".into();
    let second = RowBuf::build(&schema, &values).unwrap();
    let found = platforms(&schema, &[first.as_bytes(), second.as_bytes()]);
    assert_eq!(found, Ok(vec!["7", "12b"]));
}

/// A refused row leaves the reader as good as before.
#[test]
fn after_a_refusal() {
    let (schema, values) = table();
    let row = RowBuf::build(&schema, &values).unwrap();
    let mut reader = Reader::new(&schema, &[0, 5]).unwrap();
    assert!(reader.read(RowRef::new(&[])).is_err());
    let columns = reader.read(&row).unwrap();
    assert!(columns.iter().eq([values[0].clone(), values[5].clone()]));
}

/// 256 columns of the longest records, all wanted and one by one.
#[test]
fn many_columns() {
    let data_type = DataType::Numeric {
        precision: 38,
        scale: 3,
    };
    let schema = Schema::new(vec![data_type; 256]).unwrap();
    let number = |n| rook_row::Numeric::new(10i128.pow(37) + n, 3).into();
    let values: Vec<Value> = (0..256).map(number).collect();
    let row = RowBuf::build(&schema, &values).unwrap();
    let mut reader = Reader::all(&schema);
    assert!(reader.read(&row).unwrap().iter().eq(values.iter().cloned()));
    for (column, value) in values.iter().enumerate() {
        assert_eq!(&row.get::<Value>(&schema, column).unwrap(), value);
        let mut one = Reader::new(&schema, &[column]).unwrap();
        assert_eq!(&one.read(&row).unwrap().get::<Value>(0).unwrap(), value);
    }
}
