//! Code points of texts: the text check, the lists of `raw`, and widths.
use rook_row::raw::{self, Refusal};
use rook_row::{Bits, Builder, DataType, Error, Reader, RowBuf, RowRef, Schema, Value};

/// Char(5), Varchar(5), Bit(3), Int.
const SCHEMA: [u8; 10] = [0x09, 5, 0, 0x0B, 5, 0, 0x0E, 3, 0, 0x02];

/// "é", "é€", bits 110, null: ranges of the text area, end to end.
const VALUES: [u8; 16] = [8, 0, 0, 2, 0, 9, 2, 0, 5, 0, 12, 7, 0, 1, 0, 0];
const TEXT: [u8; 8] = [0xC3, 0xA9, 0xC3, 0xA9, 0xE2, 0x82, 0xAC, 0xC0];

const ROW: [u8; 22] = [
    0x04, 0x00, 0x01, 0x80, 0x08, 0x11, 0x00, 0xC3, 0xA9, 0x20, 0x20, 0x20, 0xC0, 0x00, 0x00, 0x00,
    0x00, 0xC3, 0xA9, 0xE2, 0x82, 0xAC,
];

/// What stands in lent memory before a call.
const FILL: u8 = 0xA5;
const NUMBER: u32 = 0xA5A5_A5A5;

fn no_room<T>() -> Result<T, Refusal> {
    Err(Refusal {
        number: 14,
        place: 0,
    })
}

fn schema() -> Schema {
    Schema::from_bytes(&SCHEMA).unwrap()
}

fn values() -> [Value<'static>; 4] {
    let bits: Bits = "110".parse().unwrap();
    ["é".into(), "é€".into(), bits.into(), Value::Null]
}

#[test]
fn the_text_check() {
    assert_eq!(raw::text_check(&[0xC3, 0xA9, 0xE2, 0x82, 0xAC]), Some(2));
    assert_eq!(raw::text_check(&[0xC0, 0x80]), None);
    assert_eq!(raw::text_check(&[]), Some(0));
    assert_eq!(raw::text_check(&[0xF4, 0x8F, 0xBF, 0xBF]), Some(1));
}

/// A list longer than the columns keeps its last numbers.
#[test]
fn built_and_read() {
    let (mut out, mut counts) = ([FILL; 23], [NUMBER; 5]);
    let built = raw::build(&SCHEMA, false, &VALUES, &TEXT, &mut out, &mut counts);
    assert_eq!((built, &out[..22], out[22]), (Ok(22), &ROW[..], FILL));
    assert_eq!(counts, [4, 2, 0, 0, NUMBER]);

    let read = |wanted: &[u16]| {
        let (mut list, mut counts) = ([FILL; 72], [NUMBER; 5]);
        let length = raw::read(&SCHEMA, &ROW, wanted, &mut list, &mut counts).unwrap();
        (list[..length].to_vec(), counts)
    };
    let all = [8, 7, 0, 5, 0, 9, 17, 0, 5, 0, 12, 12, 0, 1, 0, 0];
    assert_eq!(read(&[0, 1, 2, 3]), (all.to_vec(), [4, 2, 0, 0, NUMBER]));
    let one = vec![0, 9, 17, 0, 5, 0, 0, 0];
    assert_eq!(read(&[1]), (one, [0, 2, 0, 0, NUMBER]));
    assert_eq!(read(&[]), (vec![0; 4], [0, 0, 0, 0, NUMBER]));
}

/// 14 for a short list comes last, as that for a short output does; neither is changed.
#[test]
fn a_short_list() {
    for numbers in 0..4 {
        for room in [22, 21, 0] {
            let (mut out, mut counts) = ([FILL; 22], [NUMBER; 4]);
            let lent = &mut counts[..numbers];
            let built = raw::build(&SCHEMA, false, &VALUES, &TEXT, &mut out[..room], lent);
            assert_eq!(built, no_room());
            let read = raw::read(&SCHEMA, &ROW, &[1], &mut out[..room], lent);
            assert_eq!(read, no_room());
            assert_eq!((out, counts), ([FILL; 22], [NUMBER; 4]));
        }
    }
    let (mut out, mut counts) = ([FILL; 21], [NUMBER; 4]);
    assert_eq!(
        raw::build(&SCHEMA, false, &VALUES, &TEXT, &mut out, &mut counts),
        no_room()
    );
    assert_eq!((out, counts), ([FILL; 21], [NUMBER; 4]));

    let mut text = TEXT;
    text[0] = 0xFF;
    let bad = raw::build(&SCHEMA, false, &VALUES, &text, &mut out, &mut counts[..3]);
    let unsuitable = Refusal {
        number: 12,
        place: 0,
    };
    assert_eq!((bad, counts), (Err(unsuitable), [NUMBER; 4]));
}

#[test]
fn no_columns_need_no_list() {
    let mut out = [FILL; 4];
    assert_eq!(raw::build(&[], false, &[], &[], &mut out, &mut []), Ok(4));
    assert_eq!(out, [0, 0, 0, 0x80]);
    assert_eq!(raw::read(&[], &out, &[0], &mut [], &mut []), Ok(0));
}

#[test]
fn widths_of_a_row() {
    let (schema, values) = (schema(), values());
    let (row, widths) = RowBuf::build_with_widths(&schema, &values).unwrap();
    assert_eq!((row.as_bytes(), &widths[..]), (&ROW[..], &[4, 2, 0, 0][..]));
    assert_eq!(row.widths(&schema).unwrap(), widths);

    let read = row.read_with_widths(&schema).unwrap();
    let stored = [
        "é   ".into(),
        values[1].clone(),
        values[2].clone(),
        Value::Null,
    ];
    let wanted: Vec<_> = stored.into_iter().zip(widths).collect();
    assert_eq!(read, wanted);
    for (column, (value, width)) in wanted.iter().enumerate() {
        let got = row.get_with_width::<Value>(&schema, column);
        assert_eq!(got, Ok((value.clone(), *width)));
    }

    let mut builder = Builder::new(&schema);
    assert_eq!(builder.build(&values).unwrap().as_bytes(), ROW);
    let (row, widths) = builder.build_with_widths(&values).unwrap();
    assert_eq!((row.as_bytes(), widths), (&ROW[..], &[4, 2, 0, 0][..]));
}

/// By place and by name, in the asked order, with repeats; what one read left is not seen in the next.
#[test]
fn widths_of_chosen_columns() {
    let schema = Schema::new([
        ("track", DataType::Char(5)),
        ("unit", DataType::Varchar(5)),
        ("cars", DataType::Int),
    ]);
    let schema = schema.unwrap();
    let full = RowBuf::build(&schema, &["é".into(), "é€".into(), 1.into()]).unwrap();
    let nulls = RowBuf::fresh(&schema).unwrap();
    let mut reader = Reader::new(&schema, &["unit", "cars", "unit", "track"]).unwrap();
    for (row, widths) in [
        (&full, [2, 0, 2, 4]),
        (&nulls, [0; 4]),
        (&full, [2, 0, 2, 4]),
    ] {
        let columns = reader.read(row).unwrap();
        assert!(columns.widths().eq(widths));
        assert_eq!(columns.widths().len(), 4);
        for (place, width) in widths.into_iter().enumerate() {
            assert_eq!(columns.width(place), Ok(width));
        }
        assert_eq!(columns.width("track"), Ok(widths[3]));
        assert_eq!(columns.width(4), Err(Error::NoSuchColumn { column: 4 }));
    }
    let mut one = Reader::new(&schema, &["cars"]).unwrap();
    let columns = one.read(&full).unwrap();
    assert_eq!(columns.width("unit").unwrap_err().number(), 9);
    assert!(columns.widths().eq([0]));
}

/// As many columns as the memory that is lent for few, one more, and the most.
#[test]
fn many_columns() {
    for columns in [0, 31, 32, 33, 255, 256] {
        let schema = Schema::new(vec![DataType::Varchar(9); columns]).unwrap();
        let texts: Vec<_> = (0..columns).map(|n| "ü".repeat(n % 5)).collect();
        let values: Vec<Value> = texts.iter().map(Value::from).collect();
        let wanted: Vec<_> = (0..columns).map(|n| n % 5).collect();
        let (row, widths) = RowBuf::build_with_widths(&schema, &values).unwrap();
        assert_eq!(widths, wanted);
        assert_eq!(row.widths(&schema).unwrap(), wanted);
        assert_eq!(row.read(&schema).unwrap(), values);
        if let Some(last) = columns.checked_sub(1) {
            let got = row.get_with_width::<&str>(&schema, last);
            assert_eq!(got, Ok((&*texts[last], wanted[last])));
        }
    }
}

#[test]
fn refusals() {
    let schema = schema();
    let cut = RowRef::new(&ROW[..12]);
    assert_eq!(cut.widths(&schema).unwrap_err().number(), 3);
    assert_eq!(cut.read_with_widths(&schema).unwrap_err().number(), 3);
    let row = RowRef::new(&ROW);
    let none = row.get_with_width::<Value>(&schema, 4);
    assert_eq!(none, Err(Error::NoSuchColumn { column: 4 }));
    let number = row.get_with_width::<i32>(&schema, 3);
    assert_eq!(number.unwrap_err().number(), 11);
    let few = RowBuf::build_with_widths(&schema, &values()[..3]);
    assert_eq!(few.unwrap_err().number(), 10);
}
