//! Varchars whose length is declared in characters, beside those that are declared in bytes.
use rook_row::raw::{self, Handle, Layout, Refusal};
use rook_row::{
    Builder, DataType, Editor, Error, Misfit, Reader, RowBuf, RowMut, RowRef, Schema, Value,
};

/// "é€": two characters, five bytes.
const ROW: [u8; 12] = [1, 0, 1, 0x80, 0, 7, 0, 0xC3, 0xA9, 0xE2, 0x82, 0xAC];

/// "ABC".
const THREE: [u8; 10] = [1, 0, 1, 0x80, 0, 7, 0, 0x41, 0x42, 0x43];

fn one(data_type: DataType) -> Schema {
    Schema::new([data_type]).unwrap()
}

fn characters(n: u16) -> Schema {
    one(DataType::VarcharChars(n))
}

/// "name" in characters, "code" in bytes, "cars".
fn both() -> Schema {
    let columns = [
        ("name", DataType::VarcharChars(3)),
        ("code", DataType::Varchar(3)),
        ("cars", DataType::Int),
    ];
    Schema::new(columns).unwrap()
}

/// Number and place of a refusal.
fn refused<T>(result: Result<T, Error>) -> (u32, usize) {
    let error = result.err().expect("a refusal");
    (error.number(), error.place())
}

fn refusal<T>(number: u32, place: usize) -> Result<T, Refusal> {
    Err(Refusal { number, place })
}

#[test]
fn counted_in_characters() {
    let schema = characters(2);
    assert_eq!(schema.as_bytes(), [16, 2, 0]);
    let (row, widths) = RowBuf::build_with_widths(&schema, &["é€".into()]).unwrap();
    assert_eq!((row.as_bytes(), &widths[..]), (&ROW[..], &[2][..]));
    assert_eq!(row.read(&schema).unwrap(), ["é€".into()]);

    let longer = RowBuf::build(&schema, &["é€A".into()]);
    assert_eq!(refused(longer), (12, 0));
    let in_bytes = |n| RowBuf::build(&one(DataType::Varchar(n)), &["é€".into()]);
    assert_eq!(refused(in_bytes(2)), (12, 0));
    assert_eq!(in_bytes(5).unwrap().as_bytes(), ROW);
}

/// Texts of characters of one to four bytes, written and read under each length around theirs: what counts is the
/// characters of the one type, the bytes of the other.
#[test]
fn every_length() {
    let letters = ["A", "é", "€", "😀"];
    for (letter, bytes) in letters.into_iter().zip(1..) {
        for count in 0..9 {
            let text = letter.repeat(count);
            let stored = RowBuf::build(&one(DataType::Varchar(99)), &[(&text).into()]).unwrap();
            for n in 0..40 {
                for (data_type, length) in [
                    (DataType::VarcharChars(n), count),
                    (DataType::Varchar(n), count * bytes),
                ] {
                    let schema = one(data_type);
                    let built = RowBuf::build(&schema, &[(&text).into()]);
                    let read = stored.get_with_width::<&str>(&schema, 0);
                    if length <= usize::from(n) {
                        assert_eq!(built.as_ref(), Ok(&stored));
                        assert_eq!(read, Ok((&*text, count)));
                    } else {
                        assert_eq!((refused(built), refused(read)), ((12, 0), (8, 0)));
                    }
                }
            }
        }
    }
}

#[test]
fn a_stored_text_that_is_too_long() {
    let two = characters(2);
    let mut row = RowBuf::from_bytes(THREE);
    assert_eq!(refused(row.read(&two)), (8, 0));
    assert_eq!(refused(row.text(&two, 0)), (8, 0));
    assert_eq!(refused(row.widths(&two)), (8, 0));
    assert_eq!(refused(row.same_content(&two, RowRef::new(&ROW))), (8, 0));
    assert_eq!(
        refused(RowRef::new(&ROW).same_content(&two, row.as_row())),
        (8, 0)
    );
    assert_eq!(refused(row.set_null(&two, 0)), (15, 0));
    assert_eq!(refused(row.set(&two, 0, "A")), (15, 0));
    assert_eq!(row.as_bytes(), THREE);

    let three = characters(3);
    assert_eq!(row.text(&three, 0), Ok(Some("ABC")));
    let (mut list, mut counts) = ([0; 18], [0; 1]);
    let read = raw::read(three.as_bytes(), &THREE, &[0], &mut list, &mut counts);
    assert_eq!((read, &list[..5]), (Ok(5), &[9, 7, 0, 3, 0][..]));
    assert_eq!(counts, [3]);
    row.set_null(&three, 0).unwrap();
    assert_eq!(row.as_bytes(), [1, 0, 1, 0x80, 1, 0, 0]);
}

/// Both types have their place in the offset table and in the header's count.
#[test]
fn one_layout() {
    let schema = Schema::from_bytes(&[16, 1, 0, 11, 1, 0]).unwrap();
    let types = [DataType::VarcharChars(1), DataType::Varchar(1)];
    assert!(schema.types().eq(types));
    let row = RowBuf::build(&schema, &["é".into(), "A".into()]).unwrap();
    let bytes = [2, 0, 2, 0x80, 0, 9, 0, 11, 0, 0xC3, 0xA9, 0x41];
    assert_eq!(row.as_bytes(), bytes);
    assert_eq!(raw::text(schema.as_bytes(), &bytes, 0), Ok(9..11));
    assert_eq!(raw::text(schema.as_bytes(), &bytes, 1), Ok(11..12));
    let other = Schema::new(types.into_iter().rev()).unwrap();
    assert_eq!(refused(row.read(&other)), (8, 0));

    let mut fewer = row.clone().into_bytes();
    fewer[2] = 1;
    let counted = Error::WrongVarcharCount { row: 1, schema: 2 };
    assert_eq!(RowRef::new(&fewer).read(&schema), Err(counted));
}

/// One history of edits by each way to edit, with a refusal in each column.
#[test]
fn a_history() {
    let schema = both();
    assert_eq!(schema.as_bytes(), [16, 3, 0, 11, 3, 0, 2]);
    // A column, what it is set to, and the number that answers.
    let steps: [(usize, Option<Value>, u32); 8] = [
        (0, Some("é€é".into()), 0),
        (1, Some("é€é".into()), 12),
        (1, Some("é".into()), 0),
        (0, Some("é€éA".into()), 12),
        (2, Some(4.into()), 0),
        (0, Some(7.into()), 11),
        (1, None, 0),
        (0, Some("😀😀😀".into()), 0),
    ];
    let mut row = RowBuf::fresh(&schema).unwrap();
    let mut editor = Editor::new(&schema);
    let mut page = [0xEE; 40];
    let mut lent = RowMut::fresh(&schema, &mut page).unwrap();
    for (column, value, number) in steps {
        let value = value.as_ref();
        let set = row.set(&schema, column, value);
        assert_eq!(lent.set(&schema, column, value), set);
        assert_eq!(editor.set(column, value), set);
        match number {
            0 => assert_eq!(set, Ok(())),
            _ => assert_eq!(refused(set), (number, column)),
        }
        assert_eq!((lent.as_row(), editor.row()), (row.as_row(), row.as_row()));
    }
    let values = ["😀😀😀".into(), Value::Null, 4.into()];
    assert_eq!(row, RowBuf::build(&schema, &values).unwrap());
    let read = row.read_with_widths(&schema).unwrap();
    assert!(read.into_iter().eq(values.into_iter().zip([3, 0, 0])));
    assert_eq!(page[27..], [0xEE; 13]);
}

#[test]
fn over_a_handle() {
    let schema = characters(2);
    let mut buf = [0xEE; 13];
    let length = raw::fresh(schema.as_bytes(), false, &mut buf).unwrap();
    let mut handle = Handle {
        length,
        layout: Layout::default(),
    };
    let text = "é€A".as_bytes();
    let mut set = |length| {
        let list = [9, 0, 0, length, 0];
        let set = raw::handle_set(&mut handle, schema.as_bytes(), &mut buf, 0, &list, text);
        (set, handle)
    };
    let empty = Handle {
        length,
        layout: Layout::default(),
    };
    assert_eq!(set(6), (refusal(12, 0), empty));
    let layout = Layout {
        num_columns: 1,
        num_varlen_cols: 1,
        fixed_size: 0,
        packed: 1,
        is_long: 0,
    };
    let length = 12;
    assert_eq!(set(5), (Ok(12), Handle { length, layout }));
    assert_eq!((&buf[..12], buf[12]), (&ROW[..], 0xEE));
    let null = raw::handle_set_null(&mut handle, schema.as_bytes(), &mut buf, 0);
    assert_eq!((null, handle), (Ok(7), Handle { length: 7, layout }));
}

#[test]
fn no_characters() {
    let schema = characters(0);
    let mut row = RowBuf::fresh(&schema).unwrap();
    assert_eq!(row.text(&schema, 0), Ok(None));
    row.set(&schema, 0, "").unwrap();
    assert_eq!(row.as_bytes(), [1, 0, 1, 0x80, 0, 7, 0]);
    assert_eq!(row.text(&schema, 0), Ok(Some("")));
    assert_eq!(refused(row.set(&schema, 0, "A")), (12, 0));
    assert_eq!(refused(RowBuf::build(&schema, &["é".into()])), (12, 0));
    assert_eq!(refused(RowRef::new(&THREE).read(&schema)), (8, 0));
}

/// The bytes of a text have no limit but those of the text area and of the row.
#[test]
fn limits_in_bytes() {
    let most = characters(65_535);
    let mut row = RowBuf::fresh(&most).unwrap();
    let fresh = row.clone();
    for (bytes, answer) in [(65_536, (10, 0)), (65_529, (13, 0))] {
        let text = "x".repeat(bytes);
        assert_eq!(refused(RowBuf::build(&most, &[(&text).into()])), answer);
        assert_eq!(refused(row.set(&most, 0, &text)), answer);
        assert_eq!(row, fresh);
    }
    let longest = "x".repeat(65_528);
    row.set(&most, 0, &longest).unwrap();
    assert_eq!(row.as_bytes().len(), 65_535);
    assert_eq!(row.widths(&most).unwrap(), [65_528]);

    // Characters of four bytes: as many as a row holds, then one more, which 12 comes before 13 for.
    let (fit, more) = ("😀".repeat(16_382), "😀".repeat(16_383));
    let schema = characters(16_382);
    let mut row = RowBuf::build(&schema, &[(&fit).into()]).unwrap();
    assert_eq!(row.as_bytes().len(), 65_535);
    assert_eq!(row.get_with_width(&schema, 0), Ok((&*fit, 16_382)));
    assert_eq!(refused(row.set(&schema, 0, &more)), (12, 0));
    assert_eq!(refused(RowBuf::build(&schema, &[(&more).into()])), (12, 0));
    let schema = characters(16_383);
    assert_eq!(refused(row.set(&schema, 0, &more)), (13, 0));
    assert_eq!(refused(RowBuf::build(&schema, &[(&more).into()])), (13, 0));
}

#[test]
fn bytes_that_are_no_text() {
    let schema = characters(9);
    let (mut out, mut counts) = ([0; 20], [0; 1]);
    let mut build = |list: &[u8], text: &[u8]| {
        raw::build(schema.as_bytes(), false, list, text, &mut out, &mut counts)
    };
    assert_eq!(build(&[9, 0, 0, 1, 0], b"\xC3"), refusal(12, 0));
    assert_eq!(build(&[9, 0, 0, 3, 0], b"AB"), refusal(12, 0));
    assert_eq!(build(&[8, 0, 0, 1, 0], b"A"), refusal(11, 0));
    // No value has the kind of the type.
    for kind in 14..=16 {
        assert_eq!(build(&[kind, 0, 0, 1, 0], b"A"), refusal(10, 0));
    }
    let mut cut = THREE;
    cut[9] = 0xC3;
    assert_eq!(refused(RowRef::new(&cut).read(&schema)), (8, 0));
}

#[test]
fn the_record_of_the_type() {
    for cut in [&[2, 16][..], &[2, 16, 5]] {
        let bad = Error::BadRecord { at: 1, column: 1 };
        assert_eq!(Schema::from_bytes(cut), Err(bad));
    }
    let schema = characters(0x0102);
    assert_eq!(schema.as_bytes(), [16, 2, 1]);
    assert_eq!(Schema::from_bytes(&[16, 2, 1]), Ok(schema));
    assert_eq!(
        format!("{:>24}|", DataType::VarcharChars(8)),
        "   VARCHAR(8 CHARACTERS)|"
    );
}

#[test]
fn the_same_content() {
    let schema = both();
    let row = |name: Value<'static>| RowBuf::build(&schema, &[name, "A".into(), 1.into()]).unwrap();
    let zurich = row("ZÜB".into());
    for (other, same) in [
        (row("ZÜB".into()), true),
        (row("ZUB".into()), false),
        (row("ZÜ".into()), false),
        (row("".into()), false),
        (row(Value::Null), false),
    ] {
        assert_eq!(zurich.same_content(&schema, other.as_row()), Ok(same));
    }
}

#[test]
fn read_and_built_again() {
    let schema = both();
    let mut builder = Builder::new(&schema);
    let mut reader = Reader::new(&schema, &["cars", "name"]).unwrap();
    for (name, width) in [("ZÜB", 3), ("😀", 1), ("", 0)] {
        let values = [name.into(), Value::Null, 4.into()];
        let (row, widths) = builder.build_with_widths(&values).unwrap();
        assert_eq!(widths, [width, 0, 0]);
        let columns = reader.read(row).unwrap();
        assert_eq!(columns.get::<&str>("name"), Ok(name));
        assert_eq!(columns.width("name"), Ok(width));
        assert!(columns.widths().eq([0, width]));
        let row = row.to_owned();
        let mut page = [0; 40];
        let lent = builder.build_into(&values, &mut page).unwrap();
        assert_eq!(lent.as_row(), row.as_row());
        assert_eq!(builder.build(&values).unwrap(), row.as_row());
    }
    let long = ["ZÜBR".into(), Value::Null, Value::Null];
    assert_eq!(refused(builder.build(&long)), (12, 0));
}

#[test]
fn what_errors_say() {
    let schema = both();
    let mut row = RowBuf::fresh(&schema).unwrap();
    let error = row.set(&schema, "name", "Zürich").unwrap_err();
    let message = "column 0 (name): 6 characters do not fit VARCHAR(3 CHARACTERS) (12)";
    assert_eq!(error.to_string(), message);
    match error {
        Error::Unsuitable {
            data_type, misfit, ..
        } => {
            let wanted = (DataType::VarcharChars(3), Misfit::Characters(6));
            assert_eq!((data_type, misfit), wanted);
        }
        other => panic!("{other}"),
    }
    let error = row.set(&schema, "code", "Zürich").unwrap_err();
    let message = "column 1 (code): 7 bytes do not fit VARCHAR(3) (12)";
    assert_eq!(error.to_string(), message);

    let error = RowRef::new(&THREE).read(&characters(2)).unwrap_err();
    let message = "column 0: its bytes are no VARCHAR(2 CHARACTERS) (8)";
    assert_eq!(error.to_string(), message);
    let error = row.set(&schema, "name", 1).unwrap_err();
    let message = "column 0 (name): an INT is given, but it is VARCHAR(3 CHARACTERS) (11)";
    assert_eq!(error.to_string(), message);
    let error = row.get::<i32>(&schema, "name").unwrap_err();
    assert_eq!(error.number(), 11);
}
