//! Rows of the long sort: their bytes, texts past 65,535 bytes, the limits of both sorts, and twins of both.
use rook_row::raw::{self, Handle, Layout, Refusal};
use rook_row::{
    occupation_schema, print_occupations, Bits, Builder, DataType, Editor, Error, Reader, RowBuf,
    RowFormat, RowList, RowMut, RowRef, Schema, Sort, Timestamp, Value,
};

const SORTS: [Sort; 2] = [Sort::Short, Sort::Long];
/// Int, Varchar(5), SmallInt.
const S: [u8; 5] = [2, 11, 5, 0, 1];
/// 1, "AB", null.
const ROW: [u8; 17] = [
    3, 0, 1, 0xC0, 4, 0x0F, 0, 0, 0, 1, 0, 0, 0, 0, 0, 0x41, 0x42,
];
/// The short row of the same.
const SHORT: [u8; 15] = [3, 0, 1, 0x80, 4, 0x0D, 0, 1, 0, 0, 0, 0, 0, 0x41, 0x42];
/// Int 1; a Varchar, 2 bytes from byte 0 of the text, in numbers of four bytes; null.
const VALUES: [u8; 15] = [2, 1, 0, 0, 0, 18, 0, 0, 0, 0, 2, 0, 0, 0, 0];
const FILL: u8 = 0xEE;

fn s() -> Schema {
    Schema::from_bytes(&S).unwrap()
}

fn refused<T>(result: Result<T, Error>) -> (u32, usize) {
    let error = result.err().expect("a refusal");
    (error.number(), error.place())
}

fn answer<T>(number: u32, place: usize) -> Result<T, Refusal> {
    Err(Refusal { number, place })
}

/// A text of so many bytes, of which no part is like another of the same length nearby.
fn counted(length: usize) -> String {
    let mut text: String = (0..length / 6 + 1).map(|n| format!("{n:06}")).collect();
    text.truncate(length);
    text
}

#[test]
fn fresh() {
    let row = [3, 0, 1, 0xC0, 7, 0, 0, 0, 0, 0, 0, 0, 0, 0, 0];
    let mut out = [FILL; 16];
    assert_eq!(raw::fresh(&S, true, &mut out[..14]), answer(14, 0));
    assert_eq!(out, [FILL; 16]);
    assert_eq!(raw::fresh(&S, true, &mut out), Ok(15));
    assert_eq!((&out[..15], out[15]), (&row[..], FILL));

    let long = s().with_sort(Sort::Long).minimum();
    assert_eq!((s().minimum(), long), (13, 15));
    assert_eq!(
        RowBuf::fresh(s().with_sort(Sort::Long)).unwrap().as_bytes(),
        row
    );
    assert_eq!(Editor::new(s().with_sort(Sort::Long)).row().as_bytes(), row);
    let none = Schema::new([] as [DataType; 0]).unwrap();
    let none = none.with_sort(Sort::Long);
    assert_eq!(RowBuf::fresh(none).unwrap().as_bytes(), [0, 0, 0, 0xC0]);
    assert_eq!(
        RowBuf::build(none, &[]).unwrap().as_bytes(),
        [0, 0, 0, 0xC0]
    );
}

/// Either kind of range may be given for either sort of row.
#[test]
fn built_of_either_kind() {
    let narrow = [2, 1, 0, 0, 0, 9, 0, 0, 2, 0, 0];
    for values in [&VALUES[..], &narrow] {
        let (mut out, mut counts) = ([FILL; 17], [9; 3]);
        let built = raw::build(&S, true, values, b"AB", &mut out, &mut counts);
        assert_eq!((built, out, counts), (Ok(17), ROW, [0, 2, 0]));
        let (mut out, mut counts) = ([FILL; 15], [9; 3]);
        let built = raw::build(&S, false, values, b"AB", &mut out, &mut counts);
        assert_eq!((built, out, counts), (Ok(15), SHORT, [0, 2, 0]));
    }
    let values = [1.into(), "AB".into(), Value::Null];
    for (sort, row) in SORTS.into_iter().zip([&SHORT[..], &ROW]) {
        let built = RowBuf::build(s().with_sort(sort), &values).unwrap();
        assert_eq!(built.as_bytes(), row);
    }
}

/// Kinds 14, 15, 16 and 20 are unknown, 17 to 19 are cut below eight bytes, and a range is compared without wrapping.
#[test]
fn bad_records() {
    let build = |is_long, list: &[u8]| {
        let values = [&[0], list, &[0]].concat();
        raw::build(&S, is_long, &values, b"AB", &mut [0; 20], &mut [0; 3])
    };
    for is_long in [false, true] {
        for kind in [14, 15, 16, 20] {
            let record = [kind, 0, 0, 0, 0, 0, 0, 0, 0];
            assert_eq!(build(is_long, &record), answer(10, 1));
        }
        for kind in 17..=19 {
            let cut = [0, kind, 0, 0, 0, 0, 0, 0, 0];
            let built = raw::build(&S, is_long, &cut, b"AB", &mut [0; 20], &mut [0; 3]);
            assert_eq!(built, answer(10, 1));
        }
        let highest = [18, 0xFF, 0xFF, 0xFF, 0xFF, 0xFF, 0xFF, 0xFF, 0xFF];
        assert_eq!(build(is_long, &highest), answer(12, 1));
        let wrapped = [18, 1, 0, 0, 0, 0xFF, 0xFF, 0xFF, 0xFF];
        assert_eq!(build(is_long, &wrapped), answer(12, 1));
        assert!(build(is_long, &[18, 0, 0, 0, 0, 2, 0, 0, 0]).is_ok());
        assert_eq!(build(is_long, &[17, 0, 0, 0, 0, 2, 0, 0, 0]), answer(11, 1));
        assert_eq!(build(is_long, &[19, 0, 0, 0, 0, 2, 0, 0, 0]), answer(11, 1));
    }
}

#[test]
fn read() {
    let mut list = [FILL; 54];
    let mut counts = [9; 3];
    let read = raw::read(&S, &ROW, &[0, 1, 2], &mut list, &mut counts);
    assert_eq!((read, counts), (Ok(15), [0, 2, 0]));
    let expected = [2, 1, 0, 0, 0, 18, 15, 0, 0, 0, 2, 0, 0, 0, 0];
    assert_eq!((&list[..15], list[15]), (&expected[..], FILL));
    assert_eq!(raw::text(&S, &ROW, 1), Ok(15..17));

    let row = RowRef::new(&ROW);
    assert!(row.is_long() && !RowRef::new(&SHORT).is_long());
    let values = [1.into(), "AB".into(), Value::Null];
    assert_eq!(row.read(&s()).unwrap(), values);
    assert_eq!(row.widths(&s()).unwrap(), [0, 2, 0]);
    assert_eq!(row.get_with_width::<&str>(&s(), 1), Ok(("AB", 2)));
    assert_eq!(row.text(&s(), 1), Ok(Some("AB")));
    assert_eq!(row.is_null(2), Ok(true));
    // Rows of both sorts, by one reader.
    let mut reader = Reader::new(&s(), &[2, 1]).unwrap();
    for bytes in [&ROW[..], &SHORT, &ROW] {
        let columns = reader.read(bytes).unwrap();
        assert!(columns.iter().eq([Value::Null, "AB".into()]));
        assert_eq!(
            (columns.get::<&str>(1), columns.width(1)),
            (Ok("AB"), Ok(2))
        );
    }
}

#[test]
fn set() {
    let edited = |value: Option<&str>| {
        let mut row = RowBuf::from_bytes(ROW);
        row.set(&s(), 1, value).unwrap();
        let mut editor = Editor::new(&s());
        editor.open(RowRef::new(&ROW));
        editor.set(1, value).unwrap();
        assert_eq!(editor.row(), row.as_row());
        row.into_bytes()
    };
    let empty = [3, 0, 1, 0xC0, 4, 0x0F, 0, 0, 0, 1, 0, 0, 0, 0, 0];
    assert_eq!(edited(Some("")), empty);
    let null = [3, 0, 1, 0xC0, 6, 0, 0, 0, 0, 1, 0, 0, 0, 0, 0];
    assert_eq!(edited(None), null);
    assert_eq!(edited(Some("CDEFG")), [&empty[..], b"CDEFG"].concat());
}

/// What the row's own mark says, whatever else is wrong with the row.
#[test]
fn the_mark_tells_the_sort() {
    // Char(65535): only its long rows are possible.
    let wide = [9, 0xFF, 0xFF];
    let read = |row: &[u8]| raw::read(&wide, row, &[0], &mut [0; 18], &mut [0]);
    assert_eq!(read(&[1, 0, 0, 0x80]), answer(2, 3));
    assert_eq!(read(&[1, 0, 0, 0xC0]), answer(3, 0));
    assert_eq!(read(&[1, 0, 0xC0]), answer(2, 3));
    let schema = Schema::from_bytes(&wide).unwrap();
    assert_eq!(refused(RowRef::new(&[1, 0, 0, 0x80]).read(&schema)), (2, 3));
    assert_eq!(refused(RowRef::new(&[1, 0, 0, 0xC0]).read(&schema)), (3, 0));
    assert_eq!(refused(RowRef::new(&[1, 0, 0xC0]).read(&schema)), (2, 3));
    // A row past its buffer counts as short.
    let mut buffer = [1, 0, 0, 0xC0];
    assert_eq!(raw::set_null(&wide, &mut buffer, 4, 0), answer(15, 0));
    assert_eq!(raw::set_null(&wide, &mut buffer, 5, 0), answer(2, 3));
    assert!(RowMut::new(&mut buffer, 4).is_long());
    assert!(!RowMut::new(&mut buffer, 5).is_long());
    assert_eq!(raw::set_null(&S, &mut buffer, 5, 0), answer(14, 0));

    // 0x2000 belongs to the Varchar count.
    let none = Schema::new([] as [DataType; 0]).unwrap();
    let odd = RowRef::new(&[0, 0, 1, 0x60]);
    assert_eq!(
        raw::read(&[], odd.as_bytes(), &[], &mut [], &mut []),
        answer(6, 0)
    );
    let message = "the row has 8193 Varchars, the schema 0 (6)";
    assert_eq!(odd.read(&none).unwrap_err().to_string(), message);
}

#[test]
fn the_null_flag() {
    let mut row = vec![0; 65_536];
    row[0] = 9;
    row[4] = 2;
    assert_eq!(raw::is_null(&row, 1), answer(4, 0));
    row[3] = 0x40;
    assert_eq!(raw::is_null(&row, 1), Ok(true));
    row.resize(1_048_576, 0);
    assert_eq!(raw::is_null(&row, 1), Ok(true));
    row.push(0);
    assert_eq!(raw::is_null(&row, 1), answer(4, 0));
}

/// Padded rows of the long sort are read and edited, and stay padded and long.
#[test]
fn padded() {
    let schema = Schema::new([DataType::SmallInt, DataType::Int, DataType::Varchar(9)]).unwrap();
    // 7; two bytes of padding; 1; "AB" from byte 17 on
    let mut bytes = vec![
        3, 0, 1, 0x40, 0, 17, 0, 0, 0, 7, 0, 0xAA, 0xBB, 1, 0, 0, 0, 0x41, 0x42,
    ];
    let mut row = RowBuf::from_bytes(bytes.clone());
    let values = [7i16.into(), 1.into(), "AB".into()];
    assert_eq!(row.read(&schema).unwrap(), values);
    row.set(&schema, 2, "CDE").unwrap();
    row.set(&schema, 1, 2).unwrap();
    bytes[13] = 2;
    bytes.splice(17.., *b"CDE");
    assert_eq!((row.as_bytes(), row.is_long()), (&bytes[..], true));

    let mut handle = Handle {
        length: 20,
        layout: Layout::default(),
    };
    assert_eq!(
        raw::handle_set_null(&mut handle, schema.as_bytes(), &mut bytes, 2),
        Ok(17)
    );
    let layout = Layout {
        num_columns: 3,
        num_varlen_cols: 1,
        fixed_size: 8,
        packed: 0,
        is_long: 1,
    };
    assert_eq!(handle, Handle { length: 17, layout });
    assert_eq!((bytes[3], bytes[4], &bytes[5..9]), (0x40, 4, &[0; 4][..]));
}

/// The handle is told the sort by the row, whatever it said before.
#[test]
fn handles() {
    let layout = |is_long| Layout {
        num_columns: 3,
        num_varlen_cols: 1,
        fixed_size: 6,
        packed: 1,
        is_long,
    };
    for (is_long, row) in [&SHORT[..], &ROW].into_iter().enumerate() {
        let mut buffer = [FILL; 22];
        buffer[..row.len()].copy_from_slice(row);
        let mut plain = buffer;
        let mut handle = Handle {
            length: row.len(),
            layout: layout(1 - is_long),
        };
        let before = handle;
        // A text in numbers of four bytes, for either sort.
        let set = [18, 1, 0, 0, 0, 3, 0, 0, 0];
        let past = [18, 1, 0, 0, 0, 4, 0, 0, 0];
        let refused = raw::handle_set(&mut handle, &S, &mut buffer, 1, &past, b"@CDE");
        assert_eq!((refused, handle, buffer), (answer(12, 1), before, plain));
        let length = raw::set(&S, &mut plain, row.len(), 1, &set, b"@CDE").unwrap();
        assert_eq!(length, row.len() + 1);
        let done = raw::handle_set(&mut handle, &S, &mut buffer, 1, &set, b"@CDE");
        assert_eq!((done, buffer), (Ok(length), plain));
        assert_eq!((handle.length, handle.layout), (length, layout(is_long)));
        assert_eq!(&buffer[row.len() - 2..length], b"CDE");
    }
}

/// A track and a remark of up to 65,535 characters, which may have more bytes.
fn possessions() -> Schema {
    let columns = [
        ("track", DataType::Varchar(9)),
        ("remark", DataType::VarcharChars(65_535)),
        ("office", DataType::Varchar(9)),
        ("days", DataType::SmallInt),
    ];
    Schema::new(columns).unwrap()
}

#[test]
fn a_remark_of_70_000_bytes() {
    let schema = possessions();
    let remark = counted(35_000) + &"é".repeat(17_500);
    assert_eq!(remark.len(), 70_000);
    let values: [Value; 4] = ["12b".into(), (&remark).into(), "Süd".into(), 3i16.into()];
    let length = 4 + 1 + 12 + 2 + 3 + 70_000 + 4;

    // A short row is refused, and nothing is cut.
    assert_eq!(refused(RowBuf::build(&schema, &values)), (10, 0));
    let mut short = RowBuf::fresh(&schema).unwrap();
    assert_eq!(refused(short.set(&schema, "remark", &remark)), (10, 0));
    assert_eq!(short, RowBuf::fresh(&schema).unwrap());

    // Built: by a row, a builder, in lent memory.
    let long = schema.with_sort(Sort::Long);
    let row = RowBuf::build(long, &values).unwrap();
    assert_eq!((row.as_bytes().len(), row.is_long()), (length, true));
    assert_eq!(&row.as_bytes()[..4], [4, 0, 3, 0xC0]);
    assert_eq!(
        &row.as_bytes()[5..17],
        [19, 0, 0, 0, 22, 0, 0, 0, 0x86, 0x11, 1, 0]
    );
    let (widths, mut page) = ([3, 52_500, 3, 0], vec![FILL; length + 9]);
    let (again, counted_widths) = RowBuf::build_with_widths(long, &values).unwrap();
    assert_eq!((&again, counted_widths), (&row, widths.to_vec()));
    let lent = RowMut::build(long, &values, &mut page).unwrap();
    assert_eq!((lent.as_row(), lent.is_long()), (row.as_row(), true));
    assert_eq!(page[length..], [FILL; 9]);

    // Read.
    assert_eq!(row.read(&schema).unwrap(), values);
    assert_eq!(row.widths(&schema).unwrap(), widths);
    assert_eq!(row.get::<&str>(&schema, "remark").unwrap(), remark);
    assert_eq!(row.text(&schema, "office"), Ok(Some("Süd")));
    let mut reader = Reader::new(&schema, &["office", "remark"]).unwrap();
    let columns = reader.read(&row).unwrap();
    assert_eq!(columns.get::<&str>("remark").unwrap(), remark);
    assert_eq!(columns.get::<&str>("office").unwrap(), "Süd");
    assert!(columns.widths().eq([3, 52_500]));

    // Set: the remark itself, and what stands before and behind it.
    let mut set = RowBuf::fresh(long).unwrap();
    let mut editor = Editor::new(long);
    let mut page = vec![FILL; length];
    let mut lent = RowMut::fresh(long, &mut page).unwrap();
    for (column, value) in values.iter().enumerate() {
        set.set(&schema, column, value).unwrap();
        editor.set(column, value).unwrap();
        lent.set(&schema, column, value).unwrap();
    }
    assert_eq!(set, row);
    assert_eq!((editor.row(), lent.as_row()), (row.as_row(), row.as_row()));
    let other = remark.replace("000001", "one");
    set.set(&schema, "remark", &other).unwrap();
    assert_eq!(set.get::<&str>(&schema, "remark").unwrap(), other);
    assert_eq!(set.same_content(&schema, row.as_row()), Ok(false));
    set.set(&schema, "office", "West").unwrap();
    set.set(&schema, "track", "7").unwrap();
    let values = ["7".into(), (&other).into(), "West".into(), 3i16.into()];
    assert_eq!(set.read(&schema).unwrap(), values);
    assert_eq!(set, RowBuf::build(long, &values).unwrap());
    set.set(&schema, "track", "12b").unwrap();
    set.set(&schema, "remark", &remark).unwrap();
    set.set(&schema, "office", "Süd").unwrap();
    assert_eq!(set.same_content(&schema, row.as_row()), Ok(true));
}

/// Texts, Chars and bits whose place in the text area is past 65,535: a place cut to two bytes would name others.
#[test]
fn places_past_65_535() {
    let types = [
        DataType::Varchar(40_000),
        DataType::Char(30_000),
        DataType::Varchar(65_535),
        DataType::Character(6),
        DataType::Bit(12),
        DataType::Varchar(3),
        DataType::Bit(0),
    ];
    let schema = Schema::new(types).unwrap();
    let bits: Bits = "101100111000".parse().unwrap();
    let values: [Value; 7] = [
        counted(40_000).into(),
        counted(30_000).into(),
        counted(65_535).into(),
        "Süd  ".into(),
        bits.clone().into(),
        "end".into(),
        "".parse::<Bits>().unwrap().into(),
    ];
    let row = RowBuf::build(schema.with_sort(Sort::Long), &values).unwrap();
    assert_eq!(row.read(&schema).unwrap(), values);
    assert_eq!(
        row.widths(&schema).unwrap(),
        [40_000, 30_000, 65_535, 5, 0, 3, 0]
    );
    let mut reader = Reader::all(&schema);
    assert!(reader
        .read(&row)
        .unwrap()
        .iter()
        .eq(values.iter().map(Value::borrowed)));
    // Bits of another number that fill as many bytes are refused there too.
    let mut wrong = values.clone();
    wrong[4] = "10110011100".parse::<Bits>().unwrap().into();
    let refusal = RowBuf::build(schema.with_sort(Sort::Long), &wrong).unwrap_err();
    assert_eq!(
        refusal.to_string(),
        "column 4: 11 bits are not those of BIT(12) (12)"
    );
    // Texts that are too long for their column.
    wrong[4] = bits.into();
    wrong[5] = "ends".into();
    assert_eq!(
        refused(RowBuf::build(schema.with_sort(Sort::Long), &wrong)),
        (12, 5)
    );
    wrong[5] = counted(65_536).into();
    assert_eq!(
        refused(RowBuf::build(schema.with_sort(Sort::Long), &wrong)),
        (12, 5)
    );
    let mut edited = row.clone();
    assert_eq!(refused(edited.set(&schema, 5, counted(65_539))), (12, 5));
    assert_eq!(edited, row);
}

/// The same values in a short and a long row, with a place of the text area at each limit of two bytes.
#[test]
fn at_the_ends_of_two_bytes() {
    let schema = Schema::new([DataType::VarcharChars(65_535), DataType::Varchar(9)]).unwrap();
    let long = schema.with_sort(Sort::Long);
    for first in [65_534, 65_535, 65_536, 65_537, 131_071, 131_072] {
        for second in ["", "x", "platform9"] {
            let text = match first {
                // Two bytes a character, so that there are not too many.
                65_536.. => "é".repeat(first / 2) + &"x".repeat(first % 2),
                _ => counted(first),
            };
            let values = [(&text).into(), second.into()];
            let row = RowBuf::build(long, &values);
            let fits = text.chars().count() <= 65_535;
            assert_eq!(row.is_ok(), fits);
            if let Ok(row) = row {
                assert_eq!(row.read(&schema).unwrap(), values);
                let mut set = RowBuf::fresh(long).unwrap();
                set.set(&schema, 1, second).unwrap();
                set.set(&schema, 0, &text).unwrap();
                assert_eq!(set, row);
            }
        }
    }
}

/// Schemas of one text that fills a row of each sort: `n` of the text, and the longest text.
fn filled(sort: Sort) -> (Schema, Vec<Value<'static>>) {
    let columns = match sort {
        Sort::Short => 1,
        Sort::Long => 17,
    };
    let schema = Schema::new(vec![DataType::Varchar(65_535); columns]).unwrap();
    let mut left = sort.max_length() - schema.with_sort(sort).minimum();
    let values = (0..columns).map(|_| {
        let text = counted(left.min(65_535));
        left -= text.len();
        text.into()
    });
    let values = values.collect();
    assert_eq!(left, 0);
    (schema, values)
}

#[test]
fn the_longest_rows() {
    for (sort, most) in SORTS.into_iter().zip([65_535, 1_048_576]) {
        assert_eq!(sort.max_length(), most);
        let (schema, mut values) = filled(sort);
        let format = schema.with_sort(sort);
        let mut builder = Builder::new(format);
        let mut row = builder.build(&values).unwrap().to_owned();
        assert_eq!(row.as_bytes().len(), most);
        assert_eq!(row.read(&schema).unwrap(), values);
        assert_eq!(row.same_content(&schema, row.as_row()), Ok(true));
        let mut editor = Editor::new(format);
        for (column, value) in values.iter().enumerate() {
            editor.set(column, value).unwrap();
        }
        assert_eq!(editor.row(), row.as_row());

        // One byte more.
        let last = values.len() - 1;
        let Value::Text(text) = &values[last] else {
            panic!("a text");
        };
        let more = format!("{text}x");
        values[last] = Value::from(&more).into_owned();
        assert_eq!(refused(builder.build(&values)), (13, 0));
        assert_eq!(refused(RowBuf::build(format, &values)), (13, 0));
        assert_eq!(refused(editor.set(last, &more)), (13, 0));
        let before = row.clone();
        assert_eq!(refused(row.set(&schema, last, &more)), (13, 0));
        let mut page = vec![FILL; most + 9];
        page[..most].copy_from_slice(row.as_bytes());
        let mut lent = RowMut::new(&mut page, most);
        assert_eq!(refused(lent.set(&schema, last, &more)), (13, 0));
        assert_eq!((&row, editor.row()), (&before, before.as_row()));
        assert_eq!(lent.as_row(), before.as_row());
        assert_eq!(page[most..], [FILL; 9]);

        // A row that is one byte longer is not read.
        page[..most].copy_from_slice(before.as_bytes());
        page[most] = b'x';
        assert_eq!(
            refused(RowRef::new(&page[..most + 1]).read(&schema)),
            (4, 0)
        );
        assert_eq!(
            refused(RowMut::new(&mut page, most + 1).set_null(&schema, 0)),
            (15, 0)
        );
    }
}

/// The greatest text area passes, a longer one gives 10; for a set it is the row's sort that counts.
#[test]
fn the_longest_text_areas() {
    for (sort, row) in SORTS.into_iter().zip([&SHORT[..], &ROW]) {
        let most = sort.max_length();
        let area = vec![b'C'; most + 1];
        let set = |text: &[u8]| {
            let mut buffer = [FILL; 20];
            buffer[..row.len()].copy_from_slice(row);
            // Three bytes from byte 1 on.
            let list = [18, 1, 0, 0, 0, 3, 0, 0, 0];
            raw::set(&S, &mut buffer, row.len(), 1, &list, text)
        };
        assert_eq!(set(&area[..most]), Ok(row.len() + 1));
        assert_eq!(set(&area), answer(10, 0));
        let build = |text: &[u8]| {
            let is_long = sort.is_long();
            raw::build(&S, is_long, &VALUES, text, &mut [0; 20], &mut [0; 3])
        };
        assert_eq!(build(&area[..most]), Ok(row.len()));
        assert_eq!(build(&area), answer(10, 0));
    }
    // The last bytes of the greatest area.
    let mut area = vec![b'C'; 1_048_576];
    area[1_048_574..].copy_from_slice(b"AB");
    let list = [2, 1, 0, 0, 0, 18, 0xFE, 0xFF, 0x0F, 0, 2, 0, 0, 0, 0];
    let mut out = [FILL; 17];
    assert_eq!(
        raw::build(&S, true, &list, &area, &mut out, &mut [0; 3]),
        Ok(17)
    );
    assert_eq!(out, ROW);
    let mut past = list;
    past[6] = 0xFF;
    assert_eq!(
        raw::build(&S, true, &past, &area, &mut out, &mut [0; 3]),
        answer(12, 1)
    );
}

/// Rows of one list of values: the same content, and the same values, whatever their sorts.
#[test]
fn twins() {
    let bits: Bits = "10100101111".parse().unwrap();
    let types = [
        DataType::Int,
        DataType::Char(5),
        DataType::Varchar(9),
        DataType::Bit(11),
        DataType::VarcharChars(9),
        DataType::DoublePrecision,
    ];
    let schema = Schema::new(types).unwrap();
    let values = |zero: f64| -> [Value<'_>; 6] {
        let texts = ["Süd ".into(), "".into(), "😀".into()];
        let [a, b, c] = texts;
        [1.into(), a, b, bits.clone().into(), c, zero.into()]
    };
    let row = |sort, zero| RowBuf::build(schema.with_sort(sort), &values(zero)).unwrap();
    for a in SORTS {
        for b in SORTS {
            let same = |x: &RowBuf, y: &RowBuf| x.same_content(&schema, y.as_row());
            assert_eq!(same(&row(a, 0.0), &row(b, 0.0)), Ok(true));
            assert_eq!(same(&row(a, 0.0), &row(b, -0.0)), Ok(true));
            assert_eq!(same(&row(a, 0.0), &row(b, 1.0)), Ok(false));
            let mut other = row(b, 0.0);
            other.set(&schema, 2, None::<&str>).unwrap();
            assert_eq!(same(&row(a, 0.0), &other), Ok(false));
        }
        // The offsets of two Varchars.
        let longer = row(Sort::Long, 0.0).as_bytes().len();
        assert_eq!(longer, row(Sort::Short, 0.0).as_bytes().len() + 4);
        assert_eq!(row(a, 0.5).read(&schema).unwrap(), values(0.5));
    }
}

/// 256 Varchars: the most records of nine bytes, and the most offsets.
#[test]
fn many_columns() {
    let schema = Schema::new([DataType::Varchar(4); 256]).unwrap();
    let values: Vec<Value> = (0..256).map(|n| n.to_string().into()).collect();
    let row = RowBuf::build(schema.with_sort(Sort::Long), &values).unwrap();
    assert_eq!(
        row.as_bytes().len(),
        4 + 32 + 4 * 256 + 10 + 2 * 90 + 3 * 156
    );
    assert_eq!(row.read(&schema).unwrap(), values);
    let mut reader = Reader::all(&schema);
    let columns = reader.read(&row).unwrap();
    assert!(columns.iter().eq(values.iter().map(Value::borrowed)));
    for column in [255, 0, 128, 254] {
        assert_eq!(columns.get::<&str>(column).unwrap(), column.to_string());
        assert_eq!(
            row.get::<&str>(&schema, column).unwrap(),
            column.to_string()
        );
    }
}

/// A sheet prints a long row like its short twin.
#[test]
fn printed() {
    let schema = occupation_schema();
    let values = [
        "3".into(),
        "T41".into(),
        Timestamp::from_micros(0).into(),
        Value::Null,
    ];
    let line = "\"3\"|\"T41\"|1970-01-01 00:00:00|-\n";
    let mut list = RowList::new();
    for (rows, sort) in [Sort::Long, Sort::Short, Sort::Long]
        .into_iter()
        .enumerate()
    {
        list.push(RowBuf::build(schema.with_sort(sort), &values).unwrap())
            .unwrap();
        assert_eq!(print_occupations(&list).unwrap(), line.repeat(rows + 1));
    }
    // Its first 28 bytes would be enough for a short one.
    let row = list.iter().last().unwrap();
    let cut = [&[28, 0], &row.as_bytes()[..28]].concat();
    assert_eq!(refused(print_occupations(cut)), (3, 0));
}

/// What makes a row takes a schema, for a short one, or a format.
#[test]
fn formats() {
    let schema = s();
    let format = RowFormat::from(&schema);
    assert_eq!((format.sort(), format.schema()), (Sort::Short, &schema));
    assert_eq!(Sort::default(), Sort::Short);
    assert_eq!(
        (Sort::Short.to_string(), Sort::Long.to_string()),
        ("short".into(), "long".into())
    );
    let row = RowBuf::from_bytes(ROW);
    let same_sort = RowBuf::fresh(schema.with_sort(row.sort())).unwrap();
    assert!(same_sort.is_long() && same_sort.as_row().is_long());
    let short = RowBuf::fresh(format).unwrap();
    assert!(!short.is_long() && !RowRef::new(&[1, 2, 0xC0]).is_long());
}
