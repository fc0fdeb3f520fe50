//! Each refusal of each call with its place, and which of two comes first.

mod common;

use common::*;
use model::schema::Type;
use model::value::{self, Value};
use model::{Handle, RowAnswer, Sort};

/// Schemas that every call with a schema refuses, with number and place.
fn bad_schemas() -> Vec<(Vec<u8>, u32, usize)> {
    let many = |last: &[u8]| [&[2; 256][..], last].concat();
    vec![
        // Unknown kinds and cut records.
        (hex("00"), 1, 0),
        (hex("10"), 1, 0),
        (hex("10 05"), 1, 0),
        (hex("11 01 00"), 1, 0),
        (hex("02 0B 05 00 FF"), 1, 4),
        (hex("01 06"), 1, 1),
        (hex("09 01"), 1, 0),
        (hex("0E"), 1, 0),
        // Cut off: 1 even if what is there of the body is wrong.
        (hex("06 00"), 1, 0),
        (hex("07 27"), 1, 0),
        // Precision, scale.
        (hex("06 00 00"), 2, 0),
        (hex("01 07 27 00"), 2, 1),
        (hex("06 05 06"), 2, 0),
        // A 257th record, whatever it is.
        (many(&hex("02")), 2, 256),
        (many(&hex("00")), 2, 256),
        (many(&hex("06")), 2, 256),
        (many(&hex("06 00 00")), 2, 256),
        // A padded minimum of 65,536: header, one byte of bitmap, Char(65,531).
        (hex("09 FB FF"), 2, 3),
        // The first bad record decides.
        (hex("06 00 00 FF"), 2, 0),
        (hex("FF 06 00 00"), 1, 0),
        // A bad record comes before the minimum.
        (hex("09 FF FF 09 FF FF FF"), 1, 6),
        (hex("09 FF FF 09 FF FF 06 00 00"), 2, 6),
    ]
}

#[test]
fn bad_schemas_in_every_call() {
    // All other arguments are bad too: the schema is judged first.
    let row = vec![0; LIMIT + 1];
    for (schema, number, place) in bad_schemas() {
        let refused = refused(number, place, 0);
        let of_set = RowAnswer {
            length: 9,
            ..refused
        };
        let flag = flag(number, place, 0);
        assert_eq!(
            model::schema::check(&schema, Sort::Short),
            Err((number, place))
        );
        assert_eq!(fresh(&schema, 0).0, refused);
        assert_eq!(build_in(&schema, &[99], b"", 0).0, refused);
        assert_eq!(read_in(&schema, &row, &[0], 0).0, refused);
        assert_eq!(model::set(&schema, &mut [], 9, 999, &[99], b""), of_set);
        assert_eq!(model::set_null(&schema, &mut [], 9, 999), of_set);
        assert_eq!(model::same_content(&schema, &row, &row), flag);
        let text = part(number, place, 0, 0);
        assert_eq!(model::text(&schema, &row, 999), text);
    }
}

#[test]
fn fresh_14() {
    assert_eq!(fresh(&s(), 12).0, refused(14, 0, 0));
    assert_eq!(fresh(&s(), 13).0, done(13));
    assert_eq!(fresh(&[], 3).0, refused(14, 0, 0));
}

/// A list for S: "AB" in column 1, these in the others.
fn list_for_s(first: Value, last: Value) -> Vec<u8> {
    value::list(&[first, Value::Varchar(range(0, 2)), last], Sort::Short)
}

#[test]
fn build_10() {
    let good = list_for_s(Value::Int(1), Value::SmallInt(2));
    assert_eq!(good.len(), 5 + 5 + 3);
    let place = |list: &[u8], text: &[u8]| {
        let (answer, _) = build_in(&s(), list, text, ROOM);
        assert!(answer.number == 10 || answer.number == 0);
        (answer.number == 10).then_some(answer.place)
    };
    assert_eq!(place(&good, b"AB"), None);
    // An unknown kind: 14, 16 and 255, the first record and a later one.
    assert_eq!(place(&hex("0E"), b"AB"), Some(0));
    assert_eq!(place(&hex("10 00 00 02 00"), b"AB"), Some(0));
    assert_eq!(place(&[&good[..5], &[255]].concat(), b"AB"), Some(5));
    // A cut body of each kind.
    for kind in 1..=13 {
        assert_eq!(place(&[kind], b"AB"), Some(0));
    }
    assert_eq!(place(&good[..12], b"AB"), Some(10));
    // The count, place: list length.
    assert_eq!(place(&[], b"AB"), Some(0));
    assert_eq!(place(&good[..10], b"AB"), Some(10));
    assert_eq!(place(&[&good[..], &[0]].concat(), b"AB"), Some(14));
    // A bad record beyond the count still decides; a cut one is not counted.
    assert_eq!(place(&[&good[..], &[0, 14]].concat(), b"AB"), Some(14));
    assert_eq!(place(&[&good[..], &[1, 0]].concat(), b"AB"), Some(13));
    // The text area, after the count; also where no record is text.
    let long = vec![b'A'; LIMIT + 1];
    assert_eq!(place(&good, &long), Some(0));
    assert_eq!(place(&good, &long[..LIMIT]), None);
    assert_eq!(place(&[0, 0, 0], &long), Some(0));
    assert_eq!(place(&good[..10], &long), Some(10));
    // The first bad record decides.
    assert_eq!(place(&[14, 1], &long), Some(0));
    // 10 before 11 and 12.
    assert_eq!(place(&[7, 9, 7, 9, 14], b"AB"), Some(4));
}

#[test]
fn build_11_and_12() {
    let answer = |values: [Value; 3]| build(&s(), &values, b"AB\xFF").0;
    let text = |start, length| Value::Varchar(range(start, length));
    let one = Value::Int(1);
    assert_eq!(
        answer([Value::SmallInt(1), text(0, 2), Value::Null]).number,
        11
    );
    for column in 0..3 {
        let mut values = [one, text(0, 2), Value::SmallInt(1)];
        values[column] = Value::Date(0);
        assert_eq!(answer(values), refused(11, column, 0));
    }
    // The kind comes before the body.
    assert_eq!(
        answer([Value::Bool(2), text(0, 2), Value::Null]),
        refused(11, 0, 0)
    );
    // Char is not Varchar.
    assert_eq!(
        answer([one, Value::Char(range(0, 2)), Value::Null]),
        refused(11, 1, 0)
    );
    // Invalid text; a range that leaves the area.
    assert_eq!(answer([one, text(1, 2), Value::Null]), refused(12, 1, 0));
    assert_eq!(answer([one, text(1, 3), Value::Null]), refused(12, 1, 0));
    assert_eq!(answer([one, text(3, 0), Value::Null]).number, 0);
    assert_eq!(answer([one, text(4, 0), Value::Null]), refused(12, 1, 0));
    assert_eq!(
        answer([one, text(65_535, 65_535), Value::Null]),
        refused(12, 1, 0)
    );
    // By rising column.
    assert_eq!(answer([one, text(9, 9), Value::Int(1)]), refused(12, 1, 0));
    assert_eq!(
        answer([Value::Null, Value::Int(1), Value::Int(1)]),
        refused(11, 1, 0)
    );
    // Before 14.
    let list = value::list(&[one, text(9, 9), Value::Null], Sort::Short);
    assert_eq!(build_in(&s(), &list, b"", 0).0, refused(12, 1, 0));
}

#[test]
fn build_13_and_14() {
    let schema = schema(&[Type::Varchar(LIMIT), Type::Varchar(LIMIT), Type::Bool]);
    let text = vec![b'x'; LIMIT];
    // Ten bytes before the payloads.
    let list = |first, second, bool| {
        let texts = [first, second].map(|length| Value::Varchar(range(0, length)));
        value::list(&[texts[0], texts[1], Value::Bool(bool)], Sort::Short)
    };
    let answer = |list: &[u8], room| build_in(&schema, list, &text, room).0;
    assert_eq!(answer(&list(65_525, 0, 1), LIMIT), done(LIMIT));
    assert_eq!(answer(&list(65_525, 0, 1), LIMIT - 1), refused(14, 0, 0));
    assert_eq!(answer(&list(65_525, 1, 1), ROOM), refused(13, 0, 0));
    // 12 before 13, 13 before 14.
    assert_eq!(answer(&list(65_525, 1, 2), 0), refused(12, 2, 0));
    assert_eq!(answer(&list(65_525, 1, 1), 0), refused(13, 0, 0));
    assert_eq!(answer(&list(LIMIT, LIMIT, 1), 0), refused(13, 0, 0));
    assert_eq!(answer(&list(0, 0, 1), 9), refused(14, 0, 0));
    assert_eq!(answer(&list(0, 0, 1), 10), done(10));
}

#[test]
fn read_by_header() {
    let refusal = |row: &[u8]| read_all(&s(), row).err();
    let changed = |at: usize, byte: u8| {
        let mut row = row_2();
        row[at] = byte;
        row
    };
    let mut long = row_2();
    long.resize(LIMIT + 1, 0);
    assert_eq!(refusal(&long), Some((4, 0)));
    assert_eq!(refusal(&[]), Some((3, 0)));
    assert_eq!(refusal(&row_2()[..3]), Some((3, 0)));
    assert_eq!(refusal(&changed(0, 4)), Some((5, 0)));
    assert_eq!(refusal(&changed(1, 1)), Some((5, 0)));
    assert_eq!(refusal(&changed(2, 2)), Some((6, 0)));
    assert_eq!(refusal(&changed(3, 0x81)), Some((6, 0)));
    assert_eq!(refusal(&row_2()[..4]), Some((3, 0)));
    assert_eq!(refusal(&row_2()[..12]), Some((3, 0)));
    // 4, 3, 5, 6, 3 in this order.
    long[0] = 4;
    assert_eq!(refusal(&long), Some((4, 0)));
    assert_eq!(refusal(&hex("09 09 09")), Some((3, 0)));
    assert_eq!(refusal(&hex("04 00 09 80")), Some((5, 0)));
    assert_eq!(refusal(&hex("03 00 09 80")), Some((6, 0)));
    // No column wanted: the header is judged all the same.
    assert_eq!(read_in(&s(), &[], &[], ROOM).0, refused(3, 0, 0));
    assert_eq!(read_in(&s(), &row_2(), &[], 3), (done(3), vec![0, 0, 0]));
}

#[test]
fn read_7_and_8() {
    let schema = schema(&[Type::Varchar(5), Type::Varchar(2), Type::Date]);
    let values = [
        Value::Varchar(range(0, 3)),
        Value::Varchar(range(0, 2)),
        Value::Date(1),
    ];
    let row = built(&schema, &values, b"ABC");
    assert_eq!(row[..9], hex("03 00 02 80 00 0D 00 10 00"));
    assert_eq!(row.len(), 18);
    let changed = |changes: &[(usize, u8)]| {
        let mut row = row.clone();
        for &(at, byte) in changes {
            row[at] = byte;
        }
        row
    };
    let refusal = |changes: &[(usize, u8)]| read_all(&schema, &changed(changes)).err();
    // Start > end; end > row length; both columns suffer from one offset.
    assert_eq!(refusal(&[(5, 17)]), Some((7, 0)));
    assert_eq!(refusal(&[(7, 19)]), Some((7, 0)));
    assert_eq!(refusal(&[(4, 1), (7, 19)]), Some((7, 1)));
    assert_eq!(refusal(&[(5, 19), (7, 0)]), Some((7, 0)));
    // Start at the row's end: empty.
    assert_eq!(refusal(&[(5, 18), (7, 18)]), None);
    // Invalid text; text longer than n; a date past the end.
    assert_eq!(refusal(&[(13, 0xFF)]), Some((8, 0)));
    assert_eq!(refusal(&[(16, 0xFF)]), Some((8, 1)));
    assert_eq!(refusal(&[(7, 15)]), Some((8, 1)));
    assert_eq!(refusal(&[(12, 0x7F)]), Some((8, 2)));
    // By rising column.
    assert_eq!(refusal(&[(13, 0xFF), (7, 19)]), Some((7, 0)));
    assert_eq!(refusal(&[(13, 0xFF), (7, 15)]), Some((8, 0)));
    assert_eq!(refusal(&[(7, 15), (12, 0x7F)]), Some((8, 1)));
    // Only wanted columns count, and null ones read without a look.
    let bad = changed(&[(7, 19), (12, 0x7F)]);
    assert_eq!(read_in(&schema, &bad, &[2], ROOM).0, refused(8, 2, 0));
    assert_eq!(read_in(&schema, &bad, &[2, 1], ROOM).0, refused(7, 1, 0));
    assert_eq!(read_in(&schema, &bad, &[], ROOM).0, done(3));
    assert_eq!(refusal(&[(4, 7), (7, 19), (12, 0x7F)]), None);
    // 8 before 14.
    assert_eq!(read_in(&schema, &bad, &[2], 0).0, refused(8, 2, 0));
}

#[test]
fn read_14() {
    // Records of 5, 5 and 1 bytes.
    let list = hex("02 01 00 00 00 09 0D 00 02 00 00");
    assert_eq!(read_in(&s(), &row_2(), &[0, 1, 2], 11), (done(11), list));
    assert_eq!(read_in(&s(), &row_2(), &[0, 1, 2], 10).0, refused(14, 0, 0));
}

#[test]
fn edits_14_15_9() {
    let row = row_2();
    let list = Value::Int(7).record(Sort::Short);
    let both = |buf: &[u8], length: usize, column: usize| {
        let (mut a, mut b) = (buf.to_vec(), buf.to_vec());
        let set = model::set(&s(), &mut a, length, column, &list, b"");
        let null = model::set_null(&s(), &mut b, length, column);
        assert_eq!(set, null);
        if set.number != 0 {
            assert_eq!((&a[..], &b[..]), (buf, buf));
        }
        set
    };
    assert_eq!(both(&row, 15, 0), done(15));
    // A row length beyond the buffer.
    assert_eq!(both(&row, 16, 0), refused(14, 0, 16));
    assert_eq!(both(&row, usize::MAX, 9), refused(14, 0, usize::MAX));
    // Not sound: too short, too long, wrong counts; before 9.
    assert_eq!(both(&row, 3, 0), refused(15, 0, 3));
    assert_eq!(both(&row, 0, 9), refused(15, 0, 0));
    assert_eq!(both(&row, 12, 0), refused(15, 0, 12));
    assert_eq!(
        both(&vec![0; ROOM], LIMIT + 1, 0),
        refused(15, 0, LIMIT + 1)
    );
    let mut other = row.clone();
    other[0] = 2;
    assert_eq!(both(&other, 15, 0), refused(15, 0, 15));
    // No such column.
    assert_eq!(both(&row, 15, 3), refused(9, 0, 15));
    assert_eq!(both(&row, 15, usize::MAX), refused(9, 0, 15));
}

#[test]
fn set_10_to_12() {
    let row = row_2();
    let answer = |column, list: &[u8], text: &[u8]| set_in(&s(), &row, 15, column, list, text).0;
    // Exactly one record.
    assert_eq!(answer(0, &[], b""), refused(10, 0, 15));
    assert_eq!(answer(0, &[0, 0], b""), refused(10, 2, 15));
    assert_eq!(answer(0, &[14], b""), refused(10, 0, 15));
    assert_eq!(
        answer(0, &hex("02 01 00 00 00 0E"), b""),
        refused(10, 5, 15)
    );
    assert_eq!(answer(0, &hex("02 01 00 00"), b""), refused(10, 0, 15));
    let long = vec![b'x'; LIMIT + 1];
    assert_eq!(answer(0, &hex("02 01 00 00 00"), &long), refused(10, 0, 15));
    // 9 before 10, 10 before 11.
    assert_eq!(answer(3, &[14], b""), refused(9, 0, 15));
    assert_eq!(answer(0, &[0], &long), refused(10, 0, 15));
    // Null, and another kind.
    assert_eq!(answer(0, &[0], b""), refused(11, 0, 15));
    assert_eq!(answer(1, &[0], b""), refused(11, 1, 15));
    assert_eq!(answer(2, &[7, 2], b""), refused(11, 2, 15));
    // Too long, invalid, outside the area; before 14.
    assert_eq!(
        answer(1, &hex("09 00 00 06 00"), b"ABCDEF"),
        refused(12, 1, 15)
    );
    assert_eq!(
        answer(1, &hex("09 00 00 03 00"), b"AB\x80"),
        refused(12, 1, 15)
    );
    assert_eq!(answer(1, &hex("09 02 00 01 00"), b"AB"), refused(12, 1, 15));
    // Room for the row, not for a longer one.
    assert_eq!(
        answer(1, &hex("09 00 00 03 00"), b"ABC"),
        refused(14, 0, 15)
    );
    assert_eq!(answer(1, &hex("09 00 00 02 00"), b"ABC"), done(15));
}

#[test]
fn set_13() {
    let schema = schema(&[Type::Varchar(LIMIT), Type::Varchar(LIMIT)]);
    let text = vec![b'x'; LIMIT];
    let long = |length| Value::Varchar(range(0, length)).record(Sort::Short);
    let row = built(
        &schema,
        &[Value::Varchar(range(0, 65_000)), Value::Null],
        &text,
    );
    assert_eq!(row.len(), 65_009);
    let answer = |room, length| set_in(&schema, &row, room, 1, &long(length), &text).0;
    assert_eq!(answer(ROOM, 526), done(LIMIT));
    assert_eq!(answer(ROOM, 527), refused(13, 0, 65_009));
    // 13 before 14.
    assert_eq!(answer(0, 527), refused(13, 0, 65_009));
    assert_eq!(answer(0, 526), refused(14, 0, 65_009));
    // Over a handle, which stays as it was.
    let before = Handle {
        length: row.len(),
        columns: 9,
        varchars: 9,
        fixed: 9,
        packed: 9,
        is_long: 9,
    };
    let (mut buffer, mut handle) = (row.clone(), before);
    let answer = model::handle_set(&mut handle, &schema, &mut buffer, 1, &long(527), &text);
    assert_eq!(answer, refused(13, 0, 65_009));
    assert_eq!((buffer, handle), (row, before));
}

#[test]
fn null_flag() {
    let is_null = |row: &str, column| model::is_null(&hex(row), column);
    assert_eq!(is_null("03 00 01 80 04", 1), flag(0, 0, 0));
    assert_eq!(is_null("03 00 01 80 04", 2), flag(0, 0, 1));
    let long = vec![0; LIMIT + 1];
    assert_eq!(model::is_null(&long, 0), flag(4, 0, 0));
    assert_eq!(is_null("03 00 01", 9), flag(3, 0, 0));
    assert_eq!(is_null("", 0), flag(3, 0, 0));
    assert_eq!(is_null("03 00 01 80 04", 3), flag(9, 0, 0));
    assert_eq!(is_null("00 00 00 80", 0), flag(9, 0, 0));
    assert_eq!(is_null("03 00 01 80", 0), flag(3, 0, 0));
    // 9 before the cut bitmap; the whole bitmap counts, not the column's byte.
    assert_eq!(is_null("03 00 01 80", 3), flag(9, 0, 0));
    assert_eq!(is_null("09 00 00 80 FF", 0), flag(3, 0, 0));
    assert_eq!(is_null("09 00 00 80 FF 00", 0), flag(0, 0, 1));
    assert_eq!(is_null("09 00 00 80 FF 00", 8), flag(0, 0, 0));
    // Any count of the header.
    let mut row = vec![0xFF; 4 + 8192];
    assert_eq!(model::is_null(&row, 65_534), flag(0, 0, 1));
    assert_eq!(model::is_null(&row, 65_535), flag(9, 0, 0));
    row.pop();
    assert_eq!(model::is_null(&row, 0), flag(3, 0, 0));
}

#[test]
fn same_content() {
    let row = row_2();
    let same = |a: &[u8], b: &[u8]| model::same_content(&s(), a, b);
    assert_eq!(same(&row, &row), flag(0, 0, 1));
    let mut other = row.clone();
    other[14] = b'C';
    assert_eq!(same(&row, &other), flag(0, 0, 0));
    // As a read of the first row, then of the second.
    let mut bad = row.clone();
    bad[14] = 0xFF;
    assert_eq!(same(&bad, &[]), flag(8, 1, 0));
    assert_eq!(same(&row, &bad), flag(8, 1, 0));
    assert_eq!(same(&[], &bad), flag(3, 0, 0));
    bad[5] = 16;
    assert_eq!(same(&row, &bad), flag(7, 1, 0));
    bad[2] = 2;
    assert_eq!(same(&bad, &row), flag(6, 0, 0));
    bad[0] = 2;
    assert_eq!(same(&bad, &row), flag(5, 0, 0));
    assert_eq!(same(&row, &vec![0; LIMIT + 1]), flag(4, 0, 0));
}

#[test]
fn text_call() {
    let row = row_2();
    let text = |row: &[u8], column| model::text(&s(), row, column);
    assert_eq!(text(&row, 1), part(0, 0, 13, 2));
    // 9 and 11 before the row is looked at.
    assert_eq!(text(&[], 3), part(9, 0, 0, 0));
    assert_eq!(text(&row, usize::MAX), part(9, 0, 0, 0));
    assert_eq!(text(&[], 0), part(11, 0, 0, 0));
    assert_eq!(text(&row, 2), part(11, 2, 0, 0));
    let mut bad = row.clone();
    bad[14] = 0xFF;
    assert_eq!(text(&bad, 1), part(8, 1, 0, 0));
    bad[5] = 16;
    assert_eq!(text(&bad, 1), part(7, 1, 0, 0));
    bad[4] = 2;
    assert_eq!(text(&bad, 1), part(0, 0, 0, 0));
    assert_eq!(text(&bad[..12], 1), part(3, 0, 0, 0));
    bad[2] = 2;
    assert_eq!(text(&bad, 1), part(6, 0, 0, 0));
    bad[0] = 2;
    assert_eq!(text(&bad, 1), part(5, 0, 0, 0));
    assert_eq!(text(&bad[..3], 1), part(3, 0, 0, 0));
    assert_eq!(text(&vec![0; LIMIT + 1], 1), part(4, 0, 0, 0));
}

#[test]
fn text_of_each_kind() {
    let schema = schema(&[
        Type::Char(3),
        Type::Character(2),
        Type::Varchar(4),
        Type::Varchar(4),
        Type::Date,
    ]);
    let values = [
        Value::Char(range(0, 1)),
        Value::Char(range(0, 2)),
        Value::Varchar(range(0, 0)),
        Value::Varchar(range(0, 2)),
        Value::Date(1),
    ];
    let mut row = built(&schema, &values, b"AB");
    assert_eq!(row.len(), 4 + 1 + 4 + 3 + 2 + 4 + 2);
    // A Char with its blanks; an empty text has its own start.
    assert_eq!(model::text(&schema, &row, 0), part(0, 0, 9, 3));
    assert_eq!(row[9..12], *b"A  ");
    assert_eq!(model::text(&schema, &row, 1), part(0, 0, 12, 2));
    assert_eq!(model::text(&schema, &row, 2), part(0, 0, 18, 0));
    assert_eq!(model::text(&schema, &row, 3), part(0, 0, 18, 2));
    assert_eq!(model::text(&schema, &row, 4), part(11, 4, 0, 0));
    // Only that column's bytes count.
    row[14..18].fill(0x7F);
    row[9] = 0xFF;
    assert_eq!(model::text(&schema, &row, 0), part(8, 0, 0, 0));
    assert_eq!(model::text(&schema, &row, 3), part(0, 0, 18, 2));
}
