//! Varchars counted in characters, schema kind 16: the examples of 02's third request,
//! and that such a column answers as kind 11 does where every character is one byte.

mod common;

use common::*;
use model::value::{self, Value};
use model::{RowAnswer, Sort};

/// "é€": five bytes, two code points.
const TWO: &[u8] = "é€".as_bytes();

fn text_of(bytes: &[u8]) -> Value {
    Value::Varchar(range(0, bytes.len()))
}

/// A build of one column from one text: the answer, the row and the count.
fn built_one(schema: &str, text: &[u8]) -> (RowAnswer, Vec<u8>, u32) {
    let list = text_of(text).record(Sort::Short);
    let (answer, row, counts) = with_counts(ROOM, 1, |out, counts| {
        model::build(&hex(schema), Sort::Short, &list, text, out, counts)
    });
    (answer, row, counts[0])
}

#[test]
fn built_by_code_points() {
    let row = hex("01 00 01 80 00 07 00 C3 A9 E2 82 AC");
    assert_eq!(built_one("10 02 00", TWO), (done(12), row.clone(), 2));
    let refusal = (refused(12, 0, 0), vec![], NUMBER);
    assert_eq!(built_one("10 02 00", "é€A".as_bytes()), refusal);
    // Kind 11 counts bytes.
    assert_eq!(built_one("0B 02 00", TWO), refusal);
    assert_eq!(built_one("0B 05 00", TWO), (done(12), row, 2));
    // Bytes that are no text.
    assert_eq!(built_one("10 02 00", &hex("FF")), refusal);
    assert_eq!(built_one("10 02 00", &hex("C3 A9 C3")), refusal);
}

/// A read of column 0: the answer, the list and the count.
fn read_one(schema: &str, row: &[u8]) -> (RowAnswer, Vec<u8>, u32) {
    let (answer, list, counts) = with_counts(ROOM, 1, |out, counts| {
        model::read(&hex(schema), row, &[0], out, counts)
    });
    (answer, list, counts[0])
}

#[test]
fn read_by_code_points() {
    let row = hex("01 00 01 80 00 07 00 41 42 43");
    let refusal = (refused(8, 0, 0), vec![], NUMBER);
    assert_eq!(read_one("10 02 00", &row), refusal);
    assert_eq!(model::text(&hex("10 02 00"), &row, 0), part(8, 0, 0, 0));
    let same = model::same_content(&hex("10 02 00"), &row, &row);
    assert_eq!(same, flag(8, 0, 0));
    let edit = set_null(&hex("10 02 00"), &row, 0);
    assert_eq!(edit, (refused(15, 0, 10), row.clone()));
    let edit = set(&hex("10 02 00"), &row, 0, text_of(b"A"), b"A");
    assert_eq!(edit, (refused(15, 0, 10), row.clone()));

    let list = hex("09 07 00 03 00");
    assert_eq!(read_one("10 03 00", &row), (done(5), list, 3));
    assert_eq!(model::text(&hex("10 03 00"), &row, 0), part(0, 0, 7, 3));
    let null = hex("01 00 01 80 01 00 00");
    assert_eq!(set_null(&hex("10 03 00"), &row, 0), (done(7), null));

    let row = hex("01 00 01 80 00 07 00 FF");
    assert_eq!(read_one("10 02 00", &row), refusal);
    // More bytes than n, and as many code points.
    let row = hex("01 00 01 80 00 07 00 C3 A9 E2 82 AC");
    let list = hex("09 07 00 05 00");
    assert_eq!(read_one("10 02 00", &row), (done(5), list, 2));
    assert_eq!(model::text(&hex("10 02 00"), &row, 0), part(0, 0, 7, 5));
    assert_eq!(read_one("0B 02 00", &row), refusal);
    let same = model::same_content(&hex("10 02 00"), &row, &row);
    assert_eq!(same, flag(0, 0, 1));
}

/// One rank after the other, and one Varchar count, whatever the kind.
#[test]
fn one_layout() {
    let schema = hex("10 01 00 0B 01 00");
    let values = [Value::Varchar(range(0, 2)), Value::Varchar(range(2, 1))];
    let row = hex("02 00 02 80 00 09 00 0B 00 C3 A9 41");
    assert_eq!(built(&schema, &values, "éA".as_bytes()), row);
    let read = [Value::Varchar(range(9, 2)), Value::Varchar(range(11, 1))];
    assert_eq!(read_all(&schema, &row), Ok(read.to_vec()));
    // The other order: two bytes are too many for kind 11.
    let other = hex("0B 01 00 10 01 00");
    assert_eq!(build(&other, &values, "éA".as_bytes()).0, refused(12, 0, 0));
    let nulls = hex("02 00 02 80 03 00 00 00 00");
    assert_eq!(fresh(&schema, ROOM), (done(9), nulls.clone()));
    assert_eq!(fresh(&other, ROOM), (done(9), nulls));
    let mut one = row.clone();
    one[2] = 1;
    assert_eq!(read_all(&schema, &one), Err((6, 0)));
}

#[test]
fn a_history_with_both_kinds() {
    let schema = hex("10 03 00 0B 03 00 02");
    let seven = "é€é".as_bytes();
    let (_, row) = fresh(&schema, ROOM);
    let (answer, row) = set(&schema, &row, 0, text_of(seven), seven);
    let after = hex("03 00 02 80 06 0D 00 00 00 00 00 00 00 C3 A9 E2 82 AC C3 A9");
    assert_eq!((answer, &row), (done(20), &after));
    let edit = set(&schema, &row, 1, text_of(seven), seven);
    assert_eq!(edit, (refused(12, 1, 20), after));
    let (answer, row) = set(&schema, &row, 1, text_of(b"ABC"), b"ABC");
    assert_eq!(answer, done(23));
    // A text of fewer bytes and more code points is refused, the other one moved.
    let edit = set(&schema, &row, 0, text_of(b"ABCD"), b"ABCD");
    assert_eq!(edit, (refused(12, 0, 23), row.clone()));
    let (answer, row) = set(&schema, &row, 0, text_of(b"XYZ"), b"XYZ");
    let after = hex("03 00 02 80 04 0D 00 10 00 00 00 00 00 58 59 5A 41 42 43");
    assert_eq!((answer, row), (done(19), after));
}

/// No bound in bytes but those of the text area and of the row.
#[test]
fn the_largest_n() {
    let schema = hex("10 FF FF");
    let wide = "\u{10FFFF}".repeat(16_384).into_bytes();
    assert_eq!(wide.len(), LIMIT + 1);
    let list = Value::Varchar(range(0, 4)).record(Sort::Short);
    assert_eq!(build_in(&schema, &list, &wide, ROOM).0, refused(10, 0, 0));
    let (_, row) = fresh(&schema, ROOM);
    let edit = set_in(&schema, &row, ROOM, 0, &list, &wide);
    assert_eq!(edit, (refused(10, 0, 7), row));

    let text = "\u{10FFFF}".repeat(10_000).into_bytes();
    let one = Value::Varchar(range(0, 40_000));
    let two = hex("10 FF FF 10 FF FF");
    assert_eq!(build(&two, &[one, one], &text).0, refused(13, 0, 0));
    let (answer, row) = build(&two, &[one, Value::Null], &text);
    assert_eq!(answer, done(9 + 40_000));
    assert_eq!(set(&two, &row, 1, one, &text).0, refused(13, 0, 40_009));
    // As many bytes as a row takes, of four and of one a character.
    for character in ["\u{10FFFF}", "x"] {
        let text = character.repeat(65_528 / character.len()).into_bytes();
        let one = [Value::Varchar(range(0, 65_528))];
        assert_eq!(build(&schema, &one, &text).0, done(LIMIT));
    }
    let text = vec![b'x'; LIMIT];
    let one = [Value::Varchar(range(0, LIMIT))];
    assert_eq!(build(&schema, &one, &text).0, refused(13, 0, 0));
}

#[test]
fn n_of_0() {
    let row = hex("01 00 01 80 00 07 00");
    assert_eq!(built_one("10 00 00", b""), (done(7), row.clone(), 0));
    assert_eq!(built_one("10 00 00", b"A").0, refused(12, 0, 0));
    assert_eq!(
        built_one("10 00 00", "\u{10FFFF}".as_bytes()).0,
        refused(12, 0, 0)
    );
    let list = hex("09 07 00 00 00");
    assert_eq!(read_one("10 00 00", &row), (done(5), list, 0));
    let longer = [&row[..], b"A"].concat();
    assert_eq!(read_one("10 00 00", &longer).0, refused(8, 0, 0));
}

/// At n - 1, n and n + 1 code points of each width, written, read and edited.
#[test]
fn the_ends_of_n() {
    for character in ["A", "é", "€", "\u{10FFFF}"] {
        for n in [1, 2, 7, 8, 9, 300] {
            let schema = [16, (n % 256) as u8, (n / 256) as u8];
            let any = hex("10 FF FF");
            for points in [n - 1, n, n + 1] {
                let text = character.repeat(points).into_bytes();
                let row = built(&any, &[text_of(&text)], &text);
                let (answer, own) = build(&schema, &[text_of(&text)], &text);
                let read = read_all(&schema, &row);
                let (_, null) = fresh(&schema, ROOM);
                let (answer_set, by_set) = set(&schema, &null, 0, text_of(&text), &text);
                let edit = set_null(&schema, &row, 0);
                if points <= n {
                    assert_eq!((answer, own), (done(row.len()), row.clone()));
                    assert_eq!((answer_set, by_set), (done(row.len()), row));
                    assert_eq!(read, Ok(vec![Value::Varchar(range(7, text.len()))]));
                    assert_eq!(edit, (done(7), null));
                } else {
                    assert_eq!(answer, refused(12, 0, 0));
                    assert_eq!((answer_set, by_set), (refused(12, 0, 7), null));
                    assert_eq!(read, Err((8, 0)));
                    assert_eq!(edit, (refused(15, 0, row.len()), row));
                }
            }
        }
    }
}

/// A value of kind 9, and no other.
#[test]
fn value_kinds() {
    let schema = hex("10 05 00");
    for kind in 0..=255 {
        let list = [&[kind][..], &[0; 17]].concat();
        let body = match kind {
            1 => 2,
            2 | 4 | 8 | 9 | 10 | 12 => 4,
            3 | 5 | 11 | 13 => 8,
            6 => 17,
            7 => 1,
            _ => 0,
        };
        let wanted = match kind {
            0 | 9 => done(7),
            1..=13 => refused(11, 0, 0),
            _ => refused(10, 0, 0),
        };
        let answer = build_in(&schema, &list[..1 + body], b"", ROOM).0;
        assert_eq!(answer, wanted, "{kind}");
    }
}

#[test]
fn schemas() {
    let check = |digits| model::schema::check(&hex(digits), Sort::Short);
    assert_eq!(check("10 05"), Err((1, 0)));
    assert_eq!(check("10"), Err((1, 0)));
    assert_eq!(check("02 10 05"), Err((1, 1)));
    // The records behind it are found.
    assert_eq!(check("10 02 00 11"), Err((1, 3)));
    assert_eq!(check("10 02 00 06 00 00"), Err((2, 3)));
    let many = [&[2; 256][..], &hex("10 01 00")].concat();
    assert_eq!(model::schema::check(&many, Sort::Short), Err((2, 256)));
    // An offset counts in the minimum: 4 + 1 + 2 + 65,529.
    assert_eq!(check("10 00 00 09 F9 FF"), Err((2, 6)));
    assert!(check("10 FF FF 09 F8 FF").is_ok());
}

/// An edit of a row in a buffer of two bytes more: the answer, and the buffer.
fn edited(row: &[u8], call: impl FnOnce(&mut [u8]) -> RowAnswer) -> String {
    let mut buffer = [row, &[FILL; 2]].concat();
    let answer = call(&mut buffer);
    format!("{answer:?} {buffer:X?}")
}

/// All that the calls with a schema say of a row, and leave of what they are lent.
fn told(schema: &[u8], columns: usize, row: &[u8], other: &[u8]) -> Vec<String> {
    let mut told = Vec::new();
    let all: Vec<u16> = (0..columns as u16).collect();
    for wanted in [&all[..], &all[..1], &all[columns - 1..]] {
        let read = with_counts(30, columns, |out, counts| {
            model::read(schema, row, wanted, out, counts)
        });
        told.push(format!("{wanted:?} {read:?}"));
    }
    for (a, b) in [(row, row), (row, other), (other, row)] {
        told.push(format!("{:?}", model::same_content(schema, a, b)));
    }
    for column in 0..=columns {
        told.push(format!("{:?}", model::text(schema, row, column)));
        told.push(edited(row, |buffer| {
            model::set_null(schema, buffer, row.len(), column)
        }));
        for text in [&b""[..], b"B", b"BC", b"BCD", b"\xFF"] {
            let list = text_of(text).record(Sort::Short);
            told.push(edited(row, |buffer| {
                model::set(schema, buffer, row.len(), column, &list, text)
            }));
        }
    }
    told
}

/// What the calls that make rows say: fresh, and builds of all texts of up to three
/// bytes.
fn made(schema: &[u8], columns: usize) -> Vec<String> {
    let mut told = vec![format!("{:?}", fresh(schema, 30))];
    let texts = [
        Value::Null,
        Value::Varchar(range(0, 0)),
        Value::Varchar(range(0, 1)),
        Value::Varchar(range(0, 2)),
        Value::Varchar(range(1, 3)),
        Value::Varchar(range(3, 2)),
        Value::Varchar(range(4, 1)),
        Value::Char(range(0, 1)),
    ];
    for values in lists(&texts, columns) {
        for room in [30, 9] {
            let list = value::list(&values, Sort::Short);
            let build = with_counts(room, columns, |out, counts| {
                model::build(schema, Sort::Short, &list, b"ABCD\xFF", out, counts)
            });
            told.push(format!("{values:?} {build:?}"));
        }
    }
    told
}

/// Every call on every small row, under kind 11 and with kind 16 in its place.
#[test]
fn in_ascii_as_kind_11() {
    for (lengths, past) in [(&[2][..], 4), (&[0], 2), (&[1, 2], 2)] {
        let schema = |swapped: usize| -> Vec<u8> {
            let record =
                |(column, &n): (usize, &u8)| [11 + 5 * (swapped >> column & 1) as u8, n, 0];
            lengths.iter().enumerate().flat_map(record).collect()
        };
        let columns = lengths.len();
        let swaps = 1..1 << columns;
        let rows = small_rows(columns, columns, &[b'A', 0x7F, 0xFF], past);
        let by_bytes = schema(0);
        for swapped in swaps.clone() {
            assert_eq!(made(&schema(swapped), columns), made(&by_bytes, columns));
        }
        for (number, row) in rows.iter().enumerate() {
            let other = &rows[number * 7 % rows.len()];
            let wanted = told(&by_bytes, columns, row, other);
            for swapped in swaps.clone() {
                let schema = schema(swapped);
                assert_eq!(
                    told(&schema, columns, row, other),
                    wanted,
                    "{schema:?} {row:X?}"
                );
            }
        }
    }
}
