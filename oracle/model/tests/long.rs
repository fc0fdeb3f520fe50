//! Long rows: the request's examples byte by byte, its limits, what is told by the mark
//! and in which order, and that a short row and its long twin go the same way.

mod common;

use cases::RowSort;
use cases::column::ColumnType;
use cases::generate::kinds::Kinds;
use cases::generate::list::{Sort as ListSort, any_list, list_of};
use cases::generate::row::{Sort as RowKind, any_row_of, row_of};
use cases::generate::schema::{any_type, any_types};
use cases::generate::{history, made};
use cases::history::Call;
use cases::rng::Rng;
use cases::schema::write_schema;
use common::{FILL, LIMIT, ROOM, build_of, done, flag, fresh_of, hex, part, range, read_all};
use common::{read_in, refused, row_2, s, schema, set, set_in, set_null, with_counts};
use model::schema::{Type, check};
use model::value::{self, Range, Value};
use model::{Handle, RowAnswer, Sort};
use std::collections::BTreeSet;

const LONG_LIMIT: usize = 1_048_576;

/// S of 1, "AB", null, and its text area.
const LIST: &str = "02 01 00 00 00 12 00 00 00 00 02 00 00 00 00";

fn long_row_2() -> Vec<u8> {
    hex("03 00 01 C0 04 0F 00 00 00 01 00 00 00 00 00 41 42")
}

#[test]
fn the_examples() {
    let fresh = hex("03 00 01 C0 07 00 00 00 00 00 00 00 00 00 00");
    assert_eq!(fresh_of(Sort::Long, &s(), 40), (done(15), fresh));
    let built = build_of(Sort::Long, &s(), &hex(LIST), b"AB", 40);
    assert_eq!(built, (done(17), long_row_2()));
    let read = read_in(&s(), &long_row_2(), &[0, 1, 2], 40);
    let list = hex("02 01 00 00 00 12 0F 00 00 00 02 00 00 00 00");
    assert_eq!(read, (done(15), list));
    assert_eq!(fresh_of(Sort::Long, &[], 4), (done(4), hex("00 00 00 C0")));
    let built = build_of(Sort::Long, &[], &[], &[], 4);
    assert_eq!(built, (done(4), hex("00 00 00 C0")));
    // The same list builds the short row.
    let built = build_of(Sort::Short, &s(), &hex(LIST), b"AB", 40);
    assert_eq!(built, (done(15), row_2()));
}

#[test]
fn the_example_is_edited() {
    let one =
        |row: &[u8], text: &[u8]| set(&s(), row, 1, Value::Varchar(range(0, text.len())), text);
    let empty = hex("03 00 01 C0 04 0F 00 00 00 01 00 00 00 00 00");
    assert_eq!(one(&long_row_2(), b""), (done(15), empty.clone()));
    let null = hex("03 00 01 C0 06 00 00 00 00 01 00 00 00 00 00");
    assert_eq!(set_null(&s(), &long_row_2(), 1), (done(15), null.clone()));
    for row in [empty, null] {
        assert_eq!(one(&row, b"AB"), (done(17), long_row_2()));
    }
    // Kinds 9 and 18 are taken alike.
    let narrow = set_in(&s(), &long_row_2(), 40, 1, &hex("09 01 00 01 00"), b"XY");
    let wide = hex("12 01 00 00 00 01 00 00 00");
    assert_eq!(set_in(&s(), &long_row_2(), 40, 1, &wide, b"XY"), narrow);
    assert_eq!(
        narrow.1,
        hex("03 00 01 C0 04 0F 00 00 00 01 00 00 00 00 00 59")
    );
    let short = set_in(&s(), &row_2(), 40, 1, &wide, b"XY");
    assert_eq!(short.1, hex("03 00 01 80 04 0D 00 01 00 00 00 00 00 59"));
}

#[test]
fn the_example_is_read_by_every_call() {
    let row = long_row_2();
    assert_eq!(model::text(&s(), &row, 1), part(0, 0, 15, 2));
    assert_eq!(model::is_null(&row, 2), flag(0, 0, 1));
    assert_eq!(model::is_null(&row, 1), flag(0, 0, 0));
    for (a, b) in [(&row, &row), (&row, &row_2()), (&row_2(), &row)] {
        assert_eq!(model::same_content(&s(), a, b), flag(0, 0, 1));
    }
    let (_, _, counts) = with_counts(40, 4, |out, counts| {
        model::read(&s(), &row, &[0, 1, 2], out, counts)
    });
    assert_eq!(counts[..3], [0, 2, 0]);
}

/// The mark tells the sort before 1 and 2, whatever else is wrong with the row.
#[test]
fn the_mark_comes_first() {
    let schema = hex("09 FF FF");
    let read = |row: &[u8]| read_in(&schema, row, &[0], 40).0;
    assert_eq!(read(&hex("01 00 00 80")), refused(2, 3, 0));
    assert_eq!(read(&hex("01 00 00 C0")), refused(3, 0, 0));
    assert_eq!(read(&hex("01 00 C0")), refused(2, 3, 0));
    // Another column count, another Varchar count, no packed flag.
    assert_eq!(read(&hex("FF FF 00 40")), refused(5, 0, 0));
    assert_eq!(read(&hex("01 00 FF 7F")), refused(6, 0, 0));
    // 1 is the same for both, and so is a bad record's 2.
    for row in [hex("01 00 00 80"), hex("01 00 00 C0")] {
        assert_eq!(
            read_in(&hex("09 FF FF 11"), &row, &[0], 40).0,
            refused(1, 3, 0)
        );
        assert_eq!(
            read_in(&hex("06 00 00"), &row, &[0], 40).0,
            refused(2, 0, 0)
        );
        assert_eq!(
            model::text(&schema, &row, 0).number,
            [2, 3][usize::from(row[3] > 0x80)]
        );
    }
    let mut row = hex("01 00 00 C0 00");
    row.resize(5 + LIMIT, b' ');
    assert_eq!(read(&row), done(9));
    assert_eq!(model::text(&schema, &row, 0), part(0, 0, 5, LIMIT));
    row[3] = 0x80;
    assert_eq!(read(&row), refused(2, 3, 0));
}

/// 0x2000 belongs to the count.
#[test]
fn the_count_has_both_marks_masked_off() {
    let read = |row: &str| read_in(&[], &hex(row), &[], 40).0;
    assert_eq!(read("00 00 01 60"), refused(6, 0, 0));
    assert_eq!(read("00 00 00 60"), refused(6, 0, 0));
    assert_eq!(read("00 00 00 E0"), refused(6, 0, 0));
    for row in ["00 00 00 C0", "00 00 00 40", "00 00 00 80", "00 00 00 00"] {
        assert_eq!(read(row), done(0));
    }
}

/// A stated length beyond the buffer: 2 by the short limit, then 14.
#[test]
fn past_its_buffer_a_row_is_short() {
    let wide = hex("09 FF FF");
    let row = hex("01 00 00 C0 00");
    let length = row.len() + LIMIT;
    let mut sound = row.clone();
    sound.resize(length, b' ');
    let list = Value::Null.record(Sort::Short);
    let both = |schema: &[u8], buffer: &[u8], length: usize| -> RowAnswer {
        let mut copy = buffer.to_vec();
        let null = model::set_null(schema, &mut copy, length, 0);
        let set = model::set(schema, &mut copy, length, 0, &list, &[]);
        assert_eq!(copy, buffer);
        let order = |number: u32| [1, 2, 14, 15].iter().position(|&other| other == number);
        if let (Some(a), Some(b)) = (order(null.number), order(set.number)) {
            assert_eq!(a, b);
        }
        set
    };
    assert_eq!(both(&wide, &sound, length + 1), refused(2, 3, length + 1));
    assert_eq!(both(&wide, &sound, usize::MAX), refused(2, 3, usize::MAX));
    assert_eq!(both(&s(), &long_row_2(), 18), refused(14, 0, 18));
    // Inside it is long; null given to a set is 11.
    assert_eq!(
        set_in(&wide, &sound, 0, 0, &list, &[]).0,
        refused(11, 0, length)
    );
    assert_eq!(set_in(&wide, &row, 0, 0, &list, &[]).0, refused(15, 0, 5));
    // Under four bytes it is short too.
    assert_eq!(
        set_in(&wide, &row[..3], 9, 0, &list, &[]).0,
        refused(2, 3, 3)
    );
}

#[test]
fn ranges_of_four_bytes() {
    let build = |list: &str, text: &[u8]| build_of(Sort::Long, &s(), &hex(list), text, 40).0;
    let range = "02 01 00 00 00 12 FF FF FF FF FF FF FF FF 00";
    assert_eq!(build(range, b"AB"), refused(12, 1, 0));
    let short = build_of(Sort::Short, &s(), &hex(range), b"AB", 40).0;
    assert_eq!(short, refused(12, 1, 0));
    // Start and length that come to 1 where 32 bits are all.
    let wraps = "02 01 00 00 00 12 FF FF FF FF 02 00 00 00 00";
    assert_eq!(build(wraps, b"AB"), refused(12, 1, 0));
    let wraps = "02 01 00 00 00 12 02 00 00 00 FF FF FF FF 00";
    assert_eq!(build(wraps, b"AB"), refused(12, 1, 0));
    // The upper bytes count.
    let high = "02 01 00 00 00 12 00 00 01 00 01 00 00 00 00";
    assert_eq!(build(high, b"AB"), refused(12, 1, 0));
    for kind in ["0E", "0F", "10", "14", "FF"] {
        let list = format!("02 01 00 00 00 {kind} 00 00 00 00 02 00 00 00 00");
        assert_eq!(build(&list, b"AB"), refused(10, 5, 0), "{kind}");
        let one = hex(&list[15..]);
        let set = set_in(&s(), &long_row_2(), 40, 1, &one, b"AB").0;
        assert_eq!(set, refused(10, 0, 17));
    }
    // A body of eight bytes, whole or cut.
    for cut in 5..14 {
        let list = &hex(LIST)[..cut + 1];
        let answer = build_of(Sort::Long, &s(), list, b"AB", 40).0;
        let place = if cut == 13 { 14 } else { 5 };
        assert_eq!(answer, refused(10, place, 0), "{cut}");
    }
}

/// 17 to 19 match as 8, 9 and 12 do, for either sort.
#[test]
fn matching() {
    let types = [
        Type::Char(2),
        Type::Character(2),
        Type::Varchar(2),
        Type::VarcharChars(2),
        Type::Bit(9),
        Type::Int,
    ];
    for sort in Sort::ALL {
        for ty in types {
            let answer = |kind: u8| {
                let mut list = vec![kind, 0, 0];
                list.resize(9, 0);
                (list[3], list[5]) = match kind {
                    17.. => (0, 2),
                    _ => (2, 0),
                };
                list.truncate(if kind < 17 { 5 } else { 9 });
                build_of(sort, &schema(&[ty]), &list, b"AB", 40).0.number
            };
            for (narrow, wide) in [(8, 17), (9, 18), (12, 19)] {
                let own = match ty {
                    Type::Char(_) | Type::Character(_) => 8,
                    Type::Varchar(_) | Type::VarcharChars(_) => 9,
                    Type::Bit(_) => 12,
                    _ => 2,
                };
                let wanted = if own == narrow { 0 } else { 11 };
                assert_eq!(answer(narrow), wanted, "{sort:?} {ty:?} {narrow}");
                assert_eq!(answer(wide), wanted, "{sort:?} {ty:?} {wide}");
            }
        }
    }
}

/// A long row reads into 17, 18 and 19, a short one into 8, 9 and 12.
#[test]
fn kinds_that_are_read() {
    let types = [
        Type::Char(1),
        Type::Character(1),
        Type::Varchar(1),
        Type::Bit(8),
    ];
    let schema = schema(&types);
    let one = [
        Value::Char(range(0, 1)),
        Value::Char(range(0, 1)),
        Value::Varchar(range(0, 1)),
        Value::Bit(range(0, 1)),
    ];
    for (sort, kinds, width) in [
        (Sort::Short, [8, 8, 9, 12], 5),
        (Sort::Long, [17, 17, 18, 19], 9),
    ] {
        for given in Sort::ALL {
            let list = value::list(&one, given);
            let (answer, row) = build_of(sort, &schema, &list, b"A", 40);
            assert_eq!(answer.number, 0);
            let (_, list) = read_in(&schema, &row, &[0, 1, 2, 3], 99);
            assert_eq!(list.len(), 4 * width);
            let read: Vec<u8> = list.chunks(width).map(|record| record[0]).collect();
            assert_eq!(read, kinds);
        }
    }
}

/// The text area's limit is the caller's in a build, the row's in a set.
#[test]
fn text_areas_at_the_limits() {
    let list = hex("12 00 00 00 00 01 00 00 00");
    let schema = hex("0B 05 00");
    for (sort, limit) in [(Sort::Short, LIMIT), (Sort::Long, LONG_LIMIT)] {
        let row = fresh_of(sort, &schema, 40).1;
        let text = vec![b'x'; limit + 1];
        let build = |text: &[u8]| build_of(sort, &schema, &list, text, 40).0;
        assert_eq!(build(&text[..limit]).number, 0);
        assert_eq!(build(&text), refused(10, 0, 0));
        let set = |text: &[u8]| set_in(&schema, &row, 40, 0, &list, text).0;
        assert_eq!(set(&text[..limit]).number, 0);
        assert_eq!(set(&text), refused(10, 0, row.len()));
    }
}

/// Columns of Varchars that reach past the limit of long rows, and the bytes before
/// their payloads.
fn wide_columns() -> (Vec<u8>, usize) {
    let types = vec![Type::Varchar(LIMIT); 17];
    (schema(&types), 4 + 3 + 4 * 17)
}

/// The list of the first 16 texts of 65,535 bytes and a last one.
fn wide_list(last: usize) -> Vec<u8> {
    let mut values = vec![Value::Varchar(range(0, LIMIT)); 16];
    values.push(Value::Varchar(range(0, last)));
    value::list(&values, Sort::Long)
}

#[test]
fn rows_at_the_limit() {
    let (schema, minimum) = wide_columns();
    let text = vec![b'x'; LIMIT];
    // Sixteen texts of 65,535 bytes are 1,048,560.
    assert!(minimum + 16 * LIMIT > LONG_LIMIT);
    let mut values = vec![Value::Varchar(range(0, LIMIT)); 16];
    let last = LONG_LIMIT - minimum - 15 * LIMIT;
    values[15] = Value::Varchar(range(0, last));
    values.push(Value::Null);
    let build = |values: &[Value], room: usize| {
        build_of(
            Sort::Long,
            &schema,
            &value::list(values, Sort::Long),
            &text,
            room,
        )
    };
    let (answer, row) = build(&values, LONG_LIMIT);
    assert_eq!(answer, done(LONG_LIMIT));
    assert_eq!(build(&values, LONG_LIMIT - 1).0, refused(14, 0, 0));
    values[15] = Value::Varchar(range(0, last + 1));
    assert_eq!(build(&values, LONG_LIMIT + 1).0, refused(13, 0, 0));
    assert_eq!(build(&values, 0).0, refused(13, 0, 0));
    let whole = build_of(Sort::Long, &schema, &wide_list(LIMIT), &text, 0).0;
    assert_eq!(whole, refused(13, 0, 0));

    let offsets: Vec<usize> = row[7..minimum]
        .chunks(4)
        .map(|bytes| u32::from_le_bytes(bytes.try_into().unwrap()) as usize)
        .collect();
    assert_eq!(
        offsets[..3],
        [minimum, minimum + LIMIT, minimum + 2 * LIMIT]
    );
    assert_eq!(offsets[16], 0);

    let read = read_all(&schema, &row).unwrap();
    let start = minimum + 15 * LIMIT;
    assert_eq!(read[15], Value::Varchar(range(start, last)));
    assert_eq!(model::text(&schema, &row, 15), part(0, 0, start, last));
    assert_eq!(model::same_content(&schema, &row, &row), flag(0, 0, 1));

    // An edit at the front moves all that stands behind.
    let list = Value::Varchar(range(0, 1)).record(Sort::Long);
    let (answer, shorter) = set_in(&schema, &row, 0, 0, &list, b"y");
    assert_eq!(answer, done(LONG_LIMIT - LIMIT + 1));
    assert_eq!(shorter[minimum..minimum + 2], *b"yx");
    let whole = Value::Varchar(range(0, LIMIT)).record(Sort::Long);
    let (answer, again) = set_in(&schema, &shorter, LONG_LIMIT, 0, &whole, &text);
    assert_eq!(answer, done(LONG_LIMIT));
    assert!(again == row);
    let sixteenth = set_in(&schema, &row, LONG_LIMIT + 9, 16, &list, b"y").0;
    assert_eq!(sixteenth, refused(13, 0, LONG_LIMIT));
}

#[test]
fn rows_above_the_limit() {
    let (schema, _) = wide_columns();
    let mut row = fresh_of(Sort::Long, &schema, 99).1;
    row.resize(LONG_LIMIT, 0);
    for (length, refusal) in [(LONG_LIMIT, 0), (LONG_LIMIT + 1, 4)] {
        row.resize(length, 0);
        let read = read_in(&schema, &row, &[0], 99).0;
        assert_eq!((read.number, read.place), (refusal, 0));
        assert_eq!(model::is_null(&row, 0).number, refusal);
        assert_eq!(model::text(&schema, &row, 0).number, refusal);
        assert_eq!(model::same_content(&schema, &row, &row).number, refusal);
        // Bytes past the minimum that no offset names are not sound.
        assert_eq!(set_null(&schema, &row, 0).0, refused(15, 0, length));
    }
}

/// The null flag's 4 goes by the mark.
#[test]
fn a_row_of_65_536_bytes() {
    for (limit, with, without) in [(LIMIT + 1, 0, 4), (LIMIT, 0, 0)] {
        let mut row = hex("01 00 00 C0 01");
        row.resize(limit, 0);
        assert_eq!(model::is_null(&row, 0).number, with);
        row[3] = 0x80;
        assert_eq!(model::is_null(&row, 0).number, without);
        // 0x2000 is no mark.
        row[3] = 0xA0;
        assert_eq!(model::is_null(&row, 0).number, without);
    }
    assert_eq!(model::is_null(&[0xFF; 3], 0), flag(3, 0, 0));
}

/// The padded minimum of a schema, by the sort's own width and limit.
#[test]
fn schemas_at_the_limits() {
    for (sort, width, limit) in [(Sort::Short, 2, LIMIT), (Sort::Long, 4, LONG_LIMIT)] {
        let filled = |minimum: usize| {
            let mut types = vec![Type::Varchar(1), Type::Bool, Type::BigInt];
            types.extend(vec![Type::Char(60_000); limit / 60_000]);
            let columns = types.len() + 1;
            let rest = minimum - (4 + columns.div_ceil(8) + width + 16);
            types.push(Type::Char(rest - 60_000 * (limit / 60_000)));
            types
        };
        let good = filled(limit);
        assert_eq!(check(&schema(&good), sort), Ok(good.clone()));
        let above = schema(&filled(limit + 1));
        assert_eq!(check(&above, sort), Err((2, above.len())));
        assert_eq!(fresh_of(sort, &above, ROOM).0, refused(2, above.len(), 0));
        // The packed minimum is seven bytes less.
        let (answer, _) = fresh_of(sort, &schema(&good), limit - 7);
        assert_eq!(answer, done(limit - 7));
        assert_eq!(
            fresh_of(sort, &schema(&good), limit - 8).0,
            refused(14, 0, 0)
        );
    }
    // A schema good for short rows is good for long ones.
    let many = schema(&[Type::Varchar(9); 256]);
    assert!(check(&many, Sort::Short).is_ok() && check(&many, Sort::Long).is_ok());
}

/// Each row refuses as its own read; 2 may come from the second.
#[test]
fn the_same_content_of_two_sorts() {
    let wide = schema(&[Type::Char(40_000), Type::Char(40_000)]);
    let long = fresh_of(Sort::Long, &wide, ROOM * 2).1;
    let same = |a: &[u8], b: &[u8]| model::same_content(&wide, a, b);
    assert_eq!(same(&long, &long), flag(0, 0, 1));
    for short in [&hex("02 00 00 80")[..], &[], &[0, 0, 0xC0]] {
        assert_eq!(same(&long, short), flag(2, 6, 0));
        assert_eq!(same(short, &long), flag(2, 6, 0));
    }
    // The first row is judged wholly before the second.
    let bad = &hex("02 00 01 C0")[..];
    assert_eq!(same(bad, &hex("02 00 00 80")), flag(6, 0, 0));
    assert_eq!(same(&long, bad), flag(6, 0, 0));
    let other = &hex("03 00 01 C0 04 0F 00 00 00 02 00 00 00 00 00 41 42")[..];
    assert_eq!(model::same_content(&s(), &row_2(), other), flag(0, 0, 0));
    let text = &hex("03 00 01 C0 04 0F 00 00 00 01 00 00 00 00 00 41 43")[..];
    assert_eq!(model::same_content(&s(), text, &row_2()), flag(0, 0, 0));
    // An offset past the row, by its own four bytes.
    let far = &hex("03 00 01 C0 04 0F 00 01 00 01 00 00 00 00 00 41 42")[..];
    assert_eq!(model::same_content(&s(), &row_2(), far), flag(7, 1, 0));
    assert_eq!(read_in(&s(), far, &[1], 40).0, refused(7, 1, 0));
    let mut above = long.clone();
    above.resize(LONG_LIMIT + 1, 0);
    assert_eq!(same(&long, &above), flag(4, 0, 0));
}

/// Padded long rows are read and edited, and stay padded.
#[test]
fn padded_long_rows() {
    let schema = schema(&[Type::SmallInt, Type::Varchar(5), Type::Int]);
    let row = hex("03 00 01 40 00 11 00 00 00 07 00 EE EE 09 00 00 00 41 42");
    let values = read_all(&schema, &row).unwrap();
    let wanted = [
        Value::SmallInt(7),
        Value::Varchar(range(17, 2)),
        Value::Int(9),
    ];
    assert_eq!(values, wanted);
    let (answer, edited) = set(&schema, &row, 1, Value::Varchar(range(0, 1)), b"C");
    let wanted = hex("03 00 01 40 00 11 00 00 00 07 00 EE EE 09 00 00 00 43");
    assert_eq!((answer, edited), (done(18), wanted));
    let (answer, edited) = set_null(&schema, &row, 2);
    let wanted = hex("03 00 01 40 04 11 00 00 00 07 00 EE EE 09 00 00 00 41 42");
    assert_eq!((answer, edited), (done(19), wanted));
    // Padded without the mark, the same bytes are another row.
    let mut short = row.clone();
    short[3] = 0;
    assert_ne!(read_all(&schema, &short), read_all(&schema, &row));
}

/// Bytes past the new end of a long row's buffer stay as they were.
#[test]
fn edits_leave_the_rest() {
    let mut buffer = long_row_2();
    buffer.resize(30, FILL);
    let list = hex("09 00 00 00 00");
    let answer = model::set(&s(), &mut buffer, 17, 1, &list, &[]);
    assert_eq!(answer, done(15));
    let mut wanted = hex("03 00 01 C0 04 0F 00 00 00 01 00 00 00 00 00 41 42");
    wanted.resize(30, FILL);
    assert_eq!(buffer, wanted);
}

/// A printed list prints a long row like its short twin.
#[test]
fn printed_lists() {
    let short = b"\x04\0\x02\x80\x08\x19\0\x1A\0\0\0\0\0\0\0\0\0\0\0\0\0\0\0\0\x003T41";
    let long = b"\x04\0\x02\xC0\x08\x1D\0\0\0\x1E\0\0\0\0\0\0\0\0\0\0\0\0\0\0\0\0\0\0\x003T41";
    let line = b"\"3\"|\"T41\"|1970-01-01 00:00:00|-\n";
    let list = |row: &[u8]| [&[row.len() as u8, 0], row].concat();
    assert_eq!(model::report(&list(short)), line);
    assert_eq!(model::report(&list(long)), line);
    let both = [list(long), list(short)].concat();
    assert_eq!(model::report(&both), [&line[..], line].concat());
    let mut marked = short.to_vec();
    marked[3] = 0xC0;
    assert_eq!(model::report(&list(&marked)), b"7 0\n");
}

/// The row's twin of the other sort: the payloads of a long row stand two bytes a Varchar
/// further back.
fn moved(values: &[Value], by: usize) -> Vec<Value> {
    let moved = |range: Range| Range {
        start: range.start + by,
        ..range
    };
    let value = |value: &Value| match *value {
        Value::Char(range) => Value::Char(moved(range)),
        Value::Varchar(range) => Value::Varchar(moved(range)),
        Value::Bit(range) => Value::Bit(moved(range)),
        value => value,
    };
    values.iter().map(value).collect()
}

/// Every call answers of a long row as of its short twin, but for where texts stand.
#[test]
fn twins_go_the_same_way() {
    let mut rng = Rng::new(1);
    let mut edits = [0; 2];
    for _ in 0..3000 {
        let types = match rng.below(4) {
            0 => any_types(&mut rng),
            _ => (0..rng.between(1, 9))
                .map(|_| any_type(&mut rng, 20))
                .collect(),
        };
        let schema = write_schema(&types);
        let varchars = types.iter().filter(|ty| ty.is_variable_length()).count();
        let list = any_list(&mut rng, &types).1.values;
        let build = |sort: Sort| build_of(sort, &schema, &list.bytes, &list.text, 2 * ROOM);
        let ((short, mut a), (long, mut b)) = (build(Sort::Short), build(Sort::Long));
        // What is too long for a short row alone has no twin.
        if short.number != long.number {
            assert!(matches!(short.number, 10 | 13), "{short:?} {long:?}");
            continue;
        }
        assert_eq!((short.number, short.place), (long.number, long.place));
        if short.number != 0 {
            continue;
        }
        for call in history::history(&mut rng, &types, 6) {
            let edit = |row: &[u8]| match &call {
                Call::Set { column, values } => {
                    set_in(&schema, row, 2 * ROOM, *column, &values.bytes, &values.text)
                }
                Call::SetNull { column } => set_null(&schema, row, *column),
            };
            let ((short, after_a), (long, after_b)) = (edit(&a), edit(&b));
            if short.number != long.number {
                assert!(matches!(short.number, 10 | 13), "{short:?} {long:?}");
                continue;
            }
            assert_eq!((short.number, short.place), (long.number, long.place));
            (a, b) = (after_a, after_b);
            edits[usize::from(short.number == 0)] += 1;
        }
        assert_eq!(b.len(), a.len() + 2 * varchars);
        assert_eq!((a[3] & 0xC0, b[3] & 0xC0), (0x80, 0xC0));
        let (of_a, of_b) = (
            read_all(&schema, &a).unwrap(),
            read_all(&schema, &b).unwrap(),
        );
        assert_eq!(moved(&of_a, 2 * varchars), of_b);
        assert_eq!(model::same_content(&schema, &a, &b), flag(0, 0, 1));
        assert_eq!(model::same_content(&schema, &b, &a), flag(0, 0, 1));
        for column in 0..types.len() {
            assert_eq!(model::is_null(&a, column), model::is_null(&b, column));
        }
    }
    assert!(edits[0] > 1000 && edits[1] > 5000, "{edits:?}");
}

/// Columns for long rows, seldom such that reach the limit.
fn generated_types(rng: &mut Rng) -> Vec<ColumnType> {
    let types = match rng.below(4) {
        0 => any_types(rng),
        _ => (0..rng.between(0, 9)).map(|_| any_type(rng, 20)).collect(),
    };
    Kinds::All.types_of(rng, types, RowSort::Long)
}

/// The rows that the generators lay out are the model's, and their edits.
#[test]
fn laid_out_as_by_the_model() {
    let mut rng = Rng::new(2);
    let (mut built, mut edits, mut beyond) = (0, 0, 0);
    for _ in 0..1500 {
        let types = generated_types(&mut rng);
        let schema = write_schema(&types);
        let sort = rng.pick(&[ListSort::Good, ListSort::Values, ListSort::RowAtLimit]);
        let Some(list) = list_of(&mut rng, &types, RowSort::Long, sort) else {
            continue;
        };
        let values = list.values;
        let mut row = made::built_of(&types, RowSort::Long, &values);
        let room = row.len();
        let answer = build_of(Sort::Long, &schema, &values.bytes, &values.text, room);
        assert!(answer == (done(room), row.clone()), "{types:?}");
        built += 1;
        beyond += usize::from(room > LIMIT);
        for _ in 0..4.min(types.len()) {
            let column = rng.below(types.len());
            let own = &types[column..=column];
            let list = list_of(&mut rng, own, RowSort::Long, ListSort::Values).expect("values");
            let wanted = made::edited(&types, &row, column, &list.values);
            let (list, text) = (&list.values.bytes, &list.values.text);
            let edited = set_in(&schema, &row, wanted.len(), column, list, text);
            if wanted.len() > LONG_LIMIT {
                assert_eq!(edited.0, refused(13, 0, row.len()));
                continue;
            }
            assert!(edited == (done(wanted.len()), wanted.clone()), "{types:?}");
            edits += 1;
            row = wanted;
        }
    }
    assert!(
        built > 1000 && edits > 2000 && beyond > 10,
        "{built} {edits} {beyond}"
    );
}

/// Rows of the sorts that must be sound are, and every refusal of a read is met.
#[test]
fn generated_long_rows() {
    let mut rng = Rng::new(3);
    let mut met = BTreeSet::new();
    for _ in 0..3000 {
        let types = generated_types(&mut rng);
        let schema = write_schema(&types);
        let own = check(&schema, Sort::Long).expect("a good schema");
        let sort = rng.pick(&RowKind::SOUND_LONG);
        if let Some(row) = row_of(&mut rng, &types, RowSort::Long, sort) {
            assert!(model::edit::sound(&own, &row), "{sort:?} {types:?}");
            assert_eq!(Sort::of_row(&row), Sort::Long);
        }
        let (_, row) = any_row_of(&mut rng, &types, RowSort::Long);
        let is_long = Sort::of_row(&row) == Sort::Long;
        let answer = read_all(&schema, &row).map_or_else(|refusal| refusal.0, |_| 0);
        met.insert((is_long, answer));
    }
    let of_long = |is_long: bool| {
        let own = met.iter().filter(|(long, _)| *long == is_long);
        own.map(|(_, number)| *number).collect::<Vec<_>>()
    };
    assert_eq!(of_long(true), [0, 3, 4, 5, 6, 7, 8]);
    for number in [0, 2, 3, 4] {
        assert!(of_long(false).contains(&number), "{number} {met:?}");
    }
}

/// A handle is answered by its length; an accepted call stores the layout and both marks.
#[test]
fn handles() {
    let any = |length: usize| Handle {
        length,
        columns: 9,
        varchars: 9,
        fixed: 9,
        packed: 9,
        is_long: 9,
    };
    let of_s = |length: usize, is_long: usize| Handle {
        length,
        columns: 3,
        varchars: 1,
        fixed: 6,
        packed: 1,
        is_long,
    };
    let list = hex("12 00 00 00 00 01 00 00 00");
    for (row, is_long) in [(row_2(), 0), (long_row_2(), 1)] {
        let (mut buffer, mut handle) = (row.clone(), any(row.len()));
        let answer = model::handle_set(&mut handle, &s(), &mut buffer, 1, &list, b"Z");
        assert_eq!(answer, done(row.len() - 1));
        assert_eq!(handle, of_s(row.len() - 1, is_long));
        assert_eq!(buffer[row.len() - 2..], *b"ZB");
        let answer = model::handle_set_null(&mut handle, &s(), &mut buffer, 1);
        assert_eq!(answer, done(row.len() - 2));
        assert_eq!(handle, of_s(row.len() - 2, is_long));
        // Refused, it stays as it was.
        let (before, mut handle) = (buffer.clone(), any(99));
        let answer = model::handle_set_null(&mut handle, &s(), &mut buffer, 1);
        assert_eq!((answer, handle), (refused(14, 0, 99), any(99)));
        assert_eq!(buffer, before);
    }
    // A padded long row: the Int stands two bytes further back.
    let padded = hex("02 00 00 40 00 07 00 EE EE 09 00 00 00");
    let schema = schema(&[Type::SmallInt, Type::Int]);
    let (mut buffer, mut handle) = (padded.clone(), any(padded.len()));
    let answer = model::handle_set_null(&mut handle, &schema, &mut buffer, 0);
    let wanted = Handle {
        length: 13,
        columns: 2,
        varchars: 0,
        fixed: 8,
        packed: 0,
        is_long: 1,
    };
    assert_eq!((answer, handle), (done(13), wanted));
}

/// Each input has what refuses the next one too.
#[test]
fn a_read_refuses_in_order() {
    let above = |mut row: Vec<u8>| {
        row.resize(LONG_LIMIT + 1, 0xFF);
        row
    };
    let too_wide = schema(&[Type::Char(LIMIT); 17]);
    let unknown = [&too_wide[..], &[17]].concat();
    let bad = above(hex("04 00 02 C0"));
    let all: Vec<u16> = (0..3).collect();
    let read = |schema: &[u8], row: &[u8]| read_in(schema, row, &all, 0).0;
    assert_eq!(read(&unknown, &bad), refused(1, too_wide.len(), 0));
    assert_eq!(read(&too_wide, &bad), refused(2, too_wide.len(), 0));
    for (row, number, place) in [
        (bad, 4, 0),
        (hex("04 00 C0"), 3, 0),
        (hex("04 00 02 C0"), 5, 0),
        (hex("03 00 02 C0"), 6, 0),
        (hex("03 00 01 C0 04 0F 00 00 00 01 00 00 00 00"), 3, 0),
        (hex("03 00 01 C0 00 10 00 01 00 01 00 00 00 00 00 FF"), 7, 1),
        (hex("03 00 01 C0 00 0F 00 00 00 01 00 00 00 00 00 FF"), 8, 1),
        (long_row_2(), 14, 0),
    ] {
        assert_eq!(read(&s(), &row), refused(number, place, 0), "{number}");
        if number != 14 {
            assert_eq!(model::text(&s(), &row, 1), part(number, place, 0, 0));
            assert_eq!(model::same_content(&s(), &row, &[]), flag(number, place, 0));
        }
    }
    // The text call's 9 and 11 come before the row.
    assert_eq!(model::text(&s(), &hex("04 00 02 C0"), 3), part(9, 0, 0, 0));
    assert_eq!(model::text(&s(), &hex("04 00 02 C0"), 0), part(11, 0, 0, 0));
}

#[test]
fn a_build_refuses_in_order() {
    let too_wide = schema(&[Type::Char(LIMIT); 17]);
    let unknown = [&too_wide[..], &[17]].concat();
    let far = vec![b'x'; LONG_LIMIT + 1];
    let build =
        |schema: &[u8], list: &[u8], text: &[u8]| build_of(Sort::Long, schema, list, text, 0).0;
    let cut = hex("12 FF FF FF FF FF FF FF");
    assert_eq!(build(&unknown, &cut, &far), refused(1, too_wide.len(), 0));
    assert_eq!(build(&too_wide, &cut, &far), refused(2, too_wide.len(), 0));
    let (wide, _) = wide_columns();
    // Sixteen records of 65,535 bytes, then a last one.
    let before = wide_list(0).len() - 9;
    let list = |last: &str| [&wide_list(0)[..before], &hex(last)].concat();
    let outside = "12 FF FF FF FF FF FF FF FF";
    for (last, text, number, place) in [
        ("12 FF FF FF FF FF FF FF", &far[..], 10, before),
        ("", &far, 10, before),
        (outside, &far, 10, 0),
        ("11 FF FF FF FF FF FF FF FF", &far[1..], 11, 16),
        (outside, &far[1..], 12, 16),
        ("12 00 00 00 00 00 00 00 00", &far[1..], 13, 0),
    ] {
        let answer = build(&wide, &list(last), text);
        assert_eq!(answer, refused(number, place, 0), "{last}");
    }
    assert_eq!(build(&s(), &hex(LIST), b"AB"), refused(14, 0, 0));
    let fresh = |schema: &[u8]| fresh_of(Sort::Long, schema, 14).0;
    assert_eq!(fresh(&unknown), refused(1, too_wide.len(), 0));
    assert_eq!(fresh(&too_wide), refused(2, too_wide.len(), 0));
    assert_eq!(fresh(&s()), refused(14, 0, 0));
}

#[test]
fn a_set_refuses_in_order() {
    let (wide, minimum) = wide_columns();
    let text = vec![b'x'; LONG_LIMIT + 1];
    let mut values = vec![Value::Varchar(range(0, LIMIT)); 16];
    values[15] = Value::Varchar(range(0, LONG_LIMIT - minimum - 15 * LIMIT));
    values.push(Value::Null);
    let list = value::list(&values, Sort::Long);
    let row = build_of(Sort::Long, &wide, &list, &text[1..], LONG_LIMIT).1;
    assert_eq!(row.len(), LONG_LIMIT);
    let too_wide = schema(&[Type::Char(LIMIT); 17]);
    let unknown = [&too_wide[..], &[17]].concat();
    let cut = hex("12 FF FF FF FF FF FF FF");
    let mut buffer = row.clone();
    let mut set = |schema: &[u8], length: usize, column: usize, list: &[u8], text: &[u8]| {
        let answer = model::set(schema, &mut buffer, length, column, list, text);
        assert_eq!(answer.length, length);
        (answer.number, answer.place)
    };
    let past = LONG_LIMIT + 1;
    assert_eq!(set(&unknown, past, 99, &cut, &text), (1, too_wide.len()));
    assert_eq!(set(&too_wide, past, 99, &cut, &text), (2, too_wide.len()));
    assert_eq!(set(&wide, past, 99, &cut, &text), (14, 0));
    assert_eq!(set(&wide, LONG_LIMIT - LIMIT, 99, &cut, &text), (15, 0));
    assert_eq!(set(&wide, LONG_LIMIT, 17, &cut, &text), (9, 0));
    assert_eq!(set(&wide, LONG_LIMIT, 16, &cut, &text), (10, 0));
    assert_eq!(set(&wide, LONG_LIMIT, 16, &[0, 0], &text), (10, 2));
    let outside = hex("12 FF FF FF FF FF FF FF FF");
    assert_eq!(set(&wide, LONG_LIMIT, 16, &outside, &text), (10, 0));
    let other = hex("11 FF FF FF FF FF FF FF FF");
    assert_eq!(set(&wide, LONG_LIMIT, 16, &other, &text[1..]), (11, 16));
    assert_eq!(set(&wide, LONG_LIMIT, 16, &outside, &text[1..]), (12, 16));
    let one = hex("12 00 00 00 00 01 00 00 00");
    // The buffer has no room either.
    assert_eq!(set(&wide, LONG_LIMIT, 16, &one, &text[1..]), (13, 0));
    assert!(buffer == row);
    let full = hex("12 00 00 00 00 03 00 00 00");
    let answer = set_in(&s(), &long_row_2(), 17, 1, &full, b"ABC").0;
    assert_eq!(answer, refused(14, 0, 17));
}
