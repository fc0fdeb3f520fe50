//! Code points: the examples of 02's first request, and what a lent list is left as.

mod common;

use common::*;
use model::schema::Type;
use model::value::{self, Value};
use model::{CheckAnswer, RowAnswer, Sort, text_check};

/// Char(5), Varchar(5), Bit(3), Int.
fn p() -> Vec<u8> {
    hex("09 05 00 0B 05 00 0E 03 00 02")
}

/// "é", "é€", bits 110, null.
fn row_p() -> Vec<u8> {
    hex("04 00 01 80 08 11 00 C3 A9 20 20 20 C0 00 00 00 00 C3 A9 E2 82 AC")
}

const TEXT: [u8; 6] = [0xC3, 0xA9, 0xE2, 0x82, 0xAC, 0xC0];

fn values() -> [Value; 4] {
    let bits = Value::Bit(range(5, 1));
    let (char, varchar) = (Value::Char(range(0, 2)), Value::Varchar(range(0, 5)));
    [char, varchar, bits, Value::Null]
}

fn built(text: &[u8], room: usize, numbers: usize) -> (RowAnswer, Vec<u8>, Vec<u32>) {
    with_counts(room, numbers, |out, counts| {
        model::build(
            &p(),
            Sort::Short,
            &value::list(&values(), Sort::Short),
            text,
            out,
            counts,
        )
    })
}

fn read(wanted: &[u16], room: usize, numbers: usize) -> (RowAnswer, Vec<u8>, Vec<u32>) {
    with_counts(room, numbers, |out, counts| {
        model::read(&p(), &row_p(), wanted, out, counts)
    })
}

#[test]
fn the_text_check() {
    let check = |text| {
        let CheckAnswer { valid, points } = text_check(&hex(text));
        (valid, points)
    };
    assert_eq!(check("C3 A9 E2 82 AC"), (1, 2));
    assert_eq!(check("C0 80"), (0, 0));
    assert_eq!(check(""), (1, 0));
    assert_eq!(check("F4 8F BF BF"), (1, 1));
    // Points before the first bad byte are not handed out.
    assert_eq!(check("41 42 C3"), (0, 0));
}

#[test]
fn built_and_read() {
    let counts = vec![4, 2, 0, 0];
    assert_eq!(built(&TEXT, ROOM, 4), (done(22), row_p(), counts.clone()));
    let (answer, _, read_counts) = read(&[0, 1, 2, 3], ROOM, 4);
    assert_eq!((answer.number, read_counts), (0, counts));
}

#[test]
fn other_columns_are_written_as_0() {
    let (answer, list, counts) = read(&[1], ROOM, 5);
    assert_eq!((answer, list), (done(8), hex("00 09 11 00 05 00 00 00")));
    assert_eq!(counts, [0, 2, 0, 0, NUMBER]);
    let (_, _, counts) = read(&[3, 2, 9], ROOM, 6);
    assert_eq!(counts, [0, 0, 0, 0, NUMBER, NUMBER]);
    let (_, _, counts) = built(&TEXT, ROOM, 5);
    assert_eq!(counts, [4, 2, 0, 0, NUMBER]);
}

#[test]
fn a_short_list_is_judged_last() {
    let refusal = refused(14, 0, 0);
    for numbers in 0..4 {
        for room in [ROOM, 22, 21, 0] {
            assert_eq!(built(&TEXT, room, numbers).0, refusal);
            assert_eq!(read(&[1], room, numbers).0, refusal);
        }
    }
    assert_eq!(built(&TEXT, 21, 4).0, refusal);
    assert_eq!(read(&[1], 7, 4).0, refusal);
    // Column 0 is of byte FF.
    assert_eq!(built(&[0xFF; 6], ROOM, 3).0, refused(12, 0, 0));
    let no_numbers = |schema: &[u8], list: &[u8]| {
        with_counts(ROOM, 0, |out, counts| {
            model::build(schema, Sort::Short, list, &TEXT, out, counts)
        })
        .0
    };
    assert_eq!(no_numbers(&[2, 16], &[]), refused(1, 1, 0));
    assert_eq!(no_numbers(&[6, 39, 0], &[]), refused(2, 0, 0));
    assert_eq!(no_numbers(&[2], &[14]), refused(10, 0, 0));
    assert_eq!(no_numbers(&[2], &[7, 1]), refused(11, 0, 0));
    let read = |schema: &[u8], row: &[u8]| {
        let read =
            |out: &mut [u8], counts: &mut [u32]| model::read(schema, row, &[0, 1], out, counts);
        with_counts(ROOM, 0, read).0
    };
    assert_eq!(read(&p(), &row_p()[..3]), refused(3, 0, 0));
    let cut = [&row_p()[..21], &[0x20][..]].concat();
    assert_eq!(read(&p(), &cut), refused(8, 1, 0));
}

#[test]
fn no_columns_need_no_list() {
    let build =
        |out: &mut [u8], counts: &mut [u32]| model::build(&[], Sort::Short, &[], &[], out, counts);
    let row = hex("00 00 00 80");
    assert_eq!(with_counts(4, 0, build), (done(4), row.clone(), vec![]));
    let read = |out: &mut [u8], counts: &mut [u32]| model::read(&[], &row, &[0], out, counts);
    assert_eq!(with_counts(0, 0, read), (done(0), vec![], vec![]));
}

/// 200 characters of two bytes and 56 blanks.
#[test]
fn counts_above_a_byte() {
    let schema = schema(&[Type::Character(456), Type::Varchar(400)]);
    let text = "é".repeat(200).into_bytes();
    let values = [Value::Char(range(0, 400)), Value::Varchar(range(2, 398))];
    let build = |out: &mut [u8], counts: &mut [u32]| {
        model::build(
            &schema,
            Sort::Short,
            &value::list(&values, Sort::Short),
            &text,
            out,
            counts,
        )
    };
    let (answer, row, counts) = with_counts(ROOM, 2, build);
    assert_eq!((answer.number, counts), (0, vec![256, 199]));
    let read =
        |out: &mut [u8], counts: &mut [u32]| model::read(&schema, &row, &[1, 0], out, counts);
    assert_eq!(with_counts(ROOM, 2, read).2, [256, 199]);
}
