//! The printed list: the examples of 02's second request, the order of refusals,
//! the order of lines, and the limits.

mod common;

use common::*;
use model::build::packed_row;
use model::calendar::moment_text;
use model::print::COLUMNS;
use model::row_list::{MAX_BYTES, MAX_ROWS, list};
use model::{RowAnswer, Sort, report};

/// A row of a platform, a unit, an arrival and a departure.
fn row(
    platform: Option<&[u8]>,
    unit: Option<&[u8]>,
    arrival: Option<i64>,
    departure: Option<i64>,
) -> Vec<u8> {
    let text = |text: Option<&[u8]>| text.map(<[u8]>::to_vec);
    let moment = |micros: Option<i64>| micros.map(|micros| micros.to_le_bytes().to_vec());
    let cells = [
        text(platform),
        text(unit),
        moment(arrival),
        moment(departure),
    ];
    packed_row(&COLUMNS, Sort::Short, &cells)
}

/// A row of a platform and an arrival, with its input place as unit.
fn placed(platform: Option<&str>, arrival: Option<i64>, place: usize) -> Vec<u8> {
    let unit = place.to_string();
    let platform = platform.map(str::as_bytes);
    row(platform, Some(unit.as_bytes()), arrival, None)
}

/// The units of the lines, which say in which order the rows stand.
fn units(rows: &[Vec<u8>]) -> String {
    let text = printed(&list(rows));
    let unit = |line: &str| line.split('"').rev().nth(1).expect("a unit").to_string();
    text.lines().map(unit).collect::<Vec<_>>().join(" ")
}

fn printed(list: &[u8]) -> String {
    String::from_utf8(report(list)).expect("text")
}

fn print_in(list: &[u8], room: usize) -> (RowAnswer, Vec<u8>) {
    with_output(room, |out| model::occupations_print(list, out))
}

/// 02's row: platform 3, unit T41, arrival 0, no departure.
fn t41() -> Vec<u8> {
    hex("04 00 02 80 08 19 00 1A 00 0000000000000000 0000000000000000 33 54 34 31")
}

const T41: &str = "\"3\"|\"T41\"|1970-01-01 00:00:00|-\n";

/// The list of the request's example, as bytes.
fn four() -> Vec<u8> {
    hex(
        "1D 00 04 00 02 80 08 19 00 1A 00 0000000000000000 0000000000000000 33 54 34 31
         1A 00 04 00 02 80 02 19 00 00 00 FFFFFFFFFFFFFFFF FF5F73CC0C448403 33
         19 00 04 00 02 80 0D 00 00 19 00 0000000000000000 0000000000000000
         1B 00 04 00 02 80 0A 19 00 00 00 0100000000000000 0000000000000000 31 30",
    )
}

#[test]
fn the_columns_are_those_of_the_request() {
    assert_eq!(schema(&COLUMNS), hex("0B 10 00 0B 40 00 0F 0F"));
    assert_eq!(row(Some(b"3"), Some(b"T41"), Some(0), None), t41());
}

#[test]
fn one_row() {
    let list = [hex("1D 00"), t41()].concat();
    assert_eq!(printed(&list), T41);
    let (answer, text) = print_in(&list, ROOM);
    assert_eq!(answer, done(T41.len()));
    assert_eq!(text, T41.as_bytes());
}

#[test]
fn four_rows() {
    let wanted = "-|\"\"|-|-\n\
                  \"10\"|-|1970-01-01 00:00:00|-\n\
                  \"3\"|-|1969-12-31 23:59:59|9999-12-31 23:59:59\n\
                  \"3\"|\"T41\"|1970-01-01 00:00:00|-\n";
    assert_eq!(printed(&four()), wanted);
}

#[test]
fn no_rows() {
    assert_eq!(printed(&[]), "");
    assert_eq!(print_in(&[], 0), (done(0), vec![]));
}

#[test]
fn moments() {
    for (micros, text) in [
        (-62_135_596_800_000_000, "0001-01-01 00:00:00"),
        (-12_219_292_800_000_000, "1582-10-15 00:00:00"),
        (-2_203_891_201_000_000, "1900-02-28 23:59:59"),
        (-2_203_891_200_000_000, "1900-03-01 00:00:00"),
        (-1, "1969-12-31 23:59:59"),
        (0, "1970-01-01 00:00:00"),
        (999_999, "1970-01-01 00:00:00"),
        (951_782_400_000_000, "2000-02-29 00:00:00"),
        (4_107_542_400_000_000, "2100-03-01 00:00:00"),
        (253_402_300_799_999_999, "9999-12-31 23:59:59"),
    ] {
        assert_eq!(moment_text(micros), text);
        let line = printed(&list(&[row(None, None, Some(micros), Some(micros))]));
        assert_eq!(line, format!("-|-|{text}|{text}\n"));
    }
}

#[test]
fn a_list_that_is_cut_is_refused() {
    let list = four();
    // Ends of rows, where the list is whole.
    let whole = [0, 31, 59, 86, 115];
    assert_eq!(list.len(), 115);
    for end in 0..=list.len() {
        let is_refused = printed(&list[..end]) == "16 0\n";
        assert_eq!(is_refused, !whole.contains(&end), "{end} bytes");
    }
    let lone = [list, vec![0]].concat();
    assert_eq!(print_in(&lone, ROOM), (refused(16, 0, 0), vec![]));
}

#[test]
fn the_list_is_judged_before_its_rows() {
    // A row of 3 bytes and a row that is cut.
    assert_eq!(printed(&hex("03 00 04 00 02")), "3 0\n");
    assert_eq!(printed(&hex("03 00 04 00 02 01 00")), "16 0\n");
    let mut rows = vec![vec![]; MAX_ROWS];
    assert_eq!(printed(&list(&rows)), "3 0\n");
    rows.push(vec![]);
    assert_eq!(printed(&list(&rows)), "16 0\n");
    let long = vec![0; MAX_BYTES - 2];
    assert_eq!(printed(&list(&[long])), "5 0\n");
    let longer = vec![0; MAX_BYTES - 1];
    assert_eq!(printed(&list(&[longer])), "16 0\n");
}

#[test]
fn limits_of_a_good_list() {
    let mut rows = vec![row(None, None, None, None); MAX_ROWS];
    assert_eq!(printed(&list(&rows)), "-|-|-|-\n".repeat(MAX_ROWS));
    rows.push(row(None, None, None, None));
    assert_eq!(printed(&list(&rows)), "16 0\n");

    // Rows of 105 bytes are the longest that the builder makes; 306 of 107
    // bytes and one of 26 are 32,768.
    let wide = row(Some(&[b'p'; 16]), Some(&[b'u'; 64]), Some(0), Some(0));
    assert_eq!(wide.len(), 105);
    let line = format!(
        "\"{}\"|\"{}\"|1970-01-01 00:00:00|1970-01-01 00:00:00\n",
        "p".repeat(16),
        "u".repeat(64)
    );
    assert_eq!(line.len(), 126);
    let mut rows = vec![wide; 306];
    let fill = |bytes: usize| vec![b'x'; bytes];
    rows.push(fill(24));
    assert_eq!(list(&rows).len(), MAX_BYTES);
    assert_eq!(printed(&list(&rows)), "5 0\n");
    rows.pop();
    assert_eq!(printed(&list(&rows)), line.repeat(306));
    rows.push(fill(25));
    assert_eq!(printed(&list(&rows)), "16 0\n");
}

#[test]
fn reading_refusals_row_by_row() {
    let at = |place: usize, byte: u8| {
        let mut row = t41();
        row[place] = byte;
        row
    };
    let first = |row: Vec<u8>| printed(&list(&[t41(), row, vec![]]));
    for length in 0..4 {
        assert_eq!(first(t41()[..length].to_vec()), "3 0\n");
    }
    assert_eq!(first(at(0, 5)), "5 0\n");
    assert_eq!(first(at(2, 1)), "6 0\n");
    assert_eq!(first(t41()[..24].to_vec()), "3 0\n");
    // The platform starts behind the unit, or ends past the row; without a
    // platform the unit starts past the row.
    assert_eq!(first(at(5, 0x1B)), "7 0\n");
    assert_eq!(first(at(7, 0x1E)), "7 0\n");
    let mut alone = at(7, 0x1E);
    alone[4] |= 1;
    assert_eq!(first(alone), "7 1\n");
    assert_eq!(first(at(25, 0xFF)), "8 0\n");
    assert_eq!(first(at(26, 0xFF)), "8 1\n");
    assert_eq!(first(at(16, 0x7F)), "8 2\n");
    let mut late = at(24, 0x7F);
    late[4] = 0;
    assert_eq!(first(late), "8 3\n");
    let long = row(Some(&[b'1'; 17]), None, None, None);
    assert_eq!(first(long), "8 0\n");
    let long = row(None, Some(&[b'1'; 65]), None, None);
    assert_eq!(first(long), "8 1\n");
}

#[test]
fn texts_that_cannot_stand_in_quotes() {
    let unit = |unit: &[u8]| printed(&list(&[row(Some(b"3"), Some(unit), None, None)]));
    assert_eq!(unit(b"A\""), "17 1\n");
    for byte in (0..0x20).chain([0x22]) {
        assert_eq!(unit(&[b'A', byte, b'B']), "17 1\n");
        let platform = row(Some(&[byte]), Some(&[byte]), None, None);
        assert_eq!(printed(&list(&[platform])), "17 0\n");
    }
    for byte in [0x20, 0x21, 0x23, b'|', b'-', b'\\', 0x7F] {
        let text = char::from(byte);
        assert_eq!(unit(&[byte]), format!("\"3\"|\"{text}\"|-|-\n"));
    }
    // U+0080, whose bytes are from 80 on, and others of two to four bytes.
    for text in ["\u{80}", "é", "€", "🚆"] {
        assert_eq!(unit(text.as_bytes()), format!("\"3\"|\"{text}\"|-|-\n"));
    }
}

#[test]
fn reading_comes_before_17_in_a_row_and_17_before_the_next_row() {
    let past = 253_402_300_800_000_000;
    let unit = row(None, Some(b"A\""), None, None);
    let both = row(Some(b"\""), Some(b"A\""), None, Some(past));
    let late = row(None, None, None, Some(past));
    assert_eq!(printed(&list(std::slice::from_ref(&both))), "8 3\n");
    assert_eq!(printed(&list(&[unit.clone(), late.clone()])), "17 1\n");
    assert_eq!(printed(&list(&[late, unit])), "8 3\n");
}

#[test]
fn nulls_hide_bytes() {
    // The text of a null is not looked at.
    let mut hidden = row(Some(b"\""), None, None, None);
    hidden[4] |= 1;
    assert_eq!(printed(&list(&[hidden])), "-|-|-|-\n");
}

#[test]
fn order_of_platforms() {
    // By bytes: a prefix first, null before the empty text, no numbers.
    let platforms = [
        None,
        Some(""),
        Some("1"),
        Some("10"),
        Some("2"),
        Some("2a"),
        Some("2b"),
        Some("B"),
        Some("a"),
        Some("é"),
    ];
    let rows: Vec<_> = platforms
        .iter()
        .enumerate()
        .map(|(place, platform)| placed(*platform, Some(0), place))
        .rev()
        .collect();
    assert_eq!(units(&rows), "0 1 2 3 4 5 6 7 8 9");
}

#[test]
fn order_of_arrivals() {
    // By microseconds, not by what is printed; null first.
    let arrivals = [
        None,
        Some(-62_135_596_800_000_000),
        Some(-1_000_001),
        Some(-1),
        Some(0),
        Some(1),
        Some(999_999),
        Some(1_000_000),
        Some(253_402_300_799_999_999),
    ];
    let rows: Vec<_> = arrivals
        .iter()
        .enumerate()
        .map(|(place, arrival)| placed(Some("1"), *arrival, place))
        .rev()
        .collect();
    assert_eq!(units(&rows), "0 1 2 3 4 5 6 7 8");
}

#[test]
fn equal_rows_stay_in_input_order() {
    let of = |platform, place| placed(platform, Some(7), place);
    let (a, b) = (Some("a"), Some("b"));
    let rows = [
        of(b, 0),
        of(a, 1),
        of(b, 2),
        of(None, 3),
        of(a, 4),
        of(b, 5),
    ];
    assert_eq!(units(&rows), "3 1 4 0 2 5");
}

#[test]
fn padded_and_unsound_rows_print() {
    // Without the flag; each slot is at a multiple of 8 anyway.
    let mut padded = t41();
    padded[3] = 0;
    assert_eq!(printed(&list(&[padded])), T41);
    // Spare bits set; a gap before the texts.
    let mut spare = t41();
    spare[4] |= 0xF0;
    assert_eq!(printed(&list(&[spare])), T41);
    let mut gap = t41();
    (gap[5], gap[7]) = (0x1A, 0x1B);
    gap.insert(25, b'"');
    assert_eq!(printed(&list(&[gap])), T41);
    // The platform's text is the second slot and the unit's the rest, from 25.
    let mut over = t41();
    (over[5], over[7]) = (17, 25);
    over[17..25].copy_from_slice(b"Gleis 12");
    let line = "\"Gleis 12\"|\"3T41\"|1970-01-01 00:00:00|-\n";
    assert_eq!(printed(&list(&[over])), line);
}

#[test]
fn room_is_judged_last() {
    let list = four();
    let (answer, text) = print_in(&list, ROOM);
    assert_eq!(print_in(&list, text.len()), (answer, text.clone()));
    for room in [0, 1, text.len() - 1] {
        assert_eq!(print_in(&list, room), (refused(14, 0, 0), vec![]));
    }
    assert_eq!(print_in(&list[..114], 0), (refused(16, 0, 0), vec![]));
    let unit = [&list[..], &hex("00 00")].concat();
    assert_eq!(print_in(&unit, 0), (refused(3, 0, 0), vec![]));
}
