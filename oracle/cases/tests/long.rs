//! Long rows and wide ranges: rows laid out without the Rust are the long twins of the
//! Rust's, and what is made of them, how often. The Rust refuses long rows.

use cases::column::{ColumnType, to_rust_types};
use cases::generate::kinds::Kinds;
use cases::generate::list::{self, any_list, any_list_of, list_of};
use cases::generate::row::{Sort, any_row_of, row, row_of};
use cases::generate::schema::{self, any_types, schema_of};
use cases::generate::{Expected, history, made, row_list};
use cases::history::Call;
use cases::layout::{Layout, Place, is_packed};
use cases::rng::Rng;
use cases::row::{long_twin, offset, padded};
use cases::row_sort::LONG;
use cases::rust::{self, Outcome};
use cases::schema::{read_schema, read_schema_of, write_schema};
use cases::value::{Record, TextRange, ValueList};
use cases::{LIMIT, RowSort, laid_out};
use std::collections::{BTreeMap, BTreeSet};

/// S of 01: Int, Varchar(5), SmallInt.
const S: [ColumnType; 3] = [
    ColumnType::Int,
    ColumnType::Varchar(5),
    ColumnType::SmallInt,
];

const ROW: &[u8] = b"\x03\0\x01\x80\x04\x0D\0\x01\0\0\0\0\0AB";
const LONG_ROW: &[u8] = b"\x03\0\x01\xC0\x04\x0F\0\0\0\x01\0\0\0\0\0AB";

#[test]
fn the_example() {
    let text = Record::Varchar(TextRange {
        start: 0,
        length: 2,
    });
    let records = [Record::Int(1), text, Record::Null];
    let list = ValueList::of_records(&records, b"AB".to_vec());
    assert_eq!(made::built_of(&S, RowSort::Short, &list), ROW);
    assert_eq!(made::built_of(&S, RowSort::Long, &list), LONG_ROW);
    assert_eq!(long_twin(&S, ROW).as_deref(), Some(LONG_ROW));
    let fresh = b"\x03\0\x01\xC0\x07\0\0\0\0\0\0\0\0\0\0";
    assert_eq!(made::fresh_of(&S, RowSort::Long), fresh);
    let empty = ValueList::of_records(
        &[text.with_range(TextRange {
            start: 0,
            length: 0,
        })],
        vec![],
    );
    let wanted = b"\x03\0\x01\xC0\x04\x0F\0\0\0\x01\0\0\0\0\0";
    assert_eq!(made::edited(&S, LONG_ROW, 1, &empty), wanted);
    assert_eq!(long_twin(&S, LONG_ROW), None);
    assert_eq!(long_twin(&S, &ROW[..12]), None);
    assert_eq!(long_twin(&S[1..], ROW), None);
}

/// By their Varchar count, whatever columns are asked for.
#[test]
fn the_rust_refuses_long_rows() {
    let mut rng = Rng::new(1);
    let types = to_rust_types(&S).unwrap();
    assert_eq!(rust::read_all(&types, LONG_ROW), Outcome::Internal);
    assert_eq!(rust::set_null(&types, LONG_ROW, 1), Outcome::Internal);
    for _ in 0..500 {
        let types = any_types(&mut rng);
        let row = row_of(&mut rng, &types, RowSort::Long, Sort::Built).unwrap();
        let types = to_rust_types(&types).unwrap();
        assert_eq!(rust::read(&types, &row, &[]), Outcome::Internal);
    }
}

/// What is laid out for a long row is the long twin of what the Rust makes.
#[test]
fn laid_out_as_twins_of_the_rust() {
    let mut rng = Rng::new(2);
    let (mut built, mut edits) = (0, 0);
    for _ in 0..2000 {
        let types = any_types(&mut rng);
        let twin = |row: &[u8]| long_twin(&types, row).expect("a good row");
        let fresh = laid_out::fresh(&types, RowSort::Long);
        assert_eq!(fresh, twin(&made::fresh(&types)));
        for sort in [list::Sort::Good, list::Sort::Values, list::Sort::RowAtLimit] {
            if let Some(list) = list::list(&mut rng, &types, sort) {
                let short = made::built(&types, &list.values);
                let row = laid_out::built(&types, RowSort::Long, &list.values);
                assert_eq!(row, twin(&short), "{types:?}");
                built += 1;
            }
        }
        let Some(mut short) = row(&mut rng, &types, Sort::Edited) else {
            continue;
        };
        if rng.one_in(2) {
            short = padded(&types, &short, 0xA5).unwrap_or(short);
        }
        for _ in 0..6.min(types.len()) {
            let column = rng.below(types.len());
            let own = &types[column..=column];
            let list = list::list(&mut rng, own, list::Sort::Good).unwrap().values;
            let edit = made::edited(&types, &short, column, &list);
            if edit.len() <= LIMIT {
                let long = made::edited(&types, &twin(&short), column, &list);
                assert_eq!(long, twin(&edit), "{types:?}");
                edits += 1;
                short = edit;
            }
        }
    }
    assert!(built > 4000 && edits > 5000, "{built} {edits}");
}

/// The twin has the same slots, bits and payloads; the offsets alone are others.
#[test]
fn a_twin_has_the_same_parts() {
    let mut rng = Rng::new(3);
    let mut compared = 0;
    for _ in 0..1000 {
        let types = any_types(&mut rng);
        let short = row(&mut rng, &types, Sort::Padded).unwrap();
        let long = long_twin(&types, &short).unwrap();
        let (of, to) = (
            Layout::of_row(&types, &short),
            Layout::of_row(&types, &long),
        );
        assert_eq!((to.sort, is_packed(&long)), (RowSort::Long, false));
        assert_eq!(to.table, of.table);
        assert_eq!(to.minimum, of.minimum + 2 * of.varchars);
        assert_eq!(long[4..of.table], short[4..of.table]);
        for (a, b) in of.places.iter().zip(&to.places) {
            match (*a, *b) {
                (Place::Fixed { start: a, size }, Place::Fixed { start: b, .. }) => {
                    assert_eq!(short[a..a + size], long[b..b + size]);
                }
                (Place::Varchar { rank }, other) => {
                    assert_eq!(Place::Varchar { rank }, other);
                    let (a, b) = (offset(&short, &of, rank), offset(&long, &to, rank));
                    assert_eq!(b, if a == 0 { 0 } else { a + 2 * of.varchars });
                }
                (a, b) => panic!("{a:?} {b:?}"),
            }
            compared += 1;
        }
        assert_eq!(long[to.minimum..], short[of.minimum..]);
    }
    assert!(compared > 3000, "{compared}");
}

/// Lists for long rows are of every sort, and at the long limit where it has one.
#[test]
fn lists_for_long_rows() {
    let mut rng = Rng::new(4);
    let long = RowSort::Long;
    let mut made = BTreeSet::new();
    let mut at_limit = 0;
    for case in 0..60 {
        let mut types = any_types(&mut rng);
        match case % 3 {
            0 => types.extend(vec![ColumnType::Varchar(u16::MAX); 17]),
            1 => types.extend(vec![ColumnType::VarcharChars(u16::MAX); 5]),
            _ => {}
        }
        for sort in list::Sort::ALL {
            let Some(list) = list_of(&mut rng, &types, long, sort) else {
                continue;
            };
            made.insert(sort);
            let text = list.values.text.len();
            match sort {
                list::Sort::TextAtLimit => assert_eq!(text, 1_048_576),
                list::Sort::TextAbove => assert!(text > 1_048_576),
                list::Sort::RowAtLimit => {
                    let row = made::built_of(&types, long, &list.values);
                    assert_eq!(row.len(), 1_048_576);
                    at_limit += 1;
                }
                list::Sort::RowAbove => {
                    let row = made::built_of(&types, long, &list.values);
                    assert!(row.len() > 1_048_576);
                }
                _ => assert!(text <= 1_048_576),
            }
        }
    }
    assert_eq!(made.into_iter().collect::<Vec<_>>(), list::Sort::ALL);
    assert!(at_limit > 10, "{at_limit}");
}

/// How often rows of which length are made for long rows, with the columns of `Kinds`.
#[test]
fn most_long_rows_have_few_bytes() {
    let mut rng = Rng::new(5);
    let mut seen = BTreeMap::new();
    let mut sorts = BTreeSet::new();
    const ROWS: usize = 30_000;
    for _ in 0..ROWS {
        let columns = rng.between(1, 9);
        let types = (0..columns)
            .map(|_| schema::any_type(&mut rng, 40))
            .collect();
        let types = Kinds::All.types_of(&mut rng, types, RowSort::Long);
        let (sort, row) = any_row_of(&mut rng, &types, RowSort::Long);
        sorts.insert(sort);
        let label = match row.len() {
            0..=2_000 => "few",
            2_001..=65_535 => "as a short row",
            65_536..=1_000_000 => "beyond",
            1_000_001..=1_048_575 => "near the limit",
            1_048_576 => "at the limit",
            _ => "above",
        };
        *seen.entry(label).or_insert(0) += 1;
        assert!(row.len() < 1_200_000);
        // Damage alone makes other headers.
        if Sort::SOUND_LONG.contains(&sort) {
            assert_eq!(RowSort::of_row(&row), RowSort::Long, "{sort:?}");
        }
    }
    println!("{seen:?}");
    assert!(seen["few"] > ROWS * 8 / 10, "{seen:?}");
    assert!(seen["beyond"] > ROWS / 100, "{seen:?}");
    for label in ["at the limit", "above"] {
        assert!((8..ROWS / 200).contains(&seen[label]), "{label} {seen:?}");
    }
    let mut all = Sort::LONG.to_vec();
    all.sort();
    assert_eq!(sorts.into_iter().collect::<Vec<_>>(), all);
}

/// Long rows whose header does not say so, and the other way about.
#[test]
fn marks_are_damaged() {
    let mut rng = Rng::new(6);
    for of in RowSort::ALL {
        for _ in 0..200 {
            let types = any_types(&mut rng);
            let mut row = row_of(&mut rng, &types, of, Sort::Mark).unwrap();
            assert_ne!(RowSort::of_row(&row), of);
            row[3] ^= (LONG >> 8) as u8;
            assert!(row.len() >= Layout::of_row(&types, &row).minimum);
        }
    }
}

#[test]
fn schemas_for_long_rows() {
    let mut rng = Rng::new(7);
    for sort in schema::Sort::ALL.into_iter().flat_map(|sort| [sort; 100]) {
        let schema = schema_of(&mut rng, RowSort::Long, sort);
        let read = read_schema_of(&schema.bytes, RowSort::Long);
        match schema.expected {
            Expected::Accepted => assert!(read.is_ok(), "{sort:?}"),
            Expected::Refused(refusal) => assert_eq!(read, Err(refusal), "{sort:?}"),
            Expected::Unknown => {}
        }
        if sort == schema::Sort::AtLimit {
            let minimum = Layout::padded_of(&read.unwrap(), RowSort::Long).minimum;
            assert_eq!(minimum, 1_048_576);
            let short = read_schema(&schema.bytes).map_err(|refusal| refusal.number);
            assert_eq!(short, Err(2));
        }
    }
}

/// A wide range says what a narrow one says, and what is expected of a list is found at
/// its new place.
#[test]
fn ranges_are_widened() {
    let mut rng = Rng::new(8);
    let (mut wide, mut mixed, mut places) = (0, 0, 0);
    for _ in 0..6000 {
        let columns = rng.between(1, 9);
        let types: Vec<ColumnType> = (0..columns)
            .map(|_| schema::any_type(&mut rng, 40))
            .collect();
        let (sort, before) = any_list(&mut rng, &types);
        let after = Kinds::All.list(&mut rng, before.clone());
        assert_eq!(after.values.text, before.values.text);
        let (own, records) = (before.values.all_records(), after.values.all_records());
        let text = &before.values.text;
        let told = |record: &Record| match record.range() {
            // Outside it may be anywhere.
            Some(range) if range.of(text).is_none() => (record.kind(), None),
            _ => (record.kind(), Some(*record)),
        };
        let told = |records: Result<Vec<Record>, _>| {
            let all = records.ok()?;
            Some(all.iter().map(told).collect::<Vec<_>>())
        };
        assert_eq!(told(own), told(records));
        if let Expected::Refused(refusal) = after.expected
            && refusal.number == 10
        {
            assert_eq!(after.values.records(columns), Err(refusal), "{sort:?}");
            places += usize::from(after.expected != before.expected);
        }
        let (all, some) = (kinds(&after.values), kinds(&before.values));
        assert!(!some.iter().any(|kind| (17..=19).contains(kind)) || sort == list::Sort::Random);
        let is_wide = |kind: &u8| (17..=19).contains(kind);
        let is_narrow = |kind: &u8| [8, 9, 12].contains(kind);
        wide += usize::from(all.iter().any(is_wide));
        mixed += usize::from(all.iter().any(is_wide) && all.iter().any(is_narrow));
    }
    assert!(
        wide > 1500 && mixed > 300 && places > 150,
        "{wide} {mixed} {places}"
    );
}

/// The kinds of a list's known records.
fn kinds(list: &ValueList) -> Vec<u8> {
    let mut kinds = Vec::new();
    let mut at = 0;
    while at < list.bytes.len()
        && let Some((_, length)) = Record::read(&list.bytes[at..])
    {
        kinds.push(list.bytes[at]);
        at += length;
    }
    kinds
}

/// Of the Rust nothing changes: no choice is made.
#[test]
fn of_the_rust_there_are_no_long_rows() {
    let (mut rng, mut other) = (Rng::new(9), Rng::new(9));
    for _ in 0..300 {
        assert_eq!(Kinds::OfRust.row_sort(&mut rng), RowSort::Short);
        let (types, again) = (any_types(&mut rng), any_types(&mut other));
        let types = Kinds::OfRust.types_of(&mut rng, types, RowSort::Short);
        assert_eq!(types, again);
        let (sort, list) = any_list_of(&mut rng, &types, RowSort::Short);
        assert_eq!(
            (sort, Kinds::OfRust.list(&mut rng, list)),
            any_list(&mut other, &types)
        );
        let calls = history::history_of(&mut rng, &types, RowSort::Short, 3);
        let again = history::history(&mut other, &types, 3);
        assert_eq!(Kinds::OfRust.calls(&mut rng, calls), again);
        assert_eq!(
            Kinds::OfRust.row_list(&mut rng),
            row_list::any_list(&mut other)
        );
        assert_eq!(rng.next_u64(), other.next_u64());
    }
}

/// Sets on long rows that pass 65,535 bytes, and with ranges far outside.
#[test]
fn histories_of_long_rows() {
    let mut rng = Rng::new(10);
    let mut seen = BTreeMap::new();
    for _ in 0..1500 {
        let types = any_types(&mut rng);
        let types = Kinds::All.types_of(&mut rng, types, RowSort::Long);
        let calls = history::history_of(&mut rng, &types, RowSort::Long, 8);
        for call in Kinds::All.calls(&mut rng, calls) {
            let Call::Set { values, .. } = call else {
                continue;
            };
            let mut see = |label| *seen.entry(label).or_insert(0) += 1;
            if values.text.len() > 65_535 {
                see("text area past 65,535");
            }
            if values.text.len() > 1_048_576 {
                see("text area past 1,048,576");
            }
            for record in values.all_records().unwrap_or_default() {
                let range = record.range().unwrap_or(TextRange {
                    start: 0,
                    length: 0,
                });
                if range.start == 0xFFFF_FFFF {
                    see("start of all bits");
                }
                if range.length > 65_535 {
                    see("length past 65,535");
                }
            }
        }
        assert!(read_schema_of(&write_schema(&types), RowSort::Long).is_ok());
    }
    println!("{seen:?}");
    for label in [
        "text area past 65,535",
        "text area past 1,048,576",
        "start of all bits",
        "length past 65,535",
    ] {
        assert!(seen.contains_key(label), "{label} {seen:?}");
    }
}

/// Whole rows of a list, as twins; a list that is cut stays cut.
#[test]
fn lists_with_long_rows() {
    let mut rng = Rng::new(11);
    let short = row_list::framed(&[ROW.to_vec()]);
    assert_eq!(row_list::with_long_rows(&mut rng, &short[..9]), short[..9]);
    let (mut all, mut some) = (0, 0);
    for _ in 0..400 {
        let list = row_list::list(&mut rng, row_list::Sort::Good);
        let long = row_list::with_long_rows(&mut rng, &list);
        let rows = |list: &[u8]| {
            let mut marks = Vec::new();
            let mut at = 0;
            while at < list.len() {
                let length = usize::from(list[at]) + 256 * usize::from(list[at + 1]);
                marks.push(list[at + 5] & 0x40 != 0);
                at += 2 + length;
            }
            assert_eq!(at, list.len());
            marks
        };
        assert!(rows(&list).iter().all(|mark| !mark));
        let marks = rows(&long);
        assert_eq!(marks.len(), rows(&list).len());
        all += usize::from(marks.iter().all(|&mark| mark));
        some += usize::from(marks.contains(&true) && marks.contains(&false));
    }
    assert!(all > 50 && some > 50, "{all} {some}");
}
