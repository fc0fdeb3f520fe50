//! Rows: built and padded rows read back in the Rust, sound ones are sound, the
//! damaged ones are damaged as their sort says and reach every refusal of a
//! read.

use cases::column::{ColumnType, RustColumns, to_rust_types};
use cases::generate::Expected;
use cases::generate::list::{Sort as ListSort, list};
use cases::generate::row::{Sort, any_row, row, sound_row};
use cases::generate::schema::any_types;
use cases::generate::wanted::{self, any_wanted, subsets};
use cases::layout::{BITMAP, Layout, PACKED, Place, is_packed};
use cases::rng::Rng;
use cases::row::{is_sound, null_bit, offset, padded, zero_null_slots};
use cases::rust::{self, Outcome};
use cases::{LIMIT, value};
use rookdb::types::value::DataValue;
use std::collections::{BTreeMap, BTreeSet};

/// Rows of every sort for schemas at random.
fn generated(count: usize) -> impl Iterator<Item = (Vec<ColumnType>, Sort, Vec<u8>)> {
    let mut rng = Rng::new(1);
    (0..count).flat_map(move |_| {
        let types = any_types(&mut rng);
        Sort::ALL
            .into_iter()
            .filter_map(|sort| Some((types.clone(), sort, row(&mut rng, &types, sort)?)))
            .collect::<Vec<_>>()
    })
}

/// The values as a read gives them: Char with its blanks.
fn blanked(types: &[ColumnType], values: &[Option<DataValue>]) -> Vec<Option<DataValue>> {
    let blank = |(ty, value): (&ColumnType, &Option<DataValue>)| match (ty, value) {
        (ColumnType::Char(n) | ColumnType::Character(n), Some(DataValue::Char(text))) => {
            let blanks = " ".repeat(usize::from(*n) - text.len());
            Some(DataValue::Char(format!("{text}{blanks}")))
        }
        _ => value.clone(),
    };
    types.iter().zip(values).map(blank).collect()
}

#[test]
fn built_and_padded_rows_read_back() {
    let mut rng = Rng::new(2);
    let mut moved = 0;
    for _ in 0..2000 {
        let types = any_types(&mut rng);
        let list = list(&mut rng, &types, ListSort::Good).unwrap();
        assert_eq!(list.expected, Expected::Accepted);
        let values = list.values.to_rust(&types).unwrap().values;
        let columns = RustColumns::of(&types).unwrap();
        let packed = rust::build(&columns.rust, &values).ok().unwrap();
        let read = Outcome::Ok(blanked(&types, &values));
        assert_eq!(rust::read_all(&columns.rust, &packed), read);
        for filler in [0, 0xFF, rng.byte()] {
            if let Some(row) = padded(&types, &packed, filler) {
                assert!(!is_packed(&row));
                assert_eq!(rust::read_all(&columns.rust, &row), read);
                assert!(is_sound(&columns, &row));
                moved += usize::from(row.len() > packed.len());
            }
        }
    }
    assert!(moved > 1000, "{moved}");
}

#[test]
fn padded_example() {
    // SmallInt 1, Varchar "AB", Int 2, Varchar "C": the Int starts at 12, not 10.
    let types = [
        ColumnType::SmallInt,
        ColumnType::Varchar(5),
        ColumnType::Int,
        ColumnType::Varchar(5),
    ];
    let rust_types = to_rust_types(&types).unwrap();
    let packed = b"\x04\0\x02\x80\0\x0F\0\x11\0\x01\0\x02\0\0\0ABC";
    let values = rust::read_all(&rust_types, packed).ok().unwrap();
    assert_eq!(
        rust::build(&rust_types, &values),
        Outcome::Ok(packed.to_vec())
    );
    let row = padded(&types, packed, 0xEE).unwrap();
    assert_eq!(
        row,
        b"\x04\0\x02\0\0\x11\0\x13\0\x01\0\xEE\xEE\x02\0\0\0ABC"
    );
    assert_eq!(rust::read_all(&rust_types, &row), Outcome::Ok(values));
}

#[test]
fn a_padded_row_may_be_too_long() {
    let types = [
        ColumnType::Bool,
        ColumnType::Int,
        ColumnType::Varchar(65_535),
    ];
    let values = |length| {
        let text = DataValue::Varchar("x".repeat(length));
        [None, None, Some(text)]
    };
    // The packed minimum is 12, the padded one 15.
    let rust_types = to_rust_types(&types).unwrap();
    let longest = rust::build(&rust_types, &values(LIMIT - 15)).ok().unwrap();
    assert_eq!(padded(&types, &longest, 0).unwrap().len(), LIMIT);
    let longer = rust::build(&rust_types, &values(LIMIT - 14)).ok().unwrap();
    assert_eq!(padded(&types, &longer, 0), None);
}

#[test]
fn soundness() {
    let is_sound = |ty: ColumnType, row: &[u8]| is_sound(&RustColumns::of(&[ty]).unwrap(), row);
    let examples: [(&[u8], bool); 9] = [
        (b"\x01\0\x01\x80\x01\0\0", true),
        (b"\x01\0\x01\x80\0\x07\0", true),
        (b"\x01\0\x01\x80\0\x07\0AB", true),
        // A null with an offset, a value without, a loose byte, a late start.
        (b"\x01\0\x01\x80\x01\x07\0", false),
        (b"\x01\0\x01\x80\0\0\0", false),
        (b"\x01\0\x01\x80\x01\0\0A", false),
        (b"\x01\0\x01\x80\0\x08\0AB", false),
        // An offset in the header; no row at all.
        (b"\x01\0\x01\0\0\x01\0", false),
        (b"\x01\0\x01", false),
    ];
    for (row, sound) in examples {
        assert_eq!(is_sound(ColumnType::Varchar(6), row), sound, "{row:02X?}");
    }
    // Spare bits are not looked at; a date past 9999 is no value of 01.
    assert!(is_sound(ColumnType::Bool, b"\x01\0\0\x80\xFE\x02"));
    let date = |days: i32| [&b"\x01\0\0\x80\0"[..], &days.to_le_bytes()].concat();
    assert!(is_sound(ColumnType::Date, &date(2_932_896)));
    assert!(!is_sound(ColumnType::Date, &date(2_932_897)));
}

#[test]
fn null_slots_zeroed() {
    let types = [
        ColumnType::Bool,
        ColumnType::Varchar(1),
        ColumnType::SmallInt,
    ];
    let mut row = b"\x03\0\x01\x80\x05\x0A\0\x01\x02\x03A".to_vec();
    zero_null_slots(&types, &mut row);
    assert_eq!(row, b"\x03\0\x01\x80\x05\x0A\0\0\0\0A");
    let mut row = b"\x03\0\x01\0\x02\0\0\x01\xEE\x02\x03".to_vec();
    let before = row.clone();
    zero_null_slots(&types, &mut row);
    assert_eq!(row, before);
}

#[test]
fn sound_rows_are_sound() {
    let mut packed = BTreeSet::new();
    for (types, sort, row) in generated(600) {
        if Sort::SOUND.contains(&sort) {
            let columns = RustColumns::of(&types).unwrap();
            assert!(is_sound(&columns, &row), "{sort:?} {types:?}");
            packed.insert((sort, is_packed(&row)));
        }
    }
    for sort in [Sort::Fresh, Sort::Built, Sort::Edited, Sort::AtLimit] {
        assert!(packed.contains(&(sort, true)) && !packed.contains(&(sort, false)));
    }
    assert!(packed.contains(&(Sort::Padded, false)) && !packed.contains(&(Sort::Padded, true)));
    assert!(
        [true, false]
            .iter()
            .all(|&p| packed.contains(&(Sort::SpareBits, p)))
    );
    let mut rng = Rng::new(3);
    for _ in 0..200 {
        let types = any_types(&mut rng);
        let columns = RustColumns::of(&types).unwrap();
        assert!(is_sound(&columns, &sound_row(&mut rng, &types)));
    }
}

/// The number of 01's answer to a read of all columns. The Rust gives what the
/// table names for it.
fn answer(types: &[ColumnType], row: &[u8]) -> (u32, &'static str) {
    let outcome = rust::read_all(&to_rust_types(types).unwrap(), row);
    let field = |at: usize| u16::from_le_bytes([row[at], row[at + 1]]);
    let varchars = types.iter().filter(|ty| ty.is_variable_length()).count();
    let internal = match row.len() {
        0..=3 => Some((3, "four bytes")),
        _ if usize::from(field(0)) != types.len() => Some((5, "")),
        _ if usize::from(field(2) & !PACKED) != varchars => Some((6, "")),
        length if length < Layout::of_row(types, row).minimum => Some((3, "minimum")),
        _ => None,
    };
    assert_eq!(internal.is_some(), outcome == Outcome::Internal);
    if row.len() > LIMIT {
        return (4, "");
    }
    match (internal, outcome) {
        (Some(answer), _) => answer,
        (None, Outcome::Panicked) => (7, ""),
        (None, Outcome::TypeMismatch) => (8, "in the Rust"),
        (None, Outcome::Ok(values)) => {
            if values.iter().flatten().all(value::in_domain) {
                (0, "")
            } else {
                (8, "wider dates")
            }
        }
        (None, outcome) => panic!("{outcome:?}"),
    }
}

#[test]
fn every_sort_and_refusal_is_generated() {
    let mut answers: BTreeMap<Sort, BTreeSet<(u32, &str)>> = BTreeMap::new();
    let mut flags = BTreeSet::new();
    for (types, sort, row) in generated(1500) {
        check_sort(&types, sort, &row);
        answers
            .entry(sort)
            .or_default()
            .insert(answer(&types, &row));
        if row.len() >= 4 {
            flags.insert((sort, is_packed(&row)));
        }
    }
    assert_eq!(answers.keys().copied().collect::<Vec<_>>(), Sort::ALL);
    let all: BTreeSet<(u32, &str)> = answers.values().flatten().copied().collect();
    let wanted = [
        (0, ""),
        (3, "four bytes"),
        (3, "minimum"),
        (4, ""),
        (5, ""),
        (6, ""),
        (7, ""),
        (8, "in the Rust"),
        (8, "wider dates"),
    ];
    assert_eq!(all.into_iter().collect::<Vec<_>>(), wanted);
    for (sort, number) in [
        (Sort::ColumnCount, 5),
        (Sort::VarcharCount, 6),
        (Sort::Above, 4),
        (Sort::Payload, 8),
    ] {
        assert!(answers[&sort].iter().all(|answer| answer.0 == number));
    }
    let numbers: [(Sort, &[u32]); 8] = [
        (Sort::Stored, &[0, 8]),
        // The payload goes to the Varchar before, which may be too short for it.
        (Sort::ZeroOffset, &[0, 8]),
        (Sort::Offset, &[0, 7, 8]),
        (Sort::OffsetInHeader, &[0, 7, 8]),
        (Sort::Flag, &[0, 3, 8]),
        (Sort::RandomBody, &[0, 3, 8]),
        (Sort::Cut, &[0, 3, 7, 8]),
        (Sort::FlippedBits, &[0, 5, 6, 7, 8]),
    ];
    for (sort, numbers) in numbers {
        let seen = |number: &u32| answers[&sort].iter().any(|answer| answer.0 == *number);
        assert!(numbers.iter().all(seen), "{sort:?} {:?}", answers[&sort]);
        assert!(
            [true, false]
                .iter()
                .all(|&packed| flags.contains(&(sort, packed)))
        );
    }
}

/// What each sort of damage promises, seen in the row.
fn check_sort(types: &[ColumnType], sort: Sort, row: &[u8]) {
    let varchars = || {
        let layout = Layout::of_row(types, row);
        let columns = layout.places.clone().into_iter().enumerate();
        columns.filter_map(move |(column, place)| match place {
            Place::Varchar { rank } => {
                let offset = offset(row, &layout, rank);
                Some((null_bit(row, column), offset, layout.minimum))
            }
            Place::Fixed { .. } => None,
        })
    };
    match sort {
        Sort::SpareBits => {
            let last = row[BITMAP + types.len() / 8];
            assert_ne!(last >> (types.len() % 8), 0);
        }
        Sort::AtLimit => assert_eq!(row.len(), LIMIT),
        Sort::Above => assert!(row.len() > LIMIT),
        Sort::ZeroOffset => {
            assert!(varchars().any(|(null, offset, _)| !null && offset == 0));
        }
        Sort::OffsetInHeader => {
            let inside = |offset, minimum| 0 < offset && offset < minimum;
            assert!(varchars().any(|(null, offset, minimum)| !null && inside(offset, minimum)));
        }
        Sort::Lengthened => assert!(row.len() > Layout::of_row(types, row).minimum),
        _ => {}
    }
}

#[test]
fn random_rows_are_of_every_sort() {
    let mut rng = Rng::new(4);
    let types = [
        ColumnType::Varchar(65_535),
        ColumnType::Bool,
        ColumnType::Varchar(9),
    ];
    let sorts: BTreeSet<Sort> = (0..1000).map(|_| any_row(&mut rng, &types).0).collect();
    assert_eq!(sorts.into_iter().collect::<Vec<_>>(), Sort::ALL);
}

/// A read of wanted columns gives those of a read of all, and null for the rest.
#[test]
fn wanted_columns() {
    let mut rng = Rng::new(5);
    let mut seen = BTreeSet::new();
    let mut sorts = BTreeSet::new();
    for _ in 0..8000 {
        let types = any_types(&mut rng);
        let row = sound_row(&mut rng, &types);
        let (sort, wanted) = any_wanted(&mut rng, types.len());
        sorts.insert(sort);
        let rust_types = to_rust_types(&types).unwrap();
        let mut expected = rust::read_all(&rust_types, &row).ok().unwrap();
        for (column, value) in expected.iter_mut().enumerate() {
            if !wanted.contains(&(column as u16)) {
                *value = None;
            }
        }
        assert_eq!(
            rust::read(&rust_types, &row, &wanted),
            Outcome::Ok(expected)
        );
        let set: BTreeSet<u16> = wanted.iter().copied().collect();
        let known = set
            .iter()
            .filter(|&&c| usize::from(c) < types.len())
            .count();
        seen.insert(("none", wanted.is_empty()));
        seen.insert(("all", known == types.len()));
        seen.insert(("some", 0 < known && known < types.len()));
        seen.insert(("unknown", known < set.len()));
        seen.insert(("repeats", set.len() < wanted.len()));
        seen.insert(("rising", wanted.is_sorted()));
        seen.insert(("more than columns", wanted.len() > types.len()));
    }
    assert_eq!(seen.len(), 14, "{seen:?}");
    assert_eq!(sorts.into_iter().collect::<Vec<_>>(), wanted::Sort::ALL);
}

#[test]
fn every_subset_once() {
    let lists: BTreeSet<Vec<u16>> = subsets(4).collect();
    assert_eq!((lists.len(), subsets(4).count()), (16, 16));
    assert!(
        lists
            .iter()
            .all(|list| list.iter().all(|&column| column < 4))
    );
    assert_eq!(subsets(0).collect::<Vec<_>>(), [vec![]]);
}
