//! Schema bytes: the reader against hand-made examples and against what the
//! generator knows of each schema; the layout against the Rust's; what the
//! generator reaches.

use cases::column::{ColumnType, of_rust_types, to_rust_types};
use cases::generate::Expected;
use cases::generate::schema::{Sort, any_schema, any_types, schema};
use cases::layout::{Layout, Place};
use cases::rng::Rng;
use cases::schema::{read_records, read_schema, write_schema};
use cases::{LIMIT, MAX_COLUMNS, Refusal};
use rookdb::types::row_layout::{PhysicalSchema, RowLayout};
use std::collections::BTreeSet;

/// Schemas of each sort.
fn generated() -> impl Iterator<Item = (Sort, Vec<u8>, Expected)> {
    let mut rng = Rng::new(1);
    Sort::ALL
        .into_iter()
        .flat_map(|sort| [sort; 600])
        .map(move |sort| {
            let schema = schema(&mut rng, sort);
            (sort, schema.bytes, schema.expected)
        })
}

#[test]
fn read_as_made() {
    for (sort, bytes, expected) in generated() {
        let read = read_schema(&bytes);
        match expected {
            Expected::Refused(refusal) => assert_eq!(read, Err(refusal), "{sort:?} {bytes:02X?}"),
            Expected::Accepted => assert_eq!(write_schema(&read.unwrap()), bytes, "{sort:?}"),
            Expected::Unknown => {
                if let Ok(types) = read {
                    assert_eq!(write_schema(&types), bytes);
                }
            }
        }
    }
}

#[test]
fn every_type_both_ways() {
    let examples: [(ColumnType, &[u8]); 16] = [
        (ColumnType::SmallInt, &[1]),
        (ColumnType::Int, &[2]),
        (ColumnType::BigInt, &[3]),
        (ColumnType::Real, &[4]),
        (ColumnType::DoublePrecision, &[5]),
        (
            ColumnType::Numeric {
                precision: 38,
                scale: 38,
            },
            &[6, 38, 38],
        ),
        (
            ColumnType::Decimal {
                precision: 1,
                scale: 0,
            },
            &[7, 1, 0],
        ),
        (ColumnType::Bool, &[8]),
        (ColumnType::Char(0), &[9, 0, 0]),
        (ColumnType::Character(1), &[10, 1, 0]),
        (ColumnType::Varchar(65_535), &[11, 255, 255]),
        (ColumnType::Date, &[12]),
        (ColumnType::Time, &[13]),
        (ColumnType::Bit(258), &[14, 2, 1]),
        (ColumnType::Timestamp, &[15]),
        (ColumnType::VarcharChars(515), &[16, 3, 2]),
    ];
    for (ty, bytes) in examples {
        assert_eq!(write_schema(std::slice::from_ref(&ty)), bytes);
        assert_eq!(read_schema(bytes), Ok(vec![ty]));
    }
}

#[test]
fn refusals() {
    let bools = |count: usize, then: &[u8]| [&vec![8; count][..], then].concat();
    let examples: [(&[u8], u32, usize); 25] = [
        (&[0], 1, 0),
        (&[17], 1, 0),
        (&[255], 1, 0),
        // Cut off, even if the body begins badly.
        (&[6], 1, 0),
        (&[6, 0], 1, 0),
        (&[6, 39], 1, 0),
        (&[7, 1], 1, 0),
        (&[2, 9, 1], 1, 1),
        (&[2, 10, 1], 1, 1),
        (&[2, 11, 1], 1, 1),
        (&[2, 14], 1, 1),
        (&[16], 1, 0),
        (&[2, 16, 5], 1, 1),
        // Precision and scale.
        (&[6, 0, 0], 2, 0),
        (&[7, 39, 0], 2, 0),
        (&[1, 6, 38, 39], 2, 1),
        (&[1, 7, 5, 6], 2, 1),
        // The first bad record decides.
        (&[1, 6, 0, 0, 99], 2, 1),
        (&[1, 99, 6, 0, 0], 1, 1),
        // The 257th record, whatever it is.
        (&bools(256, &[8]), 2, 256),
        (&bools(256, &[99]), 2, 256),
        (&bools(256, &[6]), 2, 256),
        (&bools(255, &[99, 8]), 1, 255),
        // The padded minimum, after all records: 4 + 1 + 65,531.
        (&[9, 0xFB, 0xFF], 2, 3),
        (&[9, 255, 255, 9, 255, 255, 0], 1, 6),
    ];
    for (bytes, number, place) in examples {
        assert_eq!(
            read_schema(bytes),
            Err(Refusal::new(number, place)),
            "{bytes:?}"
        );
    }
    assert_eq!(read_schema(&[]), Ok(vec![]));
    assert_eq!(read_schema(&bools(256, &[])).unwrap().len(), MAX_COLUMNS);
    // A minimum of 65,535, and one above that the padding alone makes.
    assert!(read_schema(&[9, 0xFA, 0xFF]).is_ok());
    assert!(read_schema(&[8, 3, 9, 0xEA, 0xFF]).is_ok());
    assert_eq!(read_schema(&[8, 3, 9, 0xEB, 0xFF]), Err(Refusal::new(2, 5)));
}

#[test]
fn types_are_the_rusts() {
    let mut rng = Rng::new(4);
    for _ in 0..3000 {
        let types = any_types(&mut rng);
        let rust = to_rust_types(&types).unwrap();
        assert_eq!(of_rust_types(&rust), types);
        for (ty, rust) in types.iter().zip(&rust) {
            assert_eq!(ty.fixed_size(), rust.fixed_size().map(|size| size as usize));
            assert_eq!(ty.alignment(), rust.alignment() as usize);
            assert_eq!(ty.is_variable_length(), rust.is_variable_length());
        }
    }
}

#[test]
fn layout_is_the_rusts() {
    let mut rng = Rng::new(2);
    let mut padding = 0;
    for _ in 0..3000 {
        let types = any_types(&mut rng);
        let rust = to_rust_types(&types).unwrap();
        let physical = PhysicalSchema::from_logical(&rust);
        let packed = Layout::packed(&types);
        let padded = Layout::padded(&types);
        check_layout(&packed, &physical, &RowLayout::compute(&physical));
        check_layout(&padded, &physical, &RowLayout::compute_padded(&physical));
        padding += usize::from(packed != padded);
    }
    assert!(padding > 500, "{padding}");
}

fn check_layout(ours: &Layout, physical: &PhysicalSchema, theirs: &RowLayout) {
    assert_eq!(ours.minimum, theirs.min_row_size());
    assert_eq!(ours.table, theirs.varlen_table_offset());
    assert_eq!(ours.varchars, theirs.num_varlen_cols);
    for (column, place) in ours.places.iter().enumerate() {
        let at = physical.logical_to_physical[column];
        match *place {
            Place::Fixed { start, size } => {
                let ty = &physical.physical_types[at];
                assert_eq!(
                    start,
                    theirs.fixed_data_start + theirs.fixed_col_offsets[at]
                );
                assert_eq!(Some(size as u32), ty.fixed_size());
            }
            Place::Varchar { rank } => assert_eq!(rank, at - physical.num_fixed()),
        }
    }
}

/// The lengths of a type with n, by name.
fn length(ty: &ColumnType) -> Option<(&'static str, u16)> {
    match *ty {
        ColumnType::Char(n) => Some(("Char", n)),
        ColumnType::Character(n) => Some(("Character", n)),
        ColumnType::Varchar(n) => Some(("Varchar", n)),
        ColumnType::Bit(n) => Some(("Bit", n)),
        _ => None,
    }
}

#[test]
fn every_type_and_size_is_generated() {
    let mut kinds = BTreeSet::new();
    let mut lengths = BTreeSet::new();
    let mut numerics = BTreeSet::new();
    let mut columns = BTreeSet::new();
    let mut minima = BTreeSet::new();
    for (_, bytes, expected) in generated() {
        let Ok(types) = read_schema(&bytes) else {
            continue;
        };
        assert!(!matches!(expected, Expected::Refused(_)));
        columns.insert(types.len());
        minima.insert(Layout::padded(&types).minimum);
        for ty in &types {
            kinds.insert(write_schema(std::slice::from_ref(ty))[0]);
            lengths.extend(length(ty));
            if let ColumnType::Numeric { precision, scale } = *ty {
                numerics.insert((6, precision, scale));
            } else if let ColumnType::Decimal { precision, scale } = *ty {
                numerics.insert((7, precision, scale));
            }
        }
    }
    assert!((1..=15).all(|kind| kinds.contains(&kind)));
    for name in ["Char", "Character", "Varchar", "Bit"] {
        let seen = |n| lengths.contains(&(name, n));
        assert!([0, 1, 7, 8, 9].into_iter().all(seen), "{name}");
        assert!((10..=40).filter(|&n| seen(n)).count() > 20, "{name}");
        assert!((60_000..=65_535).any(seen), "{name}");
    }
    assert!(lengths.contains(&("Varchar", 65_535)) && lengths.contains(&("Bit", 65_535)));
    for kind in [6, 7] {
        for precision in 1..=38 {
            let seen = |scale| numerics.contains(&(kind, precision, scale));
            assert!(seen(0) && seen(precision), "{kind} {precision}");
        }
    }
    for count in [0, 1, 2, 3, 8, 9, 64, 255, 256] {
        assert!(columns.contains(&count), "{count} columns");
    }
    assert!(minima.contains(&LIMIT) && *minima.last().unwrap() == LIMIT);
}

#[test]
fn every_fault_is_generated() {
    let mut seen = BTreeSet::new();
    for (sort, bytes, expected) in generated() {
        let Expected::Refused(Refusal { number, place }) = expected else {
            continue;
        };
        seen.insert(format!("{sort:?}"));
        let before = read_records(&bytes[..place]).unwrap();
        let packed = Layout::packed(&before).minimum;
        let padded = Layout::padded(&before).minimum;
        if let Some(kind) = bytes.get(place) {
            let rest = bytes.len() - place;
            let known = if (1..=16).contains(kind) {
                "known"
            } else {
                "unknown"
            };
            seen.insert(format!("{sort:?} at column {}", before.len()));
            seen.insert(format!("{sort:?}, {rest} bytes left"));
            seen.insert(format!("{sort:?}, kind {known}"));
            seen.insert(format!("{sort:?} of kind {kind}"));
            seen.insert(format!("{sort:?}, minimum above: {}", padded > LIMIT));
        } else {
            // No bad record: the minimum is above the limit.
            assert_eq!((number, place), (2, bytes.len()));
            seen.insert(format!("{sort:?}, padded {}", padded.min(LIMIT + 10)));
            seen.insert(format!("{sort:?}, packed above: {}", packed > LIMIT));
        }
    }
    let wanted = [
        "UnknownKind at column 0",
        "UnknownKind at column 255",
        "UnknownKind of kind 0",
        "UnknownKind of kind 17",
        "UnknownKind of kind 255",
        "UnknownKind, minimum above: true",
        "Cut at column 0",
        "Cut at column 255",
        "Cut, 1 bytes left",
        "Cut, 2 bytes left",
        "Cut of kind 6",
        "Cut of kind 7",
        "Cut of kind 9",
        "Cut of kind 10",
        "Cut of kind 11",
        "Cut of kind 14",
        "Cut, minimum above: true",
        "Precision at column 0",
        "Precision at column 255",
        "Precision of kind 6",
        "Precision of kind 7",
        "Precision, minimum above: true",
        "Scale at column 0",
        "Scale at column 255",
        "Scale of kind 6",
        "Scale of kind 7",
        "Column257 at column 256",
        "Column257, kind known",
        "Column257, kind unknown",
        "Column257, 1 bytes left",
        "Column257, minimum above: true",
        "OneAbove, padded 65536",
        "AboveByPadding, padded 65536",
        "AboveByPadding, padded 65542",
        "AboveByPadding, packed above: false",
        "FarAbove, packed above: true",
    ];
    for label in wanted {
        assert!(seen.contains(label), "{label}");
    }
    assert!(!seen.contains("AboveByPadding, packed above: true"));
}

#[test]
fn random_schemas_are_of_every_sort() {
    let mut rng = Rng::new(3);
    let mut sorts = BTreeSet::new();
    let mut random = BTreeSet::new();
    for _ in 0..3000 {
        let (sort, schema) = any_schema(&mut rng);
        sorts.insert(sort);
        if sort == Sort::Random {
            random.insert(read_schema(&schema.bytes).map_or_else(|refusal| refusal.number, |_| 0));
        }
    }
    assert_eq!(sorts.into_iter().collect::<Vec<_>>(), Sort::ALL);
    assert_eq!(random.into_iter().collect::<Vec<_>>(), [0, 1, 2]);
}
