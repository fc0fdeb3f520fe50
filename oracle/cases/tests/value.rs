//! Value lists: bytes and Rust values both ways, refusals as the generator
//! knows them and as the Rust gives them.

use cases::column::{ColumnType, to_rust_types};
use cases::generate::Expected;
use cases::generate::list::{List, Sort, any_list, list};
use cases::generate::schema::any_types;
use cases::generate::value::TYPES;
use cases::rng::Rng;
use cases::rust::{self, Outcome};
use cases::schema::write_schema;
use cases::value::{
    DATES, Outside, Record, TIMES, TIMESTAMPS, TextRange, ValueList, is_value, to_rust,
};
use cases::{LIMIT, Refusal};
use rookdb::types::value::{DataValue, NumericValue};
use std::collections::BTreeSet;

/// Lists of every sort for schemas at random.
fn generated() -> impl Iterator<Item = (Vec<ColumnType>, Sort, List)> {
    let mut rng = Rng::new(1);
    (0..3000).flat_map(move |_| {
        let types = any_types(&mut rng);
        let sort = rng.pick(&Sort::ALL);
        let list = list(&mut rng, &types, sort)?;
        Some((types, sort, list))
    })
}

/// 01's answer to a build, its refusals 11 and 12 by the Rust where it is asked.
fn answer(types: &[ColumnType], values: &ValueList) -> Result<Vec<u8>, Refusal> {
    let given = values.to_rust(types)?;
    let types = to_rust_types(types).unwrap();
    for (column, value) in given.values.iter().enumerate() {
        let alone = std::slice::from_ref(value);
        match rust::build(&types[column..=column], alone) {
            Outcome::Ok(_) => {}
            Outcome::Internal => return Err(Refusal::new(11, column)),
            Outcome::TypeMismatch => return Err(Refusal::new(12, column)),
            other => panic!("{other:?}"),
        }
    }
    if let Some(column) = given.outside {
        return Err(Refusal::new(12, column));
    }
    let row = rust::build(&types, &given.values).ok().expect("a row");
    if row.len() > LIMIT {
        return Err(Refusal::new(13, 0));
    }
    Ok(row)
}

#[test]
fn answers_as_made() {
    let mut sorts = BTreeSet::new();
    for (types, sort, list) in generated() {
        let answer = answer(&types, &list.values);
        match list.expected {
            Expected::Accepted => assert!(answer.is_ok(), "{types:?} {sort:?} {answer:?}"),
            Expected::Refused(refusal) => assert_eq!(answer, Err(refusal), "{types:?} {sort:?}"),
            Expected::Unknown => {}
        }
        if sort == Sort::RowAtLimit {
            assert_eq!(answer.unwrap().len(), LIMIT);
        }
        sorts.insert(sort);
    }
    assert_eq!(sorts.into_iter().collect::<Vec<_>>(), Sort::ALL);
}

/// The Rust refuses the whole list with the variant of the first bad column.
#[test]
fn the_rust_refuses_by_rising_column() {
    let mut outcomes = [0; 3];
    for (types, sort, list) in generated() {
        let Ok(given) = list.values.to_rust(&types) else {
            continue;
        };
        if given.outside.is_some() {
            continue;
        }
        let outcome = rust::build(&to_rust_types(&types).unwrap(), &given.values);
        match answer(&types, &list.values) {
            Err(Refusal { number: 11, .. }) => {
                assert_eq!(outcome, Outcome::Internal);
                outcomes[0] += 1;
            }
            Err(Refusal { number: 12, .. }) => {
                assert_eq!(outcome, Outcome::TypeMismatch);
                outcomes[1] += 1;
            }
            _ => {
                assert!(matches!(outcome, Outcome::Ok(_)), "{sort:?}");
                outcomes[2] += 1;
            }
        }
    }
    assert!(outcomes.iter().all(|&count| count > 20), "{outcomes:?}");
}

#[test]
fn lists_to_the_rust_and_back() {
    let mut count = 0;
    for (types, _, list) in generated() {
        if list.expected != Expected::Accepted {
            continue;
        }
        let given = list.values.to_rust(&types).unwrap();
        assert_eq!(given.outside, None);
        // Ranges may share bytes, so the texts end to end may be too long.
        let Some(back) = ValueList::of_rust(&given.values) else {
            continue;
        };
        assert_eq!(back.to_rust(&types), Ok(given.clone()));
        let records = list.values.records(types.len()).unwrap();
        for (record, value) in records.iter().zip(&given.values) {
            assert!(is_value(record, &list.values.text, value.as_ref()));
        }
        let again = ValueList::of_records(&records, list.values.text.clone());
        assert_eq!(again, list.values);
        count += 1;
    }
    assert!(count > 300, "{count}");
}

#[test]
fn is_value_tells_values_apart() {
    let text = b"\xFFabab";
    // The least Numeric is no value to be written, but it may be read.
    let (unscaled, scale) = (i128::MIN, 2);
    let least = Record::Numeric { unscaled, scale };
    let value = NumericValue { unscaled, scale };
    let range = |start, length| TextRange { start, length };
    let char = |s: &str| Some(DataValue::Char(s.to_string()));
    let varchar = |s: &str| Some(DataValue::Varchar(s.to_string()));
    let bit = |s: &str| Some(DataValue::Bit(s.to_string()));
    let examples = [
        (Record::Null, None, true),
        (Record::Null, char(""), false),
        (Record::Char(range(0, 0)), None, false),
        (Record::Char(range(1, 2)), char("ab"), true),
        (Record::Char(range(3, 2)), char("ab"), true),
        (Record::Char(range(3, 2)), varchar("ab"), false),
        (Record::Varchar(range(1, 2)), varchar("ab"), true),
        (Record::Varchar(range(2, 2)), varchar("ab"), false),
        (Record::Varchar(range(5, 0)), varchar(""), true),
        (Record::Varchar(range(5, 1)), varchar(""), false),
        (Record::Bit(range(0, 1)), bit("1"), true),
        (Record::Bit(range(0, 1)), bit("0"), false),
        (Record::Bit(range(0, 2)), bit("111111110"), true),
        (Record::Bit(range(0, 1)), bit("111111110"), false),
        (Record::Int(5), Some(DataValue::Int(5)), true),
        (Record::Int(5), Some(DataValue::Int(6)), false),
        (Record::Date(5), Some(DataValue::Int(5)), false),
        (least, Some(DataValue::numeric(value.clone())), true),
        (least, Some(DataValue::Int(0)), false),
    ];
    for (record, value, same) in examples {
        assert_eq!(
            is_value(&record, text, value.as_ref()),
            same,
            "{record:?} {value:?}"
        );
    }
}

#[test]
fn record_bytes() {
    let range = TextRange {
        start: 0x0102,
        length: 0x0304,
    };
    let wide = TextRange {
        start: 0x0102_0304,
        length: 0x0506_0708,
    };
    let examples: [(Record, &[u8]); 17] = [
        (Record::Null, &[0]),
        (Record::SmallInt(-2), &[1, 0xFE, 0xFF]),
        (Record::Int(1), &[2, 1, 0, 0, 0]),
        (
            Record::BigInt(-1),
            &[3, 255, 255, 255, 255, 255, 255, 255, 255],
        ),
        (Record::Real(0x7FC0_0001), &[4, 1, 0, 0xC0, 0x7F]),
        (Record::DoublePrecision(2), &[5, 2, 0, 0, 0, 0, 0, 0, 0]),
        (
            Record::Numeric {
                unscaled: -2,
                scale: 7,
            },
            &[
                6, 0xFE, 255, 255, 255, 255, 255, 255, 255, 255, 255, 255, 255, 255, 255, 255, 255,
                7,
            ],
        ),
        (Record::Bool(2), &[7, 2]),
        (Record::Char(range), &[8, 2, 1, 4, 3]),
        (Record::Varchar(range), &[9, 2, 1, 4, 3]),
        (Record::Date(-1), &[10, 255, 255, 255, 255]),
        (Record::Time(3), &[11, 3, 0, 0, 0, 0, 0, 0, 0]),
        (Record::Bit(range), &[12, 2, 1, 4, 3]),
        (Record::Timestamp(4), &[13, 4, 0, 0, 0, 0, 0, 0, 0]),
        (Record::Char(wide), &[17, 4, 3, 2, 1, 8, 7, 6, 5]),
        (Record::Varchar(wide), &[18, 4, 3, 2, 1, 8, 7, 6, 5]),
        (Record::Bit(wide), &[19, 4, 3, 2, 1, 8, 7, 6, 5]),
    ];
    for (record, bytes) in examples {
        let values = ValueList::of_records(&[record], vec![]);
        assert_eq!(values.bytes, bytes);
        assert_eq!(values.records(1), Ok(vec![record]));
        for cut in 1..bytes.len() {
            let values = ValueList {
                bytes: [&[0, 0], &bytes[..cut]].concat(),
                text: vec![],
            };
            assert_eq!(values.records(3), Err(Refusal::new(10, 2)));
        }
    }
}

/// A range is never cut to the two bytes of its record: past them it has four, and past
/// those it is not written.
#[test]
fn a_range_is_not_cut() {
    let write = |start, length| {
        let record = Record::Varchar(TextRange { start, length });
        rust::guarded(|| ValueList::of_records(&[record], vec![]).bytes)
    };
    assert_eq!(write(65_535, 65_535), Ok(vec![9, 255, 255, 255, 255]));
    assert_eq!(write(65_536, 0), Ok(vec![18, 0, 0, 1, 0, 0, 0, 0, 0]));
    assert_eq!(write(0, 65_536), Ok(vec![18, 0, 0, 0, 0, 0, 0, 1, 0]));
    assert!(write(1 << 32, 0).is_err() && write(0, 1 << 32).is_err());
}

#[test]
fn refusals_10() {
    let refusal = |bytes: &[u8], count, text| {
        let text = vec![b' '; text];
        let bytes = bytes.to_vec();
        ValueList { bytes, text }
            .records(count)
            .map_err(|r| r.place)
    };
    assert_eq!(refusal(&[0, 7, 1], 2, LIMIT).unwrap().len(), 2);
    assert_eq!(refusal(&[0, 14], 1, 0), Err(1));
    assert_eq!(refusal(&[0, 255, 7], 2, 0), Err(1));
    // A bad record beyond the needed count still decides; a cut one is no record.
    assert_eq!(refusal(&[0, 0, 7], 1, 0), Err(2));
    assert_eq!(refusal(&[0, 0, 7], 3, 0), Err(2));
    assert_eq!(refusal(&[0, 0], 1, 0), Err(2));
    assert_eq!(refusal(&[0, 0], 3, 0), Err(2));
    assert_eq!(refusal(&[], 1, 0), Err(0));
    // The text area is judged last, also where no record is text.
    assert_eq!(refusal(&[0], 2, LIMIT + 1), Err(1));
    assert_eq!(refusal(&[0], 1, LIMIT + 1), Err(0));
    assert_eq!(refusal(&[], 0, LIMIT + 1), Err(0));
}

#[test]
fn outside_the_domain() {
    let text = b"\xC3\xA9\xC3x";
    let range = |start, length| TextRange { start, length };
    let numeric = |unscaled| Record::Numeric { unscaled, scale: 2 };
    let nine = &TYPES[5];
    let outside = [
        (&ColumnType::Bool, Record::Bool(2)),
        (&ColumnType::Date, Record::Date(DATES.start() - 1)),
        (&ColumnType::Date, Record::Date(DATES.end() + 1)),
        (&ColumnType::Time, Record::Time(-1)),
        (&ColumnType::Time, Record::Time(TIMES.end() + 1)),
        (
            &ColumnType::Timestamp,
            Record::Timestamp(TIMESTAMPS.start() - 1),
        ),
        (
            &ColumnType::Timestamp,
            Record::Timestamp(TIMESTAMPS.end() + 1),
        ),
        (&ColumnType::Timestamp, Record::Timestamp(i64::MIN)),
        (&ColumnType::Varchar(9), Record::Varchar(range(2, 2))),
        (&ColumnType::Varchar(9), Record::Varchar(range(1, 1))),
        (&ColumnType::Char(9), Record::Char(range(3, 2))),
        (&ColumnType::Char(9), Record::Char(range(5, 0))),
        (&ColumnType::Bit(8), Record::Bit(range(0, 2))),
        (&ColumnType::Bit(9), Record::Bit(range(0, 1))),
        (&ColumnType::Bit(9), Record::Bit(range(3, 2))),
        (nine, numeric(i128::MIN)),
    ];
    for (ty, record) in outside {
        assert_eq!(to_rust(ty, &record, text), Err(Outside), "{record:?}");
        // In a column of another type the kind is refused first.
        let int = to_rust(&ColumnType::Int, &record, text).unwrap().unwrap();
        let types = to_rust_types(&[ColumnType::Int]).unwrap();
        let fresh = rust::fresh(&types).ok().unwrap();
        let set = rust::set(&types, &fresh, 0, &int);
        assert_eq!(set, Outcome::Internal);
    }
    let inside = [
        (
            &ColumnType::Date,
            Record::Date(*DATES.start()),
            "0001-01-01",
        ),
        (&ColumnType::Date, Record::Date(*DATES.end()), "9999-12-31"),
        (&ColumnType::Date, Record::Date(0), "1970-01-01"),
        (&ColumnType::Time, Record::Time(0), "00:00:00.000000"),
        (
            &ColumnType::Time,
            Record::Time(*TIMES.end()),
            "23:59:59.999999",
        ),
        (
            &ColumnType::Timestamp,
            Record::Timestamp(*TIMESTAMPS.start()),
            "0001-01-01 00:00:00.000000",
        ),
        (
            &ColumnType::Timestamp,
            Record::Timestamp(*TIMESTAMPS.end()),
            "9999-12-31 23:59:59.999999",
        ),
        (
            &ColumnType::Timestamp,
            Record::Timestamp(-1),
            "1969-12-31 23:59:59.999999",
        ),
        (&ColumnType::Varchar(1), Record::Varchar(range(0, 2)), "'é'"),
        (&ColumnType::Varchar(1), Record::Varchar(range(4, 0)), "''"),
        (
            &ColumnType::Bit(9),
            Record::Bit(range(1, 2)),
            "B'101010011'",
        ),
        (&ColumnType::Bit(0), Record::Bit(range(1, 0)), "B''"),
        (&ColumnType::Bool, Record::Bool(1), "true"),
        (nine, numeric(-1234), "-12.34"),
    ];
    for (ty, record, shown) in inside {
        let value = to_rust(ty, &record, text).unwrap().unwrap();
        assert_eq!(value.to_string(), shown);
        assert!(is_value(&record, text, Some(&value)));
    }
}

/// Whether a record's kind matches a type, for all pairs as the Rust says.
#[test]
fn kinds_match_as_in_the_rust() {
    let kinds: Vec<u8> = TYPES.map(|ty| write_schema(&[ty])[0]).to_vec();
    assert_eq!(kinds, (1..=15).collect::<Vec<_>>());
    for ty in &TYPES {
        let types = [ty.to_rust().unwrap()];
        let fresh = rust::fresh(&types).ok().unwrap();
        for other in &TYPES {
            let list = list(&mut Rng::new(1), std::slice::from_ref(other), Sort::Values);
            let values = list.unwrap().values;
            let record = values.records(1).unwrap()[0];
            let value = to_rust(other, &record, &values.text).unwrap().unwrap();
            let refused = rust::set(&types, &fresh, 0, &value) == Outcome::Internal;
            assert_eq!(record.matches(ty), !refused, "{record:?} in {ty:?}");
        }
    }
}

#[test]
fn random_lists_are_of_every_sort() {
    let mut rng = Rng::new(3);
    let types = [
        ColumnType::Varchar(65_535),
        ColumnType::Bool,
        ColumnType::Varchar(9),
    ];
    let mut sorts = BTreeSet::new();
    let mut random = BTreeSet::new();
    for _ in 0..3000 {
        let (sort, list) = any_list(&mut rng, &types);
        sorts.insert(sort);
        if sort == Sort::Random {
            random.insert(list.values.records(3).is_ok());
        }
    }
    assert_eq!(sorts.into_iter().collect::<Vec<_>>(), Sort::ALL);
    assert!(random.contains(&false));
}
