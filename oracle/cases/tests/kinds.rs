//! Columns that the Rust does not know: what is made of them, how often, and that rows
//! laid out without the Rust are the Rust's where it knows all columns.

use cases::column::{ColumnType, RustColumns, to_rust_types};
use cases::generate::Expected;
use cases::generate::kinds::Kinds;
use cases::generate::list::{self, list};
use cases::generate::row::{any_row, sound_row};
use cases::generate::schema::{Sort, any_schema, any_types, schema};
use cases::generate::value::points;
use cases::generate::{history, made, pair};
use cases::history::Call;
use cases::layout::Layout;
use cases::rng::Rng;
use cases::schema::{read_schema, write_schema};
use cases::value::{Record, ValueList};
use cases::{LIMIT, RowSort, laid_out};
use std::collections::{BTreeMap, BTreeSet};

fn is_chars(ty: &ColumnType) -> bool {
    matches!(ty, ColumnType::VarcharChars(_))
}

/// Columns with one or more that count characters.
fn chars_types(rng: &mut Rng) -> Vec<ColumnType> {
    loop {
        let types = any_types(rng);
        let types = Kinds::All.types(rng, types);
        if types.iter().any(is_chars) {
            return types;
        }
    }
}

#[test]
fn one_schema_in_five() {
    let mut rng = Rng::new(1);
    let (mut some, mut alone, mut mixed) = (0, 0, 0);
    for _ in 0..10_000 {
        let types = any_types(&mut rng);
        let types = Kinds::All.types(&mut rng, types);
        let chars = types.iter().any(is_chars);
        let bytes = types.iter().any(|ty| matches!(ty, ColumnType::Varchar(_)));
        some += usize::from(chars);
        alone += usize::from(chars && !bytes);
        mixed += usize::from(chars && bytes);
        assert_eq!(to_rust_types(&types).is_none(), chars);
    }
    println!("{some} of 10,000, {alone} without kind 11, {mixed} with both");
    assert!((1_500..=3_000).contains(&some), "{some}");
    assert!(alone > 300 && mixed > 300, "{alone} {mixed}");
}

/// No choice is made, so what is recorded of the Rust stays.
#[test]
fn of_the_rust_nothing_changes() {
    let (mut rng, mut other) = (Rng::new(2), Rng::new(2));
    for _ in 0..300 {
        let (types, again) = (any_types(&mut rng), any_types(&mut other));
        assert_eq!(Kinds::OfRust.types(&mut rng, types), again);
        let (schema, again) = (any_schema(&mut rng).1, any_schema(&mut other).1);
        assert_eq!(Kinds::OfRust.schema(&mut rng, schema), again);
        let column = ColumnType::Varchar(3);
        assert_eq!(Kinds::OfRust.column(&mut rng, column.clone()), column);
        assert_eq!(rng.next_u64(), other.next_u64());
    }
}

/// What is expected of a schema holds with the kinds changed too.
#[test]
fn schemas_are_told_as_before() {
    let mut rng = Rng::new(3);
    let mut changed = BTreeSet::new();
    for sort in Sort::ALL.into_iter().flat_map(|sort| [sort; 400]) {
        let before = schema(&mut rng, sort);
        let after = Kinds::All.schema(&mut rng, before.clone());
        assert_eq!(after.bytes.len(), before.bytes.len());
        let (read, own) = (read_schema(&after.bytes), read_schema(&before.bytes));
        assert_eq!(read.clone().err(), own.err());
        if let Expected::Refused(refusal) = after.expected {
            assert_eq!(read, Err(refusal));
            let cut_off = after.bytes.get(refusal.place) == Some(&16);
            changed.insert((sort, cut_off && after != before));
        }
        if let Ok(types) = read {
            let [packed, padded] = [Layout::packed(&types), Layout::padded(&types)];
            let types = read_schema(&before.bytes).unwrap();
            assert_eq!(
                [packed, padded],
                [Layout::packed(&types), Layout::padded(&types)]
            );
        }
    }
    assert!(changed.contains(&(Sort::Cut, true)), "{changed:?}");
}

#[test]
fn laid_out_as_by_the_rust() {
    let mut rng = Rng::new(4);
    let mut edits = 0;
    for _ in 0..2000 {
        let types = any_types(&mut rng);
        assert!(RustColumns::of(&types).is_some());
        assert_eq!(laid_out::fresh(&types, RowSort::Short), made::fresh(&types));
        for sort in [list::Sort::Good, list::Sort::Values, list::Sort::RowAtLimit] {
            if let Some(list) = list(&mut rng, &types, sort) {
                let row = laid_out::built(&types, RowSort::Short, &list.values);
                assert_eq!(row, made::built(&types, &list.values), "{types:?}");
            }
        }
        let mut row = sound_row(&mut rng, &types);
        for _ in 0..6.min(types.len()) {
            let column = rng.below(types.len());
            let own = &types[column..=column];
            let list = list(&mut rng, own, list::Sort::Good).unwrap().values;
            let edit = laid_out::edited(&types, &row, column, &list);
            assert_eq!(edit, made::edited(&types, &row, column, &list), "{types:?}");
            if edit.len() <= LIMIT {
                edits += usize::from(edit != row);
                row = edit;
            }
        }
    }
    assert!(edits > 3000, "{edits}");
}

/// How the texts of columns that count characters stand to n.
fn labels(types: &[ColumnType], list: &ValueList, seen: &mut BTreeMap<String, usize>) {
    let Ok(records) = list.records(types.len()) else {
        return;
    };
    for (ty, record) in types.iter().zip(records) {
        let (ColumnType::VarcharChars(n), Record::Varchar(range)) = (ty, record) else {
            continue;
        };
        let n = usize::from(*n);
        let mut see = |label: &str| *seen.entry(label.to_string()).or_default() += 1;
        let Some(bytes) = range.of(&list.text) else {
            see("outside");
            continue;
        };
        let Some(points) = points(bytes) else {
            let more = if bytes.len() > n { "more" } else { "at most n" };
            see(&format!("invalid, {more} bytes"));
            continue;
        };
        let text = std::str::from_utf8(bytes).unwrap();
        let width = text.chars().map(char::len_utf8).max().unwrap_or(0);
        for (label, is) in [
            ("n - 1", points + 1 == n),
            ("n", points == n),
            ("n + 1", points == n + 1),
            ("more than n + 1", points > n + 1),
        ] {
            if is {
                see(&format!("{label} characters"));
                see(&format!("{label} characters, widest {width}"));
            }
        }
        if points <= n && bytes.len() > n {
            see("more bytes than n");
        }
        match n {
            0 => see("n of 0"),
            65_535 => see("n of 65,535"),
            _ => {}
        }
    }
}

const WANTED: [&str; 18] = [
    "invalid, more bytes",
    "invalid, at most n bytes",
    "outside",
    "n of 0",
    "n of 65,535",
    "more bytes than n",
    "n - 1 characters, widest 1",
    "n - 1 characters, widest 2",
    "n - 1 characters, widest 3",
    "n - 1 characters, widest 4",
    "n characters, widest 1",
    "n characters, widest 2",
    "n characters, widest 3",
    "n characters, widest 4",
    "n + 1 characters, widest 1",
    "n + 1 characters, widest 2",
    "n + 1 characters, widest 4",
    "more than n + 1 characters",
];

#[test]
fn texts_at_every_end() {
    let mut rng = Rng::new(5);
    let (mut lists, mut sets) = (BTreeMap::new(), BTreeMap::new());
    for _ in 0..3000 {
        let types = chars_types(&mut rng);
        let (_, list) = list::any_list(&mut rng, &types);
        labels(&types, &list.values, &mut lists);
        for call in history::history(&mut rng, &types, 8) {
            if let Call::Set { column, values } = call
                && let Some(ty) = types.get(column)
            {
                labels(std::slice::from_ref(ty), &values, &mut sets);
            }
        }
    }
    for seen in [lists, sets] {
        for label in WANTED {
            assert!(seen.contains_key(label), "{label}: {seen:?}");
        }
    }
}

/// Lists of every sort, rows and pairs are made for such columns.
#[test]
fn everything_is_made() {
    let mut rng = Rng::new(6);
    let mut lists = BTreeSet::new();
    let (mut at_limit, mut dense) = (0, 0);
    for _ in 0..1500 {
        let types = chars_types(&mut rng);
        for sort in list::Sort::ALL {
            if let Some(list) = list(&mut rng, &types, sort) {
                lists.insert(sort);
                if sort == list::Sort::RowAtLimit {
                    assert_eq!(made::built(&types, &list.values).len(), LIMIT);
                    at_limit += 1;
                    dense += usize::from(list.values.text.contains(&0xF4));
                }
            }
        }
        any_row(&mut rng, &types);
        pair::any_pair(&mut rng, &types);
        assert_eq!(read_schema(&write_schema(&types)), Ok(types));
    }
    assert_eq!(lists.into_iter().collect::<Vec<_>>(), list::Sort::ALL);
    assert!(at_limit > 100 && dense > 20, "{at_limit} {dense}");
}
