//! Row lists: those that must print do, by the Rust; the others reach each refusal,
//! and the limits are met from both sides.

use cases::expected::Refusal;
use cases::generate::row_list::{MAX_BYTES, MAX_ROWS, Sort, any_list, list};
use cases::printed::printed;
use cases::rng::Rng;
use std::collections::BTreeMap;

/// What lists of a sort come to, and how many of them: the refusal, or none.
fn outcomes(sort: Sort, count: usize) -> BTreeMap<String, usize> {
    let mut rng = Rng::new(1);
    let mut outcomes = BTreeMap::new();
    for _ in 0..count {
        let told = match printed(&list(&mut rng, sort)) {
            Ok(_) => "printed".to_string(),
            Err(Refusal::Internal) => "3, 5 or 6".to_string(),
            Err(Refusal::Number(number, place)) => format!("{number} {place}"),
        };
        *outcomes.entry(told).or_default() += 1;
    }
    outcomes
}

#[test]
fn good_lists_print() {
    for sort in Sort::PRINTED {
        assert_eq!(
            outcomes(sort, 500).into_keys().collect::<Vec<_>>(),
            ["printed"],
            "{sort:?}"
        );
    }
}

#[test]
fn refusals_are_reached() {
    let reached = |sort, wanted: &[&str]| {
        let outcomes = outcomes(sort, 4000);
        for told in wanted {
            assert!(outcomes.contains_key(*told), "{sort:?}: {outcomes:?}");
        }
    };
    reached(Sort::Marks, &["17 0", "17 1", "8 3", "printed"]);
    reached(
        Sort::Damaged,
        &[
            "3, 5 or 6",
            "7 0",
            "7 1",
            "8 0",
            "8 1",
            "8 2",
            "8 3",
            "17 0",
            "17 1",
            "printed",
        ],
    );
    assert_eq!(outcomes(Sort::ShortRow, 200).len(), 1);
    reached(Sort::ShortRow, &["3, 5 or 6"]);
    reached(Sort::Cut, &["16 0", "printed"]);
    reached(Sort::LoneByte, &["16 0"]);
    reached(Sort::Length, &["16 0", "8 0", "8 1", "printed"]);
    reached(Sort::Random, &["16 0"]);
}

#[test]
fn limits_are_met_from_both_sides() {
    let mut rng = Rng::new(2);
    let rows = |list: &[u8]| {
        let mut count = 0;
        let mut rest = list;
        while let Some((length, behind)) = rest.split_first_chunk() {
            rest = &behind[usize::from(u16::from_le_bytes(*length))..];
            count += 1;
        }
        count
    };
    let mut counts = BTreeMap::new();
    let mut lengths = BTreeMap::new();
    for _ in 0..60 {
        let by_rows = list(&mut rng, Sort::RowLimit);
        let told = printed(&by_rows).is_ok();
        let within = rows(&by_rows) <= MAX_ROWS && by_rows.len() <= MAX_BYTES;
        assert_eq!(told, within);
        counts.insert(rows(&by_rows), ());
        let by_bytes = list(&mut rng, Sort::ByteLimit);
        let refused = printed(&by_bytes) == Err(Refusal::Number(16, 0));
        assert_eq!(
            refused,
            by_bytes.len() > MAX_BYTES || rows(&by_bytes) > MAX_ROWS
        );
        lengths.insert(by_bytes.len(), ());
    }
    assert_eq!(
        counts.into_keys().collect::<Vec<_>>(),
        [MAX_ROWS - 1, MAX_ROWS, MAX_ROWS + 1]
    );
    assert_eq!(
        lengths.into_keys().collect::<Vec<_>>(),
        [MAX_BYTES - 1, MAX_BYTES, MAX_BYTES + 1]
    );
}

/// Lists in which equal rows, and equal seconds of other microseconds, stand in
/// another order than the lines.
#[test]
fn the_order_is_tried() {
    let mut rng = Rng::new(3);
    let mut moved = 0;
    for _ in 0..300 {
        let sorted = printed(&list(&mut rng, Sort::SameSecond)).expect("a good list");
        let mut lines: Vec<&str> = sorted.lines().collect();
        lines.sort_unstable();
        moved += usize::from(lines != sorted.lines().collect::<Vec<_>>());
    }
    assert!(moved > 100, "{moved}");
}

#[test]
fn every_sort_is_made() {
    let mut rng = Rng::new(4);
    let mut seen = BTreeMap::new();
    for _ in 0..3000 {
        *seen.entry(any_list(&mut rng).0).or_insert(0) += 1;
    }
    assert_eq!(seen.len(), Sort::ALL.len(), "{seen:?}");
}
