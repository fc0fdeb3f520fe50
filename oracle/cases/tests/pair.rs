//! Pairs of rows: twins have one content in other bytes, near ones mostly not,
//! and each type is met as both.

use cases::column::RustColumns;
use cases::expected::same_content;
use cases::generate::pair::{Sort, any_pair, pair};
use cases::generate::schema::{any_type, any_types};
use cases::rng::Rng;
use std::collections::{BTreeMap, BTreeSet};

#[test]
fn twins_have_one_content() {
    let mut rng = Rng::new(1);
    let mut other_bytes = 0;
    for _ in 0..4000 {
        let types = any_types(&mut rng);
        let columns = RustColumns::of(&types).unwrap();
        for sort in [Sort::Twins, Sort::Padded] {
            if let Some((a, b)) = pair(&mut rng, &types, sort) {
                assert_eq!(
                    same_content(&columns, &a, &b),
                    Ok(true),
                    "{types:?}\n{a:X?}\n{b:X?}"
                );
                other_bytes += usize::from(a != b);
            }
        }
    }
    assert!(other_bytes > 4000, "{other_bytes}");
}

/// For every kind of fixed column, rows that differ in its slot alone: near
/// pairs of the same and of another content, where the kind has both.
#[test]
fn near_pairs_are_of_both_contents() {
    let mut rng = Rng::new(2);
    let mut met: BTreeMap<String, BTreeSet<bool>> = BTreeMap::new();
    for _ in 0..40_000 {
        let types = [any_type(&mut rng, 8)];
        let name = format!("{:?}", types[0]);
        let name = name.split(['(', ' ']).next().unwrap().to_string();
        if let Some((a, b)) = pair(&mut rng, &types, Sort::Near)
            && let Ok(same) = same_content(&RustColumns::of(&types).unwrap(), &a, &b)
            && a[5..] != b[5..]
        {
            met.entry(name).or_default().insert(same);
        }
    }
    let of = |contents: &[bool]| -> Vec<&str> {
        let contents = contents.iter().copied().collect();
        let kinds = met.iter().filter(|(_, met)| **met == contents);
        kinds.map(|(name, _)| name.as_str()).collect()
    };
    assert_eq!(
        of(&[true, false]),
        [
            "Bit",
            "Bool",
            "Decimal",
            "DoublePrecision",
            "Numeric",
            "Real"
        ]
    );
    let apart = of(&[false]);
    for kind in [
        "BigInt",
        "Char",
        "Character",
        "Date",
        "Int",
        "SmallInt",
        "Time",
        "Timestamp",
    ] {
        assert!(apart.contains(&kind), "{kind} {met:?}");
    }
}

#[test]
fn random_pairs_are_of_every_sort() {
    let mut rng = Rng::new(3);
    let types = any_types(&mut rng);
    let sorts: BTreeSet<Sort> = (0..1000).map(|_| any_pair(&mut rng, &types).0).collect();
    assert_eq!(sorts.into_iter().collect::<Vec<_>>(), Sort::ALL);
}
