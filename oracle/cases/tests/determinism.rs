//! The same seed gives the same inputs, another seed others.

use cases::RowSort;
use cases::generate::kinds::Kinds;
use cases::generate::{history, list, pair, row, row_list, schema, text, wanted};
use cases::rng::Rng;

/// One of everything, many times, as text.
fn everything(seed: u64) -> String {
    let mut rng = Rng::new(seed);
    let mut out = String::new();
    for _ in 0..100 {
        let types = schema::any_types(&mut rng);
        let types = Kinds::All.types(&mut rng, types);
        let fault = rng.pick(&text::Fault::ALL);
        let list = list::any_list_of(&mut rng, &types, RowSort::Long).1;
        let calls = history::history_of(&mut rng, &types, RowSort::Long, 5);
        out += &format!(
            "{:?}{:?}{:?}{:?}{:?}{:?}{:?}{:?}",
            Kinds::All.row_sort(&mut rng),
            Kinds::All.types_of(&mut rng, types.clone(), RowSort::Long),
            schema::any_schema_of(&mut rng, RowSort::Long),
            Kinds::All.list(&mut rng, list),
            row::any_row_of(&mut rng, &types, RowSort::Long),
            Kinds::All.pair(&mut rng, &types, RowSort::Long),
            Kinds::All.calls(&mut rng, calls),
            Kinds::All.row_list(&mut rng),
        );
        out += &format!(
            "{:?}{:?}{:?}{:?}{:?}{:?}{:?}{:?}{:?}",
            schema::any_schema(&mut rng),
            types,
            text::invalid(&mut rng, fault, 9),
            list::any_list(&mut rng, &types),
            row::any_row(&mut rng, &types),
            wanted::any_wanted(&mut rng, types.len()),
            pair::any_pair(&mut rng, &types),
            history::history(&mut rng, &types, 5),
            row_list::any_list(&mut rng),
        );
    }
    out
}

#[test]
fn the_seed_decides() {
    let first = everything(7);
    assert!(first == everything(7));
    assert!(first != everything(8));
}
