//! Schemas of short rows: the refusals, and the counts, sizes and places of a good one.
//! The model judges, and `RowLayout`.

use super::rows::{any_bytes, apart, apart_from_rust, chars_sorts, counted};
use crate::probe::{self, LayoutProbe};
use crate::{Compared, hex, lent};
use cases::RowSort;
use cases::column::{ColumnType, to_rust_types};
use cases::generate::kinds::Kinds;
use cases::rng::Rng;
use cases::schema::{read_schema, write_schema};
use model::Sort;
use model::layout::Place;
use rookdb::types::row_layout::{PhysicalSchema, RowLayout};

/// What is told of a schema.
#[derive(Debug, PartialEq, Eq)]
pub struct Told {
    /// The refusal, or counts and sizes.
    pub probe: LayoutProbe,
    /// Where the fixed columns are, packed and padded, from the first fixed byte.
    pub places: Vec<(usize, usize)>,
}

fn refused(number: u32, place: usize) -> Told {
    let probe = LayoutProbe {
        number,
        place,
        columns: 0,
        varlens: 0,
        packed: 0,
        padded: 0,
    };
    let places = vec![];
    Told { probe, places }
}

/// The Rust's; `None` if it does not know one of the types.
pub fn rust(types: &[ColumnType]) -> Option<Told> {
    let physical = PhysicalSchema::from_logical(&to_rust_types(types)?);
    let packed = RowLayout::compute(&physical);
    let padded = RowLayout::compute_padded(&physical);
    let probe = LayoutProbe {
        number: 0,
        place: 0,
        columns: packed.num_columns,
        varlens: packed.num_varlen_cols,
        packed: packed.fixed_data_size,
        padded: padded.fixed_data_size,
    };
    let starts = packed.fixed_col_offsets.into_iter();
    let places = starts.zip(padded.fixed_col_offsets).collect();
    Some(Told { probe, places })
}

fn model(schema: &[u8]) -> Told {
    let types = match model::schema::check(schema, Sort::Short) {
        Ok(types) => types,
        Err((number, place)) => return refused(number, place),
    };
    let packed = model::layout::Layout::packed(&types, Sort::Short);
    let padded = model::layout::Layout::padded(&types, Sort::Short);
    let probe = LayoutProbe {
        number: 0,
        place: 0,
        columns: types.len(),
        varlens: packed.varchars,
        packed: packed.minimum - packed.fixed,
        padded: padded.minimum - padded.fixed,
    };
    let fixed = packed.fixed;
    let both = packed.places.into_iter().zip(padded.places);
    let places = both.filter_map(|places| match places {
        (Place::Slot { start, .. }, Place::Slot { start: at, .. }) => {
            Some((start - fixed, at - fixed))
        }
        _ => None,
    });
    let places = places.collect();
    Told { probe, places }
}

fn probed(schema: &[u8]) -> LayoutProbe {
    let after = lent::asked([schema], |[schema]| probe::layout(schema));
    assert!(after.kept, "a lent byte was changed");
    after.answer
}

/// Where the port has them. A column's packed place is the size of what stands
/// before it; its padded place is that of its end, less its own size.
fn port_places(types: &[ColumnType]) -> Vec<(usize, usize)> {
    let size = |columns: usize| probed(&write_schema(&types[..columns]));
    (0..types.len())
        .filter_map(|column| {
            let own = types[column].fixed_size()?;
            Some((size(column).packed, size(column + 1).padded - own))
        })
        .collect()
}

pub fn compare(rng: &mut Rng) -> Compared {
    let (sort, schema) = any_bytes(rng, Kinds::All, RowSort::Short);
    let input = || format!("schema {}", hex(&schema));
    let mut port = Told {
        probe: probed(&schema),
        places: vec![],
    };
    let mut model = model(&schema);
    let types = read_schema(&schema);
    let mut rust = match &types {
        Ok(types) => rust(types),
        Err(refusal) => Some(refused(refusal.number, refusal.place)),
    };
    match types {
        // The places take a probe of each prefix, so few of the larger schemas.
        Ok(types) if types.len() < 12 || rng.one_in(16) => port.places = port_places(&types),
        _ => {
            let judges = rust.iter_mut().chain([&mut model]);
            judges.for_each(|told| told.places.clear());
        }
    }
    let mut sorts = vec![format!("{sort:?}")];
    sorts.extend(chars_sorts(&schema, None));
    Compared {
        sorts: counted(sorts),
        difference: apart("model", &port, &model, input)
            .or_else(|| apart_from_rust(&port, &rust, input)),
    }
}
