//! The row of nulls, against `Row::new` then `serialize`, byte for byte. The model
//! judges number, place, length and every lent byte.

use super::rows::{self, apart, apart_from_rust, chars_sorts, counted, fitting, handed};
use super::rows::{model_sort, size};
use crate::lent::{any_output, called, written};
use crate::{Compared, hex, port};
use cases::RowSort;
use cases::expected;
use cases::generate::kinds::Kinds;
use cases::layout::Layout;
use cases::rng::Rng;

pub fn compare(rng: &mut Rng) -> Compared {
    let of = Kinds::All.row_sort(rng);
    // Of the other sort's limits too.
    let limits = if rng.one_in(8) { RowSort::Short } else { of };
    let (sort, schema) = rows::any_bytes(rng, Kinds::All, limits);
    let types = rows::columns(&schema, of);
    // The row has no payload.
    let needed = types
        .as_ref()
        .map_or(0, |types| Layout::packed_of(types, of).minimum);
    let (room, output) = any_output(rng, needed);
    let input = || {
        let (schema, room) = (hex(&schema), output.len());
        format!("{of:?} row, schema {schema}, {room} bytes of output")
    };
    let told_sort = model_sort(of);
    let port = called(&output, [&schema], |[schema], out| {
        port::fresh(schema, port::is_long(told_sort), out)
    });
    let model = written(&output, |out| model::fresh(&schema, told_sort, out));
    let size = types.map_or("schema refused", |types| size(types.len()));
    let told = rows::by_rust(&schema, of, |columns| {
        fitting(expected::fresh(columns), &output)
    });
    let difference = apart("model", &port, &model, input)
        .or_else(|| apart_from_rust(&handed(&port), &told, input));
    let number = port.answer.number;
    let mut sorts = vec![
        format!("schema {sort:?}"),
        size.into(),
        format!("output {room:?}"),
        format!("answer {number}"),
        rows::judged(number == 0 && rows::is_known(&schema, of)).into(),
        format!("{of:?} row wanted"),
    ];
    sorts.extend(chars_sorts(&schema, None));
    Compared {
        sorts: counted(sorts),
        difference,
    }
}
