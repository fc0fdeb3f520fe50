//! Same content. The Rust has no such call: the model judges, and the values of
//! the Rust's reads are compared by 01's rules.

use super::rows::{self, apart, apart_from_rust, chars_sorts, counted};
use crate::chars;
use crate::lent::{asked, told};
use crate::{Compared, hex, port};
use cases::RowSort;
use cases::expected::{self, Refusal};
use cases::generate::kinds::Kinds;
use cases::rng::Rng;
use cases::rust::{self, Outcome};

/// What the Rust's reads come to, of short rows.
fn wanted(schema: &[u8], a: &[u8], b: &[u8]) -> Option<Result<bool, Refusal>> {
    match [a, b].map(RowSort::of_row) {
        [of, RowSort::Short] => {
            rows::by_rust(schema, of, |columns| expected::same_content(columns, a, b))
        }
        _ => None,
    }
}

pub fn compare(rng: &mut Rng) -> Compared {
    let of = Kinds::All.row_sort(rng);
    let types = rows::any_types(rng, Kinds::All, of);
    let (pair_sort, (a, b)) = Kinds::All.pair(rng, &types, of);
    let (schema_sort, schema) = rows::any_schema_for(rng, &types, Kinds::All, of);
    let input = || format!("schema {}, a {}, b {}", hex(&schema), hex(&a), hex(&b));
    let port = asked([&schema, &a, &b], |[schema, a, b]| {
        port::same_content(schema, a, b)
    });
    let model = told(model::same_content(&schema, &a, &b));
    let answer = port.answer;
    let flag = match answer.number {
        0 => Ok(answer.flag == 1),
        number => Err(Refusal::of((number, answer.place))),
    };
    let difference = apart("model", &port, &model, input)
        .or_else(|| apart_from_rust(&flag, &wanted(&schema, &a, &b), input));
    // The read that refuses is that of the first row, else of the second.
    let sorts = [&a, &b].map(|row| RowSort::of_row(row));
    let both = sorts.into_iter().max().expect("two rows");
    let judge = rows::judge_of(&schema, both, answer.number, |types| {
        match rust::read_all(types, &a) {
            Outcome::Ok(_) => rust::read_all(types, &b),
            refused => refused,
        }
    });
    let mut sorts = vec![
        schema_sort,
        format!("pair {pair_sort:?}"),
        match answer.number {
            0 if a == b => "answer 0, the same bytes".into(),
            0 => format!("answer 0, flag {}, other bytes", answer.flag),
            number => format!("answer {number}"),
        },
        judge.to_string(),
        format!("{:?} and {:?} row", sorts[0], sorts[1]),
    ];
    let shown = |row: &[u8]| {
        let answer = (answer.number, answer.place);
        chars::read(&schema, row, |_| true, answer)
    };
    sorts.extend(chars_sorts(&schema, shown(&a).or_else(|| shown(&b))));
    Compared {
        sorts: counted(sorts),
        difference,
    }
}
