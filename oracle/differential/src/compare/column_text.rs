//! A column's text. The Rust has no such call: the model judges, and the part of
//! the row is that which holds the text of the Rust's read of this column.

use super::rows::{self, Given, apart, apart_from_rust, chars_sorts, counted};
use crate::chars;
use crate::lent::{asked, told};
use crate::{Compared, hex, port};
use cases::RowSort;
use cases::column::ColumnType;
use cases::expected::{self, Refusal};
use cases::generate::kinds::Kinds;
use cases::generate::row::any_column;
use cases::rng::Rng;
use cases::rust;
use model::TextAnswer;

/// A column, one that has text where there is one and more often than not.
fn column(rng: &mut Rng, types: &[ColumnType]) -> usize {
    let texts: Vec<usize> = (0..types.len())
        .filter(|&column| types[column].is_text())
        .collect();
    if texts.is_empty() || rng.one_in(4) {
        return any_column(rng, types.len());
    }
    rng.pick(&texts)
}

/// Where the text of the Rust's read stands and how long it is, or the refusal.
fn wanted(schema: &[u8], row: &[u8], column: usize) -> Option<Result<(usize, usize), Refusal>> {
    rows::by_rust(schema, RowSort::of_row(row), |columns| {
        let range = expected::text(columns, row, column)?;
        Ok((range.start, range.length))
    })
}

/// The part of the row that an answer names, or its refusal.
fn part(answer: TextAnswer) -> Result<(usize, usize), Refusal> {
    match answer.number {
        0 => Ok((answer.start, answer.length)),
        number => Err(Refusal::of((number, answer.place))),
    }
}

pub fn compare(rng: &mut Rng) -> Compared {
    let Given {
        mut sorts,
        schema,
        types,
        row,
    } = rows::any_given(rng, Kinds::All);
    let column = column(rng, &types);
    let input = || {
        format!(
            "schema {}, row {}, column {column}",
            hex(&schema),
            hex(&row)
        )
    };
    let port = asked([&schema, &row], |[schema, row]| {
        port::text(schema, row, column)
    });
    let model = told(model::text(&schema, &row, column));
    let rust = wanted(&schema, &row, column);
    let number = port.answer.number;
    let difference = apart("model", &port, &model, input)
        .or_else(|| apart_from_rust(&part(port.answer), &rust, input));
    let of = RowSort::of_row(&row);
    let judge = rows::judge_of(&schema, of, number, |types| {
        rust::read(types, &row, &[column as u16])
    });
    let types = rows::columns(&schema, of).unwrap_or_default();
    sorts.extend([
        match types.get(column) {
            Some(ColumnType::Varchar(_)) => "column Varchar".into(),
            Some(ColumnType::VarcharChars(_)) => "column Varchar of characters".into(),
            Some(ColumnType::Char(_) | ColumnType::Character(_)) => "column Char".into(),
            Some(_) => "column of no text".into(),
            None => "no such column".into(),
        },
        format!("answer {number}"),
        judge.to_string(),
    ]);
    let answer = (number, port.answer.place);
    let shown = chars::read(&schema, &row, |wanted| wanted == column, answer);
    sorts.extend(chars_sorts(&schema, shown));
    Compared {
        sorts: counted(sorts),
        difference,
    }
}
