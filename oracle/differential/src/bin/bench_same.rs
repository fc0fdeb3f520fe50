//! Time for the null flag of a column, ours against the Rust's
//! `is_column_null_in_row`, and for same content, which the Rust does not have:
//! against both rows decoded by a `RowDecoder` built once, and their values
//! compared. In one run on the same rows; ours are the raw calls.

use cases::column::of_rust_types;
use cases::rust;
use cases::schema::write_schema;
use differential::bench::{least, possessions, tables, time};
use rookdb::types::datatype::DataType;
use rookdb::types::null_bitmap::is_column_null_in_row;
use rookdb::types::row::RowDecoder;
use std::hint::black_box;

/// Two rows, and a column.
type Pair = (Vec<u8>, Vec<u8>, usize);

fn bench_same(types: &[DataType], pairs: &[Pair]) -> [f64; 2] {
    let schema = write_schema(&of_rust_types(types));
    let decoder = RowDecoder::new(types);
    let by_rust = |a: &[u8], b: &[u8]| decoder.decode(a).ok() == decoder.decode(b).ok();
    for (a, b, _) in pairs {
        assert_eq!(
            rook_row::raw::same_content(&schema, a, b),
            Ok(by_rust(a, b))
        );
    }
    least(|| {
        [
            time(pairs, |(a, b, _)| {
                black_box(by_rust(a, b));
            }),
            time(pairs, |(a, b, _)| {
                black_box(rook_row::raw::same_content(&schema, a, b).expect("built rows"));
            }),
        ]
    })
}

fn bench_null(pairs: &[Pair]) -> [f64; 2] {
    least(|| {
        [
            time(pairs, |(a, _, column)| {
                black_box(is_column_null_in_row(a, *column).expect("a built row"));
            }),
            time(pairs, |(a, _, column)| {
                black_box(rook_row::raw::is_null(a, *column).expect("a built row"));
            }),
        ]
    })
}

fn main() {
    println!(
        "{:<46}{:>10}{:>8}{:>10}",
        "ns for a row", "the Rust", "raw", "the Rust"
    );
    let say = |name: &str, table: &str, [rust, raw]: [f64; 2]| {
        println!(
            "{:<46}{rust:>10.1}{raw:>8.1}{:>10.2}",
            format!("{name}, {table}"),
            raw / rust
        );
    };
    for table in tables().into_iter().chain(possessions()) {
        let types = &table.types;
        let build = |values: &Vec<_>| rust::build(types, values).ok().expect("a row");
        let rows: Vec<_> = table.rows.iter().map(build).collect();
        let pair = |k: usize, other: usize| {
            let b = rows[other % rows.len()].clone();
            (rows[k].clone(), b, k * 7 % types.len())
        };
        let same: Vec<Pair> = (0..rows.len()).map(|k| pair(k, k)).collect();
        let apart: Vec<Pair> = (0..rows.len()).map(|k| pair(k, k + 1)).collect();
        say(
            "same content, the same",
            &table.name,
            bench_same(types, &same),
        );
        say(
            "same content, another row",
            &table.name,
            bench_same(types, &apart),
        );
        say("null flag", &table.name, bench_null(&same));
    }
}
