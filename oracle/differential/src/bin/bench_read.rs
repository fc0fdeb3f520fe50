//! Time for one read, ours against the Rust's `RowDecoder`, built once and built
//! for the call, and `deserialize_nullable_row`, in one run on the same rows. Ours
//! is the raw call, and the `Reader` of the bindings. Both are measured alone, and
//! with what they give looked at: each record of the raw call's list by its kind,
//! each value of the `Reader`. Ours counts the code points of texts too. Then Varchars
//! that count characters beside those that count bytes, with the same texts, by the raw
//! call; long rows beside their short twins; and long rows of 64 KB to 1 MB.

use cases::column::of_rust_types;
use cases::rust;
use cases::schema::write_schema;
use differential::bench::{Large, Names, Twins, by_size, by_sort, large, tables, time, twins};
use differential::bench::{beside, least, names, possessions, say_beside, say_beside_header};
use differential::bench::{say_large, say_large_header, say_twins, say_twins_header};
use rook_row::{Reader, RowRef, Schema};
use rookdb::types::datatype::DataType;
use rookdb::types::row::{RowDecoder, deserialize_nullable_row};
use std::hint::black_box;

/// Looks at the records of a value list, from one to the next.
fn look(list: &[u8]) {
    const LENGTHS: [usize; 14] = [1, 3, 5, 9, 5, 9, 18, 2, 5, 5, 5, 9, 5, 9];
    let mut at = 0;
    while at < list.len() {
        at += LENGTHS[usize::from(black_box(list[at]))];
    }
}

fn bench(name: &str, types: &[DataType], rows: &[Vec<u8>], wanted: &[u16]) {
    let schema = write_schema(&of_rust_types(types));
    let columns: Vec<_> = wanted.iter().map(|&column| usize::from(column)).collect();
    let decoder = RowDecoder::new(types).only(columns.iter().copied());
    let mut out = vec![0; 18 * types.len()];
    let mut counts = vec![0; types.len()];
    let mut reader = Reader::new(&Schema::from_bytes(&schema).expect("a schema"), &columns)
        .expect("columns of the schema");
    let [once, each, deserialize, raw, looked, read, taken] = least(|| {
        [
            time(rows, |row| {
                black_box(decoder.decode(row).expect("a built row"));
            }),
            time(rows, |row| {
                let decoder = RowDecoder::new(black_box(types)).only(columns.iter().copied());
                black_box(decoder.decode(row).expect("a built row"));
            }),
            time(rows, |row| {
                black_box(deserialize_nullable_row(types, row).expect("a built row"));
            }),
            time(rows, |row| {
                let length = rook_row::raw::read(&schema, row, wanted, &mut out, &mut counts);
                black_box((length.expect("a built row"), &out, &counts));
            }),
            time(rows, |row| {
                let length = rook_row::raw::read(&schema, row, wanted, &mut out, &mut counts);
                look(&out[..length.expect("a built row")]);
            }),
            time(rows, |row| {
                black_box(&reader.read(RowRef::new(row)).expect("a built row"));
            }),
            time(rows, |row| {
                let columns = reader.read(RowRef::new(row)).expect("a built row");
                columns.iter().for_each(|value| {
                    black_box(&value);
                });
            }),
        ]
    });
    println!(
        "{name:<28}{once:>8.0}{each:>8.0}{deserialize:>8.0}{raw:>7.0}{:>8.2}{:>8.2}{:>8.2}{looked:>8.0}\
         {read:>8.0}{:>8.2}{:>6.2}{taken:>8.0}{:>8.2}{:>6.2}{:>8.2}",
        raw / once,
        raw / each,
        raw / deserialize,
        read / once,
        read / raw,
        taken / once,
        taken / raw,
        taken / looked,
    );
}

fn bench_names(names: &Names) {
    let all: Vec<u16> = (0..names.types.len() as u16).collect();
    let last = names.types.len() as u16 - 2;
    let mut out = vec![0; 18 * names.types.len()];
    let mut counts = vec![0; names.types.len()];
    for (which, wanted) in [("all", &all[..]), ("one", &[last])] {
        let mut raw = |schema: &[u8], row: &[u8]| {
            let length = rook_row::raw::read(schema, row, wanted, &mut out, &mut counts);
            black_box((&out, &counts));
            length.expect("a built row")
        };
        for row in &names.rows {
            let [by_chars, by_bytes] = &names.schemas;
            assert_eq!(raw(by_chars, row), raw(by_bytes, row));
        }
        let times = beside(&names.schemas, &names.rows, |schema, row| {
            black_box(raw(schema, row));
        });
        say_beside(&format!("{}, {which}", names.name), times);
    }
}

fn bench_twins(twins: &Twins) {
    let columns = twins.types.len() as u16;
    let all: Vec<u16> = (0..columns).collect();
    let mut out = vec![0; 18 * twins.types.len()];
    let mut counts = vec![0; twins.types.len()];
    for (which, wanted) in [("all", &all[..]), ("one", &[columns / 2])] {
        let mut raw = |row: &[u8]| {
            let length = rook_row::raw::read(&twins.schema, row, wanted, &mut out, &mut counts);
            black_box((length.expect("a built row"), &out, &counts));
        };
        let times = by_sort([&twins.short, &twins.long], |_, twin| raw(&twin.row));
        say_twins(&format!("{}, {which}", twins.name), times);
    }
}

fn bench_large(rows: &mut [Large; 3]) {
    let all: Vec<u16> = (0..rows[0].columns as u16).collect();
    let mut out = vec![0; 18 * all.len()];
    let mut counts = vec![0; all.len()];
    let mut raw = |large: &Large, counts: &mut [u32]| {
        let length = rook_row::raw::read(&large.schema, &large.row, &all, &mut out, counts);
        black_box((length.expect("a built row"), &out, &counts));
    };
    for large in &*rows {
        raw(large, &mut counts);
        for (column, &count) in counts.iter().enumerate().skip(1) {
            assert_eq!(count as usize, large.text(column).len());
        }
    }
    let times = by_size(rows, |large| raw(large, &mut counts));
    say_large("all columns", times);
}

fn main() {
    println!(
        "{:<28}{:>8}{:>8}{:>8}{:>7}{:>8}{:>8}{:>8}{:>8}{:>8}{:>8}{:>6}{:>8}{:>8}{:>6}{:>8}",
        "read, ns for a row",
        "decoder",
        "..built",
        "deser.",
        "raw",
        "decoder",
        "..built",
        "deser.",
        "..look",
        "Reader",
        "decoder",
        "raw",
        "..taken",
        "decoder",
        "raw",
        "..look"
    );
    for table in tables().into_iter().chain(possessions()) {
        let types = &table.types;
        let build = |values: &Vec<_>| rust::build(types, values).ok().expect("a row");
        let rows: Vec<_> = table.rows.iter().map(build).collect();
        let middle = types.len() as u16 / 2;
        let all: Vec<u16> = (0..types.len() as u16).collect();
        for (which, wanted) in [
            ("all", &all[..]),
            ("two", &[middle - 1, middle]),
            ("one", &[middle]),
        ] {
            bench(&format!("{}, {which}", table.name), types, &rows, wanted);
        }
    }
    say_beside_header("read");
    for names in names() {
        bench_names(&names);
    }
    say_twins_header("read");
    for twins in twins() {
        bench_twins(&twins);
    }
    say_large_header("read");
    bench_large(&mut large());
}
