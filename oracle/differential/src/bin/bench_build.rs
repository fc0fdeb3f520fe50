//! Time for one row built, ours against the Rust's `serialize_nullable_typed_row`,
//! and for one fresh row against `Row::new` then `serialize`, in one run on the
//! same values. The Rust hands back a vector of its own and `Row::new` takes one
//! of the columns; ours, the raw call, writes to a buffer that is lent. The
//! `Builder` of the bindings makes the value list too; it keeps its memory. Ours
//! counts the code points of texts too. Then Varchars that count characters beside those
//! that count bytes, with the same texts, by the raw call; long rows beside their short
//! twins; and long rows of 64 KB to 1 MB.

use cases::column::of_rust_types;
use cases::rust;
use cases::schema::write_schema;
use cases::value::ValueList;
use differential::bench::{Large, Names, Twins, by_size, by_sort, large, tables, time, twins};
use differential::bench::{beside, least, names, possessions, say_beside, say_beside_header};
use differential::bench::{say_large, say_large_header, say_twins, say_twins_header};
use rook_row::{Builder, RowRef, Schema};
use rookdb::types::datatype::DataType;
use rookdb::types::row::{Row, serialize_nullable_typed_row};
use rookdb::types::value::DataValue;
use std::hint::black_box;

/// The values of a row in both forms.
type Values = (Vec<Option<DataValue>>, ValueList);

fn bench_build(types: &[DataType], rows: &[Values]) -> [f64; 3] {
    let schema = write_schema(&of_rust_types(types));
    let mut out = vec![0; 65_535];
    let mut counts = vec![0; types.len()];
    let mut raw = |list: &ValueList, out: &mut [u8]| {
        rook_row::raw::build(&schema, false, &list.bytes, &list.text, out, &mut counts)
    };
    let built: Vec<_> = rows
        .iter()
        .map(|(values, list)| {
            let length = raw(list, &mut out);
            let row = rust::build(types, values).ok().expect("a row");
            assert_eq!(out[..length.expect("a row")], row);
            row
        })
        .collect();
    let checked = Schema::from_bytes(&schema).expect("a schema");
    let values = |row| RowRef::new(row).read(&checked).expect("a row");
    let values: Vec<_> = built.iter().map(|row| values(row)).collect();
    let mut builder = Builder::new(&checked);
    least(|| {
        [
            time(rows, |(values, _)| {
                black_box(serialize_nullable_typed_row(types, values).expect("a row"));
            }),
            time(rows, |(_, list)| {
                let length = raw(list, &mut out);
                black_box((length.expect("a row"), &out));
            }),
            time(&values, |values| {
                black_box(builder.build(values).expect("a row"));
            }),
        ]
    })
}

fn bench_fresh(types: &[DataType]) -> [f64; 2] {
    let schema = write_schema(&of_rust_types(types));
    let mut out = vec![0; 65_535];
    let times = [(); 1000];
    least(|| {
        [
            time(&times, |_| {
                black_box(Row::new(black_box(types).to_vec()).serialize());
            }),
            time(&times, |_| {
                let length = rook_row::raw::fresh(black_box(&schema), false, &mut out);
                black_box((length.expect("a row"), &out));
            }),
        ]
    })
}

fn bench_names(names: &Names) {
    let mut out = vec![0; 65_535];
    let mut counts = vec![0; names.types.len()];
    let mut raw = |schema: &[u8], list: &ValueList, out: &mut [u8]| {
        let length = rook_row::raw::build(schema, false, &list.bytes, &list.text, out, &mut counts);
        length.expect("a row")
    };
    for (list, row) in names.lists.iter().zip(&names.rows) {
        for schema in &names.schemas {
            let length = raw(schema, list, &mut out);
            assert_eq!(&out[..length], row);
        }
    }
    let times = beside(&names.schemas, &names.lists, |schema, list| {
        black_box((raw(schema, list, &mut out), &out));
    });
    say_beside(&names.name, times);
}

fn bench_twins(twins: &Twins) {
    let mut out = vec![0; 65_535];
    let mut counts = vec![0; twins.types.len()];
    let mut raw = |is_long: bool, list: &ValueList, out: &mut [u8]| {
        let (values, text) = (&list.bytes, &list.text);
        rook_row::raw::build(&twins.schema, is_long, values, text, out, &mut counts).expect("a row")
    };
    for is_long in [false, true] {
        for twin in twins.of(is_long) {
            let length = raw(is_long, &twin.list, &mut out);
            assert_eq!(out[..length], twin.row);
        }
    }
    let times = by_sort([&twins.short, &twins.long], |is_long, twin| {
        black_box((raw(is_long, &twin.list, &mut out), &out));
    });
    say_twins(&format!("build, {}", twins.name), times);
    let none = &[(); 1000][..];
    let times = by_sort([none, none], |is_long, _| {
        let length = rook_row::raw::fresh(black_box(&twins.schema), is_long, &mut out);
        black_box((length.expect("a row"), &out));
    });
    say_twins(&format!("fresh, {}", twins.name), times);
}

fn bench_large(rows: &mut [Large; 3]) {
    let mut out = vec![0; 1_048_576];
    let mut counts = vec![0; rows[0].columns];
    let mut raw = |large: &Large, out: &mut [u8]| {
        let (values, text) = (&large.list.bytes, &large.list.text);
        rook_row::raw::build(&large.schema, true, values, text, out, &mut counts).expect("a row")
    };
    for large in &*rows {
        let length = raw(large, &mut out);
        assert!(out[..length] == large.row);
    }
    let times = by_size(rows, |large| {
        black_box((raw(large, &mut out), &out));
    });
    say_large("17 remarks", times);
}

fn say(name: &str, rust: f64, raw: f64) {
    print!("{name:<32}{rust:>10.0}{raw:>8.0}{:>10.2}", raw / rust);
}

fn main() {
    println!(
        "{:<32}{:>10}{:>8}{:>10}{:>10}{:>10}{:>8}",
        "ns for a row", "the Rust", "raw", "the Rust", "Builder", "the Rust", "raw"
    );
    for table in tables().into_iter().chain(possessions()) {
        let types = &table.types;
        let listed = |values: Vec<_>| {
            let list = ValueList::of_rust(&values).expect("texts that fit");
            (values, list)
        };
        let rows: Vec<_> = table.rows.into_iter().map(listed).collect();
        let [rust, raw, builder] = bench_build(types, &rows);
        say(&format!("build, {}", table.name), rust, raw);
        println!(
            "{builder:>10.0}{:>10.2}{:>8.2}",
            builder / rust,
            builder / raw
        );
        let [rust, raw] = bench_fresh(types);
        say(&format!("fresh, {}", table.name), rust, raw);
        println!();
    }
    say_beside_header("build");
    for names in names() {
        bench_names(&names);
    }
    say_twins_header("build and fresh");
    for twins in twins() {
        bench_twins(&twins);
    }
    say_large_header("build");
    bench_large(&mut large());
}
