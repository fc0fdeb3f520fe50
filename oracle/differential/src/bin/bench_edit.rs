//! Time for one edit, ours against the Rust's `Row::deserialize`, then `set_value`
//! or `set_null`, then `serialize`, in one run on the same rows. The Rust makes a
//! new row of each; ours changes a buffer that is lent, and is handed the row anew
//! each time. Ours is the raw call, and the `Editor` of the bindings, which is
//! handed a value. Then Varchars that count characters beside those that count bytes,
//! with the same texts, by the raw call; long rows beside their short twins; and long rows
//! of 64 KB to 1 MB, with a remark set at the front, so that all behind it moves, and at
//! the end, to a text that is longer by a byte and shorter by a byte in turn.

use cases::RowSort;
use cases::column::{ColumnType, of_rust_types};
use cases::rust;
use cases::schema::write_schema;
use cases::value::{Record, TextRange, ValueList};
use differential::bench::{
    Large, Names, Twin, Twins, beside, by_size, by_sort, large, least, names,
};
use differential::bench::{say_beside, say_beside_header, say_large, say_large_header, say_twins};
use differential::bench::{say_twins_header, tables, time, twins};
use rook_row::{Editor, RowRef, Schema, Value};
use rookdb::types::datatype::DataType;
use rookdb::types::row::Row;
use rookdb::types::value::DataValue;
use std::hint::black_box;

/// A row, the value that its column is set to, that value as a list, and as the
/// bindings have it.
type Edit = (Vec<u8>, Option<DataValue>, ValueList, Value<'static>);

fn by_rust(types: &[DataType], column: usize, (row, value, ..): &Edit) -> Vec<u8> {
    let mut row = Row::deserialize(types, row).expect("a built row");
    match value {
        Some(value) => row.set_value(column, value),
        None => row.set_null(column),
    }
    .expect("a good edit");
    row.serialize()
}

fn by_raw(schema: &[u8], column: usize, buffer: &mut [u8], (row, value, list, _): &Edit) -> usize {
    buffer[..row.len()].copy_from_slice(row);
    match value {
        Some(_) => rook_row::raw::set(schema, buffer, row.len(), column, &list.bytes, &list.text),
        None => rook_row::raw::set_null(schema, buffer, row.len(), column),
    }
    .expect("a good edit")
}

fn by_editor(editor: &mut Editor, column: usize, (row, _, _, value): &Edit) {
    editor.open(RowRef::new(row));
    match value {
        Value::Null => editor.set_null(column),
        value => editor.set(column, value),
    }
    .expect("a good edit");
}

fn bench(types: &[DataType], column: usize, edits: &[Edit]) -> [f64; 3] {
    let schema = write_schema(&of_rust_types(types));
    let mut buffer = vec![0; 65_535];
    let mut editor = Editor::new(&Schema::from_bytes(&schema).expect("a schema"));
    for edit in edits {
        let length = by_raw(&schema, column, &mut buffer, edit);
        assert_eq!(buffer[..length], by_rust(types, column, edit));
        by_editor(&mut editor, column, edit);
        assert_eq!(editor.row().as_bytes(), &buffer[..length]);
    }
    least(|| {
        [
            time(edits, |edit| {
                black_box(by_rust(types, column, edit));
            }),
            time(edits, |edit| {
                black_box((by_raw(&schema, column, &mut buffer, edit), &buffer));
            }),
            time(edits, |edit| {
                by_editor(&mut editor, column, edit);
                black_box(editor.row());
            }),
        ]
    })
}

/// What a column is set to, from what it held. The station's name is never null.
fn edited(name: &str, old: &Option<DataValue>) -> Option<DataValue> {
    match (name, old) {
        ("Int set", _) => Some(DataValue::Int(7)),
        ("Varchar grows", Some(DataValue::Varchar(s))) => {
            Some(DataValue::Varchar(format!("{s} Mitte")))
        }
        ("Varchar shrinks", Some(DataValue::Varchar(s))) => Some(DataValue::Varchar(s[1..].into())),
        ("Varchar keeps its length", old) => old.clone(),
        _ => None,
    }
}

/// Sets of a column to these values of as many rows, or to null.
fn bench_names(names: &Names, name: &str, column: usize, value: impl Fn(usize) -> ValueList) {
    let mut buffer = vec![0; 65_535];
    let edits = names.rows.iter().enumerate();
    let edits: Vec<_> = edits.map(|(number, row)| (row, value(number))).collect();
    let raw = |schema: &[u8], row: &[u8], list: &ValueList, buffer: &mut [u8]| {
        buffer[..row.len()].copy_from_slice(row);
        match list.bytes[..] {
            [0] => rook_row::raw::set_null(schema, buffer, row.len(), column),
            _ => rook_row::raw::set(schema, buffer, row.len(), column, &list.bytes, &list.text),
        }
        .expect("a good edit")
    };
    for (row, list) in &edits {
        let left = names.schemas.each_ref().map(|schema| {
            let length = raw(schema, row, list, &mut buffer);
            buffer[..length].to_vec()
        });
        assert_eq!(left[0], left[1]);
    }
    let times = beside(&names.schemas, &edits, |schema, (row, list)| {
        black_box((raw(schema, row, list, &mut buffer), &buffer));
    });
    say_beside(&format!("{}, {name}", names.name), times);
}

/// Sets of a Varchar to the text of the next row, and of an Int, in short rows and in
/// their long twins.
fn bench_twins(twins: &Twins) {
    let types = &twins.types;
    let mut buffer = vec![0; 65_535];
    let is_text = |ty: &ColumnType| matches!(ty, ColumnType::Varchar(_));
    let is_int = |ty: &ColumnType| *ty == ColumnType::Int;
    let text = types.iter().position(is_text).expect("a Varchar");
    let int = types.iter().position(is_int).expect("an Int");
    for (name, column) in [("Varchar set", text), ("Int set", int)] {
        let edits = [false, true].map(|is_long| {
            let all = twins.of(is_long);
            let next = all.iter().cycle().skip(1);
            let edit = |(twin, next): (&'_ Twin, &Twin)| {
                (twin.row.clone(), one(next, column, column == text, is_long))
            };
            all.iter().zip(next).map(edit).collect::<Vec<_>>()
        });
        let mut raw = |row: &[u8], list: &ValueList| {
            buffer[..row.len()].copy_from_slice(row);
            let (values, text) = (&list.bytes, &list.text);
            let length =
                rook_row::raw::set(&twins.schema, &mut buffer, row.len(), column, values, text);
            black_box((length.expect("a good edit"), &buffer));
        };
        let [short, long] = &edits;
        let times = by_sort([short, long], |_, (row, list)| raw(row, list));
        say_twins(&format!("{}, {name}", twins.name), times);
    }
}

/// The value of a Varchar alone, or an Int, in the kinds of the sort.
fn one(twin: &Twin, column: usize, is_text: bool, is_long: bool) -> ValueList {
    let of = if is_long {
        RowSort::Long
    } else {
        RowSort::Short
    };
    let record = twin.list.all_records().expect("a good list")[column];
    let text = record.range().and_then(|range| range.of(&twin.list.text));
    let text = text.unwrap_or_default().to_vec();
    let length = text.len();
    let range = TextRange { start: 0, length };
    let record = match (record.range(), is_text) {
        (Some(_), _) => record.with_range(range),
        // Null is given to no set.
        (None, true) => Record::Varchar(range),
        (None, false) => Record::Int(7),
    };
    ValueList::of_records_of(of, &[record], text)
}

/// Sets of a column of the large rows, to its text less a byte and to its text.
fn bench_large(rows: &mut [Large; 3], name: &str, column: usize) {
    let lists = rows.each_ref().map(|large| {
        let text = large.text(column);
        let of = |length: usize| {
            let record = Record::Varchar(TextRange { start: 0, length });
            ValueList::of_records_of(RowSort::Long, &[record], text[..length].to_vec())
        };
        [of(text.len() - 1), of(text.len())]
    });
    let size = |large: &Large| match large.row.len() {
        65_536 => 0,
        262_144 => 1,
        _ => 2,
    };
    let before = rows.each_ref().map(|large| large.row.clone());
    let times = by_size(rows, |large| {
        let mut length = large.row.len();
        for list in &lists[size(large)] {
            let (values, text) = (&list.bytes, &list.text);
            let row = &mut large.row;
            let set = rook_row::raw::set(&large.schema, row, length, column, values, text);
            length = set.expect("a good edit");
        }
    });
    for (large, before) in rows.iter().zip(before) {
        assert!(large.row == before);
    }
    say_large(name, times.map(|two| two / 2.0));
}

fn main() {
    println!(
        "{:<46}{:>10}{:>8}{:>10}{:>8}{:>10}{:>8}",
        "edit, ns for a row", "the Rust", "raw", "the Rust", "Editor", "the Rust", "raw"
    );
    for table in tables() {
        let types = &table.types;
        let schema = Schema::from_bytes(&write_schema(&of_rust_types(types))).expect("a schema");
        // The station and the train of the occupation in the middle.
        let station = types.len() / 2 / 8 * 8;
        for (name, column) in [
            ("Int set", station + 3),
            ("Int set null", station + 3),
            ("Varchar grows", station),
            ("Varchar shrinks", station),
            ("Varchar keeps its length", station),
            ("Varchar set null", station),
        ] {
            let edit = |values: &Vec<_>| {
                let value = edited(name, &values[column]);
                let row = rust::build(types, values).ok().expect("a row");
                let list = ValueList::of_rust(std::slice::from_ref(&value)).expect("a text");
                let mut after = values.clone();
                after[column] = value.clone();
                let after = rust::build(types, &after).ok().expect("a row");
                let ours: Value = RowRef::new(&after).get(&schema, column).expect("a value");
                (row, value, list, ours.into_owned())
            };
            let edits: Vec<_> = table.rows.iter().map(edit).collect();
            let [rust, raw, editor] = bench(types, column, &edits);
            println!(
                "{:<46}{rust:>10.0}{raw:>8.0}{:>10.2}{editor:>8.0}{:>10.2}{:>8.2}",
                format!("{}, {name}", table.name),
                raw / rust,
                editor / rust,
                editor / raw
            );
        }
    }
    say_beside_header("edit");
    for names in names() {
        let list = |record, text| ValueList::of_records(&[record], text);
        let text = names.types.len() - 2;
        bench_names(&names, "Int set", 0, |_| list(Record::Int(7), vec![]));
        // The text of the next row.
        bench_names(&names, "text set", text, |number| {
            let (record, text) = names.text((number + 1) % names.rows.len(), text);
            list(record, text)
        });
        bench_names(&names, "text set null", text, |_| {
            list(Record::Null, vec![])
        });
    }
    say_twins_header("edit");
    for twins in twins() {
        bench_twins(&twins);
    }
    say_large_header("set");
    let mut large = large();
    let last = large[0].columns - 1;
    bench_large(&mut large, "a remark at the front", 1);
    bench_large(&mut large, "a remark at the end", last);
}
