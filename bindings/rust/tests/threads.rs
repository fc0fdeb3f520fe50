//! The library keeps no state, so calls may run at once.
use rook_row::{Builder, DataType, Editor, Error, Reader, RowBuf, Schema, Value};
use std::thread;

fn goes_to_a_thread<T: Send>() {}
fn is_shared_by_threads<T: Sync>() {}

#[test]
fn sent_and_shared() {
    goes_to_a_thread::<(Schema, Reader, Builder, Editor, RowBuf, Value, Error)>();
    is_shared_by_threads::<(Schema, Reader, Builder, Editor, RowBuf, Value, Error)>();
}

/// Four threads over one schema and the same rows, each with a reader and an editor of its own.
#[test]
fn many_at_once() {
    let schema = Schema::new([
        ("unit", DataType::Varchar(16)),
        ("cars", DataType::SmallInt),
    ]);
    let schema = schema.unwrap();
    let row = |n: i16| RowBuf::build(&schema, &[format!("ET {n}").into(), n.into()]).unwrap();
    let rows: Vec<RowBuf> = (0..500).map(row).collect();
    thread::scope(|scope| {
        for added in 0..4 {
            let (schema, rows) = (&schema, &rows);
            scope.spawn(move || {
                let mut reader = Reader::all(schema);
                let mut editor = Editor::new(schema);
                for (row, n) in rows.iter().zip(0i16..) {
                    let columns = reader.read(row).unwrap();
                    assert_eq!(columns.get::<&str>("unit").unwrap(), format!("ET {n}"));
                    editor.open(row.as_row());
                    editor.set("cars", n + added).unwrap();
                    let edited = editor.row().get::<i16>(schema, "cars");
                    assert_eq!(edited, Ok(n + added));
                }
            });
        }
    });
}
