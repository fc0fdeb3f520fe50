//! Reader, builder and editor allocate nothing once they have had their longest row.
use rook_row::{Builder, DataType, Editor, Reader, RowRef, Schema, Sort, Timestamp, Value};
use std::alloc::{GlobalAlloc, Layout, System};
use std::sync::atomic::{AtomicUsize, Ordering};

/// The system's allocator, with a count.
struct Counting;

static COUNT: AtomicUsize = AtomicUsize::new(0);

// SAFETY: every call is handed on to the system's allocator as it is.
unsafe impl GlobalAlloc for Counting {
    unsafe fn alloc(&self, layout: Layout) -> *mut u8 {
        COUNT.fetch_add(1, Ordering::Relaxed);
        System.alloc(layout)
    }

    unsafe fn dealloc(&self, place: *mut u8, layout: Layout) {
        System.dealloc(place, layout);
    }
}

#[global_allocator]
static ALLOCATOR: Counting = Counting;

fn allocations(mut work: impl FnMut()) -> usize {
    let before = COUNT.load(Ordering::Relaxed);
    work();
    COUNT.load(Ordering::Relaxed) - before
}

// One test, so that no other thread allocates meanwhile.
#[test]
fn none_in_a_loop() {
    let schema = Schema::new([
        ("platform", DataType::Varchar(20)),
        ("arrival", DataType::Timestamp),
        ("cars", DataType::SmallInt),
    ])
    .unwrap();
    for sort in [Sort::Short, Sort::Long] {
        none_with(&schema, sort);
    }
}

fn none_with(schema: &Schema, sort: Sort) {
    let format = schema.with_sort(sort);
    let values: [Value; 3] = ["platform 7".into(), Timestamp::MIN.into(), 4i16.into()];
    let mut builder = Builder::new(format);
    let page = builder.build(&values).unwrap().to_owned();
    let mut reader = Reader::new(schema, &["cars", "platform"]).unwrap();
    let mut editor = Editor::new(format);
    let mut round = || {
        let row = builder.build(&values).unwrap();
        let columns = reader.read(row).unwrap();
        assert!(columns
            .iter()
            .eq([values[2].borrowed(), values[0].borrowed()]));
        assert_eq!(columns.get::<&str>("platform"), Ok("platform 7"));
        assert!(columns.widths().eq([0, 10]));
        let (row, widths) = builder.build_with_widths(&values).unwrap();
        assert_eq!(widths, [10, 0, 0]);
        editor.open(row);
        editor.set("platform", "platform 12 b").unwrap();
        editor.set("cars", None::<i16>).unwrap();
        let row = RowRef::new(page.as_bytes());
        assert_eq!(row.get::<i16>(schema, "cars"), Ok(4));
        assert_eq!(row.text(schema, 0), Ok(Some("platform 7")));
        let wide = row.get_with_width::<&str>(schema, 0);
        assert_eq!(wide, Ok(("platform 7", 10)));
    };
    round();
    assert_eq!(allocations(|| (0..100).for_each(|_| round())), 0);
    assert!(allocations(|| drop(page.clone())) > 0);
}
