//! Code points of what the Rust stores: the example of 02's first request.

use cases::column::{ColumnType, RustColumns};
use cases::expected::{build, built_points, points, read};
use cases::value::{Record, TextRange, ValueList};

const TYPES: [ColumnType; 4] = [
    ColumnType::Char(5),
    ColumnType::Varchar(5),
    ColumnType::Bit(3),
    ColumnType::Int,
];

const ROW: [u8; 22] = [
    0x04, 0x00, 0x01, 0x80, 0x08, 0x11, 0x00, 0xC3, 0xA9, 0x20, 0x20, 0x20, 0xC0, 0x00, 0x00, 0x00,
    0x00, 0xC3, 0xA9, 0xE2, 0x82, 0xAC,
];

/// "é", "é€", bits 110, null.
fn list() -> ValueList {
    let range = |start, length| TextRange { start, length };
    let records = [
        Record::Char(range(0, 2)),
        Record::Varchar(range(0, 5)),
        Record::Bit(range(5, 1)),
        Record::Null,
    ];
    ValueList::of_records(&records, vec![0xC3, 0xA9, 0xE2, 0x82, 0xAC, 0xC0])
}

#[test]
fn built_and_read() {
    let columns = RustColumns::of(&TYPES).expect("types of the Rust");
    assert_eq!(build(&columns, &list()), Ok(ROW.to_vec()));
    assert_eq!(built_points(&columns, &ROW), [4, 2, 0, 0]);
    let read = |wanted: &[u16]| {
        let values = read(&columns, &ROW, wanted).expect("a built row");
        points(&columns, &ROW, &values)
    };
    assert_eq!(read(&[0, 1, 2, 3]), [4, 2, 0, 0]);
    assert_eq!(read(&[1]), [0, 2, 0, 0]);
    assert_eq!(read(&[]), [0; 4]);
}
