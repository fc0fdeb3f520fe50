//! Edits over a handle answer as the plain ones, whatever layout the handle comes with.
use rook_row::raw::{self, Handle, Layout, Refusal};

const SCHEMA: [u8; 5] = [2, 11, 5, 0, 1]; // Int, Varchar(5), SmallInt
const PACKED: Layout = Layout {
    num_columns: 3,
    num_varlen_cols: 1,
    fixed_size: 6,
    packed: 1,
    is_long: 0,
};

#[test]
fn as_the_plain_calls() {
    let odd = Layout {
        num_columns: 99,
        num_varlen_cols: 7,
        fixed_size: 1,
        packed: 0,
        is_long: 5,
    };
    let mut plain = [0xEE; 20];
    let mut length = raw::fresh(&SCHEMA, false, &mut plain).unwrap();
    let mut buf = plain;
    let mut handle = Handle {
        length,
        layout: odd,
    };

    // refused: buffer and handle as they were
    let refused = raw::handle_set_null(&mut handle, &SCHEMA, &mut buf, 3);
    assert_eq!(
        refused,
        Err(Refusal {
            number: 9,
            place: 0
        })
    );
    assert_eq!(
        (buf, handle),
        (
            plain,
            Handle {
                length,
                layout: odd
            }
        )
    );

    // accepted: as the plain call, and the layout is that of the row
    let (list, text) = ([9, 1, 0, 2, 0], b"@AB");
    length = raw::set(&SCHEMA, &mut plain, length, 1, &list, text).unwrap();
    let set = raw::handle_set(&mut handle, &SCHEMA, &mut buf, 1, &list, text);
    assert_eq!(set, Ok(length));
    assert_eq!(
        (buf, handle),
        (
            plain,
            Handle {
                length,
                layout: PACKED
            }
        )
    );

    length = raw::set_null(&SCHEMA, &mut plain, length, 1).unwrap();
    let null = raw::handle_set_null(&mut handle, &SCHEMA, &mut buf, 1);
    assert_eq!(null, Ok(length));
    assert_eq!(
        (buf, handle),
        (
            plain,
            Handle {
                length,
                layout: PACKED
            }
        )
    );
}

#[test]
fn a_length_past_the_buffer() {
    let mut buf = [0; 4];
    let mut handle = Handle {
        length: 5,
        layout: Layout::default(),
    };
    let refused = raw::handle_set_null(&mut handle, &SCHEMA, &mut buf, 0);
    assert_eq!(
        refused,
        Err(Refusal {
            number: 14,
            place: 0
        })
    );
    assert_eq!((buf, handle.length), ([0; 4], 5));
}

// The flag of the row decides: a padded row of SmallInt and Int has two bytes of padding.
#[test]
fn a_padded_row() {
    let schema = [1, 2];
    let mut buf = [2, 0, 0, 0, 0, 7, 0, 0, 0, 1, 0, 0, 0];
    let mut handle = Handle {
        length: 13,
        layout: PACKED,
    };
    assert_eq!(
        raw::handle_set_null(&mut handle, &schema, &mut buf, 0),
        Ok(13)
    );
    assert_eq!(buf, [2, 0, 0, 0, 1, 7, 0, 0, 0, 1, 0, 0, 0]);
    let padded = Layout {
        num_columns: 2,
        num_varlen_cols: 0,
        fixed_size: 8,
        packed: 0,
        is_long: 0,
    };
    assert_eq!((handle.length, handle.layout), (13, padded));
}
