//! The ends of each type, of rows and of schemas.

mod common;

use common::*;
use model::Sort;
use model::edit::sound;
use model::schema::{Type, check};
use model::stored;
use model::text::code_points;
use model::value::Value;

/// Builds a row of one column and reads it back: the stored bytes, what is read,
/// or the number of the refusal.
fn stored_in(ty: Type, value: Value, text: &[u8]) -> Result<(Vec<u8>, Value), u32> {
    let schema = schema(&[ty]);
    let (answer, row) = build(&schema, &[value], text);
    if answer.number != 0 {
        assert_eq!(answer, refused(answer.number, 0, 0));
        assert!(!stored::suits(ty, &value, text));
        return Err(answer.number);
    }
    assert!(stored::suits(ty, &value, text));
    let start = if ty.is_varchar() { 7 } else { 5 };
    let form = row[start..].to_vec();
    assert_eq!(form, stored::write(ty, &value, text));
    let read = read_all(&schema, &row).expect("a built row reads");
    assert_eq!(stored::read(ty, &form, start), Some(read[0]));
    Ok((form, read[0]))
}

/// Whether the value is taken and reads back as it was.
fn kept(ty: Type, value: Value) -> bool {
    match stored_in(ty, value, b"") {
        Ok((_, read)) => {
            assert_eq!(read, value);
            true
        }
        Err(number) => {
            assert_eq!(number, 12);
            false
        }
    }
}

fn numeric_type(precision: u8, scale: u8) -> Type {
    Type::Numeric { precision, scale }
}

#[test]
fn sizes_and_alignments() {
    for (ty, size, alignment) in [
        (Type::SmallInt, Some(2), 2),
        (Type::Int, Some(4), 4),
        (Type::BigInt, Some(8), 8),
        (Type::Real, Some(4), 4),
        (Type::DoublePrecision, Some(8), 8),
        (numeric_type(1, 0), Some(1), 1),
        (numeric_type(2, 0), Some(2), 1),
        (numeric_type(38, 0), Some(20), 1),
        (Type::Bool, Some(1), 1),
        (Type::Char(0), Some(0), 1),
        (Type::Character(9), Some(9), 1),
        (Type::Varchar(9), None, 1),
        (Type::VarcharChars(9), None, 1),
        (Type::Date, Some(4), 4),
        (Type::Time, Some(8), 8),
        (Type::Bit(0), Some(0), 1),
        (Type::Bit(9), Some(2), 1),
        (Type::Timestamp, Some(8), 8),
    ] {
        assert_eq!((ty.fixed_size(), ty.alignment()), (size, alignment));
        // A Bool and the column, padded: the minimum tells the start.
        let minimum = model::layout::Layout::padded(&[Type::Bool, ty], Sort::Short).minimum;
        let fixed = size.map_or(2 + 1, |size| alignment + size);
        assert_eq!(minimum, 5 + fixed, "{ty:?}");
    }
}

#[test]
fn integers_and_floats() {
    for v in [i16::MIN, -1, 0, 1, i16::MAX] {
        assert!(kept(Type::SmallInt, Value::SmallInt(v)));
    }
    for v in [i32::MIN, -1, 0, 1, i32::MAX] {
        assert!(kept(Type::Int, Value::Int(v)));
    }
    for v in [i64::MIN, -1, 0, 1, i64::MAX] {
        assert!(kept(Type::BigInt, Value::BigInt(v)));
    }
    // The bits, also those of a NaN.
    for bits in [
        0,
        0x8000_0000,
        0x7F80_0000,
        0x7FC0_0000,
        0x7F80_0001,
        u32::MAX,
    ] {
        assert!(kept(Type::Real, Value::Real(bits)));
    }
    for bits in [0, 1 << 63, 0x7FF0_0000_0000_0001, u64::MAX] {
        assert!(kept(Type::DoublePrecision, Value::DoublePrecision(bits)));
    }
}

#[test]
fn numeric_digits() {
    for precision in 1..=38 {
        let most = 10_i128.pow(precision.into()) - 1;
        for ty in [
            numeric_type(precision, 1),
            Type::Decimal {
                precision,
                scale: 1,
            },
        ] {
            for unscaled in [most, -most, 0, 1, -1] {
                assert!(kept(ty, numeric(unscaled, 1)), "{unscaled} in {ty:?}");
            }
            for unscaled in [most + 1, -most - 1, i128::MAX, i128::MIN] {
                assert!(!kept(ty, numeric(unscaled, 1)), "{unscaled} in {ty:?}");
            }
            for scale in [0, 2, 255] {
                assert!(!kept(ty, numeric(0, scale)));
            }
        }
    }
    let nines = numeric(10_i128.pow(38) - 1, 0);
    let form = [vec![0x09], vec![0x99; 18], vec![0x9C]].concat();
    let stored = stored_in(numeric_type(38, 0), nines, b"");
    assert_eq!(stored, Ok((form, nines)));
    // D only below zero.
    let zero = stored_in(numeric_type(1, 0), numeric(0, 0), b"");
    assert_eq!(zero, Ok((hex("0C"), numeric(0, 0))));
    let below = stored_in(numeric_type(1, 0), numeric(-9, 0), b"");
    assert_eq!(below, Ok((hex("9D"), numeric(-9, 0))));
    // Other kinds of the same bytes.
    let date = build(&schema(&[numeric_type(1, 0)]), &[Value::Int(1)], b"");
    assert_eq!(date.0, refused(11, 0, 0));
}

#[test]
fn numeric_read() {
    let read = |precision, form: &str| stored::read(numeric_type(precision, 1), &hex(form), 0);
    assert_eq!(read(1, "1C"), Some(numeric(1, 1)));
    // A negative zero is 0.
    assert_eq!(read(1, "0D"), Some(numeric(0, 1)));
    // Neither C nor D; no digit.
    for form in ["10", "19", "1A", "1B", "1E", "1F", "AC", "FD"] {
        assert_eq!(read(1, form), None, "{form}");
    }
    // The front nibble of an even precision is not looked at.
    assert_eq!(read(2, "F1 2C"), Some(numeric(12, 1)));
    assert_eq!(read(2, "01 2C"), Some(numeric(12, 1)));
    assert_eq!(read(3, "F1 2C"), None);
}

#[test]
fn numeric_fallback() {
    let form = |unscaled: i128, scale: u8| [&unscaled.to_le_bytes()[..], &[scale]].concat();
    for precision in [32, 33] {
        let ty = numeric_type(precision, 2);
        let read = |form: &[u8]| stored::read(ty, form, 0);
        assert_eq!(ty.fixed_size(), Some(17));
        // Its own scale byte, if that is no sign.
        for unscaled in [i128::MIN, -1, 0, i128::MAX] {
            for scale in [0, 2, 38, 255] {
                let value = numeric(unscaled, scale);
                assert_eq!(read(&form(unscaled, scale)), Some(value));
            }
        }
        // Digits and sign come first.
        assert_eq!(read(&form(0, 0x1C)), Some(numeric(1, 2)));
        assert_eq!(read(&form(0, 0x1D)), Some(numeric(-1, 2)));
        // A sign, but a digit fails.
        assert_eq!(read(&form(0x0A00, 0x1C)), Some(numeric(0x0A00, 0x1C)));
        assert_eq!(read(&form(0, 0xAC)), Some(numeric(0, 0xAC)));
    }
    // The front nibble, looked at for 33 only.
    let front = form(0xF0, 0x1C);
    assert_eq!(
        stored::read(numeric_type(32, 0), &front, 0),
        Some(numeric(1, 0))
    );
    assert_eq!(
        stored::read(numeric_type(33, 0), &front, 0),
        Some(numeric(0xF0, 0x1C))
    );
    // No fallback for other lengths.
    assert_eq!(stored::read(numeric_type(31, 0), &[0; 16], 0), None);
    assert_eq!(stored::read(numeric_type(34, 0), &[0; 18], 0), None);
    // Sound, though the value may not be written back.
    let types = [numeric_type(32, 2), Type::Bool];
    let row = [hex("02 00 00 80 00"), form(i128::MIN, 9), vec![1]].concat();
    assert!(sound(&types, &row));
    let (answer, _) = set(&schema(&types), &row, 1, Value::Bool(0), b"");
    assert_eq!(answer, done(row.len()));
    let (answer, _) = set(&schema(&types), &row, 0, numeric(i128::MIN, 9), b"");
    assert_eq!(answer, refused(12, 0, row.len()));
}

#[test]
fn bool() {
    assert!(kept(Type::Bool, Value::Bool(0)));
    assert!(kept(Type::Bool, Value::Bool(1)));
    assert!(!kept(Type::Bool, Value::Bool(2)));
    assert!(!kept(Type::Bool, Value::Bool(255)));
    for byte in 0..=255 {
        let read = stored::read(Type::Bool, &[byte], 0);
        assert_eq!(read, Some(Value::Bool(u8::from(byte != 0))));
    }
}

#[test]
fn dates_and_timestamps() {
    let date = |days: i32| {
        let read = stored::read(Type::Date, &days.to_le_bytes(), 0);
        let taken = kept(Type::Date, Value::Date(days));
        assert_eq!(read, taken.then_some(Value::Date(days)));
        taken
    };
    assert!([-719_162, 0, 2_932_896].into_iter().all(date));
    assert!(
        ![-719_163, 2_932_897, i32::MIN, i32::MAX]
            .into_iter()
            .any(date)
    );
    let timestamp = |count: i64| {
        let read = stored::read(Type::Timestamp, &count.to_le_bytes(), 0);
        let taken = kept(Type::Timestamp, Value::Timestamp(count));
        assert_eq!(read, taken.then_some(Value::Timestamp(count)));
        taken
    };
    let least = -62_135_596_800_000_000;
    let most = 253_402_300_799_999_999;
    assert!([least, -1, 0, most].into_iter().all(timestamp));
    assert!(
        ![least - 1, most + 1, i64::MIN, i64::MAX]
            .into_iter()
            .any(timestamp)
    );
}

#[test]
fn times() {
    let written = |count| kept(Type::Time, Value::Time(count));
    assert!([0, 1, 86_399_999_999].into_iter().all(written));
    let turn = 4_294_967_296_000_000;
    let past = [-1, 86_400_000_000, turn, i64::MIN, i64::MAX];
    assert!(!past.into_iter().any(written));
    let read = |count: i64| match stored::read(Type::Time, &count.to_le_bytes(), 0) {
        Some(Value::Time(count)) => Some(count),
        other => {
            assert_eq!(other, None);
            None
        }
    };
    assert_eq!(read(0), Some(0));
    assert_eq!(read(turn - 1), None);
    assert_eq!(read(turn), Some(0));
    assert_eq!(read(turn + 86_399_999_999), Some(86_399_999_999));
    assert_eq!(read(turn + 86_400_000_000), None);
    assert_eq!(read(-turn), Some(0));
    assert_eq!(read(-turn + 5), None);
    assert_eq!(read(-turn + 5_000_000), Some(5_000_000));
    assert_eq!(read(-999_999), None);
    assert_eq!(read(-1_000_000), None);
    assert_eq!(read(-2 * turn), Some(0));
    assert_eq!(read(i64::MIN), None);
    assert_eq!(read(i64::MAX), None);
}

#[test]
fn char_blanks() {
    let char =
        |n, length, text: &[u8]| stored_in(Type::Char(n), Value::Char(range(0, length)), text);
    let whole = |bytes: &[u8]| Ok((bytes.to_vec(), Value::Char(range(5, bytes.len()))));
    assert_eq!(char(3, 0, b""), whole(b"   "));
    assert_eq!(char(3, 1, b"A"), whole(b"A  "));
    assert_eq!(char(3, 3, b"ABC"), whole(b"ABC"));
    assert_eq!(char(3, 3, b"A  "), whole(b"A  "));
    assert_eq!(char(3, 4, b"ABCD"), Err(12));
    assert_eq!(char(3, 4, b"AB  "), Err(12));
    // n counts bytes.
    assert_eq!(char(3, 2, "é".as_bytes()), whole("é ".as_bytes()));
    assert_eq!(char(1, 2, "é".as_bytes()), Err(12));
    assert_eq!(char(3, 1, b"\xC3\xA9"), Err(12));
    let character = stored_in(Type::Character(2), Value::Char(range(0, 1)), b"A");
    assert_eq!(character, whole(b"A "));
    // n = 0.
    assert_eq!(char(0, 0, b""), whole(b""));
    assert_eq!(char(0, 1, b"A"), Err(12));
}

#[test]
fn varchar_lengths() {
    let varchar = |n, length, text: &[u8]| {
        let stored = stored_in(Type::Varchar(n), Value::Varchar(range(0, length)), text)?;
        assert_eq!(stored.1, Value::Varchar(range(7, stored.0.len())));
        Ok(stored.0)
    };
    assert_eq!(varchar(0, 0, b""), Ok(vec![]));
    assert_eq!(varchar(0, 1, b"A"), Err::<Vec<u8>, u32>(12));
    assert_eq!(varchar(2, 2, "é".as_bytes()), Ok("é".as_bytes().to_vec()));
    assert_eq!(varchar(1, 2, "é".as_bytes()), Err(12));
    assert_eq!(varchar(2, 1, b"\xE9\x00"), Err(12));
}

#[test]
fn bits() {
    let bit = |n, bytes: &[u8]| {
        let value = Value::Bit(range(0, bytes.len()));
        let stored = stored_in(Type::Bit(n), value, bytes)?;
        assert_eq!(stored.1, Value::Bit(range(5, stored.0.len())));
        Ok(stored.0)
    };
    // Spare bits are cleared, not refused.
    assert_eq!(bit(1, &[0xFF]), Ok(vec![0x80]));
    assert_eq!(bit(7, &[0xFF]), Ok(vec![0xFE]));
    assert_eq!(bit(8, &[0xFF]), Ok(vec![0xFF]));
    assert_eq!(bit(9, &[0xA5, 0xFF]), Ok(vec![0xA5, 0x80]));
    // Exactly the bytes that n bits fill.
    assert_eq!(bit(0, &[]), Ok(vec![]));
    assert_eq!(bit(0, &[0]), Err::<Vec<u8>, u32>(12));
    assert_eq!(bit(1, &[]), Err(12));
    assert_eq!(bit(8, &[0, 0]), Err(12));
    assert_eq!(bit(9, &[0]), Err(12));
    let most = vec![0xFF; 8192];
    assert_eq!(bit(65_535, &most).map(|form| form[8191]), Ok(0xFE));
    // Stored spare bits are handed out and not compared.
    let ty = [Type::Bit(9)];
    let (a, b) = (hex("01 00 00 80 00 A5 80"), hex("01 00 00 80 00 A5 FF"));
    assert_eq!(
        read_all(&schema(&ty), &b),
        Ok(vec![Value::Bit(range(5, 2))])
    );
    assert_eq!(model::same_content(&schema(&ty), &a, &b), flag(0, 0, 1));
    let c = hex("01 00 00 80 00 A5 7F");
    assert_eq!(model::same_content(&schema(&ty), &a, &c), flag(0, 0, 0));
}

#[test]
fn columns_256() {
    let types = vec![Type::Bool; 256];
    let bytes = schema(&types);
    assert_eq!(check(&bytes, Sort::Short), Ok(types.clone()));
    let (answer, row) = fresh(&bytes, ROOM);
    assert_eq!(answer, done(4 + 32 + 256));
    assert_eq!(row[..4], hex("00 01 00 80"));
    assert!(row[4..36].iter().all(|&byte| byte == 0xFF));
    let (answer, row) = set(&bytes, &row, 255, Value::Bool(1), b"");
    assert_eq!(answer, done(row.len()));
    assert_eq!(row[35], 0x7F);
    assert_eq!(model::is_null(&row, 255), flag(0, 0, 0));
    assert_eq!(model::is_null(&row, 254), flag(0, 0, 1));
    assert_eq!(set_null(&bytes, &row, 256).0, refused(9, 0, row.len()));
    let more = [&bytes[..], &[8]].concat();
    assert_eq!(check(&more, Sort::Short), Err((2, 256)));
    // 256 Varchars.
    let bytes = schema(&vec![Type::Varchar(1); 256]);
    let (answer, row) = fresh(&bytes, ROOM);
    assert_eq!(answer, done(4 + 32 + 512));
    assert_eq!(row[..4], hex("00 01 00 81"));
}

#[test]
fn padded_minimum() {
    let of = |n| [Type::Bool, Type::BigInt, Type::Char(n), Type::Varchar(1)];
    // Header 4, bitmap 1, table 2; then 1, seven bytes of padding, 8, n.
    let most = LIMIT - 7 - 16;
    assert_eq!(
        check(&schema(&of(most)), Sort::Short),
        Ok(of(most).to_vec())
    );
    // The packed minimum is within the limit, the padded one is not.
    let above = schema(&of(most + 1));
    assert_eq!(check(&above, Sort::Short), Err((2, above.len())));
    let (answer, _) = fresh(&schema(&of(most)), ROOM);
    assert_eq!(answer, done(LIMIT - 7));
    // Padding after the last column is not counted.
    let end = [Type::BigInt, Type::Char(LIMIT - 5 - 8)];
    assert_eq!(check(&schema(&end), Sort::Short), Ok(end.to_vec()));
}

#[test]
fn no_columns() {
    let row = hex("00 00 00 80");
    assert_eq!(fresh(&[], ROOM), (done(4), row.clone()));
    assert_eq!(build(&[], &[], b""), (done(4), row.clone()));
    assert_eq!(build(&[], &[Value::Null], b"").0, refused(10, 1, 0));
    assert_eq!(read_in(&[], &row, &[0, 65_535], 0), (done(0), vec![]));
    assert_eq!(read_all(&[], &hex("00 00 00 00")), Ok(vec![]));
    assert_eq!(read_all(&[], &hex("00 00 00 80 00")), Ok(vec![]));
    assert_eq!(
        model::same_content(&[], &row, &hex("00 00 00 00 FF")),
        flag(0, 0, 1)
    );
    assert_eq!(set_null(&[], &row, 0).0, refused(9, 0, 4));
    let longer = hex("00 00 00 80 00");
    assert_eq!(set_null(&[], &longer, 0).0, refused(15, 0, 5));
    assert_eq!(model::text(&[], &row, 0), part(9, 0, 0, 0));
}

#[test]
fn rows_of_65_535() {
    let bytes = schema(&[Type::Varchar(LIMIT), Type::Varchar(9)]);
    let text = vec![b'x'; LIMIT];
    let long = LIMIT - 9;
    let values = [Value::Varchar(range(0, long)), Value::Varchar(range(0, 0))];
    // The empty text starts at the row's end.
    let row = built(&bytes, &values, &text);
    assert_eq!(row.len(), LIMIT);
    assert_eq!(row[7..9], [0xFF, 0xFF]);
    let read = vec![
        Value::Varchar(range(9, long)),
        Value::Varchar(range(LIMIT, 0)),
    ];
    assert_eq!(read_all(&bytes, &row), Ok(read));
    assert_eq!(model::text(&bytes, &row, 1), part(0, 0, LIMIT, 0));
    let one = Value::Varchar(range(0, 1));
    assert_eq!(set(&bytes, &row, 1, one, b"x").0, refused(13, 0, LIMIT));
    let (answer, row) = set_null(&bytes, &row, 0);
    assert_eq!((answer, row), (done(9), hex("02 00 02 80 01 00 00 09 00")));
}

#[test]
fn offsets() {
    let types = [Type::Varchar(9), Type::Varchar(9)];
    let bytes = schema(&types);
    let read = |row: &str| read_all(&bytes, &hex(row));
    let varchar = |start, length| Value::Varchar(range(start, length));
    // Offset 0 and a clear bit: null to a read, not sound.
    let row = "02 00 02 80 00 00 00 09 00 41";
    assert_eq!(read(row), Ok(vec![Value::Null, varchar(9, 1)]));
    assert!(!sound(&types, &hex(row)));
    assert_eq!(model::text(&bytes, &hex(row), 0), part(0, 0, 0, 0));
    assert_eq!(model::is_null(&hex(row), 0), flag(0, 0, 0));
    let other = hex("02 00 02 80 01 00 00 09 00 41");
    assert!(sound(&types, &other));
    assert_eq!(
        model::same_content(&bytes, &hex(row), &other),
        flag(0, 0, 1)
    );
    // A set bit and an offset: null, not sound; the offset still ends the range
    // before it.
    let row = "02 00 02 80 02 09 00 0A 00 41 42";
    assert_eq!(read(row), Ok(vec![varchar(9, 1), Value::Null]));
    assert!(!sound(&types, &hex(row)));
    // Inside the header: read from there, not sound.
    let row = "02 00 02 80 00 01 00 03 00";
    assert_eq!(read(row), Err((8, 1)));
    let row = "02 00 02 00 00 01 00 03 00";
    assert_eq!(read(row), Ok(vec![varchar(1, 2), varchar(3, 6)]));
    assert!(!sound(&types, &hex(row)));
    // A first offset above the minimum: read, not sound.
    let row = "02 00 02 80 00 0A 00 0A 00 41 42";
    assert_eq!(read(row), Ok(vec![varchar(10, 0), varchar(10, 1)]));
    assert!(!sound(&types, &hex(row)));
    // All null and longer than the minimum: read, not sound.
    let row = "02 00 02 80 03 00 00 00 00 41";
    assert_eq!(read(row), Ok(vec![Value::Null; 2]));
    assert!(!sound(&types, &hex(row)));
    assert!(sound(&types, &hex("02 00 02 80 03 00 00 00 00")));
}

#[test]
fn edits_move_offsets() {
    let types = [
        Type::Varchar(9),
        Type::Varchar(9),
        Type::Varchar(9),
        Type::Int,
    ];
    let bytes = schema(&types);
    let row = hex("04 00 03 80 02 0F 00 00 00 11 00 07 00 00 00 41 42 43");
    assert!(sound(&types, &row));
    // The null's offset stays 0, the later one moves.
    let (answer, longer) = set(&bytes, &row, 0, Value::Varchar(range(0, 4)), b"WXYZ");
    assert_eq!(answer, done(20));
    let wanted = hex("04 00 03 80 02 0F 00 00 00 13 00 07 00 00 00 57 58 59 5A 43");
    assert_eq!(longer, wanted);
    let (_, shorter) = set(&bytes, &row, 0, Value::Varchar(range(0, 0)), b"");
    let wanted = hex("04 00 03 80 02 0F 00 00 00 0F 00 07 00 00 00 43");
    assert_eq!(shorter, wanted);
    // A null in the middle gets its text between the others.
    let (_, filled) = set(&bytes, &row, 1, Value::Varchar(range(0, 1)), b"M");
    let wanted = hex("04 00 03 80 00 0F 00 11 00 12 00 07 00 00 00 41 42 4D 43");
    assert_eq!(filled, wanted);
    // A set of a fixed column, and null: the slot stays.
    let (_, null) = set_null(&bytes, &row, 3);
    let wanted = hex("04 00 03 80 0A 0F 00 00 00 11 00 07 00 00 00 41 42 43");
    assert_eq!(null, wanted);
    // Set null of a null changes nothing.
    assert_eq!(set_null(&bytes, &row, 1), (done(18), row.clone()));
    assert_eq!(set_null(&bytes, &null, 3), (done(18), null.clone()));
}

#[test]
fn padded_rows() {
    let types = [Type::Bool, Type::Int, Type::Varchar(3), Type::SmallInt];
    let bytes = schema(&types);
    // Bool at 7, Int at 11, SmallInt at 15; spare bits and padding set.
    let row = hex("04 00 01 00 F0 11 00 01 FF FF FF 02 00 00 00 03 00 41");
    let values = vec![
        Value::Bool(1),
        Value::Int(2),
        Value::Varchar(range(17, 1)),
        Value::SmallInt(3),
    ];
    assert_eq!(read_all(&bytes, &row), Ok(values));
    assert!(sound(&types, &row));
    // A padded row stays padded; padding and spare bits stay as they are.
    let (_, edited) = set(&bytes, &row, 1, Value::Int(-1), b"");
    let wanted = hex("04 00 01 00 F0 11 00 01 FF FF FF FF FF FF FF 03 00 41");
    assert_eq!(edited, wanted);
    let (_, edited) = set_null(&bytes, &row, 2);
    let wanted = hex("04 00 01 00 F4 00 00 01 FF FF FF 02 00 00 00 03 00");
    assert_eq!(edited, wanted);
    // The same bytes with the flag set are another row.
    let mut packed = row.clone();
    packed[3] = 0x80;
    let read = read_all(&bytes, &packed).expect("a row");
    assert_eq!(read[1], Value::Int(0x02FF_FFFF));
    assert!(!sound(&types, &packed));
    // The same content, packed.
    let packed = hex("04 00 01 80 00 0E 00 01 02 00 00 00 03 00 41");
    assert_eq!(model::same_content(&bytes, &row, &packed), flag(0, 0, 1));
}

#[test]
fn floats_the_same() {
    let bytes = schema(&[Type::Real, Type::DoublePrecision]);
    let row = |real, double| {
        built(
            &bytes,
            &[Value::Real(real), Value::DoublePrecision(double)],
            b"",
        )
    };
    let same = |a: (u32, u64), b: (u32, u64)| {
        model::same_content(&bytes, &row(a.0, a.1), &row(b.0, b.1)).flag == 1
    };
    let zeros = (0, 0);
    assert!(same(zeros, (1 << 31, 1 << 63)));
    assert!(!same(zeros, (1, 0)));
    assert!(!same(zeros, (0, 1)));
    let nan = (0x7FC0_0000, 0x7FF8_0000_0000_0000);
    assert!(same(nan, (0xFF80_0001, 0xFFFF_FFFF_FFFF_FFFF)));
    let infinite = (0x7F80_0000, 0x7FF0_0000_0000_0000);
    assert!(same(infinite, infinite));
    assert!(!same(infinite, nan));
    assert!(!same(infinite, (0xFF80_0000, infinite.1)));
}

#[test]
fn numerics_the_same() {
    let same = |ty, a: &str, b: &str| {
        let (a, b) = (hex(a), hex(b));
        let rows = [&a, &b].map(|form| [hex("01 00 00 80 00"), form.clone()].concat());
        model::same_content(&schema(&[ty]), &rows[0], &rows[1])
    };
    assert_eq!(same(numeric_type(1, 0), "0C", "0D"), flag(0, 0, 1));
    assert_eq!(same(numeric_type(1, 0), "1C", "1D"), flag(0, 0, 0));
    assert_eq!(same(numeric_type(2, 0), "F1 2C", "01 2C"), flag(0, 0, 1));
    // One in digits, one in two's complement: by number and scale.
    let one = format!("{}1C", "00".repeat(16));
    let fallback = |scale: &str| format!("01{}{scale}", "00".repeat(15));
    let ty = numeric_type(32, 2);
    assert_eq!(same(ty, &one, &fallback("02")), flag(0, 0, 1));
    assert_eq!(same(ty, &one, &fallback("03")), flag(0, 0, 0));
}

#[test]
fn wanted_columns() {
    let read = |wanted: &[u16]| read_in(&s(), &row_2(), wanted, ROOM).1;
    assert_eq!(read(&[]), hex("00 00 00"));
    assert_eq!(read(&[3, 256, 65_535]), hex("00 00 00"));
    assert_eq!(read(&[0]), hex("02 01 00 00 00 00 00"));
    // Any order, repeats.
    assert_eq!(read(&[1, 0, 1, 1, 0]), read(&[0, 1, 2]));
    let many: Vec<u16> = (0..=u16::MAX).rev().collect();
    assert_eq!(read(&many), read(&[0, 1, 2]));
}

#[test]
fn text_by_the_grammar() {
    // Bytes at the ends of all ranges of the grammar, up to four of them.
    let ends = [
        0x00, 0x7F, 0x80, 0x8F, 0x90, 0x9F, 0xA0, 0xBF, 0xC0, 0xC1, 0xC2, 0xDF, 0xE0, 0xE1, 0xEC,
        0xED, 0xEE, 0xEF, 0xF0, 0xF1, 0xF3, 0xF4, 0xF5, 0xFF,
    ];
    let mut texts: Vec<Vec<u8>> = vec![vec![]];
    for _ in 0..4 {
        let longer = |text: &Vec<u8>| ends.map(|end| [&text[..], &[end]].concat());
        texts = texts.iter().flat_map(longer).collect();
        for text in &texts {
            let wanted = std::str::from_utf8(text).ok();
            let wanted = wanted.map(|text| text.chars().count());
            assert_eq!(code_points(text), wanted, "{text:X?}");
        }
    }
    // The examples of RFC 3629, section 7.
    for (text, points) in [
        ("41 E2 89 A2 CE 91 2E", 4),
        ("ED 95 9C EA B5 AD EC 96 B4", 3),
        ("E6 97 A5 E6 9C AC E8 AA 9E", 3),
        ("EF BB BF F0 A3 8E B4", 2),
    ] {
        assert_eq!(code_points(&hex(text)), Some(points));
    }
    assert_eq!(code_points(b""), Some(0));
}
