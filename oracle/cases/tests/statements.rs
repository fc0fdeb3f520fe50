//! What 01 says of the Rust, seen in the Rust: the worked rows, the rules for
//! reading, the Rust's column of the table.

use cases::column::{RustColumns, of_rust_types};
use cases::layout::Layout;
use cases::rng::Rng;
use cases::row::is_sound;
use cases::rust::{self, Outcome};
use cases::value::{DATES, Record, TIMESTAMPS, ValueList};
use rookdb::types::datatype::DataType;
use rookdb::types::value::{DataValue, NumericValue};

/// 01's S: Int, Varchar(5), SmallInt.
const S: [DataType; 3] = [DataType::Int, DataType::Varchar(5), DataType::SmallInt];

/// 01's row 2: S of 1, "AB", null.
const ROW_2: [u8; 15] = [
    0x03, 0x00, 0x01, 0x80, 0x04, 0x0D, 0x00, 0x01, 0x00, 0x00, 0x00, 0x00, 0x00, 0x41, 0x42,
];

fn varchar(text: &str) -> DataValue {
    DataValue::Varchar(text.to_string())
}

fn numeric(unscaled: i128, scale: u8) -> DataValue {
    DataValue::numeric(NumericValue { unscaled, scale })
}

fn numeric_type(precision: u8, scale: u8) -> DataType {
    DataType::Numeric { precision, scale }
}

/// A packed row of one fixed column with this slot.
fn row_of(slot: &[u8]) -> Vec<u8> {
    [&[1, 0, 0, 0x80, 0], slot].concat()
}

/// The value read from this slot.
fn read_slot(ty: DataType, slot: &[u8]) -> Outcome<DataValue> {
    match rust::read_all(&[ty], &row_of(slot)) {
        Outcome::Ok(mut values) => Outcome::Ok(values.remove(0).expect("a value")),
        Outcome::TypeMismatch => Outcome::TypeMismatch,
        other => panic!("{other:?}"),
    }
}

/// The value as it is shown, or `None` for a `TypeMismatch`.
fn shown(ty: DataType, slot: &[u8]) -> Option<String> {
    match read_slot(ty, slot) {
        Outcome::Ok(value) => Some(value.to_string()),
        _ => None,
    }
}

#[test]
fn cases_1_to_4() {
    let fresh = [3, 0, 1, 0x80, 7, 0, 0, 0, 0, 0, 0, 0, 0];
    assert_eq!(rust::fresh(&S), Outcome::Ok(fresh.to_vec()));

    let values = [Some(DataValue::Int(1)), Some(varchar("AB")), None];
    assert_eq!(rust::build(&S, &values), Outcome::Ok(ROW_2.to_vec()));
    assert_eq!(rust::read_all(&S, &ROW_2), Outcome::Ok(values.to_vec()));
    let row = rust::set(&S, &fresh, 0, &DataValue::Int(1)).ok().unwrap();
    let row = rust::set(&S, &row, 1, &varchar("AB"));
    assert_eq!(row, Outcome::Ok(ROW_2.to_vec()));

    let empty = rust::set(&S, &ROW_2, 1, &varchar(""));
    assert_eq!(empty, Outcome::Ok(ROW_2[..13].to_vec()));

    let mut null = ROW_2[..13].to_vec();
    null[4..7].copy_from_slice(&[6, 0, 0]);
    assert_eq!(rust::set_null(&S, &ROW_2, 1), Outcome::Ok(null));
}

#[test]
fn case_5() {
    let types = [DataType::SmallInt, DataType::Int];
    assert_eq!(Layout::packed(&of_rust_types(&types)).minimum, 11);
    assert_eq!(Layout::padded(&of_rust_types(&types)).minimum, 13);
    // The Rust reads from the minimum on.
    for (field, minimum) in [(0x80, 11), (0, 13)] {
        let mut row = vec![2, 0, 0, field, 0];
        row.resize(minimum, 0);
        assert!(matches!(rust::read_all(&types, &row), Outcome::Ok(_)));
        row.truncate(minimum - 1);
        assert_eq!(rust::read_all(&types, &row), Outcome::Internal);
    }
}

#[test]
fn case_6() {
    let examples: [(DataType, DataValue, &[u8]); 2] = [
        (numeric_type(4, 2), numeric(-1234, 2), &[0x01, 0x23, 0x4D]),
        (numeric_type(3, 0), numeric(7, 0), &[0x00, 0x7C]),
    ];
    for (ty, value, slot) in examples {
        let row = rust::build(std::slice::from_ref(&ty), &[Some(value.clone())]);
        assert_eq!(row, Outcome::Ok(row_of(slot)));
        assert_eq!(read_slot(ty, slot), Outcome::Ok(value));
    }
}

/// 01's rule for a stored Time, in microseconds.
fn time(stored: i64) -> Option<i64> {
    let (quotient, remainder) = (stored / 1_000_000, stored % 1_000_000);
    let seconds = quotient.rem_euclid(1 << 32);
    (remainder >= 0 && seconds < 86_400).then_some(seconds * 1_000_000 + remainder)
}

#[test]
fn case_7_and_the_time_rule() {
    let midnight = Some("00:00:00.000000".to_string());
    let last = Some("23:59:59.999999".to_string());
    let examples = [
        (86_399_999_999, last),
        (86_400_000_000, None),
        (-1, None),
        (4_294_967_296_000_000, midnight.clone()),
        (-4_294_967_296_000_000, midnight),
    ];
    for (stored, value) in examples {
        let stored: i64 = stored;
        assert_eq!(shown(DataType::Time, &stored.to_le_bytes()), value);
    }

    let mut rng = Rng::new(1);
    let mut counts = [0; 4];
    for _ in 0..200_000 {
        let turns = rng.between_i64(-2_147, 2_147) * 4_294_967_296_000_000;
        let near = turns + rng.between_i64(-90_000_000_000, 90_000_000_000);
        let any = rng.next_u64() as i64;
        let stored = rng.pick(&[near, near / 1_000_000 * 1_000_000, any]);
        let read = read_slot(DataType::Time, &stored.to_le_bytes()).ok();
        let list = ValueList::of_rust(&[read]).unwrap();
        let expected = time(stored).map_or(Record::Null, Record::Time);
        assert_eq!(list.records(1), Ok(vec![expected]), "{stored}");
        let refused = expected == Record::Null;
        counts[usize::from(refused) * 2 + usize::from(stored < 0)] += 1;
    }
    assert!(counts.iter().all(|&count| count > 1000), "{counts:?}");
}

/// The ends of 01's dates and timestamps are those of the years 1 to 9999. The
/// Rust itself reads on, to chrono's ends: that 2,932,897 gives 8 is 01's.
#[test]
fn case_8_and_the_ends_of_dates() {
    let date = |days: i32| shown(DataType::Date, &days.to_le_bytes());
    assert_eq!(date(*DATES.end()).unwrap(), "9999-12-31");
    assert_eq!(date(*DATES.start()).unwrap(), "0001-01-01");
    assert_eq!(date(DATES.end() + 1).unwrap(), "+10000-01-01");
    assert_eq!(date(DATES.start() - 1).unwrap(), "0000-12-31");
    assert_eq!((date(i32::MIN), date(i32::MAX)), (None, None));
    let timestamp = |micros: i64| shown(DataType::Timestamp, &micros.to_le_bytes());
    let ends = [
        (*TIMESTAMPS.start(), "0001-01-01 00:00:00.000000"),
        (*TIMESTAMPS.end(), "9999-12-31 23:59:59.999999"),
        (TIMESTAMPS.start() - 1, "0000-12-31 23:59:59.999999"),
        (TIMESTAMPS.end() + 1, "+10000-01-01 00:00:00.000000"),
    ];
    for (micros, value) in ends {
        assert_eq!(timestamp(micros).unwrap(), value);
    }
    assert_eq!((timestamp(i64::MIN), timestamp(i64::MAX)), (None, None));
}

#[test]
fn case_9() {
    let read = |text: &[u8]| {
        let types = [DataType::Varchar(4)];
        let row = [&[1, 0, 1, 0x80, 0, 7, 0], text].concat();
        let varchar = rust::read_all(&types, &row);
        let fixed = read_slot(DataType::Char(text.len() as u16), text);
        assert_eq!(
            varchar == Outcome::TypeMismatch,
            fixed == Outcome::TypeMismatch
        );
        varchar
    };
    for text in [&b"\xED\xA0\x80"[..], b"\xC0\x80", b"\xF4\x90\x80\x80"] {
        assert_eq!(read(text), Outcome::TypeMismatch);
    }
    let last = varchar("\u{10FFFF}");
    assert_eq!(read(b"\xF4\x8F\xBF\xBF"), Outcome::Ok(vec![Some(last)]));
}

/// "ABCDEF" gives 12 in the Rust. It has no limit of columns or of row bytes, as
/// 01 says of 2 and 13.
#[test]
fn case_10() {
    let built = |text: &str| rust::build(&S, &[None, Some(varchar(text)), None]);
    assert!(matches!(built("ABCDE"), Outcome::Ok(_)));
    assert_eq!(built("ABCDEF"), Outcome::TypeMismatch);
    assert_eq!(
        rust::set(&S, &ROW_2, 1, &varchar("ABCDEF")),
        Outcome::TypeMismatch
    );
    for columns in [256, 257] {
        let types = vec![DataType::Bool; columns];
        let row = rust::build(&types, &vec![None; columns]).ok().unwrap();
        assert_eq!(row.len(), 4 + columns.div_ceil(8) + columns);
        assert!(matches!(rust::read_all(&types, &row), Outcome::Ok(_)));
    }
    let types = [DataType::Varchar(65_535)];
    for length in [65_528, 65_529] {
        let values = [Some(varchar(&"x".repeat(length)))];
        let row = rust::build(&types, &values).ok().unwrap();
        assert_eq!(row.len(), length + 7);
        assert_eq!(rust::read_all(&types, &row), Outcome::Ok(values.to_vec()));
    }
}

/// An offset of 0 with the bit clear reads as null.
#[test]
fn case_11() {
    let mut row = ROW_2;
    row[5] = 0;
    assert_eq!(row[4], 0x04);
    let values = vec![Some(DataValue::Int(1)), None, None];
    assert_eq!(rust::read_all(&S, &row), Outcome::Ok(values));
}

#[test]
fn offsets_inside_the_header_are_read_from_there() {
    let types = [DataType::Varchar(7)];
    for offset in 1..=7 {
        let row = [1, 0, 1, 0, 0, offset, 0];
        let text = std::str::from_utf8(&row[usize::from(offset)..]).unwrap();
        assert_eq!(
            rust::read_all(&types, &row),
            Outcome::Ok(vec![Some(varchar(text))])
        );
    }
}

/// A range ends at the next non-zero offset of a higher rank, else at the row's
/// end; an empty Varchar has its own offset.
#[test]
fn ranges_skip_nulls() {
    let types = vec![DataType::Varchar(5); 4];
    let values = vec![
        Some(varchar("AB")),
        None,
        Some(varchar("")),
        Some(varchar("C")),
    ];
    let row = rust::build(&types, &values).ok().unwrap();
    assert_eq!(row, b"\x04\0\x04\x80\x02\x0D\0\0\0\x0F\0\x0F\0ABC");
    assert_eq!(rust::read_all(&types, &row), Outcome::Ok(values));
}

#[test]
fn any_other_bool_byte_is_true() {
    for byte in 0..=255 {
        let value = DataValue::Bool(byte != 0);
        assert_eq!(read_slot(DataType::Bool, &[byte]), Outcome::Ok(value));
    }
}

#[test]
fn unknown_wanted_columns_are_ignored() {
    let wanted = [65_535, 1, 3, 1, 256];
    let values = vec![None, Some(varchar("AB")), None];
    assert_eq!(rust::read(&S, &ROW_2, &wanted), Outcome::Ok(values));
    assert_eq!(rust::read(&S, &ROW_2, &[3]), Outcome::Ok(vec![None; 3]));
    assert_eq!(rust::read(&S, &ROW_2, &[]), Outcome::Ok(vec![None; 3]));
    // An unwanted column is not looked at.
    let mut row = ROW_2;
    row[13] = 0xFF;
    assert_eq!(rust::read_all(&S, &row), Outcome::TypeMismatch);
    assert!(matches!(rust::read(&S, &row, &[0, 2]), Outcome::Ok(_)));
}

/// 01's rule for a stored Numeric: number and scale.
fn numeric_read(precision: u8, scale: u8, slot: &[u8]) -> Option<(i128, u8)> {
    let nibbles: Vec<u8> = slot
        .iter()
        .flat_map(|byte| [byte >> 4, byte & 15])
        .collect();
    let (sign, digits) = nibbles.split_last()?;
    // The nibble in front of an even precision is not looked at.
    let digits = &digits[digits.len() - usize::from(precision)..];
    let number = digits
        .iter()
        .fold(0, |number, &digit| number * 10 + i128::from(digit));
    match sign {
        0xC if digits.iter().all(|&digit| digit <= 9) => Some((number, scale)),
        0xD if digits.iter().all(|&digit| digit <= 9) => Some((-number, scale)),
        _ if slot.len() == 17 => {
            let number = i128::from_le_bytes(slot[..16].try_into().unwrap());
            Some((number, slot[16]))
        }
        _ => None,
    }
}

#[test]
fn numerics_are_read_by_the_rule() {
    let mut rng = Rng::new(2);
    let mut kinds = [0; 3];
    for precision in (1..=38).cycle().take(38 * 2000) {
        let scale = rng.between(0, precision) as u8;
        let size = (precision + 1).div_ceil(2);
        let precision = precision as u8;
        let highest = rng.pick(&[0, 9, 9, 9, 15]);
        let mut slot: Vec<u8> = (0..size)
            .map(|_| (rng.between(0, highest) << 4 | rng.between(0, highest)) as u8)
            .collect();
        slot[0] |= if rng.one_in(4) { 0xF0 } else { 0 };
        slot[size - 1] = slot[size - 1] & 0xF0 | rng.pick(&[0xC, 0xD, 0xC, 0xD, 0xB]);
        let expected = numeric_read(precision, scale, &slot);
        let outcome = match expected {
            Some((unscaled, scale)) => Outcome::Ok(numeric(unscaled, scale)),
            None => Outcome::TypeMismatch,
        };
        let decimal = DataType::Decimal { precision, scale };
        assert_eq!(read_slot(numeric_type(precision, scale), &slot), outcome);
        assert_eq!(read_slot(decimal, &slot), outcome);
        let bad_sign = slot[size - 1] & 15 == 0xB;
        kinds[match expected {
            None => 0,
            Some(_) if size == 17 && bad_sign => 1,
            Some(_) => 2,
        }] += 1;
    }
    assert!(kinds.iter().all(|&count| count > 500), "{kinds:?}");
}

/// Precision 32 and 33 fall back to 16 bytes of two's complement and a scale
/// byte, which stays as it is; 31 and 34 refuse.
#[test]
fn numerics_of_17_bytes_fall_back() {
    let slot = |number: i128, scale: u8| [&number.to_le_bytes()[..], &[scale]].concat();
    for number in [i128::MIN, -1, 0, 1, 10_i128.pow(38), i128::MAX] {
        for precision in [32, 33] {
            for scale in [0, 2, 0xFF] {
                let read = read_slot(numeric_type(precision, 1), &slot(number, scale));
                assert_eq!(read, Outcome::Ok(numeric(number, scale)));
            }
        }
    }
    // A slot whose digits and sign are good is digits, whatever else it could be.
    let good = slot(1, 0x5C);
    assert_eq!(read_slot(numeric_type(33, 1), &good), {
        let digits = 10_i128.pow(31) + 5;
        Outcome::Ok(numeric(digits, 1))
    });
    // Such a row is sound, though its value may not be written back.
    let types = [numeric_type(33, 1)];
    let row = row_of(&slot(-1, 2));
    let columns = of_rust_types(&types);
    assert!(is_sound(&RustColumns::of(&columns).unwrap(), &row));
    let back = rust::set(&types, &row, 0, &numeric(-1, 2));
    assert_eq!(back, Outcome::TypeMismatch);
    for (precision, size) in [(31, 16), (34, 18)] {
        let bad = vec![0; size];
        let read = read_slot(numeric_type(precision, 1), &bad);
        assert_eq!(read, Outcome::TypeMismatch);
    }
}

#[test]
fn front_nibble_and_negative_zero() {
    // Numeric(4,2): any front nibble; D with digits 0 reads as 0.
    for front in 0..16 {
        let read = read_slot(numeric_type(4, 2), &[front << 4 | 1, 0x23, 0x4D]);
        assert_eq!(read, Outcome::Ok(numeric(-1234, 2)));
    }
    for slot in [[0, 0, 0x0D], [0, 0, 0x0C]] {
        let read = read_slot(numeric_type(4, 2), &slot);
        assert_eq!(read, Outcome::Ok(numeric(0, 2)));
    }
    // Written, zero has C and the front nibble is zero.
    let row = rust::build(&[numeric_type(4, 2)], &[Some(numeric(0, 2))]);
    assert_eq!(row, Outcome::Ok(row_of(&[0, 0, 0x0C])));
}

#[test]
fn bits() {
    let types = [DataType::Bit(9)];
    let value = DataValue::Bit("100000001".to_string());
    for spare in [0x00, 0x01, 0x7F] {
        let read = read_slot(DataType::Bit(9), &[0x80, 0x80 | spare]);
        assert_eq!(read, Outcome::Ok(value.clone()));
    }
    let row = rust::build(&types, &[Some(value)]);
    assert_eq!(row, Outcome::Ok(row_of(&[0x80, 0x80])));
}

#[test]
fn char_has_blanks() {
    let types = [DataType::Char(3)];
    let row = rust::build(&types, &[Some(DataValue::Char("é".to_string()))]);
    assert_eq!(row, Outcome::Ok(row_of(b"\xC3\xA9 ")));
    let long = rust::build(&types, &[Some(DataValue::Char("éé".to_string()))]);
    assert_eq!(long, Outcome::TypeMismatch);
}

/// Fresh and build write zeros past the last column; an edit keeps what is there,
/// and set null of a null changes nothing.
#[test]
fn bits_past_the_last_column() {
    assert_eq!(rust::fresh(&S).ok().unwrap()[4], 0b0000_0111);
    let nulls = rust::build(&S, &[None, None, None]).ok().unwrap();
    assert_eq!(nulls[4], 0b0000_0111);
    let mut row = ROW_2;
    row[4] |= 0xF8;
    let edited = rust::set_null(&S, &row, 0).ok().unwrap();
    assert_eq!(edited[4], 0b1111_1101);
    assert_eq!(rust::set_null(&S, &edited, 0), Outcome::Ok(edited.clone()));
    let edited = rust::set(&S, &edited, 0, &DataValue::Int(9)).ok().unwrap();
    assert_eq!(edited[4], 0b1111_1100);
}

/// The slot of a fixed column set null keeps its bytes.
#[test]
fn a_null_slot_keeps_its_bytes() {
    let row = rust::set_null(&S, &ROW_2, 0).ok().unwrap();
    assert_eq!(row[4], 0x05);
    assert_eq!(row[5..], ROW_2[5..]);
}

/// A row longer than its minimum with no Varchar payload reads.
#[test]
fn loose_bytes_are_not_looked_at() {
    let types = [DataType::Bool];
    let row = [1, 0, 0, 0x80, 0, 1, 0xFF, 0xFF];
    assert_eq!(
        rust::read_all(&types, &row),
        Outcome::Ok(vec![Some(DataValue::Bool(true))])
    );
}

/// The Rust's column of 01's table, for reading.
#[test]
fn table_reading() {
    let changed = |at: usize, byte| {
        let mut row = ROW_2;
        row[at] = byte;
        rust::read_all(&S, &row)
    };
    // 3, 5, 6.
    for length in [0, 3, 4, 12] {
        assert_eq!(rust::read_all(&S, &ROW_2[..length]), Outcome::Internal);
    }
    assert_eq!(changed(0, 4), Outcome::Internal);
    assert_eq!(changed(1, 1), Outcome::Internal);
    assert_eq!(changed(2, 2), Outcome::Internal);
    assert_eq!(changed(3, 0x81), Outcome::Internal);
    // 7: start above the end, and end above the row's length. 8: bad text.
    assert_eq!(changed(5, 16), Outcome::Panicked);
    assert_eq!(changed(13, 0xFF), Outcome::TypeMismatch);
    let two = [DataType::Varchar(9), DataType::Varchar(9)];
    let row = [2, 0, 2, 0x80, 0, 9, 0, 200, 0];
    assert_eq!(rust::read(&two, &row, &[0]), Outcome::Panicked);
    // 8 of an earlier column comes before 7.
    let types = [DataType::Char(1), DataType::Varchar(1)];
    let row = [2, 0, 1, 0x80, 0, 200, 0, 0xFF];
    assert_eq!(rust::read_all(&types, &row), Outcome::TypeMismatch);
    assert_eq!(rust::read(&types, &row, &[1]), Outcome::Panicked);
    // 5 comes before 6, both before the minimum.
    assert_eq!(rust::read_all(&S, &[3, 0, 2, 0x80]), Outcome::Internal);
}

/// The Rust's column of 01's table, for building, editing and the null flag.
#[test]
fn table_writing() {
    // 9.
    let int = DataValue::Int(1);
    for column in [3, 255, usize::MAX] {
        assert_eq!(rust::set(&S, &ROW_2, column, &int), Outcome::Internal);
        assert_eq!(rust::set_null(&S, &ROW_2, column), Outcome::Internal);
        assert_eq!(rust::is_null(&ROW_2, column), Outcome::Internal);
    }
    // 10, the count.
    for count in [2, 4] {
        assert_eq!(rust::build(&S, &vec![None; count]), Outcome::Internal);
    }
    // 11.
    assert_eq!(rust::set(&S, &ROW_2, 1, &int), Outcome::Internal);
    let values = [None, None, Some(int)];
    assert_eq!(rust::build(&S, &values), Outcome::Internal);
    // 12: precision, scale, length.
    let types = [numeric_type(3, 1)];
    for value in [numeric(1000, 1), numeric(-1000, 1), numeric(1, 0)] {
        assert_eq!(rust::build(&types, &[Some(value)]), Outcome::TypeMismatch);
    }
    for value in [numeric(999, 1), numeric(-999, 1)] {
        assert!(matches!(
            rust::build(&types, &[Some(value)]),
            Outcome::Ok(_)
        ));
    }
}

/// The null flag: the bitmap alone, by the header's column count.
#[test]
fn null_flag() {
    let flags = [0, 1, 2].map(|column| rust::is_null(&ROW_2, column));
    let [set, clear] = [true, false].map(Outcome::Ok);
    assert_eq!(flags, [clear.clone(), clear.clone(), set.clone()]);
    assert_eq!(rust::is_null(&[9, 0, 0], 0), Outcome::Internal);
    // Nine columns need two bytes of bitmap, whichever column is asked for.
    assert_eq!(rust::is_null(&[9, 0, 0, 0, 1], 0), Outcome::Internal);
    assert_eq!(rust::is_null(&[9, 0, 0, 0, 1, 1], 8), set);
    assert_eq!(rust::is_null(&[9, 0, 0, 0, 1, 1], 7), clear);
    assert_eq!(rust::is_null(&[9, 0, 0, 0, 1, 1], 9), Outcome::Internal);
}
