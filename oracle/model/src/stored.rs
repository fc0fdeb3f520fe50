//! Stored forms: which values suit a type, the bytes they are stored as, what
//! bytes read as, and which values are the same.

use crate::schema::Type;
use crate::text::{code_points, is_text};
use crate::value::{Range, Value, array};

/// Days from 1970-01-01.
const DATES: std::ops::RangeInclusive<i32> = -719_162..=2_932_896;

/// Microseconds from 1970-01-01.
const TIMESTAMPS: std::ops::RangeInclusive<i64> = -62_135_596_800_000_000..=253_402_300_799_999_999;

/// Microseconds of a Time value to be written.
const TIMES: std::ops::RangeInclusive<i64> = 0..=86_399_999_999;

const SECOND: i64 = 1_000_000;
const DAY_SECONDS: i64 = 86_400;

/// Whether a value of the type's kind suits it; where not, the answer is 12.
/// A value of another kind does not.
pub fn suits(ty: Type, value: &Value, area: &[u8]) -> bool {
    if !value.matches(ty) {
        return false;
    }
    match (ty, *value) {
        (
            Type::Numeric { precision, scale } | Type::Decimal { precision, scale },
            Value::Numeric {
                unscaled,
                scale: given,
            },
        ) => given == scale && digits(unscaled).len() <= usize::from(precision),
        (_, Value::Char(_) | Value::Varchar(_)) => {
            text_of(value, area).is_some_and(|text| holds(ty, text))
        }
        // Exactly the bytes that n bits fill; spare bits may be set.
        (Type::Bit(n), _) => text_of(value, area).is_some_and(|bytes| bytes.len() == n.div_ceil(8)),
        (_, Value::Bool(body)) => body <= 1,
        (_, Value::Date(days)) => DATES.contains(&days),
        (_, Value::Time(count)) => TIMES.contains(&count),
        (_, Value::Timestamp(count)) => TIMESTAMPS.contains(&count),
        // Every integer and float suits.
        _ => true,
    }
}

/// Whether bytes are a text that a column of this type holds: valid, and at most n of
/// what n counts.
fn holds(ty: Type, text: &[u8]) -> bool {
    let Some(points) = code_points(text) else {
        return false;
    };
    match ty {
        Type::Char(n) | Type::Character(n) | Type::Varchar(n) => text.len() <= n,
        Type::VarcharChars(n) => points <= n,
        _ => unreachable!("a type of text"),
    }
}

/// The bytes of a value's text range; `None` if it has none or it leaves the
/// text area.
pub fn text_of<'a>(value: &Value, area: &'a [u8]) -> Option<&'a [u8]> {
    match value {
        Value::Char(range) | Value::Varchar(range) | Value::Bit(range) => range.of(area),
        _ => None,
    }
}

/// The code points of a column's stored bytes, a Char's blanks with them; 0 if the
/// type is none of text.
pub fn points(ty: Type, stored: &[u8]) -> u32 {
    if !ty.is_text() {
        return 0;
    }
    let points = code_points(stored).expect("text of a column");
    points.try_into().expect("as many as a row has bytes")
}

/// The stored form of a value that suits the type.
pub fn write(ty: Type, value: &Value, area: &[u8]) -> Vec<u8> {
    assert!(suits(ty, value, area), "{value:?} does not suit {ty:?}");
    match *value {
        Value::SmallInt(v) => v.to_le_bytes().to_vec(),
        Value::Int(v) | Value::Date(v) => v.to_le_bytes().to_vec(),
        Value::BigInt(v) | Value::Time(v) | Value::Timestamp(v) => v.to_le_bytes().to_vec(),
        Value::Real(bits) => bits.to_le_bytes().to_vec(),
        Value::DoublePrecision(bits) => bits.to_le_bytes().to_vec(),
        Value::Bool(body) => vec![body],
        Value::Numeric { unscaled, .. } => write_numeric(ty, unscaled),
        // Blanks up to n, which is the slot's size.
        Value::Char(_) => {
            let mut bytes = text_of(value, area).expect("a range inside").to_vec();
            bytes.resize(ty.fixed_size().expect("a slot"), b' ');
            bytes
        }
        Value::Varchar(_) => text_of(value, area).expect("a range inside").to_vec(),
        Value::Bit(_) => spare_cleared(ty, text_of(value, area).expect("a range inside")),
        Value::Null => unreachable!("null suits no type"),
    }
}

/// The decimal digits of a number without its sign, none in front that is zero.
fn digits(unscaled: i128) -> Vec<u8> {
    let mut rest = unscaled.unsigned_abs();
    let mut digits = Vec::new();
    while rest != 0 {
        digits.insert(0, (rest % 10) as u8);
        rest /= 10;
    }
    digits
}

/// The precision's digits, one a nibble, a zero nibble in front when precision
/// is even, then C, or D below zero.
fn write_numeric(ty: Type, unscaled: i128) -> Vec<u8> {
    let size = ty.fixed_size().expect("a slot");
    let digits = digits(unscaled);
    let mut nibbles = vec![0; 2 * size - 1 - digits.len()];
    nibbles.extend(digits);
    nibbles.push(if unscaled < 0 { 0xD } else { 0xC });
    nibbles
        .chunks(2)
        .map(|pair| 16 * pair[0] + pair[1])
        .collect()
}

/// A Bit's bytes with the spare bits, the low ones of the last byte, zero.
fn spare_cleared(ty: Type, bytes: &[u8]) -> Vec<u8> {
    let Type::Bit(n) = ty else {
        unreachable!("a Bit value matches a Bit column only")
    };
    let bit = |i: usize| bytes[i / 8] & (0x80 >> (i % 8));
    let mut out = vec![0; bytes.len()];
    for i in 0..n {
        out[i / 8] |= bit(i);
    }
    out
}

/// What bytes at a place of a row read as in a column of this type; `None`
/// where the answer is 8. The text area of what is read is the row.
pub fn read(ty: Type, bytes: &[u8], start: usize) -> Option<Value> {
    let range = Range {
        start,
        length: bytes.len(),
    };
    match ty {
        Type::SmallInt => Some(Value::SmallInt(i16::from_le_bytes(array(bytes)))),
        Type::Int => Some(Value::Int(i32::from_le_bytes(array(bytes)))),
        Type::BigInt => Some(Value::BigInt(i64::from_le_bytes(array(bytes)))),
        Type::Real => Some(Value::Real(u32::from_le_bytes(array(bytes)))),
        Type::DoublePrecision => Some(Value::DoublePrecision(u64::from_le_bytes(array(bytes)))),
        Type::Numeric { precision, scale } | Type::Decimal { precision, scale } => {
            read_numeric(precision, scale, bytes)
        }
        // True for any non-zero byte.
        Type::Bool => Some(Value::Bool(u8::from(bytes[0] != 0))),
        // A slot has n bytes.
        Type::Char(_) | Type::Character(_) => is_text(bytes).then_some(Value::Char(range)),
        // A text longer than n is no value of the type.
        Type::Varchar(_) | Type::VarcharChars(_) => {
            holds(ty, bytes).then_some(Value::Varchar(range))
        }
        Type::Date => {
            let days = i32::from_le_bytes(array(bytes));
            DATES.contains(&days).then_some(Value::Date(days))
        }
        Type::Time => read_time(i64::from_le_bytes(array(bytes))).map(Value::Time),
        Type::Bit(_) => Some(Value::Bit(range)),
        Type::Timestamp => {
            let count = i64::from_le_bytes(array(bytes));
            TIMESTAMPS
                .contains(&count)
                .then_some(Value::Timestamp(count))
        }
    }
}

/// Digits and sign; where they fail, 17 bytes are two's complement and a scale.
fn read_numeric(precision: u8, scale: u8, bytes: &[u8]) -> Option<Value> {
    if let Some(unscaled) = read_digits(precision, bytes) {
        return Some(Value::Numeric { unscaled, scale });
    }
    (bytes.len() == 17).then(|| Value::Numeric {
        unscaled: i128::from_le_bytes(array(&bytes[..16])),
        scale: bytes[16],
    })
}

/// The number of the last `precision` nibbles before the sign; the nibble in
/// front of an even precision is not looked at.
fn read_digits(precision: u8, bytes: &[u8]) -> Option<i128> {
    let nibbles: Vec<u8> = bytes
        .iter()
        .flat_map(|byte| [byte / 16, byte % 16])
        .collect();
    let sign = nibbles.len() - 1;
    let mut number: i128 = 0;
    for &digit in &nibbles[sign - usize::from(precision)..sign] {
        if digit > 9 {
            return None;
        }
        number = 10 * number + i128::from(digit);
    }
    match nibbles[sign] {
        0xC => Some(number),
        0xD => Some(-number),
        _ => None,
    }
}

/// A stored Time: seconds towards zero, no negative remainder, the seconds
/// modulo 2^32 and less than a day.
fn read_time(count: i64) -> Option<i64> {
    let seconds = (count / SECOND).rem_euclid(1 << 32);
    let rest = count % SECOND;
    (rest >= 0 && seconds < DAY_SECONDS).then_some(seconds * SECOND + rest)
}

/// Whether two values that were read in a column of this type are the same
/// content: null or a value; Numeric by number and scale, Bit by its n bits,
/// text by bytes, floats by value with every NaN the same.
pub fn same(ty: Type, a: &Value, area_a: &[u8], b: &Value, area_b: &[u8]) -> bool {
    match (*a, *b) {
        (Value::Real(a), Value::Real(b)) => {
            let (a, b) = (f32::from_bits(a), f32::from_bits(b));
            a == b || a.is_nan() && b.is_nan()
        }
        (Value::DoublePrecision(a), Value::DoublePrecision(b)) => {
            let (a, b) = (f64::from_bits(a), f64::from_bits(b));
            a == b || a.is_nan() && b.is_nan()
        }
        (Value::Bit(_), Value::Bit(_)) => {
            let bits = |value, area| text_of(value, area).map(|bytes| spare_cleared(ty, bytes));
            bits(a, area_a) == bits(b, area_b)
        }
        (Value::Char(_), Value::Char(_)) | (Value::Varchar(_), Value::Varchar(_)) => {
            text_of(a, area_a) == text_of(b, area_b)
        }
        (a, b) => a == b,
    }
}
