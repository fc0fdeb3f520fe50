//! One value for a column: suitable, unsuitable, of another kind, or with a
//! range outside the text area.

use super::text::{self, Fault};
use crate::RowSort;
use crate::column::ColumnType;
use crate::rng::Rng;
use crate::value::{DATES, Record, TIMES, TIMESTAMPS, TextRange, append_up_to};
use std::ops::RangeInclusive;

/// A text area that grows with the values put into it.
#[derive(Debug, Clone)]
pub struct TextArea {
    /// Of rows of this sort.
    of: RowSort,
    pub bytes: Vec<u8>,
    ranges: Vec<TextRange>,
}

impl Default for TextArea {
    fn default() -> Self {
        TextArea::new(RowSort::Short)
    }
}

impl TextArea {
    pub fn new(of: RowSort) -> Self {
        TextArea {
            of,
            bytes: Vec::new(),
            ranges: Vec::new(),
        }
    }

    pub fn room(&self) -> usize {
        self.of.limit() - self.bytes.len()
    }

    /// Puts bytes, for which there is room, at the end, at times behind a gap.
    fn put(&mut self, rng: &mut Rng, bytes: &[u8]) -> TextRange {
        if rng.one_in(8) {
            let gap = rng.between(1, 3).min(self.room() - bytes.len());
            self.bytes.extend(rng.bytes(gap));
        }
        let range = append_up_to(self.of.limit(), bytes, &mut self.bytes);
        let range = range.expect("room for the bytes");
        self.ranges.push(range);
        range
    }

    /// A range used before whose bytes suit, if the first one tried does.
    fn earlier(&self, rng: &mut Rng, suits: impl Fn(&[u8]) -> bool) -> Option<TextRange> {
        if self.ranges.is_empty() {
            return None;
        }
        let range = rng.pick(&self.ranges);
        suits(range.of(&self.bytes)?).then_some(range)
    }
}

/// Float patterns: zeros, ones, ends, subnormals, infinities, NaNs.
const REALS: [u32; 18] = [
    0x0000_0000,
    0x8000_0000,
    0x3F80_0000,
    0xBF80_0000,
    0x0000_0001,
    0x8000_0001,
    0x007F_FFFF,
    0x807F_FFFF,
    0x0080_0000,
    0x7F7F_FFFF,
    0xFF7F_FFFF,
    0x7F80_0000,
    0xFF80_0000,
    0x7FC0_0000,
    0xFFC0_0000,
    0x7F80_0001,
    0xFF80_0001,
    0x7FFF_FFFF,
];

const DOUBLES: [u64; 18] = [
    0x0000_0000_0000_0000,
    0x8000_0000_0000_0000,
    0x3FF0_0000_0000_0000,
    0xBFF0_0000_0000_0000,
    0x0000_0000_0000_0001,
    0x8000_0000_0000_0001,
    0x000F_FFFF_FFFF_FFFF,
    0x800F_FFFF_FFFF_FFFF,
    0x0010_0000_0000_0000,
    0x7FEF_FFFF_FFFF_FFFF,
    0xFFEF_FFFF_FFFF_FFFF,
    0x7FF0_0000_0000_0000,
    0xFFF0_0000_0000_0000,
    0x7FF8_0000_0000_0000,
    0xFFF8_0000_0000_0000,
    0x7FF0_0000_0000_0001,
    0xFFF0_0000_0000_0001,
    0x7FFF_FFFF_FFFF_FFFF,
];

/// A value that a column of this type takes.
pub fn suitable(rng: &mut Rng, ty: &ColumnType, area: &mut TextArea) -> Record {
    match *ty {
        ColumnType::SmallInt => {
            Record::SmallInt(integer(rng, i16::MIN.into()..=i16::MAX.into()) as i16)
        }
        ColumnType::Int => Record::Int(integer(rng, i32::MIN.into()..=i32::MAX.into()) as i32),
        ColumnType::BigInt => Record::BigInt(integer(rng, i64::MIN..=i64::MAX)),
        ColumnType::Real => Record::Real(match rng.below(2) {
            0 => rng.pick(&REALS),
            _ => rng.next_u64() as u32,
        }),
        ColumnType::DoublePrecision => Record::DoublePrecision(match rng.below(2) {
            0 => rng.pick(&DOUBLES),
            _ => rng.next_u64(),
        }),
        ColumnType::Numeric { precision, scale } | ColumnType::Decimal { precision, scale } => {
            let unscaled = numeric(rng, precision);
            Record::Numeric { unscaled, scale }
        }
        ColumnType::Bool => Record::Bool(rng.below(2) as u8),
        ColumnType::Char(n) | ColumnType::Character(n) => Record::Char(text_range(rng, n, area)),
        ColumnType::Varchar(n) => Record::Varchar(text_range(rng, n, area)),
        ColumnType::VarcharChars(n) => Record::Varchar(points_range(rng, n, area)),
        ColumnType::Date => Record::Date(integer(rng, dates()) as i32),
        ColumnType::Time => Record::Time(integer(rng, TIMES)),
        ColumnType::Bit(n) => {
            let length = usize::from(n).div_ceil(8);
            Record::Bit(bytes_range(rng, length, area))
        }
        ColumnType::Timestamp => Record::Timestamp(integer(rng, TIMESTAMPS)),
    }
}

fn dates() -> RangeInclusive<i64> {
    i64::from(*DATES.start())..=i64::from(*DATES.end())
}

/// A number of the range, often at an end or near zero.
fn integer(rng: &mut Rng, range: RangeInclusive<i64>) -> i64 {
    let (low, high) = range.into_inner();
    match rng.below(8) {
        0 => low,
        1 => high,
        2 => rng.pick(&[-1, 0, 1]).clamp(low, high),
        3 => (rng.any_size() as i64).clamp(low, high),
        _ => rng.between_i64(low, high),
    }
}

/// The first number that this precision does not hold.
fn above_precision(precision: u8) -> i128 {
    10_i128.pow(precision.into())
}

/// An unscaled number that the precision holds.
fn numeric(rng: &mut Rng, precision: u8) -> i128 {
    let above = above_precision(precision);
    let magnitude = match rng.below(8) {
        0 | 1 => above - 1,
        2 => 0,
        3 => above / 10,
        4 => i128::from(rng.any_size()),
        5 => (1 << 64) + rng.pick(&[-1, 0, 1]),
        _ => rng.next_i128().rem_euclid(above),
    };
    let sign = rng.pick(&[1, -1]);
    sign * magnitude % above
}

/// The length of a text up to n and up to the room, mostly short.
fn text_length(rng: &mut Rng, n: usize, room: usize) -> usize {
    let most = n.min(room);
    match rng.below(8) {
        0 => 0,
        1 | 2 if most <= 300 || rng.one_in(8) => most,
        3 => rng.between(0, most.min(300)),
        _ => rng.between(0, most.min(12)),
    }
}

/// A valid text of at most n bytes; where n is small, often of exactly n.
fn text_range(rng: &mut Rng, n: u16, area: &mut TextArea) -> TextRange {
    let n = usize::from(n);
    let suits = |bytes: &[u8]| bytes.len() <= n && std::str::from_utf8(bytes).is_ok();
    if rng.one_in(8)
        && let Some(range) = area.earlier(rng, suits)
    {
        return range;
    }
    let length = text_length(rng, n, area.room());
    let bytes = text::any_valid(rng, length);
    area.put(rng, &bytes)
}

/// A valid text of at most n characters; where n is small, often of exactly n or one
/// less.
fn points_range(rng: &mut Rng, n: u16, area: &mut TextArea) -> TextRange {
    let n = usize::from(n);
    if rng.one_in(8)
        && let Some(range) = area.earlier(rng, |bytes| points(bytes).is_some_and(|p| p <= n))
    {
        return range;
    }
    // Four bytes a character have room.
    let most = n.min(area.room() / 4);
    let count = match rng.below(8) {
        0 => most.saturating_sub(1).min(300),
        1 | 2 => most.min(300),
        _ => text_length(rng, n, most),
    };
    let bytes = text::of_points(rng, count);
    area.put(rng, &bytes)
}

/// The characters of a text; `None` if it is invalid.
pub fn points(bytes: &[u8]) -> Option<usize> {
    let text = std::str::from_utf8(bytes).ok()?;
    Some(text.chars().count())
}

/// Any bytes, 8,192 at most; from inside the area where it has no room.
fn bytes_range(rng: &mut Rng, length: usize, area: &mut TextArea) -> TextRange {
    if length > area.room() {
        return TextRange {
            start: rng.between(0, area.bytes.len() - length),
            length,
        };
    }
    let bytes = match rng.below(4) {
        0 => vec![0x00; length],
        1 => vec![0xFF; length],
        _ => rng.bytes(length),
    };
    area.put(rng, &bytes)
}

/// A value of the column's kind that does not suit its type: the answer is 12.
/// `None` if every value suits, or there is no room for the text.
pub fn unsuitable(rng: &mut Rng, ty: &ColumnType, area: &mut TextArea) -> Option<Record> {
    Some(match *ty {
        ColumnType::Numeric { precision, scale } | ColumnType::Decimal { precision, scale } => {
            unsuitable_numeric(rng, precision, scale)
        }
        ColumnType::Bool => Record::Bool(match rng.below(3) {
            0 => 2,
            1 => 255,
            _ => rng.between(2, 255) as u8,
        }),
        ColumnType::Char(n) | ColumnType::Character(n) => {
            Record::Char(unsuitable_text(rng, n, area)?)
        }
        ColumnType::Varchar(n) => Record::Varchar(unsuitable_text(rng, n, area)?),
        ColumnType::VarcharChars(n) => Record::Varchar(unsuitable_points(rng, n, area)?),
        ColumnType::Date => {
            Record::Date(past(rng, dates(), i32::MIN.into()..=i32::MAX.into()) as i32)
        }
        ColumnType::Time if rng.one_in(4) => {
            // Stored, such a count reads as 0; as a value it is refused.
            Record::Time(rng.pick(&[4_294_967_296_000_000, -4_294_967_296_000_000]))
        }
        ColumnType::Time => Record::Time(past(rng, TIMES, i64::MIN..=i64::MAX)),
        ColumnType::Bit(n) => Record::Bit(unsuitable_bits(rng, n, area)?),
        ColumnType::Timestamp => Record::Timestamp(past(rng, TIMESTAMPS, i64::MIN..=i64::MAX)),
        _ => return None,
    })
}

/// A number of `all` outside `range`, often one past an end.
fn past(rng: &mut Rng, range: RangeInclusive<i64>, all: RangeInclusive<i64>) -> i64 {
    let (low, high) = range.into_inner();
    let (least, greatest) = all.into_inner();
    match rng.below(6) {
        0 => low - 1,
        1 => high + 1,
        2 => least,
        3 => greatest,
        4 => rng.between_i64(least, low - 1),
        _ => rng.between_i64(high + 1, greatest),
    }
}

/// A number that the precision does not hold, or another scale.
fn unsuitable_numeric(rng: &mut Rng, precision: u8, scale: u8) -> Record {
    let above = above_precision(precision);
    let sign = rng.pick(&[1, -1]);
    let unscaled = match rng.below(6) {
        0 | 1 => sign * above,
        2 => i128::MAX,
        3 => i128::MIN,
        4 => sign * (above + (rng.next_i128() & i128::MAX) % (i128::MAX - above)),
        _ => return other_scale(rng, precision, scale),
    };
    Record::Numeric { unscaled, scale }
}

fn other_scale(rng: &mut Rng, precision: u8, scale: u8) -> Record {
    let by = match rng.below(3) {
        0 => 1,
        1 => 255,
        _ => rng.between(1, 255) as u8,
    };
    Record::Numeric {
        unscaled: numeric(rng, precision),
        scale: scale.wrapping_add(by),
    }
}

/// A text of n + 1 bytes, or an invalid one.
fn unsuitable_text(rng: &mut Rng, n: u16, area: &mut TextArea) -> Option<TextRange> {
    let n = usize::from(n);
    let room = area.room();
    let long = n + 1;
    let bytes = if long <= room && (n == 0 || long <= 300 && rng.one_in(2) || rng.one_in(64)) {
        text::any_valid(rng, long)
    } else {
        let length = rng.between(1, 24).min(n).min(room);
        any_invalid(rng, length)?
    };
    Some(area.put(rng, &bytes))
}

/// A text of n + 1 characters or some more, or an invalid one: of few bytes, or of n
/// characters and a cut one.
fn unsuitable_points(rng: &mut Rng, n: u16, area: &mut TextArea) -> Option<TextRange> {
    let n = usize::from(n);
    let room = area.room();
    let over = n + rng.pick(&[1, 1, 1, 2, 12]);
    let fits = 4 * over + 3 <= room;
    let bytes = match rng.below(8) {
        0..=4 if fits && (n <= 300 || rng.one_in(64)) => text::of_points(rng, over),
        5 if fits && n <= 300 => {
            let fault = rng.pick(&[Fault::CutTwo, Fault::CutThree, Fault::CutFour]);
            [text::of_points(rng, n), text::sequence(rng, fault)].concat()
        }
        _ => {
            let length = rng.between(1, 24).min(room);
            any_invalid(rng, length)?
        }
    };
    Some(area.put(rng, &bytes))
}

/// An invalid text of this length; `None` only for length 0.
fn any_invalid(rng: &mut Rng, length: usize) -> Option<Vec<u8>> {
    let fault = rng.pick(&Fault::ALL);
    text::invalid(rng, fault, length).or_else(|| text::invalid(rng, Fault::Continuation, length))
}

/// Not as many bytes as n bits fill.
fn unsuitable_bits(rng: &mut Rng, n: u16, area: &mut TextArea) -> Option<TextRange> {
    let length = usize::from(n).div_ceil(8);
    let other = match rng.below(3) {
        0 if length > 0 => 0,
        1 if length > 0 => length - 1,
        _ => length + 1,
    };
    (other <= area.room()).then(|| {
        let bytes = rng.bytes(other);
        area.put(rng, &bytes)
    })
}

/// A value whose text range leaves a text area of this length: the answer is
/// 12. `None` for kinds without text.
pub fn outside(rng: &mut Rng, ty: &ColumnType, text: usize) -> Option<Record> {
    let range = outside_range(rng, text);
    match ty {
        ColumnType::Char(_) | ColumnType::Character(_) => Some(Record::Char(range)),
        ColumnType::Varchar(_) | ColumnType::VarcharChars(_) => Some(Record::Varchar(range)),
        ColumnType::Bit(_) => Some(Record::Bit(range)),
        _ => None,
    }
}

fn outside_range(rng: &mut Rng, text: usize) -> TextRange {
    let most = usize::from(u16::MAX);
    let (start, length) = match rng.below(5) {
        // One byte past the end: all of it, all of the text before it, none.
        0 => (text, 1),
        1 if text < most => (0, text + 1),
        2 if text < most => (text + 1, 0),
        3 => {
            let start = rng.between(0, text);
            (start, (text - start + 1).min(most))
        }
        _ => (most, rng.between(1, most)),
    };
    TextRange { start, length }
}

/// One type of each schema kind that the Rust knows.
pub const TYPES: [ColumnType; 15] = [
    ColumnType::SmallInt,
    ColumnType::Int,
    ColumnType::BigInt,
    ColumnType::Real,
    ColumnType::DoublePrecision,
    ColumnType::Numeric {
        precision: 9,
        scale: 2,
    },
    ColumnType::Decimal {
        precision: 9,
        scale: 2,
    },
    ColumnType::Bool,
    ColumnType::Char(3),
    ColumnType::Character(3),
    ColumnType::Varchar(3),
    ColumnType::Date,
    ColumnType::Time,
    ColumnType::Bit(9),
    ColumnType::Timestamp,
];

/// A value of another kind than the column's, its body good or not: the answer
/// is 11 all the same.
pub fn other_kind(rng: &mut Rng, ty: &ColumnType, area: &mut TextArea) -> Record {
    loop {
        let other = &TYPES[rng.below(TYPES.len())];
        let record = match rng.below(4) {
            0 => unsuitable(rng, other, area),
            1 => outside(rng, other, area.bytes.len()),
            _ => None,
        };
        let record = record.unwrap_or_else(|| suitable(rng, other, area));
        if !record.matches(ty) {
            return record;
        }
    }
}
