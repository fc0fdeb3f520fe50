//! Schemas: good ones, one for each fault, sizes at the limit, random bytes.

use super::Expected;
use crate::column::ColumnType;
use crate::layout::Layout;
use crate::rng::Rng;
use crate::schema::{write_record, write_schema};
use crate::{LIMIT, MAX_COLUMNS, RowSort};

#[derive(Debug, Clone, Copy, PartialEq, Eq, PartialOrd, Ord)]
pub enum Sort {
    // Good, by the number of columns.
    Empty,
    One,
    Few,
    Columns64,
    Columns255,
    Columns256,
    /// Good, the padded minimum exactly at the limit of its rows.
    AtLimit,
    // Refused with 1.
    UnknownKind,
    Cut,
    // Refused with 2.
    Precision,
    Scale,
    Column257,
    /// The padded minimum above the limit by one.
    OneAbove,
    /// The packed minimum within the limit, the padded one above.
    AboveByPadding,
    FarAbove,
    /// Random bytes, and random kinds with random bodies.
    Random,
}

impl Sort {
    pub const ALL: [Sort; 16] = [
        Sort::Empty,
        Sort::One,
        Sort::Few,
        Sort::Columns64,
        Sort::Columns255,
        Sort::Columns256,
        Sort::AtLimit,
        Sort::UnknownKind,
        Sort::Cut,
        Sort::Precision,
        Sort::Scale,
        Sort::Column257,
        Sort::OneAbove,
        Sort::AboveByPadding,
        Sort::FarAbove,
        Sort::Random,
    ];
}

/// Schema bytes.
#[derive(Debug, Clone, PartialEq, Eq)]
pub struct Schema {
    pub bytes: Vec<u8>,
    pub expected: Expected,
}

/// A schema of this sort, for short rows.
pub fn schema(rng: &mut Rng, sort: Sort) -> Schema {
    schema_of(rng, RowSort::Short, sort)
}

/// The same for rows of a sort.
pub fn schema_of(rng: &mut Rng, of: RowSort, sort: Sort) -> Schema {
    match sort {
        Sort::Empty => good(vec![]),
        Sort::One => good(types(rng, 1)),
        Sort::Few => {
            let columns = rng.between(2, 9);
            good(types(rng, columns))
        }
        Sort::Columns64 => good(types(rng, 64)),
        Sort::Columns255 => good(types(rng, 255)),
        Sort::Columns256 => good(types(rng, 256)),
        Sort::AtLimit => good(at_limit_of(rng, of)),
        Sort::UnknownKind | Sort::Precision | Sort::Scale => faulty(rng, sort),
        Sort::Cut => cut(rng),
        Sort::Column257 => column_257(rng),
        Sort::OneAbove => above(with_minimum(rng, vec![], of, of.limit() + 1)),
        Sort::AboveByPadding => above(above_by_padding(rng, of)),
        Sort::FarAbove => above(far_above(rng, of)),
        Sort::Random => Schema {
            bytes: random(rng),
            expected: Expected::Unknown,
        },
    }
}

/// A schema of a sort at random for short rows, one of few columns half the time.
pub fn any_schema(rng: &mut Rng) -> (Sort, Schema) {
    any_schema_of(rng, RowSort::Short)
}

/// The same for rows of a sort.
pub fn any_schema_of(rng: &mut Rng, of: RowSort) -> (Sort, Schema) {
    let sort = if rng.one_in(2) {
        Sort::Few
    } else {
        rng.pick(&Sort::ALL)
    };
    (sort, schema_of(rng, of, sort))
}

/// The columns of a good schema, mostly a few.
pub fn any_types(rng: &mut Rng) -> Vec<ColumnType> {
    let columns = match rng.below(64) {
        0 => 0,
        1..=3 => 1,
        4..=7 => rng.between(10, 40),
        8 => rng.pick(&[63, 64, 65]),
        9 => rng.pick(&[255, 256]),
        10 => return at_limit(rng),
        _ => rng.between(2, 9),
    };
    types(rng, columns)
}

fn good(types: Vec<ColumnType>) -> Schema {
    Schema {
        bytes: write_schema(&types),
        expected: Expected::Accepted,
    }
}

/// Good records whose padded minimum is above the limit.
fn above(types: Vec<ColumnType>) -> Schema {
    let bytes = write_schema(&types);
    let expected = Expected::refused(2, bytes.len());
    Schema { bytes, expected }
}

/// This many columns, 256 at most, with a padded minimum within the limit.
pub fn types(rng: &mut Rng, columns: usize) -> Vec<ColumnType> {
    let room = 60_000 / columns.max(1);
    (0..columns).map(|_| any_type(rng, room)).collect()
}

/// A type whose slot, if Char, Character or Bit, takes at most `room` bytes.
pub fn any_type(rng: &mut Rng, room: usize) -> ColumnType {
    match rng.below(18) {
        0 => ColumnType::SmallInt,
        1 => ColumnType::Int,
        2 => ColumnType::BigInt,
        3 => ColumnType::Real,
        4 => ColumnType::DoublePrecision,
        5 => {
            let (precision, scale) = numeric(rng);
            ColumnType::Numeric { precision, scale }
        }
        6 => {
            let (precision, scale) = numeric(rng);
            ColumnType::Decimal { precision, scale }
        }
        7 => ColumnType::Bool,
        8 => ColumnType::Char(length(rng, room)),
        9 => ColumnType::Character(length(rng, room)),
        10 => ColumnType::Date,
        11 => ColumnType::Time,
        12 => ColumnType::Bit(length(rng, 8 * room)),
        13 => ColumnType::Timestamp,
        _ => ColumnType::Varchar(length(rng, LIMIT)),
    }
}

/// A good precision and scale.
fn numeric(rng: &mut Rng) -> (u8, u8) {
    let precision = match rng.below(4) {
        0 => rng.pick(&[1, 2, 19, 20, 32, 33, 37, 38]),
        _ => rng.between(1, 38),
    };
    let scale = match rng.below(4) {
        0 => 0,
        1 => precision,
        _ => rng.between(0, precision),
    };
    (precision as u8, scale as u8)
}

/// A length n up to `most`.
fn length(rng: &mut Rng, most: usize) -> u16 {
    let most = most.min(LIMIT);
    let n = match rng.below(8) {
        0..=2 => rng.pick(&[0, 1, 7, 8, 9]),
        3..=5 => rng.between(2, 40),
        6 => rng.between(0, most),
        _ => most.saturating_sub(rng.below(3)),
    };
    n.min(most) as u16
}

/// The columns of a good schema with a padded minimum of exactly 65,535.
pub fn at_limit(rng: &mut Rng) -> Vec<ColumnType> {
    at_limit_of(rng, RowSort::Short)
}

/// The same at the limit of rows of a sort.
pub fn at_limit_of(rng: &mut Rng, of: RowSort) -> Vec<ColumnType> {
    with_minimum(rng, vec![], of, of.limit())
}

/// Seven bytes of padding or more, and a padded minimum above the limit by at
/// most seven, so that the packed minimum is not above it.
fn above_by_padding(rng: &mut Rng, of: RowSort) -> Vec<ColumnType> {
    let padding = vec![ColumnType::Bool, ColumnType::BigInt];
    let minimum = of.limit() + rng.between(1, 7);
    with_minimum(rng, padding, of, minimum)
}

/// These columns and more, with this padded minimum: the last fixed columns have
/// what the others leave.
pub fn with_minimum(
    rng: &mut Rng,
    first: Vec<ColumnType>,
    of: RowSort,
    minimum: usize,
) -> Vec<ColumnType> {
    let columns = rng.between(0, 30);
    let mut types = [first, types(rng, columns)].concat();
    let last = types.len();
    types.push(ColumnType::Char(0));
    for _ in 0..rng.below(4) {
        types.push(ColumnType::Varchar(length(rng, LIMIT)));
    }
    let mut missing = minimum - Layout::padded_of(&types, of).minimum;
    while missing > LIMIT {
        types.push(ColumnType::Char(u16::MAX));
        missing = minimum - Layout::padded_of(&types, of).minimum;
    }
    let n = missing as u16;
    types[last] = if rng.one_in(2) {
        ColumnType::Char(n)
    } else {
        ColumnType::Character(n)
    };
    types
}

fn far_above(rng: &mut Rng, of: RowSort) -> Vec<ColumnType> {
    let columns = match of {
        RowSort::Short => rng.pick(&[2, 3, 10, MAX_COLUMNS]),
        RowSort::Long => rng.pick(&[27, 30, MAX_COLUMNS]),
    };
    (0..columns)
        .map(|_| rng.between(40_000, LIMIT) as u16)
        .map(ColumnType::Char)
        .collect()
}

/// Records before a bad one: good each, whatever their minimum.
fn before(rng: &mut Rng) -> Vec<u8> {
    if rng.one_in(8) {
        return write_schema(&far_above(rng, RowSort::Short)[1..]);
    }
    let columns = rng.pick(&[0, 1, 2, 5, 30, 255]);
    write_schema(&types(rng, columns))
}

/// Bytes after a bad record: none, good records, another bad record, random.
fn after(rng: &mut Rng) -> Vec<u8> {
    match rng.below(4) {
        0 => vec![],
        1 => write_schema(&types(rng, 3)),
        2 => bad_record(rng, Sort::Precision),
        _ => {
            let length = rng.between(1, 8);
            rng.bytes(length)
        }
    }
}

/// Good records, a bad one, anything.
fn faulty(rng: &mut Rng, sort: Sort) -> Schema {
    let mut bytes = before(rng);
    let number = if sort == Sort::UnknownKind { 1 } else { 2 };
    let expected = Expected::refused(number, bytes.len());
    bytes.extend(bad_record(rng, sort));
    bytes.extend(after(rng));
    Schema { bytes, expected }
}

/// A whole record that is bad by its kind, its precision or its scale.
fn bad_record(rng: &mut Rng, sort: Sort) -> Vec<u8> {
    let numeric = rng.pick(&[6, 7]);
    match sort {
        Sort::UnknownKind => vec![match rng.below(4) {
            0 => 0,
            1 => 17,
            2 => 255,
            _ => rng.between(17, 255) as u8,
        }],
        Sort::Precision => {
            let precision = match rng.below(4) {
                0 => 0,
                1 => 39,
                2 => 255,
                _ => rng.between(39, 255) as u8,
            };
            vec![numeric, precision, rng.byte()]
        }
        _ => {
            let precision = rng.between(1, 38) as u8;
            let scale = match rng.below(3) {
                0 => precision + 1,
                1 => 255,
                _ => rng.between(usize::from(precision) + 1, 255) as u8,
            };
            vec![numeric, precision, scale]
        }
    }
}

/// Good records and one that is cut off; its body may begin badly.
fn cut(rng: &mut Rng) -> Schema {
    let mut bytes = before(rng);
    let expected = Expected::refused(1, bytes.len());
    bytes.push(rng.pick(&[6, 7, 9, 10, 11, 14]));
    if rng.one_in(2) {
        let begun = rng.byte();
        bytes.push(rng.pick(&[0, 39, 255, begun]));
    }
    Schema { bytes, expected }
}

/// 256 good records and the start of a further one, good or bad.
fn column_257(rng: &mut Rng) -> Schema {
    let first = if rng.one_in(8) {
        vec![ColumnType::Char(u16::MAX); MAX_COLUMNS]
    } else {
        types(rng, MAX_COLUMNS)
    };
    let mut bytes = write_schema(&first);
    let expected = Expected::refused(2, bytes.len());
    match rng.below(4) {
        0 => write_record(&any_type(rng, 8), &mut bytes),
        1 => bytes.extend(bad_record(rng, Sort::UnknownKind)),
        2 => bytes.extend(bad_record(rng, Sort::Precision)),
        _ => bytes.push(6),
    }
    if rng.one_in(2) {
        bytes.extend(after(rng));
    }
    Schema { bytes, expected }
}

fn random(rng: &mut Rng) -> Vec<u8> {
    let length = rng.between(0, 40);
    if rng.one_in(2) {
        return rng.bytes(length);
    }
    let mut bytes = Vec::new();
    while bytes.len() < length {
        let kind = rng.between(1, 15) as u8;
        bytes.push(kind);
        if matches!(kind, 6 | 7) {
            bytes.extend([rng.between(0, 40) as u8, rng.between(0, 20) as u8]);
        } else if matches!(kind, 9 | 10 | 11 | 14) {
            bytes.extend([rng.byte(), rng.pick(&[0, 0, 0, 1, 255])]);
        }
    }
    bytes
}
