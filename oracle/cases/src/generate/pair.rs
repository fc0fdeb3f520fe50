//! Two rows of one schema whose content is the same, nearly the same, or not.

use super::list::{self, Sort as ListSort};
use super::made;
use super::row::{any_row_of, sound_row_of, stored_form};
use crate::RowSort;
use crate::column::ColumnType;
use crate::layout::{BITMAP, Layout, Place, is_packed};
use crate::rng::Rng;
use crate::row::{clear_null_bit, long_twin, padded, set_null_bit};

#[derive(Debug, Clone, Copy, PartialEq, Eq, PartialOrd, Ord)]
pub enum Sort {
    /// The same bytes, of a row of any sort.
    SameBytes,
    /// Sound, the same content in other bytes.
    Twins,
    /// Twins but for one slot, where the content is nearly the same.
    Near,
    /// Twins, one of them padded.
    Padded,
    /// One column set to another value or to null.
    Edited,
    /// One bit past the header changed.
    Flipped,
    /// Two rows of any sorts.
    Unrelated,
}

impl Sort {
    pub const ALL: [Sort; 7] = [
        Sort::SameBytes,
        Sort::Twins,
        Sort::Near,
        Sort::Padded,
        Sort::Edited,
        Sort::Flipped,
        Sort::Unrelated,
    ];
}

/// Two rows.
pub type Pair = (Vec<u8>, Vec<u8>);

/// A pair of this sort of short rows; `None` if the schema has none.
pub fn pair(rng: &mut Rng, types: &[ColumnType], sort: Sort) -> Option<Pair> {
    pair_of(rng, types, RowSort::Short, sort)
}

/// The same of rows of a sort.
pub fn pair_of(rng: &mut Rng, types: &[ColumnType], of: RowSort, sort: Sort) -> Option<Pair> {
    let (a, b) = match sort {
        Sort::SameBytes => {
            let row = any_row_of(rng, types, of).1;
            (row.clone(), row)
        }
        Sort::Twins => twins(rng, types, of, false),
        Sort::Near => twins(rng, types, of, true),
        Sort::Padded => {
            let (a, b) = twins(rng, types, of, false);
            let packed = is_packed(&b).then(|| padded(types, &b, 0xA5))?;
            (a, packed?)
        }
        Sort::Edited => edited(rng, types, of)?,
        Sort::Flipped => flipped(rng, types, of)?,
        Sort::Unrelated => (any_row_of(rng, types, of).1, any_row_of(rng, types, of).1),
    };
    Some(if rng.one_in(2) { (a, b) } else { (b, a) })
}

/// A pair of a sort at random of short rows.
pub fn any_pair(rng: &mut Rng, types: &[ColumnType]) -> (Sort, Pair) {
    any_pair_of(rng, types, RowSort::Short)
}

/// The same of rows of a sort.
pub fn any_pair_of(rng: &mut Rng, types: &[ColumnType], of: RowSort) -> (Sort, Pair) {
    loop {
        let sort = rng.pick(&Sort::ALL);
        if let Some(pair) = pair_of(rng, types, of, sort) {
            return (sort, pair);
        }
    }
}

/// A pair of short rows, one of which is then its long twin; `None` if the one tried
/// has none.
pub fn any_mixed_pair(rng: &mut Rng, types: &[ColumnType]) -> Option<(Sort, Pair)> {
    let (sort, (a, b)) = any_pair(rng, types);
    let pair = match rng.below(2) {
        0 => (long_twin(types, &a)?, b),
        _ => {
            let b = long_twin(types, &b)?;
            (a, b)
        }
    };
    Some((sort, pair))
}

/// Two rows from one sound row: slots with two forms of one content, null slots
/// with other bytes, other bits past the last column. With `near`, one slot has
/// forms of another content.
fn twins(rng: &mut Rng, types: &[ColumnType], of: RowSort, near: bool) -> Pair {
    let mut a = sound_row_of(rng, types, of);
    let mut b = a.clone();
    let layout = Layout::of_row(types, &a);
    let apart = rng.below(types.len().max(1));
    for (column, place) in layout.places.iter().enumerate() {
        let Place::Fixed { start, size } = *place else {
            continue;
        };
        let slot = start..start + size;
        let forms = match (near && column == apart, rng.below(4)) {
            (true, _) => near_forms(rng, &types[column], size),
            (_, 0) => {
                set_null_bit(&mut a, column);
                set_null_bit(&mut b, column);
                let any = rng.bytes(size);
                b[slot].copy_from_slice(&any);
                continue;
            }
            (_, 1) => same_forms(rng, &types[column], size),
            _ => None,
        };
        if let Some((one, other)) = forms {
            a[slot.clone()].copy_from_slice(&one);
            b[slot].copy_from_slice(&other);
            clear_null_bit(&mut a, column);
            clear_null_bit(&mut b, column);
        }
    }
    if !types.len().is_multiple_of(8) {
        b[BITMAP + types.len() / 8] ^= rng.byte() << (types.len() % 8);
    }
    (a, b)
}

/// Two forms of one content, where the type has such.
fn same_forms(rng: &mut Rng, ty: &ColumnType, size: usize) -> Option<Pair> {
    match *ty {
        ColumnType::Bool => Some((vec![1], vec![rng.between(2, 255) as u8])),
        ColumnType::Real => Some(match rng.below(2) {
            0 => (real(0), real(1 << 31)),
            _ => (real(nan_32(rng)), real(nan_32(rng))),
        }),
        ColumnType::DoublePrecision => Some(match rng.below(2) {
            0 => (double(0), double(1 << 63)),
            _ => (double(nan_64(rng)), double(nan_64(rng))),
        }),
        // Below zero whole seconds alone read.
        ColumnType::Time => {
            let second = 1_000_000 * rng.between_i64(0, 86_399);
            let count = second + rng.between_i64(0, 999_999);
            let turns = 4_294_967_296_000_000 * rng.between_i64(0, 2_000);
            let (one, other) = match rng.below(2) {
                0 => (count, count + turns),
                _ => (second, second - turns),
            };
            Some((one.to_le_bytes().into(), other.to_le_bytes().into()))
        }
        ColumnType::Bit(n) if n % 8 != 0 => {
            let a = rng.bytes(size);
            let mut b = a.clone();
            b[size - 1] ^= rng.byte() & (0xFF >> (n % 8));
            Some((a, b))
        }
        ColumnType::Numeric { precision, scale } | ColumnType::Decimal { precision, scale } => {
            Some(same_numerics(rng, precision, scale, size))
        }
        _ => None,
    }
}

fn real(bits: u32) -> Vec<u8> {
    bits.to_le_bytes().to_vec()
}

fn double(bits: u64) -> Vec<u8> {
    bits.to_le_bytes().to_vec()
}

fn nan_32(rng: &mut Rng) -> u32 {
    0x7F80_0000 | (rng.next_u64() as u32 & 0x807F_FFFF).max(1)
}

fn nan_64(rng: &mut Rng) -> u64 {
    0x7FF0_0000_0000_0000 | (rng.next_u64() & 0x800F_FFFF_FFFF_FFFF).max(1)
}

/// Digits, a nibble each, and the sign; the first nibble is the front one of an
/// even precision.
fn packed(nibbles: &[u8], sign: u8) -> Vec<u8> {
    [nibbles, &[sign]]
        .concat()
        .chunks(2)
        .map(|pair| pair[0] << 4 | pair[1])
        .collect()
}

/// One number with another front nibble, as a zero with another sign, or as
/// two's complement where it has room.
fn same_numerics(rng: &mut Rng, precision: u8, scale: u8, size: usize) -> Pair {
    let mut nibbles: Vec<u8> = (1..2 * size).map(|_| rng.below(10) as u8).collect();
    let sign = rng.pick(&[0xC, 0xD]);
    if precision.is_multiple_of(2) {
        nibbles[0] = 0;
    }
    if rng.one_in(4) {
        nibbles.fill(0);
        return (packed(&nibbles, 0xC), packed(&nibbles, 0xD));
    }
    let a = packed(&nibbles, sign);
    if size == 17 && rng.one_in(2) {
        let number = nibbles
            .iter()
            .fold(0_i128, |n, &digit| 10 * n + i128::from(digit));
        let number = if sign == 0xD { -number } else { number };
        return (a, [&number.to_le_bytes()[..], &[scale]].concat());
    }
    if precision.is_multiple_of(2) {
        nibbles[0] = rng.below(16) as u8;
    }
    (a, packed(&nibbles, sign))
}

/// Two forms that differ little: by one bit, one unit, or an edge of the type.
fn near_forms(rng: &mut Rng, ty: &ColumnType, size: usize) -> Option<Pair> {
    if size == 0 {
        return None;
    }
    let edges = match ty {
        ColumnType::Real => Some((
            real(0x7F80_0000),
            real(rng.pick(&[0x7F80_0001, 0xFF80_0000])),
        )),
        ColumnType::DoublePrecision => Some((
            double(0x7FF0_0000_0000_0000),
            double(rng.pick(&[0x7FF0_0000_0000_0001, 0xFFF0_0000_0000_0000])),
        )),
        ColumnType::Numeric { scale, .. } | ColumnType::Decimal { scale, .. } if size == 17 => {
            let number = rng.next_i128().to_le_bytes();
            let other = scale ^ 1;
            Some((
                [&number[..], &[*scale]].concat(),
                [&number[..], &[other]].concat(),
            ))
        }
        _ => None,
    };
    if rng.one_in(4)
        && let Some(pair) = edges
    {
        return Some(pair);
    }
    let a = same_forms(rng, ty, size).map_or_else(|| stored_form(rng, ty, size), |pair| pair.0);
    let mut b = a.clone();
    let at = rng.below(size);
    match rng.below(2) {
        0 => b[at] ^= 1 << rng.below(8),
        _ => b[size - 1] = b[size - 1].wrapping_add(1),
    }
    Some((a, b))
}

/// A sound row, and the row after one edit.
fn edited(rng: &mut Rng, types: &[ColumnType], of: RowSort) -> Option<Pair> {
    if types.is_empty() {
        return None;
    }
    let row = sound_row_of(rng, types, of);
    let column = rng.below(types.len());
    let own = &types[column..=column];
    let list = list::list_of(rng, own, of, ListSort::Good)?;
    let edit = made::edited(types, &row, column, &list.values);
    (edit.len() <= of.limit()).then_some((row, edit))
}

fn flipped(rng: &mut Rng, types: &[ColumnType], of: RowSort) -> Option<Pair> {
    let row = sound_row_of(rng, types, of);
    if row.len() == BITMAP {
        return None;
    }
    let mut other = row.clone();
    let at = rng.between(BITMAP, row.len() - 1);
    other[at] ^= 1 << rng.below(8);
    Some((row, other))
}
