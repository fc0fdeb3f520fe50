//! Rows: built by the Rust, padded, and damaged in each way; column numbers.

use super::list::{self, AT_LONG_LIMIT, Sort as ListSort};
use super::made;
use super::text::{self, Fault};
use crate::RowSort;
use crate::column::ColumnType;
use crate::layout::{BITMAP, Layout, PACKED, Place};
use crate::rng::Rng;
use crate::row::{clear_null_bit, offset, padded, set_offset};
use crate::row_sort::LONG;

#[derive(Debug, Clone, Copy, PartialEq, Eq, PartialOrd, Ord)]
pub enum Sort {
    // Sound.
    Fresh,
    Built,
    /// Built, then edited: null slots keep what they held.
    Edited,
    Padded,
    /// Bits past the last column set.
    SpareBits,
    /// A sound row of exactly as many bytes as its sort may have.
    AtLimit,
    /// A sound long row above 65,535 bytes.
    Beyond,
    // Changed by hand, sound or not.
    /// A slot with a stored form at the edge of its type, or no value of it.
    Stored,
    /// A Varchar's payload made invalid text, or of more characters than it counts.
    Payload,
    FlippedBits,
    Cut,
    Lengthened,
    /// An offset changed.
    Offset,
    /// An offset before the payloads, the bit clear.
    OffsetInHeader,
    /// An offset of 0, the bit clear.
    ZeroOffset,
    ColumnCount,
    VarcharCount,
    Flag,
    /// The mark of long rows changed.
    Mark,
    /// Above its sort's limit.
    Above,
    /// A right header and random bytes.
    RandomBody,
    Random,
}

impl Sort {
    /// Those of short rows. A mark that is set makes a long one.
    pub const ALL: [Sort; 20] = [
        Sort::Fresh,
        Sort::Built,
        Sort::Edited,
        Sort::Padded,
        Sort::SpareBits,
        Sort::AtLimit,
        Sort::Stored,
        Sort::Payload,
        Sort::FlippedBits,
        Sort::Cut,
        Sort::Lengthened,
        Sort::Offset,
        Sort::OffsetInHeader,
        Sort::ZeroOffset,
        Sort::ColumnCount,
        Sort::VarcharCount,
        Sort::Flag,
        Sort::Above,
        Sort::RandomBody,
        Sort::Random,
    ];

    /// Those of long rows.
    pub const LONG: [Sort; 22] = {
        let mut sorts = [Sort::Mark; 22];
        let mut at = 0;
        while at < Sort::ALL.len() {
            sorts[at] = Sort::ALL[at];
            at += 1;
        }
        sorts[at] = Sort::Beyond;
        sorts
    };

    /// The sorts of which every short row is sound.
    pub const SOUND: [Sort; 6] = [
        Sort::Fresh,
        Sort::Built,
        Sort::Edited,
        Sort::Padded,
        Sort::SpareBits,
        Sort::AtLimit,
    ];

    /// The sorts of which every long row is sound.
    pub const SOUND_LONG: [Sort; 7] = [
        Sort::Fresh,
        Sort::Built,
        Sort::Edited,
        Sort::Padded,
        Sort::SpareBits,
        Sort::Beyond,
        Sort::AtLimit,
    ];

    /// Whether another sort is to be tried instead: rows at the limit are long, those of
    /// a long row very long.
    fn is_left_out(self, rng: &mut Rng, of: RowSort, one_in: usize) -> bool {
        match (of, self) {
            (RowSort::Short, Sort::AtLimit | Sort::Above) => one_in > 1 && !rng.one_in(one_in),
            // Few columns reach so far.
            (RowSort::Long, Sort::AtLimit) => !rng.one_in(3),
            (RowSort::Long, Sort::Above) => !rng.one_in(AT_LONG_LIMIT),
            (RowSort::Long, Sort::Beyond) => !rng.one_in(4),
            _ => false,
        }
    }
}

/// A short row of this sort for a good schema; `None` if the schema has none, or the
/// row tried has not what the sort damages.
pub fn row(rng: &mut Rng, types: &[ColumnType], sort: Sort) -> Option<Vec<u8>> {
    row_of(rng, types, RowSort::Short, sort)
}

/// The same of a row, before it is damaged, of a sort.
pub fn row_of(rng: &mut Rng, types: &[ColumnType], of: RowSort, sort: Sort) -> Option<Vec<u8>> {
    match sort {
        Sort::Fresh => Some(made::fresh_of(types, of)),
        Sort::Built => Some(built(rng, types, of)),
        Sort::Edited => Some(edited(rng, types, of)),
        Sort::Padded => Some(padded_row(rng, types, of)),
        Sort::SpareBits => spare_bits(rng, types, of),
        Sort::AtLimit => build(rng, types, of, ListSort::RowAtLimit),
        Sort::Stored => stored(rng, types, of),
        Sort::Payload => payload(rng, types, of),
        Sort::FlippedBits => Some(flipped(rng, types, of)),
        Sort::Cut => Some(cut(rng, types, of)),
        Sort::Lengthened => Some(lengthened(rng, types, of)),
        Sort::Offset => changed_offset(rng, types, of),
        Sort::OffsetInHeader => offset_in_header(rng, types, of),
        Sort::ZeroOffset => zero_offset(rng, types, of),
        Sort::ColumnCount => Some(column_count(rng, types, of)),
        Sort::VarcharCount => Some(varchar_count(rng, types, of)),
        Sort::Flag => Some(flag(rng, types, of)),
        Sort::Mark => Some(mark(rng, types, of)),
        Sort::Beyond => beyond(rng, types, of),
        Sort::Above => Some(above(rng, types, of)),
        Sort::RandomBody => Some(random_body(rng, types, of)),
        Sort::Random => {
            let length = rng.between(0, 60);
            Some(rng.bytes(length))
        }
    }
}

/// A short row of a sort at random; those at the limit, which take long, less often.
pub fn any_row(rng: &mut Rng, types: &[ColumnType]) -> (Sort, Vec<u8>) {
    any_row_of(rng, types, RowSort::Short)
}

/// The same of a row, before it is damaged, of a sort.
pub fn any_row_of(rng: &mut Rng, types: &[ColumnType], of: RowSort) -> (Sort, Vec<u8>) {
    loop {
        let sort = match of {
            RowSort::Short => rng.pick(&Sort::ALL),
            RowSort::Long => rng.pick(&Sort::LONG),
        };
        if sort.is_left_out(rng, of, 4) {
            continue;
        }
        if let Some(row) = row_of(rng, types, of, sort) {
            return (sort, row);
        }
    }
}

/// A sound short row.
pub fn sound_row(rng: &mut Rng, types: &[ColumnType]) -> Vec<u8> {
    sound_row_of(rng, types, RowSort::Short)
}

/// A sound row of a sort.
pub fn sound_row_of(rng: &mut Rng, types: &[ColumnType], of: RowSort) -> Vec<u8> {
    loop {
        let sort = match of {
            RowSort::Short => rng.pick(&Sort::SOUND),
            RowSort::Long => rng.pick(&Sort::SOUND_LONG),
        };
        if sort.is_left_out(rng, of, 1) {
            continue;
        }
        if let Some(row) = row_of(rng, types, of, sort) {
            return row;
        }
    }
}

fn build(rng: &mut Rng, types: &[ColumnType], of: RowSort, sort: ListSort) -> Option<Vec<u8>> {
    let list = list::list_of(rng, types, of, sort)?;
    Some(made::built_of(types, of, &list.values))
}

fn built(rng: &mut Rng, types: &[ColumnType], of: RowSort) -> Vec<u8> {
    build(rng, types, of, ListSort::Good).expect("a row of a good list")
}

fn edited(rng: &mut Rng, types: &[ColumnType], of: RowSort) -> Vec<u8> {
    let mut row = built(rng, types, of);
    if types.is_empty() {
        return row;
    }
    for _ in 0..rng.between(1, 6) {
        let column = rng.below(types.len());
        let own = &types[column..=column];
        let list = list::list_of(rng, own, of, ListSort::Good).expect("a good list");
        let edit = made::edited(types, &row, column, &list.values);
        if edit.len() <= of.limit() {
            row = edit;
        }
    }
    row
}

/// A sound long row that no short one is as long as.
fn beyond(rng: &mut Rng, types: &[ColumnType], of: RowSort) -> Option<Vec<u8>> {
    if of == RowSort::Short {
        return None;
    }
    let list = list::beyond_short(rng, types)?;
    let row = made::built_of(types, of, &list.values);
    match rng.below(4) {
        0 => padded(types, &row, 0xA5),
        _ => Some(row),
    }
}

fn padded_row(rng: &mut Rng, types: &[ColumnType], of: RowSort) -> Vec<u8> {
    let row = if rng.one_in(2) {
        built(rng, types, of)
    } else {
        edited(rng, types, of)
    };
    let filler = rng.byte();
    let filler = rng.pick(&[0, 0xFF, filler]);
    padded(types, &row, filler)
        .or_else(|| padded(types, &made::fresh_of(types, of), filler))
        .expect("a padded minimum within the limit")
}

/// A sound row to be damaged.
fn base(rng: &mut Rng, types: &[ColumnType], of: RowSort) -> Vec<u8> {
    match rng.below(4) {
        0 => edited(rng, types, of),
        1 => padded_row(rng, types, of),
        _ => built(rng, types, of),
    }
}

fn spare_bits(rng: &mut Rng, types: &[ColumnType], of: RowSort) -> Option<Vec<u8>> {
    let used = types.len() % 8;
    if used == 0 {
        return None;
    }
    let mut row = base(rng, types, of);
    row[BITMAP + types.len() / 8] |= 1 << rng.between(used, 7);
    row[BITMAP + types.len() / 8] |= rng.byte() << used;
    Some(row)
}

/// A column that is a Varchar, or one that is not.
fn pick_column(rng: &mut Rng, types: &[ColumnType], varchar: bool) -> Option<usize> {
    let columns: Vec<usize> = (0..types.len())
        .filter(|&column| types[column].is_variable_length() == varchar)
        .collect();
    (!columns.is_empty()).then(|| rng.pick(&columns))
}

/// A row to be damaged at one of its Varchars.
struct Target {
    row: Vec<u8>,
    layout: Layout,
    column: usize,
    rank: usize,
}

impl Target {
    fn new(rng: &mut Rng, types: &[ColumnType], of: RowSort) -> Option<Self> {
        let column = pick_column(rng, types, true)?;
        let row = base(rng, types, of);
        let layout = Layout::of_row(types, &row);
        let Place::Varchar { rank } = layout.places[column] else {
            return None;
        };
        Some(Target {
            row,
            layout,
            column,
            rank,
        })
    }

    fn offset(&self, rank: usize) -> usize {
        offset(&self.row, &self.layout, rank)
    }

    fn set_offset(&mut self, offset: usize) {
        set_offset(&mut self.row, &self.layout, self.rank, offset);
    }
}

fn stored(rng: &mut Rng, types: &[ColumnType], of: RowSort) -> Option<Vec<u8>> {
    let mut row = base(rng, types, of);
    let layout = Layout::of_row(types, &row);
    for _ in 0..rng.between(1, 3) {
        let column = pick_column(rng, types, false)?;
        if let Place::Fixed { start, size } = layout.places[column] {
            let form = stored_form(rng, &types[column], size);
            row[start..start + size].copy_from_slice(&form);
            clear_null_bit(&mut row, column);
        }
    }
    Some(row)
}

/// Bytes of a slot: at the edge of the type, or no value of it.
pub fn stored_form(rng: &mut Rng, ty: &ColumnType, size: usize) -> Vec<u8> {
    match ty {
        ColumnType::Bool => vec![rng.pick(&[0, 1, 2, 128, 255])],
        ColumnType::Date => rng.pick(&STORED_DATES).to_le_bytes().to_vec(),
        ColumnType::Time => stored_time(rng).to_le_bytes().to_vec(),
        ColumnType::Timestamp => rng.pick(&STORED_TIMESTAMPS).to_le_bytes().to_vec(),
        ColumnType::Numeric { precision, .. } | ColumnType::Decimal { precision, .. } => {
            stored_numeric(rng, *precision, size)
        }
        ColumnType::Char(_) | ColumnType::Character(_) => stored_text(rng, size),
        _ => rng.bytes(size),
    }
}

/// 01's ends, chrono's ends (version 0.4.23), one past each, and the ends of the
/// numbers.
const STORED_DATES: [i32; 10] = [
    -719_162,
    -719_163,
    2_932_896,
    2_932_897,
    -96_465_658,
    -96_465_659,
    95_026_601,
    95_026_602,
    i32::MIN,
    i32::MAX,
];

const STORED_TIMESTAMPS: [i64; 10] = [
    -62_135_596_800_000_000,
    -62_135_596_800_000_001,
    253_402_300_799_999_999,
    253_402_300_800_000_000,
    -8_334_632_851_200_000_000,
    -8_334_632_851_200_000_001,
    8_210_298_412_799_999_999,
    8_210_298_412_800_000_000,
    i64::MIN,
    i64::MAX,
];

/// A count near the ends of the day, moved by quotients modulo 2^32.
fn stored_time(rng: &mut Rng) -> i64 {
    let turns = rng.between_i64(-2, 2) * 4_294_967_296_000_000;
    let count = rng.pick(&[0, 1, 999_999, 1_000_000, 86_399_999_999, 86_400_000_000]);
    match rng.below(8) {
        0 => rng.next_u64() as i64,
        1 => rng.pick(&[i64::MIN, i64::MAX]),
        2 => turns - 1,
        _ => turns + count,
    }
}

/// Digits, a front nibble and a sign nibble, each good or bad; two's complement
/// where it has room.
fn stored_numeric(rng: &mut Rng, precision: u8, size: usize) -> Vec<u8> {
    if size == 17 && rng.one_in(4) {
        let any = rng.next_i128();
        let unscaled = rng.pick(&[i128::MIN, i128::MAX, -1, 0, 1, any]);
        return [&unscaled.to_le_bytes()[..], &[rng.between(0, 38) as u8]].concat();
    }
    if rng.one_in(8) {
        return rng.bytes(size);
    }
    let digit = rng.pick(&[0, 9, 10]);
    let mut nibbles: Vec<u8> = (0..2 * size - 1)
        .map(|_| rng.between(0, digit) as u8)
        .collect();
    if precision.is_multiple_of(2) {
        nibbles[0] = rng.pick(&[0, 1, 15]);
    }
    nibbles.push(rng.pick(&[0xC, 0xC, 0xD, 0xD, 0x0, 0xA, 0xF]));
    nibbles
        .chunks(2)
        .map(|pair| pair[0] << 4 | pair[1])
        .collect()
}

fn stored_text(rng: &mut Rng, size: usize) -> Vec<u8> {
    let fault = rng.pick(&Fault::ALL);
    if rng.one_in(2)
        && let Some(bytes) = text::invalid(rng, fault, size)
    {
        return bytes;
    }
    text::any_valid(rng, size)
}

fn payload(rng: &mut Rng, types: &[ColumnType], of: RowSort) -> Option<Vec<u8>> {
    let mut target = Target::new(rng, types, of)?;
    let start = target.offset(target.rank);
    if start == 0 {
        return None;
    }
    let end = (target.rank + 1..target.layout.varchars)
        .map(|rank| target.offset(rank))
        .find(|&offset| offset != 0)
        .unwrap_or(target.row.len());
    let bytes = match types[target.column] {
        ColumnType::VarcharChars(n) if end - start > n.into() && rng.one_in(2) => {
            text::valid(rng, text::Sort::Ascii, end - start)
        }
        _ => {
            let fault = rng.pick(&Fault::ALL);
            text::invalid(rng, fault, end - start)?
        }
    };
    target.row[start..end].copy_from_slice(&bytes);
    Some(target.row)
}

fn flipped(rng: &mut Rng, types: &[ColumnType], of: RowSort) -> Vec<u8> {
    let mut row = base(rng, types, of);
    for _ in 0..rng.between(1, 4) {
        let at = rng.below(row.len());
        row[at] ^= 1 << rng.below(8);
    }
    row
}

fn cut(rng: &mut Rng, types: &[ColumnType], of: RowSort) -> Vec<u8> {
    let mut row = base(rng, types, of);
    let minimum = Layout::of_row(types, &row).minimum;
    let length = match rng.below(4) {
        0 => rng.between(0, 4),
        1 => minimum - 1,
        2 => minimum,
        _ => rng.below(row.len()),
    };
    row.truncate(length.min(row.len() - 1));
    row
}

fn lengthened(rng: &mut Rng, types: &[ColumnType], of: RowSort) -> Vec<u8> {
    let mut row = base(rng, types, of);
    let more = rng.between(1, 16);
    row.extend(rng.bytes(more));
    row
}

fn changed_offset(rng: &mut Rng, types: &[ColumnType], of: RowSort) -> Option<Vec<u8>> {
    let mut target = Target::new(rng, types, of)?;
    let old = target.offset(target.rank);
    let new = match rng.below(6) {
        0 => rng.next_u64() as usize,
        1 => target.offset(rng.below(target.layout.varchars)),
        2 => target.row.len() + rng.below(2),
        3 => usize::MAX,
        4 => old.wrapping_sub(1),
        _ => far_offset(rng, of, old),
    };
    target.set_offset(new);
    if target.offset(target.rank) == old {
        target.set_offset(old.wrapping_add(1));
    }
    Some(target.row)
}

fn offset_in_header(rng: &mut Rng, types: &[ColumnType], of: RowSort) -> Option<Vec<u8>> {
    let mut target = Target::new(rng, types, of)?;
    let inside = rng.between(1, target.layout.minimum - 1);
    let inside = rng.pick(&[1, BITMAP, target.layout.table, inside]);
    target.set_offset(inside);
    clear_null_bit(&mut target.row, target.column);
    Some(target.row)
}

fn zero_offset(rng: &mut Rng, types: &[ColumnType], of: RowSort) -> Option<Vec<u8>> {
    let mut target = Target::new(rng, types, of)?;
    target.set_offset(0);
    clear_null_bit(&mut target.row, target.column);
    Some(target.row)
}

fn column_count(rng: &mut Rng, types: &[ColumnType], of: RowSort) -> Vec<u8> {
    let mut row = base(rng, types, of);
    let count = types.len() as u16;
    let other = rng.between(1, 0xFFFF) as u16;
    let by = rng.pick(&[1, u16::MAX, 256, other]);
    row[..2].copy_from_slice(&count.wrapping_add(by).to_le_bytes());
    row
}

/// Of a long row an offset that two bytes, or three, would cut to the old one; of a
/// short one the old one.
fn far_offset(rng: &mut Rng, of: RowSort, old: usize) -> usize {
    match of {
        RowSort::Short => old,
        RowSort::Long => old + (1 << rng.pick(&[16, 24, 31])),
    }
}

/// Another Varchar count, the marks as they were.
fn varchar_count(rng: &mut Rng, types: &[ColumnType], of: RowSort) -> Vec<u8> {
    let mut row = base(rng, types, of);
    let field = u16::from_le_bytes([row[2], row[3]]);
    let marks = PACKED | of.mark();
    let other = rng.between(1, 0x7FFF) as u16;
    let by = rng.pick(&[1, PACKED - 1, 256, other]);
    let mut count = field.wrapping_add(by) & !marks;
    // By 0x4000 a long row has the old count again.
    if count == field & !marks {
        count ^= 0x2000;
    }
    row[2..4].copy_from_slice(&(field & marks | count).to_le_bytes());
    row
}

/// The mark of long rows changed: a row of the other sort by its header alone.
fn mark(rng: &mut Rng, types: &[ColumnType], of: RowSort) -> Vec<u8> {
    let mut row = base(rng, types, of);
    row[3] ^= (LONG >> 8) as u8;
    row
}

fn flag(rng: &mut Rng, types: &[ColumnType], of: RowSort) -> Vec<u8> {
    let mut row = base(rng, types, of);
    row[3] ^= (PACKED >> 8) as u8;
    row
}

fn above(rng: &mut Rng, types: &[ColumnType], of: RowSort) -> Vec<u8> {
    if let Some(row) = build(rng, types, of, ListSort::RowAbove) {
        return row;
    }
    let mut row = base(rng, types, of);
    row.resize(of.limit() + rng.pick(&[1, 2, 1000]), b' ');
    row
}

fn random_body(rng: &mut Rng, types: &[ColumnType], of: RowSort) -> Vec<u8> {
    let mut row = made::fresh_of(types, of);
    if rng.one_in(2) {
        row[3] &= !(PACKED >> 8) as u8;
    }
    let minimum = Layout::of_row(types, &row).minimum;
    let length = match rng.below(4) {
        0 => minimum,
        1 => rng.between(4, minimum),
        _ => minimum + rng.between(0, 40),
    };
    row.truncate(4);
    row.extend(rng.bytes(length - 4));
    row
}

/// A column number, mostly one that there is.
pub fn any_column(rng: &mut Rng, columns: usize) -> usize {
    if columns == 0 || rng.one_in(8) {
        unknown_column(rng, columns)
    } else {
        rng.below(columns)
    }
}

/// A column number that there is not.
pub fn unknown_column(rng: &mut Rng, columns: usize) -> usize {
    let far = rng.any_size() as usize;
    let numbers = [columns, columns + 1, 256, 65_535, 65_536, usize::MAX, far];
    rng.pick(&numbers).max(columns)
}
