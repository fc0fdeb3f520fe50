//! Lists of platform occupations: rows, each after its length in two bytes. Good
//! ones, ones with a row that is refused, ones that are cut, and at the limits.

use super::row::{self, any_row};
use super::{made, text};
use crate::column::ColumnType;
use crate::layout::BITMAP;
use crate::rng::Rng;
use crate::row::long_twin;
use crate::row_sort::LONG;
use crate::value::{Record, ValueList, append};

/// Platform, unit, arrival, departure.
pub const COLUMNS: [ColumnType; 4] = [
    ColumnType::Varchar(16),
    ColumnType::Varchar(64),
    ColumnType::Timestamp,
    ColumnType::Timestamp,
];

/// The most rows of a list, and the most bytes.
pub const MAX_ROWS: usize = 512;
pub const MAX_BYTES: usize = 32_768;

/// The bytes of a row before its texts.
const MINIMUM: usize = 25;

#[derive(Debug, Clone, Copy, PartialEq, Eq, PartialOrd, Ord)]
pub enum Sort {
    // Every row is good.
    Empty,
    Good,
    /// One platform, or two of which one begins as the other.
    SamePlatform,
    /// Arrivals within two seconds, some of them at one microsecond.
    SameSecond,
    /// Padded, bits past the last column set, bytes before the texts.
    Unusual,
    /// Texts that lie over the slots.
    OverSlots,
    // Good rows, and one more or one byte more than a list may have or not.
    RowLimit,
    ByteLimit,
    // A row is refused.
    /// Texts with double quotes, bytes below 32, and those beside them.
    Marks,
    /// A row damaged in any way, or several.
    Damaged,
    /// A row of 0 to 3 bytes.
    ShortRow,
    // The list is not one of rows.
    Cut,
    LoneByte,
    /// A row's length is changed.
    Length,
    Random,
}

impl Sort {
    pub const ALL: [Sort; 15] = [
        Sort::Empty,
        Sort::Good,
        Sort::SamePlatform,
        Sort::SameSecond,
        Sort::Unusual,
        Sort::OverSlots,
        Sort::RowLimit,
        Sort::ByteLimit,
        Sort::Marks,
        Sort::Damaged,
        Sort::ShortRow,
        Sort::Cut,
        Sort::LoneByte,
        Sort::Length,
        Sort::Random,
    ];

    /// The sorts of which every list is printed.
    pub const PRINTED: [Sort; 6] = [
        Sort::Empty,
        Sort::Good,
        Sort::SamePlatform,
        Sort::SameSecond,
        Sort::Unusual,
        Sort::OverSlots,
    ];
}

/// The list of these rows, each of at most 65,535 bytes.
pub fn framed(rows: &[Vec<u8>]) -> Vec<u8> {
    let mut list = Vec::new();
    for row in rows {
        let length = u16::try_from(row.len()).expect("two bytes");
        list.extend(length.to_le_bytes());
        list.extend(row);
    }
    list
}

/// A list of a sort at random; the long ones, which take long, less often.
pub fn any_list(rng: &mut Rng) -> (Sort, Vec<u8>) {
    loop {
        let sort = rng.pick(&Sort::ALL);
        if matches!(sort, Sort::RowLimit | Sort::ByteLimit) && !rng.one_in(4) {
            continue;
        }
        return (sort, list(rng, sort));
    }
}

pub fn list(rng: &mut Rng, sort: Sort) -> Vec<u8> {
    let count = match rng.below(8) {
        0 => rng.between(9, 40),
        _ => rng.between(1, 8),
    };
    let rows = match sort {
        Sort::Empty => vec![],
        Sort::RowLimit => {
            let count = rng.between(MAX_ROWS - 1, MAX_ROWS + 1);
            let length = rng.pick(&[MINIMUM, MINIMUM + 3, 62]);
            (0..count).map(|_| row_of(rng, length)).collect()
        }
        Sort::ByteLimit => return of_bytes(rng),
        Sort::Random => {
            let length = rng.between(1, 60);
            return rng.bytes(length);
        }
        Sort::SamePlatform => {
            let platform = rng.pick(&PLATFORMS);
            let second = rng.pick(&["a", "0", " "]);
            let longer = [platform, second].concat();
            let platforms = [platform, &longer];
            rows(count, || {
                let platform = rng.pick(&platforms).to_string();
                let arrival = any_moment(rng);
                Draft {
                    platform: Some(platform),
                    arrival,
                    ..any_draft(rng)
                }
            })
        }
        Sort::SameSecond => {
            let second = any_micros(rng).div_euclid(1_000_000);
            rows(count, || Draft {
                platform: rng.pick(&[None, Some("1"), Some("1")]).map(str::to_string),
                arrival: Some(near(rng, second)),
                ..any_draft(rng)
            })
        }
        _ => rows(count, || any_draft(rng)),
    };
    changed(rng, sort, rows)
}

/// The list of these good rows as the sort has it.
fn changed(rng: &mut Rng, sort: Sort, mut rows: Vec<Vec<u8>>) -> Vec<u8> {
    match sort {
        Sort::Unusual => {
            for row in &mut rows {
                unusual(rng, row);
            }
        }
        Sort::OverSlots => {
            let at = rng.below(rows.len());
            rows[at] = over_slots(rng);
        }
        Sort::Marks => {
            for _ in 0..rng.between(1, 2) {
                let at = rng.below(rows.len());
                rows[at] = marked(rng);
            }
        }
        Sort::Damaged => {
            for _ in 0..rng.between(1, 2) {
                let at = rng.below(rows.len());
                rows[at] = damaged(rng);
            }
        }
        Sort::ShortRow => {
            let (at, length) = (rng.below(rows.len() + 1), rng.below(4));
            let mut row = made::fresh(&COLUMNS);
            row.truncate(length);
            rows.insert(at, row);
        }
        _ => {}
    }
    let mut list = framed(&rows);
    match sort {
        Sort::Cut => list.truncate(rng.below(list.len())),
        Sort::LoneByte => list.push(rng.byte()),
        Sort::Length => {
            let before = rng.below(rows.len());
            let at = framed(&rows[..before]).len();
            let length = rows[before].len() as u16;
            // The next row is a part of this one.
            let both = length + rows.get(before + 1).map_or(2, |next| 2 + next.len() as u16);
            let any = rng.next_u64() as u16;
            let lengths = [0, length - 1, length + 1, both, both, u16::MAX, any];
            let new = rng.pick(&lengths);
            list[at..at + 2].copy_from_slice(&new.to_le_bytes());
        }
        _ => {}
    }
    list
}

/// A list in which rows, all of them or some, are their long twins, or marked so; the
/// rows as far as the list has whole ones. A list at a limit passes it.
pub fn with_long_rows(rng: &mut Rng, list: &[u8]) -> Vec<u8> {
    let share = rng.pick(&[1, 2, 3]);
    let mut out = Vec::new();
    let mut rest = list;
    while let Some((length, behind)) = rest.split_first_chunk()
        && let Some((row, behind)) = behind.split_at_checked(u16::from_le_bytes(*length).into())
    {
        let mut row = row.to_vec();
        if rng.one_in(share) {
            row = long_twin(&COLUMNS, &row).unwrap_or(row);
        }
        if rng.one_in(40) && row.len() >= 4 {
            row[3] ^= (LONG >> 8) as u8;
        }
        out.extend(framed(&[row]));
        rest = behind;
    }
    out.extend(rest);
    out
}

/// What a good row says.
struct Draft {
    platform: Option<String>,
    unit: Option<String>,
    arrival: Option<i64>,
    departure: Option<i64>,
}

impl Draft {
    fn row(&self) -> Vec<u8> {
        let mut area = Vec::new();
        let mut text = |text: &Option<String>| match text {
            Some(text) => {
                let range = append(text.as_bytes(), &mut area);
                Record::Varchar(range.expect("a short text"))
            }
            None => Record::Null,
        };
        let moment = |micros: Option<i64>| micros.map_or(Record::Null, Record::Timestamp);
        let records = [
            text(&self.platform),
            text(&self.unit),
            moment(self.arrival),
            moment(self.departure),
        ];
        made::built(&COLUMNS, &ValueList::of_records(&records, area))
    }
}

fn rows(count: usize, mut draft: impl FnMut() -> Draft) -> Vec<Vec<u8>> {
    (0..count).map(|_| draft().row()).collect()
}

/// With beginnings in common, and at the limit of 16 bytes.
const PLATFORMS: [&str; 12] = [
    "",
    "1",
    "10",
    "1a",
    "2",
    "3",
    "3 Süd",
    "é",
    "~",
    "\u{7F}",
    "\u{10FFFF}",
    "Güterbahnhof W",
];

const UNITS: [&str; 8] = [
    "",
    "T41",
    "IC 587",
    "Wendezug Süd",
    "a|b",
    "-",
    "\\",
    "\u{7F}\u{80}",
];

fn any_draft(rng: &mut Rng) -> Draft {
    let platform = match rng.below(12) {
        0 => None,
        1 => Some(printable(rng, 16)),
        _ => Some(rng.pick(&PLATFORMS).to_string()),
    };
    let unit = match rng.below(8) {
        0 => None,
        1 => Some(printable(rng, 64)),
        2 => Some(rng.pick(&UNITS).to_string()),
        // Another for nearly every row, so that the order of equal rows is seen.
        _ => Some(format!("U {}", rng.below(10_000))),
    };
    Draft {
        platform,
        unit,
        arrival: any_moment(rng),
        departure: any_moment(rng),
    }
}

/// A printable text of at most so many bytes, often of as many.
fn printable(rng: &mut Rng, most: usize) -> String {
    let length = match rng.below(3) {
        0 => most,
        _ => rng.between(0, most),
    };
    let text = String::from_utf8(text::any_valid(rng, length)).expect("text");
    text.chars()
        .map(|c| if c == '"' || c < ' ' { '.' } else { c })
        .collect()
}

fn any_moment(rng: &mut Rng) -> Option<i64> {
    (!rng.one_in(8)).then(|| any_micros(rng))
}

/// Microseconds: near the ends, at the turns of days and years, or any.
fn any_micros(rng: &mut Rng) -> i64 {
    let second = match rng.below(8) {
        0 => -62_135_596_800,
        1 => 253_402_300_799,
        2 => 0,
        3 => rng.between_i64(-719_162, 2_932_896) * 86_400,
        // 1900-03-01, 2000-02-29, 2000-03-01, 2001-01-01, 2100-03-01.
        4 => rng.pick(&[
            -2_203_891_200,
            951_782_400,
            951_868_800,
            978_307_200,
            4_107_542_400,
        ]),
        _ => rng.between_i64(-62_135_596_800, 253_402_300_799),
    };
    near(rng, second)
}

/// A microsecond within this second, or often just before it, if a row holds it.
fn near(rng: &mut Rng, second: i64) -> i64 {
    let micros = second * 1_000_000;
    let by = rng.pick(&[-1_000_000, -1, -1, 0, 0, 1, 1, 500_000, 999_999]);
    let least = -62_135_596_800_000_000;
    (micros + by).max(least)
}

/// A good row of exactly this length, from 25 bytes to 105.
fn row_of(rng: &mut Rng, length: usize) -> Vec<u8> {
    let texts = length - MINIMUM;
    let least = texts.saturating_sub(64);
    let platform = rng.between(least, texts.min(16));
    let text = |length: usize| (length > 0).then(|| "x".repeat(length));
    let draft = Draft {
        platform: text(platform),
        unit: text(texts - platform),
        ..any_draft(rng)
    };
    draft.row()
}

/// A list of 32,767 to 32,769 bytes, mostly of good rows.
fn of_bytes(rng: &mut Rng) -> Vec<u8> {
    let bytes = rng.between(MAX_BYTES - 1, MAX_BYTES + 1);
    let (least, most) = (2 + MINIMUM, 2 + 105);
    let mut rows = Vec::new();
    let mut left = bytes;
    while left > 0 {
        // As many as the rest can be made of.
        let take = match left {
            left if left <= most => left,
            left if left <= 2 * most => rng.between(least, most.min(left - least)),
            _ => rng.between(least, most),
        };
        rows.push(row_of(rng, take - 2));
        left -= take;
    }
    if rng.one_in(4) {
        let at = rng.below(rows.len());
        let length = rows[at].len();
        rows[at] = rng.bytes(length);
    }
    framed(&rows)
}

/// The row as only another writer makes it: it reads as before.
fn unusual(rng: &mut Rng, row: &mut Vec<u8>) {
    match rng.below(3) {
        // The slots stand at multiples of 8 in any case.
        0 => row[3] = 0,
        1 => row[BITMAP] |= rng.byte() << COLUMNS.len(),
        _ => {
            let gap = rng.between(1, 8);
            let bytes = rng.bytes(gap);
            row.splice(MINIMUM..MINIMUM, bytes);
            for at in [5, 7] {
                if row[at] != 0 {
                    row[at] += gap as u8;
                }
            }
        }
    }
}

/// A row whose texts lie over the slots, which read as well.
fn over_slots(rng: &mut Rng) -> Vec<u8> {
    let mut row = made::fresh(&COLUMNS);
    let mut bytes = [0; 8];
    for byte in &mut bytes {
        *byte = rng.between(0x23, 0x7E) as u8;
    }
    // The arrival's last byte is not of the text.
    row[9..17].copy_from_slice(&bytes);
    row[16] = 0;
    row[17..25].copy_from_slice(&bytes);
    match rng.below(2) {
        // The platform up to the unit's offset, whose bit says null.
        0 => {
            row[BITMAP] = 0x0A;
            (row[5], row[7]) = (rng.between(9, 16) as u8, 16);
        }
        // The departure is null.
        _ => {
            row[BITMAP] = 0x08;
            (row[5], row[7]) = (17, rng.between(17, 25) as u8);
        }
    }
    row
}

/// A row with a mark in one of its texts, or both.
fn marked(rng: &mut Rng) -> Vec<u8> {
    let mut mark = |most: usize| {
        let control = rng.below(0x20) as u8;
        let byte = rng.pick(&[
            b'"', b'"', 0x00, 0x1F, 0x1F, control, b' ', b'!', b'#', 0x7F,
        ]);
        let mut text = printable(rng, most - 1);
        let ends: Vec<usize> = (0..=text.len())
            .filter(|&at| text.is_char_boundary(at))
            .collect();
        text.insert(rng.pick(&ends), char::from(byte));
        text
    };
    let (platform, unit) = (mark(16), mark(64));
    let mut draft = any_draft(rng);
    match rng.below(4) {
        0 => draft.platform = Some(platform),
        1 => (draft.platform, draft.unit) = (Some(platform), Some(unit)),
        _ => draft.unit = Some(unit),
    }
    let mut row = draft.row();
    // A column behind it is refused too.
    if rng.one_in(4) {
        row[24] = 0x7F;
        row[BITMAP] &= !8;
    }
    row
}

/// A row of any sort that a list has room for.
fn damaged(rng: &mut Rng) -> Vec<u8> {
    loop {
        let (sort, row) = any_row(rng, &COLUMNS);
        if !matches!(sort, row::Sort::AtLimit | row::Sort::Above) {
            return row;
        }
    }
}
