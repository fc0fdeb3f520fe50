//! Value lists for a schema: good ones, one for each refusal, random bytes.

use super::Expected;
use super::value::{TextArea, other_kind, outside, suitable, unsuitable};
use crate::column::ColumnType;
use crate::layout::Layout;
use crate::rng::Rng;
use crate::value::{Record, TextRange, ValueList, body_length};
use crate::{LIMIT, RowSort};

#[derive(Debug, Clone, Copy, PartialEq, Eq, PartialOrd, Ord)]
pub enum Sort {
    /// Each column null or suitable.
    Good,
    /// Each column suitable, none null.
    Values,
    Nulls,
    /// Good, the text area exactly 65,535 bytes.
    TextAtLimit,
    /// Good, the packed row exactly 65,535 bytes.
    RowAtLimit,
    // Refused with 10.
    UnknownKind,
    Cut,
    TooFew,
    TooMany,
    TextAbove,
    // Refused with 11 or 12, one bad column.
    OtherKind,
    Unsuitable,
    Outside,
    /// Several bad columns; the first decides.
    Several,
    /// Refused with 13.
    RowAbove,
    Random,
}

/// How seldom what is at the limit of long rows is taken: it is of a million bytes.
pub const AT_LONG_LIMIT: usize = 16;

impl Sort {
    /// Whether another sort is to be tried instead, for a long row: text areas at the
    /// limit can be had for any columns, rows there for few.
    fn is_left_out(self, rng: &mut Rng) -> bool {
        match self {
            Sort::TextAtLimit | Sort::TextAbove => !rng.one_in(AT_LONG_LIMIT),
            Sort::RowAtLimit | Sort::RowAbove => !rng.one_in(3),
            _ => false,
        }
    }

    pub const ALL: [Sort; 16] = [
        Sort::Good,
        Sort::Values,
        Sort::Nulls,
        Sort::TextAtLimit,
        Sort::RowAtLimit,
        Sort::UnknownKind,
        Sort::Cut,
        Sort::TooFew,
        Sort::TooMany,
        Sort::TextAbove,
        Sort::OtherKind,
        Sort::Unsuitable,
        Sort::Outside,
        Sort::Several,
        Sort::RowAbove,
        Sort::Random,
    ];
}

/// A value list for a build; of one column, for a set.
#[derive(Debug, Clone, PartialEq, Eq)]
pub struct List {
    pub values: ValueList,
    pub expected: Expected,
}

/// A list of this sort for a short row; `None` if these columns have none, or the
/// column or the values tried do not give one.
pub fn list(rng: &mut Rng, types: &[ColumnType], sort: Sort) -> Option<List> {
    list_of(rng, types, RowSort::Short, sort)
}

/// The same for a row of a sort, whose limit is the text area's and the row's.
pub fn list_of(rng: &mut Rng, types: &[ColumnType], of: RowSort, sort: Sort) -> Option<List> {
    match sort {
        Sort::Good => Some(good(rng, types, of).accepted()),
        Sort::Values => values(rng, types, of).map(Draft::accepted),
        Sort::Nulls => Some(nulls(types, of).accepted()),
        Sort::TextAtLimit => Some(text_at_limit(rng, types, of)),
        Sort::RowAtLimit => row_of(rng, types, of, of.limit()).map(Draft::accepted),
        Sort::UnknownKind => Some(unknown_kind(rng, types, of)),
        Sort::Cut => Some(cut(rng, types, of)),
        Sort::TooFew => too_few(rng, types, of),
        Sort::TooMany => Some(too_many(rng, types, of)),
        Sort::TextAbove => Some(text_above(rng, types, of)),
        Sort::OtherKind | Sort::Unsuitable | Sort::Outside => one_bad(rng, types, of, sort),
        Sort::Several => several(rng, types, of),
        Sort::RowAbove => row_above(rng, types, of),
        Sort::Random => Some(random(rng)),
    }
}

/// A list of a sort at random for a short row, a good one half the time.
pub fn any_list(rng: &mut Rng, types: &[ColumnType]) -> (Sort, List) {
    any_list_of(rng, types, RowSort::Short)
}

/// The same for a row of a sort. Those at the limit of long rows are made seldom.
pub fn any_list_of(rng: &mut Rng, types: &[ColumnType], of: RowSort) -> (Sort, List) {
    loop {
        let sort = if rng.one_in(2) {
            Sort::Good
        } else {
            rng.pick(&Sort::ALL)
        };
        if of == RowSort::Long && sort.is_left_out(rng) {
            continue;
        }
        if let Some(list) = list_of(rng, types, of, sort) {
            return (sort, list);
        }
    }
}

/// Good values for a long row of more than 65,535 bytes; `None` if these columns do not
/// reach so far.
pub fn beyond_short(rng: &mut Rng, types: &[ColumnType]) -> Option<List> {
    let short = RowSort::Short.limit();
    let length = short + rng.pick(&[1, 2, 1000, 70_000]);
    Some(row_of(rng, types, RowSort::Long, length)?.accepted())
}

/// A list in the making: a record for each column, and the text area.
struct Draft {
    of: RowSort,
    records: Vec<Record>,
    area: TextArea,
}

impl Draft {
    fn list(self) -> ValueList {
        ValueList::of_records(&self.records, self.area.bytes)
    }

    fn accepted(self) -> List {
        List {
            values: self.list(),
            expected: Expected::Accepted,
        }
    }

    fn refused(self, number: u32, place: usize) -> List {
        List {
            values: self.list(),
            expected: Expected::refused(number, place),
        }
    }

    /// Refused for its number of records.
    fn miscounted(self) -> List {
        let values = self.list();
        let expected = Expected::refused(10, values.bytes.len());
        List { values, expected }
    }

    /// The length of the packed row.
    fn row_length(&self, types: &[ColumnType]) -> usize {
        let payload = |record: &Record| match record {
            Record::Varchar(range) => range.length,
            _ => 0,
        };
        Layout::packed_of(types, self.of).minimum + self.records.iter().map(payload).sum::<usize>()
    }
}

fn nulls(types: &[ColumnType], of: RowSort) -> Draft {
    Draft {
        of,
        records: vec![Record::Null; types.len()],
        area: TextArea::new(of),
    }
}

/// A suitable value for each column; `None` if the row would be too long.
fn values(rng: &mut Rng, types: &[ColumnType], of: RowSort) -> Option<Draft> {
    let mut area = TextArea::new(of);
    let records = types
        .iter()
        .map(|ty| suitable(rng, ty, &mut area))
        .collect();
    let draft = Draft { of, records, area };
    (draft.row_length(types) <= of.limit()).then_some(draft)
}

/// Null or a suitable value for each column.
fn good(rng: &mut Rng, types: &[ColumnType], of: RowSort) -> Draft {
    let mut draft = values(rng, types, of).unwrap_or_else(|| nulls(types, of));
    let null = rng.pick(&[2, 8, 64]);
    for record in &mut draft.records {
        if rng.one_in(null) {
            *record = Record::Null;
        }
    }
    draft
}

/// Lengthens the text area to this length.
fn lengthen(rng: &mut Rng, text: &mut Vec<u8>, length: usize) {
    let more = length - text.len();
    text.extend(rng.bytes(more));
}

fn text_at_limit(rng: &mut Rng, types: &[ColumnType], of: RowSort) -> List {
    let mut draft = good(rng, types, of);
    lengthen(rng, &mut draft.area.bytes, of.limit());
    draft.accepted()
}

/// The text area above its limit, the columns good or bad.
fn text_above(rng: &mut Rng, types: &[ColumnType], of: RowSort) -> List {
    let mut draft = good_or_bad(rng, types, of);
    let length = of.limit() + rng.pick(&[1, 2, 70_000]);
    lengthen(rng, &mut draft.area.bytes, length);
    draft.refused(10, 0)
}

/// Suitable values that make a packed row of exactly this length, the Varchars
/// sharing one text; `None` if the Varchars do not reach so far. The text is one of
/// characters of one byte, behind characters of four where Varchars that count
/// characters take some.
fn row_of(rng: &mut Rng, types: &[ColumnType], of: RowSort, length: usize) -> Option<Draft> {
    let mut missing = length.checked_sub(Layout::packed_of(types, of).minimum)?;
    let mut draft = nulls(types, of);
    let mut columns: Vec<usize> = (0..types.len()).collect();
    shuffle(rng, &mut columns);
    // Of each column the characters of four bytes, and the length.
    let mut parts = Vec::new();
    for column in columns {
        let (wide, length) = match types[column] {
            ColumnType::Varchar(n) => (0, missing.min(n.into())),
            ColumnType::VarcharChars(n) => wide_part(rng, missing, n.into()),
            _ => continue,
        };
        parts.push((column, wide, length));
        missing -= length;
    }
    let wide = parts.iter().map(|part| part.1).max().unwrap_or(0);
    let mut text = "\u{10FFFF}".repeat(wide).into_bytes();
    let mut end = 0;
    for (column, own, length) in parts {
        let start = 4 * (wide - own);
        draft.records[column] = Record::Varchar(TextRange { start, length });
        // What leaves the text area stays missing.
        missing += (start + length).saturating_sub(of.limit());
        end = end.max(start + length);
    }
    // As long as may be, of a long row as long as is needed.
    text.resize(end.max(LIMIT).min(of.limit()), b'x');
    draft.area.bytes = text;
    (missing == 0).then_some(draft)
}

/// How many characters of four bytes, and how many bytes in all, a text of at most n
/// characters takes of so many bytes that are missing.
fn wide_part(rng: &mut Rng, missing: usize, n: usize) -> (usize, usize) {
    let length = missing.min(4 * n);
    // Each of them spares three characters.
    let least = length.saturating_sub(n).div_ceil(3);
    let most = length / 4;
    match least <= most {
        true if rng.one_in(2) => (rng.between(least, most), length),
        true => (least, length),
        false => (most, 4 * most),
    }
}

fn row_above(rng: &mut Rng, types: &[ColumnType], of: RowSort) -> Option<List> {
    let above = rng.pick(&[1, 2, 1000]);
    Some(row_of(rng, types, of, of.limit() + above)?.refused(13, 0))
}

fn shuffle(rng: &mut Rng, columns: &mut [usize]) {
    for i in (1..columns.len()).rev() {
        columns.swap(i, rng.between(0, i));
    }
}

/// A bad record for a column, with its refusal's number.
fn bad_record(
    rng: &mut Rng,
    ty: &ColumnType,
    sort: Sort,
    area: &mut TextArea,
) -> Option<(Record, u32)> {
    match sort {
        Sort::OtherKind => Some((other_kind(rng, ty, area), 11)),
        Sort::Unsuitable => Some((unsuitable(rng, ty, area)?, 12)),
        _ => Some((outside(rng, ty, area.bytes.len())?, 12)),
    }
}

/// One bad column among good ones; `None` if the column tried cannot be bad in
/// this way.
fn one_bad(rng: &mut Rng, types: &[ColumnType], of: RowSort, sort: Sort) -> Option<List> {
    if types.is_empty() {
        return None;
    }
    let mut draft = good(rng, types, of);
    let column = rng.below(types.len());
    let (record, number) = bad_record(rng, &types[column], sort, &mut draft.area)?;
    draft.records[column] = record;
    Some(draft.refused(number, column))
}

/// Makes columns of a draft bad; the refusal of the first of them. Ranges that
/// leave the text area come last, when it has its length.
fn spoil(rng: &mut Rng, types: &[ColumnType], draft: &mut Draft) -> Option<(usize, u32)> {
    let mut columns: Vec<usize> = (0..types.len()).collect();
    shuffle(rng, &mut columns);
    columns.truncate(rng.between(1, 4));
    let mut sorts: Vec<Sort> = columns
        .iter()
        .map(|_| rng.pick(&[Sort::OtherKind, Sort::Unsuitable, Sort::Outside]))
        .collect();
    sorts.sort_by_key(|&sort| sort == Sort::Outside);
    let mut bad = Vec::new();
    for (&column, sort) in columns.iter().zip(sorts) {
        if let Some((record, number)) = bad_record(rng, &types[column], sort, &mut draft.area) {
            draft.records[column] = record;
            bad.push((column, number));
        }
    }
    bad.into_iter().min()
}

fn several(rng: &mut Rng, types: &[ColumnType], of: RowSort) -> Option<List> {
    let mut draft = good(rng, types, of);
    let (column, number) = spoil(rng, types, &mut draft)?;
    Some(draft.refused(number, column))
}

fn good_or_bad(rng: &mut Rng, types: &[ColumnType], of: RowSort) -> Draft {
    let mut draft = good(rng, types, of);
    if rng.one_in(4) {
        spoil(rng, types, &mut draft);
    }
    draft
}

/// Some records of a draft, perhaps all and more, to which a bad one is added.
fn begun(rng: &mut Rng, types: &[ColumnType], of: RowSort) -> ValueList {
    let mut draft = good_or_bad(rng, types, of);
    if rng.one_in(8) {
        draft.records.push(Record::Null);
    }
    let count = rng.between(0, draft.records.len());
    draft.records.truncate(count);
    draft.list()
}

fn unknown_kind(rng: &mut Rng, types: &[ColumnType], of: RowSort) -> List {
    let mut values = begun(rng, types, of);
    let expected = Expected::refused(10, values.bytes.len());
    let kind = match rng.between(14, 255) as u8 {
        // Known.
        17 => 15,
        18 => 16,
        19 => 20,
        kind => kind,
    };
    values.bytes.push(match of {
        RowSort::Short => rng.pick(&[14, 255, kind]),
        RowSort::Long => rng.pick(&[14, 15, 16, 20, 255, kind]),
    });
    let more = rng.between(0, 20);
    values.bytes.extend(rng.bytes(more));
    List { values, expected }
}

fn cut(rng: &mut Rng, types: &[ColumnType], of: RowSort) -> List {
    let mut values = begun(rng, types, of);
    let expected = Expected::refused(10, values.bytes.len());
    let kind = rng.between(1, 13) as u8;
    let length = body_length(kind).expect("a known kind");
    values.bytes.push(kind);
    let body = rng.between(0, length - 1);
    values.bytes.extend(rng.bytes(body));
    List { values, expected }
}

fn too_few(rng: &mut Rng, types: &[ColumnType], of: RowSort) -> Option<List> {
    let mut draft = good_or_bad(rng, types, of);
    let fewer = types.len().checked_sub(1)?;
    let count = match rng.below(3) {
        0 => 0,
        1 => fewer,
        _ => rng.between(0, fewer),
    };
    draft.records.truncate(count);
    Some(draft.miscounted())
}

fn too_many(rng: &mut Rng, types: &[ColumnType], of: RowSort) -> List {
    let mut draft = good_or_bad(rng, types, of);
    for _ in 0..rng.pick(&[1, 2, 300]) {
        let record = rng.pick(&[Record::Null, Record::Bool(1), Record::Int(-1)]);
        draft.records.push(record);
    }
    draft.miscounted()
}

/// Random bytes, or random bodies behind known kinds.
fn random(rng: &mut Rng) -> List {
    let mut bytes = Vec::new();
    if rng.one_in(2) {
        let length = rng.between(0, 60);
        bytes = rng.bytes(length);
    } else {
        for _ in 0..rng.between(0, 9) {
            let kind = rng.between(0, 13) as u8;
            bytes.push(kind);
            bytes.extend(rng.bytes(body_length(kind).expect("a known kind")));
        }
    }
    let length = rng.pick(&[0, 1, 30, 4000]);
    let text = rng.bytes(length);
    List {
        values: ValueList { bytes, text },
        expected: Expected::Unknown,
    }
}
