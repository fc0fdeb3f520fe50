//! What the benchmarks share: rows of a station's platforms, and the time that a
//! call takes. Each figure is the least over rounds in which all take turns, so
//! that other work on the machine counts little. There are so many rows that the
//! processor cannot learn them.

use cases::column::{ColumnType, of_rust_types};
use cases::generate::value::points;
use cases::rng::Rng;
use cases::schema::write_schema;
use cases::value::{Record, TextRange, ValueList, append, append_up_to};
use cases::{RowSort, laid_out, rust};
use rookdb::chrono::{Duration, NaiveDate, NaiveDateTime};
use rookdb::types::datatype::DataType;
use rookdb::types::value::{DataValue, NumericValue, OrderedF32, OrderedF64};
use std::hint::black_box;
use std::time::Instant;

const ROUNDS: usize = 101;

/// Of two schemas beside each other, whose times differ little.
const ROUNDS_BESIDE: usize = 501;

/// A platform's occupation: station, platform, track, train, line, arrival,
/// departure, whether it is out of plan.
fn occupation(station: u16) -> [DataType; 8] {
    [
        DataType::Varchar(station),
        DataType::SmallInt,
        DataType::Char(4),
        DataType::Int,
        DataType::Varchar(12),
        DataType::Timestamp,
        DataType::Timestamp,
        DataType::Bool,
    ]
}

/// A second of a day.
fn second(rng: &mut Rng) -> NaiveDateTime {
    let day = NaiveDate::from_ymd_opt(2026, 11, 15).and_then(|day| day.and_hms_opt(0, 0, 0));
    day.expect("a day") + Duration::seconds(rng.below(86_400) as i64)
}

/// One occupation: no line for one in eight, no departure for one in eight. The
/// station's name stands `repeats` times.
fn values(rng: &mut Rng, repeats: usize) -> [Option<DataValue>; 8] {
    let station = rng.pick(&["Aber", "Neustadt Süd", "Bad Wilhelmsruh (Hauptbahnhof)"]);
    let line = rng.pick(&["RB 12", "RE 4", "S 41"]);
    let arrival = second(rng);
    let departure = arrival + Duration::seconds(30 + rng.below(600) as i64);
    let line = DataValue::Varchar(line.into());
    [
        Some(DataValue::Varchar(station.repeat(repeats))),
        Some(DataValue::SmallInt(rng.between(1, 24) as i16)),
        Some(DataValue::Char(format!("{}A", rng.between(1, 24)))),
        Some(DataValue::Int(rng.between(10_000, 99_999) as i32)),
        (!rng.one_in(8)).then_some(line),
        Some(DataValue::Timestamp(arrival)),
        (!rng.one_in(8)).then_some(DataValue::Timestamp(departure)),
        Some(DataValue::Bool(rng.one_in(2))),
    ]
}

/// A possession of a track: every type once, or eight of them.
fn possession(short: bool) -> Vec<DataType> {
    let mut types = vec![
        DataType::Numeric {
            precision: 9,
            scale: 3,
        },
        DataType::Bit(12),
        DataType::Char(6),
        DataType::Date,
        DataType::Timestamp,
        DataType::Int,
        DataType::Varchar(40),
        DataType::Real,
    ];
    if !short {
        types.extend([
            DataType::SmallInt,
            DataType::BigInt,
            DataType::DoublePrecision,
            DataType::Decimal {
                precision: 24,
                scale: 2,
            },
            DataType::Bool,
            DataType::Character(3),
            DataType::Time,
        ]);
    }
    types
}

/// A value of a possession's column; null for one in eight.
fn value(rng: &mut Rng, ty: &DataType) -> Option<DataValue> {
    let numeric = |unscaled, scale| DataValue::Numeric(Box::new(NumericValue { unscaled, scale }));
    let text = |rng: &mut Rng, most: u16| {
        let text = rng.pick(&["T41", "Gleis 3", "Süd", "Weiche 12 bis 17, links"]);
        let fits = text.chars().take(usize::from(most) / 2);
        fits.collect::<String>()
    };
    let value = match *ty {
        DataType::SmallInt => DataValue::SmallInt(rng.below(900) as i16),
        DataType::Int => DataValue::Int(rng.between(10_000, 99_999) as i32),
        DataType::BigInt => DataValue::BigInt(rng.next_u64() as i64),
        DataType::Real => DataValue::Real(OrderedF32(rng.below(4_000) as f32 / 100.0 - 20.0)),
        DataType::DoublePrecision => {
            DataValue::DoublePrecision(OrderedF64(rng.below(1_000_000) as f64 / 1000.0))
        }
        DataType::Numeric { scale, .. } => {
            numeric(i128::from(rng.between_i64(-99_999, 999_999_999)), scale)
        }
        DataType::Decimal { scale, .. } => {
            let large = (rng.below(10_000) as i128) * 100_000_000_000_000_000_000;
            numeric(large + i128::from(rng.next_u64() >> 1), scale)
        }
        DataType::Bool => DataValue::Bool(rng.one_in(2)),
        DataType::Char(n) | DataType::Character(n) => DataValue::Char(text(rng, n)),
        DataType::Varchar(n) => DataValue::Varchar(text(rng, n)),
        DataType::Date => DataValue::Date(second(rng).date()),
        DataType::Time => DataValue::Time(second(rng).time()),
        DataType::Bit(n) => DataValue::Bit((0..n).map(|_| rng.pick(&['0', '1'])).collect()),
        DataType::Timestamp => DataValue::Timestamp(second(rng)),
    };
    (!rng.one_in(8)).then_some(value)
}

/// Rows of so many occupations side by side, or of possessions.
pub struct Table {
    pub name: String,
    pub types: Vec<DataType>,
    pub rows: Vec<Vec<Option<DataValue>>>,
}

impl Table {
    fn new(rng: &mut Rng, occupations: usize, repeats: usize, rows: usize) -> Self {
        let types: Vec<_> = (0..occupations)
            .flat_map(|_| occupation(40 * repeats as u16))
            .collect();
        let mut row = || {
            (0..occupations)
                .flat_map(|_| values(rng, repeats))
                .collect()
        };
        let texts = if repeats > 1 { ", long texts" } else { "" };
        Table {
            name: format!("{} columns{texts}", types.len()),
            rows: (0..rows).map(|_| row()).collect(),
            types,
        }
    }
}

/// Of possessions, 8 columns and 15: every type.
pub fn possessions() -> [Table; 2] {
    let rng = &mut Rng::new(2);
    [true, false].map(|short| {
        let types = possession(short);
        let mut row = || types.iter().map(|ty| value(rng, ty)).collect();
        let rows = (0..1000).map(|_| row()).collect();
        let which = if short { "mixed types" } else { "every type" };
        Table {
            name: format!("{} columns, {which}", types.len()),
            types,
            rows,
        }
    })
}

/// Of occupations, 8, 64 and 256 columns, and 8 with texts of 120 to 1,000 bytes.
pub fn tables() -> [Table; 4] {
    let rng = &mut Rng::new(1);
    [
        Table::new(rng, 1, 1, 1000),
        Table::new(rng, 8, 1, 1000),
        Table::new(rng, 32, 1, 250),
        Table::new(rng, 1, 30, 1000),
    ]
}

/// What the characters of a text are.
#[derive(Clone, Copy)]
enum Letters {
    Ascii,
    /// Every third is of two bytes.
    Accented,
    TwoBytes,
    ThreeBytes,
}

impl Letters {
    fn name(self) -> &'static str {
        match self {
            Letters::Ascii => "ASCII",
            Letters::Accented => "accented",
            Letters::TwoBytes => "two bytes",
            Letters::ThreeBytes => "three bytes",
        }
    }

    fn pick(self, rng: &mut Rng, at: usize) -> char {
        match self {
            Letters::Accented if at % 3 != 1 => Letters::Ascii.pick(rng, at),
            Letters::Ascii => char::from(b'a' + rng.below(26) as u8),
            Letters::Accented | Letters::TwoBytes => rng.pick(&['é', 'ü', 'ß', 'ø', 'č', 'ö']),
            Letters::ThreeBytes => rng.pick(&['東', '京', '都', '駅', '線', '口']),
        }
    }
}

/// Rows of names, under a schema whose Varchars count characters and under one whose
/// Varchars count bytes and have room for as many.
pub struct Names {
    pub name: String,
    /// By characters, by bytes.
    pub schemas: [Vec<u8>; 2],
    pub types: Vec<ColumnType>,
    pub lists: Vec<ValueList>,
    pub rows: Vec<Vec<u8>>,
}

impl Names {
    /// Texts of so many characters between an Int and a Timestamp. With `exact` n is
    /// their number, else there is room for as many bytes.
    fn new(rng: &mut Rng, letters: Letters, counts: &[usize], exact: bool) -> Self {
        let types = |text: &dyn Fn(usize) -> ColumnType| {
            let texts = counts.iter().map(|&count| text(count));
            let first = [ColumnType::Int].into_iter();
            first.chain(texts).chain([ColumnType::Timestamp]).collect()
        };
        let by_bytes: Vec<_> = types(&|count| ColumnType::Varchar(4 * count as u16));
        let n = |count: usize| (if exact { count } else { 4 * count }) as u16;
        let by_chars: Vec<_> = types(&|count| ColumnType::VarcharChars(n(count)));
        let list = |rng: &mut Rng| {
            let mut area = Vec::new();
            let mut records = vec![Record::Int(rng.below(1_000_000) as i32)];
            for &count in counts {
                let text: String = (0..count).map(|at| letters.pick(rng, at)).collect();
                assert_eq!(points(text.as_bytes()), Some(count));
                let range = append(text.as_bytes(), &mut area).expect("short texts");
                records.push(Record::Varchar(range));
            }
            records.push(Record::Timestamp(rng.below(1_000_000_000) as i64));
            ValueList::of_records(&records, area)
        };
        let lists: Vec<_> = (0..1000).map(|_| list(rng)).collect();
        let length = if counts.len() > 1 { "" } else { "long, " };
        let unit = if exact { "characters" } else { "bytes" };
        Names {
            name: format!("{length}{}, n of the {unit}", letters.name()),
            schemas: [write_schema(&by_chars), write_schema(&by_bytes)],
            rows: lists
                .iter()
                .map(|list| laid_out::built(&by_chars, RowSort::Short, list))
                .collect(),
            types: by_chars,
            lists,
        }
    }

    /// The text of a column of a row, and its record.
    pub fn text(&self, row: usize, column: usize) -> (Record, Vec<u8>) {
        let list = &self.lists[row];
        let records = list.records(self.types.len()).expect("a good list");
        let range = records[column].range().expect("a text");
        let text = range.of(&list.text).expect("a range inside").to_vec();
        let length = text.len();
        (Record::Varchar(TextRange { start: 0, length }), text)
    }
}

/// Texts of 8 to 64 characters, and of some 1,000 bytes.
pub fn names() -> [Names; 10] {
    let rng = &mut Rng::new(3);
    let short = &[8, 16, 32, 64][..];
    let sorts = [
        (Letters::Ascii, short, true),
        (Letters::Accented, short, false),
        (Letters::Accented, short, true),
        (Letters::TwoBytes, short, true),
        (Letters::ThreeBytes, short, false),
        (Letters::ThreeBytes, short, true),
        (Letters::Ascii, &[1000], true),
        (Letters::Accented, &[750], false),
        (Letters::Accented, &[750], true),
        (Letters::ThreeBytes, &[333], true),
    ];
    sorts.map(|(letters, counts, exact)| Names::new(rng, letters, counts, exact))
}

/// Nanoseconds for one of the items under each of two schemas, which take turns, each
/// before the other in every second round.
pub fn beside<T>(schemas: &[Vec<u8>; 2], items: &[T], mut call: impl FnMut(&[u8], &T)) -> [f64; 2] {
    in_turns(|which| {
        let schema = black_box(&schemas[which]);
        time(items, |item| call(schema, item))
    })
}

/// The least times of two, which take turns, each before the other in every second round.
pub fn in_turns(mut of: impl FnMut(usize) -> f64) -> [f64; 2] {
    let mut first = 0;
    least_of(ROUNDS_BESIDE, || {
        first = 1 - first;
        let mut times = [0.0; 2];
        for which in [first, 1 - first] {
            times[which] = of(which);
        }
        times
    })
}

pub fn say_beside_header(what: &str) {
    say_header(what, "kind 11", "kind 16");
}

fn say_header(what: &str, first: &str, second: &str) {
    let what = format!("{what}, ns for a row");
    println!("{what:<56}{first:>10}{second:>10}{:>10}", "ratio");
}

pub fn say_beside(name: &str, [by_chars, by_bytes]: [f64; 2]) {
    say_ratio(name, by_bytes, by_chars);
}

fn say_ratio(name: &str, first: f64, second: f64) {
    let ratio = second / first;
    println!("{name:<56}{first:>10.1}{second:>10.1}{ratio:>10.3}");
}

/// Rows of a table and their long twins.
pub struct Twins {
    pub name: String,
    pub types: Vec<ColumnType>,
    pub schema: Vec<u8>,
    pub short: Vec<Twin>,
    pub long: Vec<Twin>,
}

/// A row, and its values in the kinds that it reads into.
pub struct Twin {
    pub row: Vec<u8>,
    pub list: ValueList,
}

impl Twins {
    fn new(table: Table) -> Self {
        let types = of_rust_types(&table.types);
        let twin = |values: &Vec<Option<DataValue>>, of: RowSort| {
            let list = ValueList::of_rust(values).expect("texts that fit");
            let records = list.records(types.len()).expect("a good list");
            let list = ValueList::of_records_of(of, &records, list.text);
            let row = match of {
                RowSort::Short => rust::build(&table.types, values).ok().expect("a row"),
                RowSort::Long => laid_out::built(&types, of, &list),
            };
            Twin { row, list }
        };
        let twins = |of| table.rows.iter().map(|row| twin(row, of)).collect();
        Twins {
            name: table.name.clone(),
            schema: write_schema(&types),
            short: twins(RowSort::Short),
            long: twins(RowSort::Long),
            types,
        }
    }

    /// Of the one sort or the other.
    pub fn of(&self, is_long: bool) -> &[Twin] {
        if is_long { &self.long } else { &self.short }
    }
}

pub fn twins() -> Vec<Twins> {
    tables()
        .into_iter()
        .chain(possessions())
        .map(Twins::new)
        .collect()
}

/// The times of short rows and of their long twins.
pub fn by_sort<T>(items: [&[T]; 2], mut call: impl FnMut(bool, &T)) -> [f64; 2] {
    in_turns(|which| time(items[which], |item| call(which == 1, item)))
}

pub fn say_twins_header(what: &str) {
    say_header(what, "short", "long");
}

pub fn say_twins(name: &str, [short, long]: [f64; 2]) {
    say_ratio(name, short, long);
}

/// A long row of 64 KB, 256 KB or 1 MB: an Int, and 17 remarks that share the rest.
pub struct Large {
    pub schema: Vec<u8>,
    pub columns: usize,
    pub list: ValueList,
    pub row: Vec<u8>,
}

impl Large {
    fn new(rng: &mut Rng, bytes: usize) -> Self {
        const REMARKS: usize = 17;
        let mut types = vec![ColumnType::Int];
        types.extend(vec![ColumnType::Varchar(u16::MAX); REMARKS]);
        let mut missing = bytes - (4 + 3 + 4 * REMARKS + 4);
        let mut records = vec![Record::Int(7)];
        let mut area = Vec::new();
        for left in (1..=REMARKS).rev() {
            let length = missing / left;
            missing -= length;
            let text: Vec<u8> = (0..length).map(|_| b'a' + rng.below(26) as u8).collect();
            let range = append_up_to(bytes, &text, &mut area);
            records.push(Record::Varchar(range.expect("less than the row")));
        }
        let list = ValueList::of_records_of(RowSort::Long, &records, area);
        let row = laid_out::built(&types, RowSort::Long, &list);
        assert_eq!(row.len(), bytes);
        Large {
            schema: write_schema(&types),
            columns: types.len(),
            list,
            row,
        }
    }

    /// The text of a column.
    pub fn text(&self, column: usize) -> Vec<u8> {
        let records = self.list.all_records().expect("a good list");
        let range = records[column].range().expect("a text");
        range.of(&self.list.text).expect("a range inside").to_vec()
    }
}

pub fn large() -> [Large; 3] {
    let rng = &mut Rng::new(4);
    [65_536, 262_144, 1_048_576].map(|bytes| Large::new(rng, bytes))
}

/// The least times of a call on each of the large rows.
pub fn by_size(rows: &mut [Large; 3], mut call: impl FnMut(&mut Large)) -> [f64; 3] {
    least(|| {
        rows.each_mut().map(|row| {
            let start = Instant::now();
            call(black_box(row));
            start.elapsed().as_nanos() as f64
        })
    })
}

pub fn say_large_header(what: &str) {
    let what = format!("{what}, µs for a long row");
    println!(
        "{what:<40}{:>10}{:>10}{:>10}{:>10}{:>10}",
        "64 KB", "256 KB", "1 MB", "256 by 4", "1 by 16"
    );
}

/// Times, and those of the larger rows by what they were in proportion to the first.
pub fn say_large(name: &str, times: [f64; 3]) {
    let [small, middle, whole] = times.map(|nanos| nanos / 1000.0);
    println!(
        "{name:<40}{small:>10.1}{middle:>10.1}{whole:>10.1}{:>10.3}{:>10.3}",
        middle / (4.0 * small),
        whole / (16.0 * small)
    );
}

/// Nanoseconds for one of the items.
#[inline(never)]
pub fn time<T>(items: &[T], mut call: impl FnMut(&T)) -> f64 {
    let start = Instant::now();
    for item in items {
        call(black_box(item));
    }
    start.elapsed().as_nanos() as f64 / items.len() as f64
}

/// The least of each time over the rounds.
pub fn least<const N: usize>(round: impl FnMut() -> [f64; N]) -> [f64; N] {
    least_of(ROUNDS, round)
}

fn least_of<const N: usize>(rounds: usize, mut round: impl FnMut() -> [f64; N]) -> [f64; N] {
    let mut least = [f64::MAX; N];
    for _ in 0..rounds {
        for (least, time) in least.iter_mut().zip(round()) {
            *least = least.min(time);
        }
    }
    least
}

#[cfg(test)]
mod tests {
    use super::{large, twins};
    use model::{FlagAnswer, Sort};

    /// Rows are of the sort that they are measured as, and have one content.
    #[test]
    fn twins_have_one_content() {
        let same = FlagAnswer {
            number: 0,
            place: 0,
            flag: 1,
        };
        for twins in twins() {
            assert_eq!(twins.short.len(), twins.long.len());
            for (short, long) in twins.short.iter().zip(&twins.long) {
                let sorts = [short, long].map(|twin| Sort::of_row(&twin.row));
                assert_eq!(sorts, Sort::ALL);
                let flag = model::same_content(&twins.schema, &short.row, &long.row);
                assert_eq!(flag, same, "{}", twins.name);
            }
        }
    }

    #[test]
    fn large_rows_are_the_models() {
        for large in large() {
            let mut out = vec![0; large.row.len()];
            let (values, text) = (&large.list.bytes, &large.list.text);
            let counts = &mut [0; 18];
            let answer = model::build(&large.schema, Sort::Long, values, text, &mut out, counts);
            assert_eq!((answer.number, answer.length), (0, large.row.len()));
            assert!(out == large.row);
            assert_eq!(
                large.text(17),
                large.row[large.row.len() - large.text(17).len()..]
            );
        }
    }
}
