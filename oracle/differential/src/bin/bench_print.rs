//! Time for the printed list of platform occupations, ours against a plain Rust program in one run on the same lists:
//! a `RowDecoder` built once, `sort_by`, and dates by chrono's format, or by digits written by hand. Ours is the raw
//! call, and `print_occupations` of the bindings. Then how the time grows with the rows.

use cases::column::to_rust_types;
use cases::expected::Values;
use cases::generate::row_list::{COLUMNS, framed};
use cases::printed::key;
use cases::rng::Rng;
use cases::rust;
use differential::bench::{least, time};
use rookdb::chrono::{Datelike, Duration, NaiveDate, NaiveDateTime, Timelike};
use rookdb::types::datatype::DataType;
use rookdb::types::row::RowDecoder;
use rookdb::types::value::DataValue;
use std::fmt::Write;
use std::hint::black_box;

/// The rows of the lists that are measured together, so many that the processor does not learn them.
const ROWS: usize = 8192;

/// How rows stand before they are ordered.
#[derive(Clone, Copy)]
enum Order {
    Random,
    Sorted,
    Reversed,
    /// All platforms and arrivals are equal.
    Equal,
}

/// How long the lines are.
#[derive(Clone, Copy, PartialEq, Eq)]
enum Length {
    /// Platforms of 1 to 3 bytes, units of 3 to 6.
    Short,
    /// Platforms and units of 37 bytes together, as many as 512 rows can have.
    Middle,
    /// Of 16 and 64 bytes, the most that there are.
    Long,
}

fn columns() -> Vec<DataType> {
    to_rust_types(&COLUMNS).expect("columns that the Rust knows")
}

fn occupation(rng: &mut Rng, order: Order, length: Length) -> Values {
    let (platform, unit) = match length {
        Length::Short => (
            format!("{}{}", rng.between(1, 24), rng.pick(&["", "a", "b"])),
            format!("T{}", rng.between(10, 99_999)),
        ),
        Length::Middle => (
            format!("{:05}", rng.between(1, 24)),
            format!("{:032}", rng.below(99_999)),
        ),
        Length::Long => (
            format!("{:016}", rng.between(1, 24)),
            format!("{:064}", rng.below(99_999)),
        ),
    };
    let day = NaiveDate::from_ymd_opt(2026, 11, 16).and_then(|day| day.and_hms_opt(0, 0, 0));
    let second = Duration::seconds(rng.below(86_400) as i64);
    let arrival = day.expect("a day") + second;
    let departure = arrival + Duration::seconds(30 + rng.below(600) as i64);
    let (platform, arrival) = match order {
        Order::Equal => (format!("{:1$}", 7, platform.len()), day.expect("a day")),
        _ => (platform, arrival),
    };
    vec![
        Some(DataValue::Varchar(platform)),
        Some(DataValue::Varchar(unit)),
        Some(DataValue::Timestamp(arrival)),
        (length != Length::Short || !rng.one_in(8)).then_some(DataValue::Timestamp(departure)),
    ]
}

fn lists(rows: usize, order: Order, length: Length) -> Vec<Vec<u8>> {
    let mut rng = Rng::new(1);
    (0..ROWS / rows)
        .map(|_| list(&mut rng, rows, order, length))
        .collect()
}

fn list(rng: &mut Rng, rows: usize, order: Order, length: Length) -> Vec<u8> {
    let mut occupations: Vec<Values> = (0..rows).map(|_| occupation(rng, order, length)).collect();
    match order {
        Order::Random | Order::Equal => {}
        Order::Sorted => occupations.sort_by(|a, b| key(a).cmp(&key(b))),
        Order::Reversed => occupations.sort_by(|a, b| key(b).cmp(&key(a))),
    }
    let row = |values: &Values| {
        let row = rust::build(&columns(), values);
        row.ok().expect("a row")
    };
    framed(&occupations.iter().map(row).collect::<Vec<_>>())
}

/// What a Rust program would do; `None` where it would refuse.
fn by_rust(
    decoder: &RowDecoder,
    list: &[u8],
    moment: impl Fn(&mut String, &NaiveDateTime),
) -> Option<String> {
    if list.len() > 32_768 {
        return None;
    }
    let mut rows = Vec::new();
    let mut rest = list;
    while let Some((length, behind)) = rest.split_first_chunk() {
        let (row, behind) = behind.split_at_checked(u16::from_le_bytes(*length).into())?;
        let values = decoder.decode(row).ok()?;
        let is_bad = |c: char| c == '"' || c < ' ';
        let printable = values.iter().all(|value| match value {
            Some(DataValue::Varchar(text)) => !text.contains(is_bad),
            _ => true,
        });
        if rows.len() == 512 || !printable {
            return None;
        }
        rows.push(values);
        rest = behind;
    }
    rows.sort_by(|a, b| key(a).cmp(&key(b)));
    let mut text = String::with_capacity(64 * rows.len());
    for row in &rows {
        for (column, value) in row.iter().enumerate() {
            if column > 0 {
                text.push('|');
            }
            match value {
                Some(DataValue::Varchar(field)) => {
                    text.push('"');
                    text.push_str(field);
                    text.push('"');
                }
                Some(DataValue::Timestamp(field)) => moment(&mut text, field),
                _ => text.push('-'),
            }
        }
        text.push('\n');
    }
    rest.is_empty().then_some(text)
}

fn by_chrono(text: &mut String, moment: &NaiveDateTime) {
    write!(text, "{}", moment.format("%Y-%m-%d %H:%M:%S")).expect("a string");
}

fn by_hand(text: &mut String, moment: &NaiveDateTime) {
    let mut two = |number: u32, behind: &str| {
        text.push(char::from(b'0' + (number / 10) as u8));
        text.push(char::from(b'0' + (number % 10) as u8));
        text.push_str(behind);
    };
    let (year, month, day) = (moment.year() as u32, moment.month(), moment.day());
    two(year / 100, "");
    two(year % 100, "-");
    two(month, "-");
    two(day, " ");
    two(moment.hour(), ":");
    two(moment.minute(), ":");
    two(moment.second(), "");
}

/// Microseconds for a list: the Rust with chrono's format, with digits by hand, the raw call, the bindings.
fn bench(rows: usize, order: Order, length: Length) -> [f64; 4] {
    let lists = lists(rows, order, length);
    let decoder = RowDecoder::new(&columns());
    let mut out = vec![0; rook_row::raw::MAX_PRINTED];
    for list in &lists {
        let text = by_rust(&decoder, list, by_chrono);
        assert_eq!(text, by_rust(&decoder, list, by_hand));
        assert_eq!(text, rook_row::print_occupations(list).ok());
        let length = rook_row::raw::occupations_print(list, &mut out).expect("a good list");
        assert_eq!(text.as_deref().map(str::as_bytes), Some(&out[..length]));
    }
    let times = least(|| {
        [
            time(&lists, |list| {
                black_box(by_rust(&decoder, list, by_chrono));
            }),
            time(&lists, |list| {
                black_box(by_rust(&decoder, list, by_hand));
            }),
            raw(&lists, &mut out),
            time(&lists, |list| {
                black_box(rook_row::print_occupations(list).ok());
            }),
        ]
    });
    times.map(|nanoseconds| nanoseconds / 1000.0)
}

/// Nanoseconds for a list by the raw call.
fn raw(lists: &[Vec<u8>], out: &mut [u8]) -> f64 {
    time(lists, |list| {
        let length = rook_row::raw::occupations_print(list, out).expect("a good list");
        black_box(&out[..length]);
    })
}

fn main() {
    println!(
        "{:<40}{:>8}{:>9}{:>8}{:>8}{:>9}{:>9}{:>7}",
        "print, µs for a list", "chrono", "by hand", "raw", "chrono", "by hand", "String", "raw"
    );
    let say = |name: &str, [chrono, hand, raw, string]: [f64; 4]| {
        println!(
            "{name:<40}{chrono:>8.1}{hand:>9.1}{raw:>8.1}{:>8.2}{:>9.2}{string:>9.1}{:>7.2}",
            raw / chrono,
            raw / hand,
            string / raw
        );
    };
    for (name, order) in [
        ("random", Order::Random),
        ("sorted", Order::Sorted),
        ("reversed", Order::Reversed),
        ("all equal", Order::Equal),
    ] {
        let times = bench(512, order, Length::Short);
        say(&format!("512 rows, short lines, {name}"), times);
        let times = bench(512, order, Length::Middle);
        say(&format!("512 rows, longer lines, {name}"), times);
    }
    let times = bench(306, Order::Random, Length::Long);
    say("306 rows, longest lines, random", times);

    let mut out = vec![0; rook_row::raw::MAX_PRINTED];
    println!("\n{:<40}{:>8}{:>12}", "rows, random", "raw", "to half");
    for (name, length) in [("short", Length::Short), ("longer", Length::Middle)] {
        let mut half = None;
        for rows in [32, 64, 128, 256, 512] {
            let lists = lists(rows, Order::Random, length);
            let [raw] = least(|| [raw(&lists, &mut out) / 1000.0]);
            let ratio = half.map_or(String::new(), |half: f64| format!("{:.2}", raw / half));
            println!(
                "{:<40}{raw:>8.1}{ratio:>12}",
                format!("{rows} rows, {name} lines")
            );
            half = Some(raw);
        }
    }
}
