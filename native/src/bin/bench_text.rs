//! Time for one text checked and counted, ours against `std::str::from_utf8` alone and against `from_utf8` and then
//! `chars().count()`, in one run on the same texts: medians over rounds in which the three take turns. There are so
//! many texts of each sort and length that the processor cannot learn them. With `--each` every length up to 15 is
//! measured by itself too, and has no bar: then the processor does learn the length, and how many characters there are,
//! which std gains more by.

use native::{text, Random, ACCENTED, ASCII, FOUR_BYTE, THREE_BYTE, TWO_BYTE};
use rook_row::raw::text_check;
use std::hint::black_box;
use std::time::Instant;

const ROUNDS: usize = 41;

/// What ours is to take at most of the time of `from_utf8` and `chars().count()`, at every length and sort.
const BAR_COUNTED: f64 = 1.0;

/// What ours is to take at most of the time of `from_utf8` alone: on ASCII of 16 bytes or more,
const BAR_ASCII: f64 = 0.8;
/// on three-byte texts of 16 bytes,
const BAR_THREE_BYTE: f64 = 1.5;
/// and elsewhere.
const BAR_ALONE: f64 = 1.15;

const SORTS: [(&str, &[&str]); 5] = [
    ("ASCII", ASCII),
    ("accented", ACCENTED),
    ("two-byte", TWO_BYTE),
    ("three-byte", THREE_BYTE),
    ("four-byte", FOUR_BYTE),
];

/// The least and the greatest length.
type Lengths = (usize, usize);

const LENGTHS: [Lengths; 10] = [
    (0, 16),
    (16, 16),
    (32, 32),
    (64, 64),
    (0, 64),
    (100, 100),
    (100, 200),
    (200, 200),
    (1000, 1000),
    (10_000, 10_000),
];

type Check = fn(&[u8]) -> Option<usize>;

fn std_alone(text: &[u8]) -> Option<usize> {
    std::str::from_utf8(text).ok().map(str::len)
}

fn std_counted(text: &[u8]) -> Option<usize> {
    let text = std::str::from_utf8(text).ok()?;
    Some(text.chars().count())
}

#[inline(never)]
fn nanoseconds(check: Check, texts: &[&[u8]], repeats: usize) -> f64 {
    let start = Instant::now();
    for _ in 0..repeats {
        for text in texts {
            assert!(black_box(check(black_box(text))).is_some());
        }
    }
    start.elapsed().as_nanos() as f64 / (repeats * texts.len()) as f64
}

fn median(mut times: Vec<f64>) -> f64 {
    times.sort_by(f64::total_cmp);
    times[times.len() / 2]
}

/// The medians of std alone, of std with the count and of ours, for texts of these sources and lengths.
fn measured(sources: &[&str], (low, high): Lengths, random: &mut Random) -> [f64; 3] {
    let count = (3_000_000 / (high + 20)).clamp(12, 30_000);
    // One buffer for all the texts, each at another alignment.
    let mut bytes = Vec::new();
    let mut places = Vec::new();
    for _ in 0..count {
        let length = low + random.below(high - low + 1);
        bytes.resize(bytes.len() + random.below(16), 0);
        places.push(bytes.len()..bytes.len() + length);
        bytes.extend(text(sources, length, random));
    }
    let texts: Vec<&[u8]> = places.into_iter().map(|place| &bytes[place]).collect();
    assert!(texts
        .iter()
        .all(|text| std_counted(text) == text_check(text)));
    let repeats = 2_000_000 / (bytes.len() + 40 * count) + 1;
    let mut times = [const { Vec::new() }; 3];
    for _ in 0..ROUNDS {
        for (times, check) in times.iter_mut().zip([std_alone, std_counted, text_check]) {
            times.push(nanoseconds(check, &texts, repeats));
        }
    }
    times.map(median)
}

/// The bars for the ratios to std alone and to std with the count.
fn bars(sort: &str, lengths: Lengths) -> [f64; 2] {
    let alone = match (sort, lengths) {
        ("ASCII", (16.., _)) => BAR_ASCII,
        ("three-byte", (16, 16)) => BAR_THREE_BYTE,
        _ => BAR_ALONE,
    };
    [alone, BAR_COUNTED]
}

/// Prints a line of the table, and hands back how many of its ratios are above their bar.
fn line((low, high): Lengths, [alone, counted, ours]: [f64; 3], bars: [f64; 2]) -> usize {
    match low == high {
        true => print!("{low:<16}"),
        false => print!("{:<16}", format!("{low} to {high}")),
    }
    print!("{alone:>10.1}{counted:>12.1}{ours:>10.1}");
    let mut above = 0;
    for (std, bar, width) in [(alone, bars[0], 11), (counted, bars[1], 15)] {
        let mark = if ours / std > bar { '*' } else { ' ' };
        above += usize::from(mark == '*');
        print!("{:>width$.2}{mark}", ours / std);
    }
    println!();
    above
}

fn main() {
    let mut random = Random(0x9E37_79B9_7F4A_7C15);
    let each = std::env::args().any(|word| word == "--each");
    let single = if each { 0..16 } else { 0..0 };
    let mut above = 0;
    for (sort, sources) in SORTS {
        print!("{:<16}{:>10}", format!("{sort}, ns"), "from_utf8");
        println!(
            "{:>12}{:>10}{:>11}{:>16}",
            "with count", "ours", "to alone", "to with count"
        );
        for lengths in single.clone().map(|length| (length, length)) {
            let times = measured(sources, lengths, &mut random);
            line(lengths, times, [f64::INFINITY; 2]);
        }
        for lengths in LENGTHS {
            let times = measured(sources, lengths, &mut random);
            above += line(lengths, times, bars(sort, lengths));
        }
        println!();
    }
    println!("{above} ratios are above their bar (*)");
}
