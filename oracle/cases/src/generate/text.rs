//! Texts: valid by RFC 3629, and invalid in each way there is.

use crate::rng::Rng;

/// A valid text by the bytes that most of its characters take.
#[derive(Debug, Clone, Copy, PartialEq, Eq, PartialOrd, Ord)]
pub enum Sort {
    Ascii,
    Accented,
    ThreeByte,
    FourByte,
    Mixed,
}

impl Sort {
    pub const ALL: [Sort; 5] = [
        Sort::Ascii,
        Sort::Accented,
        Sort::ThreeByte,
        Sort::FourByte,
        Sort::Mixed,
    ];
}

/// What makes a text invalid.
#[derive(Debug, Clone, Copy, PartialEq, Eq, PartialOrd, Ord)]
pub enum Fault {
    /// A continuation byte where a character should start.
    Continuation,
    OverlongTwo,
    OverlongThree,
    OverlongFour,
    Surrogate,
    /// F4 90 and above: past U+10FFFF.
    AboveLast,
    /// F5 to FF.
    NoLead,
    /// A character of two, three or four bytes that stops early.
    CutTwo,
    CutThree,
    CutFour,
}

impl Fault {
    pub const ALL: [Fault; 10] = [
        Fault::Continuation,
        Fault::OverlongTwo,
        Fault::OverlongThree,
        Fault::OverlongFour,
        Fault::Surrogate,
        Fault::AboveLast,
        Fault::NoLead,
        Fault::CutTwo,
        Fault::CutThree,
        Fault::CutFour,
    ];
}

/// A valid text of exactly `length` bytes.
pub fn valid(rng: &mut Rng, sort: Sort, length: usize) -> Vec<u8> {
    let mut bytes = Vec::with_capacity(length);
    while bytes.len() < length {
        let wide = width(rng, sort);
        let rest = length - bytes.len();
        push_character(rng, if wide <= rest { wide } else { 1 }, &mut bytes);
    }
    bytes
}

fn width(rng: &mut Rng, sort: Sort) -> usize {
    match sort {
        Sort::Ascii => 1,
        Sort::Accented => 2,
        Sort::ThreeByte => 3,
        Sort::FourByte => 4,
        Sort::Mixed => rng.between(1, 4),
    }
}

/// A valid text of exactly so many characters, of a sort at random.
pub fn of_points(rng: &mut Rng, points: usize) -> Vec<u8> {
    let sort = rng.pick(&Sort::ALL);
    let mut bytes = Vec::new();
    for _ in 0..points {
        let width = width(rng, sort);
        push_character(rng, width, &mut bytes);
    }
    bytes
}

/// The valid text of exactly `length` bytes with the fewest characters.
pub fn densest(length: usize) -> Vec<u8> {
    let last = ["", "x", "é", "€"][length % 4];
    ["\u{10FFFF}".repeat(length / 4).as_str(), last]
        .concat()
        .into_bytes()
}

/// A valid text of a sort at random.
pub fn any_valid(rng: &mut Rng, length: usize) -> Vec<u8> {
    let sort = rng.pick(&Sort::ALL);
    valid(rng, sort, length)
}

/// A text of exactly `length` bytes with this fault between whole characters;
/// `None` if the fault takes more bytes.
pub fn invalid(rng: &mut Rng, fault: Fault, length: usize) -> Option<Vec<u8>> {
    let bad = sequence(rng, fault);
    let rest = length.checked_sub(bad.len())?;
    let before = rng.between(0, rest);
    let mut bytes = any_valid(rng, before);
    bytes.extend(bad);
    bytes.extend(any_valid(rng, rest - before));
    Some(bytes)
}

/// Puts a character of `width` bytes at the end, often one at an end of its
/// range.
fn push_character(rng: &mut Rng, width: usize, bytes: &mut Vec<u8>) {
    let (low, high) = match width {
        1 => (0, 0x7F),
        2 => (0x80, 0x7FF),
        3 if rng.one_in(2) => (0x800, 0xD7FF),
        3 => (0xE000, 0xFFFF),
        _ => (0x1_0000, 0x10_FFFF),
    };
    let code = match rng.below(8) {
        0 => low,
        1 => high,
        _ => rng.between(low, high),
    };
    let character = char::from_u32(code as u32).expect("no surrogate");
    bytes.extend(character.encode_utf8(&mut [0; 4]).as_bytes());
}

/// The bytes of a fault.
pub fn sequence(rng: &mut Rng, fault: Fault) -> Vec<u8> {
    match fault {
        Fault::Continuation => continued(rng, &[], 1),
        Fault::OverlongTwo => {
            let lead = rng.pick(&[0xC0, 0xC1]);
            continued(rng, &[lead], 1)
        }
        Fault::OverlongThree => {
            let second = byte_between(rng, 0x80, 0x9F);
            continued(rng, &[0xE0, second], 1)
        }
        Fault::OverlongFour => {
            let second = byte_between(rng, 0x80, 0x8F);
            continued(rng, &[0xF0, second], 2)
        }
        Fault::Surrogate => {
            let second = byte_between(rng, 0xA0, 0xBF);
            continued(rng, &[0xED, second], 1)
        }
        Fault::AboveLast => {
            let second = byte_between(rng, 0x90, 0xBF);
            continued(rng, &[0xF4, second], 2)
        }
        Fault::NoLead => {
            let lead = byte_between(rng, 0xF5, 0xFF);
            let tail = rng.between(0, 3);
            continued(rng, &[lead], tail)
        }
        Fault::CutTwo => cut(rng, 2),
        Fault::CutThree => cut(rng, 3),
        Fault::CutFour => cut(rng, 4),
    }
}

/// The bytes and then `count` continuation bytes.
fn continued(rng: &mut Rng, bytes: &[u8], count: usize) -> Vec<u8> {
    let mut out = bytes.to_vec();
    out.extend((0..count).map(|_| byte_between(rng, 0x80, 0xBF)));
    out
}

fn byte_between(rng: &mut Rng, low: u8, high: u8) -> u8 {
    match rng.below(4) {
        0 => low,
        1 => high,
        _ => rng.between(low.into(), high.into()) as u8,
    }
}

fn cut(rng: &mut Rng, width: usize) -> Vec<u8> {
    let mut bytes = Vec::new();
    push_character(rng, width, &mut bytes);
    bytes.truncate(rng.between(1, width - 1));
    bytes
}
