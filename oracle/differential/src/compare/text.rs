//! The text check against `std::str::from_utf8`, by which the Rust decides, and
//! `chars`.

use crate::lent::{asked, told};
use crate::{Compared, hex, port};
use cases::generate::text::{Fault, Sort, invalid, valid};
use cases::rng::Rng;
use model::CheckAnswer;

#[derive(Debug, Clone, Copy)]
pub enum Kind {
    Valid(Sort),
    Invalid(Fault),
    /// A valid text with one bit changed.
    Flipped,
    Random,
}

/// A text, mostly short, up to 70,000 bytes.
pub fn text(rng: &mut Rng) -> (Kind, Vec<u8>) {
    let length = match rng.below(64) {
        0 => rng.between(0, 70_000),
        1..=15 => rng.between(0, 600),
        _ => rng.between(0, 40),
    };
    let sort = rng.pick(&Sort::ALL);
    match rng.below(4) {
        0 => (Kind::Valid(sort), valid(rng, sort, length)),
        1 => {
            let fault = rng.pick(&Fault::ALL);
            let text =
                invalid(rng, fault, length.max(4)).expect("a fault takes four bytes at most");
            (Kind::Invalid(fault), text)
        }
        2 => {
            let mut text = valid(rng, sort, length.max(1));
            let at = rng.below(text.len());
            text[at] ^= 1 << rng.below(8);
            (Kind::Flipped, text)
        }
        _ => {
            let length = rng.between(0, 6);
            (Kind::Random, rng.bytes(length))
        }
    }
}

/// The code points of a text.
pub fn rust(text: &[u8]) -> Option<usize> {
    let text = std::str::from_utf8(text).ok()?;
    Some(text.chars().count())
}

pub fn compare(rng: &mut Rng) -> Compared {
    let (kind, text) = text(rng);
    let port = asked([&text], |[text]| port::text_check(text));
    let points = rust(&text);
    let wanted = told(CheckAnswer {
        valid: u32::from(points.is_some()),
        points: points.unwrap_or(0),
    });
    Compared::new(kind, port, wanted, || format!("text {}", hex(&text)))
}
