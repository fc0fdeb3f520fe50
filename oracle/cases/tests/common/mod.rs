//! What more than one test needs.

use cases::generate::text::Fault;

/// The fault that bytes begin with, from RFC 3629's table of byte forms; `None`
/// if they begin with a character of one byte.
pub fn fault_of(bytes: &[u8]) -> Option<Fault> {
    let second = bytes.get(1).copied().unwrap_or(0);
    match (bytes[0], second) {
        (0x80..=0xBF, _) => Some(Fault::Continuation),
        (0xC0..=0xC1, _) => Some(Fault::OverlongTwo),
        (0xE0, 0x80..=0x9F) => Some(Fault::OverlongThree),
        (0xF0, 0x80..=0x8F) => Some(Fault::OverlongFour),
        (0xED, 0xA0..=0xBF) => Some(Fault::Surrogate),
        (0xF4, 0x90..=0xBF) => Some(Fault::AboveLast),
        (0xF5..=0xFF, _) => Some(Fault::NoLead),
        (0xC2..=0xDF, _) => Some(Fault::CutTwo),
        (0xE0..=0xEF, _) => Some(Fault::CutThree),
        (0xF0..=0xF4, _) => Some(Fault::CutFour),
        _ => None,
    }
}
