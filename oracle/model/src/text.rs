//! Which text is valid, and of how many code points: RFC 3629, section 4, rule by
//! rule.

use crate::CheckAnswer;

/// Whether the bytes are text, and its code points.
pub fn text_check(text: &[u8]) -> CheckAnswer {
    let points = code_points(text);
    CheckAnswer {
        valid: u32::from(points.is_some()),
        points: points.unwrap_or(0),
    }
}

/// The code points of a text, one for each UTF8-char; `None` for bytes that are no
/// text. UTF8-octets = *( UTF8-char )
pub fn code_points(text: &[u8]) -> Option<usize> {
    let mut rest = text;
    let mut points = 0;
    while !rest.is_empty() {
        let length = char_length(rest)?;
        points += 1;
        rest = &rest[length..];
    }
    Some(points)
}

pub fn is_text(bytes: &[u8]) -> bool {
    code_points(bytes).is_some()
}

/// The bytes of the character that begins here; `None` if none does.
/// UTF8-char = UTF8-1 / UTF8-2 / UTF8-3 / UTF8-4. No two alternatives begin
/// with the same byte.
fn char_length(bytes: &[u8]) -> Option<usize> {
    let found = CHARS.iter().find(|char| begins(bytes, char))?;
    Some(found.len())
}

/// Whether the bytes begin with one of each of these ranges.
fn begins(bytes: &[u8], ranges: &[(u8, u8)]) -> bool {
    bytes.len() >= ranges.len()
        && ranges
            .iter()
            .zip(bytes)
            .all(|(&(low, high), &byte)| low <= byte && byte <= high)
}

/// UTF8-tail = %x80-BF
const TAIL: (u8, u8) = (0x80, 0xBF);

/// The alternatives, each byte by its least and greatest value.
const CHARS: [&[(u8, u8)]; 9] = [
    // UTF8-1 = %x00-7F
    &[(0x00, 0x7F)],
    // UTF8-2 = %xC2-DF UTF8-tail
    &[(0xC2, 0xDF), TAIL],
    // UTF8-3 = %xE0 %xA0-BF UTF8-tail / %xE1-EC 2( UTF8-tail ) /
    //          %xED %x80-9F UTF8-tail / %xEE-EF 2( UTF8-tail )
    &[(0xE0, 0xE0), (0xA0, 0xBF), TAIL],
    &[(0xE1, 0xEC), TAIL, TAIL],
    &[(0xED, 0xED), (0x80, 0x9F), TAIL],
    &[(0xEE, 0xEF), TAIL, TAIL],
    // UTF8-4 = %xF0 %x90-BF 2( UTF8-tail ) / %xF1-F3 3( UTF8-tail ) /
    //          %xF4 %x80-8F 2( UTF8-tail )
    &[(0xF0, 0xF0), (0x90, 0xBF), TAIL, TAIL],
    &[(0xF1, 0xF3), TAIL, TAIL, TAIL],
    &[(0xF4, 0xF4), (0x80, 0x8F), TAIL, TAIL],
];
