//! The proved check against `std::str::from_utf8`, and its code points against `chars`; some answers are also known
//! without std.

use native::{text, Random, ACCENTED, ASCII, FOUR_BYTE, THREE_BYTE, TWO_BYTE};
use rook_row::raw::text_check;

fn agree(bytes: &[u8]) {
    let wanted = std::str::from_utf8(bytes).map(|text| text.chars().count());
    assert_eq!(text_check(bytes), wanted.ok(), "{bytes:02X?}");
}

/// The answer is this number of code points, or none; std's is the same.
fn answers(bytes: &[u8], wanted: Option<usize>) {
    assert_eq!(text_check(bytes), wanted, "{bytes:02X?}");
    agree(bytes);
}

const SORTS: [&[&str]; 5] = [ASCII, ACCENTED, TWO_BYTE, THREE_BYTE, FOUR_BYTE];

/// UTF8-1 to UTF8-4: the lowest and the highest character of each alternative of the grammar.
const FORMS: [&[&[u8]]; 4] = [
    &[b"\x00", b"\x7F"],
    &[b"\xC2\x80", b"\xDF\xBF"],
    &[
        b"\xE0\xA0\x80",
        b"\xE0\xBF\xBF",
        b"\xE1\x80\x80",
        b"\xEC\xBF\xBF",
        b"\xED\x80\x80",
        b"\xED\x9F\xBF",
        b"\xEE\x80\x80",
        b"\xEF\xBF\xBF",
    ],
    &[
        b"\xF0\x90\x80\x80",
        b"\xF0\xBF\xBF\xBF",
        b"\xF1\x80\x80\x80",
        b"\xF3\xBF\xBF\xBF",
        b"\xF4\x80\x80\x80",
        b"\xF4\x8F\xBF\xBF",
    ],
];

/// ASCII, from which the runs of it are cut.
const LETTERS: [u8; 200] = [b'x'; 200];

/// The lengths of runs of ASCII around those at which the quick ways begin and end.
fn edges() -> impl Iterator<Item = usize> {
    (0..=20).chain(56..=72).chain(120..=136).chain(184..=200)
}

/// The bytes at which a range of the grammar begins or ends.
const BORDERS: [u8; 26] = [
    0x00, 0x41, 0x7F, 0x80, 0x8F, 0x90, 0x9F, 0xA0, 0xBF, 0xC0, 0xC1, 0xC2, 0xDF, 0xE0, 0xE1, 0xEC,
    0xED, 0xEE, 0xEF, 0xF0, 0xF1, 0xF3, 0xF4, 0xF5, 0xFE, 0xFF,
];

/// Characters, and what is close to one.
const PIECES: [&[u8]; 40] = [
    b"\x00",
    b"a",
    b"\x7F",
    b"\x80",
    b"\xBF",
    b"\xC0\x80",
    b"\xC1\xBF",
    b"\xC2",
    b"\xC2\x80",
    b"\xC3\xA9",
    b"\xDF\xBF",
    b"\xC2\xC0",
    b"\xC2a",
    b"\xC3\xA9\x80",
    b"\xE0",
    b"\xE0\xA0",
    b"\xE0\x9F\x80",
    b"\xE0\xA0\x80",
    b"\xE3\x81\x82",
    b"\xE3\x81",
    b"\xE3\x81a",
    b"\xED\x9F\xBF",
    b"\xED\xA0\x80",
    b"\xEE\x80\x80",
    b"\xEF\xBF\xBF",
    b"\xEF\xBF\xBF\x80",
    b"\xE3\xC3\xA9",
    b"\xF0",
    b"\xF0\x90",
    b"\xF0\x90\x80",
    b"\xF0\x90\x80\x80",
    b"\xF0\x8F\xBF\xBF",
    b"\xF1\x80\x80\x80",
    b"\xF3\xBF\xBF\xBF",
    b"\xF4\x8F\xBF\xBF",
    b"\xF4\x90\x80\x80",
    b"\xF5\x80\x80\x80",
    b"\xF0\x9F\x98\x80\x80",
    b"\xFE",
    b"\xFF\xBF",
];

/// RFC 3629, section 7; a character of each form; two-byte characters around a letter; and what is no text.
#[test]
fn examples() {
    let valid: [(&[u8], usize); 6] = [
        (b"\x41\xE2\x89\xA2\xCE\x91\x2E", 4),
        (b"\xED\x95\x9C\xEA\xB5\xAD\xEC\x96\xB4", 3),
        (b"\xE6\x97\xA5\xE6\x9C\xAC\xE8\xAA\x9E", 3),
        (b"\xEF\xBB\xBF\xF0\xA3\x8E\xB4", 2),
        (b"\x41\xC3\xA9\xE2\x82\xAC\xF0\x9F\x9A\x86", 4),
        (b"\xC3\xA9\x41\xC3\xA9", 3),
    ];
    for (bytes, points) in valid {
        assert_eq!(text_check(bytes), Some(points), "{bytes:02X?}");
    }
    let invalid: [&[u8]; 5] = [
        b"\xED\xA0\x80",
        b"\xC0\x80",
        b"\xF4\x90\x80\x80",
        b"\xE2\x89",
        b"\xF5\x80\x80\x80",
    ];
    for bytes in invalid {
        assert_eq!(text_check(bytes), None, "{bytes:02X?}");
    }
}

/// One, two and three characters of the grammar's alternatives in each order, between ASCII.
#[test]
fn form_after_form() {
    let characters = FORMS.concat();
    let mut texts: Vec<(Vec<u8>, usize)> = vec![(Vec::new(), 0)];
    let mut begin = 0;
    for points in 1..=3 {
        let end = texts.len();
        for at in begin..end {
            for character in &characters {
                texts.push(([&texts[at].0, *character].concat(), points));
            }
        }
        begin = end;
    }
    assert_eq!(texts.len(), 1 + 18 + 18 * 18 + 18 * 18 * 18);
    for (bytes, points) in texts {
        for before in 0..=17 {
            for after in 0..=3 {
                let whole = [&LETTERS[..before], &bytes, &LETTERS[..after]].concat();
                answers(&whole, Some(before + points + after));
            }
        }
    }
}

/// A cut character at the end of a text and before a character, after ASCII, with and without a character between.
#[test]
fn cut_characters() {
    let characters = FORMS.concat();
    let mut around = characters.clone();
    around.push(b"");
    for character in &characters {
        for cut in (1..character.len()).map(|kept| &character[..kept]) {
            for length in (0..=40).chain(56..=72).chain(120..=136) {
                for before in &around {
                    for after in &around {
                        let whole = [&LETTERS[..length], before, cut, after].concat();
                        answers(&whole, None);
                    }
                }
            }
        }
    }
}

/// Runs of ASCII before and after a character of more bytes, then before, between and after one or two such characters.
#[test]
fn runs_of_ascii() {
    for character in FORMS[1..].concat() {
        for before in edges() {
            for after in edges() {
                agree(&[&LETTERS[..before], character, &LETTERS[..after]].concat());
            }
        }
    }
    let longer = ["é", "éé", "€", "€€", "🚆", "🚆🚆"].map(str::as_bytes);
    for (first, second) in longer.iter().flat_map(|a| longer.map(|b| (a, b))) {
        for before in edges() {
            for between in edges() {
                let front = [&LETTERS[..before], first, &LETTERS[..between], second].concat();
                for after in edges() {
                    agree(&[&front, &LETTERS[..after]].concat());
                }
            }
        }
    }
}

/// Runs of the characters of a form, from each of them on, alone and between ASCII; then each byte of them changed.
#[test]
fn runs_of_each_form() {
    for form in FORMS {
        for (start, count) in (0..form.len()).flat_map(|start| (1..=50).map(move |n| (start, n))) {
            let run: Vec<&[u8]> = (start..start + count)
                .map(|i| form[i % form.len()])
                .collect();
            let run = run.concat();
            for before in edges() {
                for after in edges() {
                    let whole = [&LETTERS[..before], &run, &LETTERS[..after]].concat();
                    answers(&whole, Some(before + count + after));
                }
            }
            for before in [0, 1, 7, 8, 16, 65, 128] {
                for after in [0, 3, 8, 17, 130] {
                    let whole = [&LETTERS[..before], &run, &LETTERS[..after]].concat();
                    each_byte_changed(whole, before..before + run.len());
                }
            }
        }
    }
}

fn each_byte_changed(mut whole: Vec<u8>, places: std::ops::Range<usize>) {
    for at in places {
        let byte = whole[at];
        for other in [0x41, 0x80, 0xC0, 0xED, 0xF5, 0xFF] {
            whole[at] = other;
            agree(&whole);
        }
        whole[at] = byte;
    }
}

#[test]
fn up_to_three_bytes() {
    agree(&[]);
    for a in 0..=255 {
        agree(&[a]);
        for b in 0..=255 {
            agree(&[a, b]);
            for c in 0..=255 {
                agree(&[a, b, c]);
            }
        }
    }
}

/// Each first byte, and borders after it. `every_text` has all sequences of four bytes.
#[test]
fn four_bytes() {
    for a in 0..=255 {
        for b in BORDERS {
            for c in BORDERS {
                for d in BORDERS {
                    agree(&[a, b, c, d]);
                }
            }
        }
    }
}

/// Each piece at each place of texts of each length up to 300, in each kind of text.
#[test]
fn each_place() {
    let mut random = Random(7);
    for length in 0..=300 {
        for sources in SORTS {
            let whole = text(sources, length, &mut random);
            for piece in PIECES {
                for at in 0..=length {
                    // Over the bytes that stand there, or between them.
                    let mut over = whole.clone();
                    over[at..(at + piece.len()).min(length)]
                        .copy_from_slice(&piece[..piece.len().min(length - at)]);
                    agree(&over);
                    agree(&over[..at]);
                }
                let at = random.below(length + 1);
                agree(&[&whole[..at], piece, &whole[at..]].concat());
            }
        }
    }
}

/// Texts of each sort up to lengths that a count in bytes, in 16 bits or in blocks would not hold.
#[test]
fn long_texts() {
    let mut random = Random(13);
    for sources in SORTS {
        for length in (250..1200).chain([4_095, 4_096, 65_535, 65_536, 70_001, 1_000_000]) {
            let whole = text(sources, length, &mut random);
            agree(&whole);
            let points = whole.iter().filter(|&&byte| byte & 0xC0 != 0x80).count();
            assert_eq!(text_check(&whole), Some(points));
        }
    }
    agree(&[b'x'; 300_000]);
    agree("\u{10FFFF}".repeat(70_000).as_bytes());
}

/// Random bytes and texts with random changes, between bytes that must not matter, at each alignment.
#[test]
fn random_texts() {
    let mut random = Random(11);
    let mut buffer = [0u8; 360];
    for turn in 0..10_000_000u64 {
        let length = random.below(301);
        let start = random.below(32);
        if turn % 64 == 0 {
            buffer
                .iter_mut()
                .for_each(|byte| *byte = random.next_number() as u8);
        }
        let place = &mut buffer[start..start + length];
        match turn % 4 {
            0 => {
                // Bytes of the grammar's borders: short texts of these are valid now and then.
                let length = length % 24;
                place[..length]
                    .iter_mut()
                    .for_each(|byte| *byte = BORDERS[random.below(BORDERS.len())]);
                agree(&place[..length]);
            }
            1 => {
                // Pieces end to end.
                let mut at = 0;
                while at < length {
                    let piece = PIECES[random.below(PIECES.len())];
                    let piece = if random.below(4) > 0 && std::str::from_utf8(piece).is_err() {
                        b"\xC3\xA9"
                    } else {
                        piece
                    };
                    let n = piece.len().min(length - at);
                    place[at..at + n].copy_from_slice(&piece[..n]);
                    at += n;
                }
                agree(place);
            }
            _ => {
                // A valid text, then up to two bytes of it changed.
                let sources = SORTS[random.below(SORTS.len())];
                let source = sources[random.below(sources.len())].as_bytes();
                let mut shift = random.below(source.len());
                while source[shift % source.len()] & 0xC0 == 0x80 {
                    shift += 1;
                }
                place
                    .iter_mut()
                    .enumerate()
                    .for_each(|(i, byte)| *byte = source[(shift + i) % source.len()]);
                for _ in 0..random.below(3) {
                    if length > 0 {
                        place[random.below(length)] = random.next_number() as u8;
                    }
                }
                agree(place);
            }
        }
    }
}
