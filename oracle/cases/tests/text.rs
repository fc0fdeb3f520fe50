//! Texts: the valid ones are valid, of the length asked for and of every form;
//! the invalid ones are invalid by the fault asked for.

mod common;

use cases::generate::text::{Fault, Sort, invalid, valid};
use cases::rng::Rng;
use common::fault_of;
use std::collections::BTreeSet;

#[test]
fn valid_texts() {
    let mut rng = Rng::new(1);
    let mut characters = BTreeSet::new();
    let mut widths = BTreeSet::new();
    for sort in Sort::ALL {
        for length in (0..=40).cycle().take(4000) {
            let bytes = valid(&mut rng, sort, length);
            assert_eq!(bytes.len(), length);
            let text = String::from_utf8(bytes).expect("a valid text");
            characters.extend(text.chars());
            widths.extend(text.chars().map(|c| (sort, c.len_utf8())));
        }
    }
    let ends = [
        0, 0x7F, 0x80, 0x7FF, 0x800, 0xD7FF, 0xE000, 0xFFFF, 0x1_0000, 0x10_FFFF,
    ];
    for code in ends {
        assert!(
            characters.contains(&char::from_u32(code).unwrap()),
            "{code:X}"
        );
    }
    // The bytes that a wide character does not fill are ASCII.
    let wide = [
        (Sort::Accented, 2),
        (Sort::ThreeByte, 3),
        (Sort::FourByte, 4),
    ];
    for (sort, width) in wide {
        let seen = |width| widths.contains(&(sort, width));
        assert!(seen(width));
        assert!((2..=4).all(|other| other == width || !seen(other)));
    }
    assert!((2..=4).all(|width| !widths.contains(&(Sort::Ascii, width))));
    assert!((1..=4).all(|width| widths.contains(&(Sort::Mixed, width))));
}

#[test]
fn invalid_texts() {
    let mut rng = Rng::new(2);
    for fault in Fault::ALL {
        let mut at_start = 0;
        let mut at_end = 0;
        for length in (0..=12).cycle().take(4000) {
            let Some(bytes) = invalid(&mut rng, fault, length) else {
                assert!(length < 4);
                continue;
            };
            assert_eq!(bytes.len(), length);
            let error = std::str::from_utf8(&bytes).expect_err("an invalid text");
            let bad = &bytes[error.valid_up_to()..];
            assert_eq!(fault_of(bad), Some(fault), "{bad:02X?}");
            at_start += usize::from(error.valid_up_to() == 0);
            at_end += usize::from(bad.len() <= 4);
        }
        assert!(at_start > 100 && at_end > 100, "{fault:?}");
    }
    assert_eq!(invalid(&mut rng, Fault::Surrogate, 2), None);
}
