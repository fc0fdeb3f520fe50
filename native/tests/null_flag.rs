//! The null flag against a few lines that say it: 4 by the row's sort, 3, 9 against the header's count, 3 for a cut
//! bitmap, then the bit.
use native::Random;
use rook_row::raw::{is_null, Refusal};

fn plain(row: &[u8], column: usize) -> Result<bool, u32> {
    let is_long = row.len() >= 4 && row[3] & 0x40 != 0;
    if row.len() > if is_long { 1_048_576 } else { 65_535 } {
        return Err(4);
    }
    if row.len() < 4 {
        return Err(3);
    }
    let count = u16::from_le_bytes([row[0], row[1]]) as usize;
    if column >= count {
        return Err(9);
    }
    if row.len() < 4 + count.div_ceil(8) {
        return Err(3);
    }
    Ok(row[4 + column / 8] >> (column % 8) & 1 == 1)
}

fn agree(row: &[u8], column: usize) {
    let expected = plain(row, column).map_err(|number| Refusal { number, place: 0 });
    assert_eq!(
        is_null(row, column),
        expected,
        "column {column} of {row:02X?}"
    );
}

#[test]
fn worked_cases() {
    let row = [3, 0, 1, 0x80, 4, 0x0D, 0, 1, 0, 0, 0, 0, 0, 0x41, 0x42];
    assert_eq!(is_null(&row, 0), Ok(false));
    assert_eq!(is_null(&row, 2), Ok(true));
    assert_eq!(
        is_null(&row, 3),
        Err(Refusal {
            number: 9,
            place: 0
        })
    );
    assert_eq!(
        is_null(&row[..3], 0),
        Err(Refusal {
            number: 3,
            place: 0
        })
    );
    assert_eq!(
        is_null(&row[..4], 0),
        Err(Refusal {
            number: 3,
            place: 0
        })
    );
    assert_eq!(
        is_null(&[0; 65_536], usize::MAX),
        Err(Refusal {
            number: 4,
            place: 0
        })
    );
}

/// Each count around each length, and columns at their limits.
#[test]
fn lengths_and_counts() {
    for length in 0..40 {
        let mut row = vec![0xA5u8; length];
        for count in (0..300).chain([65_535]) {
            if length >= 2 {
                row[..2].copy_from_slice(&(count as u16).to_le_bytes());
            }
            for column in (0..count + 2)
                .step_by(if count > 300 { 97 } else { 1 })
                .chain([usize::MAX])
            {
                agree(&row, column);
            }
        }
    }
}

#[test]
fn random_rows() {
    let mut random = Random(5);
    for _ in 0..200_000 {
        let mut row: Vec<u8> = (0..random.below(60))
            .map(|_| random.next_number() as u8)
            .collect();
        if row.len() > 1 && random.below(4) > 0 {
            row[1] = 0;
        }
        agree(&row, random.below(300));
    }
    let mut long = vec![0u8; 1_048_577];
    long[..2].copy_from_slice(&[0xFF, 0xFF]);
    long[4..8196]
        .iter_mut()
        .for_each(|byte| *byte = random.next_number() as u8);
    for column in 0..65_535 {
        agree(&long[..65_535], column);
    }
    // Every bit of the header but those of the count, at both limits.
    for bit in 0..16 {
        long[2..4].copy_from_slice(&(1u16 << bit).to_le_bytes());
        for length in [65_535, 65_536, 65_537, 1_048_575, 1_048_576, 1_048_577] {
            for column in [0, 65_534, 65_535] {
                agree(&long[..length], column);
            }
        }
    }
    assert_eq!(long[3], 0x80);
    assert!(is_null(&long[..65_536], 0).is_err());
    long[3] = 0x40;
    assert!(is_null(&long[..65_536], 0).is_ok());
}
