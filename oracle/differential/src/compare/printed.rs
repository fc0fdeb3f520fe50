//! The printed list, against a printer over the Rust's decoder, `sort_by` and chrono:
//! the whole text, or the refusal. The model judges number, place, length and every
//! lent byte.

use super::rows::{self, apart, apart_from_rust, counted, fitting, handed};
use crate::lent::{After, any_output, called, written};
use crate::{Compared, hex, port};
use cases::RowSort;
use cases::expected::Refusal;
use cases::generate::kinds::Kinds;
use cases::printed::printed;
use cases::rng::Rng;
use model::RowAnswer;

fn by_port(list: &[u8], output: &[u8]) -> After<RowAnswer> {
    called(output, [list], |[list], out| {
        port::occupations_print(list, out)
    })
}

/// The lines in this output by the Rust, or the refusal.
fn told(list: &[u8], output: &[u8]) -> Result<Vec<u8>, Refusal> {
    fitting(printed(list)?.into_bytes(), output)
}

/// Whether a row of the list is long; the Rust tells nothing of such a list but that it
/// is no list of rows.
fn has_long_rows(list: &[u8]) -> bool {
    let mut rest = list;
    while let Some((length, behind)) = rest.split_first_chunk()
        && let Some((row, behind)) = behind.split_at_checked(u16::from_le_bytes(*length).into())
    {
        if RowSort::of_row(row) == RowSort::Long {
            return true;
        }
        rest = behind;
    }
    false
}

pub fn compare(rng: &mut Rng) -> Compared {
    let (sort, list) = Kinds::All.row_list(rng);
    let long = has_long_rows(&list);
    let needed = model::print::lines(&list).map_or(0, |text| text.len());
    let (room, output) = any_output(rng, needed);
    let input = || format!("list {}, {} bytes of output", hex(&list), output.len());
    let port = by_port(&list, &output);
    let model = written(&output, |out| model::occupations_print(&list, out));
    let difference = apart("model", &port, &model, input).or_else(|| {
        let rust = told(&list, &output);
        let judges = !long || rust == Err(Refusal::Number(16, 0));
        apart_from_rust(&handed(&port), &judges.then_some(rust), input)
    });
    let number = port.answer.number;
    Compared {
        sorts: counted(vec![
            format!("list {sort:?}"),
            format!("output {room:?}"),
            format!("answer {number}"),
            rows::judged(number != 14 && (!long || number == 16)).into(),
            match long {
                true => "list with long rows".into(),
                false => "list of short rows".into(),
            },
        ]),
        difference,
    }
}

#[cfg(test)]
mod tests {
    use super::{by_port, told};
    use crate::compare::rows::handed;
    use cases::generate::row_list::{MAX_ROWS, framed};

    const SECOND: i64 = 1_000_000;
    const DAY: i64 = 86_400 * SECOND;
    /// The days from 0001-01-01 to 9999-12-31, counted from 1970-01-01.
    const DAYS: std::ops::RangeInclusive<i64> = -719_162..=2_932_896;

    /// Holds the port to the Rust on a list, and hands back its lines.
    fn same(list: &[u8]) -> Option<String> {
        let output = vec![0; 126 * MAX_ROWS];
        let wanted = told(list, &output);
        assert_eq!(handed(&by_port(list, &output)), wanted, "{list:02X?}");
        Some(String::from_utf8(wanted.ok()?).expect("text"))
    }

    /// A row without texts.
    fn moments(arrival: i64, departure: i64) -> Vec<u8> {
        let header = [4, 0, 2, 0x80, 3, 0, 0, 0, 0];
        let slots = [arrival, departure].map(i64::to_le_bytes);
        [&header[..], &slots.concat()].concat()
    }

    /// A row without moments, of short texts.
    fn texts(platform: &[u8], unit: &[u8]) -> Vec<u8> {
        let header = [4, 0, 2, 0x80, 12, 25, 0, 25 + platform.len() as u8, 0];
        [&header[..], &[0; 16], platform, unit].concat()
    }

    /// Lists of these moments, two a row, each compared; how many lines they have.
    fn compared(moment: impl Iterator<Item = i64>) -> usize {
        let all: Vec<i64> = moment.collect();
        let pairs = all.chunks(2);
        let rows: Vec<Vec<u8>> = pairs
            .map(|pair| moments(pair[0], pair[pair.len() - 1]))
            .collect();
        let lists = rows.chunks(MAX_ROWS).map(framed);
        lists
            .map(|list| same(&list).expect("lines").lines().count())
            .sum()
    }

    /// Every day that a row holds, at its first microsecond, at its last, and at
    /// other times, which go on by more than eleven hours from a day to the next.
    #[test]
    fn every_day() {
        let moment = |day: i64| match day.rem_euclid(5) {
            0 => day * DAY,
            1 => (day + 1) * DAY - 1,
            _ => day * DAY + (day * 41_234_567_891).rem_euclid(DAY),
        };
        assert_eq!(compared(DAYS.map(moment)), 3_652_059_usize.div_ceil(2));
    }

    /// Every second of two days, one before 1970, each with the microsecond before it.
    #[test]
    fn every_second_of_a_day() {
        for day in [-719_000, 20_773] {
            let seconds = (0..86_400).map(|second| day * DAY + second * SECOND);
            let moments = seconds.flat_map(|moment| [moment - 1, moment]);
            assert_eq!(compared(moments), 86_400);
        }
    }

    #[test]
    fn every_byte_in_a_text() {
        let mut printed = 0;
        for byte in 0..=0xFF {
            for row in [
                texts(&[byte], b"T41"),
                texts(b"3", &[b'T', byte]),
                texts(&[byte], &[byte]),
            ] {
                printed += usize::from(same(&framed(&[row])).is_some());
            }
        }
        // Of ASCII all but 32 controls and the double quote.
        assert_eq!(printed, 3 * (128 - 33));
    }

    /// Platforms of one byte or none, and of two with the first in common.
    #[test]
    fn every_pair_of_platforms() {
        let bytes: Vec<u8> = (0x20..0x80).filter(|&byte| byte != b'"').collect();
        for &a in &bytes {
            let of = |b: u8| {
                [
                    texts(&[a], b"0"),
                    texts(&[b], b"1"),
                    texts(&[a, b], b"2"),
                    texts(b"", b"3"),
                ]
            };
            let rows: Vec<Vec<u8>> = bytes.iter().flat_map(|&b| of(b)).collect();
            assert_eq!(
                same(&framed(&rows)).expect("lines").lines().count(),
                4 * bytes.len()
            );
            for &b in &bytes {
                let lines = same(&framed(&[texts(&[b], b""), texts(&[a], b"")])).expect("lines");
                let first = lines.as_bytes()[1];
                assert_eq!(first, a.min(b));
            }
        }
    }

    /// Every list of up to two bytes, and of up to two rows that have none.
    #[test]
    fn short_lists() {
        assert_eq!(same(&[]).as_deref(), Some(""));
        for a in 0..=0xFF {
            assert_eq!(same(&[a]), None);
            for b in 0..=0xFF {
                assert_eq!(same(&[a, b]), None);
                assert_eq!(same(&[0, 0, a, b]), None);
            }
        }
    }
}
