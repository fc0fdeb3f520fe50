//! What the printed list must be, from what the Rust reads: rows by its decoder,
//! `sort_by`, dates and times by chrono.

use crate::column::RustColumns;
use crate::expected::{self, Refusal, Values};
use crate::generate::row_list::{COLUMNS, MAX_BYTES, MAX_ROWS};
use rookdb::chrono::NaiveDateTime;
use rookdb::types::value::DataValue;
use std::fmt::Write;

/// The lines of a list, or its refusal.
pub fn printed(list: &[u8]) -> Result<String, Refusal> {
    let columns = RustColumns::of(&COLUMNS).expect("columns that the Rust knows");
    let mut rows = Vec::new();
    for row in framed(list).ok_or(Refusal::Number(16, 0))? {
        let values = expected::read(&columns, row, &[0, 1, 2, 3])?;
        if let Some(column) = values.iter().position(is_unprintable) {
            return Err(Refusal::Number(17, column));
        }
        rows.push(values);
    }
    rows.sort_by(|a, b| key(a).cmp(&key(b)));
    let mut text = String::new();
    for row in rows {
        let fields: Vec<_> = row.iter().map(field).collect();
        writeln!(text, "{}", fields.join("|")).expect("a string");
    }
    Ok(text)
}

/// The rows of a list that is whole and within its limits.
fn framed(list: &[u8]) -> Option<Vec<&[u8]>> {
    let mut rows = Vec::new();
    let mut rest = list;
    while let Some((length, behind)) = rest.split_first_chunk() {
        let (row, behind) = behind.split_at_checked(u16::from_le_bytes(*length).into())?;
        rows.push(row);
        rest = behind;
    }
    let within = list.len() <= MAX_BYTES && rows.len() <= MAX_ROWS;
    (rest.is_empty() && within).then_some(rows)
}

fn is_unprintable(value: &Option<DataValue>) -> bool {
    match value {
        Some(DataValue::Varchar(text)) => text.contains(|c: char| c == '"' || c < ' '),
        _ => false,
    }
}

/// Platform and arrival; `None` is the least, and texts compare by bytes.
pub fn key(values: &Values) -> (Option<&str>, Option<NaiveDateTime>) {
    let platform = match &values[0] {
        Some(DataValue::Varchar(text)) => Some(&text[..]),
        _ => None,
    };
    let arrival = match values[2] {
        Some(DataValue::Timestamp(moment)) => Some(moment),
        _ => None,
    };
    (platform, arrival)
}

fn field(value: &Option<DataValue>) -> String {
    match value {
        Some(DataValue::Varchar(text)) => format!("\"{text}\""),
        Some(DataValue::Timestamp(moment)) => moment.format("%Y-%m-%d %H:%M:%S").to_string(),
        None => "-".to_string(),
        other => panic!("a column of another type: {other:?}"),
    }
}

#[cfg(test)]
mod tests {
    use super::printed;
    use crate::expected::Refusal;

    /// 02's example, and the same less its last byte.
    #[test]
    fn the_example() {
        let list = b"\x1D\0\x04\0\x02\x80\x08\x19\0\x1A\0\0\0\0\0\0\0\0\0\0\0\0\0\0\0\0\x003T41";
        let line = "\"3\"|\"T41\"|1970-01-01 00:00:00|-\n";
        assert_eq!(printed(list), Ok(line.to_string()));
        assert_eq!(printed(&list[..30]), Err(Refusal::Number(16, 0)));
        assert_eq!(printed(b""), Ok(String::new()));
        assert_eq!(printed(b"\0"), Err(Refusal::Number(16, 0)));
        assert_eq!(printed(b"\0\0"), Err(Refusal::Internal));
    }
}
