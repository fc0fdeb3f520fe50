//! Schema bytes, from 01: a record is a byte of kind and a body whose length
//! the kind fixes.

use crate::column::ColumnType;
use crate::layout::Layout;
use crate::{MAX_COLUMNS, Refusal, RowSort};

/// The kinds of Varchars, by bytes and by characters.
pub const VARCHAR: u8 = 11;
pub const VARCHAR_CHARS: u8 = 16;

/// The body length of a kind; `None` if it is unknown.
pub fn body_length(kind: u8) -> Option<usize> {
    match kind {
        6 | 7 | 9 | 10 | 11 | 14 | 16 => Some(2),
        1..=15 => Some(0),
        _ => None,
    }
}

/// The schema of these columns. It writes any list of types, refused or not.
pub fn write_schema(types: &[ColumnType]) -> Vec<u8> {
    let mut bytes = Vec::new();
    for ty in types {
        write_record(ty, &mut bytes);
    }
    bytes
}

pub fn write_record(ty: &ColumnType, out: &mut Vec<u8>) {
    out.push(kind(ty));
    match ty {
        ColumnType::Numeric { precision, scale } | ColumnType::Decimal { precision, scale } => {
            out.extend([*precision, *scale]);
        }
        ColumnType::Char(n)
        | ColumnType::Character(n)
        | ColumnType::Varchar(n)
        | ColumnType::VarcharChars(n)
        | ColumnType::Bit(n) => {
            out.extend(n.to_le_bytes());
        }
        _ => {}
    }
}

fn kind(ty: &ColumnType) -> u8 {
    match ty {
        ColumnType::SmallInt => 1,
        ColumnType::Int => 2,
        ColumnType::BigInt => 3,
        ColumnType::Real => 4,
        ColumnType::DoublePrecision => 5,
        ColumnType::Numeric { .. } => 6,
        ColumnType::Decimal { .. } => 7,
        ColumnType::Bool => 8,
        ColumnType::Char(_) => 9,
        ColumnType::Character(_) => 10,
        ColumnType::Varchar(_) => VARCHAR,
        ColumnType::Date => 12,
        ColumnType::Time => 13,
        ColumnType::Bit(_) => 14,
        ColumnType::Timestamp => 15,
        ColumnType::VarcharChars(_) => VARCHAR_CHARS,
    }
}

/// The columns of a schema, or refusal 1 or 2. The padded minimum is tested
/// after all records.
pub fn read_schema(bytes: &[u8]) -> Result<Vec<ColumnType>, Refusal> {
    read_schema_of(bytes, RowSort::Short)
}

/// The same of a schema for rows of a sort.
pub fn read_schema_of(bytes: &[u8], of: RowSort) -> Result<Vec<ColumnType>, Refusal> {
    let types = read_records(bytes)?;
    if Layout::padded_of(&types, of).minimum > of.limit() {
        return Err(Refusal::new(2, bytes.len()));
    }
    Ok(types)
}

/// The types of the records, or the refusal of the first bad one. A 257th is
/// bad whatever it is.
pub fn read_records(bytes: &[u8]) -> Result<Vec<ColumnType>, Refusal> {
    let mut types = Vec::new();
    let mut at = 0;
    while at < bytes.len() {
        if types.len() == MAX_COLUMNS {
            return Err(Refusal::new(2, at));
        }
        let (ty, length) = read_record(&bytes[at..]).map_err(|number| Refusal::new(number, at))?;
        types.push(ty);
        at += length;
    }
    Ok(types)
}

/// The type of the record that starts `bytes` and the record's length, or the
/// refusal's number. A cut record gives 1, whatever its body begins with.
fn read_record(bytes: &[u8]) -> Result<(ColumnType, usize), u32> {
    let body = body_length(bytes[0]).ok_or(1_u32)?;
    let Some(body) = bytes.get(1..1 + body) else {
        return Err(1);
    };
    Ok((read_type(bytes[0], body)?, 1 + body.len()))
}

/// The type of a known kind with its whole body.
fn read_type(kind: u8, body: &[u8]) -> Result<ColumnType, u32> {
    let n = || u16::from_le_bytes([body[0], body[1]]);
    Ok(match kind {
        1 => ColumnType::SmallInt,
        2 => ColumnType::Int,
        3 => ColumnType::BigInt,
        4 => ColumnType::Real,
        5 => ColumnType::DoublePrecision,
        6 | 7 => return read_numeric(kind, body[0], body[1]),
        8 => ColumnType::Bool,
        9 => ColumnType::Char(n()),
        10 => ColumnType::Character(n()),
        11 => ColumnType::Varchar(n()),
        12 => ColumnType::Date,
        13 => ColumnType::Time,
        14 => ColumnType::Bit(n()),
        15 => ColumnType::Timestamp,
        _ => ColumnType::VarcharChars(n()),
    })
}

fn read_numeric(kind: u8, precision: u8, scale: u8) -> Result<ColumnType, u32> {
    if !(1..=38).contains(&precision) || scale > precision {
        return Err(2);
    }
    Ok(match kind {
        6 => ColumnType::Numeric { precision, scale },
        _ => ColumnType::Decimal { precision, scale },
    })
}
