//! Schema bytes: a record is one byte of kind and a body whose length the kind
//! fixes. Refusals 1 and 2.

use crate::layout::Layout;
use crate::sort::Sort;
use crate::{MAX_COLUMNS, Refusal};

/// A column's type. A Varchar has at most n bytes, a VarcharChars at most n code
/// points; all else is the same for both.
#[derive(Debug, Clone, Copy, PartialEq, Eq)]
pub enum Type {
    SmallInt,
    Int,
    BigInt,
    Real,
    DoublePrecision,
    Numeric { precision: u8, scale: u8 },
    Decimal { precision: u8, scale: u8 },
    Bool,
    Char(usize),
    Character(usize),
    Varchar(usize),
    VarcharChars(usize),
    Date,
    Time,
    Bit(usize),
    Timestamp,
}

impl Type {
    /// The bytes of the column's slot; `None` for a Varchar, which has none.
    pub fn fixed_size(self) -> Option<usize> {
        match self {
            Type::Bool => Some(1),
            Type::SmallInt => Some(2),
            Type::Int | Type::Real | Type::Date => Some(4),
            Type::BigInt | Type::DoublePrecision | Type::Time | Type::Timestamp => Some(8),
            // A nibble for each digit and one for the sign.
            Type::Numeric { precision, .. } | Type::Decimal { precision, .. } => {
                Some((usize::from(precision) + 1).div_ceil(2))
            }
            Type::Char(n) | Type::Character(n) => Some(n),
            Type::Bit(n) => Some(n.div_ceil(8)),
            Type::Varchar(_) | Type::VarcharChars(_) => None,
        }
    }

    /// What the start of the column's slot is rounded up to in a padded row.
    pub fn alignment(self) -> usize {
        match self {
            Type::SmallInt => 2,
            Type::Int | Type::Real | Type::Date => 4,
            Type::BigInt | Type::DoublePrecision | Type::Time | Type::Timestamp => 8,
            _ => 1,
        }
    }

    pub fn is_varchar(self) -> bool {
        self.fixed_size().is_none()
    }

    /// Whether its values are text.
    pub fn is_text(self) -> bool {
        matches!(self, Type::Char(_) | Type::Character(_)) || self.is_varchar()
    }
}

/// The types of a schema, or 1 or 2 with its place: the first bad record
/// decides; after the last record the padded minimum of the sort is judged.
pub fn check(schema: &[u8], sort: Sort) -> Result<Vec<Type>, Refusal> {
    let mut types = Vec::new();
    let mut at = 0;
    while at < schema.len() {
        // A 257th record is bad whatever its kind.
        if types.len() == MAX_COLUMNS {
            return Err((2, at));
        }
        let (ty, length) = record(&schema[at..]).map_err(|number| (number, at))?;
        types.push(ty);
        at += length;
    }
    if Layout::padded(&types, sort).minimum > sort.limit() {
        return Err((2, schema.len()));
    }
    Ok(types)
}

/// The type of the record that begins here and the record's length, or the
/// number of its refusal. A record that is cut off gives 1, whatever its body
/// begins with.
fn record(bytes: &[u8]) -> Result<(Type, usize), u32> {
    let kind = bytes[0];
    let length = match kind {
        1..=5 | 8 | 12 | 13 | 15 => 1,
        6 | 7 | 9 | 10 | 11 | 14 | 16 => 3,
        _ => return Err(1),
    };
    if bytes.len() < length {
        return Err(1);
    }
    let numeric = || -> Result<(u8, u8), u32> {
        let (precision, scale) = (bytes[1], bytes[2]);
        let good = (1..=38).contains(&precision) && scale <= precision;
        if good { Ok((precision, scale)) } else { Err(2) }
    };
    let n = || usize::from(bytes[1]) + 256 * usize::from(bytes[2]);
    let ty = match kind {
        1 => Type::SmallInt,
        2 => Type::Int,
        3 => Type::BigInt,
        4 => Type::Real,
        5 => Type::DoublePrecision,
        6 => {
            let (precision, scale) = numeric()?;
            Type::Numeric { precision, scale }
        }
        7 => {
            let (precision, scale) = numeric()?;
            Type::Decimal { precision, scale }
        }
        8 => Type::Bool,
        9 => Type::Char(n()),
        10 => Type::Character(n()),
        11 => Type::Varchar(n()),
        12 => Type::Date,
        13 => Type::Time,
        14 => Type::Bit(n()),
        15 => Type::Timestamp,
        _ => Type::VarcharChars(n()),
    };
    Ok((ty, length))
}
