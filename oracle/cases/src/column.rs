//! The type of a column, as 01 has it, and the Rust's type for it. The Rust may
//! not know a kind, as that of Varchars counted in characters: then it is no judge of
//! rows with such a column, and makes none.

use rookdb::types::datatype::DataType;

#[derive(Debug, Clone, PartialEq, Eq, Hash)]
pub enum ColumnType {
    SmallInt,
    Int,
    BigInt,
    Real,
    DoublePrecision,
    Numeric { precision: u8, scale: u8 },
    Decimal { precision: u8, scale: u8 },
    Bool,
    Char(u16),
    Character(u16),
    Varchar(u16),
    VarcharChars(u16),
    Date,
    Time,
    Bit(u16),
    Timestamp,
}

impl ColumnType {
    /// The bytes of a fixed column's slot; `None` for a Varchar.
    pub fn fixed_size(&self) -> Option<usize> {
        match *self {
            ColumnType::Bool => Some(1),
            ColumnType::SmallInt => Some(2),
            ColumnType::Int | ColumnType::Real | ColumnType::Date => Some(4),
            ColumnType::BigInt | ColumnType::DoublePrecision => Some(8),
            ColumnType::Time | ColumnType::Timestamp => Some(8),
            // A nibble for each digit and one for the sign.
            ColumnType::Numeric { precision, .. } | ColumnType::Decimal { precision, .. } => {
                Some((usize::from(precision) + 1).div_ceil(2))
            }
            ColumnType::Char(n) | ColumnType::Character(n) => Some(n.into()),
            ColumnType::Bit(n) => Some(usize::from(n).div_ceil(8)),
            ColumnType::Varchar(_) | ColumnType::VarcharChars(_) => None,
        }
    }

    /// What the start of the slot is rounded up to in a padded row.
    pub fn alignment(&self) -> usize {
        match self {
            ColumnType::SmallInt => 2,
            ColumnType::Int | ColumnType::Real | ColumnType::Date => 4,
            ColumnType::BigInt | ColumnType::DoublePrecision => 8,
            ColumnType::Time | ColumnType::Timestamp => 8,
            _ => 1,
        }
    }

    pub fn is_variable_length(&self) -> bool {
        self.fixed_size().is_none()
    }

    /// Whether its values are text.
    pub fn is_text(&self) -> bool {
        matches!(self, ColumnType::Char(_) | ColumnType::Character(_)) || self.is_variable_length()
    }

    /// The Rust's type for it; `None` if the Rust does not know the kind.
    pub fn to_rust(&self) -> Option<DataType> {
        Some(match *self {
            ColumnType::SmallInt => DataType::SmallInt,
            ColumnType::Int => DataType::Int,
            ColumnType::BigInt => DataType::BigInt,
            ColumnType::Real => DataType::Real,
            ColumnType::DoublePrecision => DataType::DoublePrecision,
            ColumnType::Numeric { precision, scale } => DataType::Numeric { precision, scale },
            ColumnType::Decimal { precision, scale } => DataType::Decimal { precision, scale },
            ColumnType::Bool => DataType::Bool,
            ColumnType::Char(n) => DataType::Char(n),
            ColumnType::Character(n) => DataType::Character(n),
            ColumnType::Varchar(n) => DataType::Varchar(n),
            ColumnType::VarcharChars(_) => return None,
            ColumnType::Date => DataType::Date,
            ColumnType::Time => DataType::Time,
            ColumnType::Bit(n) => DataType::Bit(n),
            ColumnType::Timestamp => DataType::Timestamp,
        })
    }

    /// The type for one of the Rust's.
    pub fn of_rust(ty: &DataType) -> Self {
        match *ty {
            DataType::SmallInt => ColumnType::SmallInt,
            DataType::Int => ColumnType::Int,
            DataType::BigInt => ColumnType::BigInt,
            DataType::Real => ColumnType::Real,
            DataType::DoublePrecision => ColumnType::DoublePrecision,
            DataType::Numeric { precision, scale } => ColumnType::Numeric { precision, scale },
            DataType::Decimal { precision, scale } => ColumnType::Decimal { precision, scale },
            DataType::Bool => ColumnType::Bool,
            DataType::Char(n) => ColumnType::Char(n),
            DataType::Character(n) => ColumnType::Character(n),
            DataType::Varchar(n) => ColumnType::Varchar(n),
            DataType::Date => ColumnType::Date,
            DataType::Time => ColumnType::Time,
            DataType::Bit(n) => ColumnType::Bit(n),
            DataType::Timestamp => ColumnType::Timestamp,
        }
    }
}

/// The Rust's types for these; `None` if it does not know one of the kinds.
pub fn to_rust_types(types: &[ColumnType]) -> Option<Vec<DataType>> {
    types.iter().map(ColumnType::to_rust).collect()
}

/// The types for these of the Rust.
pub fn of_rust_types(types: &[DataType]) -> Vec<ColumnType> {
    types.iter().map(ColumnType::of_rust).collect()
}

/// Columns that the Rust knows, by their types and by the Rust's. What only the
/// Rust can tell of a row is asked with these.
#[derive(Debug, Clone, PartialEq, Eq)]
pub struct RustColumns<'a> {
    pub types: &'a [ColumnType],
    pub rust: Vec<DataType>,
}

impl<'a> RustColumns<'a> {
    /// `None` if the Rust does not know one of the kinds.
    pub fn of(types: &'a [ColumnType]) -> Option<Self> {
        let rust = to_rust_types(types)?;
        Some(RustColumns { types, rust })
    }
}
