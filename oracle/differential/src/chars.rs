//! What a call shows of Varchars that count characters, schema kind 16: for the counts
//! that a run tells. No answer is judged here.

use cases::LIMIT;
use cases::schema::VARCHAR_CHARS;
use model::Sort;
use model::edit::sound;
use model::read::columns;
use model::schema::{Type, check};
use model::stored::text_of;
use model::text::is_text;
use model::value::{Value, check_list};
use std::ops::Range;

#[derive(Debug, Clone, Copy, PartialEq, Eq)]
pub enum Shown {
    /// A text is taken, written or read, that has more bytes than n.
    MoreBytes,
    // A valid text has more code points than n.
    Read,
    Written,
    Unsound,
}

impl Shown {
    pub const ALL: [Shown; 4] = [
        Shown::MoreBytes,
        Shown::Read,
        Shown::Written,
        Shown::Unsound,
    ];

    pub fn name(self) -> &'static str {
        match self {
            Shown::MoreBytes => "kind 16: taken with more bytes than n",
            Shown::Read => "kind 16: 8 by code points",
            Shown::Written => "kind 16: 12 by code points",
            Shown::Unsound => "kind 16: 15 by code points",
        }
    }
}

/// The types of a schema with such a column.
fn types(schema: &[u8]) -> Option<Vec<Type>> {
    if !schema.contains(&VARCHAR_CHARS) {
        return None;
    }
    // A schema that is good for short rows is good for long ones.
    let types = check(schema, Sort::Long).ok()?;
    let has = types.iter().any(|ty| matches!(ty, Type::VarcharChars(_)));
    has.then_some(types)
}

/// Whether Varchars of a schema count characters, all of them or some.
pub fn schema_sort(schema: &[u8]) -> Option<&'static str> {
    let by_bytes = |ty: &Type| matches!(ty, Type::Varchar(_));
    Some(match types(schema)?.iter().any(by_bytes) {
        true => "schema with kinds 11 and 16",
        false => "schema with kind 16",
    })
}

/// The types with no count of characters.
fn uncounted(types: &[Type]) -> Vec<Type> {
    let uncounted = |&ty: &Type| match ty {
        Type::VarcharChars(_) => Type::VarcharChars(LIMIT),
        ty => ty,
    };
    types.iter().map(uncounted).collect()
}

fn is_longer(ty: Type, value: &Value) -> bool {
    match (ty, value) {
        (Type::VarcharChars(n), Value::Varchar(range)) => range.length > n,
        _ => false,
    }
}

/// A read of columns of a row that is answered so.
pub fn read(
    schema: &[u8],
    row: &[u8],
    wanted: impl Fn(usize) -> bool,
    (number, place): (u32, usize),
) -> Option<Shown> {
    let types = types(schema)?;
    match number {
        0 => {
            let values = columns(&types, row, wanted).ok()?;
            let mut columns = types.iter().zip(&values);
            let longer = columns.any(|(&ty, value)| is_longer(ty, value));
            longer.then_some(Shown::MoreBytes)
        }
        8 => {
            let reads = |types: &[Type]| columns(types, row, |column| column == place).is_ok();
            (!reads(&types) && reads(&uncounted(&types))).then_some(Shown::Read)
        }
        _ => None,
    }
}

/// A value list for these columns of a schema that is answered so.
fn write(
    schema: &[u8],
    of: Range<usize>,
    list: &[u8],
    area: &[u8],
    (number, place): (u32, usize),
) -> Option<Shown> {
    let types = types(schema)?;
    let own = types.get(of.clone())?;
    let values = check_list(list, own.len(), area.len(), Sort::Long).ok()?;
    match number {
        0 => {
            let mut columns = own.iter().zip(&values);
            let longer = columns.any(|(&ty, value)| is_longer(ty, value));
            longer.then_some(Shown::MoreBytes)
        }
        12 => {
            let counts = matches!(types.get(place)?, Type::VarcharChars(_));
            let value = values.get(place.checked_sub(of.start)?)?;
            let given = text_of(value, area)?;
            (counts && is_text(given)).then_some(Shown::Written)
        }
        _ => None,
    }
}

/// Bytes of a schema's one column that are answered so.
pub fn slot(schema: &[u8], bytes: &[u8], number: u32) -> Option<Shown> {
    let Type::VarcharChars(n) = *types(schema)?.first()? else {
        return None;
    };
    match number {
        0 => (bytes.len() > n).then_some(Shown::MoreBytes),
        8 => is_text(bytes).then_some(Shown::Read),
        _ => None,
    }
}

/// A build that is answered so.
pub fn build(schema: &[u8], list: &[u8], area: &[u8], answer: (u32, usize)) -> Option<Shown> {
    let columns = types(schema)?.len();
    write(schema, 0..columns, list, area, answer)
}

/// A set, or with no list a set null, of a row that is answered so.
pub fn edit(
    schema: &[u8],
    row: Option<&[u8]>,
    column: usize,
    list: Option<(&[u8], &[u8])>,
    answer: (u32, usize),
) -> Option<Shown> {
    if answer.0 == 15 {
        let uncounted = uncounted(&types(schema)?);
        return sound(&uncounted, row?).then_some(Shown::Unsound);
    }
    let (list, area) = list?;
    write(schema, column..column.checked_add(1)?, list, area, answer)
}

#[cfg(test)]
mod tests {
    use super::{Shown, build, edit, read, schema_sort, slot};

    const ROW: &[u8] = b"\x01\0\x01\x80\0\x07\0ABC";
    const WIDE: &[u8] = b"\x01\0\x01\x80\0\x07\0\xC3\xA9";
    const LIST: &[u8] = &[9, 0, 0, 2, 0];

    #[test]
    fn sorts_of_schemas() {
        assert_eq!(schema_sort(&[16, 2, 0]), Some("schema with kind 16"));
        let both = schema_sort(&[16, 2, 0, 11, 16, 0]);
        assert_eq!(both, Some("schema with kinds 11 and 16"));
        assert_eq!(schema_sort(&[11, 16, 0]), None);
        assert_eq!(schema_sort(&[16, 2]), None);
    }

    #[test]
    fn what_is_shown() {
        let of_row = |n, row, answer| read(&[16, n, 0], row, |_| true, answer);
        assert_eq!(of_row(2, ROW, (8, 0)), Some(Shown::Read));
        assert_eq!(of_row(2, b"\x01\0\x01\x80\0\x07\0\xFF", (8, 0)), None);
        assert_eq!(of_row(3, ROW, (0, 0)), None);
        assert_eq!(of_row(1, WIDE, (0, 0)), Some(Shown::MoreBytes));
        assert_eq!(read(&[11, 2, 0], ROW, |_| true, (8, 0)), None);

        let built = |n, text: &[u8], answer| build(&[16, n, 0], LIST, text, answer);
        assert_eq!(built(1, b"AB", (12, 0)), Some(Shown::Written));
        assert_eq!(built(1, b"\xC3\xA9", (0, 0)), Some(Shown::MoreBytes));
        assert_eq!(built(2, b"\xC3\xA9", (0, 0)), None);
        assert_eq!(built(1, b"\xFFB", (12, 0)), None);
        assert_eq!(built(1, b"A", (12, 0)), None);

        assert_eq!(slot(&[16, 1, 0], b"AB", 8), Some(Shown::Read));
        assert_eq!(slot(&[16, 1, 0], b"\xC3", 8), None);
        assert_eq!(slot(&[16, 1, 0], b"\xC3\xA9", 0), Some(Shown::MoreBytes));
        assert_eq!(slot(&[11, 16, 0], b"AB", 8), None);

        let edited = |n, row, list, answer| edit(&[2, 16, n, 0], Some(row), 1, list, answer);
        let sound = b"\x02\0\x01\x80\x01\x0B\0\0\0\0\0AB";
        assert_eq!(edited(1, sound, None, (15, 0)), Some(Shown::Unsound));
        assert_eq!(edited(1, ROW, None, (15, 0)), None);
        let set = Some((LIST, &b"AB"[..]));
        assert_eq!(edited(1, sound, set, (12, 1)), Some(Shown::Written));
        assert_eq!(edited(2, sound, set, (0, 0)), None);
        let set = Some((LIST, &b"\xC3\xA9"[..]));
        assert_eq!(edited(1, sound, set, (0, 0)), Some(Shown::MoreBytes));
        assert_eq!(edited(1, sound, set, (9, 0)), None);
    }
}
