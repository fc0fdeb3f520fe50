//! The value list that a read has written, taken apart.
//!
//! By the contract of `rook_row_read` the list has a record for each column of the schema, end to end: a null of one
//! byte for an unwanted column, for a wanted one a null or the record of a value that its type holds. Its ranges lie
//! in the row, and the bytes of a text are text by RFC 3629. Nothing of this is checked again here, so the fields of
//! this module's types are its own: what stands in them comes from one schema, and the lists from reads with it.
use super::{limit, value_kind, Refusal};
use crate::list::RECORD;
use crate::{Bits, Column, DataType, Date, Numeric, Schema, Time, Timestamp, Value};
use alloc::borrow::Cow;
use alloc::vec;
use alloc::vec::Vec;

/// A wanted column in a list.
#[derive(Debug, Clone, Copy)]
struct Step {
    /// How many unwanted columns stand before it, since the last wanted one.
    skipped: u16,
    data_type: DataType,
}

/// Columns of a schema, by rising number, each once: their numbers, and how to find their records.
#[derive(Debug, Clone)]
pub(crate) struct Plan {
    numbers: Vec<u16>,
    steps: Vec<Step>,
}

impl Plan {
    /// All columns.
    pub(crate) fn all(columns: &[Column]) -> Plan {
        Plan::of(columns, (0..).take(columns.len()).collect())
    }

    fn of(columns: &[Column], mut numbers: Vec<u16>) -> Plan {
        numbers.sort_unstable();
        numbers.dedup();
        numbers.retain(|&number| usize::from(number) < columns.len());
        let mut next = 0;
        let step = |&number: &u16| {
            let skipped = number - next;
            next = number + 1;
            let data_type = columns[usize::from(number)].data_type();
            Step { skipped, data_type }
        };
        let steps = numbers.iter().map(step).collect();
        Plan { numbers, steps }
    }

    /// The bytes that a list needs: those of the wanted columns' records, one for each other column, and those of one
    /// record more, so that each record is taken by its greatest length.
    fn room(&self, columns: usize) -> usize {
        RECORD * (self.numbers.len() + 1) + columns
    }

    /// Reads these columns of a row of the schema that they are of, with `list` and `counts` for memory.
    #[inline]
    fn read<'r, 'a>(
        &'r self,
        schema: &Schema,
        row: &'a [u8],
        list: &'r mut [u8],
        counts: &mut [u32],
    ) -> Result<Records<'r, 'a>, Refusal> {
        super::read(schema.as_bytes(), row, &self.numbers, list, counts)?;
        let steps = &self.steps;
        Ok(Records { steps, list, row })
    }
}

/// The wanted columns of a schema.
#[derive(Debug, Clone)]
pub(crate) struct Wanted {
    schema: Schema,
    plan: Plan,
}

impl Wanted {
    /// These columns of the schema; numbers that it does not have are left out.
    pub(crate) fn new(schema: &Schema, numbers: Vec<u16>) -> Wanted {
        Wanted {
            schema: schema.clone(),
            plan: Plan::of(schema.columns(), numbers),
        }
    }

    pub(crate) fn schema(&self) -> &Schema {
        &self.schema
    }

    /// The columns' numbers, rising.
    pub(crate) fn numbers(&self) -> &[u16] {
        &self.plan.numbers
    }

    /// The bytes that a list needs.
    pub(crate) fn room(&self) -> usize {
        self.plan.room(self.schema.len())
    }

    /// Reads these columns of a row, with `list` for memory; the code points of texts go to `counts`.
    #[inline]
    pub(crate) fn read<'r, 'a>(
        &'r self,
        row: &'a [u8],
        list: &'r mut [u8],
        counts: &mut [u32],
    ) -> Result<Records<'r, 'a>, Refusal> {
        self.plan.read(&self.schema, row, list, counts)
    }
}

/// The records of a list for its wanted columns, in their rising order.
#[derive(Debug, Clone, Copy)]
pub(crate) struct Records<'r, 'a> {
    steps: &'r [Step],
    list: &'r [u8],
    row: &'a [u8],
}

/// How far a walk over a list has come: to the wanted column of this rank, whose record begins at or, behind unwanted
/// ones, after `at`.
#[derive(Debug, Clone, Copy, Default)]
pub(crate) struct Cursor {
    rank: usize,
    at: usize,
}

impl<'a> Records<'_, 'a> {
    /// How many wanted columns there are from the cursor on.
    pub(crate) fn left(&self, cursor: Cursor) -> usize {
        self.steps.len() - cursor.rank
    }

    /// The type of the column at the cursor; none behind the last.
    #[inline(always)]
    pub(crate) fn data_type(&self, cursor: Cursor) -> Option<DataType> {
        self.steps.get(cursor.rank).map(|step| step.data_type)
    }

    /// What `then` makes of the value of the column at the cursor, which moves on to the next; none behind the last.
    #[inline(always)]
    pub(crate) fn next<R>(
        &self,
        cursor: &mut Cursor,
        then: impl FnOnce(Value<'a>) -> R,
    ) -> Option<R> {
        let step = *self.steps.get(cursor.rank)?;
        let at = cursor.at + usize::from(step.skipped);
        cursor.rank += 1;
        let list = self.list.get(at..).unwrap_or_default();
        let Some(record) = known(list) else {
            cursor.at = BEYOND;
            return Some(then(unknown(list)));
        };
        Some(decode(record, step.data_type, self.row, |value, length| {
            cursor.at = at + length;
            then(value)
        }))
    }

    /// All values from the cursor on, in turn.
    #[inline(always)]
    pub(crate) fn fold<B>(
        &self,
        cursor: Cursor,
        first: B,
        mut each: impl FnMut(B, Value<'a>) -> B,
    ) -> B {
        let mut list = self.list.get(cursor.at..).unwrap_or_default();
        let mut result = first;
        for step in self.steps.get(cursor.rank..).unwrap_or_default() {
            if step.skipped != 0 {
                list = list.get(usize::from(step.skipped)..).unwrap_or_default();
            }
            let Some(record) = known(list) else {
                result = each(result, unknown(list));
                list = &[];
                continue;
            };
            result = decode(record, step.data_type, self.row, |value, length| {
                list = list.get(length..).unwrap_or_default();
                each(result, value)
            });
        }
        result
    }

    /// The cursor at the wanted column of this rank, or behind the last.
    #[inline(always)]
    pub(crate) fn seek(&self, cursor: Cursor, rank: usize) -> Cursor {
        match rank == cursor.rank {
            true => cursor,
            false => self.walk(cursor, rank),
        }
    }

    fn walk(&self, cursor: Cursor, rank: usize) -> Cursor {
        let mut cursor = if rank < cursor.rank {
            Cursor::default()
        } else {
            cursor
        };
        while cursor.rank < rank && cursor.rank < self.steps.len() {
            let at = cursor.at + usize::from(self.steps[cursor.rank].skipped);
            let length = self.list.get(at).map_or(BEYOND, |&kind| length_of(kind));
            cursor = Cursor {
                rank: cursor.rank + 1,
                at: at + length,
            };
        }
        cursor
    }
}

/// Reads all columns of a row; the code points of its texts go to `counts`.
pub(crate) fn read_all<'a>(
    schema: &Schema,
    row: &'a [u8],
    counts: &mut [u32],
) -> Result<Vec<Value<'a>>, Refusal> {
    let mut list = vec![0; schema.plan().room(schema.len())];
    let records = schema.plan().read(schema, row, &mut list, counts)?;
    let mut values = Vec::with_capacity(records.left(Cursor::default()));
    records.fold(Cursor::default(), (), |(), value| values.push(value));
    Ok(values)
}

/// The code points of all texts of a row go to `counts`; its values are not handed out.
pub(crate) fn count_all(schema: &Schema, row: &[u8], counts: &mut [u32]) -> Result<(), Refusal> {
    let mut list = vec![0; schema.plan().room(schema.len())];
    schema.plan().read(schema, row, &mut list, counts)?;
    Ok(())
}

/// Reads one column of a row, which is of this type; the code points of its text go to `counts`.
pub(crate) fn read_one<'a>(
    schema: &Schema,
    row: &'a [u8],
    column: usize,
    data_type: DataType,
    counts: &mut [u32],
) -> Result<Value<'a>, Refusal> {
    // A null for each other column, and a record by its greatest length.
    let mut list = [0; limit::COLUMNS + RECORD];
    let number = u16::try_from(column).unwrap_or(u16::MAX);
    super::read(schema.as_bytes(), row, &[number], &mut list, counts)?;
    let list = list.get(column..).unwrap_or_default();
    Ok(match known(list) {
        Some(record) => decode(record, data_type, row, |value, _| value),
        None => unknown(list),
    })
}

/// The text of a column, or none for a null.
pub(crate) fn read_text<'a>(
    schema: &Schema,
    row: &'a [u8],
    column: usize,
) -> Result<Option<&'a str>, Refusal> {
    let range = super::text(schema.as_bytes(), row, column)?;
    // SAFETY: by the contract of `rook_row_text` the range is that of a text by RFC 3629.
    let text = |range| unsafe { core::str::from_utf8_unchecked(&row[range]) };
    // No text starts at 0: an offset of 0 is a null, and slots come behind the header.
    Ok((range.start != 0).then(|| text(range)))
}

/// The bits of a `Bit`.
fn bits_of(data_type: DataType) -> u16 {
    match data_type {
        DataType::Bit(n) => n,
        _ => 0,
    }
}

/// The length of a record of unknown kind: what comes behind it is not known either. No list is as long.
const BEYOND: usize = 1 << 20;

/// The last kind that is known. Between it and the first there are some that are not.
const LAST_KIND: u8 = value_kind::LONG_BIT;

/// The length of a record by its kind.
fn length_of(kind: u8) -> usize {
    match kind {
        value_kind::NULL => 1,
        value_kind::BOOL => 2,
        value_kind::SMALL_INT => 3,
        value_kind::INT | value_kind::REAL | value_kind::DATE => 5,
        value_kind::CHAR | value_kind::VARCHAR | value_kind::BIT => 5,
        value_kind::BIG_INT | value_kind::DOUBLE_PRECISION => 9,
        value_kind::TIME | value_kind::TIMESTAMP => 9,
        value_kind::LONG_CHAR | value_kind::LONG_VARCHAR | value_kind::LONG_BIT => 9,
        value_kind::NUMERIC => 18,
        _ => BEYOND,
    }
}

/// The first record of a list, by its greatest length, unless its kind is above all that are known. It is asked before
/// `decode`, so that a loop has one arm less.
#[inline(always)]
fn known(list: &[u8]) -> Option<&[u8; RECORD]> {
    list.first_chunk().filter(|record| record[0] <= LAST_KIND)
}

/// What is read where there is no record of a known kind.
fn unknown(list: &[u8]) -> Value<'static> {
    let kind = list.first_chunk::<RECORD>().map_or(255, |record| record[0]);
    Value::Unknown { kind }
}

/// What `then` makes of the value of a record that is [`known`], of a column of this type, and of the record's length.
/// It is handed each kind of value in an arm of its own, so that the compiler knows there which one it is.
#[inline(always)]
fn decode<'a, R>(
    record: &[u8; RECORD],
    data_type: DataType,
    row: &'a [u8],
    then: impl FnOnce(Value<'a>, usize) -> R,
) -> R {
    let int = || i32::from_le_bytes(body(record));
    let long = || i64::from_le_bytes(body(record));
    match record[0] {
        value_kind::NULL => then(Value::Null, 1),
        value_kind::SMALL_INT => then(Value::SmallInt(i16::from_le_bytes(body(record))), 3),
        value_kind::INT => then(Value::Int(int()), 5),
        value_kind::BIG_INT => then(Value::BigInt(long()), 9),
        value_kind::REAL => then(Value::Real(f32::from_le_bytes(body(record))), 5),
        value_kind::DOUBLE_PRECISION => {
            then(Value::DoublePrecision(f64::from_le_bytes(body(record))), 9)
        }
        value_kind::NUMERIC => {
            let unscaled = i128::from_le_bytes(body(record));
            then(
                Value::Numeric(Numeric::new(unscaled, record[RECORD - 1])),
                18,
            )
        }
        value_kind::BOOL => then(Value::Bool(record[1] == 1), 2),
        value_kind::CHAR | value_kind::VARCHAR => {
            // SAFETY: the record is of a Char or a Varchar that `rook_row_read` has read: by its contract the bytes
            // are text by RFC 3629.
            let text = unsafe { core::str::from_utf8_unchecked(part(record, row)) };
            then(Value::Text(Cow::Borrowed(text)), 5)
        }
        value_kind::LONG_CHAR | value_kind::LONG_VARCHAR => {
            // SAFETY: as above.
            let text = unsafe { core::str::from_utf8_unchecked(wide_part(record, row)) };
            then(Value::Text(Cow::Borrowed(text)), 9)
        }
        value_kind::DATE => then(Value::Date(Date::from_days(int())), 5),
        value_kind::TIME => then(Value::Time(Time::from_micros(long())), 9),
        kind @ value_kind::BIT => match Bits::new(part(record, row), bits_of(data_type)) {
            Some(bits) => then(Value::Bit(bits), 5),
            None => then(Value::Unknown { kind }, 5),
        },
        value_kind::TIMESTAMP => then(Value::Timestamp(Timestamp::from_micros(long())), 9),
        // Higher ones are not `known`.
        kind @ LAST_KIND.. => match Bits::new(wide_part(record, row), bits_of(data_type)) {
            Some(bits) => then(Value::Bit(bits), 9),
            None => then(Value::Unknown { kind }, 9),
        },
        kind => then(Value::Unknown { kind }, BEYOND),
    }
}

/// The first bytes behind a record's kind.
#[inline(always)]
fn body<const N: usize>(record: &[u8; RECORD]) -> [u8; N] {
    let mut body = [0; N];
    body.copy_from_slice(&record[1..1 + N]);
    body
}

/// The part of the row that a record's range says.
#[inline(always)]
fn part<'a>(record: &[u8; RECORD], row: &'a [u8]) -> &'a [u8] {
    let [start_low, start_high, length_low, length_high] = body(record);
    let start = usize::from(u16::from_le_bytes([start_low, start_high]));
    &row[start..start + usize::from(u16::from_le_bytes([length_low, length_high]))]
}

/// The same of a range whose numbers have four bytes.
#[inline(always)]
fn wide_part<'a>(record: &[u8; RECORD], row: &'a [u8]) -> &'a [u8] {
    let [a, b, c, d, rest @ ..] = body::<8>(record);
    let start = u32::from_le_bytes([a, b, c, d]) as usize;
    &row[start..start + u32::from_le_bytes(rest) as usize]
}

#[cfg(test)]
mod tests {
    use super::*;

    /// A kind of a newer library gives a value that says so, and what comes behind it is not guessed at.
    #[test]
    fn unknown_kinds() {
        for kind in [14, 16, 20, 255] {
            unknown_kind(kind);
        }
    }

    fn unknown_kind(kind: u8) {
        let schema =
            Schema::new([DataType::Int, DataType::Varchar(9), DataType::Varchar(9)]).unwrap();
        let wanted = Wanted::new(&schema, alloc::vec![0, 1, 2]);
        let mut list = alloc::vec![0; wanted.room()];
        list[..12].copy_from_slice(&[2, 7, 0, 0, 0, kind, 9, 0, 0, 9, 0, 9]);
        let records = Records {
            steps: &wanted.plan.steps,
            list: &list,
            row: &[0xFF; 99],
        };
        let mut values = Vec::new();
        records.fold(Cursor::default(), (), |(), value| values.push(value));
        let unknown = |kind| Value::Unknown { kind };
        assert_eq!(values, [Value::Int(7), unknown(kind), unknown(255)]);
        let mut cursor = records.seek(Cursor::default(), 2);
        assert_eq!(records.next(&mut cursor, |value| value), Some(unknown(255)));
    }
}
