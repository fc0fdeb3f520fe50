//! What a refusal means for the columns and values of a call.
use super::{ColumnLabel, Error, Misfit, SchemaFault};
use crate::list::text;
use crate::raw::{answer, limit, Refusal};
use crate::row_list::fault_of;
use crate::schema::record_starts;
use crate::{Column, ConvertError, DataType, RowFormat, RowRef, Schema, Sort, Value};

/// The call that was refused, and what an error tells of it.
pub(crate) enum Call<'c> {
    /// The columns of a schema, as far as they are known.
    Schema(&'c [Column]),
    /// A read of a row.
    Read(&'c Schema, &'c [u8]),
    /// The text of a row's column.
    Text(&'c Schema, &'c [u8], usize),
    /// The null flag of a row's column.
    Flag(&'c [u8], usize),
    /// A row of these values.
    Build(RowFormat<'c>, &'c [Value<'c>]),
    /// A column set to a value, or to null, in a row of this schema and sort.
    Edit(RowFormat<'c>, usize, Option<&'c Value<'c>>),
    /// A row list.
    RowList(&'c [u8]),
    /// A row of a list that is printed.
    Print(&'c Schema, &'c [u8]),
}

impl<'c> Call<'c> {
    fn columns(&self) -> &'c [Column] {
        match self {
            Call::Schema(columns) => columns,
            Call::Read(schema, _) | Call::Text(schema, ..) | Call::Print(schema, _) => {
                schema.columns()
            }
            Call::Build(format, _) | Call::Edit(format, ..) => format.schema().columns(),
            Call::Flag(..) | Call::RowList(_) => &[],
        }
    }

    fn row(&self) -> &'c [u8] {
        match self {
            Call::Read(_, row)
            | Call::Text(_, row, _)
            | Call::Flag(row, _)
            | Call::Print(_, row) => row,
            _ => &[],
        }
    }

    /// The sort of the row. A schema by itself is checked for the long one.
    fn sort(&self) -> Sort {
        match self {
            Call::Schema(_) => Sort::Long,
            Call::Build(format, _) | Call::Edit(format, ..) => format.sort(),
            _ => Sort::of(self.row()),
        }
    }

    /// A number of two bytes of the row's header.
    fn header(&self, at: usize) -> usize {
        let bytes = self.row().get(at..at + 2).unwrap_or(&[0, 0]);
        usize::from(u16::from_le_bytes([bytes[0], bytes[1]]))
    }

    fn asked(&self) -> usize {
        match *self {
            Call::Text(_, _, column) | Call::Flag(_, column) | Call::Edit(_, column, _) => column,
            _ => 0,
        }
    }

    /// The first byte of a column's text that cannot be printed.
    fn unprintable(&self, column: usize) -> Option<u8> {
        let Call::Print(schema, row) = self else {
            return None;
        };
        let text = RowRef::new(row).text(schema, column).ok()??;
        text.bytes().find(|&byte| byte == b'"' || byte < 32)
    }

    fn values(&self) -> &'c [Value<'c>] {
        match self {
            Call::Build(_, values) => values,
            Call::Edit(_, _, value) => value.map(core::slice::from_ref).unwrap_or_default(),
            _ => &[],
        }
    }

    /// The value that was given for a column.
    fn value(&self, column: usize) -> Option<&'c Value<'c>> {
        match self {
            Call::Build(_, values) => values.get(column),
            Call::Edit(_, _, value) => *value,
            _ => None,
        }
    }
}

impl Error {
    /// What a refusal means in a call.
    #[cold]
    pub(crate) fn new(refusal: Refusal, call: Call<'_>) -> Error {
        let Refusal { number, place } = refusal;
        let columns = call.columns();
        match number {
            answer::BAD_RECORD => Error::BadRecord {
                at: place,
                column: record_starts(columns)
                    .position(|at| at == place)
                    .unwrap_or(columns.len()),
            },
            answer::BAD_SCHEMA => Error::BadSchema {
                at: place,
                fault: SchemaFault::of(columns, place, call.sort()),
            },
            answer::ROW_TOO_SHORT..=answer::WRONG_VARLEN_COUNT => Error::bad_row(number, &call),
            answer::NO_SUCH_COLUMN => Error::NoSuchColumn {
                column: call.asked(),
            },
            answer::BAD_VALUE_LIST => Error::bad_list(place, &call),
            answer::ROW_LIMIT => Error::RowLimit { sort: call.sort() },
            answer::NO_ROOM => Error::NoRoom,
            answer::NOT_SOUND => Error::NotSound,
            answer::BAD_LIST => match &call {
                Call::RowList(list) => Error::of_row_list(list),
                _ => Error::Unknown { number, place },
            },
            _ => match columns.get(place) {
                Some(column) => Error::of_column(refusal, column.data_type(), &call),
                None => Error::Unknown { number, place },
            },
        }
    }

    /// 3 to 6: the row and the schema do not go together.
    fn bad_row(number: u32, call: &Call<'_>) -> Error {
        let (columns, length) = (call.columns(), call.row().len());
        match number {
            answer::ROW_TOO_SHORT => Error::RowTooShort { length },
            answer::ROW_TOO_LONG => Error::RowTooLong {
                length,
                sort: call.sort(),
            },
            answer::WRONG_COLUMN_COUNT => Error::WrongColumnCount {
                row: call.header(0),
                schema: columns.len(),
            },
            _ => Error::WrongVarcharCount {
                // Without the marks of packed and of long rows.
                row: call.header(2) & 0x3FFF,
                schema: columns.iter().filter(|column| column.is_varchar()).count(),
            },
        }
    }

    /// A refusal whose place is a column.
    fn of_column(refusal: Refusal, data_type: DataType, call: &Call<'_>) -> Error {
        let Refusal { number, place } = refusal;
        let column = ColumnLabel::of(call.columns(), place);
        match number {
            answer::BAD_RANGE => Error::BadRange { column },
            answer::NO_VALUE => Error::NoValue { column, data_type },
            answer::WRONG_KIND => Error::wrong_kind(column, data_type, call.value(place)),
            answer::UNSUITABLE => Error::Unsuitable {
                column,
                data_type,
                misfit: Misfit::of(data_type, call.value(place)),
            },
            answer::UNPRINTABLE => match call.unprintable(place) {
                Some(byte) => Error::Unprintable { column, byte },
                None => Error::Unknown { number, place },
            },
            _ => Error::Unknown { number, place },
        }
    }

    fn of_row_list(list: &[u8]) -> Error {
        match fault_of(list) {
            Some(fault) => Error::BadRowList { fault },
            // Of a newer library.
            None => Error::Unknown {
                number: answer::BAD_LIST,
                place: 0,
            },
        }
    }

    fn bad_list(at: usize, call: &Call<'_>) -> Error {
        let values = call.values();
        Error::BadValueList {
            at,
            values: values.len(),
            due: match call {
                Call::Build(format, _) => format.schema().len(),
                _ => 1,
            },
            text: values.iter().map(|value| text(value).len()).sum(),
            sort: call.sort(),
        }
    }

    fn wrong_kind(column: ColumnLabel, data_type: DataType, value: Option<&Value<'_>>) -> Error {
        match value {
            None => Error::NoText { column, data_type },
            Some(Value::Null) => Error::NullInSet { column },
            Some(value) => Error::WrongKind {
                column,
                data_type,
                given: value.kind(),
            },
        }
    }

    /// A column's type is not read as the Rust type of this name.
    #[cold]
    pub(crate) fn not_read_as(wanted: &'static str, schema: &Schema, column: usize) -> Error {
        match schema.data_type(column) {
            Some(data_type) => Error::NotReadAs {
                column: ColumnLabel::of(schema.columns(), column),
                data_type,
                null: false,
                wanted,
            },
            None => Error::NoSuchColumn { column },
        }
    }

    /// A column's value is none of the Rust type that was asked for.
    #[cold]
    pub(crate) fn not_converted(error: ConvertError, schema: &Schema, column: usize) -> Error {
        let mut refused = Error::not_read_as(error.wanted, schema, column);
        if let Error::NotReadAs { null, .. } = &mut refused {
            *null = error.found == Value::Null.kind();
        }
        refused
    }
}

impl SchemaFault {
    fn of(columns: &[Column], place: usize, sort: Sort) -> SchemaFault {
        match record_starts(columns).position(|at| at == place) {
            Some(number) if number < limit::COLUMNS => SchemaFault::Precision {
                column: ColumnLabel::of(columns, number),
                data_type: columns[number].data_type(),
            },
            None if columns.len() <= limit::COLUMNS => SchemaFault::RowsTooLong { sort },
            _ => SchemaFault::TooManyColumns,
        }
    }
}

impl Misfit {
    fn of(data_type: DataType, value: Option<&Value<'_>>) -> Misfit {
        match (value, data_type) {
            (Some(Value::Text(text)), DataType::VarcharChars(_)) => {
                Misfit::Characters(text.chars().count())
            }
            (Some(Value::Text(text)), _) => Misfit::Bytes(text.len()),
            (
                Some(Value::Numeric(number)),
                DataType::Numeric { scale, .. } | DataType::Decimal { scale, .. },
            ) => match number.scale() == scale {
                true => Misfit::Digits(number.digits()),
                false => Misfit::Scale(number.scale()),
            },
            (Some(Value::Bit(bits)), _) => Misfit::Bits(bits.len()),
            (Some(Value::Date(date)), _) => Misfit::Day(date.days()),
            (Some(Value::Time(time)), _) => Misfit::Micros(time.micros()),
            (Some(Value::Timestamp(timestamp)), _) => Misfit::Micros(timestamp.micros()),
            _ => Misfit::Other,
        }
    }
}

#[cfg(test)]
mod tests {
    use super::*;
    use crate::RowBuf;

    /// A number of a newer library is an error, be it called by any call.
    #[test]
    fn unknown_numbers() {
        let schema = Schema::new([DataType::Int]).unwrap();
        let refusal = Refusal {
            number: 31,
            place: 7,
        };
        for call in [
            Call::Schema(schema.columns()),
            Call::Read(&schema, &[]),
            Call::Text(&schema, &[], 0),
            Call::Flag(&[], 0),
            Call::Build((&schema).into(), &[]),
            Call::Edit((&schema).into(), 0, None),
            Call::RowList(&[]),
            Call::Print(&schema, &[]),
        ] {
            let error = Error::new(refusal, call);
            assert_eq!((error.number(), error.place()), (31, 7));
            let message =
                "the library refuses at 7 for a reason that rook_row 0.4.0 does not know (31)";
            assert_eq!(alloc::format!("{error}"), message);
        }
    }

    /// A refusal of a list or a text in which this crate finds no fault is an error too.
    #[test]
    fn refusals_of_what_seems_good() {
        let schema = Schema::new([DataType::Varchar(5)]).unwrap();
        let row = RowBuf::build(&schema, &["T41".into()]).unwrap();
        for (number, call) in [
            (16, Call::RowList(&[])),
            (17, Call::Print(&schema, row.as_bytes())),
        ] {
            let error = Error::new(Refusal { number, place: 0 }, call);
            assert_eq!(error, Error::Unknown { number, place: 0 });
        }
    }

    /// A known number at a place that is no column of ours is an error too.
    #[test]
    fn unknown_places() {
        let schema = Schema::new([DataType::Int]).unwrap();
        for number in 1..=17 {
            let refusal = Refusal { number, place: 999 };
            for call in [
                Call::Build((&schema).into(), &[]),
                Call::Print(&schema, &[]),
            ] {
                assert_eq!(Error::new(refusal, call).number(), number);
            }
        }
    }
}
