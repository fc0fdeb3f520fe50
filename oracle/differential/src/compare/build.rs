//! Building, against `serialize_nullable_typed_row`: rows byte for byte and errors
//! by variant on 01's domain; code points by `chars` of what is stored. The model
//! judges all of it: number, place, length and every lent byte.

use super::rows::{self, Counted, apart, apart_from_rust, chars_sorts, counted};
use super::rows::{counted_in, fitting, handed_counts, model_sort};
use super::wide;
use crate::chars::{self, Shown};
use crate::lent::{After, any_counts, any_output, called_with, written_with};
use crate::{Compared, hex, port};
use cases::column::{ColumnType, RustColumns};
use cases::expected::{self, Refusal};
use cases::generate::kinds::Kinds;
use cases::generate::list::{self, any_list_of};
use cases::generate::schema::any_type;
use cases::rng::Rng;
use cases::rust::{self, Outcome};
use cases::value::{Record, TextRange, ValueList};
use cases::{LIMIT, RowSort};
use model::RowAnswer;

/// Columns, and a value list that was made for them and for a row of a sort.
pub struct Given {
    pub sort: String,
    pub of: RowSort,
    pub types: Vec<ColumnType>,
    pub list: ValueList,
}

pub fn any_given(rng: &mut Rng, kinds: Kinds) -> Given {
    match rng.below(32) {
        0 => row_at_limit(rng, kinds),
        1..=3 => area_end(rng, kinds),
        _ => {
            let of = kinds.row_sort(rng);
            let types = rows::any_types(rng, kinds, of);
            let (sort, list) = any_list_of(rng, &types, of);
            let list = kinds.list(rng, list);
            of_sort(sort, of, types, list.values)
        }
    }
}

fn of_sort(sort: list::Sort, of: RowSort, types: Vec<ColumnType>, list: ValueList) -> Given {
    let sort = format!("list {sort:?}");
    Given {
        sort,
        of,
        types,
        list,
    }
}

/// A list with a value that the Rust refuses, if the one tried is such.
pub fn refused_given(rng: &mut Rng, kinds: Kinds) -> Option<Given> {
    let of = RowSort::Short;
    let types = rows::any_types(rng, kinds, of);
    let sort = rng.pick(&[list::Sort::OtherKind, list::Sort::Unsuitable]);
    let list = list::list(rng, &types, sort)?;
    Some(of_sort(sort, of, types, list.values))
}

/// A row at the limit of short rows or above it, with Varchars that reach so far; of a
/// long row it is none.
fn row_at_limit(rng: &mut Rng, kinds: Kinds) -> Given {
    let of = kinds.row_sort(rng);
    loop {
        let columns = rng.pick(&[0, 1, 3, 9, 200]);
        let mut types: Vec<_> = (0..columns).map(|_| any_type(rng, 40)).collect();
        let long = match rng.below(3) {
            0 => vec![65_535],
            1 => vec![40_000, 40_000],
            _ => vec![7, 33_000, 9, 33_000],
        };
        for n in long {
            types.insert(rng.below(types.len() + 1), ColumnType::Varchar(n));
        }
        let types = kinds.types(rng, types);
        let sort = rng.pick(&[list::Sort::RowAtLimit, list::Sort::RowAbove]);
        if let Some(list) = list::list(rng, &types, sort) {
            let list = kinds.list(rng, list);
            return of_sort(sort, of, types, list.values);
        }
    }
}

/// A range that ends at the end of the text area or a byte past it, or an empty
/// one there; the area is empty, short or at its limit.
fn area_end(rng: &mut Rng, kinds: Kinds) -> Given {
    let n = rng.pick(&[0, 1, 5, 8, 9, 40, 65_535]);
    let mut types: Vec<_> = (0..rng.below(3)).map(|_| any_type(rng, 40)).collect();
    let at = rng.below(types.len() + 1);
    let ty = match rng.below(4) {
        0 => ColumnType::Bit(n),
        1 => ColumnType::Char(n.min(40)),
        2 => ColumnType::Character(n.min(40)),
        _ => ColumnType::Varchar(n),
    };
    types.insert(at, ty.clone());
    let length: usize = match ty {
        _ if rng.one_in(4) => 0,
        ColumnType::Bit(n) => usize::from(n).div_ceil(8),
        ColumnType::Char(n) | ColumnType::Character(n) => n.into(),
        _ => n.into(),
    };
    let area = match rng.below(4) {
        0 => length,
        1 => LIMIT - rng.below(2),
        _ => (length + rng.below(20)).min(LIMIT),
    };
    let past = rng.below(2);
    let start = (area + past).saturating_sub(length).min(LIMIT);
    let range = TextRange { start, length };
    let mut records = vec![Record::Null; types.len()];
    records[at] = match ty {
        ColumnType::Bit(_) => Record::Bit(range),
        ColumnType::Varchar(_) => Record::Varchar(range),
        _ => Record::Char(range),
    };
    let list = ValueList::of_records(&records, vec![b'x'; area]);
    // As many characters as bytes.
    let types = kinds.types(rng, types);
    let of = kinds.row_sort(rng);
    let sort = match range.end() <= area {
        true => "list at the area's end".into(),
        false => "list past the area's end".into(),
    };
    Given {
        sort,
        of,
        types,
        list,
    }
}

/// What the Rust comes to, where it has these values.
pub fn rust_row(columns: &RustColumns, list: &ValueList) -> Option<Outcome<Vec<u8>>> {
    let given = list.to_rust(columns.types).ok()?;
    let all = given.outside.is_none();
    all.then(|| rust::build(&columns.rust, &given.values))
}

/// What a build is lent.
struct Lent<'a> {
    schema: &'a [u8],
    of: RowSort,
    list: &'a ValueList,
    output: Vec<u8>,
    counts: Vec<u32>,
}

impl Lent<'_> {
    fn port(&self) -> After<RowAnswer> {
        let inputs = [self.schema, &self.list.bytes, &self.list.text];
        let call = |[schema, values, text]: [&mut [u8]; 3], out: &mut [u8], counts: &mut [u32]| {
            let is_long = port::is_long(model_sort(self.of));
            port::build(schema, is_long, values, text, out, counts)
        };
        called_with(&self.output, &self.counts, inputs, call)
    }

    fn model(&self) -> After<RowAnswer> {
        let (values, text) = (&self.list.bytes, &self.list.text);
        written_with(&self.output, &self.counts, |out, counts| {
            model::build(self.schema, model_sort(self.of), values, text, out, counts)
        })
    }

    /// The row of the Rust and the counts of its texts, or the refusal.
    fn told(&self) -> Option<Result<Counted, Refusal>> {
        rows::by_rust(self.schema, self.of, |columns| {
            let row = expected::build(columns, self.list).map_err(Refusal::of)?;
            let points = expected::built_points(columns, &row);
            let row = fitting(row, &self.output)?;
            Ok((row, counted_in(&points, &self.counts)?))
        })
    }

    fn input(&self) -> String {
        format!(
            "{:?} row, schema {}, values {}, text of {} bytes {}, {} bytes of output, {} numbers",
            self.of,
            hex(self.schema),
            hex(&self.list.bytes),
            self.list.text.len(),
            hex(&self.list.text),
            self.output.len(),
            self.counts.len()
        )
    }

    /// The port's answer, and the difference if there is one.
    fn compare(&self) -> (RowAnswer, Option<String>) {
        let port = self.port();
        let difference = apart("model", &port, &self.model(), || self.input());
        (
            port.answer,
            difference
                .or_else(|| apart_from_rust(&handed_counts(&port), &self.told(), || self.input())),
        )
    }

    /// Who judges an answer beside the model: the Rust where its outcome is that
    /// of the number in 01's table, else 01 alone.
    fn judge(&self, number: u32) -> &'static str {
        rows::judged(match number {
            0 => rows::is_known(self.schema, self.of),
            10 => self.asked_count() == Some(Outcome::Internal),
            11 => self.asked() == Some(Outcome::Internal),
            12 => self.asked() == Some(Outcome::TypeMismatch),
            _ => false,
        })
    }

    fn shown(&self, answer: RowAnswer) -> Option<Shown> {
        let answer = (answer.number, answer.place);
        chars::build(self.schema, &self.list.bytes, &self.list.text, answer)
    }

    /// The columns, if the Rust is a judge of the row.
    fn known(&self) -> Option<Vec<ColumnType>> {
        let types = rows::columns(self.schema, self.of).ok()?;
        (self.of == RowSort::Short).then_some(types)
    }

    fn asked(&self) -> Option<Outcome<Vec<u8>>> {
        rust_row(&RustColumns::of(&self.known()?)?, self.list)
    }

    /// What the Rust says of the number of good records.
    fn asked_count(&self) -> Option<Outcome<Vec<u8>>> {
        let records = self.list.all_records().ok()?;
        let types = self.known()?;
        Some(expected::counted(&RustColumns::of(&types)?, records.len()))
    }
}

/// An output for the result, with room or not; for a refusal of any length.
fn output_for(rng: &mut Rng, schema: &[u8], of: RowSort, list: &ValueList) -> (String, Vec<u8>) {
    let mut out = vec![0; of.limit()];
    let (values, text) = (&list.bytes, &list.text);
    let answer = model::build(
        schema,
        model_sort(of),
        values,
        text,
        &mut out,
        &mut [0; 256],
    );
    if answer.number == 0 {
        let (room, output) = any_output(rng, answer.length);
        return (format!("output {room:?}"), output);
    }
    let (name, room) = match rng.below(4) {
        0 => ("empty", 0),
        1 => ("above every row's length", of.limit() + 2000),
        _ => ("short", rng.between(1, 300)),
    };
    (format!("refused, output {name}"), rng.bytes(room))
}

pub fn compare(rng: &mut Rng) -> Compared {
    let Given {
        sort,
        of,
        types,
        list,
    } = any_given(rng, Kinds::All);
    let (schema_sort, schema) = rows::any_schema_for(rng, &types, Kinds::All, of);
    let (room, output) = output_for(rng, &schema, of, &list);
    let columns = rows::columns(&schema, of).map_or(3, |types| types.len());
    let (numbers, counts) = any_counts(rng, columns);
    let lent = Lent {
        schema: &schema,
        of,
        list: &list,
        output,
        counts,
    };
    let (answer, difference) = lent.compare();
    let number = answer.number;
    let mut sorts = vec![
        schema_sort,
        sort,
        room,
        format!("counts {numbers:?}"),
        format!("answer {number}"),
        lent.judge(number).to_string(),
        match (answer.length, list.text.len()) {
            (LIMIT, _) => "row of 65,535 bytes".into(),
            (1_048_576, _) => "row of 1,048,576 bytes".into(),
            (_, LIMIT) => "text area of 65,535 bytes".into(),
            (_, 65_536) => "text area of 65,536 bytes".into(),
            (_, 1_048_576) => "text area of 1,048,576 bytes".into(),
            (_, 1_048_577) => "text area of 1,048,577 bytes".into(),
            (65_537.., _) => "row above 65,536 bytes".into(),
            _ => "row and text area of other lengths".into(),
        },
        format!("{of:?} row wanted"),
        wide::list_sort(&list).into(),
    ];
    sorts.extend(chars_sorts(&schema, lent.shown(answer)));
    Compared {
        sorts: counted(sorts),
        difference,
    }
}

#[cfg(test)]
mod tests {
    use super::Lent;
    use cases::column::ColumnType;
    use cases::schema::write_schema;
    use cases::value::{DATES, Record, TIMES, TIMESTAMPS, TextRange, ValueList};
    use cases::{LIMIT, RowSort};

    /// Number, place and length of a build in an output of this room, which the
    /// model and the Rust confirm.
    fn built(types: &[ColumnType], list: &ValueList, room: usize) -> (u32, usize, usize) {
        let lent = Lent {
            schema: &write_schema(types),
            of: RowSort::Short,
            list,
            output: vec![0xAA; room],
            counts: vec![7; types.len()],
        };
        let (answer, difference) = lent.compare();
        assert_eq!(difference, None);
        (answer.number, answer.place, answer.length)
    }

    fn text(length: usize) -> Record {
        Record::Varchar(TextRange { start: 0, length })
    }

    #[test]
    fn case_10() {
        let s = [
            ColumnType::Int,
            ColumnType::Varchar(5),
            ColumnType::SmallInt,
        ];
        let of_s = |bytes: &[u8]| {
            let records = [Record::Int(1), text(bytes.len()), Record::Null];
            built(&s, &ValueList::of_records(&records, bytes.to_vec()), 40)
        };
        assert_eq!(of_s(b"ABCDE"), (0, 0, 13 + 5));
        assert_eq!(of_s(b"ABCDEF"), (12, 1, 0));

        let of_columns = |columns: usize| {
            let records = vec![Record::Bool(1); columns];
            let list = ValueList::of_records(&records, vec![]);
            built(&vec![ColumnType::Bool; columns], &list, 400)
        };
        assert_eq!(of_columns(256), (0, 0, 4 + 32 + 256));
        assert_eq!(of_columns(257), (2, 256, 0));

        // Seven bytes stand before the payload.
        let of_length = |row: usize, room: usize| {
            let list = ValueList::of_records(&[text(row - 7)], vec![b'x'; LIMIT]);
            built(&[ColumnType::Varchar(65_535)], &list, room)
        };
        assert_eq!(of_length(65_535, 65_535), (0, 0, 65_535));
        assert_eq!(of_length(65_535, 65_534), (14, 0, 0));
        assert_eq!(of_length(65_536, 65_536), (13, 0, 0));
        assert_eq!(of_length(65_536, 0), (13, 0, 0));
    }

    /// The ends of a type's values, which it takes, and what is one past them.
    fn ends(ty: &ColumnType) -> (Vec<Record>, Vec<Record>) {
        match *ty {
            ColumnType::SmallInt => ([i16::MIN, i16::MAX].map(Record::SmallInt).to_vec(), vec![]),
            ColumnType::Int => ([i32::MIN, i32::MAX].map(Record::Int).to_vec(), vec![]),
            ColumnType::BigInt => ([i64::MIN, i64::MAX].map(Record::BigInt).to_vec(), vec![]),
            ColumnType::Real => (
                [0, 0x8000_0000, 0x7F80_0000, u32::MAX]
                    .map(Record::Real)
                    .to_vec(),
                vec![],
            ),
            ColumnType::DoublePrecision => (
                [0, 1 << 63, 0x7FF0_0000_0000_0000, u64::MAX]
                    .map(Record::DoublePrecision)
                    .to_vec(),
                vec![],
            ),
            ColumnType::Numeric { precision, scale } | ColumnType::Decimal { precision, scale } => {
                let above = 10_i128.pow(precision.into());
                let of = |unscaled| Record::Numeric { unscaled, scale };
                let mut past = [above, -above, i128::MIN, i128::MAX].map(of).to_vec();
                for scale in [scale.wrapping_sub(1), scale + 1] {
                    past.push(Record::Numeric { unscaled: 0, scale });
                }
                ([0, above - 1, 1 - above].map(of).to_vec(), past)
            }
            ColumnType::Bool => (
                [0, 1].map(Record::Bool).to_vec(),
                [2, 255].map(Record::Bool).to_vec(),
            ),
            ColumnType::Char(n) | ColumnType::Character(n) => (
                [0, n].map(|n| Record::Char(range(n))).to_vec(),
                vec![Record::Char(range(n + 1))],
            ),
            ColumnType::Varchar(n) | ColumnType::VarcharChars(n) => (
                [0, n].map(|n| Record::Varchar(range(n))).to_vec(),
                vec![Record::Varchar(range(n + 1))],
            ),
            ColumnType::Bit(n) => {
                let bytes = n.div_ceil(8);
                (
                    vec![Record::Bit(range(bytes))],
                    [bytes.wrapping_sub(1), bytes + 1]
                        .map(|n| Record::Bit(range(n)))
                        .to_vec(),
                )
            }
            ColumnType::Date => (
                [*DATES.start(), *DATES.end()].map(Record::Date).to_vec(),
                [DATES.start() - 1, DATES.end() + 1, i32::MIN, i32::MAX]
                    .map(Record::Date)
                    .to_vec(),
            ),
            ColumnType::Time => (
                [*TIMES.start(), *TIMES.end()].map(Record::Time).to_vec(),
                [-1, TIMES.end() + 1, i64::MIN, i64::MAX]
                    .map(Record::Time)
                    .to_vec(),
            ),
            ColumnType::Timestamp => (
                [*TIMESTAMPS.start(), *TIMESTAMPS.end()]
                    .map(Record::Timestamp)
                    .to_vec(),
                [
                    TIMESTAMPS.start() - 1,
                    TIMESTAMPS.end() + 1,
                    i64::MIN,
                    i64::MAX,
                ]
                .map(Record::Timestamp)
                .to_vec(),
            ),
        }
    }

    fn range(length: u16) -> TextRange {
        let length = length.into();
        TextRange { start: 0, length }
    }

    #[test]
    fn the_ends_of_every_type() {
        let mut types = cases::generate::value::TYPES.to_vec();
        for precision in 1..=38 {
            for scale in [0, precision / 2, precision] {
                types.push(ColumnType::Numeric { precision, scale });
            }
        }
        for n in [0, 1, 8, 9, 16, 40, 300] {
            types.extend([
                ColumnType::Char(n),
                ColumnType::Varchar(n),
                ColumnType::VarcharChars(n),
                ColumnType::Bit(n),
            ]);
        }
        for ty in types {
            let (good, past) = ends(&ty);
            let build = |record| {
                let list = ValueList::of_records(&[record], vec![b'x'; 400]);
                built(std::slice::from_ref(&ty), &list, 400).0
            };
            for record in good {
                assert_eq!(build(record), 0, "{ty:?} {record:?}");
            }
            for record in past {
                assert_eq!(build(record), 12, "{ty:?} {record:?}");
            }
        }
    }
}
