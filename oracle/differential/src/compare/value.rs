//! One value of one column: stored, against `to_bytes_for_type` after
//! `data_value_matches_type`; and read, against `from_bytes`. The model of 01
//! judges all of it, and alone where 01 leaves the Rust's domain.

use super::rows::{chars_sorts, counted};
use crate::lent::{After, called};
use crate::probe::{self, ValueProbe};
use crate::{Compared, chars, hex};
use cases::LIMIT;
use cases::column::ColumnType;
use cases::generate::kinds::Kinds;
use cases::generate::row::stored_form;
use cases::generate::schema::any_type;
use cases::generate::text::{self, Fault};
use cases::generate::value::{TextArea, other_kind, outside, suitable, unsuitable};
use cases::rng::Rng;
use cases::rust::{self, Outcome};
use cases::schema::{read_records, write_schema};
use cases::value::{Record, TextRange, ValueList, body_length, in_domain, is_value, to_rust};
use model::Sort;
use model::schema::Type;
use rookdb::types::datatype::DataType;
use rookdb::types::value::DataValue;

/// The bytes that a call hands back, or its refusal's number.
pub type Handed = Result<Vec<u8>, u32>;

/// Who says what is wanted.
#[derive(Debug, Clone, Copy, PartialEq, Eq)]
enum Judge {
    /// The Rust and the model.
    Rust,
    /// The model alone: a refusal that was added, or limits that 01 sets.
    Model,
    /// What the probe is told to refuse: more than one record, a slot of another
    /// length, too little room.
    Probe,
}

/// A number that is no answer: the Rust panicked, or gave another error.
const NONE: u32 = u32::MAX;

/// What a call leaves that hands these bytes back, at the front of the output.
fn left(handed: &Handed, output: &[u8]) -> After<ValueProbe> {
    let mut output = output.to_vec();
    let (number, length) = match handed {
        Ok(bytes) => {
            output[..bytes.len()].copy_from_slice(bytes);
            (0, bytes.len())
        }
        Err(number) => (*number, 0),
    };
    After {
        answer: ValueProbe { number, length },
        output,
        counts: vec![],
        kept: true,
    }
}

/// What is wanted where the probe refuses nothing by itself.
fn by_both(model: Handed, rust: Option<Handed>) -> (Judge, Handed, Option<Handed>) {
    let judge = match rust {
        Some(_) => Judge::Rust,
        None => Judge::Model,
    };
    (judge, model, rust)
}

/// The port against the model and, where it judges, the Rust.
fn judged(
    sort: impl std::fmt::Debug,
    port: After<ValueProbe>,
    output: &[u8],
    model: &Handed,
    rust: Option<&Handed>,
    input: impl FnOnce() -> String,
) -> Compared {
    let wanted = left(model, output);
    match rust {
        Some(rust) if rust != model => Compared::different(
            sort,
            format!(
                "{}\n  port   {port:?}\n  Rust   {rust:?}\n  model  {model:?}",
                input()
            ),
        ),
        _ => Compared::new(sort, port, wanted, input),
    }
}

/// A type: each kind, numbers and times often, long slots seldom.
pub fn any_column(rng: &mut Rng, kinds: Kinds) -> ColumnType {
    let precision = rng.between(1, 38) as u8;
    let precision = rng.pick(&[precision, precision, 32, 33]);
    let scale = rng.between(0, precision.into()) as u8;
    let room = match rng.below(512) {
        0 => LIMIT,
        1..=8 => 1000,
        _ => 40,
    };
    match rng.below(8) {
        0 => ColumnType::Numeric { precision, scale },
        1 => ColumnType::Decimal { precision, scale },
        2 => match rng.below(3) {
            0 => ColumnType::Date,
            1 => ColumnType::Time,
            _ => ColumnType::Timestamp,
        },
        _ => {
            let ty = any_type(rng, room);
            kinds.column(rng, ty)
        }
    }
}

/// Schema bytes that are not one good record.
fn bad_schema(rng: &mut Rng, ty: &ColumnType) -> Vec<u8> {
    let mut bytes = write_schema(std::slice::from_ref(ty));
    let digits = rng.between(0, 45) as u8;
    match rng.below(6) {
        0 => bytes.clear(),
        1 => bytes.truncate(bytes.len() - 1),
        2 => bytes.extend(write_schema(&[any_column(rng, Kinds::All)])),
        3 => bytes.push(rng.byte()),
        4 => bytes = vec![rng.pick(&[6, 7]), digits, rng.between(0, 45) as u8],
        _ => bytes[0] = rng.pick(&[0, 16, 17, 255, digits]),
    }
    bytes
}

/// The one type of a schema, or 1 or 2: no record is 1, more after one is 2.
fn one_type(schema: &[u8]) -> Result<ColumnType, u32> {
    let length = match schema.first() {
        None => return Err(1),
        Some(6 | 7 | 9 | 10 | 11 | 14 | 16) => 3,
        Some(_) => 1,
    };
    let first = &schema[..length.min(schema.len())];
    let types = read_records(first).map_err(|refusal| refusal.number)?;
    if length < schema.len() {
        return Err(2);
    }
    Ok(types.into_iter().next().expect("one record"))
}

/// The model's name of a type.
fn model_type(ty: &ColumnType) -> Type {
    match *ty {
        ColumnType::SmallInt => Type::SmallInt,
        ColumnType::Int => Type::Int,
        ColumnType::BigInt => Type::BigInt,
        ColumnType::Real => Type::Real,
        ColumnType::DoublePrecision => Type::DoublePrecision,
        ColumnType::Numeric { precision, scale } => Type::Numeric { precision, scale },
        ColumnType::Decimal { precision, scale } => Type::Decimal { precision, scale },
        ColumnType::Bool => Type::Bool,
        ColumnType::Char(n) => Type::Char(n.into()),
        ColumnType::Character(n) => Type::Character(n.into()),
        ColumnType::Varchar(n) => Type::Varchar(n.into()),
        ColumnType::VarcharChars(n) => Type::VarcharChars(n.into()),
        ColumnType::Date => Type::Date,
        ColumnType::Time => Type::Time,
        ColumnType::Bit(n) => Type::Bit(n.into()),
        ColumnType::Timestamp => Type::Timestamp,
    }
}

// ---- a value stored

#[derive(Debug, Clone, Copy, PartialEq, Eq)]
pub enum StoreSort {
    Suitable,
    Unsuitable,
    OtherKind,
    OutsideArea,
    Null,
    /// The type's kind, any bytes as body and area.
    AnyBody,
    BadList,
    LongArea,
    BadSchema,
}

fn one_record(record: Record, area: TextArea) -> ValueList {
    ValueList::of_records(&[record], area.bytes)
}

/// A body of random bytes for the type's kind; ranges near the area.
fn any_body(rng: &mut Rng, ty: &ColumnType) -> ValueList {
    let kind = suitable(rng, ty, &mut TextArea::default()).kind();
    let mut bytes = vec![kind];
    bytes.extend(rng.bytes(body_length(kind).expect("a known kind")));
    if matches!(kind, 8 | 9 | 12) {
        bytes[1] %= 8;
        bytes[3] %= 8;
        bytes[2] = 0;
        bytes[4] = 0;
    }
    let length = rng.below(12);
    let text = rng.bytes(length);
    ValueList { bytes, text }
}

/// Bytes that are no list of one record.
fn bad_list(rng: &mut Rng, mut list: ValueList) -> ValueList {
    match rng.below(4) {
        0 => list.bytes.clear(),
        1 => list.bytes.truncate(rng.below(list.bytes.len())),
        2 => list.bytes[0] = rng.between(14, 255) as u8,
        _ => list.bytes.push(rng.byte()),
    }
    list
}

/// A list for a column.
pub fn any_list(rng: &mut Rng, ty: &ColumnType) -> (StoreSort, ValueList) {
    let mut area = TextArea::default();
    if rng.one_in(4) {
        suitable(rng, &ColumnType::Varchar(40), &mut area);
    }
    match rng.below(256) {
        0..=99 => {
            let record = suitable(rng, ty, &mut area);
            (StoreSort::Suitable, one_record(record, area))
        }
        100..=179 => match unsuitable(rng, ty, &mut area) {
            Some(record) => (StoreSort::Unsuitable, one_record(record, area)),
            None => (StoreSort::AnyBody, any_body(rng, ty)),
        },
        180..=199 => {
            let record = other_kind(rng, ty, &mut area);
            (StoreSort::OtherKind, one_record(record, area))
        }
        200..=214 => match outside(rng, ty, area.bytes.len()) {
            Some(record) => (StoreSort::OutsideArea, one_record(record, area)),
            None => (StoreSort::AnyBody, any_body(rng, ty)),
        },
        215..=219 => (StoreSort::Null, one_record(Record::Null, area)),
        220..=239 => (StoreSort::AnyBody, any_body(rng, ty)),
        240..=254 => {
            let record = suitable(rng, ty, &mut area);
            (StoreSort::BadList, bad_list(rng, one_record(record, area)))
        }
        _ if rng.one_in(16) => {
            let record = suitable(rng, ty, &mut area);
            area.bytes.resize(LIMIT + rng.below(2), b'x');
            (StoreSort::LongArea, one_record(record, area))
        }
        _ => (StoreSort::AnyBody, any_body(rng, ty)),
    }
}

/// What 01 says of a list's one value: its stored form, or 10, 11 or 12.
fn model_form(ty: &ColumnType, list: &ValueList) -> Handed {
    let values = model::value::check_list(&list.bytes, 1, list.text.len(), Sort::Short)
        .map_err(|_place| 10_u32)?;
    let ty = model_type(ty);
    if !values[0].matches(ty) {
        return Err(11);
    }
    if !model::stored::suits(ty, &values[0], &list.text) {
        return Err(12);
    }
    Ok(model::stored::write(ty, &values[0], &list.text))
}

/// What the Rust says of it; `None` outside its domain, and for a type that it
/// does not know. The test of the kind is part of its building, which gives
/// `Internal` there.
pub fn rust_form(ty: &ColumnType, list: &ValueList) -> Option<Handed> {
    let rust_type = ty.to_rust()?;
    let record = list.records(1).ok()?[0];
    let value = to_rust(ty, &record, &list.text).ok()??;
    Some(stored(&rust_type, &value))
}

fn stored(ty: &DataType, value: &DataValue) -> Handed {
    let column = std::slice::from_ref(ty);
    if rust::build(column, &[Some(value.clone())]) == Outcome::Internal {
        return Err(11);
    }
    match rust::call(|| value.to_bytes_for_type(ty)) {
        Outcome::Ok(bytes) => Ok(bytes),
        Outcome::TypeMismatch => Err(12),
        _ => Err(NONE),
    }
}

/// Room for a result: enough, exactly enough, or too little.
fn room(rng: &mut Rng, length: usize) -> usize {
    match rng.below(8) {
        0 => length.saturating_sub(1),
        1 => rng.below(length + 1),
        2 => length,
        _ => length + rng.below(20),
    }
}

pub fn store(rng: &mut Rng) -> Compared {
    let ty = any_column(rng, Kinds::All);
    let (mut sort, list) = any_list(rng, &ty);
    let list = Kinds::All.values(rng, list);
    let mut schema = write_schema(std::slice::from_ref(&ty));
    if rng.one_in(32) {
        sort = StoreSort::BadSchema;
        schema = bad_schema(rng, &ty);
    }
    let (mut judge, mut model, mut rust) = match one_type(&schema) {
        Err(number) => (Judge::Probe, Err(number), None),
        Ok(ty) => by_both(model_form(&ty, &list), rust_form(&ty, &list)),
    };
    let room = room(rng, model.as_ref().map_or(8, Vec::len));
    if model.as_ref().is_ok_and(|form| room < form.len()) {
        (judge, model, rust) = (Judge::Probe, Err(14), None);
    }
    let output = rng.bytes(room);
    let inputs = [&schema[..], &list.bytes, &list.text];
    let port = called(&output, inputs, |[schema, list, area], out| {
        probe::store(schema, list, area, out)
    });
    let shown = chars::build(&schema, &list.bytes, &list.text, (port.answer.number, 0));
    let mut compared = judged((sort, judge), port, &output, &model, rust.as_ref(), || {
        format!(
            "schema {}, list {}, area {}",
            hex(&schema),
            hex(&list.bytes),
            hex(&list.text)
        )
    });
    let sorts = chars_sorts(&schema, shown).collect();
    compared.sorts.extend(counted(sorts));
    compared
}

// ---- bytes read

#[derive(Debug, Clone, Copy, PartialEq, Eq)]
pub enum SlotSort {
    /// The stored form of a suitable value.
    Stored,
    /// Such a form with one bit changed.
    Flipped,
    /// Ends of ranges, bad digits and signs, bad texts, long payloads.
    Edge,
    Random,
    WrongLength,
    Far,
    BadSchema,
}

fn good_form(rng: &mut Rng, ty: &ColumnType) -> Vec<u8> {
    let mut area = TextArea::default();
    let record = suitable(rng, ty, &mut area);
    model_form(ty, &one_record(record, area)).expect("a suitable value")
}

/// A payload of a Varchar(n): invalid, or a byte too long, or both.
fn bad_payload(rng: &mut Rng, n: u16) -> Vec<u8> {
    let n = usize::from(n);
    let long = if n < 300 { n + 1 } else { 12 };
    let fault = rng.pick(&Fault::ALL);
    match rng.below(3) {
        0 => text::any_valid(rng, long),
        1 => text::invalid(rng, fault, long).unwrap_or_default(),
        _ => {
            let length = rng.below(n.min(24) + 1);
            text::invalid(rng, fault, length).unwrap_or_default()
        }
    }
}

/// A payload of a VarcharChars(n): of n + 1 characters or n, or invalid, or n whole
/// characters and a cut one.
fn edge_payload(rng: &mut Rng, n: u16) -> Vec<u8> {
    let n = usize::from(n);
    let points = if n < 300 { n } else { 12 };
    let fault = rng.pick(&Fault::ALL);
    match rng.below(5) {
        0 | 1 => text::of_points(rng, points + 1),
        2 => text::of_points(rng, points),
        3 => [text::of_points(rng, points), text::sequence(rng, fault)].concat(),
        _ => {
            let length = rng.below(25);
            text::invalid(rng, fault, length).unwrap_or_default()
        }
    }
}

/// Bytes for a column.
pub fn any_slot(rng: &mut Rng, ty: &ColumnType) -> (SlotSort, Vec<u8>) {
    let size = ty.fixed_size();
    match rng.below(16) {
        0..=4 => (SlotSort::Stored, good_form(rng, ty)),
        5..=7 => {
            let mut bytes = good_form(rng, ty);
            if !bytes.is_empty() {
                let at = rng.below(bytes.len());
                bytes[at] ^= 1 << rng.below(8);
            }
            (SlotSort::Flipped, bytes)
        }
        8..=12 => match (ty, size) {
            (ColumnType::Varchar(n), _) => (SlotSort::Edge, bad_payload(rng, *n)),
            (ColumnType::VarcharChars(n), _) => (SlotSort::Edge, edge_payload(rng, *n)),
            (_, Some(size)) => (SlotSort::Edge, stored_form(rng, ty, size)),
            (_, None) => unreachable!("a Varchar alone has no slot"),
        },
        13 | 14 => {
            let length = size.unwrap_or_else(|| rng.below(12));
            (SlotSort::Random, rng.bytes(length))
        }
        _ => {
            let size = size.unwrap_or(LIMIT);
            let length = match rng.below(4) {
                0 => size + 1,
                1 => size.saturating_sub(1),
                2 if rng.one_in(64) => LIMIT + rng.below(3),
                _ => rng.below(20),
            };
            (SlotSort::WrongLength, rng.bytes(length))
        }
    }
}

/// What 01 says of bytes at a place: the value's record, or the refusal.
fn model_record(ty: &ColumnType, bytes: &[u8], start: usize) -> Handed {
    let value = model::stored::read(model_type(ty), bytes, start);
    value.map(|value| value.record(Sort::Short)).ok_or(8)
}

/// What the Rust says of them; `None` where it reads a date that 01 does not, and
/// for a type that it does not know.
pub fn rust_record(ty: &ColumnType, bytes: &[u8], start: usize) -> Option<Handed> {
    let rust_type = ty.to_rust()?;
    match rust::call(|| DataValue::from_bytes(&rust_type, bytes)) {
        Outcome::Ok(value) if in_domain(&value) => Some(Ok(record_of(value, bytes, start))),
        Outcome::Ok(_) => None,
        Outcome::TypeMismatch => Some(Err(8)),
        _ => Some(Err(NONE)),
    }
}

/// The record of a value that the Rust read from these bytes: a text is those
/// bytes, which stand at `start`. None where the Rust's text is another.
fn record_of(value: DataValue, bytes: &[u8], start: usize) -> Vec<u8> {
    let value = Some(value);
    let list = ValueList::of_rust(std::slice::from_ref(&value)).expect("a short text");
    let record = list.records(1).expect("one record")[0];
    if record.range().is_none() {
        return list.bytes;
    }
    if !is_value(&record, bytes, value.as_ref()) {
        return vec![];
    }
    let range = TextRange {
        start,
        length: bytes.len(),
    };
    let record = match record {
        Record::Char(_) => Record::Char(range),
        Record::Varchar(_) => Record::Varchar(range),
        _ => Record::Bit(range),
    };
    ValueList::of_records(&[record], vec![]).bytes
}

/// What the probe refuses before it reads: 4 for numbers that a record does not
/// hold, 3 for a slot of another length, 14 for room for less than any record.
pub fn refused_slot(ty: &ColumnType, bytes: &[u8], start: usize, room: usize) -> Option<u32> {
    if start > LIMIT || bytes.len() > LIMIT {
        return Some(4);
    }
    if ty.fixed_size().is_some_and(|size| size != bytes.len()) {
        return Some(3);
    }
    (room < 18).then_some(14)
}

/// Where bytes stand in a row.
pub fn any_start(rng: &mut Rng) -> usize {
    match rng.below(8) {
        0 => LIMIT - rng.below(2),
        1 => 0,
        _ => rng.below(1000),
    }
}

pub fn slot(rng: &mut Rng) -> Compared {
    let ty = any_column(rng, Kinds::All);
    let (mut sort, bytes) = any_slot(rng, &ty);
    let mut schema = write_schema(std::slice::from_ref(&ty));
    let mut start = any_start(rng);
    match rng.below(32) {
        0 => {
            sort = SlotSort::BadSchema;
            schema = bad_schema(rng, &ty);
        }
        1 => {
            sort = SlotSort::Far;
            start = LIMIT + 1 + (rng.any_size() >> 1) as usize;
        }
        _ => {}
    }
    let room = match rng.below(8) {
        0 => rng.below(18),
        1 => 18,
        _ => 18 + rng.below(20),
    };
    let output = rng.bytes(room);
    let (judge, model, rust) = match one_type(&schema) {
        Err(number) => (Judge::Probe, Err(number), None),
        Ok(ty) => match refused_slot(&ty, &bytes, start, room) {
            Some(number) => (Judge::Probe, Err(number), None),
            None => by_both(
                model_record(&ty, &bytes, start),
                rust_record(&ty, &bytes, start),
            ),
        },
    };
    let port = called(&output, [&schema, &bytes], |[schema, bytes], out| {
        probe::slot(schema, bytes, start, out)
    });
    let shown = chars::slot(&schema, &bytes, port.answer.number);
    let mut compared = judged((sort, judge), port, &output, &model, rust.as_ref(), || {
        format!("schema {}, bytes {} at {start}", hex(&schema), hex(&bytes))
    });
    let sorts = chars_sorts(&schema, shown).collect();
    compared.sorts.extend(counted(sorts));
    compared
}

#[cfg(test)]
mod tests {
    use super::{After, Handed, Kinds, any_column, called, judged, left};
    use crate::probe::ValueProbe;
    use cases::rng::Rng;
    use cases::schema::write_schema;
    use std::collections::BTreeSet;

    const OUTPUT: [u8; 4] = [0xAA; 4];

    fn differs(port: After<ValueProbe>, wanted: Handed) -> bool {
        judged("", port, &OUTPUT, &wanted, None, String::new)
            .difference
            .is_some()
    }

    fn answer(number: u32, length: usize, bytes: &[u8]) -> After<ValueProbe> {
        called(&OUTPUT, [&[1, 2]], |_, out| {
            out[..bytes.len()].copy_from_slice(bytes);
            ValueProbe { number, length }
        })
    }

    #[test]
    fn every_byte_counts() {
        assert!(!differs(answer(0, 2, &[7, 8]), Ok(vec![7, 8])));
        assert!(differs(answer(0, 2, &[7, 9]), Ok(vec![7, 8])));
        assert!(differs(answer(0, 2, &[7, 8, 9]), Ok(vec![7, 8])));
        assert!(differs(answer(0, 1, &[7, 8]), Ok(vec![7, 8])));
        assert!(!differs(answer(12, 0, &[]), Err(12)));
        assert!(differs(answer(12, 0, &[7]), Err(12)));
        assert!(differs(answer(11, 0, &[]), Err(12)));
        assert!(differs(answer(12, 1, &[]), Err(12)));
    }

    /// All kinds of types, all precisions with all scales, and n from 0 on.
    #[test]
    fn every_type_is_met() {
        let mut rng = Rng::new(1);
        let met: BTreeSet<Vec<u8>> = (0..300_000)
            .map(|_| write_schema(&[any_column(&mut rng, Kinds::All)]))
            .collect();
        assert!((1..=16).all(|kind| met.iter().any(|record| record[0] == kind)));
        for kind in [6, 7] {
            for precision in 1..=38 {
                assert!((0..=precision).all(|scale| met.contains(&vec![kind, precision, scale])));
            }
        }
        for kind in [9, 10, 11, 14, 16] {
            assert!((0..=40).all(|n| met.contains(&vec![kind, n, 0])));
        }
    }

    #[test]
    fn the_judges_agree() {
        let rust = Ok(vec![7]);
        let told = |model: Handed| {
            let port = left(&model, &OUTPUT);
            judged("", port, &OUTPUT, &model, Some(&rust), String::new)
                .difference
                .is_some()
        };
        assert!(!told(Ok(vec![7])));
        assert!(told(Ok(vec![8])));
        assert!(told(Err(8)));
    }
}
