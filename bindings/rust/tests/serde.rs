//! The feature `serde`, by a serializer that prints as JSON does and by serde's own deserializers.
#![cfg(feature = "serde")]
use rook_row::{Bits, Column, DataType, Date, Numeric, Schema, Time, Timestamp, Value};
use serde::de::value::{Error, SeqDeserializer, StrDeserializer};
use serde::de::{Deserialize, IntoDeserializer};
use serde::ser::{Impossible, Serialize, SerializeSeq, SerializeTuple, Serializer};

/// Prints what these types are made of: numbers, texts, nulls, and lists of them.
struct Json(String);

/// A list that is being printed.
struct List(Vec<String>);

fn json<T: Serialize + ?Sized>(value: &T) -> String {
    value.serialize(Json(String::new())).unwrap()
}

impl SerializeSeq for List {
    type Ok = String;
    type Error = Error;

    fn serialize_element<T: Serialize + ?Sized>(&mut self, value: &T) -> Result<(), Error> {
        self.0.push(json(value));
        Ok(())
    }

    fn end(self) -> Result<String, Error> {
        Ok(format!("[{}]", self.0.join(",")))
    }
}

impl SerializeTuple for List {
    type Ok = String;
    type Error = Error;

    fn serialize_element<T: Serialize + ?Sized>(&mut self, value: &T) -> Result<(), Error> {
        SerializeSeq::serialize_element(self, value)
    }

    fn end(self) -> Result<String, Error> {
        SerializeSeq::end(self)
    }
}

/// A method for a number, or one that is not needed.
macro_rules! methods {
    ($($name:ident $type:ty),*; $($unused:ident($($argument:ty),*) $result:ty),*) => {
        $(fn $name(self, value: $type) -> Result<String, Error> {
            Ok(self.0 + &value.to_string())
        })*
        $(fn $unused(self, $(_: $argument),*) -> Result<$result, Error> {
            unreachable!()
        })*
    };
}

type No = Impossible<String, Error>;

impl Serializer for Json {
    type Ok = String;
    type Error = Error;
    type SerializeSeq = List;
    type SerializeTuple = List;
    type SerializeTupleStruct = No;
    type SerializeTupleVariant = No;
    type SerializeMap = No;
    type SerializeStruct = No;
    type SerializeStructVariant = No;

    methods! {
        serialize_bool bool, serialize_i8 i8, serialize_i16 i16, serialize_i32 i32, serialize_i64 i64,
        serialize_u8 u8, serialize_u16 u16, serialize_u32 u32, serialize_u64 u64, serialize_f32 f32,
        serialize_f64 f64, serialize_char char;
        serialize_bytes(&[u8]) String, serialize_unit() String, serialize_unit_struct(&'static str) String,
        serialize_unit_variant(&'static str, u32, &'static str) String,
        serialize_tuple_struct(&'static str, usize) No,
        serialize_tuple_variant(&'static str, u32, &'static str, usize) No,
        serialize_map(Option<usize>) No, serialize_struct(&'static str, usize) No,
        serialize_struct_variant(&'static str, u32, &'static str, usize) No
    }

    fn serialize_str(self, text: &str) -> Result<String, Error> {
        Ok(format!("{text:?}"))
    }

    fn serialize_none(self) -> Result<String, Error> {
        Ok("null".into())
    }

    fn serialize_some<T: Serialize + ?Sized>(self, value: &T) -> Result<String, Error> {
        value.serialize(self)
    }

    fn serialize_newtype_struct<T: Serialize + ?Sized>(
        self,
        _: &'static str,
        value: &T,
    ) -> Result<String, Error> {
        value.serialize(self)
    }

    fn serialize_newtype_variant<T: Serialize + ?Sized>(
        self,
        _: &'static str,
        _: u32,
        _: &'static str,
        value: &T,
    ) -> Result<String, Error> {
        value.serialize(self)
    }

    fn serialize_seq(self, _: Option<usize>) -> Result<List, Error> {
        Ok(List(Vec::new()))
    }

    fn serialize_tuple(self, _: usize) -> Result<List, Error> {
        Ok(List(Vec::new()))
    }
}

fn from_text<'a, T: Deserialize<'a>>(text: &'a str) -> Result<T, Error> {
    let deserializer: StrDeserializer<Error> = text.into_deserializer();
    T::deserialize(deserializer)
}

#[test]
fn values() {
    let fare = Numeric::new(-56, 2);
    let values = [
        Value::Null,
        4i16.into(),
        2.5.into(),
        true.into(),
        "ET 41".into(),
        fare.into(),
        Date::MAX.into(),
        "101".parse::<Bits>().unwrap().into(),
    ];
    let printed = r#"[null,4,2.5,true,"ET 41","-0.56","9999-12-31","101"]"#;
    assert_eq!(json(&values[..]), printed);
}

#[test]
fn texts_there_and_back() {
    assert_eq!(from_text("VARCHAR(16)"), Ok(DataType::Varchar(16)));
    assert_eq!(json(&DataType::Varchar(16)), r#""VARCHAR(16)""#);
    let characters = DataType::VarcharChars(16);
    assert_eq!(from_text("VARCHAR(16 CHARACTERS)"), Ok(characters));
    assert_eq!(json(&characters), r#""VARCHAR(16 CHARACTERS)""#);
    assert_eq!(from_text("-0.56"), Ok(Numeric::new(-56, 2)));
    assert_eq!(
        from_text("06:12:30"),
        Ok(Time::from_hms(6, 12, 30).unwrap())
    );
    assert_eq!(
        from_text("1970-01-01T00:00:00"),
        Ok(Timestamp::from_micros(0))
    );
    assert_eq!(from_text::<Date>("1970-01-01"), Ok(Date::from_days(0)));
    assert_eq!(
        from_text::<Bits<'static>>("101").unwrap().to_string(),
        "101"
    );
    let error = from_text::<DataType>("VARCHR(4)").unwrap_err();
    assert_eq!(error.to_string(), r#""VARCHR(4)" is not a data type"#);
}

#[test]
fn schemas() {
    let schema = Schema::new([
        ("platform", DataType::Varchar(4)),
        ("cars", DataType::SmallInt),
    ]);
    let schema = schema.unwrap();
    assert_eq!(
        json(&schema),
        r#"[["platform","VARCHAR(4)"],["cars","SMALLINT"]]"#
    );
    let unnamed = Schema::new([DataType::Int]).unwrap();
    assert_eq!(json(&unnamed), r#"[[null,"INT"]]"#);

    let pair = |name, data_type| vec![name, data_type];
    let pairs = [pair("platform", "VARCHAR(4)"), pair("cars", "SMALLINT")];
    let columns: SeqDeserializer<_, Error> = SeqDeserializer::new(pairs.into_iter());
    // serde's deserializer of a text has no null, so a name is read by itself.
    let read = Vec::<(String, DataType)>::deserialize(columns).unwrap();
    assert_eq!(Schema::new(read), Ok(schema));
    assert_eq!(Column::from(DataType::Int).name(), None);
}
