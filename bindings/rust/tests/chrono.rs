//! The feature `chrono`.
#![cfg(feature = "chrono")]
use chrono::{NaiveDate, NaiveDateTime, NaiveTime};
use rook_row::{DataType, Date, RowBuf, Schema, Time, Timestamp, Value};

fn day(year: i32, month: u32, day: u32) -> NaiveDate {
    NaiveDate::from_ymd_opt(year, month, day).unwrap()
}

fn schema() -> Schema {
    Schema::new([
        ("day", DataType::Date),
        ("time", DataType::Time),
        ("arrival", DataType::Timestamp),
    ])
    .unwrap()
}

#[test]
fn there_and_back() {
    let schema = schema();
    let midnight = NaiveTime::from_hms_opt(0, 0, 0).unwrap();
    let time = NaiveTime::from_hms_micro_opt(6, 12, 30, 250_001).unwrap();
    for date in [
        day(1, 1, 1),
        day(1969, 12, 31),
        day(2024, 2, 29),
        day(9999, 12, 31),
    ] {
        let arrival = NaiveDateTime::new(date, time);
        let values = [date.into(), time.into(), arrival.into()];
        let mut row = RowBuf::build(&schema, &values).unwrap();
        assert_eq!(row.get(&schema, "day"), Ok(date));
        assert_eq!(row.get(&schema, "time"), Ok(time));
        assert_eq!(row.get(&schema, "arrival"), Ok(arrival));
        assert_eq!(
            row.get::<Timestamp>(&schema, "arrival")
                .unwrap()
                .to_string(),
            format!("{arrival:?}")
        );
        row.set(&schema, "day", None::<NaiveDate>).unwrap();
        row.set(&schema, "arrival", NaiveDateTime::new(date, midnight))
            .unwrap();
        assert_eq!(row.get::<Option<NaiveDate>>(&schema, "day"), Ok(None));
        assert_eq!(
            row.get(&schema, "arrival"),
            Ok(NaiveDateTime::new(date, midnight))
        );
    }
}

#[test]
fn outside_the_range() {
    let mut row = RowBuf::fresh(&schema()).unwrap();
    let refused = row.set(&schema(), "day", day(10_000, 1, 1)).unwrap_err();
    let range = "0001-01-01 to 9999-12-31";
    assert_eq!(
        refused.to_string(),
        format!("column 0 (day): 10000-01-01 is not within {range} (12)")
    );
    let leap = NaiveTime::from_hms_milli_opt(23, 59, 59, 1_500).unwrap();
    assert_eq!(Time::from(leap), Time::from_micros(86_400_500_000));
    assert_eq!(row.set(&schema(), "time", leap).unwrap_err().number(), 12);
    assert!(NaiveDate::try_from(Date::from_days(i32::MAX)).is_err());
    assert!(NaiveTime::try_from(Time::from_micros(-1)).is_err());
    assert!(NaiveDate::try_from(Value::Int(1)).is_err());
}

/// The ends of chrono's days and times: none wraps, all are refused.
#[test]
fn ends_of_chrono() {
    let schema = schema();
    let row = RowBuf::fresh(&schema).unwrap();
    for moment in [NaiveDateTime::MIN, NaiveDateTime::MAX] {
        let timestamp = Timestamp::from(moment);
        assert_eq!(timestamp.micros(), moment.timestamp_micros());
        for (column, value) in [("arrival", moment.into()), ("day", moment.date().into())] {
            let mut edited = row.clone();
            let value: Value = value;
            let refused = edited.set(&schema, column, value).unwrap_err();
            assert_eq!((refused.number(), &edited), (12, &row));
        }
    }
}

/// A column's type is checked before its null, and an error names chrono's type.
#[test]
fn the_type_before_the_null() {
    let schema = schema();
    let row = RowBuf::fresh(&schema).unwrap();
    let told = |error: rook_row::Error| error.to_string();
    assert_eq!(
        row.get::<Option<NaiveTime>>(&schema, "day").map_err(told),
        Err("column 0 (day): DATE is not read as chrono::NaiveTime (11)".into())
    );
    assert_eq!(
        row.get::<NaiveDate>(&schema, "day").map_err(told),
        Err("column 0 (day): it is null, which chrono::NaiveDate has not, but Option<chrono::NaiveDate> (11)".into())
    );
    assert_eq!(
        row.get::<Option<NaiveDateTime>>(&schema, "arrival"),
        Ok(None)
    );
}
