//! chrono's dates and times as values. What is finer than a microsecond is cut.
use crate::{ConvertError, DataType, Date, FromValue, IntoValue, Time, Timestamp, Value};
use chrono::{Datelike, NaiveDate, NaiveDateTime, NaiveTime, Timelike};

const DATE: &str = "chrono::NaiveDate";
const TIME: &str = "chrono::NaiveTime";

/// The number of 1970-01-01 by chrono's count, in which 0001-01-01 is day 1.
const EPOCH: i32 = 719_163;

impl From<NaiveDate> for Date {
    fn from(date: NaiveDate) -> Date {
        Date::from_days(date.num_days_from_ce() - EPOCH)
    }
}

/// A leap second is the second after 23:59:59, which no row holds.
impl From<NaiveTime> for Time {
    fn from(time: NaiveTime) -> Time {
        let seconds = i64::from(time.num_seconds_from_midnight());
        Time::from_micros(seconds * 1_000_000 + i64::from(time.nanosecond() / 1000))
    }
}

impl From<NaiveDateTime> for Timestamp {
    fn from(timestamp: NaiveDateTime) -> Timestamp {
        Timestamp::new(timestamp.date().into(), timestamp.time().into())
    }
}

/// Every day that a row holds is one of chrono's.
impl TryFrom<Date> for NaiveDate {
    type Error = ConvertError;

    fn try_from(date: Date) -> Result<NaiveDate, ConvertError> {
        date.days()
            .checked_add(EPOCH)
            .and_then(NaiveDate::from_num_days_from_ce_opt)
            .ok_or(ConvertError::new(&date.into(), DATE))
    }
}

/// Every time that a row holds is one of chrono's.
impl TryFrom<Time> for NaiveTime {
    type Error = ConvertError;

    fn try_from(time: Time) -> Result<NaiveTime, ConvertError> {
        let seconds = u32::try_from(time.micros().div_euclid(1_000_000)).ok();
        let nanos = u32::try_from(time.micros().rem_euclid(1_000_000) * 1000).ok();
        seconds
            .zip(nanos)
            .and_then(|(seconds, nanos)| {
                NaiveTime::from_num_seconds_from_midnight_opt(seconds, nanos)
            })
            .ok_or(ConvertError::new(&time.into(), TIME))
    }
}

/// Every timestamp that a row holds is one of chrono's.
impl TryFrom<Timestamp> for NaiveDateTime {
    type Error = ConvertError;

    fn try_from(timestamp: Timestamp) -> Result<NaiveDateTime, ConvertError> {
        let (date, time) = (timestamp.date().try_into()?, timestamp.time().try_into()?);
        Ok(NaiveDateTime::new(date, time))
    }
}

/// A type of chrono's, ours, and what an error calls it.
macro_rules! goes_with {
    ($($theirs:ty, $ours:ty, $name:expr;)*) => {$(
        impl<'a> From<$theirs> for Value<'a> {
            fn from(value: $theirs) -> Value<'a> {
                <$ours>::from(value).into()
            }
        }

        impl<'a> IntoValue<'a> for $theirs {
            fn into_value(self) -> Option<Value<'a>> {
                Some(self.into())
            }
        }

        impl<'a> FromValue<'a> for $theirs {
            fn from_value(value: Value<'a>) -> Result<$theirs, ConvertError> {
                let ours = <$ours>::from_value(value);
                let ours = ours.map_err(|error| ConvertError { wanted: $name, ..error })?;
                ours.try_into()
            }

            #[inline]
            fn reads(data_type: DataType) -> bool {
                <$ours>::reads(data_type)
            }

            fn rust_name() -> &'static str {
                $name
            }
        }

        impl<'a> TryFrom<Value<'a>> for $theirs {
            type Error = ConvertError;

            fn try_from(value: Value<'a>) -> Result<$theirs, ConvertError> {
                FromValue::from_value(value)
            }
        }
    )*};
}

goes_with! {
    NaiveDate, Date, DATE;
    NaiveTime, Time, TIME;
    NaiveDateTime, Timestamp, "chrono::NaiveDateTime";
}
