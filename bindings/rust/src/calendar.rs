//! Days and times, as ISO 8601 writes them.
use crate::data_type::padded;
use crate::ParseError;
use core::fmt;
use core::str::FromStr;

const SECOND: i64 = 1_000_000;
const DAY: i64 = 86_400 * SECOND;

/// A day, counted from 1970-01-01. It prints as `2026-11-16`, and is read from that.
#[derive(Debug, Clone, Copy, PartialEq, Eq, PartialOrd, Ord, Hash)]
pub struct Date(i32);

/// A time of day, counted in microseconds. It prints as `06:12:30` or `06:12:30.250000`, and is read from that.
#[derive(Debug, Clone, Copy, PartialEq, Eq, PartialOrd, Ord, Hash)]
pub struct Time(i64);

/// Day and time, counted in microseconds from 1970-01-01T00:00:00. It prints as `2026-11-16T06:12:30`, and is read
/// from that, or with a blank for the T.
#[derive(Debug, Clone, Copy, PartialEq, Eq, PartialOrd, Ord, Hash)]
pub struct Timestamp(i64);

impl Date {
    /// 0001-01-01, the first day that a row holds.
    pub const MIN: Date = Date(-719_162);
    /// 9999-12-31, the last day that a row holds.
    pub const MAX: Date = Date(2_932_896);

    /// The day so many days after 1970-01-01. A row holds those from `MIN` to `MAX`.
    pub const fn from_days(days: i32) -> Date {
        Date(days)
    }

    /// Days from 1970-01-01.
    pub const fn days(self) -> i32 {
        self.0
    }

    /// The day of a year from 1 to 9999, a month and a day of the month; none if there is no such day.
    pub fn from_ymd(year: i32, month: u32, day: u32) -> Option<Date> {
        if !(1..=9999).contains(&year) || !(1..=12).contains(&month) || !(1..=31).contains(&day) {
            return None;
        }
        let days = days_from_civil(i64::from(year), month, day);
        let date = Date(i32::try_from(days).ok()?);
        (date.ymd() == (year, month, day)).then_some(date)
    }

    /// Year, month and day of the month.
    pub fn ymd(self) -> (i32, u32, u32) {
        civil_from_days(self.0)
    }
}

impl Time {
    /// Midnight, the first time that a row holds.
    pub const MIN: Time = Time(0);
    /// 23:59:59.999999, the last time that a row holds.
    pub const MAX: Time = Time(DAY - 1);

    /// The time so many microseconds after midnight. A row holds those from `MIN` to `MAX`.
    pub const fn from_micros(micros: i64) -> Time {
        Time(micros)
    }

    /// Microseconds from midnight.
    pub const fn micros(self) -> i64 {
        self.0
    }

    /// The time of an hour below 24, a minute and a second below 60; none if there is no such time.
    pub fn from_hms(hour: u32, minute: u32, second: u32) -> Option<Time> {
        let seconds = i64::from(hour) * 3600 + i64::from(minute) * 60 + i64::from(second);
        (hour < 24 && minute < 60 && second < 60).then(|| Time(seconds * SECOND))
    }
}

impl Timestamp {
    /// 0001-01-01T00:00:00, the first that a row holds.
    pub const MIN: Timestamp = Timestamp(-62_135_596_800_000_000);
    /// 9999-12-31T23:59:59.999999, the last that a row holds.
    pub const MAX: Timestamp = Timestamp(253_402_300_799_999_999);

    /// That time of that day, counted from its midnight on; or the first or the last that 64 bits count. A day that no
    /// row holds gives a timestamp that no row holds, whatever the time is.
    ///
    /// ```
    /// use rook_row::{DataType, Date, RowBuf, Schema, Time, Timestamp};
    ///
    /// let schema = Schema::new([DataType::Timestamp])?;
    /// for days in [Date::MAX.days() + 1, i32::MAX, i32::MIN] {
    ///     let arrival = Timestamp::new(Date::from_days(days), Time::MIN);
    ///     assert_eq!(RowBuf::build(&schema, &[arrival.into()]).unwrap_err().number(), 12);
    /// }
    /// # Ok::<(), rook_row::Error>(())
    /// ```
    #[allow(
        clippy::cast_possible_truncation,
        reason = "the count is held to 64 bits"
    )]
    pub const fn new(date: Date, time: Time) -> Timestamp {
        let (least, most) = if date.0 < Date::MIN.0 {
            (i64::MIN, Timestamp::MIN.0 - 1)
        } else if date.0 > Date::MAX.0 {
            (Timestamp::MAX.0 + 1, i64::MAX)
        } else {
            (i64::MIN, i64::MAX)
        };
        let micros = date.0 as i128 * DAY as i128 + time.0 as i128;
        Timestamp(if micros < least as i128 {
            least
        } else if micros > most as i128 {
            most
        } else {
            micros as i64
        })
    }

    /// So many microseconds after 1970-01-01T00:00:00. A row holds those from `MIN` to `MAX`.
    pub const fn from_micros(micros: i64) -> Timestamp {
        Timestamp(micros)
    }

    /// Microseconds from 1970-01-01T00:00:00.
    pub const fn micros(self) -> i64 {
        self.0
    }

    /// Its day.
    #[allow(
        clippy::cast_possible_truncation,
        reason = "64 bits of microseconds are at most 106,751,992 days"
    )]
    pub const fn date(self) -> Date {
        Date(self.0.div_euclid(DAY) as i32)
    }

    /// Its time of day.
    pub const fn time(self) -> Time {
        Time(self.0.rem_euclid(DAY))
    }
}

/// Days from 1970-01-01 to a day of the Gregorian calendar. Years are counted from March on, so that a leap day is the
/// last of its year, in eras of 400 years.
fn days_from_civil(year: i64, month: u32, day: u32) -> i64 {
    let year = year - i64::from(month <= 2);
    let era = year.div_euclid(400);
    let year_of_era = year.rem_euclid(400);
    let month_from_march = i64::from((month + 9) % 12);
    let day_of_year = (153 * month_from_march + 2) / 5 + i64::from(day) - 1;
    let day_of_era = year_of_era * 365 + year_of_era / 4 - year_of_era / 100 + day_of_year;
    era * 146_097 + day_of_era - 719_468
}

/// The day of the Gregorian calendar, so many days after 1970-01-01.
#[allow(
    clippy::cast_possible_truncation,
    clippy::cast_sign_loss,
    reason = "32 bits of days are at most 5,881,580 years; month and day are small, and not below 0"
)]
fn civil_from_days(days: i32) -> (i32, u32, u32) {
    let days = i64::from(days) + 719_468;
    let era = days.div_euclid(146_097);
    let day_of_era = days.rem_euclid(146_097);
    let year_of_era =
        (day_of_era - day_of_era / 1460 + day_of_era / 36_524 - day_of_era / 146_096) / 365;
    let day_of_year = day_of_era - (365 * year_of_era + year_of_era / 4 - year_of_era / 100);
    let month_from_march = (5 * day_of_year + 2) / 153;
    let day = (day_of_year - (153 * month_from_march + 2) / 5 + 1) as u32;
    let month = ((month_from_march + 2) % 12 + 1) as u32;
    let year = era * 400 + year_of_era + i64::from(month <= 2);
    (year as i32, month, day)
}

impl fmt::Display for Date {
    fn fmt(&self, f: &mut fmt::Formatter<'_>) -> fmt::Result {
        let (year, month, day) = self.ymd();
        padded(f, format_args!("{year:04}-{month:02}-{day:02}"))
    }
}

impl fmt::Display for Time {
    fn fmt(&self, f: &mut fmt::Formatter<'_>) -> fmt::Result {
        let sign = if self.0 < 0 { "-" } else { "" };
        let micros = self.0.unsigned_abs();
        let second = SECOND.unsigned_abs();
        let (seconds, micros) = (micros / second, micros % second);
        let (hour, minute, second) = (seconds / 3600, seconds / 60 % 60, seconds % 60);
        match micros {
            0 => padded(f, format_args!("{sign}{hour:02}:{minute:02}:{second:02}")),
            _ => padded(
                f,
                format_args!("{sign}{hour:02}:{minute:02}:{second:02}.{micros:06}"),
            ),
        }
    }
}

impl fmt::Display for Timestamp {
    fn fmt(&self, f: &mut fmt::Formatter<'_>) -> fmt::Result {
        let (date, time) = (self.date(), self.time());
        padded(f, format_args!("{date}T{time}"))
    }
}

/// A number of exactly so many digits.
fn digits<N: FromStr>(text: &str, count: usize) -> Option<N> {
    let good = text.len() == count && text.bytes().all(|byte| byte.is_ascii_digit());
    good.then(|| text.parse().ok())?
}

fn parse_date(text: &str) -> Option<Date> {
    let (year, rest) = text.split_once('-')?;
    let (month, day) = rest.split_once('-')?;
    Date::from_ymd(digits(year, 4)?, digits(month, 2)?, digits(day, 2)?)
}

fn parse_time(text: &str) -> Option<Time> {
    let (clock, behind) = text.split_once('.').unwrap_or((text, "0"));
    let mut parts = clock.split(':');
    let mut part = || digits(parts.next()?, 2);
    let time = Time::from_hms(part()?, part()?, part()?)?;
    // Up to six digits of a second; those that are not written are zeros.
    let fraction: i64 = digits(behind, behind.len().clamp(1, 6))?;
    let missing = u32::try_from(6 - behind.len()).ok()?;
    let micros = fraction * 10i64.pow(missing);
    parts.next().is_none().then_some(Time(time.0 + micros))
}

impl FromStr for Date {
    type Err = ParseError;

    fn from_str(text: &str) -> Result<Date, ParseError> {
        parse_date(text).ok_or_else(|| ParseError::new("date", text))
    }
}

impl FromStr for Time {
    type Err = ParseError;

    fn from_str(text: &str) -> Result<Time, ParseError> {
        parse_time(text).ok_or_else(|| ParseError::new("time", text))
    }
}

impl FromStr for Timestamp {
    type Err = ParseError;

    fn from_str(text: &str) -> Result<Timestamp, ParseError> {
        text.split_once(['T', ' '])
            .and_then(|(date, time)| Some(Timestamp::new(parse_date(date)?, parse_time(time)?)))
            .ok_or_else(|| ParseError::new("timestamp", text))
    }
}
