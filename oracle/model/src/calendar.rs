//! The Gregorian calendar by counting, and a moment as date and time.

/// The microseconds of a second, the seconds of a day.
const SECOND: i64 = 1_000_000;
const DAY: i64 = 86_400;

/// Days from 0001-01-01 to 1970-01-01.
const DAYS_TO_1970: i64 = 719_162;

/// The days of 400 years, 97 of which are leap years; then the years repeat.
const PERIOD: i64 = 400 * 365 + 97;

pub fn is_leap(year: i64) -> bool {
    year % 4 == 0 && (year % 100 != 0 || year % 400 == 0)
}

fn year_days(year: i64) -> i64 {
    if is_leap(year) { 366 } else { 365 }
}

fn month_days(year: i64, month: i64) -> i64 {
    match month {
        4 | 6 | 9 | 11 => 30,
        2 if is_leap(year) => 29,
        2 => 28,
        _ => 31,
    }
}

/// Year, month and day of the month of the day so many days after 0001-01-01.
pub fn date(days: i64) -> (i64, i64, i64) {
    let mut rest = days;
    let mut year = 1;
    while rest >= PERIOD {
        rest -= PERIOD;
        year += 400;
    }
    while rest >= year_days(year) {
        rest -= year_days(year);
        year += 1;
    }
    let mut month = 1;
    while rest >= month_days(year, month) {
        rest -= month_days(year, month);
        month += 1;
    }
    (year, month, rest + 1)
}

/// A moment, counted in microseconds from 1970-01-01, of the years 1 to 9999:
/// `YYYY-MM-DD hh:mm:ss`, rounded down to the second.
pub fn moment_text(micros: i64) -> String {
    let seconds = micros.div_euclid(SECOND);
    let (year, month, day) = date(seconds.div_euclid(DAY) + DAYS_TO_1970);
    let second = seconds.rem_euclid(DAY);
    let (hour, minute, second) = (second / 3600, second / 60 % 60, second % 60);
    format!("{year:04}-{month:02}-{day:02} {hour:02}:{minute:02}:{second:02}")
}
