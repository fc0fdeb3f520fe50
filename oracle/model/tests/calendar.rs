//! The calendar by counting against chrono, on every day that a row holds.

use model::calendar::{date, moment_text};
use rookdb::chrono::{Datelike, Days, NaiveDate};

#[test]
fn every_day() {
    let mut day = NaiveDate::from_ymd_opt(1, 1, 1).expect("a day");
    let last = NaiveDate::from_ymd_opt(9999, 12, 31).expect("a day");
    let mut days = 0;
    loop {
        let wanted = (day.year().into(), day.month().into(), day.day().into());
        assert_eq!(date(days), wanted, "{days} days after 0001-01-01");
        if day == last {
            break;
        }
        day = day.checked_add_days(Days::new(1)).expect("a next day");
        days += 1;
    }
    assert_eq!(days, 3_652_058);
}

/// The first and the last second of the days around the turns of months, years
/// and centuries, each with its first and last microsecond.
#[test]
fn ends_of_days() {
    for year in [
        1, 4, 100, 400, 1582, 1899, 1900, 1970, 2000, 2026, 2100, 9999,
    ] {
        for (month, day) in [(1, 1), (2, 28), (2, 29), (3, 1), (6, 30), (12, 31)] {
            let Some(date) = NaiveDate::from_ymd_opt(year, month, day) else {
                continue;
            };
            for (hour, minute, second) in [(0, 0, 0), (12, 34, 56), (23, 59, 59)] {
                let time = date.and_hms_opt(hour, minute, second).expect("a time");
                let text = time.format("%Y-%m-%d %H:%M:%S").to_string();
                let micros = time.timestamp() * 1_000_000;
                assert_eq!(moment_text(micros), text);
                assert_eq!(moment_text(micros + 999_999), text);
            }
        }
    }
}
