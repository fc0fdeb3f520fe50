//! Days and times: every day of the format, and what is no day.
use rook_row::{DataType, Date, RowBuf, Schema, Time, Timestamp};

/// Counts on from day to day, over all years.
#[test]
fn every_day() {
    let (mut year, mut month, mut day) = (1, 1, 1);
    for days in Date::MIN.days()..=Date::MAX.days() {
        let date = Date::from_days(days);
        assert_eq!(date.ymd(), (year, month, day));
        assert_eq!(Date::from_ymd(year, month, day), Some(date));
        let leap = year % 4 == 0 && (year % 100 != 0 || year % 400 == 0);
        let last = match month {
            2 => 28 + u32::from(leap),
            4 | 6 | 9 | 11 => 30,
            _ => 31,
        };
        (year, month, day) = match (month, day == last) {
            (_, false) => (year, month, day + 1),
            (12, true) => (year + 1, 1, 1),
            (_, true) => (year, month + 1, 1),
        };
    }
    assert_eq!((year, month, day), (10_000, 1, 1));
}

#[test]
fn no_days() {
    for (year, month, day) in [
        (2026, 2, 29),
        (2026, 0, 1),
        (2026, 13, 1),
        (2026, 4, 31),
        (2026, 1, 0),
    ] {
        assert_eq!(Date::from_ymd(year, month, day), None);
    }
    assert_eq!(
        (Date::from_ymd(0, 1, 1), Date::from_ymd(10_000, 1, 1)),
        (None, None)
    );
    assert_eq!(Time::from_hms(24, 0, 0), None);
    assert_eq!(
        (Time::from_hms(0, 60, 0), Time::from_hms(0, 0, 60)),
        (None, None)
    );
}

#[test]
fn read_from_text() {
    for text in ["0001-01-01", "1970-01-01", "2026-11-16", "9999-12-31"] {
        assert_eq!(text.parse::<Date>().unwrap().to_string(), text);
    }
    for text in ["00:00:00", "06:12:30", "23:59:59.999999"] {
        assert_eq!(text.parse::<Time>().unwrap().to_string(), text);
    }
    assert_eq!(
        "06:12:30.25".parse::<Time>().unwrap().to_string(),
        "06:12:30.250000"
    );
    assert_eq!(
        "2026-11-16 06:12:30".parse(),
        "2026-11-16T06:12:30".parse::<Timestamp>()
    );
    for text in [
        "",
        "2026-11-6",
        "26-11-16",
        "2026-02-30",
        "+026-11-16",
        "2026-11-16-1",
    ] {
        assert!(text.parse::<Date>().is_err(), "{text}");
    }
    for text in [
        "",
        "6:12:30",
        "06:12",
        "06:12:30:1",
        "06:12:30.",
        "06:12:30.1234567",
        "24:00:00",
    ] {
        assert!(text.parse::<Time>().is_err(), "{text}");
    }
    assert!("2026-11-16".parse::<Timestamp>().is_err());
}

#[test]
fn parts_of_a_timestamp() {
    for micros in [
        Timestamp::MIN.micros(),
        -1,
        0,
        1_762_000_000_123_456,
        Timestamp::MAX.micros(),
    ] {
        let timestamp = Timestamp::from_micros(micros);
        assert_eq!(
            Timestamp::new(timestamp.date(), timestamp.time()),
            timestamp
        );
        assert_eq!(timestamp.to_string().parse(), Ok(timestamp));
    }
    assert_eq!(Timestamp::MIN, Timestamp::new(Date::MIN, Time::MIN));
    assert_eq!(Timestamp::MAX, Timestamp::new(Date::MAX, Time::MAX));
}

/// Days that no row holds, from the first past the range to the last of an i32: those at which the product of 64 bits
/// would wrap among them.
const NO_DAYS: [i32; 12] = [
    i32::MIN,
    -213_503_983,
    -106_751_993,
    -106_751_992,
    -106_751_991,
    Date::MIN.days() - 1,
    Date::MAX.days() + 1,
    106_751_991,
    106_751_992,
    106_751_993,
    213_503_983,
    i32::MAX,
];

const TIMES: [i64; 9] = [
    i64::MIN,
    i64::MIN + 1,
    -86_400_000_000,
    -1,
    0,
    86_399_999_999,
    86_400_000_000,
    i64::MAX - 1,
    i64::MAX,
];

/// The count where 64 bits hold it, else the nearest that they hold.
fn counted(days: i32, micros: i64) -> i64 {
    let count = i128::from(days) * 86_400_000_000 + i128::from(micros);
    i64::try_from(count).unwrap_or(if count < 0 { i64::MIN } else { i64::MAX })
}

#[test]
fn timestamps_of_days_that_no_row_holds() {
    let (least, most) = (Timestamp::MIN.micros(), Timestamp::MAX.micros());
    let schema = Schema::new([DataType::Timestamp]).unwrap();
    let fresh = RowBuf::fresh(&schema).unwrap();
    for days in NO_DAYS {
        for micros in TIMES {
            let timestamp = Timestamp::new(Date::from_days(days), Time::from_micros(micros));
            let expected = match days < 0 {
                true => counted(days, micros).min(least - 1),
                false => counted(days, micros).max(most + 1),
            };
            assert_eq!(timestamp.micros(), expected, "{days} {micros}");
            let refused = RowBuf::build(&schema, &[timestamp.into()]).unwrap_err();
            assert_eq!((refused.number(), refused.place()), (12, 0));
            let mut row = fresh.clone();
            let refused = row.set(&schema, 0, timestamp).unwrap_err();
            assert_eq!((refused.number(), row), (12, fresh.clone()));
        }
    }
    // In release it was 1970-01-01T15:58:10, and a row was built of it.
    let last = Timestamp::new(Date::from_days(213_503_983), Time::MIN);
    assert_eq!(last, Timestamp::from_micros(i64::MAX));
}

/// The time counts on from midnight, whatever it is.
#[test]
fn timestamps_of_days_that_rows_hold() {
    for days in [Date::MIN.days(), -1, 0, 1, Date::MAX.days()] {
        for micros in TIMES {
            let timestamp = Timestamp::new(Date::from_days(days), Time::from_micros(micros));
            assert_eq!(timestamp.micros(), counted(days, micros), "{days} {micros}");
        }
    }
    let next = Timestamp::new(Date::from_days(0), Time::from_micros(86_400_000_000));
    assert_eq!(next.to_string(), "1970-01-02T00:00:00");
}

/// Nothing wraps or panics at the ends of the numbers.
#[test]
fn ends_of_the_numbers() {
    for micros in [
        i64::MIN,
        i64::MIN + 1,
        -62_135_596_800_000_001,
        253_402_300_800_000_000,
        i64::MAX,
    ] {
        let timestamp = Timestamp::from_micros(micros);
        assert_eq!(
            Timestamp::new(timestamp.date(), timestamp.time()),
            timestamp
        );
    }
    let printed = |micros| Timestamp::from_micros(micros).to_string();
    assert_eq!(printed(i64::MAX), "294247-01-10T04:00:54.775807");
    assert_eq!(printed(i64::MIN), "-290308-12-21T19:59:05.224192");
    assert_eq!(Date::from_days(i32::MAX).to_string(), "5881580-07-11");
    assert_eq!(Date::from_days(i32::MIN).to_string(), "-5877641-06-23");
    let time = |micros| Time::from_micros(micros).to_string();
    assert_eq!(time(i64::MAX), "2562047788:00:54.775807");
    assert_eq!(time(i64::MIN), "-2562047788:00:54.775808");
    for (hour, minute, second) in [
        (u32::MAX, 0, 0),
        (0, u32::MAX, 0),
        (0, 0, u32::MAX),
        (u32::MAX, u32::MAX, u32::MAX),
        (3_000_000, 59, 59),
    ] {
        assert_eq!(Time::from_hms(hour, minute, second), None);
    }
    for (year, month, day) in [
        (i32::MAX, 12, 31),
        (i32::MIN, 1, 1),
        (1970, u32::MAX, 1),
        (1970, 1, u32::MAX),
    ] {
        assert_eq!(Date::from_ymd(year, month, day), None);
    }
}
