//! Weekdays of a month, counted from its first day on and from its last day back.

use trading_calendar::utils::{last_weekday_of_month, nth_weekday_of_month};
use trading_calendar::NaiveDate;
use trading_calendar::Weekday::{self, *};

const WEEKDAYS: [Weekday; 7] = [Mon, Tue, Wed, Thu, Fri, Sat, Sun];

fn date(year: i32, month: u32, day: u32) -> Option<NaiveDate> {
    NaiveDate::from_ymd_opt(year, month, day)
}

/// The days of the month on this weekday, in order.
fn days(year: i32, month: u32, weekday: Weekday) -> Vec<NaiveDate> {
    let days = (1..=31).filter_map(|day| date(year, month, day));
    days.filter(|date| date.weekday() == weekday).collect()
}

#[test]
fn each_is_found_from_both_ends_and_no_other() {
    let years = (1..=3).chain(1996..=2032).chain(9997..=9999);
    let months = years.flat_map(|year| (1..=12).map(move |month| (year, month)));
    let mut found = 0;
    for (year, month) in months.filter(|&month| month != (9999, 12)) {
        for weekday in WEEKDAYS {
            let mut due = days(year, month, weekday);
            let nth = |n| nth_weekday_of_month(year, month, weekday, n);
            let forth: Vec<NaiveDate> = (1..).map_while(nth).collect();
            let back: Vec<NaiveDate> = (1..).map_while(|n| nth(-n)).collect();
            assert_eq!(forth, due);
            assert_eq!(last_weekday_of_month(year, month, weekday), nth(-1));
            due.reverse();
            assert_eq!(back, due);
            found += back.len();
        }
    }
    assert_eq!(found, 43 * 365 + 10 - 31);
}

/// The month is compared, and not the year.
#[test]
fn found_in_another_year() {
    let nth = nth_weekday_of_month;
    assert_eq!(nth(2019, 1, Mon, 53), date(2020, 1, 6));
    assert_eq!(nth(2020, 1, Mon, -53), date(2019, 1, 28));
    assert_eq!(nth(2020, 1, Wed, 214), date(2024, 1, 31));
    assert_eq!(nth(2024, 1, Wed, -214), date(2020, 1, 1));
}

/// 0; no fifth; beyond 255, where 261 would lead to 2024-01-01 and -261 to 2019-01-31; January of the years 0 and 10000; from the end
/// of December 9999; no such year or month.
#[test]
fn none() {
    let due = [
        (2025, 11, Fri, 0),
        (2025, 11, Fri, 5),
        (2025, 11, Fri, -5),
        (2025, 11, Fri, 256),
        (2025, 11, Fri, -256),
        (2019, 1, Mon, 261),
        (2024, 1, Thu, -261),
        (2025, 11, Fri, i32::MAX),
        (2025, 11, Fri, i32::MIN),
        (2025, 11, Fri, i32::MIN + 1),
        (1, 1, Mon, -53),
        (9999, 1, Fri, 54),
        (9999, 12, Mon, -1),
        (9999, 12, Mon, -2),
        (0, 12, Mon, -1),
        (-1, 12, Mon, -1),
        (10_000, 1, Mon, -1),
        (2025, 0, Mon, -1),
        (2025, 13, Mon, -1),
    ];
    for (year, month, weekday, nth) in due {
        let answer = nth_weekday_of_month(year, month, weekday, nth);
        assert_eq!(answer, None, "{year} {month} {weekday} {nth}");
    }
    assert_eq!(last_weekday_of_month(9999, 12, Mon), None);
}
