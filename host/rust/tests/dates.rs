//! Dates, times, weekdays and markets can be made exactly where the library has them.

use trading_calendar::{ffi, CalendarError, Market, NaiveDate, NaiveTime, Weekday};

/// Whether the library takes the numbers as a date, which it says by error 5 [date].
fn is_date(year: u32, month: u32, day: u32) -> bool {
    ffi::tc_trading_hours(0, year, month, day).error != 5
}

fn days() -> impl Iterator<Item = NaiveDate> {
    std::iter::successors(Some(NaiveDate::MIN), NaiveDate::succ_opt)
}

#[test]
fn a_date_is_made_exactly_where_the_library_has_one() {
    let months = (0..=10_000).flat_map(|year| (0..=13).map(move |month| (year, month)));
    let mut dates = 0;
    for (year, month) in months {
        let made = (0..=32).filter(|&day| NaiveDate::from_ymd_opt(year, month, day).is_some());
        let made: Vec<u32> = made.collect();
        let due: Vec<u32> = (0..=32)
            .filter(|&day| is_date(year as u32, month, day))
            .collect();
        assert_eq!(made, due, "{year}-{month}");
        dates += made.len();
    }
    assert_eq!(dates, 3_652_059);
}

#[test]
fn a_year_that_is_not_1_to_9999_has_no_date() {
    for year in [i32::MIN, -2025, 0, 10_000, 1 << 16 | 2025, i32::MAX] {
        assert_eq!(NaiveDate::from_ymd_opt(year, 1, 1), None);
    }
}

#[test]
fn numbers_past_a_byte_are_no_month_and_no_day() {
    for number in [0, 32, 257, 65_537, u32::MAX] {
        assert_eq!(NaiveDate::from_ymd_opt(2025, number, 1), None);
        assert_eq!(NaiveDate::from_ymd_opt(2025, 1, number), None);
    }
}

#[test]
fn numbers_that_are_no_date_are_error_5() {
    for year in [0, 10_000, 1 << 16 | 2025, 1 << 31 | 2025, u32::MAX] {
        let (month, day) = (1, 1);
        let date = NaiveDate::try_from(ffi::Date { year, month, day });
        assert_eq!(date, Err(CalendarError::InvalidDate));
    }
}

#[test]
fn days_follow_each_other_in_order_and_by_weekday() {
    let mut weekday = Weekday::Mon.num_days_from_monday();
    let mut last = None;
    let mut count = 0;
    for date in days() {
        assert_eq!(date.weekday().num_days_from_monday(), weekday, "{date}");
        assert_eq!(date.pred_opt(), last);
        assert!(last < Some(date));
        (last, weekday, count) = (Some(date), (weekday + 1) % 7, count + 1);
    }
    assert_eq!((last, count), (Some(NaiveDate::MAX), 3_652_059));
}

#[test]
fn dates_and_numbers_go_both_ways() {
    let date = NaiveDate::from_ymd_opt(2001, 1, 31).unwrap();
    assert_eq!((date.year(), date.month(), date.day()), (2001, 1, 31));
    assert_eq!(NaiveDate::try_from(ffi::Date::from(date)), Ok(date));
    assert_eq!(NaiveDate::default().to_string(), "1970-01-01");
    assert_eq!(
        format!("{} {:?}", NaiveDate::MIN, NaiveDate::MAX),
        "0001-01-01 9999-12-31"
    );
    assert_eq!(date.weekday().to_string(), "Wed");
}

#[test]
fn a_time_is_a_second_of_the_day() {
    for seconds in 0..86_400 {
        let time = NaiveTime::try_from(seconds).unwrap();
        assert_eq!(time.num_seconds_from_midnight(), seconds);
        assert_eq!(
            NaiveTime::from_hms_opt(time.hour(), time.minute(), time.second()),
            Some(time)
        );
        assert!(seconds == 0 || NaiveTime::try_from(seconds - 1).unwrap() < time);
    }
    assert_eq!(NaiveTime::default().to_string(), "00:00:00");
}

#[test]
fn numbers_that_are_no_time() {
    for seconds in [86_400, 1 << 17, u32::MAX] {
        assert_eq!(
            NaiveTime::try_from(seconds),
            Err(CalendarError::TimeOutOfRange)
        );
    }
}

#[test]
fn hours_minutes_and_seconds_that_are_no_time() {
    for [hour, minute, second] in [[24, 0, 0], [0, 60, 0], [0, 0, 60], [u32::MAX; 3]] {
        assert_eq!(NaiveTime::from_hms_opt(hour, minute, second), None);
    }
}

#[test]
fn markets_have_the_numbers_codes_and_names_of_the_original() {
    let due = [
        ("NYSE", "New York Stock Exchange"),
        ("NASDAQ", "NASDAQ Stock Market"),
        ("LSE", "London Stock Exchange"),
        ("TSE", "Tokyo Stock Exchange"),
        ("TSX", "Toronto Stock Exchange"),
    ];
    assert_eq!(
        Market::ALL.map(|market| (market.code(), market.name())),
        due
    );
    for (number, market) in (0..).zip(Market::ALL) {
        assert_eq!(
            (market.number(), Market::try_from(number)),
            (number, Ok(market))
        );
        assert_eq!(market.code().to_lowercase().parse(), Ok(market));
        assert_eq!(market.to_string(), market.name());
    }
}
