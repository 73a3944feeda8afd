//! Every error is reached, with its number and what is returned with it; no input panics.

use std::collections::BTreeSet;
use std::error::Error;
use trading_calendar::sheet::month_sheet;
use trading_calendar::utils::easter::*;
use trading_calendar::CalendarError::{self, *};
use trading_calendar::*;

fn date(year: i32, month: u32, day: u32) -> NaiveDate {
    NaiveDate::from_ymd_opt(year, month, day).unwrap()
}

fn time(hour: u32) -> NaiveTime {
    NaiveTime::from_hms_opt(hour, 0, 0).unwrap()
}

fn nyse() -> TradingCalendar {
    TradingCalendar::default()
}

#[test]
fn outside_2020_to_2030() {
    let (before, after) = (date(2019, 12, 31), date(2031, 1, 1));
    for day in [before, after, NaiveDate::MIN, NaiveDate::MAX] {
        let due = DateOutOfRange(day);
        assert_eq!(nyse().is_trading_day(day), Err(due.clone()));
        assert_eq!(nyse().is_holiday(day), Err(due.clone()));
        assert_eq!(nyse().is_open(day, time(10)), Err(due));
    }
    let last = date(2030, 12, 31);
    let count = nyse().count_trading_days(last, after);
    assert_eq!(count, Err(DateOutOfRange(last)));
    assert_eq!(nyse().count_trading_days(after, last), Ok(0));
    let slices = nyse().slice_order_to_vec(100, last, after);
    assert_eq!(slices, Err(DateOutOfRange(last)));
    let slices = nyse().slice_order_to_vec(100, after, last);
    assert_eq!(slices, Err(NoTradingDayInRange));
    let set = MarketSet::from(Market::ALL);
    let day = set.common_trading_day(last, after);
    assert_eq!(day, Err(DateOutOfRange(last)));
    assert_eq!(set.common_trading_day(after, last), Ok(None));
}

/// [month-error-date]: also for years and months that only the type of the number has.
#[test]
fn months_outside_2020_to_2030() {
    let due = [
        (2019, 12, date(2019, 12, 1)),
        (9999, 1, date(9999, 1, 1)),
        (2019, 13, NaiveDate::default()),
        (0, 1, NaiveDate::default()),
        (10_000, 1, NaiveDate::default()),
        (-1, 1, NaiveDate::default()),
        (-2025, 3, NaiveDate::default()),
        (i32::MIN, u32::MAX, NaiveDate::default()),
        (i32::MAX, 0, NaiveDate::default()),
    ];
    for (year, month, day) in due {
        let due = DateOutOfRange(day);
        assert_eq!(nyse().trading_days_in_month(year, month), Err(due.clone()));
        assert_eq!(nyse().month_sheet(year, month), Err(due));
    }
}

#[test]
fn months_that_are_none() {
    for month in [0, 13, 100, 999_999_999, u32::MAX] {
        let error = nyse().trading_days_in_month(2025, month).unwrap_err();
        assert_eq!(error.number(), Some(2));
        assert_eq!(nyse().month_sheet(2025, month), Err(error));
    }
}

#[test]
fn years_without_easter() {
    for year in [i32::MIN, -1, 0, 10_000, i32::MAX] {
        assert_no_easter(calculate_easter(year));
        assert_no_easter(calculate_good_friday(year));
        assert_no_easter(calculate_easter_monday(year));
    }
}

fn assert_no_easter(answer: Result<NaiveDate>) {
    assert!(matches!(answer, Err(InvalidDateCalculation(_))));
}

#[test]
fn no_trading_day_is_left() {
    for market in Market::ALL {
        let calendar = TradingCalendar::new(market).unwrap();
        let next = calendar.next_trading_day(NaiveDate::MAX);
        assert_eq!(next, Err(NoTradingDayFound));
        let previous = calendar.previous_trading_day(NaiveDate::MIN);
        assert_eq!(previous, Err(NoTradingDayFound));
    }
}

#[test]
fn a_buffer_that_is_too_small_stays_as_it_was() {
    let text = b"market=4\nyear=2022\nmonth=12\n";
    let mut sheet = [b'.'; 98];
    assert_eq!(month_sheet(text, &mut sheet[..97]), Err(BufferTooSmall(98)));
    assert_eq!(month_sheet(text, &mut []), Err(BufferTooSmall(98)));
    assert_eq!(sheet, [b'.'; 98]);
    assert_eq!(month_sheet(text, &mut sheet), Ok(98));
    let tsx = TradingCalendar::new(Market::TSX).unwrap();
    assert_eq!(tsx.month_sheet(2022, 12).unwrap().as_bytes(), sheet);
}

/// The 29th of February 2019, which is no date; before 2020, a Monday, its Friday, its Saturday, and after 2030 two.
fn numbers_of_dates() -> [ffi::Date; 7] {
    [
        (2019, 2, 29),
        (2019, 1, 1),
        (2025, 3, 3),
        (2025, 3, 7),
        (2025, 3, 8),
        (2031, 1, 1),
        (2031, 1, 2),
    ]
    .map(|(year, month, day)| ffi::Date { year, month, day })
}

/// Where an error can come with later ones, it is the first. None changes the buffer.
#[test]
fn errors_of_slices_in_their_order() {
    let [no_date, before, monday, friday, saturday, after, late] = numbers_of_dates();
    let none = ffi::Date::default();
    let due = [
        ((5, no_date, after), (8, 0, none)),
        ((0, no_date, after), (5, 0, none)),
        ((0, after, no_date), (5, 0, none)),
        ((0, late, after), (1, 0, late)),
        ((0, before, monday), (1, 0, before)),
        ((0, friday, monday), (11, 0, none)),
        ((0, saturday, saturday), (11, 0, none)),
        ((0, monday, friday), (9, 5, none)),
    ];
    let mut out = [7; 4];
    for ((market, start, end), (error, count, date)) in due {
        let due = ffi::SliceResult {
            error,
            count,
            date,
            ..Default::default()
        };
        let answer = ffi::slice_order(market, 100, start, end, &mut out);
        assert_eq!((answer, out), (due, [7; 4]));
    }
}

/// Sets that only the byte has, and dates that only the numbers have. On that Saturday no market trades.
#[test]
fn errors_of_common_days_in_their_order() {
    let [no_date, before, monday, _, saturday, after, late] = numbers_of_dates();
    let none = ffi::Date::default();
    let no_set = |set: &u8| *set == 0 || set >> Market::ALL.len() != 0;
    let (no_sets, sets): (Vec<u8>, Vec<u8>) = (0..=u8::MAX).partition(no_set);
    assert_eq!((no_sets.len(), sets.len()), (225, 31));
    let check = |set: u8, start, end, (error, date)| {
        let due = ffi::OptionalDateResult {
            error,
            date,
            ..Default::default()
        };
        let answer = ffi::common_trading_day(set, start, end);
        assert_eq!(answer, due, "{set} {start:?} {end:?}");
    };
    for set in no_sets {
        check(set, monday, monday, (12, none));
        check(set, no_date, after, (12, none));
        check(set, before, monday, (12, none));
        check(set, monday, none, (12, none));
    }
    for set in sets {
        check(set, no_date, after, (5, none));
        check(set, after, no_date, (5, none));
        check(set, late, after, (1, late));
        check(set, before, monday, (1, before));
        check(set, saturday, saturday, (0, none));
        check(set, saturday, monday, (0, none));
    }
}

/// One of each variant, from the call that gives it.
fn one_of_each() -> [CalendarError; 13] {
    let session = Session {
        start: time(9),
        end: time(16),
    };
    let hours = TradingHours::new(date(2025, 3, 10), session, None, None);
    [
        nyse().is_trading_day(date(2019, 1, 1)).unwrap_err(),
        nyse().trading_days_in_month(2025, 13).unwrap_err(),
        Session::new(time(9), time(9)).unwrap_err(),
        hours.with_early_close(time(16)).unwrap_err(),
        NaiveDate::try_from(ffi::Date::default()).unwrap_err(),
        nyse().next_trading_day(NaiveDate::MAX).unwrap_err(),
        NaiveTime::try_from(86_400).unwrap_err(),
        Market::try_from(5).unwrap_err(),
        month_sheet(b"market=0\nyear=2025\nmonth=1\n", &mut []).unwrap_err(),
        month_sheet(b"", &mut []).unwrap_err(),
        nyse()
            .slice_order_to_vec(100, date(2025, 12, 25), date(2025, 12, 25))
            .unwrap_err(),
        MarketSet::default()
            .common_trading_day(date(2025, 3, 10), date(2025, 3, 10))
            .unwrap_err(),
        "FTSE".parse::<Market>().unwrap_err(),
    ]
}

#[test]
fn each_error_has_its_number_and_a_text_of_its_own() {
    let errors = one_of_each();
    let due = [1, 2, 3, 4, 5, 6, 7, 8, 9, 10, 11, 12].map(Some);
    assert_eq!(errors.each_ref().map(CalendarError::number)[..12], due);
    assert_eq!(errors[12].number(), None);
    assert!(matches!(errors[3], InvalidTime(_)));
    assert!(matches!(errors[12], InvalidConfiguration(_)));
    let text = |error: &CalendarError| (error as &dyn Error).to_string();
    let texts: BTreeSet<String> = errors.iter().map(text).collect();
    assert_eq!(texts.len(), errors.len());
    let count = nyse().count_trading_days(date(2026, 1, 1), date(2031, 1, 1));
    let due = "error 1 at 2026-01-01: not every date asked for is in 2020 to 2030";
    assert_eq!(text(&count.unwrap_err()), due);
}

#[test]
fn the_library_gives_the_numbers_that_the_types_rule_out() {
    let sheet = month_sheet(b"market=5\nyear=2025\nmonth=1\n", &mut []);
    assert_eq!(sheet, Err(UnknownMarket));
    assert_eq!(ffi::tc_is_trading_day(5, 2025, 1, 1).error, 8);
    assert_eq!(ffi::tc_is_trading_day(0, 2025, 2, 29).error, 5);
    assert_eq!(ffi::tc_is_open(0, 2025, 1, 1, 86_400).error, 7);
}
