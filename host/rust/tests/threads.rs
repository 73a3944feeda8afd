//! A calendar is shared between threads, and each gets the same answers.

mod days;

use days::answered_days;
use std::sync::Arc;
use std::thread;
use trading_calendar::*;

const fn is_shared<T: Send + Sync + Copy>() {}

const _: () = is_shared::<TradingCalendar>();
const _: () = is_shared::<TradingHours>();
const _: () = is_shared::<TradingDay>();
const _: () = is_shared::<Slices>();
const _: () = is_shared::<MarketSet>();

/// The errors too, though they are not copied.
const fn is_sent<T: Send + Sync>() {}

const _: () = is_sent::<CalendarError>();

type Answers = Vec<(Result<bool>, Result<NaiveDate>, TradingHours)>;

/// On every day of 2020 to 2030.
fn answers(calendar: &TradingCalendar) -> Answers {
    let of_day = |date| {
        let (trades, next) = (
            calendar.is_trading_day(date),
            calendar.next_trading_day(date),
        );
        (trades, next, calendar.trading_hours(date))
    };
    answered_days().map(of_day).collect()
}

#[test]
fn every_thread_gets_the_same_answers() {
    for market in Market::ALL {
        let calendar = Arc::new(TradingCalendar::new(market).unwrap());
        let due = answers(&calendar);
        assert_eq!(due.len(), 4018);
        let threads: [_; 4] = std::array::from_fn(|_| {
            let calendar = Arc::clone(&calendar);
            thread::spawn(move || answers(&calendar))
        });
        let same = threads.map(|thread| thread.join().unwrap() == due);
        assert_eq!(same, [true; 4], "{market}");
    }
}
