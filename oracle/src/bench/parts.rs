//! Where the time of the original goes: parts of its is_trading_day alone, on the same dates.

use crate::bench::times::{mean, Times};
use crate::original::{calendars, MARKETS};
use crate::ANSWERED_YEARS;
use chrono::{Datelike, NaiveDate};
use std::collections::HashSet;
use trading_calendar::markets::canada::holidays::get_canada_holidays;
use trading_calendar::markets::japan::holidays::get_japan_holidays;
use trading_calendar::markets::uk::holidays::get_uk_holidays;
use trading_calendar::markets::us::holidays::get_us_holidays;
use trading_calendar::utils::HolidayCache;
use trading_calendar::{Market, TradingCalendar};

const NAMES: [&str; 5] = [
    "the whole call",
    "`HolidayCache::get_or_compute`: lock, look up, clone the year's set, and drop the clone",
    "of that, cloning the year's `HashSet` and dropping the clone",
    "of that, locking and unlocking, by `HolidayCache::len`",
    "`HashSet::contains`",
];

pub fn run(rounds: usize, days: &[NaiveDate]) {
    let markets: Vec<Parts> = calendars()
        .into_iter()
        .zip(MARKETS)
        .map(Parts::new)
        .collect();
    let mut times = vec![vec![Times::default(); 5]; NAMES.len()];
    for market in (0..rounds).flat_map(|_| 0..5) {
        let parts: &Parts = &markets[market];
        times[0][market].measure(days, |date| parts.calendar.is_trading_day(*date));
        times[1][market].measure(days, |date| parts.cached(*date));
        times[2][market].measure(days, |date| parts.set_of(*date).clone());
        times[3][market].measure(days, |_| parts.cache.len());
        times[4][market].measure(days, |date| parts.set_of(*date).contains(date));
    }
    print(&times);
}

fn print(times: &[Vec<Times>]) {
    println!(
        "\nParts of the original's is_trading_day, each measured alone, mean of the markets:\n"
    );
    println!("| Part | ns, median | least | Share of the whole, least |");
    println!("|---|---|---|---|");
    let whole = mean(times[0].iter(), Times::least);
    for (name, times) in NAMES.iter().zip(times) {
        let (median, least) = (
            mean(times.iter(), Times::median),
            mean(times.iter(), Times::least),
        );
        let share = 100.0 * least / whole;
        println!("| {name} | {median:.1} | {least:.1} | {share:.0} % |");
    }
}

/// The parts of a market's calendar, each with all its years.
struct Parts {
    calendar: TradingCalendar,
    cache: HolidayCache,
    sets: Vec<HashSet<NaiveDate>>,
}

impl Parts {
    fn new((calendar, market): (TradingCalendar, Market)) -> Parts {
        let years = ANSWERED_YEARS.map(|year| year as i32);
        let sets: Vec<_> = years.clone().map(|year| holidays(market, year)).collect();
        let cache = HolidayCache::default();
        for (year, set) in years.zip(&sets) {
            cache.insert(year, set.clone());
        }
        Parts {
            calendar,
            cache,
            sets,
        }
    }

    fn set_of(&self, date: NaiveDate) -> &HashSet<NaiveDate> {
        &self.sets[(date.year() - *ANSWERED_YEARS.start() as i32) as usize]
    }

    fn cached(&self, date: NaiveDate) -> HashSet<NaiveDate> {
        let compute = || unreachable!("every year is in the cache");
        self.cache.get_or_compute(date.year(), compute)
    }
}

fn holidays(market: Market, year: i32) -> HashSet<NaiveDate> {
    match market {
        Market::NYSE | Market::NASDAQ => get_us_holidays(year),
        Market::LSE => get_uk_holidays(year),
        Market::TSE => get_japan_holidays(year),
        Market::TSX => get_canada_holidays(year),
    }
}
