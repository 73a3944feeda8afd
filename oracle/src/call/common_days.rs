//! A day good for several markets, on any numbers at all: what the library answers, and what the original's trading days make.

use crate::call::{calendar, date};
use crate::library::{tc_common_trading_day, Date};
use crate::numbers::{of_count, of_optional_date, Numbers, OnNumbers};
use crate::original::common_days::first_common_day;
use crate::original::of_date;
use crate::original::ranges::count_trading_days;
use trading_calendar::TradingCalendar;

/// The call takes the set of markets, the start and the end.
#[derive(Clone, Copy)]
pub struct CommonTradingDay;

impl OnNumbers for CommonTradingDay {
    fn name(self) -> &'static str {
        "common_trading_day"
    }

    fn library(self, input: &[u32]) -> Numbers {
        let [set, y, m, d, end_y, end_m, end_d] = seven(input);
        let set = u8::try_from(set).expect("a byte");
        of_optional_date(tc_common_trading_day(set, y, m, d, end_y, end_m, end_d))
    }

    /// Error 1 is that of a member's count. Else the first of the days, though which one is left free [common-day].
    fn original(self, input: &[u32]) -> Option<Numbers> {
        let [set, y, m, d, end_y, end_m, end_d] = seven(input);
        let (members, start, end) = (members(set)?, date(y, m, d)?, date(end_y, end_m, end_d)?);
        let counted = count_trading_days(members.first()?, start, end);
        if counted.error != 0 {
            return Some(of_count(counted));
        }
        let day = first_common_day(&members, start, end).expect("days of 2020 to 2030");
        Some(found(day.map(of_date)))
    }

    /// It brings nothing with it.
    fn error(self, number: u32, _: &[u32]) -> Numbers {
        vec![number, 0, 0, 0, 0]
    }
}

/// A day or none, without an error.
pub fn found(day: Option<Date>) -> Numbers {
    day.map_or(vec![0; 5], |it| vec![0, 1, it.year, it.month, it.day])
}

fn seven(input: &[u32]) -> [u32; 7] {
    let input = input.try_into();
    input.expect("a set, a start and an end")
}

/// The bit of a market in a set [market-set].
pub fn bit(market: u32) -> u32 {
    1 << market
}

/// The calendars of its markets. None if a bit is no market's.
fn members(set: u32) -> Option<Vec<TradingCalendar>> {
    let markets = (0..u8::BITS).filter(|&market| set & bit(market) != 0);
    markets.map(calendar).collect()
}
