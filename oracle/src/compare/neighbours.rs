//! next_trading_day and previous_trading_day: every market, every day of the years 1 to 9999.

use crate::added::without_neighbour;
use crate::call::Call;
use crate::compare::{all_days, ALL_DAYS, ANSWERED_DAYS, MARKETS};
use crate::library::*;
use crate::original::{calendars, of_neighbour, Neighbour};
use crate::tally::Tally;
use crate::ANSWERED_YEARS;
use trading_calendar::TradingCalendar;

/// Whether all is right.
pub fn run() -> bool {
    neighbours(
        Call::NextTradingDay,
        tc_next_trading_day,
        TradingCalendar::next_trading_day,
    ) & neighbours(
        Call::PreviousTradingDay,
        tc_previous_trading_day,
        TradingCalendar::previous_trading_day,
    )
}

/// But for the days from which the original leaves these years, which have an added answer.
fn neighbours(call: Call, library: OnDate<TradingDayResult>, original: Neighbour) -> bool {
    let calendars = calendars();
    let mut inside = Tally::new(format!("{}, years 2020 to 2030", call.name()));
    let mut outside = Tally::new(format!("{}, other years", call.name()));
    for (market, Date { year, month, day }, naive) in all_days() {
        let neighbour = original(&calendars[market as usize], naive);
        let Some(due) = of_neighbour(naive, neighbour) else {
            continue;
        };
        let tally = if ANSWERED_YEARS.contains(&year) {
            &mut inside
        } else {
            &mut outside
        };
        let answer = library(market, year, month, day);
        tally.compare(&[market, year, month, day], answer, due);
    }
    let left_out = without_neighbour(call).len() as u64;
    inside.close(MARKETS * ANSWERED_DAYS)
        & outside.close(MARKETS * (ALL_DAYS - ANSWERED_DAYS) - left_out)
}
