//! A day on which several markets trade, as a Rust host would look for it with the original's is_trading_day.

use chrono::{Duration, NaiveDate};
use trading_calendar::{Result, TradingCalendar};

/// The first from the start to the end, both included.
pub fn first_common_day(
    calendars: &[TradingCalendar],
    start: NaiveDate,
    end: NaiveDate,
) -> Result<Option<NaiveDate>> {
    let mut day = start;
    while day <= end {
        if all_trade(calendars, day)? {
            return Ok(Some(day));
        }
        day += Duration::days(1);
    }
    Ok(None)
}

/// Asked until one says no.
pub fn all_trade(calendars: &[TradingCalendar], day: NaiveDate) -> Result<bool> {
    for calendar in calendars {
        if !calendar.is_trading_day(day)? {
            return Ok(false);
        }
    }
    Ok(true)
}
