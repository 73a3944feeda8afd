//! An order sliced over its days as a Rust host would do it with the original's count.

use chrono::NaiveDate;
use trading_calendar::{Result, TradingCalendar};

/// The shares per day, how many are left, and the shares of each day: the first carry one more until those left are spent.
pub struct Slices {
    pub per_day: u32,
    pub remainder: u32,
    pub list: Vec<u32>,
}

impl Slices {
    /// Over so many days. Over none, all shares are left.
    pub fn new(quantity: u32, count: u32) -> Slices {
        let per_day = quantity.checked_div(count).unwrap_or(0);
        let remainder = quantity - per_day * count;
        let shares = |day| per_day + u32::from(day < remainder);
        Slices {
            per_day,
            remainder,
            list: (0..count).map(shares).collect(),
        }
    }
}

pub fn slice_order(
    calendar: &TradingCalendar,
    quantity: u32,
    start: NaiveDate,
    end: NaiveDate,
) -> Result<Slices> {
    let count = calendar.count_trading_days(start, end)?;
    Ok(Slices::new(quantity, count as u32))
}
