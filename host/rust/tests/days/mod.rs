//! For the tests that ask about many days.

use trading_calendar::{NaiveDate, MAX_YEAR, MIN_YEAR};

/// Every day of 2020 to 2030, in order.
pub fn answered_days() -> impl Iterator<Item = NaiveDate> {
    let first = NaiveDate::from_ymd_opt(MIN_YEAR, 1, 1);
    let days = std::iter::successors(first, NaiveDate::succ_opt);
    days.take_while(|date| date.year() <= MAX_YEAR)
}
