//! The Rust binding of a proved trading-day calendar for NYSE, NASDAQ, LSE, TSE and TSX: safe types over the calls of its static
//! library. Types, names and modules are those of the repository danjloveless/trading-calendar at commit 7b03202e8e ("the
//! original"), and so are the answers. Labels in brackets, as `[easter]`, are those of docs/SCOPE.md.
//!
//! ```
//! use trading_calendar::{CalendarError, Market, NaiveDate, TradingCalendar};
//!
//! let nyse = TradingCalendar::new(Market::NYSE)?;
//! let christmas = NaiveDate::from_ymd_opt(2025, 12, 25).unwrap();
//! assert!(!nyse.is_trading_day(christmas)?);
//! assert_eq!(nyse.next_trading_day(christmas)?.to_string(), "2025-12-26");
//!
//! let early = NaiveDate::from_ymd_opt(2019, 1, 1).unwrap();
//! let error = nyse.is_trading_day(early).unwrap_err();
//! assert_eq!(error, CalendarError::DateOutOfRange(early));
//! assert_eq!(error.number(), Some(1)); // in the table of errors of docs/SCOPE.md
//! # Ok::<(), CalendarError>(())
//! ```
//!
//! # What changes from the original
//!
//! | In the original | Here |
//! |---|---|
//! | chrono's `NaiveDate`, `NaiveTime`, `Weekday` | this crate's, with the few methods that such code uses; `year`, `month`, `day`, `weekday`, `hour`, `minute`, `second` and `num_seconds_from_midnight` are methods of the types, without `Datelike` and `Timelike`. From chrono's: `NaiveDate::from_ymd_opt(d.year(), d.month(), d.day())`, `NaiveTime::try_from(t.num_seconds_from_midnight())` |
//! | dates of any year | of the years 1 to 9999 `[date]`: `from_ymd_opt` gives none for others |
//! | times with parts of a second | whole seconds `[time]`: dropping the parts changes no answer where sessions start and end on whole seconds, as those of the markets do |
//! | `next_trading_day`, `previous_trading_day` give a date | a `Result`, `NoTradingDayFound` at the ends of these years `[next]` `[previous]` |
//! | `nth_weekday_of_month` takes nth as `u8` | as `i32`, from a `u8` by `.into()`; below 0 it counts from the end of the month, and beyond 255 either way is none `[nth-weekday]` |
//! | `nth_weekday_of_month` panics or wraps for nth 0, `last_weekday_of_month` answers December for month 0 | none `[nth-weekday]` `[last-weekday]` |
//! | `trading_days_in_month` outside the years 1 to 9999: `DateOutOfRange` with the 1st of that month | with 1970-01-01, for a negative year too `[month-error-date]` |
//! | `calculate_easter` and its neighbours answer outside the years 1 to 9999 | `InvalidDateCalculation` `[easter]` |
//! | `CalendarError` | has more variants, and other texts |
//! | `timezone`, `is_open_now`, `next_open`, `next_close`, `DateTime`, `Utc` | not there `[left-out]`: convert to the exchange's clock (America/New_York, Europe/London, Asia/Tokyo, America/Toronto) and ask `is_open` |
//! | `HolidayCache`, `Holiday`, the feature `serialization` | not there `[left-out]` |
//! | `MarketImpl` with the types behind it, `constants` | not there: the rules are in the library, and `trading_hours` gives the times |
//!
//! Added are `is_open`, `next_trading_day_with_distance`, `previous_trading_day_with_distance`, `slice_order`, `slice_order_to_vec` and
//! `month_sheet` of a calendar, `MarketSet` with its `common_trading_day`, `Market::ALL` and `Market::number`, `CalendarError::number`,
//! and `try_from` for a market from its number, a time from its second and a date from an `ffi::Date`.
//!
//! Nothing here panics. A date, a time and a market are valid once they are made, so errors 5, 7 and 8 of `[errors]` come from
//! `try_from`, and from the calls on numbers in [`ffi`].

#![deny(unsafe_code)]
#![deny(
    clippy::unwrap_used,
    clippy::expect_used,
    clippy::panic,
    clippy::indexing_slicing
)]
#![warn(missing_docs)]

pub mod calendar;
mod convert;
mod date;
pub mod error;
#[allow(unsafe_code, missing_docs)]
pub mod ffi;
pub mod market_set;
pub mod markets;
pub mod schedule;
pub mod sheet;
mod time;
pub mod utils;

pub use calendar::{Slices, TradingCalendar, TradingDay};
pub use date::{NaiveDate, Weekday};
pub use error::{CalendarError, Result};
pub use market_set::MarketSet;
pub use markets::Market;
pub use schedule::{Session, TradingHours};
pub use time::NaiveTime;

/// The first year in which `is_trading_day`, `is_holiday`, `is_open`, month lists, counts, slices and common days answer.
pub const MIN_YEAR: i32 = 2020;
/// The last such year.
pub const MAX_YEAR: i32 = 2030;
