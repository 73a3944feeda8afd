//! A stand-in for chrono with the meaning of docs/SCOPE.md [calendar] and no more: the leap rule, 2001-01-01 is a Monday, and
//! adding days adds to the day number. Zones and the clock are there for the original to compile; they are never asked.

#![forbid(unsafe_code)]

mod day_number;
mod duration;
mod naive_date;
mod naive_time;
mod weekday;
mod year_day;
mod zone;

pub use duration::Duration;
pub use naive_date::{Datelike, NaiveDate};
pub use naive_time::{NaiveDateTime, NaiveTime, Timelike};
pub use weekday::Weekday;
pub use zone::{DateTime, LocalResult, TimeZone, Utc};
