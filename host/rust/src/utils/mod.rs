//! Weekdays of a month and Easter, as src/utils of the original.

pub mod easter;

pub use easter::{calculate_easter_monday, calculate_good_friday};

use crate::convert::year_number;
use crate::{ffi, NaiveDate, Weekday};

/// The first such weekday of the month, and nth - 1 weeks on; with nth below 0 the last such weekday, and -nth - 1 weeks back. None if
/// that day's month has another number, whatever its year is, if nth is 0 or beyond 255 either way, or below 0 in December 9999
/// `[nth-weekday]`.
///
/// ```
/// use trading_calendar::{utils::nth_weekday_of_month, NaiveDate, Weekday};
///
/// let thanksgiving = nth_weekday_of_month(2025, 11, Weekday::Thu, 4);
/// assert_eq!(thanksgiving, NaiveDate::from_ymd_opt(2025, 11, 27));
/// let second_friday_from_the_end = nth_weekday_of_month(2025, 11, Weekday::Fri, -2);
/// assert_eq!(second_friday_from_the_end, NaiveDate::from_ymd_opt(2025, 11, 21));
/// assert_eq!(nth_weekday_of_month(2025, 11, Weekday::Thu, 0), None);
/// ```
pub fn nth_weekday_of_month(
    year: i32,
    month: u32,
    weekday: Weekday,
    nth: i32,
) -> Option<NaiveDate> {
    let weekday = weekday.num_days_from_monday();
    ffi::tc_nth_weekday_of_month(year_number(year), month, weekday, nth).answered()
}

/// The last such weekday of the month, which is the answer for nth -1; none in December 9999 `[last-weekday]`.
///
/// ```
/// use trading_calendar::{utils::last_weekday_of_month, NaiveDate, Weekday};
///
/// let memorial_day = last_weekday_of_month(2025, 5, Weekday::Mon);
/// assert_eq!(memorial_day, NaiveDate::from_ymd_opt(2025, 5, 26));
/// ```
pub fn last_weekday_of_month(year: i32, month: u32, weekday: Weekday) -> Option<NaiveDate> {
    let weekday = weekday.num_days_from_monday();
    ffi::tc_last_weekday_of_month(year_number(year), month, weekday).answered()
}
