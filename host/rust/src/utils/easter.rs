//! Easter and the days beside it, as src/utils/easter.rs of the original. The library answers none for a year that is not 1 to
//! 9999; here that is `InvalidDateCalculation`.
//!
//! ```
//! use trading_calendar::utils::easter::*;
//!
//! assert_eq!(calculate_easter(2024)?.to_string(), "2024-03-31");
//! assert_eq!(calculate_good_friday(2024)?.to_string(), "2024-03-29");
//! assert_eq!(calculate_easter_monday(2024)?.to_string(), "2024-04-01");
//! # Ok::<(), trading_calendar::CalendarError>(())
//! ```

use crate::convert::year_number;
use crate::{ffi, CalendarError, NaiveDate, Result};

/// Easter Sunday of the year `[easter]`.
pub fn calculate_easter(year: i32) -> Result<NaiveDate> {
    of_year(ffi::tc_calculate_easter, year)
}

/// The Friday two days before it `[good-friday]`.
pub fn calculate_good_friday(year: i32) -> Result<NaiveDate> {
    of_year(ffi::tc_calculate_good_friday, year)
}

/// The Monday after it `[easter-monday]`.
pub fn calculate_easter_monday(year: i32) -> Result<NaiveDate> {
    of_year(ffi::tc_calculate_easter_monday, year)
}

fn of_year(call: extern "C" fn(u32) -> ffi::OptionalDate, year: i32) -> Result<NaiveDate> {
    call(year_number(year)).answered().ok_or_else(|| {
        CalendarError::InvalidDateCalculation(format!("the year {year} is not 1 to 9999"))
    })
}
