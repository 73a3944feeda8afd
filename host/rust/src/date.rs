//! Dates and weekdays, in the place of chrono's.

use crate::{ffi, CalendarError};
use std::fmt;

/// A Gregorian date of the years 1 to 9999 `[date]`; no other can be made, so no call has to refuse one.
///
/// ```
/// use trading_calendar::{NaiveDate, Weekday};
///
/// let christmas = NaiveDate::from_ymd_opt(2025, 12, 25).unwrap();
/// assert_eq!(christmas.to_string(), "2025-12-25");
/// assert_eq!(christmas.weekday(), Weekday::Thu);
/// assert_eq!(NaiveDate::from_ymd_opt(2025, 2, 29), None);
/// ```
#[derive(Clone, Copy, PartialEq, Eq, PartialOrd, Ord, Hash)]
pub struct NaiveDate {
    // In this order, so that they compare as dates do.
    year: u16,
    month: u8,
    day: u8,
}

impl NaiveDate {
    /// 0001-01-01.
    pub const MIN: NaiveDate = NaiveDate {
        year: 1,
        month: 1,
        day: 1,
    };

    /// 9999-12-31.
    pub const MAX: NaiveDate = NaiveDate {
        year: 9999,
        month: 12,
        day: 31,
    };

    /// None if there is no such date, or its year is not 1 to 9999.
    pub const fn from_ymd_opt(year: i32, month: u32, day: u32) -> Option<NaiveDate> {
        let is_date = 1 <= year && year <= 9999 && 1 <= day && day <= month_length(year, month);
        if !is_date {
            return None;
        }
        Some(NaiveDate {
            year: year as u16,
            month: month as u8,
            day: day as u8,
        })
    }

    /// A date that the library answered: it is proved to be one, and not checked again.
    pub(crate) fn answered(date: ffi::Date) -> NaiveDate {
        NaiveDate {
            year: date.year as u16,
            month: date.month as u8,
            day: date.day as u8,
        }
    }

    /// 1 to 9999.
    pub const fn year(&self) -> i32 {
        self.year as i32
    }

    /// 1 to 12.
    pub const fn month(&self) -> u32 {
        self.month as u32
    }

    /// 1 to 31.
    pub const fn day(&self) -> u32 {
        self.day as u32
    }

    /// By the library: how many days it is from the first Monday of its month `[nth-weekday]`.
    pub fn weekday(&self) -> Weekday {
        let ffi::Date { year, month, day } = (*self).into();
        let first_monday = ffi::tc_nth_weekday_of_month(year, month, 0, 1).date.day;
        match (day + 7 - first_monday) % 7 {
            0 => Weekday::Mon,
            1 => Weekday::Tue,
            2 => Weekday::Wed,
            3 => Weekday::Thu,
            4 => Weekday::Fri,
            5 => Weekday::Sat,
            _ => Weekday::Sun,
        }
    }

    /// The day after it; none after 9999-12-31.
    pub fn succ_opt(&self) -> Option<NaiveDate> {
        let (year, month, day) = (self.year(), self.month(), self.day());
        NaiveDate::from_ymd_opt(year, month, day + 1)
            .or(NaiveDate::from_ymd_opt(year, month + 1, 1))
            .or(NaiveDate::from_ymd_opt(year + 1, 1, 1))
    }

    /// The day before it; none before 0001-01-01.
    pub fn pred_opt(&self) -> Option<NaiveDate> {
        let (year, month, day) = (self.year(), self.month(), self.day());
        NaiveDate::from_ymd_opt(year, month, day - 1)
            .or_else(|| {
                let day = month_length(year, month - 1);
                NaiveDate::from_ymd_opt(year, month - 1, day)
            })
            .or(NaiveDate::from_ymd_opt(year - 1, 12, 31))
    }
}

/// 0 if there is no such month.
const fn month_length(year: i32, month: u32) -> u32 {
    match month {
        1 | 3 | 5 | 7 | 8 | 10 | 12 => 31,
        4 | 6 | 9 | 11 => 30,
        2 if year % 4 == 0 && (year % 100 != 0 || year % 400 == 0) => 29,
        2 => 28,
        _ => 0,
    }
}

/// 1970-01-01, as chrono's.
impl Default for NaiveDate {
    fn default() -> Self {
        NaiveDate {
            year: 1970,
            month: 1,
            day: 1,
        }
    }
}

/// As 2025-12-25.
impl fmt::Display for NaiveDate {
    fn fmt(&self, f: &mut fmt::Formatter<'_>) -> fmt::Result {
        write!(f, "{:04}-{:02}-{:02}", self.year, self.month, self.day)
    }
}

impl fmt::Debug for NaiveDate {
    fn fmt(&self, f: &mut fmt::Formatter<'_>) -> fmt::Result {
        fmt::Display::fmt(self, f)
    }
}

/// Error 5 if there is no such date.
impl TryFrom<ffi::Date> for NaiveDate {
    type Error = CalendarError;

    fn try_from(date: ffi::Date) -> crate::Result<Self> {
        let year = i32::try_from(date.year).unwrap_or(0);
        NaiveDate::from_ymd_opt(year, date.month, date.day).ok_or(CalendarError::InvalidDate)
    }
}

/// A day of the week.
#[derive(Debug, Clone, Copy, PartialEq, Eq, Hash)]
#[allow(missing_docs)]
pub enum Weekday {
    Mon,
    Tue,
    Wed,
    Thu,
    Fri,
    Sat,
    Sun,
}

impl Weekday {
    /// 0 for Monday to 6 for Sunday `[weekday-numbers]`.
    pub const fn num_days_from_monday(&self) -> u32 {
        *self as u32
    }
}

/// As Mon.
impl fmt::Display for Weekday {
    fn fmt(&self, f: &mut fmt::Formatter<'_>) -> fmt::Result {
        fmt::Debug::fmt(self, f)
    }
}
