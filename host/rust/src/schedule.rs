//! Sessions and the hours of a date, as src/schedule.rs of the original.
//!
//! ```
//! use trading_calendar::{NaiveDate, NaiveTime, Session, TradingHours};
//!
//! let time = |hour, minute| NaiveTime::from_hms_opt(hour, minute, 0).unwrap();
//! let regular = Session::new(time(9, 30), time(16, 0))?;
//! assert!(regular.contains(time(9, 30)) && !regular.contains(time(16, 0)));
//!
//! let date = NaiveDate::from_ymd_opt(2025, 12, 24).unwrap();
//! let hours = TradingHours::new(date, regular, None, None).with_early_close(time(13, 0))?;
//! assert_eq!(hours.market_close(), time(13, 0));
//! assert_eq!(hours.to_string(), "2025-12-24: Regular 09:30 - 16:00 (Early Close: 13:00)");
//! # Ok::<(), trading_calendar::CalendarError>(())
//! ```

use crate::convert::part;
use crate::time::ToTheMinute;
use crate::{ffi, NaiveDate, NaiveTime, Result};
use std::fmt;

/// From a start to an end, over midnight if the end is before the start.
#[derive(Debug, Clone, Copy, PartialEq, Eq, Hash)]
pub struct Session {
    /// Its first second
    pub start: NaiveTime,
    /// The second after its last
    pub end: NaiveTime,
}

impl Session {
    /// `InvalidSession` if both are equal `[session-new]`.
    pub fn new(start: NaiveTime, end: NaiveTime) -> Result<Self> {
        ffi::tc_session_new(start.into(), end.into()).answered()
    }

    /// Whether the time is in it; with equal ends, which the open fields allow, every time is `[contains]`.
    pub fn contains(&self, time: NaiveTime) -> bool {
        ffi::tc_session_contains((*self).into(), time.into()).value != 0
    }
}

/// As 09:30 - 16:00.
impl fmt::Display for Session {
    fn fmt(&self, f: &mut fmt::Formatter<'_>) -> fmt::Result {
        write!(f, "{} - {}", ToTheMinute(self.start), ToTheMinute(self.end))
    }
}

/// The hours of a date `[hours-record]`.
#[derive(Debug, Clone, Copy, PartialEq, Eq, Hash)]
pub struct TradingHours {
    /// The date
    pub date: NaiveDate,
    /// The session before the regular one, if any
    pub pre_market: Option<Session>,
    /// The regular session; its end stays also on a day with an early close
    pub regular: Session,
    /// The session after the regular one, if any
    pub after_hours: Option<Session>,
    /// The close of the regular session, if it is not its end
    pub early_close: Option<NaiveTime>,
}

impl TradingHours {
    /// The record of these parts, with no early close `[hours-new]`.
    pub fn new(
        date: NaiveDate,
        regular: Session,
        pre_market: Option<Session>,
        after_hours: Option<Session>,
    ) -> Self {
        let ffi::Date { year, month, day } = date.into();
        let (has_pre_market, pre_market) = part(pre_market);
        let (has_after_hours, after_hours) = part(after_hours);
        let answer = ffi::tc_trading_hours_new(
            year,
            month,
            day,
            regular.into(),
            has_pre_market,
            pre_market,
            has_after_hours,
            after_hours,
        );
        answer.hours.answered()
    }

    /// With its early close set; `InvalidTime` if that is not before the regular end `[with-early-close]`.
    pub fn with_early_close(self, early_close: NaiveTime) -> Result<Self> {
        ffi::tc_with_early_close(self.into(), early_close.into()).answered()
    }

    /// Whether it has an early close `[is-early-close]`.
    pub fn is_early_close(&self) -> bool {
        ffi::tc_is_early_close((*self).into()).value != 0
    }

    /// The early close if it has one, else the regular end `[market-close]`.
    pub fn market_close(&self) -> NaiveTime {
        NaiveTime::answered(ffi::tc_market_close((*self).into()).seconds)
    }

    /// Whether one of its sessions is open at the time, on whatever day: holidays are not consulted `[is-open-at]`.
    pub fn is_open_at(&self, time: NaiveTime) -> bool {
        ffi::tc_is_open_at((*self).into(), time.into()).value != 0
    }
}

/// As 2025-03-10: Regular 09:30 - 16:00, and then the parts that it has.
impl fmt::Display for TradingHours {
    fn fmt(&self, f: &mut fmt::Formatter<'_>) -> fmt::Result {
        write!(f, "{}: Regular {}", self.date, self.regular)?;
        if let Some(session) = self.pre_market {
            write!(f, ", Pre-Market {session}")?;
        }
        if let Some(session) = self.after_hours {
            write!(f, ", After-Hours {session}")?;
        }
        if let Some(time) = self.early_close {
            write!(f, " (Early Close: {})", ToTheMinute(time))?;
        }
        Ok(())
    }
}
