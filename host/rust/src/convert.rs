//! Between the types of this crate and the numbers of the calls. The dates and times of an answer are proved to be some, and so
//! are not checked again.

use crate::calendar::{Slices, TradingDay};
use crate::{ffi, CalendarError, NaiveDate, NaiveTime, Result, Session, TradingHours};

/// A negative year is asked for as the year 0, which the calls answer in the same way: it is not 1 to 9999.
pub(crate) fn year_number(year: i32) -> u32 {
    u32::try_from(year).unwrap_or(0)
}

/// The value if the number is 0, no error.
fn checked<T>(error: u32, count: u32, date: ffi::Date, value: T) -> Result<T> {
    match error {
        0 => Ok(value),
        _ => Err(CalendarError::answered(error, count, date)),
    }
}

impl From<NaiveDate> for ffi::Date {
    fn from(date: NaiveDate) -> Self {
        ffi::Date {
            year: year_number(date.year()),
            month: date.month(),
            day: date.day(),
        }
    }
}

impl From<NaiveTime> for u32 {
    fn from(time: NaiveTime) -> Self {
        time.num_seconds_from_midnight()
    }
}

impl From<Session> for ffi::Session {
    fn from(session: Session) -> Self {
        ffi::Session {
            start: session.start.into(),
            end: session.end.into(),
        }
    }
}

impl From<TradingHours> for ffi::Hours {
    fn from(hours: TradingHours) -> Self {
        let (has_pre_market, pre_market) = part(hours.pre_market);
        let (has_after_hours, after_hours) = part(hours.after_hours);
        let (has_early_close, early_close) = part(hours.early_close);
        ffi::Hours {
            date: hours.date.into(),
            has_pre_market,
            pre_market,
            regular: hours.regular.into(),
            has_after_hours,
            after_hours,
            has_early_close,
            early_close,
        }
    }
}

/// The has_ field of a part, and its numbers `[host-answers]`.
pub(crate) fn part<T, N: From<T> + Default>(part: Option<T>) -> (u32, N) {
    match part {
        Some(part) => (1, part.into()),
        None => (0, N::default()),
    }
}

impl ffi::Session {
    pub(crate) fn answered(self) -> Session {
        Session {
            start: NaiveTime::answered(self.start),
            end: NaiveTime::answered(self.end),
        }
    }
}

impl ffi::Hours {
    pub(crate) fn answered(self) -> TradingHours {
        let session = |has: u32, session: ffi::Session| (has != 0).then(|| session.answered());
        TradingHours {
            date: NaiveDate::answered(self.date),
            pre_market: session(self.has_pre_market, self.pre_market),
            regular: self.regular.answered(),
            after_hours: session(self.has_after_hours, self.after_hours),
            early_close: (self.has_early_close != 0).then(|| NaiveTime::answered(self.early_close)),
        }
    }
}

impl ffi::OptionalDate {
    pub(crate) fn answered(self) -> Option<NaiveDate> {
        (self.found != 0).then(|| NaiveDate::answered(self.date))
    }
}

impl ffi::OptionalDateResult {
    pub(crate) fn answered(self) -> Result<Option<NaiveDate>> {
        let (found, date) = (self.found, self.date);
        let day = ffi::OptionalDate { found, date }.answered();
        checked(self.error, 0, date, day)
    }
}

impl ffi::BoolResult {
    pub(crate) fn answered(self) -> Result<bool> {
        checked(self.error, 0, self.date, self.value != 0)
    }
}

impl ffi::CountResult {
    pub(crate) fn answered(self) -> Result<usize> {
        checked(self.error, self.count, self.date, self.count as usize)
    }
}

impl ffi::SliceResult {
    pub(crate) fn answered(self) -> Result<Slices> {
        let slices = Slices {
            count: self.count as usize,
            per_day: self.per_day,
            remainder: self.remainder,
        };
        checked(self.error, self.count, self.date, slices)
    }
}

impl ffi::TradingDayResult {
    pub(crate) fn answered(self) -> Result<TradingDay> {
        let day = TradingDay {
            date: NaiveDate::answered(self.date),
            distance: self.distance,
            outside: self.outside != 0,
        };
        checked(self.error, 0, self.date, day)
    }
}

impl ffi::SessionResult {
    pub(crate) fn answered(self) -> Result<Session> {
        let none = ffi::Date::default();
        checked(self.error, 0, none, self.session.answered())
    }
}

impl ffi::HoursResult {
    pub(crate) fn answered(self) -> Result<TradingHours> {
        checked(self.error, 0, self.hours.date, self.hours.answered())
    }
}
