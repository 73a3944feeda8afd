//! Times of the day, in the place of chrono's.

use crate::CalendarError;
use std::fmt;

const SECONDS_OF_A_DAY: u32 = 86_400;

/// A whole second of the day on the exchange's own clock `[time]`; no other can be made, so no call has to refuse one.
///
/// ```
/// use trading_calendar::NaiveTime;
///
/// let open = NaiveTime::from_hms_opt(9, 30, 0).unwrap();
/// assert_eq!(open.num_seconds_from_midnight(), 34_200);
/// assert_eq!(open.to_string(), "09:30:00");
/// assert_eq!(NaiveTime::try_from(34_200), Ok(open));
/// assert_eq!(NaiveTime::from_hms_opt(24, 0, 0), None);
/// ```
#[derive(Clone, Copy, Default, PartialEq, Eq, PartialOrd, Ord, Hash)]
pub struct NaiveTime {
    seconds: u32,
}

impl NaiveTime {
    /// None if the day has no such second.
    pub const fn from_hms_opt(hour: u32, minute: u32, second: u32) -> Option<NaiveTime> {
        if hour >= 24 || minute >= 60 || second >= 60 {
            return None;
        }
        Some(NaiveTime {
            seconds: 3600 * hour + 60 * minute + second,
        })
    }

    /// A time that the library answered: it is proved to be one, and not checked again.
    pub(crate) fn answered(seconds: u32) -> NaiveTime {
        NaiveTime { seconds }
    }

    /// 0 to 86399.
    pub const fn num_seconds_from_midnight(&self) -> u32 {
        self.seconds
    }

    /// 0 to 23.
    pub const fn hour(&self) -> u32 {
        self.seconds / 3600
    }

    /// 0 to 59.
    pub const fn minute(&self) -> u32 {
        self.seconds / 60 % 60
    }

    /// 0 to 59.
    pub const fn second(&self) -> u32 {
        self.seconds % 60
    }
}

/// As 09:30:00.
impl fmt::Display for NaiveTime {
    fn fmt(&self, f: &mut fmt::Formatter<'_>) -> fmt::Result {
        write!(f, "{}:{:02}", ToTheMinute(*self), self.second())
    }
}

impl fmt::Debug for NaiveTime {
    fn fmt(&self, f: &mut fmt::Formatter<'_>) -> fmt::Result {
        fmt::Display::fmt(self, f)
    }
}

/// Written as 09:30.
pub(crate) struct ToTheMinute(pub NaiveTime);

impl fmt::Display for ToTheMinute {
    fn fmt(&self, f: &mut fmt::Formatter<'_>) -> fmt::Result {
        write!(f, "{:02}:{:02}", self.0.hour(), self.0.minute())
    }
}

/// From a second of the day, 0 to 86399; error 7 if there is none such.
impl TryFrom<u32> for NaiveTime {
    type Error = CalendarError;

    fn try_from(seconds: u32) -> crate::Result<Self> {
        if seconds >= SECONDS_OF_A_DAY {
            return Err(CalendarError::TimeOutOfRange);
        }
        Ok(NaiveTime { seconds })
    }
}
