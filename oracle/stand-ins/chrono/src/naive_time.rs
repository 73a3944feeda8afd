//! Times of the day, in whole seconds.

use crate::NaiveDate;
use std::fmt;

#[derive(Clone, Copy, PartialEq, Eq, PartialOrd, Ord, Hash)]
pub struct NaiveTime {
    seconds: u32,
}

/// A date and a time, which only the zones take.
#[derive(Clone, Copy, Debug, PartialEq, Eq)]
pub struct NaiveDateTime {
    pub date: NaiveDate,
    pub time: NaiveTime,
}

pub trait Timelike {
    fn num_seconds_from_midnight(&self) -> u32;
}

impl NaiveTime {
    /// None if the day has no such second. Parts of a second are never asked for.
    #[inline]
    pub const fn from_num_seconds_from_midnight_opt(secs: u32, nano: u32) -> Option<NaiveTime> {
        assert!(nano == 0);
        if secs >= 86_400 {
            return None;
        }
        Some(NaiveTime { seconds: secs })
    }

    pub const fn from_hms_opt(hour: u32, minute: u32, second: u32) -> Option<NaiveTime> {
        if hour >= 24 || minute >= 60 || second >= 60 {
            return None;
        }
        Some(NaiveTime {
            seconds: 3600 * hour + 60 * minute + second,
        })
    }

    /// The only format that the original asks for is `%H:%M`.
    pub fn format(&self, format: &str) -> String {
        assert_eq!(format, "%H:%M");
        format!("{:02}:{:02}", self.seconds / 3600, self.seconds / 60 % 60)
    }
}

impl Timelike for NaiveTime {
    #[inline]
    fn num_seconds_from_midnight(&self) -> u32 {
        self.seconds
    }
}

impl fmt::Debug for NaiveTime {
    fn fmt(&self, f: &mut fmt::Formatter<'_>) -> fmt::Result {
        write!(f, "{}:{:02}", self.format("%H:%M"), self.seconds % 60)
    }
}

#[cfg(test)]
mod tests {
    use super::*;

    #[test]
    fn seconds_of_the_day() {
        let close = NaiveTime::from_hms_opt(16, 30, 0).expect("a time");
        assert_eq!(close.seconds, 59400);
        assert_eq!(close.format("%H:%M"), "16:30");
        assert_eq!(NaiveTime::from_hms_opt(24, 0, 0), None);
    }

    #[test]
    fn every_second_of_the_day() {
        let of_seconds = |seconds| NaiveTime::from_num_seconds_from_midnight_opt(seconds, 0);
        for seconds in 0..86_400 {
            let (hour, minute, second) = (seconds / 3600, seconds / 60 % 60, seconds % 60);
            let time = NaiveTime::from_hms_opt(hour, minute, second).expect("a time");
            assert_eq!(of_seconds(seconds), Some(time));
            assert_eq!(time.num_seconds_from_midnight(), seconds);
        }
        assert_eq!(of_seconds(86_400), None);
        assert_eq!(of_seconds(u32::MAX), None);
    }

    #[test]
    fn times_are_ordered_by_their_seconds() {
        let times = (0..86_400)
            .filter_map(|seconds| NaiveTime::from_num_seconds_from_midnight_opt(seconds, 0));
        assert!(times.is_sorted_by(|earlier, later| earlier < later));
    }
}
