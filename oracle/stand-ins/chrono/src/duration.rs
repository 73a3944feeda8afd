//! Whole days.

#[derive(Clone, Copy, Debug, PartialEq, Eq)]
pub struct Duration {
    days: i64,
}

impl Duration {
    #[inline]
    pub fn days(days: i64) -> Duration {
        Duration { days }
    }

    #[inline]
    pub fn weeks(weeks: i64) -> Duration {
        Duration { days: 7 * weeks }
    }

    #[inline]
    pub fn num_days(self) -> i64 {
        self.days
    }
}
