//! Random times, dates and records of hours, the same in every run.

use crate::library::{Date, Hours, Session};
use chrono::NaiveDate;

/// Numbers of a present part's has_ field; in some of them the low byte, or the low half, is 0.
const PRESENT: [u32; 6] = [1, 2, 256, 1 << 16, 1 << 31, u32::MAX];

pub struct Random<'a> {
    state: u64,
    edge_times: &'a [u32],
}

impl<'a> Random<'a> {
    pub fn new(edge_times: &'a [u32]) -> Random<'a> {
        Random {
            state: 1,
            edge_times,
        }
    }

    /// splitmix64
    fn next(&mut self) -> u64 {
        self.state = self.state.wrapping_add(0x9E37_79B9_7F4A_7C15);
        let mut bits = self.state;
        bits = (bits ^ bits >> 30).wrapping_mul(0xBF58_476D_1CE4_E5B9);
        bits = (bits ^ bits >> 27).wrapping_mul(0x94D0_49BB_1331_11EB);
        bits ^ bits >> 31
    }

    pub fn below(&mut self, end: u32) -> u32 {
        (self.next() % u64::from(end)) as u32
    }

    fn one_of(&mut self, numbers: &[u32]) -> u32 {
        numbers[self.below(numbers.len() as u32) as usize]
    }

    /// An edge time, or any.
    pub fn time(&mut self) -> u32 {
        match self.below(2) {
            0 => self.one_of(self.edge_times),
            _ => self.below(86_400),
        }
    }

    pub fn session(&mut self) -> Session {
        self.session_of(1)
    }

    pub fn record(&mut self) -> Hours {
        let [has_pre_market, has_after_hours, has_early_close] = [(); 3].map(|()| self.has());
        Hours {
            date: self.date(),
            has_pre_market,
            pre_market: self.session_of(has_pre_market),
            regular: self.session(),
            has_after_hours,
            after_hours: self.session_of(has_after_hours),
            has_early_close,
            early_close: self.time_of(has_early_close),
        }
    }

    /// 0 half the time, else one of PRESENT or any number above 0.
    fn has(&mut self) -> u32 {
        match self.below(4) {
            0 => self.one_of(&PRESENT),
            1 => 1 + self.below(u32::MAX),
            _ => 0,
        }
    }

    fn session_of(&mut self, has: u32) -> Session {
        Session {
            start: self.time_of(has),
            end: self.time_of(has),
        }
    }

    /// A time; in an absent part, also any number.
    fn time_of(&mut self, has: u32) -> u32 {
        match self.below(2) {
            0 if has == 0 => self.next() as u32,
            _ => self.time(),
        }
    }

    /// Any date of the years 1 to 9999.
    pub fn date(&mut self) -> Date {
        loop {
            let (year, month, day) = (1 + self.below(9999), 1 + self.below(12), 1 + self.below(31));
            if NaiveDate::from_ymd_opt(year as i32, month, day).is_some() {
                return Date { year, month, day };
            }
        }
    }
}
