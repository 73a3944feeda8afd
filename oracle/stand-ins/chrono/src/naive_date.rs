//! Dates as one integer, from which year, month, day and weekday are read by a shift, so that they cost little to ask.

use crate::{day_number, year_day, Duration, NaiveDateTime, NaiveTime, Weekday};
use std::fmt;
use std::ops::{Add, AddAssign, Sub, SubAssign};

/// More than the comparison asks for.
const YEARS: std::ops::RangeInclusive<i32> = -262143..=262142;

const YEAR_SHIFT: u32 = 13;
const MONTH_SHIFT: u32 = 9;
const DAY_SHIFT: u32 = 4;
const LEAP_SHIFT: u32 = 3;

/// From the high bits down: year, month (4 bits), day (5 bits), whether the year is a leap year (1 bit), weekday (3 bits). So
/// integers are ordered as dates are.
#[derive(Clone, Copy, PartialEq, Eq, PartialOrd, Ord, Hash)]
pub struct NaiveDate(i32);

pub trait Datelike {
    fn year(&self) -> i32;
    fn month(&self) -> u32;
    fn day(&self) -> u32;
    fn weekday(&self) -> Weekday;
}

impl NaiveDate {
    /// None if there is no such date.
    pub fn from_ymd_opt(year: i32, month: u32, day: u32) -> Option<NaiveDate> {
        let leap = year_day::is_leap(year);
        let exists = YEARS.contains(&year)
            && (1..=12).contains(&month)
            && (1..=year_day::month_length(leap, month)).contains(&day);
        exists.then(|| {
            let number = day_number::of_date(year, month, day);
            pack(year, month, day, leap, number.rem_euclid(7))
        })
    }

    #[inline]
    fn is_leap(self) -> bool {
        self.0 >> LEAP_SHIFT & 1 == 1
    }

    fn day_number(self) -> i32 {
        day_number::of_date(self.year(), self.month(), self.day())
    }

    /// As far as known, chrono has a quick way inside a year. Here are two, for a month and for a year.
    #[inline]
    fn moved(self, days: i64) -> NaiveDate {
        self.moved_in_month(days)
            .unwrap_or_else(|| self.moved_far(days))
    }

    #[inline(never)]
    fn moved_far(self, days: i64) -> NaiveDate {
        self.moved_in_year(days)
            .unwrap_or_else(|| self.moved_by_number(days))
    }

    /// None if that leaves the month.
    #[inline]
    fn moved_in_month(self, days: i64) -> Option<NaiveDate> {
        let (month, leap) = (self.month(), self.is_leap());
        let day = i64::from(self.day()).wrapping_add(days);
        let exists = (1..=i64::from(year_day::month_length(leap, month))).contains(&day);
        exists.then(|| {
            let weekday = self.weekday_after(days);
            pack(self.year(), month, day as u32, leap, weekday)
        })
    }

    /// None if that leaves the year.
    fn moved_in_year(self, days: i64) -> Option<NaiveDate> {
        let leap = self.is_leap();
        let today = year_day::of_date(leap, self.month(), self.day());
        let moved = i64::from(today).wrapping_add(days);
        let exists = (1..=i64::from(year_day::length(leap))).contains(&moved);
        exists.then(|| {
            let (month, day) = year_day::to_date(leap, moved as u32);
            pack(self.year(), month, day, leap, self.weekday_after(days))
        })
    }

    /// Panics, as chrono does, if the date is past the years that there are.
    fn moved_by_number(self, days: i64) -> NaiveDate {
        let number = i64::from(self.day_number()) + days;
        let number = i32::try_from(number).expect("a day number");
        let (year, month, day) = day_number::to_date(number);
        assert!(YEARS.contains(&year), "the date is out of range");
        let leap = year_day::is_leap(year);
        pack(year, month, day, leap, number.rem_euclid(7))
    }

    #[inline]
    fn weekday_after(self, days: i64) -> i32 {
        let weekday = (self.0 & 0x7) + days.rem_euclid(7) as i32;
        if weekday < 7 {
            weekday
        } else {
            weekday - 7
        }
    }

    pub fn and_time(self, time: NaiveTime) -> NaiveDateTime {
        NaiveDateTime { date: self, time }
    }
}

/// Weekday 0 is a Monday, and so is day number 0.
#[inline]
fn pack(year: i32, month: u32, day: u32, leap: bool, weekday: i32) -> NaiveDate {
    let month_and_day = (month << MONTH_SHIFT | day << DAY_SHIFT) as i32;
    NaiveDate(year << YEAR_SHIFT | month_and_day | i32::from(leap) << LEAP_SHIFT | weekday)
}

impl Datelike for NaiveDate {
    #[inline]
    fn year(&self) -> i32 {
        self.0 >> YEAR_SHIFT
    }

    #[inline]
    fn month(&self) -> u32 {
        self.0 as u32 >> MONTH_SHIFT & 0xF
    }

    #[inline]
    fn day(&self) -> u32 {
        self.0 as u32 >> DAY_SHIFT & 0x1F
    }

    #[inline]
    fn weekday(&self) -> Weekday {
        match self.0 & 0x7 {
            0 => Weekday::Mon,
            1 => Weekday::Tue,
            2 => Weekday::Wed,
            3 => Weekday::Thu,
            4 => Weekday::Fri,
            5 => Weekday::Sat,
            _ => Weekday::Sun,
        }
    }
}

impl Add<Duration> for NaiveDate {
    type Output = NaiveDate;

    #[inline]
    fn add(self, duration: Duration) -> NaiveDate {
        self.moved(duration.num_days())
    }
}

impl Sub<Duration> for NaiveDate {
    type Output = NaiveDate;

    #[inline]
    fn sub(self, duration: Duration) -> NaiveDate {
        self.moved(-duration.num_days())
    }
}

/// The difference of the day numbers.
impl Sub for NaiveDate {
    type Output = Duration;

    fn sub(self, earlier: NaiveDate) -> Duration {
        Duration::days(i64::from(self.day_number() - earlier.day_number()))
    }
}

impl AddAssign<Duration> for NaiveDate {
    #[inline]
    fn add_assign(&mut self, duration: Duration) {
        *self = *self + duration;
    }
}

impl SubAssign<Duration> for NaiveDate {
    #[inline]
    fn sub_assign(&mut self, duration: Duration) {
        *self = *self - duration;
    }
}

/// 1970-01-01, as in chrono.
impl Default for NaiveDate {
    fn default() -> NaiveDate {
        NaiveDate::from_ymd_opt(1970, 1, 1).expect("a date")
    }
}

impl fmt::Display for NaiveDate {
    fn fmt(&self, f: &mut fmt::Formatter<'_>) -> fmt::Result {
        let sign = if self.year() < 0 { "-" } else { "" };
        let year = self.year().unsigned_abs();
        write!(f, "{sign}{year:04}-{:02}-{:02}", self.month(), self.day())
    }
}

impl fmt::Debug for NaiveDate {
    fn fmt(&self, f: &mut fmt::Formatter<'_>) -> fmt::Result {
        fmt::Display::fmt(self, f)
    }
}

#[cfg(test)]
mod tests {
    use super::*;

    fn date(year: i32, month: u32, day: u32) -> NaiveDate {
        NaiveDate::from_ymd_opt(year, month, day).expect("a date")
    }

    #[test]
    fn monday_2001_01_01() {
        assert_eq!(date(2001, 1, 1).weekday(), Weekday::Mon);
        assert_eq!(date(2000, 12, 31).weekday(), Weekday::Sun);
        assert_eq!(date(2024, 2, 29).weekday(), Weekday::Thu);
    }

    #[test]
    fn no_such_date() {
        let none = [
            (2023, 2, 29),
            (1900, 2, 29),
            (2024, 2, 30),
            (2024, 4, 31),
            (2024, 0, 1),
            (2024, 13, 1),
            (2024, 1, 0),
            (2024, u32::MAX, 1),
            (2024, 1, u32::MAX),
            (262143, 1, 1),
            (-262144, 12, 31),
        ];
        for (year, month, day) in none {
            assert_eq!(NaiveDate::from_ymd_opt(year, month, day), None);
        }
    }

    #[test]
    fn parts_are_read_back() {
        for year in [-262143, -9999, -1, 0, 1, 2024, 9999, 10001, 262142] {
            let it = date(year, 12, 31);
            assert_eq!((it.year(), it.month(), it.day()), (year, 12, 31));
        }
        assert_eq!(date(33, 4, 3).to_string(), "0033-04-03");
        assert_eq!(date(-1, 12, 31).to_string(), "-0001-12-31");
        assert_eq!(NaiveDate::default().to_string(), "1970-01-01");
    }

    /// Over all days of the years 1 to 9999: the next day is later, has the next weekday, and leads back.
    #[test]
    fn a_day_forth_and_back() {
        let mut today = date(1, 1, 1);
        let mut days = 1;
        while today != date(9999, 12, 31) {
            let next = today + Duration::days(1);
            assert!(next > today);
            assert_eq!(next.weekday() as u32, (today.weekday() as u32 + 1) % 7);
            assert_eq!(next - Duration::days(1), today);
            assert_eq!(next - today, Duration::days(1));
            assert_eq!(date(next.year(), next.month(), next.day()), next);
            today = next;
            days += 1;
        }
        assert_eq!(days, 3_652_059);
        assert_eq!(today - date(1, 1, 1), Duration::days(3_652_058));
        assert_eq!(date(1, 1, 1) - today, Duration::days(-3_652_058));
    }

    /// Both quick ways, on every day of common and leap years: each answers if it can, and as the day numbers do.
    #[test]
    fn quick_ways_agree_with_day_numbers() {
        let years = [
            -401, -1, 0, 1, 1899, 1900, 2000, 2020, 2023, 2024, 2100, 9999,
        ];
        let all = years.into_iter().flat_map(days_of_year);
        let mut compared = [0; 3];
        for (today, days) in all.flat_map(|today| (-800..=800).map(move |days| (today, days))) {
            let slow = today.moved_by_number(days);
            let same_year = slow.year() == today.year();
            let same_month = same_year && slow.month() == today.month();
            assert_eq!(today.moved(days), slow);
            assert_eq!(today.moved_in_year(days), same_year.then_some(slow));
            assert_eq!(today.moved_in_month(days), same_month.then_some(slow));
            compared[usize::from(same_year) + usize::from(same_month)] += 1;
        }
        assert!(
            compared.iter().all(|&count| count > 100_000),
            "{compared:?}"
        );
    }

    fn days_of_year(year: i32) -> impl Iterator<Item = NaiveDate> {
        let number = date(year, 1, 1).day_number();
        let dates = (number..).map(day_number::to_date);
        let dates = dates.take_while(move |&(of, ..)| of == year);
        dates.map(|(year, month, day)| date(year, month, day))
    }

    #[test]
    fn far_days() {
        for days in [-4_000_000, -146_097, -36_525, 36_524, 146_097, 4_000_000] {
            let it = date(2024, 2, 29);
            assert_eq!(it + Duration::days(days), it.moved_by_number(days));
            assert_eq!(it + Duration::days(days) - it, Duration::days(days));
            assert_eq!(it - Duration::days(days), it + Duration::days(-days));
        }
    }

    #[test]
    #[should_panic(expected = "the date is out of range")]
    fn no_day_after_the_last() {
        let _ = date(262142, 12, 31) + Duration::days(1);
    }

    #[test]
    #[should_panic(expected = "the date is out of range")]
    fn no_day_before_the_first() {
        let _ = date(-262143, 1, 1) - Duration::days(1);
    }

    #[test]
    fn weeks_keep_the_weekday() {
        let mut moved = date(2019, 1, 7);
        moved += Duration::weeks(52);
        assert_eq!((moved, moved.weekday()), (date(2020, 1, 6), Weekday::Mon));
        moved -= Duration::weeks(52);
        assert_eq!(moved, date(2019, 1, 7));
    }
}
