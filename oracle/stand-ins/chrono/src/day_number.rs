//! Days counted from 2001-01-01, which is day 0.

use crate::year_day::{self, is_leap};

const YEAR: i32 = 365;
const FOUR_YEARS: i32 = 4 * YEAR + 1;
const CENTURY: i32 = 25 * FOUR_YEARS - 1;
const FOUR_CENTURIES: i32 = 4 * CENTURY + 1;

pub fn of_date(year: i32, month: u32, day: u32) -> i32 {
    let years = year - 2001;
    let leap_days = years.div_euclid(4) - years.div_euclid(100) + years.div_euclid(400);
    YEAR * years + leap_days + year_day::of_date(is_leap(year), month, day) as i32 - 1
}

/// The year, the month and the day of a day number. Each period ends with its longest part, so the last part takes the rest.
pub fn to_date(number: i32) -> (i32, u32, u32) {
    let four_centuries = number.div_euclid(FOUR_CENTURIES);
    let mut rest = number.rem_euclid(FOUR_CENTURIES);
    let centuries = (rest / CENTURY).min(3);
    rest -= centuries * CENTURY;
    let four_years = rest / FOUR_YEARS;
    rest -= four_years * FOUR_YEARS;
    let years = (rest / YEAR).min(3);
    rest -= years * YEAR;

    let year = 2001 + 400 * four_centuries + 100 * centuries + 4 * four_years + years;
    let (month, day) = year_day::to_date(is_leap(year), rest as u32 + 1);
    (year, month, day)
}

#[cfg(test)]
mod tests {
    use super::*;

    #[test]
    fn the_first_day_is_2001_01_01() {
        assert_eq!(of_date(2001, 1, 1), 0);
        assert_eq!(to_date(0), (2001, 1, 1));
    }

    /// Counting the days out, month by month, gives the same numbers, forth and back.
    #[test]
    fn all_days_follow_each_other() {
        let mut number = of_date(-9999, 1, 1);
        for year in -9999..=10001 {
            for month in 1..=12 {
                for day in 1..=year_day::month_length(is_leap(year), month) {
                    assert_eq!(of_date(year, month, day), number);
                    assert_eq!(to_date(number), (year, month, day));
                    number += 1;
                }
            }
        }
        assert_eq!(of_date(10000, 1, 1) - of_date(1, 1, 1), 3_652_059);
    }
}
