//! Days of a year, of which 1 January is day 1, by tables: the first row for common years, the second for leap years.

const MONTH_LENGTHS: [[u8; 16]; 2] = [
    [0, 31, 28, 31, 30, 31, 30, 31, 31, 30, 31, 30, 31, 0, 0, 0],
    [0, 31, 29, 31, 30, 31, 30, 31, 31, 30, 31, 30, 31, 0, 0, 0],
];

/// How many days of the year are before each month.
static BEFORE: [[u16; 16]; 2] = [before(0), before(1)];

/// The month and the day of each day of the year.
static DATES: [[(u8, u8); 367]; 2] = [dates(0), dates(1)];

const fn before(row: usize) -> [u16; 16] {
    let mut table = [0; 16];
    let mut month = 2;
    while month <= 12 {
        table[month] = table[month - 1] + MONTH_LENGTHS[row][month - 1] as u16;
        month += 1;
    }
    table
}

const fn dates(row: usize) -> [(u8, u8); 367] {
    let mut table = [(0, 0); 367];
    let (mut month, mut day) = (1, 0);
    let mut year_day = 1;
    while year_day <= 365 + row {
        (month, day) = if day < MONTH_LENGTHS[row][month] {
            (month, day + 1)
        } else {
            (month + 1, 1)
        };
        table[year_day] = (month as u8, day);
        year_day += 1;
    }
    table
}

/// 4 divides the year, but of the years that 100 divides only those that 400 divides, which is 25 times 16.
#[inline]
pub fn is_leap(year: i32) -> bool {
    if year % 25 == 0 {
        year % 16 == 0
    } else {
        year % 4 == 0
    }
}

/// The month is 1 to 12.
#[inline]
pub fn month_length(leap: bool, month: u32) -> u32 {
    MONTH_LENGTHS[usize::from(leap)][month as usize & 15].into()
}

/// How many days the year has.
pub fn length(leap: bool) -> u32 {
    365 + u32::from(leap)
}

pub fn of_date(leap: bool, month: u32, day: u32) -> u32 {
    u32::from(BEFORE[usize::from(leap)][month as usize & 15]) + day
}

/// The month and the day of a day of the year.
pub fn to_date(leap: bool, year_day: u32) -> (u32, u32) {
    let (month, day) = DATES[usize::from(leap)][year_day as usize];
    (month.into(), day.into())
}

#[cfg(test)]
mod tests {
    use super::*;

    #[test]
    fn leap_rule() {
        let by_100_and_400 = |year: i32| year % 4 == 0 && (year % 100 != 0 || year % 400 == 0);
        let leap = [4, 2000, 2020, 2024, 2400, 0, -4, -400];
        let common = [1, 1900, 2019, 2100, 2200, 2300, -1, -100];
        assert!(leap.into_iter().all(is_leap));
        assert!(!common.into_iter().any(is_leap));
        assert_eq!((1..=400).filter(|&year| is_leap(year)).count(), 97);
        assert!((-10001..=10001).all(|year| is_leap(year) == by_100_and_400(year)));
    }

    /// Counting the days of a year out, month by month, gives the days of the tables.
    #[test]
    fn all_days_of_a_year() {
        for leap in [false, true] {
            let days = (1..=12)
                .flat_map(|month| (1..=month_length(leap, month)).map(move |day| (month, day)));
            let numbers = days.zip(1..).map(|((month, day), number)| {
                assert_eq!(of_date(leap, month, day), number);
                assert_eq!(to_date(leap, number), (month, day));
            });
            assert_eq!(numbers.count() as u32, length(leap));
        }
    }

    #[test]
    fn month_lengths() {
        let thirty = [4, 6, 9, 11];
        for month in (1..=12).filter(|&month| month != 2) {
            let days = if thirty.contains(&month) { 30 } else { 31 };
            assert_eq!(
                [false, true].map(|leap| month_length(leap, month)),
                [days; 2]
            );
        }
        assert_eq!([false, true].map(|leap| month_length(leap, 2)), [28, 29]);
    }
}
