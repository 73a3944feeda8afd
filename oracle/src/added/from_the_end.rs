//! nth_weekday_of_month with an n that the original's type does not have. Below 0, due is the original's last weekday of the month and
//! weeks back, if the month there has the same number. n = -1 is among the inputs that both answer.

use crate::added::{
    all_of, MONTHS, NO_MONTHS, NO_WEEKDAYS, NO_YEARS, SOME_YEARS, UNUSED, WEEKDAYS,
};
use crate::compare::months_and_weekdays;
use crate::library::{tc_nth_weekday_of_month, OptionalDate};
use crate::original::{last_weekday, of_option};
use crate::tally::Tally;
use crate::{LAST_YEAR, YEARS};
use chrono::{Datelike, Duration, NaiveDate};
use std::ops::RangeInclusive;

/// The year, the month and the weekday; and n.
type Month = (u32, u32, u32);
type Input = (Month, i32);

const WEEKS_BACK: RangeInclusive<i32> = -255..=-2;
const SOME_BELOW: &[i32] = &[-1, -2, -5, -53, -255];
/// The low bits are a number that is answered.
const FAR_ABOVE: [i32; 4] = [513, 65_537, 1 << 24 | 1, i32::MAX];

/// Whether all is right.
pub fn run() -> bool {
    // Without the limit 261 to 266 would be found in some months.
    let above: Vec<i32> = (256..=266).chain(FAR_ABOVE).collect();
    let below: Vec<i32> = above.iter().map(|n| -n).chain([i32::MIN]).collect();
    let back: Vec<i32> = (-255..=-1).collect();
    let december = with_each(&back, of(&[LAST_YEAR], &[12], WEEKDAYS));
    let weekdays = with_each(SOME_BELOW, of(SOME_YEARS, MONTHS, NO_WEEKDAYS));
    let years = with_each(SOME_BELOW, of(NO_YEARS, MONTHS, WEEKDAYS));
    let months = with_each(SOME_BELOW, of(SOME_YEARS, NO_MONTHS, WEEKDAYS));
    weeks_back()
        & none("a day before 0001-01-01", before_the_first_day())
        & none("n above 255", with_each(&above, months_and_weekdays()))
        & none("n below -255", with_each(&below, months_and_weekdays()))
        & none("n below 0, December 9999", december)
        & none("n below 0, a weekday above 6", weekdays)
        & none("n below 0, a year outside 1 to 9999", years)
        & none("n below 0, a month outside 1 to 12", months)
}

/// But for days before 0001-01-01, and for December 9999.
fn weeks_back() -> bool {
    let mut tally = Tally::new("nth_weekday_of_month, n -255 to -2");
    let months = months_and_weekdays().filter(|&(year, month, _)| (year, month) != (LAST_YEAR, 12));
    for of_month in months {
        let last = last(of_month);
        for nth in WEEKS_BACK {
            let day = day(last, nth);
            if day.year() < 1 {
                continue;
            }
            let due = of_option((day.month() == last.month()).then_some(day));
            tally.compare(&(of_month, nth), library((of_month, nth)), due);
        }
    }
    let left_out = before_the_first_day().count();
    tally.close(((YEARS.count() * 12 - 1) * 7 * WEEKS_BACK.count() - left_out) as u64)
}

/// Inputs whose day is before 0001-01-01. 254 weeks are less than five years.
fn before_the_first_day() -> impl Iterator<Item = Input> + Clone {
    let months = months_and_weekdays().take_while(|&(year, _, _)| year <= 5);
    let inputs = months.flat_map(|of_month| WEEKS_BACK.map(move |nth| (of_month, nth)));
    inputs.filter(|&(of_month, nth)| day(last(of_month), nth).year() < 1)
}

fn last((year, month, weekday): Month) -> NaiveDate {
    last_weekday(year, month, weekday).expect("a last weekday")
}

/// n = -1 is no week back.
fn day(last: NaiveDate, nth: i32) -> NaiveDate {
    last - Duration::weeks(i64::from(-1 - nth))
}

fn library(((year, month, weekday), nth): Input) -> OptionalDate {
    tc_nth_weekday_of_month(year, month, weekday, nth)
}

/// Every choice of one number from each list, in order.
fn of<'a>(
    years: &'a [u32],
    months: &'a [u32],
    weekdays: &'a [u32],
) -> impl Iterator<Item = Month> + Clone + 'a {
    all_of(years, months, weekdays, UNUSED).map(|[year, month, weekday, _]| (year, month, weekday))
}

fn with_each<'a>(
    counts: &'a [i32],
    months: impl Iterator<Item = Month> + Clone + 'a,
) -> impl Iterator<Item = Input> + Clone + 'a {
    months.flat_map(move |of_month| counts.iter().map(move |&nth| (of_month, nth)))
}

fn none(name: &str, inputs: impl Iterator<Item = Input> + Clone) -> bool {
    let mut tally = Tally::new(format!("nth_weekday_of_month, none for {name}"));
    for input in inputs.clone() {
        tally.compare(&input, library(input), OptionalDate::default());
    }
    tally.close(inputs.count() as u64)
}
