//! slice_order, which the original does not have: due are the slices that plain arithmetic makes of the original's count, errors 8,
//! 5 and 1 as of the count, and errors 11 and 9.

use crate::added::ranges::{
    answers, ends, error, outside, random_stretches, range, reversed, wrong_ranges, MARKET,
};
use crate::added::MARKETS;
use crate::bench::ranges::Ranges;
use crate::call::slices::{count, SliceOrder};
use crate::library::Date;
use crate::numbers::{with_each, without_repeats, Numbers};
use crate::original::{calendars, days_of};
use crate::ANSWERED_YEARS;
use std::slice;

const QUANTITIES: &[u32] = &[0, 1, u32::MAX];
/// The last is more than any date range has days.
const ROOMS: &[u32] = &[0, 1, 3000];
/// Random date ranges of each market.
const RANDOM: u32 = 200;

/// Whether all is right.
pub fn run() -> bool {
    let (whole, random) = (whole_ranges(), random_ranges());
    let all = [&whole[..], &random].concat();
    let later = ["5, 1, 11 and 9", "1, 11 and 9"];
    let outside_title = "error 1 for a start before 2020 or an end after 2030, before 11 and 9";
    // Each is run, also after one that is not right.
    answers(
        SliceOrder,
        "months, years and all of 2020 to 2030",
        with_room(&whole),
    ) & answers(
        SliceOrder,
        "random date ranges of 2020 to 2030",
        with_room(&random),
    ) & wrong_ranges(SliceOrder, &MARKET, later, any_orders)
        & answers(SliceOrder, outside_title, any_orders(outside(MARKETS)))
        & error(SliceOrder, 11, "no trading day", any_orders(closed()))
        & error(
            SliceOrder,
            11,
            "a start after the end",
            any_orders(reversed(MARKETS)),
        )
        & error(SliceOrder, 9, "too little room", too_little_room(&all))
}

/// Every one of 2020 to 2030 that has no trading day.
fn closed() -> Vec<Numbers> {
    let mut ranges = vec![];
    for (market, calendar) in (0..).zip(calendars()) {
        // The days since the last trading day.
        let mut closed: Vec<Date> = vec![];
        for (date, naive) in ANSWERED_YEARS.flat_map(days_of) {
            closed.push(date);
            if calendar.is_trading_day(naive).expect("an answer") {
                closed.clear();
            }
            ranges.extend(closed.iter().map(|&start| range(market, [start, date])));
        }
    }
    ranges
}

/// Those of the bench.
fn whole_ranges() -> Vec<Numbers> {
    let ends = Ranges::all().into_iter().flat_map(|ranges| ranges.library);
    let of_markets = ends.flat_map(|ends| (0..5).map(move |market| range(market, ends)));
    of_markets.collect()
}

/// Those that have a trading day.
fn random_ranges() -> Vec<Numbers> {
    let days: Vec<Date> = ANSWERED_YEARS.flat_map(days_of).map(|day| day.0).collect();
    let stretches = random_stretches(&days, 5 * RANDOM).zip((0..5).cycle());
    let ranges = stretches.map(|(days, market)| range(market, ends(days)));
    ranges.filter(|range| count(range) > 0).collect()
}

/// Just enough, and one entry more.
fn with_room(ranges: &[Numbers]) -> Vec<Numbers> {
    let of_range = |range: &Numbers| {
        let count = count(range);
        let rooms = [count, count + 1];
        orders(slice::from_ref(range), &quantities(count), &rooms)
    };
    ranges.iter().flat_map(of_range).collect()
}

/// None, and one entry too few.
fn too_little_room(ranges: &[Numbers]) -> Vec<Numbers> {
    let of_range = |range: &Numbers| {
        let rooms = [0, count(range) - 1];
        orders(slice::from_ref(range), QUANTITIES, &rooms)
    };
    without_repeats(ranges.iter().flat_map(of_range))
}

/// The least and the most, and around multiples of the number of days.
fn quantities(count: u32) -> Numbers {
    let multiples = [count, 1000 * count, u32::MAX - u32::MAX % count];
    let around = |multiple: u32| [multiple - 1, multiple, multiple.saturating_add(1)];
    let mut quantities = [QUANTITIES, multiples.map(around).as_flattened()].concat();
    quantities.sort();
    quantities.dedup();
    quantities
}

fn any_orders(ranges: Vec<Numbers>) -> Vec<Numbers> {
    orders(&ranges, QUANTITIES, ROOMS)
}

/// Each of the date ranges with each quantity and each room.
fn orders(ranges: &[Numbers], quantities: &[u32], rooms: &[u32]) -> Vec<Numbers> {
    let mut orders = with_each(rooms, &with_each(quantities, ranges));
    for order in &mut orders {
        // The quantity goes before the dates.
        order[1..8].rotate_right(1);
    }
    orders
}
