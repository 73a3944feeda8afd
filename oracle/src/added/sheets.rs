//! Added answers of the month sheet: errors 10, 8 and 9, and error 1 for a year outside 1 to 9999.

use crate::added::hours::check_answers;
use crate::added::malformed;
use crate::added::ranges::{all_of, OTHER_YEARS};
use crate::added::{MARKETS, MONTHS, NO_MARKETS, NO_MONTHS, NO_YEARS};
use crate::call::sheets::{of_nine_digits, Request, NAME};
use crate::numbers::Numbers;
use crate::ANSWERED_YEARS;

/// The last is enough for every sheet.
const ROOMS: &[u32] = &[0, 1, 85, 104];

/// Whether all is right.
pub fn run() -> bool {
    // Each is run, also after one that is not right.
    texts() & markets() & years() & error(9, "too little room", too_little_room())
}

fn texts() -> bool {
    malformed::kinds().into_iter().fold(true, |all, kind| {
        let (about, texts) = kind;
        let requests = texts
            .into_iter()
            .flat_map(|text| [0, 104].map(|room| Request::new(text.clone(), room)));
        all & error(10, about, requests.collect())
    })
}

fn markets() -> bool {
    let no_markets = of_nine_digits(NO_MARKETS);
    let answered: Vec<u32> = ANSWERED_YEARS.collect();
    let years = [&answered[..], OTHER_YEARS, &of_nine_digits(NO_YEARS)].concat();
    let any_months = [MONTHS, &of_nine_digits(NO_MONTHS)].concat();
    error(
        8,
        "a market above 4",
        requests(&[&no_markets, &answered, MONTHS, &[104]]),
    ) & error(
        8,
        "a market above 4, before 1, 2 and 9",
        requests(&[&no_markets, &years, &any_months, ROOMS]),
    )
}

fn years() -> bool {
    let about = "a year outside 1 to 9999, with 1970-01-01";
    let no_years = of_nine_digits(NO_YEARS);
    let no_months = of_nine_digits(NO_MONTHS);
    error(1, about, requests(&[MARKETS, &no_years, MONTHS, ROOMS]))
        & error(
            1,
            &format!("{about}, before 2"),
            requests(&[MARKETS, &no_years, &no_months, ROOMS]),
        )
}

/// Every choice of a market, a year, a month and a room.
fn requests(lists: &[&[u32]]) -> Vec<Request> {
    all_of(lists)
        .iter()
        .map(|numbers| request(numbers))
        .collect()
}

fn request(numbers: &[u32]) -> Request {
    let &[market, year, month, room] = numbers else {
        panic!("not a month and a room: {numbers:?}");
    };
    Request::of_month([market, year, month], 1, room as usize)
}

/// Every month with every number of bytes that are too few.
fn too_little_room() -> Vec<Request> {
    let answered: Vec<u32> = ANSWERED_YEARS.collect();
    let months: Vec<Numbers> = all_of(&[MARKETS, &answered, MONTHS, &[0]]);
    let too_little = months.iter().flat_map(|month| {
        let text = request(month).text;
        let size = request(month).error(9).fields.count as usize;
        (0..size).map(move |room| Request::new(text.clone(), room))
    });
    too_little.collect()
}

fn error(number: u32, about: &str, requests: Vec<Request>) -> bool {
    check_answers(
        format!("{NAME}, error {number} for {about}"),
        &requests,
        Request::library,
        Request::original,
        |request| request.error(number),
    )
}
