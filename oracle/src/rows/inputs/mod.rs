//! What the rows of crates/replay/data/holidays.txt are about.

pub mod hours;
pub mod neighbours;
pub mod ranges;
pub mod sheets;

use crate::ANSWERED_YEARS;
use std::collections::BTreeSet;

pub const HEAD: &str = "\
# Which days are holidays of a market, and which are trading days. Markets are 0 NYSE, 1 NASDAQ, 2 LSE, 3 TSE, 4 TSX.
#
# holidays MARKET YEAR = every holiday of the year in order, weekends included, each as month * 100 + day
# holidays_any_year MARKET YEAR = the same in any year 1 to 9999, also where the calls give error 1; NASDAQ's are NYSE's
# trading_days MARKET YEAR MONTH = every trading day of the month in order
# is_holiday MARKET YEAR MONTH DAY = error, value, year, month, day, where the date is that of error 1
# is_trading_day MARKET YEAR MONTH DAY = the same
#
# Made by `oracle/run FOLDER rows holidays`, where FOLDER is the repository danjloveless/trading-calendar at commit 7b03202e8e:
# the answers of its TradingCalendar day by day and, for holidays_any_year, of the MarketImpl behind it. Its source is
# unchanged; its dependencies are the stand-ins of oracle/stand-ins, for chrono as in docs/SCOPE.md [oracle].
# Errors 8 and 5 are rules of the library, as their headings say.
# Each kind of row is at the end once more, wrong on purpose, below a comment that says what is right. replay's expected
# output has exactly these as differing.
";

/// Market, year, month, day.
pub type Day = [u32; 4];

pub const NAMES: [&str; 5] = ["NYSE", "NASDAQ", "LSE", "TSE", "TSX"];
const TSE: u32 = 3;

/// The holidays and trading days of [examples] and [is-holiday].
pub const EXAMPLES: [Day; 7] = [
    [0, 2022, 1, 3],
    [2, 2021, 12, 28],
    [2, 2021, 12, 29],
    [3, 2020, 2, 23],
    [3, 2020, 5, 6],
    [3, 2021, 1, 4],
    [4, 2022, 12, 27],
];

/// Dates at the edges of the years with answers, outside them, and leap days, asked of each market.
pub const EDGES: [[u32; 3]; 18] = [
    [2020, 1, 1],
    [2020, 2, 29],
    [2020, 12, 31],
    [2024, 2, 29],
    [2028, 2, 29],
    [2030, 1, 1],
    [2030, 12, 31],
    [2019, 12, 31],
    [2031, 1, 1],
    [2019, 1, 1],
    [2031, 12, 31],
    [2000, 2, 29],
    [2032, 2, 29],
    [1900, 2, 28],
    [1970, 1, 1],
    [1, 1, 1],
    [4, 2, 29],
    [9999, 12, 31],
];

/// Rules of the library that the original does not have: error, what it is for, inputs.
pub type OwnRule = (u32, &'static str, &'static [Day]);
pub const OWN_RULES: [OwnRule; 4] = [
    NO_DATE,
    (
        5,
        "no date, before error 1",
        &[
            [0, 0, 1, 1],
            [0, 10000, 1, 1],
            [0, u32::MAX, 1, 1],
            [0, 2019, 2, 29],
            [0, 2031, 13, 1],
            [0, 1900, 2, 29],
        ],
    ),
    NO_MARKET,
    (
        8,
        "no market, before errors 5 and 1",
        &[
            [5, 2031, 1, 1],
            [5, 2019, 12, 31],
            [5, 2025, 2, 29],
            [5, 0, 0, 0],
            [u32::MAX, u32::MAX, u32::MAX, u32::MAX],
        ],
    ),
];

pub const NO_DATE: OwnRule = (
    5,
    "no date",
    &[
        [4, 2025, 0, 1],
        [4, 2025, 13, 1],
        [4, 2025, 1, 0],
        [4, 2025, 1, 32],
        [4, 2025, 2, 29],
        [4, 2024, 2, 30],
        [4, 2025, 4, 31],
        [4, 2025, 12, 32],
        [4, 2025, u32::MAX, 1],
        [4, 2025, 1, u32::MAX],
    ],
);
pub const NO_MARKET: OwnRule = (
    8,
    "no market",
    &[
        [5, 2025, 3, 10],
        [6, 2025, 3, 10],
        [255, 2025, 3, 10],
        [256, 2025, 3, 10],
        [u32::MAX, 2025, 3, 10],
    ],
);

/// Years outside 2020 to 2030 whose holidays are listed: around the limits of years and of rules, those of the dates in
/// docs/DIFFERENCES.md, and every 53rd.
pub fn other_years() -> BTreeSet<u32> {
    let centuries = [
        100, 200, 300, 400, 1600, 1700, 1800, 1900, 2100, 2200, 2300, 2400,
    ];
    let single = [
        1582, 1583, 1752, 1818, 1873, 1886, 1907, 1914, 1933, 1934, 1942, 1943, 1948, 1953,
    ];
    let mut years = BTreeSet::from_iter(centuries.into_iter().chain(single));
    years.extend(
        (1..=5)
            .chain(1960..=2019)
            .chain(2031..=2060)
            .chain(9996..=9999),
    );
    years.extend(
        (53..=9999)
            .step_by(53)
            .filter(|year| !ANSWERED_YEARS.contains(year)),
    );
    years
}

/// The months whose trading days are listed: those around a year's end and May; at TSE also July to September.
pub fn months(market: u32) -> &'static [u32] {
    match market {
        TSE => &[1, 5, 7, 8, 9, 12],
        _ => &[1, 5, 12],
    }
}
