//! What the rows of crates/replay/data/neighbours.txt are about.

use crate::rows::inputs::{OwnRule, NO_DATE, NO_MARKET};

pub const HEAD: &str = "\
# The trading day after a date, and the one before it. Markets are 0 NYSE, 1 NASDAQ, 2 LSE, 3 TSE, 4 TSX.
#
# next_trading_day MARKET YEAR MONTH DAY = error, year, month, day, distance, outside
# previous_trading_day MARKET YEAR MONTH DAY = the same
#
# Made by `oracle/run FOLDER rows neighbours`, where FOLDER is the repository danjloveless/trading-calendar at commit 7b03202e8e:
# the answers of its TradingCalendar, with distance and outside, which it does not have, from both dates [distance] [outside]. Its
# source is unchanged; its dependencies are the stand-ins of oracle/stand-ins, for chrono as in docs/SCOPE.md [oracle].
# Errors 8, 5 and 6 are rules of the library, as their headings say.
# Each kind of row is at the end five times more, wrong on purpose, below a comment that says what is right. replay's expected
# output has exactly these as differing.
";

/// For each market the length from which on its runs of days without trading are asked about, and the years in which they
/// begin. The US has none of four days.
pub const CLOSED_DAYS: [(i64, &[u32]); 5] = [
    (3, &[2021]),
    (3, &[2026]),
    (4, &[2020, 2021, 2022]),
    (4, &[2020, 2021, 2022, 2024, 2029]),
    (4, &[2020, 2021, 2025, 2026]),
];

/// Dates asked of each market, by heading.
pub const DATES: [(&str, &[[u32; 3]]); 5] = [
    ("a Wednesday, and a Friday to the Monday after it", &WEEK),
    (
        "around the first and the last day of 2020 to 2030",
        &AROUND_THE_ANSWERED_YEARS,
    ),
    ("2019 and 2031", &YEARS_BESIDE),
    ("leap days and the days before 1 March", &LEAP_DAYS),
    ("the first and the last dates", &ENDS),
];

const WEEK: [[u32; 3]; 5] = [
    [2025, 3, 12],
    [2025, 3, 14],
    [2025, 3, 15],
    [2025, 3, 16],
    [2025, 3, 17],
];

const AROUND_THE_ANSWERED_YEARS: [[u32; 3]; 10] = [
    [2019, 12, 30],
    [2019, 12, 31],
    [2020, 1, 1],
    [2020, 1, 2],
    [2020, 1, 6],
    [2030, 12, 30],
    [2030, 12, 31],
    [2031, 1, 1],
    [2031, 1, 2],
    [2031, 1, 6],
];

/// The days before Good Friday and Christmas, and one before a 20 March that is no equinox here [tse-equinox].
const YEARS_BESIDE: [[u32; 3]; 5] = [
    [2019, 4, 18],
    [2019, 12, 24],
    [2031, 3, 19],
    [2031, 4, 10],
    [2031, 12, 24],
];

const LEAP_DAYS: [[u32; 3]; 3] = [[1900, 2, 28], [2000, 2, 29], [2024, 2, 29]];

/// Those with error 6 are left out here.
const ENDS: [[u32; 3]; 8] = [
    [1, 1, 1],
    [1, 1, 2],
    [1, 1, 3],
    [1, 1, 4],
    [1, 1, 5],
    [9999, 12, 29],
    [9999, 12, 30],
    [9999, 12, 31],
];

/// Beside error 6, whose inputs depend on the call.
pub const OWN_RULES: [OwnRule; 4] = [
    NO_DATE,
    (
        5,
        "no date, before error 6",
        &[
            [0, 0, 1, 1],
            [0, 0, 12, 31],
            [0, 10000, 1, 1],
            [0, u32::MAX, 1, 1],
            [3, 1, 1, 0],
            [3, 1, 0, 1],
            [3, 9999, 12, 32],
            [3, 9999, 13, 1],
        ],
    ),
    NO_MARKET,
    (
        8,
        "no market, before errors 5 and 6",
        &[
            [5, 1, 1, 1],
            [5, 9999, 12, 31],
            [5, 2025, 2, 29],
            [5, 0, 0, 0],
            [u32::MAX, u32::MAX, u32::MAX, u32::MAX],
        ],
    ),
];

/// For each kind what is right, and rows with another answer.
pub const WRONG_NEXT: [[&str; 2]; 5] = [
    [
        "6 May 2022 is a holiday of TSE, and the next trading day is 9 May",
        "next_trading_day 3 2022 4 28 = 0 2022 5 6 8 0",
    ],
    [
        "from 28 April to 9 May 2022 the distance is 11",
        "next_trading_day 3 2022 4 28 = 0 2022 5 9 10 0",
    ],
    [
        "2 January 2031 is outside 2020 to 2030",
        "next_trading_day 0 2030 12 31 = 0 2031 1 2 2 0",
    ],
    [
        "10 March 2025 is a trading day itself, but the next is 11 March",
        "next_trading_day 0 2025 3 10 = 0 2025 3 10 0 0",
    ],
    [
        "31 December 9999 is a trading day of NYSE",
        "next_trading_day 0 9999 12 30 = 6 0 0 0 0 0",
    ],
];
pub const WRONG_PREVIOUS: [[&str; 2]; 5] = [
    [
        "28 December 2021 is a holiday of LSE, and the previous trading day is 24 December",
        "previous_trading_day 2 2021 12 29 = 0 2021 12 28 1 0",
    ],
    [
        "from 9 May back to 28 April 2022 the distance is 11",
        "previous_trading_day 3 2022 5 9 = 0 2022 4 28 12 0",
    ],
    [
        "31 December 2019 is outside 2020 to 2030",
        "previous_trading_day 0 2020 1 1 = 0 2019 12 31 1 0",
    ],
    [
        "10 March 2025 is a trading day itself, but the previous is 7 March",
        "previous_trading_day 0 2025 3 10 = 0 2025 3 10 0 0",
    ],
    [
        "2 January of the year 1 is a trading day of NYSE",
        "previous_trading_day 0 1 1 3 = 6 0 0 0 0 0",
    ],
];
