//! What the rows of crates/replay/data/ranges.txt are about.

pub const HEAD: &str = "\
# The trading days of a month, and how many there are between two dates. Markets are 0 NYSE, 1 NASDAQ, 2 LSE, 3 TSE, 4 TSX.
#
# trading_days_in_month MARKET YEAR MONTH ROOM = error, count, year, month, day, and every byte of a buffer of ROOM bytes, each of
#   which is 255 before the call
# count_trading_days MARKET YEAR MONTH DAY YEAR MONTH DAY = error, count, year, month, day
#
# Made by `oracle/run FOLDER rows ranges`, where FOLDER is the repository danjloveless/trading-calendar at commit 7b03202e8e: the
# answers of its TradingCalendar, its list of dates as the bytes at the start of the buffer. Its source is unchanged; its
# dependencies are the stand-ins of oracle/stand-ins, for chrono as in docs/SCOPE.md [oracle]. Error 1 is its DateOutOfRange, error 2
# its InvalidDateCalculation. Errors 8, 5 and 9, and error 1 of a month whose year is outside 1 to 9999, are rules of the library, as
# their headings say.
# Each kind of row is at the end five times more, wrong on purpose, below a comment that says what is right. replay's expected
# output has exactly these as differing.
";

/// The most room that a row has.
pub const MOST_ROOM: u32 = 27;
pub const NO_MONTHS: &[u32] = &[0, 13, u32::MAX];
pub const NO_YEARS: &[u32] = &[0, 10000, u32::MAX];
/// Years of dates outside 2020 to 2030, and each with some of its months.
pub const OTHER_YEARS: &[u32] = &[1, 1969, 1970, 9999];
pub const SOME_MONTHS: &[u32] = &[1, 2, 12];

/// Market, year and month. Those asked for with other room than the days take: leap months, the fewest days and the most.
pub const MONTHS_WITH_ROOM: [[u32; 3]; 12] = [
    [0, 2020, 1],
    [0, 2020, 2],
    [0, 2025, 1],
    [1, 2023, 2],
    [1, 2030, 12],
    [2, 2021, 12],
    [2, 2024, 4],
    [3, 2020, 5],
    [3, 2022, 5],
    [3, 2029, 8],
    [4, 2022, 12],
    [4, 2028, 2],
];

/// The first and the last month with an answer, and those beside them.
pub const EDGE_MONTHS: [[u32; 2]; 4] = [[2019, 12], [2020, 1], [2030, 12], [2031, 1]];

/// Starts and ends that are counted for each market, by heading.
pub const RANGES: [(&str, &[[u32; 6]]); 6] = [
    (
        "a month",
        &[
            [2020, 2, 1, 2020, 2, 29],
            [2022, 5, 1, 2022, 5, 31],
            [2022, 12, 1, 2022, 12, 31],
            [2023, 2, 1, 2023, 2, 28],
        ],
    ),
    ("all years, and all but their ends", &ALL_YEARS),
    (
        "one day: a Monday, 25 December, a leap day, the first and the last of 2020 to 2030; a weekend; a week",
        &[
            [2025, 3, 10, 2025, 3, 10],
            [2025, 12, 25, 2025, 12, 25],
            [2024, 2, 29, 2024, 2, 29],
            [2025, 3, 8, 2025, 3, 9],
            [2025, 3, 10, 2025, 3, 16],
            [2020, 1, 1, 2020, 1, 1],
            [2030, 12, 31, 2030, 12, 31],
        ],
    ),
    (
        "around the 10 days on which TSE does not trade",
        &[
            [2022, 4, 28, 2022, 5, 9],
            [2022, 4, 29, 2022, 5, 8],
            [2022, 4, 29, 2022, 5, 9],
        ],
    ),
    ("a start after the end", &BACKWARD),
    (
        "error 1: a start before 2020, an end after 2030, and both",
        &OUTSIDE,
    ),
];

const ALL_YEARS: [[u32; 6]; 3] = [
    [2020, 1, 1, 2030, 12, 31],
    [2020, 1, 2, 2030, 12, 30],
    [2020, 7, 1, 2030, 6, 30],
];

/// Those at the edges of the years have no error.
const BACKWARD: [[u32; 6]; 7] = [
    [2025, 3, 11, 2025, 3, 10],
    [2030, 12, 31, 2020, 1, 1],
    [2020, 1, 1, 2019, 12, 31],
    [2020, 1, 1, 1, 1, 1],
    [2031, 1, 1, 2030, 12, 31],
    [2031, 1, 2, 2019, 12, 31],
    [9999, 12, 31, 1, 1, 1],
];

const OUTSIDE: [[u32; 6]; 8] = [
    [2019, 12, 31, 2020, 1, 2],
    [2019, 12, 31, 2019, 12, 31],
    [1, 1, 1, 2025, 3, 10],
    [2030, 12, 31, 2031, 1, 1],
    [2025, 3, 10, 9999, 12, 31],
    [2031, 1, 1, 2031, 1, 1],
    [9999, 12, 31, 2031, 1, 1],
    [2019, 12, 31, 2031, 1, 1],
];

/// Errors that come before others: a start or an end that is no date, a market that is none.
pub const NO_DATE_FIRST: &[[u32; 7]] = &[
    [0, 0, 0, 0, 2025, 3, 10],
    [0, 2025, 2, 29, 2031, 1, 1],
    [0, 2019, 2, 29, 2025, 3, 10],
    [0, 2019, 12, 31, 2025, 2, 29],
    [0, 2019, 12, 31, 2031, 2, 29],
    [0, 0, 12, 31, 2025, 3, 10],
    [0, 2025, 3, 10, 0, 12, 31],
    [0, 10000, 1, 1, 2025, 3, 10],
    [0, 2025, 3, 10, 10000, 1, 1],
    [0, 0, 0, 0, 0, 0, 0],
    [0, u32::MAX, 1, 1, u32::MAX, 1, 1],
];
pub const NO_MARKET_FIRST: &[[u32; 7]] = &[
    [5, 2019, 12, 31, 2025, 3, 10],
    [5, 2025, 3, 10, 2031, 1, 1],
    [5, 2025, 2, 29, 2025, 3, 10],
    [5, 2025, 3, 10, 2025, 2, 29],
    [5, 2031, 1, 1, 2030, 12, 31],
    [5, 0, 0, 0, 0, 0, 0],
    [
        u32::MAX,
        u32::MAX,
        u32::MAX,
        u32::MAX,
        u32::MAX,
        u32::MAX,
        u32::MAX,
    ],
];

/// For each kind what is right, and rows with another answer.
pub const WRONG_MONTHS: [[&str; 2]; 5] = [
    [
        "TSX also trades on 27 December 2022",
        "trading_days_in_month 4 2022 12 21 = 0 20 0 0 0 1 2 5 6 7 8 9 12 13 14 15 16 19 20 21 22 23 28 29 30 255",
    ],
    [
        "with too little room nothing is written",
        "trading_days_in_month 3 2022 5 16 = 9 17 0 0 0 9 10 11 12 13 16 17 18 19 20 23 24 25 26 27 30",
    ],
    [
        "the byte past the answer stays as it was",
        "trading_days_in_month 0 2025 1 22 = 0 21 0 0 0 2 3 6 7 8 9 10 13 14 15 16 17 21 22 23 24 27 28 29 30 31 0",
    ],
    [
        "December 2019 has a 1st, which is the date of its error 1",
        "trading_days_in_month 0 2019 12 0 = 1 0 1970 1 1",
    ],
    [
        "in 2031 error 1 comes before error 2",
        "trading_days_in_month 0 2031 13 0 = 2 0 0 0 0",
    ],
];
pub const WRONG_COUNTS: [[&str; 2]; 5] = [
    [
        "9 January 2025 is a trading day of NYSE here",
        "count_trading_days 0 2025 1 1 2025 1 31 = 0 20 0 0 0",
    ],
    [
        "the start and the end are both counted",
        "count_trading_days 1 2025 3 10 2025 3 11 = 0 1 0 0 0",
    ],
    [
        "a start in 2031 counts 0 if the end is in 2030",
        "count_trading_days 3 2031 1 1 2030 12 31 = 1 0 2031 1 1",
    ],
    [
        "error 1 has the start, also if the end is outside",
        "count_trading_days 2 2030 12 31 2031 1 1 = 1 0 2031 1 1",
    ],
    [
        "a start after the end counts 0",
        "count_trading_days 4 2025 3 14 2025 3 10 = 0 5 0 0 0",
    ],
];
