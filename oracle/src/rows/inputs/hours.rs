//! What the rows of crates/replay/data/hours.txt are about.

use crate::added::faults::Wrong;

pub const HEAD: &str = "\
# The hours of a date, sessions, early closes, and whether a market is open. Markets are 0 NYSE, 1 NASDAQ, 2 LSE, 3 TSE, 4 TSX;
# times are seconds of the day.
#
# HOURS, a record, is 13 numbers: year, month, day, has_pre_market, its start, its end, regular start, regular end,
# has_after_hours, its start, its end, has_early_close, early close
#
# trading_hours MARKET YEAR MONTH DAY = error, HOURS
# is_open MARKET YEAR MONTH DAY TIME = error, value, year, month, day, where the date is that of error 1
# session_new START END = error, start, end
# session_contains START END TIME = error, value, 0, 0, 0
# trading_hours_new YEAR MONTH DAY, regular START END, has_pre_market START END, has_after_hours START END = error, HOURS
# with_early_close HOURS TIME = error, HOURS
# is_early_close HOURS = error, value, 0, 0, 0
# market_close HOURS = error, seconds
# is_open_at HOURS TIME = error, value, 0, 0, 0
#
# Made by `oracle/run FOLDER rows hours`, where FOLDER is the repository danjloveless/trading-calendar at commit 7b03202e8e:
# the answers of its TradingCalendar, Session and TradingHours; for is_open those of is_trading_day and is_open_at together. Its
# source is unchanged; its dependencies are the stand-ins of oracle/stand-ins, for chrono as in docs/SCOPE.md [oracle].
# Errors 8, 5 and 7 are rules of the library, as their headings say. A has_ field of 0 stands for the original's None, any other
# for Some; the numbers of an absent part are passed over, and come back as 0 [host-answers].
# Each kind of row is at the end once more, wrong on purpose, below a comment that says what is right. replay's expected
# output has exactly these as differing.
";

/// An early close on a Sunday, and a holiday on which the hours alone say open [examples].
pub const EARLY_SUNDAY: [u32; 3] = [2022, 7, 3];
pub const CHRISTMAS: [u32; 3] = [2025, 12, 25];
pub const EXAMPLE_TIME: u32 = 36_000;

/// A Monday, a Saturday, a holiday of all markets but TSE, a leap day, the first and the last date, and a Sunday.
pub const DAYS: [[u32; 3]; 7] = [
    MONDAY,
    [2025, 3, 8],
    CHRISTMAS,
    [2024, 2, 29],
    [1, 1, 1],
    [9999, 12, 31],
    EARLY_SUNDAY,
];
pub const MONDAY: [u32; 3] = [2025, 3, 10];
pub const EARLY_CLOSE: [u32; 3] = [2025, 11, 28];
pub const OTHER_YEARS: [u32; 5] = [1, 1900, 2019, 2031, 9999];

/// Dates of error 1, at the edges and far outside.
pub const OUTSIDE: [[u32; 3]; 4] = [[2019, 12, 31], [2031, 1, 1], [1, 1, 1], [9999, 12, 31]];

pub const TIMES: [u32; 5] = [0, 1, 34_200, 57_600, 86_399];

pub const SESSIONS: [(&str, [u32; 2]); 9] = [
    ("within a day", REGULAR),
    ("over midnight", NIGHT),
    ("all of the day but its last second", [0, 86_399]),
    ("the last second of the day", [86_399, 0]),
    ("one second", [0, 1]),
    ("all but one second", [1, 0]),
    ("equal ends", [34_200, 34_200]),
    ("equal ends at 0", [0, 0]),
    ("equal ends at the last second", [86_399, 86_399]),
];

const REGULAR: [u32; 2] = [34_200, 57_600];
const NIGHT: [u32; 2] = [72_000, 14_400];

/// Records on MONDAY: what they are; pre-market, regular, after-hours, early close.
pub const RECORDS: &str = "\
regular hours alone: 0 0 0  34200 57600  0 0 0  0 0
sessions before and after: 1 14400 34200  34200 57600  1 57600 72000  0 0
an early close, after-hours from it: 1 14400 34200  34200 57600  1 46800 72000  1 46800
an early close alone: 0 0 0  34200 57600  0 0 0  1 46800
an early close before the regular start: 0 0 0  34200 57600  0 0 0  1 30000
an early close at the regular start: 0 0 0  34200 57600  0 0 0  1 34200
an early close at the regular end: 0 0 0  34200 57600  0 0 0  1 57600
an early close past the regular end: 0 0 0  34200 57600  0 0 0  1 61200
an early close at 0: 0 0 0  34200 57600  1 57600 72000  1 0
an early close at the last second: 0 0 0  34200 57600  1 57600 72000  1 86399
after-hours that begin before the early close: 0 0 0  34200 57600  1 36000 72000  1 46800
after-hours that end before the early close: 0 0 0  40000 57600  1 20000 30000  1 46800
after-hours that begin past the early close: 0 0 0  34200 57600  1 57600 72000  1 46800
regular hours over midnight: 0 0 0  72000 14400  0 0 0  0 0
regular hours over midnight, an early close past their start: 0 0 0  72000 14400  0 0 0  1 80000
regular hours over midnight, an early close before their end: 0 0 0  72000 14400  0 0 0  1 10000
regular hours with equal ends: 0 0 0  34200 34200  0 0 0  0 0
regular hours with equal ends, an early close past them: 0 0 0  34200 34200  0 0 0  1 46800
a pre-market session over midnight: 1 72000 14400  34200 57600  0 0 0  0 0
a pre-market session with equal ends: 1 20000 20000  34200 57600  0 0 0  0 0
after-hours over midnight: 0 0 0  34200 57600  1 72000 14400  0 0
after-hours over midnight and an early close: 0 0 0  34200 57600  1 72000 14400  1 46800
after-hours with equal ends and an early close: 0 0 0  34200 57600  1 50000 50000  1 46800
absent parts with times: 0 14400 34200  34200 57600  0 57600 72000  0 46800
absent parts with other numbers: 0 4294967295 86400  34200 57600  0 86400 4294967295  0 86400
has_ fields of 2, 256 and 65536: 2 14400 34200  34200 57600  256 46800 72000  65536 46800
has_ fields of 2147483648: 2147483648 14400 34200  34200 57600  2147483648 46800 72000  2147483648 46800
a pre-market session after an early close: 1 50000 60000  34200 57600  0 0 0  1 46800
after-hours before the regular end: 0 0 0  34200 57600  1 50000 72000  0 0
";

/// A record with every part, and one with none, but with numbers in their places.
pub const WHOLE: [u32; 13] = [
    2025, 3, 10, 1, 14_400, 34_200, 34_200, 57_600, 1, 46_800, 72_000, 1, 46_800,
];
pub const BARE: [u32; 13] = [
    2025,
    3,
    10,
    0,
    u32::MAX,
    86_400,
    34_200,
    57_600,
    0,
    86_400,
    u32::MAX,
    0,
    u32::MAX,
];

/// For rows of the errors that the original does not have, in WHOLE and in BARE.
pub const WRONG: [Wrong; 2] = [
    Wrong {
        markets: &[5],
        dates: &[[2025, 2, 29]],
        times: &[86_400],
    },
    Wrong {
        markets: &[u32::MAX],
        dates: &[[0, 1, 1]],
        times: &[u32::MAX],
    },
];

/// For each kind what is right, and a row with another answer.
pub const WRONG_ON_PURPOSE: [[&str; 2]; 9] = [
    [
        "3 July 2022 is an early close of NYSE, be it a Sunday",
        "trading_hours 0 2022 7 3 = 0 2022 7 3 1 14400 34200 34200 57600 1 57600 72000 0 0",
    ],
    [
        "NYSE is not open on 25 December 2025, a holiday",
        "is_open 0 2025 12 25 36000 = 0 1 0 0 0",
    ],
    [
        "equal ends are error 3",
        "session_new 34200 34200 = 0 34200 34200",
    ],
    [
        "a session does not contain its end",
        "session_contains 34200 57600 57600 = 0 1 0 0 0",
    ],
    [
        "the numbers of an absent part come back as 0",
        "trading_hours_new 2025 3 10 34200 57600 0 14400 34200 0 0 0 = 0 2025 3 10 0 14400 34200 34200 57600 0 0 0 0 0",
    ],
    [
        "an early close at the regular end is error 4",
        "with_early_close 2025 3 10 0 0 0 34200 57600 0 0 0 0 0 57600 = 0 2025 3 10 0 0 0 34200 57600 0 0 0 1 57600",
    ],
    [
        "a has_ field of 2 means that there is an early close",
        "is_early_close 2025 3 10 0 0 0 34200 57600 0 0 0 2 46800 = 0 0 0 0 0",
    ],
    [
        "the close is 61200, as an early close counts also past the regular end",
        "market_close 2025 3 10 0 0 0 34200 57600 0 0 0 1 61200 = 0 57600",
    ],
    [
        "regular hours over midnight have no open time",
        "is_open_at 2025 3 10 0 0 0 72000 14400 0 0 0 0 0 80000 = 0 1 0 0 0",
    ],
];
