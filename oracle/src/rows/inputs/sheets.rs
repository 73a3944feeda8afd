//! What the rows of crates/replay/data/sheets.txt are about.

pub const HEAD: &str = r#"# The trading days of a month as text. Markets are 0 NYSE, 1 NASDAQ, 2 LSE, 3 TSE, 4 TSX.
#
# month_sheet ROOM TEXT = error, count, year, month, day, and every byte of a buffer of ROOM bytes, each of which is a full stop before
#   the call
#
# In quotes each byte is a number, and \n is a line feed. Other bytes that are not printed, quotes and backslashes stand beside the
# quoted text as numbers.
#
# Made by `oracle/run FOLDER rows sheets`, where FOLDER is the repository danjloveless/trading-calendar at commit 7b03202e8e: the days
# and the errors of its TradingCalendar. Its source is unchanged; its dependencies are the stand-ins of oracle/stand-ins, for chrono as
# in docs/SCOPE.md [oracle]. It has no sheet: the text with its days is that of docs/SCOPE.md [sheet-output]. Error 1 is its
# DateOutOfRange, error 2 its InvalidDateCalculation. Errors 10, 8 and 9, and error 1 of a year outside 1 to 9999, are rules of the
# library, as their headings say.
# The last five rows are wrong on purpose, each below a comment that says what is right. replay's expected output has exactly these
# as differing.
"#;

/// The largest number of nine digits is the last of each.
pub const NO_MARKETS: &[u32] = &[5, 6, 255, 256, 999_999_999];
pub const NO_YEARS: &[u32] = &[0, 10000, 999_999_999];
pub const NO_MONTHS: &[u32] = &[0, 13, 999_999_999];
/// Years of dates without sheets.
pub const OTHER_YEARS: &[u32] = &[1, 1969, 1970, 2019, 2031, 9999];

/// Years and months asked of each market, by heading.
pub const MONTHS: [(&str, &[[u32; 2]]); 3] = [
    (
        "the first and the last month of 2020 to 2030",
        &[[2020, 1], [2030, 12]],
    ),
    ("February of leap years", &[[2020, 2], [2024, 2], [2028, 2]]),
    (
        "other months, with few trading days and with many",
        &[
            [2021, 3],
            [2021, 12],
            [2022, 5],
            [2023, 2],
            [2026, 11],
            [2029, 8],
        ],
    ),
];

/// Market, year and month. Those asked for with leading zeros, and with other room than the sheet takes.
pub const SOME_MONTHS: [[u32; 3]; 5] = [
    [0, 2020, 2],
    [1, 2021, 3],
    [2, 2024, 12],
    [3, 2022, 5],
    [4, 2022, 12],
];

/// Texts that are not of the form, by what is wrong.
pub const MALFORMED: [(&str, &[&str]); 6] = [
    (
        "a line is missing, or not ended",
        &[
            "",
            "\n",
            "market=",
            "market=4",
            "market=4\n",
            "market=4\nyear=2022\n",
            "market=4\nyear=2022\nmonth=12",
            "year=2022\nmonth=12\n",
            "market=4\nmonth=12\n",
        ],
    ),
    (
        "a line too many, or another order",
        &[
            "\nmarket=4\nyear=2022\nmonth=12\n",
            "market=4\n\nyear=2022\nmonth=12\n",
            "market=4\nyear=2022\nmonth=12\n\n",
            "market=4\nyear=2022\nmonth=12\nday=1\n",
            "market=4\nyear=2022\nmonth=12\nmarket=4\nyear=2022\nmonth=12\n",
            "year=2022\nmarket=4\nmonth=12\n",
            "market=4\nmonth=12\nyear=2022\n",
        ],
    ),
    (
        "another name",
        &[
            "Market=4\nyear=2022\nmonth=12\n",
            "market=4\nYEAR=2022\nmonth=12\n",
            "market=4\nyear=2022\nmonths=12\n",
            "market:4\nyear=2022\nmonth=12\n",
            "market==4\nyear=2022\nmonth=12\n",
            "4\n2022\n12\n",
        ],
    ),
    (
        "no number of 1 to 9 digits",
        &[
            "market=\nyear=2022\nmonth=12\n",
            "market=4\nyear=\nmonth=12\n",
            "market=4\nyear=2022\nmonth=\n",
            "market=0000000004\nyear=2022\nmonth=12\n",
            "market=4\nyear=0000002022\nmonth=12\n",
            "market=4\nyear=2022\nmonth=0000000012\n",
            "market=4\nyear=4294969318\nmonth=12\n",
            "market=TSX\nyear=2022\nmonth=12\n",
            "market=+4\nyear=2022\nmonth=12\n",
            "market=4\nyear=-2022\nmonth=12\n",
            "market=4\nyear=2022\nmonth=0xC\n",
            "market=4\nyear=2022\nmonth=12.0\n",
            "market=\"4\"\nyear=2022\nmonth=12\n",
            "market=\u{FF14}\nyear=2022\nmonth=12\n",
        ],
    ),
    (
        "a byte beside the lines, or another end of a line",
        &[
            " market=4\nyear=2022\nmonth=12\n",
            "market= 4\nyear=2022\nmonth=12\n",
            "market=4 \nyear=2022\nmonth=12\n",
            "market=4\nyear=2022\nmonth=12\n ",
            "market=4\nyear=2022\nmonth=12\n\0",
            "market=4\0\nyear=2022\nmonth=12\n",
            "market=4\r\nyear=2022\r\nmonth=12\r\n",
            "market=4\ryear=2022\rmonth=12\r",
            "market=4\\nyear=2022\\nmonth=12\\n",
            "market=4,year=2022,month=12\n",
            "\u{FEFF}market=4\nyear=2022\nmonth=12\n",
        ],
    ),
    (
        "the last line is not ended, before errors 8, 1, 2 and 9",
        &[
            "market=5\nyear=2022\nmonth=12",
            "market=4\nyear=2019\nmonth=12",
            "market=4\nyear=2022\nmonth=13",
            "market=5\nyear=2019\nmonth=13",
        ],
    ),
];

/// What is right, the room, the text, the fields of another answer and the bytes of the buffer.
pub type Wrong = (&'static str, usize, &'static str, [u32; 5], &'static str);
pub const WRONG_ON_PURPOSE: [Wrong; 5] = [
    (
        "TSX also trades on 27 December 2022",
        98,
        "market=4\nyear=2022\nmonth=12\n",
        [0, 95, 0, 0, 0],
        "market=4\nyear=2022\nmonth=12\ncount=20\ndays=1,2,5,6,7,8,9,12,13,14,15,16,19,20,21,22,23,28,29,30\n...",
    ),
    (
        "a sheet has no leading zeros",
        102,
        "market=4\nyear=02022\nmonth=012\n",
        [0, 100, 0, 0, 0],
        "market=4\nyear=02022\nmonth=012\ncount=21\ndays=1,2,5,6,7,8,9,12,13,14,15,16,19,20,21,22,23,27,28,29,30\n..",
    ),
    (
        "with too little room nothing is written",
        9,
        "market=4\nyear=2022\nmonth=12\n",
        [9, 98, 0, 0, 0],
        "market=4\n",
    ),
    (
        "error 1 comes before error 2, with 1970-01-01",
        3,
        "market=4\nyear=2031\nmonth=13\n",
        [2, 0, 0, 0, 0],
        "...",
    ),
    (
        "lines end with a line feed alone",
        3,
        "market=4\r\nyear=2031\r\nmonth=12\r\n",
        [1, 0, 2031, 12, 1],
        "...",
    ),
];
