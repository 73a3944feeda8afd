/* The calls of the trading calendar, for C and C++. Labels in brackets, as [easter], are those of docs/SCOPE.md.
 *
 * Every call takes any numbers and any text. It allocates nothing and keeps no state, so threads may call at the same time. Structs
 * are given and returned by value; a call writes to the buffer that it is lent and to nothing else. A time is a second of the day,
 * 0 to 86399, on the exchange's own clock; no call knows time zones, the host converts [time] [left-out]. Which days trade, and
 * when, is by the rules of docs/SCOPE.md for every call; docs/DIFFERENCES.md has the dates on which exchanges do otherwise. */
#ifndef TRADING_CALENDAR_H
#define TRADING_CALENDAR_H

#include <stddef.h>
#include <stdint.h>

#ifdef __cplusplus
extern "C" {
#endif

/* The markets [markets]. */
enum { TC_NYSE = 0, TC_NASDAQ = 1, TC_LSE = 2, TC_TSE = 3, TC_TSX = 4 };

/* Their bits. A set of markets is a byte, the bits of its members joined by | [market-set]. */
enum {
    TC_NYSE_BIT = 1 << TC_NYSE,
    TC_NASDAQ_BIT = 1 << TC_NASDAQ,
    TC_LSE_BIT = 1 << TC_LSE,
    TC_TSE_BIT = 1 << TC_TSE,
    TC_TSX_BIT = 1 << TC_TSX
};

/* The weekdays [weekday-numbers]. */
enum { TC_MONDAY = 0, TC_TUESDAY = 1, TC_WEDNESDAY = 2, TC_THURSDAY = 3, TC_FRIDAY = 4, TC_SATURDAY = 5, TC_SUNDAY = 6 };

/* No error, and the errors [errors]. A call gives the first that applies, in the order that its comment has them in. */
enum {
    TC_OK = 0,
    TC_DATE_OUT_OF_RANGE = 1,        /* year: it is outside 2020 to 2030 */
    TC_INVALID_DATE_CALCULATION = 2, /* month: it is not 1 to 12 */
    TC_INVALID_SESSION = 3,          /* session: its ends are equal */
    TC_INVALID_TIME = 4,             /* early close: it is not before the regular end */
    TC_INVALID_DATE = 5,             /* date: there is no such date */
    TC_NO_TRADING_DAY_FOUND = 6,     /* trading day: there is none left */
    TC_TIME_OUT_OF_RANGE = 7,        /* time: it is not 0 to 86399 */
    TC_UNKNOWN_MARKET = 8,           /* market: it is not 0 to 4 */
    TC_BUFFER_TOO_SMALL = 9,         /* buffer: the answer does not fit */
    TC_MALFORMED_TEXT = 10,          /* text: it is not of the form */
    TC_NO_TRADING_DAY_IN_RANGE = 11, /* date range: none of its days trades */
    TC_INVALID_MARKET_SET = 12       /* market set: it is empty or has a bit above 4 */
};

/* How many bytes are enough for the trading days of any month, and for any month sheet; how many entries for the slices of any
 * order. */
enum { TC_MONTH_BUFFER_LENGTH = 23, TC_SHEET_BUFFER_LENGTH = 104, TC_SLICE_BUFFER_LENGTH = 2782 };

/* A Gregorian date of the years 1 to 9999 [date], or 0, 0, 0 in an answer without one. */
typedef struct {
    uint32_t year, month, day;
} tc_date;

/* The times at which a session starts and ends. Over midnight the end is before the start; with equal ends the session is the whole
 * day [contains]. */
typedef struct {
    uint32_t start, end;
} tc_session;

/* The hours of a date [hours-record]. A part is absent if its has_ field is 0, whatever its numbers are, and present with any
 * other number there. In an answer has_ is 0 or 1, and the numbers of an absent part are 0 [host-answers]. */
typedef struct {
    tc_date date;
    uint32_t has_pre_market;
    tc_session pre_market;
    tc_session regular;
    uint32_t has_after_hours;
    tc_session after_hours;
    uint32_t has_early_close;
    uint32_t early_close;
} tc_hours;

/* In an answer error is TC_OK and the other fields are the answer; or error is one of the errors, and every other field is 0 but
 * for those that a comment names here [host-answers]. */

/* found is 1 and date is the answer, or every field is 0: none. */
typedef struct {
    uint32_t found;
    tc_date date;
} tc_optional_date;

/* value is 1 for yes or 0 for no, and date is 0. With error 1 date is the date that was given. */
typedef struct {
    uint32_t error, value;
    tc_date date;
} tc_bool_result;

/* date is the answer, and distance is how many days it is from the date given, 1 or more [distance]. outside is 1 if either date
 * is outside 2020 to 2030, else 0 [outside]: the rules are followed there too, but made for these years, and TSE for one has no
 * equinox days in others. */
typedef struct {
    uint32_t error;
    tc_date date;
    uint32_t distance, outside;
} tc_trading_day_result;

/* count is how many trading days there are, or how many bytes the sheet has, and date is 0. With error 9 count is how many bytes
 * the list or the sheet takes. With error 1 date is the start of the count or the 1st of the month, 1970-01-01 where there is no
 * 1st [month-error-date]. */
typedef struct {
    uint32_t error, count;
    tc_date date;
} tc_count_result;

/* count is how many trading days there are, per_day how many shares each carries, remainder how many are left, of which the first
 * days carry one each, and date is 0. With error 9 count is how many entries the slices take. With error 1 date is the start. */
typedef struct {
    uint32_t error, count, per_day, remainder;
    tc_date date;
} tc_slice_result;

/* found is 1 and date is the answer, or both are 0: none. With error 1 date is the start. */
typedef struct {
    uint32_t error, found;
    tc_date date;
} tc_optional_date_result;

/* seconds is a time. */
typedef struct {
    uint32_t error, seconds;
} tc_time_result;

typedef struct {
    uint32_t error;
    tc_session session;
} tc_session_result;

typedef struct {
    uint32_t error;
    tc_hours hours;
} tc_hours_result;

/* The first such weekday of the month, and nth - 1 weeks on; with nth below 0 the last such weekday, and -nth - 1 weeks back: -2 is
 * the second from the end [nth-weekday]. None if that day's month has another number (its year is not compared), if nth is 0 or
 * beyond 255 either way, if nth is below 0 in December 9999, or if the weekday, the month, the year or the answer is out of range. */
tc_optional_date tc_nth_weekday_of_month(uint32_t year, uint32_t month, uint32_t weekday, int32_t nth);

/* The last such weekday of the month: the answer for nth = -1, so none in December 9999 and for numbers out of range [last-weekday]. */
tc_optional_date tc_last_weekday_of_month(uint32_t year, uint32_t month, uint32_t weekday);

/* Easter Sunday of the year [easter], the Friday two days before it [good-friday], and the Monday after it [easter-monday]. None
 * outside the years 1 to 9999. */
tc_optional_date tc_calculate_easter(uint32_t year);
tc_optional_date tc_calculate_good_friday(uint32_t year);
tc_optional_date tc_calculate_easter_monday(uint32_t year);

/* Whether the date is no Saturday, no Sunday and no holiday of the market [trading-day]. On some dates the exchange does otherwise: a
 * host that has to follow it asks its own list of exceptions first (docs/DIFFERENCES.md). Errors: 8 market, 5 date, 1 year
 * [year-check]. */
tc_bool_result tc_is_trading_day(uint32_t market, uint32_t year, uint32_t month, uint32_t day);

/* Whether the date is a holiday of the market, be it on a weekend or not [is-holiday]. Errors: 8 market, 5 date, 1 year. */
tc_bool_result tc_is_holiday(uint32_t market, uint32_t year, uint32_t month, uint32_t day);

/* The first trading day of the market after a date of any year, be that a trading day or not [next], and the last one before it
 * [previous]. There is no error 1: outside is 1 instead. Errors: 8 market, 5 date, 6 trading day, up to 9999-12-31 or down to
 * 0001-01-01. */
tc_trading_day_result tc_next_trading_day(uint32_t market, uint32_t year, uint32_t month, uint32_t day);
tc_trading_day_result tc_previous_trading_day(uint32_t market, uint32_t year, uint32_t month, uint32_t day);

/* Writes the trading days of the month, ascending, one byte each, from the start of out, and answers how many [month-list].
 * TC_MONTH_BUFFER_LENGTH bytes are enough. out is not null, also if out_length is 0 [host-calls]. Bytes past the answer stay as
 * they were, and with an error all do [error-writes-nothing]. Errors: 8 market, 1 year, 2 month, 9 buffer. */
tc_count_result tc_trading_days_in_month(uint32_t market, uint32_t year, uint32_t month, uint8_t *out, size_t out_length);

/* How many trading days the market has from the start to the end, both included; 0 if the start is after the end [count]. Errors:
 * 8 market, 5 date, 1 year, and that only if the start's is below 2020 or the end's above 2030. */
tc_count_result tc_count_trading_days(uint32_t market, uint32_t start_year, uint32_t start_month, uint32_t start_day,
                                      uint32_t end_year, uint32_t end_month, uint32_t end_day);

/* Slices an order over the trading days of the market from the start to the end, both included [slice-order]. Writes the slices
 * from the start of out, one entry for each day: the shares per day, and on the first days one more until the remainder is spent, so
 * that they add up to the quantity, which may be 0 [slices] [slice-laws]. out_length counts entries, of which TC_SLICE_BUFFER_LENGTH
 * are enough. out is not null, also if out_length is 0 [host-calls]. Entries past the slices stay as they were, and with an error
 * all do [error-writes-nothing]. Errors: 8 market, 5 date, 1 year as with the count, 11 date range (also if the start is after
 * the end), 9 buffer. */
tc_slice_result tc_slice_order(uint32_t market, uint32_t quantity, uint32_t start_year, uint32_t start_month, uint32_t start_day,
                               uint32_t end_year, uint32_t end_month, uint32_t end_day, uint32_t *out, size_t out_length);

/* A day from the start to the end, both included, on which every market of the set trades; or none, found 0, exactly if there is no
 * such day, also where the start is after the end. Which of several is left open: do not rely on it being the first [common-day]
 * [common-day-laws]. Errors: 12 market set, 5 date, 1 year as with the count. */
tc_optional_date_result tc_common_trading_day(uint8_t markets, uint32_t start_year, uint32_t start_month, uint32_t start_day,
                                              uint32_t end_year, uint32_t end_month, uint32_t end_day);

/* The hours of the market on a date of any year, be it a trading day or not [trading-hours]. On an early close of the US
 * [early-close] regular.end stays, early_close is set, and after_hours begin with it; tc_market_close gives the close. The exchange's
 * hours differ on many days: a host's own exceptions come first (docs/DIFFERENCES.md). Errors: 8 market, 5 date. */
tc_hours_result tc_trading_hours(uint32_t market, uint32_t year, uint32_t month, uint32_t day);

/* Whether the date is a trading day of the market and its hours on that date are open at the time [is-open]. Pre-market and
 * after-hours count as open: the US is open from 14400 to 72000 on every trading day, early closes too. For the regular session
 * alone compare with regular.start and tc_market_close. The exchange may be closed or open all the same: a host's own exceptions
 * come first (docs/DIFFERENCES.md). Errors: 8 market, 5 date, 7 time, 1 year. */
tc_bool_result tc_is_open(uint32_t market, uint32_t year, uint32_t month, uint32_t day, uint32_t time);

/* The session from start to end, over midnight if the end is before the start [session-new]. Errors: 7 time, 3 session. */
tc_session_result tc_session_new(uint32_t start, uint32_t end);

/* Whether the session contains the time: its start is in it, its end is not, and with equal ends every time is [contains].
 * Errors: 7 time, for any of the three. */
tc_bool_result tc_session_contains(tc_session session, uint32_t time);

/* The calls on an hours record have error 5 for its date, and 7 for a time in its regular session or in a part that is present. */

/* The record of these parts, with no early close [hours-new]. A session is absent if its has_ number is 0. Errors: 5 date,
 * 7 time. */
tc_hours_result tc_trading_hours_new(uint32_t year, uint32_t month, uint32_t day, tc_session regular, uint32_t has_pre_market,
                                     tc_session pre_market, uint32_t has_after_hours, tc_session after_hours);

/* The record with its early close set to the time [with-early-close]. Errors: 5 date, 7 time, for an earlier early close too,
 * 4 early close. */
tc_hours_result tc_with_early_close(tc_hours hours, uint32_t time);

/* Whether the record has an early close [is-early-close]. Errors: 5 date, 7 time. */
tc_bool_result tc_is_early_close(tc_hours hours);

/* The early close if the record has one, else its regular end [market-close]. Errors: 5 date, 7 time. */
tc_time_result tc_market_close(tc_hours hours);

/* Whether the record is open at the time: in its pre-market; from its regular start until its market close, though never over
 * midnight; or in its after-hours, if not before an early close [is-open-at]. Holidays are not consulted. Errors: 5 date,
 * 7 time. */
tc_bool_result tc_is_open_at(tc_hours hours, uint32_t time);

/* Reads a market, a year and a month from text, as "market=4\nyear=2022\nmonth=12\n": these three lines in this order, each with 1
 * to 9 decimal digits and a line feed, and no other byte [sheet-input]. Writes the sheet of the month from the start of out, with
 * no 0 byte after it: the three lines, count= with how many trading days there are, and days= with the days, ascending, with commas
 * between [sheet-output]. Answers how many bytes it wrote [sheet-return]; TC_SHEET_BUFFER_LENGTH are enough. Neither pointer is
 * null, also if a length is 0, and text and out do not overlap [host-calls]. Bytes past the sheet stay as they were, and with an
 * error all do [error-writes-nothing]. Errors: 10 text, 8 market, 1 year, 2 month, 9 buffer. */
tc_count_result tc_month_sheet(const uint8_t *text, size_t text_length, uint8_t *out, size_t out_length);

#ifdef __cplusplus
}
#endif

#endif
