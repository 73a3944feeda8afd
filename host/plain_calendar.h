/* A second, plain calendar that the tests compare with. It shares no code with the library: every day of the years
 * 1 to 9999 stands in one table, a row each, and questions are answered by looking in it. */
#ifndef PLAIN_CALENDAR_H
#define PLAIN_CALENDAR_H

#include "trading_calendar.h"

/* Fills the table. To be called once, before any other function here. */
void plain_fill(void);

/* What the calls of the same names in trading_calendar.h have to answer. */
tc_optional_date plain_nth_weekday_of_month(uint32_t year, uint32_t month, uint32_t weekday, int32_t nth);
tc_optional_date plain_last_weekday_of_month(uint32_t year, uint32_t month, uint32_t weekday);
tc_optional_date plain_calculate_easter(uint32_t year);
tc_optional_date plain_calculate_good_friday(uint32_t year);
tc_optional_date plain_calculate_easter_monday(uint32_t year);
tc_bool_result plain_is_trading_day(uint32_t market, uint32_t year, uint32_t month, uint32_t day);
tc_bool_result plain_is_holiday(uint32_t market, uint32_t year, uint32_t month, uint32_t day);
tc_trading_day_result plain_next_trading_day(uint32_t market, uint32_t year, uint32_t month, uint32_t day);
tc_trading_day_result plain_previous_trading_day(uint32_t market, uint32_t year, uint32_t month, uint32_t day);
tc_count_result plain_trading_days_in_month(uint32_t market, uint32_t year, uint32_t month, uint8_t *out, size_t out_length);
tc_count_result plain_count_trading_days(uint32_t market, uint32_t start_year, uint32_t start_month, uint32_t start_day,
                                         uint32_t end_year, uint32_t end_month, uint32_t end_day);
tc_slice_result plain_slice_order(uint32_t market, uint32_t quantity, uint32_t start_year, uint32_t start_month, uint32_t start_day,
                                  uint32_t end_year, uint32_t end_month, uint32_t end_day, uint32_t *out, size_t out_length);
tc_hours_result plain_trading_hours(uint32_t market, uint32_t year, uint32_t month, uint32_t day);
tc_bool_result plain_is_open(uint32_t market, uint32_t year, uint32_t month, uint32_t day, uint32_t time);
tc_session_result plain_session_new(uint32_t start, uint32_t end);
tc_bool_result plain_session_contains(tc_session session, uint32_t time);
tc_hours_result plain_trading_hours_new(uint32_t year, uint32_t month, uint32_t day, tc_session regular, uint32_t has_pre_market,
                                        tc_session pre_market, uint32_t has_after_hours, tc_session after_hours);
tc_hours_result plain_with_early_close(tc_hours hours, uint32_t time);
tc_bool_result plain_is_early_close(tc_hours hours);
tc_time_result plain_market_close(tc_hours hours);
tc_bool_result plain_is_open_at(tc_hours hours, uint32_t time);
tc_count_result plain_month_sheet(const uint8_t *text, size_t text_length, uint8_t *out, size_t out_length);

/* The same for a call that leaves its day open: the day that was answered if it is right, else the first that is. */
tc_optional_date_result plain_common_trading_day(uint8_t markets, uint32_t start_year, uint32_t start_month, uint32_t start_day,
                                                 uint32_t end_year, uint32_t end_month, uint32_t end_day, tc_date answered);

/* For the parts of the plain calendar: the size of the table; the row of a date, or -1 if there is no such date; the date and the
 * weekday of a row. */
enum { LAST_YEAR = 9999, ROWS = 3652059, MARKETS = 5 };
enum { JAN = 1, FEB, MAR, APR, MAY, JUN, JUL, AUG, SEP, OCT, NOV, DEC };
enum { MON, TUE, WED, THU, FRI, SAT, SUN };
int plain_row(uint32_t year, uint32_t month, uint32_t day);
int plain_row_of(tc_date date);
tc_date plain_date(int row);
int plain_weekday(int row);

/* The first of the errors 8 and 5 that a market and a date have, or 0; whether a date is outside 2020 to 2030; whether a row, of
 * any year, is a trading day of the market; the first from a row to the last on which every market of a set trades, or a later one
 * if there is none. */
uint32_t plain_error(uint32_t market, tc_date date);
int plain_is_outside(tc_date date);
int plain_trades(uint32_t market, int row);
int plain_common_row(uint8_t markets, int row, int last);

/* For plain_fill: enter the holidays and the early closes, once the days are there. */
void plain_fill_holidays(void);
void plain_fill_early_closes(void);

#endif
