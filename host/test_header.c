/* The header as C and as C++: host/run builds this file in both. The sizes of the structs and the places of their fields, the named
 * numbers, and every call once, on examples of docs/SCOPE.md. Prints how many were compared; fails if any differs or not all were
 * compared. */
#include "trading_calendar.h"

#include <stdio.h>
#include <string.h>

/* How many comparisons are meant. */
enum { MEANT = 127 };
static int compared, differ;

static void is(const char *expression, unsigned long value, unsigned long expected) {
    compared++;
    if (value == expected) return;
    differ++;
    printf("%s is %lu and not %lu\n", expression, value, expected);
}

#define IS(expression, expected) is(#expression, (unsigned long)(expression), (unsigned long)(expected))
#define IS_DATE(date, y, m, d) (IS((date).year, y), IS((date).month, m), IS((date).day, d))

/* The layouts that the library has: numbers of 32 bits, with nothing between. */
static void structs(void) {
    IS(sizeof(tc_date), 4 * 3);
    IS(sizeof(tc_session), 4 * 2);
    IS(sizeof(tc_hours), 4 * 13);
    IS(sizeof(tc_optional_date), 4 * 4);
    IS(sizeof(tc_bool_result), 4 * 5);
    IS(sizeof(tc_trading_day_result), 4 * 6);
    IS(sizeof(tc_count_result), 4 * 5);
    IS(sizeof(tc_slice_result), 4 * 7);
    IS(sizeof(tc_optional_date_result), 4 * 5);
    IS(sizeof(tc_time_result), 4 * 2);
    IS(sizeof(tc_session_result), 4 * 3);
    IS(sizeof(tc_hours_result), 4 * 14);
    IS(offsetof(tc_hours, has_pre_market), 4 * 3);
    IS(offsetof(tc_hours, pre_market), 4 * 4);
    IS(offsetof(tc_hours, regular), 4 * 6);
    IS(offsetof(tc_hours, has_after_hours), 4 * 8);
    IS(offsetof(tc_hours, after_hours), 4 * 9);
    IS(offsetof(tc_hours, has_early_close), 4 * 11);
    IS(offsetof(tc_hours, early_close), 4 * 12);
    IS(offsetof(tc_trading_day_result, distance), 4 * 4);
    IS(offsetof(tc_trading_day_result, outside), 4 * 5);
    IS(offsetof(tc_slice_result, per_day), 4 * 2);
    IS(offsetof(tc_slice_result, remainder), 4 * 3);
    IS(offsetof(tc_slice_result, date), 4 * 4);
    IS(offsetof(tc_optional_date_result, found), 4 * 1);
    IS(offsetof(tc_optional_date_result, date), 4 * 2);
}

/* [markets], [market-set], [weekday-numbers], and lengths that test_ranges.c, test_sheet.c and test_slices.c show to be enough. */
static void codes(void) {
    IS(TC_NYSE, 0);
    IS(TC_NASDAQ, 1);
    IS(TC_LSE, 2);
    IS(TC_TSE, 3);
    IS(TC_TSX, 4);
    IS(TC_NYSE_BIT, 1);
    IS(TC_NASDAQ_BIT, 2);
    IS(TC_LSE_BIT, 4);
    IS(TC_TSE_BIT, 8);
    IS(TC_TSX_BIT, 16);
    IS(TC_MONDAY, 0);
    IS(TC_TUESDAY, 1);
    IS(TC_WEDNESDAY, 2);
    IS(TC_THURSDAY, 3);
    IS(TC_FRIDAY, 4);
    IS(TC_SATURDAY, 5);
    IS(TC_SUNDAY, 6);
    IS(TC_MONTH_BUFFER_LENGTH, 23);
    IS(TC_SHEET_BUFFER_LENGTH, 104);
    IS(TC_SLICE_BUFFER_LENGTH, 2782);
}

static void moving_days(void) {
    IS_DATE(tc_nth_weekday_of_month(2026, 11, TC_THURSDAY, 4).date, 2026, 11, 26);
    IS_DATE(tc_nth_weekday_of_month(2026, 11, TC_FRIDAY, -2).date, 2026, 11, 20);
    IS(tc_nth_weekday_of_month(2026, 11, TC_FRIDAY, -5).found, 0);
    IS_DATE(tc_last_weekday_of_month(2026, 5, TC_MONDAY).date, 2026, 5, 25);
    IS_DATE(tc_calculate_easter(2024).date, 2024, 3, 31);
    IS_DATE(tc_calculate_good_friday(2024).date, 2024, 3, 29);
    IS_DATE(tc_calculate_easter_monday(2024).date, 2024, 4, 1);
    IS(tc_calculate_easter(0).found, 0);
}

static void trading_days(void) {
    tc_trading_day_result next = tc_next_trading_day(TC_TSE, 2022, 4, 28);
    tc_trading_day_result previous = tc_previous_trading_day(TC_NYSE, 2020, 1, 1);
    uint8_t days[TC_MONTH_BUFFER_LENGTH];

    IS(tc_is_trading_day(TC_TSE, 2020, 5, 6).value, 1);
    IS(tc_is_holiday(TC_NYSE, 2022, 1, 3).value, 1);
    IS_DATE(next.date, 2022, 5, 9);
    IS(next.distance, 11);
    IS_DATE(previous.date, 2019, 12, 31);
    IS(previous.outside, 1);
    IS(tc_trading_days_in_month(TC_TSX, 2022, 12, days, sizeof days).count, 21);
    IS(days[20], 30);
    IS(tc_count_trading_days(TC_NYSE, 2025, 1, 1, 2025, 1, 31).count, 21);
}

/* 23, 24 and 28 December 2026. */
static void order(void) {
    uint32_t slices[3];
    tc_slice_result answer = tc_slice_order(TC_NYSE, 11, 2026, 12, 23, 2026, 12, 28, slices, 3);

    IS(answer.count, 3);
    IS(answer.per_day, 3);
    IS(answer.remainder, 2);
    IS(slices[0], 4);
    IS(slices[1], 4);
    IS(slices[2], 3);
}

/* TSE is closed on 23 November 2022, and NYSE on the 24th. */
static void common_day(void) {
    tc_optional_date_result day = tc_common_trading_day(TC_NYSE_BIT | TC_TSE_BIT, 2022, 11, 23, 2022, 11, 25);

    IS(day.error, TC_OK);
    IS(day.found, 1);
    IS_DATE(day.date, 2022, 11, 25);
    IS(tc_common_trading_day(TC_NYSE_BIT | TC_TSE_BIT, 2022, 11, 23, 2022, 11, 24).found, 0);
}

static void hours(void) {
    tc_hours nyse = tc_trading_hours(TC_NYSE, 2022, 7, 3).hours;
    tc_session night = tc_session_new(72000, 14400).session, none = {0, 0};
    tc_hours made = tc_trading_hours_new(2025, 3, 10, nyse.regular, 0, none, 1, night).hours;
    tc_hours early = tc_with_early_close(made, 57599).hours;

    IS(nyse.early_close, 46800);
    IS(nyse.after_hours.start, 46800);
    IS(tc_is_open(TC_NYSE, 2025, 12, 25, 36000).value, 0);
    IS(tc_session_contains(night, 14399).value, 1);
    IS(made.after_hours.end, 14400);
    IS(tc_is_early_close(early).value, 1);
    IS(tc_market_close(early).seconds, 57599);
    IS(tc_is_open_at(early, 57599).value, 0);
}

static void sheet(void) {
    static const char text[] = "market=4\nyear=2022\nmonth=12\n", last[] = ",29,30\n";
    uint8_t out[TC_SHEET_BUFFER_LENGTH];
    tc_count_result answer = tc_month_sheet((const uint8_t *)text, strlen(text), out, sizeof out);

    IS(answer.count, 98);
    IS(memcmp(out + 98 - strlen(last), last, strlen(last)), 0);
}

/* [errors], each by its name and its number. */
static void errors(void) {
    static const tc_session whole = {0, 0};
    uint8_t none = 0;
    uint32_t slice = 0;

    IS(tc_is_trading_day(TC_TSE, 2020, 5, 6).error, TC_OK);
    IS(tc_is_trading_day(TC_TSE, 2031, 1, 1).error, TC_DATE_OUT_OF_RANGE);
    IS(tc_trading_days_in_month(TC_LSE, 2025, 13, &none, 0).error, TC_INVALID_DATE_CALCULATION);
    IS(tc_session_new(34200, 34200).error, TC_INVALID_SESSION);
    IS(tc_with_early_close(tc_trading_hours(TC_LSE, 2025, 3, 10).hours, 59400).error, TC_INVALID_TIME);
    IS(tc_trading_hours(TC_NASDAQ, 2025, 2, 29).error, TC_INVALID_DATE);
    IS(tc_next_trading_day(TC_NYSE, 9999, 12, 31).error, TC_NO_TRADING_DAY_FOUND);
    IS(tc_session_contains(whole, 86400).error, TC_TIME_OUT_OF_RANGE);
    IS(tc_is_holiday(TC_TSX + 1, 2025, 1, 1).error, TC_UNKNOWN_MARKET);
    IS(tc_trading_days_in_month(TC_LSE, 2025, 1, &none, 0).error, TC_BUFFER_TOO_SMALL);
    IS(tc_month_sheet(&none, 0, &none + 1, 0).error, TC_MALFORMED_TEXT);
    IS(tc_slice_order(TC_LSE, 1, 2025, 3, 8, 2025, 3, 9, &slice, 0).error, TC_NO_TRADING_DAY_IN_RANGE);
    IS(tc_common_trading_day(0, 2025, 3, 8, 2025, 3, 9).error, TC_INVALID_MARKET_SET);
    IS(TC_OK, 0);
    IS(TC_DATE_OUT_OF_RANGE, 1);
    IS(TC_INVALID_DATE_CALCULATION, 2);
    IS(TC_INVALID_SESSION, 3);
    IS(TC_INVALID_TIME, 4);
    IS(TC_INVALID_DATE, 5);
    IS(TC_NO_TRADING_DAY_FOUND, 6);
    IS(TC_TIME_OUT_OF_RANGE, 7);
    IS(TC_UNKNOWN_MARKET, 8);
    IS(TC_BUFFER_TOO_SMALL, 9);
    IS(TC_MALFORMED_TEXT, 10);
    IS(TC_NO_TRADING_DAY_IN_RANGE, 11);
    IS(TC_INVALID_MARKET_SET, 12);
}

int main(void) {
    structs();
    codes();
    moving_days();
    trading_days();
    order();
    common_day();
    hours();
    sheet();
    errors();
    printf("the header: %d compared, %d differ\n", compared, differ);
    return differ == 0 && compared == MEANT ? 0 : 1;
}
