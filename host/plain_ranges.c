/* The trading days of a month and the counts of the plain calendar: row after row of the table. */
#include "plain_calendar.h"

/* [month-error-date] */
static tc_date first_or_1970(uint32_t year, uint32_t month) {
    tc_date first = {year, month, 1}, other = {1970, JAN, 1};
    return plain_row_of(first) >= 0 ? first : other;
}

/* The first error of a market and a month that applies, but for 9. */
static tc_count_result month_error(uint32_t market, uint32_t year, uint32_t month) {
    tc_date first = {year, month, 1};
    tc_count_result answer = {0};
    if (market >= MARKETS) {
        answer.error = 8;
    } else if (plain_is_outside(first)) {
        answer.error = 1;
        answer.date = first_or_1970(year, month);
    } else if (plain_row_of(first) < 0) {
        answer.error = 2;
    }
    return answer;
}

tc_count_result plain_trading_days_in_month(uint32_t market, uint32_t year, uint32_t month, uint8_t *out, size_t out_length) {
    tc_count_result answer = month_error(market, year, month);
    uint8_t list[31];

    if (answer.error != 0) return answer;
    for (uint8_t day = 1; day <= 31; day++) {
        int row = plain_row(year, month, day);
        if (row >= 0 && plain_trades(market, row)) list[answer.count++] = day;
    }
    if (answer.count > out_length) {
        answer.error = 9;
        return answer;
    }
    for (uint32_t i = 0; i < answer.count; i++) out[i] = list[i];
    return answer;
}

tc_count_result plain_count_trading_days(uint32_t market, uint32_t start_year, uint32_t start_month, uint32_t start_day,
                                         uint32_t end_year, uint32_t end_month, uint32_t end_day) {
    tc_date start = {start_year, start_month, start_day}, end = {end_year, end_month, end_day};
    tc_count_result answer = {.error = plain_error(market, start)};

    if (answer.error == 0) answer.error = plain_error(market, end);
    if (answer.error != 0) return answer;
    if (start.year < 2020 || end.year > 2030) {
        answer.error = 1;
        answer.date = start;
        return answer;
    }
    for (int row = plain_row_of(start); row <= plain_row_of(end); row++) answer.count += (uint32_t)plain_trades(market, row);
    return answer;
}
