/* The next and the previous trading day of the plain calendar: from date to date, each one counted, until a trading day. */
#include "plain_calendar.h"

static int is_date(tc_date date) { return plain_row_of(date) >= 0; }

/* In the same month, else the first of the next month, else of the next year. No date after 9999-12-31. */
static tc_date day_after(tc_date date) {
    date.day++;
    if (is_date(date)) return date;
    date.day = 1;
    date.month++;
    if (is_date(date)) return date;
    date.month = JAN;
    date.year++;
    return date;
}

/* In the same month, else the last of the month before, which is the first from 31 down that is a date. No date before
 * 0001-01-01. */
static tc_date day_before(tc_date date) {
    if (date.day == 1) {
        date.day = 32;
        date.year -= date.month == JAN;
        date.month = date.month == JAN ? DEC : date.month - 1;
    }
    do date.day--;
    while (date.day > 28 && !is_date(date));
    return date;
}

/* The first trading day from the date on, one neighbouring day after the other, or the first error of [errors] that applies. */
static tc_trading_day_result search(tc_date (*neighbour)(tc_date), uint32_t market, tc_date given) {
    tc_trading_day_result answer = {.error = plain_error(market, given)};
    tc_date date = given;
    uint32_t distance = 0;

    if (answer.error != 0) return answer;
    do {
        date = neighbour(date);
        distance++;
    } while (is_date(date) && !plain_trades(market, plain_row_of(date)));
    if (is_date(date)) {
        answer.date = date;
        answer.distance = distance;
        answer.outside = plain_is_outside(given) || plain_is_outside(date);
    } else {
        answer.error = 6;
    }
    return answer;
}

tc_trading_day_result plain_next_trading_day(uint32_t market, uint32_t year, uint32_t month, uint32_t day) {
    tc_date date = {year, month, day};
    return search(day_after, market, date);
}

tc_trading_day_result plain_previous_trading_day(uint32_t market, uint32_t year, uint32_t month, uint32_t day) {
    tc_date date = {year, month, day};
    return search(day_before, market, date);
}
