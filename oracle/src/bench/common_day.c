/* A plain search for a day on which every market of a set trades, for common_days.rs: day by day, by tc_is_trading_day. */
#include "trading_calendar.h"

static uint32_t month_length(uint32_t year, uint32_t month) {
    if (month == 2) return year % 4 == 0 && (year % 100 != 0 || year % 400 == 0) ? 29 : 28;
    return month == 4 || month == 6 || month == 9 || month == 11 ? 30 : 31;
}

static tc_date day_after(tc_date date) {
    if (date.day < month_length(date.year, date.month)) return (tc_date){date.year, date.month, date.day + 1};
    if (date.month < 12) return (tc_date){date.year, date.month + 1, 1};
    return (tc_date){date.year + 1, 1, 1};
}

static int is_after(tc_date date, tc_date other) {
    if (date.year != other.year) return date.year > other.year;
    return date.month != other.month ? date.month > other.month : date.day > other.day;
}

static int all_trade(uint8_t markets, tc_date date) {
    for (uint32_t market = TC_NYSE; market <= TC_TSX; market++)
        if (markets >> market & 1 && !tc_is_trading_day(market, date.year, date.month, date.day).value) return 0;
    return 1;
}

/* The first such day, or none. The set and the dates are right ones. */
tc_optional_date first_common_day(uint8_t markets, tc_date start, tc_date end) {
    for (tc_date date = start; !is_after(date, end); date = day_after(date))
        if (all_trade(markets, date)) return (tc_optional_date){1, date};
    return (tc_optional_date){0, {0, 0, 0}};
}
