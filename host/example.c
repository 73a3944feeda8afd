/* Prints the moving days of a year that the markets' rules rest on; for each market its regular hours, its trading days, counted,
 * and its holidays, be they on weekends or not; when NYSE closes early, its trading days in December and beside the 25th, and an
 * order sliced over its year; and a day from the 25th on which three markets trade. Usage: example YEAR. */
#include "trading_calendar.h"

#include <stdio.h>
#include <stdlib.h>

static void print_date(tc_date date) {
    printf("%04lu-%02lu-%02lu", (unsigned long)date.year, (unsigned long)date.month, (unsigned long)date.day);
}

static void print_found(uint32_t found, tc_date date) {
    if (found)
        print_date(date);
    else
        printf("none");
    printf("\n");
}

static void print(const char *name, tc_optional_date answer) {
    printf("%-24s ", name);
    print_found(answer.found, answer.date);
}

static void print_moving_days(uint32_t year) {
    print("Good Friday", tc_calculate_good_friday(year));
    print("Easter Sunday", tc_calculate_easter(year));
    print("Easter Monday", tc_calculate_easter_monday(year));
    print("2nd last Friday of March", tc_nth_weekday_of_month(year, 3, TC_FRIDAY, -2));
    print("last Monday of May", tc_last_weekday_of_month(year, 5, TC_MONDAY));
    print("4th Thursday of November", tc_nth_weekday_of_month(year, 11, TC_THURSDAY, 4));
}

static unsigned long count_trading_days(uint32_t market, uint32_t year) {
    return tc_count_trading_days(market, year, 1, 1, year, 12, 31).count;
}

static int is_holiday(uint32_t market, uint32_t year, uint32_t month, uint32_t day) {
    return tc_is_holiday(market, year, month, day).value == 1;
}

/* The hours of a date do not say whether it is a trading day. */
static int trades_and_closes_early(uint32_t market, uint32_t year, uint32_t month, uint32_t day) {
    return tc_is_trading_day(market, year, month, day).value == 1 &&
           tc_is_early_close(tc_trading_hours(market, year, month, day).hours).value == 1;
}

static void print_days(int (*is_wanted)(uint32_t, uint32_t, uint32_t, uint32_t), uint32_t market, uint32_t year) {
    static const char *const months[] = {"Jan", "Feb", "Mar", "Apr", "May", "Jun", "Jul", "Aug", "Sep", "Oct", "Nov", "Dec"};
    const char *separator = "";
    for (uint32_t month = 1; month <= 12; month++) {
        int is_first = 1;
        for (uint32_t day = 1; day <= 31; day++) {
            if (!is_wanted(market, year, month, day)) continue;
            if (is_first) printf("%s%s", separator, months[month - 1]);
            printf(" %lu", (unsigned long)day);
            is_first = 0;
            separator = ", ";
        }
    }
    printf("\n");
}

static void print_time(uint32_t seconds) {
    printf("%02lu:%02lu", (unsigned long)seconds / 3600, (unsigned long)seconds / 60 % 60);
}

static void print_regular_hours(uint32_t market, uint32_t year) {
    tc_session regular = tc_trading_hours(market, year, 1, 1).hours.regular;
    print_time(regular.start);
    printf(" to ");
    print_time(regular.end);
}

/* The distance is in days, closed ones too. An answer outside 2020 to 2030 is marked: the rules go on there, but are made for these
 * years. */
static void print_neighbour(const char *name, tc_trading_day_result answer) {
    printf("%s: ", name);
    if (answer.error != TC_OK) {
        printf("error %lu\n", (unsigned long)answer.error);
        return;
    }
    print_date(answer.date);
    printf(", distance %lu%s\n", (unsigned long)answer.distance, answer.outside == 1 ? ", outside 2020 to 2030" : "");
}

/* With TC_BUFFER_TOO_SMALL count would be how many bytes it takes. */
static void print_month(const char *name, uint32_t market, uint32_t year, uint32_t month) {
    uint8_t days[TC_MONTH_BUFFER_LENGTH];
    tc_count_result answer = tc_trading_days_in_month(market, year, month, days, sizeof days);
    printf("%s:", name);
    if (answer.error != TC_OK) {
        printf(" error %lu\n", (unsigned long)answer.error);
        return;
    }
    for (uint32_t i = 0; i < answer.count; i++) printf(" %u", (unsigned)days[i]);
    printf("\n");
}

/* The first days carry one share more until the remainder is spent. */
static void print_order(const char *name, uint32_t market, uint32_t quantity, uint32_t year) {
    uint32_t slices[TC_SLICE_BUFFER_LENGTH];
    tc_slice_result answer = tc_slice_order(market, quantity, year, 1, 1, year, 12, 31, slices, TC_SLICE_BUFFER_LENGTH);
    printf("%s, %lu shares over the year: ", name, (unsigned long)quantity);
    if (answer.error != TC_OK) {
        printf("error %lu\n", (unsigned long)answer.error);
        return;
    }
    printf("%lu days, %lu a day, remainder %lu; ", (unsigned long)answer.count, (unsigned long)answer.per_day,
           (unsigned long)answer.remainder);
    printf("%lu on the first day, %lu on the last\n", (unsigned long)slices[0], (unsigned long)slices[answer.count - 1]);
}

/* Which day it is, if there are several, is left open. */
static void print_common_day(uint32_t year) {
    tc_optional_date_result answer = tc_common_trading_day(TC_NYSE_BIT | TC_LSE_BIT | TC_TSE_BIT, year, 12, 25, year, 12, 29);
    printf("NYSE, LSE and TSE, a trading day of all from Dec 25 to 29: ");
    if (answer.error != TC_OK)
        printf("error %lu\n", (unsigned long)answer.error);
    else
        print_found(answer.found, answer.date);
}

static void print_nyse(uint32_t year) {
    enum { TEN = 36000 };
    printf("NYSE closes early on: ");
    print_days(trades_and_closes_early, TC_NYSE, year);
    printf("NYSE on Dec 24 at 10:00: %s\n", tc_is_open(TC_NYSE, year, 12, 24, TEN).value == 1 ? "open" : "closed");
    print_month("NYSE, trading days of Dec", TC_NYSE, year, 12);
    print_neighbour("NYSE, last trading day before Dec 25", tc_previous_trading_day(TC_NYSE, year, 12, 25));
    print_neighbour("NYSE, next trading day after Dec 25", tc_next_trading_day(TC_NYSE, year, 12, 25));
    print_order("NYSE", TC_NYSE, 1000000, year);
}

static void print_markets(uint32_t year) {
    static const char *const names[] = {"NYSE", "NASDAQ", "LSE", "TSE", "TSX"};
    if (tc_is_holiday(TC_NYSE, year, 1, 1).error != TC_OK) {
        printf("trading days and holidays: 2020 to 2030 only\n");
        return;
    }
    for (uint32_t market = TC_NYSE; market <= TC_TSX; market++) {
        printf("%-6s ", names[market]);
        print_regular_hours(market, year);
        printf("; %lu trading days; holidays: ", count_trading_days(market, year));
        print_days(is_holiday, market, year);
    }
    print_nyse(year);
    print_common_day(year);
}

int main(int argc, char **argv) {
    char *end = NULL;
    unsigned long long number = argc == 2 ? strtoull(argv[1], &end, 10) : 0;

    if (argc != 2 || end == argv[1] || *end != '\0' || number > UINT32_MAX) {
        fprintf(stderr, "usage: example YEAR\n");
        return 2;
    }
    print_moving_days((uint32_t)number);
    print_markets((uint32_t)number);
    return 0;
}
