/* Compares the calls about weekdays, Easter, trading days and holidays with the plain calendar, and with the examples of
 * docs/SCOPE.md; and, by the library alone, the last weekday with n = -1. Prints a line for each call, for that law and for the cases
 * of the nth weekday that were met; fails if any answer differs, if not all were compared, or if a case was not met often. */
#include "compare.h"
#include "plain_calendar.h"
#include "trading_calendar.h"

enum call { NTH, LAST, LAST_BY_NTH, EASTER, GOOD_FRIDAY, EASTER_MONDAY, TRADING_DAY, HOLIDAY, CALLS };

/* n of the nth weekday, either way: up to NEAR and from MOST, the last that is answered, up to BEYOND in every year; up to BEYOND in
 * some years, among them two for each of those drawn; and COUNTS of them with the limits. */
enum { NEAR = 60, MOST = 255, BEYOND = 270, DRAWN = 100, COUNTS = 21 };
#define EVERY_MONTH (9999ul * 12 * 7)
#define SOME_MONTHS ((6 + 7 + 6 + 2ul * DRAWN) * 12 * 7)
#define EVERY_LIMIT (23ul * 23 * 23)

/* The calls and the law, and how many comparisons the loops below make. */
static tally calls[CALLS] = {
    [NTH] = {.name = "tc_nth_weekday_of_month",
             .meant = EVERY_MONTH * (2 * NEAR + 1 + 2 * (BEYOND - MOST + 1) + 3) + SOME_MONTHS * (2 * BEYOND + 1) +
                      EVERY_LIMIT * COUNTS + 14},
    [LAST] = {.name = "tc_last_weekday_of_month", .meant = EVERY_MONTH + EVERY_LIMIT + 2},
    [LAST_BY_NTH] = {.name = "the last weekday by n = -1", .meant = EVERY_MONTH + EVERY_LIMIT},
    [EASTER] = {.name = "tc_calculate_easter", .meant = 9999ul + 23 + 3},
    [GOOD_FRIDAY] = {.name = "tc_calculate_good_friday", .meant = 9999ul + 23},
    [EASTER_MONDAY] = {.name = "tc_calculate_easter_monday", .meant = 9999ul + 23},
    [TRADING_DAY] = {.name = "tc_is_trading_day", .meant = (8ul * 13 + 10001) * 14 * 33 + 23ul * 23 * 23 * 23 + 4},
    [HOLIDAY] = {.name = "tc_is_holiday", .meant = (8ul * 13 + 10001) * 14 * 33 + 23ul * 23 * 23 * 23 + 2},
};

static int is_same(tc_optional_date a, tc_optional_date b) {
    return a.found == b.found && a.date.year == b.date.year && a.date.month == b.date.month && a.date.day == b.date.day;
}

/* As they are so many, the numbers are listed only where answers differ. A negative n is shown as the number of its 32 bits. */
static void nth(uint32_t year, uint32_t month, uint32_t weekday, int32_t n) {
    tc_optional_date answer = tc_nth_weekday_of_month(year, month, weekday, n);
    tc_optional_date expected = plain_nth_weekday_of_month(year, month, weekday, n);
    if (is_same(answer, expected)) {
        calls[NTH].compared++;
    } else {
        numbers in = {4, {year, month, weekday, (uint32_t)n}};
        compare(&calls[NTH], in, of_date(answer), of_date(expected));
    }
}

static void last(uint32_t year, uint32_t month, uint32_t weekday) {
    numbers in = {3, {year, month, weekday}}, answer = of_date(tc_last_weekday_of_month(year, month, weekday));
    compare(&calls[LAST], in, answer, of_date(plain_last_weekday_of_month(year, month, weekday)));
    compare(&calls[LAST_BY_NTH], in, answer, of_date(tc_nth_weekday_of_month(year, month, weekday, -1)));
}

static void easter(uint32_t year) {
    numbers in = {1, {year}};
    compare(&calls[EASTER], in, of_date(tc_calculate_easter(year)), of_date(plain_calculate_easter(year)));
    compare(&calls[GOOD_FRIDAY], in, of_date(tc_calculate_good_friday(year)), of_date(plain_calculate_good_friday(year)));
    compare(&calls[EASTER_MONDAY], in, of_date(tc_calculate_easter_monday(year)), of_date(plain_calculate_easter_monday(year)));
}

static void day_of(uint32_t market, uint32_t year, uint32_t month, uint32_t day) {
    numbers in = {4, {market, year, month, day}};
    compare(&calls[TRADING_DAY], in, of_bool(tc_is_trading_day(market, year, month, day)),
            of_bool(plain_is_trading_day(market, year, month, day)));
    compare(&calls[HOLIDAY], in, of_bool(tc_is_holiday(market, year, month, day)),
            of_bool(plain_is_holiday(market, year, month, day)));
}

/* The counts of a month and of a year, those around the limit, and the ends of the type. */
static void nth_and_last(uint32_t year, uint32_t month, uint32_t weekday) {
    last(year, month, weekday);
    for (int32_t n = -NEAR; n <= NEAR; n++) nth(year, month, weekday, n);
    for (int32_t n = MOST; n <= BEYOND; n++) {
        nth(year, month, weekday, n);
        nth(year, month, weekday, -n);
    }
    nth(year, month, weekday, INT32_MIN);
    nth(year, month, weekday, INT32_MIN + 1);
    nth(year, month, weekday, INT32_MAX);
}

static void all_years(void) {
    for (uint32_t year = 1; year <= 9999; year++) {
        easter(year);
        for (uint32_t month = 1; month <= 12; month++)
            for (uint32_t weekday = 0; weekday <= 6; weekday++) nth_and_last(year, month, weekday);
    }
}

/* Each comparison of all_counts is one of these cases. Where there are two, n is above 0 in the first and below 0 in the second. */
enum {
    ZERO, ABOVE_255, BELOW_255, FROM_THE_END_OF_9999, PAST_9999, BEFORE_YEAR_1, OTHER_MONTH, OTHER_MONTH_BACK,
    FIFTH, FIFTH_BACK, NO_FIFTH, NO_FIFTH_BACK, SAME_YEAR, SAME_YEAR_BACK, LATER_YEAR, EARLIER_YEAR
};
enum { OFTEN = 1000 };
static test_case cases[] = {
    [ZERO] = {"n = 0", OFTEN, 0},
    [ABOVE_255] = {"n above 255", OFTEN, 0},
    [BELOW_255] = {"n below -255", OFTEN, 0},
    [FROM_THE_END_OF_9999] = {"from the end of December 9999", OFTEN, 0},
    [PAST_9999] = {"past 9999-12-31", OFTEN, 0},
    [BEFORE_YEAR_1] = {"before year 1", OFTEN, 0},
    [OTHER_MONTH] = {"in another month", OFTEN, 0},
    [OTHER_MONTH_BACK] = {"back in another month", OFTEN, 0},
    [FIFTH] = {"a fifth", OFTEN, 0},
    [FIFTH_BACK] = {"a fifth from the end", OFTEN, 0},
    [NO_FIFTH] = {"no fifth", OFTEN, 0},
    [NO_FIFTH_BACK] = {"no fifth from the end", OFTEN, 0},
    [SAME_YEAR] = {"in the same year", OFTEN, 0},
    [SAME_YEAR_BACK] = {"from the end in the same year", OFTEN, 0},
    [LATER_YEAR] = {"in a later year", OFTEN, 0},
    [EARLIER_YEAR] = {"in an earlier year", OFTEN, 0},
};

/* The row that n leads to, be it in the table or not. n is not 0, and above 0 in December 9999. */
static int target_row(uint32_t year, uint32_t month, uint32_t weekday, int32_t n) {
    if (n > 0) return plain_row_of(plain_nth_weekday_of_month(year, month, weekday, 1).date) + 7 * (n - 1);
    return plain_row_of(plain_last_weekday_of_month(year, month, weekday).date) + 7 * (n + 1);
}

static int case_of(uint32_t year, uint32_t month, uint32_t weekday, int32_t n) {
    tc_optional_date day = plain_nth_weekday_of_month(year, month, weekday, n);
    int is_back = n < 0, row;
    if (n == 0) return ZERO;
    if (n > MOST || n < -MOST) return ABOVE_255 + is_back;
    if (is_back && year == LAST_YEAR && month == DEC) return FROM_THE_END_OF_9999;
    row = target_row(year, month, weekday, n);
    if (row < 0 || row >= ROWS) return PAST_9999 + is_back;
    if (n == 5 || n == -5) return (day.found ? FIFTH : NO_FIFTH) + is_back;
    if (!day.found) return OTHER_MONTH + is_back;
    return (day.date.year == year ? SAME_YEAR : LATER_YEAR) + is_back;
}

static void counts_of(uint32_t year) {
    for (uint32_t month = 1; month <= 12; month++)
        for (uint32_t weekday = 0; weekday <= 6; weekday++)
            for (int32_t n = -BEYOND; n <= BEYOND; n++) {
                nth(year, month, weekday, n);
                cases[case_of(year, month, weekday, n)].met++;
            }
}

/* Every n, at both ends of the years, where 255 weeks lead past the first day or the last, between, and in drawn years with those
 * after them. */
static void all_counts(void) {
    static const uint32_t years[] = {1899, 1900, 1999, 2000, 2019, 2020};
    for (uint32_t year = 1; year <= 6; year++) counts_of(year);
    for (uint32_t year = 9993; year <= 9999; year++) counts_of(year);
    for (size_t i = 0; i < LENGTH(years); i++) counts_of(years[i]);
    for (int i = 0; i < DRAWN; i++) {
        uint32_t year = 1 + drawn() % 9998;
        counts_of(year);
        counts_of(year + 1);
    }
}

/* Every market, and codes of none, in the years that have answers and those around; one market in every year. */
static void all_dates(void) {
    ask_years(day_of, 2019, 2031);
    for (uint32_t year = 0; year <= 10000; year++) ask_year(day_of, year % 5, year);
}

/* Numbers at and past every limit, all with all. */
static void extremes(void) {
    static const int32_t counts[COUNTS] = {INT32_MIN, -65537, -65535, -257, -256, -255, -254, -53, -5, -1, 0,
                                           1, 5, 53, 254, 255, 256, 257, 65537, 1 << 24 | 1, INT32_MAX};
    for (size_t a = 0; a < LENGTH(limits); a++) {
        easter(limits[a]);
        for (size_t b = 0; b < LENGTH(limits); b++) {
            for (size_t c = 0; c < LENGTH(limits); c++) {
                last(limits[a], limits[b], limits[c]);
                for (int n = 0; n < COUNTS; n++) nth(limits[a], limits[b], limits[c], counts[n]);
            }
        }
    }
    ask_limits(day_of);
}

static numbers on(uint32_t year, uint32_t month, uint32_t day) {
    tc_optional_date answer = {1, {year, month, day}};
    return of_date(answer);
}

/* The Easter Sundays of [examples] in docs/SCOPE.md. */
static void example_easters(void) {
    static const tc_date dates[] = {{2024, 3, 31}, {1818, 3, 22}, {1943, 4, 25}};
    for (size_t i = 0; i < LENGTH(dates); i++) {
        numbers in = {1, {dates[i].year}};
        compare(&calls[EASTER], in, of_date(tc_calculate_easter(dates[i].year)), on(dates[i].year, dates[i].month, dates[i].day));
    }
}

/* The examples of [nth-weekday], and its limits: without these -53 leads to January of the year 0, 261 to 2024-01-01 and -261 to
 * 2019-01-31. */
static const struct {
    uint32_t year, month, weekday;
    int32_t n;
    numbers expected;
} weekdays[] = {
    {2019, JAN, MON, 53, {4, {1, 2020, 1, 6}}},
    {2020, JAN, MON, -53, {4, {1, 2019, 1, 28}}},
    {2026, NOV, FRI, -2, {4, {1, 2026, 11, 20}}},
    {2018, DEC, MON, -5, {4, {1, 2018, 12, 3}}},
    {2026, FEB, FRI, -5, {4, {0}}},
    {1, JAN, MON, -5, {4, {1, 1, 1, 1}}},
    {1, JAN, MON, -53, {4, {0}}},
    {9999, NOV, MON, -1, {4, {1, 9999, 11, 29}}},
    {9999, DEC, MON, -1, {4, {0}}},
    {9999, DEC, MON, -2, {4, {0}}},
    {2024, JAN, WED, -214, {4, {1, 2020, 1, 1}}},
    {2024, JAN, MON, 0, {4, {0}}},
    {2019, JAN, MON, 261, {4, {0}}},
    {2024, JAN, THU, -261, {4, {0}}},
};

static void example_weekdays(void) {
    numbers may = {3, {2026, MAY, MON}}, december = {3, {9999, DEC, MON}}, none = {4, {0}};
    for (size_t i = 0; i < LENGTH(weekdays); i++) {
        uint32_t year = weekdays[i].year, month = weekdays[i].month, weekday = weekdays[i].weekday;
        numbers in = {4, {year, month, weekday, (uint32_t)weekdays[i].n}};
        compare(&calls[NTH], in, of_date(tc_nth_weekday_of_month(year, month, weekday, weekdays[i].n)), weekdays[i].expected);
    }
    compare(&calls[LAST], may, of_date(tc_last_weekday_of_month(2026, MAY, MON)), on(2026, 5, 25));
    compare(&calls[LAST], december, of_date(tc_last_weekday_of_month(9999, DEC, MON)), none);
}

static void example_day(enum call call, uint32_t market, uint32_t year, uint32_t month, uint32_t day, uint32_t value) {
    numbers in = {4, {market, year, month, day}}, expected = {5, {0, value}};
    compare(&calls[call], in, of_bool((call == HOLIDAY ? tc_is_holiday : tc_is_trading_day)(market, year, month, day)), expected);
}

/* The trading days and holidays of [examples]. */
static void example_days(void) {
    enum { NYSE = 0, LSE = 2, TSE = 3, TSX = 4 };
    example_day(TRADING_DAY, TSE, 2020, 5, 6, 1);
    example_day(HOLIDAY, TSE, 2021, 1, 4, 1);
    example_day(TRADING_DAY, TSX, 2022, 12, 27, 1);
    example_day(HOLIDAY, NYSE, 2022, 1, 3, 1);
    example_day(TRADING_DAY, LSE, 2021, 12, 28, 0);
    example_day(TRADING_DAY, LSE, 2021, 12, 29, 1);
}

int main(void) {
    int failed;
    plain_fill();
    all_years();
    all_counts();
    all_dates();
    extremes();
    example_easters();
    example_weekdays();
    example_days();
    failed = finish(calls, CALLS);
    return finish_cases(cases, LENGTH(cases)) || failed;
}
