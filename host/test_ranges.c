/* Compares the trading days of a month and the counts with the plain calendar, and with the examples of docs/SCOPE.md. Prints a
 * line for each call and each law; fails if any answer differs or not all were compared. */
#include "compare.h"
#include "plain_calendar.h"
#include "trading_calendar.h"

#include <string.h>

enum call { MONTH, COUNT, UP_TO_23, CALLS };

/* How many counts of each kind are drawn. */
enum { DRAWN_DATES = 40000, DRAWN_LIMITS = 100000 };

/* The calls and the law, and how many comparisons the loops below make. A month is asked for twice with each length. */
static tally calls[CALLS] = {
    [MONTH] = {.name = "tc_trading_days_in_month",
               .meant = (8ul * 15 * (14 * 33 + 23 * 3) + 23ul * 23 * 23 * 3 + 12ul * 6) * 2 + 7},
    [COUNT] = {.name = "tc_count_trading_days",
               .meant = EDGE_RANGES + 5ul * 11 * 14 * 33 * 4 + DRAWN_DATES + DRAWN_LIMITS + 12},
    [UP_TO_23] = {.name = "months of up to 23 trading days", .meant = 5ul * 11 * 12},
};

/* The list that is lent, of any length up to the longest, lies between other bytes. */
enum { BESIDE = 64, LONGEST = 65537, AREA = BESIDE + LONGEST + BESIDE };

/* The fields of the answer, then the first place at which two areas differ, and the byte there. */
static numbers of_month(tc_count_result answer, const uint8_t *area, size_t place, size_t size) {
    numbers list = of_count(answer);
    list.values[list.count++] = (uint32_t)place;
    list.values[list.count++] = place < size ? area[place] : 0;
    return list;
}

/* Both write into an area of these bytes. All bytes are compared, those beside the lent list too. */
static void month_over(uint8_t bytes, uint32_t market, uint32_t year, uint32_t month, size_t length) {
    static uint8_t area[AREA], plain_area[AREA];
    size_t size = BESIDE + length + BESIDE, place = 0;
    numbers in = {5, {market, year, month, (uint32_t)length, bytes}};
    tc_count_result answer, expected;

    memset(area, bytes, size);
    memset(plain_area, bytes, size);
    answer = tc_trading_days_in_month(market, year, month, area + BESIDE, length);
    expected = plain_trading_days_in_month(market, year, month, plain_area + BESIDE, length);
    while (place < size && area[place] == plain_area[place]) place++;
    compare(&calls[MONTH], in, of_month(answer, area, place, size), of_month(expected, plain_area, place, size));
}

/* Over 0 and over 255: each byte that is written changes one of the two areas. */
static void month_of(uint32_t market, uint32_t year, uint32_t month, size_t length) {
    month_over(0, market, year, month, length);
    month_over(UINT8_MAX, market, year, month, length);
}

static void some_lengths(uint32_t market, uint32_t year, uint32_t month) {
    static const size_t lengths[] = {0, 23, 31};
    for (size_t i = 0; i < LENGTH(lengths); i++) month_of(market, year, month, lengths[i]);
}

/* Every length up to 32: among them none, one too few, just enough, one more. */
static void months_of_year(uint32_t market, uint32_t year) {
    for (uint32_t month = 0; month <= 13; month++)
        for (size_t length = 0; length <= 32; length++) month_of(market, year, month, length);
    for (int i = 0; i < LIMITS; i++) some_lengths(market, year, limits[i]);
}

/* Lengths around those whose low byte, or low half, is 0. */
static void long_lists(void) {
    static const size_t lengths[] = {255, 256, 257, 65535, 65536, LONGEST};
    for (uint32_t month = 1; month <= 12; month++)
        for (size_t i = 0; i < LENGTH(lengths); i++) month_of(month % 5, 2025, month, lengths[i]);
}

/* Every market, and codes of none, in the years that have answers and those around; numbers at and past every limit. */
static void all_months(void) {
    for (int i = 0; i < CODES; i++)
        for (uint32_t year = 2018; year <= 2032; year++) months_of_year(codes[i], year);
    for (int a = 0; a < LIMITS; a++)
        for (int b = 0; b < LIMITS; b++)
            for (int c = 0; c < LIMITS; c++) some_lengths(limits[a], limits[b], limits[c]);
    long_lists();
}

/* The header says that these bytes are enough. */
static void up_to_23(void) {
    for (uint32_t i = 0; i < 5 * 11 * 12; i++) {
        uint32_t market = i % 5, year = 2020 + i / 5 % 11, month = 1 + i / 55;
        uint8_t bytes[TC_MONTH_BUFFER_LENGTH];
        numbers in = {3, {market, year, month}}, none = {1, {0}};
        numbers error = {1, {tc_trading_days_in_month(market, year, month, bytes, sizeof bytes).error}};
        compare(&calls[UP_TO_23], in, error, none);
    }
}

static tc_count_result count_of(const uint32_t *in) {
    return tc_count_trading_days(in[0], in[1], in[2], in[3], in[4], in[5], in[6]);
}

static void count(const numbers in) {
    const uint32_t *n = in.values;
    compare(&calls[COUNT], in, of_count(count_of(n)), of_count(plain_count_trading_days(n[0], n[1], n[2], n[3], n[4], n[5], n[6])));
}

/* The date alone; from the 1st of its month, and of its year; and to the 1st of its month, which is empty but for that day. */
static void counts_of_day(uint32_t market, uint32_t year, uint32_t month, uint32_t day) {
    tc_date date = {year, month, day}, of_month = {year, month, 1}, of_year = {year, 1, 1};
    count(range_of(market, date, date));
    count(range_of(market, of_month, date));
    count(range_of(market, of_year, date));
    count(range_of(market, date, of_month));
}

static void counts_of_days(void) {
    for (uint32_t market = 0; market < MARKETS; market++)
        for (uint32_t year = 2020; year <= 2030; year++) ask_year(counts_of_day, market, year);
}

static void drawn_counts(void) {
    for (int i = 0; i < DRAWN_DATES; i++) count(drawn_range());
    for (int i = 0; i < DRAWN_LIMITS; i++) count(drawn_limits());
}

/* [examples], for each market where none is named; the date of error 1; errors 8, 5 and 1 in this order. */
enum { NYSE = 0, NASDAQ, LSE, TSE, TSX, NO_MARKET };
static const struct {
    numbers in, expected;
} counts[] = {
    {{7, {NYSE, 2025, 1, 1, 2025, 1, 31}}, {5, {0, 21}}},
    {{7, {NYSE, 2031, 1, 1, 2030, 12, 31}}, {5, {0, 0}}},
    {{7, {NASDAQ, 2031, 1, 1, 2030, 12, 31}}, {5, {0, 0}}},
    {{7, {LSE, 2031, 1, 1, 2030, 12, 31}}, {5, {0, 0}}},
    {{7, {TSE, 2031, 1, 1, 2030, 12, 31}}, {5, {0, 0}}},
    {{7, {TSX, 2031, 1, 1, 2030, 12, 31}}, {5, {0, 0}}},
    {{7, {NYSE, 2031, 1, 1, 2031, 1, 1}}, {5, {1, 0, 2031, 1, 1}}},
    {{7, {TSE, 2020, 1, 1, 2019, 12, 31}}, {5, {0, 0}}},
    {{7, {TSE, 2019, 12, 31, 2031, 1, 1}}, {5, {1, 0, 2019, 12, 31}}},
    {{7, {TSE, 2020, 1, 1, 2031, 1, 1}}, {5, {1, 0, 2020, 1, 1}}},
    {{7, {TSE, 2019, 12, 31, 2031, 2, 29}}, {5, {5}}},
    {{7, {NO_MARKET, 2019, 12, 31, 2031, 2, 29}}, {5, {8}}},
};

static void example_counts(void) {
    for (size_t i = 0; i < LENGTH(counts); i++)
        compare(&calls[COUNT], counts[i].in, of_count(count_of(counts[i].in.values)), counts[i].expected);
}

/* [month-error-date], [reading-month-year]; a month that is none; 21 days on 20 bytes; errors 8, 1 and 2 in this order. */
static const struct {
    numbers in, expected;
} months[] = {
    {{4, {NYSE, 2019, 12, 0}}, {5, {1, 0, 2019, 12, 1}}},
    {{4, {NYSE, 2031, 13, 0}}, {5, {1, 0, 1970, 1, 1}}},
    {{4, {NYSE, 10000, 12, 0}}, {5, {1, 0, 1970, 1, 1}}},
    {{4, {NYSE, 2025, 13, 0}}, {5, {2}}},
    {{4, {NYSE, 2025, 1, 20}}, {5, {9, 21}}},
    {{4, {NO_MARKET, 2019, 13, 0}}, {5, {8}}},
};

/* The days of the sheet in [sheet-output]. */
static void example_days(void) {
    static const uint8_t days[] = {1, 2, 5, 6, 7, 8, 9, 12, 13, 14, 15, 16, 19, 20, 21, 22, 23, 27, 28, 29, 30};
    uint8_t bytes[sizeof days];
    tc_count_result answer = tc_trading_days_in_month(TSX, 2022, 12, bytes, sizeof bytes);
    numbers in = {3, {TSX, 2022, 12}}, expected = {6, {0, 21, 0, 0, 0, 1}}, answered = of_count(answer);
    answered.values[answered.count++] = memcmp(bytes, days, sizeof days) == 0;
    compare(&calls[MONTH], in, answered, expected);
}

static void example_months(void) {
    for (size_t i = 0; i < LENGTH(months); i++) {
        const uint32_t *in = months[i].in.values;
        uint8_t bytes[31];
        compare(&calls[MONTH], months[i].in, of_count(tc_trading_days_in_month(in[0], in[1], in[2], bytes, in[3])),
                months[i].expected);
    }
    example_days();
}

int main(void) {
    plain_fill();
    all_months();
    up_to_23();
    ask_edges(count);
    counts_of_days();
    drawn_counts();
    example_counts();
    example_months();
    return finish(calls, CALLS);
}
