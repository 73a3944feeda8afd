/* Compares the days on which several markets trade with the plain calendar, which accepts any right day, and with examples that
 * have one answer; and, by the library alone, with the members' trading days and with the count [common-day-laws]. Prints a line
 * for the call, for each law and for the cases that were met; fails if any answer differs, if not all were compared, or if a case
 * was not met often. */
#include "compare.h"
#include "plain_calendar.h"
#include "trading_calendar.h"

enum call { COMMON_DAYS, COMMON_DAY_LAWS, SETS_OF_ONE, CALLS };

/* All bytes, and the last that is a set. */
enum { BYTES = 256, EVERY_MARKET = (1 << MARKETS) - 1 };

/* The dates from 15 December 2019 to 15 January 2031, each of which starts ranges of up to 14 days, and two whose end is before
 * it; and how many date ranges of each kind are drawn. */
enum { STARTS = 17 + 11 * 365 + 3 + 15, MOST_DAYS = 14, ENDS = 2 + MOST_DAYS, DRAWN_LONG = 10000, DRAWN_LIMITS = 200000 };
#define RANGES_OF_SETS (1ul * STARTS * ENDS + DRAWN_LONG)

/* The first day alone, the last, one between, and none, also where each member trades on one of the days; the start with 1, also
 * where it is after the end; errors together, the first of which is the answer. */
enum { US = TC_NYSE_BIT | TC_NASDAQ_BIT, NYSE_TSE = TC_NYSE_BIT | TC_TSE_BIT };
static const struct {
    numbers in, expected;
} answers[] = {
    {{7, {NYSE_TSE, 2022, 4, 28, 2022, 5, 8}}, {5, {0, 1, 2022, 4, 28}}},
    {{7, {NYSE_TSE, 2022, 4, 29, 2022, 5, 8}}, {5, {0}}},
    {{7, {NYSE_TSE, 2022, 4, 29, 2022, 5, 9}}, {5, {0, 1, 2022, 5, 9}}},
    {{7, {TC_NYSE_BIT, 2022, 11, 23, 2022, 11, 24}}, {5, {0, 1, 2022, 11, 23}}},
    {{7, {TC_TSE_BIT, 2022, 11, 23, 2022, 11, 24}}, {5, {0, 1, 2022, 11, 24}}},
    {{7, {NYSE_TSE, 2022, 11, 23, 2022, 11, 24}}, {5, {0}}},
    {{7, {EVERY_MARKET, 2022, 7, 1, 2022, 7, 4}}, {5, {0}}},
    {{7, {EVERY_MARKET - TC_TSX_BIT, 2022, 7, 1, 2022, 7, 4}}, {5, {0, 1, 2022, 7, 1}}},
    {{7, {EVERY_MARKET - US, 2022, 7, 1, 2022, 7, 4}}, {5, {0, 1, 2022, 7, 4}}},
    {{7, {EVERY_MARKET, 2030, 12, 28, 2030, 12, 31}}, {5, {0, 1, 2030, 12, 30}}},
    {{7, {EVERY_MARKET, 2025, 3, 8, 2025, 3, 9}}, {5, {0}}},
    {{7, {EVERY_MARKET, 2025, 3, 11, 2025, 3, 10}}, {5, {0}}},
    {{7, {TC_LSE_BIT, 2031, 1, 1, 2030, 12, 31}}, {5, {0}}},
    {{7, {TC_LSE_BIT, 2031, 1, 1, 2031, 1, 1}}, {5, {1, 0, 2031, 1, 1}}},
    {{7, {TC_LSE_BIT, 2019, 12, 31, 2019, 12, 30}}, {5, {1, 0, 2019, 12, 31}}},
    {{7, {US, 2020, 1, 1, 2031, 1, 1}}, {5, {1, 0, 2020, 1, 1}}},
    {{7, {US, 2019, 12, 31, 2031, 2, 29}}, {5, {5}}},
    {{7, {US, 2019, 2, 29, 2018, 1, 1}}, {5, {5}}},
    {{7, {0, 2019, 2, 29, 2031, 2, 29}}, {5, {12}}},
    {{7, {EVERY_MARKET + 1, 2019, 12, 31, 2031, 1, 1}}, {5, {12}}},
    {{7, {EVERY_MARKET + 1 + TC_LSE_BIT, 2025, 3, 10, 2025, 3, 10}}, {5, {12}}},
};

/* The call and the laws, and how many comparisons the loops below make. [common-day-laws] is for each answer but error 12. */
static tally calls[CALLS] = {
    [COMMON_DAYS] = {.name = "tc_common_trading_day",
                     .meant = BYTES * EDGE_PAIRS + EVERY_MARKET * RANGES_OF_SETS + DRAWN_LIMITS + LENGTH(answers)},
    [COMMON_DAY_LAWS] = {.name = "[common-day-laws]"},
    [SETS_OF_ONE] = {.name = "sets of one market and its count", .meant = MARKETS * RANGES_OF_SETS},
};

/* Each comparison with the plain calendar is one of these cases: an error, by its number, or which days are right: 0 stands for
 * several. In these years it is rare that one day alone is right with others on both sides, or that each member trades in a range
 * but never all. */
enum { ONLY_DATE = 13, ONLY_FIRST, ONLY_LAST, ONLY_BETWEEN, NONE_OF_MEMBER, NONE_TOGETHER, START_AFTER_END };
enum { OFTEN = 10000, RARELY = 100 };
static test_case cases[] = {
    [0] = {"several days", OFTEN, 0},
    [1] = {"error 1", OFTEN, 0},
    [5] = {"error 5", OFTEN, 0},
    [12] = {"error 12", OFTEN, 0},
    [ONLY_DATE] = {"the one date", OFTEN, 0},
    [ONLY_FIRST] = {"the first alone", OFTEN, 0},
    [ONLY_LAST] = {"the last alone", OFTEN, 0},
    [ONLY_BETWEEN] = {"one between alone", RARELY, 0},
    [NONE_OF_MEMBER] = {"none of a member", OFTEN, 0},
    [NONE_TOGETHER] = {"none together", RARELY, 0},
    [START_AFTER_END] = {"the start after the end", OFTEN, 0},
};

static int is_member(uint32_t market, uint8_t markets) { return (markets >> market & 1) == 1; }

static size_t case_of_none(uint8_t markets, int first, int last) {
    if (first > last) return START_AFTER_END;
    for (uint32_t market = 0; market < MARKETS; market++)
        if (is_member(market, markets) && plain_common_row((uint8_t)(1 << market), first, last) > last) return NONE_OF_MEMBER;
    return NONE_TOGETHER;
}

static size_t case_of(uint8_t markets, int first, int last, tc_optional_date_result expected) {
    int row = plain_row_of(expected.date);
    if (expected.error != 0) return expected.error;
    if (expected.found == 0) return case_of_none(markets, first, last);
    if (plain_common_row(markets, first, last) < row || plain_common_row(markets, row + 1, last) <= last) return 0;
    if (first == last) return ONLY_DATE;
    return row == first ? ONLY_FIRST : row == last ? ONLY_LAST : ONLY_BETWEEN;
}

static int all_trade(uint8_t markets, tc_date date) {
    for (uint32_t market = 0; market < MARKETS; market++)
        if (is_member(market, markets) && tc_is_trading_day(market, date.year, date.month, date.day).value != 1) return 0;
    return 1;
}

/* On the day that is found, which is in the range, every member trades; where none is found, they do on no date of the range. The
 * plain calendar only says which dates there are. */
static int is_lawful(uint8_t markets, int first, int last, tc_optional_date_result answer) {
    int row = plain_row_of(answer.date);
    if (answer.found == 1) return first <= row && row <= last && all_trade(markets, answer.date);
    for (row = first; row <= last; row++)
        if (row < 0 || all_trade(markets, plain_date(row))) return 0;
    return 1;
}

static tc_count_result count(uint32_t market, numbers range) {
    const uint32_t *n = range.values;
    return tc_count_trading_days(market, n[1], n[2], n[3], n[4], n[5], n[6]);
}

/* [common-day-laws]: the errors 5 and 1 are those of the count for any market, and return the same; a day or none is lawful. */
static void common_day_laws(numbers range, int first, int last, tc_optional_date_result answer) {
    tc_count_result counted = count(drawn() % MARKETS, range);
    tc_date none = {0, 0, 0}, date = answer.error == TC_OK ? none : answer.date;
    int is_right = answer.error == TC_OK ? is_lawful((uint8_t)range.values[0], first, last, answer) : answer.found == 0;
    numbers answered = {5, {answer.error, (uint32_t)is_right, date.year, date.month, date.day}};
    numbers expected = {5, {counted.error, 1, counted.date.year, counted.date.month, counted.date.day}};
    compare(&calls[COMMON_DAY_LAWS], range, answered, expected);
}

static tc_optional_date_result ask(numbers range) {
    const uint32_t *n = range.values;
    return tc_common_trading_day((uint8_t)n[0], n[1], n[2], n[3], n[4], n[5], n[6]);
}

static void common_day(numbers range) {
    const uint32_t *n = range.values;
    uint8_t markets = (uint8_t)n[0];
    int first = plain_row(n[1], n[2], n[3]), last = plain_row(n[4], n[5], n[6]);
    tc_optional_date_result answer = ask(range);
    tc_optional_date_result expected = plain_common_trading_day(markets, n[1], n[2], n[3], n[4], n[5], n[6], answer.date);

    compare(&calls[COMMON_DAYS], range, of_optional_date_result(answer), of_optional_date_result(expected));
    if (answer.error != TC_INVALID_MARKET_SET) common_day_laws(range, first, last, answer);
    calls[COMMON_DAY_LAWS].meant += expected.error != 12;
    cases[case_of(markets, first, last, expected)].met++;
}

/* A day is found for a set of one market exactly if its count is not 0. */
static void set_of_one(uint32_t market, numbers range) {
    numbers in = range;
    in.values[0] = 1u << market;
    numbers found = {1, {ask(in).found}}, expected = {1, {count(market, range).count > 0}};
    compare(&calls[SETS_OF_ONE], in, found, expected);
}

static void every_set(numbers range) {
    for (uint32_t markets = 1; markets <= EVERY_MARKET; markets++) {
        range.values[0] = markets;
        common_day(range);
    }
    for (uint32_t market = 0; market < MARKETS; market++) set_of_one(market, range);
}

static void every_byte(void) {
    for (uint32_t markets = 0; markets < BYTES; markets++) ask_edges_of(common_day, markets);
}

/* No set is without a day for more than ten days on end, so every range that has none is among these, but for those with the
 * start long after the end. */
static void short_ranges(void) {
    int first = plain_row(2019, DEC, 15);
    for (int start = first; start < first + STARTS; start++)
        for (int end = start + MOST_DAYS - ENDS; end < start + MOST_DAYS; end++)
            every_set(range_of(0, plain_date(start), plain_date(end)));
}

/* With numbers at the limits the set is any byte, or one that is a set. */
static void drawn_ranges(void) {
    for (int i = 0; i < DRAWN_LONG; i++) every_set(drawn_range());
    for (int i = 0; i < DRAWN_LIMITS; i++) {
        numbers range = drawn_limits();
        range.values[0] = drawn() % 4 == 0 ? drawn() % BYTES : 1 + drawn() % EVERY_MARKET;
        common_day(range);
    }
}

static void examples(void) {
    for (size_t i = 0; i < LENGTH(answers); i++)
        compare(&calls[COMMON_DAYS], answers[i].in, of_optional_date_result(ask(answers[i].in)), answers[i].expected);
}

int main(void) {
    int failed;
    plain_fill();
    every_byte();
    short_ranges();
    drawn_ranges();
    examples();
    failed = finish(calls, CALLS);
    return finish_cases(cases, LENGTH(cases)) || failed;
}
