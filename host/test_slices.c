/* Compares the slices of orders with the plain calendar and with examples; and, by the library alone, with the order and with the
 * count [slice-laws]. Prints a line for the call, for each law and for the cases that were met; fails if any answer differs, if not
 * all were compared, or if a case was not met often. */
#include "compare.h"
#include "lent_list.h"
#include "plain_calendar.h"
#include "trading_calendar.h"

#include <string.h>

enum call { SLICES, SLICE_LAWS, UP_TO_2782, CALLS };

/* The most entries that a buffer is drawn to have, and those of the longest. */
enum { ROOM = TC_SLICE_BUFFER_LENGTH + 50, LONGEST = 65537 };

/* How many quantities and lengths a date range is asked about with, and how many date ranges of each kind are drawn. */
enum { QUANTITIES = 18, LENGTHS = 5, DRAWN_LONG = 3000, DRAWN_SHORT = 10000, DRAWN_LIMITS = 40000 };

/* Orders with and without a remainder, of no shares and of the most; the number of entries with 9; the start with 1, also where it
 * is after the end; errors together, the first of which is the answer. */
static const struct {
    numbers range;
    uint32_t quantity;
    size_t length;
    numbers expected;
} answers[] = {
    {{7, {TC_NYSE, 2024, 1, 1, 2024, 12, 31}}, 1000000, 252, {7, {0, 252, 3968, 64}}},
    {{7, {TC_NYSE, 2026, 12, 23, 2026, 12, 28}}, 11, 3, {7, {0, 3, 3, 2}}},
    {{7, {TC_NYSE, 2026, 12, 23, 2026, 12, 28}}, 2, 4, {7, {0, 3, 0, 2}}},
    {{7, {TC_NYSE, 2026, 12, 23, 2026, 12, 28}}, 0, 3, {7, {0, 3, 0, 0}}},
    {{7, {TC_NYSE, 2026, 12, 23, 2026, 12, 28}}, UINT32_MAX, 3, {7, {0, 3, 1431655765, 0}}},
    {{7, {TC_NYSE, 2026, 12, 23, 2026, 12, 23}}, UINT32_MAX, 1, {7, {0, 1, UINT32_MAX, 0}}},
    {{7, {TC_NYSE, 2026, 12, 23, 2026, 12, 28}}, 0, 2, {7, {9, 3}}},
    {{7, {TC_LSE, 2020, 1, 1, 2030, 12, 31}}, 1, 0, {7, {9, 2782}}},
    {{7, {TC_LSE, 2025, 3, 8, 2025, 3, 9}}, 1, 1, {7, {11}}},
    {{7, {TC_NYSE, 2026, 12, 25, 2026, 12, 27}}, 1, 0, {7, {11}}},
    {{7, {TC_TSE, 2026, 12, 28, 2026, 12, 23}}, 1, 3, {7, {11}}},
    {{7, {TC_TSE, 2031, 1, 1, 2030, 12, 31}}, 1, 0, {7, {11}}},
    {{7, {TC_TSE, 2031, 1, 1, 2031, 1, 1}}, 1, 0, {7, {1, 0, 0, 0, 2031, 1, 1}}},
    {{7, {TC_TSE, 2019, 12, 29, 2019, 12, 28}}, 1, 1, {7, {1, 0, 0, 0, 2019, 12, 29}}},
    {{7, {TC_TSX, 2020, 1, 1, 2031, 1, 1}}, 1, 0, {7, {1, 0, 0, 0, 2020, 1, 1}}},
    {{7, {TC_TSX, 2019, 12, 31, 2031, 2, 29}}, 1, 0, {7, {5}}},
    {{7, {TC_TSX, 2019, 2, 29, 2018, 1, 1}}, 1, 0, {7, {5}}},
    {{7, {TC_TSX + 1, 2019, 2, 29, 2031, 2, 29}}, 1, 0, {7, {8}}},
    {{7, {TC_TSX + 1, 2025, 3, 8, 2025, 3, 9}}, 1, 0, {7, {8}}},
};

/* The call and the laws, and how many comparisons the loops below make. [slice-laws] is for each answer without an error. */
static tally calls[CALLS] = {
    [SLICES] = {.name = "tc_slice_order",
                .meant = (EDGE_RANGES + DRAWN_LONG + DRAWN_SHORT) * (QUANTITIES + LENGTHS) + 5ul * 11 * 14 * 33 * 2 * LENGTHS +
                         DRAWN_LIMITS + 5ul * 71 + 12ul * 6 + LENGTH(answers) + 1},
    [SLICE_LAWS] = {.name = "[slice-laws]"},
    [UP_TO_2782] = {.name = "orders of up to 2782 slices", .meant = 5 + 1},
};

/* Each comparison with the plain calendar is one of these cases: an error, by its number, or slices: 0 stands for those
 * with a remainder. */
enum { WITHOUT_REMAINDER = 12, OF_NO_SHARES, OFTEN = 10000 };
static test_case cases[] = {
    [0] = {"slices with a remainder", OFTEN, 0},
    [1] = {"error 1", OFTEN, 0},
    [5] = {"error 5", OFTEN, 0},
    [8] = {"error 8", OFTEN, 0},
    [9] = {"error 9", OFTEN, 0},
    [11] = {"error 11", OFTEN, 0},
    [WITHOUT_REMAINDER] = {"slices without one", OFTEN, 0},
    [OF_NO_SHARES] = {"slices of no shares", OFTEN, 0},
};

static size_t case_of(uint32_t quantity, tc_slice_result expected) {
    if (expected.error != 0 || expected.remainder != 0) return expected.error;
    return quantity == 0 ? OF_NO_SHARES : WITHOUT_REMAINDER;
}

/* The call, of the library or of the plain calendar. */
typedef tc_slice_result slicer(uint32_t market, uint32_t quantity, uint32_t start_year, uint32_t start_month, uint32_t start_day,
                               uint32_t end_year, uint32_t end_month, uint32_t end_day, uint32_t *out, size_t out_length);

static tc_slice_result ask(slicer *call, numbers range, uint32_t quantity, uint32_t *out, size_t length) {
    const uint32_t *n = range.values;
    return call(n[0], quantity, n[1], n[2], n[3], n[4], n[5], n[6], out, length);
}

/* [slice-laws]: the slices add up to the order, and so do the shares per day and the remainder, which is below the count; none is
 * above the one before, or more than one below the first; and there is one for each trading day that is counted. */
static void slice_laws(numbers in, const uint32_t *slices, size_t length, tc_slice_result answer) {
    const uint32_t *n = in.values;
    uint64_t sum = 0, product = (uint64_t)answer.per_day * answer.count + answer.remainder;
    uint32_t above = 0, below = 0;

    for (size_t i = 0; i < answer.count && i < length; i++) {
        sum += slices[i];
        above += i > 0 && slices[i] > slices[i - 1];
        below += slices[0] - slices[i] > 1;
    }
    tc_count_result days = tc_count_trading_days(n[0], n[1], n[2], n[3], n[4], n[5], n[6]);
    numbers answered = {9, {(uint32_t)sum, (uint32_t)(sum >> 32), (uint32_t)product, (uint32_t)(product >> 32),
                            answer.remainder < answer.count, above, below, answer.count, TC_OK}};
    numbers expected = {9, {n[7], 0, n[7], 0, 1, 0, 0, days.count, days.error}};
    compare(&calls[SLICE_LAWS], in, answered, expected);
}

/* The fields of the answer, then the first place at which two lists of slices differ, the entry there, and whether all else is as
 * it was. */
static numbers of_slices(tc_slice_result answer, const uint32_t *slices, size_t place, size_t count, int is_all_kept) {
    numbers list = of_slice(answer);
    list.values[list.count++] = (uint32_t)place;
    list.values[list.count++] = place < count ? slices[place] : 0;
    list.values[list.count++] = (uint32_t)is_all_kept;
    return list;
}

/* The library writes into a buffer of drawn bytes. All of it is compared, and the bytes beside it. */
static lent buffer;
static uint32_t sequence = 20261117;

static void slice(numbers range, uint32_t quantity, size_t length) {
    static uint32_t plain_slices[LONGEST];
    tc_slice_result expected = ask(plain_slice_order, range, quantity, plain_slices, length), answer;
    size_t count = expected.error == 0 ? expected.count : 0, place = 0;
    uint32_t *slices;
    numbers in = range;

    in.values[in.count++] = quantity;
    in.values[in.count++] = (uint32_t)length;
    lend(&buffer, NULL, sizeof *slices, length, &sequence);
    slices = (uint32_t *)(void *)buffer.list;
    answer = ask(tc_slice_order, range, quantity, slices, length);
    while (place < count && slices[place] == plain_slices[place]) place++;
    compare(&calls[SLICES], in, of_slices(answer, slices, place, count, is_kept(&buffer, count * sizeof *slices)),
            of_slices(expected, plain_slices, place, count, 1));
    if (answer.error == TC_OK) slice_laws(in, slices, length, answer);
    take_back(&buffer);
    calls[SLICE_LAWS].meant += expected.error == 0;
    cases[case_of(quantity, expected)].met++;
}

/* The numbers around 0 and around the last, around the count, a multiple of it and its last multiple, and around any. */
static uint32_t quantity_of(uint32_t kind, uint32_t count) {
    uint32_t multiple = drawn() % (UINT32_MAX / count) * count, last = UINT32_MAX / count * count;
    const uint32_t middles[QUANTITIES / 3] = {0, UINT32_MAX, count, multiple, last, drawn()};
    return middles[kind / 3] + kind % 3 - 1;
}

/* How many entries an order takes, or 1 if it has no slices. */
static uint32_t entries_of(numbers range) {
    const uint32_t *n = range.values;
    uint32_t count = plain_count_trading_days(n[0], n[1], n[2], n[3], n[4], n[5], n[6]).count;
    return count == 0 ? 1 : count;
}

static void slice_on_lengths(numbers range) {
    uint32_t count = entries_of(range);
    const size_t lengths[LENGTHS] = {0, count - 1, count, count + 1, drawn() % (ROOM + 1)};
    for (int i = 0; i < LENGTHS; i++) slice(range, quantity_of(drawn() % QUANTITIES, count), lengths[i]);
}

static void slice_range(numbers range) {
    uint32_t count = entries_of(range);
    for (uint32_t kind = 0; kind < QUANTITIES; kind++) slice(range, quantity_of(kind, count), count);
    slice_on_lengths(range);
}

/* The date alone, and with up to three days after it; some of these ranges are just a weekend or a holiday. */
static void slice_days(uint32_t market, uint32_t year, uint32_t month, uint32_t day) {
    tc_date date = {year, month, day}, later = {year, month, day + 1 + drawn() % 3};
    slice_on_lengths(range_of(market, date, date));
    slice_on_lengths(range_of(market, date, later));
}

static void all_days(void) {
    for (uint32_t market = 0; market < MARKETS; market++)
        for (uint32_t year = 2020; year <= 2030; year++) ask_year(slice_days, market, year);
}

/* In a month, or up to the next one. */
static numbers drawn_short(void) {
    tc_date start = drawn_date(), end = start;
    end.month += drawn() % 2;
    end.day = 1 + drawn() % 31;
    return range_of(drawn() % 5, start, end);
}

static void drawn_orders(void) {
    for (int i = 0; i < DRAWN_LONG; i++) slice_range(drawn_range());
    for (int i = 0; i < DRAWN_SHORT; i++) slice_range(drawn_short());
    for (int i = 0; i < DRAWN_LIMITS; i++) slice(drawn_limits(), drawn(), drawn() % (ROOM + 1));
}

/* The first quarter, which has at most 63 trading days, on every length up to 70. */
static void small_buffers(void) {
    static const tc_date start = {2025, 1, 1}, end = {2025, 3, 31};
    for (uint32_t i = 0; i < 5 * 71; i++) slice(range_of(i % 5, start, end), drawn(), i / 5);
}

/* Up to a year, on lengths around those whose low byte, or low half, is 0. */
static void large_buffers(void) {
    static const size_t lengths[] = {255, 256, 257, 65535, 65536, LONGEST};
    static const tc_date end = {2025, 12, 31};
    for (uint32_t i = 0; i < 12 * LENGTH(lengths); i++) {
        tc_date start = {2025, 1 + i % 12, 1};
        slice(range_of(i % 5, start, end), drawn(), lengths[i / 12]);
    }
}

/* 23, 24 and 28 December 2026; the fourth entry stays. */
static void example_slices(void) {
    static const uint32_t expected_slices[] = {4, 4, 3, 7};
    uint32_t slices[] = {7, 7, 7, 7};
    numbers in = {7, {TC_NYSE, 2026, 12, 23, 2026, 12, 28}}, expected = {8, {0, 3, 3, 2, 0, 0, 0, 1}};
    numbers answered = of_slice(ask(tc_slice_order, in, 11, slices, LENGTH(slices)));
    answered.values[answered.count++] = memcmp(slices, expected_slices, sizeof slices) == 0;
    compare(&calls[SLICES], in, answered, expected);
}

static void examples(void) {
    uint32_t slices[252];
    for (size_t i = 0; i < LENGTH(answers); i++) {
        tc_slice_result answer = ask(tc_slice_order, answers[i].range, answers[i].quantity, slices, answers[i].length);
        compare(&calls[SLICES], answers[i].range, of_slice(answer), answers[i].expected);
    }
    example_slices();
}

/* The header says that these entries are enough, and no fewer are: all of 2020 to 2030 takes the most. */
static void up_to_2782(void) {
    static uint32_t slices[TC_SLICE_BUFFER_LENGTH];
    numbers none = {0, {0}}, most = {1, {0}}, length = {1, {TC_SLICE_BUFFER_LENGTH}};
    for (uint32_t market = 0; market < MARKETS; market++) {
        numbers in = {7, {market, 2020, 1, 1, 2030, 12, 31}}, no_error = {1, {TC_OK}};
        tc_slice_result answer = ask(tc_slice_order, in, UINT32_MAX, slices, LENGTH(slices));
        numbers error = {1, {answer.error}};
        compare(&calls[UP_TO_2782], in, error, no_error);
        if (answer.count > most.values[0]) most.values[0] = answer.count;
    }
    compare(&calls[UP_TO_2782], none, most, length);
}

int main(void) {
    int failed;
    plain_fill();
    open_lent(&buffer, &sequence);
    ask_edges(slice_range);
    all_days();
    drawn_orders();
    small_buffers();
    large_buffers();
    examples();
    up_to_2782();
    close_lent(&buffer);
    failed = finish(calls, CALLS);
    return finish_cases(cases, LENGTH(cases)) || failed;
}
