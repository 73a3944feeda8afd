/* Compares the next and the previous trading day with the plain calendar and with the examples of docs/SCOPE.md and, in 2020 to
 * 2030, with each other and with tc_is_trading_day. Prints a line for each call and each law; fails if any answer differs or not
 * all were compared. */
#include "compare.h"
#include "plain_calendar.h"
#include "trading_calendar.h"

enum call { NEXT, PREVIOUS, PREVIOUS_OF_NEXT, NEXT_OF_PREVIOUS, BY_DAYS, UP_TO_11, CALLS };

/* The days of 2020 to 2030. */
enum { DAYS = 11 * 365 + 3 };

/* How many dates the loops below make: of 34 years for eight codes, of every year for one market, and of the limits. */
#define DATES ((8ul * 34 + 10001) * 14 * 33 + 23ul * 23 * 23 * 23)

/* The calls and the laws, and how many comparisons the loops below make. */
static tally calls[CALLS] = {
    [NEXT] = {.name = "tc_next_trading_day", .meant = DATES + 12},
    [PREVIOUS] = {.name = "tc_previous_trading_day", .meant = DATES + 13},
    [PREVIOUS_OF_NEXT] = {.name = "previous of next", .meant = 5ul * DAYS},
    [NEXT_OF_PREVIOUS] = {.name = "next of previous", .meant = 5ul * DAYS},
    [BY_DAYS] = {.name = "next and previous, day by day", .meant = 5ul * DAYS * 2},
    [UP_TO_11] = {.name = "distances up to 11", .meant = 5ul * DAYS * 2},
};

static void both(uint32_t market, uint32_t year, uint32_t month, uint32_t day) {
    numbers in = {4, {market, year, month, day}};
    compare(&calls[NEXT], in, of_trading_day(tc_next_trading_day(market, year, month, day)),
            of_trading_day(plain_next_trading_day(market, year, month, day)));
    compare(&calls[PREVIOUS], in, of_trading_day(tc_previous_trading_day(market, year, month, day)),
            of_trading_day(plain_previous_trading_day(market, year, month, day)));
}

/* Some years between those around 2020 to 2030 and both ends. */
static void some_years(void) {
    static const uint32_t years[] = {100, 400, 1582, 1600, 1900, 2000, 2100};
    for (size_t i = 0; i < LENGTH(years); i++) ask_years(both, years[i], years[i]);
}

/* Every market, and codes of none, in the years around 2020 to 2030, at both ends and in some between; one market in every year, as
 * oracle/run asks for all five; numbers at and past every limit. */
static void all_dates(void) {
    ask_years(both, 2015, 2035);
    ask_years(both, 0, 2);
    ask_years(both, 9998, 10000);
    some_years();
    for (uint32_t year = 0; year <= 10000; year++) ask_year(both, year % 5, year);
    ask_limits(both);
}

/* For the laws, which ask the library alone: the days of 2020 to 2030 in order, and whether a market trades on them. */
static struct {
    tc_date date;
    uint32_t trades;
} days[DAYS];
static int day_count;

static void list_day(uint32_t market, uint32_t year, uint32_t month, uint32_t day) {
    tc_bool_result answer = tc_is_trading_day(market, year, month, day);
    tc_date date = {year, month, day};
    if (answer.error != 0 || day_count == DAYS) return;
    days[day_count].date = date;
    days[day_count++].trades = answer.value;
}

static void list_days(uint32_t market) {
    day_count = 0;
    for (uint32_t year = 2020; year <= 2030; year++) ask_year(list_day, market, year);
}

/* One of the two calls. */
typedef tc_trading_day_result neighbour(uint32_t market, uint32_t year, uint32_t month, uint32_t day);

static tc_trading_day_result answer_of(neighbour *call, uint32_t market, tc_date date) {
    return call(market, date.year, date.month, date.day);
}

/* There and back again is the day itself if it trades, else its neighbour on the way back; then the distances add up. */
static void there_and_back(enum call law, neighbour *there, neighbour *back, uint32_t market, tc_date date, uint32_t trades) {
    numbers in = {4, {market, date.year, date.month, date.day}};
    tc_trading_day_result away = answer_of(there, market, date), behind = answer_of(back, market, date);
    tc_trading_day_result expected = {0, date, away.distance, away.outside};
    if (!trades) {
        expected.date = behind.date;
        expected.distance += behind.distance;
        expected.outside |= behind.outside;
    }
    compare(&calls[law], in, of_trading_day(answer_of(back, market, away.date)), of_trading_day(expected));
}

/* The answer is the first day of the list, after or before the day with this index, that trades, and the distance counts the days.
 * Where the list ends before, the answer is in the year beyond it, no nearer than that, and is marked. [agreement-call]: in all
 * cases the distance is at most 11. */
static void by_days(neighbour *call, int direction, uint32_t market, int index) {
    tc_date date = days[index].date;
    numbers in = {4, {market, date.year, date.month, date.day}};
    tc_trading_day_result answer = answer_of(call, market, date), expected = {.distance = 1};
    numbers distance = {1, {answer.distance}}, up_to_11 = {1, {answer.distance < 11 ? answer.distance : 11}};

    for (index += direction; 0 <= index && index < day_count && !days[index].trades; index += direction) expected.distance++;
    if (0 <= index && index < day_count) {
        expected.date = days[index].date;
    } else {
        if (expected.distance < answer.distance) expected.distance = answer.distance;
        expected.date = answer.date;
        expected.date.year = direction < 0 ? 2019 : 2031;
        expected.outside = 1;
    }
    compare(&calls[BY_DAYS], in, of_trading_day(answer), of_trading_day(expected));
    compare(&calls[UP_TO_11], in, distance, up_to_11);
}

static void laws(uint32_t market) {
    neighbour *next = tc_next_trading_day, *previous = tc_previous_trading_day;
    list_days(market);
    for (int i = 0; i < day_count; i++) {
        there_and_back(PREVIOUS_OF_NEXT, next, previous, market, days[i].date, days[i].trades);
        there_and_back(NEXT_OF_PREVIOUS, previous, next, market, days[i].date, days[i].trades);
        by_days(next, 1, market, i);
        by_days(previous, -1, market, i);
    }
}

/* [examples]; the mark at both ends of 2020 to 2030; the last and the first trading days; a leap day; error 8 before 5. */
enum { NYSE = 0, TSE = 3, NO_MARKET = 5 };
static const struct {
    enum call call;
    numbers in, expected;
} examples[] = {
    {NEXT, {4, {TSE, 2022, 4, 28}}, {6, {0, 2022, 5, 9, 11, 0}}},
    {NEXT, {4, {NYSE, 2019, 12, 30}}, {6, {0, 2019, 12, 31, 1, 1}}},
    {NEXT, {4, {NYSE, 2019, 12, 31}}, {6, {0, 2020, 1, 2, 2, 1}}},
    {NEXT, {4, {NYSE, 2024, 2, 28}}, {6, {0, 2024, 2, 29, 1, 0}}},
    {NEXT, {4, {NYSE, 2030, 12, 30}}, {6, {0, 2030, 12, 31, 1, 0}}},
    {NEXT, {4, {NYSE, 2030, 12, 31}}, {6, {0, 2031, 1, 2, 2, 1}}},
    {NEXT, {4, {NYSE, 9999, 12, 30}}, {6, {0, 9999, 12, 31, 1, 1}}},
    {NEXT, {4, {NYSE, 9999, 12, 31}}, {6, {6}}},
    {NEXT, {4, {TSE, 9999, 12, 29}}, {6, {0, 9999, 12, 30, 1, 1}}},
    {NEXT, {4, {TSE, 9999, 12, 30}}, {6, {6}}},
    {NEXT, {4, {NYSE, 2023, 2, 29}}, {6, {5}}},
    {NEXT, {4, {NO_MARKET, 2023, 2, 29}}, {6, {8}}},
    {PREVIOUS, {4, {NYSE, 2020, 1, 1}}, {6, {0, 2019, 12, 31, 1, 1}}},
    {PREVIOUS, {4, {NYSE, 2020, 1, 2}}, {6, {0, 2019, 12, 31, 2, 1}}},
    {PREVIOUS, {4, {NYSE, 2020, 1, 3}}, {6, {0, 2020, 1, 2, 1, 0}}},
    {PREVIOUS, {4, {TSE, 2022, 5, 9}}, {6, {0, 2022, 4, 28, 11, 0}}},
    {PREVIOUS, {4, {NYSE, 2024, 3, 1}}, {6, {0, 2024, 2, 29, 1, 0}}},
    {PREVIOUS, {4, {NYSE, 2031, 1, 1}}, {6, {0, 2030, 12, 31, 1, 1}}},
    {PREVIOUS, {4, {NYSE, 1, 1, 3}}, {6, {0, 1, 1, 2, 1, 1}}},
    {PREVIOUS, {4, {NYSE, 1, 1, 2}}, {6, {6}}},
    {PREVIOUS, {4, {NYSE, 1, 1, 1}}, {6, {6}}},
    {PREVIOUS, {4, {TSE, 1, 1, 5}}, {6, {0, 1, 1, 4, 1, 1}}},
    {PREVIOUS, {4, {TSE, 1, 1, 4}}, {6, {6}}},
    {PREVIOUS, {4, {NYSE, 2023, 2, 29}}, {6, {5}}},
    {PREVIOUS, {4, {NO_MARKET, 2023, 2, 29}}, {6, {8}}},
};

static void ask_examples(void) {
    for (size_t i = 0; i < LENGTH(examples); i++) {
        const uint32_t *in = examples[i].in.values;
        neighbour *call = examples[i].call == NEXT ? tc_next_trading_day : tc_previous_trading_day;
        compare(&calls[examples[i].call], examples[i].in, of_trading_day(call(in[0], in[1], in[2], in[3])), examples[i].expected);
    }
}

int main(void) {
    plain_fill();
    all_dates();
    for (uint32_t market = 0; market < MARKETS; market++) laws(market);
    ask_examples();
    return finish(calls, CALLS);
}
