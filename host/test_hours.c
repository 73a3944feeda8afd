/* Compares the calls about hours with the plain calendar, and with the examples of docs/SCOPE.md. Prints a line for each call;
 * fails if any answer differs or not all were compared. */
#include "compare.h"
#include "plain_calendar.h"
#include "trading_calendar.h"

enum call { NEW_SESSION, CONTAINS, NEW_HOURS, WITH_EARLY, IS_EARLY, CLOSE, OPEN_AT, HOURS, OPEN, CALLS };

/* How many records the loops below make, in all orders, at the edges, of all parts, of dates and drawn. A call with a time is
 * asked 27 times for each. */
#define RECORDS (8ul * 2187 + 16384 + 4ul * 64 * 128 + 8ul * 7 * 8 * 2 + 6000)

/* The calls, and how many comparisons the loops below make. */
static tally calls[CALLS] = {
    [NEW_SESSION] = {.name = "tc_session_new", .meant = 38ul * 38 + 86401ul * 3 + 3},
    [CONTAINS] = {.name = "tc_session_contains", .meant = 38ul * 38 * 38 + 6ul * 86401 + 13},
    [NEW_HOURS] = {.name = "tc_trading_hours_new", .meant = RECORDS},
    [WITH_EARLY] = {.name = "tc_with_early_close", .meant = RECORDS * 27 + 3},
    [IS_EARLY] = {.name = "tc_is_early_close", .meant = RECORDS + 2},
    [CLOSE] = {.name = "tc_market_close", .meant = RECORDS + 2},
    [OPEN_AT] = {.name = "tc_is_open_at", .meant = RECORDS * 27 + 20ul * 86401 + 10},
    [HOURS] = {.name = "tc_trading_hours", .meant = (8ul * 27 + 5ul * 10001) * 14 * 33 + 23ul * 23 * 23 * 23 + 2},
    [OPEN] = {.name = "tc_is_open",
              .meant = (8ul * 13 * 38 + 10001ul * 2) * 14 * 33 + 23ul * 23 * 23 * 23 * 2 + 20ul * 86401 + 2},
};

enum { SECONDS = 86400 };

#define AROUND(n) (n) - 1, (n), (n) + 1

/* Times at and past the limits, and around each number of [hours]. */
static const uint32_t times[] = {0, 1, AROUND(14400), AROUND(28800), AROUND(32400), AROUND(34200), AROUND(46800), AROUND(54000),
                                 AROUND(57600), AROUND(59400), 65535, 65536, AROUND(72000), 86398, AROUND(SECONDS),
                                 INT32_MAX, (uint32_t)INT32_MAX + 1, UINT32_MAX};

static void new_session(uint32_t start, uint32_t end) {
    numbers in = {2, {start, end}};
    compare(&calls[NEW_SESSION], in, of_session(tc_session_new(start, end)), of_session(plain_session_new(start, end)));
}

static void contains(tc_session session, uint32_t time) {
    numbers in = {3, {session.start, session.end, time}};
    compare(&calls[CONTAINS], in, of_bool(tc_session_contains(session, time)), of_bool(plain_session_contains(session, time)));
}

/* The calls that take a record alone, the call that makes one of its parts among them. */
static void record_alone(tc_hours h) {
    numbers in = of_record(0, h);
    compare(&calls[NEW_HOURS], in,
            of_hours(tc_trading_hours_new(h.date.year, h.date.month, h.date.day, h.regular, h.has_pre_market, h.pre_market,
                                          h.has_after_hours, h.after_hours)),
            of_hours(plain_trading_hours_new(h.date.year, h.date.month, h.date.day, h.regular, h.has_pre_market, h.pre_market,
                                             h.has_after_hours, h.after_hours)));
    compare(&calls[IS_EARLY], in, of_bool(tc_is_early_close(h)), of_bool(plain_is_early_close(h)));
    compare(&calls[CLOSE], in, of_time(tc_market_close(h)), of_time(plain_market_close(h)));
}

static void open_at(tc_hours h, uint32_t time) {
    compare(&calls[OPEN_AT], of_record(time, h), of_bool(tc_is_open_at(h, time)), of_bool(plain_is_open_at(h, time)));
}

static void with_early(tc_hours h, uint32_t time) {
    compare(&calls[WITH_EARLY], of_record(time, h), of_hours(tc_with_early_close(h, time)),
            of_hours(plain_with_early_close(h, time)));
}

/* All calls on a record, at the times around each number in it, around midnight and around the last. */
static void record(tc_hours h) {
    const uint32_t own[] = {h.pre_market.start,  h.pre_market.end,  h.regular.start, h.regular.end,
                            h.after_hours.start, h.after_hours.end, h.early_close,   0,             SECONDS};
    record_alone(h);
    for (size_t i = 0; i < 3 * LENGTH(own); i++) {
        uint32_t time = own[i / 3] + (uint32_t)(i % 3) - 1;
        open_at(h, time);
        with_early(h, time);
    }
}

static void hours_on(uint32_t market, uint32_t year, uint32_t month, uint32_t day) {
    numbers in = {4, {market, year, month, day}};
    compare(&calls[HOURS], in, of_hours(tc_trading_hours(market, year, month, day)),
            of_hours(plain_trading_hours(market, year, month, day)));
}

static void open_on(uint32_t market, uint32_t year, uint32_t month, uint32_t day, uint32_t time) {
    numbers in = {5, {market, year, month, day, time}};
    compare(&calls[OPEN], in, of_bool(tc_is_open(market, year, month, day, time)),
            of_bool(plain_is_open(market, year, month, day, time)));
}

static void open_at_times(uint32_t market, uint32_t year, uint32_t month, uint32_t day) {
    for (size_t i = 0; i < LENGTH(times); i++) open_on(market, year, month, day, times[i]);
}

/* At a time in the hours of every market, and at one that is none. */
static void open_at_two(uint32_t market, uint32_t year, uint32_t month, uint32_t day) {
    open_on(market, year, month, day, 36000);
    open_on(market, year, month, day, SECONDS);
}

/* All times with all; then every second with itself and its neighbours. */
static void sessions(void) {
    for (size_t a = 0; a < LENGTH(times); a++) {
        for (size_t b = 0; b < LENGTH(times); b++) {
            tc_session session = {times[a], times[b]};
            new_session(times[a], times[b]);
            for (size_t c = 0; c < LENGTH(times); c++) contains(session, times[c]);
        }
    }
    for (uint32_t second = 0; second <= SECONDS; second++)
        for (uint32_t end = 0; end < 3; end++) new_session(second, second + end - 1);
}

/* Every second of the day in sessions within a day, over midnight and of equal ends. */
static void whole_sessions(void) {
    static const tc_session list[] = {{34200, 57600}, {72000, 14400}, {0, 86399}, {86399, 0}, {1, 0}, {43200, 43200}};
    for (size_t i = 0; i < LENGTH(list); i++)
        for (uint32_t second = 0; second <= SECONDS; second++) contains(list[i], second);
}

/* What the fields of a record may be, in their order in tc_hours. */
typedef numbers choices[FIELDS];

/* One of the records with these fields: the digits of its number choose them. */
static tc_hours chosen(const choices fields, unsigned long number) {
    uint32_t values[FIELDS];
    for (int i = 0; i < FIELDS; i++) {
        unsigned long count = (unsigned long)fields[i].count;
        values[i] = fields[i].values[number % count];
        number /= count;
    }
    return record_of(values);
}

static void every_record(const choices fields) {
    unsigned long count = 1;
    for (int i = 0; i < FIELDS; i++) count *= (unsigned long)fields[i].count;
    for (unsigned long number = 0; number < count; number++) record(chosen(fields, number));
}

/* Records whose times stand in every order, present and absent; at the limits; with every kind of has_ number before times that
 * are none, be they present or not; and of dates that are none. */
static void records(void) {
    const numbers year = {1, {2024}}, month = {1, {2}}, day = {1, {29}};
    const numbers no = {1, {0}}, yes = {1, {1}}, either = {2, {0, 1}}, any = {4, {0, 1, 2, (uint32_t)INT32_MAX + 1}};
    const numbers three = {3, {28800, 46800, 72000}}, edge = {4, {0, 86399, 86400, UINT32_MAX}}, valid_or_not = {2, {36000, 86400}};
    const numbers year_or_not = {2, {2023, 0}}, day_or_not = {2, {28, 29}};
    const numbers years = {8, {0, 1, 2000, 2024, 2100, 9999, 10000, UINT32_MAX}}, months = {7, {0, 1, 2, 4, 12, 13, UINT32_MAX}},
                  days = {8, {0, 1, 28, 29, 30, 31, 32, UINT32_MAX}};
    const choices orders = {year, month, day, either, three, three, three, three, either, three, three, either, three};
    const choices edges = {year, month, day, yes, edge, edge, edge, edge, yes, edge, edge, yes, edge};
    const choices parts = {year_or_not, month, day_or_not, any, valid_or_not, valid_or_not, valid_or_not, valid_or_not,
                           any, valid_or_not, valid_or_not, any, valid_or_not};
    const choices dates = {years, months, days, no, no, no, no, valid_or_not, no, no, no, no, no};
    every_record(orders);
    every_record(edges);
    every_record(parts);
    every_record(dates);
}

/* One half are times of the list above, one half any second of the day. */
static uint32_t drawn_time(void) {
    uint32_t number = drawn();
    return number % 2 == 0 ? times[number / 2 % LENGTH(times)] : number / 2 % SECONDS;
}

/* Any dates up to 9999-12-31 and those like 31 February, with any has_ numbers and times. */
static void drawn_records(void) {
    static const uint32_t last[] = {9999, 12, 31}, has[] = {0, 1, 2, (uint32_t)INT32_MAX + 1};
    static const int has_fields[] = {3, 8, 11};
    for (int i = 0; i < 6000; i++) {
        uint32_t fields[FIELDS];
        for (int f = 0; f < FIELDS; f++) fields[f] = drawn_time();
        for (int f = 0; f < 3; f++) {
            fields[f] = 1 + drawn() % last[f];
            fields[has_fields[f]] = has[drawn() % LENGTH(has)];
        }
        record(record_of(fields));
    }
}

/* Every market, and codes of none, in the years around those that trade and at both ends; every market in every year; numbers at
 * and past every limit. */
static void all_hours(void) {
    ask_years(hours_on, 2015, 2035);
    ask_years(hours_on, 0, 2);
    ask_years(hours_on, 9998, 10000);
    for (uint32_t market = 0; market <= 4; market++)
        for (uint32_t year = 0; year <= 10000; year++) ask_year(hours_on, market, year);
    ask_limits(hours_on);
}

/* Every market, and codes of none, in the years that have answers and those around; one market in every year; numbers at and past
 * every limit. */
static void all_open(void) {
    ask_years(open_at_times, 2019, 2031);
    for (uint32_t year = 0; year <= 10000; year++) ask_year(open_at_two, year % 5, year);
    ask_limits(open_at_two);
}

/* Every second of a usual day, of an early close, of a holiday and of a Sunday, at every market. */
static void whole_days(void) {
    static const tc_date dates[] = {{2025, 3, 10}, {2025, 11, 28}, {2025, 12, 25}, {2022, 7, 3}};
    for (uint32_t i = 0; i < 5 * LENGTH(dates); i++) {
        uint32_t market = i % 5;
        tc_date date = dates[i / 5];
        tc_hours hours = plain_trading_hours(market, date.year, date.month, date.day).hours;
        for (uint32_t second = 0; second <= SECONDS; second++) {
            open_on(market, date.year, date.month, date.day, second);
            open_at(hours, second);
        }
    }
}

static numbers yes_or_no(uint32_t value) {
    numbers list = {5, {0, value}};
    return list;
}

/* [session-new]: over midnight, with equal ends, and with those and no time. */
static void example_sessions(void) {
    static const uint32_t list[][5] = {{72000, 14400, 0, 72000, 14400}, {34200, 34200, 3}, {86400, 86400, 7}};
    for (size_t i = 0; i < LENGTH(list); i++) {
        numbers in = {2, {list[i][0], list[i][1]}}, expected = {3, {list[i][2], list[i][3], list[i][4]}};
        compare(&calls[NEW_SESSION], in, of_session(tc_session_new(list[i][0], list[i][1])), expected);
    }
}

/* [contains]: sessions with a time that they contain or not, within a day, over midnight and with equal ends. */
static void example_contains(void) {
    static const uint32_t list[][4] = {{34200, 57600, 34199, 0}, {34200, 57600, 34200, 1}, {34200, 57600, 57599, 1},
                                       {34200, 57600, 57600, 0}, {72000, 14400, 71999, 0}, {72000, 14400, 72000, 1},
                                       {72000, 14400, 86399, 1}, {72000, 14400, 0, 1},     {72000, 14400, 14399, 1},
                                       {72000, 14400, 14400, 0}, {34200, 34200, 34199, 1}, {34200, 34200, 34200, 1},
                                       {34200, 34200, 34201, 1}};
    for (size_t i = 0; i < LENGTH(list); i++) {
        tc_session session = {list[i][0], list[i][1]};
        numbers in = {3, {list[i][0], list[i][1], list[i][2]}};
        compare(&calls[CONTAINS], in, of_bool(tc_session_contains(session, list[i][2])), yes_or_no(list[i][3]));
    }
}

static void example_open_at(tc_hours hours, uint32_t time, uint32_t value) {
    compare(&calls[OPEN_AT], of_record(time, hours), of_bool(tc_is_open_at(hours, time)), yes_or_no(value));
}

/* [is-open-at]: regular hours over midnight are never open, unless an early close after their start is set, and then until that. A
 * pre-market over midnight is open on both sides of it; after-hours wait for the early close. */
static void example_over_midnight(void) {
    tc_hours hours = {{2025, 3, 10}, 0, {0, 0}, {72000, 14400}, 0, {0, 0}, 0, 0};
    example_open_at(hours, 72000, 0);
    example_open_at(hours, 14399, 0);
    hours.has_early_close = 1;
    hours.early_close = 80000;
    example_open_at(hours, 79999, 1);
    example_open_at(hours, 80000, 0);
    hours.has_after_hours = 1;
    hours.after_hours = hours.regular;
    example_open_at(hours, 80000, 1);
    example_open_at(hours, 14399, 0);
    hours.has_pre_market = 1;
    hours.pre_market = hours.regular;
    example_open_at(hours, 14399, 1);
    example_open_at(hours, 14400, 0);
}

/* [with-early-close]: a time before the regular end, the regular end itself, and no time. */
static void example_early_closes(void) {
    static const uint32_t list[][2] = {{57599, 0}, {57600, 4}, {86400, 7}};
    tc_hours hours = {{2025, 3, 10}, 0, {0, 0}, {34200, 57600}, 0, {0, 0}, 0, 0}, early = hours;
    early.has_early_close = 1;
    early.early_close = 57599;
    for (size_t i = 0; i < LENGTH(list); i++) {
        tc_hours_result expected = {.error = list[i][1]};
        if (expected.error == 0) expected.hours = early;
        compare(&calls[WITH_EARLY], of_record(list[i][0], hours), of_hours(tc_with_early_close(hours, list[i][0])),
                of_hours(expected));
    }
}

/* [examples]: NYSE on 2022-07-03, an early close and a Sunday, and on 2025-12-25, a holiday. At 36000 the hours of both are open,
 * and the market is not. */
static void example_dates(void) {
    static const tc_hours list[] = {{{2022, 7, 3}, 1, {14400, 34200}, {34200, 57600}, 1, {46800, 72000}, 1, 46800},
                                    {{2025, 12, 25}, 1, {14400, 34200}, {34200, 57600}, 1, {57600, 72000}, 0, 0}};
    static const uint32_t closes[] = {46800, 57600};
    for (size_t i = 0; i < LENGTH(list); i++) {
        tc_date date = list[i].date;
        tc_hours_result answer = tc_trading_hours(0, date.year, date.month, date.day);
        numbers in = {5, {0, date.year, date.month, date.day, 36000}}, close = {2, {0, closes[i]}};
        compare(&calls[HOURS], in, of_hours(answer), of_record(0, list[i]));
        compare(&calls[IS_EARLY], in, of_bool(tc_is_early_close(answer.hours)), yes_or_no(list[i].has_early_close));
        compare(&calls[CLOSE], in, of_time(tc_market_close(answer.hours)), close);
        compare(&calls[OPEN], in, of_bool(tc_is_open(0, date.year, date.month, date.day, 36000)), yes_or_no(0));
        example_open_at(answer.hours, 36000, 1);
    }
}

int main(void) {
    plain_fill();
    sessions();
    whole_sessions();
    records();
    drawn_records();
    all_hours();
    all_open();
    whole_days();
    example_sessions();
    example_contains();
    example_over_midnight();
    example_early_closes();
    example_dates();
    return finish(calls, CALLS);
}
