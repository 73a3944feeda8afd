/* Comparing answers and counting them, and the dates that calls are asked about. */
#include "compare.h"

#include <stdio.h>
#include <string.h>

/* Differences shown of each call; all are counted. */
enum { SHOWN = 5 };

const uint32_t limits[LIMITS] = {0, 1, 5, 6, 7, 8, 11, 12, 13, 255, 256, 257, 2019, 9998, 9999, 10000, 10001, 65536, 65537,
                                 INT32_MAX, (uint32_t)INT32_MAX + 1, UINT32_MAX - 1, UINT32_MAX};

const uint32_t codes[CODES] = {0, 1, 2, 3, 4, 5, 6, UINT32_MAX};

numbers of_date(tc_optional_date a) {
    numbers list = {4, {a.found, a.date.year, a.date.month, a.date.day}};
    return list;
}

numbers of_bool(tc_bool_result a) {
    numbers list = {5, {a.error, a.value, a.date.year, a.date.month, a.date.day}};
    return list;
}

numbers of_trading_day(tc_trading_day_result a) {
    numbers list = {6, {a.error, a.date.year, a.date.month, a.date.day, a.distance, a.outside}};
    return list;
}

numbers of_count(tc_count_result a) {
    numbers list = {5, {a.error, a.count, a.date.year, a.date.month, a.date.day}};
    return list;
}

numbers of_slice(tc_slice_result a) {
    numbers list = {7, {a.error, a.count, a.per_day, a.remainder, a.date.year, a.date.month, a.date.day}};
    return list;
}

numbers of_optional_date_result(tc_optional_date_result a) {
    numbers list = {5, {a.error, a.found, a.date.year, a.date.month, a.date.day}};
    return list;
}

numbers of_time(tc_time_result a) {
    numbers list = {2, {a.error, a.seconds}};
    return list;
}

numbers of_session(tc_session_result a) {
    numbers list = {3, {a.error, a.session.start, a.session.end}};
    return list;
}

numbers of_hours(tc_hours_result a) { return of_record(a.error, a.hours); }

numbers of_record(uint32_t first, tc_hours h) {
    numbers list = {14, {first, h.date.year, h.date.month, h.date.day, h.has_pre_market, h.pre_market.start, h.pre_market.end,
                         h.regular.start, h.regular.end, h.has_after_hours, h.after_hours.start, h.after_hours.end,
                         h.has_early_close, h.early_close}};
    return list;
}

tc_hours record_of(const uint32_t *f) {
    tc_hours h = {{f[0], f[1], f[2]}, f[3], {f[4], f[5]}, {f[6], f[7]}, f[8], {f[9], f[10]}, f[11], f[12]};
    return h;
}

static int same(numbers a, numbers b) {
    return a.count == b.count && memcmp(a.values, b.values, (size_t)a.count * sizeof a.values[0]) == 0;
}

static void show(const char *what, numbers list) {
    printf("  %s:", what);
    for (int i = 0; i < list.count; i++) printf(" %lu", (unsigned long)list.values[i]);
    printf("\n");
}

int compare(tally *call, numbers input, numbers answer, numbers expected) {
    call->compared++;
    if (same(answer, expected)) return 0;
    if (call->differ++ >= SHOWN) return 0;
    printf("%s\n", call->name);
    show("input", input);
    show("answer", answer);
    show("expected", expected);
    return 1;
}

int finish(const tally *calls, int count) {
    int failed = 0;
    for (int i = 0; i < count; i++) {
        printf("%s: %lu compared, %lu differ\n", calls[i].name, calls[i].compared, calls[i].differ);
        if (calls[i].differ != 0) failed = 1;
        if (calls[i].compared == 0 || calls[i].compared != calls[i].meant) {
            printf("%s: not the %lu comparisons that were meant\n", calls[i].name, calls[i].meant);
            failed = 1;
        }
    }
    return failed;
}

int finish_cases(const test_case *cases, size_t count) {
    const char *separator = ":";
    int failed = 0;
    printf("the cases");
    for (size_t i = 0; i < count; i++) {
        if (cases[i].name == NULL) continue;
        printf("%s %s %lu", separator, cases[i].name, cases[i].met);
        separator = ",";
        if (cases[i].met < cases[i].often) failed = 1;
    }
    printf("%s\n", failed ? "; not each as often as is meant" : "");
    return failed;
}

/* By xorshift. */
uint32_t draw(uint32_t *sequence) {
    *sequence ^= *sequence << 13;
    *sequence ^= *sequence >> 17;
    *sequence ^= *sequence << 5;
    return *sequence;
}

uint32_t drawn(void) {
    static uint32_t sequence = 20250827;
    return draw(&sequence);
}

void ask_year(asker *ask, uint32_t market, uint32_t year) {
    for (uint32_t month = 0; month <= 13; month++)
        for (uint32_t day = 0; day <= 32; day++) ask(market, year, month, day);
}

void ask_years(asker *ask, uint32_t first, uint32_t last) {
    for (int i = 0; i < CODES; i++)
        for (uint32_t year = first; year <= last; year++) ask_year(ask, codes[i], year);
}

void ask_limits(asker *ask) {
    for (int a = 0; a < LIMITS; a++)
        for (int b = 0; b < LIMITS; b++)
            for (int c = 0; c < LIMITS; c++)
                for (int d = 0; d < LIMITS; d++) ask(limits[a], limits[b], limits[c], limits[d]);
}

numbers range_of(uint32_t market, tc_date start, tc_date end) {
    numbers range = {RANGE_NUMBERS, {market, start.year, start.month, start.day, end.year, end.month, end.day}};
    return range;
}

/* Around the ends of 2020 to 2030, leap days, a weekend, far outside; then numbers that are no date, inside and outside. */
enum { EDGES = 40 };
static const tc_date edges[EDGES] = {
    {2019, 12, 30},     {2019, 12, 31},        {2020, 1, 1},          {2020, 1, 2},   {2020, 2, 28},    {2020, 2, 29},
    {2020, 3, 1},       {2022, 4, 28},         {2022, 5, 9},          {2024, 2, 29},  {2025, 1, 1},     {2025, 1, 31},
    {2025, 3, 8},       {2025, 3, 9},          {2030, 12, 30},        {2030, 12, 31}, {2031, 1, 1},     {2031, 1, 2},
    {2019, 1, 1},       {2031, 12, 31},        {1, 1, 1},             {1970, 1, 1},   {9999, 12, 31},   {0, 0, 0},
    {0, 12, 31},        {2019, 2, 29},         {2025, 0, 1},          {2025, 13, 1},  {2025, 1, 0},     {2025, 1, 32},
    {2025, 2, 29},      {2024, 2, 30},         {2025, 4, 31},         {2031, 2, 29},  {10000, 1, 1},    {2020, 0, 0},
    {UINT32_MAX, 1, 1}, {2025, UINT32_MAX, 1}, {2025, 1, UINT32_MAX}, {2030, 12, 32}};

void ask_edges_of(range_asker *ask, uint32_t market) {
    for (int a = 0; a < EDGES; a++)
        for (int b = 0; b < EDGES; b++) ask(range_of(market, edges[a], edges[b]));
}

void ask_edges(range_asker *ask) {
    for (int i = 0; i < CODES; i++) ask_edges_of(ask, codes[i]);
}

tc_date drawn_date(void) {
    tc_date date = {2019 + drawn() % 13, 1 + drawn() % 12, 1 + drawn() % 31};
    return date;
}

numbers drawn_range(void) {
    tc_date start = drawn_date(), end = drawn_date();
    return range_of(drawn() % 5, start, end);
}

numbers drawn_limits(void) {
    numbers range = drawn_range();
    for (int place = 0; place < range.count; place++)
        if (drawn() % 4 == 0) range.values[place] = limits[drawn() % LIMITS];
    return range;
}
