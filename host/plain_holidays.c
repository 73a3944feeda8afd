/* The holidays of the plain calendar: the rules of docs/SCOPE.md as lists, entered year by year into a table of all days. */
#include "plain_calendar.h"

#include <stddef.h>
#include <stdio.h>
#include <stdlib.h>

#define LENGTH(list) (sizeof(list) / sizeof(list)[0])

/* Markets as sets: bit m stands for market m [markets]. */
enum { US = 1 << 0 | 1 << 1, LSE = 1 << 2, TSE = 1 << 3, TSX = 1 << 4 };

/* For each row the markets that have a holiday on it. */
static uint8_t closed[ROWS];

/* A holiday on a day of a month, from a year on; on a Saturday or a Sunday it moves by so many days. */
static const struct {
    int markets, first_year, month, day, on_saturday, on_sunday;
} fixed[] = {
    {US | LSE | TSX, 1, JAN, 1, 2, 1}, {US | TSX, 1, DEC, 25, 2, 1},
    {US, 2021, JUN, 19, 2, 1},         {US, 1, JUL, 4, -1, 1},
    {TSX, 1, JUL, 1, 2, 1},            {TSX, 1, DEC, 26, 2, 2},
    {TSE, 1, MAY, 4, 0, 0},            {TSE, 1, DEC, 31, 0, 0},
};

/* A holiday on the nth such weekday of a month, from a year on. */
enum { LAST = -1 };
static const struct {
    int markets, first_year, month, weekday, nth;
} moving[] = {
    {US, 1, JAN, MON, 3},     {US, 1, FEB, MON, 3},     {US, 1, MAY, MON, LAST},  {US, 1, SEP, MON, 1},  {US, 1, NOV, THU, 4},
    {LSE, 1, MAY, MON, 1},    {LSE, 1, MAY, MON, LAST}, {LSE, 1, AUG, MON, LAST},
    {TSX, 2008, FEB, MON, 3}, {TSX, 1, SEP, MON, 1},    {TSX, 1, OCT, MON, 2},
    {TSE, 1, JAN, MON, 2},    {TSE, 1, JUL, MON, 3},    {TSE, 1, SEP, MON, 3},    {TSE, 1, OCT, MON, 2},
};

static void enter(int markets, int row) {
    if (row < 0) {
        fprintf(stderr, "the plain calendar has no such day\n");
        exit(1);
    }
    closed[row] |= (uint8_t)markets;
}

static void enter_fixed(int year) {
    for (size_t i = 0; i < LENGTH(fixed); i++) {
        int row = plain_row(year, fixed[i].month, fixed[i].day), move = 0;
        if (plain_weekday(row) == SAT) move = fixed[i].on_saturday;
        if (plain_weekday(row) == SUN) move = fixed[i].on_sunday;
        if (year >= fixed[i].first_year) enter(fixed[i].markets, row + move);
    }
}

static void enter_moving(int year) {
    for (size_t i = 0; i < LENGTH(moving); i++) {
        tc_optional_date answer = plain_nth_weekday_of_month(year, moving[i].month, moving[i].weekday, moving[i].nth);
        if (year >= moving[i].first_year) enter(moving[i].markets, plain_row_of(answer.date));
    }
}

/* Good Friday and Easter Monday; 24 May at TSX, or the Monday before it; the two days of December at LSE, which depend on the
 * weekday of the 25th. */
static void enter_others(int year) {
    static const int december[][2] = {{25, 26}, {25, 26}, {25, 26}, {25, 26}, {25, 28}, {27, 28}, {26, 27}};
    int victoria = plain_row(year, MAY, 24), christmas = plain_weekday(plain_row(year, DEC, 25));

    enter(US | LSE | TSX, plain_row_of(plain_calculate_good_friday(year).date));
    enter(LSE, plain_row_of(plain_calculate_easter_monday(year).date));
    while (plain_weekday(victoria) != MON) victoria--;
    enter(TSX, victoria);
    for (int i = 0; i < 2; i++) enter(LSE, plain_row(year, DEC, december[christmas][i]));
}

/* A holiday of TSE, and the day after it if it is a Sunday [tse-substitute]. */
static void enter_with_substitute(int year, int month, int day) {
    int row = plain_row(year, month, day);
    enter(TSE, row);
    if (plain_weekday(row) == SUN) enter(TSE, row + 1);
}

/* [tse-equinox] */
static void enter_equinoxes(int year) {
    int is_21 = year == 2022 || year == 2023 || year == 2027;
    int is_22 = year == 2020 || year == 2024 || year == 2028;
    if (year < 2020 || year > 2030) return;
    enter_with_substitute(year, MAR, is_21 ? 21 : 20);
    enter_with_substitute(year, SEP, is_22 ? 22 : 23);
}

static void enter_tse(int year) {
    static const int dates[][2] = {{JAN, 1}, {JAN, 2}, {JAN, 3},  {FEB, 11}, {FEB, 23}, {APR, 29},
                                   {MAY, 3}, {MAY, 5}, {AUG, 11}, {NOV, 3},  {NOV, 23}};
    int may_3 = plain_weekday(plain_row(year, MAY, 3));

    for (size_t i = 0; i < LENGTH(dates); i++) enter_with_substitute(year, dates[i][0], dates[i][1]);
    enter_equinoxes(year);

    /* [tse-golden-week]: if the 3rd is a Tuesday the 5th is a Thursday, and if it is a Saturday the 4th is a Sunday. */
    if (may_3 == TUE) enter(TSE, plain_row(year, MAY, 2));
    if (may_3 == TUE || may_3 == SAT) enter(TSE, plain_row(year, MAY, 6));
}

void plain_fill_holidays(void) {
    for (int year = 1; year <= LAST_YEAR; year++) {
        enter_fixed(year);
        enter_moving(year);
        enter_others(year);
        enter_tse(year);
    }
}

static int is_holiday(uint32_t market, int row) { return closed[row] >> market & 1; }

int plain_trades(uint32_t market, int row) { return plain_weekday(row) < SAT && !is_holiday(market, row); }

/* What holds on the date, or the first error of [errors] that applies. */
static tc_bool_result ask(int (*holds)(uint32_t, int), uint32_t market, tc_date date) {
    tc_bool_result answer = {plain_error(market, date), 0, {0, 0, 0}};
    if (answer.error != 0) return answer;
    if (plain_is_outside(date)) {
        answer.error = 1;
        answer.date = date;
    } else {
        answer.value = (uint32_t)holds(market, plain_row_of(date));
    }
    return answer;
}

tc_bool_result plain_is_trading_day(uint32_t market, uint32_t year, uint32_t month, uint32_t day) {
    tc_date date = {year, month, day};
    return ask(plain_trades, market, date);
}

tc_bool_result plain_is_holiday(uint32_t market, uint32_t year, uint32_t month, uint32_t day) {
    tc_date date = {year, month, day};
    return ask(is_holiday, market, date);
}
