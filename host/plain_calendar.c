/* The plain calendar: a table of all days, filled by counting them out. */
#include "plain_calendar.h"

#include <stdio.h>
#include <stdlib.h>

/* The weekdays, and how many of one are counted at most, either way [nth-weekday]. */
enum { WEEKDAYS = 7, MOST_WEEKDAYS = 255 };

/* A day, and its place among the days of its weekday. */
typedef struct {
    uint16_t year;
    uint8_t month, day, weekday;
    int place;
} row;

/* The days in order, 0001-01-01 to 9999-12-31. */
static row days[ROWS];

/* The row of the first day of each month. */
static int month_start[LAST_YEAR + 1][DEC + 1];

/* For each weekday the rows of its days in order, and how many there are. */
static int of_weekday[WEEKDAYS][ROWS / WEEKDAYS + 1];
static int weekday_count[WEEKDAYS];

static int is_leap(int year) {
    if (year % 400 == 0) return 1;
    if (year % 100 == 0) return 0;
    return year % 4 == 0;
}

static void fill_days(void) {
    static const int lengths[DEC + 1] = {0, 31, 28, 31, 30, 31, 30, 31, 31, 30, 31, 30, 31};
    int next = 0;

    for (int year = 1; year <= LAST_YEAR; year++) {
        for (int month = 1; month <= DEC; month++) {
            int length = month == 2 && is_leap(year) ? 29 : lengths[month];
            month_start[year][month] = next;
            for (int day = 1; day <= length && next < ROWS; day++, next++) {
                days[next].year = (uint16_t)year;
                days[next].month = (uint8_t)month;
                days[next].day = (uint8_t)day;
            }
        }
    }
    if (next != ROWS || days[ROWS - 1].day != 31) {
        fprintf(stderr, "the plain calendar does not have %d days\n", ROWS);
        exit(1);
    }
}

/* 1 January 2001 is a Monday; from there on each next day has the next weekday, and each day before the one before. */
static void fill_weekdays(void) {
    int monday = month_start[2001][1];
    for (int r = monday, w = 0; r < ROWS; r++, w = (w + 1) % WEEKDAYS) days[r].weekday = (uint8_t)w;
    for (int r = monday, w = 0; r >= 0; r--, w = (w + WEEKDAYS - 1) % WEEKDAYS) days[r].weekday = (uint8_t)w;
    for (int r = 0; r < ROWS; r++) {
        int w = days[r].weekday;
        days[r].place = weekday_count[w]++;
        of_weekday[w][days[r].place] = r;
    }
}

void plain_fill(void) {
    fill_days();
    fill_weekdays();
    plain_fill_holidays();
    plain_fill_early_closes();
}

static tc_optional_date none(void) {
    tc_optional_date answer = {0, {0, 0, 0}};
    return answer;
}

static tc_optional_date found(int r) {
    tc_optional_date answer = {1, plain_date(r)};
    return answer;
}

static int is_year(uint32_t year) { return 1 <= year && year <= LAST_YEAR; }

static int is_month(uint32_t year, uint32_t month) { return is_year(year) && 1 <= month && month <= DEC; }

int plain_row(uint32_t year, uint32_t month, uint32_t day) {
    int r;
    if (!is_month(year, month) || day < 1 || day > 31) return -1;
    r = month_start[year][month] + (int)day - 1;
    return days[r].month == month ? r : -1;
}

int plain_row_of(tc_date date) { return plain_row(date.year, date.month, date.day); }

tc_date plain_date(int r) {
    tc_date date = {days[r].year, days[r].month, days[r].day};
    return date;
}

int plain_weekday(int r) { return days[r].weekday; }

uint32_t plain_error(uint32_t market, tc_date date) {
    if (market >= MARKETS) return 8;
    return plain_row_of(date) < 0 ? 5 : 0;
}

int plain_is_outside(tc_date date) { return date.year < 2020 || date.year > 2030; }

/* The row of the month's first such weekday. */
static int first_row(uint32_t year, uint32_t month, uint32_t weekday) {
    int r = month_start[year][month];
    while (days[r].weekday != weekday) r++;
    return r;
}

/* The row of its last, back from the first day of the next month; -1 in December 9999, which no month follows. */
static int last_row(uint32_t year, uint32_t month, uint32_t weekday) {
    int r;
    if (year == LAST_YEAR && month == DEC) return -1;
    r = month == DEC ? month_start[year + 1][JAN] : month_start[year][month + 1];
    do r--;
    while (days[r].weekday != weekday);
    return r;
}

/* By places among the days of the weekday: on from the month's first, or back from its last. */
tc_optional_date plain_nth_weekday_of_month(uint32_t year, uint32_t month, uint32_t weekday, int32_t nth) {
    int r, place;
    if (!is_month(year, month) || weekday >= WEEKDAYS) return none();
    if (nth == 0 || nth < -MOST_WEEKDAYS || nth > MOST_WEEKDAYS) return none();
    r = nth > 0 ? first_row(year, month, weekday) : last_row(year, month, weekday);
    if (r < 0) return none();
    place = nth > 0 ? days[r].place + nth - 1 : days[r].place + nth + 1;
    if (place < 0 || place >= weekday_count[weekday]) return none();
    r = of_weekday[weekday][place];
    return days[r].month == month ? found(r) : none();
}

tc_optional_date plain_last_weekday_of_month(uint32_t year, uint32_t month, uint32_t weekday) {
    int r = is_month(year, month) && weekday < WEEKDAYS ? last_row(year, month, weekday) : -1;
    return r < 0 ? none() : found(r);
}

/* How all epacts change when a century begins: a day less where its first year is no leap year, and a day more eight times
 * in 25 centuries, which is in 1800, in each third century up to 3900, again in 4300 and so on. */
static int epact_change(int century) {
    int turn = (century + 7) % 25;
    int solar = century % 4 != 0, lunar = turn % 3 == 0 && turn != 24;
    return lunar - solar;
}

/* The row of Easter Sunday by the tables of the calendar of 1582: the golden number gives the epact, the epact the
 * paschal full moon, and Easter is the first Sunday after that. */
static int easter_row(int year) {
    int golden = year % 19 + 1;
    int epact = 11 * (golden - 1) + 1; /* in the years 1600 to 1699 */
    int march_day, r;

    for (int century = 17; century <= year / 100; century++) epact += epact_change(century);
    for (int century = 16; century > year / 100; century--) epact -= epact_change(century);
    epact = (epact % 30 + 30) % 30;

    /* Epact 24 would put the full moon on 19 April and counts as 25, 18 April; with a golden number above 11, 25 counts
     * as 26, so that no date comes twice in a cycle. */
    if (epact == 24 || (epact == 25 && golden > 11)) epact++;

    /* Full moon on day 44 - epact of March, or a lunar month later if that is before the 21st. */
    march_day = 44 - epact;
    if (march_day < 21) march_day += 30;
    r = month_start[year][MAR] + march_day - 1;
    do r++;
    while (days[r].weekday != SUN);
    return r;
}

static tc_optional_date from_easter(uint32_t year, int shift) {
    return is_year(year) ? found(easter_row((int)year) + shift) : none();
}

tc_optional_date plain_calculate_easter(uint32_t year) { return from_easter(year, 0); }

tc_optional_date plain_calculate_good_friday(uint32_t year) { return from_easter(year, -2); }

tc_optional_date plain_calculate_easter_monday(uint32_t year) { return from_easter(year, 1); }
