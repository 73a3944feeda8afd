/* The hours of the plain calendar: a day as a table of its seconds, in which the open ones are marked by walking from the start
 * of a session until its end. */
#include "plain_calendar.h"

#include <string.h>

enum { SECONDS = 86400 };

/* The second of a clock time. */
#define CLOCK(hour, minute) ((hour) * 3600 + (minute) * 60)

/* The hours of [hours] without their date. The US, which is markets 0 and 1, has one row for usual days and one for early closes;
 * the other markets have the row of their code. */
enum { US_USUAL, US_EARLY, LSE, TSE, TSX };
static const tc_hours by_market[] = {
    [US_USUAL] = {.has_pre_market = 1, .pre_market = {CLOCK(4, 0), CLOCK(9, 30)}, .regular = {CLOCK(9, 30), CLOCK(16, 0)},
                  .has_after_hours = 1, .after_hours = {CLOCK(16, 0), CLOCK(20, 0)}},
    [US_EARLY] = {.has_pre_market = 1, .pre_market = {CLOCK(4, 0), CLOCK(9, 30)}, .regular = {CLOCK(9, 30), CLOCK(16, 0)},
                  .has_after_hours = 1, .after_hours = {CLOCK(13, 0), CLOCK(20, 0)},
                  .has_early_close = 1, .early_close = CLOCK(13, 0)},
    [LSE] = {.regular = {CLOCK(8, 0), CLOCK(16, 30)}},
    [TSE] = {.regular = {CLOCK(9, 0), CLOCK(15, 0)}},
    [TSX] = {.regular = {CLOCK(9, 30), CLOCK(16, 0)}},
};

/* For each row whether it is an early close of the US. */
static uint8_t closes_early[ROWS];

/* [early-close], with the Thursdays of November counted day by day. */
void plain_fill_early_closes(void) {
    for (int year = 1; year <= LAST_YEAR; year++) {
        int thursdays = 0, row = plain_row(year, NOV, 1), july_4 = plain_row(year, JUL, 4), december_24 = plain_row(year, DEC, 24);
        for (; thursdays < 4; row++) thursdays += plain_weekday(row) == THU;
        closes_early[row] = 1;
        closes_early[july_4 - 1] = plain_weekday(july_4) < SAT;
        closes_early[december_24] = plain_weekday(december_24) < SAT;
    }
}

/* Marks the seconds of a session: on from its start, past midnight to 0, until its end. Equal ends mark the whole day. */
static void mark_session(uint8_t *marks, tc_session session) {
    uint32_t second = session.start;
    do {
        marks[second] = 1;
        second = second == SECONDS - 1 ? 0 : second + 1;
    } while (second != session.end);
}

/* Marks the seconds at which a record is open [is-open-at]. */
static void mark_open(uint8_t *marks, tc_hours hours) {
    static uint8_t after_hours[SECONDS];
    uint32_t close = hours.has_early_close ? hours.early_close : hours.regular.end;

    memset(marks, 0, SECONDS);
    memset(after_hours, 0, SECONDS);
    if (hours.has_after_hours) mark_session(after_hours, hours.after_hours);
    for (uint32_t second = hours.has_early_close ? close : 0; second < SECONDS; second++) marks[second] = after_hours[second];
    for (uint32_t second = hours.regular.start; second < close; second++) marks[second] = 1;
    if (hours.has_pre_market) mark_session(marks, hours.pre_market);
}

/* Whether a record is open at a time. The marks of the last record are kept, as many times are asked of one; at first they
 * are those of a record of zeros, which is never open. */
static int is_marked(tc_hours hours, uint32_t time) {
    static uint8_t marks[SECONDS];
    static tc_hours marked;
    hours.date = marked.date; /* which no mark depends on */
    if (memcmp(&hours, &marked, sizeof hours) != 0) mark_open(marks, hours);
    marked = hours;
    return marks[time];
}

/* The record with its has_ fields 0 or 1, and 0 for the numbers of absent parts [host-answers]. */
static tc_hours tidy(tc_hours hours) {
    static const tc_session none;
    hours.has_pre_market = hours.has_pre_market != 0;
    hours.has_after_hours = hours.has_after_hours != 0;
    hours.has_early_close = hours.has_early_close != 0;
    if (!hours.has_pre_market) hours.pre_market = none;
    if (!hours.has_after_hours) hours.after_hours = none;
    if (!hours.has_early_close) hours.early_close = 0;
    return hours;
}

/* The first of the errors 5 and 7 that a tidy record or a time has, or 0. */
static uint32_t error_of(tc_hours hours, uint32_t time) {
    const uint32_t times[] = {hours.pre_market.start,  hours.pre_market.end,  hours.regular.start, hours.regular.end,
                              hours.after_hours.start, hours.after_hours.end, hours.early_close,   time};
    if (plain_row_of(hours.date) < 0) return 5;
    for (size_t i = 0; i < sizeof times / sizeof times[0]; i++)
        if (times[i] >= SECONDS) return 7;
    return 0;
}

static tc_bool_result bool_answer(uint32_t error, int value) {
    tc_bool_result answer = {error, error == 0 && value, {0, 0, 0}};
    return answer;
}

static tc_hours_result hours_answer(uint32_t error, tc_hours hours) {
    tc_hours_result answer = {.error = error};
    if (error == 0) answer.hours = hours;
    return answer;
}

tc_session_result plain_session_new(uint32_t start, uint32_t end) {
    tc_session_result answer = {0, {0, 0}};
    if (start >= SECONDS || end >= SECONDS) {
        answer.error = 7;
    } else if (start == end) {
        answer.error = 3;
    } else {
        answer.session.start = start;
        answer.session.end = end;
    }
    return answer;
}

/* A session alone is a record that is open in its pre-market only. */
tc_bool_result plain_session_contains(tc_session session, uint32_t time) {
    tc_hours hours = {.date = {1, 1, 1}, .has_pre_market = 1, .pre_market = session};
    return plain_is_open_at(hours, time);
}

tc_hours_result plain_trading_hours_new(uint32_t year, uint32_t month, uint32_t day, tc_session regular, uint32_t has_pre_market,
                                        tc_session pre_market, uint32_t has_after_hours, tc_session after_hours) {
    tc_hours hours = {{year, month, day}, has_pre_market, pre_market, regular, has_after_hours, after_hours, 0, 0};
    hours = tidy(hours);
    return hours_answer(error_of(hours, 0), hours);
}

tc_hours_result plain_with_early_close(tc_hours hours, uint32_t time) {
    uint32_t error;
    hours = tidy(hours);
    error = error_of(hours, time);
    if (error == 0 && time >= hours.regular.end) error = 4;
    hours.has_early_close = 1;
    hours.early_close = time;
    return hours_answer(error, hours);
}

tc_bool_result plain_is_early_close(tc_hours hours) {
    hours = tidy(hours);
    return bool_answer(error_of(hours, 0), hours.has_early_close == 1);
}

tc_time_result plain_market_close(tc_hours hours) {
    tc_time_result answer = {0, 0};
    hours = tidy(hours);
    answer.error = error_of(hours, 0);
    if (answer.error == 0) answer.seconds = hours.has_early_close ? hours.early_close : hours.regular.end;
    return answer;
}

tc_bool_result plain_is_open_at(tc_hours hours, uint32_t time) {
    uint32_t error;
    hours = tidy(hours);
    error = error_of(hours, time);
    return bool_answer(error, error == 0 && is_marked(hours, time));
}

static const tc_hours *usual_or_early(int row) { return &by_market[closes_early[row] ? US_EARLY : US_USUAL]; }

tc_hours_result plain_trading_hours(uint32_t market, uint32_t year, uint32_t month, uint32_t day) {
    tc_date date = {year, month, day};
    tc_hours_result answer = {.error = plain_error(market, date)};
    if (answer.error != 0) return answer;
    answer.hours = market >= LSE ? by_market[market] : *usual_or_early(plain_row_of(date));
    answer.hours.date = date;
    return answer;
}

/* Error 7 stands between the errors 8 and 5 of the date and its error 1 [reading-is-open]. */
tc_bool_result plain_is_open(uint32_t market, uint32_t year, uint32_t month, uint32_t day, uint32_t time) {
    tc_bool_result answer = plain_is_trading_day(market, year, month, day);
    if (answer.error == 8 || answer.error == 5) return answer;
    if (time >= SECONDS) return bool_answer(7, 0);
    if (answer.value == 1) answer.value = (uint32_t)is_marked(plain_trading_hours(market, year, month, day).hours, time);
    return answer;
}
