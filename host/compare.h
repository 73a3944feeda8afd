/* What the tests share: comparing answers and counting them, and the dates that calls are asked about. */
#ifndef COMPARE_H
#define COMPARE_H

#include "trading_calendar.h"

#include <stddef.h>

#define LENGTH(list) (sizeof(list) / sizeof(list)[0])

/* The numbers that a call is given, or the fields of its answer, in order: at most a number and the 13 fields of hours. */
typedef struct {
    int count;
    uint32_t values[14];
} numbers;

numbers of_date(tc_optional_date answer);
numbers of_bool(tc_bool_result answer);
numbers of_trading_day(tc_trading_day_result answer);
numbers of_count(tc_count_result answer);
numbers of_slice(tc_slice_result answer);
numbers of_optional_date_result(tc_optional_date_result answer);
numbers of_time(tc_time_result answer);
numbers of_session(tc_session_result answer);
numbers of_hours(tc_hours_result answer);

/* The fields of a record after a first number, and the record of these fields. */
enum { FIELDS = 13 };
numbers of_record(uint32_t first, tc_hours hours);
tc_hours record_of(const uint32_t *fields);

/* A call, or a law of several calls, by its name, how many comparisons of it are meant, so that a loop cut short is seen, and how
 * many were made and differ. */
typedef struct {
    const char *name;
    unsigned long meant, compared, differ;
} tally;

/* Counts, and prints the first that differ. Answers 1 if it printed this one, else 0. */
int compare(tally *call, numbers input, numbers answer, numbers expected);

/* Prints a line for each call. 0 if no answer differs and all were compared that are meant, else 1. */
int finish(const tally *calls, int count);

/* A case by its name, none if that is NULL, how many comparisons have to meet it at least, and how many did. */
typedef struct {
    const char *name;
    unsigned long often, met;
} test_case;

/* Prints a line for the cases. 0 if each was met as often as it has to be, else 1. */
int finish_cases(const test_case *cases, size_t count);

/* The next number of a sequence that is not at 0; and that of a fixed one, the same in every run. */
uint32_t draw(uint32_t *sequence);
uint32_t drawn(void);

/* Compares what a call answers on a date. */
typedef void asker(uint32_t market, uint32_t year, uint32_t month, uint32_t day);

/* Every day of the year, and the numbers around months and days that are no date: 14 months of 33 days. */
void ask_year(asker *ask, uint32_t market, uint32_t year);

/* Five markets and three codes of none; the same for each, in each year from the first to the last. */
enum { CODES = 8 };
extern const uint32_t codes[CODES];
void ask_years(asker *ask, uint32_t first, uint32_t last);

/* Numbers at and past every limit of markets and dates; and every code and date that can be made of them. */
enum { LIMITS = 23 };
extern const uint32_t limits[LIMITS];
void ask_limits(asker *ask);

/* Compares what a call answers on a date range: a market or a set of them, the start and the end, as numbers in this order. */
typedef void range_asker(numbers range);
enum { RANGE_NUMBERS = 7 };
numbers range_of(uint32_t market, tc_date start, tc_date end);

/* Every two dates around the ends of 2020 to 2030 and far outside, leap days, a weekend, and numbers that are no date, for a market
 * or a set; and for each code. */
#define EDGE_PAIRS (40ul * 40)
#define EDGE_RANGES (8ul * EDGE_PAIRS)
void ask_edges_of(range_asker *ask, uint32_t market);
void ask_edges(range_asker *ask);

/* A date of 2019 to 2031, or one like 31 February; two of them; and two with some of the numbers at and past the limits. */
tc_date drawn_date(void);
numbers drawn_range(void);
numbers drawn_limits(void);

#endif
