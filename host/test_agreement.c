/* [agreement] of docs/SCOPE.md, by the calls alone and no second calendar: on every range that is tried, tc_is_trading_day day by
 * day, next and previous from answer to answer, the months, the count and the counts of parts have the same trading days. Which
 * days there are is counted out here. Prints a line for each law; fails if any answer differs or not all were compared. */
#include "compare.h"
#include "trading_calendar.h"

enum law { DAY, FORWARD, BACKWARD, NEIGHBOUR, BY_MONTHS, MONTH, COUNT, PART, ALL_PARTS, LAWS };

/* The days of 2020 to 2030, with some on both sides; the index of the first and of the last of those years. */
enum { ANSWERED = 11 * 365 + 3, BESIDE = 12, DAYS = BESIDE + ANSWERED + BESIDE, FIRST = BESIDE, LAST = BESIDE + ANSWERED - 1 };

/* Ranges of each market that are drawn: of any length, and of up to SHORT days. */
enum { MARKETS = 5, DRAWN = 1000, DRAWN_SHORT = 3000, SHORT = 62 };
#define RANGES (5ul * (1 + ANSWERED + DRAWN + DRAWN_SHORT))

/* The laws, and how many comparisons are meant. Where that depends on the trading days, the months or the split dates, they are
 * added for each range. */
static tally laws[LAWS] = {
    [DAY] = {.name = "error 1 outside 2020 to 2030", .meant = 5ul * DAYS},
    [FORWARD] = {.name = "[agreement-forward]", .meant = RANGES},
    [BACKWARD] = {.name = "[agreement-backward]", .meant = RANGES},
    [NEIGHBOUR] = {.name = "[agreement-call]"},
    [BY_MONTHS] = {.name = "[agreement-months]", .meant = RANGES},
    [MONTH] = {.name = "month calls"},
    [COUNT] = {.name = "[agreement-count]", .meant = RANGES},
    [PART] = {.name = "counts of parts"},
    [ALL_PARTS] = {.name = "[agreement-parts]", .meant = RANGES * 2},
};

/* The days in order, and whether the market that is asked trades on them. */
static tc_date days[DAYS];
static int trades[DAYS];

/* Days of a range, by their indices. */
typedef struct {
    int count, items[ANSWERED];
} list;

/* In the years of these days. */
static uint32_t month_length(uint32_t year, uint32_t month) {
    static const uint32_t lengths[] = {31, 28, 31, 30, 31, 30, 31, 31, 30, 31, 30, 31};
    return month == 2 && year % 4 == 0 ? 29 : lengths[month - 1];
}

static void fill_days(void) {
    tc_date date = {2019, 12, 32 - BESIDE};
    for (int i = 0; i < DAYS; i++) {
        days[i] = date;
        date.day++;
        if (date.day > month_length(date.year, date.month)) {
            date.day = 1;
            date.month++;
        }
        if (date.month > 12) {
            date.month = 1;
            date.year++;
        }
    }
}

static int is_same(tc_date a, tc_date b) { return a.year == b.year && a.month == b.month && a.day == b.day; }

/* One of tc_next_trading_day and tc_previous_trading_day. */
typedef tc_trading_day_result neighbour(uint32_t market, uint32_t year, uint32_t month, uint32_t day);

static tc_trading_day_result neighbour_of(neighbour *call, uint32_t market, int index) {
    return call(market, days[index].year, days[index].month, days[index].day);
}

/* In other years tc_is_trading_day gives error 1; there the day trades if it is the neighbour of the day beyond it. The first and
 * the last day of the table have no day beyond them and count as closed; no call that is made reaches them. */
static int trades_beside(uint32_t market, int index) {
    if (index == 0 || index == DAYS - 1) return 0;
    if (index < FIRST) return is_same(neighbour_of(tc_next_trading_day, market, index - 1).date, days[index]);
    return is_same(neighbour_of(tc_previous_trading_day, market, index + 1).date, days[index]);
}

static void fill_trades(uint32_t market) {
    for (int i = 0; i < DAYS; i++) {
        tc_bool_result answer = tc_is_trading_day(market, days[i].year, days[i].month, days[i].day);
        numbers in = {4, {market, days[i].year, days[i].month, days[i].day}};
        numbers error = {1, {answer.error}}, expected = {1, {FIRST <= i && i <= LAST ? 0 : 1}};
        compare(&laws[DAY], in, error, expected);
        trades[i] = answer.error == 0 ? answer.value == 1 : trades_beside(market, i);
    }
}

/* Two lists, by their lengths, the first place at which they differ, and the day there. */
static void compare_lists(tally *law, numbers in, const list *answer, const list *expected) {
    const list *both[] = {answer, expected};
    numbers found[2];
    int place = 0;

    while (place < answer->count && place < expected->count && answer->items[place] == expected->items[place]) place++;
    for (int i = 0; i < 2; i++) {
        int item = place < both[i]->count ? both[i]->items[place] : 0;
        numbers at = {5, {(uint32_t)both[i]->count, (uint32_t)place, days[item].year, days[item].month, days[item].day}};
        found[i] = at;
    }
    compare(law, in, found[0], found[1]);
}

/* [agreement-range] */
static void list_days(list *out, int first, int last) {
    out->count = 0;
    for (int i = first; i <= last; i++)
        if (trades[i]) out->items[out->count++] = i;
}

/* The index of the answer on a day, or -1. [agreement-call]: at most ten days are between, none of them trades, and the distance is
 * one more than their number. [agreement-no-error]: there is no error. */
static int next_index(neighbour *call, int direction, uint32_t market, int from) {
    tc_trading_day_result answer = neighbour_of(call, market, from);
    numbers in = {4, {market, days[from].year, days[from].month, days[from].day}};
    uint32_t between = 0, trading = 0;
    int i = from + direction;

    for (; 0 <= i && i < DAYS && !is_same(days[i], answer.date); i += direction) {
        between++;
        trading += (uint32_t)trades[i];
    }
    if (i < 0 || DAYS <= i) i = -1;
    numbers answered = {5, {answer.error, answer.distance, between, trading, i >= 0}};
    numbers expected = {5, {0, between + 1, between < 10 ? between : 10, 0, 1}};
    compare(&laws[NEIGHBOUR], in, answered, expected);
    return i;
}

/* From answer to answer, until one is past the range. */
static void traverse(list *out, neighbour *call, int direction, uint32_t market, int from, int first, int last) {
    int i = next_index(call, direction, market, from);
    out->count = 0;
    while (first <= i && i <= last) {
        out->items[out->count++] = i;
        i = next_index(call, direction, market, i);
    }
}

static void reverse(list *out) {
    for (int i = 0, j = out->count - 1; i < j; i++, j--) {
        int item = out->items[i];
        out->items[i] = out->items[j];
        out->items[j] = item;
    }
}

static void by_neighbours(numbers in, const list *expected, uint32_t market, int first, int last) {
    static list found;
    laws[NEIGHBOUR].meant += 2 * ((unsigned long)expected->count + 1);
    traverse(&found, tc_next_trading_day, 1, market, first - 1, first, last);
    compare_lists(&laws[FORWARD], in, &found, expected);
    traverse(&found, tc_previous_trading_day, -1, market, last + 1, first, last);
    reverse(&found);
    compare_lists(&laws[BACKWARD], in, &found, expected);
}

/* The buffer of a month call, of up to ROOM bytes, between others. */
enum { ROOM = 40, SIDE = 8, AREA = SIDE + ROOM + SIDE };
static uint8_t area[AREA];

/* A month call on a buffer of this length, of drawn bytes. Adds how many bytes beside the answer changed. */
static tc_count_result month_call(uint32_t market, tc_date date, uint32_t length, uint32_t *changed) {
    uint8_t before[AREA];
    tc_count_result answer;
    uint32_t answered;

    for (int i = 0; i < AREA; i++) before[i] = area[i] = (uint8_t)drawn();
    answer = tc_trading_days_in_month(market, date.year, date.month, area + SIDE, length);
    answered = answer.error == 0 ? answer.count : 0;
    for (uint32_t i = 0; i < AREA; i++)
        if (i < SIDE || i - SIDE >= answered) *changed += area[i] != before[i];
    return answer;
}

/* How many days of the month stand in the buffer: asked for with any length and, after error 9, with the one that it names. */
static uint32_t ask_month(uint32_t market, tc_date date) {
    uint32_t changed = 0, length = drawn() % (ROOM + 1);
    tc_count_result answer = month_call(market, date, length, &changed);
    numbers in = {4, {market, date.year, date.month, length}}, expected = {3, {0, 0, 1}};

    if (answer.error == 9 && answer.count > length && answer.count <= ROOM) {
        length = answer.count;
        answer = month_call(market, date, length, &changed);
    }
    numbers answered = {3, {answer.error, changed, answer.count <= length}};
    compare(&laws[MONTH], in, answered, expected);
    return answer.error == 0 && answer.count <= length ? answer.count : 0;
}

/* The day of a month whose 1st has this index, or index 0 if the month has no such day. */
static int day_index(int month_start, uint32_t day) {
    tc_date date = days[month_start];
    return 1 <= day && day <= month_length(date.year, date.month) ? month_start + (int)day - 1 : 0;
}

/* The months of the range, joined and limited to it. A day that the month does not have is kept. */
static void by_months(numbers in, const list *expected, uint32_t market, int first, int last) {
    static list found;
    int start = first - (int)days[first].day + 1;

    laws[MONTH].meant += 12 * (days[last].year - days[first].year) + days[last].month + 1 - days[first].month;
    found.count = 0;
    for (; start <= last; start += (int)month_length(days[start].year, days[start].month)) {
        uint32_t count = ask_month(market, days[start]);
        for (uint32_t i = 0; i < count && found.count < ANSWERED; i++) {
            int index = day_index(start, area[SIDE + i]);
            if (index == 0 || (first <= index && index <= last)) found.items[found.count++] = index;
        }
    }
    compare_lists(&laws[BY_MONTHS], in, &found, expected);
}

/* The count from a day to a day, compared with that of the list. */
static tc_count_result count(tally *law, uint32_t market, int first, int last) {
    tc_date start = days[first], end = days[last];
    tc_count_result answer = tc_count_trading_days(market, start.year, start.month, start.day, end.year, end.month, end.day);
    numbers in = {7, {market, start.year, start.month, start.day, end.year, end.month, end.day}}, expected = {5, {0}};

    for (int i = first; i <= last; i++) expected.values[1] += (uint32_t)trades[i];
    compare(law, in, of_count(answer), expected);
    return answer;
}

/* [agreement-parts]: each split date is the first day of a part, and the part before it stops a day earlier. An empty part is from
 * a day to the day before. */
static void parts(numbers in, uint32_t whole, uint32_t market, int first, int last, const int *splits, int split_count) {
    numbers sum = {1, {0}}, expected = {1, {whole}};
    int start = first;

    laws[PART].meant += (unsigned long)split_count + 1;
    for (int i = 0; i < split_count; i++) {
        sum.values[0] += count(&laws[PART], market, start, splits[i] - 1).count;
        start = splits[i];
    }
    sum.values[0] += count(&laws[PART], market, start, last).count;
    compare(&laws[ALL_PARTS], in, sum, expected);
}

/* Up to MOST_SPLITS drawn days of the range, or the day after it, in order. */
enum { MOST_SPLITS = 6 };
static int drawn_splits(int *splits, int first, int last) {
    int split_count = (int)(drawn() % (MOST_SPLITS + 1));
    for (int i = 0; i < split_count; i++) {
        int split = first + (int)(drawn() % (uint32_t)(last - first + 2)), place = i;
        for (; place > 0 && splits[place - 1] > split; place--) splits[place] = splits[place - 1];
        splits[place] = split;
    }
    return split_count;
}

/* The split dates are drawn, and then twice each the first day of the range, a middle one, and the day after it. */
static void range(uint32_t market, int first, int last) {
    static list expected;
    const tc_date start = days[first], end = days[last];
    const int middle = first + (last - first) / 2, doubled[] = {first, first, middle, middle, last + 1, last + 1};
    int splits[MOST_SPLITS], split_count = drawn_splits(splits, first, last);
    numbers in = {7, {market, start.year, start.month, start.day, end.year, end.month, end.day}};
    uint32_t whole;

    list_days(&expected, first, last);
    by_neighbours(in, &expected, market, first, last);
    by_months(in, &expected, market, first, last);
    whole = count(&laws[COUNT], market, first, last).count;
    parts(in, whole, market, first, last, splits, split_count);
    parts(in, whole, market, first, last, doubled, LENGTH(doubled));
}

/* A number from the least to the most. */
static int drawn_from(int least, int most) { return least + (int)(drawn() % (uint32_t)(most - least + 1)); }

/* All of 2020 to 2030, each day alone, and drawn ranges. */
static void ranges(uint32_t market) {
    range(market, FIRST, LAST);
    for (int i = FIRST; i <= LAST; i++) range(market, i, i);
    for (int i = 0; i < DRAWN; i++) {
        int first = drawn_from(FIRST, LAST);
        range(market, first, drawn_from(first, LAST));
    }
    for (int i = 0; i < DRAWN_SHORT; i++) {
        int first = drawn_from(FIRST, LAST - SHORT + 1);
        range(market, first, drawn_from(first, first + SHORT - 1));
    }
}

int main(void) {
    fill_days();
    for (uint32_t market = 0; market < MARKETS; market++) {
        fill_trades(market);
        ranges(market);
    }
    return finish(laws, LAWS);
}
