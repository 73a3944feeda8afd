/* Every call of the library, and of the plain calendar, in one form, and numbers to call with. */
#include "calls.h"

#include "plain_calendar.h"

/* Both functions of a call, from its arguments. Where the call leaves its day open, the plain one takes the library's day too, so
 * that any right one is the same. */
#define LIBRARY(name, of, ...) static numbers library_##name(const input *in) { return of(tc_##name(__VA_ARGS__)); }
#define PLAIN(name, of, ...) static numbers plain_##name##_of(const input *in) { return of(plain_##name(__VA_ARGS__)); }
#define BOTH(name, of, ...) LIBRARY(name, of, __VA_ARGS__) PLAIN(name, of, __VA_ARGS__)

/* The number at a place, the date and the session from a place on; the record; a set and a date range. */
#define N(place) in->values[place]
#define DATE(place) N(place), N(place + 1), N(place + 2)
#define SESSION(place) session_at(in, place)
#define RECORD record_of(in->values)
#define RANGE_OF_SET (uint8_t)N(0), DATE(1), DATE(4)

static tc_session session_at(const input *in, int place) {
    tc_session session = {N(place), N(place + 1)};
    return session;
}

BOTH(nth_weekday_of_month, of_date, DATE(0), (int32_t)N(3))
BOTH(last_weekday_of_month, of_date, DATE(0))
BOTH(calculate_easter, of_date, N(0))
BOTH(calculate_good_friday, of_date, N(0))
BOTH(calculate_easter_monday, of_date, N(0))
BOTH(is_trading_day, of_bool, N(0), DATE(1))
BOTH(is_holiday, of_bool, N(0), DATE(1))
BOTH(next_trading_day, of_trading_day, N(0), DATE(1))
BOTH(previous_trading_day, of_trading_day, N(0), DATE(1))
BOTH(trading_days_in_month, of_count, N(0), N(1), N(2), in->out, in->out_length)
BOTH(count_trading_days, of_count, N(0), DATE(1), DATE(4))
BOTH(slice_order, of_slice, N(0), N(1), DATE(2), DATE(5), in->out, in->out_length)
LIBRARY(common_trading_day, of_optional_date_result, RANGE_OF_SET)
PLAIN(common_trading_day, of_optional_date_result, RANGE_OF_SET, tc_common_trading_day(RANGE_OF_SET).date)
BOTH(trading_hours, of_hours, N(0), DATE(1))
BOTH(is_open, of_bool, N(0), DATE(1), N(4))
BOTH(session_new, of_session, N(0), N(1))
BOTH(session_contains, of_bool, SESSION(0), N(2))
BOTH(trading_hours_new, of_hours, DATE(0), SESSION(3), N(5), SESSION(6), N(8), SESSION(9))
BOTH(with_early_close, of_hours, RECORD, N(FIELDS))
BOTH(is_early_close, of_bool, RECORD)
BOTH(market_close, of_time, RECORD)
BOTH(is_open_at, of_bool, RECORD, N(FIELDS))
BOTH(month_sheet, of_count, in->text, in->text_length, in->out, in->out_length)

#define ROW(name, letters, same, takes_text, entry_size) \
    {"tc_" #name, letters, same, takes_text, entry_size, library_##name, plain_##name##_of}

const call calls[CALLS] = {
    ROW(nth_weekday_of_month, "ymwn", 0, 0, 0),
    ROW(last_weekday_of_month, "ymw", 0, 0, 0),
    ROW(calculate_easter, "y", 0, 0, 0),
    ROW(calculate_good_friday, "y", 0, 0, 0),
    ROW(calculate_easter_monday, "y", 0, 0, 0),
    ROW(is_trading_day, "MYmd", 0, 0, 0),
    ROW(is_holiday, "MYmd", 0, 0, 0),
    ROW(next_trading_day, "Mymd", 0, 0, 0),
    ROW(previous_trading_day, "Mymd", 0, 0, 0),
    ROW(trading_days_in_month, "MYm", 0, 0, 1),
    ROW(count_trading_days, "MYmdYmd", 0, 0, 0),
    ROW(slice_order, "MqYmdYmd", 0, 0, 4),
    ROW(common_trading_day, "SYmdYmd", 0, 0, 0),
    ROW(trading_hours, "Mymd", 0, 0, 0),
    ROW(is_open, "MYmdt", 4, 0, 0),
    ROW(session_new, "tt", 0, 0, 0),
    ROW(session_contains, "ttt", 2, 0, 0),
    ROW(trading_hours_new, "ymdtthtthtt", 0, 0, 0),
    ROW(with_early_close, "ymdhtttthtthtt", 0, 0, 0),
    ROW(is_early_close, "ymdhtttthttht", 0, 0, 0),
    ROW(market_close, "ymdhtttthttht", 0, 0, 0),
    ROW(is_open_at, "ymdhtttthtthtt", FIELDS, 0, 0),
    ROW(month_sheet, "MYm", 0, 1, 1),
};

/* Which numbers of a letter are mostly drawn: markets, years that have trading days, years, months, days, weekdays, which of these in a
 * month and at all, counted from either end, whether a part of a record is present, times, quantities, and sets of markets. */
static const struct {
    uint32_t least, most;
} ranges[] = {
    ['M'] = {0, 4},   ['Y'] = {2020, 2030}, ['y'] = {1, 9999}, ['m'] = {1, 12},    ['d'] = {1, 31},         ['w'] = {0, 6},
    ['n'] = {-6u, 6}, ['N'] = {-255u, 255}, ['h'] = {0, 1},    ['t'] = {0, 86399}, ['q'] = {0, UINT32_MAX}, ['S'] = {1, 31},
};

/* A signed number is drawn as the unsigned one of its 32 bits, which wraps around. */
static uint32_t draw_value(char letter, uint32_t *sequence) {
    uint32_t least = ranges[(int)letter].least, most = ranges[(int)letter].most;
    uint32_t choice = draw(sequence) % 32, number = draw(sequence);
    switch (choice) {
    case 0: return number;
    case 1: return limits[number % LIMITS];
    case 2: return least - 2 + number % 4;
    case 3: return most - 1 + number % 4;
    default: return least + (uint32_t)(number % ((uint64_t)(most - least) + 1));
    }
}

/* One n in four is not of a month alone. */
void draw_values(input *in, const call *of, int place, uint32_t *sequence) {
    for (; of->letters[place] != '\0'; place++) {
        char letter = of->letters[place];
        if (letter == 'n' && draw(sequence) % 4 == 0) letter = 'N';
        in->values[place] = draw_value(letter, sequence);
    }
}

/* The answers of four fields, and no others, begin with found. */
int is_refused(numbers answer) { return answer.count == 4 ? answer.values[0] == 0 : answer.values[0] != 0; }
