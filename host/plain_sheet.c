/* The month sheet of the plain calendar: its reader goes along a pattern byte by byte, its writer prints. */
#include "plain_calendar.h"

#include <stdio.h>
#include <string.h>

/* The text, with # for a number. */
static const char pattern[] = "market=#\nyear=#\nmonth=#\n";
enum { NUMBERS = 3, DIGITS = 9 };

/* How far the pattern has been matched, which number is next, and how many digits of it there are so far. */
typedef struct {
    const char *place;
    int number, digits;
    uint32_t values[NUMBERS];
} state;

/* Whether the byte can follow. A number ends with the first byte that is no digit; that byte is then compared with the pattern. */
static int takes(state *s, uint8_t byte) {
    if (*s->place == '#') {
        if (byte >= '0' && byte <= '9') {
            s->values[s->number] = s->values[s->number] * 10 + (uint32_t)(byte - '0');
            return ++s->digits <= DIGITS;
        }
        if (s->digits == 0) return 0;
        s->number++;
        s->digits = 0;
        s->place++;
    }
    return *s->place != '\0' && (uint8_t)*s->place++ == byte;
}

/* Whether the text is as in [sheet-input]: the whole of it can follow, and the whole pattern was needed. */
static int reads(state *s, const uint8_t *text, size_t length) {
    memset(s, 0, sizeof *s);
    s->place = pattern;
    for (size_t i = 0; i < length; i++)
        if (!takes(s, text[i])) return 0;
    return *s->place == '\0';
}

/* Prints the sheet of these numbers and days [sheet-output]. Answers how many bytes it has. */
static uint32_t print_sheet(char *sheet, const uint32_t *n, const uint8_t *days, uint32_t count) {
    int size = sprintf(sheet, "market=%lu\nyear=%lu\nmonth=%lu\ncount=%lu\ndays=", (unsigned long)n[0], (unsigned long)n[1],
                       (unsigned long)n[2], (unsigned long)count);
    for (uint32_t i = 0; i < count; i++) size += sprintf(sheet + size, i == 0 ? "%u" : ",%u", (unsigned)days[i]);
    size += sprintf(sheet + size, "\n");
    return (uint32_t)size;
}

tc_count_result plain_month_sheet(const uint8_t *text, size_t text_length, uint8_t *out, size_t out_length) {
    tc_count_result answer = {.error = 10};
    char sheet[256];
    uint8_t days[31];
    state s;

    if (!reads(&s, text, text_length)) return answer;
    answer = plain_trading_days_in_month(s.values[0], s.values[1], s.values[2], days, sizeof days);
    if (answer.error != 0) return answer;
    answer.count = print_sheet(sheet, s.values, days, answer.count);
    if (answer.count > out_length) {
        answer.error = 9;
        return answer;
    }
    memcpy(out, sheet, answer.count);
    return answer;
}
