/* Compares the month sheet with the plain calendar and with the examples of docs/SCOPE.md: the sheets of every month, every error,
 * and texts that are nearly of the form; and, by the library alone, with itself and with the trading days of the month. Prints a
 * line for the call and for each law; fails if any answer differs or not all were compared. */
#include "compare.h"
#include "plain_calendar.h"
#include "sheet_texts.h"
#include "trading_calendar.h"

#include <stdio.h>
#include <stdlib.h>
#include <string.h>

enum call { SHEET, AGAIN, AS_LISTED, NO_ZEROS, UP_TO_104, CALLS };

/* The text and the buffer, of any length up to the longest, lie between other bytes. A sheet takes less than ROOM. */
enum { BESIDE = 64, LONGEST = 65536 + 48, AREA = BESIDE + LONGEST + BESIDE, ROOM = 200 };

/* Any two errors, the first of which is the answer; the number of bytes with 9; the dates of error 1 [month-error-date]. */
static const struct {
    const char *text;
    size_t room;
    numbers expected;
} answers[] = {
    {"market=4\nyear=2022\nmonth=12\n", 98, {5, {0, 98}}},
    {"market=4\nyear=2022\nmonth=12\n", 97, {5, {9, 98}}},
    {"market=5\nyear=2022\nmonth=12", ROOM, {5, {10}}},
    {"market=4\nyear=2019\nmonth=12", ROOM, {5, {10}}},
    {"market=4\nyear=2022\nmonth=13", ROOM, {5, {10}}},
    {"market=4\nyear=2022\nmonth=12", 0, {5, {10}}},
    {"market=5\nyear=2019\nmonth=12\n", ROOM, {5, {8}}},
    {"market=5\nyear=2022\nmonth=13\n", ROOM, {5, {8}}},
    {"market=5\nyear=2022\nmonth=12\n", 0, {5, {8}}},
    {"market=4\nyear=2019\nmonth=13\n", ROOM, {5, {1, 0, 1970, 1, 1}}},
    {"market=4\nyear=2019\nmonth=12\n", 0, {5, {1, 0, 2019, 12, 1}}},
    {"market=4\nyear=2022\nmonth=0\n", 0, {5, {2}}},
    {"market=4\nyear=1\nmonth=1\n", ROOM, {5, {1, 0, 1, 1, 1}}},
    {"market=4\nyear=9999\nmonth=000000012\n", ROOM, {5, {1, 0, 9999, 12, 1}}},
    {"market=4\nyear=0\nmonth=12\n", ROOM, {5, {1, 0, 1970, 1, 1}}},
    {"market=4\nyear=10000\nmonth=12\n", ROOM, {5, {1, 0, 1970, 1, 1}}},
    {"market=4\nyear=999999999\nmonth=999999999\n", ROOM, {5, {1, 0, 1970, 1, 1}}},
};

/* The call and the laws, and how many comparisons the loops below make. A text is asked about with each fill. */
enum { FILLS = 4 };
static tally calls[CALLS] = {
    [SHEET] = {.name = "tc_month_sheet",
               .meant =
                   FILLS * (MONTHS * 2 * 6 + 12 * 207 + VALUE_TEXTS * 2 + DAMAGED_TEXTS + DRAWN_TEXTS * 2) + LENGTH(answers) + 1},
    [AGAIN] = {.name = "the first lines of a sheet, read again", .meant = MONTHS},
    [AS_LISTED] = {.name = "the days of a sheet, as listed", .meant = MONTHS},
    [NO_ZEROS] = {.name = "sheets without leading zeros", .meant = MONTHS},
    [UP_TO_104] = {.name = "sheets of up to 104 bytes", .meant = MONTHS},
};

static void show_text(const uint8_t *text, size_t length) {
    printf("  text: ");
    for (size_t i = 0; i < length && i < 100; i++)
        if (text[i] >= ' ' && text[i] <= '~')
            printf("%c", text[i]);
        else
            printf("\\x%02x", (unsigned)text[i]);
    printf("\n");
}

/* The fields of the answer, then the first place at which two areas differ, the byte there, and whether the text is as it was. */
static numbers of_sheet(tc_count_result answer, const uint8_t *area, size_t place, size_t size, int is_text_kept) {
    numbers list = of_count(answer);
    list.values[list.count++] = (uint32_t)place;
    list.values[list.count++] = place < size ? area[place] : 0;
    list.values[list.count++] = (uint32_t)is_text_kept;
    return list;
}

/* Both read the first bytes of the text, which is followed by its other bytes and then by the fill, and write into an area of the
 * fill. All bytes are compared, those beside the buffer too. */
static void sheet_with_fill(uint8_t fill, const uint8_t *text, size_t size, size_t length, size_t room) {
    static uint8_t given[AREA], area[AREA], plain_area[AREA];
    size_t whole = BESIDE + room + BESIDE, place = 0;
    numbers in = {3, {(uint32_t)length, (uint32_t)room, fill}};
    tc_count_result answer, expected;
    int is_text_kept;

    memset(given, fill, BESIDE + size + BESIDE);
    memcpy(given + BESIDE, text, size);
    memset(area, fill, whole);
    memset(plain_area, fill, whole);
    answer = tc_month_sheet(given + BESIDE, length, area + BESIDE, room);
    expected = plain_month_sheet(text, length, plain_area + BESIDE, room);
    is_text_kept = memcmp(given + BESIDE, text, size) == 0;
    while (place < whole && area[place] == plain_area[place]) place++;
    if (compare(&calls[SHEET], in, of_sheet(answer, area, place, whole, is_text_kept),
                of_sheet(expected, plain_area, place, whole, 1)))
        show_text(text, length);
}

/* With 0 or with 255 each byte that is written changes one of the areas; a line feed or a digit is what a text cut short lacks. */
static void sheet_within(const uint8_t *text, size_t size, size_t length, size_t room) {
    static const uint8_t fills[FILLS] = {0, UINT8_MAX, '\n', '1'};
    for (int i = 0; i < FILLS; i++) sheet_with_fill(fills[i], text, size, length, room);
}

static void sheet_of_string(const char *text, size_t room) {
    sheet_within((const uint8_t *)text, strlen(text), strlen(text), room);
}

/* On no bytes, one, one too few, just enough, one more, and more than enough. */
static void sheet_at_its_size(const char *text) {
    uint8_t bytes[ROOM];
    size_t size = plain_month_sheet((const uint8_t *)text, strlen(text), bytes, sizeof bytes).count;
    size_t rooms[] = {0, 1, size - 1, size, size + 1, ROOM};
    for (size_t i = 0; i < LENGTH(rooms); i++) sheet_of_string(text, rooms[i]);
}

/* With the fewest digits and with the most. */
static void sheets_of_month(uint32_t market, uint32_t year, uint32_t month) {
    char text[64];
    text_of(text, 1, market, year, month);
    sheet_at_its_size(text);
    text_of(text, 9, market, year, month);
    sheet_at_its_size(text);
}

static void sheet_on_small_rooms(const char *text) {
    for (size_t room = 0; room <= ROOM; room++) sheet_of_string(text, room);
}

/* Those around lengths whose low byte, or low half, is 0. */
static void sheet_on_large_rooms(const char *text) {
    static const size_t rooms[] = {255, 256, 257, 65535, 65536, 65537};
    for (size_t i = 0; i < LENGTH(rooms); i++) sheet_of_string(text, rooms[i]);
}

static void sheet_on_all_rooms(uint32_t market, uint32_t year, uint32_t month) {
    char text[64];
    text_of(text, 1, market, year, month);
    sheet_on_small_rooms(text);
    sheet_on_large_rooms(text);
}

static void all_sheets(void) {
    each_month(sheets_of_month);
    for (uint32_t month = 1; month <= 12; month++) sheet_on_all_rooms(month % 5, 2020 + month % 11, month);
}

static void with_room(const uint8_t *text, size_t size, size_t length) { sheet_within(text, size, length, ROOM); }

/* Every other error comes before 9. */
static void without_room(const uint8_t *text, size_t size, size_t length) {
    sheet_within(text, size, length, 0);
    with_room(text, size, length);
}

static void with_drawn_room(const uint8_t *text, size_t size, size_t length) {
    sheet_within(text, size, length, drawn() % 130);
    with_room(text, size, length);
}

static tc_count_result ask(const char *text, uint8_t *out, size_t room) {
    return tc_month_sheet((const uint8_t *)text, strlen(text), out, room);
}

/* The sheet in [sheet-output] has 98 bytes. */
static void examples(void) {
    uint8_t bytes[ROOM];
    numbers in = {0, {0}}, answered, expected = {6, {0, 98, 0, 0, 0, 1}};
    for (size_t i = 0; i < LENGTH(answers); i++)
        if (compare(&calls[SHEET], in, of_count(ask(answers[i].text, bytes, answers[i].room)), answers[i].expected))
            show_text((const uint8_t *)answers[i].text, strlen(answers[i].text));
    memset(bytes, 0, sizeof bytes);
    answered = of_count(ask(example_text, bytes, sizeof bytes));
    answered.values[answered.count++] = memcmp(bytes, example_sheet, strlen(example_sheet)) == 0;
    compare(&calls[SHEET], in, answered, expected);
}

/* The sheet of a month as a string, on just the bytes that the header says are enough. */
static tc_count_result string_of(char *sheet, uint32_t market, uint32_t year, uint32_t month) {
    char text[64];
    tc_count_result answer;
    text_of(text, 1, market, year, month);
    answer = ask(text, (uint8_t *)sheet, TC_SHEET_BUFFER_LENGTH);
    sheet[answer.error == 0 && answer.count <= TC_SHEET_BUFFER_LENGTH ? answer.count : 0] = '\0';
    return answer;
}

/* The first three lines are a text of the form, and its sheet is the same. */
static void again(numbers in, const char *sheet) {
    const char *fourth = strstr(sheet, "count=");
    uint8_t bytes[ROOM] = {0};
    numbers answered = {3, {0}}, expected = {3, {0, (uint32_t)strlen(sheet), 1}};
    tc_count_result answer = tc_month_sheet((const uint8_t *)sheet, fourth == NULL ? 0 : (size_t)(fourth - sheet), bytes, ROOM);
    answered.values[0] = answer.error;
    answered.values[1] = answer.count;
    answered.values[2] = memcmp(bytes, sheet, strlen(sheet)) == 0;
    compare(&calls[AGAIN], in, answered, expected);
}

/* The numbers of a list of days, up to 31 of them, each followed by one byte. Answers how many there are. */
static uint32_t read_days(const char *list, uint8_t *days) {
    uint32_t count = 0;
    while (*list != '\0' && count < 31) {
        char *end;
        days[count++] = (uint8_t)strtoul(list, &end, 10);
        list = end + (*end != '\0');
    }
    return count;
}

/* The numbers of the sheet are those given, how many trading days the month has, and these. */
static void as_listed(numbers in, const char *sheet) {
    unsigned long market = 0, year = 0, month = 0, days = 0;
    uint8_t listed[31], read[31] = {0};
    uint32_t count = tc_trading_days_in_month(in.values[0], in.values[1], in.values[2], listed, sizeof listed).count;
    numbers answered = {6, {0}}, expected = {6, {in.values[0], in.values[1], in.values[2], count, count, 1}};
    int place = 0;

    sscanf(sheet, "market=%lu\nyear=%lu\nmonth=%lu\ncount=%lu\ndays=%n", &market, &year, &month, &days, &place);
    answered.values[0] = (uint32_t)market;
    answered.values[1] = (uint32_t)year;
    answered.values[2] = (uint32_t)month;
    answered.values[3] = (uint32_t)days;
    answered.values[4] = read_days(sheet + place, read);
    answered.values[5] = memcmp(read, listed, count) == 0;
    compare(&calls[AS_LISTED], in, answered, expected);
}

/* How many numbers of two digits or more begin with 0. */
static void no_zeros(numbers in, const char *sheet) {
    numbers zeros = {1, {0}}, none = {1, {0}};
    for (const char *c = sheet; *c != '\0'; c++)
        zeros.values[0] += c > sheet && c[0] == '0' && strchr("=,", c[-1]) != NULL && c[1] >= '0' && c[1] <= '9';
    compare(&calls[NO_ZEROS], in, zeros, none);
}

static void laws_of_month(uint32_t market, uint32_t year, uint32_t month) {
    char sheet[TC_SHEET_BUFFER_LENGTH + 1];
    numbers in = {3, {market, year, month}}, none = {1, {0}};
    numbers error = {1, {string_of(sheet, market, year, month).error}};
    compare(&calls[UP_TO_104], in, error, none);
    again(in, sheet);
    as_listed(in, sheet);
    no_zeros(in, sheet);
}

int main(void) {
    plain_fill();
    all_sheets();
    value_texts(without_room);
    damaged_texts(with_room);
    drawn_texts(with_drawn_room);
    examples();
    each_month(laws_of_month);
    return finish(calls, CALLS);
}
