/* Texts for the month sheet: texts of the form are made, and changed byte by byte, part by part and line by line. */
#include "sheet_texts.h"

#include "compare.h"

#include <stdio.h>
#include <string.h>

/* [sheet-output], [sheet-input] */
const char example_text[] = "market=4\nyear=2022\nmonth=12\n";
const char example_sheet[] = "market=4\nyear=2022\nmonth=12\ncount=21\n"
                             "days=1,2,5,6,7,8,9,12,13,14,15,16,19,20,21,22,23,27,28,29,30\n";
const char longest_text[] = "market=000000003\nyear=000002025\nmonth=000000005\n";

/* Texts of the form: the example, the shortest, the longest, one with three errors, one with a year past all dates. */
static const char *const forms[FORMS] = {
    example_text,
    "market=0\nyear=1\nmonth=0\n",
    longest_text,
    "market=5\nyear=2031\nmonth=13\n",
    "market=1\nyear=999999999\nmonth=7\n",
};

/* Numbers at and past every limit, also those that are markets, years or months again if only 8, 16 or 32 bits are kept. */
static const char *const values[VALUES] = {
    "0",     "1",     "2",     "4",     "5",     "11",        "12",         "13",         "255",        "256",
    "257",   "260",   "268",   "1970",  "2019",  "2020",      "2025",       "2030",       "2031",       "9999",
    "10000", "10001", "65540", "65548", "67561", "999999999", "1000000000", "4294967295", "4294967300", "4294969321",
};

/* The parts of the example in order, and the parts that are put in the place of two of them. */
enum { EXAMPLE_PARTS = 9 };
static const char *const example_parts[EXAMPLE_PARTS] = {"market=", "4", "\n", "year=", "2022", "\n", "month=", "12", "\n"};
static const char *const parts[PARTS] = {
    "market=", "year=", "month=", "Market=", "YEAR=", "month",        "month:",    "month =",    " year=",    "days=",      "=",
    "",        "0",     "4",      "12",      "2022",  "00004",        "+4",        "-4",         " 4",        "4 ",         "4.0",
    "0x4",     "4,",    "4\n",    "1e1",     "four",  "\xef\xbc\x94", "000000012", "0000000012", "999999999", "1000000000", "\n",
    "\r\n",    "\r",    "\n\r",   "\n\n",    " \n",   "\t\n",         "\v",        "\xc2\x85",   "\\n",       "\n# x\n",
};

static void ask_string(text_asker *ask, const char *text) { ask((const uint8_t *)text, strlen(text), strlen(text)); }

size_t text_of(char *text, int digits, uint32_t market, uint32_t year, uint32_t month) {
    return (size_t)sprintf(text, "market=%0*lu\nyear=%0*lu\nmonth=%0*lu\n", digits, (unsigned long)market, digits,
                           (unsigned long)year, digits, (unsigned long)month);
}

void each_month(void (*ask)(uint32_t market, uint32_t year, uint32_t month)) {
    for (uint32_t i = 0; i < MONTHS; i++) ask(i % 5, 2020 + i / 5 % 11, 1 + i / 55);
}

static void ask_numbers(text_asker *ask, const char *market, const char *year, const char *month) {
    char text[128];
    sprintf(text, "market=%s\nyear=%s\nmonth=%s\n", market, year, month);
    ask_string(ask, text);
}

void value_texts(text_asker *ask) {
    for (unsigned long i = 0; i < VALUE_TEXTS; i++)
        ask_numbers(ask, values[i / VALUES / VALUES], values[i / VALUES % VALUES], values[i % VALUES]);
}

/* The text with some bytes in the place of so many others. Answers its length. */
static size_t splice(uint8_t *made, const char *text, size_t place, size_t removed, const void *bytes, size_t added) {
    size_t length = strlen(text);
    memcpy(made, text, place);
    memcpy(made + place, bytes, added);
    memcpy(made + place + added, text + place + removed, length - place - removed);
    return length - removed + added;
}

static void ask_spliced(text_asker *ask, const char *text, size_t place, size_t removed, const void *bytes, size_t added) {
    uint8_t made[128];
    size_t length = splice(made, text, place, removed, bytes, added);
    ask(made, length, length);
}

/* Each byte value at a place, put over the byte there or, if none is removed, before it. */
static void damaged_by_values(text_asker *ask, const char *text, size_t place, size_t removed) {
    for (int value = 0; value <= UINT8_MAX; value++) {
        uint8_t byte = (uint8_t)value;
        ask_spliced(ask, text, place, removed, &byte, 1);
    }
}

/* Each byte value over a byte and before it; the byte left out, doubled, exchanged with the next; the suffix after it; the prefix
 * before it, with the other bytes behind it. */
static void damaged_byte(text_asker *ask, const char *text, size_t place) {
    const char *byte = &text[place];
    const char exchanged[] = {byte[1], byte[0]};
    damaged_by_values(ask, text, place, 1);
    damaged_by_values(ask, text, place, 0);
    ask_spliced(ask, text, place, 1, "", 0);
    ask_spliced(ask, text, place, 0, byte, 1);
    if (byte[1] != '\0') ask_spliced(ask, text, place, 2, exchanged, 2);
    ask_spliced(ask, text, 0, place + 1, "", 0);
    ask((const uint8_t *)text, strlen(text), place);
}

/* Each byte changed; each byte value after the last; the whole text. */
static void damaged_bytes(text_asker *ask, const char *text) {
    size_t length = strlen(text);
    for (size_t i = 0; i < length; i++) damaged_byte(ask, text, i);
    damaged_by_values(ask, text, length, 0);
    ask_string(ask, text);
}

/* The example with other parts in the place of two of its own. */
static void ask_with_parts(text_asker *ask, int a, const char *in_a, int b, const char *in_b) {
    char text[128] = "";
    for (int i = 0; i < EXAMPLE_PARTS; i++) strcat(text, i == a ? in_a : i == b ? in_b : example_parts[i]);
    ask_string(ask, text);
}

static void damaged_pair(text_asker *ask, int a, int b) {
    for (int order = 0; order < PARTS * PARTS; order++) ask_with_parts(ask, a, parts[order % PARTS], b, parts[order / PARTS]);
}

static void damaged_pairs(text_asker *ask) {
    for (int order = 0; order < EXAMPLE_PARTS * EXAMPLE_PARTS; order++) {
        int a = order % EXAMPLE_PARTS, b = order / EXAMPLE_PARTS;
        if (a < b) damaged_pair(ask, a, b);
    }
}

/* The example with a part before it, and with one after it. */
static void parts_beside(text_asker *ask) {
    for (int i = 0; i < PARTS; i++) {
        ask_spliced(ask, example_text, 0, 0, parts[i], strlen(parts[i]));
        ask_spliced(ask, example_text, strlen(example_text), 0, parts[i], strlen(parts[i]));
    }
}

/* The row of this number: row 0 has no line, and the rows 3 * n + 1 to 3 * n + 3 are a line each, followed by row n. */
static void ask_row(text_asker *ask, int row) {
    static const char *const lines[] = {"market=4\n", "year=2022\n", "month=12\n"};
    char text[64] = "";
    for (; row > 0; row = (row - 1) / 3) strcat(text, lines[(row - 1) % 3]);
    ask_string(ask, text);
}

/* No line to four of the three lines, in every order. */
static void damaged_lines(text_asker *ask) {
    for (int row = 0; row < ROWS_OF_LINES; row++) ask_row(ask, row);
}

/* No digit to twelve digits in each number, zeros or nines before its own. */
static void damaged_numbers(text_asker *ask) {
    static const char zeros[3][13] = {"000000000004", "000000002022", "000000000012"};
    static const char nines[3][13] = {"999999999994", "999999992022", "999999999912"};
    for (int order = 0; order < 13 * 13 * 13; order++) {
        int a = order % 13, b = order / 13 % 13, c = order / 13 / 13;
        ask_numbers(ask, &zeros[0][a], &zeros[1][b], &zeros[2][c]);
        ask_numbers(ask, &nines[0][a], &nines[1][b], &nines[2][c]);
    }
}

static void fill_with_copies(uint8_t *bytes, size_t size, const char *text, size_t length) {
    for (size_t i = 0; i < size; i++) bytes[i] = (uint8_t)text[i % length];
}

/* A text of the form with more behind it, line feeds or itself again and again; also on lengths whose low byte, or low half, is its
 * own length. */
static void too_long(text_asker *ask, const char *text) {
    static uint8_t line_feeds[65536 + 48], copies[sizeof line_feeds];
    size_t own = strlen(text);
    size_t lengths[] = {49, 64, 255, 256, 256 + own, 4096, 65535, 65536, 65537, 65536 + own};
    memset(line_feeds, '\n', sizeof line_feeds);
    memcpy(line_feeds, text, own);
    fill_with_copies(copies, sizeof copies, text, own);
    for (size_t i = 0; i < LENGTH(lengths); i++) {
        ask(line_feeds, lengths[i], lengths[i]);
        ask(copies, lengths[i], lengths[i]);
    }
}

void damaged_texts(text_asker *ask) {
    for (int i = 0; i < FORMS; i++) damaged_bytes(ask, forms[i]);
    damaged_pairs(ask);
    parts_beside(ask);
    damaged_lines(ask);
    damaged_numbers(ask);
    too_long(ask, example_text);
    too_long(ask, longest_text);
}

static void drawn_bytes(text_asker *ask) {
    uint8_t bytes[64];
    size_t length = drawn() % (sizeof bytes + 1);
    for (size_t i = 0; i < length; i++) bytes[i] = (uint8_t)(drawn() >> 8);
    ask(bytes, length, length);
}

static void drawn_parts(text_asker *ask) {
    char text[128] = "";
    for (uint32_t count = drawn() % 12; count > 0; count--) strcat(text, parts[drawn() % PARTS]);
    ask_string(ask, text);
}

/* A text of the form with one to three bytes of such texts put over or between its own. */
static void drawn_damage(text_asker *ask) {
    static const char letters[] = "aehkmnorty=0123456789\n";
    char text[64];
    strcpy(text, forms[drawn() % FORMS]);
    for (uint32_t count = 1 + drawn() % 3; count > 0; count--) {
        uint8_t made[64];
        const char *letter = &letters[drawn() % (sizeof letters - 1)];
        size_t place = drawn() % strlen(text), length = splice(made, text, place, drawn() % 2, letter, 1);
        memcpy(text, made, length);
        text[length] = '\0';
    }
    ask_string(ask, text);
}

/* The number, with so many leading zeros that it has up to ten digits. */
static void print_padded(char *text, uint32_t number) { sprintf(text, "%0*lu", 1 + (int)(drawn() % 10), (unsigned long)number); }

/* Numbers in and around those that have a sheet. */
static void drawn_numbers(text_asker *ask) {
    char market[16], year[16], month[16];
    print_padded(market, drawn() % 6);
    print_padded(year, 2018 + drawn() % 15);
    print_padded(month, drawn() % 14);
    ask_numbers(ask, market, year, month);
}

void drawn_texts(text_asker *ask) {
    for (int i = 0; i < DRAWN_OF_KIND; i++) {
        drawn_bytes(ask);
        drawn_parts(ask);
        drawn_damage(ask);
        drawn_numbers(ask);
    }
}
