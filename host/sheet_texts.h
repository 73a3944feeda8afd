/* Texts for the month sheet: those of every month, those with numbers at the limits, and those that are nearly of the form. */
#ifndef SHEET_TEXTS_H
#define SHEET_TEXTS_H

#include <stddef.h>
#include <stdint.h>

/* Compares what is answered on a text of this length. Some texts are cut short: then size is larger, and the other bytes follow. */
typedef void text_asker(const uint8_t *text, size_t size, size_t length);

/* The text of [sheet-output], and the sheet there; a text of the form that is as long as one can be. */
extern const char example_text[], example_sheet[], longest_text[];

/* The text of a market, a year and a month, each of at least so many digits. Answers its length. */
size_t text_of(char *text, int digits, uint32_t market, uint32_t year, uint32_t month);

/* Every month of the five markets in 2020 to 2030. */
#define MONTHS (5ul * 11 * 12)
void each_month(void (*ask)(uint32_t market, uint32_t year, uint32_t month));

/* Errors 10, 8, 1 and 2, alone and together: every three of the numbers at and past the limits. */
enum { VALUES = 30 };
#define VALUE_TEXTS (1ul * VALUES * VALUES * VALUES)
void value_texts(text_asker *ask);

/* Texts of the form with one or two changes, nearly all of them error 10. How many:
 * - 517 for each byte of a text: 256 values in its place, 256 before it, and five other changes; 256 for each text: the values
 *   after its last byte; the last byte is not exchanged with a next one, but there is the whole text too;
 * - for each of the 36 pairs of the nine parts of the example, any two parts in their place; and any part before or after it;
 * - 121 = 1 + 3 + 9 + 27 + 81 rows of up to four of three lines;
 * - three numbers of no digit to twelve, in two ways;
 * - 40: two texts with more behind them, in two ways, on ten lengths. */
enum { FORMS = 5, BYTES_OF_FORMS = 28 + 24 + 48 + 28 + 32, PARTS = 43, ROWS_OF_LINES = 121 };
#define DAMAGED_TEXTS \
    (517ul * BYTES_OF_FORMS + 256ul * FORMS + 36ul * PARTS * PARTS + 2ul * PARTS + ROWS_OF_LINES + 2ul * 13 * 13 * 13 + 40)
void damaged_texts(text_asker *ask);

/* Texts that are drawn: bytes, parts, several changes, numbers around those that have a sheet. */
enum { DRAWN_OF_KIND = 10000 };
#define DRAWN_TEXTS (4ul * DRAWN_OF_KIND)
void drawn_texts(text_asker *ask);

#endif
