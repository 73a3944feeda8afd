/* Every call of the library, and of the plain calendar, in one form, from numbers and lists to numbers; and numbers to call on. */
#ifndef CALLS_H
#define CALLS_H

#include "compare.h"

/* What a call is given: its numbers in order, and the lists that it takes, of so many entries. The numbers of a month sheet stand
 * in its text. */
typedef struct {
    uint32_t values[14];
    const uint8_t *text;
    size_t text_length;
    void *out;
    size_t out_length;
} input;

/* A call by its name, and a letter for each of its numbers. The plain calendar answers faster if the first numbers, so
 * many, stay the same from call to call. An entry of the list that it writes to has so many bytes, 0 if it takes none. */
typedef struct {
    const char *name, *letters;
    int same, takes_text;
    size_t entry_size;
    numbers (*library)(const input *in);
    numbers (*plain)(const input *in);
} call;

enum { CALLS = 23 };
extern const call calls[CALLS];

/* Draws the numbers of a call from a place on: most of them valid, some at their limits, some at any limit, some any numbers. */
void draw_values(input *in, const call *of, int place, uint32_t *sequence);

/* Whether the answer of a call, with its own fields alone, is an error, or no date where a call has no errors. */
int is_refused(numbers answer);

#endif
