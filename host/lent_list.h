/* Lists that are lent to a call, so that a byte which it reads or writes beside them is seen: the process is stopped at pages that
 * may not be touched, and other bytes are compared with what they were. */
#ifndef LENT_LIST_H
#define LENT_LIST_H

#include <stddef.h>
#include <stdint.h>

/* The bytes of the longest list, and how many beside a list are compared. */
enum { LONGEST_LENT = 4 * 65537, BESIDE_LENT = 1024 };

/* The list, and all bytes that are compared, it among them; then what is kept from list to list. */
typedef struct {
    uint8_t *list, *bytes;
    size_t size;
    uint8_t *pages, before[LONGEST_LENT + BESIDE_LENT], noise[LONGEST_LENT + 2 * BESIDE_LENT], *heap;
    size_t pages_size, page_size;
} lent;

/* Maps pages between two that may not be touched. Stops the process if it cannot. */
void open_lent(lent *l, uint32_t *sequence);
void close_lent(lent *l);

/* A list of so many entries of so many bytes, aligned to these, of this content or, if that is null, of drawn bytes. As is drawn
 * too, it begins where the pages do, ends where the pages do, lies somewhere between drawn bytes, or is the whole of a block of the
 * heap. */
void lend(lent *l, const void *content, size_t entry_size, size_t length, uint32_t *sequence);

/* Whether all bytes are as they were but for the first of the list, so many. */
int is_kept(const lent *l, size_t written);

/* Has to be called after each lend. */
void take_back(lent *l);

#endif
