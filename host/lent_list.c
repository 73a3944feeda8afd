/* Lists that are lent to a call, between guard pages, between drawn bytes, and on the heap. */
#define _DEFAULT_SOURCE
#include "lent_list.h"

#include "compare.h"

#include <stdio.h>
#include <stdlib.h>
#include <string.h>
#include <sys/mman.h>
#include <unistd.h>

enum placement { AT_START, AT_END, BETWEEN, ON_HEAP, PLACEMENTS };

static void stop(const char *what) {
    perror(what);
    exit(1);
}

void open_lent(lent *l, uint32_t *sequence) {
    uint8_t *mapped;
    memset(l, 0, sizeof *l);
    l->page_size = (size_t)sysconf(_SC_PAGESIZE);
    l->pages_size = (sizeof l->before + l->page_size - 1) / l->page_size * l->page_size;
    mapped = mmap(NULL, l->pages_size + 2 * l->page_size, PROT_NONE, MAP_PRIVATE | MAP_ANONYMOUS, -1, 0);
    if (mapped == MAP_FAILED) stop("mmap");
    l->pages = mapped + l->page_size;
    if (mprotect(l->pages, l->pages_size, PROT_READ | PROT_WRITE) != 0) stop("mprotect");
    for (size_t i = 0; i < sizeof l->noise; i++) l->noise[i] = (uint8_t)(draw(sequence) >> 8);
}

void close_lent(lent *l) { munmap(l->pages - l->page_size, l->pages_size + 2 * l->page_size); }

/* On just the size, but for a size of 0, as a block of that may be null. */
static uint8_t *heap_block(size_t size) {
    uint8_t *block = malloc(size == 0 ? 1 : size);
    if (block == NULL) stop("malloc");
    return block;
}

void lend(lent *l, const void *content, size_t entry_size, size_t length, uint32_t *sequence) {
    enum placement where = draw(sequence) % PLACEMENTS;
    uint32_t place = draw(sequence);
    size_t size = entry_size * length, between = place % (BESIDE_LENT / entry_size + 1) * entry_size;

    l->heap = where == ON_HEAP ? heap_block(size) : NULL;
    l->size = where == ON_HEAP ? size : size + BESIDE_LENT;
    l->bytes = where == ON_HEAP ? l->heap : where == AT_END ? l->pages + l->pages_size - l->size : l->pages;
    l->list = l->bytes + (where == AT_END ? BESIDE_LENT : where == BETWEEN ? between : 0);
    memcpy(l->bytes, l->noise + place % BESIDE_LENT, l->size);
    if (content != NULL) memcpy(l->list, content, size);
    memcpy(l->before, l->bytes, l->size);
}

int is_kept(const lent *l, size_t written) {
    size_t start = (size_t)(l->list - l->bytes), rest = start + written;
    return memcmp(l->bytes, l->before, start) == 0 && memcmp(l->bytes + rest, l->before + rest, l->size - rest) == 0;
}

void take_back(lent *l) { free(l->heap); }
