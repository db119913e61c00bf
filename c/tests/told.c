/* A read of a board that finds its record's write ended hands nothing on: it stores into fewer lines of the cache than there are registers
 * in its row, each of which has a line of its own. A write stores into more. With -DPLANTED a read writes what it has read, which must be
 * found. Over four-slot cells, or with -DTRIPLE over triple buffers. Link with --wrap=malloc,--wrap=realloc,--wrap=free. */
#include "nidzaru.h"
#include <stdio.h>
#include <stdlib.h>

enum { BLOCKS = 128, LINE = 64, PLACES = 16, ROUNDS = 3 };

struct record {
    uint64_t words[3];
};
#ifdef TRIPLE
NIDZARU_TRIPLE_BOARD(records, struct record);
#else
NIDZARU_BOARD(records, struct record);
#endif

void *__real_malloc(size_t size);
void *__real_realloc(void *old, size_t size);
void __real_free(void *old);

/* A block of the heap, and what it had when it was looked at last. */
static struct block {
    unsigned char *at, *had;
    size_t size;
} blocks[BLOCKS];
static int failed;

static void check(int holds, const char *what, int lines) {
    if (holds) return;
    failed = 1;
    printf("FAILED: %s: %d lines\n", what, lines);
}

static struct block *block_at(const void *at) {
    for (int k = 0; k < BLOCKS; k++)
        if (blocks[k].at == at) return &blocks[k];
    puts("FAILED: more blocks than expected");
    exit(1);
}

void *__wrap_malloc(size_t size) {
    void *at = __real_malloc(size), *had = __real_malloc(size);
    if (!at || !had) exit(2);
    memset(at, 0, size);
    memset(had, 0, size);
    *block_at(NULL) = (struct block){at, had, size};
    return at;
}

void __wrap_free(void *old) {
    if (old) {
        struct block *block = block_at(old);
        __real_free(block->had);
        *block = (struct block){0};
    }
    __real_free(old);
}

void *__wrap_realloc(void *old, size_t size) {
    void *at = __wrap_malloc(size);
    if (old) {
        const size_t had = block_at(old)->size;
        memcpy(at, old, had < size ? had : size);
        __wrap_free(old);
    }
    return at;
}

/* How many lines of all blocks have changed since this was asked last. */
static int changed(void) {
    int lines = 0;
    for (struct block *it = blocks; it < blocks + BLOCKS; it++) {
        uintptr_t last = 0;
        for (size_t k = 0; it->at && k < it->size; k++) {
            const uintptr_t line = (uintptr_t)(it->at + k) / LINE;
            if (it->at[k] == it->had[k]) continue;
            lines += line != last;
            last = line;
        }
        if (it->at) memcpy(it->had, it->at, it->size);
    }
    return lines;
}

static records_place places[PLACES];

static int written(int place, uint64_t number) {
    const struct record record = {{number, number, number}};
    nidzaru_stamp stamp;
    changed();
    if (records_write(&places[place], &record, &stamp)) exit(2);
    return changed();
}

/* A read that has to give the record of this number. */
static int seen(int place, uint64_t number) {
    struct record record;
    nidzaru_stamp stamp;
    changed();
    if (records_read(&places[place], &record, &stamp)) exit(2);
#ifdef PLANTED
    if (records_write(&places[place], &record, &stamp)) exit(2);
#endif
    check(record.words[0] == number && record.words[2] == number, "the record that was written", 0);
    return changed();
}

int main(void) {
    const struct record opening = {{0, 0, 0}};
    for (int k = 0; k < PLACES; k++) places[k] = (records_place)NIDZARU_EMPTY;
    if (records_make(&opening, places, PLACES)) exit(2);
    for (uint64_t number = 1; number <= ROUNDS * PLACES; number++) {
        const int writer = (int)(5 * number % PLACES);
        const int lines = written(writer, number);
        check(lines >= PLACES - 1, "a write stores into its row", lines);
        for (int place = 0; place < PLACES; place++) {
            const int lines = seen(place, number), again = seen(place, number);
            check(lines < PLACES - 1, "a read of what was told hands nothing on", lines);
            check(again <= lines, "nor does a second one", again);
        }
    }
    for (int k = 0; k < PLACES; k++)
        if (records_end(&places[k])) exit(2);
    if (!failed) puts("passed");
    return failed;
}
