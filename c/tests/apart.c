/* A call stores into lines of the cache that have nothing but the library's blocks, and no line has what both sides of a register store
 * into, but a word into which both do. With LINE=1024 lines are taken to be so wide that both must be found wanting.
 * The program is linked with --wrap=malloc,--wrap=realloc,--wrap=free. */
#include "nidzaru.h"
#include <stdio.h>
#include <stdlib.h>

#ifndef LINE
#define LINE 64
#endif
enum { BLOCKS = 64, WORD = 8, CALLS = 12 };

void *__real_malloc(size_t size);
void *__real_realloc(void *old, size_t size);
void __real_free(void *old);

/* A block of the heap, what it had when it was looked at last, and which of its bytes each side has changed. */
enum { WRITER, READER, SIDES };
static struct block {
    unsigned char *at, *had, *changed[SIDES];
    size_t size;
} blocks[BLOCKS];
static int watches, failed;

static void *taken(size_t size) {
    void *at = __real_malloc(size);
    if (!at) exit(2);
    return memset(at, 0, size);
}

static struct block *block_at(const void *at) {
    for (int k = 0; k < BLOCKS; k++)
        if (blocks[k].at == at) return &blocks[k];
    puts("FAILED: more blocks than expected");
    exit(1);
}

void *__wrap_malloc(size_t size) {
    void *at = taken(size);
    if (watches) {
        struct block *block = block_at(NULL);
        *block = (struct block){.at = at, .size = size};
    }
    return at;
}

void __wrap_free(void *old) {
    if (old && watches) block_at(old)->at = NULL;
    __real_free(old);
}

void *__wrap_realloc(void *old, size_t size) {
    void *at = __wrap_malloc(size);
    if (old) {
        const size_t had = block_at(old)->size;
        memcpy(at, old, had < size ? had : size);
        __wrap_free(old);
    }
    return at;
}

static void look(int side) {
    for (struct block *it = blocks; it < blocks + BLOCKS; it++) {
        if (!it->at) continue;
        for (size_t k = 0; side < SIDES && k < it->size; k++) it->changed[side][k] |= it->at[k] != it->had[k];
        memcpy(it->had, it->at, it->size);
    }
}

static void begin(void) {
    for (struct block *it = blocks; it < blocks + BLOCKS; it++) {
        if (!it->at) continue;
        it->had = taken(it->size);
        for (int side = 0; side < SIDES; side++) it->changed[side] = taken(it->size);
    }
    look(SIDES);
}

static void end(void) {
    for (struct block *it = blocks; it < blocks + BLOCKS; it++) {
        __real_free(it->had);
        for (int side = 0; side < SIDES; side++) __real_free(it->changed[side]);
        *it = (struct block){.at = NULL};
    }
}

static void fail(const char *name, const char *what) {
    failed++;
    printf("FAILED: %s: %s\n", name, what);
}

/* Whether a side has changed something from `at` on, within so many bytes. */
static int has_changed(int side, uintptr_t at, size_t bytes) {
    for (const struct block *it = blocks; it < blocks + BLOCKS; it++) {
        const uintptr_t begin = (uintptr_t)it->at, first = at > begin ? at : begin;
        const uintptr_t last = at + bytes < begin + it->size ? at + bytes : begin + it->size;
        if (begin && first < last && memchr(it->changed[side] + (first - begin), 1, last - first)) return 1;
    }
    return 0;
}

/* What is so of a line that this side has changed in this block. */
static void check_line(const char *name, const struct block *block, uintptr_t line, int side) {
    const uintptr_t begin = (uintptr_t)block->at;
    if (line < begin || line + LINE > begin + block->size) fail(name, "a line is the block's in part alone");
    if (!has_changed(!side, line, LINE)) return;
    for (uintptr_t word = line; word < line + LINE; word += WORD)
        if (has_changed(0, word, WORD) && has_changed(1, word, WORD)) return;
    fail(name, "both sides store into a line, and into no word of it");
}

static void check_lines(const char *name) {
    long found[SIDES] = {0};
    for (const struct block *it = blocks; it < blocks + BLOCKS; it++) {
        const uintptr_t begin = (uintptr_t)it->at;
        for (uintptr_t line = begin / LINE * LINE; begin && line < begin + it->size; line += LINE)
            for (int side = 0; side < SIDES; side++) {
                const uintptr_t first = line > begin ? line : begin, end = begin + it->size;
                const uintptr_t last = line + LINE < end ? line + LINE : end;
                if (!memchr(it->changed[side] + (first - begin), 1, last - first)) continue;
                found[side]++;
                check_line(name, it, line, side);
            }
    }
    if (found[WRITER] < 3 || found[READER] < 2) fail(name, "the sides store into too few lines");
}

#define CHECK(name, bytes, declare)                                                       \
    struct name##_struct {                                                                \
        unsigned char of[bytes];                                                          \
    };                                                                                    \
    declare(name, struct name##_struct);                                                  \
    static void check_##name(void) {                                                      \
        static name##_writer writer = NIDZARU_EMPTY;                                      \
        static name##_reader reader = NIDZARU_EMPTY;                                      \
        static struct name##_struct item;                                                 \
        uint64_t number;                                                                  \
        memset(item.of, 0, sizeof item.of);                                               \
        watches = 1;                                                                      \
        if (name##_make(&item, &writer, &reader)) exit(2);                                \
        begin();                                                                          \
        for (int k = 0; k < CALLS; k++) {                                                 \
            memset(item.of, k + 1, sizeof item.of);                                       \
            for (int twice = 0; twice <= k % 2; twice++)                                  \
                if (name##_write(&writer, &item)) exit(2);                                \
            look(WRITER);                                                                 \
            if (name##_read(&reader, &item, &number)) exit(2);                            \
            look(READER);                                                                 \
        }                                                                                 \
        check_lines(#name);                                                               \
        if (name##_end_writer(&writer) || name##_end_reader(&reader)) exit(2);            \
        watches = 0;                                                                      \
        end();                                                                            \
    }

CHECK(four_slot_24, 24, NIDZARU_REGISTER)
CHECK(four_slot_128, 128, NIDZARU_REGISTER)
CHECK(four_slot_256, 256, NIDZARU_REGISTER)
CHECK(four_slot_65536, 65536, NIDZARU_REGISTER)
CHECK(triple_24, 24, NIDZARU_TRIPLE_REGISTER)
CHECK(triple_128, 128, NIDZARU_TRIPLE_REGISTER)
CHECK(triple_256, 256, NIDZARU_TRIPLE_REGISTER)
CHECK(triple_65536, 65536, NIDZARU_TRIPLE_REGISTER)

int main(void) {
    check_four_slot_24();
    check_four_slot_128();
    check_four_slot_256();
    check_four_slot_65536();
    check_triple_24();
    check_triple_128();
    check_triple_256();
    check_triple_65536();
    if (!failed) puts("passed");
    return failed != 0;
}
