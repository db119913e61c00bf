/* Boards at the edges of the library's sizes: records of each size at which the next greater record is taken, and one beyond, between
 * guard bytes; which of the library's calls is taken, and what all others leave; no memory taken but by `make`, each request of which
 * is refused in turn. Link with --wrap=malloc,--wrap=realloc,--wrap=free. */
#include "edges.h"

/* The library's own calls on a place, of each family and size. */
typedef struct {
    size_t size;
    int triple;
    uint32_t (*write)(nidzaru_side *, const void *, nidzaru_stamp *);
    uint32_t (*read)(nidzaru_side *, void *, nidzaru_stamp *);
    uint32_t (*read_since)(nidzaru_side *, const nidzaru_stamp *, void *, nidzaru_stamp *);
    uint32_t (*end)(nidzaru_side *);
} calls;

#define CALLS(board, size, triple)                                                                                    \
    {size, triple, nidzaru_##board##_write, nidzaru_##board##_read, nidzaru_##board##_read_since, nidzaru_##board##_end}
#define BOTH(size) CALLS(board_##size, size, 0), CALLS(triple_board_##size, size, 1)
static const calls library[] = {BOTH(24), BOTH(256), BOTH(4096)};
enum { BOARDS = sizeof library / sizeof library[0] };

/* The board that records of this size are to lie in: the least that has room. */
static const calls *board_of(size_t size, int triple) {
    for (int k = 0; k < BOARDS; k++)
        if (library[k].triple == triple && library[k].size >= size) return &library[k];
    return 0;
}

/* A record is passed where it lies only if it fills the library's and is aligned to 8. */
NIDZARU_ASSERT(NIDZARU_WATCHED || (NIDZARU_BOARD_PASSES(24, 8) && NIDZARU_BOARD_PASSES(4096, 64)), "records that are passed where they lie");
NIDZARU_ASSERT(!NIDZARU_BOARD_PASSES(24, 4) && !NIDZARU_BOARD_PASSES(8, 8) && !NIDZARU_BOARD_PASSES(256, 1) && !NIDZARU_BOARD_PASSES(64, 8),
               "records that are copied");

static int is_stamp(nidzaru_stamp s, uint64_t tag, uint64_t writer) { return s.tag == tag && s.writer == writer; }

/* Of all the library's calls just those of one family and size know this place, and what they give is the record with zeros behind it. */
static void only_these(const char *name, size_t size, int triple, nidzaru_side *place, const void *now, nidzaru_stamp last) {
    static uint64_t large[4096 / 8 + 8];
    const calls *mine = board_of(size, triple);
    nidzaru_stamp least = {0, 0};
    for (int k = 0; k < 2 * BOARDS; k++) {
        const calls *its = &library[k / 2];
        nidzaru_stamp stamp = {77, 78};
        uint32_t status;
        memset(large, 0xee, sizeof large);
        status = k % 2 ? its->read_since(place, &least, large, &stamp) : its->read(place, large, &stamp);
        check(status == (its == mine ? NIDZARU_DONE : NIDZARU_OTHER_SIDE), name, "which read is called");
        if (its == mine) {
            check(is_stamp(stamp, last.tag, last.writer) && !memcmp(large, now, size), name, "what the library gives");
            check(is_all((char *)large + size, its->size - size, 0), name, "zeros behind the record");
            check(is_all((char *)large + its->size, sizeof large - its->size, 0xee), name, "the size of the library's record");
        } else {
            check(is_stamp(stamp, 77, 78) && is_all(large, sizeof large, 0xee), name, "what a read of another board leaves");
            check(its->write(place, large, &stamp) == NIDZARU_OTHER_SIDE && is_stamp(stamp, 77, 78), name, "a write of another board");
            check(its->end(place) == NIDZARU_OTHER_SIDE, name, "an end of another board");
        }
    }
}

enum { PLACES = 3 };

/* The most bytes that `make` of three places asks for: records of the library with their stamps, of six cells and three passes, and
 * what is the same for every size; of each request two lines more. */
static size_t most_bytes(size_t size) { return 100 * (16 + NIDZARU_BOARD_SIZE(size)) + 13000 + 2 * 64 * (size_t)asked; }

#define EDGE(name, type, board, triple)                                                                               \
    board(name, type);                                                                                                \
    GUARDED(name, type)                                                                                               \
    /* This place is live, and the last record is that of `seed`, under this stamp. */                                \
    static void name##_lives(name##_place *p, int seed, nidzaru_stamp last, const char *what) {                       \
        name##_guarded out;                                                                                           \
        nidzaru_stamp s = {77, 78}, later = {last.tag, last.writer + 1};                                              \
        name##_set(&out, 99);                                                                                         \
        check(!name##_read(p, &out.x, &s) && is_stamp(s, last.tag, last.writer) && name##_is(&out, seed), #name, what); \
        name##_set(&out, 98);                                                                                         \
        check(!name##_read_since(p, last, &out.x, &s) && is_stamp(s, last.tag, last.writer) && name##_is(&out, seed), #name, what); \
        name##_set(&out, 97);                                                                                         \
        check(name##_read_since(p, later, &out.x, &s) == NIDZARU_OLDER && name##_is(&out, seed), #name, what);        \
        only_these(#name, sizeof(type), triple, &p->handle.side, &out.x, last);                                       \
    }                                                                                                                 \
    /* No call on this place does anything. */                                                                        \
    static void name##_ended(name##_place *p) {                                                                       \
        name##_guarded out;                                                                                           \
        nidzaru_stamp s = {77, 78};                                                                                   \
        name##_set(&out, 2);                                                                                          \
        check(name##_write(p, &out.x, &s) == NIDZARU_ENDED && name##_read(p, &out.x, &s) == NIDZARU_ENDED             \
                  && name##_read_since(p, s, &out.x, &s) == NIDZARU_ENDED && name##_end(p) == NIDZARU_ENDED, #name, "an ended place"); \
        check(is_stamp(s, 77, 78) && name##_is(&out, 2) && !p->handle.side.at, #name, "what an ended place leaves");  \
    }                                                                                                                 \
    static void name##_records(void) {                                                                                \
        name##_place p[PLACES] = {NIDZARU_EMPTY, NIDZARU_EMPTY, NIDZARU_EMPTY};                                       \
        name##_guarded item;                                                                                          \
        nidzaru_stamp s = {0, 0};                                                                                     \
        long had = blocks, took;                                                                                      \
        name##_set(&item, 3);                                                                                         \
        bytes = 0, asked = 0;                                                                                         \
        check(!name##_make(&item.x, p, PLACES) && name##_is(&item, 3), #name, "make");                                \
        check(bytes <= most_bytes(sizeof(type)), #name, "make takes more than its own records need");                 \
        took = asked;                                                                                                 \
        for (int k = 0; k < PLACES; k++) name##_lives(&p[k], 3, s, "the opening");                                    \
        for (int k = 1; k <= 7; k++) {                                                                                \
            name##_set(&item, k);                                                                                     \
            check(!name##_write(&p[k % PLACES], &item.x, &s) && name##_is(&item, k), #name, "a write");               \
            check(is_stamp(s, (uint64_t)k, (uint64_t)(k % PLACES)), #name, "the stamp of a write");                   \
            name##_lives(&p[(k + 1) % PLACES], k, s, "the record just written");                                      \
        }                                                                                                             \
        check(asked == took, #name, "a call but make took memory");                                                   \
        check(!name##_end(&p[1]), #name, "the writer's end");                                                         \
        name##_lives(&p[2], 7, s, "after the writer's end");                                                          \
        check(!name##_end(&p[0]) && !name##_end(&p[2]) && blocks == had && asked == took, #name, "blocks after the ends"); \
        for (int k = 0; k < PLACES; k++) name##_ended(&p[k]);                                                         \
    }                                                                                                                 \
    static void name##_memory(void) {                                                                                 \
        for (long at = 1, done = 0; !done; at++) {                                                                    \
            name##_place p[PLACES] = {NIDZARU_EMPTY, NIDZARU_EMPTY, NIDZARU_EMPTY};                                   \
            name##_guarded item;                                                                                      \
            long had = blocks;                                                                                        \
            name##_set(&item, 5);                                                                                     \
            refuse_request(at);                                                                                       \
            done = had_all(at, name##_make(&item.x, p, PLACES), PLACES, #name);                                       \
            for (int k = 0; k < PLACES; k++)                                                                          \
                if (done) check(!name##_end(&p[k]), #name, "ends");                                                   \
                else name##_ended(&p[k]);                                                                             \
            check(blocks == had, #name, "blocks after refused memory");                                               \
        }                                                                                                             \
    }                                                                                                                 \
    static void name##_all(void) {                                                                                    \
        name##_records();                                                                                             \
        name##_memory();                                                                                              \
    }

#define FOUR_SLOT NIDZARU_BOARD
#define TRIPLE NIDZARU_TRIPLE_BOARD

/* The sizes: each greatest one that goes into a record of the library, and one beyond. */
#define ALL_BYTES(each)                                                                                               \
    each(1) each(8) each(23) each(24) each(25) each(255) each(256) each(257) each(4095) each(4096)
/* The same in words. */
#define ALL_WORDS(each) each(1) each(2) each(3) each(4) each(31) each(32) each(33) each(511) each(512)

ALL_BYTES(BYTES)
ALL_WORDS(WORDS)

int main(void) {
    ALL_BYTES(RUN_BYTES)
    ALL_WORDS(RUN_WORDS)
    check(!blocks, "blocks", "some are left");
    puts(failed ? "FAILED" : "passed");
    return failed != 0;
}
