/* The header at its edges: records of each size at which the library's next greater record is taken, and one beyond; null,
 * copied, crossed, ended and live handles in every call; what a refused call leaves; which of the library's calls is taken;
 * requests for memory, counted and refused. Link with --wrap=malloc,--wrap=realloc,--wrap=free. */
#include "edges.h"

/* The library's own calls, of each cell. */
typedef struct {
    const char *cell;
    size_t size;
    int triple;
    uint32_t (*write)(nidzaru_side *, const void *);
    uint32_t (*read)(nidzaru_side *, void *, uint64_t *);
    uint32_t (*look)(nidzaru_side *, uint64_t *);
    uint32_t (*end_writer)(nidzaru_side *);
    uint32_t (*end_reader)(nidzaru_side *);
} calls;

#define CALLS(cell, size, triple)                                                                                             \
    {#cell, size, triple, nidzaru_##cell##_write, nidzaru_##cell##_read, nidzaru_##cell##_look, nidzaru_##cell##_end_writer,  \
     nidzaru_##cell##_end_reader}
static const calls library[] = {
    CALLS(8, 8, 0),              CALLS(24, 24, 0),            CALLS(64, 64, 0),
    CALLS(128, 128, 0),          CALLS(256, 256, 0),          CALLS(1024, 1024, 0),
    CALLS(4096, 4096, 0),        CALLS(65536, 65536, 0),      CALLS(1048576, 1048576, 0),
    CALLS(triple_8, 8, 1),       CALLS(triple_24, 24, 1),     CALLS(triple_64, 64, 1),
    CALLS(triple_128, 128, 1),   CALLS(triple_256, 256, 1),   CALLS(triple_1024, 1024, 1),
    CALLS(triple_4096, 4096, 1), CALLS(triple_65536, 65536, 1), CALLS(triple_1048576, 1048576, 1),
};
enum { CELLS = sizeof library / sizeof library[0] };

/* The cell that records of this size are to lie in: the least that has room. */
static const calls *cell_of(size_t size, int triple) {
    for (int k = 0; k < CELLS; k++)
        if (library[k].triple == triple && library[k].size >= size) return &library[k];
    return 0;
}

/* Of all the library's calls just those of one cell and side know these handles, and what they give is the record with zeros
 * behind it. */
static void only_these(const char *name, size_t size, int triple, nidzaru_side *w, nidzaru_side *r, const void *now, uint64_t last) {
    static uint64_t large[1048576 / 8 + 8];
    const calls *mine = cell_of(size, triple);
    for (int k = 0; k < CELLS; k++) {
        const calls *its = &library[k];
        uint32_t status;
        uint64_t n = 77, seen = 78;
        /* (of a large cell that isn't this one the first bytes show whether anything is given) */
        size_t room = (its == mine || its->size < 4096 ? its->size : 4096) + GUARD;
        memset(large, 0xee, room);
        status = its->read(r, large, &n);
        check(status == (its == mine ? NIDZARU_DONE : NIDZARU_OTHER_SIDE), name, "which read is called");
        if (its == mine) {
            check(n == last && !memcmp(large, now, size), name, "what the library gives");
            check(is_all((char *)large + size, its->size - size, 0), name, "zeros behind the record");
            check(is_all((char *)large + its->size, GUARD, 0xee), name, "the size of the library's record");
        } else {
            check(n == 77 && is_all(large, room, 0xee), name, "what a read of another cell leaves");
        }
        check(its->look(r, &seen) == status && seen == (its == mine ? last : 78), name, "which look is called");
        check(its->read(w, large, &n) == NIDZARU_OTHER_SIDE && its->look(w, &n) == NIDZARU_OTHER_SIDE, name, "a writer reads");
        check(its->write(r, large) == NIDZARU_OTHER_SIDE, name, "a reader writes");
        check(its->end_writer(r) == NIDZARU_OTHER_SIDE && its->end_reader(w) == NIDZARU_OTHER_SIDE, name, "the other side's end");
        if (its != mine) {
            check(its->write(w, large) == NIDZARU_OTHER_SIDE, name, "a write of another cell");
            check(its->end_writer(w) == NIDZARU_OTHER_SIDE && its->end_reader(r) == NIDZARU_OTHER_SIDE, name, "an end of another cell");
        }
    }
}

/* A record is passed where it lies only if it fills the library's and is aligned to 8. */
NIDZARU_ASSERT(NIDZARU_WATCHED || (NIDZARU_PASSES(24, 8) && NIDZARU_PASSES(128, 8) && NIDZARU_PASSES(4096, 8)),
               "records that are passed where they lie");
NIDZARU_ASSERT(!NIDZARU_PASSES(24, 4) && !NIDZARU_PASSES(8, 1) && !NIDZARU_PASSES(16, 8) && !NIDZARU_PASSES(4088, 8), "records that are copied");

/* Each record goes into the least of the library's that has room. */
static void sizes(void) {
    for (size_t size = 1; size <= 1048576; size++) check(NIDZARU_SIZE(size) == cell_of(size, 0)->size, "sizes", "not the least size");
}

/* The most bytes that `make` asks for: records of the library with their numbers, in slots and in the passes, and what is the same
 * for every size. A four-slot register's words lie in a table of 32, so that the two sides' words share no cache line. Of each request
 * there may be two lines more, so that its block has its lines alone. */
static size_t most_bytes(size_t size, int triple) {
    return 13 * (8 + NIDZARU_SIZE(size)) + 300 + (triple ? 0 : 28 * 8) + 2 * 64 * (size_t)asked;
}

#define EDGE(name, type, register_of, triple)                                                                                 \
    register_of(name, type);                                                                                                  \
    GUARDED(name, type)                                                                                                       \
    /* No call that gets these handles does anything: each answers `status`. */                                               \
    static void name##_refuses(name##_writer *w, name##_reader *r, int status, const char *what) {                            \
        name##_guarded item, out;                                                                                             \
        uint64_t n = 77;                                                                                                      \
        name##_set(&item, 1);                                                                                                 \
        name##_set(&out, 2);                                                                                                  \
        check(name##_write(w, &item.x) == status && name##_is(&item, 1), #name, what);                                        \
        check(name##_read(r, &out.x, &n) == status && n == 77 && name##_is(&out, 2), #name, what);                            \
        check(name##_look(r, &n) == status && n == 77, #name, what);                                                          \
        check(name##_end_writer(w) == status && name##_end_reader(r) == status, #name, what);                                 \
    }                                                                                                                         \
    /* These two are live, the last record is that of `seed`, and its number is `last`. */                                    \
    static void name##_lives(name##_writer *w, name##_reader *r, int seed, uint64_t last, const char *what) {                 \
        name##_guarded out;                                                                                                   \
        uint64_t n = 77, seen = 78;                                                                                           \
        name##_set(&out, 99);                                                                                                 \
        check(!name##_look(r, &seen) && seen == last, #name, what);                                                           \
        check(!name##_read(r, &out.x, &n) && n == last && name##_is(&out, seed), #name, what);                                \
        only_these(#name, sizeof(type), triple, &w->handle.side, &r->handle.side, &out.x, last);                              \
    }                                                                                                                         \
    __attribute__((noinline)) static void name##_handles(void) {                                                              \
        name##_writer w = NIDZARU_EMPTY, w2 = NIDZARU_EMPTY, copied_w, moved_w = NIDZARU_EMPTY;                               \
        name##_reader r = NIDZARU_EMPTY, r2 = NIDZARU_EMPTY, copied_r, moved_r = NIDZARU_EMPTY;                               \
        name##_guarded item;                                                                                                  \
        uint64_t n = 77;                                                                                                      \
        long had = blocks, took, alive;                                                                                       \
        name##_refuses(&w, &r, NIDZARU_ENDED, "handles that have no side yet");                                               \
        name##_set(&item, 3);                                                                                                 \
        check(name##_make(0, &w, &r) == NIDZARU_NULL && name##_make(&item.x, 0, &r) == NIDZARU_NULL                           \
                  && name##_make(&item.x, &w, 0) == NIDZARU_NULL, #name, "make with a null pointer");                         \
        check(name##_make(&item.x, &w, (name##_reader *)&w) == NIDZARU_IN_USE, #name, "make with one handle for both sides"); \
        check(!w.handle.side.live && !r.handle.side.live && blocks == had, #name, "what a refused make leaves");              \
        bytes = 0, asked = 0;                                                                                                 \
        check(!name##_make(&item.x, &w, &r) && name##_is(&item, 3), #name, "make");                                           \
        check(bytes <= most_bytes(sizeof(type), triple), #name, "make takes more than its own records need");                         \
        took = asked;                                                                                                         \
        alive = blocks;                                                                                                       \
        name##_lives(&w, &r, 3, 0, "the opening");                                                                            \
        name##_refuses(0, 0, NIDZARU_NULL, "null handles");                                                                   \
        check(name##_write(&w, 0) == NIDZARU_NULL, #name, "a null record is written");                                        \
        check(name##_read(&r, 0, &n) == NIDZARU_NULL && n == 77, #name, "a read into no record");                             \
        check(name##_read(&r, &item.x, 0) == NIDZARU_NULL && name##_is(&item, 3), #name, "a read into no number");            \
        check(name##_look(&r, 0) == NIDZARU_NULL, #name, "a look into no number");                                            \
        name##_lives(&w, &r, 3, 0, "after null pointers");                                                                    \
        copied_w = w;                                                                                                         \
        copied_r = r;                                                                                                         \
        name##_refuses(&copied_w, &copied_r, NIDZARU_COPIED, "copied handles");                                               \
        check(name##_make(&item.x, &copied_w, &r2) == NIDZARU_IN_USE && name##_make(&item.x, &w2, &copied_r) == NIDZARU_IN_USE \
                  && name##_make(&item.x, &copied_w, &copied_r) == NIDZARU_IN_USE, #name, "make in copied handles");          \
        check(name##_make(&item.x, &w, &r2) == NIDZARU_IN_USE && name##_make(&item.x, &w2, &r) == NIDZARU_IN_USE              \
                  && name##_make(&item.x, &w, &r) == NIDZARU_IN_USE, #name, "make in live handles");                          \
        check(!w2.handle.side.live && !r2.handle.side.live, #name, "the free handle of a refused make");                      \
        check(blocks == alive, #name, "blocks after makes in live handles");                                                  \
        name##_lives(&w, &r, 3, 0, "after copies and makes");                                                                 \
        for (int k = 1; k <= 20; k++) {                                                                                       \
            name##_set(&item, k);                                                                                             \
            check(!name##_write(&w, &item.x) && name##_is(&item, k), #name, "a write");                                       \
            if (k % 3 == 0) name##_lives(&w, &r, k, (uint64_t)k, "the record just written");                                  \
        }                                                                                                                     \
        check(asked == took && blocks == alive, #name, "a write, a read or a look took memory");                              \
        check(name##_move_writer(0, &w) == NIDZARU_NULL && name##_move_writer(&moved_w, 0) == NIDZARU_NULL, #name, "a null move");\
        check(name##_move_reader(0, &r) == NIDZARU_NULL && name##_move_reader(&moved_r, 0) == NIDZARU_NULL, #name, "a null move");\
        check(name##_move_writer(&copied_w, &w) == NIDZARU_IN_USE && name##_move_writer(&w, &w) == NIDZARU_IN_USE             \
                  && name##_move_reader(&copied_r, &r) == NIDZARU_IN_USE && name##_move_reader(&r, &r) == NIDZARU_IN_USE, #name,\
              "a move into a live handle");                                                                                   \
        check(name##_move_writer(&moved_w, &copied_w) == NIDZARU_COPIED && !moved_w.handle.side.live                          \
                  && name##_move_reader(&moved_r, &copied_r) == NIDZARU_COPIED && !moved_r.handle.side.live, #name,           \
              "a move of a copied handle");                                                                                   \
        name##_lives(&w, &r, 20, 20, "after refused moves");                                                                  \
        check(!name##_move_writer(&moved_w, &w) && !name##_move_reader(&moved_r, &r), #name, "a move");                       \
        name##_refuses(&w, &r, NIDZARU_ENDED, "handles that were moved from");                                                \
        name##_lives(&moved_w, &moved_r, 20, 20, "handles that were moved to");                                               \
        check(name##_move_writer(&moved_w, &w) == NIDZARU_IN_USE && name##_move_reader(&moved_r, &r) == NIDZARU_IN_USE, #name, \
              "a move of an empty handle into a live one");                                                                   \
        name##_lives(&moved_w, &moved_r, 20, 20, "after moves of empty handles");                                             \
        check(!name##_move_writer(&w2, &w) && !w2.handle.side.live, #name, "a move of an empty handle");                      \
        check(!name##_make(&item.x, &w, &r), #name, "make in handles that were moved from");                                  \
        check(!name##_end_writer(&w) && !name##_end_reader(&r) && blocks == alive, #name, "their ends");                      \
        took = asked;                                                                                                         \
        check(!name##_end_writer(&moved_w) && blocks < alive && blocks > had, #name, "the first end gives back its side");    \
        check(!name##_read(&moved_r, &item.x, &n) && n == 20 && name##_is(&item, 20), #name, "a read after the writer's end"); \
        check(name##_write(&moved_w, &item.x) == NIDZARU_ENDED && name##_end_writer(&moved_w) == NIDZARU_ENDED, #name,        \
              "an ended writer");                                                                                             \
        check(!name##_end_reader(&moved_r) && blocks == had && asked == took, #name, "blocks after the ends");                \
        name##_refuses(&moved_w, &moved_r, NIDZARU_ENDED, "ended handles");                                                   \
        check(!moved_w.handle.side.at && !moved_r.handle.side.at, #name, "ended handles have no pointer");                    \
    }                                                                                                                         \
    __attribute__((noinline)) static void name##_memory(void) {                                                               \
        for (long at = 1, done = 0; !done; at++) {                                                                            \
            name##_writer w = NIDZARU_EMPTY;                                                                                  \
            name##_reader r = NIDZARU_EMPTY;                                                                                  \
            name##_guarded item;                                                                                              \
            long had = blocks;                                                                                                \
            name##_set(&item, 5);                                                                                             \
            refuse_request(at);                                                                                               \
            done = had_all(at, name##_make(&item.x, &w, &r), 4, #name);                                                       \
            if (done) check(!name##_end_reader(&r) && !name##_end_writer(&w), #name, "ends");                                 \
            else name##_refuses(&w, &r, NIDZARU_ENDED, "handles without memory");                                             \
            check(blocks == had, #name, "blocks after refused memory");                                                       \
        }                                                                                                                     \
    }                                                                                                                         \
    static void name##_all(void) {                                                                                            \
        name##_handles();                                                                                                     \
        name##_memory();                                                                                                      \
    }

#define FOUR_SLOT NIDZARU_REGISTER
#define TRIPLE NIDZARU_TRIPLE_REGISTER

/* The sizes: each greatest one that goes into a record of the library, and one beyond. */
#define ALL_BYTES(each)                                                                                                       \
    each(1) each(8) each(9) each(24) each(25) each(64) each(65) each(128) each(129) each(256) each(257) each(1024) each(1025) \
    each(4096) each(4097) each(65536)
/* The same in words. */
#define ALL_WORDS(each) each(1) each(2) each(3) each(8) each(9) each(16) each(32) each(128) each(512) each(8192)

ALL_BYTES(BYTES)
ALL_WORDS(WORDS)

int main(void) {
    check(nidzaru_version() == NIDZARU_VERSION, "version", "header and library aren't of one version");
    sizes();
    ALL_BYTES(RUN_BYTES)
    ALL_WORDS(RUN_WORDS)
    check(!blocks, "blocks", "some are left");
    puts(failed ? "FAILED" : "passed");
    return failed != 0;
}
