/* Fans: what each reader of one writer gets, under which number, and what stays between the readers; null, copied, ended and live handles
 * in every call; memory that is refused; a register that refuses a write; and threads at full speed. Over four-slot cells, or with -DTRIPLE
 * over triple buffers. usage: fans [WRITES]. Link with
 * --wrap=malloc,--wrap=realloc,--wrap=free,--wrap=nidzaru_24_write,--wrap=nidzaru_triple_24_write. */
#include "edges.h"
#include <limits.h>
#include <pthread.h>

#ifdef TRIPLE
#define FAN NIDZARU_TRIPLE_FAN
#define REGISTER NIDZARU_TRIPLE_REGISTER
#define READ nidzaru_triple_24_read
#else
#define FAN NIDZARU_FAN
#define REGISTER NIDZARU_REGISTER
#define READ nidzaru_24_read
#endif

struct whole {
    uint64_t low, number, high;
};
struct part {
    uint64_t number;
    uint32_t low;
};
FAN(wholes, struct whole, 3);
FAN(parts, struct part, 2);
FAN(ones, struct whole, 1);
REGISTER(cells, struct whole);
NIDZARU_ASSERT(wholes_readers == 3 && ones_readers == 1, "the number of readers");
NIDZARU_ASSERT(sizeof(wholes_writer) == sizeof(cells_writer) && sizeof(wholes_reader) == sizeof(cells_reader),
               "a fan's handles are as others");

/* What is called as an argument or a local of the header is. */
typedef struct {
    uint32_t w[5];
} fan, readers, handles, k, first, item, words;
FAN(of_fan, fan, 2);
FAN(of_readers, readers, 2);
FAN(of_handles, handles, 2);
FAN(of_k, k, 2);
FAN(of_first, first, 2);
FAN(of_item, item, 2);
FAN(of_words, words, 2);

static wholes_writer writer;
static wholes_reader reader[3];

static struct whole whole_of(uint64_t n) { return (struct whole){n, 500 + n, 1000 + n}; }

/* Whether this reader gets just this record, under this number. */
static int gives(wholes_reader *r, uint64_t n, uint64_t number) {
    const struct whole wanted = whole_of(n);
    struct whole got = {0, 0, 0};
    uint64_t seen = 77, looked = 78;
    return !wholes_look(r, &looked) && looked == number && !wholes_read(r, &got, &seen) && seen == number &&
           !memcmp(&got, &wanted, sizeof got);
}

static int all_give(uint64_t n, uint64_t number) {
    return gives(&reader[0], n, number) && gives(&reader[1], n, number) && gives(&reader[2], n, number);
}

static void begin(const char *name) {
    const struct whole opening = whole_of(0);
    memset(&writer, 0, sizeof writer);
    memset(reader, 0, sizeof reader);
    check(!wholes_make(&opening, &writer, &reader), name, "make");
}

static void end(const char *name) {
    check(!wholes_end_writer(&writer), name, "the writer's end");
    for (size_t r = 0; r < 3; r++) check(!wholes_end_reader(&reader[r]), name, "a reader's end");
}

/* A write as the library makes it, after what looks at the readers between two of a fan's; or, from this one on, refused. */
static void (*between)(unsigned done);
static unsigned writes, refuses = UINT_MAX;
static uint64_t behind[2];

#define WRAPPED(cell)                                                                                                                      \
    uint32_t __real_nidzaru_##cell##_write(nidzaru_side *side, const void *item);                                                          \
    uint32_t __wrap_nidzaru_##cell##_write(nidzaru_side *side, const void *item);                                                          \
    uint32_t __wrap_nidzaru_##cell##_write(nidzaru_side *side, const void *item) {                                                         \
        if (between) between(writes);                                                                                                      \
        if (writes >= refuses) return NIDZARU_REFUSED;                                                                                     \
        writes++;                                                                                                                          \
        memcpy(behind, (const char *)item + 8, sizeof behind);                                                                             \
        return __real_nidzaru_##cell##_write(side, item);                                                                                  \
    }
WRAPPED(24)
WRAPPED(triple_24)

static void first_ones_have_it(unsigned done) {
    check(writer.handle.side.live == NIDZARU_BUSY, "between", "the handle's mark");
    for (unsigned r = 0; r < 3; r++)
        check(gives(&reader[r], r < done, r < done), "between", "the readers in their order, and the others the one before");
}

static void numbers(void) {
    struct whole item, got = {1, 2, 3};
    uint64_t number = 0;
    begin("numbers");
    check(all_give(0, 0), "numbers", "the opening");
    for (uint64_t n = 1; n <= 9; n++) {
        item = whole_of(n);
        check(!wholes_write(&writer, &item) && all_give(n, n), "numbers", "one record under one number");
    }
    number = 8;
    check(!wholes_news(&reader[2], &got, &number) && number == 9 && got.low == 9, "numbers", "news");
    check(wholes_news(&reader[2], &got, &number) == NIDZARU_NO_NEWS && !wholes_latest(&reader[1], &got), "numbers", "no news");
    check(!wholes_end_reader(&reader[1]), "numbers", "a reader's end");
    item = whole_of(10);
    check(!wholes_write(&writer, &item) && gives(&reader[0], 10, 10) && gives(&reader[2], 10, 10), "numbers", "the others go on");
    check(wholes_read(&reader[1], &got, &number) == NIDZARU_ENDED, "numbers", "a reader that has ended");
    check(!wholes_end_writer(&writer) && gives(&reader[0], 10, 10) && gives(&reader[2], 10, 10), "numbers",
          "what stays after the writer's end");
    check(!wholes_end_reader(&reader[0]) && !wholes_end_reader(&reader[2]), "numbers", "the last ends");

    begin("between");
    writes = 0;
    between = first_ones_have_it;
    item = whole_of(1);
    check(!wholes_write(&writer, &item) && writes == 3, "between", "a write in each register");
    between = 0;
    check(all_give(1, 1), "between", "all have it then");
    end("between");
}

/* Records that are copied, and a fan of one reader. */
static void kinds(void) {
    parts_writer w = NIDZARU_EMPTY;
    parts_reader r[parts_readers] = {NIDZARU_EMPTY, NIDZARU_EMPTY};
    ones_writer v = NIDZARU_EMPTY;
    ones_reader q[1] = {NIDZARU_EMPTY};
    uint64_t words[3] = {1, 1, 1};
    struct part a = {500, 7}, b = {0, 0};
    struct whole x = whole_of(4), y;
    uint64_t number = 77;
    check(!parts_make(&a, &w, &r) && !ones_make(&x, &v, &q), "kinds", "make");
    check(!parts_read(&r[1], &b, &b.number) && b.number == 0 && b.low == 7, "kinds", "an opening that is copied");
    check(!READ(&r[1].handle.side, words, &number) && words[0] == 500 && words[2] == 0, "kinds", "zeros behind an opening that is copied");
    a.low = 8;
    check(!ones_write(&v, &x) && !parts_write(&w, &a), "kinds", "a write");
    check((behind[0] & UINT32_MAX) == 8 && behind[1] == 0, "kinds", "zeros behind a record that is copied");
    for (size_t n = 0; n < 2; n++)
        check(!parts_read(&r[n], &b, &b.number) && b.number == 1 && b.low == 8, "kinds", "a record that is copied");
    check(!ones_read(&q[0], &y, &number) && number == 1 && !memcmp(&x, &y, sizeof x), "kinds", "one reader");
    check(!parts_end_writer(&w) && !parts_end_reader(&r[0]) && !parts_end_reader(&r[1]), "kinds", "ends");
    check(!ones_end_reader(&q[0]) && !ones_end_writer(&v), "kinds", "ends");
}

static void refused_handles(void) {
    const struct whole opening = whole_of(0), item = whole_of(1);
    wholes_writer moved = NIDZARU_EMPTY, copy;
    wholes_reader other = NIDZARU_EMPTY, same[3] = {NIDZARU_EMPTY, NIDZARU_EMPTY, NIDZARU_EMPTY};
    cells_writer w = NIDZARU_EMPTY;
    cells_reader r = NIDZARU_EMPTY;
    const long had = blocks;
    memset(&writer, 0, sizeof writer);
    memset(reader, 0, sizeof reader);
    check(wholes_write(&writer, &item) == NIDZARU_ENDED && wholes_end_writer(&writer) == NIDZARU_ENDED, "handles",
          "a writer that isn't made");
    check(wholes_make(0, &writer, &reader) == NIDZARU_NULL && wholes_make(&opening, 0, &reader) == NIDZARU_NULL &&
              wholes_make(&opening, &writer, 0) == NIDZARU_NULL,
          "handles", "make with a null pointer");
    check(wholes_make(&opening, (wholes_writer *)&same[2], &same) == NIDZARU_IN_USE, "handles", "make with one handle for two sides");
    check(blocks == had && !writer.handle.side.live && !reader[0].handle.side.live && !same[2].handle.side.live, "handles",
          "what it leaves");
    begin("handles");
    check(wholes_make(&opening, &writer, &same) == NIDZARU_IN_USE && !same[0].handle.side.live, "handles", "make with a live writer");
    check(!wholes_move_reader(&same[1], &reader[1]), "handles", "a move of a reader");
    check(wholes_make(&opening, &moved, &same) == NIDZARU_IN_USE && !same[0].handle.side.live && gives(&same[1], 0, 0), "handles",
          "make with a live reader");
    check(!wholes_move_reader(&reader[1], &same[1]), "handles", "a move back");
    check(wholes_write(0, &item) == NIDZARU_NULL && wholes_write(&writer, 0) == NIDZARU_NULL && wholes_end_writer(0) == NIDZARU_NULL,
          "handles", "null pointers");
    copy = writer;
    check(wholes_write(&copy, &item) == NIDZARU_COPIED && wholes_end_writer(&copy) == NIDZARU_COPIED && all_give(0, 0), "handles",
          "a copied writer");
    check(!cells_make(&opening, &w, &r), "handles", "a register");
    check(wholes_write((wholes_writer *)&w, &item) == NIDZARU_OTHER_SIDE && wholes_end_writer((wholes_writer *)&w) == NIDZARU_OTHER_SIDE,
          "handles", "a register's writer as a fan's");
    check(cells_write((cells_writer *)&writer, &item) == NIDZARU_OTHER_SIDE &&
              cells_end_writer((cells_writer *)&writer) == NIDZARU_OTHER_SIDE,
          "handles", "a fan's writer as a register's");
    check(!cells_end_writer(&w) && !cells_end_reader(&r) && all_give(0, 0), "handles", "what they leave");
    check(!wholes_move_writer(&moved, &writer) && wholes_write(&writer, &item) == NIDZARU_ENDED, "handles", "a move of the writer");
    check(!wholes_write(&moved, &item) && all_give(1, 1), "handles", "a write after it");
    check(wholes_move_writer(&moved, &writer) == NIDZARU_IN_USE && wholes_move_reader(&other, &reader[0]) == NIDZARU_DONE, "handles",
          "moves");
    check(gives(&other, 1, 1) && wholes_end_reader(&other) == NIDZARU_DONE, "handles", "a moved reader");
    check(!wholes_end_writer(&moved) && wholes_end_writer(&moved) == NIDZARU_ENDED, "handles", "two ends of the writer");
    check(!wholes_end_reader(&reader[1]) && !wholes_end_reader(&reader[2]) && blocks == had, "handles", "all memory is given back");
}

static void refused_memory(void) {
    const struct whole opening = whole_of(0);
    const long had = blocks;
    for (long at = 1;; at++) {
        int is_made, status;
        memset(&writer, 0, sizeof writer);
        memset(reader, 0, sizeof reader);
        refuse_request(at);
        status = wholes_make(&opening, &writer, &reader);
        is_made = had_all(at, status, 3, "memory");
        if (is_made) break;
        check(blocks == had, "memory", "what was made is given back");
        check(!writer.handle.side.live, "memory", "the writer's handle stays empty");
        for (size_t r = 0; r < 3; r++) check(!reader[r].handle.side.live, "memory", "a reader's handle stays empty");
    }
    asked = 0;
    check(all_give(0, 0), "memory", "the opening");
    check(asked == 0, "memory", "a read takes none");
    end("memory");
    check(blocks == had, "memory", "all memory is given back");
}

/* A register whose numbers are used up refuses: all of them, as it would be, or those from the second one on alone, as it can't be. */
static void refused_writes(void) {
    const struct whole item = whole_of(1);
    const long had = blocks;
    begin("refused");
    writes = 0, refuses = 0;
    for (int again = 0; again < 2; again++)
        check(wholes_write(&writer, &item) == NIDZARU_REFUSED && all_give(0, 0), "refused", "a write of which all numbers are used");
    check(writes == 0, "refused", "no other register is asked");
    refuses = UINT_MAX;
    end("refused");
    check(blocks == had, "refused", "all memory is given back");

    begin("one register refuses");
    writes = 0, refuses = 1;
    check(wholes_write(&writer, &item) == NIDZARU_CUT_OFF, "one register refuses", "the write");
    refuses = UINT_MAX;
    check(gives(&reader[0], 1, 1) && gives(&reader[1], 0, 0) && gives(&reader[2], 0, 0), "one register refuses", "what the readers have");
    check(wholes_write(&writer, &item) == NIDZARU_CUT_OFF && writes == 1, "one register refuses", "each later write");
    check(gives(&reader[0], 1, 1) && gives(&reader[1], 0, 0), "one register refuses", "no reader gets another record");
    check(wholes_end_writer(&writer) == NIDZARU_CUT_OFF, "one register refuses", "the writer's end");
    /* (so that no block is left) */
    nidzaru_fan_mark(&writer.handle, NIDZARU_FAN_SIDE);
    end("one register refuses");
}

/* One thread writes as fast as it can, and each reader has a thread of its own, until all is written. */
static uint64_t all_writes = 200000;
static int is_over;

static void *write_all(void *unused) {
    for (uint64_t n = 1; n <= all_writes; n++) {
        const struct whole item = whole_of(n);
        check(!wholes_write(&writer, &item), "threads", "a write");
    }
    __atomic_store_n(&is_over, 1, __ATOMIC_RELEASE);
    return unused;
}

static void *read_all(void *which) {
    uint64_t last = 0;
    for (int was_over = 0; !was_over;) {
        struct whole got;
        uint64_t number = 0;
        was_over = __atomic_load_n(&is_over, __ATOMIC_ACQUIRE);
        check(!wholes_read(which, &got, &number), "threads", "a read");
        check(got.low == number && got.number == 500 + number && got.high == 1000 + number, "threads",
              "a torn record, or another one's number");
        check(number >= last, "threads", "an older record");
        check(!was_over || number == all_writes, "threads", "the last record");
        last = number;
    }
    return 0;
}

static void threads(void) {
    pthread_t writes_all, reads_all[3];
    begin("threads");
    for (size_t r = 0; r < 3; r++) pthread_create(&reads_all[r], 0, read_all, &reader[r]);
    pthread_create(&writes_all, 0, write_all, 0);
    pthread_join(writes_all, 0);
    for (size_t r = 0; r < 3; r++) pthread_join(reads_all[r], 0);
    end("threads");
}

#ifdef TRIPLE
NIDZARU_HOLD(wholes);

static void holds(void) {
    const struct whole item = whole_of(1);
    const struct whole *at[3] = {0, 0, 0};
    uint64_t number[3] = {0, 0, 0};
    begin("holds");
    check(!wholes_write(&writer, &item), "holds", "a write");
    for (size_t r = 0; r < 3; r++) check(!wholes_hold(&reader[r], &at[r], &number[r]), "holds", "a hold");
    check(at[0] != at[1] && at[1] != at[2] && at[0]->low == 1 && at[2]->high == 1001 && number[1] == 1, "holds", "each one where it lies");
    end("holds");
}
#else
static void holds(void) {}
#endif

int main(int count, char **given) {
    if (count > 1) all_writes = strtoull(given[1], 0, 10);
    numbers();
    kinds();
    refused_handles();
    refused_memory();
    refused_writes();
    holds();
    threads();
    if (failed) return 1;
    puts("passed");
    return 0;
}
