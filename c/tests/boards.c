/* Boards: threads that each write and read one record, over four-slot cells, or with -DTRIPLE over triple buffers.
 * usage: boards [CALLS]. Link with --wrap=malloc,--wrap=realloc,--wrap=free. */
#include "nidzaru.h"
#include <pthread.h>
#include <stdio.h>
#include <stdlib.h>

static int failed;
static void check(int holds, const char *what) {
    if (!holds) {
        __atomic_store_n(&failed, 1, __ATOMIC_RELAXED);
        printf("FAILED: %s\n", what);
    }
}

/* The program's memory, with the requests counted and one of them refused. */
void *__real_malloc(size_t size);
void *__real_realloc(void *old, size_t size);
void __real_free(void *old);
static long asked, refuse = -1, blocks;
void *__wrap_malloc(size_t size) {
    void *made;
    if (__atomic_add_fetch(&asked, 1, __ATOMIC_SEQ_CST) == refuse) return 0;
    made = __real_malloc(size);
    if (made) __atomic_add_fetch(&blocks, 1, __ATOMIC_SEQ_CST);
    return made;
}
void *__wrap_realloc(void *old, size_t size) {
    void *made;
    if (__atomic_add_fetch(&asked, 1, __ATOMIC_SEQ_CST) == refuse) return 0;
    made = __real_realloc(old, size);
    if (made && !old) __atomic_add_fetch(&blocks, 1, __ATOMIC_SEQ_CST);
    return made;
}
void __wrap_free(void *old) {
    if (old) __atomic_sub_fetch(&blocks, 1, __ATOMIC_SEQ_CST);
    __real_free(old);
}

/* Records that are passed where they lie, a small and the largest one, and one that a copy goes through. */
struct small { uint64_t words[3]; };
struct odd { uint32_t words[5]; };
struct large { uint64_t words[512]; };
#ifdef TRIPLE
#define BOARD NIDZARU_TRIPLE_BOARD
#define CALL(rest) nidzaru_triple_board_##rest
#define OTHER(rest) nidzaru_board_##rest
#else
#define BOARD NIDZARU_BOARD
#define CALL(rest) nidzaru_board_##rest
#define OTHER(rest) nidzaru_triple_board_##rest
#endif
BOARD(smalls, struct small);
BOARD(odds, struct odd);
BOARD(larges, struct large);
BOARD(bytes, char);
NIDZARU_REGISTER(cells, struct small);

static uint64_t calls = 20000;
static pthread_barrier_t start;

/* A task, and the stamp that it told last. */
struct task {
    smalls_place place;
    odds_place odd;
    larges_place large;
    uint64_t me, count, torn, fell, wrong, older;
    uint64_t told[2];
    pthread_mutex_t telling;
};
static struct task tasks[16];

static void tell(struct task *me, nidzaru_stamp stamp) {
    pthread_mutex_lock(&me->telling);
    me->told[0] = stamp.tag, me->told[1] = stamp.writer;
    pthread_mutex_unlock(&me->telling);
}

static nidzaru_stamp told_by(struct task *it) {
    nidzaru_stamp stamp;
    pthread_mutex_lock(&it->telling);
    stamp.tag = it->told[0], stamp.writer = it->told[1];
    pthread_mutex_unlock(&it->telling);
    return stamp;
}

static void look_at(struct task *me, const struct small *s, nidzaru_stamp stamp, nidzaru_stamp *last) {
    me->torn += s->words[1] != s->words[0] * 3 || s->words[2] != s->words[0] * 5;
    me->fell += nidzaru_stamp_is_below(stamp, *last);
    *last = stamp;
}

/* The largest record, written and read. */
static void run_large(struct task *me, uint64_t x, nidzaru_stamp *last) {
    struct large l;
    nidzaru_stamp stamp = {0, 0};
    for (uint64_t k = 0; k < 512; k++) l.words[k] = x + k;
    me->wrong += larges_write(&me->large, &l, &stamp) != 0 || stamp.writer != me->me;
    me->fell += !nidzaru_stamp_is_below(*last, stamp);
    me->wrong += larges_read(&me->large, &l, last) != 0;
    me->fell += nidzaru_stamp_is_below(*last, stamp);
    for (uint64_t k = 0; k < 512; k++) me->torn += l.words[k] != l.words[0] + k;
}

static void *run(void *shared) {
    struct task *me = shared;
    nidzaru_stamp last = {0, 0}, stamp = {0, 0}, odd_last = {0, 0}, large_last = {0, 0};
    pthread_barrier_wait(&start);
    for (uint64_t i = 1; i <= calls; i++) {
        uint64_t x = me->me * 1000000007u + i;
        struct small s = {{x, x * 3, x * 5}};
        struct odd o;
        int status;
        me->wrong += smalls_write(&me->place, &s, &stamp) != 0 || stamp.writer != me->me;
        me->fell += !nidzaru_stamp_is_below(last, stamp);
        last = stamp;
        tell(me, stamp);
        me->wrong += smalls_read(&me->place, &s, &stamp) != 0;
        look_at(me, &s, stamp, &last);
        /* what another task has told is written: no answer is older */
        status = smalls_read_since(&me->place, told_by(&tasks[(me->me + i) % me->count]), &s, &stamp);
        me->older += status == NIDZARU_OLDER;
        me->wrong += status && status != NIDZARU_OLDER;
        look_at(me, &s, stamp, &last);
        for (int k = 0; k < 5; k++) o.words[k] = (uint32_t)x;
        me->wrong += odds_write(&me->odd, &o, &stamp) != 0 || odds_read(&me->odd, &o, &stamp) != 0;
        me->fell += nidzaru_stamp_is_below(stamp, odd_last);
        odd_last = stamp;
        for (int k = 0; k < 5; k++) me->torn += o.words[k] != o.words[0];
        if (i % 8 == 0) run_large(me, x, &large_last);
    }
    check(!smalls_end(&me->place) && !odds_end(&me->odd) && !larges_end(&me->large), "the end in its thread");
    return 0;
}

static void threads(size_t n) {
    smalls_place places[16];
    odds_place odd[16];
    larges_place large[16];
    pthread_t of[16];
    struct small s = {{0, 0, 0}};
    struct odd o = {{0}};
    struct large l;
    for (uint64_t k = 0; k < 512; k++) l.words[k] = k;
    memset(tasks, 0, sizeof tasks), memset(places, 0, sizeof places), memset(odd, 0, sizeof odd), memset(large, 0, sizeof large);
    check(!smalls_make(&s, places, n) && !odds_make(&o, odd, n) && !larges_make(&l, large, n), "make");
    pthread_barrier_init(&start, 0, (unsigned)n);
    for (size_t i = 0; i < n; i++) {
        tasks[i].me = i, tasks[i].count = n;
        pthread_mutex_init(&tasks[i].telling, 0);
        check(!smalls_move(&tasks[i].place, &places[i]) && !odds_move(&tasks[i].odd, &odd[i])
            && !larges_move(&tasks[i].large, &large[i]), "move");
    }
    for (size_t i = 0; i < n; i++) pthread_create(&of[i], 0, run, &tasks[i]);
    for (size_t i = 0; i < n; i++) pthread_join(of[i], 0);
    pthread_barrier_destroy(&start);
    for (size_t i = 0; i < n; i++) {
        pthread_mutex_destroy(&tasks[i].telling);
        check(!tasks[i].torn, "a torn record");
        check(!tasks[i].fell, "a stamp that fell");
        check(!tasks[i].wrong, "a call that was refused");
        check(!tasks[i].older, "an answer that is older than what was told");
    }
}

static void statuses(void) {
    smalls_place p[3] = {NIDZARU_EMPTY, NIDZARU_EMPTY, NIDZARU_EMPTY}, q[17], copy;
    odds_place o[2] = {NIDZARU_EMPTY, NIDZARU_EMPTY};
    bytes_place b[2] = {NIDZARU_EMPTY, NIDZARU_EMPTY};
    cells_writer w = NIDZARU_EMPTY;
    cells_reader r = NIDZARU_EMPTY;
    struct small s = {{1, 3, 5}}, t = {{9, 9, 9}};
    struct odd x = {{0}};
    nidzaru_stamp stamp = {77, 78}, least = {0, 2};
    nidzaru_side sides[17] = {{0, 0}};
    uint64_t n;
    char c = 'a';
    memset(q, 0, sizeof q);
    check(smalls_write(p, &s, &stamp) == NIDZARU_ENDED && smalls_read(p, &t, &stamp) == NIDZARU_ENDED
        && smalls_read_since(p, least, &t, &stamp) == NIDZARU_ENDED && smalls_end(p) == NIDZARU_ENDED, "no place yet");
    check(stamp.tag == 77 && t.words[0] == 9, "a refused call writes nothing");
    check(CALL(24_make)(&s, NIDZARU_UNLIMITED, sides, 1) == NIDZARU_PROCESSES, "one place");
    check(CALL(24_make)(&s, NIDZARU_UNLIMITED, sides, 17) == NIDZARU_PROCESSES, "17 places");
    check(CALL(24_make)(&s, NIDZARU_UNLIMITED, sides, 0) == NIDZARU_PROCESSES, "no place");
    check(CALL(24_make)(&s, 0, sides, 2) == NIDZARU_LIMIT, "limit 0");
    check(CALL(24_make)(&s, UINT64_MAX, sides, 2) == NIDZARU_LIMIT, "limit 2^64 - 1");
    check(smalls_make(&s, q, 1) == NIDZARU_PROCESSES && smalls_make(&s, q, 17) == NIDZARU_PROCESSES, "places");
    check(smalls_make_limited(&s, 0, q, 2) == NIDZARU_LIMIT, "a limit");
    check(!smalls_make_limited(&s, 2, p, 3), "make");
    check(smalls_make(&s, p, 3) == NIDZARU_IN_USE, "in use");
    check(CALL(24_make)(&s, 1, &p[2].handle.side, 1) == NIDZARU_IN_USE, "in use, by the library");
    check(!smalls_read(&p[1], &t, &stamp) && t.words[2] == 5 && stamp.tag == 0 && stamp.writer == 0, "the opening");
    s.words[0] = 10;
    check(!smalls_write(&p[0], &s, &stamp) && stamp.tag == 1 && stamp.writer == 0, "the first write");
    check(!smalls_read_since(&p[1], stamp, &t, &stamp) && t.words[0] == 10 && stamp.tag == 1, "read since its stamp");
    least.tag = 1;
    t.words[0] = 9;
    check(smalls_read_since(&p[1], least, &t, &stamp) == NIDZARU_OLDER && stamp.tag == 1 && t.words[0] == 10, "older");
    s.words[0] = 20;
    check(!smalls_write(&p[2], &s, &stamp) && stamp.tag == 2 && stamp.writer == 2, "the second write");
    stamp.tag = 55;
    check(smalls_write(&p[1], &s, &stamp) == NIDZARU_REFUSED && stamp.tag == 55, "the tags have ended");
    check(!smalls_read(&p[0], &t, &stamp) && t.words[0] == 20 && stamp.tag == 2, "a read after the tags have ended");
    check(OTHER(24_read)(&p[0].handle.side, &t, &stamp) == NIDZARU_OTHER_SIDE, "a place over another family");
    check(CALL(256_write)(&p[0].handle.side, &s, &stamp) == NIDZARU_OTHER_SIDE, "a place of another size");
    check(!odds_make(&x, o, 2), "make odd");
    check(nidzaru_24_write(&p[0].handle.side, &s) == NIDZARU_OTHER_SIDE, "a place for a cell's call");
    check(!cells_make(&s, &w, &r), "a cell");
    check(CALL(24_read)(&w.handle.side, &t, &stamp) == NIDZARU_OTHER_SIDE, "a cell's side for a board's call");
    check(CALL(24_end)(&r.handle.side) == NIDZARU_OTHER_SIDE, "a cell's side for a board's end");
    check(!cells_read(&r, &t, &n), "and it is still there");
    check(!cells_end_writer(&w) && !cells_end_reader(&r), "the cell's end");
    memcpy(&copy, &p[0], sizeof copy);
    check(smalls_read(&copy, &t, &stamp) == NIDZARU_COPIED && smalls_end(&copy) == NIDZARU_COPIED, "a copy");
    check(smalls_write(0, &s, &stamp) == NIDZARU_NULL && smalls_write(p, 0, &stamp) == NIDZARU_NULL && smalls_write(p, &s, 0) == NIDZARU_NULL
        && smalls_read(p, 0, &stamp) == NIDZARU_NULL && smalls_read_since(p, least, &t, 0) == NIDZARU_NULL && smalls_end(0) == NIDZARU_NULL
        && smalls_make(0, q, 2) == NIDZARU_NULL && smalls_make(&s, 0, 2) == NIDZARU_NULL, "null");
    check(!smalls_end(&p[1]) && !smalls_read(&p[0], &t, &stamp) && t.words[0] == 20, "the others go on");
    check(!smalls_end(&p[2]) && !smalls_end(&p[0]) && smalls_end(&p[0]) == NIDZARU_ENDED, "ends in any order");
    for (int k = 0; k < 2; k++) check(!odds_end(&o[k]), "end odd");
    check(!bytes_make(&c, b, 2), "make bytes");
    c = 'b';
    check(!bytes_write(&b[1], &c, &stamp) && stamp.writer == 1, "a write of one byte");
    c = 0;
    check(!bytes_read(&b[0], &c, &stamp) && c == 'b' && !bytes_end(&b[0]) && !bytes_end(&b[1]), "a read of one byte");
}

static void refusals(void) {
    struct small s = {{1, 2, 3}};
    for (size_t n = 2; n <= 4; n += 2)
        for (refuse = 1;; refuse++) {
            smalls_place p[4] = {NIDZARU_EMPTY, NIDZARU_EMPTY, NIDZARU_EMPTY, NIDZARU_EMPTY};
            nidzaru_stamp stamp = {0, 0};
            long before = blocks, took;
            int status;
            asked = 0;
            status = smalls_make(&s, p, n);
            if (!status) {
                took = asked;
                check(refuse > 1 && took < refuse, "a request that was refused, and a board all the same");
                check(!smalls_write(&p[0], &s, &stamp) && !smalls_read(&p[1], &s, &stamp)
                    && !smalls_read_since(&p[1], stamp, &s, &stamp), "calls");
                check(asked == took, "a call but make took memory");
                for (size_t k = 0; k < n; k++) check(!smalls_end(&p[k]), "end");
                check(blocks == before, "blocks left by a board that was ended");
                printf("a board of %zu places asks for memory %ld times\n", n, took);
                break;
            }
            check(status == NIDZARU_NO_MEMORY && !p[0].handle.side.live && !p[n - 1].handle.side.live, "no memory");
            check(blocks == before, "blocks left by a make that was refused");
        }
    refuse = -1;
}

int main(int n, char **words) {
    long before;
    if (n > 1) calls = strtoull(words[1], 0, 10);
    statuses();
    refusals();
    before = blocks;
    threads(2), threads(4), threads(16);
    check(blocks == before, "blocks left");
    puts(failed ? "failed" : "passed");
    return failed != 0;
}
