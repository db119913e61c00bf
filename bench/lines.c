/* What lines of the cache cost that two threads share: a register of C whose sides two threads call, in heaps that the program has used in
 * different ways before it makes the register. bench/lines.sh compiles it, with BYTES for the size of a record and, in place of four slots,
 * TRIPLE for a triple buffer or PLAIN for four slots without handles or numbers, on lines of their own.
 *   lines busy LAYOUT          both threads at full speed for 20 ms: prints ns of a write and of a read
 *   lines paced LAYOUT         a write every 1.000 us and a read every 1.037 us for 20 ms: prints the medians in ns of the calls before
 *                              which the other side made one, without what the clock takes
 *   lines write|read LAYOUT N  N calls of one side alone, to be counted or traced
 * LAYOUT is 0 to 3: a block of 24, 40, 56 or 72 bytes is taken before the register is made, so that each block begins at another place of its
 * line; or 4: the register is made in a heap with holes, and the records of both threads lie between them. A run in which a thread was put
 * off its processor doesn't count, and is made anew. */
#define _GNU_SOURCE
#include <nidzaru.h>
#include <pthread.h>
#include <stdatomic.h>
#include <stdio.h>
#include <stdlib.h>
#include <string.h>
#include <sys/resource.h>
#include <time.h>

#ifndef BYTES
#define BYTES 24
#endif
enum { WORDS = BYTES / 8, RUN_NS = 20000000, ATTEMPTS = 500, MOST = RUN_NS / 1000 + 1, HOLES = 256 };

struct record {
    uint64_t words[WORDS];
};

#ifdef PLAIN
#define LINE _Alignas(128)
static LINE struct {
    _Atomic uint64_t latest, index[2];
} said_by_writer;
static LINE _Atomic uint64_t reading;
static struct {
    LINE struct record record;
} slots[2][2];

static int make(const struct record *first) {
    for (int i = 0; i < 4; i++) slots[i / 2][i % 2].record = *first;
    return 0;
}

__attribute__((noinline)) static int write_one(const struct record *item) {
    const uint64_t pair = !reading, index = !said_by_writer.index[pair];
    slots[pair][index].record = *item;
    said_by_writer.index[pair] = index;
    said_by_writer.latest = pair;
    return 0;
}

__attribute__((noinline)) static int read_one(struct record *item) {
    const uint64_t pair = said_by_writer.latest;
    reading = pair;
    *item = slots[pair][said_by_writer.index[pair]].record;
    return 0;
}
#else
#ifdef TRIPLE
NIDZARU_TRIPLE_REGISTER(cells, struct record);
#else
NIDZARU_REGISTER(cells, struct record);
#endif
static _Alignas(128) cells_writer writer = NIDZARU_EMPTY;
static _Alignas(128) cells_reader reader = NIDZARU_EMPTY;

static int make(const struct record *first) { return cells_make(first, &writer, &reader); }

__attribute__((noinline)) static int write_one(const struct record *item) { return cells_write(&writer, item); }

__attribute__((noinline)) static int read_one(struct record *item) {
    uint64_t number;
    return cells_read(&reader, item, &number);
}
#endif

static void stop(const char *why) {
    fprintf(stderr, "lines: %s\n", why);
    exit(1);
}

static void *block(size_t bytes) {
    void *at = malloc(bytes);
    if (!at) stop("no memory");
    return memset(at, 0, bytes);
}

static _Alignas(128) struct record given[2], taken[2];
static struct record *gives = given, *takes = taken;

/* What the program does with its heap before it makes the register. */
static void lay_out(int layout) {
    void *blocks[HOLES];
    if (layout < 4) {
        block((size_t)(24 + 16 * layout));
        return;
    }
    for (int i = 0; i < HOLES; i++) blocks[i] = block((size_t)(16 + 16 * (i % 37)));
    gives = block(sizeof *gives);
    takes = block(sizeof *takes);
    for (int i = 1; i < HOLES; i += 2) free(blocks[i]);
}

static uint64_t now(void) {
    struct timespec at;
    clock_gettime(CLOCK_MONOTONIC, &at);
    return (uint64_t)at.tv_sec * 1000000000 + (uint64_t)at.tv_nsec;
}

/* How often this thread was put off its processor. */
static long put_off(void) {
    struct rusage used;
    getrusage(RUSAGE_THREAD, &used);
    return used.ru_nivcsw;
}

/* What one thread does, and what it found. */
struct side {
    _Alignas(128) _Atomic uint64_t calls;
    struct side *other;
    int writes, paced;
    double ns;
    long put_off;
    uint64_t times[MOST];
};
static struct side sides[2];
static _Alignas(128) _Atomic int ready;
static _Alignas(128) uint64_t clock_cost;

static void call(const struct side *side, uint64_t n) {
    if (side->writes) {
        gives->words[0] = gives->words[WORDS - 1] = n;
        if (write_one(gives)) stop("a write was refused");
    } else {
        if (read_one(takes)) stop("a read was refused");
        if (takes->words[0] != takes->words[WORDS - 1]) stop("a torn record");
    }
}

static int by_value(const void *a, const void *b) {
    const uint64_t x = *(const uint64_t *)a, y = *(const uint64_t *)b;
    return (x > y) - (x < y);
}

static void at_full_speed(struct side *side) {
    const uint64_t began = now();
    uint64_t calls = 0, ended = began;
    while (ended < began + RUN_NS) {
        for (int i = 0; i < 1000; i++) call(side, calls++);
        ended = now();
    }
    side->ns = (double)(ended - began) / (double)calls;
}

static void at_beats(struct side *side) {
    const uint64_t began = now(), step = side->writes ? 1000 : 1037;
    uint64_t next = began, seen = 0, calls = 0;
    int count = 0;
    while (next < began + RUN_NS) {
        next += step;
        while (now() < next) {
        }
        const uint64_t before = now();
        call(side, calls++);
        const uint64_t after = now();
        side->calls++;
        const uint64_t theirs = side->other->calls;
        if (theirs != seen && count < MOST) side->times[count++] = after - before;
        seen = theirs;
    }
    if (count < 1000) stop("too few calls count");
    qsort(side->times, (size_t)count, sizeof *side->times, by_value);
    const uint64_t median = side->times[count / 2];
    side->ns = median > clock_cost ? (double)(median - clock_cost) : 0;
}

static void *run(void *given_side) {
    struct side *side = given_side;
    const long before = put_off();
    ready++;
    while (ready < 2) {
    }
    if (side->paced) at_beats(side);
    else at_full_speed(side);
    side->put_off = put_off() - before;
    return NULL;
}

/* One run of both threads, and whether it counts. */
static int once(int paced) {
    pthread_t threads[2];
    ready = 0;
    for (int i = 0; i < 2; i++) {
        sides[i].calls = 0;
        sides[i].other = &sides[1 - i];
        sides[i].writes = i == 0;
        sides[i].paced = paced;
        if (pthread_create(&threads[i], NULL, run, &sides[i])) stop("no thread");
    }
    for (int i = 0; i < 2; i++) pthread_join(threads[i], NULL);
    return !sides[0].put_off && !sides[1].put_off;
}

int main(int count, char **words) {
    const struct record first = {{0}};
    if (count < 3) stop("usage: lines busy|paced|write|read LAYOUT [CALLS]");
    lay_out(atoi(words[2]));
    if (make(&first)) stop("the register wasn't made");
    if (count == 4) {
        const struct side side = {.writes = !strcmp(words[1], "write")};
        for (long i = 0; i < atol(words[3]); i++) call(&side, 1);
        return 0;
    }
    clock_cost = UINT64_MAX;
    for (int i = 0; i < 20000; i++) {
        const uint64_t before = now(), after = now();
        if (after - before < clock_cost) clock_cost = after - before;
    }
    for (int i = 0; i < ATTEMPTS; i++) {
        if (!once(!strcmp(words[1], "paced"))) continue;
        printf("%.1f %.1f\n", sides[0].ns, sides[1].ns);
        return 0;
    }
    stop("the machine is too busy: in each run a thread was put off its processor");
}
