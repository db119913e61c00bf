/* One writer and one reader over each way to share a record, in one run: the library's registers, a mutex, a lock of readers and writers, a
 * sequence lock, and read-copy-update by liburcu. A line for each size, way and mode: the median, the 99.9th and 99.99th percentile and the most of
 * a call in ns, and the records that were torn or older.
 *
 *   cc -std=gnu11 -O2 -DBYTES=24 [-DURCU -lurcu-memb] beside.c $(pkg-config --cflags --libs nidzaru) -pthread -o beside && ./beside [CALLS [SEED]]
 *
 * Modes: `alone`, one thread that writes and reads in turn; `busy`, a writer and a reader at full speed on two processors, each with a call timed
 * now and then. bench/beside.py runs all sizes, by turns, and draws the picture. */
#define _GNU_SOURCE
#include <nidzaru.h>
#include <pthread.h>
#include <sched.h>
#include <stdatomic.h>
#include <stdio.h>
#include <stdlib.h>
#include <string.h>
#include <time.h>
#ifdef URCU
#include <urcu/urcu-memb.h>
#endif

enum { WORDS = BYTES / 8 };
struct record { uint64_t words[WORDS]; };
NIDZARU_REGISTER(fours, struct record);
NIDZARU_TRIPLE_REGISTER(triples, struct record);

/* A way: how it writes and reads a record. */
struct way {
    const char *name;
    void (*write)(const struct record *item);
    void (*read)(struct record *item);
};

static void must(int status) {
    if (status) abort();
}

static fours_writer four_in;
static fours_reader four_out;
static void write_four(const struct record *item) { must(fours_write(&four_in, item)); }
static void read_four(struct record *item) { must(fours_latest(&four_out, item)); }

static triples_writer triple_in;
static triples_reader triple_out;
static void write_triple(const struct record *item) { must(triples_write(&triple_in, item)); }
static void read_triple(struct record *item) { must(triples_latest(&triple_out, item)); }

static struct record locked;
static pthread_mutex_t mutex = PTHREAD_MUTEX_INITIALIZER;
static void write_mutex(const struct record *item) {
    must(pthread_mutex_lock(&mutex));
    locked = *item;
    must(pthread_mutex_unlock(&mutex));
}
static void read_mutex(struct record *item) {
    must(pthread_mutex_lock(&mutex));
    *item = locked;
    must(pthread_mutex_unlock(&mutex));
}

static pthread_rwlock_t rwlock = PTHREAD_RWLOCK_INITIALIZER;
static void write_rwlock(const struct record *item) {
    must(pthread_rwlock_wrlock(&rwlock));
    locked = *item;
    must(pthread_rwlock_unlock(&rwlock));
}
static void read_rwlock(struct record *item) {
    must(pthread_rwlock_rdlock(&rwlock));
    *item = locked;
    must(pthread_rwlock_unlock(&rwlock));
}

static _Atomic uint64_t sequence, words[WORDS];
static void write_seqlock(const struct record *item) {
    const uint64_t before = atomic_load_explicit(&sequence, memory_order_relaxed);
    atomic_store_explicit(&sequence, before + 1, memory_order_relaxed);
    atomic_thread_fence(memory_order_release);
    for (int k = 0; k < WORDS; k++) atomic_store_explicit(&words[k], item->words[k], memory_order_relaxed);
    atomic_store_explicit(&sequence, before + 2, memory_order_release);
}
static void read_seqlock(struct record *item) {
    uint64_t before;
    do {
        before = atomic_load_explicit(&sequence, memory_order_acquire);
        for (int k = 0; k < WORDS; k++) item->words[k] = atomic_load_explicit(&words[k], memory_order_relaxed);
        atomic_thread_fence(memory_order_acquire);
    } while (before & 1 || before != atomic_load_explicit(&sequence, memory_order_relaxed));
}

#ifdef URCU
/* The writer makes a copy, shows it, and waits for the readers of the one before: with a queue it would wait for memory in their place. */
static struct record *shown;
static void write_urcu(const struct record *item) {
    struct record *next = malloc(sizeof *next), *before;
    must(!next);
    *next = *item;
    before = rcu_xchg_pointer(&shown, next);
    urcu_memb_synchronize_rcu();
    free(before);
}
static void read_urcu(struct record *item) {
    urcu_memb_read_lock();
    *item = *rcu_dereference(shown);
    urcu_memb_read_unlock();
}
#define BEGIN_THREAD() urcu_memb_register_thread()
#define END_THREAD() urcu_memb_unregister_thread()
#else
#define BEGIN_THREAD() ((void)0)
#define END_THREAD() ((void)0)
#endif

static const struct way ways[] = {
    {"four_slot", write_four, read_four}, {"triple", write_triple, read_triple}, {"mutex", write_mutex, read_mutex},
    {"rwlock", write_rwlock, read_rwlock}, {"seqlock", write_seqlock, read_seqlock},
#ifdef URCU
    {"urcu", write_urcu, read_urcu},
#endif
};
enum { WAYS = sizeof ways / sizeof *ways };

static uint64_t now(void) {
    struct timespec t;
    clock_gettime(CLOCK_MONOTONIC, &t);
    return (uint64_t)t.tv_sec * 1000000000u + (uint64_t)t.tv_nsec;
}

/* What the clock itself takes, of two readings in turn. */
static uint64_t own_time(void) {
    uint64_t least = UINT64_MAX;
    for (int k = 0; k < 10000; k++) {
        const uint64_t at = now(), took = now() - at;
        if (took < least) least = took;
    }
    return least;
}

/* Times of one side's calls. */
struct times {
    uint64_t *of;
    size_t count, wrong;
};

static size_t calls = 2000000;
static uint64_t clock_takes;
static atomic_int is_over, are_ready;
static const struct way *way;

static void add(struct times *times, uint64_t took) {
    if (times->count < calls) times->of[times->count++] = took > clock_takes ? took - clock_takes : 0;
}

static int by_size(const void *a, const void *b) {
    const uint64_t x = *(const uint64_t *)a, y = *(const uint64_t *)b;
    return (x > y) - (x < y);
}

static void tell(const char *mode, const char *call, struct times *times) {
    const size_t n = times->count;
    qsort(times->of, n, sizeof *times->of, by_size);
    printf("%d,%s,%s,%s,%llu,%llu,%llu,%llu,%zu,%zu\n", BYTES, way->name, mode, call, (unsigned long long)times->of[n / 2],
           (unsigned long long)times->of[n * 999 / 1000], (unsigned long long)times->of[n * 9999 / 10000], (unsigned long long)times->of[n - 1],
           n, times->wrong);
}

static void fill(struct record *item, uint64_t n) {
    for (int k = 0; k < WORDS; k++) item->words[k] = n;
}

/* Whether a record is torn or older than the one before. */
static int is_wrong(const struct record *item, uint64_t *last) {
    int wrong = item->words[0] < *last;
    for (int k = 1; k < WORDS; k++) wrong |= item->words[k] != item->words[0];
    *last = item->words[0];
    return wrong;
}

static struct times writes, reads;

static void alone(void) {
    static struct record in, out;
    uint64_t last = 0;
    writes.count = reads.count = writes.wrong = reads.wrong = 0;
    BEGIN_THREAD();
    for (uint64_t n = 1; n <= calls / 20; n++) {
        uint64_t at;
        fill(&in, n);
        at = now();
        way->write(&in);
        add(&writes, now() - at);
        at = now();
        way->read(&out);
        add(&reads, now() - at);
        reads.wrong += (size_t)(is_wrong(&out, &last) || last != n);
    }
    END_THREAD();
    tell("alone", "write", &writes);
    tell("alone", "read", &reads);
}

static void pin(int processor) {
    cpu_set_t set;
    CPU_ZERO(&set);
    CPU_SET(processor, &set);
    sched_setaffinity(0, sizeof set, &set);
}

static void wait_for_both(void) {
    are_ready++;
    while (are_ready < 2) continue;
}

static void *write_all(void *unused) {
    static struct record item;
    pin(0);
    BEGIN_THREAD();
    wait_for_both();
    for (uint64_t n = 1; !is_over; n++) {
        uint64_t at;
        fill(&item, n);
        at = now();
        way->write(&item);
        add(&writes, now() - at);
    }
    END_THREAD();
    return unused;
}

static void *read_all(void *unused) {
    static struct record item;
    uint64_t last = 0;
    pin(1);
    BEGIN_THREAD();
    wait_for_both();
    while (reads.count < calls) {
        const uint64_t at = now();
        way->read(&item);
        add(&reads, now() - at);
        reads.wrong += (size_t)is_wrong(&item, &last);
    }
    is_over = 1;
    END_THREAD();
    return unused;
}

static void busy(void) {
    pthread_t writer, reader;
    writes.count = reads.count = writes.wrong = reads.wrong = 0;
    is_over = are_ready = 0;
    must(pthread_create(&writer, 0, write_all, 0));
    must(pthread_create(&reader, 0, read_all, 0));
    pthread_join(writer, 0);
    pthread_join(reader, 0);
    tell("busy", "write", &writes);
    tell("busy", "read", &reads);
}

int main(int count, char **given) {
    static const struct record none;
    const size_t from = count > 2 ? strtoul(given[2], 0, 10) : 0;
    size_t wrong = 0;
    if (count > 1) calls = strtoul(given[1], 0, 10);
    writes.of = calloc(calls, sizeof *writes.of);
    reads.of = calloc(calls, sizeof *reads.of);
    if (!writes.of || !reads.of || calls < 100000) return 2;
    clock_takes = own_time();
    for (size_t k = 0; k < WAYS; k++) {
        way = &ways[(k + from) % WAYS];
        /* (beside a busy writer of large records its reader never ends) */
        if (BYTES > 4096 && !strcmp(way->name, "seqlock")) continue;
        must(fours_make(&none, &four_in, &four_out) || triples_make(&none, &triple_in, &triple_out));
        memset(&locked, 0, sizeof locked);
        for (int n = 0; n < WORDS; n++) words[n] = 0;
        sequence = 0;
#ifdef URCU
        shown = calloc(1, sizeof *shown);
        must(!shown);
#endif
        alone();
        wrong += reads.wrong;
        fours_end_writer(&four_in), fours_end_reader(&four_out), triples_end_writer(&triple_in), triples_end_reader(&triple_out);
        must(fours_make(&none, &four_in, &four_out) || triples_make(&none, &triple_in, &triple_out));
        memset(&locked, 0, sizeof locked);
        for (int n = 0; n < WORDS; n++) words[n] = 0;
#ifdef URCU
        memset(shown, 0, sizeof *shown);
#endif
        busy();
        wrong += reads.wrong;
        fours_end_writer(&four_in), fours_end_reader(&four_out), triples_end_writer(&triple_in), triples_end_reader(&triple_out);
    }
    return wrong != 0;
}
