/* A register of one's own, a sequence lock, recorded for `fsr order`. It has a bug: readers look at the sequence before they copy, and
 * not again behind it.
 *
 * cc -std=c11 -D_POSIX_C_SOURCE=200809L -O2 -pthread -I c examples/c/recorder.c -o recorder
 * ./recorder 1000000 > log.jsonl; ./recorder 1000000 mended > log.jsonl
 * With `live` behind that it writes lines and floors while the threads run: ./recorder 1000000 live | fsr watch */
#include "nidzaru_log.h"
#include <pthread.h>
#include <stdatomic.h>

enum { WORDS = 4, THREADS = 3 };

/* What a sensor publishes. Each has its own number. */
struct reading {
    uint64_t number, low, high, value;
};

static atomic_ullong sequence, words[WORDS];
static atomic_int running = THREADS;
static int mended, is_live;

static void publish(const struct reading *r) {
    uint64_t from[WORDS], now = atomic_load_explicit(&sequence, memory_order_relaxed);
    memcpy(from, r, sizeof from);
    atomic_store_explicit(&sequence, now + 1, memory_order_relaxed);
    atomic_thread_fence(memory_order_release);
    for (int k = 0; k < WORDS; k++) atomic_store_explicit(&words[k], from[k], memory_order_relaxed);
    atomic_store_explicit(&sequence, now + 2, memory_order_release);
}

static void fetch(struct reading *r) {
    uint64_t to[WORDS], before, after;
    do {
        before = atomic_load_explicit(&sequence, memory_order_acquire);
        for (int k = 0; k < WORDS; k++) to[k] = atomic_load_explicit(&words[k], memory_order_relaxed);
        atomic_thread_fence(memory_order_acquire);
        after = mended ? atomic_load_explicit(&sequence, memory_order_relaxed) : before;
    } while (before % 2 || before != after);
    memcpy(r, to, sizeof to);
}

static nidzaru_log logs[THREADS];
static pthread_barrier_t start;

static void *write_all(void *shared) {
    nidzaru_log *log = shared;
    struct reading r = {0, 0, 0, 0};
    pthread_barrier_wait(&start);
    while (!nidzaru_log_is_full(log)) {
        r.number++, r.low = r.number + 20, r.value = r.number + 50, r.high = r.number + 80;
        nidzaru_log_begin_write(log, r.number, &r, sizeof r);
        publish(&r);
        nidzaru_log_end_write(log);
    }
    atomic_fetch_sub(&running, 1);
    return 0;
}

static void *read_all(void *shared) {
    nidzaru_log *log = shared;
    struct reading r;
    pthread_barrier_wait(&start);
    while (!nidzaru_log_is_full(log)) {
        nidzaru_log_begin_read(log);
        fetch(&r);
        nidzaru_log_end_read(log, r.number, &r, sizeof r);
    }
    atomic_fetch_sub(&running, 1);
    return 0;
}

static int drain_all(nidzaru_log *const *all, nidzaru_log_record opening) {
    struct timespec millisecond = {0, 1000000};
    nidzaru_log_header(stdout, opening, 0);
    while (atomic_load(&running)) {
        int status = nidzaru_log_drain(stdout, all, THREADS);
        if (status) return status;
        nanosleep(&millisecond, 0);
    }
    return nidzaru_log_finish(stdout, all, THREADS);
}

int main(int count, char **arguments) {
    struct reading opening = {0, 0, 0, 0};
    nidzaru_log_record held = nidzaru_log_record_of(opening.number, &opening, sizeof opening);
    int status = 0;
    nidzaru_log *all[THREADS];
    pthread_t threads[THREADS];
    size_t operations = count > 1 ? strtoul(arguments[1], 0, 10) : 1000000;
    for (int k = 2; k < count; k++) {
        mended |= !strcmp(arguments[k], "mended");
        is_live |= !strcmp(arguments[k], "live");
    }
    pthread_barrier_init(&start, 0, THREADS);
    for (int k = 0; k < THREADS; k++) {
        all[k] = &logs[k];
        if (nidzaru_log_open(all[k], (uint64_t)k, operations / THREADS)) return 1;
    }
    nidzaru_log_pace(all, THREADS, 200);
    for (int k = 0; k < THREADS; k++) pthread_create(&threads[k], 0, k ? read_all : write_all, all[k]);
    if (is_live) status = drain_all(all, held);
    if (status) return status;
    for (int k = 0; k < THREADS; k++) pthread_join(threads[k], 0);
    return is_live ? 0 : nidzaru_log_merge(stdout, all, THREADS, held, 0);
}
