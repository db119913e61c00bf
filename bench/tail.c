/* How long a read and its handling of the record take in a thread of SCHED_FIFO that wakes every 100 microseconds, beside a normal thread that
 * writes 1,024 bytes as fast as it can and threads that burn the processors: the median, 99 %, 99.9 %, 99.99 % and the most.
 *
 * cc -std=gnu11 -O2 tail.c $(pkg-config --cflags --libs nidzaru) -pthread -o tail && ./tail WAY [SECONDS [BURNING]]
 *
 * WAY is four_slot, triple, mutex, inherit or seqlock. In 120 seconds it wakes a million times, so that a hundred are above 99.99 %. All threads run on the processors that it is given (taskset). */
#include <nidzaru.h>
#include <pthread.h>
#include <sched.h>
#include <stdatomic.h>
#include <stdio.h>
#include <stdlib.h>
#include <string.h>
#include <sys/mman.h>
#include <time.h>

enum { WORDS = 128, MOST = 4000000, PERIOD = 100000 };
struct record { uint64_t words[WORDS]; };
NIDZARU_REGISTER(fours, struct record);
NIDZARU_TRIPLE_REGISTER(triples, struct record);

static const char *const ways[] = {"four_slot", "triple", "mutex", "inherit", "seqlock"};
enum { FOUR_SLOT, TRIPLE, MUTEX, INHERIT, SEQLOCK, WAYS };
static int way;
static fours_writer four_in;
static fours_reader four_out;
static triples_writer triple_in;
static triples_reader triple_out;
static pthread_mutex_t lock;
static struct record locked;
static _Atomic uint64_t sequence, words[WORDS];
static atomic_int is_over;
static unsigned spent[MOST];
static size_t turns, torn;

static uint64_t now(void) {
    struct timespec t;
    clock_gettime(CLOCK_MONOTONIC, &t);
    return (uint64_t)t.tv_sec * 1000000000u + (uint64_t)t.tv_nsec;
}

static void store(const struct record *item) {
    const uint64_t before = atomic_load_explicit(&sequence, memory_order_relaxed);
    atomic_store_explicit(&sequence, before + 1, memory_order_relaxed);
    atomic_thread_fence(memory_order_release);
    for (int k = 0; k < WORDS; k++) atomic_store_explicit(&words[k], item->words[k], memory_order_relaxed);
    atomic_store_explicit(&sequence, before + 2, memory_order_release);
}

static void load(struct record *item) {
    uint64_t before;
    do {
        before = atomic_load_explicit(&sequence, memory_order_acquire);
        for (int k = 0; k < WORDS; k++) item->words[k] = atomic_load_explicit(&words[k], memory_order_relaxed);
        atomic_thread_fence(memory_order_acquire);
    } while (before & 1 || before != atomic_load_explicit(&sequence, memory_order_relaxed));
}

static int write_one(const struct record *item) {
    switch (way) {
    case FOUR_SLOT: return fours_write(&four_in, item);
    case TRIPLE: return triples_write(&triple_in, item);
    case SEQLOCK: return store(item), 0;
    default:
        pthread_mutex_lock(&lock);
        locked = *item;
        return pthread_mutex_unlock(&lock);
    }
}

static int read_one(struct record *item) {
    switch (way) {
    case FOUR_SLOT: return fours_latest(&four_out, item);
    case TRIPLE: return triples_latest(&triple_out, item);
    case SEQLOCK: return load(item), 0;
    default:
        pthread_mutex_lock(&lock);
        *item = locked;
        return pthread_mutex_unlock(&lock);
    }
}

static void *write_all(void *unused) {
    static struct record item;
    for (uint64_t n = 1; !is_over; n++) {
        for (int k = 0; k < WORDS; k++) item.words[k] = n;
        if (write_one(&item)) abort();
    }
    return unused;
}

static void *burn(void *unused) {
    for (volatile uint64_t n = 0; !is_over; n++) continue;
    return unused;
}

static void *wake(void *seconds) {
    static struct record item;
    struct timespec at;
    const uint64_t end = now() + *(int *)seconds * UINT64_C(1000000000);
    clock_gettime(CLOCK_MONOTONIC, &at);
    while (turns < MOST && now() < end) {
        at.tv_nsec += PERIOD;
        if (at.tv_nsec >= 1000000000) at.tv_sec++, at.tv_nsec -= 1000000000;
        clock_nanosleep(CLOCK_MONOTONIC, TIMER_ABSTIME, &at, 0);
        const uint64_t began = now();
        if (read_one(&item)) abort();
        spent[turns++] = (unsigned)(now() - began);
        for (int k = 1; k < WORDS; k++) torn += item.words[k] != item.words[0];
    }
    is_over = 1;
    return 0;
}

static int begin_urgent(pthread_t *thread, int *seconds) {
    pthread_attr_t kind;
    const struct sched_param priority = {.sched_priority = 80};
    pthread_attr_init(&kind);
    pthread_attr_setinheritsched(&kind, PTHREAD_EXPLICIT_SCHED);
    pthread_attr_setschedpolicy(&kind, SCHED_FIFO);
    pthread_attr_setschedparam(&kind, &priority);
    return pthread_create(thread, &kind, wake, seconds);
}

static int by_size(const void *a, const void *b) {
    const unsigned x = *(const unsigned *)a, y = *(const unsigned *)b;
    return (x > y) - (x < y);
}

int main(int count, char **given) {
    static const struct record none;
    int seconds = count > 2 ? atoi(given[2]) : 10;
    const int burning = count > 3 ? atoi(given[3]) : 4;
    pthread_t urgent, writer, burns[16];
    pthread_mutexattr_t kind;
    while (count > 1 && way < WAYS && strcmp(ways[way], given[1])) way++;
    pthread_mutexattr_init(&kind);
    if (way == INHERIT) pthread_mutexattr_setprotocol(&kind, PTHREAD_PRIO_INHERIT);
    pthread_mutex_init(&lock, &kind);
    if (way == WAYS || burning > 16 || fours_make(&none, &four_in, &four_out) || triples_make(&none, &triple_in, &triple_out)) return 2;
    mlockall(MCL_CURRENT | MCL_FUTURE);
    pthread_create(&writer, 0, write_all, 0);
    for (int k = 0; k < burning; k++) pthread_create(&burns[k], 0, burn, 0);
    if (begin_urgent(&urgent, &seconds)) return fprintf(stderr, "no thread of SCHED_FIFO may start\n"), 3;
    pthread_join(urgent, 0);
    pthread_join(writer, 0);
    for (int k = 0; k < burning; k++) pthread_join(burns[k], 0);
    if (!turns) return 1;
    qsort(spent, turns, sizeof *spent, by_size);
    printf("| `%s` | %zu | %u | %u | %u | %u | %u | %zu |\n", ways[way], turns, spent[turns / 2], spent[turns * 99 / 100],
           spent[turns * 999 / 1000], spent[turns * 9999 / 10000], spent[turns - 1], torn);
    return torn != 0;
}
