/* A control loop at 10 kHz that reads what a slower task writes, while a third task is stopped in the middle of its access.
 *
 *   loop KIND THIRD SECONDS PROCESSOR > TABLE
 *
 * KIND is how the record is shared: none (nothing is), mutex, inherit (a mutex with priority inheritance), try_lock, seqlock, four_slot, triple.
 * THIRD is what the third task does: reads (a logger reads the record as often as it can) or writes (it writes as often as it
 * can, in place of the slower task). All tasks run on one processor. The control loop has the highest priority, then the slower
 * task, then one that burns the processor for 2 ms in every 20 ms; the third task has none, so that it is stopped wherever it is.
 *
 * Each line of the table is a turn of the loop: its number, how late it had its record in microseconds, how old the record was in
 * microseconds, and 1 where its words are of two writes. A turn that gives up (seqlock, after 5 ms) has the record of the turn before. */
#define _GNU_SOURCE
#include <nidzaru.h>
#include <pthread.h>
#include <sched.h>
#include <stdatomic.h>
#include <stdio.h>
#include <stdlib.h>
#include <time.h>

enum { WORDS = 128, PERIOD_NS = 100000, WRITE_NS = 1000000, BURN_NS = 2000000, BURN_EACH_NS = 20000000, GIVE_UP_NS = 5000000 };

/* A record of 1,024 bytes: the time at which it was made, in each word. */
struct record {
    uint64_t words[WORDS];
};
NIDZARU_REGISTER(four_slot, struct record);
NIDZARU_TRIPLE_REGISTER(triple, struct record);

enum kind { NONE, MUTEX, INHERIT, TRY_LOCK, SEQLOCK, FOUR_SLOT, TRIPLE };
static const char *const names[] = {"none", "mutex", "inherit", "try_lock", "seqlock", "four_slot", "triple"};
static enum kind kind;
static atomic_bool ended;

static uint64_t now_ns(void) {
    struct timespec t;
    clock_gettime(CLOCK_MONOTONIC, &t);
    return (uint64_t)t.tv_sec * 1000000000u + (uint64_t)t.tv_nsec;
}

static void sleep_until(uint64_t ns) {
    struct timespec t = {(time_t)(ns / 1000000000u), (long)(ns % 1000000000u)};
    clock_nanosleep(CLOCK_MONOTONIC, TIMER_ABSTIME, &t, NULL);
}

/* The shared record of the locks and of the seqlock. The buffer with a try-lock is that of robot frameworks: whoever isn't the
 * control loop takes the lock and works on `shared`; the loop tries it, takes what is new, and else keeps what it has. */
static struct record shared, kept;
static int is_new;
static pthread_mutex_t lock;
static atomic_uint_fast64_t count;
static _Atomic uint64_t cells[WORDS];

/* One register from the writing task to the control loop, one to the logger. */
static four_slot_writer four_slot_writers[2];
static four_slot_reader four_slot_readers[2];
static triple_writer triple_writers[2];
static triple_reader triple_readers[2];

static void must(int holds, const char *what) {
    if (!holds) {
        fprintf(stderr, "loop: %s\n", what);
        exit(2);
    }
}

static void share(const struct record *first) {
    pthread_mutexattr_t how;
    pthread_mutexattr_init(&how);
    if (kind == INHERIT) must(!pthread_mutexattr_setprotocol(&how, PTHREAD_PRIO_INHERIT), "no priority inheritance here");
    must(!pthread_mutex_init(&lock, &how), "no mutex");
    shared = kept = *first;
    for (int i = 0; i < WORDS; i++) cells[i] = first->words[i];
    for (int i = 0; i < 2; i++) {
        must(!four_slot_make(first, &four_slot_writers[i], &four_slot_readers[i]), "no register");
        must(!triple_make(first, &triple_writers[i], &triple_readers[i]), "no register");
    }
}

static void write_record(const struct record *item) {
    switch (kind) {
    case NONE: break;
    case MUTEX:
    case INHERIT:
    case TRY_LOCK:
        pthread_mutex_lock(&lock);
        shared = *item;
        is_new = 1;
        pthread_mutex_unlock(&lock);
        break;
    case SEQLOCK:
        atomic_fetch_add(&count, 1);
        atomic_thread_fence(memory_order_release);
        for (int i = 0; i < WORDS; i++) atomic_store_explicit(&cells[i], item->words[i], memory_order_relaxed);
        atomic_fetch_add(&count, 1);
        break;
    case FOUR_SLOT:
        for (int i = 0; i < 2; i++) four_slot_write(&four_slot_writers[i], item);
        break;
    case TRIPLE:
        for (int i = 0; i < 2; i++) triple_write(&triple_writers[i], item);
        break;
    }
}

/* One try of a seqlock's reader. */
static int read_once(struct record *item) {
    uint64_t before = atomic_load(&count);
    if (before % 2) return 0;
    for (int i = 0; i < WORDS; i++) item->words[i] = atomic_load_explicit(&cells[i], memory_order_relaxed);
    atomic_thread_fence(memory_order_acquire);
    return atomic_load(&count) == before;
}

static void read_record(int reader, struct record *item) {
    struct record found;
    uint64_t number, give_up;
    switch (kind) {
    case NONE: break;
    case TRY_LOCK:
        if (reader == 0) {
            if (!pthread_mutex_trylock(&lock)) {
                if (is_new) kept = shared;
                is_new = 0;
                pthread_mutex_unlock(&lock);
            }
            *item = kept;
            break;
        }
        /* fall through */
    case MUTEX:
    case INHERIT:
        pthread_mutex_lock(&lock);
        *item = shared;
        pthread_mutex_unlock(&lock);
        break;
    case SEQLOCK:
        for (give_up = now_ns() + GIVE_UP_NS; now_ns() < give_up;) {
            if (read_once(&found)) {
                *item = found;
                break;
            }
        }
        break;
    case FOUR_SLOT: four_slot_read(&four_slot_readers[reader], item, &number); break;
    case TRIPLE: triple_read(&triple_readers[reader], item, &number); break;
    }
}

static struct record made_now(void) {
    struct record item;
    uint64_t time = now_ns();
    for (int i = 0; i < WORDS; i++) item.words[i] = time;
    return item;
}

static int is_torn(const struct record *item) {
    for (int i = 1; i < WORDS; i++) {
        if (item->words[i] != item->words[0]) return 1;
    }
    return 0;
}

static void *slower_task(void *unused) {
    (void)unused;
    for (uint64_t next = now_ns(); !ended; sleep_until(next += WRITE_NS)) {
        struct record item = made_now();
        write_record(&item);
    }
    return NULL;
}

static void *burner(void *unused) {
    (void)unused;
    for (uint64_t next = now_ns(); !ended; sleep_until(next += BURN_EACH_NS)) {
        for (uint64_t end = now_ns() + BURN_NS; now_ns() < end;) {}
    }
    return NULL;
}

static void *logger(void *unused) {
    struct record item;
    (void)unused;
    while (!ended) read_record(1, &item);
    return NULL;
}

static void *steady_writer(void *unused) {
    (void)unused;
    while (!ended) {
        struct record item = made_now();
        write_record(&item);
    }
    return NULL;
}

struct turn {
    uint64_t late, age;
    int torn;
};
static struct turn *turns;
static int turn_count;

static void *control_loop(void *unused) {
    uint64_t next = now_ns() + 10000000;
    struct record item = made_now();
    (void)unused;
    for (int i = 0; i < turn_count; i++) {
        next += PERIOD_NS;
        sleep_until(next);
        read_record(0, &item);
        uint64_t end = now_ns();
        turns[i] = (struct turn){end - next, end - item.words[0], is_torn(&item)};
        while (next + PERIOD_NS < end) next += PERIOD_NS; /* turns that were missed are told by the lateness of this one */
    }
    ended = 1;
    return NULL;
}

/* Starts a task on the processor, with this priority or none. */
static pthread_t start(void *(*task)(void *), int priority, int processor) {
    pthread_attr_t how;
    pthread_t thread;
    cpu_set_t set;
    struct sched_param param = {.sched_priority = priority};
    pthread_attr_init(&how);
    CPU_ZERO(&set);
    CPU_SET((size_t)processor, &set);
    pthread_attr_setaffinity_np(&how, sizeof set, &set);
    pthread_attr_setinheritsched(&how, PTHREAD_EXPLICIT_SCHED);
    pthread_attr_setschedpolicy(&how, priority ? SCHED_FIFO : SCHED_OTHER);
    pthread_attr_setschedparam(&how, &param);
    must(!pthread_create(&thread, &how, task, NULL), "no thread with such a priority: it wants the right to real-time priorities");
    return thread;
}

int main(int count_of_words, char **words) {
    struct record first = made_now();
    must(count_of_words == 5, "usage: loop KIND reads|writes SECONDS PROCESSOR");
    for (kind = NONE; kind <= TRIPLE && strcmp(names[kind], words[1]); kind++) {}
    must(kind <= TRIPLE, "no such kind");
    int writes = !strcmp(words[2], "writes"), processor = atoi(words[4]);
    turn_count = atoi(words[3]) * 10000;
    turns = calloc((size_t)turn_count, sizeof *turns);
    must(turn_count > 0 && turns, "no room for the table");
    share(&first);
    pthread_t tasks[4];
    int started = 0;
    tasks[started++] = start(writes ? steady_writer : logger, 0, processor);
    if (!writes) tasks[started++] = start(slower_task, 70, processor);
    tasks[started++] = start(burner, 60, processor);
    tasks[started++] = start(control_loop, 80, processor);
    for (int i = 0; i < started; i++) pthread_join(tasks[i], NULL);
    for (int i = 0; i < turn_count; i++)
        printf("%d %.1f %.1f %d\n", i, (double)turns[i].late / 1000, (double)turns[i].age / 1000, turns[i].torn);
    return 0;
}
