/* Registers that three threads use, right ones and wrong ones, recorded as JSON Lines on standard output.
 * usage: recorded REGISTER OPERATIONS [WAY MERGED]. With -DLIBRARY, and linked with it, also the library's own registers and boards.
 *
 * A WAY writes lines and floors while the threads run, and the whole log into the file MERGED. If the reader of the lines leaves while they
 * run they stop, and the status is 4:
 *   live     as fast as they can within 200 operations of each other
 *   slow     with a pause before each operation
 *   hang     the same, and the first thread's 500th operation, a write, takes effect and doesn't return; that is told on standard error,
 *            and the thread is given up. At the end the call returns after all, and the thread does nothing more
 *
 * The wrong ones linger now and then where they are wrong, until others have fetched, so that a short log shows it; and readers keep pace
 * with writers. With -DALONE nobody waits. */
#include "nidzaru_log.h"
#include <pthread.h>
#include <sched.h>
#include <signal.h>
#include <stdatomic.h>
#ifdef LIBRARY
#include "nidzaru.h"
#endif
#ifndef ALONE
#define ALONE 0
#endif

enum { WORDS = 8, TASKS = 3, GREATEST_PLACE = 63, HANGS_AT = 500, LONG = 200 };

struct item { uint64_t words[WORDS]; };

static struct item item_of(uint64_t number) {
    struct item made;
    for (uint64_t k = 0; k < WORDS; k++) made.words[k] = number * (k * k + 1);
    return made;
}

/* How many writes and fetches all threads have begun, and how many threads still do either. */
static atomic_ullong writes, fetches, writing, fetching;

/* A wrong register waits here for some fetches, now and then. */
static void linger(uint64_t number) {
    unsigned long long seen = atomic_load(&fetches);
    if (ALONE || number % 64) return;
    while (atomic_load(&fetching) && atomic_load(&fetches) < seen + 4) sched_yield();
}

/* A thread that reads waits for two writes, now and then and not for ever, so that reads and writes are done at once. */
static void keep_pace(uint64_t turn) {
    unsigned long long seen = atomic_load(&writes);
    if (ALONE || turn % 16) return;
    for (int tries = 0; tries < 20000 && atomic_load(&writing) && atomic_load(&writes) < seen + 2; tries++) sched_yield();
}

/* A thread that writes waits for two fetches, not for ever, before each write of some registers. */
static void await_fetches(void) {
    unsigned long long seen = atomic_load(&fetches);
    for (int tries = 1; tries < 20000 && atomic_load(&fetching) && atomic_load(&fetches) < seen + 2; tries++) {
        if (tries % 1000 == 0) sched_yield();
    }
}

/* A sequence lock over words that are stored one by one (H. Boehm, Can Seqlocks Get Along With Programming Language Memory
 * Models?, 2012). */
static atomic_ullong sequence;
static atomic_ullong shared_words[WORDS];

static void store_words(const struct item *from, size_t first, size_t end) {
    for (size_t k = first; k < end; k++) atomic_store_explicit(&shared_words[k], from->words[k], memory_order_relaxed);
}

static void load_words(struct item *to) {
    for (size_t k = 0; k < WORDS; k++) to->words[k] = atomic_load_explicit(&shared_words[k], memory_order_relaxed);
}

static void seqlock_write(int me, const struct item *item) {
    unsigned long long now = atomic_load_explicit(&sequence, memory_order_relaxed);
    (void)me;
    atomic_store_explicit(&sequence, now + 1, memory_order_relaxed);
    atomic_thread_fence(memory_order_release);
    store_words(item, 0, WORDS);
    atomic_store_explicit(&sequence, now + 2, memory_order_release);
}

static void seqlock_read(int me, struct item *item) {
    unsigned long long before, after;
    (void)me;
    do {
        before = atomic_load_explicit(&sequence, memory_order_acquire);
        load_words(item);
        atomic_thread_fence(memory_order_acquire);
        after = atomic_load_explicit(&sequence, memory_order_relaxed);
        if (before % 2) sched_yield();
    } while (before % 2 || before != after);
}

/* Wrong: nobody looks at the sequence. */
static void torn_write(int me, const struct item *item) {
    (void)me;
    store_words(item, 0, WORDS / 2);
    linger(item->words[0]);
    store_words(item, WORDS / 2, WORDS);
}

static void torn_read(int me, struct item *item) {
    (void)me;
    load_words(item);
}

/* One word, stored with release and loaded with acquire. */
static void atomic_write(int me, const struct item *item) {
    (void)me;
    atomic_store_explicit(&shared_words[0], item->words[0], memory_order_release);
}

static void atomic_read(int me, struct item *item) {
    (void)me;
    *item = item_of(atomic_load_explicit(&shared_words[0], memory_order_acquire));
}

/* The same behind stores to lines that readers have taken: these wait for the lines, and the word waits behind them, long after the call
 * has returned. */
enum { LINES = 24 };
static struct { _Alignas(64) atomic_ullong word; } lines[LINES];

static void behind_write(int me, const struct item *item) {
    for (size_t k = 0; k < LINES; k++) atomic_store_explicit(&lines[k].word, item->words[0], memory_order_relaxed);
    atomic_write(me, item);
}

static void behind_read(int me, struct item *item) {
    atomic_read(me, item);
    for (size_t k = 0; k < LINES; k++) (void)atomic_load_explicit(&lines[k].word, memory_order_relaxed);
}

/* Wrong: the place of the record is told before the record stands there. A place is used again after many writes. */
static atomic_ullong shelf[GREATEST_PLACE + 1][WORDS];

static void early_write(int me, const struct item *item) {
    uint64_t place = item->words[0] & GREATEST_PLACE;
    (void)me;
    atomic_store(&sequence, place);
    linger(item->words[0]);
    for (size_t k = 0; k < WORDS; k++) atomic_store(&shelf[place][k], item->words[k]);
}

static void early_read(int me, struct item *item) {
    uint64_t place = atomic_load(&sequence);
    (void)me;
    for (size_t k = 0; k < WORDS; k++) item->words[k] = atomic_load(&shelf[place][k]);
}

/* Wrong: a read after a pause answers what the reader had before it. */
static struct { struct item item; uint64_t reads; char apart[64]; } had[TASKS];

static void last_write(int me, const struct item *item) {
    seqlock_write(me, item);
    linger(item->words[0]);
}

static void last_read(int me, struct item *item) {
    if (++had[me].reads % 16 != 1) seqlock_read(me, &had[me].item);
    *item = had[me].item;
}

#ifdef LIBRARY
NIDZARU_REGISTER(cells, struct item);
NIDZARU_TRIPLE_REGISTER(triples, struct item);
NIDZARU_BOARD(boards, struct item);
NIDZARU_TRIPLE_BOARD(triple_boards, struct item);
static cells_writer cell_writer = NIDZARU_EMPTY;
static cells_reader cell_reader = NIDZARU_EMPTY;
static triples_writer triple_writer = NIDZARU_EMPTY;
static triples_reader triple_reader = NIDZARU_EMPTY;
static boards_place board[TASKS];
static triple_boards_place triple_board[TASKS];

static void want(int status) {
    if (status) exit(3);
}

static void make_all(const struct item *opening) {
    want(cells_make(opening, &cell_writer, &cell_reader));
    want(triples_make(opening, &triple_writer, &triple_reader));
    want(boards_make(opening, board, TASKS));
    want(triple_boards_make(opening, triple_board, TASKS));
}

static void cell_write(int me, const struct item *item) {
    (void)me;
    want(cells_write(&cell_writer, item));
}

static void cell_read(int me, struct item *item) {
    uint64_t number;
    (void)me;
    want(cells_read(&cell_reader, item, &number));
}

static void triple_write(int me, const struct item *item) {
    (void)me;
    want(triples_write(&triple_writer, item));
}

static void triple_read(int me, struct item *item) {
    uint64_t number;
    (void)me;
    want(triples_read(&triple_reader, item, &number));
}

static void board_write(int me, const struct item *item) {
    nidzaru_stamp stamp;
    want(boards_write(&board[me], item, &stamp));
}

static void board_read(int me, struct item *item) {
    nidzaru_stamp stamp;
    want(boards_read(&board[me], item, &stamp));
}

static void triple_board_write(int me, const struct item *item) {
    nidzaru_stamp stamp;
    want(triple_boards_write(&triple_board[me], item, &stamp));
}

static void triple_board_read(int me, struct item *item) {
    nidzaru_stamp stamp;
    want(triple_boards_read(&triple_board[me], item, &stamp));
}
#endif

/* A register: how many threads use it, and how many of these write. A board's threads do both, in turn. */
static const struct {
    const char *name;
    void (*write)(int me, const struct item *item);
    void (*read)(int me, struct item *item);
    int tasks, writers, waits;
} registers[] = {
    {"seqlock", seqlock_write, seqlock_read, 3, 1, 0},
    {"atomic", atomic_write, atomic_read, 3, 1, 0},
    {"behind", behind_write, behind_read, 3, 1, 1},
    {"torn", torn_write, torn_read, 3, 1, 0},
    {"early", early_write, early_read, 3, 1, 0},
    {"last", last_write, last_read, 3, 1, 0},
#ifdef LIBRARY
    {"cell", cell_write, cell_read, 2, 1, 0},
    {"triple", triple_write, triple_read, 2, 1, 0},
    {"board", board_write, board_read, 3, 3, 0},
    {"triple_board", triple_board_write, triple_board_read, 3, 3, 0},
#endif
};

static size_t chosen;
static const char *way = "";
static nidzaru_log logs[TASKS];
static pthread_barrier_t start;

/* Whether threads are to stop, whether a call that hangs may return, and how many threads have ended. */
static atomic_int stopped, released, ended;

static void sleep_a_little(void) {
    struct timespec while_ = {0, 50000};
    nanosleep(&while_, 0);
}

static void hang(void) {
    atomic_fetch_sub(&writing, 1);
    while (!atomic_load(&released)) sleep_a_little();
    atomic_fetch_add(&writing, 1);
}

static int hangs(uint64_t number) { return !strcmp(way, "hang") && number == HANGS_AT * TASKS; }

static void write_once(int me, uint64_t number) {
    struct item item = item_of(number);
    if (registers[chosen].waits) await_fetches();
    atomic_fetch_add(&writes, 1);
    nidzaru_log_begin_write(&logs[me], number, &item, sizeof item);
    registers[chosen].write(me, &item);
    if (hangs(number)) hang();
    nidzaru_log_end_write(&logs[me]);
}

static void read_once(int me) {
    struct item item;
    nidzaru_log_begin_read(&logs[me]);
    registers[chosen].read(me, &item);
    nidzaru_log_end_read(&logs[me], item.words[0], &item, sizeof item);
    atomic_fetch_add(&fetches, 1);
}

static void *run(void *log) {
    int me = (int)((nidzaru_log *)log - logs), writers = registers[chosen].writers;
    pthread_barrier_wait(&start);
    for (uint64_t turn = 1; !nidzaru_log_is_full(&logs[me]) && !atomic_load(&stopped); turn++) {
        if (*way && strcmp(way, "live")) sleep_a_little();
        if (me >= writers || (writers > 1 && turn % 2)) {
            read_once(me);
            if (me >= writers && strcmp(way, "live")) keep_pace(turn);
        } else {
            write_once(me, turn * TASKS + (uint64_t)me);
            if (hangs(turn * TASKS + (uint64_t)me)) break;
        }
    }
    atomic_fetch_sub(me < writers ? &writing : &fetching, 1);
    nidzaru_log_leave(&logs[me]);
    atomic_fetch_add(&ended, 1);
    return 0;
}

/* Tells whose call holds the floor for long, and gives it up after as long again. */
static void tell_held(nidzaru_log *const *all, size_t tasks) {
    static uint64_t floor, drains;
    nidzaru_log *holder = nidzaru_log_holder(all, tasks);
    drains = floor == holder->floor ? drains + 1 : 0;
    floor = holder->floor;
    if (drains == LONG) fprintf(stderr, "task %" PRIu64 " holds the floor at %" PRIu64 "\n", holder->state->who, floor);
    if (drains == 2 * LONG) nidzaru_log_give_up(holder);
}

/* Writes lines and floors until all threads have ended, but for one that hangs and was given up. Answers the status of the last drain. */
static int drain_all(nidzaru_log *const *all, int tasks, nidzaru_log_record opening) {
    int status = 0, hung = !strcmp(way, "hang"), awaited = tasks - hung;
    signal(SIGPIPE, SIG_IGN);
    nidzaru_log_header(stdout, opening, 0);
    while (!status && (atomic_load(&ended) < awaited || (hung && !all[0]->given_up))) {
        status = nidzaru_log_drain(stdout, all, (size_t)tasks);
        if (hung) tell_held(all, (size_t)tasks);
        sleep_a_little();
    }
    if (status && atomic_load(&ended) < awaited) {
        atomic_store(&stopped, 1);
        return status;
    }
    return status ? status : nidzaru_log_finish(stdout, all, (size_t)tasks);
}

/* Writes the whole log into a file. */
static int merge_into(const char *path, nidzaru_log *const *all, int tasks, nidzaru_log_record opening) {
    FILE *to = fopen(path, "w");
    int status = to ? nidzaru_log_merge(to, all, (size_t)tasks, opening, 0) : NIDZARU_LOG_NO_FILE;
    if (to) fclose(to);
    return status;
}

/* Runs the chosen register, and writes the log. Answers the status of the merge. */
static int record(size_t room, const char *merged) {
    struct item opening = item_of(0);
    nidzaru_log_record held = nidzaru_log_record_of(0, &opening, sizeof opening);
    pthread_t threads[TASKS];
    nidzaru_log *all[TASKS];
    int tasks = registers[chosen].tasks, writers = registers[chosen].writers, status = 0;
    atomic_store(&writing, (unsigned long long)writers);
    atomic_store(&fetching, (unsigned long long)(tasks - writers));
    for (int k = 0; k < tasks; k++) {
        all[k] = &logs[k];
        had[k].item = opening;
        if (nidzaru_log_open(all[k], (uint64_t)k, room)) return NIDZARU_LOG_NO_MEMORY;
    }
#ifdef LIBRARY
    make_all(&opening);
#endif
    if (!strcmp(way, "live")) nidzaru_log_pace(all, (size_t)tasks, 200);
    pthread_barrier_init(&start, 0, (unsigned)tasks);
    for (int k = 0; k < tasks; k++) pthread_create(&threads[k], 0, run, all[k]);
    if (*way) status = drain_all(all, tasks, held);
    atomic_store(&released, 1);
    for (int k = 0; k < tasks; k++) pthread_join(threads[k], 0);
    if (atomic_load(&stopped)) return status == NIDZARU_LOG_STREAM ? 4 : 3;
    if (*way) return status ? status : merge_into(merged, all, tasks, held);
    return nidzaru_log_merge(stdout, all, (size_t)tasks, held, 0);
}

int main(int count, char **words) {
    if (count == 5) way = words[3];
    for (chosen = 0; (count == 3 || count == 5) && chosen < sizeof registers / sizeof *registers; chosen++) {
        if (!strcmp(words[1], registers[chosen].name)) {
            return record((size_t)strtoul(words[2], 0, 10) / (size_t)registers[chosen].tasks, words[count - 1]);
        }
    }
    fputs("usage: recorded REGISTER OPERATIONS [WAY MERGED], where REGISTER is one of", stderr);
    for (chosen = 0; chosen < sizeof registers / sizeof *registers; chosen++) fprintf(stderr, " %s", registers[chosen].name);
    fputs("\n", stderr);
    return 2;
}
