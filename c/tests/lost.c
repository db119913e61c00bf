/* Three threads on a board, one of which is lost: it is cancelled between two calls, or stopped for ever within a read or a write, after a
 * quarter, a half or three quarters of its instructions. The others go on and end, and what all three did is logged, to be judged.
 *
 *   lost                      loses a thread in each way, and says `passed`
 *   lost WAY OPERATIONS       in one: cancelled, read or write; writes the log as JSON Lines
 *
 * A thread is stopped by the trap flag of x86-64: elsewhere it is cancelled alone. -DTRIPLE: over triple buffers; -DLOCKED: a lock around
 * each call, for which the others wait for ever, which is found. */
#include "nidzaru.h"
#include "nidzaru_log.h"
#include <pthread.h>
#include <signal.h>
#include <stdatomic.h>
#include <unistd.h>

enum { WORDS = 64, TASKS = 3, SOME = 100, AHEAD = 50 };
enum way { CANCELLED, READ, WRITE, WAYS };

struct item { uint64_t words[WORDS]; };

#ifdef TRIPLE
NIDZARU_TRIPLE_BOARD(boards, struct item);
#else
NIDZARU_BOARD(boards, struct item);
#endif

/* Each way has a board and logs of its own, as a thread that was stopped keeps them. */
struct task { boards_place place; nidzaru_log log; pthread_t thread; int me; char apart[64]; };

static const char *const ways[] = {"cancelled", "read", "write"};
static enum way way;
static int quarters;
static atomic_int lost;

static void fails(const char *why) {
    printf("%s, %d quarters: %s\n", ways[way], quarters, why);
    exit(1);
}

static void want(int status, const char *what) {
    if (status) fails(what);
}

#ifdef LOCKED
static pthread_mutex_t lock = PTHREAD_MUTEX_INITIALIZER;
#define LOCK() pthread_mutex_lock(&lock)
#define UNLOCK() pthread_mutex_unlock(&lock)
enum { PATIENCE = 5 };
#else
#define LOCK() ((void)0)
#define UNLOCK() ((void)0)
enum { PATIENCE = 100 };
#endif

static void wait_no_more(int signal) {
    static const char says[] = "the others wait for the thread that was lost\n";
    (void)signal;
    _exit(write(1, says, sizeof says - 1) < 0 ? 2 : 1);
}

/* How many instructions of the first thread's call were made, and after how many it stops, 0 for none. */
static volatile sig_atomic_t armed;
static volatile long made, stops_after;
static nidzaru_log *volatile stopped_log;

static void trap(int signal) {
    (void)signal;
    if (!armed || ++made != stops_after) return;
    nidzaru_log_leave(stopped_log);
    atomic_store(&lost, 1);
    for (;;) pause();
}

#ifdef __x86_64__
static void step(void) { __asm__ volatile("pushfq; orq $0x100,(%%rsp); popfq" ::: "memory", "cc"); }
static void walk(void) { __asm__ volatile("pushfq; andq $~0x100,(%%rsp); popfq" ::: "memory", "cc"); }
enum { STOPS = 1 };
#else
static void step(void) {}
static void walk(void) {}
enum { STOPS = 0 };
#endif

static struct item item_of(uint64_t number) {
    struct item made_here;
    for (uint64_t k = 0; k < WORDS; k++) made_here.words[k] = number * (k + 1);
    return made_here;
}

static int call(struct task *it, enum way kind, struct item *item, nidzaru_stamp *stamp) {
    return kind == READ ? boards_read(&it->place, item, stamp) : boards_write(&it->place, item, stamp);
}

/* The call of a thread that is to be stopped in one of this kind: the instructions of one are counted, and in the next that has as many it
 * stops. (A read that finds nothing new is shorter than others.) */
static int call_by_steps(struct task *it, enum way kind, struct item *item, nidzaru_stamp *stamp) {
    int status;
    if (!stops_after) stops_after = made * quarters / 4;
    stopped_log = &it->log;
    made = 0;
    armed = 1;
    step();
    status = call(it, kind, item, stamp);
    walk();
    armed = 0;
    return status;
}

static int call_at(struct task *it, uint64_t turn, enum way kind, struct item *item, nidzaru_stamp *stamp) {
    int status;
    LOCK();
    status = it->me == 0 && way == kind && turn >= SOME ? call_by_steps(it, kind, item, stamp) : call(it, kind, item, stamp);
    UNLOCK();
    return status;
}

static void write_once(struct task *it, uint64_t turn) {
    const uint64_t number = turn * TASKS + (uint64_t)it->me;
    struct item item = item_of(number);
    nidzaru_stamp stamp;
    nidzaru_log_begin_write(&it->log, number, &item, sizeof item);
    want(call_at(it, turn, WRITE, &item, &stamp), "a write");
    nidzaru_log_end_write(&it->log);
}

static void read_once(struct task *it, uint64_t turn, nidzaru_stamp *last) {
    struct item item;
    nidzaru_stamp stamp;
    nidzaru_log_begin_read(&it->log);
    want(call_at(it, turn, READ, &item, &stamp), "a read");
    nidzaru_log_end_read(&it->log, item.words[0], &item, sizeof item);
    for (uint64_t k = 0; k < WORDS; k++) want(item.words[k] != item.words[0] * (k + 1), "a torn record");
    want(nidzaru_stamp_is_below(stamp, *last), "an older record");
    *last = stamp;
}

/* The first thread is lost soon, and the others, which keep pace with it till then, go on until their logs are full. */
static void *run(void *task) {
    struct task *it = task;
    nidzaru_stamp last = {0, 0};
    for (uint64_t turn = 1; !nidzaru_log_is_full(&it->log); turn++) {
        while (it->me == 0 && way == CANCELLED && turn == SOME) {
            pthread_testcancel();
            sched_yield();
        }
        if (turn % 2) read_once(it, turn, &last);
        else write_once(it, turn);
    }
    want(it->me == 0 || !atomic_load(&lost), "a thread that wasn't lost, or not before the others ended");
    want(boards_end(&it->place), "an end");
    return 0;
}

/* The place of a thread that was cancelled between calls is whole. That of one that was stopped in a call takes no more calls, unless the
 * call had done its work. */
static void look_at_place(boards_place *place) {
    struct item item;
    nidzaru_stamp stamp;
    int status = boards_read(place, &item, &stamp);
    want(status && (way == CANCELLED || status != NIDZARU_CUT_OFF), "a read by the place of the first thread");
    want(!status && item.words[0] < SOME, "an old record by the place of the first thread");
    want(boards_end(place) != status, "an end of the place of the first thread");
}

static void cancel(struct task *first) {
    void *answer;
    want(pthread_cancel(first->thread), "pthread_cancel");
    want(pthread_join(first->thread, &answer) || answer != PTHREAD_CANCELED, "the first thread wasn't cancelled");
    atomic_store(&lost, 1);
    nidzaru_log_leave(&first->log);
}

static int record(size_t room, int prints) {
    struct task *tasks = calloc(TASKS, sizeof *tasks);
    const struct item opening = item_of(0);
    boards_place places[TASKS];
    nidzaru_log *all[TASKS];
    memset(places, 0, sizeof places);
    atomic_store(&lost, 0);
    made = stops_after = 0;
    want(!tasks, "no memory");
    want(boards_make(&opening, places, TASKS), "make");
    for (int k = 0; k < TASKS; k++) {
        tasks[k].me = k;
        all[k] = &tasks[k].log;
        want(boards_move(&tasks[k].place, &places[k]), "move");
        want(nidzaru_log_open(all[k], (uint64_t)k, room), "no memory for a log");
    }
    nidzaru_log_pace(all, TASKS, AHEAD);
    for (int k = 0; k < TASKS; k++) want(pthread_create(&tasks[k].thread, 0, run, &tasks[k]), "pthread_create");
    if (way == CANCELLED) cancel(&tasks[0]);
    for (int k = 1; k < TASKS; k++) want(pthread_join(tasks[k].thread, 0), "pthread_join");
    look_at_place(&tasks[0].place);
    return prints ? nidzaru_log_merge(stdout, all, TASKS, nidzaru_log_record_of(0, &opening, sizeof opening), 0) : 0;
}

int main(int count, char **words) {
    signal(SIGTRAP, trap);
    signal(SIGALRM, wait_no_more);
    alarm(PATIENCE);
    for (way = CANCELLED; way < (STOPS ? WAYS : READ); way++) {
        quarters = 2;
        if (count == 3 && !strcmp(words[1], ways[way])) return record((size_t)strtoul(words[2], 0, 10) / TASKS, 1);
        for (quarters = 1; count < 3 && quarters < 4; quarters++) want(record(10 * SOME, 0), "a record");
    }
    if (count >= 3) fails("there is no such way");
    puts("passed");
    return 0;
}
