/* Logs in files, of threads that are killed.
 *
 *   killed steps FILE            a process is stopped after each of its instructions, and what it has left is looked at
 *   killed threads FOLDER SEED   three threads use a sequence lock and are killed by and by; their log goes to standard output, and its header
 *                                to FOLDER/header
 *
 * What had ended has to be there, and a write whose call had begun; nothing may be there twice. The last line of the steps is `passed`. */
#define _GNU_SOURCE
#include "nidzaru_log.h"
#include <pthread.h>
#include <signal.h>
#include <stdatomic.h>
#include <sys/ptrace.h>
#include <sys/wait.h>

enum { THREADS = 3, ROOM = 200000, WORDS = 4 };

static void die(const char *what) {
    printf("FAILED: %s\n", what);
    fflush(stdout);
    _exit(1);
}

static void *share(size_t size) {
    void *it = mmap(0, size, PROT_READ | PROT_WRITE, MAP_SHARED | MAP_ANONYMOUS, -1, 0);
    if (it == MAP_FAILED) die("no shared memory");
    return it;
}

/* What the stepped process does, a letter each: a write, a read, one without an effect, one that is refused. */
static const char script[] = "wrwnwwrfrw";

/* How far it is: operations that ended, and calls that began. */
static struct progress { atomic_ullong ended, called; } *progress;

static void play(nidzaru_log *log) {
    for (uint64_t at = 0; script[at]; at++) {
        uint64_t number = at + 1;
        if (script[at] == 'r') nidzaru_log_begin_read(log); else nidzaru_log_begin_write(log, number, &number, sizeof number);
        atomic_store(&progress->called, at + 1);
        switch (script[at]) {
        case 'r': nidzaru_log_end_read(log, number, &number, sizeof number); break;
        case 'w': nidzaru_log_end_write(log); break;
        case 'n': nidzaru_log_end_no_effect(log); break;
        default: nidzaru_log_end_refused(log, number, &number, sizeof number);
        }
        atomic_store(&progress->ended, at + 1);
    }
}

/* Whether the operation at a place is the one that the script has there. */
static int is_played(const nidzaru_log_operation *it, uint64_t at) {
    uint64_t kind = script[at] == 'r' ? NIDZARU_LOG_READ : script[at] == 'f' ? NIDZARU_LOG_REFUSED : NIDZARU_LOG_WRITE;
    return it->kind == kind && it->record.number == at + 1 && it->begin < it->end;
}

/* Looks at the file, where so many operations had ended and so many calls had begun. */
static void check_left(const char *path, uint64_t ended, uint64_t called) {
    nidzaru_log log;
    uint64_t at = 0;
    if (nidzaru_log_open_left(&log, path)) die("what was left isn't a log");
    if (log.state->unpaired || log.state->lost) die("what was left has a fault");
    for (at = 0; at < called; at++) {
        const nidzaru_log_operation *it = nidzaru_log_next(&log);
        if (script[at] == 'n' && at < ended) continue;
        if (at >= ended && (!it || it == &log.state->under_way)) break;
        if (!it || it == &log.state->under_way || !is_played(it, at)) die("an operation that had ended isn't there");
        log.merged++;
    }
    const nidzaru_log_operation *last = nidzaru_log_next(&log);
    if (at < called && strchr("wf", script[at]) && (!last || last->record.number != called)) die("a write whose call had begun isn't there");
    if (last && (last != &log.state->under_way || script[at] == 'r' || last->record.number != at + 1)) die("an operation is there twice");
    if (last && last->begin <= (log.merged ? log.operations[log.merged - 1].end : 0)) die("a write began before the end of the last operation");
    nidzaru_log_close(&log);
}

static int step(const char *path) {
    nidzaru_log log;
    unsigned long steps = 0;
    int status = 0;
    progress = share(sizeof *progress);
    if (nidzaru_log_open_file(&log, 7, sizeof script, path)) die("no file");
    pid_t child = fork();
    if (child == 0) {
        ptrace(PTRACE_TRACEME, 0, 0, 0);
        raise(SIGSTOP);
        play(&log);
        _exit(0);
    }
    for (waitpid(child, &status, 0); WIFSTOPPED(status); waitpid(child, &status, 0), steps++) {
        check_left(path, atomic_load(&progress->ended), atomic_load(&progress->called));
        if (ptrace(PTRACE_SINGLESTEP, child, 0, 0)) die("no process is stepped here");
    }
    if (status || steps < 1000 || atomic_load(&progress->ended) != sizeof script - 1) die("the steps ended early");
    nidzaru_log_close(&log);
    printf("%lu steps\n", steps);
    puts("passed");
    return 0;
}

/* A sequence lock in shared memory, and how many operations each thread has ended. */
static struct lock { atomic_ullong sequence, words[WORDS], ended[THREADS]; } *lock;
static nidzaru_log logs[THREADS];

static void fetch(uint64_t *to) {
    unsigned long long before, after;
    do {
        before = atomic_load_explicit(&lock->sequence, memory_order_acquire);
        for (int k = 0; k < WORDS; k++) to[k] = atomic_load_explicit(&lock->words[k], memory_order_relaxed);
        atomic_thread_fence(memory_order_acquire);
        after = atomic_load_explicit(&lock->sequence, memory_order_relaxed);
        if (before % 2) sched_yield();
    } while (before % 2 || before != after);
}

static void publish(const uint64_t *from) {
    unsigned long long now = atomic_load_explicit(&lock->sequence, memory_order_relaxed);
    atomic_store_explicit(&lock->sequence, now + 1, memory_order_relaxed);
    atomic_thread_fence(memory_order_release);
    for (int k = 0; k < WORDS; k++) atomic_store_explicit(&lock->words[k], from[k], memory_order_relaxed);
    atomic_store_explicit(&lock->sequence, now + 2, memory_order_release);
}

static void *use(void *it) {
    nidzaru_log *log = it;
    uint64_t me = log->state->who, item[WORDS] = {0};
    for (uint64_t turn = 1; !nidzaru_log_is_full(log); turn++) {
        if (me) {
            nidzaru_log_begin_read(log);
            fetch(item);
            nidzaru_log_end_read(log, item[0], item, sizeof item);
        } else {
            for (uint64_t k = 0; k < WORDS; k++) item[k] = turn * (k + 1);
            nidzaru_log_begin_write(log, turn, item, sizeof item);
            publish(item);
            nidzaru_log_end_write(log);
        }
        atomic_store_explicit(&lock->ended[me], turn, memory_order_relaxed);
    }
    return 0;
}

static int kill_threads(const char *folder, unsigned seed) {
    nidzaru_log *all[THREADS];
    uint64_t opening[WORDS] = {0};
    char paths[THREADS][4096], path[4096];
    FILE *header;
    pthread_t threads[THREADS];
    struct timespec while_ = {0, 0};
    int status = 0;
    lock = share(sizeof *lock);
    for (int k = 0; k < THREADS; k++) {
        all[k] = &logs[k];
        snprintf(paths[k], sizeof paths[k], "%s/%d.log", folder, k);
        if (nidzaru_log_open_file(all[k], (uint64_t)k, ROOM, paths[k])) die("no file");
    }
    nidzaru_log_pace(all, THREADS, 20);
    pid_t child = fork();
    if (child == 0) {
        for (int k = 0; k < THREADS; k++) pthread_create(&threads[k], 0, use, all[k]);
        for (int k = 0; k < THREADS; k++) pthread_join(threads[k], 0);
        _exit(0);
    }
    srand(seed);
    while (atomic_load(&lock->ended[0]) < 1000 || atomic_load(&lock->ended[1]) < 1000) sched_yield();
    while_.tv_nsec = rand() % 5000000;
    nanosleep(&while_, 0);
    kill(child, SIGKILL);
    waitpid(child, &status, 0);
    if (!WIFSIGNALED(status)) die("the threads had ended");
    snprintf(path, sizeof path, "%s/header", folder);
    header = fopen(path, "w");
    if (!header) die("no header");
    nidzaru_log_header(header, nidzaru_log_record_of(0, opening, sizeof opening), 0);
    fclose(header);
    for (int k = 0; k < THREADS; k++) {
        nidzaru_log_close(all[k]);
        if (nidzaru_log_open_left(all[k], paths[k])) die("what was left isn't a log");
        if (all[k]->state->count < atomic_load(&lock->ended[k])) die("an operation that had ended isn't there");
    }
    return nidzaru_log_merge(stdout, all, THREADS, nidzaru_log_record_of(0, opening, sizeof opening), 0);
}

int main(int count, char **words) {
    if (count == 3 && !strcmp(words[1], "steps")) return step(words[2]);
    if (count == 4 && !strcmp(words[1], "threads")) return kill_threads(words[2], (unsigned)strtoul(words[3], 0, 10));
    return 2;
}
