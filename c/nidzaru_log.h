/* A recorder: what threads do on one register, or on anything that is to be one, written as JSON Lines for `fsr order`. It needs
 * no library; C11 and C++17, gcc and clang.
 *
 * Each thread has a log of its own. All of its memory is taken, and touched, before the threads begin:
 *
 *   nidzaru_log log;
 *   nidzaru_log_open(&log, who, 1000000)                     room for so many operations of one thread
 *
 *   nidzaru_log_begin_write(&log, item.number, &item, sizeof item);
 *   publish(&item);
 *   nidzaru_log_end_write(&log);                             or, if it was refused, nidzaru_log_end_refused(&log, ..) with what it saw,
 *                                                            or nidzaru_log_end_no_effect(&log), if it did nothing: it is left out
 *
 *   nidzaru_log_begin_read(&log);
 *   fetch(&item);
 *   nidzaru_log_end_read(&log, item.number, &item, sizeof item);
 *
 * If one thread ends before another begins, a log shows nothing. So before the threads begin they are paced: each waits, before it begins
 * an operation, while it is so many ahead of the slowest. It looks by loads alone, which order nothing between the threads' calls:
 *
 *   nidzaru_log *logs[] = {&first, &second};
 *   nidzaru_log_pace(logs, 2, 200);                          the array and its logs stay where they are until all threads are joined
 *
 * A thread whose log is full holds up nobody; one that stops before says nidzaru_log_leave(&log). When the threads are joined, or stand
 * still for good:
 *
 *   nidzaru_log_merge(stdout, logs, 2, nidzaru_log_record_of(opening.number, &opening, sizeof opening), 0)
 *
 * While the threads run, one thread may write what they have ended by now, and a floor, below which nothing more begins. `fsr watch` reads
 * that as it comes, and tells at once where it is lost:
 *
 *   nidzaru_log_header(stdout, opening, 0);
 *   while (run) nidzaru_log_drain(stdout, logs, 2);          with a pause between two; no thread waits for it
 *   nidzaru_log_finish(stdout, logs, 2);                     when the threads are joined, or stand still for good
 *
 * The floor is the least begin of what is under way. A thread that is between two calls holds it at its last end, until it says
 * nidzaru_log_pause(&log); one that hasn't begun, has left or whose log is full doesn't hold it. A call that hangs holds it at its begin,
 * as does a write that an exception ended, although its thread leaves: `fsr watch` then tells nothing that came later, and its time grows
 * with the square of what comes. nidzaru_log_holder says whose log that is, and the line of the floor has its `who`. nidzaru_log_give_up
 * gives a thread up that never comes back: its write is written without an end, and nobody waits for it. If a log has a fault, such as an
 * operation without room, the last line is of kind `fault`, which every judge refuses. What is cut off before its line `done`, as by a
 * kill, may lack the write of a read: don't trust what is said of its end.
 *
 * A record is [number, hash]. The number stands in the data; no two writes have the same, and none has the opening's. The hash is of
 * all bytes, so data of two writes that were mixed show as a record that nobody wrote (unless two hashes are equal by chance). Bytes
 * between the members of a struct count as well: set them to zero, or pass data that has none. The first NIDZARU_LOG_WORDS words of 8
 * bytes, 8 if nothing else is defined, are kept too, and written as "words" beside the record: they tell of which writes a torn record is,
 * which tools/convert/explain.py says. No judge looks at them. With 0 none is kept, and a log takes less memory.
 *
 * Several processes write their lines alone, with the clock's own times, and one of them a header; threads of all have different numbers.
 * `cat` joins them: `nidzaru_log_header(stdout, opening, 0)`, `nidzaru_log_lines(stdout, logs, 2)`. The counter and CLOCK_MONOTONIC are the
 * same for all processes of a machine. Several machines take NIDZARU_LOG_TSC 0 and a NIDZARU_LOG_CLOCK that they have in common, such as
 * CLOCK_REALTIME, and tools/convert/join.py makes intervals longer by what their clocks differ.
 *
 * A log in a file, nidzaru_log_open_file(&log, who, room, path), keeps what its thread did if the program is killed. Another program opens
 * it by nidzaru_log_open_left(&log, path) and merges it, or tools/convert/join.py reads it. (A machine that stops may lose it.)
 *
 * A write stands in the log from its begin on: one that never returns is written without an end. A read that never returns is
 * left out. A log that has no room left counts what it lost, and then nothing is merged, since a write that is missing would
 * condemn whoever read it. `nidzaru_log_is_full` tells a thread when to stop.
 *
 * Stamps. A begin is never taken late, nor an end early, so an interval may be longer than its call and is never shorter. On x86-64
 * `lfence` behind `rdtsc` holds back what follows, and `mfence` before `rdtscp` waits for what went before (Intel, Software Developer's
 * Manual, volume 2, "RDTSC" and "RDTSCP"). The counters of all processors have to run together (constant_tsc and nonstop_tsc in
 * /proc/cpuinfo). On 64-bit ARM the counter is CNTVCT_EL0, one for all processors: `isb` behind it holds back what follows, and `dsb`, then
 * `isb`, before it wait for what went before (Arm Architecture Reference Manual, "Barriers" and "The Generic Timer"). It ticks at some tens
 * of MHz on many machines, so times may be equal. With NIDZARU_LOG_TSC 0, and on other processors, the clock is CLOCK_MONOTONIC, in
 * nanoseconds: more portable and slower. The begin waits until the clock has left the thread's last end, so operations of one thread never
 * touch. The tests ran on x86-64, and for ARM under emulation alone.
 *
 * The fence. When a call returns, what it stored may still wait in the store buffer of its processor. With an end stamped then,
 * others read the old record after that end, and a correct register of release stores and acquire loads is `crossed` or `stale`: by the
 * clock it isn't linearizable. With NIDZARU_LOG_FENCE 1, as it is if nothing else is defined, a full fence stands before the end's stamp.
 * The log is then of the call and the fence together. NIDZARU_LOG_FENCE 0 leaves it out and asks the stronger question. */
#ifndef NIDZARU_LOG_H
#define NIDZARU_LOG_H

#include <inttypes.h>
#include <sched.h>
#include <stddef.h>
#include <stdint.h>
#include <stdio.h>
#include <stdlib.h>
#include <string.h>
#include <time.h>

#ifndef NIDZARU_LOG_FENCE
#define NIDZARU_LOG_FENCE 1
#endif
#ifndef NIDZARU_LOG_TSC
#if defined(__x86_64__) || defined(__aarch64__)
#define NIDZARU_LOG_TSC 1
#else
#define NIDZARU_LOG_TSC 0
#endif
#endif

/* Whether the stamps are the counter of 64-bit ARM. */
#if NIDZARU_LOG_TSC && defined(__aarch64__)
#define NIDZARU_LOG_ARM 1
#else
#define NIDZARU_LOG_ARM 0
#endif

#ifndef NIDZARU_LOG_CLOCK
#define NIDZARU_LOG_CLOCK CLOCK_MONOTONIC
#endif
#ifndef NIDZARU_LOG_WORDS
#define NIDZARU_LOG_WORDS 8
#endif

/* Logs in files need POSIX: with -std=c11 compile with -D_POSIX_C_SOURCE=200112L. */
#if defined(_POSIX_C_SOURCE) && _POSIX_C_SOURCE >= 200112L
#define NIDZARU_LOG_FILES 1
#include <fcntl.h>
#include <sys/mman.h>
#include <unistd.h>
#else
#define NIDZARU_LOG_FILES 0
#endif

#ifdef __x86_64__
#include <x86intrin.h>
#endif
#ifdef __cplusplus
#include <atomic>
#define NIDZARU_LOG_CAST(type, it) static_cast<type>(it)
#define NIDZARU_LOG_ORDER(fence) std::atomic_##fence(std::memory_order_seq_cst)
#else
#include <stdatomic.h>
#define NIDZARU_LOG_CAST(type, it) ((type)(it))
#define NIDZARU_LOG_ORDER(fence) atomic_##fence(memory_order_seq_cst)
#endif
#if !NIDZARU_LOG_TSC && !defined(CLOCK_MONOTONIC)
#error "the clock needs clock_gettime: compile with -D_POSIX_C_SOURCE=199309L"
#endif

#define NIDZARU_LOG_INLINE __attribute__((unused)) static inline
#define NIDZARU_LOG_CHECKED __attribute__((warn_unused_result)) NIDZARU_LOG_INLINE
#define NIDZARU_LOG_SELDOM __attribute__((unused, noinline)) static

/* Why no log was opened, or none was merged. 0 is that all went well. */
enum {
    NIDZARU_LOG_NO_MEMORY = 1, /* memory for a log was refused */
    NIDZARU_LOG_FULL = 2,      /* a log had no room for one of its operations */
    NIDZARU_LOG_UNPAIRED = 3,  /* an operation began within another of its thread, or ended and hadn't begun */
    NIDZARU_LOG_NO_LIMIT = 4,  /* a write was refused, and no limit was told */
    NIDZARU_LOG_STREAM = 5,    /* the stream took not all of it */
    NIDZARU_LOG_NO_FILE = 6,   /* a log's file can't be made, or isn't one */
    NIDZARU_LOG_CAME_BACK = 7  /* a thread that was given up began another operation, or a write that no drain had seen */
};

enum { NIDZARU_LOG_NOTHING, NIDZARU_LOG_WRITE, NIDZARU_LOG_READ, NIDZARU_LOG_REFUSED };

typedef struct {
    uint64_t number, hash;
#if NIDZARU_LOG_WORDS
    uint64_t kept, words[NIDZARU_LOG_WORDS]; /* the first words, and how many there are */
#endif
} nidzaru_log_record;

typedef struct {
    uint64_t kind, begin, end;
    nidzaru_log_record record;
} nidzaru_log_operation;

/* What one thread did: this, and behind it its operations. In whatever moment a thread is killed, what it had ended is there, and so is the
 * write that had begun: that one is under way if its place is the count. */
typedef struct {
    char magic[8];
    uint64_t who, room, count, lost, unpaired, refused;
    uint64_t turn;  /* how many operations ended, or NIDZARU_LOG_LEFT; other threads load it */
    uint64_t words; /* NIDZARU_LOG_WORDS, on which the size of an operation depends */
    uint64_t place;
    uint64_t idle; /* whether the thread holds no floor: its next begin shows first that it does */
    uint64_t apart[5];
    nidzaru_log_operation under_way; /* `end` isn't known yet; NIDZARU_LOG_NOTHING where none is */
} nidzaru_log_state;

/* The log of one thread. Its members are the recorder's own. */
typedef struct nidzaru_log {
    nidzaru_log_state *state;
    nidzaru_log_operation *operations;
    size_t merged, mapped; /* `mapped` is the size of a file in memory, or 0 */
    uint64_t last_end;
    uint64_t reach, ahead; /* the turn before which nobody has to be looked for, and how many it may be ahead */
    struct nidzaru_log *const *beside;
    size_t beside_count;
    uint64_t counted, written, floor; /* the drains' own: operations that had ended, lines, and below what nothing more begins */
    uint64_t given_up;                /* 1 if the thread was given up, 2 behind the next drain, 3 if that wrote its write without an end */
    uint64_t last_begin, under_way;   /* what it had begun last then, and whether a write is under way */
    char apart[64];                   /* logs that lie side by side share no cache line that their threads store to */
} nidzaru_log;

#define NIDZARU_LOG_MAGIC "nidzaru\2"
#define NIDZARU_LOG_LEFT UINT64_MAX

/* The size of a state and so many operations, or 0 if no size can say it. */
NIDZARU_LOG_INLINE size_t nidzaru_log_size(uint64_t room) {
    size_t size = sizeof(nidzaru_log_operation);
    return room > (SIZE_MAX - sizeof(nidzaru_log_state)) / size ? 0 : sizeof(nidzaru_log_state) + NIDZARU_LOG_CAST(size_t, room) * size;
}

NIDZARU_LOG_INLINE void nidzaru_log_take_block(nidzaru_log *log, void *block) {
    log->state = NIDZARU_LOG_CAST(nidzaru_log_state *, block);
    log->operations = NIDZARU_LOG_CAST(nidzaru_log_operation *, NIDZARU_LOG_CAST(void *, log->state + 1));
}

/* A new log in a block of this size. Every page is touched before the threads begin. */
NIDZARU_LOG_INLINE void nidzaru_log_begin_block(nidzaru_log *log, void *block, size_t size, uint64_t who, uint64_t room) {
    memset(block, 1, size);
    nidzaru_log_take_block(log, block);
    memset(log->state, 0, sizeof *log->state);
    log->state->who = who;
    log->state->room = room;
    log->state->words = NIDZARU_LOG_WORDS;
    log->state->idle = 1;
    log->state->turn = room ? 0 : NIDZARU_LOG_LEFT;
    memcpy(log->state->magic, NIDZARU_LOG_MAGIC, sizeof log->state->magic);
}

/* A log of the thread `who` with room for so many operations. Threads have different numbers. */
NIDZARU_LOG_CHECKED int nidzaru_log_open(nidzaru_log *log, uint64_t who, size_t room) {
    size_t size = nidzaru_log_size(room);
    void *block = size ? malloc(size) : NULL;
    memset(log, 0, sizeof *log);
    if (!block) return NIDZARU_LOG_NO_MEMORY;
    nidzaru_log_begin_block(log, block, size, who, room);
    return 0;
}

#if NIDZARU_LOG_FILES
/* Maps a file. Answers the block, or nothing. */
NIDZARU_LOG_INLINE void *nidzaru_log_map(int file, size_t size, int flags) {
    void *block = file < 0 || !size ? MAP_FAILED : mmap(NULL, size, PROT_READ | PROT_WRITE, flags, file, 0);
    return block == MAP_FAILED ? NULL : block;
}

/* Makes a file as long as a log, and maps it. What is in it stays. Answers the block, or nothing: then the file is as long as before. */
NIDZARU_LOG_INLINE void *nidzaru_log_map_resized(int file, size_t size) {
    off_t length = NIDZARU_LOG_CAST(off_t, size), before = file < 0 ? -1 : lseek(file, 0, SEEK_END);
    void *block = before < 0 || posix_fallocate(file, 0, length) ? NULL : nidzaru_log_map(file, size, MAP_SHARED);
    if (block && !ftruncate(file, length)) return block;
    if (block) munmap(block, size);
    if (before >= 0) (void)!ftruncate(file, before);
    return NULL;
}

/* The same in a file, which keeps what the thread did if the program is killed. The file is made anew. If the answer isn't 0, a file that
 * was there is as before, and none is made. */
NIDZARU_LOG_CHECKED int nidzaru_log_open_file(nidzaru_log *log, uint64_t who, size_t room, const char *path) {
    size_t size = nidzaru_log_size(room);
    int made = open(path, O_RDWR | O_CREAT | O_EXCL, 0666), file = made < 0 ? open(path, O_RDWR | O_CREAT, 0666) : made;
    void *block = nidzaru_log_map_resized(file, size);
    memset(log, 0, sizeof *log);
    if (file >= 0) close(file);
    if (!block && made >= 0) unlink(path);
    if (!block) return NIDZARU_LOG_NO_FILE;
    nidzaru_log_begin_block(log, block, size, who, room);
    log->mapped = size;
    return 0;
}

/* Whether a record has no more words than there is room for. */
NIDZARU_LOG_INLINE int nidzaru_log_is_record(const nidzaru_log_record *it) {
#if NIDZARU_LOG_WORDS
    return it->kept <= NIDZARU_LOG_WORDS;
#else
    return it != NULL;
#endif
}

/* Whether a block of this size is a log. */
NIDZARU_LOG_INLINE int nidzaru_log_is_whole(const nidzaru_log *log, size_t size) {
    const nidzaru_log_state *it = log->state;
    if (memcmp(it->magic, NIDZARU_LOG_MAGIC, sizeof it->magic) || it->words != NIDZARU_LOG_WORDS) return 0;
    if (nidzaru_log_size(it->room) != size || it->count > it->room || !nidzaru_log_is_record(&it->under_way.record)) return 0;
    for (uint64_t at = 0; at < it->count; at++) {
        const nidzaru_log_operation *one = &log->operations[at];
        if (one->kind < NIDZARU_LOG_WRITE || one->kind > NIDZARU_LOG_REFUSED || one->begin > one->end) return 0;
        if (!nidzaru_log_is_record(&one->record)) return 0;
    }
    return 1;
}

/* Opens what a program left in a file, to be merged. Its NIDZARU_LOG_WORDS has to be the same. */
NIDZARU_LOG_CHECKED int nidzaru_log_open_left(nidzaru_log *log, const char *path) {
    int file = open(path, O_RDONLY);
    off_t end = file < 0 ? 0 : lseek(file, 0, SEEK_END);
    size_t size = end > 0 && NIDZARU_LOG_CAST(uint64_t, end) >= sizeof(nidzaru_log_state) ? NIDZARU_LOG_CAST(size_t, end) : 0;
    void *block = nidzaru_log_map(file, size, MAP_PRIVATE);
    if (file >= 0) close(file);
    memset(log, 0, sizeof *log);
    if (!block) return NIDZARU_LOG_NO_FILE;
    nidzaru_log_take_block(log, block);
    log->mapped = size;
    if (nidzaru_log_is_whole(log, size)) return 0;
    munmap(block, size);
    memset(log, 0, sizeof *log);
    return NIDZARU_LOG_NO_FILE;
}
#endif

/* Gives the memory back; a file stays. */
NIDZARU_LOG_INLINE void nidzaru_log_close(nidzaru_log *log) {
#if NIDZARU_LOG_FILES
    if (log->mapped) munmap(log->state, log->mapped);
#endif
    if (!log->mapped) free(log->state);
    memset(log, 0, sizeof *log);
}

/* Whether the next operation of the thread has no room. */
NIDZARU_LOG_INLINE int nidzaru_log_is_full(const nidzaru_log *log) { return log->state->count == log->state->room; }

/* The record of these data: their number, and a hash of all bytes. Of two that differ in one word alone the hashes differ. */
NIDZARU_LOG_INLINE nidzaru_log_record nidzaru_log_record_of(uint64_t number, const void *data, size_t size) {
    const unsigned char *bytes = NIDZARU_LOG_CAST(const unsigned char *, data);
    nidzaru_log_record record;
    memset(&record, 0, sizeof record);
    record.number = number;
    record.hash = 0x9e3779b97f4a7c15u ^ size;
    for (size_t at = 0; at < size; at += 8) {
        uint64_t word = 0;
        memcpy(&word, bytes + at, size - at < 8 ? size - at : 8);
        record.hash = (record.hash ^ word) * 0xff51afd7ed558ccdu;
        record.hash ^= record.hash >> 32;
#if NIDZARU_LOG_WORDS
        if (record.kept < NIDZARU_LOG_WORDS) record.words[record.kept++] = word;
#endif
    }
    return record;
}

NIDZARU_LOG_INLINE uint64_t nidzaru_log_clock(void) {
    struct timespec now = {0, 0};
#ifdef CLOCK_MONOTONIC
    clock_gettime(NIDZARU_LOG_CLOCK, &now);
#endif
    return NIDZARU_LOG_CAST(uint64_t, now.tv_sec) * 1000000000u + NIDZARU_LOG_CAST(uint64_t, now.tv_nsec);
}

/* A moment after the last end. Nothing that follows has been done by it. */
NIDZARU_LOG_INLINE uint64_t nidzaru_log_stamp_begin(uint64_t last_end) {
    uint64_t now;
    NIDZARU_LOG_ORDER(signal_fence);
    do {
#if NIDZARU_LOG_ARM
        __asm__ volatile("mrs %0, cntvct_el0" : "=r"(now) : : "memory");
#elif NIDZARU_LOG_TSC
        now = __rdtsc();
#else
        now = nidzaru_log_clock();
#endif
    } while (now <= last_end);
#ifdef __x86_64__
    _mm_lfence();
#elif NIDZARU_LOG_ARM
    __asm__ volatile("isb" : : : "memory");
#else
    NIDZARU_LOG_ORDER(thread_fence);
#endif
    NIDZARU_LOG_ORDER(signal_fence);
    return now;
}

/* A moment by which all that went before has been done, and, with the fence, can be seen by all. */
NIDZARU_LOG_INLINE uint64_t nidzaru_log_stamp_end(void) {
    uint64_t now;
#if NIDZARU_LOG_TSC && !NIDZARU_LOG_ARM
    unsigned processor;
#endif
    NIDZARU_LOG_ORDER(signal_fence);
#if NIDZARU_LOG_FENCE && defined(__x86_64__)
    _mm_mfence();
#elif NIDZARU_LOG_FENCE && NIDZARU_LOG_ARM
    __asm__ volatile("dsb ish" : : : "memory"); /* (a dmb orders accesses alone, and a look at the counter is none) */
#elif NIDZARU_LOG_FENCE
    NIDZARU_LOG_ORDER(thread_fence);
#elif NIDZARU_LOG_ARM
    __asm__ volatile("dsb ishld" : : : "memory"); /* what was loaded is there; what was stored may wait */
#endif
#if NIDZARU_LOG_ARM
    __asm__ volatile("isb\n\tmrs %0, cntvct_el0" : "=r"(now) : : "memory");
#elif NIDZARU_LOG_TSC
    now = __rdtscp(&processor);
#else
    now = nidzaru_log_clock();
#endif
    NIDZARU_LOG_ORDER(signal_fence);
    return now;
}

/* What the thread stored before can be seen by all, with NIDZARU_LOG_FENCE 0 too. */
NIDZARU_LOG_INLINE void nidzaru_log_show(void) {
    NIDZARU_LOG_ORDER(signal_fence);
#if defined(__x86_64__)
    _mm_mfence();
#elif NIDZARU_LOG_ARM
    __asm__ volatile("dsb ish" : : : "memory");
#else
    NIDZARU_LOG_ORDER(thread_fence);
#endif
}

/* Paces the threads of these logs, none of which has begun: none begins an operation while another one that hasn't left is behind it by so
 * many. With 0 nobody waits. Each log keeps a pointer to the array, and its thread looks at the others' logs: the array and its logs have
 * to stay where they are, and the logs open, until all threads are joined. */
NIDZARU_LOG_INLINE void nidzaru_log_pace(nidzaru_log *const *logs, size_t count, uint64_t ahead) {
    for (size_t at = 0; at < count; at++) {
        logs[at]->beside = logs;
        logs[at]->beside_count = count;
        logs[at]->ahead = logs[at]->reach = ahead;
    }
}

NIDZARU_LOG_INLINE void nidzaru_log_set_turn(nidzaru_log *log, uint64_t turn) {
    __atomic_store_n(&log->state->turn, turn, __ATOMIC_RELAXED);
}

/* The thread, which is between two operations, may begin none for long. Until it does it doesn't hold the floor, unless a write is still
 * under way, as an exception ended its call. */
NIDZARU_LOG_INLINE void nidzaru_log_pause(nidzaru_log *log) {
    if (log->state->under_way.kind == NIDZARU_LOG_WRITE) return;
    __atomic_store_n(&log->state->idle, NIDZARU_LOG_CAST(uint64_t, 1), __ATOMIC_RELEASE);
}

/* The thread begins again. Whoever still sees it idle has looked at the clock before. */
NIDZARU_LOG_SELDOM void nidzaru_log_wake(nidzaru_log *log) {
    __atomic_store_n(&log->state->idle, NIDZARU_LOG_CAST(uint64_t, 0), __ATOMIC_RELAXED);
    nidzaru_log_show();
    log->last_end = nidzaru_log_stamp_end();
}

/* The thread records no more, and nobody waits for it. */
NIDZARU_LOG_INLINE void nidzaru_log_leave(nidzaru_log *log) {
    nidzaru_log_set_turn(log, NIDZARU_LOG_LEFT);
    nidzaru_log_pause(log);
}

/* The least turn of this log and of all that aren't given up. */
NIDZARU_LOG_INLINE uint64_t nidzaru_log_slowest(const nidzaru_log *log) {
    uint64_t slowest = log->state->turn;
    for (size_t at = 0; at < log->beside_count; at++) {
        uint64_t turn = __atomic_load_n(&log->beside[at]->state->turn, __ATOMIC_RELAXED);
        if (turn < slowest && !__atomic_load_n(&log->beside[at]->given_up, __ATOMIC_RELAXED)) slowest = turn;
    }
    return slowest;
}

/* Waits a little. A thread that gave its processor away each time would seldom run while another one does. */
NIDZARU_LOG_INLINE void nidzaru_log_wait(unsigned tries) {
#ifdef __x86_64__
    if (tries % 2000) {
        _mm_pause();
        return;
    }
#endif
    (void)tries;
    sched_yield();
}

/* Waits for the slowest, and then until it is behind by half as many, so that both run at once for a while. */
NIDZARU_LOG_INLINE void nidzaru_log_keep_pace(nidzaru_log *log) {
    uint64_t turn = log->state->turn;
    if (!log->ahead || turn < log->reach || turn == NIDZARU_LOG_LEFT) return;
    for (unsigned tries = 1; (log->reach = nidzaru_log_slowest(log) + log->ahead) <= turn + log->ahead / 2; tries++)
        nidzaru_log_wait(tries);
}

/* One more, if this holds. Another thread may look. */
NIDZARU_LOG_INLINE void nidzaru_log_tally(uint64_t *of, int holds) {
    if (holds) __atomic_store_n(of, *of + 1, __ATOMIC_RELAXED);
}

/* The kind is stored behind all else, so that a thread that is killed leaves a whole operation or none. Whoever sees the begin sees what
 * was counted before. */
NIDZARU_LOG_INLINE void nidzaru_log_begin(nidzaru_log *log, uint64_t kind) {
    nidzaru_log_state *it = log->state;
    nidzaru_log_keep_pace(log);
    if (it->idle) nidzaru_log_wake(log);
    nidzaru_log_tally(&it->unpaired, it->under_way.kind != NIDZARU_LOG_NOTHING);
    it->place = it->count;
    __atomic_store_n(&it->under_way.begin, nidzaru_log_stamp_begin(log->last_end), __ATOMIC_RELEASE);
    __atomic_store_n(&it->under_way.kind, kind, __ATOMIC_RELEASE);
}

/* Nothing is under way any more, and nothing that follows is stored before. */
NIDZARU_LOG_INLINE void nidzaru_log_rest(nidzaru_log *log) {
    __atomic_store_n(&log->state->under_way.kind, NIDZARU_LOG_CAST(uint64_t, NIDZARU_LOG_NOTHING), __ATOMIC_RELEASE);
    NIDZARU_LOG_ORDER(signal_fence);
    if (log->state->turn != NIDZARU_LOG_LEFT) nidzaru_log_set_turn(log, nidzaru_log_is_full(log) ? NIDZARU_LOG_LEFT : log->state->turn + 1);
    if (nidzaru_log_is_full(log)) nidzaru_log_pause(log);
}

/* The count is stored behind the operation, and before nothing is under way. */
NIDZARU_LOG_INLINE void nidzaru_log_end(nidzaru_log *log, uint64_t began_as, uint64_t kind, uint64_t end,
                                        const nidzaru_log_record *record) {
    nidzaru_log_state *it = log->state;
    nidzaru_log_tally(&it->unpaired, it->under_way.kind != began_as);
    nidzaru_log_tally(&it->refused, kind == NIDZARU_LOG_REFUSED);
    log->last_end = end;
    if (it->count == it->room) {
        nidzaru_log_tally(&it->lost, 1);
    } else {
        nidzaru_log_operation *next = &log->operations[it->count];
        next->kind = kind;
        next->begin = it->under_way.begin;
        next->end = end;
        next->record = *record;
        __atomic_store_n(&it->count, it->count + 1, __ATOMIC_RELEASE);
    }
    nidzaru_log_rest(log);
}

/* Before a write of these data. */
NIDZARU_LOG_INLINE void nidzaru_log_begin_write(nidzaru_log *log, uint64_t number, const void *data, size_t size) {
    log->state->under_way.record = nidzaru_log_record_of(number, data, size);
    nidzaru_log_begin(log, NIDZARU_LOG_WRITE);
}

/* After a write that took effect. */
NIDZARU_LOG_INLINE void nidzaru_log_end_write(nidzaru_log *log) {
    uint64_t end = nidzaru_log_stamp_end();
    nidzaru_log_end(log, NIDZARU_LOG_WRITE, NIDZARU_LOG_WRITE, end, &log->state->under_way.record);
}

/* After a write that was refused, with the data that it saw last. */
NIDZARU_LOG_INLINE void nidzaru_log_end_refused(nidzaru_log *log, uint64_t number, const void *data, size_t size) {
    uint64_t end = nidzaru_log_stamp_end();
    nidzaru_log_record saw = nidzaru_log_record_of(number, data, size);
    nidzaru_log_end(log, NIDZARU_LOG_WRITE, NIDZARU_LOG_REFUSED, end, &saw);
}

/* After a write that did nothing, such as a push onto a full queue or a compare-and-set that failed. It is left out of the log. */
NIDZARU_LOG_INLINE void nidzaru_log_end_no_effect(nidzaru_log *log) {
    nidzaru_log_tally(&log->state->unpaired, log->state->under_way.kind != NIDZARU_LOG_WRITE);
    nidzaru_log_rest(log);
}

/* Before a read. */
NIDZARU_LOG_INLINE void nidzaru_log_begin_read(nidzaru_log *log) { nidzaru_log_begin(log, NIDZARU_LOG_READ); }

/* After a read that gave these data. The stamp is taken before the hash. */
NIDZARU_LOG_INLINE void nidzaru_log_end_read(nidzaru_log *log, uint64_t number, const void *data, size_t size) {
    uint64_t end = nidzaru_log_stamp_end();
    nidzaru_log_record got = nidzaru_log_record_of(number, data, size);
    nidzaru_log_end(log, NIDZARU_LOG_READ, NIDZARU_LOG_READ, end, &got);
}

/* The next operation of a log to be written, or nothing: after those that ended a write that is under way. */
NIDZARU_LOG_INLINE const nidzaru_log_operation *nidzaru_log_next(const nidzaru_log *log) {
    const nidzaru_log_state *it = log->state;
    if (log->merged < it->count) return &log->operations[log->merged];
    return log->merged == it->count && it->under_way.kind == NIDZARU_LOG_WRITE && it->place == it->count ? &it->under_way : NULL;
}

/* The log whose next operation began first, or nothing where all are written. */
NIDZARU_LOG_INLINE nidzaru_log *nidzaru_log_first(nidzaru_log *const *logs, size_t count) {
    nidzaru_log *first = NULL;
    for (size_t at = 0; at < count; at++) {
        const nidzaru_log_operation *next = nidzaru_log_next(logs[at]);
        if (next && (!first || next->begin < nidzaru_log_next(first)->begin)) first = logs[at];
    }
    return first;
}

/* Writes a record under its key, and its words. */
NIDZARU_LOG_INLINE void nidzaru_log_put_record(FILE *to, const char *key, const nidzaru_log_record *it) {
    fprintf(to, ",\"%s\":[%" PRIu64 ",%" PRIu64 "]", key, it->number, it->hash);
#if NIDZARU_LOG_WORDS
    for (uint64_t at = 0; at < it->kept; at++) fprintf(to, "%s%" PRIu64, at ? "," : ",\"words\":[", it->words[at]);
    if (it->kept) fputs("]", to);
#endif
}

/* Writes the line of an operation of a log. What is under way is a write; its kind isn't looked at again, as it may end meanwhile. */
NIDZARU_LOG_INLINE void nidzaru_log_put(FILE *to, const nidzaru_log *log, const nidzaru_log_operation *it, uint64_t zero) {
    static const char *const kinds[] = {"", "write", "read", "refused"};
    int is_under_way = it == &log->state->under_way;
    const char *kind = is_under_way ? "write" : kinds[it->kind];
    fprintf(to, "{\"who\":%" PRIu64 ",\"kind\":\"%s\",\"begin\":%" PRIu64 ",\"end\":", log->state->who, kind, it->begin - zero);
    if (is_under_way) {
        fputs("null", to);
    } else {
        fprintf(to, "%" PRIu64, it->end - zero);
    }
    nidzaru_log_put_record(to, "record", &it->record);
    fputs("}\n", to);
}

/* Why these logs can't be merged, or 0. */
NIDZARU_LOG_INLINE int nidzaru_log_fault(nidzaru_log *const *logs, size_t count, uint64_t limit) {
    for (size_t at = 0; at < count; at++) {
        const nidzaru_log_state *it = logs[at]->state;
        if (__atomic_load_n(&it->unpaired, __ATOMIC_RELAXED)) return NIDZARU_LOG_UNPAIRED;
        if (__atomic_load_n(&it->lost, __ATOMIC_RELAXED)) return NIDZARU_LOG_FULL;
        if (__atomic_load_n(&it->refused, __ATOMIC_RELAXED) && !limit) return NIDZARU_LOG_NO_LIMIT;
    }
    return 0;
}

/* Writes the header of a log. `limit` is the number of writes before the first that may be refused, or 0 where none ever is. */
NIDZARU_LOG_INLINE void nidzaru_log_header(FILE *to, nidzaru_log_record opening, uint64_t limit) {
    fputs("{\"kind\":\"lines\"", to);
    nidzaru_log_put_record(to, "opening", &opening);
    if (limit) fprintf(to, ",\"limit\":%" PRIu64, limit);
    fputs("}\n", to);
}

/* Writes the operations of all logs by beginning, with times from this one on, and answers how many there are. */
NIDZARU_LOG_INLINE uint64_t nidzaru_log_put_all(FILE *to, nidzaru_log *const *logs, size_t count, uint64_t zero) {
    uint64_t operations = 0;
    for (nidzaru_log *first = nidzaru_log_first(logs, count); first; first = nidzaru_log_first(logs, count)) {
        nidzaru_log_put(to, first, nidzaru_log_next(first), zero);
        first->merged++;
        operations++;
    }
    return operations;
}

/* Writes the lines of all logs alone, by beginning and with the clock's own times, so that those of several processes can be joined. A
 * limit is the header's. Nothing is written where a log lost an operation. */
NIDZARU_LOG_CHECKED int nidzaru_log_lines(FILE *to, nidzaru_log *const *logs, size_t count) {
    int fault = nidzaru_log_fault(logs, count, 1);
    if (fault) return fault;
    for (size_t at = 0; at < count; at++) logs[at]->merged = 0;
    nidzaru_log_put_all(to, logs, count, 0);
    return fflush(to) || ferror(to) ? NIDZARU_LOG_STREAM : 0;
}

/* Writes all logs as JSON Lines by beginning, the first of which is moment 0, and behind them their number. The limit is the header's.
 * Nothing is written where a log lost an operation. */
NIDZARU_LOG_CHECKED int nidzaru_log_merge(FILE *to, nidzaru_log *const *logs, size_t count, nidzaru_log_record opening, uint64_t limit) {
    const nidzaru_log *first;
    int fault = nidzaru_log_fault(logs, count, limit);
    if (fault) return fault;
    for (size_t at = 0; at < count; at++) logs[at]->merged = 0;
    nidzaru_log_header(to, opening, limit);
    first = nidzaru_log_first(logs, count);
    fprintf(to, "{\"kind\":\"done\",\"ops\":%" PRIu64 "}\n",
            nidzaru_log_put_all(to, logs, count, first ? nidzaru_log_next(first)->begin : 0));
    return fflush(to) || ferror(to) ? NIDZARU_LOG_STREAM : 0;
}

/* Paced threads look at this. */
NIDZARU_LOG_INLINE void nidzaru_log_set_given_up(nidzaru_log *log, uint64_t given_up) {
    __atomic_store_n(&log->given_up, given_up, __ATOMIC_RELAXED);
}

/* A thread that never comes back, as its call hangs or it was cancelled, holds the floor no more, and nobody waits for it; the thread that
 * drains says so. The next drain writes its write without an end. If it begins another operation the drains have a fault. */
NIDZARU_LOG_INLINE void nidzaru_log_give_up(nidzaru_log *log) {
    if (log->given_up) return;
    nidzaru_log_set_given_up(log, 1);
    log->last_begin = __atomic_load_n(&log->state->under_way.begin, __ATOMIC_ACQUIRE);
}

/* The log whose thread holds the floor, as the last drain found it. There is at least one log. */
NIDZARU_LOG_INLINE nidzaru_log *nidzaru_log_holder(nidzaru_log *const *logs, size_t count) {
    nidzaru_log *holder = logs[0];
    for (size_t at = 1; at < count; at++) {
        if (logs[at]->floor < holder->floor) holder = logs[at];
    }
    return holder;
}

/* Looks what a thread has ended, and below which moment it begins nothing more. Idle, it begins after now; under way, at that begin; else
 * after its last end. The count is looked at last: what isn't counted hadn't begun before the begin that was seen, or is that. */
NIDZARU_LOG_INLINE void nidzaru_log_look(nidzaru_log *log, uint64_t now) {
    uint64_t idle = __atomic_load_n(&log->state->idle, __ATOMIC_ACQUIRE);
    uint64_t floor = __atomic_load_n(&log->state->under_way.begin, __ATOMIC_ACQUIRE);
    int writes = __atomic_load_n(&log->state->under_way.kind, __ATOMIC_ACQUIRE) == NIDZARU_LOG_WRITE;
    log->counted = __atomic_load_n(&log->state->count, __ATOMIC_ACQUIRE);
    log->under_way = writes && log->given_up && log->given_up < 3 && log->state->place == log->counted;
    if (log->counted && floor <= log->operations[log->counted - 1].end) floor = log->operations[log->counted - 1].end + 1;
    if (idle || log->given_up) floor = now;
    if (floor > log->floor) log->floor = floor;
}

/* Whether a thread that was given up began another operation, or a write whose kind the drain behind that didn't see, as the thread stood
 * between the two stores of its begin. */
NIDZARU_LOG_INLINE int nidzaru_log_came_back(const nidzaru_log *log) {
    if (!log->given_up) return 0;
    if (__atomic_load_n(&log->state->under_way.begin, __ATOMIC_ACQUIRE) != log->last_begin) return 1;
    if (log->given_up != 2) return 0;
    return log->under_way || (log->merged < log->counted && log->operations[log->merged].kind != NIDZARU_LOG_READ);
}

/* Looks at all threads. Answers why nothing more can be written, or 0. A fault stands behind no floor that was seen. */
NIDZARU_LOG_INLINE int nidzaru_log_look_at_all(nidzaru_log *const *logs, size_t count) {
    uint64_t now = nidzaru_log_stamp_begin(0);
    for (size_t at = 0; at < count; at++) nidzaru_log_look(logs[at], now);
    for (size_t at = 0; at < count; at++) {
        if (nidzaru_log_came_back(logs[at])) return NIDZARU_LOG_CAME_BACK;
    }
    return nidzaru_log_fault(logs, count, 0);
}

/* The next operation to be drained, or nothing: behind those that ended a write that is given up. If that ends after all it is left out. */
NIDZARU_LOG_INLINE const nidzaru_log_operation *nidzaru_log_next_drained(nidzaru_log *log) {
    const nidzaru_log_operation *next = &log->operations[log->merged];
    if (log->merged < log->counted && log->given_up > 1 && next->begin == log->last_begin) next = &log->operations[++log->merged];
    if (log->merged < log->counted) return next;
    return log->under_way ? &log->state->under_way : NULL;
}

/* The log whose next operation to be drained began first, or nothing. */
NIDZARU_LOG_INLINE nidzaru_log *nidzaru_log_first_drained(nidzaru_log *const *logs, size_t count) {
    nidzaru_log *first = NULL;
    for (size_t at = 0; at < count; at++) {
        const nidzaru_log_operation *next = nidzaru_log_next_drained(logs[at]);
        if (next && (!first || next->begin < nidzaru_log_next_drained(first)->begin)) first = logs[at];
    }
    return first;
}

/* Writes the next line of a log. */
NIDZARU_LOG_INLINE void nidzaru_log_put_drained(FILE *to, nidzaru_log *log) {
    nidzaru_log_put(to, log, nidzaru_log_next_drained(log), 0);
    log->written++;
    if (log->merged < log->counted) {
        log->merged++;
    } else {
        log->under_way = 0;
        nidzaru_log_set_given_up(log, 3);
    }
}

/* Writes a floor that this thread holds, if it has risen. Answers the highest. */
NIDZARU_LOG_INLINE uint64_t nidzaru_log_put_floor(FILE *to, uint64_t before, uint64_t floor, const nidzaru_log *holder) {
    if (floor <= before) return before;
    fprintf(to, "{\"kind\":\"floor\",\"begin\":%" PRIu64 ",\"who\":%" PRIu64 "}\n", floor, holder->state->who);
    return floor;
}

/* Writes by beginning what all threads have ended, and floors from this one on: one at most every 16 lines, since a judge's time grows with
 * what lies between two, and the one that holds for all that is to come. */
NIDZARU_LOG_INLINE void nidzaru_log_put_counted(FILE *to, nidzaru_log *const *logs, size_t count, uint64_t floor) {
    const nidzaru_log *holder = nidzaru_log_holder(logs, count);
    unsigned lines = 0;
    for (nidzaru_log *first = nidzaru_log_first_drained(logs, count); first; first = nidzaru_log_first_drained(logs, count)) {
        uint64_t begin = nidzaru_log_next_drained(first)->begin;
        if (lines++ % 16 == 15 && begin < holder->floor) floor = nidzaru_log_put_floor(to, floor, begin, first);
        nidzaru_log_put_drained(to, first);
    }
    nidzaru_log_put_floor(to, floor, holder->floor, holder);
    for (size_t at = 0; at < count; at++) {
        if (logs[at]->given_up == 1) nidzaru_log_set_given_up(logs[at], 2);
    }
}

/* Writes what all threads have ended since the last drain, and floors; times are the clock's own. One thread at a time drains, while others
 * record: no thread waits. The header stands before. After a fault the last line is of kind `fault`. */
NIDZARU_LOG_CHECKED int nidzaru_log_drain(FILE *to, nidzaru_log *const *logs, size_t count) {
    uint64_t before = count ? nidzaru_log_holder(logs, count)->floor : 0;
    int fault = nidzaru_log_look_at_all(logs, count);
    if (fault) {
        fputs("{\"kind\":\"fault\"}\n", to);
    } else if (count) {
        nidzaru_log_put_counted(to, logs, count, before);
    }
    if (fflush(to) || ferror(to)) return NIDZARU_LOG_STREAM;
    return fault;
}

/* Writes what is left, the writes that are under way without an end, and the number of all lines. A merge of the same logs may follow. */
NIDZARU_LOG_CHECKED int nidzaru_log_finish(FILE *to, nidzaru_log *const *logs, size_t count) {
    uint64_t operations = 0;
    int fault;
    for (size_t at = 0; at < count; at++) nidzaru_log_give_up(logs[at]);
    fault = nidzaru_log_drain(to, logs, count);
    if (fault) return fault;
    for (size_t at = 0; at < count; at++) operations += logs[at]->written;
    fprintf(to, "{\"kind\":\"done\",\"ops\":%" PRIu64 "}\n", operations);
    return fflush(to) || ferror(to) ? NIDZARU_LOG_STREAM : 0;
}

#endif
