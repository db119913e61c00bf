/* Where the recorder takes its stamps, and what it asks of the system: each instruction and call that counts is one of this file in place
 * of the real one, and is noted. C11, on any processor, on ARM by the clock alone; the last line is `passed`. */
#include <sched.h>
#include <stdatomic.h>
#include <stdint.h>
#include <stdio.h>
#include <stdlib.h>
#include <string.h>
#include <time.h>
#ifdef __x86_64__
#include <x86intrin.h>
#endif

/* What was done, a letter each: `b` rdtsc, `e` rdtscp, `c` the clock, `l` lfence, `m` mfence, `f` a fence of threads, `s` one of signals,
 * `h` a copy of data, `y` a turn that is given to others, `!` the recorded call. */
static char done[64];
static void note(char what) {
    size_t length = strlen(done);
    if (length + 1 < sizeof done) done[length] = what, done[length + 1] = 0;
}

/* The clock of this file goes on by 7 at each look, but stands still for so many looks. */
static uint64_t ticks = 1000000000000u;
static unsigned still;
static uint64_t look(char what) {
    note(what);
    if (still) return still--, ticks;
    return ticks += 7;
}

static int look_at_clock(clockid_t which, struct timespec *to) {
    uint64_t it = look(which == CLOCK_MONOTONIC ? 'c' : '?');
    to->tv_sec = (time_t)(it / 1000000000u);
    to->tv_nsec = (long)(it % 1000000000u);
    return 0;
}

/* Blocks that were asked for and given back. */
static size_t asked, given, returned;
static unsigned char *newest;
static void *take_block(size_t size) {
    given++;
    asked = size;
    newest = malloc(size);
    if (newest) memset(newest, 0xa5, size);
    return newest;
}

static void return_block(void *it) {
    returned += it != NULL;
    free(it);
}

static void *copy(void *to, const void *from, size_t size) {
    note('h');
    return memcpy(to, from, size);
}

/* Whoever waits lets the other log's thread end an operation. One that waits for ever is told. */
static void let_other_go(void);
static void yield(void) {
    note('y');
    if (strlen(done) + 1 == sizeof done) {
        puts("FAILED: a thread waits for ever");
        exit(1);
    }
    let_other_go();
}

#undef __rdtsc
#undef __rdtscp
#undef _mm_lfence
#undef _mm_mfence
#undef atomic_signal_fence
#undef atomic_thread_fence
#define __rdtsc() look('b')
#define __rdtscp(processor) (*(processor) = 0, look('e'))
#define _mm_lfence() note('l')
#define _mm_mfence() note('m')
#define atomic_signal_fence(order) note((order) == memory_order_seq_cst ? 's' : '?')
#define atomic_thread_fence(order) note((order) == memory_order_seq_cst ? 'f' : '?')
#define sched_yield() yield()
#undef _mm_pause
#define _mm_pause() yield()
#define clock_gettime look_at_clock
#define malloc take_block
#define free return_block
#define memcpy copy
#include "nidzaru_log.h"
#undef memcpy
#undef free
#undef malloc

#if NIDZARU_LOG_ARM
#error "the counter of ARM has no function: compile with -DNIDZARU_LOG_TSC=0, and see planted_log.py"
#endif
#define TICK (NIDZARU_LOG_TSC ? 'b' : 'c')
/* What stands before a call and behind it. (When an operation is put down, the compiler is held once more.) */
#if !defined(__x86_64__)
#define BEGIN "scfs"
#elif NIDZARU_LOG_TSC
#define BEGIN "sbls"
#else
#define BEGIN "scls"
#endif
#if defined(__x86_64__)
#define SHOW "sm"
#else
#define SHOW "sf"
#endif
#if !NIDZARU_LOG_FENCE
#if NIDZARU_LOG_TSC
#define END "ses"
#else
#define END "scs"
#endif
#elif !defined(__x86_64__)
#define END "sfcs"
#elif NIDZARU_LOG_TSC
#define END "smes"
#else
#define END "smcs"
#endif

static int failed;
static void check(int holds, const char *what) {
    if (!holds) {
        failed = 1;
        printf("FAILED: %s (%s)\n", what, done);
    }
}

/* What was done is this: of several texts one behind the other. */
static void check_done(const char *what, const char *first, const char *second, const char *third, const char *last) {
    char wanted[64];
    snprintf(wanted, sizeof wanted, "%s%s%s%s", first, second, third, last);
    check(!strcmp(done, wanted), what);
    done[0] = 0;
}

static nidzaru_log log_of_one;
static nidzaru_log *logs[] = {&log_of_one};
static const uint64_t item[] = {1, 7};

/* A merge gives these lines behind the header. */
static void check_lines(const char *what, const char *wanted) {
    char text[2048] = "";
    FILE *to = tmpfile();
    check(to && nidzaru_log_merge(to, logs, 1, nidzaru_log_record_of(0, "", 0), 9) == 0, "a merge");
    rewind(to);
    text[fread(text, 1, sizeof text - 1, to)] = 0;
    fclose(to);
    check(strchr(text, '\n') && !strncmp(strchr(text, '\n') + 1, wanted, strlen(wanted)), what);
    done[0] = 0;
}

/* The log of a thread that has begun. */
static void open_log(size_t room) {
    ticks = 1000000000000u;
    check(nidzaru_log_open(&log_of_one, 3, room) == 0, "a log is opened");
    nidzaru_log_wake(&log_of_one);
    log_of_one.last_end = 0;
    done[0] = 0;
}

/* A write's record is made before its begin, a read's after its end, so that neither is timed. */
static void check_write(void) {
    open_log(4);
    nidzaru_log_begin_write(&log_of_one, 1, item, sizeof item);
    note('!');
    nidzaru_log_end_write(&log_of_one);
    check_done("a write's stamps", "hh", BEGIN, "!", END "s");
    nidzaru_log_begin_write(&log_of_one, 2, item, sizeof item);
    note('!');
    nidzaru_log_end_refused(&log_of_one, 1, item, 8);
    check_done("a refused write's stamps", "hh", BEGIN, "!", END "hs");
    check_lines("the times of writes", "{\"who\":3,\"kind\":\"write\",\"begin\":0,\"end\":7,\"record\":[1,");
    nidzaru_log_close(&log_of_one);
}

static void check_read(void) {
    open_log(4);
    nidzaru_log_begin_read(&log_of_one);
    note('!');
    nidzaru_log_end_read(&log_of_one, 1, item, 8);
    check_done("a read's stamps", BEGIN, "!", END, "hs");
    check_lines("the times of a read", "{\"who\":3,\"kind\":\"read\",\"begin\":0,\"end\":7,\"record\":[1,");
    nidzaru_log_close(&log_of_one);
}

/* The clock stands still for three looks behind an end: the begin looks as often again. */
static void check_standing(void) {
    char looks[] = {'s', TICK, TICK, TICK, TICK, 0};
    open_log(4);
    nidzaru_log_begin_read(&log_of_one);
    nidzaru_log_end_read(&log_of_one, 1, item, 8);
    still = 3;
    done[0] = 0;
    nidzaru_log_begin_read(&log_of_one);
    nidzaru_log_end_read(&log_of_one, 1, item, 8);
    check_done("a clock that stands still", looks, &BEGIN[2], END, "hs");
    nidzaru_log_begin_write(&log_of_one, 2, item, 8);
    check_lines("the times of two reads and a write", "{\"who\":3,\"kind\":\"read\",\"begin\":0,\"end\":7,");
    nidzaru_log_end_write(&log_of_one);
    nidzaru_log_close(&log_of_one);
}

/* A thread that was idle shows before its begin's stamp that it isn't, with a full fence and an end's stamp, above which it begins. */
static void check_wake(void) {
    uint64_t shown;
    open_log(4);
    nidzaru_log_pause(&log_of_one);
    nidzaru_log_begin_read(&log_of_one);
    note('!');
    nidzaru_log_end_read(&log_of_one, 1, item, 8);
    check_done("a thread that begins again", SHOW END, BEGIN, "!", END "hs");
    nidzaru_log_pause(&log_of_one);
    shown = ticks + 7;
    still = 0;
    nidzaru_log_wake(&log_of_one);
    check(log_of_one.last_end == shown && !log_of_one.state->idle, "a begin behind the moment at which the thread is seen");
    nidzaru_log_close(&log_of_one);
}

/* By the clock moments are nanoseconds, also where the second changes. */
static void check_seconds(void) {
    uint64_t begin;
    open_log(4);
    ticks = 1999999999990u;
    begin = nidzaru_log_stamp_begin(0);
    check(begin == 1999999999997u && nidzaru_log_stamp_end() == 2000000000004u, "moments on both sides of a second");
    nidzaru_log_close(&log_of_one);
}

static void check_memory(void) {
    enum { ROOM = 3000, PAGE = 4096 };
    size_t before = given - returned, untouched = 0;
    open_log(ROOM);
    check(asked >= ROOM * sizeof(nidzaru_log_operation), "memory for all operations");
    for (size_t page = 0; page < asked / PAGE; page++) {
        size_t same = 0;
        while (same < PAGE && newest[page * PAGE + same] == 0xa5) same++;
        untouched += same == PAGE;
    }
    check(untouched == 0, "every page is touched before the threads begin");
    nidzaru_log_close(&log_of_one);
    check(given - returned == before, "what was asked for is given back");
    given = returned = 0;
    check(nidzaru_log_open(&log_of_one, 0, SIZE_MAX / sizeof(nidzaru_log_operation) + 2) == NIDZARU_LOG_NO_MEMORY && given == 0,
          "room that no size can say");
    check(nidzaru_log_open(&log_of_one, 0, 0) == 0, "a log without room is opened");
    nidzaru_log_close(&log_of_one);
    check(given == returned, "a log without room is closed");
}

static nidzaru_log other;
static nidzaru_log *both[] = {&log_of_one, &other};

static void let_other_go(void) { nidzaru_log_set_turn(&other, other.state->turn + 1); }

/* How often the thread waits before each of some reads, a figure each. */
static void check_waits(const char *what, const char *wanted) {
    char waits[16] = "";
    for (size_t at = 0; at < strlen(wanted); at++) {
        size_t before, after;
        done[0] = 0;
        nidzaru_log_begin_read(&log_of_one);
        before = strspn(done, "y");
        after = strlen(done);
        nidzaru_log_end_read(&log_of_one, 1, item, 8);
        check(!strchr(done + before, 'y') && strlen(done) > after, "a thread waits before its begin alone");
        waits[at] = (char)('0' + before);
    }
    check(!strcmp(waits, wanted), what);
    if (strcmp(waits, wanted)) printf("%s in place of %s\n", waits, wanted);
}

static void open_both(size_t room, size_t others, uint64_t ahead) {
    open_log(room);
    check(nidzaru_log_open(&other, 4, others) == 0, "another log is opened");
    done[0] = 0;
    nidzaru_log_pace(both, 2, ahead);
}

static void close_both(void) {
    nidzaru_log_close(&log_of_one);
    nidzaru_log_close(&other);
}

/* Four ahead: the fifth read waits until the other thread is one behind, the eighth and the eleventh alike. */
static void check_pace(void) {
    open_both(20, 20, 4);
    check_waits("a pace of four", "00003003003");
    nidzaru_log_leave(&other);
    check_waits("nobody waits for a thread that left", "00000000");
    close_both();
    open_both(20, 20, 1);
    check_waits("a pace of one", "01111");
    close_both();
    open_both(20, 20, 0);
    check_waits("no pace", "0000000000");
    close_both();
    open_both(3, 20, 1);
    check_waits("a thread whose log is full doesn't wait", "01100000");
    close_both();
    open_both(20, 1, 2);
    nidzaru_log_begin_write(&other, 1, item, 8);
    nidzaru_log_end_write(&other);
    check_waits("nobody waits for a thread whose log is full", "00000000");
    close_both();
    open_both(20, 0, 2);
    check_waits("nobody waits for a thread whose log has no room", "00000000");
    close_both();
    open_both(20, 20, 2);
    nidzaru_log_begin_read(&other);
    nidzaru_log_give_up(&other);
    check_waits("nobody waits for a thread that was given up", "00000000");
    nidzaru_log_end_read(&other, 1, item, 8);
    check_waits("nor when it ends after all", "00000000");
    close_both();
    open_both(20, 20, 4);
    nidzaru_log_give_up(&log_of_one);
    check_waits("a thread that was given up waits", "00003003");
    nidzaru_log_give_up(&other);
    check_waits("until all are", "00000000");
    close_both();
}

int main(void) {
    check_write();
    check_read();
    check_standing();
    check_wake();
    check_seconds();
    check_memory();
    check_pace();
    puts(failed ? "failed" : "passed");
    return failed;
}
