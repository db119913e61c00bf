/* A call that is cut off after each of its instructions, by a jump out of a signal handler as an asynchronous cancel makes it, and what the
 * handles then answer: the one that was cut off NIDZARU_CUT_OFF for good, or else all that it owes; the other side goes on. On x86-64, whose
 * trap flag steps through a call.
 *
 *   cut_off                    -DBYTES=24, -DTRIPLE, -DBOARD, -DFAN; -DPLANTED: a mark that is taken away, which is found */
#include <nidzaru.h>
#include <setjmp.h>
#include <signal.h>
#include <stdio.h>
#include <stdlib.h>
#include "shared_cells.h"

enum { BEFORE = 16, AFTER = 6 };

static sigjmp_buf out;
static volatile sig_atomic_t armed, left;
static size_t cuts, lost;
static const char *what;
static long cut_after, before;

static void fails(const char *why) {
    printf("%s: a %s cut off after %ld instructions, after calls %ld\n", why, what, cut_after, before);
    exit(1);
}

#define DO(call) do { if (call) fails(#call); } while (0)

static void trap(int signal) {
    (void)signal;
    if (armed && --left == 0) {
        armed = 0;
        siglongjmp(out, 1);
    }
}

static void step(void) { __asm__ volatile("pushfq; orq $0x100,(%%rsp); popfq" ::: "memory", "cc"); }
static void walk(void) { __asm__ volatile("pushfq; andq $~0x100,(%%rsp); popfq" ::: "memory", "cc"); }

/* Makes so many instructions of the call. Whether it was cut off. */
#define CUT(call)                                                                                                     \
    (left = cut_after, sigsetjmp(out, 1) ? (walk(), 1) : (armed = 1, step(), (void)!(call), walk(), armed = 0, 0))

static uint64_t which(const struct record *item) {
    if (is_torn(item) || item->words[0] % 1000) fails("a torn record");
    return item->words[0] / 1000;
}

/* Whether the handle was cut off, by this call's status, which is that of each later one. */
static int is_lost(int status, int *known) {
    if (status && status != NIDZARU_CUT_OFF) fails("another status");
    if (*known >= 0 && *known != (status == NIDZARU_CUT_OFF)) fails("a handle that isn't cut off for good");
    return *known = status == NIDZARU_CUT_OFF;
}

#ifdef PLANTED
#define PLANT(side) do { if ((side).live == NIDZARU_BUSY) (side).live = planted; } while (0)
static uint64_t planted;
#else
#define PLANT(side) ((void)0)
#endif

#ifdef BOARD
static cell_place places[2];
static nidzaru_stamp highest;
static uint64_t written;

static int write_by(size_t place) {
    const struct record item = record_of(++written);
    nidzaru_stamp stamp;
    int status = cell_write(&places[place], &item, &stamp);
    if (!status && !nidzaru_stamp_is_below(highest, stamp)) fails("a write that isn't above what came before");
    if (!status) highest = stamp;
    return status;
}

/* A read, of nothing below what was seen, and of the newest record where that is known. */
static int read_by(size_t place, int newest) {
    struct record item;
    nidzaru_stamp stamp;
    int status = cell_read(&places[place], &item, &stamp);
    if (status) return status;
    if (nidzaru_stamp_is_below(stamp, highest)) fails("an older record");
    if (newest && which(&item) != written) fails("another record");
    (void)which(&item);
    highest = stamp;
    return status;
}

static int round_of(int writes) {
    const struct record first = record_of(0);
    struct record item;
    nidzaru_stamp stamp;
    static int known;
    memset(&places, 0, sizeof places);
    memset(&highest, 0, sizeof highest);
    written = 0;
    known = -1;
    DO(cell_make(&first, places, 2));
    for (long k = 0; k < 4; k++) {
        if (before >> k & 1) DO(write_by(k % 2));
        else DO(read_by((k + 1) % 2, 1));
    }
#ifdef PLANTED
    planted = places[0].handle.side.live;
#endif
    item = record_of(++written);
    if (!(writes ? CUT(cell_write(&places[0], &item, &stamp)) : CUT(cell_read(&places[0], &item, &stamp)))) return 0;
    if (!writes) written--;
    PLANT(places[0].handle.side);
    DO(read_by(1, 0));
    for (int k = 0; k < AFTER; k++) {
        int status = k % 2 ? write_by(0) : read_by(0, 0);
        if (is_lost(status, &known) && k % 2) written--;
        DO(write_by(1));
        DO(read_by(1, 1));
        if (!known) DO(read_by(0, 1));
    }
    if (is_lost(cell_end(&places[0]), &known)) lost++;
    DO(cell_end(&places[1]));
    cuts++;
    return 1;
}

static const char *const calls[] = {"read", "write"};
enum { CALLS = 2 };
#elif defined FAN
static cell_writer writer;
static cell_reader reader[2];
static uint64_t last[2], written;

/* A read, of no number below the last one. The record of a number is the same to both readers. */
static int read_by(size_t r) {
    struct record item;
    uint64_t number;
    int status = cell_read(&reader[r], &item, &number);
    if (status) return status;
    if (number < last[r] || which(&item) != number) fails("an older record, or another one of this number");
    last[r] = number;
    return status;
}

static int write_by(uint64_t n) {
    const struct record item = record_of(n);
    return cell_write(&writer, &item);
}

static int round_of(int call) {
    const struct record first = record_of(0);
    struct record item;
    static int known;
    (void)call;
    memset(&writer, 0, sizeof writer);
    memset(reader, 0, sizeof reader);
    memset(last, 0, sizeof last);
    written = 0;
    known = -1;
    DO(cell_make(&first, &writer, &reader));
    for (long k = 0; k < 4; k++) {
        if (before >> k & 1) DO(write_by(++written));
        else DO(read_by(k % 2));
    }
#ifdef PLANTED
    planted = writer.handle.side.live;
#endif
    item = record_of(written + 1);
    if (!CUT(cell_write(&writer, &item))) return 0;
    PLANT(writer.handle.side);
    for (int k = 0; k < AFTER; k++) {
        DO(read_by(0));
        DO(read_by(1));
        if (last[0] < last[1] || last[0] > written + 1 + (uint64_t)k) fails("the second reader has what the first one hasn't");
        if (is_lost(write_by(last[0] + 1), &known)) {
            const uint64_t had[2] = {last[0], last[1]};
            DO(read_by(0));
            DO(read_by(1));
            if (had[0] != last[0] || had[1] != last[1]) fails("a write that was refused, and is seen");
        } else {
            DO(read_by(0));
            DO(read_by(1));
            if (last[0] != last[1]) fails("two records after a write");
        }
    }
    if (is_lost(cell_end_writer(&writer), &known)) lost++;
    DO(cell_end_reader(&reader[0]));
    DO(cell_end_reader(&reader[1]));
    cuts++;
    return 1;
}

static const char *const calls[] = {"write"};
enum { CALLS = 1 };
#else
#ifdef TRIPLE
NIDZARU_LOAN(cell);
static const char *const calls[] = {"read", "write", "look", "publish"};
#else
static const char *const calls[] = {"read", "write", "look"};
#endif
enum { CALLS = sizeof calls / sizeof *calls };

static cell_writer writer;
static cell_reader reader;
static uint64_t written, last, last_record;

static int write_one(void) {
    const struct record item = record_of(written + 1);
    int status = cell_write(&writer, &item);
    written += !status;
    return status;
}

/* A read, of no number below the last one, of one record for one number, and of this record or the other one. */
static int read_one(uint64_t wanted, uint64_t or_else) {
    struct record item;
    uint64_t number, n;
    int status = cell_read(&reader, &item, &number);
    if (status) return status;
    n = which(&item);
    if (number < last || (number == last && n != last_record)) fails("an older record, or two of one number");
    if (n != wanted && n != or_else) fails("another record");
    last = number;
    last_record = n;
    return status;
}

static int cut_one(int call) {
    struct record item = record_of(written + 1);
    uint64_t number;
    switch (call) {
    case 0: return CUT(cell_read(&reader, &item, &number));
    case 1: return CUT(cell_write(&writer, &item));
    case 2: return CUT(cell_look(&reader, &number));
#ifdef TRIPLE
    default: {
        struct record *at;
        DO(cell_loan(&writer, &at));
        *at = item;
        return CUT(cell_publish(&writer));
    }
#else
    default: return 0;
#endif
    }
}

static int round_of(int call) {
    const struct record first = record_of(0);
    const int writes = call % 2;
    static int known;
    memset(&writer, 0, sizeof writer);
    memset(&reader, 0, sizeof reader);
    written = last = last_record = 0;
    known = -1;
    DO(cell_make(&first, &writer, &reader));
    for (long k = 0; k < 4; k++) {
        if (before >> k & 1) DO(write_one());
        else DO(read_one(written, written));
    }
#ifdef PLANTED
    planted = writes ? writer.handle.side.live : reader.handle.side.live;
#endif
    if (!cut_one(call)) return 0;
    PLANT(writer.handle.side);
    PLANT(reader.handle.side);
    if (writes) {
        DO(read_one(written, written + 1));
        if (last_record == written + 1) written++;
    }
    for (int k = 0; k < AFTER; k++) {
        if (!writes) DO(write_one());
        if (is_lost(writes ? write_one() : read_one(written, written), &known)) {
            if (writes) {
                DO(read_one(last_record, written + 1));
                written = last_record;
            }
        } else if (writes) {
            DO(read_one(written, written));
        }
    }
    if (is_lost(writes ? cell_end_writer(&writer) : cell_end_reader(&reader), &known)) lost++;
    DO(writes ? cell_end_reader(&reader) : cell_end_writer(&writer));
    cuts++;
    return 1;
}
#endif

int main(void) {
    struct sigaction action = {0};
    action.sa_handler = trap;
    action.sa_flags = SA_NODEFER;
    sigaction(SIGTRAP, &action, NULL);
    for (int call = 0; call < CALLS; call++) {
        what = calls[call];
        for (before = 0; before < BEFORE; before++) {
            for (cut_after = 1; round_of(call); cut_after++) continue;
        }
    }
    if (!lost || lost == cuts) {
        printf("%zu of %zu calls were cut off: that can't be\n", lost, cuts);
        return 1;
    }
    printf("%zu calls were cut off, %zu handles are lost, and nothing was found\n", cuts, lost);
    return 0;
}
