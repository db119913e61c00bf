/* A victim that is killed after each single instruction of a call, and what the others then get. The victim stands before its call by
 * ptrace, makes so many instructions, and is killed. Then the others call; and its side is claimed. If that is refused the side is recovered
 * over four slots, and elsewhere nobody calls by it; else, and after that, the new owner's calls are seen.
 *
 *   shared_steps [EACH [r|w [STATE]]]   -DBYTES=24, -DTRIPLE, -DBOARD; with EACH, for a register, the new owner makes its first calls while
 *                                   the other side, and then the new owner while that calls, stands after each EACH-th instruction of a call.
 *                                   Victims alone that read or write, after the calls of this state alone, as wrw */
#define NIDZARU_SHARED_IMPLEMENTATION
#include <nidzaru_shared.h>
#include <signal.h>
#include <stdio.h>
#include <sys/ptrace.h>
#include <sys/user.h>
#include <sys/wait.h>
#include "shared_cells.h"

struct root { cell_shared cell; struct record given; uint64_t number; };
NIDZARU_SHARED_BLOCK(root, struct root);

static nidzaru_shared block;
static struct root *root;
static const char *before;
static size_t killed_after;

static void fails(const char *why) {
    printf("%s: killed after %zu instructions, after %s\n", why, killed_after, *before ? before : "nothing");
    exit(1);
}

#define DO(call) do { if (call) fails(#call); } while (0)

static uint64_t which(const struct record *item) {
    if (is_torn(item) || item->words[0] % 1000) fails("a torn record");
    return item->words[0] / 1000;
}

/* Marks the begin and the end of the call of a victim. */
static void mark(void) { __asm__ volatile("int3" ::: "memory"); }

#ifdef BOARD
enum { PLACES = 1 };
static nidzaru_stamp highest;
static uint64_t highest_record;

static void write_by(size_t place, uint64_t n) {
    const struct record item = record_of(n);
    nidzaru_stamp stamp;
    DO(cell_write(&root->cell.places[place], &item, &stamp));
    if (!nidzaru_stamp_is_below(highest, stamp)) fails("a write that isn't above what came before");
    highest = stamp;
    highest_record = n;
}

static void read_by(size_t place, uint64_t under_way) {
    struct record item;
    nidzaru_stamp stamp;
    DO(cell_read(&root->cell.places[place], &item, &stamp));
    const uint64_t n = which(&item);
    if (nidzaru_stamp_is_below(stamp, highest)) fails("an older record");
    if (!nidzaru_stamp_compare(stamp, highest) ? n != highest_record : n != under_way) fails("another record");
    highest = stamp;
    highest_record = n;
}

static void begin_cell(void) {
    const struct record first = record_of(0);
    memset(&highest, 0, sizeof highest);
    highest_record = 0;
    DO(cell_shared_make(&block, &root->cell, &first));
}

/* (each place has a turn: the victim's is place 0) */
static void call_before(char what, size_t turn, uint64_t n) {
    if (what == 'w') write_by(turn % 3, n);
    else read_by(turn % 3, 0);
}

static void victims_call(int writes, uint64_t n) {
    const struct record item = record_of(n);
    nidzaru_stamp stamp;
    cell_place *place;
    struct record seen;
    if (cell_claim(&block, &root->cell, 0, &place)) _exit(8);
    mark();
    if (writes ? cell_write(place, &item, &stamp) : cell_read(place, &seen, &stamp)) _exit(9);
    mark();
}

static int go_on(int writes, uint64_t n) {
    cell_place *place;
    (void)writes;
    for (size_t k = 0; k < 2; k++) {
        read_by(1, n);
        read_by(2, n);
        write_by(1 + k, n + 1 + k);
        read_by(2 - k, n);
    }
    const int status = cell_claim(&block, &root->cell, 0, &place);
    if (status == NIDZARU_SHARED_OWNER_DEAD) return 1;
    if (status) fails("a claim");
    read_by(0, n);
    write_by(0, n + 3);
    read_by(1, n);
    read_by(2, n);
    DO(cell_yield(&block, &root->cell, 0));
    return 0;
}
#else
enum { PLACES = 0 };
static uint64_t last, last_record;

/* What a read gave: no number below the last one, one record for one number, and one of these records. */
static void look_at_read(const struct record *item, uint64_t number, uint64_t from, uint64_t to) {
    const uint64_t n = which(item);
    if (number < last || (number == last && n != last_record)) fails("an older record, or two of one number");
    if (n < from || n > to) fails("another record");
    last = number;
    last_record = n;
}

static void read_it(uint64_t from, uint64_t to) {
    struct record item;
    uint64_t number;
    DO(cell_read(&root->cell.reader, &item, &number));
    look_at_read(&item, number, from, to);
}

static void write_it(uint64_t n) {
    const struct record item = record_of(n);
    DO(cell_write(&root->cell.writer, &item));
}

static void begin_cell(void) {
    const struct record first = record_of(0);
    last = last_record = 0;
    DO(cell_shared_make(&block, &root->cell, &first));
}

static void call_before(char what, size_t turn, uint64_t n) {
    (void)turn;
    if (what == 'w') write_it(n);
    else read_it(n, n);
}

static void victims_call(int writes, uint64_t n) {
    const struct record item = record_of(n);
    cell_writer *writer = NULL;
    cell_reader *reader = NULL;
    if (writes ? cell_claim_writer(&block, &root->cell, &writer) : cell_claim_reader(&block, &root->cell, &reader)) _exit(8);
    mark();
    if (writes ? cell_write(writer, &item) : cell_read(reader, &root->given, &root->number)) _exit(9);
    mark();
}

/* Takes the victim's side over. 1 where it was cut off. */
static int claim_again(int writes, cell_writer **writer, cell_reader **reader) {
    int status = writes ? cell_claim_writer(&block, &root->cell, writer) : cell_claim_reader(&block, &root->cell, reader);
    if (!status) return 0;
    if (status != NIDZARU_SHARED_OWNER_DEAD) fails("a claim");
    status = writes ? cell_recover_writer(&block, &root->cell, writer) : cell_recover_reader(&block, &root->cell, reader);
    if (status != (cell_is_triple ? NIDZARU_SHARED_LOST : 0)) fails("a recovery");
    return 1;
}

/* The victim's write, the n-th, is seen or isn't, and stays so. */
static int go_on(int writes, uint64_t n) {
    cell_writer *writer = NULL;
    cell_reader *reader = NULL;
    if (writes) read_it(n - 1, n);
    for (uint64_t k = 0; k < 3; k++) {
        if (writes) read_it(last_record, last_record);
        else write_it(n + k);
    }
    const int refused = claim_again(writes, &writer, &reader);
    if (refused && cell_is_triple) return 1;
    if (refused && writes) read_it(last_record, n);
    const uint64_t number = last;
    for (uint64_t k = 3; k < 9; k++) {
        write_it(n + k);
        if (k % 3 == 1) continue;
        read_it(n + k, n + k);
    }
    if (writes && last != number + 6) fails("another number");
    DO(writes ? cell_yield_writer(&block, &root->cell) : cell_yield_reader(&block, &root->cell));
    return refused;
}
#endif

/* A stopped victim right after the first mark. */
static pid_t begin_victim(int writes, uint64_t n) {
    int status;
    const pid_t victim = fork();
    if (!victim) {
        ptrace(PTRACE_TRACEME, 0, 0, 0);
        victims_call(writes, n);
        _exit(0);
    }
    if (waitpid(victim, &status, 0) != victim || !WIFSTOPPED(status) || WSTOPSIG(status) != SIGTRAP) fails("no victim");
    return victim;
}

/* Steps it so far. 1 if it has come to its second mark before. */
static int step(pid_t victim, size_t instructions) {
    struct user_regs_struct registers;
    int status;
    for (size_t k = 0; k < instructions; k++) {
        ptrace(PTRACE_GETREGS, victim, 0, &registers);
        if ((ptrace(PTRACE_PEEKTEXT, victim, registers.rip, 0) & 0xFF) == 0xCC) return 1;
        ptrace(PTRACE_SINGLESTEP, victim, 0, 0);
        if (waitpid(victim, &status, 0) != victim || !WIFSTOPPED(status) || WSTOPSIG(status) != SIGTRAP) fails("a victim that went");
    }
    return 0;
}

/* The calls before: writes and reads in several orders. */
static const char *const states[] = {"", "w", "wr", "wwr", "wrw", "wrwr", "wrwrw", "wrwwrw", "wrrwrwrwwwr", "wrwrwrw"};

/* A new register or board after the calls of this state, and a victim that is killed. 1 where its call had ended before; `*n` is the number
 * of the write that it was to make. */
static unsigned long kills, cut;
static int begin_and_kill(int writes, uint64_t *n) {
    size_t turn = 0;
    int status, ended;
    *n = 0;
    DO(root_create(&block, NULL, sizeof(struct root) + 16 * 4096 + 80 * BYTES, &root));
    begin_cell();
    for (const char *call = before; *call; call++) call_before(*call, turn++, *n += *call == 'w');
    const pid_t victim = begin_victim(writes, ++*n);
    ended = step(victim, killed_after);
    kill(victim, SIGKILL);
    if (waitpid(victim, &status, 0) != victim) fails("a victim that stays");
    kills++;
    return ended;
}

static int kill_one(int writes) {
    uint64_t n;
    const int ended = begin_and_kill(writes, &n);
    cut += (unsigned long)go_on(writes, n);
    DO(nidzaru_shared_detach(&block));
    return ended;
}

#ifndef BOARD
/* Two calls of a side, from the n-th record on, or of a reader that may get these. */
static void call_twice(int writes, uint64_t n, uint64_t from, uint64_t to) {
    for (uint64_t k = 0; k < 2; k++) {
        if (writes) write_it(n + k);
        else read_it(from, to);
    }
}

/* One victim, and a call that stands after so many instructions while two others are made: of the victim's new owner, or of the other side.
 * `*stood` says whether it hadn't ended by then. */
static int stand_one(int writes, size_t instructions, int is_owner, int *stood) {
    uint64_t n;
    int status;
    cell_writer *writer = NULL;
    cell_reader *reader = NULL;
    const int ended = begin_and_kill(writes, &n);
    const int stands_writes = is_owner ? writes : !writes;
    if (is_owner) {
        cut += (unsigned long)claim_again(writes, &writer, &reader);
        DO(writes ? cell_yield_writer(&block, &root->cell) : cell_yield_reader(&block, &root->cell));
        if (!writes) write_it(n++);
    }
    const uint64_t first = writes ? n + 1 : n, least = n - 1;
    const pid_t standing = begin_victim(stands_writes, first);
    const int done = step(standing, instructions);
    *stood |= !done;
    if (!is_owner) cut += (unsigned long)claim_again(writes, &writer, &reader);
    call_twice(!stands_writes, first, least, first);
    if (!done && !step(standing, 100000)) fails("a call without an end");
    kill(standing, SIGKILL);
    if (waitpid(standing, &status, 0) != standing) fails("a process that stays");
    if (!stands_writes) look_at_read(&root->given, root->number, least, first + 1);
    if (!is_owner) DO(writes ? cell_yield_writer(&block, &root->cell) : cell_yield_reader(&block, &root->cell));
    read_it(stands_writes ? first : first + 1, stands_writes ? first : first + 1);
    DO(nidzaru_shared_detach(&block));
    return ended;
}

static int stand_each(int writes, size_t each) {
    int ended = 0, stood = 1;
    for (size_t instructions = 1; stood; instructions += each) {
        stood = 0;
        for (int is_owner = 0; is_owner < 2; is_owner++) ended = stand_one(writes, instructions, is_owner, &stood);
    }
    return ended;
}
#else
static int stand_each(int writes, size_t each) { return (void)writes, (void)each, 1; }
#endif

int main(int count, char **words) {
    const size_t each = count > 1 ? strtoul(words[1], NULL, 10) : 0;
    const int from = count > 2 && *words[2] == 'w', to = count > 2 && *words[2] == 'r' ? 1 : 2;
    for (int writes = from; writes < to; writes++)
        for (size_t k = 0; k < (count > 3 ? 1 : sizeof states / sizeof *states); k++) {
            before = count > 3 ? words[3] : states[k];
            for (killed_after = 0; !(each ? stand_each(writes, each) : kill_one(writes)); killed_after++)
                if (killed_after == 100000) fails("a call without an end");
        }
    if (!cut || cut == kills) fails("no victim was within its call, or each was");
    printf("%lu kills, %s, %lu sides refused%s, nothing found\n", kills, each ? "each beside a call that stands" : "one after each instruction", cut,
           cell_is_triple || PLACES ? "" : " and recovered");
    return 0;
}
