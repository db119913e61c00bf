/* Processes that are killed at random, and what the others then get. The victim has one side of a register, or place 0 of a board of three,
 * and calls all the time; this process has the others, calls beside it and after it, and looks at each word. Then it claims the dead one's
 * side: where that died between two calls this process goes on with it, and so does the next victim. Where it died within one the claim has
 * to be refused; over four slots the side is then recovered, and goes on too, and else the next victim gets a new register or board.
 *
 *   shared_kills KILLS SEED         -DBYTES=24 (or 256, 4096), -DTRIPLE, -DBOARD; with -DPLAIN or -DSEQUENCE a plain record or a
 *                                   sequence lock stands in the register's place, which has to be found wanting */
#define NIDZARU_SHARED_IMPLEMENTATION
#include <nidzaru_shared.h>
#include <sched.h>
#include <signal.h>
#include <stdio.h>
#include <sys/prctl.h>
#include <sys/wait.h>
#include "shared_cells.h"

enum { ROOM = 200 };

/* What is seen of the victim: its calls, and whether it was within one. */
struct seen { uint64_t calls, number, within; };

static void fails(const char *why) {
    printf("%s\n", why);
    exit(1);
}

/* The record of a write has this and the following numbers in its words. No two writes have one. */
static uint64_t next = 1;

static void look_at(const struct record *item) {
    if (is_torn(item)) fails("a torn record");
}

struct root { cell_shared cells[ROOM]; struct seen seen; uint64_t next; };
NIDZARU_SHARED_BLOCK(root, struct root);

static nidzaru_shared block;
static struct root *root;
static uint64_t state;

static uint64_t random_below(uint64_t bound) {
    state ^= state << 13, state ^= state >> 7, state ^= state << 17;
    return state % bound;
}

#define DO(call) do { if (call) fails(#call); } while (0)
/* Within a victim's call the shared word says so. */
#define CALL(call) do { __atomic_store_n(&root->seen.within, 1, __ATOMIC_RELAXED); if (call) _exit(9); \
    __atomic_store_n(&root->seen.within, 0, __ATOMIC_RELAXED); } while (0)

#ifndef BOARD
/* The two calls, of the register or of what stands in its place. */
#if defined PLAIN || defined SEQUENCE
static struct { uint64_t sequence, number; struct record item; } *instead;
static int write_it(cell_writer *writer, const struct record *item) {
    (void)writer;
#ifdef SEQUENCE
    __atomic_store_n(&instead->sequence, instead->sequence + 1, __ATOMIC_SEQ_CST);
#endif
    for (size_t k = 0; k < WORDS; k++) ((volatile uint64_t *)instead->item.words)[k] = item->words[k];
    __atomic_store_n(&instead->number, instead->number + 1, __ATOMIC_SEQ_CST);
#ifdef SEQUENCE
    __atomic_store_n(&instead->sequence, instead->sequence + 1, __ATOMIC_SEQ_CST);
#endif
    return 0;
}
static int read_it(cell_reader *reader, struct record *item, uint64_t *number) {
    uint64_t before;
    (void)reader;
    for (size_t tries = 0;; tries++) {
        if (tries == 20000000) fails("a read that waits for a dead process");
        before = __atomic_load_n(&instead->sequence, __ATOMIC_SEQ_CST);
        for (size_t k = 0; k < WORDS; k++) item->words[k] = ((volatile uint64_t *)instead->item.words)[k];
        *number = __atomic_load_n(&instead->number, __ATOMIC_SEQ_CST);
        if (!(before & 1) && before == __atomic_load_n(&instead->sequence, __ATOMIC_SEQ_CST)) return 0;
    }
}
#else
#define write_it cell_write
#define read_it cell_read
#endif

/* What this process knows of the register: the last number that it got, with its record, and the last one that it wrote. */
static uint64_t last, last_first, written;

static void check_read(const struct record *item, uint64_t number) {
    look_at(item);
    if (number < last) fails("an older record");
    if (number == last && last_first && item->words[0] != last_first) fails("two records of one number");
    last = number;
    last_first = item->words[0];
}

static void write_as_victim(cell_shared *cell) {
    cell_writer *writer;
    if (cell_claim_writer(&block, cell, &writer)) _exit(8);
    for (;;) {
        const struct record item = record_from(root->next);
        CALL(write_it(writer, &item));
        root->next += WORDS;
        __atomic_fetch_add(&root->seen.calls, 1, __ATOMIC_RELAXED);
    }
}

static void read_as_victim(cell_shared *cell) {
    cell_reader *reader;
    struct record item;
    uint64_t number = 0;
    if (cell_claim_reader(&block, cell, &reader)) _exit(8);
    for (;;) {
        CALL(read_it(reader, &item, &number));
        look_at(&item);
        if (number < root->seen.number) _exit(7);
        root->seen.number = number;
        __atomic_fetch_add(&root->seen.calls, 1, __ATOMIC_RELAXED);
    }
}

static void victim_calls(cell_shared *cell, int kind) {
    if (kind) write_as_victim(cell);
    else read_as_victim(cell);
}

/* The survivor's calls on its own side. */
static void call_once(cell_shared *cell, int kind) {
    struct record item;
    uint64_t number = 0;
    if (kind) {
        DO(read_it(&cell->reader, &item, &number));
        check_read(&item, number);
    } else {
        item = record_from(root->next);
        DO(write_it(&cell->writer, &item));
        root->next += WORDS;
        written++;
    }
}

static unsigned long kills, within, cut, recovered, calls;

/* After the victim's death, with the side that it had. 1 where that is refused. */
static int take_over(cell_shared *cell, int kind) {
    cell_writer *writer = &cell->writer;
    cell_reader *reader = &cell->reader;
    struct record item;
    uint64_t number = 0;
    int status = kind ? cell_claim_writer(&block, cell, &writer) : cell_claim_reader(&block, cell, &reader);
    if (status == NIDZARU_SHARED_OWNER_DEAD) {
        cut++;
        status = kind ? cell_recover_writer(&block, cell, &writer) : cell_recover_reader(&block, cell, &reader);
        if (cell_is_triple && status == NIDZARU_SHARED_LOST) return 1;
        recovered++;
        root->next += WORDS; /* (the record of the call that was cut off may be seen) */
    }
    if (status) fails(nidzaru_shared_text(status));
    for (int k = 0; k < 3; k++) {
        item = record_from(root->next);
        DO(write_it(writer, &item));
        root->next += WORDS;
        DO(read_it(reader, &item, &number));
        look_at(&item);
        if (item.words[0] != root->next - WORDS || number <= last || (k && number != last + 1)) fails("a write that isn't seen");
        last = number;
        last_first = item.words[0];
    }
    root->seen.number = written = number;
    DO(kind ? cell_yield_writer(&block, cell) : cell_yield_reader(&block, cell));
    return 0;
}

/* What the last record is: of a writer the last that it ended or the one under way, and the same at each read. */
static void check_end(cell_shared *cell, int kind, uint64_t before) {
    struct record item;
    uint64_t number = 0;
    if (!kind) return;
    DO(read_it(&cell->reader, &item, &number));
    check_read(&item, number);
    if (number != before + root->seen.calls && number != before + root->seen.calls + 1) fails("neither the last write nor the one under way");
}

static void begin_cell(cell_shared *cell) {
    const struct record first = record_from(next);
    DO(cell_shared_make(&block, cell, &first));
#if defined PLAIN || defined SEQUENCE
    instead->item = first;
    instead->number = instead->sequence = 0;
#endif
    last = last_first = written = root->seen.number = 0;
}

static uint64_t number_now(void) { return written > last ? written : last; }
static int claim_own(cell_shared *cell, int kind) {
    cell_reader *reader;
    cell_writer *writer;
    return kind ? cell_claim_reader(&block, cell, &reader) : cell_claim_writer(&block, cell, &writer);
}
static int yield_own(cell_shared *cell, int kind) { return kind ? cell_yield_reader(&block, cell) : cell_yield_writer(&block, cell); }
#else
static unsigned long kills, within, cut, recovered, calls;
static nidzaru_stamp stamps[BOARD_PLACES];
static uint64_t own;

/* A read of this place is never below what it had before, nor below that of a call which ended before on another place. */
static nidzaru_stamp highest;
static void read_place(cell_shared *cell, size_t k) {
    struct record item;
    nidzaru_stamp stamp;
    DO(cell_read(&cell->places[k], &item, &stamp));
    look_at(&item);
    if (nidzaru_stamp_is_below(stamp, stamps[k]) || nidzaru_stamp_is_below(stamp, highest)) fails("an older record");
    stamps[k] = highest = stamp;
}

static void write_place(cell_shared *cell, size_t k) {
    /* (the victim's records have even first words, this process's odd ones) */
    const struct record item = record_from((own += 2) | 1);
    nidzaru_stamp stamp;
    DO(cell_write(&cell->places[k], &item, &stamp));
    if (!nidzaru_stamp_is_below(highest, stamp)) fails("a write that isn't above what came before");
    stamps[k] = highest = stamp;
}

static void victim_calls(cell_shared *cell, int kind) {
    cell_place *place;
    struct record item;
    nidzaru_stamp stamp;
    if (cell_claim(&block, cell, 0, &place)) _exit(8);
    for (;;) {
        if (kind) {
            item = record_from(root->next += 2);
            CALL(cell_write(place, &item, &stamp));
        } else {
            CALL(cell_read(place, &item, &stamp));
            look_at(&item);
        }
        __atomic_fetch_add(&root->seen.calls, 1, __ATOMIC_RELAXED);
    }
}

static void call_once(cell_shared *cell, int kind) {
    (void)kind;
    if (random_below(3)) read_place(cell, 1 + random_below(2));
    else write_place(cell, 1 + random_below(2));
}

static int take_over(cell_shared *cell, int kind) {
    cell_place *place;
    const int status = cell_claim(&block, cell, 0, &place);
    (void)kind;
    if (status == NIDZARU_SHARED_OWNER_DEAD) return cut++, 1;
    if (status) fails(nidzaru_shared_text(status));
    read_place(cell, 0);
    write_place(cell, 0);
    read_place(cell, 1);
    write_place(cell, 2);
    read_place(cell, 0);
    DO(cell_yield(&block, cell, 0));
    return 0;
}

static void check_end(cell_shared *cell, int kind, uint64_t before) {
    (void)kind, (void)before;
    for (size_t k = 1; k < BOARD_PLACES; k++) read_place(cell, k);
}

static void begin_cell(cell_shared *cell) {
    const struct record first = record_from(next);
    DO(cell_shared_make(&block, cell, &first));
    memset(stamps, 0, sizeof stamps);
    memset(&highest, 0, sizeof highest);
}

static uint64_t number_now(void) { return 0; }
static int claim_own(cell_shared *cell, int kind) {
    cell_place *place;
    (void)kind;
    return cell_claim(&block, cell, 1, &place) ? 1 : cell_claim(&block, cell, 2, &place);
}
static int yield_own(cell_shared *cell, int kind) {
    (void)kind;
    return cell_yield(&block, cell, 1) ? 1 : cell_yield(&block, cell, 2);
}
#endif

/* One victim, of this kind: 1 writes, 0 reads. Says whether its side is refused afterwards. */
static int kill_one(cell_shared *cell, int kind) {
    const uint64_t before = number_now(), beside = random_below(300);
    pid_t victim;
    int status = 0;
    memset(&root->seen, 0, offsetof(struct seen, number));
    root->seen.within = 0;
    DO(claim_own(cell, kind));
    fflush(stdout);
    victim = fork();
    if (victim < 0) fails("no process");
    if (!victim) {
        prctl(PR_SET_PDEATHSIG, SIGKILL);
        victim_calls(cell, kind);
        _exit(0);
    }
    while (!__atomic_load_n(&root->seen.calls, __ATOMIC_RELAXED) && !waitpid(victim, &status, WNOHANG)) sched_yield();
    for (uint64_t k = 0; k < beside; k++, calls++) call_once(cell, kind);
    kill(victim, SIGKILL);
    for (int k = 0; k < 20; k++, calls++) call_once(cell, kind);
    if (status || waitpid(victim, &status, 0) != victim || !WIFSIGNALED(status)) fails("a victim that wasn't content");
    for (int k = 0; k < 20; k++, calls++) call_once(cell, kind);
    kills++;
    within += root->seen.within;
    check_end(cell, kind, before);
    DO(yield_own(cell, kind));
    return take_over(cell, kind);
}

/* Whether there are more victims: as many as are wanted, and where each or none of them died within a call some more, for chance. */
static int goes_on(unsigned long wanted) { return kills < wanted || ((!cut || cut == kills) && kills < 4 * wanted + 200); }

int main(int count, char **words) {
    const unsigned long wanted = count > 1 ? strtoul(words[1], NULL, 10) : 200;
    const uint64_t seed = count > 2 ? strtoull(words[2], NULL, 10) : 1;
    state = seed * 2862933555777941757u + 3037000493u;
    while (goes_on(wanted)) {
        int begun = 0;
        DO(root_create(&block, NULL, sizeof(struct root) + (size_t)(ROOM + 1) * (24576 + 12 * BYTES), &root));
#if defined PLAIN || defined SEQUENCE
        instead = mmap(NULL, sizeof *instead, PROT_READ | PROT_WRITE, MAP_SHARED | MAP_ANONYMOUS, -1, 0);
#endif
        root->next = next;
        begin_cell(&root->cells[0]);
        for (int k = 0; k < ROOM && goes_on(wanted); k++)
            if (kill_one(&root->cells[begun], (int)random_below(2))) {
                if (++begun == ROOM) break;
                begin_cell(&root->cells[begun]);
            }
        next = root->next + 2 * WORDS;
        DO(nidzaru_shared_detach(&block));
    }
    if (!cut || cut == kills) fails("no victim died within a call, or each did");
    printf("%lu kills, %lu of them within a call, %lu sides refused, %lu recovered; %lu calls of the others, nothing found\n", kills, within, cut,
           recovered, calls);
    return 0;
}
