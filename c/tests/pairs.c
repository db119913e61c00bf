/* Under ThreadSanitizer. Pairs of a plain store and a plain load in two threads whose only order is one call: a read, a look, news, a hold,
 * also of what was published in place, or a board's read, of a register or board whose handles were moved or not. In one half of the pairs
 * the write stands still behind the library's own call, until the other thread has read and loaded; in the other half the read stands
 * still before it, until the other thread has stored and written. So an order that is told after the write, or looked for before the read,
 * is a race in each run.
 * usage: pairs clean       nothing is to be reported
 *        pairs unread      one pair without its call: a race, which is to be reported
 * Link with the --wrap words of sanitize.sh. */
#include "nidzaru.h"
#include <pthread.h>
#include <sched.h>
#include <stdio.h>

NIDZARU_REGISTER(cells, uint64_t);
NIDZARU_TRIPLE_REGISTER(loans, uint64_t);
NIDZARU_HOLD(loans);
NIDZARU_LOAN(loans);
NIDZARU_BOARD(boards, uint64_t);

enum call { READ, LOOK, NEWS, HOLD, PUBLISH, BOARD_READ, BOARD_READ_SINCE, BOARD_NEWS, CALLS, NONE };
enum { ROUNDS = 8 };

/* The pair that runs now. */
static enum call call;
static int waits_before_read, *at, wrong;
static int shared[CALLS * ROUNDS + 1];
static cells_writer writer;
static cells_reader reader;
static loans_writer lender;
static loans_reader holder;
static boards_place places[2];

/* Steps that order nothing that ThreadSanitizer knows of, and a call of the library that stands still between them, once. */
static int step, armed;
static void reach(int it) { __atomic_store_n(&step, it, __ATOMIC_RELAXED); }
static void wait_for(int it) {
    while (__atomic_load_n(&step, __ATOMIC_RELAXED) < it) sched_yield();
}
static void stand_still(int before_read) {
    if (before_read != waits_before_read || !__atomic_exchange_n(&armed, 0, __ATOMIC_RELAXED)) return;
    reach(1);
    wait_for(2);
}

#define WRITES(name, arguments, passed)                                                                               \
    uint32_t __real_nidzaru_##name arguments;                                                                         \
    uint32_t __wrap_nidzaru_##name arguments;                                                                         \
    uint32_t __wrap_nidzaru_##name arguments {                                                                        \
        const uint32_t status = __real_nidzaru_##name passed;                                                         \
        stand_still(0);                                                                                               \
        return status;                                                                                                \
    }
#define READS(name, arguments, passed)                                                                                \
    uint32_t __real_nidzaru_##name arguments;                                                                         \
    uint32_t __wrap_nidzaru_##name arguments;                                                                         \
    uint32_t __wrap_nidzaru_##name arguments {                                                                        \
        stand_still(1);                                                                                               \
        return __real_nidzaru_##name passed;                                                                          \
    }
WRITES(8_write, (nidzaru_side *s, const void *x), (s, x))
READS(8_read, (nidzaru_side *s, void *x, uint64_t *n), (s, x, n))
READS(8_look, (nidzaru_side *s, uint64_t *n), (s, n))
WRITES(triple_8_write, (nidzaru_side *s, const void *x), (s, x))
WRITES(triple_8_publish, (nidzaru_side *s), (s))
READS(triple_8_look, (nidzaru_side *s, uint64_t *n), (s, n))
WRITES(board_24_write, (nidzaru_side *s, const void *x, nidzaru_stamp *n), (s, x, n))
READS(board_24_read, (nidzaru_side *s, void *x, nidzaru_stamp *n), (s, x, n))
READS(board_24_read_since, (nidzaru_side *s, const nidzaru_stamp *l, void *x, nidzaru_stamp *n), (s, l, x, n))

static int fill_in_place(uint64_t item) {
    uint64_t *slot = 0;
    if (loans_loan(&lender, &slot)) return 1;
    *slot = item;
    return loans_publish(&lender);
}

static void *store_and_write(void *unused) {
    const uint64_t item = 7;
    nidzaru_stamp given;
    if (waits_before_read) wait_for(1);
    *at = 1;
    wrong |= call == HOLD      ? loans_write(&lender, &item)
             : call == PUBLISH ? fill_in_place(item)
             : call < HOLD     ? cells_write(&writer, &item)
                               : boards_write(&places[0], &item, &given);
    if (waits_before_read || call == NONE) reach(2);
    return unused;
}

/* The call by which the other thread's store is known: it has the write. */
static int read_it(void) {
    const nidzaru_stamp least = {1, 0};
    nidzaru_stamp given = {0, 0};
    uint64_t item = 0, number = 0;
    const uint64_t *at = &item;
    switch (call) {
    case READ: return cells_read(&reader, &item, &number) || number != 1 || item != 7;
    case LOOK: return cells_look(&reader, &number) || number != 1;
    case NEWS: return cells_news(&reader, &item, &number) || number != 1 || item != 7;
    case PUBLISH:
    case HOLD: return loans_hold(&holder, &at, &number) || number != 1 || *at != 7;
    case BOARD_READ: return boards_read(&places[1], &item, &given) || given.tag != 1 || item != 7;
    case BOARD_READ_SINCE: return boards_read_since(&places[1], least, &item, &given) || given.tag != 1 || item != 7;
    case BOARD_NEWS: return boards_news(&places[1], &item, &given) || given.tag != 1 || item != 7;
    default: wait_for(2); return 0;
    }
}

static int load(void) { return *at; }

static void *read_and_load(void *unused) {
    int missed;
    if (!waits_before_read && call != NONE) wait_for(1);
    missed = read_it();
    missed |= load() != 1;
    if (!waits_before_read) reach(2);
    return missed ? &wrong : unused;
}

/* Makes the register and the board, and in each second round takes what they gave to other handles. */
static int make(int moved) {
    static const cells_writer no_writer = NIDZARU_EMPTY;
    static const cells_reader no_reader = NIDZARU_EMPTY;
    static const loans_writer no_lender = NIDZARU_EMPTY;
    static const loans_reader no_holder = NIDZARU_EMPTY;
    static const boards_place no_place = NIDZARU_EMPTY;
    cells_writer w = no_writer;
    cells_reader r = no_reader;
    loans_writer v = no_lender;
    loans_reader q = no_holder;
    boards_place p[2] = {NIDZARU_EMPTY, NIDZARU_EMPTY};
    const uint64_t opening = 0;
    writer = no_writer;
    reader = no_reader;
    lender = no_lender;
    holder = no_holder;
    places[0] = places[1] = no_place;
    if (!moved) return cells_make(&opening, &writer, &reader) || loans_make(&opening, &lender, &holder) || boards_make(&opening, places, 2);
    return cells_make(&opening, &w, &r) || loans_make(&opening, &v, &q) || boards_make(&opening, p, 2) || cells_move_writer(&writer, &w)
           || cells_move_reader(&reader, &r) || loans_move_writer(&lender, &v) || loans_move_reader(&holder, &q)
           || boards_move(&places[0], &p[0]) || boards_move(&places[1], &p[1]);
}

static int run(int round) {
    pthread_t a, b;
    void *one, *two;
    int unmade;
    armed = 0;
    waits_before_read = round / 2 % 2;
    unmade = make(round % 2);
    step = 0;
    armed = call != NONE;
    pthread_create(&a, 0, store_and_write, 0);
    pthread_create(&b, 0, read_and_load, 0);
    pthread_join(a, &one);
    pthread_join(b, &two);
    return unmade || one || two || wrong || cells_end_writer(&writer) || cells_end_reader(&reader) || loans_end_writer(&lender)
           || loans_end_reader(&holder) || boards_end(&places[0]) || boards_end(&places[1]);
}

int main(int count, char **words) {
    int missed = count != 2;
    at = shared;
    if (!missed && !strcmp(words[1], "unread")) {
        call = NONE;
        missed = run(0);
    } else if (!missed) {
        for (call = READ; call < CALLS; call++)
            for (int round = 0; round < ROUNDS; round++, at++) missed |= run(round);
    }
    puts(missed ? "FAILED" : "passed");
    return missed;
}
