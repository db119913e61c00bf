/* Calls of a register or a board for worst.py, which sees each instruction and each access between two marks: a store to `begins`, by the
 * kind of the call, and one to `ends`. Of a register each call is made after each sequence of fewer than DEPTH calls, from a new one on. Of
 * a board each is made by each place right after a write of each other one, in rising order, so that it has news from each and its stamp
 * rises each time, and once more where the last of these writes hasn't said its tag yet, so that a read hands its record on; before that
 * stand calls that are drawn. A write is refused where the limit or the last number is used up. -DBYTES=24 [-DDEPTH=5] [-DTRIPLE]
 * [-DPLACES=4] */
#include <nidzaru.h>

#ifndef PLACES
#define PLACES 0
#endif
#ifndef DEPTH
#define DEPTH 5
#endif
struct record {
    uint64_t words[BYTES / 8];
};

enum { WRITE, READ, LOOK, HOLD, LOAN, SINCE, NEWS, REFUSED, KINDS };
volatile uint64_t begins[8 * KINDS], ends;
#define MARKED(kind, call, wanted)                                                                                                         \
    do {                                                                                                                                   \
        begins[8 * (kind)] = 1;                                                                                                            \
        const int status_ = (call);                                                                                                        \
        ends = 1;                                                                                                                          \
        if (status_ != (wanted)) return 1;                                                                                                 \
    } while (0)

/* (none of what a call gives lies on the stack, which is the call's own here) */
static _Alignas(64) struct record given, got;

#if PLACES
/* The library's memory, so that its words can be found. */
static _Alignas(64) unsigned char memory[1 << 25];
static size_t used;
void *malloc(size_t size) {
    unsigned char *at = memory + used;
    used += (size + 63) / 64 * 64;
    return used <= sizeof memory ? at : 0;
}
void free(void *at) { (void)at; }

/* Takes back that the process whose write got this tag has said it: the tag's word is a line of its own, with the tag alone. */
static int unsay(uint64_t tag) {
    uint64_t *found = 0;
    for (size_t line = 0; line < used; line += 64) {
        uint64_t *words = (uint64_t *)(memory + line), others = 0;
        for (int k = 1; k < 8; k++) others |= words[k];
        if (words[0] != tag || others) continue;
        if (found) return 1;
        found = words;
    }
    if (!found) return 1;
    *found = tag - 1;
    return 0;
}

static uint64_t state = 88172645463325252u;
static uint64_t below(uint64_t bound) {
    state ^= state << 13, state ^= state >> 7, state ^= state << 17;
    return state % bound;
}

#ifdef TRIPLE
NIDZARU_TRIPLE_BOARD(cells, struct record);
#else
NIDZARU_BOARD(cells, struct record);
#endif
static cells_place places[PLACES];
static nidzaru_stamp stamp;

enum { DRAWN = 6 * PLACES, WAYS = 6 };

/* A call of the place, in one of the ways: with a stamp that the answer has, or with one that it hasn't. */
static int call(uint64_t way, size_t k) {
    stamp = (nidzaru_stamp){way % 2 ? UINT64_MAX : 0, 0};
    switch (way) {
    case 0: MARKED(WRITE, cells_write(&places[k], &given, &stamp), NIDZARU_DONE); break;
    case 1: MARKED(READ, cells_read(&places[k], &got, &stamp), NIDZARU_DONE); break;
    case 2: MARKED(SINCE, cells_read_since(&places[k], stamp, &got, &stamp), NIDZARU_DONE); break;
    case 3: MARKED(SINCE, cells_read_since(&places[k], stamp, &got, &stamp), NIDZARU_OLDER); break;
    case 4: MARKED(NEWS, cells_news(&places[k], &got, &stamp), stamp.tag ? NIDZARU_DONE : NIDZARU_NO_NEWS); break;
    default: MARKED(NEWS, cells_news(&places[k], &got, &stamp), NIDZARU_NO_NEWS); break;
    }
    return 0;
}

/* A write of each place but this one. */
static int write_others(size_t me) {
    for (size_t k = 0; k < PLACES; k++)
        if (k != me && call(0, k)) return 1;
    return 0;
}

static void end_all(void) {
    for (size_t k = 0; k < PLACES; k++) cells_end(&places[k]);
}

/* Each place's calls on a board with all tags. */
static int calls(void) {
    used = 0;
    if (cells_make(&given, places, PLACES)) return 1;
    for (size_t turn = 0; turn < DRAWN; turn++)
        if (call(below(WAYS), below(PLACES))) return 1;
    for (size_t me = 0; me < PLACES; me++)
        for (uint64_t way = 0; way < 2 * WAYS; way++)
            if (write_others(me) || (way % 2 && unsay(stamp.tag)) || call(way / 2, me)) return 1;
    end_all();
    return 0;
}

/* A write of this place where so many writes and one of each other place have used up the tags. */
static int refuse(size_t me, uint64_t writes) {
    used = 0;
    if (cells_make_limited(&given, writes + PLACES - 1, places, PLACES)) return 1;
    for (uint64_t n = 0; n < writes; n++)
        if (call(0, below(PLACES)) || call(1, below(PLACES))) return 1;
    if (write_others(me)) return 1;
    MARKED(REFUSED, cells_write(&places[me], &given, &stamp), NIDZARU_REFUSED);
    end_all();
    return 0;
}

static int all_calls(void) {
    memset(&given, 7, sizeof given);
    for (uint64_t n = 0; n < 4; n++) {
        if (calls()) return 1;
        for (size_t me = 0; me < PLACES; me++)
            if (refuse(me, n)) return 1;
    }
    return 0;
}
#else
#ifdef TRIPLE
NIDZARU_TRIPLE_REGISTER(cells, struct record);
NIDZARU_HOLD(cells);
NIDZARU_LOAN(cells);
/* Where a writing side has its number, in words. */
enum { NUMBER = 2 };
#else
NIDZARU_REGISTER(cells, struct record);
enum { NUMBER = 4 };
#endif
static cells_writer writer;
static cells_reader reader;
static uint64_t number;

enum { CALLS = cells_is_triple ? LOAN + 1 : HOLD };

static int call(long kind) {
    switch (kind) {
    case WRITE: MARKED(WRITE, cells_write(&writer, &given), NIDZARU_DONE); break;
    case READ: MARKED(READ, cells_read(&reader, &got, &number), NIDZARU_DONE); break;
    case LOOK: MARKED(LOOK, cells_look(&reader, &number), NIDZARU_DONE); break;
#ifdef TRIPLE
    case HOLD: {
        static const struct record *at;
        MARKED(HOLD, cells_hold(&reader, &at, &number), NIDZARU_DONE);
        break;
    }
    default: {
        static struct record *at;
        MARKED(LOAN, cells_loan(&writer, &at) || cells_publish(&writer), 0);
        break;
    }
#endif
    }
    return 0;
}

/* The calls whose kinds are the digits of a number, and a write where all numbers are used. */
static int calls(long sequence) {
    if (cells_make(&given, &writer, &reader)) return 1;
    for (int turn = 0; turn < DEPTH; turn++, sequence /= CALLS)
        if (call(sequence % CALLS)) return 1;
    ((uint64_t *)writer.handle.side.at)[NUMBER] = UINT64_MAX;
    MARKED(REFUSED, cells_write(&writer, &given), NIDZARU_REFUSED);
#ifdef TRIPLE
    MARKED(REFUSED, cells_publish(&writer), NIDZARU_REFUSED);
#endif
    cells_end_writer(&writer), cells_end_reader(&reader);
    return 0;
}

static int all_calls(void) {
    long sequences = 1;
    for (int turn = 0; turn < DEPTH; turn++) sequences *= CALLS;
    for (long n = 0; n < sequences; n++)
        if (calls(n)) return 1;
    return 0;
}
#endif

int main(void) { return all_calls(); }
