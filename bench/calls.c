/* Calls of the library for C, for a counter of instructions: makes one register, or one board whose places call in turn in one
 * thread, and calls it N times. Each call goes through a function that passes its arguments on.
 *   calls list               names what can be called, a line each
 *   calls NAME OP PLACES N   OP is write or read, of a register also look, of a triple buffer also hold: a look, and then what gives its
 *                            record where it lies, and loan: what lends the writer's slot, and then the publish. PLACES is 0 for a
 *                            register */
#include <nidzaru.h>
#include <stdio.h>
#include <stdlib.h>

#define PASSES_ON __attribute__((noinline)) static uint32_t

static uint64_t record[131072];
static nidzaru_side sides[16];

/* The loops of a register. */
#define CELL(cell)                                                                                              \
    PASSES_ON pass_write_##cell(nidzaru_side *w, const void *item) { return nidzaru_##cell##_write(w, item); }   \
    PASSES_ON pass_read_##cell(nidzaru_side *r, void *item, uint64_t *number) {                                  \
        return nidzaru_##cell##_read(r, item, number);                                                           \
    }                                                                                                            \
    PASSES_ON pass_look_##cell(nidzaru_side *r, uint64_t *number) { return nidzaru_##cell##_look(r, number); }   \
    static int call_##cell(char op, size_t places, long calls) {                                                 \
        uint64_t number;                                                                                         \
        if (places || nidzaru_##cell##_make(record, &sides[0], &sides[1])) return 1;                             \
        if (op == 'w') {                                                                                         \
            for (long i = 0; i < calls; ++i)                                                                     \
                if (pass_write_##cell(&sides[0], record)) return 1;                                              \
        } else if (op == 'r') {                                                                                  \
            for (long i = 0; i < calls; ++i)                                                                     \
                if (pass_read_##cell(&sides[1], record, &number)) return 1;                                      \
        } else {                                                                                                 \
            for (long i = 0; i < calls; ++i)                                                                     \
                if (pass_look_##cell(&sides[1], &number)) return 1;                                              \
        }                                                                                                        \
        return 0;                                                                                                \
    }

/* The loop of a held read, over a triple buffer. */
#define HOLD(cell)                                                                                              \
    PASSES_ON pass_hold_##cell(nidzaru_side *r, nidzaru_lent *at, uint64_t *number) {                            \
        const uint32_t status = nidzaru_##cell##_look(r, number);                                                \
        return status ? status : nidzaru_##cell##_hold(r, at);                                                   \
    }                                                                                                            \
    static int hold_##cell(long calls) {                                                                         \
        uint64_t number;                                                                                         \
        nidzaru_lent at = {record, 0};                                                                           \
        if (nidzaru_##cell##_make(record, &sides[0], &sides[1])) return 1;                                       \
        for (long i = 0; i < calls; ++i)                                                                         \
            if (pass_hold_##cell(&sides[1], &at, &number)) return 1;                                             \
        return 0;                                                                                                \
    }

/* The loop of a write in place, over a triple buffer. */
#define LOAN(cell)                                                                                              \
    PASSES_ON pass_loan_##cell(nidzaru_side *w, nidzaru_lent *at) {                                              \
        const uint32_t status = nidzaru_##cell##_loan(w, at);                                                    \
        return status ? status : nidzaru_##cell##_publish(w);                                                    \
    }                                                                                                            \
    static int loan_##cell(long calls) {                                                                         \
        nidzaru_lent at = {record, 0};                                                                           \
        if (nidzaru_##cell##_make(record, &sides[0], &sides[1])) return 1;                                       \
        for (long i = 0; i < calls; ++i)                                                                         \
            if (pass_loan_##cell(&sides[0], &at)) return 1;                                                      \
        return 0;                                                                                                \
    }

/* The loops of a board. */
#define BOARD(board)                                                                                            \
    PASSES_ON pass_write_##board(nidzaru_side *p, const void *item, nidzaru_stamp *stamp) {                      \
        return nidzaru_##board##_write(p, item, stamp);                                                          \
    }                                                                                                            \
    PASSES_ON pass_read_##board(nidzaru_side *p, void *item, nidzaru_stamp *stamp) {                             \
        return nidzaru_##board##_read(p, item, stamp);                                                           \
    }                                                                                                            \
    static int call_##board(char op, size_t places, long calls) {                                                \
        nidzaru_stamp stamp;                                                                                     \
        size_t turn = 0;                                                                                         \
        if (nidzaru_##board##_make(record, NIDZARU_UNLIMITED, sides, places)) return 1;                          \
        for (long i = 0; i < calls; ++i) {                                                                       \
            if (op == 'w' ? pass_write_##board(&sides[turn], record, &stamp)                                     \
                          : pass_read_##board(&sides[turn], record, &stamp)) return 1;                           \
            turn = turn + 1 == places ? 0 : turn + 1;                                                            \
        }                                                                                                        \
        return 0;                                                                                                \
    }

#define EACH(CELL, BOARD)                                                                                       \
    CELL(24) CELL(256) CELL(4096) CELL(65536) CELL(1048576)                                                     \
    CELL(triple_24) CELL(triple_256) CELL(triple_4096) CELL(triple_65536) CELL(triple_1048576)                  \
    BOARD(board_24) BOARD(triple_board_24)

#define EACH_HELD(HOLD) HOLD(triple_24) HOLD(triple_256) HOLD(triple_4096) HOLD(triple_65536) HOLD(triple_1048576)

EACH(CELL, BOARD)
EACH_HELD(HOLD)
EACH_HELD(LOAN)

#define NAMED(name) {#name, call_##name},
static const struct {
    const char *name;
    int (*call)(char op, size_t places, long calls);
} loops[] = {EACH(NAMED, NAMED)};

#define NAMED_HOLD(name) {#name, hold_##name, loan_##name},
static const struct {
    const char *name;
    int (*hold)(long calls), (*loan)(long calls);
} holds[] = {EACH_HELD(NAMED_HOLD)};

int main(int count, char **words) {
    for (size_t i = 0; count == 5 && i < sizeof holds / sizeof *holds; ++i) {
        if (strcmp(words[1], holds[i].name)) continue;
        if (!strcmp(words[2], "hold")) return holds[i].hold(atol(words[4]));
        if (!strcmp(words[2], "loan")) return holds[i].loan(atol(words[4]));
    }
    for (size_t i = 0; i < sizeof loops / sizeof *loops; ++i) {
        if (count == 2) puts(loops[i].name);
        if (count == 5 && !strcmp(words[1], loops[i].name)) {
            return loops[i].call(*words[2], (size_t)atoi(words[3]), atol(words[4]));
        }
    }
    return count != 2;
}
