/* A drain while another thread goes on: before each two of the drain's atomic loads and prints that thread takes steps of a script, and then
 * each line has to be above all floors before it, and no operation is missing. And a thread that is given up, and drained, behind each of its
 * own atomic stores: each of its writes is there once, or it is said to have come back. The last line is `passed`. */
#include <inttypes.h>
#include <stdint.h>
#include <stdio.h>

static void take_steps(void), be_given_up(void);
#define __atomic_load_n(from, order) (take_steps(), __atomic_load_n(from, order))
#define __atomic_store_n(to, value, order) (__atomic_store_n(to, value, order), be_given_up())
#define fprintf(...) (take_steps(), fprintf(__VA_ARGS__))
#include "nidzaru_log.h"

/* What the thread does before the drain, during it and behind it: r and R begin and end a read, w and W a write, p is a pause; with g it is
 * given up. */
static const struct { const char *before, *during, *after; } scripts[] = {
    {"", "rRwW", ""}, {"", "rR", "wW"}, {"", "r", "R"}, {"r", "RwW", ""}, {"r", "Rw", "W"}, {"w", "WrR", ""}, {"w", "WrRr", "R"},
    {"rR", "wW", ""}, {"rR", "w", "W"}, {"rRp", "rR", ""}, {"rRp", "r", "R"}, {"rRp", "rRp", "wW"}, {"r", "Rp", "wW"}, {"rR", "prR", "pwW"},
    {"rRrR", "rRrR", "wW"}, {"w", "p", "W"}, {"wg", "W", ""}, {"rRwg", "", "W"},
};

static nidzaru_log one, two;
static nidzaru_log *logs[] = {&one, &two};
static uint64_t number;

static void take(const char *steps, size_t count) {
    for (size_t at = 0; at < count && steps[at]; at++) {
        switch (steps[at]) {
        case 'r': nidzaru_log_begin_read(&two); break;
        case 'R': nidzaru_log_end_read(&two, number, &number, sizeof number); break;
        case 'w': number++; nidzaru_log_begin_write(&two, number, &number, sizeof number); break;
        case 'W': nidzaru_log_end_write(&two); break;
        case 'g': nidzaru_log_give_up(&two); break;
        default: nidzaru_log_pause(&two);
        }
    }
}

/* The moments of the drain so far, and before which of them the first step comes, and the others. */
static size_t moments, first, others;
static const char *during;
static void take_steps(void) {
    const char *steps = during;
    size_t now = moments++;
    if (!steps || !*steps || (now != first && now != others)) return;
    during = NULL;
    if (now == first) take(steps, 1), steps++;
    if (now == others) take(steps, SIZE_MAX);
    during = now == others ? NULL : steps;
}

/* The numbers of writes. */
enum { MOST = 20 };

/* Whether each line is above the floors before it, and there are so many; how often each write is there stands in `writes`. */
static int is_right(FILE *text, size_t wanted, unsigned *writes) {
    char line[512];
    uint64_t floor = 0, begin, it;
    size_t operations = 0;
    int ends = 0;
    rewind(text);
    while (fgets(line, sizeof line, text)) {
        const char *at = strstr(line, "\"begin\":"), *record = strstr(line, "\"record\":[");
        ends = strstr(line, "\"done\"") != NULL;
        if (!at) continue;
        if (sscanf(at, "\"begin\":%" SCNu64, &begin) != 1 || begin < floor) return 0;
        if (strstr(line, "\"floor\"")) { floor = begin; continue; }
        operations++;
        if (!record || sscanf(record, "\"record\":[%" SCNu64, &it) != 1 || it >= MOST) return 0;
        if (strstr(line, "\"write\"")) writes[it]++; else if (!strstr(line, "\"read\"")) return 0;
    }
    return ends && operations == wanted;
}

/* Two threads, of which the first one rests behind a read. Answers where their lines are to stand, or nothing. */
static FILE *open_both(void) {
    FILE *text = tmpfile();
    if (!text || nidzaru_log_open(&one, 0, MOST) || nidzaru_log_open(&two, 1, MOST)) return NULL;
    number = 0;
    nidzaru_log_begin_read(&one);
    nidzaru_log_end_read(&one, 0, "", 0);
    nidzaru_log_pause(&one);
    return text;
}

static void close_both(FILE *text) {
    nidzaru_log_close(&one);
    nidzaru_log_close(&two);
    fclose(text);
}

/* Runs a script. Answers the moments of the drain, or 0 where something is wrong. */
static size_t run(size_t script, size_t first_moment, size_t other_moments) {
    FILE *text = open_both();
    unsigned writes[MOST] = {0};
    size_t counted, right;
    int status;
    if (!text) return 0;
    first = first_moment, others = other_moments;
    take(scripts[script].before, SIZE_MAX);
    moments = 0, during = scripts[script].during;
    status = nidzaru_log_drain(text, logs, 2);
    counted = moments;
    if (during) take(during, SIZE_MAX);
    during = NULL;
    status |= nidzaru_log_drain(text, logs, 2);
    take(scripts[script].after, SIZE_MAX);
    status |= nidzaru_log_finish(text, logs, 2);
    right = !status && is_right(text, (size_t)(one.state->count + two.state->count), writes);
    close_both(text);
    return right ? counted : 0;
}

/* The thread's stores so far, behind which of them it is given up, and where the lines of that drain stand. */
static size_t stores, lost_behind = SIZE_MAX;
static FILE *lines;
/* Whether it is given up, its status, and whether it was seen to be in no call then. */
static int is_lost, status_then, was_in_none;
static void be_given_up(void) {
    if (stores++ != lost_behind) return;
    is_lost = 1;
    was_in_none = two.state->under_way.kind == NIDZARU_LOG_NOTHING;
    nidzaru_log_give_up(&two);
    status_then = nidzaru_log_drain(lines, logs, 2);
}

/* Runs steps of a thread that is given up behind a store. It may end its call after all, and does nothing more. Answers whether each of its
 * writes is there once. If the store is one of a begin before its kind, the thread may be said to have come back. */
static int run_lost(const char *steps, size_t behind, int ends) {
    unsigned writes[MOST] = {0};
    size_t operations = 0;
    int status, right, is_begin = 0;
    lines = open_both();
    if (!lines) return 0;
    stores = 0, is_lost = 0, status_then = 0, lost_behind = behind;
    for (; *steps && !is_lost; steps++) {
        take(steps, 1);
        is_begin = *steps == 'r' || *steps == 'w';
    }
    lost_behind = SIZE_MAX;
    if (is_begin && ends) take(steps, 1);
    status = status_then ? status_then : nidzaru_log_drain(lines, logs, 2);
    if (!status) status = nidzaru_log_finish(lines, logs, 2);
    for (size_t at = 0; at < 2; at++) operations += (size_t)logs[at]->written;
    right = status ? status == NIDZARU_LOG_CAME_BACK && is_begin && was_in_none : is_right(lines, operations, writes);
    for (uint64_t at = 1; !status && at <= number; at++) right &= writes[at] == 1;
    close_both(lines);
    return right;
}

int main(void) {
    for (size_t script = 0; script < sizeof scripts / sizeof *scripts; script++) {
        size_t end = run(script, SIZE_MAX, SIZE_MAX);
        for (size_t from = 0; from < end; from++) {
            for (size_t to = from; to < end; to++) {
                if (run(script, from, to)) continue;
                printf("FAILED: script %zu, before moments %zu and %zu\n", script, from, to);
                return 1;
            }
        }
        if (end < 8) printf("FAILED: script %zu: %zu moments\n", script, end);
        if (end < 8) return 1;
    }
    is_lost = 1;
    for (size_t behind = 0; is_lost; behind++) {
        for (int ends = 0; ends < 2; ends++) {
            if (run_lost("wWrRpwWrRwWp", behind, ends)) continue;
            printf("FAILED: a thread that is given up behind store %zu, and %s\n", behind, ends ? "ends" : "hangs");
            return 1;
        }
        if (!is_lost && behind < 20) printf("FAILED: %zu stores\n", behind);
        if (!is_lost && behind < 20) return 1;
    }
    puts("passed");
    return 0;
}
