/* Held reads and writes in place of records of BYTES bytes, 4,096 if nothing else is said, in a triple buffer beside those that copy them,
 * through the header's functions, in one thread.
 *   held [ROUNDS [CALLS]]     medians in ns of so many rounds, in which the loops take turns: 21 rounds of 20,000 calls
 * The reads are of a record that was read before, and of one that was just written, without what the write takes. A write is of a record of
 * which one word is changed, or all are filled. */
#define _POSIX_C_SOURCE 200809L
#include <nidzaru.h>
#include <stdio.h>
#include <stdlib.h>
#include <time.h>

#ifndef BYTES
#define BYTES 4096
#endif
enum { WORDS = BYTES / 8 };

struct page {
    uint64_t words[WORDS];
};
NIDZARU_TRIPLE_REGISTER(pages, struct page);
NIDZARU_HOLD(pages);
NIDZARU_LOAN(pages);

static pages_writer writer = NIDZARU_EMPTY;
static pages_reader reader = NIDZARU_EMPTY;
static struct page given, taken;
static uint64_t seen;

enum { READ, HOLD, WRITE, WRITE_AND_READ, WRITE_AND_HOLD, CHANGE_COPY, CHANGE_IN_PLACE, FILL_COPY, FILL_IN_PLACE, LOOPS };

/* Two words of what was read count, so that no read can be left out. */
static void see(const struct page *page) { seen += page->words[0] + page->words[WORDS - 1]; }

static void refused(void) {
    puts("a call was refused");
    exit(1);
}

/* One write of which one word is changed, or all are filled. */
__attribute__((always_inline)) static inline void fill(int loop) {
    static uint64_t n;
    struct page *at = &given;
    const int in_place = loop == CHANGE_IN_PLACE || loop == FILL_IN_PLACE;
    if (in_place && pages_loan(&writer, &at)) refused();
    n++;
    for (int i = 0; i < (loop < FILL_COPY ? 1 : WORDS); i++) at->words[i] = n;
    if (in_place ? pages_publish(&writer) : pages_write(&writer, &given)) refused();
}

/* One call of a loop. */
__attribute__((always_inline)) static inline void once(int loop) {
    const struct page *at = &taken;
    uint64_t number;
    if (loop >= CHANGE_COPY) {
        fill(loop);
        return;
    }
    if (loop >= WRITE && pages_write(&writer, &given)) refused();
    if (loop == WRITE) return;
    if (loop == READ || loop == WRITE_AND_READ ? pages_read(&reader, &taken, &number) : pages_hold(&reader, &at, &number)) refused();
    see(at);
}

static double seconds(void) {
    struct timespec now;
    clock_gettime(CLOCK_MONOTONIC, &now);
    return (double)now.tv_sec + (double)now.tv_nsec * 1e-9;
}

/* (a loop of its own for each, so that no call chooses) */
#define LOOP(loop)                                                                                                    \
    case loop:                                                                                                        \
        for (long i = 0; i < calls; i++) once(loop);                                                                  \
        break;
static double ns_of(int loop, long calls) {
    const double began = seconds();
    switch (loop) {
        LOOP(READ)
        LOOP(HOLD)
        LOOP(WRITE)
        LOOP(WRITE_AND_READ)
        LOOP(WRITE_AND_HOLD)
        LOOP(CHANGE_COPY)
        LOOP(CHANGE_IN_PLACE)
        LOOP(FILL_COPY)
        LOOP(FILL_IN_PLACE)
    }
    return (seconds() - began) * 1e9 / (double)calls;
}

static int compare(const void *a, const void *b) {
    const double x = *(const double *)a, y = *(const double *)b;
    return (x > y) - (x < y);
}

int main(int count, char **words) {
    enum { MOST = 1001 };
    static double ns[LOOPS][MOST];
    const long asked = count > 1 ? atol(words[1]) : 21, calls = count > 2 ? atol(words[2]) : 20000;
    const int rounds = asked < 1 ? 1 : asked > MOST ? MOST : (int)asked;
    double *read = ns[READ], *hold = ns[HOLD];
    if (pages_make(&given, &writer, &reader)) refused();
    for (int round = 0; round < rounds; round++)
        for (int loop = 0; loop < LOOPS; loop++) ns[loop][round] = ns_of(loop, calls);
    for (int loop = 0; loop < LOOPS; loop++) qsort(ns[loop], (size_t)rounds, sizeof ns[loop][0], compare);
    const int middle = rounds / 2;
    printf("of the same record: read %.1f, hold %.1f, ratio %.3f\n", read[middle], hold[middle], hold[middle] / read[middle]);
    const double write = ns[WRITE][middle], new_read = ns[WRITE_AND_READ][middle] - write, new_hold = ns[WRITE_AND_HOLD][middle] - write;
    printf("of a new record: read %.1f, hold %.1f, ratio %.3f\n", new_read, new_hold, new_hold / new_read);
    for (int loop = CHANGE_COPY; loop < LOOPS; loop += 2)
        printf("a write, %s: copied %.1f, in place %.1f, ratio %.3f\n", loop == CHANGE_COPY ? "one word changed" : "all words filled",
               ns[loop][middle], ns[loop + 1][middle], ns[loop + 1][middle] / ns[loop][middle]);
    return pages_end_writer(&writer) || pages_end_reader(&reader) || seen;
}
