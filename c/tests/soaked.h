/* What the soaks through C share: a record of BYTES bytes, every word of which tells which write it is of, and how all threads begin and
 * stop together. */
#ifndef NIDZARU_TESTS_SOAKED_H
#define NIDZARU_TESTS_SOAKED_H

#include "nidzaru.h"
#include <pthread.h>
#include <stdio.h>
#include <stdlib.h>
#include <unistd.h>

enum { WORDS = BYTES / 8 };

struct item { uint64_t words[WORDS]; };

static int stop;
static pthread_barrier_t start;

static void fill(struct item *item, uint64_t word) {
    for (size_t i = 0; i < WORDS; i++) item->words[i] = word;
}

static int is_torn(const struct item *item) {
    for (size_t i = 1; i < WORDS; i++)
        if (item->words[i] != item->words[0]) return 1;
    return 0;
}

static int is_stopped(void) { return __atomic_load_n(&stop, __ATOMIC_RELAXED); }

static void stop_all(void) { __atomic_store_n(&stop, 1, __ATOMIC_RELAXED); }

/* Waits for so many seconds, or until a thread stops all. */
static void soak(unsigned seconds) {
    for (; seconds && !is_stopped(); seconds--) sleep(1);
    stop_all();
}

/* The number that the program was given at this place, or this one if it was given none. */
static unsigned number_given(int count, char **words, int at, unsigned otherwise) {
    return count == 1 ? otherwise : count == 3 ? (unsigned)strtoul(words[at], 0, 10) : 0;
}

/* Prints what was found, and gives the status. */
static int tell(const char *what, unsigned n, uint64_t writes, uint64_t reads, const char *found) {
    printf("%s, %d bytes, %u %s: %llu writes, %llu reads, %s\n", MECHANISM, BYTES, n, what, (unsigned long long)writes,
           (unsigned long long)reads, found ? found : "nothing found");
    return found ? 1 : 0;
}

#endif
