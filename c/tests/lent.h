/* What the tests of records in their slots share: checks that are told and counted, registers of all sizes whose records are filled with one
 * byte, and pages that one thread shows to another, of which each word is the number. */
#ifndef NIDZARU_TESTS_LENT_H
#define NIDZARU_TESTS_LENT_H

#include "nidzaru.h"
#include <pthread.h>
#include <sched.h>
#include <stdio.h>
#include <stdlib.h>

static uint64_t writes = 200000;
static int failed;

static void check(int holds, const char *name, const char *what) {
    if (!holds) {
        failed++;
        printf("FAILED: %s: %s\n", name, what);
    }
}

static int is_filled(const void *item, size_t size, unsigned char with) {
    size_t i;
    for (i = 0; i < size; i++)
        if (((const unsigned char *)item)[i] != with) return 0;
    return 1;
}

/* A register of records of this many bytes, each of them filled with one byte. */
#define REGISTER(name, kind, length)                                                                                  \
    typedef struct { unsigned char bytes[length]; } name;                                                             \
    kind(name##s, name);                                                                                              \
    NIDZARU_HOLD(name##s);                                                                                            \
    NIDZARU_LOAN(name##s)

REGISTER(byte, NIDZARU_TRIPLE_REGISTER, 1);
REGISTER(of8, NIDZARU_TRIPLE_REGISTER, 8);
REGISTER(of24, NIDZARU_TRIPLE_REGISTER, 24);
REGISTER(of64, NIDZARU_TRIPLE_REGISTER, 64);
REGISTER(of100, NIDZARU_TRIPLE_REGISTER, 100);
REGISTER(of128, NIDZARU_TRIPLE_REGISTER, 128);
REGISTER(of256, NIDZARU_TRIPLE_REGISTER, 256);
REGISTER(of1000, NIDZARU_TRIPLE_REGISTER, 1000);
REGISTER(of4096, NIDZARU_TRIPLE_REGISTER, 4096);
REGISTER(of5000, NIDZARU_TRIPLE_REGISTER, 5000);
REGISTER(of65536, NIDZARU_TRIPLE_REGISTER, 65536);
REGISTER(of1048576, NIDZARU_TRIPLE_REGISTER, 1048576);
REGISTER(four, NIDZARU_REGISTER, 24);

/* What is written once for each triple buffer. */
#define EACH_SIZE(what)                                                                                                \
    what(byte) what(of8) what(of24) what(of64) what(of100) what(of128) what(of256) what(of1000) what(of4096)          \
    what(of5000) what(of65536) what(of1048576)

struct page {
    uint64_t words[512];
};
NIDZARU_TRIPLE_REGISTER(pages, struct page);
NIDZARU_HOLD(pages);
NIDZARU_LOAN(pages);

static pages_writer page_writer;

/* How many records the reader has met. */
static int met;

/* The writer waits until so many records were met, by what orders nothing that ThreadSanitizer knows of. */
static void wait_until_met(int count) {
    while (__atomic_load_n(&met, __ATOMIC_RELAXED) < count && !__atomic_load_n(&failed, __ATOMIC_RELAXED)) sched_yield();
}

static int is_page(const struct page *page, uint64_t number) {
    int i;
    for (i = 0; i < 512; i++)
        if (page->words[i] != number) return 0;
    return 1;
}

/* Holds the pages that `write_pages` writes in a thread of its own, and meanwhile another register's page. */
static void hold_pages(void *(*write_pages)(void *)) {
    static struct page opening;
    static pages_reader reader, other_reader;
    static pages_writer other_writer;
    const struct page *at = 0, *other = 0;
    uint64_t number = 0, last = 0, none = 9;
    pthread_t thread;
    check(!pages_make(&opening, &page_writer, &reader) && !pages_make(&opening, &other_writer, &other_reader), "threads", "make");
    check(!pthread_create(&thread, 0, write_pages, 0), "threads", "start");
    while (number < writes && !failed) {
        check(!pages_hold(&reader, &at, &number) && !pages_hold(&other_reader, &other, &none), "threads", "hold");
        check(number >= last, "threads", "a number fell");
        check(is_page(at, number) && is_page(at, number), "threads", "a held record isn't whole, or changed");
        check(is_page(other, 0) && none == 0, "threads", "the other register's page");
        if (number > last) __atomic_fetch_add(&met, 1, __ATOMIC_RELAXED);
        last = number;
    }
    check(!pthread_join(thread, 0), "threads", "join");
    check(!pages_end_writer(&page_writer) && !pages_end_reader(&reader), "threads", "ends");
    check(!pages_end_writer(&other_writer) && !pages_end_reader(&other_reader), "threads", "the other register's ends");
}

/* How a program ends. */
static int told(void) {
    puts(failed ? "FAILED" : "passed");
    return failed != 0;
}

#define CALL_TEST(name) test_##name();

/* The tests of each size, of four slots and of threads, with as many writes as the first word says; with a second word of threads alone. */
#define MAIN                                                                                                          \
    int main(int count, char **words) {                                                                               \
        if (count > 1) writes = strtoull(words[1], 0, 10);                                                            \
        if (count < 3) {                                                                                              \
            EACH_SIZE(CALL_TEST)                                                                                      \
            test_four_slots();                                                                                        \
        }                                                                                                             \
        test_threads();                                                                                               \
        return told();                                                                                                \
    }

#endif
