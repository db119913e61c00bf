/* Large records, of WORDS words, over four slots, or with -DTRIPLE over a triple buffer: what a register gives is whole, and what its calls
 * take of the stack. A make takes no more than MAKE_RECORDS records, and all other calls 32 KB, since they copy a record once, from where it
 * lies to where it is to lie, or not at all. */
#include "nidzaru.h"
#include <pthread.h>
#include <stdio.h>

struct scan {
    uint64_t words[WORDS];
};

#ifdef TRIPLE
NIDZARU_TRIPLE_REGISTER(scans, struct scan);
NIDZARU_HOLD(scans);
NIDZARU_LOAN(scans);
#else
NIDZARU_REGISTER(scans, struct scan);
#endif

/* What a thread has of the stack before its first call. */
enum { ROOM = 32 << 10, MAKE_RECORDS = 2 };

static struct scan given, had;
static scans_writer writer;
static scans_reader reader;
static int failed;

static void check(int holds, const char *what) {
    if (!holds) {
        failed++;
        printf("FAILED: %s\n", what);
    }
}

static void fill(struct scan *scan, uint64_t from) {
    for (size_t k = 0; k < WORDS; k++) scan->words[k] = from + k;
}

static int is(const struct scan *scan, uint64_t from) {
    for (size_t k = 0; k < WORDS; k++)
        if (scan->words[k] != from + k) return 0;
    return 1;
}

static void *make(void *unused) {
    fill(&given, 5);
    check(!scans_make(&given, &writer, &reader), "make");
    return unused;
}

static void *call(void *unused) {
    uint64_t number = 9, i;
    check(!scans_read(&reader, &had, &number) && number == 0 && is(&had, 5), "the opening");
    for (i = 1; i < 20; i++) {
        fill(&given, 100 * i);
        check(!scans_write(&writer, &given), "write");
        check(!scans_look(&reader, &number) && number == i, "look");
        number = i - 1;
        check(!scans_news(&reader, &had, &number) && number == i && is(&had, 100 * i), "news");
        check(scans_news(&reader, &had, &number) == NIDZARU_NO_NEWS, "old news");
    }
    return unused;
}

#ifdef TRIPLE
static struct scan *lent;

static void *lend(void *unused) {
    check(!scans_loan(&writer, &lent), "loan");
    return unused;
}

/* What is filled in the slot is held where it lies, while more is written. */
static void *hold(void *unused) {
    const struct scan *at = 0;
    uint64_t number = 9;
    fill(lent, 7);
    check(!scans_publish(&writer) && !scans_hold(&reader, &at, &number) && number == 20 && at == lent, "hold");
    fill(&given, 8);
    check(!scans_write(&writer, &given) && !scans_write(&writer, &given) && is(at, 7), "what is held");
    check(!scans_hold(&reader, &at, &number) && number == 22 && is(at, 8), "hold of the last one");
    return unused;
}
#endif

static void *end(void *unused) {
    check(!scans_end_writer(&writer) && !scans_read(&reader, &had, &(uint64_t){0}) && !scans_end_reader(&reader), "ends");
    return unused;
}

/* What a thread has of the stack beyond what it is to have, as a system may give none so little. It uses that up first. */
static size_t beyond;

static void *use_up(void *run) {
    volatile unsigned char gone[beyond + 1];
    gone[0] = 1;
    (*(void *(**)(void *))run)(0);
    return gone[0] ? 0 : run;
}

/* Runs this in a thread with so many bytes of stack. Behind them lies a page that nothing may touch. */
static void on_stack(size_t bytes, void *(*run)(void *)) {
    pthread_attr_t attributes;
    pthread_t thread;
    check(!pthread_attr_init(&attributes), "what a thread is to have");
    for (beyond = 0; pthread_attr_setstacksize(&attributes, bytes + beyond) && beyond < 1 << 20;) beyond += 4096;
    check(!pthread_create(&thread, &attributes, use_up, &run) && !pthread_join(thread, 0), "a thread");
    pthread_attr_destroy(&attributes);
}

int main(void) {
    on_stack(ROOM + MAKE_RECORDS * sizeof(struct scan), make);
    on_stack(ROOM, call);
#ifdef TRIPLE
    on_stack(ROOM, lend);
    on_stack(ROOM, hold);
#endif
    on_stack(ROOM, end);
    puts(failed ? "FAILED" : "passed");
    return failed != 0;
}
