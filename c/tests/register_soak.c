/* A soak of registers through C: pairs of a writing and a reading thread, each over a register of its own with records of BYTES bytes, of
 * four slots, or with -DTRIPLE a triple buffer. Every word of a record is the number of its write, and the reader looks at each word.
 * usage: register_soak [PAIRS SECONDS], 2 pairs for a second where nothing is named. It prints what was counted, and ends with status 1 at
 * the first wrong record: a torn one, whose words are of several writes; a foreign one, which isn't that of the number that the read gives;
 * one older than the one before. With -DTORN each 10,000th record that a task reads, of more than 4,096 bytes each 100th, has a word of
 * another write, with -DOLDER it is the opening. */
#ifdef TRIPLE
#define MECHANISM "triple buffer"
#define MAKES NIDZARU_TRIPLE_REGISTER
#else
#define MECHANISM "four slots"
#define MAKES NIDZARU_REGISTER
#endif
#include "soaked.h"

enum { MOST_PAIRS = 16, PLANTED = BYTES > 4096 ? 100 : 10000 };

MAKES(items, struct item);

/* A pair's two sides, what they counted, and what the reader found. */
static struct pair {
    items_writer writer;
    items_reader reader;
    uint64_t writes, reads;
    const char *found, *refused;
} pairs[MOST_PAIRS];

static void *write_all(void *argument) {
    struct pair *pair = argument;
    struct item item;
    uint64_t written = 0;
    pthread_barrier_wait(&start);
    while (!pair->refused && !is_stopped()) {
        written++;
        fill(&item, written);
        if (items_write(&pair->writer, &item)) pair->refused = "a refused write";
    }
    pair->writes = written;
    return 0;
}

/* What is wrong with a record that has this number and comes after that one, or nothing. */
static const char *wrong(const struct item *item, uint64_t number, uint64_t last) {
    if (is_torn(item)) return "torn";
    if (number < last) return "older";
    return item->words[0] == number ? 0 : "foreign";
}

static void *read_all(void *argument) {
    struct pair *pair = argument;
    static const struct item opening;
    struct item item = opening;
    uint64_t number = 0, last = 0, reads = 0;
    const char *found = 0;
    pthread_barrier_wait(&start);
    while (!found && !is_stopped()) {
        if (items_read(&pair->reader, &item, &number)) break;
        reads++;
#ifdef TORN
        if (reads % PLANTED == 0) item.words[1]++;
#elif defined OLDER
        if (reads % PLANTED == 0) item = opening, number = 0;
#endif
        found = wrong(&item, number, last);
        last = number;
    }
    if (found) stop_all();
    pair->reads = reads, pair->found = found;
    return 0;
}

int main(int count, char **words) {
    static struct item opening;
    unsigned n = number_given(count, words, 1, 2), seconds = number_given(count, words, 2, 1);
    uint64_t writes = 0, reads = 0;
    const char *found = 0;
    pthread_t threads[2 * MOST_PAIRS];
    if (!n || n > MOST_PAIRS || !seconds) return fprintf(stderr, "usage: register_soak PAIRS SECONDS      1 to 16 pairs\n"), 2;
    if (pthread_barrier_init(&start, 0, 2 * n)) return fprintf(stderr, "register_soak: no memory\n"), 4;
    for (unsigned i = 0; i < n; i++)
        if (items_make(&opening, &pairs[i].writer, &pairs[i].reader)) return fprintf(stderr, "register_soak: no memory\n"), 4;
    for (unsigned i = 0; i < 2 * n; i++)
        if (pthread_create(&threads[i], 0, i % 2 ? read_all : write_all, &pairs[i / 2]))
            return fprintf(stderr, "register_soak: no thread could start\n"), 5;
    soak(seconds);
    for (unsigned i = 0; i < 2 * n; i++) pthread_join(threads[i], 0);
    for (unsigned i = 0; i < n; i++) {
        writes += pairs[i].writes, reads += pairs[i].reads;
        if (pairs[i].found || pairs[i].refused) found = pairs[i].found ? pairs[i].found : pairs[i].refused;
        if (items_end_writer(&pairs[i].writer) || items_end_reader(&pairs[i].reader)) found = "a side that couldn't end";
    }
    return tell("pairs", n, writes, reads, found);
}
