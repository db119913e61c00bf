/* What the tests of the library's edges share: checks that are told and counted, memory that is refused and counted, and bytes.
 * A program that includes it is linked with --wrap=malloc,--wrap=realloc,--wrap=free. */
#ifndef NIDZARU_TESTS_EDGES_H
#define NIDZARU_TESTS_EDGES_H

#include "nidzaru.h"
#include <stdio.h>
#include <stdlib.h>

static int failed;

static void check(int holds, const char *name, const char *what) {
    if (!holds) {
        failed++;
        printf("FAILED: %s: %s\n", name, what);
    }
}

/* Memory: the request whose number is `refuse` fails. Requests, their bytes and blocks that live are counted. */
void *__real_malloc(size_t size);
void *__real_realloc(void *old, size_t size);
void __real_free(void *old);
static long asked, refuse = -1, blocks;
static size_t bytes;

void *__wrap_malloc(size_t size) {
    void *made;
    if (++asked == refuse) return 0;
    bytes += size;
    made = __real_malloc(size);
    blocks += made != 0;
    return made;
}

void *__wrap_realloc(void *old, size_t size) {
    if (++asked == refuse) return 0;
    bytes += size;
    blocks += !old;
    return __real_realloc(old, size);
}

void __wrap_free(void *old) {
    blocks -= old != 0;
    __real_free(old);
}

static inline void refuse_request(long at) {
    asked = 0;
    refuse = at;
}

/* Whether a call with request number `at` refused made all its requests, more than so many: then it's done, else it lacked memory. */
static inline int had_all(long at, int status, long least, const char *name) {
    int had = asked < at;
    refuse = -1;
    check(status == (had ? NIDZARU_DONE : NIDZARU_NO_MEMORY), name, "refused memory");
    check(!had || at > least, name, "no request was refused");
    return had;
}

static inline int is_all(const void *bytes, size_t count, int value) {
    for (size_t k = 0; k < count; k++)
        if (((const unsigned char *)bytes)[k] != value) return 0;
    return 1;
}

static inline void fill(void *bytes, size_t count, int seed) {
    for (size_t k = 0; k < count; k++) ((unsigned char *)bytes)[k] = (unsigned char)(seed + 7 * (int)k + 1);
}

/* A record of a type between guard bytes, whether it is that of a seed and they are as they were, and such a one. */
enum { GUARD = 64 };

#define GUARDED(name, type)                                                                                                   \
    typedef struct {                                                                                                          \
        _Alignas(8) unsigned char before[GUARD];                                                                              \
        type x;                                                                                                               \
        unsigned char after[GUARD];                                                                                           \
    } name##_guarded;                                                                                                         \
    static int name##_is(const name##_guarded *g, int seed) {                                                                 \
        type wanted;                                                                                                          \
        fill(&wanted, sizeof wanted, seed);                                                                                   \
        return is_all(g->before, GUARD, 0xa5) && is_all(g->after, GUARD, 0xa5) && !memcmp(&wanted, &g->x, sizeof wanted);     \
    }                                                                                                                         \
    static void name##_set(name##_guarded *g, int seed) {                                                                     \
        memset(g, 0xa5, sizeof *g);                                                                                           \
        fill(&g->x, sizeof g->x, seed);                                                                                       \
    }

/* A test defines EDGE(NAME, TYPE, KIND, TRIPLE), the test NAME of one type over a register or a board of that kind, and which kinds
 * FOUR_SLOT and TRIPLE are. These are such tests of records of so many bytes, and of so many words of 8 bytes, which are passed where they
 * lie if they fill the library's record; and the calls of all. */
#define BYTES(n)                                                                                                              \
    typedef struct { unsigned char bytes[n]; } bytes##n;                                                                      \
    EDGE(four##n, bytes##n, FOUR_SLOT, 0)                                                                                     \
    EDGE(triple##n, bytes##n, TRIPLE, 1)
#define WORDS(n)                                                                                                              \
    typedef struct { uint64_t words[n]; } words##n;                                                                           \
    EDGE(four_words##n, words##n, FOUR_SLOT, 0)                                                                               \
    EDGE(triple_words##n, words##n, TRIPLE, 1)
#define RUN_BYTES(n) four##n##_all(); triple##n##_all();
#define RUN_WORDS(n) four_words##n##_all(); triple_words##n##_all();

#endif
