/* Two threads over each cell and size, ended in both orders: nothing torn, no number that falls, no look above the read after
 * it. usage: test [WRITES] */
#include "nidzaru.h"
#include <pthread.h>
#include <sched.h>
#include <stdio.h>
#include <stdlib.h>

static uint64_t many = 10000;
static int failed;
static pthread_barrier_t start;

static void check(int holds, const char *name, const char *what) {
    if (!holds) {
        failed++;
        printf("FAILED: %s: %s\n", name, what);
    }
}

/* The reader's answers so far. The writer waits for one now and then, so that the two threads run at once. */
static uint64_t answers;
static int reader_stopped;

static void wait_for_an_answer(void) {
    uint64_t before = __atomic_load_n(&answers, __ATOMIC_SEQ_CST);
    while (__atomic_load_n(&answers, __ATOMIC_SEQ_CST) == before && !__atomic_load_n(&reader_stopped, __ATOMIC_SEQ_CST))
        sched_yield();
}

/* Records that are as large as the library's, and some that are smaller or less aligned. */
typedef struct { uint64_t words[1]; } r8;
typedef struct { uint64_t words[3]; } r24;
typedef struct { uint64_t words[8]; } r64;
typedef struct { uint64_t words[16]; } r128;
typedef struct { uint64_t words[32]; } r256;
typedef struct { uint64_t words[128]; } r1024;
typedef struct { uint64_t words[512]; } r4096;
typedef struct { uint64_t words[8192]; } r65536;
typedef struct { uint64_t words[131072]; } r1048576;
typedef struct { uint32_t words[5]; } r20;
typedef struct { uint32_t words[6]; } r24_by_4;
typedef struct { unsigned char words[3000]; } r3000;
typedef struct { unsigned char words[5000]; } r5000;

/* A large record's register has fewer writes. */
#define MANY(type) (sizeof(type) > 4096 ? many / 16 + 1 : many)

/* Word k of the record with this number, cut to the word's width. */
#define FILL(record, number)                                                                                                  \
    for (size_t k = 0; k < sizeof (record).words / sizeof (record).words[0]; k++)                                             \
        (record).words[k] = (number) * 31 + k
#define COUNT_TORN(record, number, torn, mask)                                                                                \
    for (size_t k = 0; k < sizeof (record).words / sizeof (record).words[0]; k++)                                             \
        (torn) += (record).words[k] != (((number) * 31 + k) & (mask))

#define TEST(name, type, register_of, mask)                                                                                   \
    register_of(name, type);                                                                                                  \
    static struct {                                                                                                           \
        name##_writer writer;                                                                                                 \
        name##_reader reader;                                                                                                 \
        uint64_t fresh, torn, fell, refused;                                                                                  \
        int writer_first;                                                                                                     \
    } name##_both;                                                                                                            \
    static void *name##_write_all(void *unused) {                                                                             \
        pthread_barrier_wait(&start);                                                                                         \
        for (uint64_t i = 1; i <= MANY(type); i++) {                                                                          \
            type x;                                                                                                           \
            FILL(x, i);                                                                                                       \
            if (name##_write(&name##_both.writer, &x)) name##_both.refused++;                                                 \
            if (i % 256 == 0) wait_for_an_answer();                                                                           \
        }                                                                                                                     \
        if (name##_both.writer_first) check(!name##_end_writer(&name##_both.writer), #name, "the writer's end in its thread"); \
        return unused;                                                                                                        \
    }                                                                                                                         \
    static void *name##_read_all(void *unused) {                                                                              \
        uint64_t last = 0;                                                                                                    \
        pthread_barrier_wait(&start);                                                                                         \
        while (last < MANY(type)) {                                                                                           \
            type x;                                                                                                           \
            uint64_t n = ~0ull, seen = 0;                                                                                     \
            if (last % 4 == 3 && name##_look(&name##_both.reader, &seen)) name##_both.refused++;                              \
            if (name##_read(&name##_both.reader, &x, &n)) {                                                                   \
                name##_both.refused++;                                                                                        \
                break;                                                                                                        \
            }                                                                                                                 \
            COUNT_TORN(x, n, name##_both.torn, mask);                                                                         \
            name##_both.fell += n < last || n < seen;                                                                           \
            name##_both.fresh += n > last;                                                                                    \
            last = n;                                                                                                         \
            __atomic_add_fetch(&answers, 1, __ATOMIC_SEQ_CST);                                                                \
        }                                                                                                                     \
        __atomic_store_n(&reader_stopped, 1, __ATOMIC_SEQ_CST);                                                               \
        if (!name##_both.writer_first) check(!name##_end_reader(&name##_both.reader), #name, "the reader's end in its thread"); \
        return unused;                                                                                                        \
    }                                                                                                                         \
    static void name##_threads(int writer_first) {                                                                            \
        pthread_t writing, reading;                                                                                           \
        type x;                                                                                                               \
        uint64_t n = 0;                                                                                                       \
        memset(&name##_both, 0, sizeof name##_both);                                                                          \
        name##_both.writer_first = writer_first;                                                                              \
        reader_stopped = 0;                                                                                                   \
        FILL(x, (uint64_t)0);                                                                                                 \
        check(!name##_make(&x, &name##_both.writer, &name##_both.reader), #name, "make");                                     \
        pthread_create(&reading, 0, name##_read_all, 0);                                                                      \
        pthread_create(&writing, 0, name##_write_all, 0);                                                                     \
        pthread_join(writing, 0);                                                                                             \
        pthread_join(reading, 0);                                                                                             \
        check(!name##_both.torn, #name, "a torn record");                                                                     \
        check(!name##_both.fell, #name, "a number that fell");                                                                \
        check(!name##_both.refused, #name, "a call that was refused");                                                        \
        check(name##_both.fresh >= MANY(type) / 512, #name, "the threads didn't run at once");                                \
        if (writer_first) {                                                                                                   \
            check(name##_write(&name##_both.writer, &x) == NIDZARU_ENDED, #name, "a write after the end");                    \
            check(name##_end_writer(&name##_both.writer) == NIDZARU_ENDED, #name, "a second end");                            \
            check(!name##_read(&name##_both.reader, &x, &n) && n == MANY(type), #name, "the last record after the writer's end"); \
            check(!name##_end_reader(&name##_both.reader), #name, "the reader's end");                                        \
        } else {                                                                                                              \
            check(name##_read(&name##_both.reader, &x, &n) == NIDZARU_ENDED, #name, "a read after the end");                  \
            check(!name##_write(&name##_both.writer, &x), #name, "a write after the reader's end");                           \
            check(!name##_end_writer(&name##_both.writer), #name, "the writer's end");                                        \
        }                                                                                                                     \
    }                                                                                                                         \
    static void name##_all(void) {                                                                                            \
        name##_threads(0);                                                                                                    \
        name##_threads(1);                                                                                                    \
    }

#define ALL(each)                                                                                                             \
    each(four8, r8, NIDZARU_REGISTER, ~0ull)                                                                                  \
    each(four24, r24, NIDZARU_REGISTER, ~0ull)                                                                                \
    each(four64, r64, NIDZARU_REGISTER, ~0ull)                                                                                \
    each(four128, r128, NIDZARU_REGISTER, ~0ull)                                                                              \
    each(four256, r256, NIDZARU_REGISTER, ~0ull)                                                                              \
    each(four1024, r1024, NIDZARU_REGISTER, ~0ull)                                                                            \
    each(four4096, r4096, NIDZARU_REGISTER, ~0ull)                                                                            \
    each(four65536, r65536, NIDZARU_REGISTER, ~0ull)                                                                          \
    each(four1048576, r1048576, NIDZARU_REGISTER, ~0ull)                                                                      \
    each(four20, r20, NIDZARU_REGISTER, 0xffffffffull)                                                                        \
    each(four24_by_4, r24_by_4, NIDZARU_REGISTER, 0xffffffffull)                                                              \
    each(four3000, r3000, NIDZARU_REGISTER, 0xffull)                                                                          \
    each(four5000, r5000, NIDZARU_REGISTER, 0xffull)                                                                          \
    each(triple8, r8, NIDZARU_TRIPLE_REGISTER, ~0ull)                                                                         \
    each(triple24, r24, NIDZARU_TRIPLE_REGISTER, ~0ull)                                                                       \
    each(triple64, r64, NIDZARU_TRIPLE_REGISTER, ~0ull)                                                                       \
    each(triple128, r128, NIDZARU_TRIPLE_REGISTER, ~0ull)                                                                     \
    each(triple256, r256, NIDZARU_TRIPLE_REGISTER, ~0ull)                                                                     \
    each(triple1024, r1024, NIDZARU_TRIPLE_REGISTER, ~0ull)                                                                   \
    each(triple4096, r4096, NIDZARU_TRIPLE_REGISTER, ~0ull)                                                                   \
    each(triple65536, r65536, NIDZARU_TRIPLE_REGISTER, ~0ull)                                                                 \
    each(triple1048576, r1048576, NIDZARU_TRIPLE_REGISTER, ~0ull)                                                             \
    each(triple20, r20, NIDZARU_TRIPLE_REGISTER, 0xffffffffull)                                                               \
    each(triple24_by_4, r24_by_4, NIDZARU_TRIPLE_REGISTER, 0xffffffffull)                                                     \
    each(triple3000, r3000, NIDZARU_TRIPLE_REGISTER, 0xffull)                                                                 \
    each(triple5000, r5000, NIDZARU_TRIPLE_REGISTER, 0xffull)
#define RUN(name, type, register_of, mask) name##_all();
ALL(TEST)

int main(int count, char **words) {
    if (count > 1) many = strtoull(words[1], 0, 10);
    pthread_barrier_init(&start, 0, 2);
    ALL(RUN)
    puts(failed ? "FAILED" : "passed");
    return failed != 0;
}
