/* What a make takes is what the header says beforehand: a block of just so many bytes, given out in just so many parts, serves it. If a byte or a
 * request is missing, memory was refused, and all that was taken is given back. No word of it leads to the maker's stack, which other processes
 * would see in shared memory. */
#include "nidzaru.h"
#include <stdio.h>
#include <stdlib.h>
#include <string.h>

enum { MOST = 13 << 20 };

/* The block begins where no line of the cache does. */
static _Alignas(64) unsigned char memory[16 + MOST];
static size_t room, taken, requests_left, asked, live;
static int failed;

void *nidzaru_allocate(size_t bytes) {
    if (!requests_left || bytes > room - taken) return 0;
    requests_left--;
    asked++;
    live++;
    taken += bytes;
    return memory + 16 + taken - bytes;
}

void nidzaru_release(void *block) {
    (void)block;
    live--;
}

static void check(int holds, const char *name, size_t count, const char *what) {
    if (holds) return;
    failed++;
    printf("FAILED: %s, %zu: %s\n", name, count, what);
}

/* How many words of what was taken lead to the stack, at whose beginning this address lies. */
static uintptr_t stack_begins;

static size_t words_to_stack(void) {
    size_t found = 0;
    for (size_t at = 16; at + 8 <= 16 + taken; at += 8) {
        uint64_t word;
        memcpy(&word, memory + at, sizeof word);
        found += word <= stack_begins && stack_begins - word < 8 << 20;
    }
    return found;
}

/* Begins a make that has so many bytes and requests. */
static void begin(size_t bytes, size_t requests) {
    if (bytes > MOST) {
        printf("FAILED: %zu bytes are more than this test has\n", bytes);
        exit(1);
    }
    memset(memory, 0, 16 + bytes);
    room = bytes;
    requests_left = requests;
    taken = asked = live = 0;
}

/* Sees that a make of so many readers or places is done with these bytes and requests, and takes all of them, and isn't with fewer. */
static void see(const char *name, size_t count, size_t bytes, size_t requests, int (*use)(size_t count)) {
    begin(bytes, requests);
    check(use(count) == NIDZARU_DONE, name, count, "it isn't made of what it says that it takes");
    check(taken == bytes, name, count, "it takes fewer bytes than it says");
    check(asked == requests, name, count, "it asks less often than it says");
    check(!live, name, count, "a block stays");
    check(!words_to_stack(), name, count, "an address of the stack stays");
    begin(bytes - 1, requests);
    check(use(count) == NIDZARU_NO_MEMORY, name, count, "it is made of a byte less");
    check(!live, name, count, "a block stays of a make that lacked a byte");
    begin(bytes, requests - 1);
    check(use(count) == NIDZARU_NO_MEMORY, name, count, "it is made by a request less");
    check(!live, name, count, "a block stays of a make that lacked a request");
}

/* A register of records of so many bytes. */
#define REGISTER(name, kind, size)                                                                                    \
    typedef struct { unsigned char bytes[size]; } name##_bytes;                                                       \
    kind(name, name##_bytes);                                                                                         \
    static int name##_use(size_t count) {                                                                             \
        static name##_bytes item;                                                                                     \
        name##_writer writer = NIDZARU_EMPTY;                                                                         \
        name##_reader reader = NIDZARU_EMPTY;                                                                         \
        const int status = name##_make(&item, &writer, &reader);                                                      \
        (void)count;                                                                                                  \
        if (status) return status;                                                                                    \
        if (name##_write(&writer, &item) || name##_latest(&reader, &item)) return -1;                                 \
        return name##_end_writer(&writer) || name##_end_reader(&reader) ? -1 : 0;                                     \
    }                                                                                                                 \
    NIDZARU_ASSERT(NIDZARU_MAKE_BYTES(name) > 0 && NIDZARU_MAKE_REQUESTS(name) > 0, "a constant expression")
#define SEE(name) see(#name, 1, name##_make_bytes(), name##_make_requests(), name##_use)

/* A fan of so many readers of them. */
#define FAN(name, kind, size, readers_of)                                                                             \
    typedef struct { unsigned char bytes[size]; } name##_bytes;                                                       \
    kind(name, name##_bytes, readers_of);                                                                             \
    static int name##_use(size_t count) {                                                                             \
        static name##_bytes item;                                                                                     \
        name##_writer writer = NIDZARU_EMPTY;                                                                         \
        name##_reader readers[readers_of] = {NIDZARU_EMPTY};                                                          \
        int status = name##_make(&item, &writer, &readers);                                                           \
        if (status) return status;                                                                                    \
        status = name##_write(&writer, &item) || name##_end_writer(&writer) ? -1 : 0;                                 \
        for (size_t k = 0; k < count; k++)                                                                            \
            if (name##_latest(&readers[k], &item) || name##_end_reader(&readers[k])) status = -1;                     \
        return status;                                                                                                \
    }                                                                                                                 \
    NIDZARU_ASSERT(NIDZARU_MAKE_BYTES(name) > 0 && NIDZARU_MAKE_REQUESTS(name) > 0, "a constant expression")
#define SEE_FAN(name) see(#name, name##_readers, name##_make_bytes(), name##_make_requests(), name##_use)

/* A board of them. */
#define BOARD(name, kind, size)                                                                                       \
    typedef struct { unsigned char bytes[size]; } name##_bytes;                                                       \
    kind(name, name##_bytes);                                                                                         \
    static int name##_use(size_t count) {                                                                             \
        static name##_bytes item;                                                                                     \
        name##_place places[16] = {NIDZARU_EMPTY};                                                                    \
        nidzaru_stamp stamp;                                                                                          \
        int status = name##_make(&item, places, count);                                                               \
        if (status) return status;                                                                                    \
        status = name##_write(&places[0], &item, &stamp) ? -1 : 0;                                                    \
        for (size_t k = 0; k < count; k++)                                                                            \
            if (name##_latest(&places[k], &item) || name##_end(&places[k])) status = -1;                              \
        return status;                                                                                                \
    }                                                                                                                 \
    NIDZARU_ASSERT(NIDZARU_BOARD_MAKE_BYTES(name, 2) > 0 && NIDZARU_BOARD_MAKE_REQUESTS(name, 2) > 0, "a constant expression")
#define SEE_BOARD(name)                                                                                               \
    for (size_t n = 2; n <= 16; n++) {                                                                                \
        see(#name, n, name##_make_bytes(n), name##_make_requests(n), name##_use);                                     \
        check(name##_make_bytes(n) == NIDZARU_BOARD_MAKE_BYTES(name, n), #name, n, "two numbers of bytes");           \
    }

#define EACH_SIZE(OF)                                                                                                 \
    OF(1) OF(8) OF(9) OF(24) OF(25) OF(64) OF(65) OF(128) OF(129) OF(256) OF(257)                                         \
    OF(1024) OF(1025) OF(4096) OF(4097) OF(65536) OF(65537) OF(1048576)
#define EACH_FAN(OF) OF(1, 1) OF(24, 3) OF(257, 2) OF(4096, 16)
#define EACH_BOARD_SIZE(OF) OF(1) OF(24) OF(25) OF(256) OF(257) OF(4096)

#define DEFINE(size) REGISTER(four##size, NIDZARU_REGISTER, size); REGISTER(triple##size, NIDZARU_TRIPLE_REGISTER, size);
#define DEFINE_FAN(size, n) FAN(fan##size, NIDZARU_FAN, size, n); FAN(triple_fan##size, NIDZARU_TRIPLE_FAN, size, n);
#define DEFINE_BOARD(size) BOARD(board##size, NIDZARU_BOARD, size); BOARD(triple_board##size, NIDZARU_TRIPLE_BOARD, size);
EACH_SIZE(DEFINE)
EACH_FAN(DEFINE_FAN)
EACH_BOARD_SIZE(DEFINE_BOARD)

#define SEE_BOTH(size) SEE(four##size); SEE(triple##size);
#define SEE_BOTH_FANS(size, n) SEE_FAN(fan##size); SEE_FAN(triple_fan##size);
#define SEE_BOTH_BOARDS(size) SEE_BOARD(board##size) SEE_BOARD(triple_board##size)

int main(void) {
    int here = 0;
    stack_begins = (uintptr_t)&here;
    taken = 8;
    memcpy(memory + 16, &stack_begins, sizeof stack_begins);
    check(words_to_stack() == 1, "the control", 1, "an address of the stack isn't seen");
    EACH_SIZE(SEE_BOTH)
    EACH_FAN(SEE_BOTH_FANS)
    EACH_BOARD_SIZE(SEE_BOTH_BOARDS)
    puts(failed ? "FAILED" : "passed");
    return failed != 0;
}
