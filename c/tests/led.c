/* A second file for loaned.c's program, under the sanitizer of addresses: what the library is passed in a hold and a loan are no words, at
 * an address that isn't null and is aligned, and what comes back are as many as the record has, or none where it is refused. Link with
 * --wrap= for the hold and the loan of each triple buffer. */
#include "nidzaru.h"
#include <stdio.h>
#include <stdlib.h>

static void must(int holds, const char *what) {
    if (holds) return;
    printf("FAILED: %s\n", what);
    exit(1);
}

static void begins(const nidzaru_lent *at) {
    must(at->at && (uintptr_t)at->at % sizeof *at->at == 0, "an address that can't be one of words");
    must(!at->count, "words before the call");
}

static uint32_t ends(uint32_t status, const nidzaru_lent *at, size_t size) {
    must(at->count == (status ? 0 : size / sizeof *at->at), "another number of words");
    return status;
}

#define LED(size)                                                                                                     \
    uint32_t __real_nidzaru_triple_##size##_hold(nidzaru_side *reader, nidzaru_lent *at);                             \
    uint32_t __wrap_nidzaru_triple_##size##_hold(nidzaru_side *reader, nidzaru_lent *at);                             \
    uint32_t __wrap_nidzaru_triple_##size##_hold(nidzaru_side *reader, nidzaru_lent *at) {                            \
        begins(at);                                                                                                   \
        return ends(__real_nidzaru_triple_##size##_hold(reader, at), at, size);                                       \
    }                                                                                                                 \
    uint32_t __real_nidzaru_triple_##size##_loan(nidzaru_side *writer, nidzaru_lent *at);                             \
    uint32_t __wrap_nidzaru_triple_##size##_loan(nidzaru_side *writer, nidzaru_lent *at);                             \
    uint32_t __wrap_nidzaru_triple_##size##_loan(nidzaru_side *writer, nidzaru_lent *at) {                            \
        begins(at);                                                                                                   \
        return ends(__real_nidzaru_triple_##size##_loan(writer, at), at, size);                                       \
    }
LED(8)
LED(24)
LED(64)
LED(128)
LED(256)
LED(1024)
LED(4096)
LED(65536)
LED(1048576)
