/* What the tests of killed processes and of cut-off calls share: a record of BYTES bytes, whose words are a number and those that follow it,
 * and the register, board or fan that they end over, by -DTRIPLE, -DBOARD and -DFAN. */
#ifndef NIDZARU_TESTS_SHARED_CELLS_H
#define NIDZARU_TESTS_SHARED_CELLS_H

#ifndef BYTES
#define BYTES 24
#endif
enum { WORDS = BYTES / 8, BOARD_PLACES = 3 };

struct record { uint64_t words[WORDS]; };

static struct record record_from(uint64_t first) {
    struct record item;
    for (size_t k = 0; k < WORDS; k++) item.words[k] = first + k;
    return item;
}

static int is_torn(const struct record *item) {
    for (size_t k = 0; k < WORDS; k++)
        if (item->words[k] != item->words[0] + k) return 1;
    return 0;
}

/* The record of the n-th write has n times 1000 and the following numbers in its words. */
static inline struct record record_of(uint64_t n) {
    return record_from(n * 1000);
}

#if defined FAN && defined TRIPLE
NIDZARU_TRIPLE_FAN(cell, struct record, 2);
#elif defined FAN
NIDZARU_FAN(cell, struct record, 2);
#elif defined BOARD && defined TRIPLE
NIDZARU_TRIPLE_BOARD(cell, struct record);
#elif defined BOARD
NIDZARU_BOARD(cell, struct record);
#elif defined TRIPLE
NIDZARU_TRIPLE_REGISTER(cell, struct record);
#else
NIDZARU_REGISTER(cell, struct record);
#endif

#if defined NIDZARU_SHARED_BOARD && defined BOARD
NIDZARU_SHARED_BOARD(cell, BOARD_PLACES);
#elif defined NIDZARU_SHARED_REGISTER
NIDZARU_SHARED_REGISTER(cell);
#endif

#endif
