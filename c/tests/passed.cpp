// What reaches the library: records with zeros behind them, by classes and macros, and the limit of boards without one. Link with --wrap=
// for each call below.
#include "nidzaru.hpp"
#include <cstdio>

namespace {
std::uint64_t words[3], limit;
bool over_triple;
int failed;

void check(bool holds, const char *what) {
    if (!holds) {
        failed = 1;
        std::printf("FAILED: %s\n", what);
    }
}

void take(const void *record, const char *call) {
    std::memcpy(words, record, sizeof words);
    over_triple = std::strncmp(call, "triple_", 7) == 0;
}

// Whether the library got these 12 bytes with zeros behind them, since the last time, by a call of this mechanism.
bool got(std::uint32_t a, std::uint32_t b, std::uint32_t c, bool triple) {
    const bool holds = words[0] == (std::uint64_t(b) << 32 | a) && words[1] == c && words[2] == 0 && over_triple == triple;
    for (auto &word : words) word = 0x5555;
    return holds;
}
} // namespace

extern "C" {
#define MAKES(name)                                                                                                   \
    std::uint32_t __real_nidzaru_##name(const void *, nidzaru_side *, nidzaru_side *);                                \
    std::uint32_t __wrap_nidzaru_##name(const void *first, nidzaru_side *w, nidzaru_side *r);                         \
    std::uint32_t __wrap_nidzaru_##name(const void *first, nidzaru_side *w, nidzaru_side *r) {                        \
        take(first, #name);                                                                                           \
        return __real_nidzaru_##name(first, w, r);                                                                    \
    }
#define WRITES(name)                                                                                                  \
    std::uint32_t __real_nidzaru_##name(nidzaru_side *, const void *);                                                \
    std::uint32_t __wrap_nidzaru_##name(nidzaru_side *w, const void *item);                                           \
    std::uint32_t __wrap_nidzaru_##name(nidzaru_side *w, const void *item) {                                          \
        take(item, #name);                                                                                            \
        return __real_nidzaru_##name(w, item);                                                                        \
    }
#define MAKES_BOARD(name)                                                                                             \
    std::uint32_t __real_nidzaru_##name(const void *, std::uint64_t, nidzaru_side *, std::size_t);                    \
    std::uint32_t __wrap_nidzaru_##name(const void *first, std::uint64_t its_limit, nidzaru_side *p, std::size_t n);  \
    std::uint32_t __wrap_nidzaru_##name(const void *first, std::uint64_t its_limit, nidzaru_side *p, std::size_t n) { \
        take(first, #name);                                                                                           \
        limit = its_limit;                                                                                            \
        return __real_nidzaru_##name(first, its_limit, p, n);                                                         \
    }
#define WRITES_PLACE(name)                                                                                            \
    std::uint32_t __real_nidzaru_##name(nidzaru_side *, const void *, nidzaru_stamp *);                               \
    std::uint32_t __wrap_nidzaru_##name(nidzaru_side *p, const void *item, nidzaru_stamp *s);                         \
    std::uint32_t __wrap_nidzaru_##name(nidzaru_side *p, const void *item, nidzaru_stamp *s) {                        \
        take(item, #name);                                                                                            \
        return __real_nidzaru_##name(p, item, s);                                                                     \
    }
MAKES(24_make)
WRITES(24_write)
MAKES(triple_24_make)
WRITES(triple_24_write)
MAKES_BOARD(board_24_make)
WRITES_PLACE(board_24_write)
MAKES_BOARD(triple_board_24_make)
WRITES_PLACE(triple_board_24_write)
}

namespace {
struct three {
    std::uint32_t a, b, c;
};
NIDZARU_REGISTER(cells, three);
NIDZARU_BOARD(boards, three);

// Something else than zeros, where the next call will have its frame.
__attribute__((noinline)) void spoil_stack() {
    volatile unsigned char bytes[8192];
    for (auto &byte : bytes) byte = 0xa5;
}

template <nidzaru::cell C> void classes() {
    const bool triple = C == nidzaru::cell::triple;
    spoil_stack();
    auto [w, r] = nidzaru::make<three, C>(three{1, 2, 3});
    check(got(1, 2, 3, triple), "make");
    spoil_stack();
    check(!w.write({4, 5, 6}) && got(4, 5, 6, triple), "a write");
    spoil_stack();
    auto p = nidzaru::make_board<2, C>(three{7, 8, 9});
    check(got(7, 8, 9, triple) && limit == UINT64_MAX - 1, "make_board");
    nidzaru::stamp s;
    spoil_stack();
    check(!p[0].write({4, 5, 6}, s) && got(4, 5, 6, triple), "a place's write");
    auto q = nidzaru::make_board<2, C>(three{7, 8, 9}, 55);
    check(limit == 55, "a limit of make_board");
    auto t = nidzaru::try_make_board<2, C>(three{7, 8, 9});
    check(t && limit == UINT64_MAX - 1, "try_make_board");
    t = nidzaru::try_make_board<2, C>(three{7, 8, 9}, 56);
    check(t && limit == 56, "a limit of try_make_board");
}

void macros() {
    cells_writer w = NIDZARU_EMPTY;
    cells_reader r = NIDZARU_EMPTY;
    boards_place p[2] = {NIDZARU_EMPTY, NIDZARU_EMPTY}, q[2] = {NIDZARU_EMPTY, NIDZARU_EMPTY};
    three x{1, 2, 3}, y{4, 5, 6};
    nidzaru_stamp s;
    spoil_stack();
    check(!cells_make(&x, &w, &r) && got(1, 2, 3, false), "NAME_make");
    spoil_stack();
    check(!cells_write(&w, &y) && got(4, 5, 6, false), "NAME_write");
    check(!boards_make(&x, p, 2) && got(1, 2, 3, false) && limit == UINT64_MAX - 1, "NAME_make of a board");
    spoil_stack();
    check(!boards_write(p, &y, &s) && got(4, 5, 6, false), "NAME_write of a board");
    check(!boards_make_limited(&x, 57, q, 2) && limit == 57, "NAME_make_limited");
    check(!cells_end_writer(&w) && !cells_end_reader(&r), "ends");
    for (int k = 0; k < 2; k++) check(!boards_end(p + k) && !boards_end(q + k), "ends");
}
} // namespace

int main() {
    classes<nidzaru::cell::four_slot>();
    classes<nidzaru::cell::triple>();
    macros();
    std::puts(failed ? "FAILED" : "passed");
    return failed;
}
