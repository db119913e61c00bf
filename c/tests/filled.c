/* Under MemorySanitizer, which doesn't see inside the library: what each call gives counts as filled, and what a refused call leaves
 * doesn't. usage: filled clean             nothing is to be reported
 *                 filled refused WHAT      a use of this, which nothing has filled, is to be reported */
#include "nidzaru.h"
#include <stdio.h>

struct whole { uint64_t words[3]; };
struct part { uint32_t words[5]; };
NIDZARU_REGISTER(wholes, struct whole);
NIDZARU_TRIPLE_REGISTER(parts, struct part);
NIDZARU_BOARD(whole_boards, struct whole);
NIDZARU_TRIPLE_BOARD(part_boards, struct part);

/* A branch on each byte. */
static int sum(const void *bytes, size_t count) {
    int odd = 0;
    for (size_t k = 0; k < count; k++)
        if (((const unsigned char *)bytes)[k] % 2) odd++;
    return odd;
}

#define REGISTER(name, type)                                                                                          \
    static int name##_filled(void) {                                                                                  \
        name##_writer w = NIDZARU_EMPTY;                                                                              \
        name##_reader r = NIDZARU_EMPTY;                                                                              \
        type first = {{1, 2, 3}}, x, y;                                                                               \
        uint64_t n, m, o = 0;                                                                                         \
        int odd = 0;                                                                                                  \
        if (name##_make(&first, &w, &r) || name##_write(&w, &first)) return -1;                                       \
        if (name##_look(&r, &m) || name##_read(&r, &x, &n)) return -1;                                                \
        odd += sum(&x, sizeof x) + sum(&n, sizeof n) + sum(&m, sizeof m);                                             \
        if (name##_news(&r, &y, &o)) return -1;                                                                       \
        odd += sum(&y, sizeof y) + sum(&o, sizeof o) + sum(&r.handle, sizeof r.handle) + sum(&w.handle, sizeof w.handle); \
        return name##_end_writer(&w) || name##_end_reader(&r) ? -1 : odd;                                             \
    }
REGISTER(wholes, struct whole)
REGISTER(parts, struct part)

/* What a hold and a loan give, where it lies. */
NIDZARU_HOLD(parts);
NIDZARU_LOAN(parts);
static int held_filled(void) {
    parts_writer w = NIDZARU_EMPTY;
    parts_reader r = NIDZARU_EMPTY;
    struct part first = {{1, 2, 3}}, *slot;
    const struct part *at;
    uint64_t n;
    int odd;
    if (parts_make(&first, &w, &r) || parts_write(&w, &first) || parts_hold(&r, &at, &n) || parts_loan(&w, &slot)) return -1;
    odd = sum(&at, sizeof at) + sum(at, sizeof *at) + sum(&n, sizeof n) + sum(&r.handle, sizeof r.handle);
    odd += sum(&slot, sizeof slot) + sum(slot, sizeof *slot) + sum(&w.handle, sizeof w.handle);
    return parts_end_writer(&w) || parts_end_reader(&r) ? -1 : odd;
}

#define BOARD(name, type)                                                                                             \
    static int name##_filled(void) {                                                                                  \
        name##_place p[2] = {NIDZARU_EMPTY, NIDZARU_EMPTY};                                                           \
        type first = {{1, 2, 3}}, x, y, z;                                                                            \
        nidzaru_stamp s, t, u, v = {0, 0};                                                                            \
        int odd = 0;                                                                                                  \
        if (name##_make(&first, p, 2) || name##_write(&p[0], &first, &s) || name##_read(&p[1], &x, &t)) return -1;    \
        odd += sum(&s, sizeof s) + sum(&t, sizeof t) + sum(&x, sizeof x);                                             \
        if (name##_read_since(&p[1], s, &y, &u) || name##_news(&p[1], &z, &v)) return -1;                             \
        odd += sum(&u, sizeof u) + sum(&v, sizeof v) + sum(&y, sizeof y) + sum(&z, sizeof z);                         \
        return name##_end(&p[0]) || name##_end(&p[1]) ? -1 : odd + sum(p, sizeof p);                                  \
    }
BOARD(whole_boards, struct whole)
BOARD(part_boards, struct part)

/* Uses what a call with an empty handle leaves as it was. */
static int use_of(const char *what) {
    wholes_reader r = NIDZARU_EMPTY;
    whole_boards_place p = NIDZARU_EMPTY;
    struct whole item, board_item;
    uint64_t number, looked;
    nidzaru_stamp stamp;
    if (wholes_read(&r, &item, &number) != NIDZARU_ENDED || wholes_look(&r, &looked) != NIDZARU_ENDED) return -1;
    if (whole_boards_read(&p, &board_item, &stamp) != NIDZARU_ENDED) return -1;
#define IF_NAMED(it)                                                                                                  \
    if (!strcmp(what, #it)) return sum(&it, sizeof it);
    IF_NAMED(item) IF_NAMED(number) IF_NAMED(looked) IF_NAMED(board_item) IF_NAMED(stamp)
    return -1;
}

int main(int count, char **words) {
    int wrong;
    if (count == 3 && !strcmp(words[1], "refused")) wrong = use_of(words[2]) < 0;
    else wrong = wholes_filled() < 0 || parts_filled() < 0 || held_filled() < 0 || whole_boards_filled() < 0 || part_boards_filled() < 0;
    puts(wrong ? "FAILED" : "passed");
    return wrong;
}
