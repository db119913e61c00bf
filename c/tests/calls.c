/* The header's own part of the calls: numbers and stamps that lie in the record, news, moves, what statuses are called, stamps compared,
 * records with the names of arguments, and refused handles and null pointers of boards. Over four-slot cells, or with -DTRIPLE over
 * triple buffers. Link with --wrap=malloc,--wrap=realloc,--wrap=free. */
#include "edges.h"

#ifdef TRIPLE
#define REGISTER NIDZARU_TRIPLE_REGISTER
#define BOARD NIDZARU_TRIPLE_BOARD
#else
#define REGISTER NIDZARU_REGISTER
#define BOARD NIDZARU_BOARD
#endif

/* Records that are passed where they lie, and such as a copy goes through. */
struct whole { uint64_t low, number, high; };
struct part { uint64_t number; uint32_t low; };
REGISTER(wholes, struct whole);
REGISTER(parts, struct part);
struct signed_whole { uint64_t low; nidzaru_stamp stamp; };
struct signed_part { uint32_t low; nidzaru_stamp stamp; uint32_t high[3]; };
BOARD(whole_boards, struct signed_whole);
BOARD(part_boards, struct signed_part);

/* What is called as an argument or a local of the header is. */
typedef struct { uint32_t w[5]; } record, item, first, words, number, status, given, writer, reader, handle, seen;
REGISTER(of_record, record);
REGISTER(of_item, item);
REGISTER(of_first, first);
REGISTER(of_words, words);
REGISTER(of_number, number);
REGISTER(of_status, status);
REGISTER(of_given, given);
REGISTER(of_writer, writer);
REGISTER(of_reader, reader);
REGISTER(of_handle, handle);
REGISTER(of_seen, seen);
typedef struct { uint32_t w[5]; } place, places, limit, count, i, handles, stamp, least, to, from;
BOARD(on_record, record);
BOARD(on_item, item);
BOARD(on_first, first);
BOARD(on_words, words);
BOARD(on_status, status);
BOARD(on_given, given);
BOARD(on_place, place);
BOARD(on_places, places);
BOARD(on_limit, limit);
BOARD(on_count, count);
BOARD(on_i, i);
BOARD(on_handles, handles);
BOARD(on_stamp, stamp);
BOARD(on_least, least);
BOARD(on_to, to);
BOARD(on_from, from);

/* The calls of a thread store into a handle: 64 bytes lie between it and the next one's. */
NIDZARU_ASSERT(sizeof(wholes_writer) >= sizeof(nidzaru_handle) + 64 && offsetof(wholes_writer, handle) == 0, "a writer's handle");
NIDZARU_ASSERT(sizeof(wholes_reader) >= sizeof(nidzaru_handle) + 64 && offsetof(wholes_reader, handle) == 0, "a reader's handle");
NIDZARU_ASSERT(sizeof(whole_boards_place) >= sizeof(nidzaru_handle) + 64 && offsetof(whole_boards_place, handle) == 0, "a place's handle");

static int is_stamp(nidzaru_stamp it, uint64_t tag, uint64_t by) { return it.tag == tag && it.writer == by; }

/* The number comes last, also where it lies in the record. */
static void numbers_in_records(void) {
    wholes_writer w = NIDZARU_EMPTY;
    wholes_reader r = NIDZARU_EMPTY;
    parts_writer v = NIDZARU_EMPTY;
    parts_reader q = NIDZARU_EMPTY;
    struct whole x = {1, 500, 3}, y = {0, 0, 0};
    struct part a = {500, 7}, b = {0, 0};
    check(!wholes_make(&x, &w, &r) && !parts_make(&a, &v, &q), "numbers in records", "make");
    for (uint64_t n = 1; n <= 3; n++) {
        check(!wholes_write(&w, &x) && !parts_write(&v, &a), "numbers in records", "a write");
        check(!wholes_read(&r, &y, &y.number) && y.number == n && y.low == 1 && y.high == 3, "numbers in records", "a whole record");
        check(!parts_read(&q, &b, &b.number) && b.number == n && b.low == 7, "numbers in records", "a record that is copied");
    }
    check(!wholes_write(&w, &x) && !parts_write(&v, &a), "numbers in records", "a write");
    check(!wholes_news(&r, &y, &y.number) && y.number == 4 && y.low == 1, "numbers in records", "news of a whole record");
    check(!parts_news(&q, &b, &b.number) && b.number == 4 && b.low == 7, "numbers in records", "news of a record that is copied");
    check(!wholes_end_writer(&w) && !wholes_end_reader(&r) && !parts_end_writer(&v) && !parts_end_reader(&q), "numbers in records", "ends");
}

#define STAMPS_IN_RECORDS(name, type)                                                                                 \
    static void name##_stamps(void) {                                                                                 \
        name##_place p[2] = {NIDZARU_EMPTY, NIDZARU_EMPTY};                                                           \
        type x, y;                                                                                                    \
        memset(&x, 0, sizeof x);                                                                                      \
        x.low = 9;                                                                                                    \
        x.stamp.tag = 500;                                                                                            \
        check(!name##_make(&x, p, 2), #name, "make");                                                                 \
        check(!name##_read(&p[1], &y, &y.stamp) && is_stamp(y.stamp, 0, 0) && y.low == 9, #name, "the opening");      \
        check(!name##_write(&p[0], &x, &x.stamp) && is_stamp(x.stamp, 1, 0), #name, "a write's stamp");               \
        check(!name##_read(&p[1], &y, &y.stamp) && is_stamp(y.stamp, 1, 0) && y.low == 9, #name, "a read's stamp");   \
        check(!name##_write(&p[0], &x, &x.stamp) && is_stamp(x.stamp, 2, 0), #name, "a second write's stamp");        \
        check(!name##_news(&p[1], &y, &y.stamp) && is_stamp(y.stamp, 2, 0) && y.low == 9, #name, "the stamp of news"); \
        check(!name##_read_since(&p[1], y.stamp, &y, &y.stamp) && is_stamp(y.stamp, 2, 0), #name, "read_since");      \
        y.stamp.tag = 3;                                                                                              \
        check(name##_read_since(&p[1], y.stamp, &y, &y.stamp) == NIDZARU_OLDER && is_stamp(y.stamp, 2, 0), #name, "older"); \
        check(!name##_end(&p[0]) && !name##_end(&p[1]), #name, "ends");                                               \
    }
STAMPS_IN_RECORDS(whole_boards, struct signed_whole)
STAMPS_IN_RECORDS(part_boards, struct signed_part)

static void news_of_registers(void) {
    wholes_writer w = NIDZARU_EMPTY;
    wholes_reader r = NIDZARU_EMPTY, copy;
    struct whole x = {1, 2, 3}, y = {7, 8, 9};
    uint64_t n = 0;
    check(wholes_news(&r, &y, &n) == NIDZARU_ENDED && n == 0 && y.low == 7, "news", "no reader yet");
    check(!wholes_make(&x, &w, &r), "news", "make");
    check(wholes_news(&r, &y, &n) == NIDZARU_NO_NEWS && n == 0 && y.low == 7, "news", "the opening is no news");
    check(!wholes_write(&w, &x) && !wholes_write(&w, &x), "news", "writes");
    check(!wholes_news(&r, &y, &n) && n == 2 && y.low == 1 && y.high == 3, "news", "two writes");
    y.low = 7;
    check(wholes_news(&r, &y, &n) == NIDZARU_NO_NEWS && n == 2 && y.low == 7, "news", "the same again");
    n = 1;
    check(!wholes_news(&r, &y, &n) && n == 2 && y.low == 1, "news", "by the number that stands there");
    n = 3;
    check(wholes_news(&r, &y, &n) == NIDZARU_NO_NEWS && n == 3, "news", "a greater number than there is");
    copy = r;
    check(wholes_news(&copy, &y, &n) == NIDZARU_COPIED, "news", "a copied reader");
    check(wholes_news(0, &y, &n) == NIDZARU_NULL && wholes_news(&r, 0, &n) == NIDZARU_NULL && wholes_news(&r, &y, 0) == NIDZARU_NULL, "news",
          "null pointers");
    y.low = 7;
    check(!wholes_latest(&r, &y) && y.low == 1 && y.high == 3, "news", "the latest record");
    y.low = 7;
    check(wholes_latest(&copy, &y) == NIDZARU_COPIED && wholes_latest(0, &y) == NIDZARU_NULL && wholes_latest(&r, 0) == NIDZARU_NULL
              && y.low == 7, "news", "what has no latest record");
    check(!wholes_end_writer(&w) && !wholes_end_reader(&r), "news", "ends");
    check(wholes_latest(&r, &y) == NIDZARU_ENDED && y.low == 7, "news", "no latest record of an ended side");
}

static void news_of_boards(void) {
    part_boards_place p[2] = {NIDZARU_EMPTY, NIDZARU_EMPTY};
    struct signed_part x, y;
    nidzaru_stamp its = {0, 0}, told = {0, 0};
    memset(&x, 0, sizeof x);
    memset(&y, 0, sizeof y);
    y.low = 7;
    check(part_boards_news(&p[1], &y, &its) == NIDZARU_ENDED && is_stamp(its, 0, 0), "a board's news", "no place yet");
    check(!part_boards_make(&x, p, 2), "a board's news", "make");
    check(part_boards_news(&p[1], &y, &its) == NIDZARU_NO_NEWS && is_stamp(its, 0, 0) && y.low == 7, "a board's news", "the opening");
    x.low = 1;
    check(!part_boards_write(&p[0], &x, &told) && is_stamp(told, 1, 0), "a board's news", "a write");
    check(part_boards_news(&p[0], &y, &told) == NIDZARU_NO_NEWS && y.low == 7, "a board's news", "the own write is none");
    check(!part_boards_news(&p[1], &y, &its) && is_stamp(its, 1, 0) && y.low == 1, "a board's news", "another's write");
    y.low = 7;
    check(part_boards_news(&p[1], &y, &its) == NIDZARU_NO_NEWS && is_stamp(its, 1, 0) && y.low == 7, "a board's news", "the same again");
    its.writer = 1;
    check(part_boards_news(&p[1], &y, &its) == NIDZARU_NO_NEWS && is_stamp(its, 1, 1) && y.low == 7, "a board's news", "a greater stamp");
    check(!part_boards_latest(&p[1], &y) && y.low == 1, "a board's news", "the latest record");
    check(part_boards_latest(0, &y) == NIDZARU_NULL && part_boards_latest(&p[1], 0) == NIDZARU_NULL, "a board's news", "no latest record");
    check(!part_boards_end(&p[0]) && !part_boards_end(&p[1]), "a board's news", "ends");
}

/* Of equal tags the greater writer's is news. */
static void news_by_writers(void) {
    whole_boards_place p[2] = {NIDZARU_EMPTY, NIDZARU_EMPTY};
    struct signed_whole x = {9, {0, 0}}, y = {7, {0, 0}};
    nidzaru_stamp told, its = {1, 0};
    check(!whole_boards_make(&x, p, 2) && !whole_boards_write(&p[1], &x, &told) && is_stamp(told, 1, 1), "news by writers", "a write");
    check(!whole_boards_news(&p[0], &y, &its) && is_stamp(its, 1, 1) && y.low == 9, "news by writers", "a greater writer");
    check(!whole_boards_end(&p[0]) && !whole_boards_end(&p[1]), "news by writers", "ends");
}

/* What no call on a board takes: null pointers, copied places, and one live place among empty ones. */
static void refused_places(void) {
    whole_boards_place p[3] = {NIDZARU_EMPTY, NIDZARU_EMPTY, NIDZARU_EMPTY}, q[3], copy, other = NIDZARU_EMPTY;
    struct signed_whole x = {1, {0, 0}}, y = {7, {8, 9}};
    nidzaru_stamp s = {77, 78}, least = {0, 0};
    const char *name = "refused places";
    long had;
    check(whole_boards_make(0, p, 3) == NIDZARU_NULL && whole_boards_make(&x, 0, 3) == NIDZARU_NULL
              && whole_boards_make_limited(0, 5, p, 3) == NIDZARU_NULL && whole_boards_make_limited(&x, 5, 0, 3) == NIDZARU_NULL, name, "make");
    check(!whole_boards_make(&x, p, 3), name, "make");
    check(whole_boards_write(0, &x, &s) == NIDZARU_NULL && whole_boards_write(p, 0, &s) == NIDZARU_NULL
              && whole_boards_write(p, &x, 0) == NIDZARU_NULL, name, "null pointers of a write");
    check(whole_boards_read(0, &y, &s) == NIDZARU_NULL && whole_boards_read(p, 0, &s) == NIDZARU_NULL
              && whole_boards_read(p, &y, 0) == NIDZARU_NULL, name, "null pointers of a read");
    check(whole_boards_read_since(0, least, &y, &s) == NIDZARU_NULL && whole_boards_read_since(p, least, 0, &s) == NIDZARU_NULL
              && whole_boards_read_since(p, least, &y, 0) == NIDZARU_NULL, name, "null pointers of read_since");
    check(whole_boards_news(0, &y, &s) == NIDZARU_NULL && whole_boards_news(p, 0, &s) == NIDZARU_NULL
              && whole_boards_news(p, &y, 0) == NIDZARU_NULL, name, "null pointers of news");
    check(whole_boards_move(0, p) == NIDZARU_NULL && whole_boards_move(&other, 0) == NIDZARU_NULL && whole_boards_end(0) == NIDZARU_NULL,
          name, "null pointers of a move and an end");
    copy = p[0];
    check(whole_boards_write(&copy, &x, &s) == NIDZARU_COPIED && whole_boards_read(&copy, &y, &s) == NIDZARU_COPIED
              && whole_boards_read_since(&copy, least, &y, &s) == NIDZARU_COPIED && whole_boards_news(&copy, &y, &s) == NIDZARU_COPIED
              && whole_boards_move(&other, &copy) == NIDZARU_COPIED && whole_boards_end(&copy) == NIDZARU_COPIED, name, "a copied place");
    check(is_stamp(s, 77, 78) && y.low == 7 && !other.handle.side.live, name, "what refused calls leave");
    had = blocks;
    for (size_t live = 0; live < 3; live++) {
        memset(q, 0, sizeof q);
        check(!whole_boards_move(&q[live], &p[live]), name, "a move");
        check(whole_boards_make(&x, q, 3) == NIDZARU_IN_USE && blocks == had, name, "make where one handle has a place");
        for (size_t k = 0; k < 3; k++) check(!q[k].handle.side.live == (k != live), name, "what that make leaves");
        check(whole_boards_move(&q[live], &p[(live + 1) % 3]) == NIDZARU_IN_USE, name, "a move to a live place");
        check(whole_boards_move(&q[live], &p[live]) == NIDZARU_IN_USE && q[live].handle.side.live, name, "an empty place to a live one");
        check(!whole_boards_move(&p[live], &q[live]) && !q[live].handle.side.live, name, "a move back");
    }
    check(!whole_boards_move(&q[0], &q[1]) && !q[0].handle.side.live, name, "a move of an empty place");
    for (size_t k = 0; k < 3; k++) check(!whole_boards_write(&p[k], &x, &s) && is_stamp(s, k + 1, k), name, "a place that was moved twice");
    for (size_t k = 0; k < 3; k++) check(!whole_boards_end(&p[k]), name, "an end");
}

/* Five words go through whole, with zeros behind them. */
#define OF_NAME(name)                                                                                                 \
    do {                                                                                                              \
        of_##name##_writer w = NIDZARU_EMPTY;                                                                         \
        of_##name##_reader r = NIDZARU_EMPTY;                                                                         \
        struct { name x; uint32_t behind[16]; } in, out;                                                              \
        uint64_t n = 77, raw[3] = {1, 1, 1};                                                                          \
        memset(&in, 0xa5, sizeof in);                                                                                 \
        memset(&out, 0x5a, sizeof out);                                                                               \
        fill(&in.x, sizeof in.x, 3);                                                                                  \
        check(!of_##name##_make(&in.x, &w, &r), #name, "make");                                                       \
        fill(&in.x, sizeof in.x, 4);                                                                                  \
        check(!of_##name##_write(&w, &in.x) && !of_##name##_read(&r, &out.x, &n) && n == 1, #name, "a write and a read"); \
        check(!memcmp(&in.x, &out.x, 20) && is_all(out.behind, sizeof out.behind, 0x5a), #name, "the record");        \
        NIDZARU_READ_24(&r.handle.side, raw, &n);                                                                     \
        check(!memcmp(raw, &in.x, 20) && is_all((char *)raw + 20, 4, 0), #name, "what lies in the library");          \
        check(!of_##name##_end_writer(&w) && !of_##name##_end_reader(&r), #name, "ends");                             \
    } while (0)
#define ON_NAME(name)                                                                                                 \
    do {                                                                                                              \
        on_##name##_place p[2] = {NIDZARU_EMPTY, NIDZARU_EMPTY};                                                      \
        struct { name x; uint32_t behind[16]; } in, out;                                                              \
        nidzaru_stamp its = {77, 78};                                                                                 \
        memset(&in, 0xa5, sizeof in);                                                                                 \
        memset(&out, 0x5a, sizeof out);                                                                               \
        fill(&in.x, sizeof in.x, 3);                                                                                  \
        check(!on_##name##_make(&in.x, p, 2), #name, "make");                                                         \
        fill(&in.x, sizeof in.x, 4);                                                                                  \
        check(!on_##name##_write(p, &in.x, &its) && !on_##name##_read(&p[1], &out.x, &its), #name, "a write and a read"); \
        check(!memcmp(&in.x, &out.x, 20) && is_all(out.behind, sizeof out.behind, 0x5a), #name, "the record");        \
        check(!on_##name##_end(p) && !on_##name##_end(p + 1), #name, "ends");                                         \
    } while (0)
#ifdef TRIPLE
#define NIDZARU_READ_24 nidzaru_triple_24_read
#else
#define NIDZARU_READ_24 nidzaru_24_read
#endif

static void names_of_records(void) {
    OF_NAME(record);
    OF_NAME(item);
    OF_NAME(first);
    OF_NAME(words);
    OF_NAME(number);
    OF_NAME(status);
    OF_NAME(given);
    OF_NAME(writer);
    OF_NAME(reader);
    OF_NAME(handle);
    OF_NAME(seen);
    ON_NAME(record);
    ON_NAME(item);
    ON_NAME(first);
    ON_NAME(words);
    ON_NAME(status);
    ON_NAME(given);
    ON_NAME(place);
    ON_NAME(places);
    ON_NAME(limit);
    ON_NAME(count);
    ON_NAME(i);
    ON_NAME(handles);
    ON_NAME(stamp);
    ON_NAME(least);
    ON_NAME(to);
    ON_NAME(from);
}

/* Each status has a text of its own, and no other number has it. */
static void texts(void) {
    for (int a = NIDZARU_DONE; a <= NIDZARU_CUT_OFF; a++) {
        check(*nidzaru_status_text(a) && strcmp(nidzaru_status_text(a), nidzaru_status_text(-1)), "texts", "a status without a text");
        for (int b = NIDZARU_DONE; b < a; b++) check(strcmp(nidzaru_status_text(a), nidzaru_status_text(b)), "texts", "one text for two");
    }
    check(!strcmp(nidzaru_status_text(NIDZARU_DONE), "done") && !strcmp(nidzaru_status_text(NIDZARU_NO_MEMORY), "memory was refused")
              && !strcmp(nidzaru_status_text(NIDZARU_ENDED), "the handle has no side")
              && !strcmp(nidzaru_status_text(NIDZARU_COPIED), "the handle was copied")
              && !strcmp(nidzaru_status_text(NIDZARU_WORN_OUT), "the limit refuses the write")
              && !strcmp(nidzaru_status_text(NIDZARU_NO_NEWS), "there is no news"), "texts", "another text");
    check(!strcmp(nidzaru_status_text(NIDZARU_CUT_OFF + 1), nidzaru_status_text(-1)), "texts", "a number that is no status");
}

/* Stamps in their order: by tags, and where these are the same by writers. */
static void stamps(void) {
    static const nidzaru_stamp in_order[] = {{0, 0}, {0, 1}, {1, 0}, {1, 15}, {2, 0}, {UINT32_MAX, 15}, {UINT32_MAX + 1ull, 0},
                                             {UINT64_MAX - 1, 3}, {UINT64_MAX, 0}, {UINT64_MAX, 1}};
    enum { COUNT = sizeof in_order / sizeof in_order[0] };
    for (int a = 0; a < COUNT; a++)
        for (int b = 0; b < COUNT; b++) {
            const int order = nidzaru_stamp_compare(in_order[a], in_order[b]);
            check(order == (a > b) - (a < b), "stamps", "compare");
            check(nidzaru_stamp_is_below(in_order[a], in_order[b]) == (a < b), "stamps", "is below");
        }
    check(NIDZARU_UNLIMITED == 18446744073709551614u, "stamps", "the greatest limit");
}

int main(void) {
    numbers_in_records();
    whole_boards_stamps();
    part_boards_stamps();
    news_of_registers();
    news_of_boards();
    news_by_writers();
    refused_places();
    names_of_records();
    texts();
    stamps();
    check(!blocks, "blocks", "some are left");
    puts(failed ? "FAILED" : "passed");
    return failed != 0;
}
