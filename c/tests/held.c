/* Held reads of a triple buffer: the address leads to the whole record, with its number, and what lies there stays until the reader's
 * next call, however much is written meanwhile. usage: held [WRITES [threads]] */
#include "lent.h"

#define TEST(name)                                                                                                    \
    static void test_##name(void) {                                                                                   \
        static name given;                                                                                            \
        static name##s_writer writer;                                                                                 \
        static name##s_reader reader;                                                                                 \
        const name *at = &given;                                                                                      \
        uint64_t number = 9;                                                                                          \
        unsigned char i;                                                                                              \
        check(name##s_hold(&reader, &at, &number) == NIDZARU_ENDED && at == &given && number == 9, #name, "no side"); \
        memset(&given, 1, sizeof given);                                                                              \
        check(!name##s_make(&given, &writer, &reader), #name, "make");                                                \
        check(!name##s_hold(&reader, &at, &number) && number == 0 && at != &given, #name, "hold of the opening");     \
        check(is_filled(at, sizeof given, 1), #name, "the opening");                                                  \
        for (i = 2; i < 100; i++) {                                                                                   \
            const name *before = at;                                                                                  \
            memset(&given, i, sizeof given);                                                                          \
            check(!name##s_write(&writer, &given), #name, "write");                                                   \
            check(is_filled(before, sizeof given, (unsigned char)(i - 1)), #name, "what was held");                   \
            check(!name##s_hold(&reader, &at, &number) && number == i - 1u, #name, "hold");                           \
            check(is_filled(at, sizeof given, i), #name, "the record");                                               \
            before = at;                                                                                              \
            check(!name##s_hold(&reader, &at, &number) && number == i - 1u && at == before, #name, "the same again"); \
            at = 0;                                                                                                   \
            check(name##s_hold_news(&reader, &at, &number) == NIDZARU_NO_NEWS && !at && number == i - 1u, #name, "no news"); \
            number = i - 2u;                                                                                          \
            check(!name##s_hold_news(&reader, &at, &number) && number == i - 1u && at == before, #name, "news");      \
        }                                                                                                             \
        check(name##s_hold(0, &at, &number) == NIDZARU_NULL && name##s_hold(&reader, 0, &number) == NIDZARU_NULL      \
            && name##s_hold(&reader, &at, 0) == NIDZARU_NULL, #name, "null");                                         \
        check(name##s_hold_news(0, &at, &number) == NIDZARU_NULL && name##s_hold_news(&reader, 0, &number) == NIDZARU_NULL \
            && name##s_hold_news(&reader, &at, 0) == NIDZARU_NULL, #name, "null of news");                            \
        {                                                                                                             \
            name##s_reader copy = reader;                                                                             \
            check(name##s_hold(&copy, &at, &number) == NIDZARU_COPIED, #name, "a copied handle");                     \
        }                                                                                                             \
        check(!name##s_end_writer(&writer), #name, "the writer's end");                                               \
        check(!name##s_hold(&reader, &at, &number) && number == 98 && is_filled(at, sizeof given, 99), #name, "after its end"); \
        check(!name##s_end_reader(&reader), #name, "the reader's end");                                               \
        check(name##s_hold(&reader, &at, &number) == NIDZARU_ENDED && number == 98, #name, "after both");             \
        check(name##s_hold_news(&reader, &at, &number) == NIDZARU_ENDED && number == 98, #name, "no news after both"); \
    }

EACH_SIZE(TEST)

static void test_four_slots(void) {
    four given = {{0}};
    const four *at = &given;
    uint64_t number = 9;
    fours_writer writer = NIDZARU_EMPTY;
    fours_reader reader = NIDZARU_EMPTY;
    check(!fours_make(&given, &writer, &reader), "four slots", "make");
    check(fours_hold(&reader, &at, &number) == NIDZARU_OTHER_SIDE && at == &given && number == 9, "four slots", "hold");
    check(!fours_end_writer(&writer) && !fours_end_reader(&reader), "four slots", "ends");
}

static void *write_pages(void *unused) {
    static struct page page;
    uint64_t n;
    int i;
    for (n = 1; n <= writes; n++) {
        for (i = 0; i < 512; i++) page.words[i] = n;
        if (pages_write(&page_writer, &page)) break;
        if (n == 1 || n == writes / 2) wait_until_met(n == 1 ? 1 : 2);
    }
    return unused;
}

static void test_threads(void) {
    hold_pages(write_pages);
    check(met > 1, "threads", "no two records were met");
}

MAIN
