/* Writes in place over a triple buffer: what is filled in the lent slot is the next record once it is published, whole, and what isn't
 * filled is an older record's. usage: loaned [WRITES [threads]] */
#include "lent.h"

#define TEST(name)                                                                                                    \
    static void test_##name(void) {                                                                                   \
        static name given;                                                                                            \
        static name##s_writer writer;                                                                                 \
        static name##s_reader reader;                                                                                 \
        name *at = &given, *before;                                                                                   \
        const name *held = 0;                                                                                         \
        uint64_t number = 9;                                                                                          \
        unsigned char i;                                                                                              \
        check(name##s_loan(&writer, &at) == NIDZARU_ENDED && at == &given, #name, "no side");                         \
        check(name##s_publish(&writer) == NIDZARU_ENDED, #name, "no side to publish");                                \
        memset(&given, 1, sizeof given);                                                                              \
        check(!name##s_make(&given, &writer, &reader), #name, "make");                                                \
        for (i = 2; i < 100; i++) {                                                                                   \
            check(!name##s_loan(&writer, &at) && at != &given, #name, "loan");                                        \
            check(is_filled(at, sizeof given, i < 4 ? 1 : (unsigned char)(i - 3)), #name, "what lies there");         \
            before = at;                                                                                              \
            memset(at, i, sizeof given);                                                                              \
            check(!name##s_loan(&writer, &at) && at == before && is_filled(at, sizeof given, i), #name, "the same slot"); \
            check(!name##s_look(&reader, &number) && number == i - 2u, #name, "it isn't shown yet");                  \
            check(!name##s_publish(&writer), #name, "publish");                                                       \
            memset(&given, 0, sizeof given);                                                                          \
            check(!name##s_read(&reader, &given, &number) && number == i - 1u && is_filled(&given, sizeof given, i), #name, "read"); \
            check(!name##s_hold(&reader, &held, &number) && held == before && is_filled(held, sizeof given, i), #name, "hold"); \
        }                                                                                                             \
        /* The first byte is filled: the rest is an older record's. */                                                \
        check(!name##s_loan(&writer, &at), #name, "loan");                                                            \
        at->bytes[0] = 100;                                                                                           \
        check(!name##s_publish(&writer) && !name##s_read(&reader, &given, &number) && number == 99, #name, "a part"); \
        check(given.bytes[0] == 100 && is_filled(given.bytes + 1, sizeof given - 1, 97), #name, "what isn't filled"); \
        /* Another write fills the slot anew. */                                                                      \
        check(!name##s_loan(&writer, &at), #name, "loan");                                                            \
        memset(at, 101, sizeof given);                                                                                \
        memset(&given, 102, sizeof given);                                                                            \
        check(!name##s_write(&writer, &given) && !name##s_hold(&reader, &held, &number), #name, "a write");           \
        check(number == 100 && is_filled(held, sizeof given, 102), #name, "what is written after a loan");            \
        check(name##s_loan(0, &at) == NIDZARU_NULL && name##s_loan(&writer, 0) == NIDZARU_NULL                        \
            && name##s_publish(0) == NIDZARU_NULL, #name, "null");                                                    \
        {                                                                                                             \
            name##s_writer copy = writer;                                                                             \
            check(name##s_loan(&copy, &at) == NIDZARU_COPIED && name##s_publish(&copy) == NIDZARU_COPIED, #name, "a copied handle"); \
        }                                                                                                             \
        check(!name##s_end_reader(&reader), #name, "the reader's end");                                               \
        check(!name##s_loan(&writer, &at) && !name##s_publish(&writer), #name, "after its end");                      \
        check(!name##s_end_writer(&writer), #name, "the writer's end");                                               \
        at = &given;                                                                                                  \
        check(name##s_loan(&writer, &at) == NIDZARU_ENDED && at == &given, #name, "after both");                      \
        check(name##s_publish(&writer) == NIDZARU_ENDED, #name, "to publish after both");                             \
    }

EACH_SIZE(TEST)

static void test_four_slots(void) {
    four given = {{0}}, *at = &given;
    fours_writer writer = NIDZARU_EMPTY;
    fours_reader reader = NIDZARU_EMPTY;
    check(!fours_make(&given, &writer, &reader), "four slots", "make");
    check(fours_loan(&writer, &at) == NIDZARU_OTHER_SIDE && at == &given, "four slots", "loan");
    check(fours_publish(&writer) == NIDZARU_OTHER_SIDE, "four slots", "publish");
    check(!fours_end_writer(&writer) && !fours_end_reader(&reader), "four slots", "ends");
}

static void *fill_pages(void *unused) {
    struct page *at = 0;
    uint64_t n;
    int i;
    for (n = 1; n <= writes; n++) {
        if (pages_loan(&page_writer, &at)) break;
        for (i = 0; i < 512; i++) at->words[i] = n;
        if (pages_publish(&page_writer)) break;
        if (n % 64 == 0) wait_until_met((int)(n / 64));
    }
    return unused;
}

static void test_threads(void) { hold_pages(fill_pages); }

MAIN
