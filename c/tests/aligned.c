/* Records that are aligned to 16, 32, 64 and more: each call gives the whole record back into memory that is aligned as its type says,
 * and touches nothing beside it, whether the record is passed where it lies or through a copy. */
#include "nidzaru.h"
#include <stdio.h>

static int failed;

static void check(int holds, const char *name, const char *what) {
    if (!holds) {
        failed++;
        printf("FAILED: %s: %s\n", name, what);
    }
}

static void fill(void *item, size_t size, unsigned char from) {
    size_t i;
    for (i = 0; i < size; i++) ((unsigned char *)item)[i] = (unsigned char)(from + i);
}

static int is_filled(const void *item, size_t size, unsigned char from) {
    size_t i;
    for (i = 0; i < size; i++)
        if (((const unsigned char *)item)[i] != (unsigned char)(from + i)) return 0;
    return 1;
}

/* The record that is read stands between two others, which no call may touch. */
#define REGISTER(name, kind, alignment, length)                                                                       \
    typedef struct { _Alignas(alignment) unsigned char bytes[length]; } name;                                         \
    kind(name##s, name);                                                                                              \
    static void test_##name(void) {                                                                                   \
        static name items[3], given;                                                                                  \
        static name##s_writer writer;                                                                                 \
        static name##s_reader reader;                                                                                 \
        uint64_t number = 9;                                                                                          \
        int i;                                                                                                        \
        check(sizeof(name) == length && (uintptr_t)&items[1] % alignment == 0, #name, "its type");                    \
        fill(&given, sizeof given, 1);                                                                                \
        check(!name##s_make(&given, &writer, &reader), #name, "make");                                                \
        check(!name##s_read(&reader, &items[1], &number) && number == 0, #name, "read of the opening");               \
        check(is_filled(&items[1], sizeof given, 1), #name, "the opening");                                           \
        for (i = 1; i < 10; i++) {                                                                                    \
            fill(&given, sizeof given, (unsigned char)(20 * i));                                                      \
            fill(&items[0], sizeof given, 3);                                                                         \
            fill(&items[2], sizeof given, 5);                                                                         \
            check(!name##s_write(&writer, &given), #name, "write");                                                   \
            check(!name##s_read(&reader, &items[1], &number) && number == (uint64_t)i, #name, "read");                \
            check(is_filled(&items[1], sizeof given, (unsigned char)(20 * i)), #name, "the record");                  \
            check(is_filled(&items[0], sizeof given, 3) && is_filled(&items[2], sizeof given, 5), #name, "beside");   \
        }                                                                                                             \
        check(!name##s_end_writer(&writer) && !name##s_end_reader(&reader), #name, "ends");                           \
    }

#define BOARD(name, kind, alignment, length)                                                                          \
    typedef struct { _Alignas(alignment) unsigned char bytes[length]; } name;                                         \
    kind(name##s, name);                                                                                              \
    static void test_##name(void) {                                                                                   \
        static name items[3], given;                                                                                  \
        static name##s_place places[2];                                                                               \
        nidzaru_stamp stamp = {0, 0}, seen = {0, 0};                                                                  \
        int i;                                                                                                        \
        fill(&given, sizeof given, 1);                                                                                \
        check(!name##s_make(&given, places, 2), #name, "make");                                                       \
        for (i = 1; i < 10; i++) {                                                                                    \
            fill(&given, sizeof given, (unsigned char)(20 * i));                                                      \
            fill(&items[0], sizeof given, 3);                                                                         \
            fill(&items[2], sizeof given, 5);                                                                         \
            check(!name##s_write(&places[0], &given, &stamp), #name, "write");                                        \
            check(!name##s_read(&places[1], &items[1], &seen) && seen.tag == stamp.tag, #name, "read");               \
            check(is_filled(&items[1], sizeof given, (unsigned char)(20 * i)), #name, "the record");                  \
            fill(&items[1], sizeof given, 7);                                                                         \
            check(!name##s_read_since(&places[1], stamp, &items[1], &seen), #name, "read_since");                     \
            check(is_filled(&items[1], sizeof given, (unsigned char)(20 * i)), #name, "the record since");            \
            check(is_filled(&items[0], sizeof given, 3) && is_filled(&items[2], sizeof given, 5), #name, "beside");   \
        }                                                                                                             \
        check(!name##s_end(&places[0]) && !name##s_end(&places[1]), #name, "ends");                                   \
    }

/* A size of the library's own is passed where it lies (64, 128, 256, 4,096 and 65,536 bytes), another goes through a copy. */
REGISTER(by16_of_16, NIDZARU_REGISTER, 16, 16)
REGISTER(by16_of_48, NIDZARU_TRIPLE_REGISTER, 16, 48)
REGISTER(by16_of_64, NIDZARU_REGISTER, 16, 64)
REGISTER(by32_of_32, NIDZARU_REGISTER, 32, 32)
REGISTER(by32_of_96, NIDZARU_TRIPLE_REGISTER, 32, 96)
REGISTER(by32_of_128, NIDZARU_TRIPLE_REGISTER, 32, 128)
REGISTER(by64_of_64, NIDZARU_TRIPLE_REGISTER, 64, 64)
REGISTER(by64_of_192, NIDZARU_REGISTER, 64, 192)
REGISTER(by64_of_256, NIDZARU_REGISTER, 64, 256)
REGISTER(by4096_of_4096, NIDZARU_TRIPLE_REGISTER, 4096, 4096)
REGISTER(by64_of_65536, NIDZARU_TRIPLE_REGISTER, 64, 65536)
REGISTER(by64_of_8192, NIDZARU_REGISTER, 64, 8192)
BOARD(by16_of_16_on_a_board, NIDZARU_BOARD, 16, 16)
BOARD(by32_of_256_on_a_board, NIDZARU_TRIPLE_BOARD, 32, 256)
BOARD(by64_of_64_on_a_board, NIDZARU_TRIPLE_BOARD, 64, 64)
BOARD(by64_of_4096_on_a_board, NIDZARU_BOARD, 64, 4096)

int main(void) {
    test_by16_of_16();
    test_by16_of_48();
    test_by16_of_64();
    test_by32_of_32();
    test_by32_of_96();
    test_by32_of_128();
    test_by64_of_64();
    test_by64_of_192();
    test_by64_of_256();
    test_by4096_of_4096();
    test_by64_of_65536();
    test_by64_of_8192();
    test_by16_of_16_on_a_board();
    test_by32_of_256_on_a_board();
    test_by64_of_64_on_a_board();
    test_by64_of_4096_on_a_board();
    puts(failed ? "failed" : "passed");
    return failed != 0;
}
