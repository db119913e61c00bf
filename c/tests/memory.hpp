// What the tests of the classes share: checks that are told and counted, and memory that is refused and counted. A program that includes
// it is linked with --wrap=malloc,--wrap=realloc,--wrap=free.
#ifndef NIDZARU_TESTS_MEMORY_HPP
#define NIDZARU_TESTS_MEMORY_HPP
#include <atomic>
#include <cstddef>
#include <cstdio>

static std::atomic<int> failed{0};

static void check(bool holds, const char *what) {
    if (!holds) {
        failed++;
        std::printf("FAILED: %s\n", what);
    }
}

// Memory: the request whose number is `refuse` fails. Requests and blocks that live are counted.
extern "C" {
void *__real_malloc(std::size_t size);
void *__real_realloc(void *old, std::size_t size);
void __real_free(void *old);
static std::atomic<long> asked{0}, blocks{0};
static long refuse = -1;
void *__wrap_malloc(std::size_t size);
void *__wrap_realloc(void *old, std::size_t size);
void __wrap_free(void *old);

void *__wrap_malloc(std::size_t size) {
    if (++asked == refuse) return nullptr;
    void *made = __real_malloc(size);
    blocks += made != nullptr;
    return made;
}

void *__wrap_realloc(void *old, std::size_t size) {
    if (++asked == refuse) return nullptr;
    blocks += old == nullptr;
    return __real_realloc(old, size);
}

void __wrap_free(void *old) {
    blocks -= old != nullptr;
    __real_free(old);
}
}
#endif
