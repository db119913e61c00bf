// Refuses one request for memory of the program that it is loaded into by LD_PRELOAD: of all requests, counted from 1,
// the one whose number stands in REFUSE. When that request comes the file named by REFUSE_MARK is made. Where the program ends
// with blocks that it didn't give back the file named by REFUSE_LEFT is made.
#define _GNU_SOURCE
#include <dlfcn.h>
#include <errno.h>
#include <fcntl.h>
#include <stdatomic.h>
#include <stdlib.h>
#include <string.h>
#include <sys/syscall.h>
#include <unistd.h>

static void *(*next_malloc)(size_t);
static void *(*next_calloc)(size_t, size_t);
static void *(*next_realloc)(void *, size_t);
static atomic_long requests;
static atomic_long blocks;
static long refused = -1;

// What dlsym itself asks for while the functions above are looked up.
static _Alignas(16) char early[4096];
static size_t early_used;

static void *take_early(size_t size) {
    size_t start = (early_used + 15) / 16 * 16;
    if (start + size > sizeof early) return NULL;
    early_used = start + size;
    return early + start;
}

static int is_early(const void *place) {
    return (const char *)place >= early && (const char *)place < early + sizeof early;
}

static int is_ready(void) {
    static int asked;
    if (next_realloc) return 1;
    if (asked) return 0;
    asked = 1;
    const char *number = getenv("REFUSE");
    if (number) refused = atol(number);
    next_malloc = dlsym(RTLD_NEXT, "malloc");
    next_calloc = dlsym(RTLD_NEXT, "calloc");
    next_realloc = dlsym(RTLD_NEXT, "realloc");
    return 1;
}

static void make_file(const char *name) {
    int file = name ? open(name, O_CREAT | O_WRONLY, 0644) : -1;
    if (file >= 0) close(file);
}

static int is_refused(void) {
    if (atomic_fetch_add(&requests, 1) + 1 != refused) return 0;
    make_file(getenv("REFUSE_MARK"));
    errno = ENOMEM;
    return 1;
}

static void *counted(void *block) {
    if (block) atomic_fetch_add(&blocks, 1);
    return block;
}

// A program of the repository ends by this call.
void _exit(int status) {
    if (atomic_load(&blocks) > 0) make_file(getenv("REFUSE_LEFT"));
    syscall(SYS_exit_group, status);
    __builtin_unreachable();
}

void *malloc(size_t size) {
    if (!is_ready()) return take_early(size);
    return is_refused() ? NULL : counted(next_malloc(size));
}

void *calloc(size_t count, size_t size) {
    if (!is_ready()) return take_early(count * size);
    return is_refused() ? NULL : counted(next_calloc(count, size));
}

void *realloc(void *place, size_t size) {
    if (!is_ready()) return place ? NULL : take_early(size);
    if (is_refused()) return NULL;
    return place ? next_realloc(place, size) : counted(next_realloc(place, size));
}

void free(void *place) {
    static void (*next_free)(void *);
    if (!place || is_early(place)) return;
    if (!next_free) next_free = dlsym(RTLD_NEXT, "free");
    atomic_fetch_sub(&blocks, 1);
    next_free(place);
}
