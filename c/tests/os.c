/* What c/os.c gives the programs: blocks that keep what they have, refusals that leave them, the number of a fault, and the words with which
 * the program was started, whole or up to where their room ends. It is started as `PROGRAM one "" three`. */
#include <errno.h>
#include <stddef.h>
#include <stdio.h>
#include <stdlib.h>
#include <string.h>

struct tried { size_t ok; void *at; };
struct tried rattle_alloc(size_t bytes, size_t alignment);
struct tried rattle_realloc(void *block, size_t kept, size_t bytes, size_t alignment);
void rattle_dealloc(void *block);
int rattle_errno(void);
void rattle_set_errno(int number);
size_t rattle_arg_count(void);
ptrdiff_t rattle_arg(size_t which, unsigned char *to, size_t room);

static int refuses;
static size_t asked;
void *__real_malloc(size_t bytes);
void *__real_realloc(void *block, size_t bytes);
void *__wrap_malloc(size_t bytes) { return asked = bytes, refuses ? 0 : __real_malloc(bytes); }
void *__wrap_realloc(void *block, size_t bytes) { return asked = bytes, refuses ? 0 : __real_realloc(block, bytes); }

static void check(int holds, const char *what) {
    if (holds) return;
    fprintf(stderr, "os: %s\n", what);
    exit(1);
}

static void try_memory(void) {
    struct tried some = rattle_alloc(24, 8), more, none = rattle_alloc(0, 16);
    check(some.ok == 1 && none.ok == 1 && asked == 16 && some.at != none.at, "blocks of their own");
    memset(some.at, 1, 24);
    more = rattle_realloc(some.at, 24, 4096, 8);
    check(more.ok == 1 && asked == 4096, "a grown block");
    for (size_t k = 0; k < 24; k++) check(((unsigned char *)more.at)[k] == 1, "a grown block keeps its bytes");
    refuses = 1;
    some = rattle_alloc(24, 8);
    check(some.ok == 0 && some.at, "a refused block leads somewhere");
    some = rattle_realloc(more.at, 24, 8192, 8);
    check(some.ok == 0 && some.at && some.at != more.at && ((unsigned char *)more.at)[23] == 1, "a refused growth leaves the block");
    refuses = 0;
    more = rattle_realloc(more.at, 24, 0, 8);
    check(more.ok == 1 && asked == 8, "a block that is left without bytes");
    rattle_dealloc(more.at);
    rattle_dealloc(none.at);
}

static void try_words(void) {
    unsigned char room[8];
    check(rattle_arg_count() == 4, "four words");
    memset(room, 'x', sizeof room);
    check(rattle_arg(1, room, 8) == 3 && !memcmp(room, "onexxxxx", 8), "a word");
    check(rattle_arg(2, room, 8) == 0 && rattle_arg(2, room, 0) == 0 && room[0] == 'o', "a word without letters");
    check(rattle_arg(3, room, 5) == 5 && !memcmp(room, "threexxx", 8), "a word that just fits");
    memset(room, 'x', sizeof room);
    check(rattle_arg(3, room, 4) == -2 && !memcmp(room, "threxxxx", 8), "a word that doesn't fit fills the room");
    check(rattle_arg(3, room, 0) == -2 && rattle_arg(4, room, 8) == -1 && rattle_arg(5, room, 8) == -1, "no such word");
    check(!memcmp(room, "threxxxx", 8), "and nothing is put");
}

int main(void) {
    try_memory();
    rattle_set_errno(ENOENT);
    check(errno == ENOENT, "the number is the C library's");
    errno = EAGAIN;
    check(rattle_errno() == EAGAIN, "and the other way round");
    try_words();
    puts("the system's part is right");
    return 0;
}
