/* What c/heap.c gives the library's code: blocks of their own, of at least one byte, that keep what they have when they grow or shrink, and
 * whose lines of the cache have nothing else. */
#include <stdio.h>
#include <stdlib.h>
#include <string.h>

struct tried { size_t ok; void *at; };
struct tried rattle_alloc(size_t bytes, size_t alignment);
struct tried rattle_realloc(void *block, size_t kept, size_t bytes, size_t alignment);
void rattle_dealloc(void *block);

enum { LINE = 64, MOST = 32 };

/* Blocks of the program's, each at another place of its line, with a line behind each that has to stay. */
static _Alignas(64) unsigned char memory[MOST * 1024];
static struct { unsigned char *at; size_t bytes; int live; } blocks[MOST];
static size_t taken, live;
static int refuses;

static void check(int holds, const char *what) {
    if (holds) return;
    fprintf(stderr, "heap: %s\n", what);
    exit(1);
}

void *nidzaru_allocate(size_t bytes) {
    if (refuses) return 0;
    check(taken < MOST && bytes + 2 * LINE <= 1024, "too many blocks, or a large one");
    unsigned char *const at = memory + 1024 * taken + 16 * (taken % 4);
    blocks[taken].at = at;
    blocks[taken].bytes = bytes;
    blocks[taken++].live = 1;
    live++;
    memset(at, 0xA5, bytes + LINE);
    return at;
}

void nidzaru_release(void *block) {
    for (size_t k = 0; k < taken; k++) {
        if (blocks[k].at != block || !blocks[k].live) continue;
        for (size_t i = 0; i < LINE; i++) check(blocks[k].at[blocks[k].bytes + i] == 0xA5, "something is written behind a block");
        blocks[k].live = 0;
        live--;
        return;
    }
    check(0, "a block is given back that isn't one");
}

/* Whether so many bytes lie in lines that are all in the block taken last, of which there is one line more. */
static int has_lines(const void *given, size_t bytes) {
    const unsigned char *const at = given, *const last = blocks[taken - 1].at;
    const size_t whole = (bytes + LINE - 1) / LINE * LINE;
    return (size_t)at % LINE == 0 && at > last && at + whole <= last + blocks[taken - 1].bytes && blocks[taken - 1].bytes == whole + LINE;
}

int main(void) {
    struct tried none, some, more, less;
    none = rattle_alloc(0, 8);
    check(none.ok == 1 && has_lines(none.at, 8), "a block for no bytes");
    some = rattle_alloc(24, 8);
    check(some.ok == 1 && has_lines(some.at, 24) && some.at != none.at, "a block of 24 bytes");
    memset(some.at, 2, LINE);
    memset(some.at, 1, 24);
    refuses = 1;
    more = rattle_alloc(24, 8);
    check(more.ok == 0 && more.at, "a refused block leads somewhere");
    more = rattle_realloc(some.at, 24, 48, 8);
    check(more.ok == 0 && more.at && live == 2 && ((unsigned char *)some.at)[23] == 1, "a refused growth leaves the block");
    refuses = 0;
    more = rattle_realloc(some.at, 24, 48, 8);
    check(more.ok == 1 && has_lines(more.at, 48) && live == 2, "a grown block in the place of the first");
    for (size_t k = 0; k < 24; k++) check(((unsigned char *)more.at)[k] == 1, "a grown block keeps its bytes");
    for (size_t k = 24; k < 56; k++) check(((unsigned char *)more.at)[k] == 0xA5, "and nothing more is copied");
    less = rattle_realloc(more.at, 48, 16, 8);
    check(less.ok == 1 && has_lines(less.at, 16) && live == 2, "a smaller block");
    for (size_t k = 0; k < 16; k++) check(((unsigned char *)less.at)[k] == 1, "a smaller block keeps its first bytes");
    for (size_t k = 16; k < 24; k++) check(((unsigned char *)less.at)[k] == 0xA5, "and nothing is written behind it");
    less = rattle_realloc(less.at, 16, 0, 8);
    check(less.ok == 1 && has_lines(less.at, 8) && live == 2, "a block that is left without bytes");
    rattle_dealloc(less.at);
    rattle_dealloc(none.at);
    for (size_t bytes = 1; bytes <= 3 * LINE; bytes += LINE / 4 - 1) {
        some = rattle_alloc(bytes, 8);
        check(some.ok == 1 && has_lines(some.at, bytes), "whole lines");
        memset(some.at, 1, bytes);
        rattle_dealloc(some.at);
    }
    check(live == 0, "each block is given back");
    puts("each block is one of its own");
    return 0;
}
