/* The library takes its memory from the program's two functions alone, in `make`, and gives each block back. Of a `make` whose blocks are
 * refused in turn the status says so, and all that it took is blocks_given back. Each byte of a block may be any at first. */
#include <nidzaru.h>
#include <stdio.h>
#include <stdlib.h>
#include <string.h>

enum { MOST = 256 };

static struct { void *at; size_t bytes; } blocks[MOST];
static size_t blocks_given, live, refused_from = SIZE_MAX, worst;

static void fails(const char *why) {
    fprintf(stderr, "memory: %s\n", why);
    exit(1);
}

void *nidzaru_allocate(size_t bytes) {
    if (blocks_given == refused_from) return 0;
    void *const at = aligned_alloc(16, (bytes + 31) / 16 * 16);
    if (!at || bytes == 0 || blocks_given == MOST) fails("a block of no bytes, or too many");
    memset(at, 0xA5, bytes);
    blocks[blocks_given].at = at;
    blocks[blocks_given].bytes = bytes;
    blocks_given++;
    live++;
    return at;
}

void nidzaru_release(void *block) {
    for (size_t k = blocks_given; k-- > 0;)
        if (blocks[k].at == block) {
            memset(block, 0x5A, blocks[k].bytes);
            free(block);
            blocks[k].at = 0;
            live--;
            return;
        }
    fails("a block was blocks_given back that isn't one");
}

struct sample { uint64_t low, reading, high; };
struct page { uint64_t words[512]; };
NIDZARU_REGISTER(samples, struct sample);
NIDZARU_TRIPLE_REGISTER(pages, struct page);
NIDZARU_BOARD(boards, struct sample);

/* Begins a use whose block `from` and all later ones are refused. */
static void begin(size_t from) {
    if (live) fails("a block wasn't blocks_given back");
    blocks_given = 0;
    refused_from = from;
}

/* Sees that calls take and give back nothing. */
static size_t taken;
static void made(void) { taken = blocks_given + live; }
static void stays(void) {
    if (blocks_given + live != taken) fails("a call took memory or gave some back");
}

#define USE(name, type, first)                                                                                        \
    static int use_##name(void) {                                                                                     \
        type item = first;                                                                                            \
        name##_writer writer = NIDZARU_EMPTY;                                                                         \
        name##_reader reader = NIDZARU_EMPTY;                                                                         \
        uint64_t number = 0;                                                                                          \
        const int status = name##_make(&item, &writer, &reader);                                                      \
        if (status) return status;                                                                                    \
        made();                                                                                                       \
        for (uint64_t n = 1; n <= 9; n++)                                                                             \
            if (name##_write(&writer, &item) || name##_read(&reader, &item, &number) || number != n) fails("a call"); \
        stays();                                                                                                      \
        if (name##_end_writer(&writer) || name##_end_reader(&reader)) fails("an end");                                \
        return 0;                                                                                                     \
    }

USE(samples, struct sample, ((struct sample){1, 2, 3}))
USE(pages, struct page, ((struct page){{7}}))

static int use_boards(void) {
    struct sample item = {1, 2, 3};
    boards_place places[3] = {NIDZARU_EMPTY, NIDZARU_EMPTY, NIDZARU_EMPTY};
    nidzaru_stamp stamp;
    const int status = boards_make(&item, places, 3);
    if (status) return status;
    made();
    if (boards_write(&places[0], &item, &stamp) || boards_read(&places[2], &item, &stamp) || stamp.tag != 1) fails("a call of a board");
    stays();
    for (size_t k = 0; k < 3; k++)
        if (boards_end(&places[k])) fails("an end of a board");
    return 0;
}

/* Runs a use with each of its blocks refused in turn, until none is. */
static void refuse_in_turn(const char *name, int (*use)(void)) {
    for (size_t from = 0;; from++) {
        begin(from);
        const int status = use();
        if (live) fails("a block wasn't blocks_given back at the end");
        if (!status) {
            if (from == 0 || from != blocks_given) fails("a make that took nothing, or went on without a block");
            printf("%s: %zu blocks\n", name, blocks_given);
            worst = blocks_given > worst ? blocks_given : worst;
            return;
        }
        if (status != NIDZARU_NO_MEMORY) fails("another status");
    }
}

int main(void) {
    refuse_in_turn("samples", use_samples);
    refuse_in_turn("pages", use_pages);
    refuse_in_turn("boards", use_boards);
    puts(worst < MOST ? "all memory was the program's" : "too many blocks");
    return 0;
}
