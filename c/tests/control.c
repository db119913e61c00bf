/* The control: the library's names over one plain buffer for each register. The tests must find it wanting. */
#include <stdint.h>
#include <stdlib.h>

uint32_t nidzaru_version(void) { return 0; }
extern const char nidzaru_since_2_1[];
const char nidzaru_since_2_1[1] = {0};

typedef struct {
    uint64_t live;
    void *at;
} side;

enum { WRITES = 1, READS = 2 };

struct plain {
    int shared;
    size_t size;
    volatile uint64_t number, words[];
};

static uint32_t has(const side *s, uint64_t kind, size_t size) {
    if (!s->live) return 3;
    return s->live == kind && ((struct plain *)s->at)->size == size ? 0 : 5;
}

static uint32_t make(size_t size, const uint64_t *first, side *w, side *r) {
    struct plain *p;
    if (w->live || r->live) return 2;
    p = malloc(sizeof *p + size);
    if (!p) return 1;
    p->shared = 2;
    p->size = size;
    p->number = 0;
    for (size_t k = 0; k < size / 8; k++) p->words[k] = first[k];
    *w = (side){WRITES, p};
    *r = (side){READS, p};
    return 0;
}

static uint32_t put(size_t size, side *w, const uint64_t *item) {
    uint32_t status = has(w, WRITES, size);
    struct plain *p = w->at;
    if (status) return status;
    p->number++;
    for (size_t k = 0; k < size / 8; k++) p->words[k] = item[k];
    return 0;
}

static uint32_t get(size_t size, side *r, uint64_t *item, uint64_t *number) {
    uint32_t status = has(r, READS, size);
    struct plain *p = r->at;
    if (status) return status;
    *number = p->number;
    for (size_t k = 0; k < size / 8; k++) item[k] = p->words[k];
    return 0;
}

static uint32_t look(size_t size, side *r, uint64_t *number) {
    uint32_t status = has(r, READS, size);
    if (!status) *number = ((struct plain *)r->at)->number;
    return status;
}

static uint32_t end(size_t size, side *s, uint64_t kind) {
    uint32_t status = has(s, kind, size);
    struct plain *p = s->at;
    if (status) return status;
    *s = (side){0, 0};
    if (__atomic_sub_fetch(&p->shared, 1, __ATOMIC_SEQ_CST) == 0) free(p);
    return 0;
}

#define CELL(cell, size)                                                                                                    \
    uint32_t nidzaru_##cell##_make(const void *first, side *w, side *r) { return make(size, first, w, r); }                 \
    uint32_t nidzaru_##cell##_write(side *w, const void *item) { return put(size, w, item); }                               \
    uint32_t nidzaru_##cell##_read(side *r, void *item, uint64_t *number) { return get(size, r, item, number); }            \
    uint32_t nidzaru_##cell##_look(side *r, uint64_t *number) { return look(size, r, number); }                             \
    uint32_t nidzaru_##cell##_end_writer(side *w) { return end(size, w, WRITES); }                                          \
    uint32_t nidzaru_##cell##_end_reader(side *r) { return end(size, r, READS); }
CELL(8, 8)
CELL(24, 24)
CELL(64, 64)
CELL(128, 128)
CELL(256, 256)
CELL(1024, 1024)
CELL(4096, 4096)
CELL(65536, 65536)
CELL(1048576, 1048576)
CELL(triple_8, 8)
CELL(triple_24, 24)
CELL(triple_64, 64)
CELL(triple_128, 128)
CELL(triple_256, 256)
CELL(triple_1024, 1024)
CELL(triple_4096, 4096)
CELL(triple_65536, 65536)
CELL(triple_1048576, 1048576)
