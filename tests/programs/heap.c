// Tries web/heap.c by random calls over memory that may be grown so far: each block is aligned to 16, lies within the
// memory and keeps its bytes, two free blocks never touch, and when all is given back nothing is left in use. It
// prints how many calls it made, and how many found no memory.
//   heap SEED CALLS
#include <stdio.h>
#include <stdlib.h>
#include <string.h>

// the memory, which stands where the module's data ends
#define AREA 268435456
#define MOST_IN_ALL 67108864
__asm__(".comm __heap_base, 268435456, 65536");
static unsigned long grown, most_pages;

static unsigned long size_of_test(void);
static unsigned long grow_of_test(unsigned long pages);
#define __builtin_wasm_memory_size(memory) size_of_test()
#define __builtin_wasm_memory_grow(memory, pages) grow_of_test(pages)
#define export_name(name) used
#include "../../web/heap.c"

static unsigned long size_of_test(void) {
    return (unsigned long)&__heap_base / PAGE + grown;
}

static void need(int holds, const char *what) {
    if (!holds) {
        printf("%s\n", what);
        exit(1);
    }
}

static unsigned long grow_of_test(unsigned long pages) {
    if (pages > most_pages - grown) return -1ul;
    grown += pages;
    need(grown * PAGE <= MOST_IN_ALL, "the heap passed its bound");
    return size_of_test() - pages;
}

#define BLOCKS 400
static struct {
    unsigned char *at, mark;
    unsigned long size;
} held[BLOCKS];

static unsigned long state;
static unsigned long chance(unsigned long below) {
    state ^= state << 13;
    state ^= state >> 7;
    state ^= state << 17;
    return state % below;
}

// The blocks one behind the other, up to the top: how many bytes are in use.
static unsigned long walk(void) {
    unsigned long used = 0, free_before = 0;
    if (!end) return 0;
    for (struct block *it = (struct block *)(((u64)&__heap_base + 15) & ~15ul); (u64)it != top; it = behind(it)) {
        need((u64)it < top && size_of(it) >= LEAST && size_of(it) % 16 == 0, "a block has another size");
        need(!(it->size & FREE_BEFORE) == !free_before, "what a block says of the one in front is wrong");
        need(!free_before || it->before == free_before, "a free block in front has another size");
        need(!(free_before && it->size & FREE), "two free blocks touch");
        free_before = it->size & FREE ? size_of(it) : 0;
        used += it->size & FREE ? 0 : size_of(it);
    }
    need(!free_before, "a free block touches the top");
    return used;
}

static unsigned long some_size(void) {
    unsigned long most[] = {40, 200, 3000, 60000, 3000000};
    return chance(most[chance(5)]);
}

static void keep(int k, struct tried got, unsigned long size, unsigned long *refused) {
    if (!got.ok) {
        ++*refused;
        return;
    }
    held[k].at = got.at;
    held[k].size = size;
    held[k].mark = (unsigned char)chance(256);
    need((u64)got.at % 16 == 0, "a block isn't aligned");
    need((u64)got.at >= (u64)&__heap_base && (u64)got.at + size <= (u64)&__heap_base + grown * PAGE, "a block lies outside of the memory");
    memset(held[k].at, held[k].mark, size);
}

static void look(int k, unsigned long size) {
    for (unsigned long i = 0; i < size; i++) need(held[k].at[i] == held[k].mark, "a block lost its bytes");
}

int main(int count, char **words) {
    unsigned long refused = 0, calls = count > 2 ? strtoul(words[2], 0, 10) : 0;
    state = 88172645463325252ul + (count > 1 ? strtoul(words[1], 0, 10) : 0);
    most_pages = AREA / PAGE - 1;
    set_bound((unsigned long)&__heap_base + MOST_IN_ALL);
    for (unsigned long call = 0; call < calls; call++) {
        int k = (int)chance(BLOCKS);
        unsigned long size = some_size(), kept = held[k].size < size ? held[k].size : size;
        if (!held[k].at) {
            keep(k, rattle_alloc(size, 16), size, &refused);
        } else if (chance(2)) {
            look(k, held[k].size);
            rattle_dealloc(held[k].at);
            held[k].at = 0;
        } else {
            struct tried got = rattle_realloc(held[k].at, kept, size, 16);
            if (got.ok) held[k].at = got.at;
            look(k, got.ok ? kept : held[k].size);
            if (got.ok) keep(k, got, size, &refused);
            else refused++;
        }
        if (call % 64 == 0) walk();
    }
    for (int k = 0; k < BLOCKS; k++)
        if (held[k].at) look(k, held[k].size), rattle_dealloc(held[k].at);
    need(walk() == 0 && top == (((u64)&__heap_base + 15) & ~15ul), "something is left in use");
    for (int list = 0; list < LISTS; list++) need(!lists[list], "a list still has a block");
    need(!rattle_alloc(-1ul, 16).ok && !rattle_alloc(AREA, 16).ok, "more than there is was given");
    need(refused, "no call found no memory");
    printf("%lu calls, %lu of them refused\n", calls, refused);
    return 0;
}
