// The heap of the WebAssembly module: it stands for the C library's, over the memory that the module grows itself.
//
// Blocks lie side by side from the end of the module's data to `top`, each with a head of 16 bytes. No two free
// blocks touch, and none touches `top`: a block that is given back joins its neighbours, and one that is too large
// for what is asked is split. Free blocks stand in lists by their size: one for each multiple of 16 up to 1024, then
// four for each power of two.
typedef unsigned long u64;
typedef unsigned char u8;

// What the proved code asks for: whether there was memory, and where.
struct tried {
    u64 ok;
    void *at;
};

struct block {
    u64 before; // the size of the block in front, if that is free
    u64 size;   // of this one with its head, a multiple of 16, with the bits below
    struct block *next, *last; // in its list, if it is free
};

#define FREE 1ul        // this block is free
#define FREE_BEFORE 2ul // the block in front is free
#define BITS 3ul
#define HEAD 16ul
#define LEAST sizeof(struct block)
#define PAGE 65536ul
#define SMALL 1024ul
#define MOST (1ul << 44) // more is asked by mistake
#define LISTS 256

extern u8 __heap_base;
// Where the blocks end, where the memory that was taken for them ends, and where that has to end.
static u64 top, end, bound = ~0ul;
static u64 reached; // the highest that `top` was
static struct block *lists[LISTS];
static u64 filled[LISTS / 64]; // which lists have a block

#define EXPORT(name) __attribute__((export_name(#name)))

static u64 size_of(struct block *it) {
    return it->size & ~BITS;
}

static struct block *behind(struct block *it) {
    return (struct block *)((u64)it + size_of(it));
}

// The list in which a free block of this size stands: all of the list's blocks have at least the size of the list.
static u64 list_of(u64 size) {
    if (size < SMALL) return size / 16;
    u64 power = 63 - (u64)__builtin_clzl(size);
    return 64 + 4 * (power - 10) + ((size >> (power - 2)) & 3);
}

// The first list whose blocks are all large enough.
static u64 list_for(u64 size) {
    if (size < SMALL) return size / 16;
    u64 power = 63 - (u64)__builtin_clzl(size);
    return list_of(size + (1ul << (power - 2)) - 1);
}

static void put_in_list(struct block *it) {
    u64 list = list_of(size_of(it));
    it->last = 0;
    it->next = lists[list];
    if (it->next) it->next->last = it;
    lists[list] = it;
    filled[list / 64] |= 1ul << list % 64;
}

static void take_from_list(struct block *it) {
    u64 list = list_of(size_of(it));
    if (it->next) it->next->last = it->last;
    if (it->last) {
        it->last->next = it->next;
    } else {
        lists[list] = it->next;
        if (!it->next) filled[list / 64] &= ~(1ul << list % 64);
    }
}

// A free block of at least this size: of the lists whose blocks are all large enough, else of the first few in the
// list below.
static struct block *find(u64 size) {
    u64 list = list_for(size);
    u64 word = filled[list / 64] & ~0ul << list % 64;
    for (u64 at = list / 64;; word = filled[at]) {
        if (word) return lists[64 * at + (u64)__builtin_ctzl(word)];
        if (++at == LISTS / 64) break;
    }
    struct block *it = lists[list_of(size)];
    for (int tries = 8; it && tries; it = it->next, tries--)
        if (size_of(it) >= size) return it;
    return 0;
}

// (in a module that was lowered to a 32-bit memory the -1 of a refused growth is extended by zeros)
static _Bool is_refused(u64 old) {
    return old == ~0ul || old == 0xfffffffful;
}

// Takes so many pages more behind `end`, unless they pass the bound. Nobody else grows the memory.
static _Bool grow(u64 pages) {
    if (pages > (MOST - end) / PAGE || end + pages * PAGE > bound) return 0;
    if (is_refused(__builtin_wasm_memory_grow(0, pages))) return 0;
    end += pages * PAGE;
    return 1;
}

// Whether there is room for so many bytes behind `top`, with the memory grown where it has to be: by an eighth, or by
// what is needed.
static _Bool reserve(u64 size) {
    if (!end) {
        top = ((u64)&__heap_base + 15) & ~15ul;
        end = __builtin_wasm_memory_size(0) * PAGE;
    }
    if (size > MOST) return 0;
    if (size <= end - top) return 1;
    u64 pages = (size - (end - top) + PAGE - 1) / PAGE, eighth = end / PAGE / 8;
    return (pages < eighth && grow(eighth)) || grow(pages);
}

static void raise_top(u64 to) {
    top = to;
    if (reached < top) reached = top;
}

// Notes in the block behind this one whether this one is free.
static void tell_behind(struct block *it) {
    struct block *next = behind(it);
    if ((u64)next == top) return;
    if (it->size & FREE) {
        next->before = size_of(it);
        next->size |= FREE_BEFORE;
    } else {
        next->size &= ~FREE_BEFORE;
    }
}

static void release(struct block *it) {
    if (it->size & FREE_BEFORE) {
        struct block *front = (struct block *)((u64)it - it->before);
        take_from_list(front);
        front->size += size_of(it);
        it = front;
    }
    struct block *next = behind(it);
    if ((u64)next != top && next->size & FREE) {
        take_from_list(next);
        it->size += size_of(next);
    }
    if ((u64)behind(it) == top) {
        top = (u64)it;
        return;
    }
    it->size |= FREE;
    put_in_list(it);
    tell_behind(it);
}

// Cuts a used block to a size, and gives back what is left.
static void cut(struct block *it, u64 size) {
    u64 rest = size_of(it) - size;
    if (rest < LEAST) return;
    it->size -= rest;
    struct block *left = behind(it);
    left->size = rest;
    release(left);
}

static u64 block_size(u64 bytes) {
    u64 size = (bytes + HEAD + 15) & ~15ul;
    return size < LEAST ? LEAST : size;
}

#ifdef REFUSES
// For tests: of the calls from now on the one with this number, counted from 0, finds no memory.
static u64 calls, refused_call = ~0ul;
EXPORT(refuse) void refuse(u64 number) {
    calls = 0;
    refused_call = number;
}
EXPORT(calls_made) u64 calls_made(void) {
    return calls;
}
#define REFUSED() (calls++ == refused_call)
#else
#define REFUSED() 0
#endif

static void *take(u64 bytes) {
    if (bytes > MOST) return 0;
    u64 size = block_size(bytes);
    struct block *it = find(size);
    if (it) {
        take_from_list(it);
        it->size &= ~FREE;
        tell_behind(it);
        cut(it, size);
    } else {
        if (!reserve(size)) return 0;
        it = (struct block *)top;
        it->size = size;
        raise_top(top + size);
    }
    return (u8 *)it + HEAD;
}

static void give(void *at) {
    release((struct block *)((u8 *)at - HEAD));
}

// Makes a block larger where it stands, if there is room behind it.
static _Bool extend(struct block *it, u64 size) {
    struct block *next = behind(it);
    if ((u64)next != top && next->size & FREE && size_of(it) + size_of(next) >= size) {
        take_from_list(next);
        it->size += size_of(next);
        tell_behind(it);
        cut(it, size);
        return 1;
    }
    if ((u64)next != top || !reserve(size - size_of(it))) return 0;
    raise_top((u64)it + size);
    it->size += size - size_of(it);
    return 1;
}

static struct tried tell(void *at) {
    return (struct tried){at != 0, at ? at : (void *)16};
}

struct tried rattle_alloc(u64 bytes, u64 align) {
    return tell(REFUSED() ? 0 : take(bytes));
}

struct tried rattle_realloc(u8 *at, u64 kept, u64 bytes, u64 align) {
    if (REFUSED() || bytes > MOST) return tell(0);
    struct block *it = (struct block *)(at - HEAD);
    u64 size = block_size(bytes);
    if (size <= size_of(it) || extend(it, size)) return tell(at);
    u8 *other = take(bytes);
    if (!other) return tell(0);
    __builtin_memcpy(other, at, kept);
    give(at);
    return tell(other);
}

void rattle_dealloc(void *at) {
    give(at);
}

// For the page: no memory is taken beyond so many bytes in all; room for bytes of its own, or 0; and how far the
// blocks have reached.
EXPORT(set_bound) void set_bound(u64 bytes) {
    bound = bytes;
}

EXPORT(room) u64 room(u64 bytes) {
    return (u64)take(bytes);
}

EXPORT(leave) void leave(u64 at) {
    give((void *)at);
}

EXPORT(reach) u64 reach(void) {
    return reached;
}
