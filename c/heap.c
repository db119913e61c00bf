/* The memory of the library: what its proved code asks for by three functions, and the two functions that take it from the C library, or
 * from wherever a program's own ones do. Each size has room for a value of Rattle's, whose alignment divides 16. */
typedef __SIZE_TYPE__ size;

void *malloc(size bytes);
void free(void *block);
void *memcpy(void *to, const void *from, size bytes);

/* 1 if there is memory, and where; or 0, and a byte that nobody reads or writes, as Rattle's pointers lead somewhere. (For Rattle the first
 * is a bool, the low byte of this.) */
struct tried {
    size ok;
    void *at;
};

static char nowhere;

static struct tried tried(void *block) { return (struct tried){block != 0, block ? block : &nowhere}; }

/* A program that defines these gives the library its memory. */
__attribute__((weak)) void *nidzaru_allocate(size bytes) { return malloc(bytes); }

__attribute__((weak)) void nidzaru_release(void *block) { free(block); }

/* The library gets whole lines of the cache, so that no line has parts of two blocks: a thread's own lines then stay with its processor,
 * and words that change together lie in one. What a block is a part of, which is aligned to 16, stands right before it. */
enum { LINE = 64 };

static void *lines(size bytes) {
    char *const whole = nidzaru_allocate((bytes + LINE - 1) / LINE * LINE + LINE);
    if (!whole) return 0;
    char *const block = whole + LINE - (size)whole % LINE;
    ((void **)block)[-1] = whole;
    return block;
}

static void release(void *block) { nidzaru_release(((void **)block)[-1]); }

/* A value without bytes gets a block too, so that each has one of its own. */
struct tried rattle_alloc(size bytes, size alignment) {
    return tried(lines(bytes ? bytes : alignment));
}

/* Makes a block one of so many bytes, which may lie elsewhere, with its first `kept` bytes. If there is no memory it stays as it is. */
struct tried rattle_realloc(void *block, size kept, size bytes, size alignment) {
    void *more = lines(bytes ? bytes : alignment);
    if (more) {
        memcpy(more, block, kept < bytes ? kept : bytes);
        release(block);
    }
    return tried(more);
}

void rattle_dealloc(void *block) { release(block); }
