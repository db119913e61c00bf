/* What the programs fsr and picture take of the system beside streams: memory, their words, and the number of the last fault. Memory is
 * the C library's own, as a program's many small values would each take whole lines of c/heap.c. */
typedef __SIZE_TYPE__ size;
typedef __PTRDIFF_TYPE__ length;

void *malloc(size bytes);
void *realloc(void *block, size bytes);
void free(void *block);
int *__errno_location(void);

/* As in c/heap.c. */
struct tried {
    size ok;
    void *at;
};

static char nowhere;

static struct tried tried(void *block) { return (struct tried){block != 0, block ? block : &nowhere}; }

struct tried rattle_alloc(size bytes, size alignment) { return tried(malloc(bytes ? bytes : alignment)); }

struct tried rattle_realloc(void *block, size kept, size bytes, size alignment) {
    (void)kept;
    return tried(realloc(block, bytes ? bytes : alignment));
}

void rattle_dealloc(void *block) { free(block); }

int rattle_errno(void) { return *__errno_location(); }

void rattle_set_errno(int number) { *__errno_location() = number; }

/* The words with which the program was started. glibc passes them to what it runs before `main`; other C libraries may not. */
static size count;
static char **words;

__attribute__((constructor)) static void keep(int given, char **at) {
    count = (size)given;
    words = at;
}

size rattle_arg_count(void) { return count; }

/* Puts a word, without its last 0, at the start of the room. Answers its length; -1 if there is no such word; -2 if it doesn't fit, and then
 * the room is full of its beginning. */
length rattle_arg(size which, unsigned char *to, size room) {
    if (which >= count || !words[which]) return -1;
    const char *const word = words[which];
    size at = 0;
    while (word[at] && at < room) {
        to[at] = (unsigned char)word[at];
        at++;
    }
    return word[at] ? -2 : (length)at;
}
