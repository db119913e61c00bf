/* Registers and boards between processes that may be killed at any instruction. They lie in a block of memory that the processes share, at
 * one address in all of them; a killed process is a thread that takes no further step, so the calls of the others go on as they did.
 *
 *   #define NIDZARU_SHARED_IMPLEMENTATION              in one file of the program: there stand the functions, and nidzaru_allocate
 *   #include <nidzaru_shared.h>
 *
 *   NIDZARU_REGISTER(limits, struct limits);           as in nidzaru.h
 *   NIDZARU_SHARED_REGISTER(limits);                   a register with the claims of its sides: limits_shared
 *   NIDZARU_BOARD(plans, struct plan);
 *   NIDZARU_SHARED_BOARD(plans, 3);                    a board of 3 places with their claims: plans_shared
 *   struct plant { limits_shared limits; plans_shared plans; };
 *   NIDZARU_SHARED_BLOCK(plant, struct plant);         a block that begins with such a struct, all zeros
 *
 *   nidzaru_shared block;
 *   plant_create(&block, "/plant", 1 << 20, &plant)    the maker: makes the block; without a name it is for children by fork alone
 *                                                      (plant_create_bytes() + limits_shared_make_bytes() + .. is how large it has to be)
 *   limits_shared_make(&block, &plant->limits, &first) makes the register in the block; so may any process later on
 *   nidzaru_shared_open(&block)                        the maker: from here on others can attach
 *   plant_attach(&block, "/plant", &plant)             another process
 *   limits_claim_writer(&block, &plant->limits, &writer)  this thread uses the writer's side from now on: limits_write(writer, &item)
 *   limits_yield_writer(&block, &plant->limits)        another one may claim it
 *   limits_recover_writer(&block, &plant->limits, &writer)  a claim that also takes over from an owner that died within a call
 *   nidzaru_shared_detach(&block), nidzaru_shared_unlink(&block, "/plant")
 *
 * Each call answers 0, a status of nidzaru.h, or one of those below, and with any but 0 it has changed nothing; but a make that finds too
 * little room in the block doesn't give back what it took of it. No call of a register or board touches a claim. If the owner of a claim
 * dies between two calls, others may claim its side, which is as it left it. If it dies within a call, a claim is refused with
 * NIDZARU_SHARED_OWNER_DEAD; the other sides go on. Over four slots a recovery takes the side over.
 *
 * If the maker dies before the block is open, an attach answers NIDZARU_SHARED_OWNER_DEAD. If it is killed within the create or the
 * opening, that may be NIDZARU_SHARED_NOT_READY, for ever. The name stays, and a create answers NIDZARU_SHARED_NAME_TAKEN: shm_unlink takes
 * it away.
 *
 * docs/C.md has the rest, "Between processes". */
#ifndef NIDZARU_SHARED_H
#define NIDZARU_SHARED_H

#include <nidzaru.h>
#include <pthread.h>
#include <sys/types.h>

#if NIDZARU_WATCHED
#error "nidzaru_shared.h: ThreadSanitizer knows a register by memory of one process"
#endif

enum nidzaru_shared_status {
    NIDZARU_SHARED_NAME_TAKEN = 32,    /* create: there is a block of this name */
    NIDZARU_SHARED_ADDRESS_TAKEN = 33, /* create, attach: this process has other memory where the block lies */
    NIDZARU_SHARED_NO_BLOCK = 34,      /* attach, unlink: there is no block of this name; unlink: or another one */
    NIDZARU_SHARED_NOT_READY = 35,     /* attach: the maker hasn't opened it; a claim: the register or board isn't made */
    NIDZARU_SHARED_OTHER_BUILD = 36,   /* attach: the block is of another library or header, or no block */
    NIDZARU_SHARED_OTHER_TYPE = 37,    /* attach, a claim: it was made for another type */
    NIDZARU_SHARED_OTHER_USER = 38,    /* attach: another user's block, or one that others may open */
    NIDZARU_SHARED_CLAIMED = 39,       /* a claim: a living thread has the side; detach: this process has claims */
    NIDZARU_SHARED_OWNER_DEAD = 40,    /* a claim: the owner died within a call; attach: the maker died before it opened the block */
    NIDZARU_SHARED_NOT_OWNER = 41,     /* a yield, open: the claim isn't this thread's */
    NIDZARU_SHARED_ELSEWHERE = 42,     /* the register or board doesn't lie in this block, or the handle has no block */
    NIDZARU_SHARED_SYSTEM = 43,        /* the system refused it, and errno says why */
    NIDZARU_SHARED_LOST = 44           /* a recovery: over a triple buffer what a side knew can't be told from what it shows */
};

/* The address at which a named block lies in each process, a multiple of 4096. A program that makes two blocks defines another one. */
#ifndef NIDZARU_SHARED_AT
#define NIDZARU_SHARED_AT 0x200000000000
#endif

/* A side's claim: a mutex that the system takes from a thread that dies, and the process of its owner. */
typedef struct {
    pthread_mutex_t mutex;
    pid_t process;
} nidzaru_claim;

/* What stands before a register or board in a block: whether it is made, the numbers of a register's sides, and of which type it is. */
typedef struct {
    uint32_t state;
    uint16_t writer, reader;
    uint64_t type;
} nidzaru_item;

/* A block as a process has it. */
typedef struct {
    struct nidzaru_shared_head *head;
    void *root;
    uint64_t device, file;
    pid_t process;
    unsigned held;
} nidzaru_shared;

#ifdef __cplusplus
extern "C" {
#endif

/* The functions below are those of all types; the typed ones call them. */
int nidzaru_shared_create(nidzaru_shared *block, const char *name, uint64_t at, size_t bytes, size_t root_bytes, uint64_t type);
int nidzaru_shared_attach(nidzaru_shared *block, const char *name, size_t root_bytes, uint64_t type);
int nidzaru_item_begin(nidzaru_shared *block, nidzaru_item *item, nidzaru_claim *claims, size_t count, uint64_t type);
int nidzaru_item_end(nidzaru_item *item, int status);
int nidzaru_item_claim(nidzaru_shared *block, nidzaru_item *item, nidzaru_claim *claim, const nidzaru_handle *handle, uint64_t type);
int nidzaru_item_recover(nidzaru_shared *block, nidzaru_item *item, nidzaru_claim *claim, nidzaru_handle *handle, uint64_t type, size_t size,
                         int is_writer);
int nidzaru_item_yield(nidzaru_shared *block, nidzaru_claim *claim);

/* Lets others attach. The maker's thread that made the block opens it. */
int nidzaru_shared_open(nidzaru_shared *block);

/* Takes the block out of this process, which has no claims any more. The block stays while it has a name or a process has it. */
int nidzaru_shared_detach(nidzaru_shared *block);

/* Takes away the name if it still is this block's. Those that have the block keep it. */
int nidzaru_shared_unlink(const nidzaru_shared *block, const char *name);

/* How many bytes no make has taken yet. Nothing that a make took is given back before the block goes. */
size_t nidzaru_shared_left(const nidzaru_shared *block);

/* What a status means, also one of nidzaru.h. */
const char *nidzaru_shared_text(int status);

/* A number for a type: its name, size and alignment. */
NIDZARU_INLINE uint64_t nidzaru_shared_type(const char *name, size_t size, size_t alignment) {
    uint64_t sum = 14695981039346656037u;
    for (; *name; name++) sum = (sum ^ NIDZARU_TO(unsigned char, *name)) * 1099511628211u;
    return ((sum ^ size) * 1099511628211u ^ alignment) * 1099511628211u;
}

/* The bytes that a block has before its first object, and before each part of it that a make takes. */
enum { NIDZARU_SHARED_HEAD = 4096, NIDZARU_SHARED_PART = 16 };

/* The functions NAME_create, NAME_create_bytes and NAME_attach of a block whose first object is a `type`. */
#define NIDZARU_SHARED_BLOCK(name, type)                                                                               \
    NIDZARU_ASSERT(NIDZARU_COPIES(type), "what a block begins with is trivially copyable");                            \
    NIDZARU_ASSERT(NIDZARU_ALIGNMENT(type) <= 4096, "what a block begins with is aligned to at most 4096");            \
    typedef type name##_root;                                                                                          \
    /* Makes a block of so many bytes, with `*root` as its first object. */                                            \
    NIDZARU_CHECKED int name##_create(nidzaru_shared *block, const char *path, size_t bytes, name##_root **root) {     \
        int status;                                                                                                    \
        if (!block || !root) return NIDZARU_NULL;                                                                      \
        status = nidzaru_shared_create(block, path, NIDZARU_SHARED_AT, bytes, sizeof(name##_root),                     \
                                       nidzaru_shared_type(#type, sizeof(name##_root), NIDZARU_ALIGNMENT(name##_root))); \
        if (!status) *root = NIDZARU_TO(name##_root *, block->root);                                                   \
        return status;                                                                                                 \
    }                                                                                                                  \
    /* How many bytes a block takes where nothing is made in it: those of all makes are to be added. */                \
    NIDZARU_INLINE size_t name##_create_bytes(void) { return NIDZARU_SHARED_HEAD + (sizeof(name##_root) + 63) / 64 * 64; } \
    /* Takes the block of this name into this process. */                                                              \
    NIDZARU_CHECKED int name##_attach(nidzaru_shared *block, const char *path, name##_root **root) {                   \
        int status;                                                                                                    \
        if (!block || !path || !root) return NIDZARU_NULL;                                                             \
        status = nidzaru_shared_attach(block, path, sizeof(name##_root),                                               \
                                       nidzaru_shared_type(#type, sizeof(name##_root), NIDZARU_ALIGNMENT(name##_root))); \
        if (!status) *root = NIDZARU_TO(name##_root *, block->root);                                                   \
        return status;                                                                                                 \
    }                                                                                                                  \
    NIDZARU_ASSERT(1, "takes a semicolon")

/* NAME_claim_SIDE, NAME_recover_SIDE and NAME_yield_SIDE of a register, whose claim of this side has this number. */
#define NIDZARU_SHARED_SIDE(name, side, number)                                                                        \
    /* Makes this thread the side's owner, and points `*side` to its handle. The thread lives as long as it is used. */ \
    NIDZARU_CHECKED int name##_claim_##side(nidzaru_shared *block, name##_shared *shared, name##_##side **side) {      \
        int status;                                                                                                    \
        if (!block || !shared || !side) return NIDZARU_NULL;                                                           \
        status = nidzaru_item_claim(block, &shared->item, &shared->claims[number], &shared->side.handle,               \
                                    name##_shared_type());                                                             \
        if (!status) *side = &shared->side;                                                                            \
        return status;                                                                                                 \
    }                                                                                                                  \
    /* The same, and takes over from an owner that died within a call. Over a triple buffer NIDZARU_SHARED_LOST there. */ \
    NIDZARU_CHECKED int name##_recover_##side(nidzaru_shared *block, name##_shared *shared, name##_##side **side) {    \
        int status;                                                                                                    \
        if (!block || !shared || !side) return NIDZARU_NULL;                                                           \
        status = nidzaru_item_recover(block, &shared->item, &shared->claims[number], &shared->side.handle,             \
                                      name##_shared_type(), name##_is_triple ? 0 : NIDZARU_SIZE(sizeof(name##_record)), (number) == 0); \
        if (!status) *side = &shared->side;                                                                            \
        return status;                                                                                                 \
    }                                                                                                                  \
    NIDZARU_CHECKED int name##_yield_##side(nidzaru_shared *block, name##_shared *shared) {                            \
        return block && shared ? nidzaru_item_yield(block, &shared->claims[number]) : NIDZARU_NULL;                    \
    }

/* Below NIDZARU_REGISTER(name, type) or NIDZARU_TRIPLE_REGISTER(name, type): the type NAME_shared and the functions NAME_shared_make,
 * NAME_shared_make_bytes, NAME_claim_writer, NAME_recover_writer, NAME_yield_writer, and the same three of the reader. */
#define NIDZARU_SHARED_REGISTER(name)                                                                                  \
    NIDZARU_ASSERT(!name##_is_fan, "a block has a register for each reader, or a board");                              \
    typedef struct {                                                                                                   \
        nidzaru_item item;                                                                                             \
        nidzaru_claim claims[2];                                                                                       \
        char apart[NIDZARU_APART];                                                                                     \
        name##_writer writer;                                                                                          \
        name##_reader reader;                                                                                          \
    } name##_shared;                                                                                                   \
    NIDZARU_INLINE uint64_t name##_shared_type(void) {                                                                 \
        return nidzaru_shared_type(name##_is_triple ? "triple register" : "register", sizeof(name##_record),           \
                                   NIDZARU_ALIGNMENT(name##_record));                                                  \
    }                                                                                                                  \
    /* Makes the register in the block. NIDZARU_IN_USE where it is made, or another thread makes it. */                \
    NIDZARU_CHECKED int name##_shared_make(nidzaru_shared *block, name##_shared *shared, const name##_record *first) { \
        int status;                                                                                                    \
        if (!block || !shared || !first) return NIDZARU_NULL;                                                          \
        status = nidzaru_item_begin(block, &shared->item, shared->claims, 2, name##_shared_type());                    \
        if (status) return status;                                                                                     \
        status = name##_make(first, &shared->writer, &shared->reader);                                                 \
        shared->item.writer = NIDZARU_TO(uint16_t, shared->writer.handle.side.live);                                   \
        shared->item.reader = NIDZARU_TO(uint16_t, shared->reader.handle.side.live);                                   \
        return nidzaru_item_end(&shared->item, status);                                                                \
    }                                                                                                                  \
    /* How many bytes of the block that takes, exactly. */                                                             \
    NIDZARU_INLINE size_t name##_shared_make_bytes(void) {                                                             \
        return NIDZARU_MAKE_BYTES(name) + NIDZARU_SHARED_PART * NIDZARU_MAKE_REQUESTS(name);                           \
    }                                                                                                                  \
    NIDZARU_SHARED_SIDE(name, writer, 0)                                                                               \
    NIDZARU_SHARED_SIDE(name, reader, 1)                                                                               \
    NIDZARU_ASSERT(1, "takes a semicolon")

/* Below NIDZARU_BOARD(name, type) or NIDZARU_TRIPLE_BOARD(name, type): the type NAME_shared of a board of `count` places and the functions
 * NAME_shared_make, NAME_shared_make_bytes, NAME_claim and NAME_yield. */
#define NIDZARU_SHARED_BOARD(name, count)                                                                              \
    NIDZARU_ASSERT((count) >= 2 && (count) <= 16, "a board has 2 to 16 places");                                       \
    typedef struct {                                                                                                   \
        nidzaru_item item;                                                                                             \
        nidzaru_claim claims[count];                                                                                   \
        char apart[NIDZARU_APART];                                                                                     \
        name##_place places[count];                                                                                    \
    } name##_shared;                                                                                                   \
    NIDZARU_INLINE uint64_t name##_shared_type(void) {                                                                 \
        return nidzaru_shared_type(name##_is_triple ? "triple board" : "board", sizeof(name##_record),                 \
                                   NIDZARU_ALIGNMENT(name##_record)) + (count);                                        \
    }                                                                                                                  \
    /* Makes the board in the block. NIDZARU_IN_USE where it is made, or another thread makes it. */                   \
    NIDZARU_CHECKED int name##_shared_make(nidzaru_shared *block, name##_shared *shared, const name##_record *first) { \
        int status;                                                                                                    \
        if (!block || !shared || !first) return NIDZARU_NULL;                                                          \
        status = nidzaru_item_begin(block, &shared->item, shared->claims, count, name##_shared_type());                \
        return status ? status : nidzaru_item_end(&shared->item, name##_make(first, shared->places, count));           \
    }                                                                                                                  \
    /* How many bytes of the block that takes, exactly. */                                                             \
    NIDZARU_INLINE size_t name##_shared_make_bytes(void) {                                                             \
        return NIDZARU_BOARD_MAKE_BYTES(name, count) + NIDZARU_SHARED_PART * NIDZARU_BOARD_MAKE_REQUESTS(name, count); \
    }                                                                                                                  \
    /* Makes this thread the owner of the place with this number, from 0, and points `*place` to its handle. */        \
    NIDZARU_CHECKED int name##_claim(nidzaru_shared *block, name##_shared *shared, size_t number, name##_place **place) { \
        int status;                                                                                                    \
        if (!block || !shared || !place) return NIDZARU_NULL;                                                          \
        if (number >= (count)) return NIDZARU_PROCESSES;                                                               \
        status = nidzaru_item_claim(block, &shared->item, &shared->claims[number], &shared->places[number].handle,     \
                                    name##_shared_type());                                                             \
        if (!status) *place = &shared->places[number];                                                                 \
        return status;                                                                                                 \
    }                                                                                                                  \
    NIDZARU_CHECKED int name##_yield(nidzaru_shared *block, name##_shared *shared, size_t number) {                    \
        if (!block || !shared) return NIDZARU_NULL;                                                                    \
        return number < (count) ? nidzaru_item_yield(block, &shared->claims[number]) : NIDZARU_PROCESSES;              \
    }                                                                                                                  \
    NIDZARU_ASSERT(1, "takes a semicolon")

#ifdef __cplusplus
}
#endif
#endif

#if defined NIDZARU_SHARED_IMPLEMENTATION && !defined NIDZARU_SHARED_IMPLEMENTED
#define NIDZARU_SHARED_IMPLEMENTED

#include <errno.h>
#include <fcntl.h>
#include <stdlib.h>
#include <sys/mman.h>
#include <sys/stat.h>
#include <unistd.h>

#ifndef MAP_POPULATE
#error "nidzaru_shared.h: with NIDZARU_SHARED_IMPLEMENTATION define _GNU_SOURCE before the first #include"
#endif
#ifndef MAP_FIXED_NOREPLACE
#define MAP_FIXED_NOREPLACE 0x100000
#endif

#ifdef __cplusplus
#define NIDZARU_AT(at) reinterpret_cast<void *>(at)
#define NIDZARU_ADDRESS(at) reinterpret_cast<uintptr_t>(at)
extern "C" {
#else
#define NIDZARU_AT(at) ((void *)(at))
#define NIDZARU_ADDRESS(at) ((uintptr_t)(at))
#endif

/* What a block begins with, before its first object. `mark` is stored last. */
typedef struct nidzaru_shared_head {
    uint64_t mark, build, at, bytes, type, root_bytes;
    uint64_t used; /* the bytes that are taken */
    uint32_t ready;
    nidzaru_claim maker;
} nidzaru_shared_head;

enum { NIDZARU_PAGE = 4096, NIDZARU_LINE = 64, NIDZARU_ITEM_EMPTY = 0, NIDZARU_ITEM_BEGUN = 1, NIDZARU_ITEM_MADE = 2 };
#define NIDZARU_SHARED_MARK 0x6465726168736e7au

/* What stands before each part that nidzaru_allocate gives: the block that it is from, if any. Parts stay aligned to 16. */
typedef struct {
    nidzaru_shared_head *from;
    uint64_t unused;
} nidzaru_part;
NIDZARU_ASSERT(sizeof(nidzaru_part) == NIDZARU_SHARED_PART, "a part has so many bytes before it");
NIDZARU_ASSERT(sizeof(nidzaru_shared_head) <= NIDZARU_SHARED_HEAD, "a block's head has so many bytes");

/* The block in which this thread makes a register or board. */
static __thread nidzaru_shared_head *nidzaru_making;

static uint64_t nidzaru_rounded(uint64_t bytes, uint64_t unit) { return (bytes + unit - 1) / unit * unit; }

/* A part of the block; null where so much isn't left. */
static void *nidzaru_take_part(nidzaru_shared_head *head, size_t bytes) {
    const uint64_t whole = nidzaru_rounded(bytes, 16) + sizeof(nidzaru_part);
    uint64_t used = __atomic_load_n(&head->used, __ATOMIC_RELAXED);
    do {
        if (bytes > head->bytes || whole > head->bytes - used) return NIDZARU_NOWHERE;
    } while (!__atomic_compare_exchange_n(&head->used, &used, used + whole, 0, __ATOMIC_RELAXED, __ATOMIC_RELAXED));
    return NIDZARU_TO(char *, NIDZARU_TO(void *, head)) + used;
}

/* The library's memory: from the block where this thread makes a register in one, else from malloc. */
void *nidzaru_allocate(size_t bytes) {
    nidzaru_part *part;
    if (nidzaru_making) part = NIDZARU_TO(nidzaru_part *, nidzaru_take_part(nidzaru_making, bytes));
    else part = bytes > SIZE_MAX - sizeof *part ? NIDZARU_NOWHERE : NIDZARU_TO(nidzaru_part *, malloc(sizeof *part + bytes));
    if (!part) return NIDZARU_NOWHERE;
    part->from = nidzaru_making;
    return part + 1;
}

void nidzaru_release(void *block) {
    nidzaru_part *part = NIDZARU_TO(nidzaru_part *, block) - 1;
    if (!part->from) free(part);
}

/* What all programs must have alike: the build of the library, the version of the header or crate, and the sizes of what lies in a block. */
static uint64_t nidzaru_build(void) {
    const uint64_t parts[] = {nidzaru_fingerprint, sizeof(nidzaru_handle), NIDZARU_APART, sizeof(nidzaru_item), sizeof(nidzaru_claim),
                              sizeof(nidzaru_shared_head)};
    uint64_t sum = NIDZARU_VERSION;
    size_t k;
    for (k = 0; k < sizeof parts / sizeof *parts; k++) sum = (sum ^ parts[k]) * 1099511628211u;
    return sum;
}

static int nidzaru_system(int why) {
    errno = why;
    if (why == ENOMEM || why == ENOSPC) return NIDZARU_NO_MEMORY;
    return NIDZARU_SHARED_SYSTEM;
}

static int nidzaru_begin_claim(nidzaru_claim *claim) {
    pthread_mutexattr_t kind;
    int why = pthread_mutexattr_init(&kind);
    if (!why) why = pthread_mutexattr_setpshared(&kind, PTHREAD_PROCESS_SHARED);
    if (!why) why = pthread_mutexattr_setrobust(&kind, PTHREAD_MUTEX_ROBUST);
    if (!why) why = pthread_mutex_init(&claim->mutex, &kind);
    return why;
}

/* Where the block's first object lies. */
static uint64_t nidzaru_root_at(void) { return nidzaru_rounded(sizeof(nidzaru_shared_head), NIDZARU_PAGE); }

/* Maps the file's bytes at this address, or shared memory of no file wherever there is room; null and errno where it can't be. */
static nidzaru_shared_head *nidzaru_map(int file, uint64_t at, size_t bytes) {
    const int how = MAP_SHARED | MAP_POPULATE | (file < 0 ? MAP_ANONYMOUS : MAP_FIXED_NOREPLACE);
    void *wanted = file < 0 ? NIDZARU_NOWHERE : NIDZARU_AT(at);
    void *mapped = mmap(wanted, bytes, PROT_READ | PROT_WRITE, how, file, 0);
    if (mapped == MAP_FAILED) return NIDZARU_NOWHERE;
    if (file >= 0 && mapped != wanted) { /* a kernel before 4.17 takes the address as a wish */
        munmap(mapped, bytes);
        errno = EEXIST;
        return NIDZARU_NOWHERE;
    }
    return NIDZARU_TO(nidzaru_shared_head *, mapped);
}

/* Takes away the name if it is this file's. (Between the look and the unlinking another one may take its place: of makers of one name only one
 * should run at a time.) */
static int nidzaru_unlink_own(const char *name, uint64_t device, uint64_t number) {
    struct stat seen;
    int file = shm_open(name, O_RDONLY | O_CLOEXEC, 0), is_own;
    if (file < 0) return errno == ENOENT ? NIDZARU_SHARED_NO_BLOCK : nidzaru_system(errno);
    is_own = !fstat(file, &seen) && seen.st_dev == device && seen.st_ino == number;
    close(file);
    if (!is_own) return NIDZARU_SHARED_NO_BLOCK;
    return shm_unlink(name) ? nidzaru_system(errno) : NIDZARU_DONE;
}

/* Fills a new block's head, and is its maker until nidzaru_shared_open. */
static int nidzaru_fill_head(nidzaru_shared_head *head, size_t bytes, size_t root_bytes, uint64_t type) {
    int why = nidzaru_begin_claim(&head->maker);
    if (!why) why = pthread_mutex_lock(&head->maker.mutex);
    if (why) return nidzaru_system(why);
    head->build = nidzaru_build();
    head->at = NIDZARU_ADDRESS(head);
    head->bytes = bytes;
    head->type = type;
    head->root_bytes = root_bytes;
    head->used = nidzaru_rounded(nidzaru_root_at() + root_bytes, NIDZARU_LINE);
    __atomic_store_n(&head->mark, NIDZARU_SHARED_MARK, __ATOMIC_RELEASE);
    return NIDZARU_DONE;
}

static void nidzaru_take_block(nidzaru_shared *block, nidzaru_shared_head *head, const struct stat *file, unsigned is_maker) {
    block->head = head;
    block->root = NIDZARU_TO(char *, NIDZARU_TO(void *, head)) + nidzaru_root_at();
    block->device = file->st_dev;
    block->file = file->st_ino;
    block->process = getpid();
    block->held = is_maker;
}

/* Gives the file its bytes, and maps it. */
static int nidzaru_map_new(int file, uint64_t at, size_t bytes, nidzaru_shared_head **head) {
    int why = file < 0 ? 0 : posix_fallocate(file, 0, NIDZARU_TO(off_t, bytes));
    if (why) return nidzaru_system(why);
    *head = nidzaru_map(file, at, bytes);
    if (*head) return NIDZARU_DONE;
    return errno == EEXIST ? NIDZARU_SHARED_ADDRESS_TAKEN : nidzaru_system(errno);
}

int nidzaru_shared_create(nidzaru_shared *block, const char *name, uint64_t at, size_t bytes, size_t root_bytes, uint64_t type) {
    nidzaru_shared_head *head = NIDZARU_NOWHERE;
    struct stat seen;
    int file = -1, status = NIDZARU_DONE;
    memset(&seen, 0, sizeof seen);
    if (bytes > SIZE_MAX / 2 || root_bytes > bytes || bytes - root_bytes < nidzaru_root_at()) return NIDZARU_NO_MEMORY;
    bytes = nidzaru_rounded(bytes, NIDZARU_PAGE);
    if (name) {
        file = shm_open(name, O_RDWR | O_CREAT | O_EXCL | O_CLOEXEC, 0600);
        if (file < 0) return errno == EEXIST ? NIDZARU_SHARED_NAME_TAKEN : nidzaru_system(errno);
        if (fstat(file, &seen)) status = nidzaru_system(errno);
    }
    if (!status) status = nidzaru_map_new(file, at, bytes, &head);
    if (!status) status = nidzaru_fill_head(head, bytes, root_bytes, type);
    if (file >= 0) close(file);
    if (!status) nidzaru_take_block(block, head, &seen, 1);
    else if (head) munmap(head, bytes);
    if (status && name) nidzaru_unlink_own(name, seen.st_dev, seen.st_ino);
    return status;
}

int nidzaru_shared_open(nidzaru_shared *block) {
    if (!block) return NIDZARU_NULL;
    if (!block->head) return NIDZARU_SHARED_ELSEWHERE;
    if (pthread_mutex_unlock(&block->head->maker.mutex)) return NIDZARU_SHARED_NOT_OWNER;
    __atomic_fetch_sub(&block->held, 1, __ATOMIC_RELEASE);
    __atomic_store_n(&block->head->ready, 1, __ATOMIC_RELEASE);
    return NIDZARU_DONE;
}

/* Whether a file that was opened by its name may be attached, by what stands in its head. */
static int nidzaru_look_at(int file, size_t root_bytes, uint64_t type, struct stat *stat, nidzaru_shared_head *seen) {
    ssize_t got;
    if (fstat(file, stat)) return nidzaru_system(errno);
    if (stat->st_uid != geteuid() || (stat->st_mode & 077)) return NIDZARU_SHARED_OTHER_USER;
    got = pread(file, seen, sizeof *seen, 0);
    if (got < 0) return nidzaru_system(errno);
    if (got != NIDZARU_TO(ssize_t, sizeof *seen) || !seen->mark) return NIDZARU_SHARED_NOT_READY;
    if (seen->mark != NIDZARU_SHARED_MARK || seen->build != nidzaru_build() || stat->st_size != NIDZARU_TO(off_t, seen->bytes)) {
        return NIDZARU_SHARED_OTHER_BUILD;
    }
    if (seen->type != type || seen->root_bytes != root_bytes) return NIDZARU_SHARED_OTHER_TYPE;
    return NIDZARU_DONE;
}

/* Whether the block is open; if it isn't, whether its maker lives. */
static int nidzaru_is_open(nidzaru_shared_head *head) {
    int why;
    if (__atomic_load_n(&head->ready, __ATOMIC_ACQUIRE)) return NIDZARU_DONE;
    why = pthread_mutex_trylock(&head->maker.mutex);
    /* (an unlocking without pthread_mutex_consistent: all others are refused the mutex, and see by that that the maker is dead) */
    if (!why || why == EOWNERDEAD) pthread_mutex_unlock(&head->maker.mutex);
    if (__atomic_load_n(&head->ready, __ATOMIC_ACQUIRE)) return NIDZARU_DONE;
    return why == EOWNERDEAD || why == ENOTRECOVERABLE ? NIDZARU_SHARED_OWNER_DEAD : NIDZARU_SHARED_NOT_READY;
}

int nidzaru_shared_attach(nidzaru_shared *block, const char *name, size_t root_bytes, uint64_t type) {
    nidzaru_shared_head seen, *head = NIDZARU_NOWHERE;
    struct stat stat;
    int status, file = shm_open(name, O_RDWR | O_CLOEXEC, 0);
    if (file < 0) {
        return errno == ENOENT ? NIDZARU_SHARED_NO_BLOCK : errno == EACCES ? NIDZARU_SHARED_OTHER_USER : nidzaru_system(errno);
    }
    status = nidzaru_look_at(file, root_bytes, type, &stat, &seen);
    if (!status && !(head = nidzaru_map(file, seen.at, seen.bytes))) {
        status = errno == EEXIST ? NIDZARU_SHARED_ADDRESS_TAKEN : nidzaru_system(errno);
    }
    close(file);
    if (!status) status = nidzaru_is_open(head);
    if (!status) nidzaru_take_block(block, head, &stat, 0);
    else if (head) munmap(head, seen.bytes);
    return status;
}

/* Sees that what the block's handle knows of claims is this process's: a forked child has none of its parent's. */
static void nidzaru_count_own(nidzaru_shared *block) {
    if (block->process == getpid()) return;
    block->process = getpid();
    block->held = 0;
}

int nidzaru_shared_detach(nidzaru_shared *block) {
    unsigned held;
    if (!block) return NIDZARU_NULL;
    if (!block->head) return NIDZARU_SHARED_ELSEWHERE;
    nidzaru_count_own(block);
    held = __atomic_load_n(&block->held, __ATOMIC_ACQUIRE);
    /* (no list of the system's may lead into memory that is gone, so a maker that never opened the block gives up that claim) */
    if (held == 1 && !pthread_mutex_unlock(&block->head->maker.mutex)) held = 0;
    if (held) return NIDZARU_SHARED_CLAIMED;
    munmap(block->head, block->head->bytes);
    memset(block, 0, sizeof *block);
    return NIDZARU_DONE;
}

int nidzaru_shared_unlink(const nidzaru_shared *block, const char *name) {
    if (!block || !name) return NIDZARU_NULL;
    return block->head ? nidzaru_unlink_own(name, block->device, block->file) : NIDZARU_SHARED_ELSEWHERE;
}

size_t nidzaru_shared_left(const nidzaru_shared *block) {
    return block && block->head ? block->head->bytes - __atomic_load_n(&block->head->used, __ATOMIC_RELAXED) : 0;
}

static int nidzaru_lies_in(const nidzaru_shared *block, const void *at) {
    const uint64_t from = NIDZARU_ADDRESS(block->head), to = NIDZARU_ADDRESS(at);
    return block->head && to >= from && to - from < block->head->bytes;
}

/* Begins to make a register or board in the block, of which this thread is the only maker. What it takes is from the block until the end. */
int nidzaru_item_begin(nidzaru_shared *block, nidzaru_item *item, nidzaru_claim *claims, size_t count, uint64_t type) {
    uint32_t state = NIDZARU_ITEM_EMPTY;
    size_t k;
    int why = 0;
    if (!nidzaru_lies_in(block, item)) return NIDZARU_SHARED_ELSEWHERE;
    if (!__atomic_compare_exchange_n(&item->state, &state, NIDZARU_ITEM_BEGUN, 0, __ATOMIC_ACQUIRE, __ATOMIC_RELAXED)) return NIDZARU_IN_USE;
    for (k = 0; k < count && !why; k++) why = nidzaru_begin_claim(&claims[k]);
    if (why) {
        __atomic_store_n(&item->state, NIDZARU_ITEM_EMPTY, __ATOMIC_RELEASE);
        return nidzaru_system(why);
    }
    item->type = type;
    nidzaru_making = block->head;
    return NIDZARU_DONE;
}

int nidzaru_item_end(nidzaru_item *item, int status) {
    nidzaru_making = NIDZARU_NOWHERE;
    __atomic_store_n(&item->state, status ? NIDZARU_ITEM_EMPTY : NIDZARU_ITEM_MADE, __ATOMIC_RELEASE);
    return status;
}

/* A call of the library marks the handle first, and takes the mark away last: one that is marked is of an owner that died within a call. */
static int nidzaru_look_at_handle(const nidzaru_handle *handle) {
    if (!handle->side.live) return NIDZARU_ENDED;
    if (handle->side.live == NIDZARU_BUSY) return NIDZARU_SHARED_OWNER_DEAD;
    return NIDZARU_DONE;
}

/* Takes a claim's mutex, also from an owner that is dead; then a thread of this process has one less. */
static int nidzaru_take_claim(nidzaru_shared *block, nidzaru_claim *claim) {
    int why = pthread_mutex_trylock(&claim->mutex);
    if (why == EOWNERDEAD) {
        if (claim->process == block->process) __atomic_fetch_sub(&block->held, 1, __ATOMIC_RELAXED);
        why = pthread_mutex_consistent(&claim->mutex);
    }
    if (why) return NIDZARU_SHARED_CLAIMED;
    __atomic_store_n(&claim->process, block->process, __ATOMIC_RELAXED);
    return NIDZARU_DONE;
}

int nidzaru_item_claim(nidzaru_shared *block, nidzaru_item *item, nidzaru_claim *claim, const nidzaru_handle *handle, uint64_t type) {
    int status;
    if (!nidzaru_lies_in(block, item)) return NIDZARU_SHARED_ELSEWHERE;
    if (__atomic_load_n(&item->state, __ATOMIC_ACQUIRE) != NIDZARU_ITEM_MADE) return NIDZARU_SHARED_NOT_READY;
    if (item->type != type) return NIDZARU_SHARED_OTHER_TYPE;
    nidzaru_count_own(block);
    status = nidzaru_take_claim(block, claim);
    if (status) return status;
    status = nidzaru_look_at_handle(handle);
    if (status) pthread_mutex_unlock(&claim->mutex);
    else __atomic_fetch_add(&block->held, 1, __ATOMIC_RELAXED);
    return status;
}

/* Where a register over four slots has what a side knows and what it shows, counted in words: no promise of the library. A side lies in a box,
 * with a pointer to the cell; that has one to its 32 words and one to its four slots, whose records begin with their number, and these counts. */
enum {
    NIDZARU_BOX_CELL = 0,
    NIDZARU_BOX_SAID = 1,   /* a reader: what it stored in `reading`, 2 at first */
    NIDZARU_BOX_BITS = 1,   /* a writer: the bits of the pairs that it stored, then the pair in `latest`, then the number of its last write */
    NIDZARU_BOX_LATEST = 3,
    NIDZARU_BOX_NUMBER = 4,
    NIDZARU_CELL_WORDS = 1,
    NIDZARU_CELL_SLOTS = 2,
    NIDZARU_CELL_COUNTS = 3,
    NIDZARU_WORD_LATEST = 8,
    NIDZARU_WORD_BITS = 10,
    NIDZARU_WORD_READING = 24
};

/* So many words of the block to which this one leads; null where they don't lie in it. */
static uint64_t *nidzaru_words(const nidzaru_shared *block, uint64_t at, size_t count) {
    const uint64_t from = NIDZARU_ADDRESS(block->head), bytes = block->head->bytes;
    if (at % 8 || at < from || at - from >= bytes || count * 8 > bytes - (at - from)) return NIDZARU_NOWHERE;
    return NIDZARU_TO(uint64_t *, NIDZARU_AT(at));
}

/* Makes the box of a side, whose owner died within a call, know what the cell shows. What a dead call did is a call that ended or none:
 *
 * - A read's loads leave nothing, and its store, R2, is that of a read that ended. What the reader remembers of `reading` may not be so: it
 *   forgets it, and its next read stores.
 * - A write shows nothing before W4 stores the pair's bit, and then its record is whole and W5 alone is missing, if at all. So the greater
 *   number of the two records that the bits show is that of the last write, and `latest` gets its pair. The writer remembers the bits.
 *
 * It may die itself: the handle has its mark until all is done, and the next recovery does it again. */
static int nidzaru_mend(const nidzaru_shared *block, uint64_t box_at, size_t size, int is_writer) {
    const size_t record = size / 8 + 1;
    uint64_t *const box = nidzaru_words(block, box_at, NIDZARU_BOX_NUMBER + 1), *cell, *words, *slots, bits[2], numbers[2], latest, newest;
    if (!box || !(cell = nidzaru_words(block, box[NIDZARU_BOX_CELL], NIDZARU_CELL_COUNTS + 2))) return 0;
    if (cell[NIDZARU_CELL_COUNTS] != 32 || cell[NIDZARU_CELL_COUNTS + 1] != 4) return 0;
    words = nidzaru_words(block, cell[NIDZARU_CELL_WORDS], 32);
    slots = nidzaru_words(block, cell[NIDZARU_CELL_SLOTS], 4 * record);
    if (!words || !slots) return 0;
    latest = __atomic_load_n(&words[NIDZARU_WORD_LATEST], __ATOMIC_SEQ_CST);
    bits[0] = __atomic_load_n(&words[NIDZARU_WORD_BITS], __ATOMIC_SEQ_CST);
    bits[1] = __atomic_load_n(&words[NIDZARU_WORD_BITS + 1], __ATOMIC_SEQ_CST);
    if (latest > 1 || bits[0] > 1 || bits[1] > 1 || __atomic_load_n(&words[NIDZARU_WORD_READING], __ATOMIC_SEQ_CST) > 1) return 0;
    if (!is_writer) {
        if (box[NIDZARU_BOX_SAID] > 2) return 0;
        box[NIDZARU_BOX_SAID] = 2;
        return 1;
    }
    numbers[0] = slots[bits[0] * record];
    numbers[1] = slots[(2 + bits[1]) * record];
    newest = numbers[0] > numbers[1] ? 0 : numbers[1] > numbers[0] ? 1 : latest;
    if (box[NIDZARU_BOX_BITS] > 1 || box[NIDZARU_BOX_BITS + 1] > 1 || box[NIDZARU_BOX_LATEST] > 1) return 0;
    if (latest != newest) __atomic_store_n(&words[NIDZARU_WORD_LATEST], newest, __ATOMIC_SEQ_CST);
    box[NIDZARU_BOX_BITS] = bits[0];
    box[NIDZARU_BOX_BITS + 1] = bits[1];
    box[NIDZARU_BOX_LATEST] = newest;
    box[NIDZARU_BOX_NUMBER] = numbers[newest];
    return 1;
}

/* A claim, also of a side whose owner died within a call: of a register over four slots with records of this size of the library's, 0 over a
 * triple buffer. There two slots may be the dead writer's: from the word alone nobody tells whether it had swapped. */
int nidzaru_item_recover(nidzaru_shared *block, nidzaru_item *item, nidzaru_claim *claim, nidzaru_handle *handle, uint64_t type, size_t size,
                         int is_writer) {
    int status = nidzaru_item_claim(block, item, claim, handle, type);
    if (status != NIDZARU_SHARED_OWNER_DEAD) return status;
    if (!size) return NIDZARU_SHARED_LOST;
    status = nidzaru_take_claim(block, claim);
    if (status) return status;
    status = nidzaru_look_at_handle(handle);
    if (status == NIDZARU_SHARED_OWNER_DEAD && nidzaru_mend(block, NIDZARU_ADDRESS(handle->side.at), size, is_writer)) {
        __atomic_store_n(&handle->side.live, is_writer ? item->writer : item->reader, __ATOMIC_RELEASE);
        status = NIDZARU_DONE;
    }
    if (status) pthread_mutex_unlock(&claim->mutex);
    else __atomic_fetch_add(&block->held, 1, __ATOMIC_RELAXED);
    return status;
}

int nidzaru_item_yield(nidzaru_shared *block, nidzaru_claim *claim) {
    if (!nidzaru_lies_in(block, claim)) return NIDZARU_SHARED_ELSEWHERE;
    nidzaru_count_own(block);
    /* (before the make the claim is all zeros: of no process, and with a mutex that the system would unlock for anybody) */
    if (__atomic_load_n(&claim->process, __ATOMIC_RELAXED) != block->process) return NIDZARU_SHARED_NOT_OWNER;
    if (pthread_mutex_unlock(&claim->mutex)) return NIDZARU_SHARED_NOT_OWNER;
    __atomic_fetch_sub(&block->held, 1, __ATOMIC_RELEASE);
    return NIDZARU_DONE;
}

const char *nidzaru_shared_text(int status) {
    switch (status) {
    case NIDZARU_SHARED_NAME_TAKEN: return "there is a block of this name";
    case NIDZARU_SHARED_ADDRESS_TAKEN: return "the process has other memory where the block lies";
    case NIDZARU_SHARED_NO_BLOCK: return "there is no such block of this name";
    case NIDZARU_SHARED_NOT_READY: return "it isn't made yet";
    case NIDZARU_SHARED_OTHER_BUILD: return "the block is of another library or header";
    case NIDZARU_SHARED_OTHER_TYPE: return "it was made for another type";
    case NIDZARU_SHARED_OTHER_USER: return "another user owns the block or may open it";
    case NIDZARU_SHARED_CLAIMED: return "it has an owner";
    case NIDZARU_SHARED_OWNER_DEAD: return "its owner died within a call";
    case NIDZARU_SHARED_NOT_OWNER: return "this thread isn't its owner";
    case NIDZARU_SHARED_ELSEWHERE: return "it doesn't lie in this block";
    case NIDZARU_SHARED_SYSTEM: return "the system refused it";
    case NIDZARU_SHARED_LOST: return "what its dead owner knew can't be told";
    default: return nidzaru_status_text(status);
    }
}

#ifdef __cplusplus
}
#endif
#undef NIDZARU_AT
#undef NIDZARU_ADDRESS
#endif
