/* Registers that two threads share without waiting: one thread writes whole records, the other reads them. And boards, on which 2
 * to 16 threads each write and read: "Boards" below.
 *
 *   struct limits { double low, high; };
 *   NIDZARU_REGISTER(limits, struct limits);           typed functions for the program's own struct
 *
 *   limits_writer writer = NIDZARU_EMPTY;
 *   limits_reader reader = NIDZARU_EMPTY;
 *   limits_make(&opening, &writer, &reader)            a register that holds `opening`, as its two sides
 *   limits_write(&writer, &item)                       the writing thread: shows the record to the reader
 *   limits_read(&reader, &item, &number)               the reading thread: one whole record, and its number
 *   limits_latest(&reader, &item)                      the same without the number
 *   limits_look(&reader, &number)                      the reading thread: the number that a read would give, without the record
 *   limits_news(&reader, &item, &number)               the same as a read where there is a greater number than this one, else nothing
 *   limits_end_writer(&writer), limits_end_reader(&reader)   in any order, each from its own thread
 *
 * No write and no read waits, tries again or takes memory; but a triple buffer swaps a word, which on 64-bit ARM is a loop, so take
 * four slots there. The opening is number 0, and each write has the next number. A number never falls from one read to the next, and
 * one number is one record: a greater number than the last is news, and what lies between them was missed. NIDZARU_REGISTER takes the
 * four-slot cell, NIDZARU_TRIPLE_REGISTER the triple buffer.
 *
 * Each call on a register answers 0 where it did what it says. Where it answers another of the numbers below it has changed nothing.
 * `nidzaru_status_text` has a line for each.
 *
 * What the caller owes and nothing checks stands in docs/C.md, "What C owes". */
#ifndef NIDZARU_H
#define NIDZARU_H

#if defined(__cplusplus) ? __cplusplus < 201103L : !defined(__STDC_VERSION__) || __STDC_VERSION__ < 201112L
#error "nidzaru.h: compile this as C11, or as C++11 or later"
#else

#include <stddef.h>
#include <stdint.h>
#if __STDC_HOSTED__
#include <string.h>
#else
#ifdef __cplusplus
extern "C"
#endif
void *memcpy(void *to, const void *from, size_t size);
#ifdef __cplusplus
extern "C"
#endif
void *memset(void *to, int value, size_t size);
#endif

/* The packages for pkg-config and CMake tell which machine their library is for. */
#if defined(NIDZARU_FOR_X86_64) && !defined(__x86_64__)
#error "nidzaru: the library is for x86_64, and this program isn't"
#elif defined(NIDZARU_FOR_AARCH64) && !defined(__aarch64__)
#error "nidzaru: the library is for aarch64, and this program isn't"
#endif

/* This header's version. `nidzaru_version()` is the library's: the two are of one release where the numbers are the same. */
#define NIDZARU_VERSION_MAJOR 2
#define NIDZARU_VERSION_MINOR 1
#define NIDZARU_VERSION_PATCH 0
#define NIDZARU_VERSION (NIDZARU_VERSION_MAJOR * 10000 + NIDZARU_VERSION_MINOR * 100 + NIDZARU_VERSION_PATCH)

#define NIDZARU_INLINE __attribute__((unused)) static inline
/* The compiler warns where the status of such a call isn't looked at. */
#define NIDZARU_CHECKED __attribute__((warn_unused_result)) NIDZARU_INLINE

/* Whether the program is compiled for ThreadSanitizer or MemorySanitizer, which don't see inside the library. */
#ifdef __SANITIZE_THREAD__
#define NIDZARU_WATCHED 1
#elif defined(__has_feature)
#if __has_feature(thread_sanitizer)
#define NIDZARU_WATCHED 1
#endif
#if __has_feature(memory_sanitizer)
#define NIDZARU_FILLED(at, size) __msan_unpoison(at, size)
#define NIDZARU_FILLS 1
#endif
#endif
#ifndef NIDZARU_WATCHED
#define NIDZARU_WATCHED 0
#endif
#ifndef NIDZARU_FILLED
#define NIDZARU_FILLED(at, size) ((void)0)
#endif

/* The size of the library's records that a record of this size goes into. */
#define NIDZARU_SIZE(size)                                                                                            \
    ((size) <= 8 ? 8 : (size) <= 24 ? 24 : (size) <= 64 ? 64 : (size) <= 128 ? 128 : (size) <= 256 ? 256              \
     : (size) <= 1024 ? 1024 : (size) <= 4096 ? 4096 : (size) <= 65536 ? 65536 : 1048576)

/* Records that are as large as the library's and aligned to 8 or more are passed where they lie, others through a copy that the
 * compiler lays out with zeros behind it. ThreadSanitizer sees what a copy reads and writes, so there each record has one. */
#define NIDZARU_PASSES(size, alignment) (!NIDZARU_WATCHED && (size) == NIDZARU_SIZE(size) && (alignment) >= 8)

#if NIDZARU_WATCHED
/* ThreadSanitizer is told of each copy of a record: gcc makes those of small ones unseen. */
#ifdef __cplusplus
extern "C" {
#endif
void __tsan_read_range(void *at, unsigned long size);
void __tsan_write_range(void *at, unsigned long size);
#ifdef __cplusplus
}
#endif
NIDZARU_INLINE void nidzaru_copy(void *to, const void *from, size_t size) {
    void *at;
    memcpy(&at, &from, sizeof at);
    __tsan_read_range(at, size);
    __tsan_write_range(to, size);
    memcpy(to, from, size);
}
#else
#define nidzaru_copy(to, from, size) memcpy(to, from, size)
#endif

#ifdef __cplusplus
#define NIDZARU_TO(type, value) static_cast<type>(value)
#define NIDZARU_NOWHERE nullptr
#define NIDZARU_ASSERT(holds, text) static_assert(holds, text)
#define NIDZARU_ALIGNMENT(type) alignof(type)
#define NIDZARU_COPIES(type) __is_trivially_copyable(type)
#define NIDZARU_PLAIN(type) nidzaru::detail::plain<type>::value
#define NIDZARU_IN_PLACE(type) (NIDZARU_PASSES(sizeof(type), alignof(type)) && !nidzaru::detail::shares_tail<type>::value)
#define NIDZARU_GIVE(item, record) nidzaru::detail::give(item, record)

extern "C++" {
namespace nidzaru {
namespace detail {

/* Whether a `T` is neither const nor volatile. */
template <class T> struct plain {
    enum { value = true };
};
template <class T> struct plain<const T> {
    enum { value = false };
};
template <class T> struct plain<volatile T> {
    enum { value = false };
};
template <class T> struct plain<const volatile T> {
    enum { value = false };
};

/* Whether the last bytes of a `T` may belong to another object: to what derives from it, or to a neighbour that overlaps it. */
template <class T, bool derivable> struct probe {
    enum { shares = true };
};
template <class T> struct probe<T, true> {
    struct derived : T {
        char more;
    };
    enum { shares = sizeof(derived) == sizeof(T) };
};
template <class T> struct shares_tail {
    enum { value = (__is_class(T) || __is_union(T)) && probe<T, __is_class(T) && !__is_final(T)>::shares };
};

/* A place for a `T` that isn't made yet. */
template <class T> union unmade {
    char none;
    T value;
    unmade() : none() {}
    explicit unmade(const void *record) : none() { memcpy(static_cast<void *>(this), record, sizeof(T)); }
};

/* Gives the record, and leaves what lies in its tail. */
template <class T, bool whole> struct giving {
    static void give(T *item, const void *record) { *item = unmade<T>(record).value; }
};
template <class T> struct giving<T, true> {
    static void give(T *item, const void *record) { nidzaru_copy(static_cast<void *>(item), record, sizeof(T)); }
};
template <class T> void give(T *item, const void *record) { giving<T, !shares_tail<T>::value>::give(item, record); }

} // namespace detail
} // namespace nidzaru
}

extern "C" {
#else
#define NIDZARU_TO(type, value) ((type)(value))
#define NIDZARU_NOWHERE 0
#define NIDZARU_ASSERT(holds, text) _Static_assert(holds, text)
#define NIDZARU_ALIGNMENT(type) _Alignof(type)
#define NIDZARU_COPIES(type) 1
#define NIDZARU_PLAIN(type) (_Generic((type *)0, const type *: 0, default: 1) && _Generic((type *)0, volatile type *: 0, default: 1))
#define NIDZARU_IN_PLACE(type) NIDZARU_PASSES(sizeof(type), _Alignof(type))
#define NIDZARU_GIVE(item, record) nidzaru_copy(item, record, sizeof *(item))
#endif

enum nidzaru_status {
    NIDZARU_DONE = 0,
    NIDZARU_NO_MEMORY = 1,  /* make: memory was refused */
    NIDZARU_IN_USE = 2,     /* make, a move: a handle that is to get a side has one already, or is to get two */
    NIDZARU_ENDED = 3,      /* the handle has no side: it was ended, or never made */
    NIDZARU_REFUSED = 4,    /* write: the limit refuses it: the last number, 2^64 - 1, is used, or a board's tags have ended */
    NIDZARU_OTHER_SIDE = 5, /* the handle has another side, or a side of another cell or size */
    NIDZARU_NULL = 6,       /* a null pointer was passed */
    NIDZARU_COPIED = 7,     /* the handle isn't where its side was put: it was copied */
    NIDZARU_PROCESSES = 8,  /* make of a board: it has 2 to 16 places */
    NIDZARU_LIMIT = 9,      /* make of a board: a limit is at least 1 and below 2^64 - 1 */
    NIDZARU_OLDER = 10,     /* read_since: the answer, which is given, has a smaller stamp */
    NIDZARU_NO_NEWS = 11,   /* news: no record is newer than the caller's */
    NIDZARU_CUT_OFF = 12,   /* the last call with this handle was cut off, by a kill, a cancel or a jump: the side is lost */
    NIDZARU_WORN_OUT = NIDZARU_REFUSED /* its name before 2.1, until 3.0 */
};

/* What a status means, in a few words. */
NIDZARU_INLINE const char *nidzaru_status_text(int status) {
    switch (status) {
    case NIDZARU_DONE: return "done";
    case NIDZARU_NO_MEMORY: return "memory was refused";
    case NIDZARU_IN_USE: return "a handle that is to get a side has one already";
    case NIDZARU_ENDED: return "the handle has no side";
    case NIDZARU_REFUSED: return "the limit refuses the write";
    case NIDZARU_OTHER_SIDE: return "the handle has another side, or a side of another cell or size";
    case NIDZARU_NULL: return "a null pointer was passed";
    case NIDZARU_COPIED: return "the handle was copied";
    case NIDZARU_PROCESSES: return "a board has 2 to 16 places";
    case NIDZARU_LIMIT: return "a board's limit is at least 1 and below 2^64 - 1";
    case NIDZARU_OLDER: return "the record is older than the stamp";
    case NIDZARU_NO_NEWS: return "there is no news";
    case NIDZARU_CUT_OFF: return "the handle's last call was cut off";
    default: return "no status of this library";
    }
}

/* What the library has of a side. Nothing else reads or writes it. `live` is 0 where it has none, NIDZARU_BUSY while a call runs, and else
 * the number of the side's cell and size. */
typedef struct {
    uint64_t live;
    void *at;
} nidzaru_side;

#define NIDZARU_BUSY 255

/* A side with the place where it was put, so that a copy of the handle is refused, and with what ThreadSanitizer knows its
 * register by. */
typedef struct {
    nidzaru_side side;
    const void *home;
    void *order;
} nidzaru_handle;

/* So far the handles of two threads lie from one another: a call stores into its handle, and no other one's may lie in the same
 * line of the cache. */
#define NIDZARU_APART 64

/* What a handle begins as: zeros. */
#define NIDZARU_EMPTY {{{0, NIDZARU_NOWHERE}, NIDZARU_NOWHERE, NIDZARU_NOWHERE}, {0}}

NIDZARU_ASSERT(sizeof(void *) == 8, "the library is built for pointers of 8 bytes");

/* The library's version, as NIDZARU_VERSION is counted. */
uint32_t nidzaru_version(void);

/* A number for this very build of the library: two builds of one version have two. */
extern const uint64_t nidzaru_fingerprint;

/* Where the library's memory comes from. It has both, over `malloc` and `free`; a program may define its own two, and then the library asks
 * for no other memory. A block has at least so many bytes, is aligned to 16 and is no other live block; null says that there is no
 * memory. `make` takes blocks and the last end gives them back, each from its own thread; no other call asks. NAME_make_bytes says beforehand
 * how much a make takes. */
void *nidzaru_allocate(size_t bytes);
void nidzaru_release(void *block);

/* A library has such a name for each release from 2.1 on whose calls it has. What makes a register or a board asks for this header's,
 * so an older library doesn't link with it. */
#define NIDZARU_SINCE_(major, minor) nidzaru_since_##major##_##minor
#define NIDZARU_SINCE(major, minor) NIDZARU_SINCE_(major, minor)
extern const char NIDZARU_SINCE(NIDZARU_VERSION_MAJOR, NIDZARU_VERSION_MINOR)[];

NIDZARU_INLINE void nidzaru_ask_for_release(void) {
    __asm__ volatile("" : : "r"(NIDZARU_SINCE(NIDZARU_VERSION_MAJOR, NIDZARU_VERSION_MINOR)));
}

#ifdef NIDZARU_FILLS
/* MemorySanitizer is told that what the library gives is filled. */
void __msan_unpoison(const volatile void *at, size_t size);
#endif

/* The library's own calls: for each cell and size of record the same six. */
#define NIDZARU_DECLARE(cell)                                                                                         \
    uint32_t nidzaru_##cell##_make(const void *first, nidzaru_side *writer, nidzaru_side *reader);                    \
    uint32_t nidzaru_##cell##_write(nidzaru_side *writer, const void *item);                                          \
    uint32_t nidzaru_##cell##_read(nidzaru_side *reader, void *item, uint64_t *number);                               \
    uint32_t nidzaru_##cell##_look(nidzaru_side *reader, uint64_t *number);                                           \
    uint32_t nidzaru_##cell##_end_writer(nidzaru_side *writer);                                                       \
    uint32_t nidzaru_##cell##_end_reader(nidzaru_side *reader);
NIDZARU_DECLARE(8)
NIDZARU_DECLARE(24)
NIDZARU_DECLARE(64)
NIDZARU_DECLARE(128)
NIDZARU_DECLARE(256)
NIDZARU_DECLARE(1024)
NIDZARU_DECLARE(4096)
NIDZARU_DECLARE(65536)
NIDZARU_DECLARE(1048576)
NIDZARU_DECLARE(triple_8)
NIDZARU_DECLARE(triple_24)
NIDZARU_DECLARE(triple_64)
NIDZARU_DECLARE(triple_128)
NIDZARU_DECLARE(triple_256)
NIDZARU_DECLARE(triple_1024)
NIDZARU_DECLARE(triple_4096)
NIDZARU_DECLARE(triple_65536)
NIDZARU_DECLARE(triple_1048576)
#undef NIDZARU_DECLARE

/* The words of a record where they lie, and how many they are. */
typedef struct nidzaru_lent {
    uint64_t *at;
    size_t count;
} nidzaru_lent;

/* Of a triple buffer three more. The first two, which are passed no words, make `at` those of the record of the last read or look, which
 * nobody writes through it, and those of the record in the writer's slot. The third one shows that one to the reader, under the next
 * number. */
#define NIDZARU_DECLARE_HOLD(cell)                                                                                    \
    uint32_t nidzaru_##cell##_hold(nidzaru_side *reader, nidzaru_lent *at);                                           \
    uint32_t nidzaru_##cell##_loan(nidzaru_side *writer, nidzaru_lent *at);                                           \
    uint32_t nidzaru_##cell##_publish(nidzaru_side *writer);
NIDZARU_DECLARE_HOLD(triple_8)
NIDZARU_DECLARE_HOLD(triple_24)
NIDZARU_DECLARE_HOLD(triple_64)
NIDZARU_DECLARE_HOLD(triple_128)
NIDZARU_DECLARE_HOLD(triple_256)
NIDZARU_DECLARE_HOLD(triple_1024)
NIDZARU_DECLARE_HOLD(triple_4096)
NIDZARU_DECLARE_HOLD(triple_65536)
NIDZARU_DECLARE_HOLD(triple_1048576)
#undef NIDZARU_DECLARE_HOLD

#if NIDZARU_WATCHED
/* What ThreadSanitizer is told: it is to ignore what the library does, and what was done before a write comes before what is
 * done after a read of the same register. Each register is known by a byte of its own; from the 65,537th on some share one. */
void AnnotateIgnoreReadsBegin(const char *file, int line);
void AnnotateIgnoreReadsEnd(const char *file, int line);
void AnnotateIgnoreWritesBegin(const char *file, int line);
void AnnotateIgnoreWritesEnd(const char *file, int line);
void __tsan_acquire(void *at);
void __tsan_release(void *at);
__attribute__((weak)) char nidzaru_orders[1 << 16];
__attribute__((weak)) unsigned nidzaru_registers;
/* By each register's byte, where its reader holds a record. */
__attribute__((weak)) void *nidzaru_held[sizeof nidzaru_orders];

NIDZARU_INLINE void *nidzaru_new_order(void) {
    return &nidzaru_orders[__atomic_fetch_add(&nidzaru_registers, 1, __ATOMIC_RELAXED) % sizeof nidzaru_orders];
}

NIDZARU_INLINE void nidzaru_ignore(void) {
    AnnotateIgnoreReadsBegin(__FILE__, __LINE__);
    AnnotateIgnoreWritesBegin(__FILE__, __LINE__);
}

NIDZARU_INLINE void nidzaru_heed(void) {
    AnnotateIgnoreWritesEnd(__FILE__, __LINE__);
    AnnotateIgnoreReadsEnd(__FILE__, __LINE__);
}

/* A call with this handle begins. Two at once are a race, which the store shows. */
NIDZARU_INLINE void nidzaru_begin(nidzaru_handle *handle) {
    void *volatile *order = &handle->order;
    *order = handle->order;
    nidzaru_ignore();
}

NIDZARU_INLINE void nidzaru_show(nidzaru_handle *writer) {
    if (writer->order) __tsan_release(writer->order);
}

NIDZARU_INLINE void nidzaru_see(nidzaru_handle *reader) {
    if (reader->order) __tsan_acquire(reader->order);
}

/* What a reader did with the record that it held comes before what the writer does once that very slot is lent to it. */
NIDZARU_INLINE void **nidzaru_held_by(nidzaru_handle *reader) {
    return reader->order ? &nidzaru_held[NIDZARU_TO(char *, reader->order) - nidzaru_orders] : NIDZARU_NOWHERE;
}

NIDZARU_INLINE void nidzaru_keep(nidzaru_handle *reader, const void *at) {
    void **held = nidzaru_held_by(reader);
    if (held) memcpy(held, &at, sizeof at);
}

NIDZARU_INLINE void nidzaru_let_go(nidzaru_handle *reader) {
    void **held = nidzaru_held_by(reader);
    if (held && *held) __tsan_release(*held);
}

NIDZARU_INLINE void nidzaru_take(void *slot) { __tsan_acquire(slot); }
#else
#define nidzaru_new_order() NIDZARU_NOWHERE
#define nidzaru_ignore() ((void)0)
#define nidzaru_heed() ((void)0)
#define nidzaru_begin(handle) ((void)0)
#define nidzaru_show(writer) ((void)0)
#define nidzaru_see(reader) ((void)0)
#define nidzaru_keep(reader, at) ((void)0)
#define nidzaru_let_go(reader) ((void)0)
#define nidzaru_take(slot) ((void)0)
#endif

/* The calls with the cell and the size as arguments, which are constants wherever the functions below pass them. */
#define NIDZARU_PICK(triple, size, call, arguments)                                                                   \
    ((size) == 8       ? (triple) ? nidzaru_triple_8_##call arguments : nidzaru_8_##call arguments                    \
     : (size) == 24    ? (triple) ? nidzaru_triple_24_##call arguments : nidzaru_24_##call arguments                  \
     : (size) == 64    ? (triple) ? nidzaru_triple_64_##call arguments : nidzaru_64_##call arguments                  \
     : (size) == 128   ? (triple) ? nidzaru_triple_128_##call arguments : nidzaru_128_##call arguments                \
     : (size) == 256   ? (triple) ? nidzaru_triple_256_##call arguments : nidzaru_256_##call arguments                \
     : (size) == 1024  ? (triple) ? nidzaru_triple_1024_##call arguments : nidzaru_1024_##call arguments              \
     : (size) == 4096  ? (triple) ? nidzaru_triple_4096_##call arguments : nidzaru_4096_##call arguments              \
     : (size) == 65536 ? (triple) ? nidzaru_triple_65536_##call arguments : nidzaru_65536_##call arguments            \
     : (triple)        ? nidzaru_triple_1048576_##call arguments                                                      \
                       : nidzaru_1048576_##call arguments)

NIDZARU_CHECKED int nidzaru_sized_make(int triple, size_t size, const void *first, nidzaru_handle *w, nidzaru_handle *r) {
    uint32_t status;
    nidzaru_ask_for_release();
    if (w == r) return NIDZARU_IN_USE;
    nidzaru_ignore();
    status = NIDZARU_PICK(triple, size, make, (first, &w->side, &r->side));
    nidzaru_heed();
    NIDZARU_FILLED(&status, sizeof status);
    if (!status) {
        NIDZARU_FILLED(&w->side, sizeof w->side);
        NIDZARU_FILLED(&r->side, sizeof r->side);
        w->home = w;
        r->home = r;
        w->order = r->order = nidzaru_new_order();
    }
    return NIDZARU_TO(int, status);
}

NIDZARU_CHECKED int nidzaru_sized_write(int triple, size_t size, nidzaru_handle *w, const void *item) {
    uint32_t status;
    nidzaru_begin(w);
    nidzaru_show(w);
    status = NIDZARU_PICK(triple, size, write, (&w->side, item));
    nidzaru_heed();
    NIDZARU_FILLED(&status, sizeof status);
    return NIDZARU_TO(int, status);
}

/* (what the number is given to may lie in the record, so the call gets a local one) */
NIDZARU_CHECKED int nidzaru_sized_read(int triple, size_t size, nidzaru_handle *r, void *item, uint64_t *number) {
    uint64_t given;
    uint32_t status;
    nidzaru_begin(r);
    nidzaru_let_go(r);
    status = NIDZARU_PICK(triple, size, read, (&r->side, item, &given));
    nidzaru_see(r);
    nidzaru_heed();
    NIDZARU_FILLED(&status, sizeof status);
    if (!status) {
        NIDZARU_FILLED(item, size);
        NIDZARU_FILLED(&given, sizeof given);
        *number = given;
    }
    return NIDZARU_TO(int, status);
}

NIDZARU_CHECKED int nidzaru_sized_look(int triple, size_t size, nidzaru_handle *r, uint64_t *number) {
    uint32_t status;
    nidzaru_begin(r);
    nidzaru_let_go(r);
    status = NIDZARU_PICK(triple, size, look, (&r->side, number));
    nidzaru_see(r);
    nidzaru_heed();
    NIDZARU_FILLED(&status, sizeof status);
    if (!status) NIDZARU_FILLED(number, sizeof *number);
    return NIDZARU_TO(int, status);
}

/* The calls that only a triple buffer has, by the size. */
#define NIDZARU_PICK_TRIPLE(size, call, arguments)                                                                    \
    ((size) == 8       ? nidzaru_triple_8_##call arguments                                                            \
     : (size) == 24    ? nidzaru_triple_24_##call arguments                                                           \
     : (size) == 64    ? nidzaru_triple_64_##call arguments                                                           \
     : (size) == 128   ? nidzaru_triple_128_##call arguments                                                          \
     : (size) == 256   ? nidzaru_triple_256_##call arguments                                                          \
     : (size) == 1024  ? nidzaru_triple_1024_##call arguments                                                         \
     : (size) == 4096  ? nidzaru_triple_4096_##call arguments                                                         \
     : (size) == 65536 ? nidzaru_triple_65536_##call arguments                                                        \
                       : nidzaru_triple_1048576_##call arguments)

/* Makes *at lead to the record of the last read or look. */
NIDZARU_CHECKED int nidzaru_sized_hold(size_t size, nidzaru_handle *r, const void **at, uint64_t *number) {
    uint64_t given = 0, none = 0;
    nidzaru_lent held = {&none, 0};
    uint32_t status;
    nidzaru_begin(r);
    nidzaru_let_go(r);
    status = NIDZARU_PICK(1, size, look, (&r->side, &given));
    if (!status) status = NIDZARU_PICK_TRIPLE(size, hold, (&r->side, &held));
    nidzaru_see(r);
    if (!status) nidzaru_keep(r, held.at);
    nidzaru_heed();
    NIDZARU_FILLED(&status, sizeof status);
    if (!status) {
        NIDZARU_FILLED(&given, sizeof given);
        NIDZARU_FILLED(&held, sizeof held);
        NIDZARU_FILLED(held.at, size);
        *at = held.at;
        *number = given;
    }
    return NIDZARU_TO(int, status);
}

/* Makes *at lead to the writer's slot. */
NIDZARU_CHECKED int nidzaru_sized_loan(size_t size, nidzaru_handle *w, void **at) {
    uint64_t none = 0;
    nidzaru_lent lent = {&none, 0};
    uint32_t status;
    nidzaru_begin(w);
    status = NIDZARU_PICK_TRIPLE(size, loan, (&w->side, &lent));
    if (!status) nidzaru_take(lent.at);
    nidzaru_heed();
    NIDZARU_FILLED(&status, sizeof status);
    if (!status) {
        NIDZARU_FILLED(&lent, sizeof lent);
        NIDZARU_FILLED(lent.at, size);
        *at = lent.at;
    }
    return NIDZARU_TO(int, status);
}

NIDZARU_CHECKED int nidzaru_sized_publish(size_t size, nidzaru_handle *w) {
    uint32_t status;
    nidzaru_begin(w);
    nidzaru_show(w);
    status = NIDZARU_PICK_TRIPLE(size, publish, (&w->side));
    nidzaru_heed();
    NIDZARU_FILLED(&status, sizeof status);
    return NIDZARU_TO(int, status);
}
#undef NIDZARU_PICK_TRIPLE

NIDZARU_INLINE int nidzaru_sized_end_writer(int triple, size_t size, nidzaru_handle *w) {
    uint32_t status;
    nidzaru_begin(w);
    status = NIDZARU_PICK(triple, size, end_writer, (&w->side));
    nidzaru_heed();
    NIDZARU_FILLED(&status, sizeof status);
    return NIDZARU_TO(int, status);
}

NIDZARU_INLINE int nidzaru_sized_end_reader(int triple, size_t size, nidzaru_handle *r) {
    uint32_t status;
    nidzaru_begin(r);
    nidzaru_let_go(r);
    status = NIDZARU_PICK(triple, size, end_reader, (&r->side));
    nidzaru_heed();
    NIDZARU_FILLED(&status, sizeof status);
    return NIDZARU_TO(int, status);
}
#undef NIDZARU_PICK

NIDZARU_INLINE int nidzaru_is_copied(const nidzaru_handle *handle) {
    return handle->home != handle && handle->side.live;
}

/* Takes what one handle has to another one of its type, and leaves it empty. */
NIDZARU_CHECKED int nidzaru_move_handle(nidzaru_handle *to, nidzaru_handle *from) {
    if (to->side.live) return NIDZARU_IN_USE;
    if (nidzaru_is_copied(from)) return NIDZARU_COPIED;
    to->side = from->side;
    to->home = to;
    to->order = from->order;
    from->side.live = 0;
    from->side.at = NIDZARU_NOWHERE;
    return NIDZARU_DONE;
}

/* How many bytes the library asks nidzaru_allocate for if its code wants so many: whole lines of the cache, and one more (c/heap.c). */
#define NIDZARU_LINES(bytes) (((bytes) + 63) / 64 * 64 + 64)

/* What a make of a register asks for, by the size of the library's records. A slot is a record and its number. The slots are first put into a
 * list, which has room for four at once, or if they are large for one, two and four; then they lie beside the control words. Both sides share
 * a block of 72 bytes that leads there, and each has one of its own. */
#define NIDZARU_SLOTS_GROW(slot) ((slot) > 1024)
#define NIDZARU_LIST_BYTES(slot)                                                                                      \
    (NIDZARU_LINES(4 * (slot)) + (NIDZARU_SLOTS_GROW(slot) ? NIDZARU_LINES(slot) + NIDZARU_LINES(2 * (slot)) : 0))
#define NIDZARU_REGISTER_BYTES(triple, size)                                                                          \
    (NIDZARU_LIST_BYTES((size) + 8) + NIDZARU_LINES(((triple) ? 3 : 4) * ((size) + 8)) + NIDZARU_LINES((triple) ? 8 : 256) + \
     NIDZARU_LINES(72) + NIDZARU_LINES((triple) ? 24 : 40) + NIDZARU_LINES(16))
#define NIDZARU_REGISTER_REQUESTS(size) (NIDZARU_SLOTS_GROW((size) + 8) ? 8 : 6)

/* What a make asks nidzaru_allocate for, exactly, if the library is of this header's release: the bytes of all its requests, and how many they
 * are. Some of them it gives back before it ends. Each is a multiple of 64, so if a program gives them out one behind the other, a block of so
 * many bytes that is aligned to 16 has room for them. These are constant expressions:
 *
 *   NIDZARU_MAKE_BYTES(limits), NIDZARU_MAKE_REQUESTS(limits)                  of a register or fan of this name
 *   NIDZARU_BOARD_MAKE_BYTES(plans, 3), NIDZARU_BOARD_MAKE_REQUESTS(plans, 3)  of a board of this name with 3 places
 *
 * The functions limits_make_bytes(), limits_make_requests(), plans_make_bytes(3) and plans_make_requests(3) give the same. */
#define NIDZARU_MAKE_BYTES(name)                                                                                      \
    ((name##_is_fan ? NIDZARU_FAN_BYTES(name##_registers) : 0) +                                                      \
     name##_registers * NIDZARU_REGISTER_BYTES(name##_is_triple, NIDZARU_SIZE(sizeof(name##_record))))
#define NIDZARU_MAKE_REQUESTS(name)                                                                                   \
    (NIDZARU_TO(size_t, name##_is_fan) + name##_registers * NIDZARU_REGISTER_REQUESTS(NIDZARU_SIZE(sizeof(name##_record))))

/* What a register and a fan have alike: the types of their sides, what a reader does, and moves. */
#define NIDZARU_SIDES(name, type, triple, is_a_fan, registers)                                                         \
    NIDZARU_ASSERT(NIDZARU_PLAIN(type), "a record of a register is neither const nor volatile");                       \
    NIDZARU_ASSERT(NIDZARU_COPIES(type), "a record of a register is trivially copyable");                              \
    NIDZARU_ASSERT(sizeof(type) <= 1048576, "a record of a register has at most 1048576 bytes");                       \
    /* (below stands this name alone: a type may be called as an argument is) */                                       \
    typedef type name##_record;                                                                                        \
    enum { name##_is_triple = (triple), name##_is_fan = (is_a_fan), name##_registers = (registers) };                  \
    typedef struct {                                                                                                   \
        nidzaru_handle handle;                                                                                         \
        char apart[NIDZARU_APART];                                                                                     \
    } name##_writer;                                                                                                   \
    typedef struct {                                                                                                   \
        nidzaru_handle handle;                                                                                         \
        char apart[NIDZARU_APART];                                                                                     \
    } name##_reader;                                                                                                   \
    /* How many bytes a make asks nidzaru_allocate for in all, and how often. */                                       \
    NIDZARU_INLINE size_t name##_make_bytes(void) { return NIDZARU_MAKE_BYTES(name); }                                 \
    NIDZARU_INLINE size_t name##_make_requests(void) { return NIDZARU_MAKE_REQUESTS(name); }                           \
    /* Gives one whole record, and then its number, which is not below that of any read or look before. */             \
    NIDZARU_CHECKED int name##_read(name##_reader *reader, name##_record *item, uint64_t *number) {                    \
        if (!reader || !item || !number) return NIDZARU_NULL;                                                          \
        if (nidzaru_is_copied(&reader->handle)) return NIDZARU_COPIED;                                                 \
        if (NIDZARU_IN_PLACE(name##_record)) {                                                                         \
            return nidzaru_sized_read(triple, sizeof(name##_record), &reader->handle, NIDZARU_TO(void *, item), number); \
        } else {                                                                                                       \
            uint64_t words[NIDZARU_SIZE(sizeof(name##_record)) / 8] = {0}, given = 0;                                  \
            int status = nidzaru_sized_read(triple, sizeof words, &reader->handle, words, &given);                     \
            if (status) return status;                                                                                 \
            NIDZARU_GIVE(item, words);                                                                                 \
            *number = given;                                                                                           \
            return NIDZARU_DONE;                                                                                       \
        }                                                                                                              \
    }                                                                                                                  \
    /* The same without the number. */                                                                                 \
    NIDZARU_CHECKED int name##_latest(name##_reader *reader, name##_record *item) {                                    \
        uint64_t number = 0;                                                                                           \
        return name##_read(reader, item, &number);                                                                     \
    }                                                                                                                  \
    /* Gives the number that a read would give, without the record: there is news where it is greater than the last    \
     * one. No later read gives a number below it. */                                                                  \
    NIDZARU_CHECKED int name##_look(name##_reader *reader, uint64_t *number) {                                         \
        if (!reader || !number) return NIDZARU_NULL;                                                                   \
        if (nidzaru_is_copied(&reader->handle)) return NIDZARU_COPIED;                                                 \
        return nidzaru_sized_look(triple, NIDZARU_SIZE(sizeof(name##_record)), &reader->handle, number);               \
    }                                                                                                                  \
    /* Reads as NAME_read does, if there is a record with a greater number than the one that stands there. Else        \
     * NIDZARU_NO_NEWS, and no record is copied. */                                                                    \
    NIDZARU_CHECKED int name##_news(name##_reader *reader, name##_record *item, uint64_t *number) {                    \
        uint64_t seen = 0;                                                                                             \
        int status;                                                                                                    \
        if (!reader || !item || !number) return NIDZARU_NULL;                                                          \
        status = name##_look(reader, &seen);                                                                           \
        if (status) return status;                                                                                     \
        return seen > *number ? name##_read(reader, item, number) : NIDZARU_NO_NEWS;                                   \
    }                                                                                                                  \
    /* Takes the writing side to another handle, which has none, and leaves the first one empty. NIDZARU_IN_USE where the \
     * other one has a side, NIDZARU_COPIED where the first one is a copy. An empty handle is moved as such. */        \
    NIDZARU_CHECKED int name##_move_writer(name##_writer *to, name##_writer *from) {                                   \
        return to && from ? nidzaru_move_handle(&to->handle, &from->handle) : NIDZARU_NULL;                            \
    }                                                                                                                  \
    /* The same of the reading side. */                                                                                \
    NIDZARU_CHECKED int name##_move_reader(name##_reader *to, name##_reader *from) {                                   \
        return to && from ? nidzaru_move_handle(&to->handle, &from->handle) : NIDZARU_NULL;                            \
    }                                                                                                                  \
    /* Ends the reading side. Writes go on; the second end of the two frees the register. */                           \
    NIDZARU_INLINE int name##_end_reader(name##_reader *reader) {                                                      \
        if (!reader) return NIDZARU_NULL;                                                                              \
        if (nidzaru_is_copied(&reader->handle)) return NIDZARU_COPIED;                                                 \
        return nidzaru_sized_end_reader(triple, NIDZARU_SIZE(sizeof(name##_record)), &reader->handle);                 \
    }

#define NIDZARU_FUNCTIONS(name, type, triple)                                                                          \
    NIDZARU_SIDES(name, type, triple, 0, 1)                                                                            \
    /* Makes a register that holds `first` as number 0, and puts its sides into two empty handles. */                  \
    NIDZARU_CHECKED int name##_make(const name##_record *first, name##_writer *writer, name##_reader *reader) {        \
        if (!first || !writer || !reader) return NIDZARU_NULL;                                                         \
        if (NIDZARU_PASSES(sizeof(name##_record), NIDZARU_ALIGNMENT(name##_record))) {                                 \
            return nidzaru_sized_make(triple, sizeof(name##_record), NIDZARU_TO(const void *, first), &writer->handle, \
                                      &reader->handle);                                                                \
        } else {                                                                                                       \
            uint64_t words[NIDZARU_SIZE(sizeof(name##_record)) / 8] = {0};                                             \
            nidzaru_copy(words, NIDZARU_TO(const void *, first), sizeof(name##_record));                               \
            return nidzaru_sized_make(triple, sizeof words, words, &writer->handle, &reader->handle);                  \
        }                                                                                                              \
    }                                                                                                                  \
    /* Shows the record to the reader, under the next number. What this thread did before comes before what the        \
     * reading thread does once it has read this number, or a greater one. */                                          \
    NIDZARU_CHECKED int name##_write(name##_writer *writer, const name##_record *item) {                               \
        if (!writer || !item) return NIDZARU_NULL;                                                                     \
        if (nidzaru_is_copied(&writer->handle)) return NIDZARU_COPIED;                                                 \
        if (NIDZARU_PASSES(sizeof(name##_record), NIDZARU_ALIGNMENT(name##_record))) {                                 \
            return nidzaru_sized_write(triple, sizeof(name##_record), &writer->handle, NIDZARU_TO(const void *, item)); \
        } else {                                                                                                       \
            uint64_t words[NIDZARU_SIZE(sizeof(name##_record)) / 8] = {0};                                             \
            nidzaru_copy(words, NIDZARU_TO(const void *, item), sizeof(name##_record));                                \
            return nidzaru_sized_write(triple, sizeof words, &writer->handle, words);                                  \
        }                                                                                                              \
    }                                                                                                                  \
    /* Ends the writing side. The reader keeps the last record; the second end of the two frees the register. */       \
    NIDZARU_INLINE int name##_end_writer(name##_writer *writer) {                                                      \
        if (!writer) return NIDZARU_NULL;                                                                              \
        if (nidzaru_is_copied(&writer->handle)) return NIDZARU_COPIED;                                                 \
        return nidzaru_sized_end_writer(triple, NIDZARU_SIZE(sizeof(name##_record)), &writer->handle);                 \
    }                                                                                                                  \
    NIDZARU_ASSERT(1, "takes a semicolon")

/* The types NAME_writer and NAME_reader and the functions NAME_make, NAME_write, NAME_read, NAME_look, NAME_news,
 * NAME_latest, NAME_move_writer, NAME_move_reader, NAME_end_writer, NAME_end_reader, NAME_make_bytes and NAME_make_requests, for records of
 * this type. */
#define NIDZARU_REGISTER(name, type) NIDZARU_FUNCTIONS(name, type, 0)
#define NIDZARU_TRIPLE_REGISTER(name, type) NIDZARU_FUNCTIONS(name, type, 1)

/* NIDZARU_HOLD(name), below NIDZARU_TRIPLE_REGISTER(name, type), makes NAME_hold and NAME_hold_news: a read without a copy, of records aligned to at most 8.
 *
 *   limits_hold(&reader, &at, &number)                 makes `at` lead to one whole record where it lies, and gives its number
 *   limits_hold_news(&reader, &at, &number)            the same where there is a greater number than this one, else NIDZARU_NO_NEWS
 *
 * No write goes there until the next call with this reader: then, or when its side is moved or ended, nothing is read through `at` any
 * more. Over four-slot cells it answers NIDZARU_OTHER_SIDE. */
#define NIDZARU_HOLD(name)                                                                                             \
    NIDZARU_ASSERT(NIDZARU_ALIGNMENT(name##_record) <= 8, "a record that is read where it lies is aligned to at most 8");   \
    NIDZARU_CHECKED int name##_hold(name##_reader *reader, const name##_record **at, uint64_t *number) {               \
        const void *held = NIDZARU_NOWHERE;                                                                            \
        int status;                                                                                                    \
        if (!reader || !at || !number) return NIDZARU_NULL;                                                            \
        if (nidzaru_is_copied(&reader->handle)) return NIDZARU_COPIED;                                                 \
        status = nidzaru_sized_hold(NIDZARU_SIZE(sizeof(name##_record)), &reader->handle, &held, number);              \
        if (!status) *at = NIDZARU_TO(const name##_record *, held);                                                    \
        return status;                                                                                                 \
    }                                                                                                                  \
    /* The same, if there is a record with a greater number than the one that stands there. Else NIDZARU_NO_NEWS, and  \
     * `*at` stays; nothing is read through it any more all the same. */                                               \
    NIDZARU_CHECKED int name##_hold_news(name##_reader *reader, const name##_record **at, uint64_t *number) {          \
        const name##_record *held = NIDZARU_NOWHERE;                                                                   \
        uint64_t given = 0;                                                                                            \
        int status;                                                                                                    \
        if (!at || !number) return NIDZARU_NULL;                                                                       \
        status = name##_hold(reader, &held, &given);                                                                   \
        if (status) return status;                                                                                     \
        if (given <= *number) return NIDZARU_NO_NEWS;                                                                  \
        *at = held;                                                                                                    \
        *number = given;                                                                                               \
        return NIDZARU_DONE;                                                                                           \
    }                                                                                                                  \
    NIDZARU_ASSERT(1, "takes a semicolon")

/* NIDZARU_LOAN(name), below NIDZARU_TRIPLE_REGISTER(name, type), makes NAME_loan and NAME_publish: a write without a copy, of records
 * aligned to at most 8.
 *
 *   limits_loan(&writer, &at)                          makes `at` lead to the writer's slot, where the next record can be filled in
 *   limits_publish(&writer)                            shows what lies there to the reader, under the next number
 *
 * What lies there is an older record, or the opening: of a record that is filled in part, the rest is that one's. Nothing is written or
 * read through `at` once the next call with this writer begins, which may also be a plain write, or its side is moved or ended. A publish
 * without a loan shows that older record again. Over four-slot cells both answer NIDZARU_OTHER_SIDE. */
#define NIDZARU_LOAN(name)                                                                                             \
    NIDZARU_ASSERT(NIDZARU_ALIGNMENT(name##_record) <= 8, "a record that is filled where it lies is aligned to at most 8"); \
    NIDZARU_ASSERT(!name##_is_fan, "the records of a fan are written by a copy");                                      \
    NIDZARU_CHECKED int name##_loan(name##_writer *writer, name##_record **at) {                                       \
        void *lent = NIDZARU_NOWHERE;                                                                                  \
        int status;                                                                                                    \
        if (!writer || !at) return NIDZARU_NULL;                                                                       \
        if (nidzaru_is_copied(&writer->handle)) return NIDZARU_COPIED;                                                 \
        status = nidzaru_sized_loan(NIDZARU_SIZE(sizeof(name##_record)), &writer->handle, &lent);                      \
        if (!status) *at = NIDZARU_TO(name##_record *, lent);                                                          \
        return status;                                                                                                 \
    }                                                                                                                  \
    /* What this thread did before comes before what the reading thread does once it has read this number, or a        \
     * greater one. NIDZARU_REFUSED where all numbers are used. */                                                     \
    NIDZARU_CHECKED int name##_publish(name##_writer *writer) {                                                        \
        if (!writer) return NIDZARU_NULL;                                                                              \
        if (nidzaru_is_copied(&writer->handle)) return NIDZARU_COPIED;                                                 \
        return nidzaru_sized_publish(NIDZARU_SIZE(sizeof(name##_record)), &writer->handle);                            \
    }                                                                                                                  \
    NIDZARU_ASSERT(1, "takes a semicolon")

/* Fans: one writer and several readers, of which each has a register of its own. A write puts the record into each of these registers, under
 * one number.
 *
 *   NIDZARU_FAN(limits, struct limits, 3);             typed functions for the program's own struct, and three readers
 *
 *   limits_writer writer = NIDZARU_EMPTY;
 *   limits_reader readers[limits_readers] = {NIDZARU_EMPTY, NIDZARU_EMPTY, NIDZARU_EMPTY};
 *   limits_make(&opening, &writer, &readers)           a fan that holds `opening`, as its writer's side and one for each reader
 *   limits_write(&writer, &item)                       shows the record to the readers, to the first one first
 *   limits_read(&readers[1], &item, &number), ..       all that a register's reader does, over triple buffers a hold too
 *   limits_end_writer(&writer), limits_end_reader(&readers[1])   in any order, each from its own thread
 *
 * To each reader a fan is a register of its own: it waits for nobody, no number falls, one number is one record, and that record is the same
 * to all readers. **Between readers there is no order**: while a write runs, one reader may have the new record and tell another one, which
 * then still reads the one before. Where that matters, a board is to be taken: its `read_since` gives what the other one had, or says that it
 * doesn't. A write takes as long as a register's write for each reader, also for those that have ended. NIDZARU_FAN takes four-slot cells,
 * NIDZARU_TRIPLE_FAN triple buffers; a fan has no `loan`.
 *
 * With any status but 0 a write has shown nothing; but with NIDZARU_CUT_OFF the last write may have come to some readers alone. From then on no
 * reader gets another record. */

/* What `live` is where a handle has a fan's writing side. The library has no side of this number. */
#define NIDZARU_FAN_SIDE 254

/* A fan's writing side: the block that it lies in, and, right behind this, the writing sides of so many registers. */
typedef struct {
    void *block;
    size_t count;
} nidzaru_fan;

NIDZARU_INLINE nidzaru_handle *nidzaru_fan_writers(nidzaru_fan *fan) { return NIDZARU_TO(nidzaru_handle *, NIDZARU_TO(void *, fan + 1)); }

/* How many bytes the block of a fan's writing side has: whole lines of the cache. */
#define NIDZARU_FAN_BYTES(count) NIDZARU_LINES(sizeof(nidzaru_fan) + (count) * sizeof(nidzaru_handle))

NIDZARU_INLINE nidzaru_fan *nidzaru_new_fan(size_t count) {
    char *block = NIDZARU_TO(char *, nidzaru_allocate(NIDZARU_FAN_BYTES(count)));
    nidzaru_fan *fan;
    uintptr_t at;
    if (!block) return NIDZARU_NOWHERE;
    memcpy(&at, &block, sizeof at);
    fan = NIDZARU_TO(nidzaru_fan *, NIDZARU_TO(void *, block + (64 - at % 64)));
    memset(fan, 0, sizeof *fan + count * sizeof(nidzaru_handle));
    fan->block = block;
    fan->count = count;
    return fan;
}

/* Ends the first so many writing sides, and gives the block back. */
NIDZARU_INLINE void nidzaru_drop_fan(int triple, size_t size, nidzaru_fan *fan, size_t count) {
    size_t k;
    for (k = 0; k < count; k++) nidzaru_sized_end_writer(triple, size, &nidzaru_fan_writers(fan)[k]);
    nidzaru_release(fan->block);
}

NIDZARU_CHECKED int nidzaru_fan_make(int triple, size_t size, const void *first, nidzaru_handle *w, nidzaru_handle *const *readers,
                                     size_t count) {
    nidzaru_fan *fan;
    size_t made, k;
    if (w->side.live) return NIDZARU_IN_USE;
    for (k = 0; k < count; k++)
        if (readers[k] == w) return NIDZARU_IN_USE;
    fan = nidzaru_new_fan(count);
    if (!fan) return NIDZARU_NO_MEMORY;
    for (made = 0; made < count; made++) {
        int status = nidzaru_sized_make(triple, size, first, &nidzaru_fan_writers(fan)[made], readers[made]);
        if (!status) continue;
        for (k = 0; k < made; k++) nidzaru_sized_end_reader(triple, size, readers[k]);
        nidzaru_drop_fan(triple, size, fan, made);
        return status;
    }
    w->side.live = NIDZARU_FAN_SIDE;
    w->side.at = fan;
    w->home = w;
    w->order = NIDZARU_NOWHERE;
    return NIDZARU_DONE;
}

/* Marks the handle of a fan's writing side before a call on its registers, and after it. It stays marked where the call is cut off. */
NIDZARU_INLINE void nidzaru_fan_mark(nidzaru_handle *w, uint64_t live) {
    volatile uint64_t *mark = &w->side.live;
    *mark = live;
}

NIDZARU_CHECKED int nidzaru_fan_begin(nidzaru_handle *w) {
    const uint64_t live = w->side.live;
    if (live != NIDZARU_FAN_SIDE) return !live ? NIDZARU_ENDED : live == NIDZARU_BUSY ? NIDZARU_CUT_OFF : NIDZARU_OTHER_SIDE;
    nidzaru_fan_mark(w, NIDZARU_BUSY);
    return NIDZARU_DONE;
}

/* If a register refuses the record and one before it has it, the readers' numbers aren't alike any more: the side is lost. */
NIDZARU_CHECKED int nidzaru_fan_write(int triple, size_t size, nidzaru_handle *w, const void *item) {
    nidzaru_fan *const fan = NIDZARU_TO(nidzaru_fan *, w->side.at);
    int status = nidzaru_fan_begin(w);
    size_t k;
    if (status) return status;
    for (k = 0; k < fan->count && !status; k++) status = nidzaru_sized_write(triple, size, &nidzaru_fan_writers(fan)[k], item);
    if (status && k > 1) return NIDZARU_CUT_OFF;
    nidzaru_fan_mark(w, NIDZARU_FAN_SIDE);
    return status;
}

NIDZARU_INLINE int nidzaru_fan_end(int triple, size_t size, nidzaru_handle *w) {
    nidzaru_fan *const fan = NIDZARU_TO(nidzaru_fan *, w->side.at);
    const int status = nidzaru_fan_begin(w);
    if (status) return status;
    nidzaru_drop_fan(triple, size, fan, fan->count);
    w->side.at = NIDZARU_NOWHERE;
    nidzaru_fan_mark(w, 0);
    return NIDZARU_DONE;
}

#define NIDZARU_FAN_FUNCTIONS(name, type, readers_of, triple)                                                          \
    NIDZARU_SIDES(name, type, triple, 1, readers_of)                                                                   \
    NIDZARU_ASSERT((readers_of) >= 1, "a fan has at least one reader");                                                \
    enum { name##_readers = (readers_of) };                                                                            \
    /* Makes a fan that holds `first` as number 0, and puts its sides into empty handles, of which none is there twice. */ \
    NIDZARU_CHECKED int name##_make(const name##_record *first, name##_writer *fan, name##_reader (*readers)[readers_of]) { \
        nidzaru_handle *handles[readers_of];                                                                           \
        size_t k;                                                                                                      \
        if (!first || !fan || !readers) return NIDZARU_NULL;                                                           \
        for (k = 0; k < (readers_of); k++) handles[k] = &(*readers)[k].handle;                                         \
        if (NIDZARU_PASSES(sizeof(name##_record), NIDZARU_ALIGNMENT(name##_record))) {                                 \
            return nidzaru_fan_make(triple, sizeof(name##_record), NIDZARU_TO(const void *, first), &fan->handle, handles, readers_of); \
        } else {                                                                                                       \
            uint64_t words[NIDZARU_SIZE(sizeof(name##_record)) / 8] = {0};                                             \
            nidzaru_copy(words, NIDZARU_TO(const void *, first), sizeof(name##_record));                               \
            return nidzaru_fan_make(triple, sizeof words, words, &fan->handle, handles, readers_of);                   \
        }                                                                                                              \
    }                                                                                                                  \
    /* Shows the record to each reader, under the next number. What this thread did before comes before what a reading \
     * thread does once it has read this number, or a greater one. */                                                  \
    NIDZARU_CHECKED int name##_write(name##_writer *fan, const name##_record *item) {                                  \
        if (!fan || !item) return NIDZARU_NULL;                                                                        \
        if (nidzaru_is_copied(&fan->handle)) return NIDZARU_COPIED;                                                    \
        if (NIDZARU_PASSES(sizeof(name##_record), NIDZARU_ALIGNMENT(name##_record))) {                                 \
            return nidzaru_fan_write(triple, sizeof(name##_record), &fan->handle, NIDZARU_TO(const void *, item));     \
        } else {                                                                                                       \
            uint64_t words[NIDZARU_SIZE(sizeof(name##_record)) / 8] = {0};                                             \
            nidzaru_copy(words, NIDZARU_TO(const void *, item), sizeof(name##_record));                                \
            return nidzaru_fan_write(triple, sizeof words, &fan->handle, words);                                       \
        }                                                                                                              \
    }                                                                                                                  \
    /* Ends the writing side. Each reader keeps the last record; the last end of all frees the fan. */                 \
    NIDZARU_INLINE int name##_end_writer(name##_writer *fan) {                                                         \
        if (!fan) return NIDZARU_NULL;                                                                                 \
        if (nidzaru_is_copied(&fan->handle)) return NIDZARU_COPIED;                                                    \
        return nidzaru_fan_end(triple, NIDZARU_SIZE(sizeof(name##_record)), &fan->handle);                             \
    }                                                                                                                  \
    NIDZARU_ASSERT(1, "takes a semicolon")

/* The types NAME_writer and NAME_reader, the number NAME_readers and the functions NAME_make, NAME_write, NAME_read, NAME_look, NAME_news,
 * NAME_latest, NAME_move_writer, NAME_move_reader, NAME_end_writer, NAME_end_reader, NAME_make_bytes and NAME_make_requests, for records of
 * this type and so many readers. */
#define NIDZARU_FAN(name, type, readers_of) NIDZARU_FAN_FUNCTIONS(name, type, readers_of, 0)
#define NIDZARU_TRIPLE_FAN(name, type, readers_of) NIDZARU_FAN_FUNCTIONS(name, type, readers_of, 1)

/* Boards: one record that 2 to 16 threads share. Each has a place, by which it writes and reads.
 *
 *   NIDZARU_BOARD(plans, struct plan);                 typed functions for the program's own struct
 *
 *   plans_place places[3] = {NIDZARU_EMPTY, NIDZARU_EMPTY, NIDZARU_EMPTY};
 *   plans_make(&opening, places, 3)                    a board that holds `opening`, as its three places
 *   plans_write(&places[0], &item, &stamp)             puts the record there, and gives its stamp
 *   plans_read(&places[1], &item, &stamp)              one whole record, and its stamp
 *   plans_read_since(&places[1], least, &item, &stamp) the same, and NIDZARU_OLDER where its stamp is smaller than this one
 *   plans_news(&places[1], &item, &stamp)              the same as a read where there is a greater stamp than this one, else nothing
 *   plans_end(&places[2])                              in any order, each from its own thread
 *
 * No call waits, tries again (but a triple buffer's on 64-bit ARM) or takes memory, but `make`. One stamp is one record; the opening has
 * the stamp 0.0. Of two stamps the one with the greater tag is the later one, of equal tags the one with the greater writer. What a place reads is never older than
 * what it wrote or read before. A place goes to the struct of its thread by `plans_move`. NIDZARU_BOARD takes four-slot cells,
 * NIDZARU_TRIPLE_BOARD triple buffers.
 *
 * With NIDZARU_REFUSED, NIDZARU_OLDER and NIDZARU_NO_NEWS the place has made a call of its board all the same. With any other
 * status but 0 nothing has changed. */
typedef struct {
    uint64_t tag, writer;
} nidzaru_stamp;

/* Whether the first stamp is the smaller one. */
NIDZARU_INLINE int nidzaru_stamp_is_below(nidzaru_stamp a, nidzaru_stamp b) {
    return a.tag < b.tag || (a.tag == b.tag && a.writer < b.writer);
}

/* Which of two stamps is the smaller one: below 0 the first, above 0 the second, and 0 where they are the same. */
NIDZARU_INLINE int nidzaru_stamp_compare(nidzaru_stamp a, nidzaru_stamp b) {
    return nidzaru_stamp_is_below(b, a) - nidzaru_stamp_is_below(a, b);
}

/* The greatest limit: no program gets there. */
#define NIDZARU_UNLIMITED (UINT64_MAX - 1)

/* The library's own calls: for each family and size of record the same five. */
#define NIDZARU_DECLARE_BOARD(board)                                                                                  \
    uint32_t nidzaru_##board##_make(const void *first, uint64_t limit, nidzaru_side *places, size_t count);           \
    uint32_t nidzaru_##board##_write(nidzaru_side *place, const void *item, nidzaru_stamp *stamp);                    \
    uint32_t nidzaru_##board##_read(nidzaru_side *place, void *item, nidzaru_stamp *stamp);                           \
    uint32_t nidzaru_##board##_read_since(nidzaru_side *place, const nidzaru_stamp *least, void *item,                \
                                          nidzaru_stamp *stamp);                                                      \
    uint32_t nidzaru_##board##_end(nidzaru_side *place);
NIDZARU_DECLARE_BOARD(board_24)
NIDZARU_DECLARE_BOARD(board_256)
NIDZARU_DECLARE_BOARD(board_4096)
NIDZARU_DECLARE_BOARD(triple_board_24)
NIDZARU_DECLARE_BOARD(triple_board_256)
NIDZARU_DECLARE_BOARD(triple_board_4096)
#undef NIDZARU_DECLARE_BOARD

/* The size of the library's records that a record of a board goes into. */
#define NIDZARU_BOARD_SIZE(size) ((size) <= 24 ? 24 : (size) <= 256 ? 256 : 4096)

/* Whether a record of a board is passed where it lies, as a register's is. */
#define NIDZARU_BOARD_PASSES(size, alignment) (!NIDZARU_WATCHED && (size) == NIDZARU_BOARD_SIZE(size) && (alignment) >= 8)
#ifdef __cplusplus
#define NIDZARU_BOARD_IN_PLACE(type) (NIDZARU_BOARD_PASSES(sizeof(type), alignof(type)) && !nidzaru::detail::shares_tail<type>::value)
#else
#define NIDZARU_BOARD_IN_PLACE(type) NIDZARU_BOARD_PASSES(sizeof(type), _Alignof(type))
#endif

#define NIDZARU_BOARD_PICK(triple, size, call, arguments)                                                             \
    ((size) == 24    ? (triple) ? nidzaru_triple_board_24_##call arguments : nidzaru_board_24_##call arguments        \
     : (size) == 256 ? (triple) ? nidzaru_triple_board_256_##call arguments : nidzaru_board_256_##call arguments      \
     : (triple)      ? nidzaru_triple_board_4096_##call arguments                                                     \
                     : nidzaru_board_4096_##call arguments)

/* What a make of a board asks for. Its registers, one for each place to each, have `stride` words and so many slots each, eight words stand
 * before them and eight for each place behind, and `record` is a record with its stamp. Words and slots are first put into a list each; that
 * of the words grows once. A `seat` is what a place knows of the registers, a `pass` all that it has: there are two lists of seats and one of
 * passes, two of places and one of what handles lead to. The board is a block, and each place has two, and all but one room for a seat. */
#define NIDZARU_BOARD_WORDS(places, stride) ((stride) * (places) * (places) + 8)
#define NIDZARU_BOARD_PARTS(places, stride, slots, record, seat, pass)                                                \
    (NIDZARU_LINES(8 * NIDZARU_BOARD_WORDS(places, stride)) + NIDZARU_LINES(16 * NIDZARU_BOARD_WORDS(places, stride)) + \
     NIDZARU_LINES(8 * NIDZARU_BOARD_WORDS(places, stride) + 64 * (places)) +                                         \
     2 * NIDZARU_LINES((slots) * (places) * (places) * (record)) + 2 * NIDZARU_LINES((places) * (seat)) +             \
     NIDZARU_LINES((places) * (pass)) + 2 * NIDZARU_LINES(16 * (places)) +                                            \
     NIDZARU_LINES(8 * (places)) + NIDZARU_LINES((record) + 88) + (places) * (NIDZARU_LINES(pass) + NIDZARU_LINES(16)) + \
     ((places) - 1) * NIDZARU_LINES(seat))
#define NIDZARU_BOARD_BYTES(triple, size, places)                                                                     \
    ((triple) ? NIDZARU_BOARD_PARTS(places, 8, 3, (size) + 16, (size) + 288, 2 * (size) + 344)                        \
              : NIDZARU_BOARD_PARTS(places, 16, 4, (size) + 16, (size) + 544, 2 * (size) + 600))
#define NIDZARU_BOARD_REQUESTS(places) (3 * (places) + 11)
#define NIDZARU_BOARD_MAKE_BYTES(name, places)                                                                        \
    NIDZARU_BOARD_BYTES(name##_is_triple, NIDZARU_BOARD_SIZE(sizeof(name##_record)), places)
#define NIDZARU_BOARD_MAKE_REQUESTS(name, places) (NIDZARU_BOARD_REQUESTS(places) + 0 * sizeof(name##_place))

/* Makes a board with a place for each handle. They must be empty. */
NIDZARU_CHECKED int nidzaru_sized_board_make(int triple, size_t size, const void *first, uint64_t limit, nidzaru_handle *const *places,
                                             size_t count) {
    nidzaru_side sides[16] = {{0, NIDZARU_NOWHERE}};
    uint32_t status;
    size_t i;
    void *order;
    nidzaru_ask_for_release();
    if (count < 2 || count > 16) return NIDZARU_PROCESSES;
    for (i = 0; i < count; i++)
        if (places[i]->side.live) return NIDZARU_IN_USE;
    nidzaru_ignore();
    status = NIDZARU_BOARD_PICK(triple, size, make, (first, limit, sides, count));
    nidzaru_heed();
    NIDZARU_FILLED(&status, sizeof status);
    if (status) return NIDZARU_TO(int, status);
    NIDZARU_FILLED(sides, sizeof sides);
    order = nidzaru_new_order();
    for (i = 0; i < count; i++) {
        places[i]->side = sides[i];
        places[i]->home = places[i];
        places[i]->order = order;
    }
    return NIDZARU_DONE;
}

/* (what the stamp is given to may lie in the record, so each call gets a local one) */
NIDZARU_CHECKED int nidzaru_sized_board_write(int triple, size_t size, nidzaru_handle *place, const void *item, nidzaru_stamp *stamp) {
    nidzaru_stamp given = {0, 0};
    uint32_t status;
    nidzaru_begin(place);
    nidzaru_show(place);
    status = NIDZARU_BOARD_PICK(triple, size, write, (&place->side, item, &given));
    nidzaru_heed();
    NIDZARU_FILLED(&status, sizeof status);
    NIDZARU_FILLED(&given, sizeof given);
    if (!status) *stamp = given;
    return NIDZARU_TO(int, status);
}

NIDZARU_CHECKED int nidzaru_sized_board_read(int triple, size_t size, nidzaru_handle *place, void *item, nidzaru_stamp *stamp) {
    nidzaru_stamp given = {0, 0};
    uint32_t status;
    nidzaru_begin(place);
    status = NIDZARU_BOARD_PICK(triple, size, read, (&place->side, item, &given));
    nidzaru_see(place);
    nidzaru_heed();
    NIDZARU_FILLED(&status, sizeof status);
    if (!status) {
        NIDZARU_FILLED(item, size);
        NIDZARU_FILLED(&given, sizeof given);
        *stamp = given;
    }
    return NIDZARU_TO(int, status);
}

NIDZARU_CHECKED int nidzaru_sized_board_read_since(int triple, size_t size, nidzaru_handle *place, nidzaru_stamp least, void *item,
                                                   nidzaru_stamp *stamp) {
    uint32_t status;
    nidzaru_begin(place);
    status = NIDZARU_BOARD_PICK(triple, size, read_since, (&place->side, &least, item, stamp));
    nidzaru_see(place);
    nidzaru_heed();
    NIDZARU_FILLED(&status, sizeof status);
    if (!status || status == NIDZARU_OLDER) {
        NIDZARU_FILLED(item, size);
        NIDZARU_FILLED(stamp, sizeof *stamp);
    }
    return NIDZARU_TO(int, status);
}

NIDZARU_INLINE int nidzaru_sized_board_end(int triple, size_t size, nidzaru_handle *place) {
    uint32_t status;
    nidzaru_begin(place);
    status = NIDZARU_BOARD_PICK(triple, size, end, (&place->side));
    nidzaru_heed();
    NIDZARU_FILLED(&status, sizeof status);
    return NIDZARU_TO(int, status);
}
#undef NIDZARU_BOARD_PICK

#define NIDZARU_BOARD_FUNCTIONS(name, type, triple)                                                                    \
    NIDZARU_ASSERT(NIDZARU_PLAIN(type), "a record of a board is neither const nor volatile");                          \
    NIDZARU_ASSERT(NIDZARU_COPIES(type), "a record of a board is trivially copyable");                                 \
    NIDZARU_ASSERT(sizeof(type) <= 4096, "a record of a board has at most 4096 bytes");                                \
    typedef type name##_record;                                                                                        \
    enum { name##_is_triple = (triple) };                                                                              \
    typedef struct {                                                                                                   \
        nidzaru_handle handle;                                                                                         \
        char apart[NIDZARU_APART];                                                                                     \
    } name##_place;                                                                                                    \
    /* How many bytes a make of 2 to 16 places asks nidzaru_allocate for in all, and how often. */                     \
    NIDZARU_INLINE size_t name##_make_bytes(size_t count) { return NIDZARU_BOARD_MAKE_BYTES(name, count); }            \
    NIDZARU_INLINE size_t name##_make_requests(size_t count) { return NIDZARU_BOARD_MAKE_REQUESTS(name, count); }      \
    /* Makes a board that holds `first`, and puts its 2 to 16 places into empty handles. Its tags end at the limit. */ \
    NIDZARU_CHECKED int name##_make_limited(const name##_record *first, uint64_t limit, name##_place *places, size_t count) { \
        uint64_t words[NIDZARU_BOARD_SIZE(sizeof(name##_record)) / 8] = {0};                                           \
        nidzaru_handle *handles[16] = {NIDZARU_NOWHERE};                                                               \
        size_t i;                                                                                                      \
        if (!first || !places) return NIDZARU_NULL;                                                                    \
        for (i = 0; i < count && i < 16; i++) handles[i] = &places[i].handle;                                          \
        nidzaru_copy(words, NIDZARU_TO(const void *, first), sizeof(name##_record));                                   \
        return nidzaru_sized_board_make(triple, sizeof words, words, limit, handles, count);                           \
    }                                                                                                                  \
    /* The same, with tags that no program uses up. */                                                                 \
    NIDZARU_CHECKED int name##_make(const name##_record *first, name##_place *places, size_t count) {                  \
        return name##_make_limited(first, NIDZARU_UNLIMITED, places, count);                                           \
    }                                                                                                                  \
    /* Puts the record under the next stamp above all that this place sees, and gives the stamp. */                    \
    NIDZARU_CHECKED int name##_write(name##_place *place, const name##_record *item, nidzaru_stamp *stamp) {           \
        if (!place || !item || !stamp) return NIDZARU_NULL;                                                            \
        if (nidzaru_is_copied(&place->handle)) return NIDZARU_COPIED;                                                  \
        if (NIDZARU_BOARD_PASSES(sizeof(name##_record), NIDZARU_ALIGNMENT(name##_record))) {                           \
            return nidzaru_sized_board_write(triple, sizeof(name##_record), &place->handle, NIDZARU_TO(const void *, item), stamp); \
        } else {                                                                                                       \
            uint64_t words[NIDZARU_BOARD_SIZE(sizeof(name##_record)) / 8] = {0};                                       \
            nidzaru_copy(words, NIDZARU_TO(const void *, item), sizeof(name##_record));                                \
            return nidzaru_sized_board_write(triple, sizeof words, &place->handle, words, stamp);                      \
        }                                                                                                              \
    }                                                                                                                  \
    /* Gives one whole record, and then its stamp, which is never below that of any call of this place before. */      \
    NIDZARU_CHECKED int name##_read(name##_place *place, name##_record *item, nidzaru_stamp *stamp) {                  \
        if (!place || !item || !stamp) return NIDZARU_NULL;                                                            \
        if (nidzaru_is_copied(&place->handle)) return NIDZARU_COPIED;                                                  \
        if (NIDZARU_BOARD_IN_PLACE(name##_record)) {                                                                   \
            return nidzaru_sized_board_read(triple, sizeof(name##_record), &place->handle, NIDZARU_TO(void *, item), stamp); \
        } else {                                                                                                       \
            uint64_t words[NIDZARU_BOARD_SIZE(sizeof(name##_record)) / 8] = {0};                                       \
            nidzaru_stamp given = {0, 0};                                                                              \
            int status = nidzaru_sized_board_read(triple, sizeof words, &place->handle, words, &given);                \
            if (status) return status;                                                                                 \
            NIDZARU_GIVE(item, words);                                                                                 \
            *stamp = given;                                                                                            \
            return NIDZARU_DONE;                                                                                       \
        }                                                                                                              \
    }                                                                                                                  \
    /* The same without the stamp. */                                                                                  \
    NIDZARU_CHECKED int name##_latest(name##_place *place, name##_record *item) {                                      \
        nidzaru_stamp stamp = {0, 0};                                                                                  \
        return name##_read(place, item, &stamp);                                                                       \
    }                                                                                                                  \
    /* The same; NIDZARU_OLDER where the answer, which is given, has a smaller stamp than this one. */                 \
    NIDZARU_CHECKED int name##_read_since(name##_place *place, nidzaru_stamp least, name##_record *item, nidzaru_stamp *stamp) { \
        uint64_t words[NIDZARU_BOARD_SIZE(sizeof(name##_record)) / 8] = {0};                                           \
        nidzaru_stamp given = {0, 0};                                                                                  \
        int status;                                                                                                    \
        if (!place || !item || !stamp) return NIDZARU_NULL;                                                            \
        if (nidzaru_is_copied(&place->handle)) return NIDZARU_COPIED;                                                  \
        status = nidzaru_sized_board_read_since(triple, sizeof words, &place->handle, least, words, &given);           \
        if (status && status != NIDZARU_OLDER) return status;                                                          \
        NIDZARU_GIVE(item, words);                                                                                     \
        *stamp = given;                                                                                                \
        return status;                                                                                                 \
    }                                                                                                                  \
    /* Reads as NAME_read does, if there is a record with a greater stamp than the one that stands there. Else         \
     * NIDZARU_NO_NEWS, and nothing is given. A place's own write is no news where its stamp stands there. */          \
    NIDZARU_CHECKED int name##_news(name##_place *place, name##_record *item, nidzaru_stamp *stamp) {                  \
        uint64_t words[NIDZARU_BOARD_SIZE(sizeof(name##_record)) / 8] = {0};                                           \
        nidzaru_stamp given = {0, 0};                                                                                  \
        int status;                                                                                                    \
        if (!place || !item || !stamp) return NIDZARU_NULL;                                                            \
        if (nidzaru_is_copied(&place->handle)) return NIDZARU_COPIED;                                                  \
        status = nidzaru_sized_board_read(triple, sizeof words, &place->handle, words, &given);                        \
        if (status) return status;                                                                                     \
        if (!nidzaru_stamp_is_below(*stamp, given)) return NIDZARU_NO_NEWS;                                            \
        NIDZARU_GIVE(item, words);                                                                                     \
        *stamp = given;                                                                                                \
        return NIDZARU_DONE;                                                                                           \
    }                                                                                                                  \
    /* Takes the place to another handle, which has none, and leaves the first one empty. NIDZARU_IN_USE where the other \
     * one has a place, NIDZARU_COPIED where the first one is a copy. An empty handle is moved as such. */             \
    NIDZARU_CHECKED int name##_move(name##_place *to, name##_place *from) {                                            \
        return to && from ? nidzaru_move_handle(&to->handle, &from->handle) : NIDZARU_NULL;                            \
    }                                                                                                                  \
    /* Ends the place. The others go on, and keep the last record; the last end frees the board. */                    \
    NIDZARU_INLINE int name##_end(name##_place *place) {                                                               \
        if (!place) return NIDZARU_NULL;                                                                               \
        if (nidzaru_is_copied(&place->handle)) return NIDZARU_COPIED;                                                  \
        return nidzaru_sized_board_end(triple, NIDZARU_BOARD_SIZE(sizeof(name##_record)), &place->handle);             \
    }                                                                                                                  \
    NIDZARU_ASSERT(1, "takes a semicolon")

/* The type NAME_place and the functions NAME_make, NAME_make_limited, NAME_write, NAME_read, NAME_latest, NAME_read_since, NAME_news, NAME_move,
 * NAME_end, NAME_make_bytes and NAME_make_requests, for records of this type. */
#define NIDZARU_BOARD(name, type) NIDZARU_BOARD_FUNCTIONS(name, type, 0)
#define NIDZARU_TRIPLE_BOARD(name, type) NIDZARU_BOARD_FUNCTIONS(name, type, 1)

#ifdef __cplusplus
}
#endif
#endif
#endif
