/* Under ThreadSanitizer. Two threads share registers and boards, and what their records point to.
 * usage: watched clean           nothing is to be reported
 *        watched other           what is shared is told by one register and looked for by another: a race, which is to be reported
 *        watched twice CALL      two threads make this call with one handle at once: a race, which is to be reported
 *        watched record CALL     a record is changed while another thread writes it, or reads into it: a race, which is to be reported
 * The calls stand in EACH_CALL. The program has a second file, elsewhere.c. */
#include "nidzaru.h"
#include <pthread.h>
#include <sched.h>
#include <stdio.h>

enum { MANY = 2000 };

/* A record that a copy goes through, and one that is passed where it lies. */
struct short_note { const int *told; };
struct note { const int *told; uint32_t serial, check, more; };
NIDZARU_REGISTER(shorts, struct short_note);
NIDZARU_TRIPLE_REGISTER(notes, struct note);
NIDZARU_HOLD(notes);
NIDZARU_LOAN(notes);
NIDZARU_BOARD(boards, struct note);

static shorts_writer short_writer = NIDZARU_EMPTY, other_writer = NIDZARU_EMPTY;
static shorts_reader short_reader = NIDZARU_EMPTY, other_reader = NIDZARU_EMPTY;
static notes_writer note_writer = NIDZARU_EMPTY;
static notes_reader note_reader = NIDZARU_EMPTY;
static boards_place places[2] = {NIDZARU_EMPTY, NIDZARU_EMPTY};
static int told[MANY + 1], also_told[MANY + 1], failed, more;

/* A gate that orders nothing that ThreadSanitizer knows of. */
static int passed_on;
static void pass_on(void) { __atomic_store_n(&passed_on, 1, __ATOMIC_RELAXED); }
static void wait_until_passed_on(void) {
    while (!__atomic_load_n(&passed_on, __ATOMIC_RELAXED)) sched_yield();
}

static void *write_all(void *unused) {
    for (int n = 1; n <= MANY; n++) {
        struct short_note s = {&told[n]};
        struct note x = {&also_told[n], (uint32_t)n, 3 * (uint32_t)n, 0};
        told[n] = n;
        also_told[n] = -n;
        failed |= shorts_write(&short_writer, &s) | notes_write(&note_writer, &x);
    }
    shorts_end_writer(&short_writer);
    notes_end_writer(&note_writer);
    return unused;
}

static void *read_all(void *unused) {
    for (uint64_t a = 0, b = 0, c = 0; a < MANY || b < MANY;) {
        struct short_note s;
        struct note x;
        if (shorts_look(&short_reader, &c) || shorts_read(&short_reader, &s, &a) || notes_read(&note_reader, &x, &b)) return &failed;
        if (*s.told != (int)a || *x.told != -(int)b || x.serial != b || x.check != 3 * b || c > a) return &failed;
    }
    shorts_end_reader(&short_reader);
    notes_end_reader(&note_reader);
    return unused;
}

static void *write_here(void *unused) {
    struct short_note s = {0};
    more = 1;
    failed |= shorts_write(&short_writer, &s);
    pass_on();
    return unused;
}

static void *read_elsewhere(void *unused) {
    struct short_note s;
    uint64_t n;
    wait_until_passed_on();
    return shorts_read(&other_reader, &s, &n) || more != 1 ? &failed : unused;
}

/* Each call by its name, with a record that it writes or reads into. */
#define EACH_CALL(each)                                                                                               \
    each(write, notes_write(&note_writer, item)) each(read, notes_read(&note_reader, item, &number))                  \
    each(look, notes_look(&note_reader, &number)) each(hold, notes_hold(&note_reader, &held, &number))                \
    each(loan, notes_loan(&note_writer, &lent)) each(publish, notes_publish(&note_writer))                            \
    each(end_writer, notes_end_writer(&note_writer)) each(end_reader, notes_end_reader(&note_reader))                 \
    each(board_write, boards_write(&places[0], item, &stamp)) each(board_read, boards_read(&places[0], item, &stamp)) \
    each(board_read_since, boards_read_since(&places[0], stamp, item, &stamp)) each(board_end, boards_end(&places[0]))

static const char *call;
static struct note shared = {&told[0], 1, 3, 0};

/* Makes the call that the command line names. */
static int make_call(struct note *item) {
    const struct note *held = item;
    struct note *lent = item;
    nidzaru_stamp stamp = {0, 0};
    uint64_t number = 0;
#define IF_NAMED(name, made)                                                                                          \
    if (!strcmp(call, #name)) return made;
    EACH_CALL(IF_NAMED)
    return -1;
}

static void *call_first(void *unused) {
    struct note item = shared;
    failed |= make_call(&item);
    pass_on();
    return unused;
}

/* (what was ended is refused) */
static void *call_again(void *unused) {
    struct note item = shared;
    wait_until_passed_on();
    make_call(&item);
    return unused;
}

static void *call_with_shared(void *unused) {
    failed |= make_call(&shared);
    pass_on();
    return unused;
}

static void *change_shared(void *unused) {
    wait_until_passed_on();
    shared.told = &told[1];
    return unused;
}

static int run(void *(*first)(void *), void *(*second)(void *)) {
    pthread_t a, b;
    void *one, *two;
    pthread_create(&a, 0, first, 0);
    pthread_create(&b, 0, second, 0);
    pthread_join(a, &one);
    pthread_join(b, &two);
    return failed || one || two;
}

/* What the program's second file knows registers by. */
extern const void *const known_elsewhere[3];

/* All files of a program know registers by the same bytes: each of the first 65,536 by its own, by which what its reader holds is found. */
static int has_own_orders(void) {
    static char seen[sizeof nidzaru_orders];
    const struct short_note s = {0};
    NIDZARU_ASSERT(sizeof nidzaru_orders == 65536, "a byte for each");
    NIDZARU_ASSERT(sizeof nidzaru_held / sizeof nidzaru_held[0] == sizeof nidzaru_orders, "a place for each");
    if (known_elsewhere[0] != nidzaru_orders || known_elsewhere[1] != &nidzaru_registers || known_elsewhere[2] != nidzaru_held) return 0;
    for (size_t k = 0; k < sizeof seen; k++) {
        shorts_writer w = NIDZARU_EMPTY;
        shorts_reader r = NIDZARU_EMPTY;
        if (shorts_make(&s, &w, &r) || seen[(char *)w.handle.order - nidzaru_orders]++ || w.handle.order != r.handle.order) return 0;
        shorts_end_writer(&w);
        shorts_end_reader(&r);
    }
    return 1;
}

int main(int count, char **words) {
    struct short_note s = {&told[0]};
    struct note x = {&also_told[0], 0, 0, 0};
    const char *what = count > 1 ? words[1] : "";
    int wrong = shorts_make(&s, &short_writer, &short_reader) || shorts_make(&s, &other_writer, &other_reader)
                || notes_make(&x, &note_writer, &note_reader) || boards_make(&x, places, 2);
    call = count > 2 ? words[2] : "";
    if (!wrong && !strcmp(what, "clean")) wrong = run(write_all, read_all) || !has_own_orders();
    else if (!wrong && !strcmp(what, "other")) wrong = run(write_here, read_elsewhere);
    else if (!wrong && !strcmp(what, "twice")) wrong = run(call_first, call_again);
    else if (!wrong && !strcmp(what, "record")) wrong = run(call_with_shared, change_shared);
    else wrong = 1;
    puts(wrong ? "FAILED" : "passed");
    return wrong;
}
