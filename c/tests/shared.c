/* Blocks that processes share, in C11 and C++17: what is refused and by which status, whose memory a register takes, and sides that go from
 * one owner to the next. Other processes are this program, run anew, so that they have nothing of this one's memory. */
#define NIDZARU_SHARED_IMPLEMENTATION
#include <nidzaru_shared.h>
#include <signal.h>
#include <stdio.h>
#include <sys/time.h>
#include <sys/wait.h>

struct limits { uint64_t low, at, high; };
struct plan { uint64_t words[32]; };
struct narrow { uint32_t low, high; };
NIDZARU_REGISTER(limits, struct limits);
NIDZARU_SHARED_REGISTER(limits);
NIDZARU_TRIPLE_REGISTER(plans, struct plan);
NIDZARU_SHARED_REGISTER(plans);
NIDZARU_REGISTER(narrows, struct narrow);
NIDZARU_SHARED_REGISTER(narrows);
NIDZARU_TRIPLE_REGISTER(thirds, struct limits);
NIDZARU_SHARED_REGISTER(thirds);
NIDZARU_BOARD(turns, struct limits);
NIDZARU_SHARED_BOARD(turns, 3);

struct plant { limits_shared limits, later; plans_shared plans; turns_shared turns; uint64_t seen; };
struct other { limits_shared limits, later; plans_shared plans; turns_shared turns; uint64_t seen; };
NIDZARU_SHARED_BLOCK(plant, struct plant);
NIDZARU_SHARED_BLOCK(other, struct other);

/* A process that is killed before its end leaves the names, so each run has its own. */
static char name[64], second[64];
static const char *self;

#ifdef __cplusplus
extern "C" {
#endif
void *__real_malloc(size_t bytes);
void __real_free(void *block);
static size_t mallocs, frees;
void *__wrap_malloc(size_t bytes) { return mallocs++, __real_malloc(bytes); }
void __wrap_free(void *block) { frees++, __real_free(block); }
#ifdef __cplusplus
}
#endif

static void is(const char *what, int got, int wanted) {
    if (got == wanted) return;
    fprintf(stderr, "shared: %s: %s (%d), not %s (%d)\n", what, nidzaru_shared_text(got), got, nidzaru_shared_text(wanted), wanted);
    shm_unlink(name);
    shm_unlink(second);
    exit(1);
}

static void holds(const char *what, int is_so) { is(what, is_so ? 0 : NIDZARU_SHARED_SYSTEM, 0); }

/* What another process, which has nothing of this one, answers to these words. */
static int elsewhere(const char *task) {
    int status = 0;
    const pid_t child = fork();
    if (!child) {
        execl("/proc/self/exe", self, task, name, second, NIDZARU_TO(char *, NIDZARU_NOWHERE));
        _exit(99);
    }
    waitpid(child, &status, 0);
    return WIFSIGNALED(status) ? WTERMSIG(status) + 128 : WEXITSTATUS(status);
}

static struct limits limits_of(uint64_t n) {
    struct limits item = {n, n + 1, n + 2};
    return item;
}

static int are_limits_of(const struct limits *item, uint64_t n) { return item->low == n && item->at == n + 1 && item->high == n + 2; }

/* The tasks of another process: each ends with the status that it was answered. */
static int run_task(const char *task) {
    nidzaru_shared block;
    struct plant *plant;
    struct other *other;
    limits_writer *writer;
    int status, n;
    if (!strcmp(task, "other")) return other_attach(&block, name, &other);
    if (!strcmp(task, "larger")) {
        return nidzaru_shared_attach(&block, name, sizeof(struct plant) + 8, nidzaru_shared_type("struct plant", sizeof(struct plant), 8));
    }
    if (!strcmp(task, "create")) return plant_create(&block, name, 1 << 20, &plant);
    if (!strcmp(task, "replace")) return plant_create(&block, second, 1 << 20, &plant);
    if (!strcmp(task, "taken")) {
        void *const at = mmap((void *)(NIDZARU_SHARED_AT + 4096), 4096, PROT_READ, MAP_PRIVATE | MAP_ANONYMOUS | MAP_FIXED, -1, 0);
        return at == MAP_FAILED ? 98 : plant_attach(&block, name, &plant);
    }
    status = plant_attach(&block, name, &plant);
    if (status || !strcmp(task, "attach")) return status;
    if (!strcmp(task, "narrow")) {
        narrows_writer *narrow;
        return narrows_claim_writer(&block, (narrows_shared *)(void *)&plant->limits, &narrow);
    }
    if (!strcmp(task, "third")) {
        thirds_writer *third;
        return thirds_claim_writer(&block, (thirds_shared *)(void *)&plant->limits, &third);
    }
    if (!strcmp(task, "yield")) return limits_yield_writer(&block, &plant->limits);
    if (!strcmp(task, "recover")) return limits_recover_writer(&block, &plant->limits, &writer);
    if (!strcmp(task, "make")) {
        const struct limits first = limits_of(5000);
        return limits_shared_make(&block, &plant->later, &first);
    }
    status = limits_claim_writer(&block, &plant->limits, &writer);
    if (status || !strcmp(task, "claim")) return status;
    for (n = 1; n <= 1000; n++) {
        const struct limits item = limits_of(++plant->seen);
        if ((status = limits_write(writer, &item))) return status;
    }
    if (!strcmp(task, "die")) raise(SIGKILL);
    return limits_yield_writer(&block, &plant->limits);
}

static void *open_it(void *at) {
    nidzaru_shared *block = (nidzaru_shared *)at;
    is("an opening by another thread", nidzaru_shared_open(block), NIDZARU_SHARED_NOT_OWNER);
    return NIDZARU_NOWHERE;
}

static void in_thread(void *(*what)(void *), void *at) {
    pthread_t thread;
    holds("a thread", !pthread_create(&thread, NIDZARU_NOWHERE, what, at) && !pthread_join(thread, NIDZARU_NOWHERE));
}

static void make_all(nidzaru_shared *block, struct plant *plant) {
    static limits_shared outside;
    static const struct plan plan = {{0}};
    const struct limits first = limits_of(0);
    limits_writer *writer;
    const size_t left = nidzaru_shared_left(block), before = mallocs;
    is("a claim of what isn't made", limits_claim_writer(block, &plant->limits, &writer), NIDZARU_SHARED_NOT_READY);
    is("a yield of what isn't made", limits_yield_writer(block, &plant->limits), NIDZARU_SHARED_NOT_OWNER);
    is("a yield of a board that isn't made", turns_yield(block, &plant->turns, 0), NIDZARU_SHARED_NOT_OWNER);
    holds("the maker's claim is counted", block->held == 1);
    is("a register outside", limits_shared_make(block, &outside, &first), NIDZARU_SHARED_ELSEWHERE);
    is("a register", limits_shared_make(block, &plant->limits, &first), 0);
    is("a register once more", limits_shared_make(block, &plant->limits, &first), NIDZARU_IN_USE);
    is("a register over a triple buffer", plans_shared_make(block, &plant->plans, &plan), 0);
    is("a board", turns_shared_make(block, &plant->turns, &first), 0);
    holds("all memory was the block's", mallocs == before && nidzaru_shared_left(block) < left);
    holds("what makes take", left - nidzaru_shared_left(block)
          == limits_shared_make_bytes() + plans_shared_make_bytes() + turns_shared_make_bytes());
    holds("a handle leads into the block", nidzaru_lies_in(block, plant->limits.writer.handle.side.at));
}

/* A block too small for a register refuses it, and the register can be made later on; and one that isn't made takes malloc's memory. */
static void refuse_memory(void) {
    nidzaru_shared small;
    struct plant *plant;
    limits_writer writer = NIDZARU_EMPTY;
    limits_reader reader = NIDZARU_EMPTY;
    const struct limits first = limits_of(0);
    const size_t bytes = 3 * 4096;
    const size_t before = mallocs;
    is("a block of no room", plant_create(&small, NIDZARU_NOWHERE, 4096, &plant), NIDZARU_NO_MEMORY);
    is("a block for children", plant_create(&small, NIDZARU_NOWHERE, bytes, &plant), 0);
    holds("what is left", nidzaru_shared_left(&small) == bytes - plant_create_bytes());
    small.head->used = small.head->bytes - 64;
    is("no room", limits_shared_make(&small, &plant->limits, &first), NIDZARU_NO_MEMORY);
    small.head->used = small.head->bytes - limits_shared_make_bytes() + 16;
    is("no room for the last part", limits_shared_make(&small, &plant->limits, &first), NIDZARU_NO_MEMORY);
    small.head->used = small.head->bytes - limits_shared_make_bytes();
    is("room", limits_shared_make(&small, &plant->limits, &first), 0);
    is("a name of no file", nidzaru_shared_unlink(&small, second), NIDZARU_SHARED_NO_BLOCK);
    is("a detach", nidzaru_shared_detach(&small), 0);
    holds("nothing of malloc", mallocs == before);
    is("a register of this process", limits_make(&first, &writer, &reader), 0);
    holds("memory of malloc", mallocs > before);
    is("an end", limits_end_writer(&writer) + limits_end_reader(&reader), 0);
    holds("is given back", mallocs == frees);
}

static void refuse_attaching(nidzaru_shared *block) {
    const int file = shm_open(name, O_RDWR, 0);
    struct stat stat;
    nidzaru_shared again;
    struct plant *plant;
    holds("the file", file >= 0 && !fstat(file, &stat) && (stat.st_mode & 0777) == 0600);
    is("a block of a taken name", elsewhere("create"), NIDZARU_SHARED_NAME_TAKEN);
    is("a block at a taken address", plant_create(&again, second, 1 << 20, &plant), NIDZARU_SHARED_ADDRESS_TAKEN);
    is("no block", plant_attach(&again, second, &plant), NIDZARU_SHARED_NO_BLOCK);
    is("an attach at a taken address", elsewhere("taken"), NIDZARU_SHARED_ADDRESS_TAKEN);
    is("an attach of another type", elsewhere("other"), NIDZARU_SHARED_OTHER_TYPE);
    is("an attach of a larger type", elsewhere("larger"), NIDZARU_SHARED_OTHER_TYPE);
    block->head->build++;
    is("an attach of another build", elsewhere("attach"), NIDZARU_SHARED_OTHER_BUILD);
    block->head->build--;
    holds("chmod", !fchmod(file, 0660));
    is("a block that others may open", elsewhere("attach"), NIDZARU_SHARED_OTHER_USER);
    holds("chmod", !fchmod(file, 0600));
    if (!geteuid()) {
        holds("chown", !fchown(file, 65534, 65534));
        is("a block of another user", elsewhere("attach"), NIDZARU_SHARED_OTHER_USER);
        holds("chown", !fchown(file, 0, 0));
    }
    close(file);
    is("an attach", elsewhere("attach"), 0);
    is("a claim by another type", elsewhere("narrow"), NIDZARU_SHARED_OTHER_TYPE);
    is("a claim by another mechanism", elsewhere("third"), NIDZARU_SHARED_OTHER_TYPE);
}

static void *claim_it(void *at) {
    nidzaru_shared *block = (nidzaru_shared *)at;
    struct plant *plant = (struct plant *)block->root;
    limits_writer *writer;
    is("a claim by another thread", limits_claim_writer(block, &plant->limits, &writer), NIDZARU_SHARED_CLAIMED);
    is("a yield by another thread", limits_yield_writer(block, &plant->limits), NIDZARU_SHARED_NOT_OWNER);
    return NIDZARU_NOWHERE;
}

/* What a forked child, which has this process's memory, answers. */
static int in_child(int (*what)(nidzaru_shared *), nidzaru_shared *block) {
    int status = 0;
    const pid_t child = fork();
    if (!child) _exit(what(block));
    waitpid(child, &status, 0);
    return WIFSIGNALED(status) ? WTERMSIG(status) + 128 : WEXITSTATUS(status);
}

static int detach_it(nidzaru_shared *block) {
    const int status = limits_yield_writer(block, &((struct plant *)block->root)->limits);
    return status == NIDZARU_SHARED_NOT_OWNER ? nidzaru_shared_detach(block) : 99;
}

/* The writer's side goes from owner to owner: one that yields, one that ends and one that is killed, each between two calls. */
static void hand_over(nidzaru_shared *block, struct plant *plant) {
    limits_writer *writer;
    limits_reader *reader;
    struct limits item = limits_of(0);
    uint64_t number = 0;
    is("a claim", limits_claim_writer(block, &plant->limits, &writer), 0);
    is("a claim of a claimed side", elsewhere("claim"), NIDZARU_SHARED_CLAIMED);
    is("a recovery of a claimed side", elsewhere("recover"), NIDZARU_SHARED_CLAIMED);
    is("a yield of another's", elsewhere("yield"), NIDZARU_SHARED_NOT_OWNER);
    in_thread(claim_it, block);
    is("a detach with claims", nidzaru_shared_detach(block), NIDZARU_SHARED_CLAIMED);
    is("a detach of a child, which has none", in_child(detach_it, block), 0);
    is("a yield", limits_yield_writer(block, &plant->limits), 0);
    is("a yield once more", limits_yield_writer(block, &plant->limits), NIDZARU_SHARED_NOT_OWNER);
    is("a yield of a register that isn't made", limits_yield_reader(block, &plant->later), NIDZARU_SHARED_NOT_OWNER);
    holds("no claim is counted", !block->held);
    is("a writer that ends without a yield", elsewhere("claim"), 0);
    is("the reader", limits_claim_reader(block, &plant->limits, &reader), 0);
    is("a writer that yields", elsewhere("write"), 0);
    is("a read", limits_read(reader, &item, &number), 0);
    holds("of the last record", number == 1000 && are_limits_of(&item, 1000));
    is("a writer that is killed", elsewhere("die"), SIGKILL + 128);
    is("the next writer", elsewhere("write"), 0);
    is("a read", limits_read(reader, &item, &number), 0);
    holds("of the last record", number == 3000 && are_limits_of(&item, 3000));
    is("a register that another process makes", elsewhere("make"), 0);
    is("and nobody else", elsewhere("make"), NIDZARU_IN_USE);
    is("its writer", limits_claim_writer(block, &plant->later, &writer), 0);
    is("the reader's yield", limits_yield_reader(block, &plant->limits), 0);
    is("the reader's end", limits_claim_reader(block, &plant->limits, &reader) + limits_end_reader(reader), 0);
    is("its yield", limits_yield_reader(block, &plant->limits), 0);
    is("a claim of an ended side", limits_claim_reader(block, &plant->limits, &reader), NIDZARU_ENDED);
    is("a recovery of an ended side", limits_recover_reader(block, &plant->limits, &reader), NIDZARU_ENDED);
    is("its writer's yield", limits_yield_writer(block, &plant->later), 0);
}

/* A thread that is cancelled wherever it is. */
static void *write_on(void *at) {
    nidzaru_shared *block = (nidzaru_shared *)at;
    struct plant *plant = (struct plant *)block->root;
    plans_writer *writer;
    struct plan plan = {{0}};
    is("a claim after a cancelled owner", plans_claim_writer(block, &plant->plans, &writer), 0);
    pthread_setcanceltype(PTHREAD_CANCEL_ASYNCHRONOUS, NIDZARU_NOWHERE);
    for (;;) {
        for (size_t k = 0; k < 32; k++) plan.words[k] = plant->seen + k;
        if (plans_write(writer, &plan)) abort();
        __atomic_fetch_add(&plant->seen, 1, __ATOMIC_RELAXED);
    }
}

/* Cancels owners until one was within a call: then its side is refused, and the other one goes on. */
static void cancel_owners(nidzaru_shared *block, struct plant *plant) {
    plans_writer *writer;
    plans_reader *reader;
    struct plan plan;
    uint64_t number = 0, tries;
    int status = 0;
    is("the reader of plans", plans_claim_reader(block, &plant->plans, &reader), 0);
    for (tries = 0; tries < 2000 && !status; tries++) {
        pthread_t thread;
        const uint64_t before = plant->seen;
        holds("a thread", !pthread_create(&thread, NIDZARU_NOWHERE, write_on, block));
        while (__atomic_load_n(&plant->seen, __ATOMIC_RELAXED) < before + 10) is("a read", plans_read(reader, &plan, &number), 0);
        holds("a cancel", !pthread_cancel(thread) && !pthread_join(thread, NIDZARU_NOWHERE));
        status = plans_claim_writer(block, &plant->plans, &writer);
        if (!status) is("a yield", plans_yield_writer(block, &plant->plans), 0);
    }
    is("an owner that is cancelled within a call", status, NIDZARU_SHARED_OWNER_DEAD);
    is("a recovery over a triple buffer", plans_recover_writer(block, &plant->plans, &writer), NIDZARU_SHARED_LOST);
    is("a read after it", plans_read(reader, &plan, &number), 0);
    for (size_t k = 0; k < 32; k++) holds("a whole record", plan.words[k] == plan.words[0] + k);
    is("a yield", plans_yield_reader(block, &plant->plans), 0);
}

/* A signal handler that writes by a handle of its own, into the midst of reads of this thread. */
static limits_writer *handlers;
static volatile uint64_t handled, refused;
static void write_in_handler(int signal) {
    const struct limits item = limits_of(++handled);
    (void)signal;
    refused += limits_write(handlers, &item) != 0;
}

static void read_beside_signals(nidzaru_shared *block, struct plant *plant) {
    const struct itimerval often = {{0, 100}, {0, 100}}, never = {{0, 0}, {0, 0}};
    limits_reader *reader;
    struct limits item;
    uint64_t number = 0, last = 0;
    is("the handler's writer", limits_claim_writer(block, &plant->later, &handlers), 0);
    is("the reader beside it", limits_claim_reader(block, &plant->later, &reader), 0);
    holds("a handler", signal(SIGALRM, write_in_handler) != SIG_ERR && !setitimer(ITIMER_REAL, &often, NIDZARU_NOWHERE));
    while (last < 500) {
        is("a read beside a handler", limits_read(reader, &item, &number), 0);
        holds("a handler's record", number >= last && number <= handled && (!number || are_limits_of(&item, number)));
        last = number;
    }
    holds("no more signals", !setitimer(ITIMER_REAL, &never, NIDZARU_NOWHERE) && !refused);
    is("the handler's yield", limits_yield_writer(block, &plant->later), 0);
    is("the reader's yield", limits_yield_reader(block, &plant->later), 0);
}

/* A side over four slots that is marked as cut off is recovered, unless what it leads to isn't what it should be. */
static void recover_side(nidzaru_shared *block, struct plant *plant) {
    nidzaru_side *const side = &plant->later.writer.handle.side;
    static uint64_t outside[NIDZARU_BOX_NUMBER + 1];
    const uint64_t live = side->live;
    void *const at = side->at;
    limits_writer *writer;
    limits_reader *reader;
    struct limits item = limits_of(9000);
    uint64_t number = 0, before = 0;
    is("the reader of a recovered side", limits_claim_reader(block, &plant->later, &reader) + limits_read(reader, &item, &before), 0);
    is("a recovery of a whole side", limits_recover_writer(block, &plant->later, &writer), 0);
    is("its yield", limits_yield_writer(block, &plant->later), 0);
    side->live = NIDZARU_BUSY;
    is("a claim of a side that was cut off", limits_claim_writer(block, &plant->later, &writer), NIDZARU_SHARED_OWNER_DEAD);
    memcpy(outside, at, sizeof outside);
    side->at = outside;
    is("a recovery of what leads elsewhere", limits_recover_writer(block, &plant->later, &writer), NIDZARU_SHARED_OWNER_DEAD);
    side->at = at;
    is("a recovery", limits_recover_writer(block, &plant->later, &writer), 0);
    holds("its number is back", side->live == live);
    item = limits_of(9000);
    is("a write after it", limits_write(writer, &item), 0);
    is("a read after it", limits_read(reader, &item, &number), 0);
    holds("of the next record", number == before + 1 && are_limits_of(&item, 9000));
    is("its yield", limits_yield_writer(block, &plant->later) + limits_yield_reader(block, &plant->later), 0);
}

static void use_board(nidzaru_shared *block, struct plant *plant) {
    turns_place *places[3];
    nidzaru_stamp stamp, seen;
    struct limits item = limits_of(7);
    is("no such place", turns_claim(block, &plant->turns, 3, &places[0]), NIDZARU_PROCESSES);
    is("no yield of it", turns_yield(block, &plant->turns, 3), NIDZARU_PROCESSES);
    for (size_t k = 0; k < 3; k++) is("a place", turns_claim(block, &plant->turns, k, &places[k]), 0);
    is("a place twice", turns_claim(block, &plant->turns, 1, &places[1]), NIDZARU_SHARED_CLAIMED);
    is("a board's write", turns_write(places[2], &item, &stamp), 0);
    is("a board's read", turns_read(places[0], &item, &seen), 0);
    holds("of that record", are_limits_of(&item, 7) && !nidzaru_stamp_compare(stamp, seen));
    for (size_t k = 0; k < 3; k++) is("a place's yield", turns_yield(block, &plant->turns, k), 0);
}

/* A name that another block has taken over stays; a maker that died before it opened the block is told. */
static void unlink_names(nidzaru_shared *block) {
    nidzaru_shared gone;
    memset(&gone, 0, sizeof gone);
    holds("rename", !shm_unlink(name));
    is("another block of this name", elsewhere("create"), 0);
    is("an unlinking of another block", nidzaru_shared_unlink(block, name), NIDZARU_SHARED_NO_BLOCK);
    is("a detach", nidzaru_shared_detach(block), 0);
    is("a detach once more", nidzaru_shared_detach(block), NIDZARU_SHARED_ELSEWHERE);
    is("a maker that died", elsewhere("attach"), NIDZARU_SHARED_OWNER_DEAD);
    is("a maker that died, once more", elsewhere("attach"), NIDZARU_SHARED_OWNER_DEAD);
    holds("its name", !shm_unlink(name));
    is("an unlinking of no block", nidzaru_shared_unlink(&gone, name), NIDZARU_SHARED_ELSEWHERE);
}

int main(int count, char **words) {
    nidzaru_shared block;
    struct plant *plant;
    self = words[0];
    if (count > 3) {
        snprintf(name, sizeof name, "%s", words[2]);
        snprintf(second, sizeof second, "%s", words[3]);
        return run_task(words[1]);
    }
    snprintf(name, sizeof name, "/nidzaru-test-%ld", (long)getpid());
    snprintf(second, sizeof second, "/nidzaru-test-%ld-second", (long)getpid());
    is("no block", elsewhere("attach"), NIDZARU_SHARED_NO_BLOCK);
    is("no place for a block", plant_create(NIDZARU_NOWHERE, name, 1 << 20, &plant), NIDZARU_NULL);
    is("a detach of no block", nidzaru_shared_detach(NIDZARU_NOWHERE), NIDZARU_NULL);
    is("an opening of no block", nidzaru_shared_open(NIDZARU_NOWHERE), NIDZARU_NULL);
    is("an unlink of no block", nidzaru_shared_unlink(NIDZARU_NOWHERE, name), NIDZARU_NULL);
    is("what is left of no block", (int)nidzaru_shared_left(NIDZARU_NOWHERE), 0);
    is("a block", plant_create(&block, name, 1 << 20, &plant), 0);
    is("a block that isn't open", elsewhere("attach"), NIDZARU_SHARED_NOT_READY);
    make_all(&block, plant);
    is("a block that isn't open yet", elsewhere("attach"), NIDZARU_SHARED_NOT_READY);
    in_thread(open_it, &block);
    is("an opening", nidzaru_shared_open(&block), 0);
    is("an opening once more", nidzaru_shared_open(&block), NIDZARU_SHARED_NOT_OWNER);
    refuse_attaching(&block);
    hand_over(&block, plant);
    read_beside_signals(&block, plant);
    recover_side(&block, plant);
    use_board(&block, plant);
    cancel_owners(&block, plant);
    unlink_names(&block);
    refuse_memory();
    puts("each refusal is by its name");
    return 0;
}
