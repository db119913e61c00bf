/* What a call costs between two processes and between two threads: a writer and a reader at full speed over one register in a block, in turns as
 * threads of this process and as this one and a forked child. Then how long an attach takes. Medians of the rounds, in ns.
 *
 * cc -std=gnu11 -O2 between.c $(pkg-config --cflags --libs nidzaru) -pthread -o between && ./between [ROUNDS]      -DBYTES=24 -DTRIPLE */
#define NIDZARU_SHARED_IMPLEMENTATION
#include <nidzaru_shared.h>
#include <stdio.h>
#include <sys/wait.h>
#include <time.h>

#ifndef BYTES
#define BYTES 24
#endif
enum { CALLS = 200000, MOST = 101 };
struct record { uint64_t words[BYTES / 8]; };
#ifdef TRIPLE
NIDZARU_TRIPLE_REGISTER(cell, struct record);
#else
NIDZARU_REGISTER(cell, struct record);
#endif
NIDZARU_SHARED_REGISTER(cell);

/* The register, and how many have come to the begin of a round; what the reader's calls took. */
struct root { cell_shared cell; uint32_t met, is_over; double read; };
NIDZARU_SHARED_BLOCK(root, struct root);
static struct root *root;
static double written;

static double now(void) {
    struct timespec t;
    clock_gettime(CLOCK_MONOTONIC, &t);
    return (double)t.tv_sec * 1e9 + (double)t.tv_nsec;
}

static void meet(void) {
    __atomic_fetch_add(&root->met, 1, __ATOMIC_SEQ_CST);
    while (__atomic_load_n(&root->met, __ATOMIC_SEQ_CST) % 2) continue;
}

static void *read_all(void *unused) {
    static struct record item;
    uint64_t number, calls = 0;
    meet();
    const double began = now();
    for (; !__atomic_load_n(&root->is_over, __ATOMIC_RELAXED); calls++)
        if (cell_read(&root->cell.reader, &item, &number)) _exit(9);
    root->read = (now() - began) / (double)(calls ? calls : 1);
    return unused;
}

static void write_all(void) {
    static struct record item;
    meet();
    const double began = now();
    for (uint64_t n = 0; n < CALLS; n++) {
        item.words[0] = n;
        if (cell_write(&root->cell.writer, &item)) _exit(9);
    }
    written = (now() - began) / CALLS;
    __atomic_store_n(&root->is_over, 1, __ATOMIC_RELAXED);
}

static void by_threads(void) {
    pthread_t reader;
    if (pthread_create(&reader, 0, read_all, 0)) _exit(9);
    write_all();
    pthread_join(reader, 0);
}

static void by_processes(void) {
    const pid_t reader = fork();
    if (!reader) {
        read_all(0);
        _exit(0);
    }
    write_all();
    waitpid(reader, 0, 0);
}

static int by_size(const void *a, const void *b) {
    const double x = *(const double *)a, y = *(const double *)b;
    return (x > y) - (x < y);
}

static double median(double *values, int count) {
    qsort(values, (size_t)count, sizeof *values, by_size);
    return values[count / 2];
}

/* The time that another process, which has nothing of this one's memory, takes for an attach of a block of 1 MB. */
static double attach_once(const char *name) {
    int ends[2];
    double took = -1;
    if (pipe(ends)) return -1;
    const pid_t child = fork();
    if (!child) {
        nidzaru_shared block;
        struct root *seen;
        const double began = now();
        const int status = root_attach(&block, name, &seen);
        took = status ? -1 : now() - began;
        _exit(write(ends[1], &took, sizeof took) != sizeof took);
    }
    if (child < 0 || read(ends[0], &took, sizeof took) != sizeof took) took = -1;
    waitpid(child, 0, 0);
    close(ends[0]), close(ends[1]);
    return took;
}

int main(int count, char **words) {
    static double w[2][MOST], r[2][MOST], attached[MOST];
    static const struct record none;
    const int rounds = count > 1 && atoi(words[1]) < MOST ? atoi(words[1]) : 11;
    nidzaru_shared block, named;
    struct root *other;
    char name[40];
    if (root_create(&block, 0, (1 << 16) + 16 * BYTES, &root) || cell_shared_make(&block, &root->cell, &none)) return 2;
    for (int k = 0; k < 2 * rounds; k++) {
        root->is_over = 0;
        if (k % 2) by_processes();
        else by_threads();
        w[k % 2][k / 2] = written;
        r[k % 2][k / 2] = root->read;
    }
    for (int k = 0; k < 2; k++) printf("%s: write %.1f, read %.1f\n", k ? "processes" : "threads", median(w[k], rounds), median(r[k], rounds));
    printf("ratio: write %.2f, read %.2f\n", median(w[1], rounds) / median(w[0], rounds), median(r[1], rounds) / median(r[0], rounds));
    snprintf(name, sizeof name, "/between-%ld", (long)getpid());
    if (root_create(&named, name, 1 << 20, &other) || nidzaru_shared_open(&named)) return 2;
    munmap(named.head, named.head->bytes);
    for (int k = 0; k < rounds; k++) attached[k] = attach_once(name);
    shm_unlink(name);
    printf("attach: median %.0f ns\n", median(attached, rounds));
    return 0;
}
