// A register of other people, recorded by so many WRITERS and READERS: main OPERATIONS AHEAD. REGISTER is the register's file, which has
// open_register, write_register and read_register, and with THREADS also enter_thread and leave_thread.
#include "nidzaru_log.h"
#include <atomic>
#include <cstring>
#include <pthread.h>
#include <vector>

#ifndef WORDS
#define WORDS 3
#endif
#ifndef WRITERS
#define WRITERS 1
#endif
#ifndef READERS
#define READERS 2
#endif

// (TBB has a name READERS of its own)
enum : int { writers = WRITERS, readers = READERS };
#undef WRITERS
#undef READERS

struct record {
    uint64_t words[WORDS];
};

static record record_of(uint64_t number) {
    record made;
    for (uint64_t k = 0; k < WORDS; k++) made.words[k] = number * (k + 1) + k;
    return made;
}

#include REGISTER

#ifndef THREADS
static void enter_thread() {}
static void leave_thread() {}
#endif

static nidzaru_log logs[writers + readers];
static pthread_barrier_t start;
static std::vector<int> processors;

static void find_processors() {
    cpu_set_t may;
    if (pthread_getaffinity_np(pthread_self(), sizeof may, &may)) return;
    for (int k = 0; k < CPU_SETSIZE; k++)
        if (CPU_ISSET(k, &may)) processors.push_back(k);
}

static void move_to(uint64_t place) {
    cpu_set_t one;
    if (processors.empty()) return;
    CPU_ZERO(&one);
    CPU_SET(processors[place % processors.size()], &one);
    (void)pthread_setaffinity_np(pthread_self(), sizeof one, &one);
}

// Keeps the threads out of step. Each has a processor of its own, as two on one take turns. Every 1,000 operations all move on to the next
// ones, since some two may show little for a while. Before each operation a thread waits a random time, of any order of magnitude up to
// a thousand turns of a loop.
class stagger {
    uint64_t me, operations = 0, seed;

  public:
    explicit stagger(int who) : me(static_cast<uint64_t>(who)), seed(88172645463325252u + me) {}
    void wait() {
        if (operations % 1000 == 0) move_to(me + operations / 1000);
        operations++;
        seed ^= seed << 13;
        seed ^= seed >> 7;
        seed ^= seed << 17;
        for (uint64_t left = (seed >> 32) % (uint64_t(1) << seed % 11); left > 0; left--) asm volatile("");
    }
};

static void write_all(int me, nidzaru_log *log) {
    stagger step(me);
    for (uint64_t number = 1 + static_cast<uint64_t>(me); !nidzaru_log_is_full(log); number += writers) {
        record made = record_of(number);
        step.wait();
        nidzaru_log_begin_write(log, number, &made, sizeof made);
        write_register(me, made);
        nidzaru_log_end_write(log);
    }
}

static void read_all(int me, nidzaru_log *log) {
    record found = record_of(0);
    stagger step(me);
    while (!nidzaru_log_is_full(log)) {
        step.wait();
        nidzaru_log_begin_read(log);
        read_register(me, found);
        nidzaru_log_end_read(log, found.words[0], &found, sizeof found);
    }
}

static void *run(void *shared) {
    nidzaru_log *log = static_cast<nidzaru_log *>(shared);
    int me = static_cast<int>(log - logs);
    enter_thread();
    pthread_barrier_wait(&start);
    if (me < writers) write_all(me, log);
    else read_all(me, log);
    leave_thread();
    return nullptr;
}

int main(int count, char **words) {
    constexpr int tasks = writers + readers;
    size_t operations = count > 1 ? strtoul(words[1], nullptr, 10) : 100000;
    nidzaru_log *all[tasks];
    pthread_t threads[tasks];
    record opening = record_of(0);
    open_register(opening);
    find_processors();
    pthread_barrier_init(&start, nullptr, tasks);
    for (int k = 0; k < tasks; k++) {
        all[k] = &logs[k];
        if (nidzaru_log_open(all[k], static_cast<uint64_t>(k), operations / tasks)) return 9;
    }
    nidzaru_log_pace(all, tasks, count > 2 ? strtoul(words[2], nullptr, 10) : 20);
    for (int k = 0; k < tasks; k++) pthread_create(&threads[k], nullptr, run, all[k]);
    for (int k = 0; k < tasks; k++) pthread_join(threads[k], nullptr);
    return nidzaru_log_merge(stdout, all, tasks, nidzaru_log_record_of(0, &opening, sizeof opening), 0);
}
