/* Two processes over one word in shared memory, each with a log of its own, whose lines go to FOLDER/writes.jsonl, with the header, and
 * FOLDER/reads.jsonl. usage: processes FOLDER OPERATIONS [late] */
#define _GNU_SOURCE
#include "nidzaru_log.h"
#include <stdatomic.h>
#include <sys/mman.h>
#include <sys/wait.h>
#include <unistd.h>

enum { AHEAD = 3 };

/* What both share: the word, and how many operations each has ended, so that neither is ahead of the other. */
static struct shared { atomic_ullong word, ended[2]; } *shared;

static void keep_pace(int me, unsigned long long turn, unsigned long long operations) {
    while (turn > atomic_load(&shared->ended[!me]) + AHEAD && atomic_load(&shared->ended[!me]) < operations) sched_yield();
}

static void write_all(nidzaru_log *log) {
    for (uint64_t n = 1; !nidzaru_log_is_full(log); n++) {
        keep_pace(0, n, log->state->room);
        nidzaru_log_begin_write(log, n, &n, sizeof n);
        atomic_store(&shared->word, n);
        nidzaru_log_end_write(log);
        atomic_fetch_add(&shared->ended[0], 1);
    }
}

/* Late: of the reads before which a write has ended since the last one, each eighth gives what that one gave. */
static void read_all(nidzaru_log *log, int late) {
    uint64_t had = 0, turn, seen = 0, lates = 0;
    for (turn = 1; !nidzaru_log_is_full(log); turn++) {
        unsigned long long ended;
        keep_pace(1, turn, log->state->room);
        ended = atomic_load(&shared->ended[0]);
        nidzaru_log_begin_read(log);
        if (!late || ended <= seen || ++lates % 8) had = atomic_load(&shared->word);
        seen = atomic_load(&shared->ended[0]) + 1;
        nidzaru_log_end_read(log, had, &had, sizeof had);
        atomic_fetch_add(&shared->ended[1], 1);
    }
}

int main(int count, char **words) {
    uint64_t opening = 0;
    char path[4096];
    nidzaru_log log, *logs[] = {&log};
    FILE *to;
    pid_t child;
    int me, status = 0, ended = 0;
    if (count < 3) return 2;
    shared = mmap(0, sizeof *shared, PROT_READ | PROT_WRITE, MAP_SHARED | MAP_ANONYMOUS, -1, 0);
    if (shared == MAP_FAILED) return 2;
    child = fork();
    if (child < 0) return 2;
    me = child == 0;
    if (nidzaru_log_open(&log, (uint64_t)me, strtoul(words[2], 0, 10) / 2)) return 2;
    if (me) read_all(&log, count > 3); else write_all(&log);
    snprintf(path, sizeof path, "%s/%s.jsonl", words[1], me ? "reads" : "writes");
    to = fopen(path, "w");
    if (!to) return 2;
    if (!me) nidzaru_log_header(to, nidzaru_log_record_of(opening, &opening, sizeof opening), 0);
    status = nidzaru_log_lines(to, logs, 1);
    fclose(to);
    nidzaru_log_close(&log);
    if (!me) waitpid(child, &ended, 0);
    return status || ended;
}
