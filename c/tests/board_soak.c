/* A soak of one board through C: threads write and read one record of BYTES bytes, over four-slot cells, or with -DTRIPLE over triple
 * buffers, and look at each record that they read. Every word of a record tells which write it is of.
 * usage: board_soak [TASKS SECONDS], 4 tasks for a second where nothing is named. It prints what was counted, and ends with status 1 at
 * the first wrong record: a torn one, whose words are of several writes; a foreign one, which its stamp's writer didn't write under that
 * stamp; one older than the one before. With -DTORN each 10,000th record that a task reads has a word of another write, with -DOLDER the
 * stamp of the opening. */
#ifdef TRIPLE
#define MECHANISM "triple buffers"
#define MAKES NIDZARU_TRIPLE_BOARD
#else
#define MECHANISM "four slots"
#define MAKES NIDZARU_BOARD
#endif
#include "soaked.h"

enum { MOST_TASKS = 16, READS_A_WRITE = 3 };

MAKES(items, struct item);
static items_place places[MOST_TASKS];

/* What a task saw: its calls, the last stamp, of each writer the last tag and number, and what it found. */
static struct task {
    uint64_t writes, reads;
    nidzaru_stamp last;
    uint64_t tags[MOST_TASKS], numbers[MOST_TASKS];
    const char *found;
} tasks[MOST_TASKS];

/* What is wrong with a record that has this stamp, or nothing. */
static const char *wrong(struct task *task, const struct item *item, nidzaru_stamp stamp) {
    uint64_t first = item->words[0], number = first / MOST_TASKS;
    if (is_torn(item)) return "torn";
    if (nidzaru_stamp_compare(stamp, task->last) < 0) return "older";
    task->last = stamp;
    if (!stamp.tag) return first ? "foreign" : 0;
    if (stamp.writer >= MOST_TASKS || first % MOST_TASKS != stamp.writer) return "foreign";
    if (stamp.tag > task->tags[stamp.writer] ? number <= task->numbers[stamp.writer] : number != task->numbers[stamp.writer]) return "foreign";
    task->tags[stamp.writer] = stamp.tag, task->numbers[stamp.writer] = number;
    return 0;
}

static const char *read_once(struct task *task, items_place *place) {
    struct item item;
    nidzaru_stamp stamp;
    if (items_read(place, &item, &stamp)) return "refused";
    task->reads++;
#ifdef TORN
    if (task->reads % 10000 == 0) item.words[1] ^= MOST_TASKS;
#elif defined OLDER
    if (task->reads % 10000 == 0) stamp = (nidzaru_stamp){0, 0};
#endif
    return wrong(task, &item, stamp);
}

static void *calls(void *argument) {
    struct task *task = argument, seen = *task;
    uint64_t me = (uint64_t)(task - tasks);
    struct item item;
    nidzaru_stamp stamp;
    pthread_barrier_wait(&start);
    while (!seen.found && !is_stopped()) {
        seen.writes++;
        fill(&item, seen.writes * MOST_TASKS + me);
        seen.found = items_write(&places[me], &item, &stamp) ? "refused" : wrong(&seen, &item, stamp);
        for (int i = 0; !seen.found && i < READS_A_WRITE; i++) seen.found = read_once(&seen, &places[me]);
    }
    if (seen.found) stop_all();
    *task = seen;
    return 0;
}

int main(int count, char **words) {
    static struct item opening;
    unsigned n = number_given(count, words, 1, 4), seconds = number_given(count, words, 2, 1);
    uint64_t writes = 0, reads = 0;
    const char *found = 0;
    pthread_t threads[MOST_TASKS];
    if (n < 2 || n > MOST_TASKS || !seconds) return fprintf(stderr, "usage: board_soak TASKS SECONDS      2 to 16 tasks\n"), 2;
    if (items_make(&opening, places, n) || pthread_barrier_init(&start, 0, n)) return fprintf(stderr, "board_soak: no memory\n"), 4;
    for (unsigned i = 0; i < n; i++)
        if (pthread_create(&threads[i], 0, calls, &tasks[i])) return fprintf(stderr, "board_soak: no thread could start\n"), 5;
    soak(seconds);
    for (unsigned i = 0; i < n; i++) {
        pthread_join(threads[i], 0);
        writes += tasks[i].writes, reads += tasks[i].reads;
        if (tasks[i].found) found = tasks[i].found;
        if (items_end(&places[i])) found = "a place that couldn't end";
    }
    return tell("tasks", n, writes, reads, found);
}
