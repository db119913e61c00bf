// Runs a program and disturbs its threads at random until it ends: one is stopped for up to 5 milliseconds while the others go on, bound to
// another processor, let go to all of them, or given another priority. Ends with the program's status, or with 99 where a kind
// of disturbance came off fewer than twenty times. The last line on standard error tells how many there were of each kind.
// usage: disturb SEED PROGRAM WORDS..
#define _GNU_SOURCE
#include <dirent.h>
#include <errno.h>
#include <sched.h>
#include <signal.h>
#include <stdio.h>
#include <stdlib.h>
#include <sys/ptrace.h>
#include <sys/resource.h>
#include <sys/wait.h>
#include <time.h>
#include <unistd.h>

enum kind { STOP, BIND, FREE, RENICE, KINDS };
// (a program that does nothing may meet some of each on a busy machine)
enum { ENOUGH = 20 };
static long done[KINDS];
static cpu_set_t all;
static int ended, how;

static void rest(long microseconds) {
    struct timespec time = {0, microseconds * 1000};
    nanosleep(&time, NULL);
}

// A thread of the process, chosen at random; 0 where there is none.
static pid_t thread_of(pid_t process) {
    char name[64];
    pid_t chosen = 0;
    int seen = 0;
    snprintf(name, sizeof name, "/proc/%d/task", process);
    DIR *threads = opendir(name);
    if (!threads) return 0;
    for (struct dirent *it; (it = readdir(threads));)
        if (it->d_name[0] != '.' && random() % ++seen == 0) chosen = atoi(it->d_name);
    closedir(threads);
    return chosen;
}

static int note_end(pid_t waited, pid_t process, int status) {
    if (waited == process && (WIFEXITED(status) || WIFSIGNALED(status))) ended = 1, how = status;
    return ended;
}

// One thread stands still, wherever it is, and the others go on. (One that has ended meanwhile is waited for, too.)
static int stop(pid_t thread, pid_t process) {
    int status;
    if (ptrace(PTRACE_SEIZE, thread, 0, 0)) return 0;
    ptrace(PTRACE_INTERRUPT, thread, 0, 0);
    if (waitpid(thread, &status, __WALL) != thread || note_end(thread, process, status) || !WIFSTOPPED(status)) return 0;
    rest(random() % 5000);
    return !ptrace(PTRACE_DETACH, thread, 0, 0);
}

// The number that stands at this random place among the processors that there are.
static int bind_to_one(pid_t thread) {
    cpu_set_t one;
    int number = 0;
    for (int left = random() % CPU_COUNT(&all); !CPU_ISSET(number, &all) || left--; number++) continue;
    CPU_ZERO(&one);
    CPU_SET(number, &one);
    return !sched_setaffinity(thread, sizeof one, &one);
}

static void disturb(pid_t process) {
    pid_t thread = thread_of(process);
    enum kind kind = random() % KINDS;
    int came_off = 0;
    if (!thread) return;
    switch (kind) {
    case STOP: came_off = stop(thread, process); break;
    case BIND: came_off = bind_to_one(thread); break;
    case FREE: came_off = !sched_setaffinity(thread, sizeof all, &all); break;
    default: came_off = !setpriority(PRIO_PROCESS, thread, random() % 20);
    }
    done[kind] += came_off;
}

int main(int count, char **words) {
    if (count < 3) return 98;
    srandom(atoi(words[1]));
    if (sched_getaffinity(0, sizeof all, &all)) return 98;
    pid_t process = fork();
    if (process < 0) return 98;
    if (process == 0) {
        execv(words[2], words + 2);
        _exit(97);
    }
    while (!ended) {
        int status;
        rest(random() % 1000);
        pid_t waited = waitpid(process, &status, WNOHANG);
        if (waited < 0 && errno == ECHILD) return 98;
        if (!note_end(waited, process, status)) disturb(process);
    }
    fprintf(stderr, "%ld stops, %ld moves to one processor, %ld to any, %ld priorities\n", done[STOP], done[BIND], done[FREE], done[RENICE]);
    for (int kind = 0; kind < KINDS; kind++)
        if (done[kind] < ENOUGH) return 99;
    return WIFEXITED(how) ? WEXITSTATUS(how) : 128 + WTERMSIG(how);
}
