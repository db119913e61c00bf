/* A control program of four tasks that share one command on a board. The operator and the guard both write it: the operator sets a speed,
 * and the guard sets a slower one where it sees too great a speed. The motor follows the newest command 10,000 times a second, and
 * the logger counts what it sees. No task waits for another, and none sees half of a command.
 *
 * cc -std=c11 -O2 board.c $(pkg-config --cflags --libs nidzaru) -pthread -o board && ./board */
#define _POSIX_C_SOURCE 200809L
#include <nidzaru.h>
#include <pthread.h>
#include <stdio.h>
#include <time.h>

/* The check is over the other fields, so that half of an old command is seen. */
struct command {
    double speed, most;
    uint64_t check;
};

NIDZARU_BOARD(commands, struct command);

enum { OPERATOR, GUARD, MOTOR, LOGGER, TASKS };
enum { SECONDS = 1, OPERATOR_HZ = 500, GUARD_HZ = 1000, MOTOR_HZ = 10000, LOGGER_HZ = 50, FASTEST = 40 };

/* A task with its place, and what it saw. */
struct task {
    commands_place place;
    uint64_t written, fresh, torn, refused;
    nidzaru_stamp last;
};

static struct command command_of(double speed) {
    struct command c = {speed, speed + 1.0, (uint64_t)speed * 7};
    return c;
}

static int is_whole(const struct command *c) { return c->most == c->speed + 1.0 && c->check == (uint64_t)c->speed * 7; }

/* Sleeps until the next tick of a task that runs so many times a second. */
static void next_tick(struct timespec *at, long hz) {
    at->tv_nsec += 1000000000L / hz;
    if (at->tv_nsec >= 1000000000L) {
        at->tv_nsec -= 1000000000L;
        at->tv_sec++;
    }
    clock_nanosleep(CLOCK_MONOTONIC, TIMER_ABSTIME, at, 0);
}

static void put(struct task *me, double speed) {
    struct command c = command_of(speed);
    if (commands_write(&me->place, &c, &me->last))
        me->refused++;
    else
        me->written++;
}

/* The newest command that this task sees. */
static struct command see(struct task *me) {
    struct command c = command_of(0);
    nidzaru_stamp stamp;
    if (commands_read(&me->place, &c, &stamp)) {
        me->refused++;
        return c;
    }
    me->fresh += nidzaru_stamp_is_below(me->last, stamp);
    me->torn += !is_whole(&c) || nidzaru_stamp_is_below(stamp, me->last);
    me->last = stamp;
    return c;
}

static void *run_operator(void *shared) {
    struct task *me = shared;
    struct timespec at;
    clock_gettime(CLOCK_MONOTONIC, &at);
    for (int n = 0; n < SECONDS * OPERATOR_HZ; n++) {
        put(me, n % 60);
        next_tick(&at, OPERATOR_HZ);
    }
    commands_end(&me->place);
    return 0;
}

static void *run_guard(void *shared) {
    struct task *me = shared;
    struct timespec at;
    clock_gettime(CLOCK_MONOTONIC, &at);
    for (int n = 0; n < SECONDS * GUARD_HZ; n++) {
        if (see(me).speed > FASTEST) put(me, FASTEST);
        next_tick(&at, GUARD_HZ);
    }
    commands_end(&me->place);
    return 0;
}

static void *run_motor(void *shared) {
    struct task *me = shared;
    struct timespec at;
    double speed = 0;
    clock_gettime(CLOCK_MONOTONIC, &at);
    for (int n = 0; n < SECONDS * MOTOR_HZ; n++) {
        speed += 0.01 * (see(me).speed - speed);
        next_tick(&at, MOTOR_HZ);
    }
    printf("the motor runs at %.1f\n", speed);
    commands_end(&me->place);
    return 0;
}

static void *run_logger(void *shared) {
    struct task *me = shared;
    struct timespec at;
    clock_gettime(CLOCK_MONOTONIC, &at);
    for (int n = 0; n < SECONDS * LOGGER_HZ; n++) {
        (void)see(me);
        next_tick(&at, LOGGER_HZ);
    }
    commands_end(&me->place);
    return 0;
}

int main(void) {
    static const char *const names[TASKS] = {"operator", "guard", "motor", "logger"};
    static void *(*const runs[TASKS])(void *) = {run_operator, run_guard, run_motor, run_logger};
    static struct task tasks[TASKS];
    commands_place places[TASKS] = {NIDZARU_EMPTY, NIDZARU_EMPTY, NIDZARU_EMPTY, NIDZARU_EMPTY};
    struct command still = command_of(0);
    pthread_t of[TASKS];
    uint64_t torn = 0;
    if (commands_make(&still, places, TASKS)) {
        puts("no memory");
        return 1;
    }
    for (int k = 0; k < TASKS; k++)
        if (commands_move(&tasks[k].place, &places[k])) return 1;
    for (int k = 0; k < TASKS; k++)
        if (pthread_create(&of[k], 0, runs[k], &tasks[k])) return 1;
    for (int k = 0; k < TASKS; k++) pthread_join(of[k], 0);
    for (int k = 0; k < TASKS; k++) {
        printf("%s: wrote %llu, saw %llu new\n", names[k], (unsigned long long)tasks[k].written, (unsigned long long)tasks[k].fresh);
        torn += tasks[k].torn + tasks[k].refused;
    }
    puts(torn ? "a record was torn" : "no record was torn");
    return torn != 0;
}
