/* A sensor with three readers: the control loop, which reads 10,000 times a second, a display and a logger. Each reader gets whole readings
 * and waits for nobody. The logger's number says how many readings it missed.
 *
 * cc -std=c11 -O2 fan.c $(pkg-config --cflags --libs nidzaru) -pthread -o fan && ./fan */
#define _POSIX_C_SOURCE 200809L
#include <nidzaru.h>
#include <pthread.h>
#include <stdio.h>
#include <time.h>

/* A reading and its limits: `low` is below, `high` above. */
struct reading {
    double low, value, high;
};

NIDZARU_FAN(readings, struct reading, 3);

enum { READINGS = 5000, SENSOR_HZ = 5000 };

/* A task with its own side. */
struct task {
    readings_reader readings;
    long hz;
    uint64_t seen, news, torn, last;
};

static void next_tick(struct timespec *at, long hz) {
    at->tv_nsec += 1000000000L / hz;
    if (at->tv_nsec >= 1000000000L) {
        at->tv_nsec -= 1000000000L;
        at->tv_sec++;
    }
    clock_nanosleep(CLOCK_MONOTONIC, TIMER_ABSTIME, at, 0);
}

static void *sense(void *writer) {
    struct timespec at;
    clock_gettime(CLOCK_MONOTONIC, &at);
    for (int n = 1; n <= READINGS; n++) {
        struct reading r = {-n, n % 17, n};
        if (readings_write(writer, &r)) break;
        next_tick(&at, SENSOR_HZ);
    }
    readings_end_writer(writer);
    return 0;
}

static void *follow(void *task) {
    struct task *me = task;
    struct timespec at;
    clock_gettime(CLOCK_MONOTONIC, &at);
    while (me->last < READINGS) {
        struct reading r;
        uint64_t number;
        if (readings_read(&me->readings, &r, &number)) break;
        me->seen++;
        me->news += number > me->last;
        me->torn += r.low != -r.high;
        me->last = number;
        next_tick(&at, me->hz);
    }
    readings_end_reader(&me->readings);
    return 0;
}

int main(void) {
    static const char *const names[readings_readers] = {"control", "display", "logger"};
    static const struct reading first = {0, 0, 0};
    static readings_writer writer;
    static readings_reader readers[readings_readers];
    static struct task tasks[readings_readers] = {{.hz = 10000}, {.hz = 50}, {.hz = 1000}};
    pthread_t sensor, threads[readings_readers];
    uint64_t torn = 0;
    if (readings_make(&first, &writer, &readers)) {
        puts("there is no memory");
        return 1;
    }
    for (size_t k = 0; k < readings_readers; k++) {
        if (readings_move_reader(&tasks[k].readings, &readers[k])) return 1;
        if (pthread_create(&threads[k], 0, follow, &tasks[k])) return 1;
    }
    if (pthread_create(&sensor, 0, sense, &writer)) return 1;
    pthread_join(sensor, 0);
    for (size_t k = 0; k < readings_readers; k++) {
        pthread_join(threads[k], 0);
        printf("%s: %llu reads, %llu of them news, the last is number %llu\n", names[k], (unsigned long long)tasks[k].seen,
               (unsigned long long)tasks[k].news, (unsigned long long)tasks[k].last);
        torn += tasks[k].torn;
    }
    if (torn) printf("%llu torn records\n", (unsigned long long)torn);
    else puts("no record was torn");
    return torn != 0;
}
