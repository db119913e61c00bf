/* A control program of three tasks. The sensor publishes a reading with its limits 1,000 times a second, the control task
 * steers by the newest reading 10,000 times a second, and the logger writes down what it sees of the control task's state.
 * No task ever waits for another, and none sees half of an old record.
 *
 * cc -std=c11 -O2 tasks.c $(pkg-config --cflags --libs nidzaru) -pthread -o tasks && ./tasks */
#define _POSIX_C_SOURCE 200809L
#include <nidzaru.h>
#include <pthread.h>
#include <stdio.h>
#include <time.h>

/* What the sensor publishes. The check is over the other fields, so that half of an old record is seen. */
struct reading {
    double low, high, value;
    uint64_t check;
};

/* What the control task publishes. */
struct state {
    double output;
    uint64_t step, of_reading, check;
};

NIDZARU_REGISTER(readings, struct reading);
NIDZARU_TRIPLE_REGISTER(states, struct state);

enum { SECONDS = 1, SENSOR_HZ = 1000, CONTROL_HZ = 10000, LOGGER_HZ = 50 };

/* What a task saw of the records that it reads. */
struct seen {
    uint64_t last, fresh, missed, torn;
};

static void count(struct seen *seen, uint64_t number, int whole) {
    if (number > seen->last) {
        seen->fresh++;
        seen->missed += number - seen->last - 1;
        seen->last = number;
    }
    seen->torn += !whole;
}

static struct reading reading_of(uint64_t number) {
    struct reading r = {-1.0 - (double)number, 1.0 + (double)number, (double)(number % 17), number * 3};
    return r;
}

static int is_whole_reading(const struct reading *r) {
    return r->high == -r->low && r->check == 3 * (uint64_t)(r->high - 1.0);
}

static int is_whole_state(const struct state *s) { return s->check == s->step * 5 + s->of_reading; }

/* Sleeps until the next tick of a task that runs so many times a second. */
static void next_tick(struct timespec *at, long hz) {
    at->tv_nsec += 1000000000L / hz;
    if (at->tv_nsec >= 1000000000L) {
        at->tv_nsec -= 1000000000L;
        at->tv_sec++;
    }
    clock_nanosleep(CLOCK_MONOTONIC, TIMER_ABSTIME, at, 0);
}

struct sensor {
    readings_writer readings;
    uint64_t written;
};

static void *run_sensor(void *shared) {
    struct sensor *me = shared;
    struct timespec at;
    clock_gettime(CLOCK_MONOTONIC, &at);
    for (uint64_t n = 1; n <= SECONDS * SENSOR_HZ; n++) {
        struct reading r = reading_of(n);
        if (readings_write(&me->readings, &r)) break;
        me->written = n;
        next_tick(&at, SENSOR_HZ);
    }
    readings_end_writer(&me->readings);
    return 0;
}

struct control {
    readings_reader readings;
    states_writer states;
    struct seen seen;
    uint64_t steps;
};

static void *run_control(void *shared) {
    struct control *me = shared;
    struct timespec at;
    clock_gettime(CLOCK_MONOTONIC, &at);
    for (uint64_t step = 1; step <= SECONDS * CONTROL_HZ; step++) {
        struct reading r;
        struct state s;
        uint64_t number;
        if (readings_read(&me->readings, &r, &number)) break;
        count(&me->seen, number, is_whole_reading(&r));
        s.output = r.value < r.low ? r.low : r.value > r.high ? r.high : r.value;
        s.step = step;
        s.of_reading = number;
        s.check = step * 5 + number;
        if (states_write(&me->states, &s)) break;
        me->steps = step;
        next_tick(&at, CONTROL_HZ);
    }
    readings_end_reader(&me->readings);
    states_end_writer(&me->states);
    return 0;
}

struct logger {
    states_reader states;
    struct seen seen;
    uint64_t lines;
};

static void *run_logger(void *shared) {
    struct logger *me = shared;
    struct timespec at;
    clock_gettime(CLOCK_MONOTONIC, &at);
    for (uint64_t line = 0; line < SECONDS * LOGGER_HZ; line++) {
        struct state s;
        uint64_t number;
        if (states_read(&me->states, &s, &number)) break;
        count(&me->seen, number, is_whole_state(&s));
        me->lines++;
        next_tick(&at, LOGGER_HZ);
    }
    states_end_reader(&me->states);
    return 0;
}

static void print(const char *task, const struct seen *seen) {
    printf("%s: last record %lu, fresh %lu, missed %lu, torn %lu\n", task, (unsigned long)seen->last,
           (unsigned long)seen->fresh, (unsigned long)seen->missed, (unsigned long)seen->torn);
}

int main(void) {
    static struct sensor sensor = {NIDZARU_EMPTY, 0};
    static struct control control = {NIDZARU_EMPTY, NIDZARU_EMPTY, {0, 0, 0, 0}, 0};
    static struct logger logger = {NIDZARU_EMPTY, {0, 0, 0, 0}, 0};
    struct reading first = reading_of(0);
    struct state still = {0.0, 0, 0, 0};
    pthread_t tasks[3];
    int torn, stopped;
    if (readings_make(&first, &sensor.readings, &control.readings) || states_make(&still, &control.states, &logger.states)) {
        fputs("no memory\n", stderr);
        return 1;
    }
    if (pthread_create(&tasks[0], 0, run_sensor, &sensor) || pthread_create(&tasks[1], 0, run_control, &control) ||
        pthread_create(&tasks[2], 0, run_logger, &logger)) {
        fputs("no thread\n", stderr);
        return 1;
    }
    for (int k = 0; k < 3; k++) pthread_join(tasks[k], 0);
    printf("sensor: %lu readings\n", (unsigned long)sensor.written);
    print("control", &control.seen);
    print("logger", &logger.seen);
    torn = control.seen.torn || logger.seen.torn;
    stopped = sensor.written < SECONDS * SENSOR_HZ || control.steps < SECONDS * CONTROL_HZ || logger.lines < SECONDS * LOGGER_HZ;
    puts(torn ? "a record was torn" : stopped ? "a task stopped early" : "no record was torn");
    return torn || stopped;
}
