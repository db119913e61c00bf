/* A sensor's thread publishes, and this one reads until it has seen the last record. Neither waits for the other.
 *
 * cc -std=c11 -O2 small.c $(pkg-config --cflags --libs nidzaru) -pthread -o small && ./small */
#include <nidzaru.h>
#include <pthread.h>
#include <stdio.h>

struct sample { uint64_t low, reading, high; };
NIDZARU_REGISTER(samples, struct sample);

static void *sense(void *writer) {
    for (uint64_t n = 1; n <= 1000; n++)
        if (samples_write(writer, &(struct sample){n, n + 1, n + 2})) break;
    return 0;
}

int main(void) {
    struct sample seen = {0, 1, 2};
    samples_writer writer = NIDZARU_EMPTY;
    samples_reader reader = NIDZARU_EMPTY;
    pthread_t sensor;
    uint64_t number = 0;
    if (samples_make(&seen, &writer, &reader) || pthread_create(&sensor, 0, sense, &writer)) return 1;
    while (number < 1000)
        if (samples_read(&reader, &seen, &number) || seen.high != seen.low + 2) return 1;
    pthread_join(sensor, 0);
    samples_end_writer(&writer);
    samples_end_reader(&reader);
    puts("no record was torn");
}
