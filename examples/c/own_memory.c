/* A program that may not allocate once it has started: it gives the library its memory from a static block, by the two functions that
 * nidzaru.h names. `make` alone takes some, just as much as NIDZARU_MAKE_BYTES says. The program's own `malloc` isn't asked.
 *
 * cc -std=c11 -O2 own_memory.c $(pkg-config --cflags --libs nidzaru) -o own_memory && ./own_memory */
#include <nidzaru.h>
#include <stdio.h>

struct sample { uint64_t low, reading, high; };
NIDZARU_REGISTER(samples, struct sample);

static _Alignas(16) unsigned char block[NIDZARU_MAKE_BYTES(samples)];
static size_t taken;

/* The next part of the block; no memory where the block is full. (A program that makes registers in several threads needs a lock here.) */
void *nidzaru_allocate(size_t bytes) {
    if (bytes > sizeof block - taken) return 0;
    taken += bytes; /* a multiple of 64 */
    return block + taken - bytes;
}

/* Nothing is given back. */
void nidzaru_release(void *part) { (void)part; }

int main(void) {
    struct sample seen = {0, 1, 2};
    samples_writer writer = NIDZARU_EMPTY;
    samples_reader reader = NIDZARU_EMPTY;
    uint64_t number = 0;
    if (samples_make(&seen, &writer, &reader)) return 1;
    const size_t started = taken;
    for (uint64_t n = 1; n <= 1000; n++)
        if (samples_write(&writer, &(struct sample){n, n + 1, n + 2}) || samples_read(&reader, &seen, &number) || number != n) return 1;
    if (started != sizeof block || taken != started) return 1;
    samples_end_writer(&writer);
    samples_end_reader(&reader);
    printf("%zu bytes of the block were taken, all by make\n", started);
    return 0;
}
