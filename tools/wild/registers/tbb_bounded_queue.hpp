// A tbb::concurrent_bounded_queue of one place: the writer takes what is old out, and the reader keeps what it had.
#include <tbb/concurrent_queue.h>
static tbb::concurrent_bounded_queue<record> held;
static void open_register(const record &) { held.set_capacity(1); }
static void write_register(int, const record &from) {
    record old;
    while (!held.try_push(from)) held.try_pop(old);
}
static void read_register(int, record &to) {
    record found;
    if (held.try_pop(found)) to = found;
}
