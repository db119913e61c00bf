// JACK's ring buffer of two records: what finds it full is dropped, and the reader keeps what it had.
#include <jack/ringbuffer.h>
static jack_ringbuffer_t *held;
static void open_register(const record &) { held = jack_ringbuffer_create(64); }
static void write_register(int, const record &from) {
    if (jack_ringbuffer_write_space(held) >= sizeof from) jack_ringbuffer_write(held, reinterpret_cast<const char *>(&from), sizeof from);
}
static void read_register(int, record &to) {
    while (jack_ringbuffer_read_space(held) >= sizeof to) jack_ringbuffer_read(held, reinterpret_cast<char *>(&to), sizeof to);
}
