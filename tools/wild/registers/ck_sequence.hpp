// The sequence lock of Concurrency Kit.
extern "C" {
#include <ck_sequence.h>
}
static ck_sequence_t sequence = CK_SEQUENCE_INITIALIZER;
static record held;
static void open_register(const record &opening) { held = opening; }
static void write_register(int, const record &from) {
    ck_sequence_write_begin(&sequence);
    held = from;
    ck_sequence_write_end(&sequence);
}
static void read_register(int, record &to) {
    unsigned version;
    do {
        version = ck_sequence_read_begin(&sequence);
        to = held;
    } while (ck_sequence_read_retry(&sequence, version));
}
