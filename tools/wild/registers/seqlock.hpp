// A sequence lock as the Linux kernel has it, over plain data, with barriers of the compiler alone. WMB and RMB may be left out.
#define BARRIER asm volatile("" ::: "memory")
#ifdef NO_WMB
#define WMB
#else
#define WMB BARRIER
#endif
#ifdef NO_RMB
#define RMB
#else
#define RMB BARRIER
#endif
static volatile unsigned sequence;
static record held;
static void open_register(const record &opening) { held = opening; }
static void write_register(int, const record &from) {
    sequence = sequence + 1;
    WMB;
    held = from;
    WMB;
    sequence = sequence + 1;
}
static void read_register(int, record &to) {
    unsigned version;
    do {
        while ((version = sequence) & 1) {
        }
        RMB;
        to = held;
        RMB;
    } while (sequence != version);
}
