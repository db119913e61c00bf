// The shared memory of NTP's reference clock 28: the writer is that of gpsd (ntpshmwrite.c), the reader that of ntpd, both written from
// knowledge of their protocol. In MODE 1 the reader compares the counts, in mode 0 it doesn't, and nothing is ordered.
struct shared_time {
    volatile int count, valid;
    volatile time_t clock_seconds, receive_seconds;
    volatile unsigned clock_nanoseconds;
};
static shared_time shared;
static void put(const record &from) {
    shared.clock_seconds = static_cast<time_t>(from.words[0]);
    shared.receive_seconds = static_cast<time_t>(from.words[1]);
    shared.clock_nanoseconds = static_cast<unsigned>(from.words[2]);
}
static void order() {
    if (MODE) __sync_synchronize();
}
static void open_register(const record &opening) { put(opening); }
static void write_register(int, const record &from) {
    shared.valid = 0;
    shared.count = shared.count + 1;
    __sync_synchronize();
    put(from);
    __sync_synchronize();
    shared.count = shared.count + 1;
    shared.valid = 1;
}
static void read_register(int, record &to) {
    if (!shared.valid) return;
    int count = shared.count;
    order();
    record found = {{static_cast<uint64_t>(shared.clock_seconds), static_cast<uint64_t>(shared.receive_seconds), shared.clock_nanoseconds}};
    order();
    if (MODE && count != shared.count) return;
    shared.valid = 0;
    to = found;
}
