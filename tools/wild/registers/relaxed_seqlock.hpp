// A sequence lock by relaxed atomics alone: nothing is asked of compiler or processor.
static std::atomic<unsigned> sequence;
static std::atomic<uint64_t> held[WORDS];
static constexpr auto relaxed = std::memory_order_relaxed;
static void open_register(const record &opening) {
    for (int k = 0; k < WORDS; k++) held[k] = opening.words[k];
}
static void write_register(int, const record &from) {
    sequence.store(sequence.load(relaxed) + 1, relaxed);
    for (int k = 0; k < WORDS; k++) held[k].store(from.words[k], relaxed);
    sequence.store(sequence.load(relaxed) + 1, relaxed);
}
static void read_register(int, record &to) {
    unsigned version;
    do {
        while ((version = sequence.load(relaxed)) & 1) {
        }
        for (int k = 0; k < WORDS; k++) to.words[k] = held[k].load(relaxed);
    } while (sequence.load(relaxed) != version);
}
