// A volatile struct.
static volatile record held;
static void open_register(const record &opening) {
    for (int k = 0; k < WORDS; k++) held.words[k] = opening.words[k];
}
static void write_register(int, const record &from) {
    for (int k = 0; k < WORDS; k++) held.words[k] = from.words[k];
}
static void read_register(int, record &to) {
    for (int k = 0; k < WORDS; k++) to.words[k] = held.words[k];
}
