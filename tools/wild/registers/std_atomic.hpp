// std::atomic of a whole record, through libatomic where no instruction stores it. ORDER_WRITE and ORDER_READ are its orders.
static std::atomic<record> held;
static void open_register(const record &opening) { held = opening; }
static void write_register(int, const record &from) { held.store(from, ORDER_WRITE); }
static void read_register(int, record &to) { to = held.load(ORDER_READ); }
