// A std::shared_ptr by std::atomic_store and std::atomic_load, or, with ATOMIC, std::atomic<std::shared_ptr>.
#include <memory>
#ifdef ATOMIC
static std::atomic<std::shared_ptr<record>> held;
static void open_register(const record &opening) { held = std::make_shared<record>(opening); }
static void write_register(int, const record &from) { held.store(std::make_shared<record>(from)); }
static void read_register(int, record &to) { to = *held.load(); }
#else
static std::shared_ptr<record> held;
static void open_register(const record &opening) { held = std::make_shared<record>(opening); }
static void write_register(int, const record &from) { std::atomic_store(&held, std::make_shared<record>(from)); }
static void read_register(int, record &to) { to = *std::atomic_load(&held); }
#endif
