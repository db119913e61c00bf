// The last element of a tbb::concurrent_vector, by its size.
#include <tbb/concurrent_vector.h>
static tbb::concurrent_vector<record> held;
static void open_register(const record &opening) { held.push_back(opening); }
static void write_register(int, const record &from) { held.push_back(from); }
static void read_register(int, record &to) { to = held[held.size() - 1]; }
