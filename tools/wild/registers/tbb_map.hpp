// tbb::concurrent_hash_map, one key of it.
#include <tbb/concurrent_hash_map.h>
using map = tbb::concurrent_hash_map<int, record>;
static map held;
static void open_register(const record &opening) { held.insert({7, opening}); }
static void write_register(int, const record &from) {
    map::accessor it;
    held.find(it, 7);
    it->second = from;
}
static void read_register(int, record &to) {
    map::const_accessor it;
    held.find(it, 7);
    to = it->second;
}
