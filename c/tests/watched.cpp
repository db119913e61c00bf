// Under ThreadSanitizer, as watched.c: a class doesn't pass a record where it lies, so a record is seen to change while another thread
// writes it, or reads into it. usage: watched class write|read|place_write|place_read     a race, which is to be reported
#include "nidzaru.hpp"
#include <atomic>
#include <cstdio>
#include <thread>

namespace {
struct note {
    std::uint64_t words[3];
};
note shared = {{1, 2, 3}};

// A gate that orders nothing that ThreadSanitizer knows of.
std::atomic<bool> passed_on;

__attribute__((noinline)) void change_shared() {
    while (!passed_on.load(std::memory_order_relaxed)) std::this_thread::yield();
    shared.words[0] = 4;
}

// Makes the call that is called so.
int call(const char *name) {
    auto [writer, reader] = nidzaru::make(note{});
    auto places = nidzaru::make_board<2>(note{});
    nidzaru::stamp stamp;
    std::uint64_t number = 0;
    if (!std::strcmp(name, "write")) return writer.write(shared);
    if (!std::strcmp(name, "read")) return reader.read(shared, number);
    if (!std::strcmp(name, "place_write")) return places[0].write(shared, stamp);
    if (!std::strcmp(name, "place_read")) return places[0].read(shared, stamp);
    return -1;
}
} // namespace

int main(int count, char **words) {
    int status = -1;
    std::thread calling([&] {
        status = call(count > 2 ? words[2] : "");
        passed_on.store(true, std::memory_order_relaxed);
    });
    std::thread changing(change_shared);
    calling.join();
    changing.join();
    std::puts(status ? "FAILED" : "passed");
    return status != 0;
}
