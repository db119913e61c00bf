// What a make of the classes takes is what they say beforehand, as constants: a block of just so many bytes, given out in just so many parts,
// serves it. If a byte or a request is missing, nothing is made, and all that was taken is given back.
#include "nidzaru.hpp"
#include <cstdio>
#include <cstdlib>

namespace {
constexpr std::size_t most = std::size_t{13} << 20;
// The block begins where no line of the cache does.
alignas(64) unsigned char memory[16 + most];
std::size_t room, taken, requests_left, asked, live;
int failed;

void check(bool holds, const char *name, std::size_t size, const char *what) {
    if (holds) return;
    failed++;
    std::printf("FAILED: %s of %zu bytes: %s\n", name, size, what);
}

void begin(std::size_t bytes, std::size_t requests) {
    if (bytes > most) std::abort();
    room = bytes;
    requests_left = requests;
    taken = asked = live = 0;
}

// Sees that a make is done with these bytes and requests, and takes all of them, and isn't with fewer.
template <class Make> void see(const char *name, std::size_t size, std::size_t bytes, std::size_t requests, Make make) {
    begin(bytes, requests);
    check(make(), name, size, "it isn't made of what it says that it takes");
    check(taken == bytes, name, size, "it takes fewer bytes than it says");
    check(asked == requests, name, size, "it asks less often than it says");
    check(!live, name, size, "a block stays");
    begin(bytes - 1, requests);
    check(!make() && !live, name, size, "a byte less is enough, or a block stays");
    begin(bytes, requests - 1);
    check(!make() && !live, name, size, "a request less is enough, or a block stays");
}

template <std::size_t size> struct record {
    unsigned char bytes[size];
};
template <std::size_t size> record<size> opening;

template <nidzaru::cell C, std::size_t size> void see_register() {
    using writer = nidzaru::writer<record<size>, C>;
    constexpr std::size_t bytes = writer::make_bytes(), requests = writer::make_requests();
    see("a register", size, bytes, requests, [] { return nidzaru::try_make<record<size>, C>(opening<size>).has_value(); });
}

template <nidzaru::cell C, std::size_t size, std::size_t readers> void see_fan() {
    using writer = nidzaru::fan_writer<record<size>, C>;
    constexpr std::size_t bytes = writer::make_bytes(readers), requests = writer::make_requests(readers);
    see("a fan", size, bytes, requests, [] { return nidzaru::try_make_fan<readers, C>(opening<size>).has_value(); });
}

template <nidzaru::cell C, std::size_t size, std::size_t places> void see_board() {
    using place = nidzaru::place<record<size>, C>;
    constexpr std::size_t bytes = place::make_bytes(places), requests = place::make_requests(places);
    see("a board", size, bytes, requests, [] { return nidzaru::try_make_board<places, C>(opening<size>).has_value(); });
}

template <nidzaru::cell C, std::size_t... sizes> void see_registers() { (see_register<C, sizes>(), ...); }

template <nidzaru::cell C, std::size_t... sizes> void see_boards() {
    (see_board<C, sizes, 2>(), ...);
    (see_board<C, sizes, 3>(), ...);
    (see_board<C, sizes, 7>(), ...);
    (see_board<C, sizes, 16>(), ...);
}

template <nidzaru::cell C> void see_all() {
    see_registers<C, 1, 8, 9, 24, 25, 64, 65, 128, 129, 256, 257, 1024, 1025, 4096, 4097, 65536, 65537, 1048576>();
    see_fan<C, 1, 1>();
    see_fan<C, 24, 3>();
    see_fan<C, 257, 2>();
    see_fan<C, 4096, 16>();
    see_boards<C, 1, 24, 25, 256, 257, 4096>();
}
} // namespace

void *nidzaru_allocate(size_t bytes) {
    if (!requests_left || bytes > room - taken) return nullptr;
    requests_left--;
    asked++;
    live++;
    taken += bytes;
    return memory + 16 + taken - bytes;
}

void nidzaru_release(void *) { live--; }

int main() {
    see_all<nidzaru::cell::four_slot>();
    see_all<nidzaru::cell::triple>();
    std::puts(failed ? "FAILED" : "passed");
    return failed != 0;
}
