// Records that are aligned to 16, 32 and 64, through the classes: what is read is the record that was written, where its type wants it.
#include "nidzaru.hpp"
#include <cstdio>

template <std::size_t alignment, std::size_t count> struct alignas(alignment) vector {
    double at[count];
    bool operator==(double from) const {
        for (std::size_t i = 0; i < count; i++)
            if (at[i] != from + static_cast<double>(i)) return false;
        return true;
    }
};

template <class V> static V counted(double from) {
    V made;
    for (std::size_t i = 0; i < sizeof made.at / sizeof *made.at; i++) made.at[i] = from + static_cast<double>(i);
    return made;
}

static int failed;

static void check(bool holds, const char *what, std::size_t alignment, std::size_t size) {
    if (!holds) {
        failed++;
        std::printf("FAILED: %s, %zu bytes aligned to %zu\n", what, size, alignment);
    }
}

template <class V, nidzaru::cell C> static void test_register() {
    auto [writer, reader] = nidzaru::make<V, C>(counted<V>(0.5));
    for (int i = 1; i < 5; i++) {
        V item;
        std::uint64_t number = 0;
        check(!writer.write(counted<V>(i)), "write", alignof(V), sizeof(V));
        check(!reader.read(item, number) && number == static_cast<std::uint64_t>(i) && item == i, "read", alignof(V), sizeof(V));
        auto last = reader.latest();
        check(last && *last == i && reinterpret_cast<std::uintptr_t>(&*last) % alignof(V) == 0, "latest", alignof(V), sizeof(V));
    }
}

template <class V, nidzaru::cell C> static void test_board() {
    auto places = nidzaru::make_board<2, C>(counted<V>(0.5));
    for (int i = 1; i < 5; i++) {
        V item;
        nidzaru::stamp stamp, seen;
        check(!places[0].write(counted<V>(i), stamp), "write to a board", alignof(V), sizeof(V));
        check(!places[1].read(item, seen) && seen.tag == stamp.tag && item == i, "read of a board", alignof(V), sizeof(V));
    }
}

template <class V> static void test() {
    test_register<V, nidzaru::cell::four_slot>();
    test_register<V, nidzaru::cell::triple>();
    test_board<V, nidzaru::cell::four_slot>();
    test_board<V, nidzaru::cell::triple>();
}

int main() {
    test<vector<16, 2>>();
    test<vector<32, 4>>();
    test<vector<64, 8>>();
    test<vector<64, 16>>();
    test<vector<32, 32>>();
    test<vector<64, 512>>();
    std::puts(failed ? "failed" : "passed");
    return failed != 0;
}
