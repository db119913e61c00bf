// Fans as C++ objects: each reader gets each record under one number, objects are moved and go in any order, and memory that is refused.
// Link with --wrap=malloc,--wrap=realloc,--wrap=free.
#include "nidzaru.hpp"
#include <cstdio>
#include <cstdlib>

static int failed;
static void check(bool holds, const char *what) {
    if (holds) return;
    failed++;
    std::printf("FAILED: %s\n", what);
}

static long blocks, left = -1;
extern "C" {
void *__real_malloc(std::size_t size);
void *__real_realloc(void *old, std::size_t size);
void __real_free(void *old);
void *__wrap_malloc(std::size_t size) {
    if (left == 0) return nullptr;
    left -= left > 0;
    blocks++;
    return __real_malloc(size);
}
void *__wrap_realloc(void *old, std::size_t size) {
    blocks += !old;
    return __real_realloc(old, size);
}
void __wrap_free(void *old) {
    blocks -= old != nullptr;
    __real_free(old);
}
}

struct whole {
    std::uint64_t low, number, high;
};
struct part {
    std::uint32_t low;
};
struct base {
    std::uint64_t low;
    std::uint8_t more;
};
struct derived : base {
    std::uint8_t own;
};

template <nidzaru::cell C> static void calls() {
    const long had = blocks;
    {
        auto [writer, readers] = nidzaru::make_fan<3, C>(whole{0, 1, 2});
        check(writer && readers[0] && readers[2], "each has a side");
        for (auto &reader : readers) {
            const auto got = reader.latest();
            check(got && got->low == 0 && got->high == 2 && reader.number() == 0 && !reader.has_news(), "the opening");
        }
        check(!writer.write({3, 4, 5}), "a write");
        whole got{};
        std::uint64_t number = 77;
        for (auto &reader : readers)
            check(!reader.read(got, number) && number == 1 && got.low == 3 && got.number == 4 && got.high == 5,
                  "one record under one number");
        check(!writer.write({6, 7, 8}) && readers[1].news()->low == 6 && !readers[1].news(), "news");
        nidzaru::fan_writer<whole, C> moved(std::move(writer));
        check(!writer && writer.write({9, 9, 9}) == NIDZARU_ENDED && !moved.write({9, 9, 9}), "a moved writer");
        auto reader = std::move(readers[2]);
        check(!readers[2] && reader.latest()->low == 9 && reader.number() == 3, "a moved reader");
        readers[0].end();
        check(!moved.write({10, 10, 10}) && readers[1].latest()->low == 10 && reader.latest()->low == 10, "the others go on");
        check(!moved.end() && moved.end() == NIDZARU_ENDED && readers[1].latest()->low == 10, "a reader keeps the last record");
        auto other = nidzaru::try_make_fan<1, C>(whole{});
        check(other && blocks > had, "another fan");
        moved = std::move(other->first);
        check(!moved.write({1, 2, 3}) && other->second[0].latest()->low == 1, "a writer in the place of one that has ended");
        moved = nidzaru::fan_writer<whole, C>();
        check(!moved && moved.write({1, 2, 3}) == NIDZARU_ENDED, "a writer that goes where another one is put");
    }
    check(blocks == had, "all memory is given back");
}

// A writer that was cut off can't be ended: one that is moved there takes its place.
template <nidzaru::cell C> static void moves_onto_cut_off() {
    const long had = blocks;
    {
        auto [writer, readers] = nidzaru::make_fan<2, C>(whole{0, 1, 2});
        auto [other, others] = nidzaru::make_fan<2, C>(whole{3, 4, 5});
        auto &handle = reinterpret_cast<nidzaru_handle &>(writer);
        auto kept = handle;
        handle.side.live = NIDZARU_BUSY;
        check(writer.write({6, 6, 6}) == NIDZARU_CUT_OFF && writer.end() == NIDZARU_CUT_OFF && writer, "a writer that was cut off");
        writer = std::move(other);
        check(!other && other.write({7, 7, 7}) == NIDZARU_ENDED && !writer.write({8, 8, 8}), "a writer in its place");
        check(others[0].latest()->low == 8 && others[1].latest()->low == 8 && readers[0].latest()->low == 0, "writes to its own readers");
        // (the memory of the side that was cut off, which no class gives back)
        check(!nidzaru_fan_end(C == nidzaru::cell::triple, sizeof(whole), &kept), "the memory of a writer that was cut off");
    }
    check(blocks == had, "all memory is given back after a writer that was cut off");
}

static void copies() {
    auto [writer, readers] = nidzaru::make_fan<2>(part{7});
    check(!writer.write(part{8}) && readers[0].latest()->low == 8 && readers[1].latest()->low == 8, "a record that is copied");
    auto [bases, seen] = nidzaru::make_fan<2, nidzaru::cell::triple>(base{1, 2});
    derived item{};
    item.own = 9;
    std::uint64_t number = 0;
    check(!bases.write(base{3, 4}) && !seen[1].read(item, number) && item.low == 3 && item.more == 4 && item.own == 9 && number == 1,
          "a base");
    check(seen[0].hold()->low == 3, "a hold");
}

static void memory() {
    const long had = blocks;
    long at = 0;
    for (;; at++) {
        left = at;
        const auto made = nidzaru::try_make_fan<2>(whole{});
        left = -1;
        if (made) break;
        check(blocks == had, "what was made is given back");
    }
    check(at >= 3 && blocks == had, "each request was refused once");
    left = 2;
    bool is_thrown = false;
    try {
        const auto made = nidzaru::make_fan<2>(whole{});
    } catch (const std::bad_alloc &) { is_thrown = true; }
    left = -1;
    check(is_thrown && blocks == had, "a refusal is thrown");
}

int main() {
    calls<nidzaru::cell::four_slot>();
    calls<nidzaru::cell::triple>();
    moves_onto_cut_off<nidzaru::cell::four_slot>();
    moves_onto_cut_off<nidzaru::cell::triple>();
    copies();
    memory();
    if (failed) return 1;
    std::puts("passed");
    return 0;
}
