// Registers and boards between processes as C++ objects, beside those of nidzaru_shared.h over the same block: what is claimed, yielded,
// refused, moved and recovered, and what a child sees. The last line is 'each object has its claim'.
#define NIDZARU_SHARED_IMPLEMENTATION
#include "nidzaru_shared.hpp"

#include <cstdio>
#include <cstdlib>
#include <string>
#include <sys/wait.h>

struct reading {
    double low, value, high;
};
struct small {
    std::uint32_t low;
};
NIDZARU_REGISTER(in_c, struct reading);
NIDZARU_SHARED_REGISTER(in_c);
NIDZARU_TRIPLE_REGISTER(triple_in_c, struct small);
NIDZARU_SHARED_REGISTER(triple_in_c);
NIDZARU_TRIPLE_BOARD(board_in_c, struct reading);
NIDZARU_SHARED_BOARD(board_in_c, 3);

using register_of = nidzaru::shared_register<reading>;
using triple_of = nidzaru::shared_register<small, nidzaru::cell::triple>;
using board_of = nidzaru::shared_board<reading, 3, nidzaru::cell::triple>;
static_assert(sizeof(register_of) == sizeof(in_c_shared) && alignof(register_of) == alignof(in_c_shared),
              "a register's layout is that of C");
static_assert(sizeof(triple_of) == sizeof(triple_in_c_shared), "a triple buffer's layout is that of C");
static_assert(sizeof(board_of) == sizeof(board_in_c_shared), "a board's layout is that of C");
constexpr std::size_t make_bytes = register_of::make_bytes() + triple_of::make_bytes() + board_of::make_bytes();

struct plant {
    static constexpr const char *shared_name = "struct plant";
    register_of readings;
    triple_of smalls;
    board_of plans;
    std::uint32_t seen;
};
struct other {
    static constexpr const char *shared_name = "struct other";
    plant same;
};
namespace c {
struct plant {
    in_c_shared readings;
    triple_in_c_shared smalls;
    board_in_c_shared plans;
    std::uint32_t seen;
};
NIDZARU_SHARED_BLOCK(plant, struct plant);
} // namespace c

static void check(bool holds, const char *what) {
    if (holds) return;
    std::printf("shared objects: %s\n", what);
    std::exit(1);
}

using block = nidzaru::shared_block<plant>;
using writer = nidzaru::shared_writer<reading>;
using reader = nidzaru::shared_reader<reading>;
using place = nidzaru::shared_place<reading, nidzaru::cell::triple>;

// What a child answers.
template <class Work> static int by_child(Work work) {
    int status = 0;
    const pid_t child = fork();
    if (!child) _exit(work());
    waitpid(child, &status, 0);
    return WIFEXITED(status) ? WEXITSTATUS(status) : 99;
}

static void registers(block &it) {
    const in_c_shared &as_in_c = reinterpret_cast<const in_c_shared &>(it->readings);
    writer w, other_writer;
    reader r;
    reading got{};
    std::uint64_t number = 77;
    check(it->readings.claim_writer(it, w) == NIDZARU_SHARED_NOT_READY && !w, "a claim of what isn't made");
    check(w.write({1, 2, 3}) == NIDZARU_ENDED && r.read(got, number) == NIDZARU_ENDED && r.look(number) == NIDZARU_ENDED && !r.latest(),
          "no claim");
    check(!it->readings.make(it, {1, 2, 3}) && it->readings.make(it, {9, 9, 9}) == NIDZARU_IN_USE, "make, once");
    check(!it->readings.claim_writer(it, w) && w && !it->readings.claim_reader(it, r), "claims");
    check(by_child([&] { return it->readings.claim_writer(it, other_writer); }) == NIDZARU_SHARED_CLAIMED,
          "a claim of what another thread has");
    check(it.detach() == NIDZARU_SHARED_CLAIMED, "a detach beside claims");
    check(!r.has_news() && r.latest()->value == 2 && r.number() == 0, "the opening");
    check(!w.write({4, 5, 6}) && r.has_news() && !r.look(number) && number == 1 && r.news()->high == 6 && r.number() == 1 && !r.news(),
          "news");
    check(!w.write({7, 8, 9}) && !r.read(got, number) && number == 2 && got.low == 7 && got.high == 9, "a read");
    other_writer = std::move(w);
    check(!w && other_writer && w.write({1, 1, 1}) == NIDZARU_ENDED && !other_writer.write({1, 1, 1}), "a claim that is moved");
    check(as_in_c.writer.handle.home == &as_in_c.writer.handle, "the handle stays in the block");
    check(!other_writer.yield() && !other_writer && other_writer.yield() == NIDZARU_SHARED_NOT_OWNER, "a yield");
    check(by_child([&] {
              writer mine;
              return it->readings.claim_writer(it, mine) || mine.write({10, 11, 12});
          }) == 0 &&
              !r.read(got, number) && number == 4 && got.value == 11,
          "a child's write");
    {
        writer mine;
        check(!it->readings.claim_writer(it, mine), "a claim");
    }
    check(!it->readings.claim_writer(it, w) && !it->readings.claim_reader(it, r) && r.number() == 0, "a claim that goes, and one again");
    w = writer();
    check(by_child([&] {
              writer mine;
              if (it->readings.claim_writer(it, mine)) return 1;
              const_cast<in_c_shared &>(as_in_c).writer.handle.side.live = NIDZARU_BUSY;
              _exit(0);
          }) == 0,
          "an owner that dies within a call");
    check(it->readings.claim_writer(it, w) == NIDZARU_SHARED_OWNER_DEAD && !w, "a claim after it");
    check(!it->readings.recover_writer(it, w) && !w.write({2, 2, 2}) && r.latest()->low == 2, "a recovery");
    r.yield();
    check(!it->readings.recover_reader(it, r) && r.latest()->low == 2, "a recovery of what isn't lost");
}

static void triples(block &it) {
    nidzaru::shared_writer<small, nidzaru::cell::triple> w;
    nidzaru::shared_reader<small, nidzaru::cell::triple> r;
    check(!it->smalls.make(it, {1}) && !it->smalls.claim_writer(it, w) && !it->smalls.claim_reader(it, r) && !w.write({2}) &&
              r.news()->low == 2,
          "a triple buffer");
    w.yield();
    reinterpret_cast<triple_in_c_shared &>(it->smalls).writer.handle.side.live = NIDZARU_BUSY;
    check(it->smalls.recover_writer(it, w) == NIDZARU_SHARED_LOST && !w, "a recovery over a triple buffer");
}

static void boards(block &it) {
    place places[3], other_place;
    nidzaru::stamp stamp;
    reading got{};
    check(!it->plans.make(it, {1, 2, 3}) && it->plans.make(it, {1, 2, 3}) == NIDZARU_IN_USE, "a board is made once");
    check(it->plans.claim(it, 3, places[0]) == NIDZARU_PROCESSES && places[0].write({1, 1, 1}, stamp) == NIDZARU_ENDED, "no fourth place");
    for (std::size_t k = 0; k < 3; k++) check(!it->plans.claim(it, k, places[k]), "a claim of a place");
    check(by_child([&] { return it->plans.claim(it, 2, other_place); }) == NIDZARU_SHARED_CLAIMED, "a place that another thread has");
    check(!places[0].write({4, 5, 6}, stamp) && stamp == nidzaru::stamp(1, 0) && places[0].last_stamp() == stamp, "a write");
    check(places[1].news()->value == 5 && !places[1].news() && places[1].last_stamp() == stamp, "news of a board");
    check(!places[2].read(got, stamp) && stamp == nidzaru::stamp(1, 0) && got.high == 6 && places[2].latest()->low == 4,
          "a read of a board");
    check(!places[2].write({7, 8, 9}, stamp) && stamp == nidzaru::stamp(2, 2) && places[0].latest()->value == 8, "another place's write");
}

// By a name, beside a program in C over the same block.
static void names() {
    const std::string name = "/nidzaru-objects-" + std::to_string(getpid());
    {
        block gone;
        check(!gone.create(name.c_str(), 1 << 20) && !gone.unlink(name.c_str()), "a block that goes");
    }
    block made, again;
    nidzaru::shared_block<other> of_other;
    writer w;
    check(made.create(name.c_str(), 1 << 20) == NIDZARU_DONE && made.create(name.c_str(), 1 << 20) == NIDZARU_IN_USE, "a block in the place of the one that went");
    check(again.create(name.c_str(), 1 << 20) == NIDZARU_SHARED_NAME_TAKEN && again.attach(nullptr) == NIDZARU_NULL && !again,
          "a name that is taken");
    const std::size_t left = made.left();
    check(!made->readings.make(made, {1, 2, 3}) && made.left() < left && !made.open(), "make and open");
    check(by_child([&] { return of_other.attach(name.c_str()); }) == NIDZARU_SHARED_OTHER_TYPE, "an attach of another type");
    check(!made.detach() && !made && !again.attach(name.c_str()), "an attach");
    check(!again->readings.claim_writer(again, w) && !w.write({4, 5, 6}), "a write after it");
    check(by_child([&]() -> int {
              nidzaru_shared in_c;
              c::plant *root;
              in_c_reader *r;
              reading got;
              std::uint64_t number = 0;
              if (again.detach() || c::plant_attach(&in_c, name.c_str(), &root) || in_c_claim_reader(&in_c, &root->readings, &r)) return 1;
              return in_c_read(r, &got, &number) || number != 1 || got.value != 5;
          }) == 0,
          "what the program in C reads");
    check(!again.unlink(name.c_str()) && again.unlink(name.c_str()) == NIDZARU_SHARED_NO_BLOCK, "unlink");
}

int main() {
    {
        block it;
        check(!it && it.open() == NIDZARU_SHARED_ELSEWHERE && it.left() == 0 && !it.create(nullptr, 1 << 20) && it,
              "a block without a name");
        registers(it);
        triples(it);
        boards(it);
        check(it.left() == (std::size_t{1} << 20) - block::create_bytes() - make_bytes, "what makes take");
        check(it.detach() == NIDZARU_DONE && !it, "each claim went");
    }
    names();
    std::puts("each object has its claim");
    return 0;
}
