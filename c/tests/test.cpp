// The C++ classes: two threads, moves, ends, small and unaligned records, and objects that go in any order; records of odd types; the
// functions of the macro in C++; refused memory. Link with --wrap=malloc,--wrap=realloc,--wrap=free.
#include "memory.hpp"
#include "nidzaru.hpp"
#include "records.hpp"

#include <cstdlib>
#include <memory>
#include <thread>

namespace {

struct small {
    float x, y;
    std::uint32_t n;
};

struct whole {
    std::uint64_t words[3];
};

// An array of this number, and whether two are the same.
template <class T> T filled(std::uint64_t n) {
    T x;
    x.fill(typename T::value_type(n));
    return x;
}

template <class T> bool same(const T &a, const T &b) { return a == b; }

template <nidzaru::cell C, class T, class Of, class Same> void threads(std::uint64_t many, Of of, Same same) {
    auto [w, r] = nidzaru::make<T, C>(of(0));
    std::uint64_t torn = 0, fell = 0, fresh = 0, last = 0;
    // The writer waits for an answer now and then, so that the two threads run at once.
    std::atomic<std::uint64_t> answers{0};
    std::atomic<bool> stopped{false};
    std::thread writing([&, w = std::move(w)]() mutable {
        for (std::uint64_t i = 1; i <= many; i++) {
            if (w.write(of(i))) return;
            if (i % 256 == 0) {
                for (auto before = answers.load(); answers == before && !stopped;) std::this_thread::yield();
            }
        }
    });
    std::thread reading([&, r = std::move(r)]() mutable {
        while (last < many) {
            T x;
            std::uint64_t n = 0;
            if (r.read(x, n)) break;
            torn += !same(x, of(n));
            fell += n < last;
            fresh += n > last;
            last = n;
            answers++;
        }
        stopped = true;
    });
    writing.join();
    reading.join();
    check(last == many && !torn && !fell, "two threads");
    check(fresh >= many / 512, "the threads didn't run at once");
    check(w.write(of(1)) == NIDZARU_ENDED, "a write of a side that was moved away");
}

void moves() {
    auto [w, r] = nidzaru::make(whole{{1, 2, 3}});
    nidzaru::writer<whole> to;
    check(to.write({{4, 5, 6}}) == NIDZARU_ENDED, "an empty writer");
    to = std::move(w);
    check(w.end() == NIDZARU_ENDED, "the end of a side that was moved away");
    check(to.write({{4, 5, 6}}) == NIDZARU_DONE, "a write after the move");
    auto there = std::move(r);
    whole x{};
    std::uint64_t n = 0;
    check(there.read(x, n) == NIDZARU_DONE && n == 1 && x.words[2] == 6, "a read after the move");
    auto &same_writer = to;
    auto &same_reader = there;
    to = std::move(same_writer);
    there = std::move(same_reader);
    check(to.write({{7, 5, 6}}) == NIDZARU_DONE, "a write after a move to itself");
    check(there.read(x, n) == NIDZARU_DONE && n == 2 && there.number() == 2, "a read after a move to itself");
    check(to.end() == NIDZARU_DONE && to.end() == NIDZARU_ENDED, "an end");
    check(there.read(x, n) == NIDZARU_DONE && n == 2 && x.words[0] == 7, "a read after the writer's end");
    auto [v, s] = nidzaru::make_triple(whole{{7, 8, 9}});
    to = nidzaru::writer<whole>();
    check(v.write({{1, 1, 1}}) == NIDZARU_DONE && s.read(x, n) == NIDZARU_DONE && n == 1, "a triple buffer");
}

// A move into a handle that has a side ends that side and takes the other.
void moves_into_live() {
    const long had = blocks;
    {
        auto [w, r] = nidzaru::make(whole{{1, 0, 0}});
        auto [v, s] = nidzaru::make(whole{{2, 0, 0}});
        whole x{};
        std::uint64_t n = 77;
        const long before = blocks;
        v = std::move(w);
        check(blocks < before, "the side that was there is ended");
        check(s.read(x, n) == NIDZARU_DONE && x.words[0] == 2 && n == 0, "its reader goes on");
        check(v.write({{3, 0, 0}}) == NIDZARU_DONE && r.read(x, n) == NIDZARU_DONE && x.words[0] == 3 && n == 1, "the new side writes");
        check(s.read(x, n) == NIDZARU_DONE && x.words[0] == 2, "and not into the old register");
        s = std::move(r);
        check(s.number() == 1 && !s.has_news() && s.read(x, n) == NIDZARU_DONE && x.words[0] == 3, "a reader moved into a live one");
        check(r.read(x, n) == NIDZARU_ENDED && w.write(x) == NIDZARU_ENDED, "the sides that were moved away");
    }
    check(blocks == had, "blocks after moves");
}

// Marks a side as one whose last call was cut off, and gives the handle that it had.
template <class Side> nidzaru_handle cut_off(Side &side) {
    auto &handle = reinterpret_cast<nidzaru_handle &>(side);
    const nidzaru_handle had = handle;
    check(had.home == &handle, "where the handle of an object lies");
    handle.side.live = NIDZARU_BUSY;
    return had;
}

// A side that was cut off can't be ended: one that is moved there takes its place.
template <nidzaru::cell C> void moves_onto_cut_off() {
    const long before = blocks;
    {
        auto [w, r] = nidzaru::make<whole, C>(whole{{1, 0, 0}});
        auto [v, s] = nidzaru::make<whole, C>(whole{{2, 0, 0}});
        auto writing = cut_off(w), reading = cut_off(r);
        whole x{};
        std::uint64_t n = 77;
        check(w.write(x) == NIDZARU_CUT_OFF && r.read(x, n) == NIDZARU_CUT_OFF, "calls of sides that were cut off");
        check(w.end() == NIDZARU_CUT_OFF && r.end() == NIDZARU_CUT_OFF && w && r, "ends of sides that were cut off");
        w = std::move(v);
        r = std::move(s);
        check(!v && !s && v.write(x) == NIDZARU_ENDED && s.read(x, n) == NIDZARU_ENDED, "the sides that were moved there");
        check(w.write({{3, 0, 0}}) == NIDZARU_DONE && r.read(x, n) == NIDZARU_DONE && x.words[0] == 3 && n == 1, "what took their place");
        // (the memory of the sides that were cut off, which no class gives back)
        const int triple = C == nidzaru::cell::triple;
        check(!nidzaru_sized_end_writer(triple, sizeof x, &writing), "the memory of a writer that was cut off");
        check(!nidzaru_sized_end_reader(triple, sizeof x, &reading), "the memory of a reader that was cut off");
    }
    check(blocks == before, "blocks after moves onto sides that were cut off");
}

void news() {
    auto [w, r] = nidzaru::make(whole{{1, 2, 3}});
    std::uint64_t n = 77;
    check(!r.has_news() && r.number() == 0, "no news in a new register");
    check(r.look(n) == NIDZARU_DONE && n == 0, "a look at the opening");
    check(w.write({{4, 0, 0}}) == NIDZARU_DONE && w.write({{5, 0, 0}}) == NIDZARU_DONE, "writes");
    const long took = asked;
    check(r.has_news() && r.has_news() && r.number() == 0, "news stays until it is read");
    auto x = r.latest();
    check(x && x->words[0] == 5 && r.number() == 2, "latest");
    check(!r.has_news() && r.look(n) == NIDZARU_DONE && n == 2, "no news after a read");
    check(asked == took, "memory that is taken by a read");
    check(r.end() == NIDZARU_DONE && !r.latest() && !r.has_news() && r.look(n) == NIDZARU_ENDED && n == 2, "an ended reader");
    check(r.number() == 2, "the last number stays");
}

enum class mode : unsigned char { off, on };

template <nidzaru::cell C> void odd_types() {
    {
        auto [w, r] = nidzaru::make<elsewhere, C>(elsewhere{{1, 2, 3}});
        elsewhere x{{0, 0, 0}};
        std::uint64_t n = 77;
        check(r.read(x, n) == NIDZARU_DONE && x.words[2] == 3, "an opening with an & of its own");
        check(w.write(elsewhere{{4, 5, 6}}) == NIDZARU_DONE && r.read(x, n) == NIDZARU_DONE && x.words[2] == 6 && n == 1,
              "a record with an & of its own");
        check(r.latest()->words[0] == 4, "the latest with an & of its own");
    }
    {
        auto [w, r] = nidzaru::make<base, C>(base(1));
        derived d;
        std::uint64_t n = 77;
        d.kept = 42;
        check(r.read(d, n) == NIDZARU_DONE && d.is(1) && d.kept == 42, "what is derived keeps its tail");
        check(w.write(base(2)) == NIDZARU_DONE && r.read(d, n) == NIDZARU_DONE && d.is(2) && d.kept == 42, "and again");
        check(w.write(d) == NIDZARU_DONE && r.latest()->is(2), "the base of what is derived is written");
    }
    {
        auto [w, r] = nidzaru::make<fixed, C>(fixed{1});
        check(w.write(fixed{2}) == NIDZARU_DONE && r.latest()->value == 2, "a record that can't be assigned");
    }
    {
        auto [w, r] = nidzaru::make<last_one, C>(last_one{1.0, 1});
        last_one x{};
        std::uint64_t n;
        check(w.write({2.0, 2}) == NIDZARU_DONE && r.read(x, n) == NIDZARU_DONE && x.value == 2.0 && x.n == 2, "a final class");
    }
    {
        auto [w, r] = nidzaru::make<either, C>(either{1});
        either x{};
        std::uint64_t n;
        check(w.write(either{2}) == NIDZARU_DONE && r.read(x, n) == NIDZARU_DONE && x.number == 2, "a union");
    }
    {
        auto [w, r] = nidzaru::make<mode, C>(mode::off);
        mode x = mode::off;
        std::uint64_t n;
        check(w.write(mode::on) == NIDZARU_DONE && r.read(x, n) == NIDZARU_DONE && x == mode::on, "an enum");
    }
    {
        auto [w, r] = nidzaru::make<double, C>(1.5);
        double x = 0;
        std::uint64_t n;
        check(w.write(2.5) == NIDZARU_DONE && r.read(x, n) == NIDZARU_DONE && x == 2.5, "a number");
    }
}

// The macro's functions in C++.
NIDZARU_REGISTER(bases, base);
NIDZARU_REGISTER(elsewheres, elsewhere);
NIDZARU_TRIPLE_REGISTER(numbers, double);

void functions() {
    bases_writer bw = NIDZARU_EMPTY;
    bases_reader br = NIDZARU_EMPTY;
    base first(1), second(2);
    derived d;
    std::uint64_t n = 77;
    d.kept = 42;
    check(!bases_make(&first, &bw, &br) && !bases_write(&bw, &second), "a register of a class");
    check(!bases_read(&br, &d, &n) && n == 1 && d.is(2) && d.kept == 42, "the macro's read leaves the tail");
    check(!bases_end_writer(&bw) && !bases_end_reader(&br), "ends");
    elsewheres_writer ew = NIDZARU_EMPTY;
    elsewheres_reader er = NIDZARU_EMPTY;
    elsewhere x{{1, 2, 3}}, y{{0, 0, 0}};
    check(!elsewheres_make(std::addressof(x), &ew, &er) && !elsewheres_read(&er, std::addressof(y), &n) && y.words[2] == 3,
          "the macro's functions with an & of its own");
    check(!elsewheres_end_writer(&ew) && !elsewheres_end_reader(&er), "ends");
    numbers_writer nw = NIDZARU_EMPTY;
    numbers_reader nr = NIDZARU_EMPTY;
    double a = 1.5, b = 0;
    check(!numbers_make(&a, &nw, &nr) && !numbers_read(&nr, &b, &n) && b == 1.5 && !numbers_look(&nr, &n) && n == 0, "numbers");
    check(!numbers_end_writer(&nw) && !numbers_end_reader(&nr), "ends");
}

// What is held lies there whole until the reader's next call, and its number is the reader's.
template <class T> void holds(T (*of)(std::uint64_t), bool (*same)(const T &, const T &)) {
    auto [w, r] = nidzaru::make_triple(of(0));
    const T *at = r.hold();
    check(at && same(*at, of(0)) && r.number() == 0, "the opening is held");
    const long took = asked;
    for (std::uint64_t n = 1; n <= 100; n++) {
        check(!w.write(of(2 * n - 1)) && !w.write(of(2 * n)) && same(*at, of(2 * n - 2)) && r.number() == 2 * n - 2, "what was held stays");
        at = r.hold();
        check(at && same(*at, of(2 * n)) && r.number() == 2 * n && r.hold() == at && !r.has_news(), "what is held");
        check(!r.hold_news() && r.number() == 2 * n, "no news is held");
    }
    check(asked == took, "a hold took memory");
    auto moved = std::move(r);
    check(!r.hold() && r.number() == 200, "a reader without a side holds nothing");
    at = moved.hold();
    check(!w.end() && at && same(*at, of(200)) && moved.number() == 200, "a reader that was moved");
}

// What is filled where it lies is the next record, whole, with the next number.
template <class T> void fills(T (*of)(std::uint64_t), bool (*same)(const T &, const T &)) {
    auto [w, r] = nidzaru::make_triple(of(0));
    const long took = asked;
    for (std::uint64_t n = 1; n <= 100; n++) {
        T *at = w.loan();
        check(at && same(*at, of(n < 4 ? 0 : n - 3)), "what lies there");
        *at = of(n);
        check(!w.publish() && same(*r.latest(), of(n)) && r.number() == n, "what is published");
    }
    check(asked == took, "a write in place took memory");
    auto moved = std::move(w);
    check(!w.loan() && w.publish() == NIDZARU_ENDED, "a writer without a side lends nothing");
    check(!r.end() && moved.loan() && !moved.publish(), "a writer that was moved");
}

template <nidzaru::cell C> void memory() {
    bool done = false;
    for (long at = 1; !done; at++) {
        const long had = blocks;
        asked = 0;
        refuse = at;
        {
            auto both = nidzaru::try_make<whole, C>(whole{{1, 2, 3}});
            done = asked < at;
            refuse = -1;
            check(both.has_value() == done, "try_make where memory is refused");
            if (both) check(both->second.latest()->words[2] == 3, "what try_make made");
        }
        check(blocks == had, "blocks after try_make");
        if (done) {
            check(at > 4, "no request was refused");
            break;
        }
        bool threw = false;
        asked = 0;
        refuse = at;
        try {
            auto both = nidzaru::make<whole, C>(whole{{1, 2, 3}});
            refuse = -1;
        } catch (const std::bad_alloc &) {
            refuse = -1;
            threw = true;
        }
        check(threw, "make throws where memory is refused");
    }
}

} // namespace

int main(int count, char **words) {
    const std::uint64_t many = count > 1 ? std::strtoull(words[1], nullptr, 10) : 10000;
    auto whole_of = [](std::uint64_t n) { return whole{{n, n * 3, n + 7}}; };
    auto same_whole = [](const whole &a, const whole &b) { return std::memcmp(&a, &b, sizeof a) == 0; };
    auto small_of = [](std::uint64_t n) { return small{float(n % 4096), float(n % 4096) / 2, std::uint32_t(n)}; };
    auto same_small = [](const small &a, const small &b) { return a.x == b.x && a.y == b.y && a.n == b.n; };
    threads<nidzaru::cell::four_slot, whole>(many, whole_of, same_whole);
    threads<nidzaru::cell::triple, whole>(many, whole_of, same_whole);
    threads<nidzaru::cell::four_slot, small>(many, small_of, same_small);
    threads<nidzaru::cell::triple, small>(many, small_of, same_small);
    holds<whole>(whole_of, same_whole);
    holds<small>(small_of, same_small);
    holds<double>([](std::uint64_t n) { return double(n); }, [](const double &a, const double &b) { return a == b; });
    fills<whole>(whole_of, same_whole);
    fills<small>(small_of, same_small);
    fills<double>([](std::uint64_t n) { return double(n); }, [](const double &a, const double &b) { return a == b; });
    using page = std::array<std::uint64_t, 512>;
    holds<page>(filled<page>, same<page>);
    // Large records: as large as the library's, and one that isn't.
    using scan = std::array<std::uint64_t, 8192>;
    using larger = std::array<unsigned char, 70000>;
    holds<scan>(filled<scan>, same<scan>);
    holds<larger>(filled<larger>, same<larger>);
    fills<scan>(filled<scan>, same<scan>);
    fills<larger>(filled<larger>, same<larger>);
    threads<nidzaru::cell::four_slot, scan>(many / 16 + 1, filled<scan>, same<scan>);
    threads<nidzaru::cell::triple, larger>(many / 16 + 1, filled<larger>, same<larger>);
    moves();
    moves_into_live();
    moves_onto_cut_off<nidzaru::cell::four_slot>();
    moves_onto_cut_off<nidzaru::cell::triple>();
    news();
    odd_types<nidzaru::cell::four_slot>();
    odd_types<nidzaru::cell::triple>();
    functions();
    memory<nidzaru::cell::four_slot>();
    memory<nidzaru::cell::triple>();
    std::puts(failed ? "FAILED" : "passed");
    return failed != 0;
}
