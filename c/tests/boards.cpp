// Places at boards as C++ objects: threads, moves, ends, odd records, stamps, news, and memory that is refused and counted. Also what
// test.cpp leaves of registers: sides in an `if`, news, and numbers that lie in the record. usage: boards [CALLS]. The last line is
// "passed". Link with --wrap=malloc,--wrap=realloc,--wrap=free.
#include "memory.hpp"
#include "nidzaru.hpp"
#include "records.hpp"

#include <cstdlib>
#include <stdexcept>
#include <thread>
#include <type_traits>
#include <vector>

namespace {

using nidzaru::cell;
using nidzaru::stamp;

struct plan {
    std::uint64_t from, to, sum;
};

// A record that a copy goes through, and that is less aligned, and a large one.
template <std::size_t N> struct words {
    std::uint32_t words[N];
};
using note = words<5>;
using page = words<1000>;

// No side can be copied, and any may be moved.
template <class T> constexpr bool moves_alone = std::is_nothrow_move_constructible<T>::value && std::is_nothrow_move_assignable<T>::value
                                                && !std::is_copy_constructible<T>::value && !std::is_copy_assignable<T>::value;
static_assert(moves_alone<nidzaru::writer<plan>> && moves_alone<nidzaru::writer<note, cell::triple>>, "writers move");
static_assert(moves_alone<nidzaru::reader<plan>> && moves_alone<nidzaru::reader<note, cell::triple>>, "readers move");
static_assert(moves_alone<nidzaru::place<plan>> && moves_alone<nidzaru::place<note, cell::triple>>, "places move");

// Another object begins 64 bytes behind what the calls store into.
static_assert(sizeof(nidzaru::writer<plan>) >= sizeof(nidzaru_handle) + 64, "writers lie apart");
static_assert(sizeof(nidzaru::reader<plan>) >= sizeof(nidzaru_handle) + 8 + 64, "readers lie apart");
static_assert(sizeof(nidzaru::place<plan>) >= sizeof(nidzaru_handle) + 16 + 64, "places lie apart");

template <std::size_t N, cell C> void threads(std::uint64_t calls) {
    std::uint64_t torn[N] = {}, fell[N] = {}, wrong[N] = {};
    auto places = nidzaru::make_board<N, C>(plan{0, 0, 0});
    auto notes = nidzaru::make_board<N, C>(note{});
    auto pages = nidzaru::make_board<N, C>(page{});
    std::vector<std::thread> tasks;
    for (std::size_t me = 0; me < N; me++)
        tasks.emplace_back([&, me, place = std::move(places[me]), other = std::move(notes[me]), large = std::move(pages[me])]() mutable {
            stamp last, given;
            for (std::uint64_t n = 1; n <= calls; n++) {
                plan p{n, me, n + me};
                wrong[me] += place.write(p, given) != 0 || given.writer != me || !(last < given) || place.last_stamp() != given;
                last = given;
                wrong[me] += place.read(p, given) != 0;
                torn[me] += p.sum != p.from + p.to;
                fell[me] += given < last;
                last = given;
                auto status = place.read_since(last, p, given);
                wrong[me] += status != NIDZARU_DONE || given < last;
                last = given;
                note x;
                for (auto &word : x.words) word = static_cast<std::uint32_t>(n);
                wrong[me] += other.write(x, given) != 0;
                auto seen = other.latest();
                wrong[me] += !seen || other.last_stamp() < given;
                for (auto &word : seen->words) torn[me] += word != seen->words[0];
                auto fresh = other.news();
                if (fresh) {
                    wrong[me] += !(other.last_stamp() > given);
                    for (auto &word : fresh->words) torn[me] += word != fresh->words[0];
                }
                if (n % 8) continue;
                page y;
                for (auto &word : y.words) word = static_cast<std::uint32_t>(n);
                wrong[me] += large.write(y, given) != 0 || large.read(y, given) != 0;
                for (auto &word : y.words) torn[me] += word != y.words[0];
            }
        });
    for (auto &task : tasks) task.join();
    for (std::size_t me = 0; me < N; me++) {
        check(!torn[me], "a torn record");
        check(!fell[me], "a stamp that fell");
        check(!wrong[me], "a call that was refused");
    }
}

template <cell C> void calls() {
    auto places = nidzaru::make_board<2, C>(1.5, 1);
    stamp given(7, 7);
    double x = 0;
    check(places[0] && places[1] && !nidzaru::place<double, C>(), "whether there is a place");
    check(!places[1].read(x, given) && x == 1.5 && given == stamp() && places[1].last_stamp() == stamp(), "the opening");
    const long took = asked;
    check(!places[0].write(2.5, given) && given.tag == 1 && given.writer == 0 && places[0].last_stamp() == given, "a write");
    given = stamp(7, 7);
    check(places[1].write(3.5, given) == NIDZARU_REFUSED && given == stamp(7, 7), "the tags have ended");
    check(!places[1].read(x, given) && x == 2.5 && given == stamp(1, 0) && places[1].last_stamp() == given, "a read");
    auto moved = std::move(places[0]);
    check(!places[0] && moved && moved.last_stamp() == stamp(1, 0), "a place that was moved");
    check(places[0].read(x, given) == NIDZARU_ENDED && !places[0].latest() && places[0].write(x, given) == NIDZARU_ENDED
              && places[0].read_since(stamp(), x, given) == NIDZARU_ENDED && !places[0].has_news() && !places[0].news(),
          "calls of a place that was moved");
    auto &same = moved;
    moved = std::move(same);
    check(!moved.read(x, given) && x == 2.5, "a move onto itself");
    x = 0;
    check(moved.read_since(stamp(2, 0), x, given) == NIDZARU_OLDER && x == 2.5 && given == stamp(1, 0), "older");
    check(moved.read_since(stamp(1, 1), x, given) == NIDZARU_OLDER && moved.read_since(stamp(1, 0), x, given) == NIDZARU_DONE, "since");
    places[0] = std::move(moved);
    check(asked == took, "a call but make took memory");
    check(!places[0].end() && !places[0] && places[0].end() == NIDZARU_ENDED, "an end");
    check(places[1].latest() == 2.5, "the other goes on");
}

// The stamp that a place has is that of its last call, whichever it was, and goes along with it.
template <cell C> void last_stamps() {
    auto places = nidzaru::make_board<3, C>(note{});
    auto others = nidzaru::make_board<2, C>(note{});
    note x{};
    stamp given;
    check(!places[0].write(x, given) && !places[1].read(x, given) && places[1].last_stamp() == stamp(1, 0), "after a read");
    check(!places[0].write(x, given) && !places[1].read_since(given, x, given) && places[1].last_stamp() == stamp(2, 0), "after read_since");
    check(!places[0].write(x, given) && places[1].read_since(stamp(9, 0), x, given) == NIDZARU_OLDER
              && places[1].last_stamp() == stamp(3, 0), "after an older answer");
    check(!places[0].write(x, given) && places[1].latest() && places[1].last_stamp() == stamp(4, 0), "after latest");
    check(!places[0].write(x, given) && places[1].news() && places[1].last_stamp() == stamp(5, 0), "after news");
    check(!places[1].write(x, given) && given == stamp(6, 1) && places[1].last_stamp() == given, "after a write");
    others[0] = std::move(places[1]);
    check(others[0].last_stamp() == stamp(6, 1) && !others[0].has_news(), "after an assignment");
    check(!others[0].write(x, given) && given == stamp(7, 1) && !others[1].read(x, given) && given == stamp(), "each on its board");
}

template <cell C> void news() {
    auto places = nidzaru::make_board<2, C>(1.5);
    stamp given;
    check(!places[1].has_news() && !places[1].news(), "the opening is no news");
    check(!places[0].write(2.5, given) && !places[0].has_news() && !places[0].news(), "the own write is none");
    check(places[1].has_news() && places[1].has_news() && places[1].last_stamp() == stamp(), "news stays until it is read");
    check(places[1].news() == 2.5 && places[1].last_stamp() == given && !places[1].has_news() && !places[1].news(), "news");
    auto [w, r] = nidzaru::make<double, C>(1.5);
    check(w && r && !nidzaru::writer<double, C>() && !nidzaru::reader<double, C>(), "whether there is a side");
    check(!r.news() && r.number() == 0, "the opening of a register is no news");
    check(!w.write(2.5) && !w.write(3.5) && r.news() == 3.5 && r.number() == 2 && !r.news() && r.number() == 2, "news of a register");
    auto moved = std::move(r);
    check(!r && moved && moved.number() == 2 && !moved.news(), "a reader that was moved");
    check(!moved.end() && !moved && !moved.news() && !w.end() && !w, "sides that were ended");
}

// Records whose number or stamp the call writes itself, passed where they lie and copied.
template <cell C> void inside_records() {
    struct whole { std::uint64_t low, number, high; };
    struct part { std::uint64_t number; std::uint32_t low; };
    struct signed_whole { std::uint64_t low; stamp its; };
    struct signed_part { std::uint32_t low; stamp its; std::uint32_t high[3]; };
    auto [w, r] = nidzaru::make<whole, C>(whole{1, 500, 3});
    auto [v, q] = nidzaru::make<part, C>(part{500, 7});
    whole x{1, 500, 3}, y{};
    part a{500, 7}, b{};
    for (std::uint64_t n = 1; n <= 3; n++) {
        check(!w.write(x) && r.has_news() && !r.read(y, y.number) && y.low == 1 && y.number == n && y.high == 3 && r.number() == n,
              "a number in a record");
        check(!v.write(a) && q.has_news() && !q.read(b, b.number) && b.low == 7 && b.number == n && q.number() == n,
              "a number in a record that is copied");
    }
    auto wholes = nidzaru::make_board<2, C>(signed_whole{1, {500, 0}});
    auto parts = nidzaru::make_board<2, C>(signed_part{1, {500, 0}, {}});
    signed_whole c{1, {500, 0}}, d{};
    signed_part e{1, {500, 0}, {}}, f{};
    for (std::uint64_t n = 1; n <= 3; n++) {
        const stamp wanted(n, 0);
        check(!wholes[0].write(c, c.its) && c.its == wanted && wholes[0].last_stamp() == wanted, "a write's stamp in its record");
        check(!wholes[1].read(d, d.its) && d.its == wanted && wholes[1].last_stamp() == wanted && d.low == 1, "a read's");
        check(!wholes[1].read_since(d.its, d, d.its) && d.its == wanted && wholes[1].last_stamp() == wanted, "read_since's");
        check(!parts[0].write(e, e.its) && e.its == wanted && parts[0].last_stamp() == wanted, "a write's stamp in a copied record");
        check(!parts[1].read(f, f.its) && f.its == wanted && parts[1].last_stamp() == wanted && f.low == 1, "a read's, copied");
        check(!parts[1].read_since(f.its, f, f.its) && f.its == wanted && parts[1].last_stamp() == wanted, "read_since's, copied");
        check(!wholes[1].has_news() && !parts[1].has_news(), "no news is lost or made");
    }
}

NIDZARU_BOARD(bases, base);
NIDZARU_TRIPLE_BOARD(last_ones, last_one);
NIDZARU_BOARD(eithers, either);
NIDZARU_TRIPLE_BOARD(elsewheres, elsewhere);

// What lies in a final class's or a union's tail, or behind a record, is nobody's: the bytes behind it stay.
template <class T> struct guarded {
    T x{};
    std::uint64_t behind = 0x1234;
};

#if __cplusplus >= 202002L
// A final class and a union that leave room for a neighbour behind what they have.
class closed final {
    double low = 0, high = 0;
    std::int32_t serial = 0;

  public:
    closed() = default;
    explicit closed(std::int32_t n) : low(-n), high(n), serial(n) {}
    bool is(std::int32_t n) const { return low == -n && high == n && serial == n; }
};
union loose {
    char text[20];
    std::uint64_t number;
    loose() : text() {}
    explicit loose(std::int32_t n) : text() { std::memcpy(text + 16, &n, sizeof n); }
    bool is(std::int32_t n) const { return std::memcmp(text + 16, &n, sizeof n) == 0; }
};
template <class T> struct beside {
    [[no_unique_address]] T x;
    std::int32_t kept = 42;
};
static_assert(sizeof(beside<closed>) == 24 && sizeof(closed) == 24, "the neighbour of a final class lies in its tail");
static_assert(sizeof(beside<loose>) == 24 && sizeof(loose) == 24, "the neighbour of a union lies in its tail");

template <class T, cell C> void neighbours() {
    stamp given;
    std::uint64_t number = 0;
    beside<T> b;
    auto places = nidzaru::make_board<2, C>(T(1));
    check(!places[0].read(b.x, given) && b.x.is(1) && b.kept == 42, "what lies in a tail stays");
    check(!places[0].write(T(2), given) && !places[1].read_since(given, b.x, given) && b.x.is(2) && b.kept == 42, "and since a stamp");
    auto [w, r] = nidzaru::make<T, C>(T(3));
    check(!r.read(b.x, number) && b.x.is(3) && b.kept == 42, "and by a register's read");
}
#endif

template <cell C> void odd_records() {
    stamp given;
#if __cplusplus >= 202002L
    neighbours<closed, C>();
    neighbours<loose, C>();
#endif
    {
        auto places = nidzaru::make_board<2, C>(base(1));
        derived d;
        check(!places[0].read(d, given) && d.is(1) && d.kept == 41, "what is derived keeps its tail");
        check(!places[0].write(base(2), given) && !places[1].read_since(given, d, given) && d.is(2) && d.kept == 41, "and since a stamp");
        check(places[1].latest()->is(2), "and the latest");
    }
    {
        auto places = nidzaru::make_board<2, C>(last_one{1.0, 1});
        guarded<last_one> x;
        check(!places[0].write({2.0, 2}, given) && !places[1].read(x.x, given) && x.x.n == 2 && x.behind == 0x1234, "a final class");
    }
    {
        auto places = nidzaru::make_board<2, C>(either{1});
        guarded<either> x;
        check(!places[0].write(either{2}, given) && !places[1].read(x.x, given) && x.x.number == 2 && x.behind == 0x1234, "a union");
    }
    {
        auto places = nidzaru::make_board<2, C>(fixed{1});
        check(!places[0].write(fixed{2}, given) && places[1].latest()->value == 2 && !places[1].news(), "what can't be assigned");
    }
    {
        auto places = nidzaru::make_board<2, C>(elsewhere{{1, 2, 3}});
        elsewhere x{{0, 0, 0}};
        check(!places[0].write(elsewhere{{4, 5, 6}}, given) && !places[1].read(x, given) && x.words[2] == 6, "an & of its own");
        check(places[0].latest()->words[0] == 4, "the latest with an & of its own");
    }
}

// The macro's functions in C++.
void functions() {
    bases_place b[2] = {NIDZARU_EMPTY, NIDZARU_EMPTY};
    last_ones_place l[2] = {NIDZARU_EMPTY, NIDZARU_EMPTY};
    eithers_place e[2] = {NIDZARU_EMPTY, NIDZARU_EMPTY};
    elsewheres_place o[2] = {NIDZARU_EMPTY, NIDZARU_EMPTY};
    base first(1), second(2);
    derived d;
    nidzaru_stamp its = {0, 0};
    check(!bases_make(&first, b, 2) && !bases_write(b, &second, &its), "a board of a class");
    check(!bases_read(b + 1, &d, &its) && d.is(2) && d.kept == 41, "the macro's read leaves the tail");
    d = derived();
    d.kept = 43;
    check(!bases_read_since(b + 1, its, &d, &its) && d.is(2) && d.kept == 43, "and read_since");
    check(!bases_write(b, &first, &its) && its.tag == 2, "another write");
    its.tag = 1;
    check(!bases_news(b + 1, &d, &its) && d.is(1) && d.kept == 43 && its.tag == 2, "and news");
    last_one x{1.5, 1};
    guarded<last_one> y;
    check(!last_ones_make(&x, l, 2) && !last_ones_read(l, &y.x, &its) && y.x.n == 1 && y.behind == 0x1234, "a final class by the macro");
    either u{5}, v{6};
    check(!eithers_make(&u, e, 2) && !eithers_read(e + 1, &v, &its) && v.number == 5, "a union by the macro");
    elsewhere p{{1, 2, 3}}, q{{0, 0, 0}};
    check(!elsewheres_make(std::addressof(p), o, 2) && !elsewheres_read(o + 1, std::addressof(q), &its) && q.words[2] == 3,
          "an & of its own by the macro");
    for (int k = 0; k < 2; k++)
        check(!bases_end(b + k) && !last_ones_end(l + k) && !eithers_end(e + k) && !elsewheres_end(o + k), "ends");
}

// All six comparisons, of stamps in their order.
void stamps() {
    const stamp in_order[] = {{0, 0}, {0, 1}, {1, 0}, {1, 15}, {2, 0}, {UINT64_MAX, 0}, {UINT64_MAX, 1}};
    constexpr int count = sizeof in_order / sizeof in_order[0];
    for (int i = 0; i < count; i++)
        for (int j = 0; j < count; j++) {
            const stamp &a = in_order[i], &b = in_order[j];
            check((a == b) == (i == j) && (a != b) == (i != j), "== and !=");
            check((a < b) == (i < j) && (a <= b) == (i <= j), "< and <=");
            check((a > b) == (i > j) && (a >= b) == (i >= j), "> and >=");
#ifdef __cpp_lib_three_way_comparison
            check((a <=> b) == (i <=> j), "<=>");
#endif
        }
    constexpr stamp made(3, 4);
    static_assert(made.tag == 3 && made.writer == 4 && stamp().tag == 0 && stamp().writer == 0, "stamps that are made");
}

// Objects that go, and such as another one is moved into, give back what they had.
template <cell C> void ends() {
    const long had = blocks;
    {
        auto places = nidzaru::make_board<2, C>(plan{1, 2, 3});
        auto others = nidzaru::make_board<2, C>(plan{4, 5, 9});
        plan x{};
        stamp given;
        check(blocks > had, "a board takes memory");
        const long before = blocks;
        places[0] = std::move(others[0]);
        check(blocks < before, "the place that was there is ended");
        check(!places[1].read(x, given) && x.sum == 3 && !places[0].read(x, given) && x.sum == 9, "each on its board");
        places[1] = std::move(others[1]);
        check(!places[0].write({1, 1, 2}, given) && !places[1].read_since(given, x, given) && x.sum == 2, "both on the other board");
        const long both = blocks;
        { auto gone = std::move(places[0]); }
        check(blocks < both && blocks > had && places[1].latest()->sum == 2, "a place that goes");
        auto [w, r] = nidzaru::make<plan, C>(plan{1, 2, 3});
        auto [v, q] = nidzaru::make<plan, C>(plan{4, 5, 9});
        const long sides = blocks;
        w = std::move(v);
        check(blocks < sides, "the writer that was there is ended");
        const long less = blocks;
        r = std::move(q);
        check(blocks < less && !w.write({7, 7, 14}) && r.latest()->sum == 14, "the reader that was there is ended");
    }
    check(blocks == had, "blocks that are left");
}

// A place that was cut off can't be ended: one that is moved there takes its place.
template <cell C> void moves_onto_cut_off() {
    const long had = blocks;
    {
        auto places = nidzaru::make_board<2, C>(plan{1, 2, 3});
        auto others = nidzaru::make_board<2, C>(plan{4, 5, 9});
        auto &handle = reinterpret_cast<nidzaru_handle &>(places[0]);
        auto kept = handle;
        plan x{};
        stamp given;
        handle.side.live = NIDZARU_BUSY;
        check(places[0].read(x, given) == NIDZARU_CUT_OFF && places[0].end() == NIDZARU_CUT_OFF && places[0], "a place that was cut off");
        places[0] = std::move(others[0]);
        check(!others[0] && others[0].write(x, given) == NIDZARU_ENDED && !places[0].write({7, 7, 14}, given), "a place where it was");
        check(others[1].latest()->sum == 14 && places[1].latest()->sum == 3, "it writes to its own board");
        // (the memory of the place that was cut off, which no class gives back)
        check(!nidzaru_sized_board_end(C == cell::triple, sizeof x, &kept), "the memory of a place that was cut off");
    }
    check(blocks == had, "blocks after a place that was cut off");
}

// How often the board asks for memory, counted while each request is refused in turn.
template <std::size_t N, cell C> void memory() {
    for (long at = 1;; at++) {
        const long had = blocks;
        bool threw = false, done = false;
        asked = 0;
        refuse = at;
        {
            auto places = nidzaru::try_make_board<N, C>(plan{1, 2, 3});
            done = asked < at;
            refuse = -1;
            check(places.has_value() == done, "try_make_board where memory is refused");
            if (places) check((*places)[N - 1].latest()->sum == 3, "what try_make_board made");
        }
        check(blocks == had, "blocks after try_make_board");
        asked = 0;
        refuse = at;
        try {
            auto places = nidzaru::make_board<N, C>(plan{1, 2, 3});
            refuse = -1;
            for (auto &place : places) check(place && place.latest()->sum == 3, "what make_board made");
        } catch (const std::bad_alloc &) {
            refuse = -1;
            threw = true;
        }
        check(threw == !done, "make_board where memory is refused");
        check(blocks == had, "blocks after make_board");
        if (!done) continue;
        check(at > static_cast<long>(N), "no request was refused");
        return;
    }
}

template <cell C> void limits() {
    check(!nidzaru::try_make_board<2, C>(1.5, 0) && !nidzaru::try_make_board<2, C>(1.5, UINT64_MAX), "limits that there aren't");
    check(nidzaru::try_make_board<2, C>(1.5, 1) && nidzaru::try_make_board<2, C>(1.5, NIDZARU_UNLIMITED), "the least and the greatest");
    for (std::uint64_t limit : {std::uint64_t(0), UINT64_MAX}) {
        bool thrown = false;
        try {
            (void)nidzaru::make_board<2, C>(1.5, limit);
        } catch (const std::invalid_argument &) {
            thrown = true;
        }
        check(thrown, "a limit that there isn't throws");
    }
}

template <cell C> void all(std::uint64_t many) {
    calls<C>();
    last_stamps<C>();
    news<C>();
    inside_records<C>();
    odd_records<C>();
    ends<C>();
    moves_onto_cut_off<C>();
    memory<2, C>();
    memory<5, C>();
    limits<C>();
    const long had = blocks;
    threads<2, C>(many);
    threads<4, C>(many);
    threads<16, C>(many);
    check(blocks == had, "blocks after threads");
}

} // namespace

using floats = nidzaru::detail::record<std::array<float, 6>, nidzaru::cell::four_slot>;
using doubles = nidzaru::detail::record<std::array<double, 3>, nidzaru::cell::four_slot>;
static_assert(!floats::passes && doubles::passes == !NIDZARU_WATCHED, "a record aligned to 4 is copied, and words are passed where they lie");

int main(int count, char **words) {
    const std::uint64_t many = count > 1 ? std::strtoull(words[1], nullptr, 10) : 5000;
    functions();
    stamps();
    all<cell::four_slot>(many);
    all<cell::triple>(many);
    std::puts(failed ? "FAILED" : "passed");
    return failed != 0;
}
