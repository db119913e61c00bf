// Records of odd types, for the tests of the classes of registers and of boards.
#ifndef NIDZARU_TESTS_RECORDS_HPP
#define NIDZARU_TESTS_RECORDS_HPP
#include <cstdint>

namespace {

// Its & gives another place.
struct elsewhere {
    std::uint64_t words[3];
    elsewhere *operator&() { return nullptr; }
    const elsewhere *operator&() const { return nullptr; }
};

// A class whose last four bytes a derived one may use.
class base {
    double low = 0, high = 0;
    std::int32_t serial = 0;

  public:
    base() = default;
    explicit base(std::int32_t n) : low(-n), high(n), serial(n) {}
    bool is(std::int32_t n) const { return low == -n && high == n && serial == n; }
};

struct derived : base {
    std::int32_t kept = 41;
};

static_assert(sizeof(derived) == sizeof(base) && sizeof(base) == 24, "what is derived keeps something in the tail");

// It can't be assigned.
struct fixed {
    const std::uint64_t value;
};

// Nothing derives from it.
struct last_one final {
    double value;
    std::int32_t n;
};

union either {
    std::uint64_t number;
    double value;
};

} // namespace

#endif
