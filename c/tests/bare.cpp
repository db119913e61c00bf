// Without exceptions: try_make, and objects that go.
#include "nidzaru.hpp"
#include <cstdio>

struct limits {
    double low, high;
};

int main() {
    auto both = nidzaru::try_make(limits{0.0, 9.5});
    if (!both) return 1;
    auto &[writer, reader] = *both;
    if (writer.write({1.0, 2.0}) || !reader.has_news()) return 1;
    auto seen = reader.latest();
    const bool holds = seen && seen->low == 1.0 && seen->high == 2.0 && nidzaru::try_make_triple(1.5).has_value();
    std::puts(holds ? "passed" : "FAILED");
    return !holds;
}
