// The same three tasks in C++: the sensor publishes a reading with its limits 1,000 times a second, the control task steers
// by the newest reading 10,000 times a second, and the logger writes down what it sees of the control task's state.
//
// c++ -std=c++17 -O2 tasks.cpp $(pkg-config --cflags --libs nidzaru) -pthread -o tasks && ./tasks
#include <nidzaru.hpp>

#include <algorithm>
#include <chrono>
#include <cstdint>
#include <iostream>
#include <thread>

// What the sensor publishes. The check is over the other fields, so that half of an old record is seen.
struct reading {
    double low, high, value;
    std::uint64_t check;

    static reading of(std::uint64_t number) {
        return {-1.0 - double(number), 1.0 + double(number), double(number % 17), number * 3};
    }
    bool is_whole() const { return high == -low && check == 3 * std::uint64_t(high - 1.0); }
};

// What the control task publishes.
struct state {
    double output;
    std::uint64_t step, of_reading, check;

    bool is_whole() const { return check == step * 5 + of_reading; }
};

// What a task saw of the records that it reads.
struct seen {
    std::uint64_t last = 0, fresh = 0, missed = 0, torn = 0;

    void count(std::uint64_t number, bool whole) {
        if (number > last) {
            fresh++;
            missed += number - last - 1;
            last = number;
        }
        torn += !whole;
    }
};

std::ostream &operator<<(std::ostream &out, const seen &s) {
    return out << "last record " << s.last << ", fresh " << s.fresh << ", missed " << s.missed << ", torn " << s.torn;
}

constexpr std::uint64_t seconds = 1, sensor_hz = 1000, control_hz = 10000, logger_hz = 50;

// Calls `step` with 1, 2, .. so many times a second, for as long as it answers true. Gives the count of the calls.
template <class Step> std::uint64_t run(std::uint64_t hz, Step step) {
    auto at = std::chrono::steady_clock::now();
    std::uint64_t n = 0;
    while (n < seconds * hz && step(n + 1)) {
        n++;
        at += std::chrono::nanoseconds(1000000000 / hz);
        std::this_thread::sleep_until(at);
    }
    return n;
}

int main() {
    auto [readings_in, readings_out] = nidzaru::make(reading::of(0));
    auto [states_in, states_out] = nidzaru::make_triple(state{0.0, 0, 0, 0});
    std::uint64_t written = 0, steps = 0, lines = 0;
    seen control, log;

    std::thread sensor([&, writer = std::move(readings_in)]() mutable {
        written = run(sensor_hz, [&](std::uint64_t n) { return writer.write(reading::of(n)) == NIDZARU_DONE; });
    });
    std::thread controller([&, reader = std::move(readings_out), writer = std::move(states_in)]() mutable {
        steps = run(control_hz, [&](std::uint64_t step) {
            reading r;
            std::uint64_t number;
            if (reader.read(r, number)) return false;
            control.count(number, r.is_whole());
            return writer.write(state{std::clamp(r.value, r.low, r.high), step, number, step * 5 + number}) == NIDZARU_DONE;
        });
    });
    std::thread logger([&, reader = std::move(states_out)]() mutable {
        lines = run(logger_hz, [&](std::uint64_t) {
            state s;
            std::uint64_t number;
            if (reader.read(s, number)) return false;
            log.count(number, s.is_whole());
            return true;
        });
    });
    sensor.join();
    controller.join();
    logger.join();

    bool torn = control.torn || log.torn;
    bool stopped = written < seconds * sensor_hz || steps < seconds * control_hz || lines < seconds * logger_hz;
    std::cout << "sensor: " << written << " readings\ncontrol: " << control << "\nlogger: " << log << '\n'
              << (torn ? "a record was torn" : stopped ? "a task stopped early" : "no record was torn") << '\n';
    return torn || stopped;
}
