// A board that three processes share, in C++: a planner and a logger are children by fork, and the planner is killed again and again. Each
// has a place of its own, which an object claims and yields. Where a planner was killed within a call its place is refused for good, and
// the next one takes the next board, which the block announces.
//
// c++ -std=c++17 -D_GNU_SOURCE -O2 processes.cpp $(pkg-config --cflags --libs nidzaru) -pthread -o processes && ./processes [KILLS]
#define NIDZARU_SHARED_IMPLEMENTATION
#include <nidzaru_shared.hpp>

#include <csignal>
#include <cstdint>
#include <cstdio>
#include <cstdlib>
#include <sys/wait.h>

struct plan {
    std::uint64_t from, to, check;
};
using board = nidzaru::shared_board<plan, 3, nidzaru::cell::triple>;
using place = nidzaru::shared_place<plan, nidzaru::cell::triple>;

enum { BOARDS = 64, CONTROL = 0, PLANNER = 1, LOGGER = 2 };
struct plant {
    static constexpr const char *shared_name = "struct plant";
    board boards[BOARDS];
    std::uint32_t current, logged;
};
using block = nidzaru::shared_block<plant>;

static std::uint32_t load(const std::uint32_t &word) { return __atomic_load_n(&word, __ATOMIC_SEQ_CST); }

static int write_plans(block &shared) {
    place mine;
    int status = shared->boards[load(shared->current)].claim(shared, PLANNER, mine);
    for (std::uint64_t n = 1; !status; n++) {
        nidzaru::stamp stamp;
        status = mine.write({n, n + 1, 2 * n + 1}, stamp);
    }
    return status;
}

static bool is_whole(const plan &it) { return it.check == it.from + it.to; }

// Reads on whichever board is announced. The others' kills don't matter to it.
static int log_plans(block &shared) {
    place mine;
    for (;;) {
        const std::uint32_t current = load(shared->current);
        if (const int status = shared->boards[current].claim(shared, LOGGER, mine)) return status;
        while (load(shared->current) == current) {
            const auto seen = mine.latest();
            if (!seen || !is_whole(*seen)) return 99;
            __atomic_fetch_add(&shared->logged, 1, __ATOMIC_SEQ_CST);
        }
    }
}

static pid_t start(int (*work)(block &), block &shared) {
    const pid_t child = fork();
    if (!child) _exit(work(shared));
    return child;
}

// The status of a child that was killed, which is 0 if that ended it.
static int stop(pid_t child) {
    int status = 0;
    kill(child, SIGKILL);
    waitpid(child, &status, 0);
    return WIFSIGNALED(status) ? 0 : WEXITSTATUS(status);
}

// Reads a hundred plans by the control's place.
static int control(block &shared) {
    place mine;
    const int status = shared->boards[shared->current].claim(shared, CONTROL, mine);
    for (int seen = 0; seen < 100 && !status;) {
        const auto item = mine.news();
        if (item && !is_whole(*item)) return 99;
        seen += item.has_value();
    }
    return status;
}

// Announces a new board if the planner's place of this one is lost.
static int look_after(block &shared) {
    {
        place lost;
        const int status = shared->boards[shared->current].claim(shared, PLANNER, lost);
        if (status != NIDZARU_SHARED_OWNER_DEAD) return status;
    }
    const std::uint32_t next = shared->current + 1;
    if (next == BOARDS) return NIDZARU_NO_MEMORY;
    const int status = shared->boards[next].make(shared, {0, 0, 0});
    if (!status) __atomic_store_n(&shared->current, next, __ATOMIC_SEQ_CST);
    return status;
}

int main(int count, char **words) {
    const int kills = count > 1 ? std::atoi(words[1]) : 20;
    block shared;
    int status = shared.create(nullptr, 1 << 21);
    if (!status) status = shared->boards[0].make(shared, {0, 0, 0});
    const pid_t logger = status ? 0 : start(log_plans, shared);
    for (int k = 0; k < kills && !status; k++) {
        const pid_t planner = start(write_plans, shared);
        status = control(shared);
        if (const int ended = stop(planner)) status = ended;
        if (!status) status = look_after(shared);
    }
    if (const int ended = logger > 0 ? stop(logger) : 0) status = ended;
    if (status || !shared->logged) {
        std::fprintf(stderr, "processes: %s\n", nidzaru_shared_text(status));
        return 1;
    }
    std::printf("%d planners were killed, %u of them within a call; of %u logged plans none was torn\n", kills, shared->current,
                shared->logged);
    return 0;
}
