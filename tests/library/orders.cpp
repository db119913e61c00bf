// All runs of a few writes and reads of one register, four slots or a triple buffer, in each order that 64-bit ARM leaves open (Arm Architecture
// Reference Manual, "The AArch64 Application Level Memory Model"): an access may take effect before an earlier one of its thread, unless
//   - the earlier one acquires (ldar, ldapr, ldaxr, swpal) or the later one releases (stlr, stlxr, swpal);
//   - the earlier one is stlr or stlxr and the later one ldar or ldaxr;
//   - both are of one place;
//   - the later one is issued only when the earlier one's value is there, since its place or its value depends on that.
// Memory is one for all threads. A pair of ldaxr and stlxr may fail and is begun anew; what follows the ldaxr may take effect before the
// stlxr. Not in it: accesses on a predicted value, of which there are none where each call begins by an
// acquire; stores that are forwarded to a load of their own thread, as no side loads what it stores; caches and devices.
//   orders four|triple-pair|triple-swap WRITES READS [WEAKER]
// prints the number of states, of torn reads and of reads older than the one before. WEAKER names an access that is made weaker.
#include <cstddef>
#include <cstdio>
#include <cstdlib>
#include <cstring>
#include <string>
#include <unordered_set>
#include <vector>

enum Kind : unsigned char { LDR, LDAR, LDAPR, STR, STLR, LDAXR, STLXR, STXR, SWPAL, SWPA };
// A value that the thread waits for, one that nobody waits for, and a word that no read has filled.
enum { AWAITED = 251, NOBODY = 250, UNFILLED = 255 };
enum { MOST_READS = 8, PLACES = 12, MOST_UNDER_WAY = 24 };
// The control words: `latest`, or the triple buffer's word; the bits of both pairs; `reading`. The slots follow, of two words each.
enum { LATEST = 0, WORD = 0, BIT = 1, READING = 3, SLOTS = 4 };
enum { MARK = 4 };

struct Access {
    Kind kind;
    unsigned char place, value, taker;
};
struct Thread {
    unsigned char phase = 0, calls = 0, got = 0, waits = 0, count = 0;
    unsigned char kept[3] = {0, 0, 0};
    Access under_way[MOST_UNDER_WAY];
};
struct State {
    unsigned char memory[PLACES], monitor[2], answers[MOST_READS][2];
    Thread threads[2];
};

static int writes, reads;
static bool by_pair;
static std::string weaker;
static long states, torn, older;
static std::vector<State> open_states;
static std::unordered_set<std::string> seen;

static bool acquires(Kind it) { return it == LDAR || it == LDAPR || it == LDAXR || it == SWPAL || it == SWPA; }
static bool releases(Kind it) { return it == STLR || it == STLXR || it == SWPAL; }
static bool is_pairs_store(Kind it) { return it == STLXR || it == STXR; }
static bool stores(Kind it) { return it == STR || it == STLR || is_pairs_store(it) || it == SWPAL || it == SWPA; }

// Whether an access has to wait for an earlier one of its thread.
static bool has_to_wait(const Access &later, const Access &earlier) {
    bool both_strong = (earlier.kind == STLR || earlier.kind == STLXR) && (later.kind == LDAR || later.kind == LDAXR);
    return earlier.place == later.place || acquires(earlier.kind) || releases(later.kind) || both_strong;
}

static void issue(Thread &it, Kind kind, int place, int value = 0, int taker = NOBODY) {
    if (it.count == MOST_UNDER_WAY) std::puts("too many accesses are under way"), std::exit(2);
    it.under_way[it.count++] = Access{kind, (unsigned char)place, (unsigned char)value, (unsigned char)taker};
    if (taker == AWAITED) it.waits = 1;
}
static void fill_slot(Thread &it, int slot, int number) {
    issue(it, STR, SLOTS + 2 * slot, number);
    issue(it, STR, SLOTS + 2 * slot + 1, number);
}
static void copy_slot(Thread &it, int slot) {
    int read = it.calls++;
    issue(it, LDR, SLOTS + 2 * slot, 0, 2 * read);
    issue(it, LDR, SLOTS + 2 * slot + 1, 0, 2 * read + 1);
}
static Kind weakened(const char *name, Kind usual, Kind weak) { return weaker == name ? weak : usual; }

// Each of these goes one step on in its thread's code, and answers false where the calls have ended.
// kept: the bits of both pairs, and `latest`.
static bool write_four(Thread &it) {
    if (it.phase == 0) {
        if (it.calls == writes) return false;
        issue(it, weakened("W1", LDAR, LDAPR), READING, 0, AWAITED);
        it.phase = 1;
        return true;
    }
    int pair = !it.got, index = !it.kept[pair];
    fill_slot(it, 2 * pair + index, ++it.calls);
    issue(it, weakened("W4", STLR, STR), BIT + pair, index);
    if (pair != it.kept[2]) issue(it, weakened("W5", STLR, STR), LATEST, pair);
    it.kept[pair] = index, it.kept[2] = pair, it.phase = 0;
    return true;
}
// kept: what `reading` has, and the pair of this call.
static bool read_four(Thread &it) {
    if (it.phase == 0) {
        if (it.calls == reads) return false;
        issue(it, weakened("R1", LDAR, LDR), LATEST, 0, AWAITED);
        it.phase = 1;
    } else if (it.phase == 1) {
        it.kept[1] = it.got;
        if (it.got != it.kept[0]) issue(it, weakened("R2", STLR, STR), READING, it.got);
        it.kept[0] = it.got;
        issue(it, weakened("R3", LDAR, LDAPR), BIT + it.got, 0, AWAITED);
        it.phase = 2;
    } else {
        copy_slot(it, 2 * it.kept[1] + it.got);
        it.phase = 0;
    }
    return true;
}
static void begin_swap(Thread &it, int value) {
    if (by_pair) issue(it, weakened("acquire", LDAXR, LDR), WORD, 0, AWAITED);
    else issue(it, weakened("release", SWPAL, SWPA), WORD, value, AWAITED);
}
static void end_swap(Thread &it, int value) {
    if (by_pair) issue(it, weakened("release", STLXR, STXR), WORD, value);
    it.kept[0] = it.got % MARK;
}
// kept: the slot of the side.
static bool write_triple(Thread &it) {
    if (it.phase == 0) {
        if (it.calls == writes) return false;
        fill_slot(it, it.kept[0], ++it.calls);
        it.phase = 1;
    } else if (it.phase == 1) {
        begin_swap(it, it.kept[0] + MARK);
        it.phase = 2;
    } else {
        end_swap(it, it.kept[0] + MARK);
        it.phase = 0;
    }
    return true;
}
static bool read_triple(Thread &it) {
    if (it.phase == 0) {
        if (it.calls == reads) return false;
        issue(it, weakened("look", LDAR, LDR), WORD, 0, AWAITED);
        it.phase = 1;
    } else if (it.phase == 1 && it.got >= MARK) {
        begin_swap(it, it.kept[0]);
        it.phase = 2;
    } else {
        if (it.phase == 2) end_swap(it, it.kept[0]);
        copy_slot(it, it.kept[0]);
        it.phase = 0;
    }
    return true;
}
static bool (*steps[2])(Thread &);

// Performs an access, or answers false where that run needn't be followed: a store to the word between another thread's ldaxr and stlxr has
// that pair fail, and the pair that is begun anew is the run in which the ldaxr took effect later.
static bool perform(State &it, int who, int at) {
    Thread &own = it.threads[who];
    Access access = own.under_way[at];
    if (is_pairs_store(access.kind)) {
        if (!it.monitor[who]) return false;
        it.monitor[who] = 0;
    }
    if (access.taker == AWAITED) own.got = it.memory[access.place], own.waits = 0;
    else if (access.kind == LDR) it.answers[access.taker / 2][access.taker % 2] = it.memory[access.place];
    if (access.kind == LDAXR || (by_pair && access.kind == LDR && access.place == WORD && own.phase == 2)) it.monitor[who] = 1;
    if (stores(access.kind)) {
        it.memory[access.place] = access.value;
        if (it.monitor[!who] && access.place == WORD) return false;
    }
    own.count--;
    std::memmove(own.under_way + at, own.under_way + at + 1, sizeof(Access) * (own.count - at));
    return true;
}

static std::string key_of(const State &it) {
    std::string key((const char *)&it, offsetof(State, threads));
    for (const Thread &thread : it.threads) {
        key.append((const char *)&thread, offsetof(Thread, under_way));
        key.append((const char *)thread.under_way, sizeof(Access) * thread.count);
    }
    return key;
}
static void add(State &it) {
    for (int who = 0; who < 2; who++)
        while (!it.threads[who].waits && it.threads[who].count < 15 && steps[who](it.threads[who])) {
        }
    if (!seen.insert(key_of(it)).second) return;
    if (++states > 30000000) std::puts("too many states"), std::exit(2);
    open_states.push_back(it);
}
static void judge(const State &it) {
    int last = 0;
    for (int read = 0; read < reads; read++) {
        const unsigned char *answer = it.answers[read];
        if (answer[0] != answer[1]) {
            torn++;
            continue;
        }
        older += answer[0] < last;
        last = answer[0];
    }
}

// Performs each access that needn't wait, and answers whether there was one.
static bool go_on(const State &now, int who) {
    const Thread &thread = now.threads[who];
    bool any = false;
    for (int at = 0; at < thread.count; at++) {
        bool ready = true;
        for (int before = 0; before < at && ready; before++) ready = !has_to_wait(thread.under_way[at], thread.under_way[before]);
        State next = now;
        if (!ready || !perform(next, who, at)) continue;
        any = true;
        add(next);
    }
    return any;
}

int main(int count, char **words) {
    if (count < 4) return 2;
    std::string kind = words[1];
    bool is_four = kind == "four";
    by_pair = kind == "triple-pair";
    writes = std::atoi(words[2]), reads = std::atoi(words[3]);
    if (writes < 1 || reads < 1 || reads > MOST_READS || (!is_four && !by_pair && kind != "triple-swap")) return 2;
    weaker = count > 4 ? words[4] : "";
    steps[0] = is_four ? write_four : write_triple, steps[1] = is_four ? read_four : read_triple;
    State first;
    std::memset((void *)&first, 0, sizeof first);
    std::memset(first.answers, UNFILLED, sizeof first.answers);
    if (is_four) first.threads[1].kept[0] = 2;  // (the reader has announced no pair)
    else first.memory[WORD] = 1, first.threads[1].kept[0] = 2;
    add(first);
    while (!open_states.empty()) {
        State now = open_states.back();
        open_states.pop_back();
        bool any = go_on(now, 0);
        any |= go_on(now, 1);
        const Thread *own = now.threads;
        if (!any && !own[0].count && !own[1].count && own[0].calls == writes && own[1].calls == reads) judge(now);
    }
    std::printf("%ld states: torn %ld, older %ld\n", states, torn, older);
    return 0;
}
