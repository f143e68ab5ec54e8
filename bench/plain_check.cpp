// A checker of the same rules, plain and fast, with no proof: what `bench/run` measures against. It was written from
// docs/model.md, docs/disciplines.md, docs/planfile.md and docs/verdict.md.
//
// Use: plain_check ROWS < FILE, with the file of a plan. It prints the line of the verdict for tables of so many rows,
// and on standard error the seconds that the check took, the states visited, and the steps made from them.
#include <algorithm>
#include <array>
#include <chrono>
#include <cstdint>
#include <cstdio>
#include <cstdlib>
#include <cstring>
#include <numeric>
#include <utility>
#include <vector>

struct Handler {
    uint64_t period, offset;
    uint16_t shortest, longest;
    int core;
    std::vector<int> before;  // the places of those that joins name before it
};

struct Plan {
    std::vector<Handler> handlers;
    int codes[9] = {};
    uint64_t round = 1, settling = 0;
};

using State = std::array<uint16_t, 64>;  // the time left of each handler, and 0 past the last
static size_t bytes_in_use;              // of a state, in whole words of 8 bytes

// States, each once, found by hashing. Its memory is touched as it is made.
struct Table {
    std::vector<State> rows;
    std::vector<uint32_t> slots;  // the place of a row, plus one; 0 where there is none
    size_t count = 0, room;

    explicit Table(size_t room) : rows(room), room(room) {
        size_t size = 16;
        while (size < 2 * (room + 1)) size *= 2;
        slots.assign(size, 0);
    }

    // The slot that has the state, or the free one where it would go.
    uint32_t& slot(const State& state) {
        uint64_t hash = 0, word;
        for (size_t at = 0; at < bytes_in_use; at += 8) {
            std::memcpy(&word, &state[at / 2], 8);
            hash = (hash ^ word) * 0x9e3779b97f4a7c15;
            hash ^= hash >> 32;
        }
        size_t mask = slots.size() - 1, at = hash & mask;
        while (slots[at] && std::memcmp(&rows[slots[at] - 1], &state, bytes_in_use)) at = (at + 1) & mask;
        return slots[at];
    }

    // False where the state is not there, and there is no room for it.
    bool insert(const State& state) {
        uint32_t& at = slot(state);
        if (at) return true;
        if (count == room) return false;
        rows[count] = state;
        at = ++count;
        return true;
    }

    void clear() {
        // Few are taken out one by one: the last first, so that each is found.
        bool few = count * 8 < slots.size();
        if (!few) std::fill(slots.begin(), slots.end(), 0);
        for (; few && count > 0; count--) slot(rows[count - 1]) = 0;
        count = 0;
    }
};

// What depends on the time and not on the state: who is released, and in which order the handlers of a core go.
struct Clock {
    const Plan& plan;
    uint64_t time = 0;
    std::vector<uint64_t> release, deadline;  // the next release; the least deadline after `time`
    std::vector<int> starts, order[9];        // the places of those released at `time`; those of each core in order

    explicit Clock(const Plan& plan) : plan(plan) {
        for (const Handler& handler : plan.handlers) {
            order[handler.core].push_back(release.size());
            release.push_back(handler.offset);
            deadline.push_back(handler.offset + handler.period);
        }
        for (int core = 1; core <= 8; core++) arrange(core);
        look();
    }

    // By the core's criterion, and then by number; by insertion, since few change places at a time.
    void arrange(int core) {
        auto key = [&](int j) {
            uint64_t by[] = {0, plan.handlers[j].period, deadline[j]};
            return std::pair(by[plan.codes[core] - 1], j);
        };
        std::vector<int>& row = order[core];
        for (size_t i = 1; i < row.size(); i++)
            for (size_t to = i; to > 0 && key(row[to]) < key(row[to - 1]); to--) std::swap(row[to], row[to - 1]);
    }

    void look() {
        starts.clear();
        for (size_t j = 0; j < release.size(); j++) {
            if (release[j] != time) continue;
            starts.push_back(j);
            deadline[j] = release[j] += plan.handlers[j].period;
        }
        for (int core = 1; core <= 8 && !starts.empty(); core++)
            if (plan.codes[core] == 3) arrange(core);
    }

    void tick() { time++, look(); }
};

struct Verdict {
    const char* word;
    uint64_t first, second;
};

struct Check {
    const Plan& plan;
    Table front, back, marks;
    uint64_t visits = 0, steps = 0;

    Check(const Plan& plan, size_t room) : plan(plan), front(room), back(room), marks(room) {}

    bool is_ready(const State& state, int j) const {
        const std::vector<int>& before = plan.handlers[j].before;
        return state[j] && std::none_of(before.begin(), before.end(), [&](int i) { return state[i]; });
    }

    // Puts all that can follow the state into the back table; false where there is no room. On each core the first that
    // is ready runs, whatever times are chosen, since each is 1 or more.
    bool follow(const Clock& clock, State state) {
        for (int j : clock.starts) state[j] = plan.handlers[j].shortest;
        State low = state;
        for (const std::vector<int>& row : clock.order) {
            auto runs = std::find_if(row.begin(), row.end(), [&](int j) { return is_ready(state, j); });
            if (runs != row.end()) low[*runs]--;
        }
        state = low;
        while (true) {
            steps++;
            if (!back.insert(state)) return false;
            // The next combination of times: counting up, the first start changes fastest.
            auto is_longest = [&](int j) {
                return state[j] - low[j] == plan.handlers[j].longest - plan.handlers[j].shortest;
            };
            auto next = std::find_if_not(clock.starts.begin(), clock.starts.end(), is_longest);
            std::for_each(clock.starts.begin(), next, [&](int j) { state[j] = low[j]; });
            if (next == clock.starts.end()) return true;
            state[*next]++;
        }
    }

    bool is_late(int j) const {
        auto end = front.rows.begin() + front.count;
        return std::any_of(front.rows.begin(), end, [j](const State& row) { return row[j]; });
    }

    Verdict run() {
        Clock clock(plan);
        uint64_t room = front.room, next_mark = plan.settling;
        if (!front.insert(State{})) return {"working", 0, room};
        for (uint64_t k = 0;; clock.tick()) {
            visits += front.count;
            for (int j : clock.starts)
                if (clock.time > plan.handlers[j].offset && is_late(j)) return {"missed", clock.time, uint64_t(j) + 1};
            if (clock.time == next_mark) {
                size_t row = 0;
                while (row < front.count && marks.slot(front.rows[row])) row++;
                if (k > 0 && row == front.count) return {"kept", k, marks.count};
                for (; row < front.count; row++)
                    if (!marks.insert(front.rows[row])) return {"marks", clock.time, room};
                next_mark += plan.round, k++;
            }
            back.clear();
            for (size_t row = 0; row < front.count; row++)
                if (!follow(clock, front.rows[row])) return {"working", clock.time + 1, room};
            std::swap(front, back);
        }
    }
};

static int byte() {
    int byte = std::getchar();
    if (byte == EOF) std::fprintf(stderr, "plain_check: this is no file of a plan\n"), std::exit(2);
    return byte;
}

static int number() {
    int high = byte();
    return high * 256 + byte();
}

// Goes through the records, and does not test what they say.
static Plan read() {
    Plan plan;
    for (int kind = byte(); kind != 4; kind = byte()) {
        if (kind == 1) {
            uint64_t period = number(), offset = number();
            uint16_t shortest = number(), longest = number();
            plan.handlers.push_back({period, offset, shortest, longest, byte(), {}});
            plan.round = std::lcm(plan.round, period);
            plan.settling = std::max(plan.settling, offset);
        } else {
            int first = byte(), second = byte();
            if (kind == 2) plan.handlers[second - 1].before.push_back(first - 1);
            if (kind == 3) plan.codes[first] = second;
        }
    }
    return plan;
}

int main(int count, char** words) {
    if (count != 2) return std::fprintf(stderr, "use: plain_check ROWS < FILE\n"), 2;
    Plan plan = read();
    bytes_in_use = (plan.handlers.size() + 3) / 4 * 8;
    Check check(plan, std::strtoul(words[1], nullptr, 10));
    auto begun = std::chrono::steady_clock::now();
    Verdict verdict = check.run();
    std::chrono::duration<double> took = std::chrono::steady_clock::now() - begun;
    std::printf("%s %lu %lu\n", verdict.word, verdict.first, verdict.second);
    std::fprintf(stderr, "%.9f s, %lu visits, %lu steps\n", took.count(), check.visits, check.steps);
}
