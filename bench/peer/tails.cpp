// tails THREADS KEYS NODES_A_KEY LOOKUPS ROUNDS MILLIS: measures how long single calls take while
// threads read and change a set without a pause: by workers, by the set, and on std::set with a
// mutex, by turns in each round. Of 100 calls LOOKUPS are look-ups, and the rest are as many
// inserts as removes, of a range of twice KEYS. Prints a line for each set and kind of call: its
// name, the kind, the number of calls, the percentiles 50, 99, 99.9 and 99.99, the longest, in
// nanoseconds, how many calls gave up the processor (slept, or yielded), and how many were left
// out. A call is left out if the kernel took the processor from its thread before the call gave it
// up: its time says nothing about the set.
#include "nm_set.hpp"

#include <x86intrin.h>

#include <sys/resource.h>
#include <sys/syscall.h>
#include <unistd.h>

#include <algorithm>
#include <array>
#include <atomic>
#include <chrono>
#include <cstdint>
#include <cstdio>
#include <cstdlib>
#include <mutex>
#include <set>
#include <thread>
#include <vector>

namespace {

using Key = std::uint64_t;

struct Asked {
    unsigned threads, rounds, millis, lookups;
    std::uint64_t keys, nodes;
};

enum Kind { contains, insert, remove_, kinds };

double ticks_a_nano() {
    using Clock = std::chrono::steady_clock;
    Clock::time_point begun = Clock::now();
    std::uint64_t ticks = __rdtsc();
    std::this_thread::sleep_for(std::chrono::milliseconds(200));
    ticks = __rdtsc() - ticks;
    return static_cast<double>(ticks) /
           std::chrono::duration<double, std::nano>(Clock::now() - begun).count();
}

// The times of calls in ticks: 32 steps for each doubling.
class Times {
public:
    void add(std::uint64_t ticks) {
        counts_[step_of(ticks)]++;
        calls++;
        longest = std::max(longest, ticks);
    }

    void add(const Times &other) {
        for (std::size_t step = 0; step < counts_.size(); step++)
            counts_[step] += other.counts_[step];
        calls += other.calls;
        gave_up += other.gave_up;
        left_out += other.left_out;
        longest = std::max(longest, other.longest);
    }

    [[nodiscard]] double percentile(double part) const {
        auto wanted = static_cast<std::uint64_t>(part * static_cast<double>(calls));
        std::uint64_t sum = 0;
        for (std::size_t step = 0; step < counts_.size(); step++)
            if ((sum += counts_[step]) > wanted) return ticks_of(step);
        return static_cast<double>(longest);
    }

    std::uint64_t calls = 0, gave_up = 0, left_out = 0, longest = 0;

private:
    static std::size_t step_of(std::uint64_t ticks) {
        if (ticks < 32) return ticks;
        unsigned top = 63 - static_cast<unsigned>(__builtin_clzll(ticks));
        return (top - 4) * 32 + (ticks >> (top - 5) & 31);
    }

    static double ticks_of(std::size_t step) {
        if (step < 32) return static_cast<double>(step);
        std::size_t top = step / 32 + 4;
        return static_cast<double>((32 + step % 32) << (top - 5));
    }

    std::vector<std::uint64_t> counts_ = std::vector<std::uint64_t>(64 * 32);
};

struct All {
    std::array<Times, kinds> of;
    std::uint64_t faults = 0;

    void add(const All &other) {
        for (int kind = 0; kind < kinds; kind++) of[kind].add(other.of[kind]);
        faults += other.faults;
    }
};

// The calls of this thread that slept, and those in which it lost its processor.
struct Switches {
    long slept = 0, lost = 0;

    static Switches now() {
        rusage used;
        getrusage(RUSAGE_THREAD, &used);
        return {used.ru_nvcsw, used.ru_nivcsw};
    }
};

// Whether the call of this thread has yielded, and whether the kernel had taken the processor from
// it before.
thread_local Switches begin_of_call;
thread_local bool has_yielded = false, had_lost = false;

struct BySet {
    nm::Set set;
    explicit BySet(const Asked &asked) : set(asked.nodes) {}

    struct Calls {
        nm::Set &of;
        explicit Calls(BySet &set) : of(set.set) {}
    };
};

struct ByWorkers {
    nm::Set set;
    explicit ByWorkers(const Asked &asked) : set(asked.nodes) {}

    struct Calls {
        nm::Worker of;
        explicit Calls(ByWorkers &set) : of(set.set.attach()) {}
    };
};

class Locked {
public:
    explicit Locked(const Asked &) {}

    bool contains(Key key) {
        std::lock_guard<std::mutex> locked(lock_);
        return keys_.count(key) != 0;
    }
    bool insert(Key key) {
        std::lock_guard<std::mutex> locked(lock_);
        return keys_.insert(key).second;
    }
    bool remove(Key key) {
        std::lock_guard<std::mutex> locked(lock_);
        return keys_.erase(key) != 0;
    }

    struct Calls {
        Locked &of;
        explicit Calls(Locked &set) : of(set) {}
    };

private:
    std::mutex lock_;
    std::set<Key> keys_;
};

// Scattered numbers, of which each thread has its own.
class Scattered {
public:
    explicit Scattered(std::uint64_t seed) : state_(seed * 1'000'003 + 88'172'645'463'325'252) {}

    std::uint64_t operator()() {
        state_ ^= state_ << 13;
        state_ ^= state_ >> 7;
        return state_ ^= state_ << 17;
    }

private:
    std::uint64_t state_;
};

Key key_of(std::uint64_t number) { return number * 0x9E3779B97F4A7C15u >> 1; }

template <typename Of>
bool call(Of &of, Kind kind, Key key) {
    switch (kind) {
    case contains: return of.contains(key);
    case insert: return of.insert(key);
    default: return of.remove(key);
    }
}

// One thread: fills its part, waits for the others, and then times its calls.
template <typename Set>
void work(Set &set, const Asked &asked, unsigned number, unsigned round, double nano,
          std::atomic<unsigned> &ready, const std::atomic<int> &phase, All &into) {
    typename Set::Calls calls(set);
    Scattered next(number + round * 64u);
    for (std::uint64_t key = number; key < asked.keys; key += asked.threads)
        while (!calls.of.insert(key_of(next() % (2 * asked.keys)))) {}
    ready++;
    while (phase == 0) std::this_thread::yield();
    const auto slow = static_cast<std::uint64_t>(3000 * nano);
    Switches before = Switches::now();
    begin_of_call = before;
    std::uint64_t ended = __rdtsc(), answers = 0;
    while (phase == 1) {
        std::uint64_t drawn = next();
        Key key = key_of(drawn % (2 * asked.keys));
        unsigned part = (drawn >> 40) % 200;
        Kind kind = part < 2 * asked.lookups ? contains : part % 2 == 1 ? insert : remove_;
        has_yielded = false;
        _mm_lfence();
        std::uint64_t begun = __rdtsc();
        if (begun - ended > slow) {
            before = begin_of_call = Switches::now();
            begun = __rdtsc();
        }
        try {
            answers += call(calls.of, kind, key);
        } catch (const nm::Fault &) {
            into.faults++;
        }
        unsigned processor;
        ended = __rdtscp(&processor);
        Times &times = into.of[kind];
        std::uint64_t taken = ended - begun;
        if (taken > slow) {
            Switches after = Switches::now();
            bool is_lost = has_yielded ? had_lost
                                       : after.lost != before.lost && after.slept == before.slept;
            times.gave_up += !is_lost && (has_yielded || after.slept != before.slept);
            times.left_out += is_lost;
            before = begin_of_call = after;
            ended = __rdtsc();
            if (is_lost) continue;
        }
        times.add(taken);
    }
    if (answers == UINT64_MAX) std::puts("");
}

template <typename Set>
void round_of(const Asked &asked, unsigned round, double nano, All &into) {
    Set set(asked);
    std::atomic<unsigned> ready{0};
    std::atomic<int> phase{0};
    std::vector<All> each(asked.threads);
    std::vector<std::thread> threads;
    for (unsigned number = 0; number < asked.threads; number++)
        threads.emplace_back([&, number] {
            work(set, asked, number, round, nano, ready, phase, each[number]);
        });
    while (ready != asked.threads) std::this_thread::yield();
    phase = 1;
    std::this_thread::sleep_for(std::chrono::milliseconds(asked.millis));
    phase = 2;
    for (std::thread &thread : threads) thread.join();
    for (const All &one : each) into.add(one);
}

}  // namespace

// The yield of the C library, which the set calls too.
extern "C" int sched_yield() noexcept {
    if (!has_yielded) had_lost = Switches::now().lost != begin_of_call.lost;
    has_yielded = true;
    return static_cast<int>(syscall(SYS_sched_yield));
}

int main(int count, char **words) {
    if (count != 7) {
        std::fputs("usage: tails THREADS KEYS NODES_A_KEY LOOKUPS ROUNDS MILLIS\n", stderr);
        return 2;
    }
    auto word = [&](int at) { return static_cast<unsigned>(std::strtoul(words[at], nullptr, 10)); };
    Asked asked{word(1), word(5), word(6), word(4), word(2), 0};
    asked.nodes = static_cast<std::uint64_t>(std::strtod(words[3], nullptr) *
                                             static_cast<double>(asked.keys)) + 5;
    const double nano = ticks_a_nano();
    const char *sets[] = {"nm::Worker", "nm::Set", "std::set+mutex"};
    const char *calls[] = {"contains", "insert", "remove"};
    All all[3];
    for (unsigned round = 0; round < asked.rounds; round++) {
        round_of<ByWorkers>(asked, round, nano, all[0]);
        round_of<BySet>(asked, round, nano, all[1]);
        round_of<Locked>(asked, round, nano, all[2]);
    }
    for (int kind = 0; kind < kinds; kind++)
        for (int set = 0; set < 3; set++) {
            const Times &times = all[set].of[kind];
            std::printf("%s %s %llu", sets[set], calls[kind],
                        static_cast<unsigned long long>(times.calls));
            for (double part : {0.5, 0.99, 0.999, 0.9999})
                std::printf(" %.0f", times.percentile(part) / nano);
            std::printf(" %.0f %llu %llu\n", static_cast<double>(times.longest) / nano,
                        static_cast<unsigned long long>(times.gave_up),
                        static_cast<unsigned long long>(times.left_out));
        }
    for (int set = 0; set < 3; set++)
        if (all[set].faults != 0)
            std::printf("# %s: %llu calls threw a fault\n", sets[set],
                        static_cast<unsigned long long>(all[set].faults));
}
