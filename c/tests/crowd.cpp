// crowd [SECONDS]: more threads than processors call a set with room for 65,536 nodes and about 500
// keys. They do so for SECONDS by calls of the set, and for SECONDS each by a worker of its own. No
// insert throws NM_FULL: one waits while threads that cannot run hold memory back. And 200 threads
// attach workers, work and end.
#include "thrown.hpp"

#include <algorithm>
#include <atomic>
#include <chrono>
#include <cstdio>
#include <cstdlib>
#include <mutex>
#include <thread>
#include <vector>

namespace {

constexpr std::uint64_t nodes = 65536, keys = 1000;

// Scattered numbers, of which each thread has its own.
class Scattered {
public:
    explicit Scattered(std::uint64_t seed) : state_(seed * 2654435761 + 1) {}

    std::uint64_t operator()() {
        state_ ^= state_ << 13;
        state_ ^= state_ >> 7;
        state_ ^= state_ << 17;
        return state_;
    }

private:
    std::uint64_t state_;
};

// What all threads were answered.
struct Told {
    std::uint64_t calls = 0, keys = 0, full = 0;

    void add(const Told &other) {
        calls += other.calls;
        keys += other.keys;
        full += other.full;
    }
};

// Inserts and removes scattered keys until the end.
template <typename Of>
Told work(Of &of, std::uint64_t seed, const std::atomic<bool> &is_over) {
    Told told;
    Scattered next(seed);
    for (; !is_over; told.calls++) {
        std::uint64_t number = next(), key = number % keys;
        if (number >> 32 & 1) {
            told.keys -= of.remove(key);
            continue;
        }
        try {
            told.keys += of.insert(key);
        } catch (const nm::Fault &fault) {
            CHECK(fault.outcome() == NM_FULL);
            std::fprintf(stderr, "%s\n", fault.what());
            told.full++;
        }
    }
    return told;
}

// So many threads work for some time, by the set or each by a worker of its own.
void crowd(std::uint64_t count, bool is_attached, double seconds) {
    nm::Options options;
    options.timeout_ms = 60'000;  // other programs keep a thread in the middle of a call waiting
    nm::Set set(nodes, options);
    std::atomic<bool> is_over{false};
    std::mutex lock;
    Told all;
    std::vector<std::thread> threads;
    for (std::uint64_t seed = 0; seed < count; seed++)
        threads.emplace_back([&, seed] {
            nm::Worker worker = is_attached ? set.attach() : nm::Worker();
            Told told = is_attached ? work(worker, seed, is_over) : work(set, seed, is_over);
            std::lock_guard<std::mutex> locked(lock);
            all.add(told);
        });
    std::this_thread::sleep_for(std::chrono::duration<double>(seconds));
    is_over = true;
    for (std::thread &thread : threads) thread.join();
    std::printf("%llu threads, %s: %llu calls, %llu told full\n",
                static_cast<unsigned long long>(count), is_attached ? "attached" : "by the set",
                static_cast<unsigned long long>(all.calls),
                static_cast<unsigned long long>(all.full));
    CHECK(all.full == 0 && set.size() == all.keys && set.close().size() == all.keys);
}

// Threads come and go, more than there are workers: each gets one for a while.
void come_and_go(std::uint64_t count) {
    nm::Set set(nodes);
    std::atomic<std::uint64_t> inserted{0}, ended{0};
    std::vector<std::thread> threads;
    for (std::uint64_t first = 0; first < count; first++)
        threads.emplace_back([&, first] {
            nm::Worker worker = set.attach();
            for (std::uint64_t each = 0; each < 100; each++)
                inserted += worker.insert(first * 100 + each);
            ended++;
        });
    for (std::thread &thread : threads) thread.join();
    CHECK(ended == count && inserted == count * 100 && set.close().size() == count * 100);
    std::printf("%llu threads attached themselves, worked and ended\n",
                static_cast<unsigned long long>(count));
}

}  // namespace

int main(int count, char **words) {
    double seconds = count > 1 ? std::strtod(words[1], nullptr) : 0.5;
    CHECK(seconds > 0);
    for (std::uint64_t threads : {16u, 64u}) {
        crowd(threads, false, seconds);
        crowd(threads, true, seconds);
    }
    crowd(200, false, seconds);
    come_and_go(200);
}
