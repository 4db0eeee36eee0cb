// poplost [SECONDS [TRIES]]: three threads insert keys, three pop them, and two ask for the size
// and collect, with so few tries that pops are often unfinished. Fails if a key is lost or is
// returned twice: for each key, the number of inserts that returned true is the number of pops that
// returned it, and one more if the report of the closed set has it.
#include "thrown.hpp"

#include <array>
#include <atomic>
#include <chrono>
#include <cstdio>
#include <cstdlib>
#include <thread>
#include <vector>

namespace {

constexpr std::uint64_t keys = 4;
constexpr unsigned threads_of_a_kind = 3, collectors = 2;

using Counts = std::array<std::atomic<std::uint64_t>, keys>;

// Makes a call, unless it fails because its few tries were not enough.
template <typename Call>
void attempt(Call call) {
    try {
        call();
    } catch (const nm::Fault &fault) {
        CHECK(fault.outcome() == NM_BUSY || fault.outcome() == NM_PENDING ||
              fault.outcome() == NM_FULL);
    }
}

// The pops are made by the set, or each thread makes them by a worker of its own.
void pop_beside_others(double seconds, std::uint32_t tries, bool is_attached) {
    nm::Options options;
    options.workers = 4;
    options.tries = tries;
    options.rounds = 0;
    options.collect_after = 8;
    nm::Set set(4096, options);
    Counts inserted{}, popped{};
    std::atomic<bool> is_over{false};
    std::vector<std::thread> threads;
    for (unsigned number = 0; number < threads_of_a_kind; number++) {
        threads.emplace_back([&, number] {
            for (std::uint64_t key = number; !is_over; key += 7)
                attempt([&] { inserted[key % keys] += set.insert(key % keys); });
        });
        threads.emplace_back([&] {
            nm::Worker worker = is_attached ? set.attach() : nm::Worker();
            while (!is_over)
                attempt([&] {
                    auto key = is_attached ? worker.pop_first() : set.pop_first();
                    if (key) popped.at(*key)++;
                });
        });
    }
    for (unsigned number = 0; number < collectors; number++)
        threads.emplace_back([&] {
            while (!is_over) attempt([&] { (void)set.size(), set.collect(); });
        });
    std::this_thread::sleep_for(std::chrono::duration<double>(seconds));
    is_over = true;
    for (std::thread &thread : threads) thread.join();
    const std::vector<std::uint64_t> left = set.close().keys();
    std::uint64_t all = 0, lost = 0, twice = 0;
    for (std::uint64_t key = 0; key < keys; key++) {
        std::uint64_t known = popped[key];
        for (std::uint64_t one : left) known += one == key;
        all += popped[key];
        lost += inserted[key] > known ? inserted[key] - known : 0;
        twice += known > inserted[key] ? known - inserted[key] : 0;
    }
    std::printf("%s, %u tries: %llu keys were popped, %llu lost, %llu came twice\n",
                is_attached ? "attached" : "by the set", tries,
                static_cast<unsigned long long>(all), static_cast<unsigned long long>(lost),
                static_cast<unsigned long long>(twice));
    CHECK(all > 0 && lost == 0 && twice == 0);
}

}  // namespace

int main(int count, char **words) {
    double seconds = count > 1 ? std::strtod(words[1], nullptr) : 1;
    CHECK(seconds > 0);
    if (count > 2) {
        pop_beside_others(seconds, static_cast<std::uint32_t>(std::atoi(words[2])), true);
        return 0;
    }
    for (std::uint32_t tries : {1u, 2u}) {
        pop_beside_others(seconds / 4, tries, false);
        pop_beside_others(seconds / 4, tries, true);
    }
}
