// sizes [SAMPLES]: measures how long size, waiting and free take beside four threads that write
// without a pause. Prints the median and the 99th percentile. Fails if the median of size is above
// 10 microseconds, or if the size without calls in progress is not that of the report.
#include "thrown.hpp"

#include <algorithm>
#include <atomic>
#include <chrono>
#include <cstdio>
#include <cstdlib>
#include <thread>
#include <vector>

namespace {

using Clock = std::chrono::steady_clock;
using Micros = std::chrono::duration<double, std::micro>;

constexpr std::uint64_t nodes = 65536, keys = 16384;
constexpr double most_of_size = 10;

// Inserts, removes and pops scattered keys: one call.
template <typename Of>
void write(Of &of, std::uint64_t &state) {
    state = state * 6364136223846793005u + 1442695040888963407u;
    std::uint64_t key = (state >> 40) % keys;
    if ((state >> 33) % 7 == 0)
        (void)of.pop_first();
    else if (state >> 63)
        of.insert(key);
    else
        of.remove(key);
}

// The median of what a call takes, in microseconds.
template <typename Call>
double measured(const char *name, std::size_t samples, Call call) {
    std::vector<double> taken(samples);
    for (double &each : taken) {
        Clock::time_point begun = Clock::now();
        (void)call();
        each = Micros(Clock::now() - begun).count();
        std::this_thread::sleep_for(std::chrono::microseconds(100));
    }
    std::sort(taken.begin(), taken.end());
    std::printf("%s beside four writers: median %.2f us, 99th percentile %.2f us, most %.2f us\n",
                name, taken[samples / 2], taken[samples * 99 / 100], taken.back());
    return taken[samples / 2];
}

// Two threads write by the set and two by workers of their own.
void sizes_are_quick(std::size_t samples) {
    nm::Set set(nodes);
    std::atomic<bool> is_over{false};
    std::vector<std::thread> threads;
    for (std::uint64_t seed = 0; seed < 4; seed++)
        threads.emplace_back([&, seed] {
            nm::Worker worker = seed % 2 == 0 ? set.attach() : nm::Worker();
            std::uint64_t state = seed;
            while (!is_over)
                if (worker.is_open())
                    write(worker, state);
                else
                    write(set, state);
        });
    double size = measured("size", samples, [&] { return set.size(); });
    (void)measured("waiting", samples, [&] { return set.waiting(); });
    (void)measured("free", samples, [&] { return set.free(); });
    is_over = true;
    for (std::thread &thread : threads) thread.join();
    CHECK(size <= most_of_size);
    std::uint64_t at_rest = set.size();
    CHECK(set.free() == nodes - 5 - 2 * at_rest - set.waiting());
    CHECK(at_rest == set.close().size());
}

// What eight threads have done is counted, with so few tries that many removes are unfinished.
void sizes_are_exact_at_rest(std::uint32_t tries) {
    nm::Options options;
    options.workers = 4;
    options.tries = tries;
    options.rounds = tries;
    nm::Set set(nodes, options);
    std::vector<std::thread> threads;
    for (std::uint64_t seed = 0; seed < 8; seed++)
        threads.emplace_back([&, seed] {
            nm::Worker worker;
            (void)set.try_attach(worker);
            std::uint64_t state = seed;
            for (int each = 0; each < 20'000; each++) {
                nm_outcome told = thrown([&] {
                    if (worker.is_open())
                        write(worker, state);
                    else
                        write(set, state);
                });
                CHECK(told == NM_DONE || told == NM_BUSY || told == NM_PENDING ||
                      told == NM_UNFINISHED);
                if (each % 100 == 0 && worker.is_open()) worker = nm::Worker();
            }
        });
    for (std::thread &thread : threads) thread.join();
    std::uint64_t at_rest = set.size();
    // A remove that is pending still has been counted; the report has its key until it is cut off.
    std::uint64_t pending = 0;
    for (std::uint32_t number = 0; number < set.workers(); number++) {
        nm::Worker worker = set.worker(number);
        if (worker.pending()) pending++;
    }
    CHECK(pending == 0 && at_rest == set.close().size());
}

}  // namespace

int main(int count, char **words) {
    std::size_t samples = count > 1 ? std::strtoull(words[1], nullptr, 10) : 1000;
    CHECK(samples > 1);
    sizes_are_quick(samples);
    for (std::uint32_t tries : {1u, 2u, 64u}) sizes_are_exact_at_rest(tries);
}
