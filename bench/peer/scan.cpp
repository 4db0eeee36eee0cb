// For bench/scan: nanoseconds a key of scans in order. The first argument names the set; then each
// line of standard input is a row: how many keys a scan reads, how many keys the set has, and how
// many other threads insert and remove meanwhile.
#include "sets.hpp"

#include <algorithm>
#include <atomic>
#include <chrono>
#include <cstdint>
#include <cstdio>
#include <cstdlib>
#include <iostream>
#include <random>
#include <string>
#include <thread>
#include <vector>

#if __has_include(<tbb/concurrent_set.h>)
#define HAS_TBB 1
#include <tbb/concurrent_set.h>
#endif

namespace {

using namespace sets;

#ifdef HAS_TBB
// TBB's set, which has no concurrent erase: bench/scan asks it for no row with writers.
class Tbb {
public:
    Tbb(std::size_t, std::size_t) {}
    class Access {
    public:
        Access(Tbb &set, std::size_t) : keys_(set.keys_) {}
        bool add(Key key) { return keys_.insert(key).second; }
        bool remove(Key) { std::abort(); }
        std::size_t scan(Key from, Key *keys, std::size_t room) {
            std::size_t count = 0;
            auto at = keys_.lower_bound(from);
            for (; count < room && at != keys_.end(); ++at) keys[count++] = *at;
            return count;
        }

    private:
        tbb::concurrent_set<Key> &keys_;
    };

private:
    tbb::concurrent_set<Key> keys_;
};
#endif

// The keys of a set are half of these numbers, spread over a range of 2^63.
Key scattered(std::uint64_t number) { return number * 0x9E3779B97F4A7C15u >> 1; }

void must(bool is_so) {
    if (!is_so) {
        std::fputs("scan: a set has answered otherwise\n", stderr);
        std::exit(1);
    }
}

template <class Set> void fill(Set &set, std::size_t count) {
    typename Set::Access access(set, 0);
    std::vector<std::uint64_t> numbers(2 * count);
    for (std::size_t at = 0; at < numbers.size(); at++) numbers[at] = at;
    std::shuffle(numbers.begin(), numbers.end(), std::mt19937_64(5));
    for (std::size_t at = 0; at < count; at++) must(access.add(scattered(numbers[at])));
}

// Removes random keys of its own, or inserts them if they are not there, until it is over. A third
// of the range's keys are those of one writer.
template <class Set>
void change(Set &set, std::size_t number, std::size_t count, const std::atomic<bool> &is_over) {
    typename Set::Access access(set, number);
    std::mt19937_64 random(number);
    while (!is_over) {
        Key key = scattered(random() % (2 * count / 3) * 3 + number - 1);
        if (!access.remove(key)) must(access.add(key));
    }
}

// Makes scans from random keys on for a quarter of a second or more; returns the nanoseconds a key.
template <class Access> double scanned(Access &access, std::size_t length, std::size_t count) {
    using namespace std::chrono;
    std::vector<Key> keys(std::min(length, 2 * count));
    std::mt19937_64 random(7);
    std::uint64_t total = 0;
    auto begun = steady_clock::now();
    duration<double, std::nano> taken{};
    while (taken < milliseconds(250)) {
        Key from = length < count ? scattered(random() % (2 * count)) : 0;
        std::size_t read = access.scan(from, keys.data(), keys.size());
        must(std::is_sorted(keys.begin(), keys.begin() + static_cast<std::ptrdiff_t>(read)));
        total += read;
        taken = steady_clock::now() - begun;
    }
    must(total > 0);
    return taken.count() / static_cast<double>(total);
}

template <class Set> double timed(std::size_t length, std::size_t count, std::size_t writers) {
    Set set(2 * count, 1 + writers);
    fill(set, count);
    std::atomic<bool> is_over{false};
    std::vector<std::thread> threads;
    for (std::size_t number = 1; number <= writers; number++)
        threads.emplace_back([&, number] { change(set, number, count, is_over); });
    double taken = 0;
    {
        typename Set::Access access(set, 0);
        taken = scanned(access, length, count);
    }
    is_over = true;
    for (std::thread &thread : threads) thread.join();
    return taken;
}

template <class Set> void serve() {
    std::size_t length, keys, writers;
    while (std::cin >> length >> keys >> writers) {
        std::printf("%.1f\n", timed<Set>(length, keys, writers));
        std::fflush(stdout);
    }
}

}  // namespace

int main(int count, char **words) {
    std::string name = count > 1 ? words[1] : "";
    if (name == "set") serve<Proved>();
    else if (name == "plain") serve<Plain>();
    else if (name == "locked") serve<Locked<std::set<Key>>>();
#ifdef HAS_ABSL
    else if (name == "absl") serve<Locked<absl::btree_set<Key>>>();
#endif
#ifdef HAS_TBB
    else if (name == "tbb") serve<Tbb>();
#endif
    else return 2;
}
