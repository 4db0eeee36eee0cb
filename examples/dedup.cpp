// Duplicates are removed from a stream: four threads read records, and each id is passed on once, by the
// thread that inserted it first.
//
// A call inserts a block of ids, and answers for each of them whether it was absent. The set grows.
#include <nm_set.hpp>

#include <algorithm>
#include <atomic>
#include <cassert>
#include <iostream>
#include <thread>

constexpr std::uint64_t ids = 50'000, block = 1'000;

// Returns a block of the ids of a stream: each stream has each id once, in an order of its own.
std::vector<std::uint64_t> read(std::uint64_t stream, std::uint64_t first) {
    std::vector<std::uint64_t> read(block);
    for (std::uint64_t at = 0; at < block; at++) read[at] = ((first + at) * (stream * 2 + 7) % ids << 40) + 5;
    return read;
}

int main() {
    nm::Set seen;
    std::atomic<std::uint64_t> records{0}, passed{0};
    std::vector<std::thread> threads;
    for (std::uint64_t stream = 0; stream < 4; stream++)
        threads.emplace_back([&, stream] {
            auto worker = seen.attach();
            for (std::uint64_t first = 0; first < ids; first += block) {
                std::vector<bool> is_new;
                worker.insert_many(read(stream, first), is_new);
                records += is_new.size();
                passed += static_cast<std::uint64_t>(std::count(is_new.begin(), is_new.end(), true));
            }
        });
    for (std::thread &thread : threads) thread.join();
    std::cout << records << " records, " << passed << " are passed on\n";
    assert(seen.size() == passed);
}
