// closing [ROUNDS [CALLERS [TIMEOUT]]]: closes a set beside threads that call it and attach
// workers. Each of these gets NM_CLOSED, and their answers add up to the report. If there are fewer
// workers than callers and the machine is busy, others may take each worker for all of the time
// that a call waits: NM_NO_WORKER. Such a call is made again.
#include "thrown.hpp"

#include <atomic>
#include <cstdio>
#include <cstdlib>
#include <thread>
#include <vector>

namespace {

constexpr std::uint64_t keys = 64;

struct Told {
    std::atomic<std::uint64_t> inserted{0}, removed{0}, calls{0}, closed{0}, late{0};
};

// Ends the program if a fault has another outcome or another text, and writes both.
void ends_with(const Thrown &end, nm_outcome outcome, const char *text) {
    if (end.outcome == outcome && end.text == text) return;
    std::fprintf(stderr, "the outcome is %d (%s), and not %d: %s\n", static_cast<int>(end.outcome),
                 nm_pool_text(end.outcome), static_cast<int>(outcome), end.text.c_str());
    std::exit(1);
}

// Calls the set until it throws. Every fourth caller attaches itself for each few of its calls.
Thrown call_until_thrown(nm::Set &set, std::uint64_t number, Told &told) {
    return fault_of([&] {
        for (std::uint64_t each = number;; each++) {
            std::uint64_t key = each * 7919 % keys;
            told.calls++;
            if (number % 4 == 3 && each % 16 == 0) {
                nm::Worker worker = set.attach();
                told.inserted += worker.insert(key);
            } else if (each % 2 == 0) {
                told.removed += set.remove(key);
            } else {
                told.inserted += set.insert(key);
            }
        }
    });
}

void call_until_closed(nm::Set &set, std::uint64_t number, Told &told) {
    Thrown end = call_until_thrown(set, number, told);
    for (; end.outcome == NM_NO_WORKER; told.late++) end = call_until_thrown(set, number, told);
    ends_with(end, NM_CLOSED, "the set is closed");
    told.closed++;
}

// A close is refused while a thread has a worker, and made again until none has.
nm::Report closed(nm::Set &set) {
    for (;;) {
        try {
            return set.close();
        } catch (const nm::Fault &fault) {
            if (fault.outcome() != NM_ATTACHED)
                ends_with({fault.outcome(), fault.what()}, NM_ATTACHED, "");
            CHECK(set.is_open());
            std::this_thread::yield();
        }
    }
}

// As many workers as callers, or fewer by turns.
std::uint64_t round(std::uint64_t number, std::uint64_t callers, std::uint32_t timeout_ms) {
    nm::Options options;
    options.workers = static_cast<std::uint32_t>(number % 2 == 0 ? callers : 3);
    options.timeout_ms = timeout_ms;
    nm::Set set(8192, options);
    Told told;
    std::vector<std::thread> threads;
    for (std::uint64_t each = 0; each < callers; each++)
        threads.emplace_back([&, each] { call_until_closed(set, each, told); });
    while (told.calls < callers * (number % 8)) std::this_thread::yield();
    nm::Report report = closed(set);
    CHECK(!set.is_open() && thrown([&] { set.close(); }) == NM_CLOSED);
    for (std::thread &thread : threads) thread.join();
    CHECK(told.closed == callers && report.size() == told.inserted - told.removed);
    return told.late;
}

}  // namespace

int main(int count, char **words) {
    std::uint64_t rounds = count > 1 ? std::strtoull(words[1], nullptr, 10) : 100;
    std::uint64_t callers = count > 2 ? std::strtoull(words[2], nullptr, 10) : 16;
    // A busy machine keeps a thread waiting, and a sanitizer does.
    std::uint64_t timeout_ms = count > 3 ? std::strtoull(words[3], nullptr, 10) : 60'000;
    std::uint64_t late = 0;
    CHECK(rounds > 0 && callers > 0 && callers <= 64);
    for (std::uint64_t number = 0; number < rounds; number++)
        late += round(number, callers, static_cast<std::uint32_t>(timeout_ms));
    std::printf("%llu sets were closed beside %llu callers each; %llu calls found no worker\n",
                static_cast<unsigned long long>(rounds), static_cast<unsigned long long>(callers),
                static_cast<unsigned long long>(late));
}
