// growing [CHANGES]: 16 threads call a set while its size changes CHANGES (1,000) times, half of
// them by attached workers. No key is lost or doubled: by key, the answers add up to the report. And a set
// without a size grows by itself; pins prevent that, and closes and cancelled threads do not.
#include "thrown.hpp"

#include <pthread.h>

#include <atomic>
#include <chrono>
#include <cstdio>
#include <cstdlib>
#include <numeric>
#include <thread>
#include <vector>

namespace {

constexpr std::uint64_t keys = 2000;

// ThreadSanitizer takes a second for each set that ends.
#ifdef __SANITIZE_THREAD__
constexpr std::uint64_t usual_changes = 4;
constexpr int closes = 1;
constexpr std::uint64_t most = 4000;
#else
constexpr std::uint64_t usual_changes = 1000;
constexpr int closes = 20;
constexpr std::uint64_t most = 50000;
#endif

// By key, how often a thread inserted it less how often it removed it.
using Tally = std::vector<std::int64_t>;

// Inserts, removes and pops keys until the end, and counts what it was answered.
template <typename Of>
void work(Of &of, std::uint64_t seed, Tally &tally, const std::atomic<bool> &is_over) {
    std::uint64_t state = seed * 2654435761 + 1;
    while (!is_over) {
        state = state * 6364136223846793005 + 1442695040888963407;
        std::uint64_t number = state >> 33, key = number % keys;
        if (number >> 12 & 1)
            tally[key] += of.insert(key);
        else if (number % 64 != 0)
            tally[key] -= of.remove(key);
        else if (std::optional<std::uint64_t> least = of.pop_first())
            tally[*least]--;
    }
}

// What all threads were answered is what the report of the set has.
void adds_up(nm::Set &set, const std::vector<Tally> &tallies) {
    std::uint64_t size = set.size();
    std::vector<std::uint64_t> left;
    for (std::uint64_t key = 0; key < keys; key++) {
        std::int64_t times = 0;
        for (const Tally &tally : tallies) times += tally[key];
        CHECK(times == 0 || times == 1);
        if (times == 1) left.push_back(key);
    }
    nm::Report report = set.close();
    CHECK(report.keys() == left && size == left.size());
}

void sizes_change_beside_threads(std::uint64_t changes) {
    nm::Options options;
    options.timeout_ms = 60000;
    nm::Set set(options);
    std::vector<Tally> tallies(16, Tally(keys));
    std::vector<std::thread> threads;
    std::atomic<bool> is_over{false};
    for (std::size_t one = 0; one < tallies.size(); one++)
        threads.emplace_back([&, one] {
            if (one % 2 == 0) return work(set, one, tallies[one], is_over);
            nm::Worker worker = set.attach();
            work(worker, one, tallies[one], is_over);
        });
    for (std::uint64_t change = 0; change < changes; change++) {
        if (change % 2 == 0)
            set.shrink_to_fit();
        else
            set.reserve(keys + change % 7 * 100);
    }
    is_over = true;
    for (std::thread &thread : threads) thread.join();
    adds_up(set, tallies);
}

// Threads insert into a set without a size, `each` its own keys, by calls of the set and by workers.
void sets_grow(nm::Shape shape, std::uint64_t each) {
    nm::Options options;
    options.shape = shape;
    options.timeout_ms = 60000;
    nm::Set set(options);
    std::vector<std::thread> threads;
    CHECK(set.capacity() == 10000);
    for (std::uint64_t first = 0; first < 4; first++)
        threads.emplace_back([&, first] {
            nm::Worker worker = set.attach();
            for (std::uint64_t key = 0; key < each; key++)
                CHECK(key % 2 == 0 ? set.insert(4 * key + first) : worker.insert(4 * key + first));
            CHECK(worker.contains(first) && !worker.contains(4 * each + first));
        });
    for (std::thread &thread : threads) thread.join();
    CHECK(set.size() == 4 * each && set.capacity() >= 4 * each);
    CHECK(set.contains(0u) && set.insert(4 * each) && set.pop_last() == 4 * each);
    set.shrink_to_fit();
    CHECK(set.capacity() <= 4 * each + set.workers() && set.size() == 4 * each);
    std::vector<std::uint64_t> all(4 * each);
    std::iota(all.begin(), all.end(), std::uint64_t{0});
    CHECK(set.close().keys() == all);
}

// Inserts into a set without a size, until an insert fails or there are that many keys.
Thrown filled(nm::Set &set, std::uint64_t count) {
    return fault_of([&] {
        for (std::uint64_t key = 0; key < count; key++) set.insert(key);
    });
}

// A worker that is pinned prevents a new size, and the fault names it. Its own calls go on after
// the end of the pin, with the same worker.
void pins_prevent_a_new_size() {
    nm::Options options;
    options.timeout_ms = 50;
    nm::Set set(options);
    nm::Worker first = set.attach(), second = set.attach();
    CHECK(second.insert(0u) && second.number() == 1);
    {
        nm::Pin pin = second.pin();
        Thrown full = filled(set, 20000);
        CHECK(full.outcome == NM_FULL && set.size() == 10000);
        CHECK(full.text.find("the set cannot grow while worker 1 is pinned") != full.text.npos);
        Thrown pinned = fault_of([&] { set.reserve(20000); });
        CHECK(pinned.outcome == NM_PINNED);
        CHECK(pinned.text == "the set gets no new size: worker 1 is pinned");
        CHECK(set.try_insert(10000u) == NM_FULL && set.contains(9999u));
        set.reserve(10000);
        set.shrink_to_fit(); // neither has anything to do
        for (std::uint64_t key = 9000; key < 10000; key++) CHECK(set.remove(key));
        CHECK(thrown([&] { set.shrink_to_fit(); }) == NM_PINNED);
    }
    CHECK(filled(set, 20000).outcome == NM_DONE && set.capacity() == 22502);
    CHECK(second.contains(19999u) && second.stats().links == 0 && first.remove(0u));
    CHECK(thrown([&] { set.reserve(std::uint64_t{1} << 40); }) == NM_NODES);
    set.reserve(100);
    CHECK(set.capacity() == 22502);
}

// A set with a size never grows by itself, and does so if a caller asks for it.
void sets_with_a_size_stay() {
    nm::Set set(64);
    CHECK(filled(set, 100).outcome == NM_FULL && set.nodes() == 64);
    set.reserve(100);
    CHECK(filled(set, 100).outcome == NM_DONE && set.capacity() == 100 && set.size() == 100);
    nm::SetStats now = set.stats();
    CHECK(now.growths == 1 && now.longest_pause.count() > 0 && now.keys == 100);
    set.clear();
    set.shrink_to_fit();
    CHECK(set.stats().growths == 2 && set.stats().longest_pause >= now.longest_pause);
    CHECK(set.capacity() == set.workers() && set.insert(7u));
    CHECK(thrown([] { nm::Set too_many(UINT64_MAX); }) == NM_NODES);
    nm::Set full = std::move(set);
    CHECK(full.close().keys() == std::vector<std::uint64_t>{7});
}

// A set in which removes and inserts alternate at its brim grows, and one that is filled does not.
void a_set_grows_at_its_brim() {
    nm::Set set;
    set.reserve(20000);
    CHECK(filled(set, 20000).outcome == NM_DONE && set.capacity() == 20000);
    for (std::uint64_t turn = 0; turn < 1000; turn++)
        CHECK(set.pop_first() == turn && set.insert(20000 + turn));
    CHECK(set.capacity() > 30000 && set.size() == 20000);
}

// A remove that was begun is finished before the keys move.
void pending_removes_are_finished() {
    nm::Set set(64);
    nm::Worker worker = set.attach();
    CHECK(worker.insert({5u, 6u}) == 2 && worker.try_remove(5u, 1) == NM_UNFINISHED);
    set.reserve(1000);
    CHECK(!worker.pending() && worker.try_finish() == NM_NO && !set.contains(5u));
    CHECK(set.size() == 1 && set.contains(6u));
}

// A close beside threads whose inserts let the set grow: the report has what they inserted.
void closes_beside_growth() {
    nm::Options options;
    options.timeout_ms = 60000;
    for (int round = 0; round < closes; round++) {
        nm::Set set(options);
        std::atomic<std::uint64_t> inserted{0};
        std::vector<std::thread> threads;
        for (std::uint64_t first = 0; first < 4; first++)
            threads.emplace_back([&, first] {
                nm_outcome end = thrown([&] {
                    for (std::uint64_t key = first;; key += 4) inserted += set.insert(key);
                });
                CHECK(end == NM_CLOSED);
            });
        std::this_thread::sleep_for(std::chrono::milliseconds(round * 3));
        nm::Report report = set.close();
        for (std::thread &thread : threads) thread.join();
        CHECK(report.size() == inserted);
    }
}

#ifndef __SANITIZE_ADDRESS__
// A thread that is cancelled while its insert lets the set grow ends after it, and keeps nothing.
void threads_are_cancelled_beside_growth() {
    nm::Options options;
    options.timeout_ms = 60000;
    nm::Set set(options);
    std::vector<pthread_t> threads(8);
    for (pthread_t &thread : threads)
        CHECK(pthread_create(&thread, nullptr, [](void *of) -> void * {
            (void)pthread_setcanceltype(PTHREAD_CANCEL_DEFERRED, nullptr);
            for (std::uint64_t key = 0;; key++) {
                (void)static_cast<nm::Set *>(of)->try_contains(key);
                (void)static_cast<nm::Set *>(of)->insert(key);
                pthread_testcancel();
            }
        }, &set) == 0);
    for (pthread_t thread : threads) {
        void *end = nullptr;
        std::this_thread::sleep_for(std::chrono::milliseconds(20));
        CHECK(pthread_cancel(thread) == 0 && pthread_join(thread, &end) == 0);
        CHECK(end == PTHREAD_CANCELED);
    }
    std::uint64_t size = set.size();
    set.shrink_to_fit();
    CHECK(set.close().size() == size);
}
#else
// The address sanitizer does not know the stack of a thread that was cancelled.
void threads_are_cancelled_beside_growth() {}
#endif

}  // namespace

int main(int count, char **words) {
    sizes_change_beside_threads(count > 1 ? std::strtoull(words[1], nullptr, 10) : usual_changes);
    sets_grow(nm::Shape::radix, most);
    sets_grow(nm::Shape::unbalanced, 3000);
    pins_prevent_a_new_size();
    sets_with_a_size_stay();
    a_set_grows_at_its_brim();
    pending_removes_are_finished();
    closes_beside_growth();
    threads_are_cancelled_beside_growth();
    std::puts("sets grow and shrink beside threads, and keep their keys");
}
