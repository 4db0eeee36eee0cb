// Tests the calls of a set in C++ that any thread may make, and the calls for several keys: their
// answers, the sizes that a set returns, and the text of the fault of a full set.
#include "thrown.hpp"

#include <algorithm>
#include <atomic>
#include <cstdio>
#include <iterator>
#include <list>
#include <numeric>
#include <optional>
#include <set>
#include <thread>
#include <vector>

#if __cplusplus > 201703L
#include <ranges>
static_assert(std::ranges::input_range<nm::Set> && std::ranges::common_range<const nm::Set>,
    "algorithms of ranges take a set");
static_assert(std::ranges::input_range<nm::Range<nm::Worker>>, "and a part of it");
static_assert(!std::ranges::sized_range<nm::Set> && !std::ranges::forward_range<nm::Set>,
    "a container that made room for a count would write past it");
#endif

namespace {

using Numbers = std::vector<std::uint64_t>;

// What a set and a worker do alike.
template <typename Of>
void keys_are_kept(Of &of) {
    CHECK(of.empty() && !of.first() && !of.last() && !of.pop_first() && !of.pop_last() &&
          of.begin() == of.end() && of.rbegin() == of.rend());
    CHECK(of.insert(5u) && !of.insert(5u) && of.contains(5u) && of.remove(5u) && !of.remove(5u) &&
          !of.contains(5u));
    CHECK(of.insert({9u, 3u, 5u, 3u}) == 3 && Numbers(of.begin(), of.end()) == Numbers{3, 5, 9});
    CHECK(*of.lower_bound(4u) == 5 && *of.lower_bound(5u) == 5 && of.lower_bound(10u) == of.end() &&
          of.lower_bound(UINT64_MAX) == of.end());
    CHECK(!of.at_most(2u) && of.at_most(3u) == 3u && of.at_most(8u) == 5u &&
          of.at_most(UINT64_MAX) == 9u);
    CHECK(of.first() == 3u && of.last() == 9u && of.pop_first() == 3u && of.pop_last() == 9u &&
          !of.empty() && of.insert(9u));
    CHECK(of.at_least(4u) == 5u && of.at_least(5u) == 5u && !of.at_least(10u) &&
          !of.at_least(UINT64_MAX));
    std::vector<nm_lookup> lookups{{9, 77}, {4, 77}}, none;
    of.contains_many(none);
    of.contains_many(lookups);
    CHECK(lookups[0].found == 1 && lookups[1].found == 0);
    std::list<unsigned> more{1, 9, 2};
    CHECK(of.insert(more.begin(), more.end()) == 2 && of.insert_range(Numbers{1, 8}) == 1);
    nm::Set from(nm::keys, {2u, 4u, 6u});
    CHECK(of.merge(from) == 2 && Numbers(from.begin(), from.end()) == Numbers{2} &&
          of.merge(of) == 0 && of.remove(4u) && of.remove(6u));
    auto step = of.begin();
    CHECK(*step++ == 1 && *step == 2 && step != of.begin());
    of.clear();
    CHECK(of.empty());
}

// The names of std::set answer as there.
template <typename Of>
void keys_have_the_names_of_std(Of &of) {
    const std::set<std::uint64_t> peer{0, 3, 5, 9, nm::most_key - 1, nm::most_key};
    CHECK(of.insert(peer.begin(), peer.end()) == peer.size());
    for (std::uint64_t key : {0ul, 1ul, 3ul, 4ul, 9ul, 10ul, nm::most_key - 2, nm::most_key - 1,
                              nm::most_key}) {
        auto found = of.find(key), above = of.upper_bound(key);
        auto wanted = peer.upper_bound(key);
        CHECK(of.count(key) == peer.count(key) && (found != of.end()) == (peer.count(key) == 1));
        CHECK(found == of.end() || (*found == key && ++found == of.upper_bound(key)));
        CHECK(wanted == peer.end() ? above == of.end() : above != of.end() && *above == *wanted);
    }
    CHECK(of.find(UINT64_MAX) == of.end() && of.upper_bound(UINT64_MAX) == of.end());
    CHECK(thrown([&] { (void)of.count(UINT64_MAX); }) == NM_KEY);
    auto found = of.find(3u);
    CHECK(of.erase(3u) == 1 && of.erase(3u) == 0 && *found == 3 && *++found == 5);
    CHECK(thrown([&] { of.erase(UINT64_MAX); }) == NM_KEY);
    of.clear();
}

// A range has the keys that are not below one key and are below another, including the greatest
// key.
template <typename Of>
void ranges_are_told(Of &of) {
    auto part = [&](std::uint64_t from, std::uint64_t below) {
        Numbers told;
        for (std::uint64_t key : of.range(from, below)) told.push_back(key);
        return told;
    };
    CHECK(of.insert({0u, 3u, 7u, nm::most_key}) == 4);
    CHECK(part(0, UINT64_MAX) == Numbers{0, 3, 7, nm::most_key} && part(3, 7) == Numbers{3} &&
          part(1, nm::most_key) == Numbers{3, 7} && part(7, 3).empty() && part(4, 4).empty() &&
          part(nm::most_key, UINT64_MAX) == Numbers{nm::most_key});
    CHECK(Numbers(of.rbegin(), of.rend()) == Numbers{nm::most_key, 7, 3, 0} &&
          Numbers(of.range(3u, 7u).rbegin(), of.range(3u, 7u).rend()) == Numbers{3} &&
          of.range(4u, 7u).rbegin() == of.range(4u, 7u).rend() &&
          of.range(0u, 0u).rbegin() == of.range(0u, 0u).rend());
    CHECK(of.last() == nm::most_key && std::distance(of.begin(), of.end()) == 4 &&
          std::accumulate(of.begin(), std::next(of.begin(), 3), std::uint64_t{0}) == 10);
#if __cplusplus > 201703L
    CHECK(std::ranges::find(of, 7u) != of.end() && std::ranges::distance(of.range(1u)) == 3);
    Numbers told;
    std::ranges::copy(of.range(1u, 9u), std::back_inserter(told));
    CHECK(told == Numbers{3, 7});
#endif
    of.clear();
}

// An iterator goes on if its key is removed before the step.
void a_walk_goes_on() {
    nm::Set set(64, nm::keys, {1u, 2u, 3u, 4u});
    Numbers told;
    for (std::uint64_t key : set) {
        told.push_back(key);
        set.remove(key);
        set.remove(3u);
    }
    CHECK(told == Numbers{1, 2, 4} && set.empty());
}

void sets_are_made_of_keys() {
    const Numbers keys{4, 1, 4};
    nm::Options options;
    options.workers = 3;
    const nm::Set set(64, keys.begin(), keys.end(), options);
    CHECK(set.size() == 2 && set.contains(4u) && *set.begin() == 1 && set.workers() == 3);
    CHECK(nm::Set(64, nm::keys, {7u, 8u}).size() == 2 && nm::Set(64, nm::keys, {7u}).contains(7u) &&
          nm::Set(64, nm::keys, {7u, 8u}, options).workers() == 3);
    CHECK(nm::Set(64, {4}).workers() == 4 && nm::Set(64, {4}).empty());
#if __cplusplus > 201703L
    CHECK(nm::Set(64, {.workers = 5}).workers() == 5);
#endif
    CHECK(thrown([&] { nm::Set(7, nm::keys, {1u, 2u}); }) == NM_FULL);
}

// Sizes count the calls by each worker, those of a thread too.
void sizes_are_counted() {
    nm::Options options;
    options.collect_after = 64;
    nm::Set set(1024, options);
    nm::Worker worker = set.attach();
    CHECK(set.nodes() == 1024 && set.workers() == 64 && set.capacity() == 509 &&
          set.size() == 0 && set.free() == 1019 && set.waiting() == 0);
    for (std::uint64_t key = 0; key < 20; key += 2)
        CHECK(set.insert(key) && worker.insert(key + 1));
    CHECK(set.size() == 20 && set.free() == 1019 - 40);
    for (std::uint64_t key = 0; key < 10; key++) CHECK(worker.remove(key));
    CHECK(set.size() == 10 && set.waiting() == 20 && set.free() == 1019 - 40);
    nm_fullness now = set.stats();
    CHECK(now.nodes == 1024 && now.keys == 10 && now.waiting == 20 && now.free == 1019 - 40 &&
          now.unasked == 0 && now.behind == 0 && now.hindering == 0);
    CHECK(set.stats().growths == 0 && set.stats().longest_pause.count() == 0);
    {
        nm::Pin pin = worker.pin();
        CHECK(set.stats().behind == 0 && set.collect() == 0);  // it may be one epoch behind
        CHECK(set.stats().behind == 1);
    }
    CHECK(set.collect() == 20 && set.waiting() == 0 && set.free() == 1019 - 20);
}

// Many keys are inserted and removed with an answer each, and twice in one call too. After a fault
// the answers say which keys were inserted.
void many_keys_have_answers() {
    nm::Set set(4096, nm::keys, {3u, 500u});
    std::vector<std::uint64_t> keys(300);
    std::iota(keys.begin(), keys.end(), 0);
    keys.insert(keys.end(), {7, 500});
    std::vector<bool> inserted, removed, again;
    set.insert_many(keys, inserted);
    CHECK(inserted.size() == 302 && !inserted[3] && !inserted[300] && !inserted[301]);
    CHECK(std::count(inserted.begin(), inserted.end(), true) == 299 && set.size() == 301);
    nm::Worker worker = set.attach();
    worker.remove_many(keys, removed);
    CHECK(removed.size() == 302 && removed[7] && !removed[300] && removed[301]);
    worker.remove_many({}, removed);
    CHECK(removed.size() == 302 && set.empty());
    nm::Options options;
    options.timeout_ms = 0;
    nm::Set small(15, options);
    Thrown told = fault_of([&] { small.insert_many({1, 2, 3, 4, 5, 6, 7}, again); });
    CHECK(told.outcome == NM_FULL && again == std::vector<bool>(5, true) && small.size() == 5);
    told = fault_of([&] { small.remove_many({1, UINT64_MAX, 2}, again); });
    CHECK(told.outcome == NM_KEY && again.size() == 6 && small.contains(2u));
}

// The key of a remove that is unfinished is found, and an insert of it returns false. One more
// managed call by its worker finishes it, and so does a remove of the key by another one.
void a_key_is_gone_after_one_more_call() {
    nm::Set set(1024, {3});
    nm::Worker worker = set.attach(), other = set.attach();
    for (bool is_own : {true, false}) {
        CHECK(worker.insert(5u) && worker.try_remove(5u, 1) == NM_UNFINISHED);
        CHECK(other.contains(5u) && !other.insert(5u) && set.contains(5u) && !set.insert(5u));
        CHECK(is_own ? !worker.contains(7u) : !other.remove(5u));
        CHECK(!other.contains(5u) && other.insert(5u) && worker.contains(5u) && set.remove(5u));
    }
}

// A remove that is unfinished counts as soon as it has begun, and never again: by a worker, and by
// a call of the set, which finishes it before it gives the worker back.
void unfinished_removes_count_once() {
    nm::Set set(1024, {1});
    nm::Worker worker = set.attach();
    CHECK(worker.insert({1u, 2u, 3u, 4u}) == 4 && set.size() == 4);
    CHECK(worker.try_remove(1u, 1) == NM_UNFINISHED && set.size() == 3);
    CHECK(worker.try_finish() == NM_YES && set.size() == 3 && worker.try_finish() == NM_NO);
    CHECK(worker.try_remove(2u, 1) == NM_UNFINISHED && worker.insert(5u) && set.size() == 3);
    CHECK(worker.try_remove(3u, 1) == NM_UNFINISHED && set.contains(4u) && !worker.pending() &&
          worker.try_finish() == NM_NO && set.size() == 2);
    CHECK(worker.try_insert(4u) == NM_NO && worker.try_insert(6u) == NM_YES && set.size() == 3);
    worker.close();
    CHECK(set.pop_first() == 4u && set.pop_last() == 6u && set.size() == 1);
    CHECK(set.close().size() == 1);
}

// A call of the set that has borrowed a thread's worker leaves no remove pending, so that the thread
// meets no key of another's.
void borrowed_workers_have_nothing_pending() {
    nm::Options options;
    options.workers = 1;
    options.tries = 1;
    options.rounds = 1;
    nm::Set set(1024, options);
    nm::Worker worker = set.attach();
    for (std::uint64_t key = 0; key < 100; key++) CHECK(worker.insert(key));
    for (std::uint64_t key = 0; key < 100; key++) {
        CHECK(set.try_remove(key) == NM_YES && !worker.pending());
        CHECK(worker.try_contains(key) == NM_NO && set.size() == 99 - key);
    }
}

// Removes beside two more workers are sometimes unfinished by one attempt. A call of the set that
// has borrowed a thread's worker returns NM_YES only if its remove is finished: the worker has a
// pending key after NM_UNFINISHED alone, and it is the key of that call.
void borrowers_say_what_is_pending() {
    nm::Set set(8192, {3, nm::Shape::radix, 1, 0});
    nm::Worker worker = set.attach(), second = set.attach(), third = set.attach();
    std::atomic<bool> is_over{false};
    std::vector<std::thread> threads;
    for (nm::Worker *own : {&second, &third})
        threads.emplace_back([&, own] {
            for (std::uint64_t each = 0; !is_over; each++) {
                (void)own->try_insert(each % 2);
                (void)own->try_remove(each % 2);
                (void)own->try_finish();
            }
        });
    for (std::uint64_t each = 0; each < 100'000; each++) {
        (void)set.try_insert(each % 2);
        nm_outcome outcome = set.try_remove(each % 2);
        std::optional<std::uint64_t> pending = worker.pending();
        CHECK(!pending || (outcome == NM_UNFINISHED && *pending == each % 2));
        while (worker.try_finish() == NM_UNFINISHED) {}
    }
    is_over = true;
    for (std::thread &thread : threads) thread.join();
}

// The calls of a set that begin with try_ return outcomes, and wait for no worker.
void calls_throw_nothing() {
    nm::Set set(11, {2});
    CHECK(set.try_insert(5u) == NM_YES && set.try_insert(5u) == NM_NO &&
          set.try_contains(5u) == NM_YES && set.try_remove(5u) == NM_YES &&
          set.try_remove(5u) == NM_NO && set.try_contains(5u) == NM_NO);
    CHECK(set.try_insert(UINT64_MAX) == NM_KEY && set.try_insert(1u) == NM_YES &&
          set.try_insert(2u) == NM_YES && set.try_insert(3u) == NM_YES &&
          set.try_insert(4u) == NM_FULL && set.size() == 3);
    nm::Worker one = set.attach(), other = set.attach();
    CHECK(set.try_remove(1u) == NM_YES);
    {
        nm::Pin pin = one.pin(), second = other.pin();
        CHECK(set.try_contains(2u) == NM_NO_WORKER && set.try_remove(2u) == NM_NO_WORKER);
    }
    CHECK(set.try_contains(2u) == NM_YES);
    one.close(), other.close();
    (void)set.close();
    CHECK(set.try_insert(5u) == NM_CLOSED && set.try_remove(5u) == NM_CLOSED &&
          set.try_contains(5u) == NM_CLOSED);
    CHECK(nm::Set(std::move(set)).try_insert(5u) == NM_CLOSED);
}

// A set whose keys take each node says so at once, whatever its timeout is, with its numbers.
void a_full_set_says_why() {
    nm::Options options;
    options.timeout_ms = UINT32_MAX;
    nm::Set set(11, nm::keys, {1u, 2u, 3u}, options);
    Thrown told = fault_of([&] { set.insert(4u); });
    CHECK(told.outcome == NM_FULL && told.text == "the set is full: its 3 keys take 11 of its 11 "
                                                  "nodes, and 0 wait to be freed");
    CHECK(set.remove(2u) && set.insert(4u) && !set.insert(3u));
}

// An insert waits for nodes that wait.
void an_insert_waits() {
    nm::Options options;
    options.workers = 3;
    options.timeout_ms = 60'000;  // longer than a busy machine keeps a thread waiting
    nm::Set set(13, options);
    nm::Worker stalled = set.worker(2);
    std::uint64_t epoch = 0;
    CHECK(stalled.try_pin(epoch) == NM_DONE);
    for (std::uint64_t key = 0; key < 4; key++) CHECK(set.insert(key) && set.remove(key));
    std::thread later([&] {
        std::this_thread::sleep_for(std::chrono::milliseconds(20));
        CHECK(stalled.try_unpin() == NM_DONE);
    });
    CHECK(set.insert(7u));
    later.join();
}

// It waits as long as the options say, and then names whom it waited for.
void an_insert_names_whom_it_waits_for() {
    nm::Options options;
    options.workers = 3;
    options.timeout_ms = 400;
    nm::Set set(13, options);
    nm::Worker stalled = set.worker(2);
    std::uint64_t epoch = 0;
    CHECK(stalled.try_pin(epoch) == NM_DONE);
    for (std::uint64_t key = 0; key < 4; key++) CHECK(set.insert(key) && set.remove(key));
    Thrown told = fault_of([&] { set.insert(7u); });
    CHECK(told.outcome == NM_FULL &&
          told.text == "the set is full: its 0 keys take 5 of its 13 nodes, and 8 wait to be freed;"
                       " worker 2 is in their way, by a pin or in a call");
    CHECK(stalled.try_unpin() == NM_DONE && stalled.insert(7u));
}

// Nodes that wait with a worker whose thread makes no calls are freed for others.
void idle_workers_collect() {
    nm::Set set(13);
    nm::Worker idle = set.worker(9), pinned = set.worker(3);
    std::uint64_t epoch = 0;
    CHECK(pinned.try_pin(epoch) == NM_DONE);
    for (std::uint64_t key = 0; key < 4; key++) CHECK(idle.insert(key) && idle.remove(key));
    CHECK(idle.queue_len() == 8 && pinned.try_unpin() == NM_DONE);
    CHECK(set.insert(5u) && idle.queue_len() == 0);
}

// A call finds a worker even if threads have attached all of them, and this thread is one.
void threads_have_each_worker() {
    nm::Options options;
    options.workers = 2;
    nm::Set set(64, nm::keys, {5u}, options);
    nm::Worker mine = set.attach(), other = set.attach();
    std::thread thread([&] { CHECK(set.contains(5u) && set.insert(6u)); });
    thread.join();
    CHECK(set.remove(5u) && mine.contains(6u) && other.remove(6u) && set.size() == 0);
}

// Two threads that call by one worker wait for each other, and nothing is lost.
void a_worker_is_shared() {
    constexpr std::uint64_t keys = 2000;
    nm::Set set(8192);
    nm::Worker worker = set.attach();
    std::atomic<std::uint64_t> inserted{0};
    auto fill = [&] {
        for (std::uint64_t key = 0; key < keys; key++) {
            inserted += worker.insert(key);
            CHECK(worker.try_contains(key) == NM_YES);
        }
    };
    std::thread other(fill);
    fill();
    other.join();
    CHECK(inserted == keys && set.size() == keys);
}

// Many threads that attach nothing call a set of few workers; their answers add up.
void many_threads_share_few_workers() {
    constexpr std::uint64_t threads_at_work = 16, keys = 500, rounds = 4;
    nm::Options options;
    options.workers = 3;
    nm::Set set(8192, options);
    std::atomic<std::uint64_t> inserted{0}, removed{0};
    std::vector<std::thread> threads;
    for (std::uint64_t first = 0; first < threads_at_work; first++)
        threads.emplace_back([&, first] {
            for (std::uint64_t each = 0; each < keys * rounds; each++) {
                std::uint64_t key = (first + each * 7) % keys;
                if (each % 3 == 0) removed += set.remove(key);
                else inserted += set.insert(key);
            }
        });
    for (std::thread &thread : threads) thread.join();
    CHECK(set.size() == inserted - removed && set.close().size() == inserted - removed);
}

}  // namespace

int main() {
    nm::Set set(65536);
    keys_are_kept(set);
    keys_have_the_names_of_std(set);
    ranges_are_told(set);
    nm::Worker worker = set.attach();
    keys_are_kept(worker);
    keys_have_the_names_of_std(worker);
    ranges_are_told(worker);
    a_walk_goes_on();
    sets_are_made_of_keys();
    sizes_are_counted();
    many_keys_have_answers();
    a_key_is_gone_after_one_more_call();
    unfinished_removes_count_once();
    borrowed_workers_have_nothing_pending();
    borrowers_say_what_is_pending();
    calls_throw_nothing();
    a_full_set_says_why();
    an_insert_waits();
    an_insert_names_whom_it_waits_for();
    idle_workers_collect();
    threads_have_each_worker();
    a_worker_is_shared();
    many_threads_share_few_workers();
    std::puts("a set keeps keys, tells its room and waits");
}
