// Calls that wait for a key, and take it or only return it: each key is taken by one of them, no wake
// is lost, a wait ends after its time and with the set, and workers of threads wait like the set.
#include "thrown.hpp"

#include <atomic>
#include <chrono>
#include <cstdio>
#include <thread>
#include <vector>

namespace {

using std::chrono::milliseconds;
using Clock = std::chrono::steady_clock;

constexpr milliseconds long_time(60000);

milliseconds since(Clock::time_point begun) {
    return std::chrono::duration_cast<milliseconds>(Clock::now() - begun);
}

void a_wait_ends_after_its_time() {
    nm::Set set;
    auto begun = Clock::now();
    CHECK(!set.wait_pop(milliseconds(0)) && !set.wait_pop(milliseconds(30)));
    CHECK(since(begun) >= milliseconds(30) && since(begun) < milliseconds(10000));
    set.insert({7u, 5u});
    CHECK(set.wait_pop(long_time) == 5 && set.wait_pop(milliseconds(0)) == 7);
}

// A pop takes a key below its bound alone, and a wait ends by such a key alone. While one thread
// waits for any key and another one for a lesser one, each key wakes the thread that wants it.
void bounds_are_kept() {
    nm::Set set;
    set.insert({10u, 20u, 30u, 40u});
    CHECK(!set.pop_first(10u) && set.pop_first(11u) == 10 && !set.pop_last(41u));
    CHECK(set.pop_last(40u) == 40 && !set.wait_pop(20u, milliseconds(20)));
    CHECK(set.pop_first_many(30u, 5) == std::vector<std::uint64_t>{20});
    CHECK(set.pop_first_many(31u, 0).empty() && set.pop_first_many(31u, 5).size() == 1);
    CHECK(set.pop_first_many(UINT64_MAX, SIZE_MAX).empty());
    for (std::uint64_t key = 0; key < 1'300; key++) CHECK(set.insert(key));
    std::vector<std::uint64_t> all = set.pop_first_many(1'200u, std::size_t{1} << 46);
    CHECK(all.size() == 1'200 && all.front() == 0 && all.back() == 1'199 && set.size() == 100);
    CHECK(set.pop_first_many(UINT64_MAX, 99).size() == 99 && set.pop_first() == 1'299u);
    for (std::uint64_t round = 0; round < 500; round++) {
        std::optional<std::uint64_t> lesser;
        std::thread small([&] { lesser = set.wait_pop(100u, long_time); });
        std::thread large([&] { CHECK(set.wait_pop(long_time) == (round % 2 ? 700 : 7)); });
        if (round % 2) {
            set.insert(700u);
            large.join();
            set.insert(7u);
        } else {
            set.insert(7u);
            while (!set.empty()) std::this_thread::yield();
            set.insert(7u);
            large.join();
        }
        small.join();
        CHECK(lesser == 7);
    }
}

// One thread inserts keys, one by one, each after the last one was taken: each wakes the other.
template <typename Of>
void no_wake_is_lost(nm::Set &set, Of &taker) {
    std::atomic<std::uint64_t> taken{0};
    std::thread producer([&] {
        for (std::uint64_t key = 1; key <= 20000; key++) {
            set.insert(key);
            while (taken != key) std::this_thread::yield();
        }
    });
    auto begun = Clock::now();
    for (std::uint64_t key = 1; key <= 20000; key++) {
        CHECK(taker.wait_pop(long_time) == key);
        taken = key;
    }
    CHECK(since(begun) < long_time);
    producer.join();
}

// Several threads insert and several take. Each key is taken once, and the close ends the waits.
void each_key_is_taken_once() {
    constexpr std::uint64_t keys = 40000, threads = 4;
    nm::Set set;
    std::vector<std::atomic<int>> times(keys);
    std::atomic<std::uint64_t> taken{0};
    std::vector<std::thread> all;
    for (std::uint64_t first = 0; first < threads; first++) {
        all.emplace_back([&, first] {
            for (std::uint64_t key = first; key < keys; key += threads) CHECK(set.insert(key));
        });
        all.emplace_back([&] {
            nm_outcome end = thrown([&] {
                while (std::optional<std::uint64_t> key = set.wait_pop(long_time)) {
                    times[*key]++;
                    taken++;
                }
            });
            CHECK(end == NM_CLOSED);
        });
    }
    while (taken != keys) std::this_thread::sleep_for(milliseconds(1));
    std::this_thread::sleep_for(milliseconds(20));
    auto begun = Clock::now();
    CHECK(set.close().size() == 0);
    for (std::thread &thread : all) thread.join();
    CHECK(since(begun) < milliseconds(10000));
    for (const std::atomic<int> &each : times) CHECK(each == 1);
}

// A wait goes on while the set gets a new size.
void waits_go_on_across_a_new_size() {
    nm::Set set;
    std::thread taker([&] { CHECK(set.wait_pop(long_time) == 9); });
    std::this_thread::sleep_for(milliseconds(20));
    set.reserve(20000);
    set.shrink_to_fit();
    set.insert(9u);
    taker.join();
}

// A call that takes nothing returns the least key, and leaves it. A key at its bound or above wakes it,
// and it sleeps on; a lesser one ends it.
void a_look_waits_for_a_lesser_key() {
    nm::Set set;
    auto begun = Clock::now();
    CHECK(!set.wait_first(milliseconds(0)) && !set.wait_first(milliseconds(30)));
    CHECK(since(begun) >= milliseconds(30) && since(begun) < milliseconds(10000));
    set.insert({20u, 30u});
    CHECK(set.wait_first(long_time) == 20 && set.wait_first(21u, long_time) == 20);
    CHECK(!set.wait_first(20u, milliseconds(20)) && set.size() == 2);
    std::atomic<int> ended{0};
    nm::Worker worker = set.attach();
    std::thread by_set([&] { CHECK(set.wait_first(20u, long_time) == 5); ended++; });
    std::thread by_worker([&] { CHECK(worker.wait_first(6u, long_time) == 5); ended++; });
    for (std::uint64_t key = 40; key > 20; key -= 2) {
        set.insert(key);
        std::this_thread::sleep_for(milliseconds(2));
    }
    CHECK(ended == 0);
    set.insert(5u);
    by_set.join();
    by_worker.join();
    CHECK(set.contains(5u) && !set.wait_first(5u, milliseconds(1)));
}

// While a look waits, it takes no wake from a call that takes a key: each key reaches both.
void looks_and_takes_wait_together() {
    for (int round = 0; round < 200; round++) {
        nm::Set set;
        std::thread near([&] { CHECK(set.wait_first(10u, long_time) == 7); });
        std::thread taker([&] { CHECK(set.wait_pop(long_time) == 50); });
        std::thread far([&] { CHECK(set.wait_first(20u, long_time) == 7); });
        if (round % 2) std::this_thread::sleep_for(milliseconds(1));
        set.insert(50u);
        taker.join();
        set.insert(7u);
        near.join();
        far.join();
        CHECK(set.pop_first() == 7u && set.empty());
    }
}

// One thread inserts lesser and lesser keys, each after the other one has seen the last one.
void no_lesser_key_is_missed() {
    nm::Set set;
    std::atomic<std::uint64_t> seen{20000};
    std::thread producer([&] {
        for (std::uint64_t key = 20000; key-- > 0;) {
            set.insert(key);
            while (seen != key) std::this_thread::yield();
        }
    });
    for (std::uint64_t below = 20000; below > 0; below--) {
        CHECK(set.wait_first(below, long_time) == below - 1);
        seen = below - 1;
    }
    producer.join();
}

void a_close_ends_a_look() {
    nm::Set set;
    std::thread look([&] { CHECK(thrown([&] { (void)set.wait_first(long_time); }) == NM_CLOSED); });
    std::this_thread::sleep_for(milliseconds(20));
    CHECK(set.close().size() == 0);
    look.join();
    CHECK(thrown([&] { (void)set.wait_first(milliseconds(0)); }) == NM_CLOSED);
}

}  // namespace

int main() {
    a_wait_ends_after_its_time();
    bounds_are_kept();
    nm::Set set(64);
    no_wake_is_lost(set, set);
    nm::Worker worker = set.attach();
    no_wake_is_lost(set, worker);
    each_key_is_taken_once();
    waits_go_on_across_a_new_size();
    a_look_waits_for_a_lesser_key();
    looks_and_takes_wait_together();
    no_lesser_key_is_missed();
    a_close_ends_a_look();
    std::puts("takes and looks wait for a key, and no wake is lost");
}
