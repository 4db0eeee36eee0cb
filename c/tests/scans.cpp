// Tests the calls that read keys in order: iterators, which read blocks ahead, scans of the pool,
// and counts, alone and beside threads that insert and remove.
#include "thrown.hpp"

#include <algorithm>
#include <atomic>
#include <cstdio>
#include <numeric>
#include <optional>
#include <thread>
#include <vector>

namespace {

constexpr std::uint64_t most = UINT64_MAX - 3;

template <typename From>
std::vector<std::uint64_t> listed(const From &from) {
    return {from.begin(), from.end()};
}

template <typename From>
std::vector<std::uint64_t> listed_back(const From &from) {
    return {from.rbegin(), from.rend()};
}

// Returns count keys, `step` apart.
std::vector<std::uint64_t> every(std::uint64_t step, std::size_t count) {
    std::vector<std::uint64_t> keys(count);
    for (std::size_t each = 0; each < count; each++) keys[each] = step * each;
    return keys;
}

// Each number of keys near the ends of the blocks of 8, 64 and 512 is read in both directions.
void blocks_meet() {
    for (std::size_t count : {0u, 1u, 2u, 8u, 9u, 10u, 72u, 73u, 74u, 584u, 585u, 586u, 1096u, 1097u,
                              2000u}) {
        nm::Set set(8192);
        std::vector<std::uint64_t> keys = every(3, count), back(keys.rbegin(), keys.rend());
        CHECK(set.insert_range(keys) == count);
        CHECK(listed(set) == keys && listed_back(set) == back);
        CHECK(set.count(0u, UINT64_MAX) == count);
        nm::Worker worker = set.attach();
        CHECK(listed(worker) == keys && listed_back(worker) == back);
    }
}

// A range ends at its bounds, wherever they are in a block.
void ranges_end() {
    nm::Set set(8192);
    std::vector<std::uint64_t> keys = every(2, 1000);
    set.insert_range(keys);
    for (std::uint64_t from : {0u, 1u, 2u, 17u, 18u, 145u, 146u, 1999u, 2000u})
        for (std::uint64_t below : {0u, 1u, 18u, 19u, 147u, 1169u, 1998u, 1999u, 5000u}) {
            auto begin = std::lower_bound(keys.begin(), keys.end(), from);
            auto end = std::lower_bound(keys.begin(), keys.end(), below);
            std::vector<std::uint64_t> part;
            if (begin < end) part.assign(begin, end);
            std::vector<std::uint64_t> back(part.rbegin(), part.rend());
            CHECK(listed(set.range(from, below)) == part);
            CHECK(listed_back(set.range(from, below)) == back);
            CHECK(set.count(from, below) == part.size());
            auto range = set.range(from, below);
            CHECK(listed(range.reversed()) == back && range.count() == part.size());
            CHECK(range.empty() == part.empty() && range.first().has_value() == !part.empty());
            CHECK(part.empty() || (range.first() == part.front() && range.last() == part.back()));
            CHECK(range.contains(from) == (!part.empty() && part.front() == from));
            CHECK(!range.contains(below) && listed(set.range(0u, below).range(from)) == part);
        }
}

// The least and the greatest key of all are read.
void the_ends_are_read() {
    nm::Set set(1024);
    const std::vector<std::uint64_t> keys = {0, 1, most - 1, most}, back = {most, most - 1, 1, 0};
    set.insert_range(keys);
    CHECK(listed(set) == keys && listed_back(set) == back && set.count(0u, UINT64_MAX) == 4);
    CHECK(listed(set.range(most)) == std::vector<std::uint64_t>{most});
    CHECK(set.count(most, UINT64_MAX) == 1 && set.count(2u, most - 1) == 0);
}

// A copy of an iterator goes on by itself.
void copies_go_on() {
    nm::Set set(8192);
    std::vector<std::uint64_t> keys = every(1, 100);
    set.insert_range(keys);
    auto one = set.begin();
    std::advance(one, 8);
    auto other = one;
    CHECK(*one == 8 && *one++ == 8 && *++one == 10 && *other == 8 && *++other == 9);
    CHECK(std::accumulate(other, set.end(), std::uint64_t(0)) == 100 * 99 / 2 - 36);
    CHECK(std::accumulate(one, set.end(), std::uint64_t(0)) == 100 * 99 / 2 - 45);
}

// A scan writes no more keys than there is room for, and goes on where it says.
void scans_go_on() {
    nm_pool *pool = nullptr;
    CHECK(nm_pool_new(&pool, 4096, nullptr) == NM_DONE);
    for (std::uint64_t key = 0; key < 1000; key += 2)
        CHECK(nm_pool_insert(pool, NM_ANY, key, 100) == NM_YES);
    std::uint64_t keys[7], from = 100, below = 900, next = 0;
    std::size_t count = 0, total = 0;
    nm_outcome outcome = NM_YES;
    while (outcome == NM_YES) {
        outcome = nm_pool_scan(pool, NM_ANY, from, below, keys, 7, &count, &next, 100);
        CHECK(count <= 7);
        for (std::size_t each = 0; each < count; each++) CHECK(keys[each] == 100 + 2 * total++);
        CHECK(outcome != NM_YES || (count > 0 && next > keys[count - 1]));
        from = next;
    }
    CHECK(outcome == NM_NO && total == 400);
    for (outcome = NM_YES; outcome == NM_YES; below = next) {
        outcome = nm_pool_scan_back(pool, NM_ANY, below, 100, keys, 7, &count, &next, 100);
        for (std::size_t each = 0; each < count; each++) CHECK(keys[each] == 98 + 2 * total--);
    }
    CHECK(outcome == NM_NO && total == 0);
    nm_pool_free(pool);
}

// A scan reads as many keys as it has room for, also more than one call of the library reads, and the
// next one goes on where it says.
template <typename Of>
void scans_have_room(const Of &of, const std::vector<std::uint64_t> &keys) {
    for (std::size_t room : {1u, 7u, 100u, 1023u, 1024u, 1025u, 2000u, 3000u}) {
        std::vector<std::uint64_t> all;
        std::optional<std::uint64_t> next = 0;
        while (next) {
            auto read = of.scan(*next, room);
            bool is_full = read.entries.size() == room;
            CHECK(is_full || !read.next);
            CHECK(!read.next || *read.next > read.entries.back());
            all.insert(all.end(), read.entries.begin(), read.entries.end());
            next = read.next;
        }
        CHECK(all == keys);
    }
    CHECK(of.scan(0u, SIZE_MAX).entries == keys && !of.scan(0u, SIZE_MAX).next);
    CHECK(of.scan(keys[5] + 1, 2).entries == std::vector<std::uint64_t>({keys[6], keys[7]}));
    CHECK(of.scan(3u, 0).entries.empty() && of.scan(3u, 0).next == 3u);
    CHECK(of.scan(UINT64_MAX, 5).entries.empty() && !of.scan(UINT64_MAX, 5).next);
    auto [last, next] = of.scan(most, 1);
    CHECK(last == std::vector<std::uint64_t>{most} && !next);
}

void scans_return_keys() {
    nm::Set set(8192);
    std::vector<std::uint64_t> keys = every(3, 2000);
    keys.push_back(most);
    set.insert_range(keys);
    scans_have_room(set, keys);
    scans_have_room(set.attach(), keys);
    CHECK(nm::Set(64).scan(0u, 5).entries.empty() && !nm::Set(64).scan(0u, 5).next);
}

// A scan of a pool and one of a worker take the bound first at which they begin. Those of a pool read
// the keys of one range: in descending order its upper end is not in it either.
void scans_take_their_begin_first() {
    nm_pool *pool = nullptr;
    std::uint32_t worker = 0;
    CHECK(nm_pool_new(&pool, 64, nullptr) == NM_DONE);
    CHECK(nm_pool_attach(pool, &worker, 100) == NM_DONE);
    for (std::uint64_t key = 1; key <= 9; key++)
        CHECK(nm_pool_insert(pool, worker, key, 100) == NM_YES);
    std::uint64_t keys[8], next = 0, some = 0;
    std::size_t count = 0;
    CHECK(nm_pool_scan(pool, NM_ANY, 3, 8, keys, 8, &count, &next, 100) == NM_NO && count == 5);
    CHECK(nm_pool_scan_back(pool, NM_ANY, 8, 3, keys, 8, &count, &next, 100) == NM_NO);
    CHECK(count == 5 && keys[0] == 7 && keys[4] == 3);
    CHECK(nm_worker_scan_back(nm_pool_handle(pool, worker), 7, 3, keys, 8, &some, &next, 64) ==
              NM_NO &&
          some == 5 && keys[0] == 7 && keys[4] == 3);
    CHECK(nm_pool_scan_back(pool, NM_ANY, 3, 8, keys, 8, &count, &next, 100) == NM_NO &&
          count == 0);
    CHECK(nm_pool_detach(pool, &worker, 100) == NM_DONE);
    nm_pool_free(pool);
}

// Keys that remain are returned once each and in order, while other threads insert and remove the
// keys between them.
void keys_that_remain_are_read() {
    nm::Set set(65536);
    std::vector<std::uint64_t> keys = every(10, 2000);
    set.insert_range(keys);
    std::atomic<bool> is_over{false};
    std::vector<std::thread> threads;
    for (unsigned number = 1; number < 4; number++)
        threads.emplace_back([&, number] {
            for (std::uint64_t key = number; !is_over; key = (key + 170) % 20000) {
                (void)set.insert(key);
                (void)set.remove(key);
            }
        });
    for (int round = 0; round < 200; round++) {
        std::vector<std::uint64_t> all = round % 4 == 0   ? set.scan(0u, SIZE_MAX).entries
                                         : round % 2 == 0 ? listed(set)
                                                          : listed_back(set);
        if (round % 2 != 0) std::reverse(all.begin(), all.end());
        CHECK(std::is_sorted(all.begin(), all.end(), std::less_equal<>()));
        all.erase(std::remove_if(all.begin(), all.end(), [](auto key) { return key % 10 != 0; }),
                  all.end());
        CHECK(all == keys);
        CHECK(set.count(5000u, 10000u) >= 500);
    }
    is_over = true;
    for (std::thread &thread : threads) thread.join();
}

}  // namespace

int main() {
    blocks_meet();
    ranges_end();
    the_ends_are_read();
    copies_go_on();
    scans_go_on();
    scans_return_keys();
    scans_take_their_begin_first();
    keys_that_remain_are_read();
    std::puts("keys are read in order");
}
