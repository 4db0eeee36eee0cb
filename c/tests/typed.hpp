// What the tests of sets of values share: a set of them answers like a std::set of their type.
#ifndef TYPED_HPP
#define TYPED_HPP

#include "thrown.hpp"

#include "nm_keys.hpp"

#include <set>

namespace {

// Scans of each room return all values. `next` is a value of the set.
template <typename Of, typename T>
void scans_like(const Of &of, const std::set<T> &peer) {
    for (std::size_t room = 1; room <= peer.size() + 1; room++) {
        std::vector<T> all;
        std::optional<T> next = *peer.begin();
        while (next) {
            CHECK(peer.count(*next) == 1);
            auto read = of.scan(*next, room);
            CHECK(read.entries.size() == room || !read.next);
            all.insert(all.end(), read.entries.begin(), read.entries.end());
            next = read.next;
        }
        CHECK(all == std::vector<T>(peer.begin(), peer.end()));
    }
    CHECK(of.scan(*peer.begin(), SIZE_MAX).entries.size() == peer.size());
}

// The calls for several values, those up to a bound, and those that throw nothing. They leave the set
// as it was.
template <typename T>
void for_many_like(nm::SetOf<T> &set, const std::set<T> &peer) {
    std::vector<T> all(peer.begin(), peer.end());
    const T &least = all.front(), &most = all.back();
    const std::vector<bool> each(all.size(), true);
    constexpr std::chrono::milliseconds soon(1);
    std::vector<bool> removed, inserted;
    CHECK(set.contains_many(all) == each && set.try_contains(least) == NM_YES);
    set.remove_many(all, removed);
    CHECK(removed == each && set.empty() && set.try_contains(least) == NM_NO);
    set.insert_many(all, inserted);
    CHECK(inserted == each && set.size() == all.size());
    CHECK(!set.pop_first(least) && !set.wait_pop(least, soon) && !set.wait_first(least, soon));
    CHECK(set.wait_first(most, soon) == least && set.pop_first(most) == least);
    CHECK(set.pop_last(most) == most && set.insert_range(std::array<T, 2>{least, most}) == 2);
    std::vector<T> popped = set.pop_first_many(most, SIZE_MAX);
    CHECK(popped == std::vector<T>(all.begin(), all.end() - 1) && set.size() == 1);
    CHECK(set.try_remove(most) == NM_YES && set.try_insert(most) == NM_YES);
    CHECK(set.insert_range(popped) == popped.size() && set.size() == peer.size());
    CHECK(set.nodes() == set.stats().nodes && set.waiting() == set.stats().waiting);
    CHECK(set.free() == set.stats().free && set.workers() == 64 && set.is_open());
    (void)set.collect();
    CHECK(set.erase(least, most) == all.size() - 1 && set.erase(most, least) == 0);
    CHECK(set.erase_if([&](const T &value) { return value < most; }) == 0 && set.first() == most);
    nm::SetOf<T> other(64);
    CHECK(other.merge(set) == 1 && set.empty() && set.merge(other) == 1 && other.empty());
    CHECK(set.erase_if([&](const T &value) { return value == most; }) == 1 && set.empty());
    CHECK(set.insert_range(all) == all.size());
    nm::WorkerOf<T> worker = set.worker(5);
    CHECK(worker.is_open() && worker.contains_many(all) == each);
}

template <typename T>
void answers_like(std::initializer_list<T> values) {
    nm::SetOf<T> set;
    std::set<T> peer;
    nm::WorkerOf<T> worker = set.attach();
    for (const T &value : values) {
        CHECK(worker.insert(value) == peer.insert(value).second && !set.insert(value));
        CHECK(set.contains(value) && set.at_most(value) == value);
        CHECK(*set.lower_bound(value) == value && set.size() == peer.size());
        CHECK(set.at_least(value) == value && set.count(value) == 1 && *set.find(value) == value);
        CHECK(set.erase(value) == 1 && set.erase(value) == 0 && set.find(value) == set.end());
        CHECK(set.count(value) == 0 && worker.insert(value));
    }
    CHECK(std::vector<T>(set.begin(), set.end()) == std::vector<T>(peer.begin(), peer.end()));
    CHECK(std::vector<T>(set.rbegin(), set.rend()) == std::vector<T>(peer.rbegin(), peer.rend()));
    for (const T &from : values)
        for (const T &below : values) {
            std::vector<T> want, got;
            for (const T &value : peer)
                if (!(value < from) && value < below) want.push_back(value);
            auto range = set.range(from, below);
            for (T value : range) got.push_back(value);
            CHECK(got == want && set.count(from, below) == want.size());
            CHECK(range.count() == want.size() && range.empty() == want.empty());
            got.clear();
            for (T value : range.reversed()) got.insert(got.begin(), value);
            CHECK(got == want && (want.empty() || range.last() == want.back()));
        }
    for (const T &value : values) {
        auto wanted = peer.upper_bound(value);
        auto above = worker.upper_bound(value);
        CHECK(wanted == peer.end() ? above == worker.end() : *above == *wanted);
    }
    scans_like(set, peer);
    scans_like(worker, peer);
    CHECK(set.first() == *peer.begin() && set.last() == *peer.rbegin());
    CHECK(set.pop_first() == *peer.begin() && set.insert(*peer.begin()));
    for_many_like(set, peer);
    CHECK(worker.wait_first(std::chrono::milliseconds(1)) == *peer.begin());
    CHECK(!set.wait_first(*peer.begin(), std::chrono::milliseconds(1)));
    CHECK(worker.wait_pop(std::chrono::milliseconds(1)) == *peer.begin());
    CHECK(worker.pop_last() == *peer.rbegin() && set.remove(*std::next(peer.begin())));
    worker.close();
    CHECK(set.close().size() == peer.size() - 3);
}

}  // namespace

#endif
