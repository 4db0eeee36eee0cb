// For bench/orders: nanoseconds a call on sets whose keys come in some order. The first argument
// names the set; then each line of standard input is a row: what is done, how many keys the set
// has, and how many threads do it. bench/orders says what each row does.
#include "sets.hpp"

#include <algorithm>
#include <atomic>
#include <chrono>
#include <cmath>
#include <cstdint>
#include <cstdio>
#include <cstdlib>
#include <iostream>
#include <numeric>
#include <optional>
#include <random>
#include <set>
#include <string>
#include <thread>
#include <vector>

namespace {

using namespace sets;

// ---- orders

std::vector<Key> clusters(std::size_t count) {
    std::mt19937_64 random(7);
    std::vector<Key> keys;
    for (int cluster = 0; cluster < 32; cluster++) {
        Key first = random() >> 2;
        for (std::size_t at = 0; at < count / 32 + 1 && keys.size() < count; at++)
            keys.push_back(first + at);
    }
    return keys;
}

std::vector<Key> keys_in(const std::string &order, std::size_t count) {
    if (order == "clustered") return clusters(count);
    std::vector<Key> keys(count);
    std::iota(keys.begin(), keys.end(), Key{1});
    if (order == "descending") std::reverse(keys.begin(), keys.end());
    if (order == "shuffled" || order == "zipf")
        std::shuffle(keys.begin(), keys.end(), std::mt19937_64(5));
    return keys;
}

// Picks by Zipf's law with exponent 0.99, of keys that stand.
std::vector<Key> zipf_picks(const std::vector<Key> &keys, std::size_t count) {
    std::vector<double> sums(keys.size());
    double sum = 0;
    for (std::size_t rank = 0; rank < keys.size(); rank++)
        sums[rank] = sum += 1 / std::pow(static_cast<double>(rank + 1), 0.99);
    std::mt19937_64 random(11);
    std::uniform_real_distribution<double> drawn(0, sum);
    std::vector<Key> picks;
    for (std::size_t pick = 0; pick < count; pick++) {
        auto at = std::lower_bound(sums.begin(), sums.end(), drawn(random)) - sums.begin();
        picks.push_back(keys[std::min<std::size_t>(static_cast<std::size_t>(at), keys.size() - 1)]);
    }
    return picks;
}

// ---- rows

template <class Work> double nanoseconds(std::size_t calls, Work work) {
    auto begun = std::chrono::steady_clock::now();
    work();
    std::chrono::duration<double, std::nano> taken = std::chrono::steady_clock::now() - begun;
    return taken.count() / static_cast<double>(calls);
}

void must(bool is_so) {
    if (!is_so) {
        std::fputs("orders: a set has answered otherwise\n", stderr);
        std::exit(1);
    }
}

// Each thread makes its share of so many turns; nanoseconds of the clock a turn.
template <class Set, class Turn>
double in_threads(Set &set, std::size_t threads, std::size_t turns, Turn turn) {
    return nanoseconds(turns, [&] {
        std::vector<std::thread> started;
        for (std::size_t number = 0; number < threads; number++)
            started.emplace_back([&, number] {
                typename Set::Access access(set, number);
                for (std::size_t made = 0; made < turns / threads; made++) turn(access);
            });
        for (auto &thread : started) thread.join();
    });
}

template <class Set>
double filled(const std::string &order, std::size_t count) {
    Set set(count, 1);
    typename Set::Access access(set, 0);
    auto keys = keys_in(order, count);
    double fill = nanoseconds(count, [&] {
        for (Key key : keys) must(access.add(key));
    });
    if (order != "zipf") return fill;
    auto picks = zipf_picks(keys, 4 * count);
    return nanoseconds(picks.size(), [&] {
        for (Key key : picks) must(access.contains(key));
    });
}

// A window of timestamps: a turn adds the next one and removes the one that falls out.
template <class Set> double windowed(std::size_t window, std::size_t threads) {
    Set set(window, threads);
    std::atomic<Key> clock{window + 1};
    typename Set::Access access(set, 0);
    for (Key time = 1; time <= window; time++) must(access.add(time));
    return in_threads(set, threads, std::max<std::size_t>(window, 200000), [&](auto &access) {
        Key time = clock.fetch_add(1);
        must(access.add(time));
        // It may stand behind its adding by another thread that has lost its processor.
        while (!access.remove(time - window)) std::this_thread::yield();
    });
}

// A scheduler: a turn adds the next timestamp and takes the least one that stands, of which there
// is always one.
template <class Set> double scheduled(std::size_t standing, std::size_t threads) {
    Set set(standing, threads);
    std::atomic<Key> clock{standing + 1};
    typename Set::Access access(set, 0);
    for (Key time = 1; time <= standing; time++) must(access.add(time));
    return in_threads(set, threads, 200000, [&](auto &access) {
        must(access.add(clock.fetch_add(1)));
        must(access.pop_first().has_value());
    });
}

// ---- rows after churn

// Keys are in a range that begins at the least key, which was popped last. The range moves up with
// it, so a set of such keys looks alike however long its calls go on.
constexpr Key range = Key{1} << 56;

Key some_key(Key least, std::mt19937_64 &random) { return least + 1 + random() % range; }

// Fills a set. Then it removes a key and inserts a random one as many times as the set has keys, by
// turns the least key and a random one. `keys` has the set's keys, and some that the set has no
// longer. Returns the key that was popped last.
template <class Access>
Key churn(Access &access, std::size_t count, std::vector<Key> &keys, std::mt19937_64 &random) {
    Key least = 0;
    auto add = [&] {
        keys.push_back(some_key(least, random));
        must(access.add(keys.back()));
    };
    for (std::size_t made = 0; made < count; made++) add();
    for (std::size_t turn = 0; turn < count; turn++) {
        if (turn % 2) {
            for (bool is_removed = false; !is_removed; keys.pop_back()) {
                std::swap(keys[random() % keys.size()], keys.back());
                is_removed = access.remove(keys.back());
            }
        } else {
            least = access.pop_first().value();
        }
        add();
    }
    return least;
}

template <class Set>
double churned(const std::string &what, std::size_t count, std::size_t threads) {
    constexpr std::size_t turns = 200000;
    Set set(count, threads);
    std::vector<Key> keys;
    std::mt19937_64 random(3);
    typename Set::Access access(set, 0);
    Key least = churn(access, count, keys, random);
    auto is_gone = [&](Key key) { return !access.contains(key); };
    keys.erase(std::remove_if(keys.begin(), keys.end(), is_gone), keys.end());
    std::shuffle(keys.begin(), keys.end(), random);
    if (what == "random-look-ups")
        return nanoseconds(turns, [&] {
            for (std::size_t turn = 0; turn < turns; turn++)
                must(access.contains(keys[turn % keys.size()]));
        });
    if (what == "random-changes")
        return nanoseconds(turns, [&] {
            for (std::size_t turn = 0; turn < turns; turn++) {
                Key &key = keys[turn % keys.size()];
                must(access.remove(key));
                key = some_key(least, random);
                must(access.add(key));
            }
        });
    if (what != "random-pops") must(false);
    std::atomic<std::uint64_t> seeds{7};
    return in_threads(set, threads, turns, [&](auto &access) {
        static thread_local std::mt19937_64 own(seeds.fetch_add(1));
        auto popped = access.pop_first();
        must(popped.has_value());
        must(access.add(some_key(*popped, own)));
    });
}

template <class Set> void serve() {
    std::string what;
    std::size_t keys, threads;
    while (std::cin >> what >> keys >> threads) {
        double taken = what == "window"             ? windowed<Set>(keys, threads)
                       : what == "scheduler"        ? scheduled<Set>(keys, threads)
                       : what.rfind("random-", 0) == 0 ? churned<Set>(what, keys, threads)
                                                       : filled<Set>(what, keys);
        std::printf("%.1f\n", taken);
        std::fflush(stdout);
    }
}

} // namespace

int main(int count, char **words) {
    std::string name = count > 1 ? words[1] : "";
    if (name == "set") serve<Proved>();
    else if (name == "plain") serve<Plain>();
    else if (name == "locked") serve<Locked<std::set<Key>>>();
#ifdef HAS_CDS
    else if (name == "skip") {
        cds::Initialize();
        {
            Rcu rcu;
            Attached attached;
            serve<Skip>();
        }
        cds::Terminate();
    }
#endif
    else return 2;
}
