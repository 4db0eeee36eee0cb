// For bench/calls: times one thread's calls on the set, on one in the paper's shape, and on the
// sets of plain.hpp. Arguments: the rounds, sizes of fresh sets, the word churned, sizes of churned
// sets.
#include "nm_set.h"
#include "plain.hpp"

#include <algorithm>
#include <array>
#include <chrono>
#include <cstdio>
#include <cstdlib>
#include <cstring>
#include <malloc.h>
#include <numeric>
#include <random>
#include <utility>
#include <vector>

namespace {

using Key = std::uint64_t;
using Random = std::minstd_rand;

std::size_t nodes_for(std::size_t keys) { return 8 * keys + 4096; }

// The room of a set that keeps its number of keys: four nodes a key, twice what a key takes.
std::size_t nodes_for_churned(std::size_t keys) { return 4 * keys + 4096; }

using Maker = nm_outcome(nm_handle *, std::uint32_t, std::uint32_t);

template <Maker make> class ProvedSet {
public:
    explicit ProvedSet(std::size_t nodes) {
        if (make(&set_, static_cast<std::uint32_t>(nodes), 1) != NM_DONE ||
            nm_set_worker(&set_, &worker_, 0) != NM_DONE)
            std::abort();
    }
    ~ProvedSet() { nm_drop(&worker_), nm_drop(&set_); }
    bool contains(Key key) { return nm_worker_contains(&worker_, key, &nm_default_options) == NM_YES; }
    bool add(Key key) { return nm_worker_insert(&worker_, key, &nm_default_options) == NM_YES; }
    bool remove(Key key) { return nm_worker_remove(&worker_, key, &nm_default_options) == NM_YES; }
    // The least key, which it removes; infinity_0 if there is none.
    Key pop_first() {
        Key key;
        bool is_popped = nm_worker_pop_first(&worker_, &nm_default_options, &key) == NM_YES;
        return is_popped ? key : plain::infinity_0;
    }

private:
    nm_handle set_ = NM_CLOSED_HANDLE;
    alignas(64) nm_handle worker_ = NM_CLOSED_HANDLE;
};

template <class Access> class PlainSet {
public:
    explicit PlainSet(std::size_t nodes) : set_(nodes, 1), worker_(set_, 0) {}
    bool contains(Key key) { return worker_.contains(key); }
    bool add(Key key) { return worker_.add(key); }
    bool remove(Key key) { return worker_.remove(key); }
    Key pop_first() { return worker_.pop_first(); }

private:
    plain::Set set_;
    Access worker_;
};

// A row of the table: what is called, how long the calls of a round have taken, and how many
// nanoseconds a call took in the round that was least.
struct Row {
    const char *name;
    double taken = 0;
    std::size_t calls = 0;
    double least = 1e300;

    void end_round() {
        if (calls == 0) return;
        least = std::min(least, taken / static_cast<double>(calls));
        taken = 0, calls = 0;
    }
};

using Table = std::array<Row, 9>;
constexpr std::size_t first_mix = 5, mixes = 3, pops = 8;  // rows; the last is of churned sets
constexpr unsigned looks_of_mix[] = {90, 50, 0};

Table new_table() {
    Table table;
    const char *names[] = {
        "look-up, true",     "insert, false",     "delete, false", "insert, true", "delete, true",
        "90 look-ups of 100", "50 look-ups of 100", "no look-ups", "pop the least, insert a random key",
    };
    for (std::size_t row = 0; row < table.size(); row++) table[row].name = names[row];
    return table;
}

// Times `calls` calls, of which `wanted` return true if that is known.
template <class Calls>
void time(Row &row, std::size_t calls, std::size_t wanted, bool is_known, Calls make) {
    auto begin = std::chrono::steady_clock::now();
    std::size_t trues = make();
    std::chrono::duration<double, std::nano> taken = std::chrono::steady_clock::now() - begin;
    if (is_known && trues != wanted) {
        std::fprintf(stderr, "bench/calls: %s: %zu of %zu calls answered true, and not %zu\n",
                     row.name, trues, calls, wanted);
        std::exit(1);
    }
    row.taken += taken.count(), row.calls += calls;
}

template <class Call> std::size_t trues_of(const std::vector<Key> &keys, Call call) {
    std::size_t trues = 0;
    for (Key key : keys) trues += call(key);
    return trues;
}

// One call of each kind on each key of a set of half of the keys of a range, in random order.
template <class Set> void time_kinds(Set &set, std::size_t keys, Random &random, Table &table) {
    std::vector<Key> in(2 * keys);
    std::iota(in.begin(), in.end(), 0);
    std::shuffle(in.begin(), in.end(), random);
    std::vector<Key> out(in.begin() + static_cast<std::ptrdiff_t>(keys), in.end());
    in.resize(keys);
    for (Key key : in) set.add(key);
    auto contains = [&](Key key) { return set.contains(key); };
    auto add = [&](Key key) { return set.add(key); };
    auto remove = [&](Key key) { return set.remove(key); };
    time(table[0], keys, keys, true, [&] { return trues_of(in, contains); });
    time(table[1], keys, 0, true, [&] { return trues_of(in, add); });
    time(table[2], keys, 0, true, [&] { return trues_of(out, remove); });
    time(table[3], keys, keys, true, [&] { return trues_of(out, add); });
    time(table[4], keys, keys, true, [&] { return trues_of(out, remove); });
    for (Key key : in) set.remove(key);
}

// Calls on random keys of a range, half of which are in the set; `looks` of 100 are look-ups.
template <class Set> std::size_t mixed(Set &set, std::size_t keys, unsigned looks, Random random) {
    std::size_t trues = 0;
    for (std::size_t call = 0; call < 400'000; call++) {
        unsigned number = static_cast<unsigned>(random());
        Key key = number % (2 * keys);
        if (random() % 100 < looks) trues += set.contains(key);
        else if (number >> 24 & 1) trues += set.add(key);
        else trues += set.remove(key);
    }
    return trues;
}

// A set that was just filled, and another one for the mixes.
template <class Set> class Fresh {
public:
    Fresh(std::size_t keys, Table &table)
        : keys_(keys), table_(table), kinds_(nodes_for(keys)), mixes_(nodes_for(keys)) {
        Random random(1);
        for (std::size_t count = 0; count < keys;) count += mixes_.add(random() % (2 * keys));
    }

    void round(unsigned seed) {
        Random random(seed);
        for (std::size_t times = std::max<std::size_t>(1, 16'384 / keys_); times--;)
            time_kinds(kinds_, keys_, random, table_);
        for (std::size_t mix = 0; mix < mixes; mix++)
            time(table_[first_mix + mix], 400'000, 0, false,
                 [&] { return mixed(mixes_, keys_, looks_of_mix[mix], random); });
        for (Row &row : table_) row.end_round();
    }

private:
    std::size_t keys_;
    Table &table_;
    Set kinds_, mixes_;
};

// A set after churn. Its keys are in a range that begins at the least one. New keys are random keys
// of that range, which moves up with the least key, so the set looks alike after each round.
template <class Set> class Churned {
public:
    Churned(std::size_t keys, Table &table)
        : table_(table), set_(nodes_for_churned(keys)),
          calls_(std::min<std::size_t>((keys + 1) / 2, 100'000)) {
        for (std::size_t count = 0; count < keys; count++) add_new();
        for (std::size_t turn = 0; turn < keys; turn++) {
            if (turn % 2) set_.remove(taken());
            else pop();
            add_new();
        }
    }

    void round(unsigned seed) {
        random_.seed(seed);
        std::vector<Key> in = some_in(calls_), out = some_out(calls_);
        auto contains = [&](Key key) { return set_.contains(key); };
        auto add = [&](Key key) { return set_.add(key); };
        auto remove = [&](Key key) { return set_.remove(key); };
        time(table_[0], calls_, calls_, true, [&] { return trues_of(in, contains); });
        time(table_[1], calls_, 0, true, [&] { return trues_of(in, add); });
        time(table_[2], calls_, 0, true, [&] { return trues_of(out, remove); });
        time(table_[3], calls_, calls_, true, [&] { return trues_of(out, add); });
        time(table_[4], calls_, calls_, true, [&] { return trues_of(in, remove); });
        keep(out);
        for (std::size_t mix = 0; mix < mixes; mix++) time_mix(table_[first_mix + mix], mix);
        out = some_out(calls_);
        time(table_[pops], calls_, calls_, true, [&] {
            return trues_of(out, [&](Key key) { return pop() && set_.add(key); });
        });
        keep(out);
        for (Row &row : table_) row.end_round();
    }

private:
    struct Planned {
        Key key;
        enum { look, add, remove } what;
    };

    // One call each on keys half of which are in the set. The calls are drawn beforehand, so each
    // answer is known. As many calls add a key as remove one.
    void time_mix(Row &row, std::size_t mix) {
        std::vector<Key> in = some_in(calls_), out = some_out(calls_), left;
        std::vector<Planned> calls;
        for (std::size_t at = 0; at < calls_; at++) {
            bool looks = random_() % 100 < looks_of_mix[mix], removes = random_() & 1;
            auto of_in = looks ? Planned::look : removes ? Planned::remove : Planned::add;
            auto of_out = looks ? Planned::look : removes ? Planned::add : Planned::remove;
            calls.push_back({in[at], of_in});
            calls.push_back({out[at], of_out});
            left.push_back(looks || !removes ? in[at] : out[at]);
        }
        // Of each two calls: look-ups find one of the keys; or one key is removed and the other one
        // added; or neither changes the set.
        std::size_t trues = 0;
        for (std::size_t at = 0; at < calls.size(); at += 2)
            trues += calls[at].what == Planned::look ? 1 : calls[at].what == Planned::remove ? 2 : 0;
        std::shuffle(calls.begin(), calls.end(), random_);
        time(row, calls.size(), trues, true, [&] {
            std::size_t made = 0;
            for (auto [key, what] : calls)
                made += what == Planned::look  ? set_.contains(key)
                        : what == Planned::add ? set_.add(key)
                                               : set_.remove(key);
            return made;
        });
        keep(left);
    }

    // Pops the least key; returns whether there was one.
    bool pop() {
        Key key = set_.pop_first();
        if (key == plain::infinity_0) return false;
        least_ = key;
        return true;
    }

    // A random key that is not in the set, except with a chance of one in a thousand million.
    Key some_key() { return least_ + 1 + random_() % range; }

    void add_new() {
        Key key = some_key();
        if (set_.add(key)) keys_.push_back(key);
    }

    // Takes a random key of the set out of the list, which may have popped keys.
    Key taken() {
        for (;;) {
            std::swap(keys_[random_() % keys_.size()], keys_.back());
            Key key = keys_.back();
            keys_.pop_back();
            if (set_.contains(key)) return key;
        }
    }

    std::vector<Key> some_in(std::size_t count) {
        std::vector<Key> keys(count);
        for (Key &key : keys) key = taken();
        return keys;
    }

    std::vector<Key> some_out(std::size_t count) {
        std::vector<Key> keys(count);
        for (Key &key : keys) key = some_key();
        return keys;
    }

    void keep(const std::vector<Key> &keys) { keys_.insert(keys_.end(), keys.begin(), keys.end()); }

    static constexpr Key range = Key{1} << 56;
    Table &table_;
    Set set_;
    std::size_t calls_;
    std::mt19937_64 random_{1};
    Key least_ = 0;
    std::vector<Key> keys_;
};

void print(std::size_t keys, const char *state, const std::array<Table, 4> &tables) {
    for (std::size_t row = 0; row < tables[0].size(); row++) {
        double least = tables[0][row].least;
        if (least == 1e300) continue;
        std::printf("| %zu%s | %s | %.0f", keys, state, tables[0][row].name, least);
        for (std::size_t other = 1; other < tables.size(); other++)
            std::printf(" | %.0f | %.2f", tables[other][row].least,
                        least / tables[other][row].least);
        std::puts(" |");
    }
    std::fflush(stdout);
}

// Makes the rounds. The sets are made anew for every few of them, in other pages of memory: if the
// calls wait for memory, these pages make a fifth of their time and more.
template <template <class> class Kind>
void compare(std::size_t keys, const char *state, unsigned long rounds) {
    constexpr unsigned long in_these_pages = 3;
    std::array<Table, 4> tables{new_table(), new_table(), new_table(), new_table()};
    for (unsigned long round = 0; round < rounds;) {
        Kind<ProvedSet<nm_set_new>> set(keys, tables[0]);
        Kind<PlainSet<plain::Worker>> plain(keys, tables[1]);
        Kind<PlainSet<plain::Handle>> handles(keys, tables[2]);
        Kind<ProvedSet<nm_set_new_unbalanced>> paper(keys, tables[3]);
        for (unsigned long here = 0; here < in_these_pages && round < rounds; here++, round++) {
            unsigned seed = static_cast<unsigned>(round + 1);
            set.round(seed), plain.round(seed), handles.round(seed), paper.round(seed);
        }
    }
    print(keys, state, tables);
}

}  // namespace

int main(int count, char **words) {
    if (count < 2) return 2;
    unsigned long rounds = std::strtoul(words[1], nullptr, 10);
    // Large blocks stay blocks of their own, which are given back and mapped anew.
    mallopt(M_MMAP_THRESHOLD, 1 << 20);
    std::puts("| Keys | Call | Set | Plain C++ | Ratio | C++, handles | Ratio"
              " | Paper's shape | Ratio |");
    std::puts("|---|---|---|---|---|---|---|---|---|");
    bool is_churned = false;
    for (int at = 2; at < count; at++) {
        std::size_t keys = std::strtoul(words[at], nullptr, 10);
        if (std::strcmp(words[at], "churned") == 0) is_churned = true;
        else if (is_churned) compare<Churned>(keys, ", after churn", rounds);
        else compare<Fresh>(keys, "", rounds);
    }
}
