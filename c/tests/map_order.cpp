// Tests the calls of nm::Map that go over several keys: neighbours, ranges, pops, look-ups of
// several keys, sizes, and maps that are made of keys and values. Values in place are compared with
// a std::map. Objects are read under a guard of another worker, also while threads remove them.
#include "canary.hpp"
#include "nm_map.hpp"
#include "thrown.hpp"

#include <atomic>
#include <cstdio>
#include <map>
#include <random>
#include <string>
#include <thread>
#include <vector>

#ifdef __cpp_lib_ranges
#include <ranges>
static_assert(std::ranges::input_range<nm::Reversed<nm::Range<nm::Set>>>);
static_assert(std::ranges::input_range<nm::MapWorker<int>>, "a worker is a range");
static_assert(std::ranges::input_range<nm::Range<nm::MapWorker<int>, nm::MapEntry<int>>>);
static_assert(std::ranges::input_range<nm::GuardedWorker<std::string>>);
#endif

namespace {

using Numbers = nm::Map<std::uint32_t>;
using Objects = nm::Map<Canary>;
using Plain = std::map<std::uint64_t, std::uint32_t>;
using Keys = std::vector<std::uint64_t>;

static_assert(std::is_same_v<Numbers::Worker::value_type, nm::MapEntry<std::uint32_t>>);
static_assert(std::is_same_v<Objects::Worker::value_type, std::uint64_t>);
static_assert(std::is_same_v<nm::GuardedWorker<Canary>::value_type, nm::MapEntry<Canary *>>);

// ---- values in place ----

bool is(const std::optional<nm::MapEntry<std::uint32_t>> &found, const Plain &plain,
        Plain::const_iterator wanted) {
    if (wanted == plain.end()) return !found;
    return found && found->key == wanted->first && found->value == wanted->second;
}

Plain::const_iterator at_most(const Plain &plain, std::uint64_t key) {
    auto above = plain.upper_bound(key);
    return above == plain.begin() ? plain.end() : std::prev(above);
}

// A range is a view: it has the first and the last key, and it is read in both directions.
void is_view_of(const nm::Range<Numbers::Worker, nm::MapEntry<std::uint32_t>> &range,
                const Plain &some) {
    CHECK(range.empty() == some.empty() && range.count() == some.size());
    CHECK(is(range.first(), some, some.begin()) && is(range.last(), some, at_most(some, UINT64_MAX)));
    auto wanted = some.rbegin();
    for (auto [key, value] : range.reversed()) {
        CHECK(wanted != some.rend() && key == wanted->first && value == wanted->second);
        ++wanted;
    }
    CHECK(wanted == some.rend());
    if (some.empty()) return;
    std::uint64_t least = some.begin()->first, most = some.rbegin()->first;
    CHECK(range.contains(least) && range.contains(most) && !range.contains(most + 1));
    CHECK(range.range(least, most).count() == some.size() - 1 && range.range(most + 1).empty());
    CHECK(range.range(0u, least).empty() && (least == 0 || !range.contains(least - 1)));
}

// Compares all calls that read with those of a std::map, from a key to another one.
void reads_like(Numbers &map, Numbers::Worker &worker, const Plain &plain, std::uint64_t from,
                std::uint64_t below) {
    CHECK(map.size() == plain.size() && worker.empty() == plain.empty());
    CHECK(is(worker.first(), plain, plain.begin()));
    CHECK(is(worker.last(), plain, at_most(plain, UINT64_MAX)));
    CHECK(is(worker.at_most(from), plain, at_most(plain, from)));
    auto least = worker.lower_bound(from);
    auto wanted = plain.lower_bound(from);
    CHECK((least == worker.end()) == (wanted == plain.end()));
    CHECK(wanted == plain.end() || (least->key == wanted->first && least->value == wanted->second));
    auto above = worker.upper_bound(from);
    CHECK(is(above == worker.end() ? std::nullopt : std::optional(*above), plain,
             plain.upper_bound(from)));
    auto found = worker.find(from);
    CHECK(is(found == worker.end() ? std::nullopt : std::optional(*found), plain, plain.find(from)));
    CHECK(is(worker.at_least(from), plain, wanted) && worker.count(from) == plain.count(from));
    Plain scanned;
    auto scan = worker.scan(from, 100);
    for (auto [key, value] : scan.entries) scanned.emplace_hint(scanned.end(), key, value);
    auto rest = std::next(wanted, std::min<std::ptrdiff_t>(100, std::distance(wanted, plain.end())));
    CHECK(scanned == Plain(wanted, rest) && (scan.next || rest == plain.end()));
    CHECK(!scan.next || is(worker.at_least(*scan.next), plain, rest));
    Plain read, back;
    for (auto [key, value] : worker.range(from, below)) read.emplace_hint(read.end(), key, value);
    auto range = worker.range(from, below);
    for (auto at = range.rbegin(); at != range.rend(); ++at) {
        CHECK(back.empty() || at->key < back.begin()->first);
        back.emplace(at->key, at->value);
    }
    Plain some(wanted, from < below ? plain.lower_bound(below) : wanted);
    CHECK(read == some && back == some && worker.count(from, below) == some.size());
    is_view_of(range, some);
    is_view_of(worker.range(from / 2).range(from, below), some);
    CHECK(Plain(range.begin(), range.end()) == some && worker.equals(plain));
    CHECK(worker.keys(from, below).size() == some.size());
}

void pop_like(Numbers::Worker &worker, Plain &plain, std::uint64_t bound, bool is_first) {
    auto wanted = is_first ? plain.begin() : at_most(plain, UINT64_MAX);
    bool is_in = wanted != plain.end() && (wanted->first < bound) == is_first;
    CHECK(is(is_first ? worker.pop_first(bound) : worker.pop_last(bound), plain,
             is_in ? wanted : plain.end()));
    if (is_in) plain.erase(wanted);
}

void get_like(const Numbers::Worker &worker, const Plain &plain, std::minstd_rand &random) {
    Keys wanted;
    for (std::size_t count = random() % 200; wanted.size() < count;) wanted.push_back(random() % 1500);
    auto found = worker.get_many(wanted);
    CHECK(found.size() == wanted.size());
    for (std::size_t at = 0; at < wanted.size(); at++) {
        auto there = plain.find(wanted[at]);
        CHECK(found[at] == (there == plain.end() ? std::nullopt : std::optional(there->second)));
    }
}

void a_map_answers_like_a_map() {
    Numbers map{8192, 2};
    Numbers::Worker worker = map.attach();
    Plain plain;
    std::minstd_rand random(7);
    for (std::uint32_t call = 0; call < 20'000; call++) {
        std::uint64_t key = random() % 1500;
        bool is_often = call / 2000 % 2 == 0;
        switch (random() % (is_often ? 4 : 8)) {
        case 0: pop_like(worker, plain, key, random() % 2 == 0); break;
        case 4: {
            auto there = plain.find(key);
            CHECK(worker.take(key) ==
                  (there == plain.end() ? std::nullopt : std::optional(there->second)));
            plain.erase(key);
            break;
        }
        case 5: CHECK(worker.remove(key) == (plain.erase(key) == 1)); break;
        case 6: CHECK(worker.erase(key) == plain.erase(key)); break;
        case 7: CHECK(worker.try_emplace(key, call) == plain.try_emplace(key, call).second); break;
        default: CHECK(worker.insert(key, call) == plain.emplace(key, call).second);
        }
        if (call % 200 == 0) reads_like(map, worker, plain, key, key + random() % 1500);
        if (call % 300 == 0) get_like(worker, plain, random);
    }
    reads_like(map, worker, plain, 0, UINT64_MAX);
    while (!plain.empty()) pop_like(worker, plain, UINT64_MAX, true);
    reads_like(map, worker, plain, 0, UINT64_MAX);
}

void the_ends_of_the_keys_are_read() {
    Numbers map{64, 1};
    Numbers::Worker worker = map.attach();
    CHECK(worker.empty() && !worker.first() && !worker.last() && !worker.pop_first());
    CHECK(worker.begin() == worker.end() && worker.rbegin() == worker.rend());
    CHECK(worker.insert(0u, 1) && worker.insert(nm::most_key, 2));
    CHECK(worker.first()->key == 0 && worker.last()->key == nm::most_key);
    CHECK(worker.range(1u).begin()->key == nm::most_key && worker.count() == 2);
    CHECK(worker.range(0u, nm::most_key).rbegin()->key == 0 && worker.count(0u, nm::most_key) == 1);
    CHECK(worker.range(7u, 7u).begin() == worker.end() && worker.count(7u, 7u) == 0);
    CHECK(worker.find(UINT64_MAX) == worker.end() && worker.upper_bound(UINT64_MAX) == worker.end());
    CHECK(worker.upper_bound(nm::most_key) == worker.end() && worker.find(nm::most_key)->value == 2);
    CHECK(worker.upper_bound(nm::most_key - 1)->value == 2 && worker.count(nm::most_key) == 1);
    CHECK(thrown([&] { (void)worker.count(UINT64_MAX); }) == NM_KEY);
    CHECK(worker.scan(UINT64_MAX, 5).entries.empty() && !worker.scan(nm::most_key, 1).next);
    CHECK(worker.lower_bound(UINT64_MAX) == worker.end() && worker.at_most(UINT64_MAX)->value == 2);
    CHECK(thrown([&] { (void)worker.get_many({5, UINT64_MAX}); }) == NM_KEY);
    CHECK(!worker.pop_last(UINT64_MAX) && !worker.pop_first(0u));
    CHECK(worker.pop_last(nm::most_key)->value == 2 && worker.pop_first(1u)->value == 1);
    CHECK(map.size() == 0 && !worker.pending());
}

// A value without a constructor of its own is in a block too.
struct Point {
    float x, y;
    Point(float first, float second) noexcept : x(first), y(second) {}
};

void values_need_no_default() {
    nm::Map<Point> map{256, 1};
    auto worker = map.attach();
    for (std::uint64_t key = 0; key < 50; key++) CHECK(worker.emplace(key, float(key), 0.5f));
    std::uint64_t next = 0;
    for (auto [key, point] : worker) CHECK(key == next++ && point.x == float(key));
    CHECK(next == 50 && worker.take(7u)->x == 7);
    worker.clear();
    CHECK(worker.empty() && map.size() == 0);
}

// ---- maps of keys and values ----

void maps_are_made_of_pairs() {
    Numbers map(64, {{5u, 50}, {7u, 70}, {5u, 55}});
    CHECK(map.size() == 2 && map.attach().get(5u) == 50u);
    Plain plain{{1, 10}, {2, 20}};
    nm::MapOptions one;
    one.workers = 1;
    Numbers copied(64, plain.begin(), plain.end(), one);
    CHECK(copied.workers() == 1 && copied.attach().first()->value == 10);
    nm::Map<std::string> texts(64, {{5u, "five"}, {6u, "six"}});
    auto worker = texts.attach();
    CHECK(worker.keys() == Keys({5, 6}) && *worker.pin().get(6u) == "six");
    CHECK(thrown([] { Numbers full(7, {{5u, 50}, {7u, 70}}, {1, 64, 64, {}, 0}); }) == NM_FULL);
    CHECK(thrown([] { Numbers wrong(64, {{UINT64_MAX, 50}}); }) == NM_KEY);
}

void objects_are_moved_into_a_map() {
    std::vector<std::pair<unsigned, std::unique_ptr<Canary>>> pairs;
    for (unsigned key = 0; key < 10; key++)
        pairs.emplace_back(key / 2, std::make_unique<Canary>(key / 2));
    Objects map(64, std::make_move_iterator(pairs.begin()), std::make_move_iterator(pairs.end()));
    CHECK(map.size() == 5 && Canary::alive() == 10);
    for (unsigned key = 0; key < 10; key++) CHECK((pairs[key].second == nullptr) == (key % 2 == 0));
}

// ---- objects, under a guard of another worker ----

void objects_are_read_and_popped_under_a_guard() {
    {
        Objects map{4096, 3};
        Objects::Worker reader = map.attach(), worker = map.attach(), remover = map.attach();
        for (std::uint64_t key = 0; key < 600; key++) CHECK(worker.emplace(key, key));
        CHECK(*worker.first() == 0 && *worker.at_most(1000u) == 599 && worker.count() == 600);
        auto guard = reader.pin();
        auto calls = worker.under(guard);
        std::vector<const Canary *> all;
        for (auto [key, object] : worker.under(guard).range(0u, 600u)) {
            CHECK(key == all.size() && object->is_of(key));
            all.push_back(object);
        }
        CHECK(all.size() == 600 && calls.get(5u) == all[5] && calls.get(600u) == nullptr);
        CHECK(calls.first()->value == all[0] && calls.last()->value == all[599]);
        CHECK(calls.lower_bound(7u)->value == all[7] && calls.at_most(9u)->value == all[9]);
        CHECK(calls.find(7u)->value == all[7] && calls.find(600u) == calls.end());
        CHECK(calls.upper_bound(7u)->value == all[8] && calls.at_least(9u)->value == all[9]);
        CHECK(calls.count(599u) == 1 && calls.count(600u) == 0 && calls.count() == 600);
        auto scan = calls.scan(598u, 1);
        CHECK(scan.entries[0].value == all[598] && calls.scan(*scan.next, 9).entries.size() == 1);
        std::vector<Canary *> some{calls.get(3u), nullptr, calls.get(4u)};
        CHECK(guard.get_many({3, 700, 4}) == some);
        auto popped = calls.pop_first();
        CHECK(popped->key == 0 && popped->value == all[0]);
        CHECK(calls.pop_last(599u)->value == all[599]);
        CHECK(!calls.pop_last(599u) && !calls.pop_first(1u));
        CHECK(calls.take(5u) == all[5] && calls.take(5u) == nullptr);
        CHECK(worker.pop_first() == std::optional<std::uint64_t>(1) && *remover.pop_last() == 598);
        remover.clear();
        CHECK(map.size() == 0 && worker.reclaim().values == 0 && remover.reclaim().values == 0);
        for (std::uint64_t key = 0; key < 600; key++) CHECK(all[key]->is_of(key));
        guard.unpin();
        CHECK(thrown([&] { (void)calls.get(5u); }) == NM_NOT_PINNED);
        CHECK(thrown([&] { (void)worker.under(guard); }) == NM_NOT_PINNED);
        CHECK(worker.reclaim().values + remover.reclaim().values == 600 && Canary::alive() == 0);
    }
}

void wrong_guards_are_refused() {
    Objects map{64, 2}, other{64, 1};
    Objects::Worker worker = map.attach(), second = map.attach(), stranger = other.attach();
    auto guard = worker.pin();
    CHECK(thrown([&] { (void)worker.under(guard); }) == NM_PINNED);
    bool is_refused = false;
    try {
        (void)stranger.under(guard);
    } catch (const std::invalid_argument &) {
        is_refused = true;
    }
    CHECK(is_refused && second.under(guard).empty());
    second.close();
    CHECK(thrown([&] { (void)second.under(guard).first(); }) == NM_CLOSED);
}

// ---- threads ----

constexpr unsigned threads = 4;
constexpr std::uint64_t keys = 20'000;

// Makes a pop until other threads do not take each key that it finds.
template <typename Call>
auto answered(Call pop) {
    for (;;) {
        try {
            return pop();
        } catch (const nm::Fault &fault) {
            CHECK(fault.outcome() == NM_BUSY);
        }
    }
}

// Each thread pops objects under a guard, until the map is empty. No object is popped twice.
void pop_all(Objects &map, std::vector<std::atomic<unsigned>> &times) {
    Objects::Worker reader = map.attach(), worker = map.attach();
    bool is_empty = false;
    while (!is_empty) {
        auto guard = reader.pin();
        auto calls = worker.under(guard);
        for (unsigned at = 0; at < 8 && !is_empty; at++) {
            auto popped =
                answered([&] { return at % 2 == 0 ? calls.pop_first() : calls.pop_last(); });
            is_empty = !popped;
            CHECK(is_empty || popped->value->is_of(popped->key));
            if (!is_empty) times[popped->key]++;
        }
    }
}

void each_object_is_popped_once() {
    std::vector<std::atomic<unsigned>> times(keys);
    {
        Objects map{4 * keys, 2 * threads};
        {
            Objects::Worker worker = map.attach();
            for (std::uint64_t key = 0; key < keys; key++) CHECK(worker.emplace(key, key));
        }
        std::vector<std::thread> running;
        for (unsigned number = 0; number < threads; number++)
            running.emplace_back(pop_all, std::ref(map), std::ref(times));
        for (std::thread &thread : running) thread.join();
        CHECK(map.size() == 0);
    }
    for (auto &each : times) CHECK(each == 1);
    CHECK(Canary::alive() == 0);
}

// What the calls of a thread returned that has one try for each.
struct Counts {
    std::uint64_t inserted = 0, removed = 0, unfinished = 0;
};

// Makes a call that may fail because other threads interfere.
template <typename Call>
bool is_answered(Counts &counts, Call call) {
    try {
        return call();
    } catch (const nm::Fault &fault) {
        CHECK(fault.outcome() == NM_BUSY || fault.outcome() == NM_PENDING ||
              fault.outcome() == NM_UNFINISHED);
        counts.unfinished += fault.outcome() == NM_UNFINISHED;
        return false;
    }
}

void change_by_one_try(Numbers &map, Counts &counts) {
    Numbers::Worker worker = map.attach();
    for (std::uint32_t call = 0; call < 20'000; call++) {
        std::uint64_t key = call * 7 % 4;
        counts.inserted += is_answered(counts, [&] { return worker.insert(key, call); });
        counts.removed += is_answered(counts, [&] {
            return call % 2 == 0 ? worker.pop_first().has_value() : worker.remove(key);
        });
        CHECK(!worker.pending() || *worker.pending() < 4);
    }
}

// A remove or a pop that is not finished counts as done, because no other call removes its key.
void an_unfinished_pop_counts() {
    nm::MapOptions options;
    options.workers = threads + 1;
    options.tries = 1;
    options.rounds = 0;
    Numbers map(4096, options);
    std::vector<Counts> each(threads);
    std::vector<std::thread> running;
    for (Counts &counts : each)
        running.emplace_back(change_by_one_try, std::ref(map), std::ref(counts));
    for (std::thread &thread : running) thread.join();
    Counts all;
    for (const Counts &counts : each) {
        all.inserted += counts.inserted;
        all.removed += counts.removed;
        all.unfinished += counts.unfinished;
    }
    CHECK(map.size() == all.inserted - all.removed - all.unfinished);
    std::printf("%llu removes and pops were unfinished\n",
                static_cast<unsigned long long>(all.unfinished));
}

// Every third key stays. The others are inserted and removed, until a reader is done.
void change(Objects &map, unsigned seed, const std::atomic<bool> &is_over) {
    Objects::Worker worker = map.attach();
    std::minstd_rand random(seed);
    while (!is_over) {
        std::uint64_t key = random() % 3000 / 3 * 3 + 1 + random() % 2;
        if (random() % 2 == 0)
            worker.emplace(key, key);
        else
            worker.remove(key);
    }
}

// A pass over the objects finds each key that stays, in order, and no object that was freed.
void pass(Objects &map, bool is_back) {
    Objects::Worker reader = map.attach(), worker = map.attach();
    auto guard = reader.pin();
    Keys found;
    auto add = [&](const nm::MapEntry<Canary *> &entry) {
        CHECK(entry.value->is_of(entry.key));
        if (entry.key % 3 == 0) found.push_back(entry.key);
    };
    auto range = worker.under(guard).range(300u, 2700u);
    if (is_back)
        std::for_each(range.rbegin(), range.rend(), add);
    else
        std::for_each(range.begin(), range.end(), add);
    if (is_back) std::reverse(found.begin(), found.end());
    CHECK(found.size() == 800 && found.front() == 300 && found.back() == 2697);
    CHECK(std::is_sorted(found.begin(), found.end()));
}

void a_pass_finds_what_stays() {
    {
        Objects map{65'536, 6};
        {
            Objects::Worker worker = map.attach();
            for (std::uint64_t key = 0; key < 3000; key += 3) CHECK(worker.emplace(key, key));
        }
        std::atomic<bool> is_over{false};
        std::vector<std::thread> running;
        for (unsigned number = 1; number <= threads; number++)
            running.emplace_back(change, std::ref(map), number, std::ref(is_over));
        for (unsigned turn = 0; turn < 100; turn++) pass(map, turn % 2 == 1);
        is_over = true;
        for (std::thread &thread : running) thread.join();
        CHECK(map.size() == map.attach().count());
    }
    CHECK(Canary::alive() == 0);
}

// ---- waits for a key ----

// A look returns the least key and removes nothing. A key at its bound or above wakes it, and it sleeps
// on; a lesser one ends it.
void a_look_waits_for_a_lesser_key() {
    using std::chrono::milliseconds;
    constexpr milliseconds long_time(60'000);
    Numbers map(1024, 4);
    Numbers::Worker worker = map.attach();
    CHECK(!worker.wait_first(milliseconds(0)) && !worker.wait_first(milliseconds(20)));
    CHECK(worker.insert(20u, 200) && worker.wait_first(long_time)->value == 200);
    CHECK(!worker.wait_first(20u, milliseconds(1)) && worker.wait_first(21u, long_time)->key == 20);
    std::atomic<int> ended{0};
    auto look = [&](std::uint64_t below) {
        Numbers::Worker own = map.attach();
        CHECK(own.wait_first(below, long_time)->value == 50);
        ended++;
    };
    std::thread near(look, 6), far(look, 20);
    for (std::uint64_t key = 40; key > 20; key -= 2) {
        CHECK(worker.insert(key, 7));
        std::this_thread::sleep_for(milliseconds(2));
    }
    CHECK(ended == 0 && worker.insert(5u, 50));
    near.join();
    far.join();
    CHECK(map.size() == 12);
}

// One thread inserts lesser and lesser keys, each after the other one has seen the last one.
void no_lesser_key_is_missed() {
    constexpr std::uint64_t count = 5'000;
    Objects map(4 * count, 3);
    std::atomic<std::uint64_t> seen{count};
    std::thread producer([&] {
        Objects::Worker worker = map.attach();
        for (std::uint64_t key = count; key-- > 0;) {
            CHECK(worker.emplace(key, key));
            while (seen != key) std::this_thread::yield();
        }
    });
    Objects::Worker worker = map.attach();
    for (std::uint64_t below = count; below > 0; below--) {
        CHECK(worker.wait_first(below, std::chrono::minutes(1)) == below - 1);
        seen = below - 1;
    }
    producer.join();
}

// The nodes that wait with all workers are those of removed keys whose objects are not freed.
void waiting_nodes_are_counted() {
    Objects map(1024, 3);
    Objects::Worker first = map.attach(), second = map.attach(), reader = map.attach();
    for (std::uint64_t key = 0; key < 20; key++) CHECK(first.emplace(key, key));
    CHECK(map.waiting() == 0 && map.free() == 1024 - 5 - 40);
    {
        auto guard = reader.pin();
        for (std::uint64_t key = 0; key < 10; key++)
            CHECK((key % 2 == 0 ? first : second).remove(key));
        CHECK(map.waiting() == 20 && first.waiting() + second.waiting() == 20);
        CHECK(map.size() == 10 && map.free() == 1024 - 5 - 40);
    }
    std::uint64_t values = 0;
    while (values < 10) values += first.reclaim().values + second.reclaim().values;
    CHECK(values == 10 && map.waiting() == 0 && map.free() == 1024 - 5 - 20);
}

// A view shows each later change of its map, and a key outside of it is none of its keys.
void a_view_shows_each_change() {
    Numbers map(64, {{5u, 50}, {9u, 90}});
    auto worker = map.attach();
    auto view = worker.range(6u, 20u);
    CHECK(view.first()->key == 9 && !view.contains(5u) && view.count() == 1);
    CHECK(worker.insert(7u, 70) && worker.insert(20u, 0) && view.first()->value == 70);
    CHECK(view.last()->key == 9 && !view.contains(20u) && worker.erase(9u) == 1);
    CHECK(view.last()->key == 7 && worker.range(9u, 7u).empty() && !worker.range(0u, 0u).last());
}

void maps_are_merged_and_compared() {
    Numbers map(256, {{5u, 50}, {9u, 90}}), other(256, {{7u, 70}, {9u, 91}});
    auto worker = map.attach(), from = other.attach();
    CHECK(worker.merge(from) == 1 && worker.merge(worker) == 0);
    CHECK(worker.equals(Plain{{5, 50}, {7, 70}, {9, 90}}) && from.equals(Plain{{9, 91}}));
    CHECK(!worker.equals(Plain{{5, 50}, {7, 70}}) && !worker.equals(Plain{{5, 50}, {7, 71}, {9, 90}}));
    CHECK(!worker.equals(Plain{{5, 50}, {7, 70}, {9, 90}, {10, 0}}) && !from.equals(Plain{}));
    // A map is made of the entries of another one.
    Numbers copy(256, worker.begin(), worker.end());
    CHECK(copy.attach().equals(worker.scan(0u, SIZE_MAX).entries));
    CHECK(from.insert(worker.begin(), worker.end()) == 2 && from.get(9u) == 91u);
}

// Objects are copied, compared and removed by their values, under a guard.
void objects_are_copied_and_compared() {
    using Texts = nm::Map<std::string>;
    Texts map(256, {{5u, "five"}, {7u, "seven"}, {9u, "nine"}});
    auto reader = map.attach(), worker = map.attach();
    auto guard = reader.pin();
    auto calls = worker.under(guard);
    std::map<std::uint64_t, std::string> plain{{5, "five"}, {7, "seven"}, {9, "nine"}};
    CHECK(calls.equals(plain) && calls.range(6u).last()->key == 9);
    Texts copy(256, calls.begin(), calls.end());
    auto copy_reader = copy.attach(), copied = copy.attach();
    auto copy_guard = copy_reader.pin();
    CHECK(copied.under(copy_guard).equals(plain) && *copy_guard.get(7u) == "seven");
    CHECK(copy_guard.get(7u) != guard.get(7u));
    CHECK(calls.erase_if([](const auto &entry) { return entry.value->size() == 4; }) == 2);
    CHECK(calls.count() == 1 && !calls.equals(plain) && *calls.first()->value == "seven");
}

}  // namespace

int main() {
    a_view_shows_each_change();
    maps_are_merged_and_compared();
    objects_are_copied_and_compared();
    a_map_answers_like_a_map();
    the_ends_of_the_keys_are_read();
    values_need_no_default();
    maps_are_made_of_pairs();
    objects_are_moved_into_a_map();
    objects_are_read_and_popped_under_a_guard();
    wrong_guards_are_refused();
    each_object_is_popped_once();
    an_unfinished_pop_counts();
    a_pass_finds_what_stays();
    a_look_waits_for_a_lesser_key();
    no_lesser_key_is_missed();
    waiting_nodes_are_counted();
    std::puts("a map is read, popped and counted in the order of its keys");
}
