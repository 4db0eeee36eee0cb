// Maps whose keys are of other types than std::uint64_t: each answers like a std::map of that type.
#include "thrown.hpp"

#include "nm_keys.hpp"

#include <cmath>
#include <cstdio>
#include <map>

#ifdef __cpp_lib_ranges
static_assert(std::ranges::input_range<nm::MapWorkerOf<int, int>>);
#endif
static_assert(std::is_same_v<nm::MapWorkerOf<int, double>::value_type, nm::MapEntry<double, int>>);
static_assert(std::is_same_v<nm::MapWorkerOf<int, std::string>::value_type, int>);
static_assert(std::is_same_v<nm::GuardedWorkerOf<int, std::string>::value_type,
                             nm::MapEntry<std::string *, int>>);

namespace {

// Entries of a map are those of a std::map.
template <typename Entries, typename T>
bool are(const Entries &entries, const std::map<T, std::uint32_t> &plain) {
    auto wanted = plain.begin();
    for (const auto &entry : entries) {
        if (wanted == plain.end() || !(entry.key == wanted->first) || entry.value != wanted->second)
            return false;
        ++wanted;
    }
    return wanted == plain.end();
}

// The calls of a worker of a map that read, with values in place.
template <typename T>
void map_reads_like(nm::MapWorkerOf<T, std::uint32_t> &worker,
                    const std::map<T, std::uint32_t> &plain) {
    std::vector<T> all;
    for (const auto &[key, value] : plain) {
        all.push_back(key);
        CHECK(worker.contains(key) && worker.get(key) == value && worker.count(key) == 1);
        CHECK(worker.find(key)->value == value && worker.at_least(key)->key == key);
        CHECK(worker.at_most(key)->value == value && worker.lower_bound(key)->key == key);
        CHECK(worker.count(all.front(), key) == all.size() - 1);
        CHECK(worker.range(all.front(), key).begin() == worker.end() || all.size() > 1);
    }
    const T &least = all.front(), &most = all.back();
    CHECK(are(worker, plain) && are(worker.range(least), plain) && worker.keys() == all);
    CHECK(are(worker.scan(least, SIZE_MAX).entries, plain) && worker.keys(least) == all);
    CHECK(worker.keys(least, most) == std::vector<T>(all.begin(), all.end() - 1));
    CHECK(worker.scan(least, 1).next == all[1] && worker.count() == all.size());
    CHECK(worker.rbegin()->key == most && worker.last()->key == most);
    CHECK(worker.range(least, most).rbegin()->key == all[all.size() - 2]);
    auto view = worker.range(least).range(all[1], most);
    CHECK(view.first()->key == all[1] && view.last()->key == all[all.size() - 2] && !view.empty());
    CHECK(view.count() == all.size() - 2 && view.contains(all[1]) && !view.contains(most));
    CHECK((*view.reversed().begin()).key == view.last()->key && worker.equals(plain));
    CHECK(worker.first()->value == plain.begin()->second && !worker.empty());
    CHECK(worker.get_many({most, least})[1] == plain.begin()->second);
    CHECK(worker.upper_bound(most) == worker.end() && worker.upper_bound(least)->key == all[1]);
    constexpr std::chrono::milliseconds soon(1);
    CHECK(worker.wait_first(soon)->key == least && !worker.wait_first(least, soon));
    auto guard = worker.pin();
    CHECK(guard.get(most) == plain.rbegin()->second && guard.contains(least) &&
          guard.epoch() == guard.raw().epoch());
    CHECK(guard.get_many(all).size() == all.size());
    guard.unpin();
}

// The calls that remove, of a map with values in place.
template <typename T>
void map_removes_like(nm::MapOf<T, std::uint32_t> &map, nm::MapWorkerOf<T, std::uint32_t> &worker,
                      std::map<T, std::uint32_t> plain) {
    const T least = plain.begin()->first, most = plain.rbegin()->first;
    CHECK(!worker.pop_first(least) && worker.pop_first(most)->key == least);
    CHECK(worker.pop_last(most)->value == plain.rbegin()->second && !worker.remove(most));
    CHECK(worker.insert(plain.begin(), plain.end()) == 2 && map.size() == plain.size());
    CHECK(worker.take(least) == plain.begin()->second && !worker.take(least));
    CHECK(worker.erase(most) == 1 && worker.erase(most) == 0 && !worker.pending());
    CHECK(worker.pop_first()->value == std::next(plain.begin())->second);
    CHECK(worker.pop_last().has_value() && map.size() == plain.size() - 4);
    CHECK(worker.waiting() == map.waiting() && map.free() < map.nodes());
    (void)worker.reclaim();
    nm::MapOf<T, std::uint32_t> other(4096, plain.begin(), plain.end());
    worker.clear();
    auto from = other.attach();
    CHECK(worker.merge(from) == plain.size() && from.empty() && worker.equals(plain));
    CHECK(worker.erase(least, most) == plain.size() - 1 && worker.erase(most, least) == 0);
    CHECK(worker.erase_if([&](const auto &entry) { return entry.key < most; }) == 0);
    CHECK(worker.erase_if([&](const auto &entry) { return entry.value < plain.size() * 7; }) == 1);
    CHECK(worker.empty() && worker.number() < map.workers() && map.capacity() == 2045);
    worker.close();
    CHECK(!worker.is_open() && map.attach(std::chrono::milliseconds(1)).is_open());
}

// The calls of a map of objects: the values, under a guard of another worker.
template <typename T>
void objects_answer_like(const std::map<T, std::uint32_t> &plain) {
    nm::MapOf<T, std::string> map(64, nm::MapOptions{});
    auto reader = map.attach(), worker = map.attach();
    for (const auto &[key, value] : plain) {
        CHECK(worker.insert(key, std::make_unique<std::string>(std::to_string(value))));
        CHECK(!worker.emplace(key, "another") && !worker.try_emplace(key, "another"));
        CHECK(*worker.find(key) == key);  // without a guard it has keys alone
    }
    auto guard = reader.pin();
    auto calls = worker.under(guard);
    auto wanted = plain.begin();
    for (auto [key, text] : calls) {
        CHECK(key == wanted->first && *text == std::to_string(wanted->second));
        CHECK(calls.get(key) == text && guard.get(key) == text && calls.count(key) == 1);
        ++wanted;
    }
    const T least = plain.begin()->first, most = plain.rbegin()->first;
    CHECK(wanted == plain.end() && calls.first()->key == least);
    CHECK(*calls.take(most) == std::to_string(plain.rbegin()->second) && !calls.get(most));
    CHECK(*calls.pop_first()->value == std::to_string(plain.begin()->second));
    CHECK(map.size() == plain.size() - 2 && map.raw().size() == worker.raw().count());
    std::map<T, std::string> rest;
    for (auto [key, text] : calls) rest.emplace(key, *text);
    CHECK(calls.equals(rest) && calls.erase_if([](const auto &entry) { return !entry.value; }) == 0);
    CHECK(calls.erase_if([](const auto &) { return true; }) == plain.size() - 2 && map.size() == 0);
}

template <typename T>
void answers_like(std::initializer_list<T> keys) {
    std::map<T, std::uint32_t> plain;
    nm::MapOf<T, std::uint32_t> map(4096);
    auto worker = map.attach();
    for (const T &key : keys) {
        auto value = static_cast<std::uint32_t>(plain.size() * 7);
        CHECK(worker.insert(key, value) == plain.emplace(key, value).second);
        CHECK(!worker.insert(key, value + 1) && map.size() == plain.size());
    }
    map_reads_like(worker, plain);
    map_removes_like(map, worker, plain);
    objects_answer_like(plain);
}

// A worker of a map whose pop is unfinished, of the key of -5.
struct Unfinished {
    using value_type = nm::MapEntry<int>;
    using iterator = nm::MapWorker<int>::iterator;
    using reverse_iterator = nm::MapWorker<int>::reverse_iterator;
    nm::Range<nm::MapWorker<int>, value_type> range(nm::Key) const;
    std::optional<value_type> pop_first() {
        nm::detail::fail_unfinished(nm::KeyOf<int>::key(-5), [](std::uint64_t key) {
            return std::to_string(key);
        });
    }
};

struct Pops : nm::OrderedOf<Unfinished, int> {
    Pops() : OrderedOf({}) {}
};

void an_unfinished_pop_names_the_value() {
    Thrown unfinished = fault_of([] { Unfinished().pop_first(); });
    CHECK(unfinished.text.rfind("the key 2147483643 will be removed by this call", 0) == 0);
    unfinished = fault_of([] { Pops().pop_first(); });
    CHECK(unfinished.outcome == NM_UNFINISHED &&
          unfinished.text.rfind("the key -5 will be removed by this call", 0) == 0);
}

// Pairs come from an iterator that moves objects, and a map is made of a list of pairs.
void maps_are_made_of_pairs() {
    using Pair = std::pair<std::int16_t, std::unique_ptr<std::string>>;
    std::vector<Pair> pairs;
    pairs.emplace_back(std::int16_t{-3}, std::make_unique<std::string>("three"));
    nm::MapOf<std::int16_t, std::string> map(64, std::make_move_iterator(pairs.begin()),
                                             std::make_move_iterator(pairs.end()));
    auto worker = map.attach();
    CHECK(*worker.pin().get(-3) == "three" && pairs[0].second == nullptr && map.nodes() == 64);
    nm::MapOf<std::int64_t, int> made(64, {{-5, 50}, {7, 70}, {-5, 51}}, {});
    CHECK(made.size() == 2 && made.attach().get(-5) == 50 && !made.attach().get(6));
    CHECK(thrown([] { nm::MapOf<std::int64_t, int>(64, {{INT64_MAX, 5}}); }) == NM_KEY);
    auto object = std::make_unique<std::string>("kept");
    nm::MapOf<std::uint64_t, std::string> objects(64, 2);
    CHECK(thrown([&] { objects.attach().insert(UINT64_MAX, std::move(object)); }) == NM_KEY);
    CHECK(object != nullptr && objects.workers() == 2 && objects.waiting() == 0);
}

}  // namespace

int main() {
    answers_like<std::int64_t>({5, -7, 0, INT64_MIN, INT64_MAX - 3, -1});
    answers_like<float>({1.5f, -2.5f, 0, HUGE_VALF, -HUGE_VALF, 1e-45f, 3e38f});
    answers_like<nm::ShortString<>>({"tea", "", "a longer", "te", "tea!", "\xff", "te\x01"});
    answers_like<std::array<std::uint8_t, 8>>({{1, 2}, {}, {255}, {1, 0, 0, 0, 0, 0, 0, 1}});
    answers_like<std::tuple<float, std::int8_t, nm::Bits<24>>>(
        {{-1.5f, 2, 7u}, {-1.5f, -2, 9u}, {0, 0, 0u}, {HUGE_VALF, 1, 5u}});
    an_unfinished_pop_names_the_value();
    maps_are_made_of_pairs();
    std::puts("a map of values answers like std::map");
}
