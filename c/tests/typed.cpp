// Sets of other types than std::uint64_t: each answers like a std::set of that type, and values that
// are no keys are refused.
#include "typed.hpp"

#include <cstdio>
#include <sstream>

#ifdef __cpp_lib_ranges
static_assert(std::ranges::input_range<nm::SetOf<int>> && !std::ranges::sized_range<nm::SetOf<int>>);
static_assert(std::ranges::input_range<nm::SetOf<int>::RangeOf>);
#endif

namespace {

enum class Level : std::int8_t { low = -1, middle = 0, high = 1 };

struct Release {
    std::uint16_t major, minor;
    friend constexpr bool operator<(Release one, Release other) {
        return one.major != other.major ? one.major < other.major : one.minor < other.minor;
    }
    friend constexpr bool operator==(Release one, Release other) {
        return one.major == other.major && one.minor == other.minor;
    }
};

struct Id {
    std::uint64_t number;
    friend constexpr bool operator<(Id one, Id other) { return one.number < other.number; }
    friend constexpr bool operator==(Id one, Id other) { return one.number == other.number; }
};

}  // namespace

template <>
struct nm::KeyOf<Id> {
    static constexpr unsigned bits = 64;
    static constexpr std::uint64_t key(Id id) noexcept { return id.number; }
    static constexpr Id value(std::uint64_t key) noexcept { return {key}; }
    static constexpr std::array<Id, 2> samples{Id{0}, Id{UINT64_MAX}};
};

// A type of the program's own.
template <>
struct nm::KeyOf<Release> {
    static constexpr unsigned bits = 32;
    static constexpr std::uint64_t key(Release version) noexcept {
        return std::uint64_t{version.major} << 16 | version.minor;
    }
    static constexpr Release value(std::uint64_t key) noexcept {
        return {static_cast<std::uint16_t>(key >> 16), static_cast<std::uint16_t>(key)};
    }
    static constexpr std::array<Release, 3> samples{Release{0, 9}, Release{1, 0}, Release{1, 2}};
};

namespace {

// The text of a refusal names the value that the program wrote.
template <typename T>
void is_refused(const T &value, const std::string &text) {
    nm::SetOf<T> set;
    Thrown refused = fault_of([&] { set.insert(value); });
    CHECK(refused.outcome == NM_KEY && refused.text == "the value " + text + " is no key: of a type "
                                       "with 64 bits the three greatest values are none");
    CHECK(fault_of([&] { set.attach().remove(value); }).text == refused.text);
}

void refused_values_are_named() {
    enum class Wide : std::uint64_t {};
    using Span = std::chrono::nanoseconds;
    is_refused(INT64_MAX - 2, "9223372036854775805");
    is_refused(UINT64_MAX, "18446744073709551615");
    is_refused(Wide(UINT64_MAX), "18446744073709551615");
    is_refused(Span::max(), "9223372036854775807");
    is_refused(std::chrono::time_point<std::chrono::system_clock, Span>::max(),
               "9223372036854775807");
    is_refused(std::pair<std::int32_t, nm::Bits<32>>(INT32_MAX, UINT32_MAX),
               "(2147483647, 4294967295)");
    is_refused(Id{UINT64_MAX}, "with the key 18446744073709551615");
    is_refused(nm::ShortString<>("\xff\xff\xff\xff\xff\xff\xff\xfe"),
               R"("\xff\xff\xff\xff\xff\xff\xff\xfe")");
    is_refused(std::array<std::uint32_t, 2>{UINT32_MAX, UINT32_MAX}, "(4294967295, 4294967295)");
    is_refused(std::tuple<std::uint8_t, nm::ShortString<3>, std::uint32_t>(
                   255, "\xff\xff\xff", UINT32_MAX - 1),
               R"((255, "\xff\xff\xff", 4294967294))");
}

template <typename T>
std::string written(const T &value) {
    std::ostringstream text;
    text << value;
    return text.str();
}

void sets_are_written() {
    nm::SetOf<int> set(nm::keys, {5, -7});
    CHECK(written(set) == "{-7, 5}" && written(set.attach()) == "{-7, 5}");
    for (int more = 10; more < 20; more++) set.insert(more);
    CHECK(written(set) == "{-7, 5, 10, 11, 12, 13, 14, 15, 16, 17, ..}");
    nm::MapOf<nm::ShortString<>, double> map(64, {{"tea", 2.5}, {"salt", 0.5}});
    CHECK(written(map.attach()) == R"({"salt", "tea"})");
    CHECK(written(map.attach().first()->key) == "salt" && written(nm::SetOf<double>()) == "{}");
}

void sets_are_made_of_values() {
    nm::SetOf<int> grows(nm::keys, {-5, 7, -5}), stays(64, nm::keys, {3});
    CHECK(grows.size() == 2 && grows.first() == -5 && stays.nodes() == 64 && stays.contains(3));
    CHECK(grows.attach(std::chrono::milliseconds(1)).contains(7));
    nm::SetOf<std::int64_t> numbers;
    CHECK(numbers.try_insert(INT64_MAX) == NM_KEY && numbers.empty());
}

// Ends the set of two workers, which has 5 and 9.
void a_worker_ends_its_set(nm::SetOf<int> set, nm::WorkerOf<int> worker) {
    nm::Stamp stamp{};
    {
        auto other = set.attach();
        CHECK(worker.try_publish(stamp) == NM_DONE && stamp.inserted == 3 && stamp.removed == 1);
        CHECK(other.try_observe(worker.number(), stamp) == NM_YES && stamp.removed == 1);
        CHECK(other.try_observe(other.number(), stamp) == NM_NO);
    }
    set = nm::SetOf<int>(64);
    CHECK(worker.close_set() == std::vector<int>({5, 9}) && !worker.is_open());
}

void workers_have_the_calls_for_values() {
    nm::Options options;
    options.workers = 2;
    nm::SetOf<int> set(64, options);
    auto worker = set.worker(1);
    int found = 0;
    CHECK(worker.try_insert(-7) == NM_YES && worker.insert({5, 9}) == 2);
    CHECK(worker.try_lower_bound(6, found) == NM_YES && found == 9);
    CHECK(worker.try_prev(4, found) == NM_YES && found == -7);
    CHECK(worker.try_lower_bound(10, found) == NM_NO && worker.try_prev(-8, found) == NM_NO);
    CHECK(worker.try_remove(-7, 1) == NM_UNFINISHED && worker.pending() == -7 && found == -7);
    CHECK(worker.try_finish() == NM_YES && !worker.pending() && worker.try_contains(-7) == NM_NO);
    {
        nm::Pin pin = worker.pin();
        CHECK(worker.pinned() == pin.epoch() && worker.try_contains(5) == NM_PINNED);
        CHECK(set.worker(0).behind().mask == 0);
    }
    std::uint64_t epoch = 0;
    CHECK(worker.try_pin(epoch) == NM_DONE && worker.try_unpin() == NM_DONE && !worker.pinned());
    CHECK(worker.number() == 1 && worker.queue_len() == 2 && worker.stats().links == 3);
    CHECK(worker.advance().moved() && worker.advance().moved() && worker.collect().freed == 2);
    a_worker_ends_its_set(std::move(set), std::move(worker));
    nm::SetOf<std::int64_t> wide;
    std::int64_t none = 0;
    CHECK(wide.attach().try_lower_bound(INT64_MAX, none) == NM_KEY && none == 0);
}

void values_that_are_no_keys() {
    nm::SetOf<std::int64_t> set;
    CHECK(set.insert({INT64_MIN, -5, 5, INT64_MAX - 3}) == 4);
    CHECK(thrown([&] { set.insert(INT64_MAX); }) == NM_KEY && !set.contains(INT64_MAX));
    CHECK(set.at_most(INT64_MAX) == INT64_MAX - 3 && set.lower_bound(INT64_MAX) == set.end());
    CHECK(set.range(INT64_MAX - 1, INT64_MAX).begin() == set.range(0, 0).end());
    CHECK(set.range(INT64_MAX - 1, INT64_MAX).rbegin() == set.range(0, 0).rend());
    CHECK(set.count(INT64_MAX - 3, INT64_MAX) == 1 && set.count(INT64_MAX - 1, INT64_MAX) == 0);
    CHECK(set.upper_bound(INT64_MAX) == set.end() && set.find(INT64_MAX) == set.end());
    CHECK(!set.at_least(INT64_MAX - 2) && set.count(INT64_MAX) == 0);
    CHECK(thrown([&] { set.erase(INT64_MAX); }) == NM_KEY && set.scan(INT64_MAX, 5).entries.empty());
    CHECK(thrown([] { nm::Bits<4> more(16); }) == NM_KEY);
    CHECK(thrown([] { nm::Bits<4> less(-1); }) == NM_KEY && nm::Bits<4>(15) == 15);
    CHECK(set.keys().contains(0u) && set.keys().waiting() == 0);
}

}  // namespace

int main() {
    using Seconds = std::chrono::seconds;
    using Clock = std::chrono::steady_clock;
    answers_like<std::int64_t>({5, -7, 0, INT64_MIN, INT64_MAX - 3, -1});
    answers_like<std::uint64_t>({5, 7, 0, UINT64_MAX - 3, 6, 1u << 31});
    answers_like<std::int8_t>({5, -7, 0, -128, 127, -1});
    answers_like<std::uint16_t>({5, 7, 0, 65535, 6});
    answers_like<Level>({Level::middle, Level::high, Level::low, Level(5), Level(-7)});
    answers_like<Seconds>({Seconds(5), Seconds(-5), Seconds(0), Seconds(77), Seconds(6)});
    Clock::time_point at(Seconds(100));
    answers_like<Clock::time_point>(
        {at, at + Seconds(1), at - Seconds(5), at - Seconds(500), at + Seconds(9)});
    answers_like<Release>({{1, 2}, {1, 0}, {0, 9}, {7, 0}, {1, 1}});
    sets_are_written();
    values_that_are_no_keys();
    sets_are_made_of_values();
    workers_have_the_calls_for_values();
    refused_values_are_named();
    std::puts("a set of values answers like std::set");
}
