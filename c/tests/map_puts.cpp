// Tests the calls of nm::Map that replace a value in one step: each answer; objects, each of which
// is destroyed once, and not while a guard can return it; a reader that always finds a key; threads
// that raise a counter; a full map that goes on by replacements; and calls that are refused.
#include "canary.hpp"
#include "nm_keys.hpp"
#include "thrown.hpp"

#include <atomic>
#include <cstdio>
#include <string>
#include <thread>
#include <vector>

namespace {

using Objects = nm::Map<Canary>;

constexpr int threads = 4, steps = 10'000, puts = 100'000;

// ---- values in place ----

void values_are_replaced() {
    nm::Map<int> map{64, 1};
    auto worker = map.attach();
    CHECK(!worker.replace(5u, 1) && !worker.contains(5u));
    CHECK(worker.insert_or_assign(5u, 2) && !worker.insert_or_assign(5u, 3) && worker.get(5u) == 3);
    CHECK(worker.replace(5u, 4) && worker.get(5u) == 4);
    CHECK(worker.exchange(5u, 5) == 4 && !worker.exchange(6u, 6) && worker.get(6u) == 6);
    CHECK(!worker.insert(5u, 7) && worker.get(5u) == 5 && map.size() == 2);
    worker.reclaim();
    CHECK(map.waiting() == 0 && map.free() == 64 - 5 - 4);
}

void values_are_compared() {
    nm::Map<int> map{64, 1};
    auto worker = map.attach();
    std::optional<int> expected = 1;
    CHECK(!worker.compare_exchange(5u, expected, 2) && !expected);
    CHECK(worker.compare_exchange(5u, expected, 2) && worker.get(5u) == 2 && !expected);
    CHECK(!worker.compare_exchange(5u, expected, 3) && expected == 2);
    expected = 1;
    CHECK(!worker.compare_exchange(5u, expected, 3) && expected == 2 && worker.get(5u) == 2);
    CHECK(worker.compare_exchange(5u, expected, 3) && worker.get(5u) == 3 && expected == 2);
    auto raised = [](std::optional<int> old) { return old.value_or(10) + 1; };
    CHECK(worker.update(5u, raised) == 4 && worker.update(6u, raised) == 11);
    CHECK(worker.get(5u) == 4 && worker.get(6u) == 11);
}

// A key is removed if it has the expected value.
void values_are_compared_before_a_remove() {
    nm::Map<int> map{64, 1};
    auto worker = map.attach();
    std::optional<int> expected = 1;
    CHECK(!worker.compare_remove(5u, expected) && !expected);
    CHECK(worker.insert(5u, 2) && !worker.compare_remove(5u, expected) && expected == 2);
    expected = 1;
    CHECK(!worker.compare_remove(5u, expected) && expected == 2 && worker.get(5u) == 2);
    CHECK(worker.compare_remove(5u, expected) && expected == 2 && !worker.get(5u));
    CHECK(map.size() == 0 && map.waiting() == 2);
}

// A key is inserted if it is absent, and its value is returned; `at` throws for an absent key.
void values_are_found_or_inserted() {
    nm::Map<int> map{64, 2};
    auto worker = map.attach(), other = map.attach();
    CHECK(worker.get_or_insert_with(5u, [] { return 1; }) == 1 && worker.at(5u) == 1);
    CHECK(worker.get_or_insert_with(5u, []() -> int { CHECK(false); return 2; }) == 1);
    CHECK(worker.get_or_insert_with(6u, [&] { return other.insert(6u, 7), 2; }) == 7);
    std::string text;
    try {
        (void)worker.at(8u);
    } catch (const std::out_of_range &absent) {
        text = absent.what();
    }
    CHECK(text == "nm::Map: there is no key 8" && map.size() == 2);
    CHECK(thrown([&] { (void)worker.at(UINT64_MAX); }) == NM_KEY);
}

// The operators of a value in place, by its key.
void values_have_operators() {
    nm::Map<int> map{64, 1};
    auto worker = map.attach();
    int found = worker[5u];
    CHECK(found == 0 && map.size() == 0 && (worker[5u] = 7) == 7 && worker[5u] == 7);
    CHECK((worker[5u] += 2) == 9 && (worker[5u] -= 1) == 8 && worker[6u]++ == 0 && worker[6u]-- == 1);
    CHECK(++worker[5u] == 9 && --worker[5u] == 8 && (worker[7u] = worker[5u]) == 8);
    CHECK(worker.get(5u) == 8 && worker.get(6u) == 0 && worker.get(7u) == 8 && map.size() == 3);
    nm::MapOf<nm::ShortString<8>, std::uint8_t> words(64);
    auto of_words = words.attach();
    CHECK(++of_words["tea"] == 1 && (of_words["tea"] += 5) == 6 && of_words["salt"] == 0);
    CHECK(thrown([&] { worker[UINT64_MAX] = 1; }) == NM_KEY && words.size() == 1);
}

// The function of an update may make calls by another worker, even for the same key. Then it is
// called again.
void an_update_looks_again() {
    nm::Map<int> map{64, 2};
    auto worker = map.attach(), other = map.attach();
    int calls = 0;
    CHECK(worker.update(5u, [&](const std::optional<int> &old) {
        if (calls++ == 0) other.insert_or_assign(5u, 100);
        return old.value_or(0) + 1;
    }) == 101 && calls == 2);
    CHECK(worker.update(5u, [&](const std::optional<int> &old) {
        if (calls++ == 2) CHECK(other.remove(5u));
        return old.value_or(0) + 1;
    }) == 1 && calls == 4);
}

// ---- objects ----

void objects_are_replaced() {
    {
        Objects map{1024, 2};
        auto worker = map.attach();
        auto object = std::make_unique<Canary>(1);
        CHECK(!worker.replace(5u, std::move(object)) && object->is_of(1));
        CHECK(worker.insert_or_assign(5u, std::move(object)) && object == nullptr);
        CHECK(!worker.insert_or_assign(5u, std::make_unique<Canary>(2)));
        CHECK(worker.replace(5u, std::make_unique<Canary>(3)) && Canary::alive() == 3);
        CHECK(worker.pin().get(5u)->is_of(3) && worker.waiting() == 2 && map.waiting() == 2);
        CHECK(worker.reclaim().values == 2 && Canary::alive() == 1 && map.waiting() == 0);
    }
    CHECK(Canary::alive() == 0);
    nm::Map<std::string> texts{64, 1};
    auto worker = texts.attach();
    CHECK(worker.insert_or_assign(5u, "five") && !worker.insert_or_assign(5u, std::string("cinq")));
    CHECK(worker.replace(5u, {"seven", 2}) && *worker.pin().get(5u) == "se");
}

// Under a guard the old object exists until the end of the guard.
void old_objects_exist_under_a_guard() {
    {
        Objects map{1024, 2};
        auto reader = map.attach(), worker = map.attach();
        auto guard = reader.pin();
        auto calls = worker.under(guard);
        CHECK(calls.exchange(5u, std::make_unique<Canary>(1)) == nullptr);
        Canary *first = calls.exchange(5u, std::make_unique<Canary>(2));
        CHECK(first->is_of(1) && calls.get(5u)->is_of(2));
        auto object = std::make_unique<Canary>(3);
        Canary *expected = first;
        CHECK(!calls.compare_exchange(5u, expected, std::move(object)) && expected->is_of(2));
        CHECK(object->is_of(3) && calls.compare_exchange(5u, expected, std::move(object)));
        CHECK(object == nullptr && expected->is_of(2) && calls.get(5u)->is_of(3));
        Canary *none = nullptr;
        CHECK(calls.compare_exchange(6u, none, std::make_unique<Canary>(4)) && none == nullptr);
        CHECK(!calls.compare_exchange(6u, none, std::make_unique<Canary>(5)) && none->is_of(4));
        CHECK(!calls.compare_remove(5u, none) && none->is_of(3));
        CHECK(calls.compare_remove(5u, expected = none) && none->is_of(3) && !calls.get(5u));
        CHECK(worker.reclaim().values == 0 && first->is_of(1) && Canary::alive() == 4);
        CHECK(&calls.at(6u) == calls.get(6u) && calls.get_or_insert_with(6u, [] {
            return std::make_unique<Canary>(5);
        }) == calls.get(6u) && Canary::alive() == 4);
        guard.unpin();
        CHECK(thrown([&] { (void)calls.exchange(5u, std::make_unique<Canary>(6)); }) == NM_NOT_PINNED);
        CHECK(worker.reclaim().values == 3 && Canary::alive() == 1);
    }
    CHECK(Canary::alive() == 0);
}

void objects_are_updated() {
    nm::MapOf<double, std::string> map{1024, 2};
    auto reader = map.attach(), worker = map.attach();
    auto guard = reader.pin();
    auto calls = worker.under(guard);
    auto longer = [](const std::string *old) { return old == nullptr ? "a" : *old + "b"; };
    CHECK(*calls.update(-0.5, longer) == "a" && *calls.update(-0.5, longer) == "ab");
    std::string *old = calls.exchange(-0.5, "c");
    CHECK(*old == "ab" && *calls.get(-0.5) == "c");
    CHECK(calls.compare_exchange(-0.5, old, "d") == false && *old == "c");
    CHECK(calls.compare_exchange(-0.5, old, "d") && worker.replace(-0.5, "e"));
    CHECK(!calls.compare_remove(-0.5, old) && *old == "e" && calls.compare_remove(-0.5, old));
    CHECK(*calls.get_or_insert_with(-0.5, [] { return "e"; }) == "e" && calls.at(-0.5) == "e");
    CHECK(!worker.insert_or_assign(-0.5, "f") && worker.insert_or_assign(1.5, "g"));
}

// ---- refusals ----

void refused_calls_leave_the_object() {
    nm::MapOptions options;
    options.workers = 3;
    options.timeout_ms = 20;
    Objects map(9, options);
    auto worker = map.attach(), other = map.attach();
    auto object = std::make_unique<Canary>(9);
    std::unique_ptr<Canary> none;
    CHECK(thrown([&] { worker.insert_or_assign(UINT64_MAX, std::move(object)); }) == NM_KEY);
    CHECK(worker.emplace(1u, 1u) && worker.emplace(2u, 2u));
    CHECK(thrown([&] { worker.insert_or_assign(3u, std::move(object)); }) == NM_FULL);
    CHECK(thrown([&] { worker.insert_or_assign(2u, std::move(object)); }) == NM_FULL);
    CHECK(thrown([&] { worker.replace(2u, std::move(object)); }) == NM_FULL && object->is_of(9));
    CHECK(!worker.replace(3u, std::move(object)) && object->is_of(9));
    {
        auto guard = worker.pin();
        CHECK(thrown([&] { worker.insert_or_assign(2u, std::move(object)); }) == NM_PINNED);
        CHECK(thrown([&] { (void)other.under(guard).exchange(2u, std::move(object)); }) == NM_FULL);
        CHECK(thrown([&] { (void)other.under(guard).exchange(UINT64_MAX, std::move(object)); }) ==
              NM_KEY);
    }
    other.close();
    CHECK(thrown([&] { other.replace(2u, std::move(object)); }) == NM_CLOSED && object->is_of(9));
    try {
        worker.replace(2u, std::move(none));
        CHECK(false);
    } catch (const std::invalid_argument &) {
    }
    auto guard = worker.pin();
    CHECK(guard.get(1u)->is_of(1) && guard.get(2u)->is_of(2));
}

// One node that no key takes is enough for any number of replacements. While a guard holds it back,
// the text of the fault says so.
void a_full_map_goes_on() {
    nm::MapOptions options;
    options.workers = 2;
    options.timeout_ms = 20;
    Objects map(10, options);
    auto worker = map.attach(), reader = map.attach();
    CHECK(worker.emplace(1u, 0u) && worker.emplace(2u, 0u));
    for (std::uint64_t turn = 1; turn <= 1000; turn++) {
        CHECK(worker.replace(1u, std::make_unique<Canary>(turn)) && Canary::alive() <= 3);
        CHECK(map.size() == 2 && map.waiting() + map.free() == 1);
    }
    auto guard = reader.pin();
    worker.reclaim();
    if (map.free() == 1) CHECK(worker.replace(2u, std::make_unique<Canary>(1)));
    std::string text;
    try {
        worker.replace(2u, std::make_unique<Canary>(2));
    } catch (const nm::Fault &fault) {
        text = fault.what();
    }
    CHECK(text == "the map is full: its 2 keys take 9 of its 10 nodes, and 1 wait to be freed; worker 1 "
                  "is in their way, by a pin or in a call");
    guard.unpin();
    CHECK(worker.replace(2u, std::make_unique<Canary>(3)) && worker.pin().get(2u)->is_of(3));
}

// ---- threads ----

// A reader finds the key by each look, with an object that is not destroyed.
void a_key_is_never_absent() {
    {
        Objects map{4096, 3};
        auto writer = map.attach();
        writer.emplace(5u, 5u);
        std::atomic<bool> has_ended{false};
        std::thread reader([&] {
            auto worker = map.attach();
            while (!has_ended) {
                auto guard = worker.pin();
                for (int look = 0; look < 10; look++) CHECK(guard.get(5u)->is_of(5));
            }
        });
        for (int turn = 0; turn < puts; turn++)
            CHECK(!writer.insert_or_assign(5u, std::make_unique<Canary>(5)));
        has_ended = true;
        reader.join();
        CHECK(map.size() == 1);
    }
    CHECK(Canary::alive() == 0 && Canary::destroyed > puts);
}

template <typename Raise>
void is_raised(Raise raise) {
    std::vector<std::thread> all;
    for (int at = 0; at < threads; at++) all.emplace_back(raise);
    for (std::thread &each : all) each.join();
}

void counters_lose_no_step() {
    nm::Map<std::uint64_t> map{4096, threads + 1};
    is_raised([&] {
        auto worker = map.attach();
        for (int step = 0; step < steps; step++) ++worker[5u];
    });
    CHECK(map.attach().get(5u) == std::uint64_t(threads * steps));
    nm::Map<std::string> texts{4096, 2 * threads + 1};
    is_raised([&] {
        auto reader = texts.attach(), worker = texts.attach();
        for (int step = 0; step < steps / 10; step++) {
            auto guard = reader.pin();
            worker.under(guard).update(5u, [](const std::string *old) {
                return std::to_string(old == nullptr ? 1 : std::stoi(*old) + 1);
            });
        }
    });
    auto reader = texts.attach();
    CHECK(*reader.pin().get(5u) == std::to_string(threads * steps / 10));
}

// Threads that insert a key if it is absent find one object, and the others are destroyed.
void one_object_is_inserted() {
    {
        Objects map{4096, 2 * threads};
        std::atomic<Canary *> first{nullptr};
        is_raised([&] {
            auto reader = map.attach(), worker = map.attach();
            auto guard = reader.pin();
            Canary *none = nullptr, *found = worker.under(guard).get_or_insert_with(
                                5u, [] { return std::make_unique<Canary>(7); });
            CHECK(first.compare_exchange_strong(none, found) || none == found);
            CHECK(found->is_of(7));
        });
        auto worker = map.attach();
        CHECK(map.size() == 1 && worker.pin().get(5u) == first && Canary::alive() == 1);
    }
    CHECK(Canary::alive() == 0);
}

}  // namespace

int main() {
    values_are_replaced();
    values_are_compared();
    values_are_compared_before_a_remove();
    values_are_found_or_inserted();
    values_have_operators();
    an_update_looks_again();
    objects_are_replaced();
    old_objects_exist_under_a_guard();
    objects_are_updated();
    refused_calls_leave_the_object();
    a_full_map_goes_on();
    a_key_is_never_absent();
    counters_lose_no_step();
    one_object_is_inserted();
    CHECK(Canary::alive() == 0);
    std::puts("each object was destroyed once");
}
