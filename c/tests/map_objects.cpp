// Tests nm::Map: values in place; objects, each of which is destroyed once and never while a guard
// can return it; refusals, after which the caller still has the object; the ends of maps and
// workers; and threads that read objects while others remove them.
#include "canary.hpp"
#include "nm_map.hpp"
#include "thrown.hpp"

#include <atomic>
#include <chrono>
#include <cstdio>
#include <functional>
#include <random>
#include <string>
#include <thread>
#include <vector>

namespace {

using Objects = nm::Map<Canary>;

// ---- values in place ----

enum class Colour : std::uint8_t { red = 7, blue = 9 };

struct Point {
    float x, y;
    Point(float to_x, float to_y) noexcept : x(to_x), y(to_y) {}
};

static_assert(std::is_same_v<nm::MapGuard<int>::Found, std::optional<int>>);
static_assert(std::is_same_v<nm::MapGuard<std::string>::Found, std::string *>);

template <typename T, typename Is>
void is_stored_in_place(T one, T other, Is is) {
    nm::Map<T> map{64, 2};
    auto worker = map.attach();
    CHECK(worker.insert(5u, one) && !worker.insert(5u, other));
    CHECK(is(*worker.get(5u), one) && !worker.get(6u));
    CHECK(is(*worker.pin().get(5u), one));
    CHECK(worker.remove(5u) && !worker.remove(5u) && !worker.get(5u));
    CHECK(worker.emplace(5u, other) && is(*worker.get(5u), other));
}

void values_are_stored_in_place() {
    is_stored_in_place<int>(-3, 4, std::equal_to<>());
    is_stored_in_place<double>(0.5, -0.25, std::equal_to<>());
    is_stored_in_place<std::uint64_t>(UINT64_MAX, 0, std::equal_to<>());
    is_stored_in_place<Colour>(Colour::red, Colour::blue, std::equal_to<>());
    is_stored_in_place<Point>({1, 2}, {3, 4}, [](const Point &one, const Point &other) {
        return one.x == other.x && one.y == other.y;
    });
}

// ---- objects ----

void objects_are_destroyed_once() {
    {
        Objects map{1024, 2};
        Objects::Worker worker = map.attach();
        for (std::uint64_t key = 0; key < 100; key++) CHECK(worker.emplace(key, key));
        CHECK(!worker.emplace(5u, 5u) && Canary::alive() == 100);
        for (std::uint64_t key = 0; key < 100; key += 2) CHECK(worker.remove(key));
        worker.reclaim();
        CHECK(Canary::alive() == 50 && worker.waiting() == 0);
        CHECK(worker.contains(5u) && !worker.contains(6u));
        auto guard = worker.pin();
        CHECK(guard.get(5u)->is_of(5) && guard.get(6u) == nullptr && guard.contains(7u));
    }
    CHECK(Canary::alive() == 0);
}

// An object that was removed stays until the guard that could have returned it has ended.
void a_guard_holds_objects_back() {
    Objects map{1024, 3};
    Objects::Worker reader = map.attach(), remover = map.attach();
    CHECK(remover.emplace(5u, 5u));
    auto guard = reader.pin();
    const Canary *found = guard.get(5u);
    CHECK(remover.remove(5u) && !remover.contains(5u) && guard.get(5u) == nullptr);
    nm::Reclaimed result = remover.reclaim();
    CHECK(result.values == 0 && result.behind == reader.number());
    CHECK(found->is_of(5) && Canary::alive() == 1);
    guard.unpin();
    CHECK(thrown([&] { (void)guard.get(5u); }) == NM_NOT_PINNED);
    CHECK(remover.reclaim().values == 1 && Canary::alive() == 0);
}

// A guard that begins after the remove holds nothing back for good: the epoch goes on past it.
void a_worker_frees_by_itself() {
    nm::MapOptions options;
    options.workers = 2;
    options.collect_after = 8;
    Objects map(1024, options);
    Objects::Worker worker = map.attach();
    for (std::uint64_t key = 0; key < 1000; key++) {
        CHECK(worker.emplace(key, key) && worker.remove(key));
        CHECK(worker.waiting() <= 10 && Canary::alive() <= 5);
    }
}

struct Derived : Canary {
    explicit Derived(std::uint64_t key) noexcept : Canary(key) {}
};

void an_object_of_a_derived_class_is_freed_by_its_base() {
    {
        Objects map{64, 1};
        Objects::Worker worker = map.attach();
        auto object = std::make_unique<Derived>(5);
        CHECK(worker.insert(5u, std::move(object)) && object == nullptr);
    }
    CHECK(Canary::alive() == 0);
}

// Readers of a map of constant objects cannot change them.
void objects_may_be_constant() {
    {
        nm::Map<const Canary> map{64, 1};
        auto worker = map.attach();
        CHECK(worker.emplace(5u, 5u) && worker.insert(6u, std::make_unique<const Canary>(6)));
        CHECK(worker.pin().get(5u)->is_of(5));
        CHECK(worker.remove(6u) && worker.reclaim().values == 1);
    }
    CHECK(Canary::alive() == 0);
}

// ---- refusals ----

void a_refused_insert_leaves_the_object() {
    nm::MapOptions options;
    options.workers = 3;
    options.timeout_ms = 20;
    Objects map(7, options);
    Objects::Worker worker = map.attach(), reader = map.attach();
    auto object = std::make_unique<Canary>(6);
    CHECK(thrown([&] { worker.insert(UINT64_MAX, std::move(object)); }) == NM_KEY);
    CHECK(object->is_of(6));
    CHECK(worker.emplace(5u, 5u) && !worker.insert(5u, std::move(object)) && object->is_of(6));
    {
        auto guard = worker.pin();
        CHECK(thrown([&] { worker.insert(6u, std::move(object)); }) == NM_PINNED);
        CHECK(thrown([&] { (void)worker.contains(6u); }) == NM_PINNED);
        CHECK(thrown([&] { (void)worker.pin(); }) == NM_PINNED && object->is_of(6));
    }
    auto guard = reader.pin();
    CHECK(worker.remove(5u));
    Thrown full = fault_of([&] { worker.insert(6u, std::move(object)); });
    CHECK(full.outcome == NM_FULL && object->is_of(6));
    CHECK(full.text == "the map is full: its 0 keys take 5 of its 7 nodes, and 2 wait to be freed; "
                       "worker 1 is in their way, by a pin or in a call");
    guard.unpin();
    CHECK(worker.insert(6u, std::move(object)) && object == nullptr && Canary::alive() == 1);
}

// The keys of a full map take all nodes, and no node waits. Then an insert waits for nothing.
void a_full_map_is_reported_at_once() {
    nm::MapOptions options;
    options.timeout_ms = 20'000;
    Objects map(100, options);
    Objects::Worker worker = map.attach();
    for (std::uint64_t key = 0; key < 47; key++) CHECK(worker.emplace(key, key));
    auto begin = std::chrono::steady_clock::now();
    Thrown full = fault_of([&] { worker.emplace(47u, 47u); });
    CHECK(std::chrono::steady_clock::now() - begin < std::chrono::seconds(10));
    CHECK(full.outcome == NM_FULL && Canary::alive() == 47);
    CHECK(full.text == "the map is full: its 47 keys take 99 of its 100 nodes, and 0 wait to be "
                       "freed");
    CHECK(worker.remove(5u) && worker.emplace(47u, 47u) && map.size() == 47);
}

// An atomic of 8 bytes is an object, because it cannot be copied.
void atomics_are_objects() {
    using Number = std::atomic<std::uint64_t>;
    struct Two {
        std::atomic<std::uint32_t> one, other;
        Two(std::uint32_t from, std::uint32_t to) : one(from), other(to) {}
    };
    nm::Map<Number> map{64, 2};
    auto worker = map.attach(), reader = map.attach();
    CHECK(worker.emplace(5u, 50u) && !worker.emplace(5u, 60u));
    CHECK(worker.insert(6u, std::make_unique<Number>(60)));
    {
        auto guard = reader.pin();
        CHECK(++*guard.get(5u) == 51 && guard.get(7u) == nullptr);
        CHECK(worker.under(guard).pop_first()->value->load() == 51);
    }
    CHECK(reader.pin().get(6u)->load() == 60);
    nm::Map<Two> pairs{64, 1};
    auto one = pairs.attach();
    CHECK(one.emplace(5u, 1u, 2u) && one.pin().get(5u)->other == 2);
}

// After try_emplace a program has its arguments as before, whether the key was absent or present.
void arguments_stay() {
    nm::Map<std::string> map{64, 1};
    auto worker = map.attach();
    std::string text(100, 'a');
    CHECK(worker.try_emplace(5u, std::move(text)) && text.size() == 100);
    CHECK(!worker.try_emplace(5u, std::move(text)) && text.size() == 100);
    CHECK(worker.try_emplace(6u, 3, 'b') && *worker.pin().get(6u) == "bbb");
    CHECK(worker.erase(5u) == 1 && worker.erase(5u) == 0 && map.size() == 1);
    CHECK(thrown([&] { worker.erase(UINT64_MAX); }) == NM_KEY);
}

void a_null_object_is_refused() {
    Objects map{64, 1};
    Objects::Worker worker = map.attach();
    bool is_refused = false;
    try {
        worker.insert(7u, std::unique_ptr<Canary>());
    } catch (const std::invalid_argument &) {
        is_refused = true;
    }
    CHECK(is_refused && !worker.contains(7u));
}

// Nodes that wait with a worker that nobody has attached are freed for an insert into the full map.
void nodes_of_a_returned_worker_are_freed() {
    nm::MapOptions options;
    options.workers = 3;
    options.timeout_ms = 0;
    Objects map(9, options);
    Objects::Worker reader = map.attach(), worker = map.attach(), gone = map.attach();
    {
        auto guard = reader.pin();
        CHECK(gone.emplace(5u, 5u) && gone.emplace(6u, 6u) && gone.remove(5u) && gone.remove(6u));
        gone.close();
    }
    CHECK(Canary::alive() == 2 && worker.waiting() == 0);
    CHECK(worker.emplace(7u, 7u) && Canary::alive() == 1);
}

void wrong_sizes_and_workers_are_refused() {
    CHECK(thrown([] { Objects map(6); }) == NM_NODES);
    CHECK(thrown([] { Objects map(std::uint64_t{1} << 40); }) == NM_NODES);
    CHECK(thrown([] { Objects map(64, 0); }) == NM_WORKERS);
    CHECK(thrown([] { Objects map(64, 65); }) == NM_WORKERS);
    Objects map{64, 1};
    CHECK(map.nodes() == 64 && map.capacity() == 29 && map.workers() == 1);
    Objects::Worker worker = map.attach();
    CHECK(fault_of([&] { (void)map.attach(std::chrono::milliseconds(5)); }).text ==
          "each of the 1 workers of the map (64 at most) is attached, or other threads were "
          "attaching workers for all of the timeout");
    Objects::Worker moved = std::move(worker);
    CHECK(!worker.is_open() && thrown([&] { worker.remove(5u); }) == NM_CLOSED);
    CHECK(moved.emplace(5u, 5u) && moved.number() == 0);
}

// ---- in order ----

void keys_are_read_in_order() {
    nm::Map<int> map{8192, 1};
    auto worker = map.attach();
    for (std::uint64_t key = 0; key < 2000; key++) CHECK(worker.insert(key * 7919 % 10007, 1));
    CHECK(worker.insert(nm::most_key, 1));
    std::vector<std::uint64_t> all = worker.keys();
    CHECK(all.size() == 2001 && all.back() == nm::most_key);
    CHECK(std::is_sorted(all.begin(), all.end()));
    std::vector<std::uint64_t> some = worker.keys(all[10], all[20]);
    CHECK(some == std::vector<std::uint64_t>(all.begin() + 10, all.begin() + 20));
    CHECK(worker.keys(7u, 7u).empty() && worker.keys(UINT64_MAX).empty());
}

// ---- ends ----

// A map that was moved goes on, and one that ends before its workers is emptied by the last of
// them.
void the_last_one_empties_the_map() {
    Objects::Worker last;
    {
        Objects made{256, 4};
        Objects map = std::move(made);
        CHECK(thrown([&] { (void)made.attach(); }) == NM_CLOSED);
        Objects::Worker worker = map.attach();
        last = map.attach();
        for (std::uint64_t key = 0; key < 50; key++) CHECK(worker.emplace(key, key));
    }
    CHECK(Canary::alive() == 50 && last.remove(7u) && last.emplace(70u, 70u));
    last.close();
    CHECK(Canary::alive() == 0);
}

// What waits with each worker is freed at the end, even if guards held it back when they were
// closed.
void the_end_frees_what_waits() {
    {
        Objects map{8192, 8};
        Objects::Worker reader = map.attach();
        auto guard = reader.pin();
        std::vector<Objects::Worker> removers(7);
        for (Objects::Worker &remover : removers) {
            remover = map.attach();
            for (std::uint64_t key = 0; key < 200; key++) CHECK(remover.emplace(key, key));
            for (std::uint64_t key = 0; key < 200; key++) CHECK(remover.remove(key));
        }
        removers.clear();
        CHECK(Canary::alive() == 1400);
    }
    CHECK(Canary::alive() == 0);
}

// An object whose end calls the map is destroyed like any other.
struct Caller {
    explicit Caller(nm::Map<std::uint64_t>::Worker &worker) : log(worker) {}
    ~Caller() { log.insert(log.keys().size(), 1); }
    nm::Map<std::uint64_t>::Worker &log;
};

void the_end_of_an_object_may_call_a_map() {
    nm::Map<std::uint64_t> ends{1024, 1};
    auto log = ends.attach();
    {
        nm::Map<Caller> map{1024, 1};
        auto worker = map.attach();
        for (std::uint64_t key = 0; key < 100; key++) CHECK(worker.emplace(key, log));
        for (std::uint64_t key = 0; key < 50; key++) CHECK(worker.remove(key));
    }
    CHECK(log.keys().size() == 100);
}

// ---- threads ----

// What has happened so far. It orders no accesses to memory, so that ThreadSanitizer knows only the
// orders of which the header informs it.
class Stage {
public:
    void reach(int stage) noexcept { reached_.store(stage, std::memory_order_relaxed); }

    void wait_for(int stage) const noexcept {
        while (reached_.load(std::memory_order_relaxed) < stage) std::this_thread::yield();
    }

private:
    std::atomic<int> reached_{0};
};

// A thread makes an object, another one reads it under a guard, and then the first one destroys it.
void an_insert_comes_first_and_the_end_of_an_object_last() {
    Objects map{64, 2};
    Stage stage;
    std::thread reader([&] {
        Objects::Worker worker = map.attach();
        stage.wait_for(1);
        auto guard = worker.pin();
        const Canary *found = guard.get(5u);
        stage.reach(2);
        stage.wait_for(3);
        CHECK(found->is_of(5));
        guard.unpin();
        stage.reach(4);
        stage.wait_for(5);
    });
    Objects::Worker worker = map.attach();
    CHECK(worker.emplace(5u, 5u));
    stage.reach(1);
    stage.wait_for(2);
    CHECK(worker.remove(5u) && worker.reclaim().values == 0);
    stage.reach(3);
    stage.wait_for(4);
    CHECK(worker.reclaim().values == 1 && Canary::alive() == 0);
    stage.reach(5);
    reader.join();
}

constexpr unsigned threads = 4, calls = 20'000;
constexpr std::uint64_t range = 64;

// Reads objects under a guard, a few of them under each.
void read_some(Objects::Worker &worker, std::minstd_rand &random) {
    auto guard = worker.pin();
    for (unsigned at = 0; at < 4; at++) {
        std::uint64_t key = random() % range;
        const Canary *found = guard.get(key);
        CHECK(found == nullptr || found->is_of(key));
    }
}

void work(Objects &map, unsigned seed) {
    Objects::Worker worker = map.attach();
    std::minstd_rand random(seed);
    for (unsigned call = 0; call < calls; call++) {
        std::uint64_t key = random() % range;
        switch (random() % 4) {
        case 0: worker.emplace(key, key); break;
        case 1: worker.remove(key); break;
        default: read_some(worker, random);
        }
        if (call % 1000 == 0) worker = map.attach(std::chrono::seconds(1));
    }
}

void no_reader_sees_an_object_that_was_destroyed() {
    {
        Objects map{4096, 2 * threads};
        std::vector<std::thread> running;
        for (unsigned number = 1; number <= threads; number++)
            running.emplace_back(work, std::ref(map), number);
        for (std::thread &thread : running) thread.join();
        CHECK(map.attach().keys().size() <= range);
    }
    CHECK(Canary::alive() == 0 && Canary::destroyed > threads * 1000);
}

}  // namespace

int main() {
    values_are_stored_in_place();
    objects_are_destroyed_once();
    a_guard_holds_objects_back();
    a_worker_frees_by_itself();
    an_object_of_a_derived_class_is_freed_by_its_base();
    objects_may_be_constant();
    a_refused_insert_leaves_the_object();
    a_full_map_is_reported_at_once();
    atomics_are_objects();
    arguments_stay();
    a_null_object_is_refused();
    nodes_of_a_returned_worker_are_freed();
    wrong_sizes_and_workers_are_refused();
    keys_are_read_in_order();
    the_last_one_empties_the_map();
    the_end_frees_what_waits();
    the_end_of_an_object_may_call_a_map();
    an_insert_comes_first_and_the_end_of_an_object_last();
    no_reader_sees_an_object_that_was_destroyed();
    CHECK(Canary::alive() == 0);
    std::printf("%llu objects were destroyed once each\n",
                static_cast<unsigned long long>(Canary::destroyed));
}
