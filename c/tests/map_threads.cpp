// Threads that keep no worker of a map: each takes one for a call, and returns it. Many more threads than
// workers call a map, and their answers add up; an object ends once. What waits with a worker that was
// returned is found by an insert into a full map. Workers that are all in use are waited for.
#include "nm_map.hpp"

#include <atomic>
#include <cstdio>
#include <cstdlib>
#include <memory>
#include <thread>
#include <vector>

#define CHECK(fact) \
    do \
        if (!(fact)) { \
            std::printf("%s:%d: not so: %s\n", __FILE__, __LINE__, #fact); \
            std::exit(1); \
        } \
    while (0)

using namespace std::chrono_literals;

namespace {

std::atomic<long> objects{0};

struct Object {
    explicit Object(std::uint64_t of) : number(of) { objects++; }
    ~Object() { objects--; }
    Object(const Object &) = delete;
    Object &operator=(const Object &) = delete;
    std::uint64_t number;
};

// 200 threads make their calls by 8 workers, with up to 200 keys of their own.
void many_threads() {
    constexpr std::uint64_t threads = 200, turns = 100;
    nm::MapOptions options;
    options.workers = 8;
    options.timeout_ms = 60'000;
    nm::Map<Object> map(65'536, options);
    std::atomic<std::uint64_t> left{0};
    std::vector<std::thread> all;
    for (std::uint64_t thread = 0; thread < threads; thread++)
        all.emplace_back([&map, &left, thread] {
            for (std::uint64_t turn = 0; turn < turns; turn++) {
                std::uint64_t key = thread * turns + turn;
                CHECK(map.attach().emplace(key, key));
                {
                    auto reader = map.attach();
                    auto guard = reader.pin();
                    Object *found = guard.get(key);
                    CHECK(found != nullptr && found->number == key);
                }
                if (turn % 3 != 0) CHECK(map.attach().remove(key));
                else left++;
            }
        });
    for (std::thread &each : all) each.join();
    CHECK(map.size() == left);
    std::uint64_t there = 0;
    for (std::uint64_t key : map.attach().keys()) there += key % turns % 3 == 0;
    CHECK(there == left);
}

// The nodes of the keys that one worker has removed wait with it, because another one was pinned. After it
// was returned, they serve the inserts of a third one.
void a_full_map() {
    nm::MapOptions options;
    options.workers = 3;
    options.timeout_ms = 0;
    nm::Map<std::uint64_t> map(25, options);
    auto inserts = map.attach(), removes = map.attach(), reads = map.attach();
    for (std::uint64_t key = 0; key < 10; key++) CHECK(inserts.insert(key, key));
    {
        auto guard = reads.pin();
        for (std::uint64_t key = 0; key < 5; key++) CHECK(removes.remove(key));
        removes.close();
    }
    CHECK(map.waiting() == 10);
    for (std::uint64_t key = 10; key < 15; key++) CHECK(inserts.insert(key, key));
    CHECK(map.size() == 10);
}

// While all workers are taken, a thread waits for one, and gets the one that is returned.
void all_are_taken() {
    nm::Map<std::uint64_t> map(64, 2);
    auto one = map.attach(), two = map.attach();
    try {
        (void)map.attach(0ms);
        CHECK(false);
    } catch (const nm::Fault &fault) {
        CHECK(fault.outcome() == NM_NO_WORKER);
    }
    std::thread returns([&one] {
        std::this_thread::sleep_for(20ms);
        one.close();
    });
    auto three = map.attach(60s);
    CHECK(three.is_open());
    returns.join();
    CHECK(!one.is_open() && three.insert(5u, 7u) && *two.get(5u) == 7u);
}

// A handle that is open gets no other worker, and one that was returned does.
void open_handles() {
    nm_handle map = NM_CLOSED_HANDLE, one = NM_CLOSED_HANDLE, two = NM_CLOSED_HANDLE;
    nm_map_counts *counts = nullptr;
    CHECK(nm_map_new(&map, 64, 2) == NM_DONE && nm_map_counts_new(&counts, 64, 2) == NM_DONE);
    CHECK(nm_map_lend(&map, counts, &one, 0) == NM_DONE);
    CHECK(nm_map_lend(&map, counts, &two, 0) == NM_DONE);
    CHECK(nm_map_return(counts, &two) == NM_DONE);
    CHECK(nm_map_lend(&map, counts, &one, 0) == NM_OPEN);
    CHECK(nm_map_lend(&map, counts, &two, 0) == NM_DONE);
    CHECK(nm_map_return(counts, &one) == NM_DONE && nm_map_return(counts, &two) == NM_DONE);
    nm_map_drop_returned(counts);
    CHECK(nm_drop(&map) == NM_DONE);
    nm_map_counts_free(counts);
}

}  // namespace

int main() {
    many_threads();
    CHECK(objects == 0);
    a_full_map();
    all_are_taken();
    open_handles();
    return 0;
}
