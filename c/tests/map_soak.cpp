// map_soak [THREADS [CALLS [KEYS]]]: threads insert, replace, get, remove and pop objects of one
// nm::Map, for CALLS calls in all, with keys below KEYS. A get reads the object under a guard, and now
// and then holds the guard for a while. A pop, an exchange and an update read the object that they took
// out under the guard of a second worker, and a pass reads some objects in order. Each object checks
// that it is destroyed once, and each reader that it reads an object that exists. At the end each
// object was destroyed.
// Without numbers it is short, for c/check; under the sanitizers and valgrind it finds a read or a
// free of freed memory.
#include "canary.hpp"
#include "nm_map.hpp"

#include <array>
#include <chrono>
#include <cstdio>
#include <cstdlib>
#include <random>
#include <thread>
#include <vector>

namespace {

using Objects = nm::Map<Canary>;
using Clock = std::chrono::steady_clock;

struct Load {
    unsigned threads = 4;
    std::uint64_t calls = 400'000, keys = 1'000;
};

// What the calls of a thread returned.
struct Counts {
    std::uint64_t puts = 0, swaps = 0, made = 0, inserted = 0, replaced = 0, full = 0;
    std::uint64_t gets = 0, found = 0, removes = 0, removed = 0;
    std::uint64_t pops = 0, popped = 0, passes = 0, passed = 0;

    // Makes an object of a key.
    std::unique_ptr<Canary> object(std::uint64_t key) {
        made++;
        return std::make_unique<Canary>(key);
    }

    // Counts a call that gave a key an object; `old` is the one that it replaced, or null.
    void given(const Canary *old) { (old == nullptr ? inserted : replaced)++; }

    Counts &operator+=(const Counts &other) {
        puts += other.puts, swaps += other.swaps, made += other.made;
        inserted += other.inserted, replaced += other.replaced;
        gets += other.gets, found += other.found;
        removes += other.removes, removed += other.removed;
        pops += other.pops, popped += other.popped;
        passes += other.passes, passed += other.passed;
        full += other.full;
        return *this;
    }

    [[nodiscard]] std::uint64_t calls() const {
        return puts + swaps + gets + removes + pops + passes;
    }
    [[nodiscard]] std::uint64_t left() const { return inserted - removed - popped; }
};

constexpr std::chrono::seconds longest{60};  // for a worker, which is free

// What a thread has of the map.
struct Workers {
    explicit Workers(Objects &map) : reader(map.attach(longest)), worker(map.attach(longest)) {}

    Objects::Worker reader, worker;
};

// Gets an object and reads it, and in one of 4,096 calls again after other threads have run.
void get(Workers &by, std::uint64_t key, Counts &counts) {
    auto guard = by.reader.pin();
    const Canary *found = guard.get(key);
    counts.gets++;
    if (found == nullptr) return;
    counts.found++;
    CHECK(found->is_of(key));
    if (counts.gets % 4096 != 0) return;
    std::this_thread::sleep_for(std::chrono::microseconds(100));
    CHECK(found->is_of(key));
}

// Makes a call that gives a key an object. If other threads hold back all nodes for its time, it gives
// none.
template <typename Give>
void unless_full(Counts &counts, Give give) {
    try {
        give();
    } catch (const nm::Fault &fault) {
        CHECK(fault.outcome() == NM_FULL);
        counts.full++;
    }
}

// Gives a key an object by one of three calls. The map takes the object, or it remains.
void put(Objects::Worker &worker, std::uint64_t key, Counts &counts) {
    auto object = counts.object(key);
    bool inserted = false, replaced = false;
    unless_full(counts, [&] {
        switch (counts.puts++ % 3) {
        case 0: inserted = worker.insert(key, std::move(object)); break;
        case 1:
            inserted = worker.insert_or_assign(key, std::move(object));
            replaced = !inserted;
            break;
        default: replaced = worker.replace(key, std::move(object));
        }
    });
    counts.inserted += inserted, counts.replaced += replaced;
    CHECK((inserted || replaced) ? object == nullptr : object->is_of(key));
}

// Gives a key an object, and reads the one that the key had.
void exchange(nm::GuardedWorker<Canary> calls, std::uint64_t key, Counts &counts) {
    const Canary *old = calls.exchange(key, counts.object(key));
    counts.given(old);
    CHECK(old == nullptr || old->is_of(key));
}

// Gives a key an object in place of the one that it found, or of none.
void compare_exchange(nm::GuardedWorker<Canary> calls, std::uint64_t key, Counts &counts) {
    Canary *expected = calls.get(key);
    auto object = counts.object(key);
    bool is_taken = calls.compare_exchange(key, expected, std::move(object));
    if (is_taken) counts.given(expected);
    CHECK(is_taken == (object == nullptr) && (expected == nullptr || expected->is_of(key)));
}

// Gives a key an object that is made while the one that the key has can be read.
void update(nm::GuardedWorker<Canary> calls, std::uint64_t key, Counts &counts) {
    const Canary *old = nullptr;
    const Canary *made = calls.update(key, [&](const Canary *found) {
        CHECK(found == nullptr || found->is_of(key));
        old = found;
        return counts.object(key);
    });
    counts.given(old);
    CHECK(made->is_of(key) && (old == nullptr || old->is_of(key)));
}

// Gives a key an object by one of three calls, under a guard of the reader.
void swap(Workers &by, std::uint64_t key, Counts &counts) {
    auto guard = by.reader.pin();
    auto calls = by.worker.under(guard);
    auto give = std::array{exchange, compare_exchange, update}[counts.swaps++ % 3];
    unless_full(counts, [&] { give(calls, key, counts); });
}

// Pops the least object below a key, or the greatest from it on, or none if other threads take each
// key that it finds.
std::optional<nm::MapEntry<Canary *>> popped_by(nm::GuardedWorker<Canary> calls,
                                                std::uint64_t key) {
    try {
        return key % 2 == 0 ? calls.pop_first(key) : calls.pop_last(key);
    } catch (const nm::Fault &fault) {
        CHECK(fault.outcome() == NM_BUSY);
        return std::nullopt;
    }
}

// Pops an object, and reads it.
void pop(Workers &by, std::uint64_t key, Counts &counts) {
    auto guard = by.reader.pin();
    auto popped = popped_by(by.worker.under(guard), key);
    counts.pops++;
    if (!popped) return;
    counts.popped++;
    CHECK((popped->key < key) == (key % 2 == 0) && popped->value->is_of(popped->key));
    if (counts.pops % 256 == 0) std::this_thread::sleep_for(std::chrono::microseconds(100));
    CHECK(popped->value->is_of(popped->key));
}

// Reads the objects of a range in order.
void pass(Workers &by, std::uint64_t key, Counts &counts) {
    auto guard = by.reader.pin();
    counts.passes++;
    for (auto [each, object] : by.worker.under(guard).range(key, key + 32)) {
        CHECK(key <= each && each < key + 32 && object->is_of(each));
        counts.passed++;
    }
}

void work(Objects &map, const Load &load, unsigned seed, Counts &all) {
    Workers by(map);
    std::minstd_rand random(seed);
    Counts counts;
    for (std::uint64_t call = 0; call < load.calls / load.threads; call++) {
        std::uint64_t key = random() % load.keys;
        switch (random() / 16 % 24) {
        case 0: pop(by, key, counts); break;
        case 1: pass(by, key, counts); break;
        case 2: case 3: case 4: case 5: case 6: case 7: case 8:
            counts.removes++, counts.removed += by.worker.remove(key);
            break;
        case 9: case 10: case 11: case 12: case 13: case 14: case 15: get(by, key, counts); break;
        case 16: case 17: case 18: swap(by, key, counts); break;
        default: put(by.worker, key, counts);
        }
    }
    all += counts;
}

// Runs the threads, each of which adds to counts of its own; returns their sum.
Counts run(const Load &load) {
    std::uint64_t nodes = 4 * load.keys + 256 * load.threads;
    nm::MapOptions options;
    options.workers = 2 * load.threads + 1;
    options.timeout_ms = 1;  // a guard holds back the nodes for which its own thread waits
    Objects map(nodes, options);
    std::vector<Counts> each(load.threads);
    std::vector<std::thread> running;
    for (unsigned number = 0; number < load.threads; number++)
        running.emplace_back(work, std::ref(map), std::cref(load), number + 1,
                             std::ref(each[number]));
    for (std::thread &thread : running) thread.join();
    Counts all;
    for (const Counts &counts : each) all += counts;
    CHECK(map.attach().keys().size() == all.left() && map.size() == all.left());
    return all;
}

void report(const Load &load, const Counts &all, double seconds) {
    auto number = [](std::uint64_t count) { return static_cast<unsigned long long>(count); };
    std::printf("%u threads made %llu calls in %.1f seconds:\n"
                "%llu puts and %llu swaps, of which %llu inserted, %llu replaced and %llu found no "
                "nodes in time\n"
                "%llu gets, of which %llu found an object\n%llu removes, of which %llu removed\n"
                "%llu pops, of which %llu removed\n%llu passes, which read %llu objects\n"
                "%llu objects were made, and %llu destroyed\n",
                load.threads, number(all.calls()), seconds, number(all.puts), number(all.swaps),
                number(all.inserted), number(all.replaced), number(all.full), number(all.gets),
                number(all.found), number(all.removes), number(all.removed), number(all.pops),
                number(all.popped), number(all.passes), number(all.passed), number(Canary::made),
                number(Canary::destroyed));
}

}  // namespace

int main(int count, char **words) {
    Load load;
    if (count > 1) load.threads = static_cast<unsigned>(std::strtoul(words[1], nullptr, 10));
    if (count > 2) load.calls = std::strtoull(words[2], nullptr, 10);
    if (count > 3) load.keys = std::strtoull(words[3], nullptr, 10);
    CHECK(load.threads >= 1 && load.threads < 32 && load.keys >= 1);
    Clock::time_point begin = Clock::now();
    Counts all = run(load);
    std::chrono::duration<double> took = Clock::now() - begin;
    report(load, all, took.count());
    CHECK(Canary::made == all.made && Canary::alive() == 0);
    CHECK(all.inserted > 0 && all.replaced > 0 && all.found > 0 && all.removed > 0);
    CHECK(all.popped > 0 && all.passed > 0);
}
