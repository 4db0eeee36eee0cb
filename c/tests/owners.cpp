// Tests owners in C++. Four threads, each with a worker that was moved into it, fill one set by the
// try_ calls; then the report is compared. It also tests what owners do when they are moved, are
// destroyed, or meet a fault.
#include "thrown.hpp"

#include <cstdio>
#include <optional>
#include <thread>
#include <type_traits>
#include <utility>
#include <vector>

namespace {

constexpr std::uint64_t keys_of_each = 1000;
constexpr std::uint32_t threads_at_work = 4;
constexpr std::uint32_t apart = 8;

static_assert(!std::is_copy_constructible_v<nm::Worker> && !std::is_copy_assignable_v<nm::Set>,
    "an owner is not copied");
static_assert(std::is_nothrow_move_constructible_v<nm::Worker> &&
                  std::is_nothrow_move_assignable_v<nm::Report> &&
                  std::is_nothrow_move_assignable_v<nm::Set>,
    "an owner can be moved");

// Every fourth key, from a first one on, is inserted; and then every second one of these is
// removed.
void fill(nm::Worker worker, std::uint64_t first) {
    for (std::uint64_t number = 0; number < keys_of_each; number++) {
        std::uint64_t key = first + number * threads_at_work;
        nm_outcome told = worker.try_insert(key);
        while (told == NM_BUSY) told = worker.try_insert(key);
        CHECK(told == NM_YES);
        if (number % 2 == 0) continue;
        told = worker.try_remove(key);
        while (told == NM_BUSY) told = worker.try_remove(key);
        while (told == NM_UNFINISHED) told = worker.try_finish();
        CHECK(told == NM_YES && !worker.pending());
        if (number % 32 == 1 && worker.advance().moved()) worker.collect();
    }
    nm_stats stats = worker.stats();
    CHECK(stats.links == keys_of_each && stats.flags == keys_of_each / 2 &&
          stats.queued <= stats.retired);
}

void threads_fill_a_set() {
    constexpr std::uint32_t nodes = 16384;
    nm::Set set = unbalanced_set(nodes, threads_at_work * apart);
    std::vector<std::thread> threads;
    for (std::uint32_t number = 0; number < threads_at_work; number++)
        threads.emplace_back(fill, set.worker(number * apart), number);
    for (std::thread &thread : threads) thread.join();
    std::vector<std::uint64_t> wanted;
    for (std::uint64_t key = 0; key < keys_of_each * threads_at_work; key++)
        if (key / threads_at_work % 2 == 0) wanted.push_back(key);
    nm::Report report = set.close();
    CHECK(thrown([&] { (void)set.worker(0); }) == NM_CLOSED);
    CHECK(report.keys() == wanted);
    std::uint64_t waiting = 0;
    for (std::uint32_t number = 0; number < threads_at_work * apart; number++) {
        std::uint64_t queued = report.queue_len(number);
        while (report.take_waiting(number)) waiting++, queued--;
        CHECK(queued == 0);
    }
    nm::Slots slots = report.slots();
    CHECK(slots.reached == 2 * wanted.size() && slots.free + slots.reached + waiting == nodes - 5);
}

void owners_are_moved() {
    nm::Set set = unbalanced_set(64, 2, nm::Shape::unbalanced);
    nm::Worker first = set.worker(0);
    CHECK(fault_of([&] { (void)set.worker(0); }).text == "worker 0 is attached to a thread" &&
          thrown([&] { (void)set.worker(2); }) == NM_NUMBER);
    CHECK(fault_of([&] { set.close(); }).text ==
          "worker 0 is attached to a thread: close what attach gave first");
    nm::Worker moved = std::move(first);
    CHECK(moved.try_insert(5u) == NM_YES && moved.try_contains(5u) == NM_YES &&
          moved.try_remove(5u) == NM_YES && moved.try_remove(5u) == NM_NO);
    CHECK(first.try_contains(5u) == NM_CLOSED && thrown([&] { first.advance(); }) == NM_CLOSED &&
          thrown([&] { (void)first.contains(5u); }) == NM_CLOSED &&
          thrown([&] { (void)first.first(); }) == NM_CLOSED);
    CHECK(moved.number() == 0 && moved.queue_len() == 2);
    CHECK(moved.advance().epoch == 1 && moved.advance().epoch == 2 && moved.behind().mask == 0 &&
          moved.collect().freed == 2);
    moved = set.worker(1);
    CHECK(moved.number() == 1 && set.worker(0).number() == 0);
    nm::Set other = std::move(set);
    CHECK(!set.is_open() && thrown([&] { set.insert(5u); }) == NM_CLOSED &&
          thrown([&] { (void)set.size(); }) == NM_CLOSED && other.insert(5u) && moved.contains(5u));
    other = unbalanced_set(64, 1);
    CHECK(other.empty() && moved.contains(5u) && moved.close_set().size() == 1);
}

void a_worker_outlives_its_set() {
    std::vector<nm::Worker> left;
    {
        nm::Set set = unbalanced_set(7, 2);
        CHECK(set.insert(6u) && set.remove(6u));
        left.push_back(set.worker(0));
    }
    CHECK(left.back().insert(7u) && left.back().contains(7u) &&
          fault_of([&] { left.back().insert(8u); }).text ==
              "the set is full: its 1 keys take 7 of its 7 nodes, and 0 wait to be freed");
}

void faults_are_told() {
    CHECK(fault_of([] { nm::Set set(6); }).text ==
          "the number of nodes is not 7 to 268,435,456: 6");
    CHECK(fault_of([] { nm::Set set(1ull << 32); }).text ==
          "the number of nodes is not 7 to 268,435,456: 4,294,967,296");
    CHECK(fault_of([] { unbalanced_set(7, 65); }).text ==
          "the number of workers is not 1 to 64: 65");
    CHECK(thrown([] { unbalanced_set(7, 0); }) == NM_WORKERS);
    CHECK(thrown([] { unbalanced_set(64, 1, static_cast<nm::Shape>(2)); }) == NM_NUMBER);
    nm::Set set(64);
    Thrown told = fault_of([&] { set.insert(UINT64_MAX); });
    CHECK(told.outcome == NM_KEY &&
          told.text == "the key 18446744073709551615 is not 0 to 18446744073709551612 (2^64 - 4)");
    CHECK(thrown([&] { set.remove(nm::most_key + 1); }) == NM_KEY &&
          thrown([&] { (void)set.contains(nm::most_key + 1); }) == NM_KEY &&
          set.insert(nm::most_key) && set.contains(nm::most_key));
}

// A worker that is closed lets its set be closed.
void owners_are_closed() {
    nm::Worker worker;
    nm::Report report;
    CHECK(!worker.is_open() && !report.is_open() &&
          thrown([&] { (void)report.size(); }) == NM_CLOSED);
    nm::Set set = unbalanced_set(8192, 2);
    worker = set.worker(0);
    CHECK(set.is_open() && worker.is_open() && worker.insert(5u) &&
          set.try_worker(worker, 1) == NM_OPEN && set.try_attach(worker) == NM_OPEN);
    CHECK(thrown([&] { set.close(); }) == NM_ATTACHED && set.is_open() && set.contains(5u));
    worker.close();
    worker.close();
    CHECK(!worker.is_open() && worker.try_insert(6u) == NM_CLOSED);
    report = set.close();
    CHECK(!set.is_open() && report.is_open() && report.size() == 1 &&
          set.try_attach(worker) == NM_CLOSED && set.try_worker(worker, 0) == NM_CLOSED);
    CHECK(fault_of([&] { set.close(); }).text == "the set is closed");
    report.close();
    CHECK(!report.is_open());
}

// A set that nobody has any more is ended by its last worker, and by no other.
void a_worker_ends_its_set() {
    nm::Report report;
    nm::Worker last, other;
    {
        nm::Set set = unbalanced_set(64, 3);
        last = set.worker(1), other = set.worker(0);
        CHECK(set.insert(5u) && last.insert(6u) && last.remove(6u));
        CHECK(thrown([&] { last.close_set(); }) == NM_ATTACHED && last.is_open());
    }
    CHECK(thrown([&] { last.close_set(); }) == NM_ATTACHED && last.is_open());
    other.close();
    report = last.close_set();
    CHECK(!last.is_open() && thrown([&] { last.close_set(); }) == NM_CLOSED);
    CHECK(report.keys() == std::vector<std::uint64_t>{5} && report.queue_len(1) == 2);
}

// A note of one worker is heard by another.
void notes_are_heard() {
    nm::Set set = unbalanced_set(64, 2);
    nm::Worker writer = set.worker(1), reader = set.worker(0);
    nm::Stamp stamp{77, 77};
    CHECK(reader.try_observe(1, stamp) == NM_NO && reader.try_observe(2, stamp) == NM_NUMBER &&
          stamp.inserted == 77);
    CHECK(writer.insert(5u) && writer.try_publish(stamp) == NM_DONE && stamp.inserted == 1 &&
          stamp.removed == 0);
    CHECK(writer.remove(5u) && reader.try_observe(1, stamp) == NM_YES && stamp.removed == 0);
    CHECK(writer.try_publish(stamp) == NM_DONE && stamp.removed == 1);
    CHECK(reader.try_observe(1, stamp) == NM_YES && stamp.removed == 1);
}

// The calls that answer an outcome, of a set for one key.
void outcomes_are_answered() {
    nm::Set set = unbalanced_set(7, 1, nm::Shape::unbalanced);
    nm::Worker worker = set.worker(0);
    std::uint64_t epoch = 77, found = 77;
    std::vector<nm_lookup> lookups{{5, 77}, {6, 77}}, none;
    CHECK(worker.try_contains(5u) == NM_NO && worker.try_insert(5u) == NM_YES &&
          worker.try_insert(5u) == NM_NO && worker.try_contains(5u) == NM_YES);
    CHECK(worker.try_contains_many(lookups) == NM_DONE && lookups[0].found == 1 &&
          lookups[1].found == 0 && worker.try_contains_many(none) == NM_DONE);
    CHECK(worker.try_lower_bound(6u, found) == NM_NO && found == 77 &&
          worker.try_lower_bound(0u, found) == NM_YES && found == 5);
    CHECK(worker.try_insert(6u) == NM_FULL && worker.try_insert(UINT64_MAX) == NM_KEY &&
          worker.try_contains(5u, 0) == NM_BUSY);
    CHECK(worker.try_unpin() == NM_NOT_PINNED && worker.try_pin(epoch) == NM_DONE && epoch == 0 &&
          worker.try_contains(5u) == NM_PINNED);
    CHECK(worker.try_unpin() == NM_DONE && worker.try_remove(5u, 1) == NM_UNFINISHED &&
          worker.try_contains(5u) == NM_PENDING && worker.pending());
    CHECK(worker.try_finish(0) == NM_UNFINISHED && worker.try_finish() == NM_YES &&
          worker.try_finish() == NM_NO && worker.try_remove(5u) == NM_NO);
}

// What a worker and a report tell of themselves they tell of a const owner too.
void const_owners_tell() {
    nm::Set set = unbalanced_set(64, 2);
    nm::Worker worker = set.worker(1);
    CHECK(worker.insert(5u) && worker.insert(6u) && worker.remove(6u));
    const nm::Worker &seen = worker;
    CHECK(seen.number() == 1 && seen.queue_len() == 2 && !seen.pending() && !seen.pinned() &&
          seen.stats().links == 2 && seen.behind().mask == 0 && seen.contains(5u));
    worker.close();
    const nm::Report report = set.close();
    CHECK(report.size() == 1 && report.keys() == std::vector<std::uint64_t>{5} &&
          report.queue_len(1) == 2 && report.slots().reached == 2);
}

// A pin ends with its guard, including when an exception unwinds.
void pins_end() {
    nm::Set set = unbalanced_set(64, 1);
    nm::Worker worker = set.attach();
    {
        nm::Pin pin = worker.pin();
        nm::Pin moved = std::move(pin);
        CHECK(moved.epoch() == 0 && worker.pinned() == std::optional<std::uint64_t>(0) &&
              fault_of([&] { (void)worker.contains(5u); }).text ==
                  "the worker is pinned: end its pin first");
        pin.unpin();
        CHECK(worker.pinned());
    }
    CHECK(!worker.pinned() && worker.insert(5u));
    CHECK(thrown([&] {
        nm::Pin pin = worker.pin();
        throw nm::Fault(NM_LOST, "as a program may throw");
    }) == NM_LOST && worker.remove(5u));
}

// A worker that goes home holds nothing back, and has finished its remove.
void workers_rest_at_home() {
    nm::Set set = unbalanced_set(64, 2);
    nm::Worker worker = set.worker(0), other = set.worker(1);
    std::uint64_t epoch = 0;
    CHECK(worker.try_pin(epoch) == NM_DONE && other.advance().moved() && other.behind().mask == 1);
    worker.close();
    CHECK(other.behind().mask == 0);
    worker = set.worker(0);
    CHECK(worker.insert(5u) && worker.try_remove(5u, 1) == NM_UNFINISHED && other.contains(5u));
    worker.close();
    CHECK(!other.contains(5u));
}

// Threads that attach themselves to one set at the same time get each a worker of its own, from the
// least number on.
void threads_attach_themselves() {
    constexpr int rounds = 200;
    nm::Set set(4096);
    CHECK(set.attach().number() == 0);
    for (int round = 0; round < rounds; round++) {
        std::uint64_t taken[threads_at_work] = {};
        std::vector<std::thread> threads;
        std::vector<nm::Worker> workers(threads_at_work);
        for (std::uint32_t number = 0; number < threads_at_work; number++)
            threads.emplace_back([&, number] {
                workers[number] = set.attach();
                taken[number] = 1ull << workers[number].number();
            });
        for (std::thread &thread : threads) thread.join();
        CHECK((taken[0] | taken[1] | taken[2] | taken[3]) == 0xf);
    }
    std::vector<nm::Worker> all;
    for (std::uint32_t each = 0; each < set.workers(); each++) all.push_back(set.attach());
    nm::Worker none;
    CHECK(set.try_attach(none) == NM_NO_WORKER && all[7].number() == 7 &&
          all.back().number() == 63);
    CHECK(fault_of([&] { (void)set.attach(std::chrono::milliseconds(5)); }).text ==
          "each of the 64 workers of the set (64 at most) is attached or in a call");
    std::thread later([&] { CHECK(set.attach().number() == 5 && set.insert(5u)); });
    std::this_thread::sleep_for(std::chrono::milliseconds(20));
    all[5].close();
    later.join();
    all.clear();
    CHECK(set.close().size() == 1);
}

}  // namespace

int main() {
    threads_fill_a_set();
    owners_are_moved();
    a_worker_outlives_its_set();
    faults_are_told();
    owners_are_closed();
    a_worker_ends_its_set();
    notes_are_heard();
    outcomes_are_answered();
    const_owners_tell();
    pins_end();
    workers_rest_at_home();
    threads_attach_themselves();
    std::puts("owners own, move and give up");
}
