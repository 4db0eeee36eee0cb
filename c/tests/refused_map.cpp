// Tests a map of objects if memory is refused: it repeats each call, which then ends like without
// the refusal, and no object is lost or destroyed twice. If any one allocation is refused, it
// writes the same text: refused_map.out.
#include "canary.hpp"
#include "nm_map.hpp"
#include "thrown.hpp"

#include <algorithm>
#include <cstdio>
#include <utility>
#include <vector>

namespace {

using Objects = nm::Map<Canary>;

constexpr std::uint32_t nodes = 1024, workers = 2;
constexpr std::uint64_t keys = 150;

// Repeats a call each time that memory was refused, to the library or to its header: both are
// faults.
template <typename Call>
auto at_last(Call call) {
    for (;;) {
        try {
            return call();
        } catch (const nm::Fault &fault) {
            CHECK(fault.outcome() == NM_NO_MEMORY);
        }
    }
}

// An object is made once; each insert that was refused has left it.
void insert(Objects::Worker &worker, std::uint64_t key) {
    std::unique_ptr<Canary> object;
    while (object == nullptr) object.reset(new (std::nothrow) Canary(key));
    CHECK(at_last([&] {
        CHECK(object->is_of(key));
        return worker.insert(key, std::move(object));
    }));
    CHECK(object == nullptr);
}

void fill(Objects &map) {
    Objects::Worker worker = at_last([&] { return map.attach(); });
    for (std::uint64_t key = 0; key < keys; key += 2) insert(worker, key * 37 % 151);
    for (std::uint64_t key = 1; key < keys; key += 2)
        CHECK(at_last([&] { return worker.emplace(key * 37 % 151, key * 37 % 151); }));
}

// Puts objects in place of others. Each put that was refused has left its object, and the old one is
// there until it succeeds.
void replace(Objects &map) {
    Objects::Worker worker = at_last([&] { return map.attach(); });
    std::uint64_t before = Canary::alive();
    for (std::uint64_t each = 0; each < keys; each++) {
        std::uint64_t key = each * 37 % 151;
        std::unique_ptr<Canary> object;
        while (object == nullptr) object.reset(new (std::nothrow) Canary(key));
        CHECK(!at_last([&] {
            CHECK(object->is_of(key) && at_last([&] { return worker.contains(key); }));
            return worker.insert_or_assign(key, std::move(object));
        }));
        CHECK(object == nullptr);
    }
    CHECK(map.size() == keys && Canary::alive() > before);
    worker.reclaim();
    CHECK(Canary::alive() == before && map.waiting() == 0);
}

// Removes keys by two workers, while one of them holds the objects back.
void remove(Objects &map) {
    Objects::Worker reader = at_last([&] { return map.attach(); });
    Objects::Worker remover = at_last([&] { return map.attach(); });
    auto guard = reader.pin();
    std::uint64_t before = Canary::alive();
    for (std::uint64_t key = 0; key < 100; key++) {
        const Canary *found = guard.get(key);
        CHECK(at_last([&] { return remover.remove(key); }) && found->is_of(key));
    }
    CHECK(Canary::alive() == before);
}

// Reads and pops objects by a worker, under the guard of another one. After a refusal a pass begins
// anew.
void pop(Objects &map) {
    Objects::Worker reader = at_last([&] { return map.attach(); });
    Objects::Worker worker = at_last([&] { return map.attach(); });
    auto guard = reader.pin();
    auto calls = worker.under(guard);
    std::size_t read = at_last([&] {
        std::size_t count = 0;
        for (auto [key, object] : calls) CHECK(object->is_of(key)), count++;
        return count;
    });
    CHECK(read == map.size());
    std::vector<std::uint64_t> taken;
    at_last([&] { nm::detail::in_memory([&] { taken.reserve(10); }); });
    for (int each = 0; each < 10; each++) {
        auto popped = at_last([&] { return calls.pop_first(); });
        CHECK(popped->value->is_of(popped->key));
        taken.push_back(popped->key);
    }
    auto found = at_last([&] { return guard.get_many(taken); });
    CHECK(std::count(found.begin(), found.end(), nullptr) == 10);
}

// If memory is refused while a map is made of pairs, no map and none of its objects is left, and
// the other pairs have theirs.
void make_of_pairs() {
    std::uint64_t before = Canary::alive();
    at_last([&] {
        std::vector<std::pair<unsigned, std::unique_ptr<Canary>>> pairs;
        nm::detail::in_memory([&] {
            for (unsigned key = 0; key < 20; key++)
                pairs.emplace_back(key, std::make_unique<Canary>(key));
        });
        auto first = std::make_move_iterator(pairs.begin());
        Objects map(256, first, std::make_move_iterator(pairs.end()));
        CHECK(map.size() == 20);
    });
    CHECK(Canary::alive() == before);
}

}  // namespace

int main() {
    std::size_t left = 0;
    {
        Objects map = at_last([] { return Objects(nodes, workers); });
        fill(map);
        replace(map);
        remove(map);
        pop(map);
        make_of_pairs();
        left = at_last([&] { return map.attach().keys(); }).size();
    }
    std::printf("keys %zu objects %llu\n", left, static_cast<unsigned long long>(Canary::alive()));
}
