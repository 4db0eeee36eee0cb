// A key hands over a payload: what a thread wrote before it inserted a key is visible to the thread
// that pops it, or finds it. ThreadSanitizer, under which the check runs this, must report no race
// of these plain memory accesses.
#include "thrown.hpp"

#include <cstdio>
#include <thread>
#include <vector>

namespace {

constexpr std::uint64_t payloads = 2000;

std::uint64_t payload_of(std::uint64_t key) { return key * 3 + 1; }

// A thread writes payloads and inserts their keys; this one takes the keys and reads the payloads.
template <typename Of>
void keys_hand_over(nm::Set &set, Of &taker) {
    std::vector<std::uint64_t> payload(payloads);
    std::thread producer([&] {
        for (std::uint64_t key = 0; key < payloads; key++) {
            payload[key] = payload_of(key);
            set.insert(key);
        }
    });
    for (std::uint64_t taken = 0; taken < payloads; taken++) {
        std::optional<std::uint64_t> key;
        while (!(key = taken % 2 == 0 ? taker.pop_first() : taker.pop_last()))
            std::this_thread::yield();
        CHECK(payload[*key] == payload_of(*key));
    }
    producer.join();
}

// The same for keys that are found, and stay.
void keys_are_found() {
    nm::Set set(8192);
    std::vector<std::uint64_t> payload(payloads);
    std::thread producer([&] {
        nm::Worker worker = set.attach();
        for (std::uint64_t key = 0; key < payloads; key++) {
            payload[key] = payload_of(key);
            while (worker.try_insert(key) != NM_YES) {}
        }
    });
    for (std::uint64_t key = 0; key < payloads; key++) {
        while (!set.contains(key)) std::this_thread::yield();
        CHECK(payload[key] == payload_of(key));
    }
    producer.join();
}

}  // namespace

int main() {
    nm::Set set(8192);
    keys_hand_over(set, set);
    nm::Worker worker = set.attach();
    keys_hand_over(set, worker);
    keys_are_found();
    std::puts("a key hands over what was written before it was inserted");
}
