// A cache whose entries expire: threads read values, load those that are missing, and after its time
// each entry ends.
//
// A map has the values by their keys. A set has the time at which each entry expires, with its key: so
// the expired entries are the least keys of the set. The thread that inserts an entry adds its time, and
// the thread that takes the time out removes the entry.
#include <nm_keys.hpp>

#include <atomic>
#include <cassert>
#include <iostream>
#include <thread>

class Cache {
  public:
    Cache(std::uint64_t entries, std::uint64_t life) : values_(4 * entries), life_(life) {}

    // Returns the value of a key, which it loads if there is none.
    std::string get(std::uint32_t key, std::uint64_t now) {
        expire(now);
        auto worker = values_.attach();
        if (auto guard = worker.pin(); const std::string *found = guard.get(key)) return *found;
        loads++;
        std::string value = "value " + std::to_string(key);
        if (worker.emplace(key, value)) expires_.insert({now + life_, key});
        return value;
    }

    // Removes the entries that have expired.
    void expire(std::uint64_t now) {
        auto worker = values_.attach();
        for (auto [time, key] : expires_.pop_first_many({now + 1, 0}, SIZE_MAX))
            worker.remove(std::uint64_t{key});
    }

    std::uint64_t size() const { return values_.size(); }
    std::atomic<int> loads{0};

  private:
    nm::Map<std::string> values_;
    nm::SetOf<std::pair<nm::Bits<40>, nm::Bits<24>>> expires_;  // a time, and a key
    std::uint64_t life_;
};

int main() {
    Cache cache(1'000, 50);
    for (std::uint64_t now : {0u, 10u, 50u, 60u}) {
        std::string one = cache.get(1, now), two = cache.get(2, now < 50 ? 10 : now);
        std::cout << "at " << now << ": " << one << ", " << two << ", " << cache.loads << " loads\n";
    }
    std::vector<std::thread> threads;
    for (int each = 0; each < 4; each++)
        threads.emplace_back([&] {
            for (std::uint32_t key = 100; key < 200; key++) assert(cache.get(key, 100).back() != ' ');
        });
    for (std::thread &thread : threads) thread.join();
    std::cout << "at 100: " << cache.size() << " entries\n";
    cache.expire(150);
    std::cout << "at 150: " << cache.size() << " entries\n";
}
