// A memtable: threads write versions of keys, and a reader sees each key as of a write, whatever is
// written later. At its end the newest versions are written out in order.
//
// A key is one of the program and the number of a write, which descends: so the newest version is first.
#include <nm_keys.hpp>

#include <atomic>
#include <iostream>
#include <thread>

class Memtable {
  public:
    using Value = std::optional<std::string>;  // nothing if the key is removed

    // Writes a version of a key; returns the number of the write.
    std::uint64_t put(std::uint64_t key, const Value &value) {
        std::uint64_t number = ++writes_;
        versions_.attach().emplace({key, most - number}, value);
        return number;
    }

    // Returns the value that a key had as of a write, or nothing.
    Value get(std::uint64_t key, std::uint64_t as_of = most) {
        auto reader = versions_.attach(), worker = versions_.attach();
        auto guard = reader.pin();
        auto newest = worker.under(guard).at_least({key, most - as_of});
        return newest && newest->key.first == key ? *newest->value : std::nullopt;
    }

    // Writes out the newest version of each key, ascending.
    void flush(std::ostream &to) {
        auto reader = versions_.attach(), worker = versions_.attach();
        auto guard = reader.pin();
        std::optional<std::uint64_t> last;
        for (auto [version, value] : worker.under(guard)) {
            if (last != version.first && *value) to << ' ' << version.first << '=' << **value;
            last = version.first;
        }
        to << '\n';
    }

  private:
    static constexpr std::uint64_t most = (1 << 24) - 1;
    nm::MapOf<std::pair<nm::Bits<40>, nm::Bits<24>>, Value> versions_{10'000};
    std::atomic<std::uint64_t> writes_{0};
};

int main() {
    Memtable table;
    std::uint64_t first = table.put(7, "one"), second = table.put(7, "two");
    std::cout << *table.get(7, first) << ", " << *table.get(7, second) << ", then removed\n";
    if (table.put(7, std::nullopt); table.get(7)) return 1;
    std::vector<std::thread> threads;
    for (std::uint64_t key = 0; key < 4; key++)
        threads.emplace_back([&, key] {
            for (int each = 0; each < 1'000; each++) table.put(key, std::to_string(each));
        });
    for (std::thread &thread : threads) thread.join();
    table.flush(std::cout << "newest:");
}
