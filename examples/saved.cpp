// Saves a map to a file while a thread changes it, and makes a map of the file.
//
// The file has each key that stays in the map meanwhile, once, with its value. Others may be in it.
#include <nm_map.hpp>

#include <atomic>
#include <cassert>
#include <cstdio>
#include <fstream>
#include <iostream>
#include <thread>

using Map = nm::Map<double>;

// Writes a line for each entry, ascending. Returns how many.
std::size_t save(const Map::Worker &worker, const std::string &path) {
    std::ofstream file(path);
    file.precision(17);
    std::size_t lines = 0;
    for (std::optional<std::uint64_t> from = 0; from;) {
        auto read = worker.scan(*from, 1024);
        for (auto [key, value] : read.entries) file << key << ' ' << value << '\n';
        lines += read.entries.size(), from = read.next;
    }
    file.close();
    if (!file) throw std::runtime_error("the file was not written: " + path);
    return lines;
}

// Makes a map of the lines of a file, with room for as many keys again.
Map load(const std::string &path) {
    std::vector<std::pair<std::uint64_t, double>> pairs;
    std::ifstream file(path);
    for (std::pair<std::uint64_t, double> each; file >> each.first >> each.second;) pairs.push_back(each);
    return Map(4 * pairs.size() + 7, pairs.begin(), pairs.end());
}

int main(int, char **words) {
    const std::string path = words[0] + std::string(".saved");
    Map map(65'536);
    for (std::uint64_t key = 0; key < 20'000; key += 2) map.attach().insert(key, double(key) / 3);
    std::atomic<bool> is_over{false};
    std::thread changes([&] {
        auto worker = map.attach();
        for (std::uint64_t key = 1; !is_over; key = (key + 2) % 20'000)
            if (!worker.insert(key, 0)) worker.remove(key);
    });
    auto worker = map.attach();
    std::size_t lines = save(worker, path);
    is_over = true, changes.join();
    Map loaded = load(path);
    assert(loaded.size() == lines);
    auto again = loaded.attach();
    for (Map::Worker *each : {&worker, &again})
        each->erase_if([](const auto &entry) { return entry.key % 2 == 1; });
    bool is_equal = worker.equals(again.scan(0u, SIZE_MAX).entries);
    std::cout << again.count() << " entries stayed; equal: " << is_equal << ", " << *again.get(19'998u)
              << '\n';
    return std::remove(path.c_str());
}
