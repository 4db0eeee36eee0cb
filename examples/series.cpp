// Time series: threads append points to several series, a reader computes over ranges of time
// meanwhile, and old points are removed.
//
// A key is a series and a time. So the points of a series are one range of the map, ascending, and a
// part of them is a view that keeps its bounds.
#include <nm_keys.hpp>

#include <cassert>
#include <iostream>
#include <thread>

using Points = nm::MapOf<std::pair<nm::Bits<16>, nm::Bits<48>>, double>;

constexpr std::uint64_t length = 10'000;  // points of a series

// Appends the points of a series, one each second: its number and a part of a cycle of 60 seconds.
void append(Points &points, std::uint64_t series) {
    auto worker = points.attach();
    for (std::uint64_t time = 0; time < length; time++)
        worker.insert({series, time}, double(series) + double(time % 60) / 60);
}

// Returns the mean of the points of a series that are not before `from` and are before `to`.
double mean(const Points::Worker &worker, std::uint64_t series, std::uint64_t from, std::uint64_t to) {
    double sum = 0, count = 0;
    for (auto [key, value] : worker.range({series, from}, {series, to})) sum += value, count++;
    return count == 0 ? 0 : sum / count;
}

int main() {
    Points points(4 * 4 * length);
    std::vector<std::thread> threads;
    for (std::uint64_t series = 1; series <= 4; series++)
        threads.emplace_back([&, series] { append(points, series); });
    auto worker = points.attach();
    for (int pass = 0; pass < 100; pass++) {  // while the threads append
        double now = mean(worker, 2, 0, length);
        assert(now == 0 || (now >= 2 && now < 3));
    }
    for (std::thread &thread : threads) thread.join();

    auto third = worker.range({3, 0}, {4, 0});
    std::cout << third.count() << " points of series 3, the last at " << third.last()->key.second << '\n';
    std::cout << "the mean of a minute is " << mean(worker, 3, 600, 660) << '\n';
    auto before = third.range({3, 0}, {3, 1'000}).last();  // the point before a time
    std::cout << "before 1000: " << before->value << " at " << before->key.second << '\n';
    std::cout << "the last three, in descending order:";
    for (auto [key, value] : worker.range({3, length - 3}, {4, 0}).reversed())
        std::cout << ' ' << key.second;
    std::uint64_t removed = worker.erase({3, 0}, {3, length - 100});
    std::cout << "\nremoved " << removed << ", left " << third.count() << '\n';
}
