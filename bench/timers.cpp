// For bench/timers: a timer service over the set, and the same over std::map with a mutex and a
// condition variable. Four threads queue tasks for the next moments, cancel some and move others;
// two threads run what is due. The first argument names the service, the others are: how many tasks
// each thread queues, and within how many milliseconds they are due. It prints the microseconds of
// processor time that a task took, and fails if a task ran early, twice or never.
#include <nm_set.hpp>

#include <sys/resource.h>

#include <algorithm>
#include <atomic>
#include <chrono>
#include <condition_variable>
#include <cstdint>
#include <cstdio>
#include <cstdlib>
#include <cstring>
#include <functional>
#include <map>
#include <mutex>
#include <optional>
#include <random>
#include <thread>
#include <utility>
#include <vector>

namespace {

using Clock = std::chrono::steady_clock;
using Time = Clock::time_point;
using Task = std::function<void()>;
using std::chrono::microseconds;

constexpr unsigned producers = 4, consumers = 2;

// Tasks in a table; the numbers of its free rows are a stack, whose head counts its changes.
class Table {
public:
    explicit Table(std::uint32_t rows) : rows_(rows) {
        for (std::uint32_t number = 0; number < rows; number++) rows_[number].next = number + 1;
    }

    std::optional<std::uint32_t> put(Task task) {
        std::uint64_t head = free_, next;
        do {
            if (std::uint32_t(head) == rows_.size()) return std::nullopt;
            next = ((head >> 32) + 1) << 32 | rows_[std::uint32_t(head)].next;
        } while (!free_.compare_exchange_weak(head, next));
        rows_[std::uint32_t(head)].task = std::move(task);
        return std::uint32_t(head);
    }

    Task take(std::uint32_t number) {
        Task task = std::exchange(rows_[number].task, nullptr);
        std::uint64_t head = free_, next;
        do {
            rows_[number].next = std::uint32_t(head);
            next = ((head >> 32) + 1) << 32 | number;
        } while (!free_.compare_exchange_weak(head, next));
        return task;
    }

private:
    struct Row {
        Task task;
        std::atomic<std::uint32_t> next{0};
    };
    std::vector<Row> rows_;
    std::atomic<std::uint64_t> free_{0};
};

// A key is the microsecond at which a task is due, with the task's row in the low bits.
class OverSet {
public:
    using Key = std::uint64_t;

    explicit OverSet(std::uint32_t tasks) : due_(4 * std::uint64_t(tasks)), tasks_(tasks) {}

    std::optional<Key> queue(Time when, Task task) {
        auto row = tasks_.put(std::move(task));
        if (!row) return std::nullopt;
        Key key = key_at(when) | *row;
        due_.insert(key);
        return key;
    }

    bool cancel(Key key) { return due_.remove(key) && tasks_.take(key & most_row) != nullptr; }

    std::optional<Key> move(Key key, Time when) {
        if (!due_.remove(key)) return std::nullopt;
        Key moved = key_at(when) | (key & most_row);
        due_.insert(moved);
        return moved;
    }

    void run() {
        nm::Worker worker = due_.attach();
        while (!is_closing_) {
            if (auto key = worker.pop_first(key_at(Clock::now()) + most_row + 1))
                tasks_.take(*key & most_row)();
            else
                std::this_thread::sleep_for(microseconds(100));
        }
    }

    void close() { is_closing_ = true; }
    std::uint64_t size() const { return due_.size(); }

private:
    static constexpr Key most_row = (1u << 22) - 1;
    // A task is due when its microsecond has passed.
    Key key_at(Time when) const {
        return Key(std::max<std::int64_t>((when - begun_) / microseconds(1), 0)) << 22;
    }

    nm::Set due_;
    Table tasks_;
    const Time begun_ = Clock::now();
    std::atomic<bool> is_closing_{false};
};

class OverMap {
public:
    using Key = std::pair<Time, std::uint64_t>;

    explicit OverMap(std::uint32_t tasks) : most_(tasks) {}

    std::optional<Key> queue(Time when, Task task) {
        std::lock_guard lock(mutex_);
        if (tasks_.size() == most_) return std::nullopt;
        auto at = tasks_.emplace(Key{when, used_++}, std::move(task)).first;
        Key key = at->first;
        if (at == tasks_.begin()) changed_.notify_one();
        return key;
    }

    bool cancel(Key key) {
        std::lock_guard lock(mutex_);
        return tasks_.erase(key) != 0;
    }

    std::optional<Key> move(Key key, Time when) {
        std::lock_guard lock(mutex_);
        auto node = tasks_.extract(key);
        if (!node) return std::nullopt;
        key = node.key() = {when, key.second};
        auto at = tasks_.insert(std::move(node)).position;
        if (at == tasks_.begin()) changed_.notify_one();
        return key;
    }

    void run() {
        std::unique_lock lock(mutex_);
        while (!is_closing_) {
            if (tasks_.empty()) {
                changed_.wait(lock);
            } else if (Time when = tasks_.begin()->first.first; when > Clock::now()) {
                changed_.wait_until(lock, when);
            } else {
                Task task = std::move(tasks_.extract(tasks_.begin()).mapped());
                lock.unlock();
                task();
                lock.lock();
            }
        }
    }

    void close() {
        std::lock_guard lock(mutex_);
        is_closing_ = true;
        changed_.notify_all();
    }

    std::uint64_t size() const {
        std::lock_guard lock(mutex_);
        return tasks_.size();
    }

private:
    const std::uint64_t most_;
    mutable std::mutex mutex_;
    std::condition_variable changed_;
    std::map<Key, Task> tasks_;
    std::uint64_t used_ = 0;
    bool is_closing_ = false;
};

// What became of all tasks.
struct Counts {
    std::atomic<std::uint64_t> queued{0}, ran{0}, early{0}, cancelled{0};
};

template <class Service>
void produce(Service &service, Counts &counts, unsigned number, unsigned each, unsigned millis) {
    struct Queued {
        typename Service::Key key;
        Time when;
    };
    std::mt19937_64 random(number);
    std::vector<Queued> tasks;
    for (unsigned turn = 0; turn < each; turn++) {
        Time when = Clock::now() + microseconds(1000 + random() % (1000 * millis));
        auto key = service.queue(when, [&counts, when] {
            counts.early += Clock::now() < when - microseconds(1);
            counts.ran++;
        });
        if (!key) {
            std::this_thread::sleep_for(std::chrono::milliseconds(1));
            continue;
        }
        counts.queued++;
        tasks.push_back({*key, when});
        if (turn % 4 == 1) counts.cancelled += service.cancel(tasks[random() % tasks.size()].key);
        if (turn % 4 != 3) continue;
        Queued &last = tasks[tasks.size() - 1 - random() % std::min<std::size_t>(tasks.size(), 16)];
        Time later = last.when + std::chrono::milliseconds(3);
        if (auto moved = service.move(last.key, later)) last = {*moved, later};
    }
}

double processor_seconds() {
    rusage used;
    getrusage(RUSAGE_SELF, &used);
    auto seconds = [](const timeval &time) { return double(time.tv_sec) + 1e-6 * double(time.tv_usec); };
    return seconds(used.ru_utime) + seconds(used.ru_stime);
}

template <class Service> int measure(unsigned each, unsigned millis) {
    Service service(200'000);
    Counts counts;
    double begun = processor_seconds();
    std::vector<std::thread> threads, runners;
    for (unsigned i = 0; i < consumers; i++) runners.emplace_back([&] { service.run(); });
    for (unsigned i = 0; i < producers; i++)
        threads.emplace_back([&, i] { produce(service, counts, i, each, millis); });
    for (std::thread &thread : threads) thread.join();
    service.close();
    for (std::thread &thread : runners) thread.join();
    double used = processor_seconds() - begun;
    if (counts.early != 0 || counts.queued != counts.ran + counts.cancelled + service.size()) {
        std::fprintf(stderr, "timers: a task ran early, twice or never\n");
        return 1;
    }
    std::printf("%.2f\n", used * 1e6 / double(counts.queued));
    return 0;
}

}  // namespace

int main(int argc, char **argv) {
    if (argc != 4) return 2;
    unsigned each = unsigned(std::atoi(argv[2])), millis = unsigned(std::atoi(argv[3]));
    return std::strcmp(argv[1], "set") == 0 ? measure<OverSet>(each, millis)
                                            : measure<OverMap>(each, millis);
}
