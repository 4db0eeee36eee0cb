// Timers: threads set tasks for a time and cancel some of them, and workers run those that are due.
// A task is a value of a map, so no table of tasks is needed.
//
// A key is the microsecond at which a task is due, with a number in the low bits that makes it
// unique. So the least key is the task that is due next. The thread that removes a key owns its
// task, and runs or cancels it. A worker with nothing to run sleeps until the next task is due, or an
// earlier one is set.
#include <nm_map.hpp>

#include <atomic>
#include <functional>
#include <iostream>
#include <thread>

class Timers {
  public:
    using Task = std::function<void()>;
    using Worker = nm::Map<Task>::Worker;

    explicit Timers(std::uint64_t tasks) : due_(4 * tasks) {}

    Worker attach() { return due_.attach(); }

    // Sets a task by the worker of this thread. Returns its key.
    std::uint64_t set(Worker &worker, std::chrono::microseconds wait, Task task) {
        std::uint64_t number = used_++ % (std::uint64_t(1) << number_bits);
        std::uint64_t key = (now() + std::uint64_t(wait.count())) << number_bits | number;
        worker.emplace(key, std::move(task));
        return key;
    }

    // Returns false if the task has begun or ended; otherwise it will not run.
    static bool cancel(Worker &worker, std::uint64_t key) { return worker.remove(key); }

    // Runs tasks that are due, until the shutdown. Several threads may call this.
    void work() {
        Worker reader = due_.attach(), worker = due_.attach();
        while (!is_closing_) {
            if (Task task = next(reader, worker))
                task();
            else
                sleep_until_due(worker);
        }
    }

    // Ends the workers, also those that sleep. Returns how many tasks are left, which the map frees.
    std::uint64_t shut_down(std::vector<std::thread> &workers) {
        std::uint64_t left = due_.size();
        is_closing_ = true;
        auto closer = due_.attach();  // a least key for each worker wakes all of them
        for (std::size_t key = 0; key < workers.size(); key++) closer.emplace(key, nullptr);
        for (std::thread &worker : workers) worker.join();
        return left;
    }

  private:
    static constexpr int number_bits = 20;

    static std::uint64_t now() {
        auto time = std::chrono::steady_clock::now().time_since_epoch();
        return std::uint64_t(time / std::chrono::microseconds(1));
    }

    // Takes the next task that is due, or nothing. No other thread gets it, so it may be moved. The
    // guard keeps it until then, and ends before the task runs.
    static Task next(Worker &reader, Worker &worker) {
        auto guard = reader.pin();
        auto popped = worker.under(guard).pop_first((now() + 1) << number_bits);
        return popped ? std::move(*popped->value) : nullptr;
    }

    // Sleeps until the next task is due, or an earlier one is set.
    static void sleep_until_due(Worker &worker) {
        auto next = worker.first();
        std::uint64_t due = next ? *next >> number_bits : now() + 3'600'000'000, at = now();
        auto most = std::chrono::milliseconds(due > at ? (due - at + 999) / 1'000 : 0);
        (void)worker.wait_first(next ? *next : UINT64_MAX, most);
    }

    nm::Map<Task> due_;
    std::atomic<std::uint64_t> used_{0};
    std::atomic<bool> is_closing_{false};
};

int main() {
    Timers timers(10'000);
    std::atomic<std::uint64_t> ran{0}, cancelled{0};
    std::vector<std::thread> producers, workers;
    for (int i = 0; i < 2; i++) workers.emplace_back([&] { timers.work(); });
    for (unsigned each = 0; each < 3; each++)
        producers.emplace_back([&, each] {
            Timers::Worker worker = timers.attach();
            for (unsigned i = 0; i < 1'000; i++) {
                unsigned wait = i % 10 == 9 ? 3'600'000'000 : (i * 37 + each) % 20'000;
                std::uint64_t key =
                    timers.set(worker, std::chrono::microseconds(wait), [&] { ran++; });
                cancelled += i % 4 == 0 && Timers::cancel(worker, key);
            }
        });
    for (std::thread &thread : producers) thread.join();
    std::this_thread::sleep_for(std::chrono::milliseconds(50));
    std::uint64_t left = timers.shut_down(workers);
    std::cout << ran << " tasks ran, " << cancelled << " were cancelled, " << left << " are left\n";
    return ran + cancelled + left == 3'000 && left >= 300 ? 0 : 1;
}
