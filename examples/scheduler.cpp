// A scheduler: threads queue tasks for a time and cancel some of them, workers run those that are
// due, and a shutdown reports how many are left.
//
// A key is the microsecond at which a task is due, with the task's number in the low bits. So the
// least key is the task that is due next. The thread that removes a key owns its task, and runs or
// cancels it. A set keeps no values with its keys: the tasks are in a table, by their numbers. A worker
// with nothing to run sleeps until the next task is due, or an earlier one is queued.
#include <nm_set.hpp>

#include <atomic>
#include <functional>
#include <iostream>
#include <thread>

class Scheduler {
  public:
    using Task = std::function<void()>;

    explicit Scheduler(std::uint64_t tasks) : due_(4 * tasks), tasks_(tasks) {}

    // Queues a task. Returns its key, or nothing if all numbers are used.
    std::optional<std::uint64_t> run_in(std::chrono::microseconds wait, Task task) {
        std::uint64_t number = used_++;
        if (number >= tasks_.size()) return std::nullopt;
        tasks_[number] = std::move(task);  // the thread that removes the key below sees this
        std::uint64_t key = (now() + std::uint64_t(wait.count())) << number_bits | number;
        due_.insert(key);
        return key;
    }

    // Returns false if the task has begun or ended; otherwise it will not run.
    bool cancel(std::uint64_t key) { return due_.remove(key) && task_of(key) != nullptr; }

    // Runs tasks that are due, until the shutdown. Several threads may call this.
    void work() {
        try {
            for (;;) {
                if (auto key = due_.pop_first((now() + 1) << number_bits))
                    task_of(*key)();
                else
                    sleep_until_due();
            }
        } catch (const nm::Fault &fault) {
            if (fault.outcome() != NM_CLOSED) throw;
        }
    }

    // Ends the workers, also those that sleep. Returns how many tasks are left.
    std::uint64_t shut_down(std::vector<std::thread> &workers) {
        std::uint64_t left = due_.close().size();
        for (std::thread &worker : workers) worker.join();
        return left;
    }

  private:
    static constexpr int number_bits = 20;

    static std::uint64_t now() {
        auto time = std::chrono::steady_clock::now().time_since_epoch();
        return std::uint64_t(time / std::chrono::microseconds(1));
    }

    // Sleeps until the next task is due, or an earlier one is queued.
    void sleep_until_due() {
        auto next = due_.first();
        std::uint64_t due = next ? *next >> number_bits : now() + 3'600'000'000, at = now();
        auto most = std::chrono::milliseconds(due > at ? (due - at + 999) / 1'000 : 0);
        (void)due_.wait_first(next ? *next : UINT64_MAX, most);
    }

    // Takes the task of a key that this thread has removed.
    Task task_of(std::uint64_t key) {
        return std::exchange(tasks_[key % (std::uint64_t(1) << number_bits)], nullptr);
    }

    nm::Set due_;
    std::vector<Task> tasks_;
    std::atomic<std::uint64_t> used_{0};
};

int main() {
    Scheduler scheduler(10'000);
    std::atomic<std::uint64_t> queued{0}, ran{0}, cancelled{0};
    std::vector<std::thread> producers, workers;
    for (int i = 0; i < 2; i++) workers.emplace_back([&] { scheduler.work(); });
    for (unsigned each = 0; each < 3; each++)
        producers.emplace_back([&, each] {
            for (unsigned i = 0; i < 1'000; i++) {
                unsigned wait = i % 10 == 9 ? 3'600'000'000 : (i * 37 + each) % 20'000;
                auto key = scheduler.run_in(std::chrono::microseconds(wait), [&] { ran++; });
                queued += key.has_value();
                cancelled += key && i % 4 == 0 && scheduler.cancel(*key);
            }
        });
    for (std::thread &thread : producers) thread.join();
    std::this_thread::sleep_for(std::chrono::milliseconds(50));
    std::uint64_t left = scheduler.shut_down(workers);
    std::cout << queued << " tasks: " << ran << " ran, " << cancelled << " cancelled, " << left
              << " left\n";
    return queued == 3'000 && ran + cancelled + left == queued && left >= 300 ? 0 : 1;
}
