// Jobs with priorities: a program submits them and waits for their answers, and four threads run the most
// urgent first.
//
// A key is a priority and a number. Its object is the job: the thread that pops it owns it, and moves it out.
#include <nm_keys.hpp>

#include <atomic>
#include <cassert>
#include <future>
#include <iostream>
#include <thread>

using Job = std::packaged_task<std::uint64_t()>;

class Jobs {
  public:
    // Submits a job; returns its answer.
    std::future<std::uint64_t> submit(nm::Bits<8> priority, Job job) {
        auto answer = job.get_future();
        jobs_.attach().emplace({priority, number_++}, std::move(job));
        return answer;
    }

    // Makes that many threads return, after the jobs of lower priorities.
    void stop(int threads) {
        for (int each = 0; each < threads; each++) jobs_.attach().emplace({255, number_++});
    }

    // Runs jobs, until it is stopped.
    void work() {
        for (;;) {
            auto reader = jobs_.attach(), worker = jobs_.attach();
            if (!worker.wait_first(std::chrono::minutes(1))) continue;
            auto guard = reader.pin();
            auto first = worker.under(guard).pop_first();
            if (!first) continue;  // another thread has taken the job
            Job job = std::move(*first->value);
            guard.unpin();
            if (!job.valid()) return;
            job();
        }
    }

  private:
    nm::MapOf<std::pair<nm::Bits<8>, nm::Bits<56>>, Job> jobs_{8'192};
    std::atomic<std::uint64_t> number_{0};
};

int main() {
    Jobs jobs;
    std::vector<std::thread> threads;
    for (int each = 0; each < 4; each++) threads.emplace_back([&] { jobs.work(); });
    std::vector<std::future<std::uint64_t>> answers;
    for (std::uint64_t number = 0; number < 1'000; number++)
        answers.push_back(jobs.submit(number % 3, Job([=] { return number * number; })));
    for (std::uint64_t number = 0; number < 1'000; number++) assert(answers[number].get() == number * number);
    std::cout << "1,000 jobs ran\n";
    jobs.stop(4);
    for (std::thread &thread : threads) thread.join();
}
