// A thread is lost inside a call, by a signal whose handler waits, while the set is full. Calls of
// other threads do not wait for it, or no longer than the options say, and their answers and texts
// are right.
#include "thrown.hpp"

#include <pthread.h>
#include <semaphore.h>

#include <atomic>
#include <chrono>
#include <csignal>
#include <cstdio>
#include <thread>

namespace {

using Clock = std::chrono::steady_clock;
using std::chrono::milliseconds;

constexpr std::uint64_t nodes = 900;
constexpr std::uint32_t timeout_ms = 50;
// How much later than its time a call may end on a busy machine.
constexpr milliseconds margin(400);

sem_t stopped, resumed;

// Waits inside of the handler, wherever the thread was.
extern "C" void stop(int) {
    sem_post(&stopped);
    while (sem_wait(&resumed) != 0) {}
}

template <typename Call>
milliseconds time_of(Call call) {
    Clock::time_point begun = Clock::now();
    call();
    return std::chrono::duration_cast<milliseconds>(Clock::now() - begun);
}

// Stops the thread of worker 0 while it holds the epoch back: so it is inside of a call.
void lose(std::thread &thread, nm::Worker &other) {
    for (;;) {
        CHECK(pthread_kill(thread.native_handle(), SIGUSR1) == 0);
        while (sem_wait(&stopped) != 0) {}
        nm::Advance first = other.advance(), second = other.advance();
        if (first.outcome == NM_BEHIND || second.outcome == NM_BEHIND) return;
        CHECK(sem_post(&resumed) == 0);
        std::this_thread::sleep_for(std::chrono::microseconds(100));
    }
}

// Each node that is not of a key waits, and none can be freed.
void fill(nm::Worker &worker) {
    std::uint64_t key = 100;
    while (worker.try_insert(key) == NM_YES && worker.try_remove(key) == NM_YES) key++;
    CHECK(key > 200);
}

void a_thread_is_lost() {
    nm::Options options;
    options.workers = 3;
    options.timeout_ms = timeout_ms;
    nm::Set set(nodes, options);
    nm::Worker lost = set.worker(0), worker = set.worker(1);
    std::atomic<bool> is_over{false};
    std::thread thread([&] {
        while (!is_over) (void)lost.try_contains(7u);
    });
    lose(thread, worker);
    CHECK(set.insert(7u));
    fill(worker);
    std::uint64_t queued = worker.queue_len(), free = nodes - 5 - 2 - queued;
    CHECK(free < 2 && queued > 0);

    Thrown told{NM_DONE, ""};
    for (bool by_set : {false, true}) {
        milliseconds taken = time_of([&] {
            told = fault_of([&] { by_set ? set.insert(9u) : worker.insert(9u); });
        });
        std::printf("an insert with a timeout of %u ms took %lld ms: %s\n", timeout_ms,
                    static_cast<long long>(taken.count()), told.text.c_str());
        CHECK(told.outcome == NM_FULL && taken >= milliseconds(timeout_ms) &&
              taken <= milliseconds(timeout_ms) + margin);
        CHECK(told.text == "the set is full: its 1 keys take 7 of its 900 nodes, and " +
                               std::to_string(queued) +
                               " wait to be freed; worker 0 is in their way, by a pin or in a call;"
                               " worker 0 is in a call, so what waits there is counted as last"
                               " seen");
    }
    CHECK(time_of([&] {
              CHECK(set.size() == 1 && set.waiting() == queued && set.free() == free &&
                    set.try_insert(9u) == NM_FULL && set.try_contains(7u) == NM_YES &&
                    set.contains(7u) && set.collect() == 0);
          }) <= margin);
    CHECK(time_of([&] {
              nm::Worker none;
              CHECK(set.try_worker(none, 0) == NM_ATTACHED && set.try_attach(none) == NM_DONE);
          }) <= margin);

    CHECK(sem_post(&resumed) == 0);
    is_over = true;
    thread.join();
    CHECK(worker.insert(9u) && set.size() == 2 && set.waiting() < queued);
    lost.close(), worker.close();
    CHECK(set.close().size() == 2);
}

// A thread that is lost in a call of the set keeps one worker. A close names it, and the set goes
// on.
void a_call_of_the_set_is_lost() {
    nm::Options options;
    options.workers = 2;
    nm::Set set(nodes, options);
    nm::Worker other = set.worker(1);
    std::atomic<bool> is_over{false};
    std::thread thread([&] {
        while (!is_over) (void)set.try_contains(7u);
    });
    lose(thread, other);
    nm::Worker none;
    CHECK(set.try_worker(none, 0) == NM_IN_USE && set.try_attach(none) == NM_NO_WORKER);
    other.close();
    CHECK(set.insert(5u) && set.size() == 1 && set.contains(5u));
    Thrown told{NM_DONE, ""};
    milliseconds taken = time_of([&] { told = fault_of([&] { set.close(); }); });
    std::printf("a close beside a lost call took %lld ms: %s\n",
                static_cast<long long>(taken.count()), told.text.c_str());
    CHECK(told.outcome == NM_IN_USE &&
          told.text == "worker 0 is in a call that has not ended in 10 seconds: close again" &&
          taken <= milliseconds(10'000) + 2 * margin);
    CHECK(set.is_open() && set.contains(5u));
    CHECK(sem_post(&resumed) == 0);
    is_over = true;
    thread.join();
    CHECK(set.close().size() == 1);
}

// The same if the thread is lost while it collects with a worker that no call of the pool has. The
// worker is used again after the close that failed.
void a_collection_is_lost() {
    nm_pool *pool = nullptr;
    nm_pool_options options = nm_pool_defaults;
    options.workers = 1;
    nm_handle report = NM_CLOSED_HANDLE;
    std::uint64_t missing = 0, keys = 0;
    CHECK(nm_pool_new(&pool, nodes, &options) == NM_DONE &&
          nm_pool_insert(pool, NM_ANY, 5, 0) == NM_YES);
    std::atomic<bool> is_over{false};
    std::thread thread([&] {
        std::uint64_t freed = 0;
        while (!is_over) nm_pool_collect(pool, &freed);
    });
    std::uint32_t turn = 0;
    do {
        if (turn != 0) CHECK(sem_post(&resumed) == 0);
        std::this_thread::sleep_for(std::chrono::microseconds(100 * ++turn));
        CHECK(pthread_kill(thread.native_handle(), SIGUSR1) == 0);
        while (sem_wait(&stopped) != 0) {}
    } while (nm_pool_insert(pool, NM_ANY, 5, 0) != NM_NO_WORKER);
    CHECK(time_of([&] {
              CHECK(nm_pool_insert(pool, NM_ANY, 5, timeout_ms) == NM_NO_WORKER &&
                    nm_pool_close(pool, timeout_ms, &report, &missing) == NM_IN_USE &&
                    missing == 1);
          }) <= milliseconds(2 * timeout_ms) + margin);
    CHECK(sem_post(&resumed) == 0);
    is_over = true;
    thread.join();
    CHECK(nm_pool_insert(pool, NM_ANY, 5, timeout_ms) == NM_NO &&
          nm_pool_size(pool, &keys) == NM_DONE && keys == 1);
    CHECK(nm_pool_close(pool, timeout_ms, &report, &missing) == NM_DONE);
    CHECK(nm_report_keys(&report, &keys) == NM_DONE && keys == 1 && nm_drop(&report) == NM_DONE);
    nm_pool_free(pool);
}

}  // namespace

int main() {
    struct sigaction action = {};
    action.sa_handler = stop;
    CHECK(sem_init(&stopped, 0, 0) == 0 && sem_init(&resumed, 0, 0) == 0 &&
          sigaction(SIGUSR1, &action, nullptr) == 0);
    a_thread_is_lost();
    a_call_of_the_set_is_lost();
    a_collection_is_lost();
}
