// Tests sets, maps and their workers in a forked child, and threads that are cancelled while they
// wait.
#include "canary.hpp"
#include "nm_map.hpp"
#include "thrown.hpp"

#include <pthread.h>
#include <sys/wait.h>
#include <unistd.h>

#include <atomic>
#include <chrono>
#include <cstdio>
#include <cstdlib>
#include <thread>
#include <vector>

namespace {

#ifdef __SANITIZE_ADDRESS__
constexpr std::uint64_t callers = 0;  // its allocator may be locked for ever in a forked child
#else
constexpr std::uint64_t callers = 3;
#endif

// Runs a function in a forked child; returns whether it returned true there.
template <typename Program>
bool holds_in_child(Program program) {
    pid_t child = fork();
    if (child == 0) _exit(program() ? 0 : 1);
    int status = 0;
    CHECK(waitpid(child, &status, 0) == child);
    return WIFEXITED(status) && WEXITSTATUS(status) == 0;
}

// In a forked child each call throws or returns NM_FORKED, and destructors do nothing, also beside
// threads that were in calls.
void children_are_refused() {
    nm::Set set(4096);
    nm::Worker worker = set.attach();
    std::atomic<bool> is_over{false};
    std::vector<std::thread> threads;
    for (std::uint64_t first = 0; first < callers; first++)
        threads.emplace_back([&, first] {
            while (!is_over) set.insert(first), set.remove(first);
        });
    for (int each = 0; each < 20; each++) {
        CHECK(holds_in_child([&] {
            nm::Worker none;
            bool is_refused =
                thrown([&] { set.insert(5u); }) == NM_FORKED && set.try_insert(5u) == NM_FORKED &&
                thrown([&] { (void)set.first(); }) == NM_FORKED &&
                thrown([&] { (void)set.size(); }) == NM_FORKED &&
                thrown([&] { set.collect(); }) == NM_FORKED &&
                thrown([&] { (void)set.attach(); }) == NM_FORKED &&
                set.try_attach(none) == NM_FORKED &&
                thrown([&] { worker.insert(5u); }) == NM_FORKED &&
                worker.try_contains(5u) == NM_FORKED &&
                thrown([&] { (void)worker.stats(); }) == NM_FORKED &&
                thrown([&] { (void)set.close(); }) == NM_FORKED && !set.is_open();
            nm::Worker moved(std::move(worker));
            nm::Set ended(std::move(set));
            nm::Set own(64, nm::keys, {7u});
            return is_refused && own.contains(7u);
        }));
    }
    is_over = true;
    for (std::thread &thread : threads) thread.join();
    CHECK(worker.insert(5u) && set.contains(5u));
    worker.close();
    CHECK(set.close().size() == 1);
}

// What a child has of a map: the map, two workers, and a guard of the first one.
struct Mapped {
    nm::Map<Canary> map{4096, 8};
    nm::Map<Canary>::Worker reader = map.attach(), worker = map.attach();
};

bool is_refused(Mapped &mapped, const nm::MapGuard<Canary> &guard) {
    auto object = std::make_unique<Canary>(7);
    auto calls = mapped.worker.under(guard);
    return thrown([&] { (void)guard.get(5u); }) == NM_FORKED &&
           thrown([&] { (void)guard.get_many({5}); }) == NM_FORKED &&
           thrown([&] { (void)calls.first(); }) == NM_FORKED &&
           thrown([&] { calls.pop_first(); }) == NM_FORKED &&
           thrown([&] { (void)calls.range(0u).begin(); }) == NM_FORKED &&
           thrown([&] { mapped.worker.insert(7u, std::move(object)); }) == NM_FORKED &&
           thrown([&] { mapped.worker.replace(5u, std::move(object)); }) == NM_FORKED &&
           thrown([&] { mapped.worker.remove(5u); }) == NM_FORKED &&
           thrown([&] { (void)mapped.worker.pin(); }) == NM_FORKED &&
           thrown([&] { mapped.worker.reclaim(); }) == NM_FORKED &&
           thrown([&] { (void)mapped.map.size(); }) == NM_FORKED &&
           fault_of([&] { (void)mapped.map.attach(); }).text ==
               "the map was made before this process was forked: only the parent can use it" &&
           object->is_of(7);
}

// In a forked child each call of a map throws NM_FORKED, and destructors end none of the parent's
// objects, also beside threads that were in calls. A map of the child's own is usable.
void children_end_no_objects() {
    {
        Mapped mapped;
        CHECK(mapped.worker.emplace(5u, 5u) && mapped.worker.emplace(6u, 6u));
        CHECK(mapped.worker.remove(6u));
        std::atomic<bool> is_over{false};
        std::vector<std::thread> threads;
        for (std::uint64_t first = 0; first < callers; first++)
            threads.emplace_back([&, first] {
                auto worker = mapped.map.attach();
                while (!is_over) worker.emplace(10 + first, 10 + first), worker.remove(10 + first);
            });
        for (int each = 0; each < 20; each++) {
            auto guard = mapped.reader.pin();
            CHECK(holds_in_child([&] {
                bool holds = is_refused(mapped, guard);
                std::uint64_t ended = Canary::destroyed;
                {
                    auto moved_guard = std::move(guard);
                    auto reader = std::move(mapped.reader), worker = std::move(mapped.worker);
                    auto map = std::move(mapped.map);
                }
                nm::Map<std::string> own(64, {{7u, "seven"}});
                return holds && Canary::destroyed == ended && own.size() == 1;
            }));
            CHECK(guard.get(5u)->is_of(5));
        }
        is_over = true;
        for (std::thread &thread : threads) thread.join();
        CHECK(mapped.worker.under(mapped.reader.pin()).take(5u)->is_of(5));
    }
    CHECK(Canary::alive() == 0);
}

#ifndef __SANITIZE_ADDRESS__  // the sanitizer does not know the stack of a cancelled thread
// Cancels a thread in the middle of a call that waits.
template <typename Call>
void cancel_in(Call call) {
    std::thread thread(call);
    std::this_thread::sleep_for(std::chrono::milliseconds(30));
    CHECK(pthread_cancel(thread.native_handle()) == 0);
    thread.join();
}

// A thread that is cancelled while it waits keeps no worker, and a worker of its own is returned.
void cancelled_threads_keep_nothing() {
    nm::Options options;
    options.workers = 2;
    options.timeout_ms = 10'000;
    nm::Set set(13, options);
    nm::Worker first = set.attach(), second = set.attach();
    nm::Pin pin = first.pin();
    cancel_in([&] { (void)set.attach(); });
    for (std::uint64_t key = 0; key < 4; key++) CHECK(second.insert(key) && second.remove(key));
    cancel_in([&] { set.insert(7u); });
    second.close();
    cancel_in([&] {
        nm::Worker own = set.worker(1);
        own.insert(8u);
    });
    pin.unpin();
    second = set.worker(1);
    CHECK(second.insert(9u) && set.size() == 1);
    first.close(), second.close();
    CHECK(set.close().size() == 1);
}
#else
void cancelled_threads_keep_nothing() {}
#endif

}  // namespace

int main() {
    children_are_refused();
    children_end_no_objects();
    cancelled_threads_keep_nothing();
    std::puts("a child is refused, and a cancelled thread keeps nothing");
}
