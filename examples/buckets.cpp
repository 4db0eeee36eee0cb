// A rate limiter with a bucket for each client: 20 requests at once, then one more every 50 milliseconds.
//
// The value of a client is the time at which its bucket is full again. A request moves it, if no other
// request has moved it meanwhile. A sweep removes full buckets, unless a request has moved their time.
#include <nm_map.hpp>

#include <algorithm>
#include <atomic>
#include <iostream>
#include <thread>

class Limiter {
  public:
    explicit Limiter(std::uint64_t clients) : full_at_(4 * clients) {}

    // Returns whether a client may make a request now; then the request counts.
    bool allows(std::uint64_t client, std::uint64_t now) {
        auto worker = full_at_.attach();
        for (auto old = worker.get(client);;) {
            std::uint64_t full_at = std::max(old.value_or(0), now);
            if (full_at - now > (20 - 1) * gap) return false;
            if (worker.compare_exchange(client, old, full_at + gap)) return true;
        }
    }

    // Makes requests of a client; returns how many are allowed.
    int ask(std::uint64_t client, std::uint64_t now, int requests) {
        int allowed = 0;
        for (int each = 0; each < requests; each++) allowed += allows(client, now);
        return allowed;
    }

    // Removes the clients whose buckets are full; returns how many.
    int sweep(std::uint64_t now) {
        auto worker = full_at_.attach();
        int removed = 0;
        for (auto [client, full_at] : worker) {
            std::optional<std::uint64_t> seen = full_at;
            if (full_at <= now) removed += worker.compare_remove(client, seen);
        }
        return removed;
    }

  private:
    static constexpr std::uint64_t gap = 50;  // milliseconds
    nm::Map<std::uint64_t> full_at_;
};

int main() {
    Limiter limiter(1'000);
    std::cout << "at 0 ms: " << limiter.ask(7, 0, 30) << " of 30\n";
    std::cout << "at 250 ms: " << limiter.ask(7, 250, 30) << " of 30\n";
    std::atomic<int> allowed{0};
    std::vector<std::thread> threads;
    for (int each = 0; each < 4; each++)
        threads.emplace_back([&] { allowed += limiter.ask(8, 250, 30); });
    for (std::thread &thread : threads) thread.join();
    std::cout << "four threads: " << allowed << " of 120\n";
    std::cout << "removed at 1250 ms: " << limiter.sweep(1'250) << ", later: " << limiter.sweep(2'000) << '\n';
}
