// bench/soak: a server for a while, and how much memory it has.
#include "nm_set.hpp"

#include <atomic>
#include <chrono>
#include <cstdio>
#include <cstdlib>
#include <fstream>
#include <random>
#include <string>
#include <thread>
#include <vector>

namespace {

using Clock = std::chrono::steady_clock;

constexpr unsigned threads_at_once = 96, keys = 2'500, requests = 400, lines = 12;

std::atomic<std::uint64_t> calls{0}, served{0};

// A thread that comes, makes its requests, most of them of a few calls and a short wait, and goes.
void serve(nm::Set &set, unsigned seed) {
    std::minstd_rand random(seed);
    for (unsigned request = 0; request < requests; request++) {
        for (unsigned call = 0; call < 16; call++) {
            std::uint64_t key = random() % (2 * keys);
            unsigned kind = random() % 4;
            if (kind < 2) (void)set.contains(key);
            else if (kind == 2) set.insert(key);
            else set.remove(key);
        }
        calls += 16;
        std::this_thread::sleep_for(std::chrono::milliseconds(2));
    }
    served++;
}

// The resident memory of this process, in megabytes.
double resident() {
    std::ifstream status("/proc/self/status");
    for (std::string word; status >> word;) {
        if (word != "VmRSS:") continue;
        double kilobytes = 0;
        status >> kilobytes;
        return kilobytes / 1024;
    }
    return 0;
}

// Keeps so many threads at work until then.
void serve_until(nm::Set &set, Clock::time_point end) {
    std::vector<std::thread> running;
    unsigned seed = 1;
    for (unsigned number = 0; number < threads_at_once; number++)
        running.emplace_back(serve, std::ref(set), seed++);
    for (std::size_t next = 0; Clock::now() < end; next = (next + 1) % running.size()) {
        running[next].join();
        running[next] = std::thread(serve, std::ref(set), seed++);
    }
    for (std::thread &thread : running) thread.join();
}

}  // namespace

int main(int, char **words) {
    unsigned seconds = static_cast<unsigned>(std::strtoul(words[1], nullptr, 10));
    nm::Set set(1 << 20);
    Clock::time_point begin = Clock::now(), end = begin + std::chrono::seconds(seconds);
    std::thread server(serve_until, std::ref(set), end);
    std::puts("| Seconds | Megabytes | Threads served | Calls |\n|---|---|---|---|");
    double first = 0, last = 0;
    for (unsigned line = 1; line <= lines; line++) {
        std::this_thread::sleep_until(begin + std::chrono::seconds(seconds) * line / lines);
        last = resident();
        if (line == lines / 4) first = last;
        std::printf("| %u | %.1f | %llu | %llu |\n", seconds * line / lines, last,
                    static_cast<unsigned long long>(served), static_cast<unsigned long long>(calls));
        std::fflush(stdout);
    }
    server.join();
    if (last > 1.05 * first) {
        std::fprintf(stderr, "bench/soak: memory grew from %.1f to %.1f megabytes\n", first, last);
        return 1;
    }
}
