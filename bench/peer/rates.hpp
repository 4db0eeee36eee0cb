// What bench/peers and bench/maps share: rows of calls by several threads on a set or a map, and the
// threads of libcds. A type has a constructor of the number of keys and of threads, and a Worker for
// each thread with contains, add and remove.
#ifndef RATES_HPP
#define RATES_HPP

#include "nm_set.h"

#include <atomic>
#include <chrono>
#include <cstdint>
#include <cstdio>
#include <cstdlib>
#include <malloc.h>
#include <string>
#include <thread>
#include <vector>
#if __has_include(<cds/init.h>)
#include <cds/init.h>
#include <cds/urcu/general_buffered.h>
#define HAS_CDS 1
#endif

namespace rates {

using Key = std::uint64_t;

inline std::size_t nodes_for(std::size_t keys) { return 8 * keys + 4096; }

// A set or a map of the library for C, and the handle of a worker of it.
template <auto make, auto attach> struct Proved {
    Proved(std::size_t keys, unsigned threads) {
        if (make(&handle, static_cast<std::uint32_t>(nodes_for(keys)), threads) != NM_DONE)
            std::abort();
    }
    ~Proved() { nm_drop(&handle); }
    nm_handle handle = NM_CLOSED_HANDLE;

    struct alignas(64) Attached {
        Attached(Proved &of, unsigned) {
            if (attach(&of.handle, &handle) != NM_DONE) std::abort();
        }
        ~Attached() { nm_drop(&handle); }
        nm_handle handle = NM_CLOSED_HANDLE;
    };
};

#ifdef HAS_CDS
using Reclaimer = cds::urcu::gc<cds::urcu::general_buffered<>>;

struct CdsThread {
    CdsThread() { cds::threading::Manager::attachThread(); }
    ~CdsThread() { cds::threading::Manager::detachThread(); }
};
#endif

struct Row {
    std::size_t keys;
    unsigned lookups, threads, millis;
    unsigned churn = 0; // how many changes are made before for each key, half of them inserts
};

inline Key draw(Key &seed) {
    seed ^= seed << 13, seed ^= seed >> 7, seed ^= seed << 17;
    return seed;
}

// Keys are scattered over the numbers, so that no set gains by their being small.
inline Key scattered(Key index) { return index * 0x9E3779B97F4A7C15u >> 1; }

template <class Set> double rate(const Row &row) {
    Set set(row.keys, row.threads);
    std::atomic<unsigned> ready{0};
    std::atomic<bool> begins{false}, ends{false};
    std::vector<unsigned long> calls(row.threads * 16);
    std::vector<std::thread> threads;
    for (unsigned number = 0; number < row.threads; number++)
        threads.emplace_back([&, number] {
            typename Set::Worker worker(set, number);
            Key seed = 88172645463325252u + number * 1000003u;
            for (std::size_t i = number; i < row.keys; i += row.threads) {
                while (!worker.add(scattered(draw(seed) % (2 * row.keys)))) {}
            }
            for (std::size_t i = number; i < row.churn * row.keys; i += row.threads) {
                Key drawn = draw(seed), key = scattered(drawn % (2 * row.keys));
                if (drawn >> 63) worker.add(key);
                else worker.remove(key);
            }
            ready++;
            while (!begins) std::this_thread::yield();
            unsigned long made = 0;
            while (!ends.load(std::memory_order_relaxed)) {
                Key drawn = draw(seed), key = scattered(drawn % (2 * row.keys));
                unsigned kind = static_cast<unsigned>((drawn >> 40) % 200);
                if (kind < 2 * row.lookups) worker.contains(key);
                else if (kind & 1) worker.add(key);
                else worker.remove(key);
                made++;
            }
            calls[number * 16] = made;
        });
    while (ready != row.threads) std::this_thread::yield();
    auto begun = std::chrono::steady_clock::now();
    begins = true;
    std::this_thread::sleep_for(std::chrono::milliseconds(row.millis));
    ends = true;
    double micros =
        std::chrono::duration<double, std::micro>(std::chrono::steady_clock::now() - begun).count();
    unsigned long all = 0;
    for (auto &thread : threads) thread.join();
    for (unsigned long made : calls) all += made;
    return static_cast<double>(all) / micros;
}

// Answers a row in each line. Its last number, how much churn there is, may be left out.
template <class Set> int serve() {
    char line[128];
    for (Row row; std::fgets(line, sizeof line, stdin) != nullptr; row = Row()) {
        if (std::sscanf(line, "%zu %u %u %u %u", &row.keys, &row.lookups, &row.threads, &row.millis,
                        &row.churn) < 4)
            break;
        std::printf("%.4f\n", rate<Set>(row));
        std::fflush(stdout);
    }
    return 0;
}

#ifdef HAS_CDS
template <class Set> int serve_cds() {
    cds::Initialize();
    int status;
    {
        Reclaimer reclaimer;
        CdsThread main_thread;
        status = serve<Set>();
    }
    cds::Terminate();
    return status;
}
#endif

// Serves the rows of the type that the first word names. Each set or map is made as the first one of a
// program is: in blocks of its own, which begin a page. Without this, glibc takes large blocks from its
// heap once one was given back, and announcements that are to have cache lines of their own may then
// lie in two.
inline int program(int count, char **words, int (*named)(const std::string &)) {
    mallopt(M_MMAP_THRESHOLD, 128 * 1024);
    return count == 2 ? named(words[1]) : 2;
}

}  // namespace rates

#endif
