// Sets of 64-bit integers for bench/orders and bench/scan, each with an access for one thread: the
// proved set through the library for C, the same radix tree in plain C++, sets with a mutex, and the
// skip list of libcds.
#ifndef SETS_HPP
#define SETS_HPP

#include "nm_set.h"
#include "plain.hpp"

#include <algorithm>
#include <chrono>
#include <cstdint>
#include <cstdlib>
#include <deque>
#include <mutex>
#include <optional>
#include <set>
#include <thread>
#include <vector>

#if __has_include(<absl/container/btree_set.h>)
#define HAS_ABSL 1
#include <absl/container/btree_set.h>
#endif

#if __has_include(<cds/init.h>)
#define HAS_CDS 1
#include <cds/init.h>
#include <cds/urcu/general_buffered.h>
// After its reclamation.
#include <cds/container/skip_list_set_rcu.h>
#endif

namespace sets {

using Key = std::uint64_t;

// ---- sets, each with a handle for one thread

class Proved {
public:
    Proved(std::size_t keys, std::size_t threads) : workers_(threads) {
        auto nodes = static_cast<std::uint32_t>(4 * keys + 16384 * threads);
        if (nm_set_new(&set_, nodes, static_cast<std::uint32_t>(threads)) != NM_DONE) std::abort();
        for (std::size_t number = 0; number < threads; number++)
            if (nm_set_worker(&set_, &workers_[number].handle, static_cast<std::uint32_t>(number)) !=
                NM_DONE)
                std::abort();
    }
    ~Proved() {
        for (auto &worker : workers_) nm_drop(&worker.handle);
        nm_drop(&set_);
    }
    class Access {
    public:
        Access(Proved &set, std::size_t number) : worker_(&set.workers_[number].handle) {}
        bool contains(Key key) { return is_yes(nm_worker_contains(worker_, key, &nm_default_options)); }
        bool add(Key key) {
            for (;;) {
                auto told = nm_worker_insert(worker_, key, &nm_default_options);
                if (told == NM_YES || told == NM_NO) return told == NM_YES;
                std::this_thread::sleep_for(std::chrono::milliseconds(1));
            }
        }
        bool remove(Key key) { return is_yes(nm_worker_remove(worker_, key, &nm_default_options)); }
        std::optional<Key> pop_first() {
            Key taken;
            if (is_yes(nm_worker_pop_first(worker_, &nm_default_options, &taken))) return taken;
            return std::nullopt;
        }
        // Reads at most `room` keys from `from` on, ascending; returns how many. A call of the library
        // reads at most 1,024.
        std::size_t scan(Key from, Key *keys, std::size_t room) {
            std::size_t total = 0;
            nm_outcome told = NM_YES;
            while (total < room && told == NM_YES) {
                std::uint64_t some = 0;
                told = nm_worker_scan(worker_, from, UINT64_MAX, keys + total, room - total, &some,
                                      &from, 64);
                if (told < 0) std::abort();
                total += some;
            }
            return total;
        }

    private:
        static bool is_yes(nm_outcome told) {
            if (told != NM_YES && told != NM_NO) std::abort();
            return told == NM_YES;
        }
        nm_handle *worker_;
    };

private:
    struct alignas(64) Worker {
        nm_handle handle = NM_CLOSED_HANDLE;
    };
    nm_handle set_ = NM_CLOSED_HANDLE;
    std::vector<Worker> workers_;
};

// The same radix tree in plain C++, behind handles.
class Plain {
public:
    Plain(std::size_t keys, std::size_t threads)
        : set_(4 * keys + 16384 * threads, static_cast<unsigned>(threads)) {
        for (unsigned number = 0; number < threads; number++) workers_.emplace_back(set_, number);
    }
    class Access {
    public:
        Access(Plain &set, std::size_t number) : handle_(set.workers_[number].handle) {}
        bool contains(Key key) { return handle_.contains(key); }
        // Each row adds keys that are not there, so false tells that no slots were free.
        bool add(Key key) {
            while (!handle_.add(key)) std::this_thread::sleep_for(std::chrono::milliseconds(1));
            return true;
        }
        bool remove(Key key) { return handle_.remove(key); }
        std::optional<Key> pop_first() {
            Key taken = handle_.pop_first();
            if (taken == plain::infinity_0) return std::nullopt;
            return taken;
        }
        std::size_t scan(Key from, Key *keys, std::size_t room) {
            return handle_.scan(from, keys, room);
        }

    private:
        plain::Handle &handle_;
    };

private:
    struct alignas(64) Worker {
        Worker(plain::Set &set, unsigned number) : handle(set, number) {}
        plain::Handle handle;
    };
    plain::Set set_;
    std::deque<Worker> workers_;
};

// An ordered set with a mutex. A scan holds the mutex.
template <class Ordered> class Locked {
public:
    Locked(std::size_t, std::size_t) {}
    class Access {
    public:
        Access(Locked &set, std::size_t) : set_(set) {}
        bool contains(Key key) {
            std::lock_guard<std::mutex> lock(set_.mutex_);
            return set_.keys_.count(key) != 0;
        }
        bool add(Key key) {
            std::lock_guard<std::mutex> lock(set_.mutex_);
            return set_.keys_.insert(key).second;
        }
        bool remove(Key key) {
            std::lock_guard<std::mutex> lock(set_.mutex_);
            return set_.keys_.erase(key) != 0;
        }
        std::optional<Key> pop_first() {
            std::lock_guard<std::mutex> lock(set_.mutex_);
            if (set_.keys_.empty()) return std::nullopt;
            Key least = *set_.keys_.begin();
            set_.keys_.erase(set_.keys_.begin());
            return least;
        }
        std::size_t scan(Key from, Key *keys, std::size_t room) {
            std::lock_guard<std::mutex> lock(set_.mutex_);
            std::size_t count = 0;
            auto at = set_.keys_.lower_bound(from);
            for (; count < room && at != set_.keys_.end(); ++at) keys[count++] = *at;
            return count;
        }

    private:
        Locked &set_;
    };

private:
    std::mutex mutex_;
    Ordered keys_;
};

#ifdef HAS_CDS
using Rcu = cds::urcu::gc<cds::urcu::general_buffered<>>;

// A thread that libcds knows, as often as it says so.
struct Attached {
    Attached() { cds::threading::Manager::attachThread(); }
    ~Attached() { cds::threading::Manager::detachThread(); }
};

class Skip {
public:
    Skip(std::size_t, std::size_t) {}
    class Access {
    public:
        Access(Skip &set, std::size_t) : set_(set.keys_) {}
        bool contains(Key key) { return set_.contains(key); }
        bool add(Key key) { return set_.insert(key); }
        bool remove(Key key) { return set_.erase(key); }
        std::optional<Key> pop_first() {
            while (auto found = least())
                if (set_.erase(*found)) return found;
            return std::nullopt;
        }

    private:
        std::optional<Key> least() {
            typename Keys::rcu_lock lock;
            auto first = set_.begin();
            if (first == set_.end()) return std::nullopt;
            return *first;
        }
        Attached attached_;
        typename cds::container::SkipListSet<Rcu, Key> &set_;
    };

private:
    using Keys = cds::container::SkipListSet<Rcu, Key>;
    Keys keys_;
};
#endif

}  // namespace sets

#endif
