// nm::Set with the interface of libcds' stress tests of sets. These give keys and values, and none
// of them reads the values. Each test is made in two ways: by the calls of the set, which any
// thread may make, and by a worker that each thread attaches.
#ifndef CDS_STRESS_HPP
#define CDS_STRESS_HPP

#include "nm_set.hpp"

#include "set_type.h"

#include <atomic>
#include <cstddef>
#include <cstdint>
#include <iterator>
#include <string>
#include <type_traits>
#include <utility>

namespace of_nm {

struct BySet {
    using Calls = nm::Set;

    Calls &calls() { return set; }

    nm::Set &set;
};

struct ByWorkers {
    using Calls = nm::Worker;

    // The worker of this thread, which goes home with it, or where the thread calls another set.
    Calls &calls() {
        thread_local std::uint64_t of = 0;
        thread_local nm::Worker worker;
        if (of != number) worker = set.attach();
        of = number;
        return worker;
    }

    nm::Set &set;
    static inline std::atomic<std::uint64_t> sets{0};
    const std::uint64_t number = ++sets;
};

// The number of a key of theirs, in their order: it is one, or has a number and that of a thread.
template <class Key> std::uint64_t number_of(const Key &key) {
    if constexpr (std::is_integral_v<Key>)
        return key;
    else
        return std::uint64_t{key.nKey} << 16 | key.nThread;
}

template <class Key> Key key_of(std::uint64_t number) {
    if constexpr (std::is_integral_v<Key>)
        return number;
    else
        return Key(number >> 16, number & UINT16_MAX);
}

// Whether an extract has removed its key.
class Extracted {
public:
    explicit Extracted(bool is_there = false) : is_there_(is_there) {}
    explicit operator bool() const { return is_there_; }
    void release() { is_there_ = false; }

private:
    bool is_there_;
};

template <class Key, class Way, bool extracts> class StressSet {
    using Item = typename set::set_type_base<Key, std::size_t>::key_val;

public:
    using value_type = Item;
    using gc = void;
    using guarded_ptr = Extracted;
    static constexpr bool c_bExtractSupported = extracts;

    // Twenty nodes for each key of a thread: four threads insert it at most, each by two.
    template <class Fixture>
    explicit StressSet(const Fixture &) : set_(20 * Fixture::s_nSetSize + 65'536), way_{set_} {}

    bool insert(const Key &key) { return way_.calls().insert(number_of(key)); }
    bool insert(const Item &item) { return insert(item.key); }
    bool erase(const Key &key) { return way_.calls().remove(number_of(key)); }
    bool contains(const Key &key) { return way_.calls().contains(number_of(key)); }
    Extracted extract(const Key &key) { return Extracted(erase(key)); }

    template <class Call> std::pair<bool, bool> update(const Key &key, Call call) {
        bool is_new = insert(key);
        Item item(key);
        call(is_new, item, key);
        return {true, is_new};
    }

    // Each test ends by this. How many keys there are is left with its counts, for the script to
    // see whether they add up.
    void clear() {
        auto keys = std::distance(way_.calls().begin(), way_.calls().end());
        testing::Test::RecordProperty("keys_left_count", std::to_string(keys));
        way_.calls().clear();
    }

    bool empty() { return way_.calls().empty(); }
    std::size_t size() const { return set_.size(); }
    set::empty_stat statistics() const { return {}; }

    // ---- going over the keys ----

    class iterator {
    public:
        explicit iterator(nm::Iterator<typename Way::Calls> at) : at_(at) {}

        iterator &operator++() {
            ++at_;
            return *this;
        }

        bool operator!=(const iterator &other) const { return at_ != other.at_; }

        const Item *operator->() {
            item_ = Item(key_of<Key>(*at_));
            return &item_;
        }

        Key key() const { return key_of<Key>(*at_); }

    private:
        nm::Iterator<typename Way::Calls> at_;
        Item item_{Key{}};
    };

    template <class> iterator get_begin() { return iterator(way_.calls().begin()); }
    template <class> iterator get_end() { return iterator(way_.calls().end()); }
    bool erase_at(const iterator &at) { return erase(at.key()); }

private:
    nm::Set set_;
    Way way_;
};

}  // namespace of_nm

#endif
