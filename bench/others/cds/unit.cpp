// libcds' unit tests of sets on nm::Set, one thread each: those of its trees, and with -DHASHED
// those of its other sets, whose classes have the same names. The tests read values. A set of
// numbers has none, so the values are in a map beside the set. Each answer is that of the set: no
// test asks the map whether a key is present.
#include "nm_set.hpp"

#include <cds/algo/atomic.h>

#include <cstring>
#include <map>
#include <memory>
#include <optional>
#include <string>
#include <utility>
#include <vector>

#ifdef HASHED
#include "test_ordered_set_hp.h"
#include "test_set_rcu.h"
using AnySet = cds_test::container_set;
#else
#include "test_tree_set_hp.h"
#include "test_tree_set_rcu.h"
using AnySet = cds_test::container_tree_set;
#endif

namespace {

using Item = AnySet::int_item;

int key_of(int key) { return key; }
template <class Other> int key_of(const Other &other) { return other.key(); }

// An item that was told or taken out, or none.
class Guarded {
public:
    Guarded() = default;
    explicit Guarded(std::shared_ptr<Item> item) : item_(std::move(item)) {}
    explicit operator bool() const { return item_ != nullptr; }
    bool operator!() const { return item_ == nullptr; }
    Item *operator->() const { return item_.get(); }
    void release() { item_.reset(); }

private:
    std::shared_ptr<Item> item_;
};

class UnitSet {
    using Items = std::map<int, std::shared_ptr<Item>>;

public:
    using value_type = Item;
    using item_counter = cds::atomicity::item_counter;
    using guarded_ptr = Guarded;

    class iterator {
    public:
        iterator(const Items &items, nm::Iterator<nm::Set> at) : items_(items), at_(at) {}

        iterator &operator++() {
            ++at_;
            return *this;
        }

        bool operator==(const iterator &other) const { return at_ == other.at_; }
        bool operator!=(const iterator &other) const { return at_ != other.at_; }
        Item *operator->() const { return items_.at(static_cast<int>(*at_)).get(); }

    private:
        const Items &items_;
        nm::Iterator<nm::Set> at_;
    };

    // ---- insert ----

    template <class Key> bool insert(const Key &key) {
        return insert(key, [](Item &) {});
    }

    template <class Key, class Call> bool insert(const Key &key, Call call) {
        return keep(std::make_shared<Item>(key), call);
    }

    template <class... Words> bool emplace(Words &&...words) {
        return keep(std::make_shared<Item>(std::forward<Words>(words)...), [](Item &) {});
    }

    template <class Key, class Call>
    std::pair<bool, bool> update(const Key &key, Call call, bool inserts = true) {
        bool is_new = inserts && insert(key);
        bool is_there = is_new || contains(key);
        if (is_there) call(is_new, item(key), key);
        return {is_there, is_new};
    }

    // ---- look ----

    template <class Key> bool contains(const Key &key) const { return set_.contains(number(key)); }

    template <class Key, class Less> bool contains(const Key &key, Less) const {
        return contains(key);
    }

    template <class Key, class Call> bool find(const Key &key, Call call) {
        bool is_there = contains(key);
        if (is_there) call(item(key), key);
        return is_there;
    }

    template <class Key, class Less, class Call> bool find_with(const Key &key, Less, Call call) {
        return find(key, call);
    }

    template <class Key> Guarded get(const Key &key) {
        return contains(key) ? Guarded(items_.at(key_of(key))) : Guarded();
    }

    template <class Key, class Less> Guarded get_with(const Key &key, Less) { return get(key); }

    // ---- remove ----

    template <class Key> Guarded extract(const Key &key) {
        return set_.remove(number(key)) ? taken(key_of(key)) : Guarded();
    }

    template <class Key, class Less> Guarded extract_with(const Key &key, Less) {
        return extract(key);
    }

    template <class Key> bool erase(const Key &key) { return bool(extract(key)); }

    template <class Key, class Call> bool erase(const Key &key, Call call) {
        Guarded old = extract(key);
        if (old) call(*old.operator->());
        return bool(old);
    }

    template <class Key, class Less> bool erase_with(const Key &key, Less) { return erase(key); }

    template <class Key, class Less, class Call>
    bool erase_with(const Key &key, Less, Call call) {
        return erase(key, call);
    }

    Guarded extract_min() {
        std::optional<std::uint64_t> least = set_.pop_first();
        return least ? taken(static_cast<int>(*least)) : Guarded();
    }

    Guarded extract_max() {
        std::optional<std::uint64_t> greatest = set_.last();
        return greatest ? extract(static_cast<int>(*greatest)) : Guarded();
    }

    void clear() {
        set_.clear();
        items_.clear();
    }

    // ---- all keys ----

    bool empty() const { return set_.empty(); }
    std::size_t size() const { return set_.size(); }
    iterator begin() const { return iterator(items_, set_.begin()); }
    iterator end() const { return iterator(items_, set_.end()); }
    iterator cbegin() const { return begin(); }
    iterator cend() const { return end(); }

    // Whether the set tells the keys of all items, ascending, and no others.
    bool check_consistency() const {
        std::vector<std::uint64_t> told(set_.begin(), set_.end()), kept;
        for (const auto &[key, item] : items_) kept.push_back(number(key));
        return told == kept;
    }

private:
    template <class Key> static std::uint64_t number(const Key &key) {
        return static_cast<std::uint64_t>(key_of(key));
    }

    template <class Key> Item &item(const Key &key) { return *items_.at(key_of(key)); }

    template <class Call> bool keep(std::shared_ptr<Item> item, Call call) {
        if (!set_.insert(number(*item))) return false;
        call(*item);
        items_[item->key()] = std::move(item);
        return true;
    }

    Guarded taken(int key) {
        Guarded old(items_.at(key));
        items_.erase(key);
        return old;
    }

    nm::Set set_{65'536};
    Items items_;
};

// The same with the names that the tests of sets under RCU use, of which none is needed here.
class UnitSetRcu : public UnitSet {
public:
    struct rcu_lock {
        rcu_lock() {}
    };
    using exempt_ptr = Guarded;
    using raw_ptr = Item *;
    static constexpr bool c_bExtractLockExternal = false;

    template <class Key> Item *get(const Key &key) { return UnitSet::get(key).operator->(); }

    template <class Key, class Less> Item *get_with(const Key &key, Less) { return get(key); }
};

template <class Fixture> struct Unit : Fixture {
    template <class Set> void run() {
        Set set;
        Fixture::test(set);
    }
};

#ifdef HASHED
using Plain = Unit<cds_test::container_set>;
using Guards = Unit<cds_test::container_set_hp>;
using Ordered = Unit<cds_test::container_ordered_set_hp>;
using Rcu = Unit<cds_test::container_set_rcu>;

TEST_F(Plain, test_set) { run<UnitSet>(); }
TEST_F(Guards, test_set_hp) { run<UnitSet>(); }
TEST_F(Ordered, test_ordered_set_hp) { run<UnitSet>(); }
TEST_F(Rcu, test_set_rcu) { run<UnitSetRcu>(); }
#else
using Plain = Unit<cds_test::container_tree_set>;
using Guards = Unit<cds_test::container_tree_set_hp>;
using Rcu = Unit<cds_test::container_tree_set_rcu>;

TEST_F(Plain, test_tree_set) { run<UnitSet>(); }
TEST_F(Guards, test_tree_set_hp) { run<UnitSet>(); }
TEST_F(Rcu, test_tree_set_rcu) { run<UnitSetRcu>(); }
#endif

}  // namespace
