// The map of nm_set.h for C++17: a value of a type T under each key. Each thread takes a worker:
//
//     nm::Map<std::string> map{4096, 4};       // 4,096 nodes, four for each key, and four workers
//     auto worker = map.attach();
//     worker.emplace(5u, "five");              // true: the key was absent
//     {
//         auto guard = worker.pin();
//         std::string *found = guard.get(5u);  // it exists until the end of the guard
//     }
//     worker.insert_or_assign(5u, "cinq");     // false: it replaces the text, in one step
//     worker.remove(5u);                       // true; both texts are freed when nobody can read them
//
// A T of at most 8 bytes that can be copied, and by memcpy, like a number, is stored in place. Then
// all calls of a worker return copies. A map holds objects of every other T, such as atomics, by
// `std::unique_ptr<T>`. It frees none of them twice: it frees each after its key was removed, or the
// object replaced, when no guard is left that could have returned it; or at the end of the map.
//
// A worker that has a guard makes no other call. So calls that go over several keys, and pops,
// return objects by a second worker, under the guard of the first one:
//
//     auto guard = worker.pin();
//     auto calls = other.under(guard);         // `other` is another worker of the map
//     for (auto [key, text] : calls.range(5u, 10u)) use(*text);
//     auto first = calls.pop_first();          // its key, and a text that exists until the end of
//                                              // the guard; no other thread gets this key
//
// What a thread wrote before it inserted a key is visible to each thread that gets its value. An
// object may be read by several threads at the same time: if its T changes, it has a lock or
// atomics of its own. This header informs ThreadSanitizer of both orders: insert before get, and
// the end of a guard before the object is freed.
//
// The core, which is the functions of nm_set.h, is proved. What this header and nm_map.h add to it
// is not proved, but tested: by c/tests/map_objects.cpp, map_order.cpp, map_puts.cpp, map_soak.cpp,
// map_threads.cpp and refused_map.cpp. In a forked child each call throws NM_FORKED, and the ends
// of a map, a worker and a guard do nothing: so no object of the parent is freed there.
#ifndef NM_MAP_HPP
#define NM_MAP_HPP

#include "nm_map.h"
#include "nm_set.hpp"

#include <cstring>

namespace nm {

// How a map is made, and the bounds of its calls. They mean the same as in `Options`.
struct MapOptions {
    std::uint32_t workers = 64;       // 1 to 64; each takes some 3,700 bytes
    std::uint32_t tries = 64;         // the tries of each call of the tree
    std::uint32_t rounds = 64;        // how often a call that lost each of its tries is retried
    // The number of waiting nodes from which an insert or a remove first frees what was reclaimed.
    // If it is not given: nodes / (8 * workers), at least 8 and at most 64.
    std::optional<std::uint32_t> collect_after{};
    std::uint32_t timeout_ms = 1'000; // the longest time that an attach waits for a worker, and an
                                      // insert or a replacement for nodes, in milliseconds
};

// The result of `reclaim`: how many values were reclaimed, and the worker that holds back others.
struct Reclaimed {
    std::uint64_t values;  // how many values were reclaimed
    std::optional<std::uint32_t> behind;  // a worker for which others wait, or nothing
};

// A key of a map with its value: a copy of a value in place, or a pointer to an object. The type of
// the key is another one in nm_keys.hpp.
template <typename Value, typename K = std::uint64_t>
struct MapEntry {
    K key;  // the key
    Value value;  // its value, or a pointer to its object

    // Makes a pair of it: so `std::map<std::uint64_t, int>(worker.begin(), worker.end())` is a copy of
    // a map with values in place.
    template <typename First, typename Second,
              std::enable_if_t<std::is_convertible_v<const K &, First> &&
                                   std::is_convertible_v<const Value &, Second>,
                               int> = 0>
    operator std::pair<First, Second>() const {
        return {key, value};
    }
};

namespace detail {

// Whether a map stores values of a type in place. An atomic can be copied by memcpy, but it must be
// changed where it is: a copy constructor is what it lacks.
template <typename T>
inline constexpr bool is_in_place =
    std::is_trivially_copyable_v<T> && std::is_copy_constructible_v<T> && sizeof(T) <= 8;

template <typename T>
std::uint64_t word_of(const T &value) noexcept {
    std::uint64_t word = 0;
    std::memcpy(&word, &value, sizeof(T));
    return word;
}

template <typename T>
T value_of(std::uint64_t word) noexcept {
    union Room {
        char unused;
        T value;
        Room() noexcept : unused(0) {}
    } room;
    std::memcpy(static_cast<void *>(&room.value), &word, sizeof(T));
    return room.value;
}

template <typename T>
T *object_of(std::uint64_t word) noexcept {
    return reinterpret_cast<T *>(static_cast<std::uintptr_t>(word));
}

template <typename T>
std::uint64_t word_of_object(T *object) noexcept {
    return reinterpret_cast<std::uintptr_t>(object);
}

// What a map returns for the value of a key: a copy of a value in place, or a pointer to an object.
template <typename T>
using Returned = std::conditional_t<is_in_place<T>, std::remove_cv_t<T>, T *>;

template <typename T>
Returned<T> returned(std::uint64_t word) noexcept {
    if constexpr (is_in_place<T>)
        return value_of<std::remove_cv_t<T>>(word);
    else
        return object_of<T>(word);
}

// What a guard returns for a key: a pointer to its object, or null; or a copy of its value in
// place, or nothing.
template <typename T>
using Found = std::conditional_t<is_in_place<T>, std::optional<T>, T *>;

// What the calls of a worker in order return: see MapCalls.
template <typename T>
using EntryOfWorker =
    std::conditional_t<is_in_place<T>, MapEntry<Returned<T>>, std::uint64_t>;

template <typename T>
Found<T> found(bool is_found, std::uint64_t word) noexcept {
    return is_found ? Found<T>(returned<T>(word)) : Found<T>();
}

// What `at` returns: a copy of a value in place, or a reference to an object.
template <typename T>
using ValueAt = std::conditional_t<is_in_place<T>, T, T &>;

// Returns the value that a call has found. If it has found none it throws std::out_of_range, with the
// key as a function writes it.
template <typename T, typename Shown>
ValueAt<T> at_or_throw(const Found<T> &found, Shown shown) {
    if (!found)
        throw in_memory([&] { return std::out_of_range("nm::Map: there is no key " + shown()); });
    return *found;
}

// Returns the value of an entry of a map of T: of a value in place the copy, and else the object.
template <typename T, typename K>
const T &value_in(const MapEntry<Returned<T>, K> &entry) noexcept {
    if constexpr (is_in_place<T>)
        return entry.value;
    else
        return *entry.value;
}

// Whether a type is that of an entry of a map.
template <typename Pair>
inline constexpr bool is_entry = false;
template <typename Value, typename K>
inline constexpr bool is_entry<MapEntry<Value, K>> = true;

// Returns the key of a pair, or of an entry of another map.
template <typename Pair>
decltype(auto) key_part(const Pair &pair) noexcept {
    if constexpr (is_entry<Pair>)
        return (pair.key);
    else
        return std::get<0>(pair);
}

// Returns the value of a pair, or of an entry of another map of T.
template <typename T, typename Pair>
decltype(auto) value_part(Pair &&pair) noexcept {
    if constexpr (is_entry<std::decay_t<Pair>>)
        return value_in<T>(pair);
    else
        return std::get<1>(std::forward<Pair>(pair));
}

// Returns whether the entries of a map of T are these pairs, which ascend.
template <typename T, typename Entries, typename Pairs>
bool are_equal(const Entries &entries, const Pairs &pairs) {
    auto at = entries.begin();
    for (const auto &pair : pairs) {
        if (at == entries.end()) return false;
        auto entry = *at;
        if (!(entry.key == key_part(pair)) || !(value_in<T>(entry) == value_part<T>(pair)))
            return false;
        ++at;
    }
    return at == entries.end();
}

// Returns whether the map took the value that a call gave it.
inline bool is_taken(nm_outcome outcome) noexcept {
    return outcome == NM_YES || outcome == NM_INSERTED || outcome == NM_REPLACED;
}

template <typename Value>
inline constexpr bool is_owner = false;
template <typename U>
inline constexpr bool is_owner<std::unique_ptr<U>> = true;

// Frees an object. A value in place needs nothing.
template <typename T>
void give_up(std::uint64_t word) noexcept {
    if constexpr (!is_in_place<T>) std::default_delete<T>()(object_of<T>(word));
}

// What a map and its workers share. The last of them that ends empties the map, and frees each
// object that is left.
class MapPlace {
public:
    MapPlace(std::uint64_t nodes, const MapOptions &options, void (*end)(std::uint64_t) noexcept)
        : nodes_(static_cast<std::uint32_t>(std::min<std::uint64_t>(nodes, UINT32_MAX))),
          workers_(options.workers), timeout_ms_(options.timeout_ms), end_(end) {
        options_ = {options.tries, options.rounds,
                    options.collect_after.value_or(nm_map_collect_after(nodes_, workers_))};
        nm_outcome outcome = nm_map_counts_new(&counts_, nodes_, workers_);
        if (outcome == NM_DONE) outcome = nm_map_new(&handle_, nodes_, workers_);
        if (outcome == NM_DONE) return;
        nm_map_counts_free(counts_);
        if (outcome == NM_NODES || outcome == NM_WORKERS)
            fail(outcome, [&] {
                return std::string(nm_outcome_text(outcome)) + ": " +
                       grouped(outcome == NM_NODES ? nodes : workers_);
            });
        answered(outcome);
    }

    MapPlace(const MapPlace &) = delete;
    MapPlace &operator=(const MapPlace &) = delete;

    ~MapPlace() {
        if (is_forked()) return;
        nm_map_drop_returned(counts_);
        (void)nm_map_drain(&handle_, release, this, longest_ms);
        (void)nm_drop(&handle_);
        nm_map_counts_free(counts_);
    }

    // Takes a value that was reclaimed, for nm_map.h.
    static void release(void *at, std::uint64_t word) noexcept {
        { Ordered ordered(at); }
        static_cast<MapPlace *>(at)->end_(word);
    }

    [[nodiscard]] nm_handle *handle() noexcept { return &handle_; }
    [[nodiscard]] nm_map_counts *counts() const noexcept { return counts_; }
    [[nodiscard]] bool is_forked() const noexcept { return nm_map_is_forked(counts_) != 0; }
    [[nodiscard]] const nm_options *options() const noexcept { return &options_; }
    [[nodiscard]] std::uint32_t nodes() const noexcept { return nodes_; }
    [[nodiscard]] std::uint32_t workers() const noexcept { return workers_; }
    [[nodiscard]] std::uint32_t timeout_ms() const noexcept { return timeout_ms_; }

private:
    nm_handle handle_{};
    nm_map_counts *counts_ = nullptr;
    nm_options options_{};
    std::uint32_t nodes_;
    std::uint32_t workers_;
    std::uint32_t timeout_ms_;
    void (*end_)(std::uint64_t) noexcept;
};

// Throws the fault of a call of a map for a key.
[[noreturn, gnu::cold]] inline void fail_by_map(nm_outcome outcome, std::uint64_t key) {
    if (outcome == NM_FORKED)
        throw Fault(outcome, Literal{"the map was made before this process was forked: only the "
                                     "parent can use it"});
    if (outcome == NM_CLOSED) throw Fault(outcome, Literal{"the worker is closed"});
    if (outcome == NM_KEY) fail_at(Place{}, outcome, key);
    throw Fault(outcome, words(outcome));
}

// Returns whether the answer is not NM_NO. Throws a fault if the outcome is an error.
inline bool answered_by_map(nm_outcome outcome, std::uint64_t key = 0) {
    if (outcome < 0) fail_by_map(outcome, key);
    return outcome != NM_NO;
}

// The fault of a pop that returns values and is unfinished, with its key.
class UnfinishedPop : public Fault {
public:
    UnfinishedPop(std::uint64_t key, const std::string &shown)
        : Fault(NM_UNFINISHED,
                "the key " + shown +
                    " will be removed by this call and no other, but its value is not known, "
                    "because other threads interfered with each try of each round: the key is found "
                    "until the next call by this worker"),
          key_(key) {}

    [[nodiscard]] std::uint64_t key() const noexcept { return key_; }

private:
    std::uint64_t key_;
};

// Throws the fault of an unfinished pop, with its key as the function writes it.
template <typename Shown>
[[noreturn]] void fail_unfinished(std::uint64_t key, Shown shown) {
    try {
        throw UnfinishedPop(key, shown(key));
    } catch (const std::bad_alloc &) {
        throw Fault(NM_UNFINISHED, words(NM_UNFINISHED));
    }
}

}  // namespace detail

template <typename T>
class MapWorker;
template <typename T>
class GuardedWorker;
template <typename K, typename V>
class MapWorkerOf;

// A pin of a worker, until its end. What `get` returns exists until then: no other thread's remove
// frees it. Meanwhile the worker makes no other call (NM_PINNED), and the map frees no object that
// was removed or replaced after the pin. So keep it short: nodes that wait for it are not free for inserts.
// The worker must neither move nor end before the guard.
template <typename T>
class [[nodiscard]] MapGuard {
public:
    // `T *`, or null if the map does not have the key; for a T in place `std::optional<T>`.
    using Found = detail::Found<T>;

    // Takes the pin; `from` ends nothing after that.
    MapGuard(MapGuard &&from) noexcept
        : worker_(std::exchange(from.worker_, nullptr)), epoch_(from.epoch_) {}

    // Takes the pin in place of its own, which ends.
    MapGuard &operator=(MapGuard &&from) noexcept {
        MapGuard moved(std::move(from));
        std::swap(worker_, moved.worker_);
        std::swap(epoch_, moved.epoch_);
        return *this;
    }

    // Ends the pin.
    ~MapGuard() { unpin(); }

    // Returns the value that the map has under a key. The map had it at a moment of this call.
    // Throws NM_KEY, and NM_NOT_PINNED after `unpin`.
    [[nodiscard]] Found get(Key key) const {
        std::uint64_t word = 0;
        bool is_found = finds(key, word);
        return detail::found<T>(is_found, word);
    }

    // Returns the value of each of these keys, in their order. The map had each of them at a moment
    // of this call. Throws NM_KEY, and NM_NOT_PINNED after `unpin`.
    [[nodiscard]] std::vector<Found> get_many(const std::vector<std::uint64_t> &wanted) const {
        return open_worker().values_of(wanted, nm_map_get_many_pinned);
    }

    // Returns whether the map has a key.
    [[nodiscard]] bool contains(Key key) const {
        std::uint64_t unused = 0;
        return finds(key, unused);
    }

    // Ends the pin now.
    void unpin() noexcept {
        if (worker_ != nullptr) (void)std::exchange(worker_, nullptr)->ask(nm_map_unpin);
    }

    // Returns the epoch that it pins.
    [[nodiscard]] std::uint64_t epoch() const noexcept { return epoch_; }

private:
    friend class MapWorker<T>;
    friend class GuardedWorker<T>;

    MapGuard(const MapWorker<T> &worker, std::uint64_t epoch) noexcept
        : worker_(&worker), epoch_(epoch) {}

    // Returns the worker. Throws NM_NOT_PINNED after `unpin`.
    const MapWorker<T> &open_worker() const {
        if (worker_ == nullptr) detail::answered(NM_NOT_PINNED);
        return *worker_;
    }

    bool finds(std::uint64_t key, std::uint64_t &word) const {
        return open_worker().done(key, [&](nm_handle *it, const nm_options *) {
            return nm_map_get_pinned(it, key, &word);
        });
    }

    const MapWorker<T> *worker_;
    std::uint64_t epoch_;
};

// The calls of a worker in the order of the keys. An entry is what they return: `MapEntry<T>` of
// values in place, `MapEntry<T *>` under a guard, and otherwise the key of an object. The calls
// that read take no snapshot: the map had each key, with its value, at a moment of the call, and
// two keys may have different moments. A key that is in the map during the whole call is returned.
// An iterator reads ahead in blocks, like that of nm::Set.
template <typename Of, typename Entry>
class MapCalls : public InOrder<Of, Entry> {
public:
    // Removes the least key that is below a bound and returns it, or nothing if there is none. No
    // two calls return one key, unless it was inserted again in between. No call passes over a key
    // that was in the map during the whole call. The object is freed later, as after `remove`.
    //
    // If the bound of the call is reached before the key is cut off, this call removes it and no
    // other does, and the next call by this worker finishes that. Then a pop that returns keys
    // alone returns the key. One that returns values throws NM_UNFINISHED, with the key in the
    // text, because the value is not known.
    std::optional<Entry> pop_first(Key below = UINT64_MAX) {
        return popped(nm_map_pop_first_below, below);
    }

    // Removes the greatest key that is not below a bound and returns it, in the same way.
    std::optional<Entry> pop_last(Key from = 0u) { return popped(nm_map_pop_last_from, from); }

    // Returns what `first` returns if its key is below a bound, and removes nothing. Otherwise it
    // waits for such a key, for `most` at most, and sleeps meanwhile: each insert wakes it, and with
    // another key it sleeps on. Returns nothing after that time. Under a guard the pin lasts.
    [[nodiscard]] std::optional<Entry> wait_first(Key below, std::chrono::milliseconds most) const {
        nm_entry found{0, 0};
        const auto &by = worker();
        bool is_found = by.done(0, [&](nm_handle *it, const nm_options *options) {
            return nm_map_wait_first(it, below, options, by.place_->counts(), &found.key,
                                     &found.value, detail::millis(most));
        });
        return entry_if(is_found, found);
    }

    // Does the same without a bound.
    [[nodiscard]] std::optional<Entry> wait_first(std::chrono::milliseconds most) const {
        return wait_first(UINT64_MAX, most);
    }

    // Returns 1 if the map has the key, and else 0, like `std::map::count`.
    [[nodiscard]] std::size_t count(Key key) const {
        if (key > most_key) detail::answered_by_map(NM_KEY, key);
        return next(key, key + 1) ? 1 : 0;
    }

    // Returns how many keys there are, counted like those of a range.
    [[nodiscard]] std::uint64_t count() const { return count(0u, UINT64_MAX); }

    // Returns how many keys are not below `from` and are below `below`. While others change the
    // map, it counts each key as it finds it.
    [[nodiscard]] std::uint64_t count(Key from, Key below) const {
        std::uint64_t found = 0;
        worker().done(from, [&](nm_handle *it, const nm_options *options) {
            return nm_map_count(it, from, below, &found, options);
        });
        return found;
    }

protected:
    MapCalls() = default;

private:
    friend class InOrder<Of, Entry>;

    static constexpr bool has_values = !std::is_same_v<Entry, std::uint64_t>;

    const auto &worker() const { return static_cast<const Of &>(*this).worker_of_calls(); }
    auto &worker() { return static_cast<Of &>(*this).worker_of_calls(); }

    static Entry entry_of(const nm_entry &found) noexcept {
        if constexpr (has_values)
            return Entry{found.key, Of::returned(found.value)};
        else
            return found.key;
    }

    static std::optional<Entry> entry_if(bool is_there, const nm_entry &found) noexcept {
        return is_there ? std::optional<Entry>(entry_of(found)) : std::nullopt;
    }

    // Finds an entry by a call of C from a key on. Returns whether there is one.
    template <typename Call>
    bool finds(Call call, std::uint64_t key, nm_entry &found) const {
        return worker().done(key, [&](nm_handle *it, const nm_options *options) {
            return call(it, key, options, &found.key, &found.value);
        });
    }

    // Returns the least key that is not below `from` and is below `below`.
    std::optional<Entry> next(std::uint64_t from, std::uint64_t below) const {
        nm_entry found{0, 0};
        bool is_found = from <= most_key && finds(nm_map_at_least, from, found);
        return entry_if(is_found && found.key < below, found);
    }

    // Returns the greatest key that is not above `to` and not below `from`.
    std::optional<Entry> prev(std::uint64_t to, std::uint64_t from) const {
        nm_entry found{0, 0};
        bool is_found = finds(nm_map_at_most, std::min(to, most_key), found);
        return entry_if(is_found && found.key >= from, found);
    }

    // Fills a block from its `next` on; returns whether there may be more keys.
    template <Order order>
    bool fill(detail::Block<Entry> &block, std::uint64_t bound) const {
        constexpr bool is_up = order == Order::ascending;
        std::uint64_t from = is_up ? block.next : bound, below = is_up ? bound : block.next;
        if constexpr (has_values) {
            constexpr auto read = is_up ? nm_map_read_entries : nm_map_read_entries_back;
            std::vector<nm_entry> entries;
            bool has_more = worker().read(read, entries, block.room, from, below, block.next);
            detail::in_memory([&] { block.entries.reserve(entries.size()); });
            for (const nm_entry &each : entries) block.entries.push_back(entry_of(each));
            return has_more;
        } else {
            constexpr auto read = is_up ? nm_map_read_keys : nm_map_read_keys_back;
            return worker().read(read, block.entries, block.room, from, below, block.next);
        }
    }

    // Removes a key at one end, up to a bound, by a call of C.
    template <typename Call>
    std::optional<Entry> popped(Call call, std::uint64_t bound) {
        nm_entry taken{0, 0};
        nm_outcome outcome = worker().removed([&](nm_handle *it, const nm_options *options) {
            return call(it, bound, options, &taken.key, &taken.value);
        });
        if (outcome != NM_UNFINISHED) return entry_if(detail::answered_by_map(outcome), taken);
        if constexpr (has_values)
            detail::fail_unfinished(taken.key, [](std::uint64_t key) { return std::to_string(key); });
        return entry_of(taken);
    }
};

// The calls of a worker that replace a value in one step, and return the old one: copies of values in
// place; or, under a guard of another worker, pointers to objects, which exist until the end of the
// guard. No call finds the key absent meanwhile. They wait for nodes like `insert`, and throw what it
// throws. A guard holds back the nodes of all calls until its end. So threads that make many calls
// under guards of their own may wait for one another until NM_FULL: end each guard after a few calls.
template <typename Of, typename T>
class MapPuts {
public:
    using Found = detail::Found<T>;  // `T *`, or null; for a T in place `std::optional<T>`

    // Inserts a key with a value, or replaces the value that it has. Returns that value, or nothing
    // if the key was absent. No two calls return one value.
    template <typename Value = T>
    Found exchange(Key key, Value &&value) {
        std::uint64_t word = 0;
        nm_outcome outcome = worker().put(nm_map_wait_put, key, std::forward<Value>(value), word);
        return detail::found<T>(outcome == NM_REPLACED, word);
    }

    // Replaces the value of a key if it is the expected one; returns whether it did. If nothing is
    // expected, it inserts the key if that is absent. After false, `expected` is what the map had
    // under the key at a moment of the call, and a `unique_ptr` has its object as before. Like
    // `std::atomic`, it compares bytes: of a value in place, or of the address of an object.
    template <typename Value = T>
    bool compare_exchange(Key key, Found &expected, Value &&value) {
        auto &by = worker();
        std::uint64_t word = 0;
        if (!expected) {
            if (by.insert_value(key, std::forward<Value>(value))) return true;
            bool is_found = by.finds_value(key, word);
            expected = detail::found<T>(is_found, word);
            return false;
        }
        nm_outcome outcome = by.compare_put(key, word_of(expected), std::forward<Value>(value), word);
        if (outcome != NM_REPLACED) expected = detail::found<T>(outcome == NM_OTHER, word);
        return outcome == NM_REPLACED;
    }

    // Removes a key if it has the expected value; returns whether it did. After false, `expected` is what
    // the map had under the key at a moment of the call; if nothing is expected, it removes nothing. It
    // compares like `compare_exchange`. The object is freed later, as after `remove`, and NM_UNFINISHED
    // says the same as of `remove`.
    bool compare_remove(Key key, Found &expected) {
        auto &by = worker();
        std::uint64_t word = 0;
        if (!expected) {
            bool is_found = by.finds_value(key, word);
            expected = detail::found<T>(is_found, word);
            return false;
        }
        nm_outcome outcome = by.compare_removed(key, word_of(expected), word);
        if (outcome != NM_YES) expected = detail::found<T>(outcome == NM_OTHER, word);
        return outcome == NM_YES;
    }

    // Gives a key the value that a function makes of the one that it has, or of nothing if it is
    // absent; returns the new value. The function gets a `Found`, and is called again as often as
    // another call changes the key in between, without a bound. It may make calls by other workers:
    // it is called outside of every lock, and this worker is not pinned. It returns a T, or a
    // `std::unique_ptr<T>`.
    template <typename F>
    detail::Returned<T> update(Key key, F f) {
        Found old = static_cast<Of &>(*this).get(key);
        for (;;) {
            if constexpr (detail::is_in_place<T>) {
                T value = static_cast<T>(f(std::as_const(old)));
                if (compare_exchange(key, old, value)) return value;
            } else {
                std::unique_ptr<T> object = owned(f(std::as_const(old)));
                T *at = object.get();
                if (compare_exchange(key, old, std::move(object))) return at;
            }
        }
    }

    // Returns the value of a key, after an insert of the one that a function makes if the key is absent.
    // The function is called once at most; it returns a T, or a `std::unique_ptr<T>`. Its object is
    // destroyed again if another call has inserted the key in between. It looks again, without a bound,
    // as often as other calls insert the key and remove it in between.
    template <typename F>
    detail::Returned<T> get_or_insert_with(Key key, F make) {
        Found old = static_cast<Of &>(*this).get(key);
        if (old) return returned_of(old);
        if constexpr (detail::is_in_place<T>) {
            T value = static_cast<T>(make());
            return inserted(key, value, value);
        } else {
            std::unique_ptr<T> object = owned(make());
            return inserted(key, object.get(), std::move(object));
        }
    }

    // Returns the value of a key: a copy of one in place, or under a guard a reference to the object.
    // Throws std::out_of_range if the map does not have the key.
    [[nodiscard]] detail::ValueAt<T> at(Key key) const {
        return detail::at_or_throw<T>(static_cast<const Of &>(*this).get(key),
                                      [=] { return std::to_string(key); });
    }

private:
    auto &worker() {
        static_assert(detail::is_in_place<T> || std::is_same_v<Of, GuardedWorker<T>>,
                      "an object is returned under a guard of another worker: other.under(guard)");
        return static_cast<Of &>(*this).worker_of_calls();
    }

    // Inserts an absent key with a value, which is returned as it then is in the map. If another call
    // has inserted the key, it returns what that one has given it.
    template <typename Value>
    detail::Returned<T> inserted(Key key, detail::Returned<T> as, Value &&value) {
        for (Found old{};;) {
            if (compare_exchange(key, old, std::forward<Value>(value))) return as;
            if (old) return returned_of(old);
        }
    }

    static detail::Returned<T> returned_of(const Found &of) noexcept {
        if constexpr (detail::is_in_place<T>)
            return *of;
        else
            return of;
    }

    static std::uint64_t word_of(const Found &of) noexcept {
        if constexpr (detail::is_in_place<T>)
            return detail::word_of(*of);
        else
            return detail::word_of_object<T>(of);
    }

    template <typename Value>
    static std::unique_ptr<T> owned(Value &&value) {
        if constexpr (std::is_constructible_v<T, Value &&>)
            return MapWorker<T>::made(std::forward<Value>(value));
        else
            return std::unique_ptr<T>(std::forward<Value>(value));
    }
};

// What `worker[key]` is, for values in place. Each operator makes a call of MapPuts or MapWorker, which
// is one step: so `worker[5u] += 1` loses no other thread's step. Two operators are two steps, as in
// `worker[5u] = worker[5u] + 1`. It is for one expression: a program keeps the value, as in
// `int n = worker[5u]`.
template <typename T>
class MapReference {
public:
    // It is not copied: a program takes a copy of the value.
    MapReference(const MapReference &) = delete;

    // Returns a copy of the value of the key, or T() if the map does not have the key. Unlike
    // `std::map`, it then inserts nothing.
    operator detail::Returned<T>() const && { return worker_->get(key_).value_or(T()); }
    // A reference that is kept has no value.
    operator detail::Returned<T>() const & = delete;  // keep the value: int n = worker[5u]

    // Inserts the key with this value, or replaces its value, and returns this value:
    // MapWorker::insert_or_assign.
    T operator=(const T &value) && {
        (void)worker_->insert_or_assign(key_, value);
        return value;
    }
    // Does the same with the value of another key, which it reads first.
    T operator=(MapReference &&other) && { return std::move(*this) = T(std::move(other)); }

    // Adds to the value, or to T() if the map does not have the key, and returns the new value:
    // MapPuts::update.
    T operator+=(const T &by) && {
        return changed([&](T old) { return static_cast<T>(old + by); });
    }
    // Subtracts from the value in the same way.
    T operator-=(const T &by) && {
        return changed([&](T old) { return static_cast<T>(old - by); });
    }
    // Adds one, and returns the new value.
    T operator++() && {
        return changed([](T old) { return ++old; });
    }
    // Subtracts one, and returns the new value.
    T operator--() && {
        return changed([](T old) { return --old; });
    }
    // Adds one, and returns the value from before.
    T operator++(int) && {
        T before = ++std::move(*this);
        return --before;
    }
    // Subtracts one, and returns the value from before.
    T operator--(int) && {
        T before = --std::move(*this);
        return ++before;
    }

private:
    friend class MapWorker<T>;

    MapReference(MapWorker<T> &worker, Key key) noexcept : worker_(&worker), key_(key) {}

    template <typename F>
    T changed(F f) const {
        return worker_->update(key_, [&](const std::optional<T> &old) { return f(old.value_or(T())); });
    }

    MapWorker<T> *worker_;
    Key key_;
};

// One worker of a map, for one thread at a time. It can be moved and not copied; a worker that was
// moved from is closed. Its end returns it to the map, ends its pin, and frees what was reclaimed.
// If the map ends before its workers, the last of them empties it.
//
// Its calls in order return copies of values in place. Of objects they return the keys: `under`
// makes the same calls with the objects. Its iterators must end before it.
//
// Each call throws NM_KEY if the key is above 2^64 - 4; NM_BUSY if the bounds of the options were
// reached, and then the map is unchanged; NM_PINNED while the worker has a guard; NM_IN_USE if
// another thread is in a call by this worker; NM_NO_MEMORY; and NM_CLOSED. No call waits, except
// those that give the map a value.
template <typename T>
class MapWorker : public MapCalls<MapWorker<T>, detail::EntryOfWorker<T>>,
                  public MapPuts<MapWorker<T>, T> {
public:
    using key_type = std::uint64_t;  // a key
    using mapped_type = T;  // what a key has
    using Guard = MapGuard<T>;  // a pin of this worker

    // Makes a closed worker.
    MapWorker() = default;

    // Takes the worker; `from` is closed after that.
    MapWorker(MapWorker &&from) noexcept
        : place_(std::move(from.place_)), handle_(std::exchange(from.handle_, nm_handle{})),
          number_(from.number_) {}

    // Takes the worker in place of its own, which it returns to the map.
    MapWorker &operator=(MapWorker &&from) noexcept {
        MapWorker moved(std::move(from));
        std::swap(place_, moved.place_);
        std::swap(handle_, moved.handle_);
        std::swap(number_, moved.number_);
        return *this;
    }

    // Returns the worker to the map, like `close`.
    ~MapWorker() { close(); }

    // Returns the worker to the map. A closed worker is unchanged.
    void close() noexcept {
        if (!is_open()) return;
        (void)ask(nm_map_unpin);
        std::uint64_t waiting = 0;
        (void)ask([&](nm_handle *it) { return nm_map_queue_len(it, &waiting); });
        if (waiting != 0)
            (void)counted([&](nm_handle *it, Counted *released) {
                return nm_map_take_back(it, place_->counts(), Counted::release, released, nullptr);
            });
        (void)ask([&](nm_handle *it) { return nm_map_return(place_->counts(), it); });
        (void)ask(nm_drop);  // if it was not returned
        place_.reset();
    }

    // Returns whether it has a worker.
    [[nodiscard]] bool is_open() const noexcept { return place_ != nullptr; }

    // ---- a key ----

    // Inserts a key with an object; returns whether the key was absent. Like
    // `std::map::try_emplace`, it takes the object only if it inserts it: after false, or a fault,
    // `object` has it as before. If no nodes are free, it frees what was reclaimed, and waits for
    // nodes, for `timeout_ms` of the options at most. Then it throws NM_FULL, with the numbers in
    // the text. If the keys take all nodes and no node waits, it throws NM_FULL at once.
    template <typename U, std::enable_if_t<std::is_convertible_v<U *, T *>, int> = 0>
    bool insert(Key key, std::unique_ptr<U> &&object) {
        static_assert(!detail::is_in_place<T>, "a T of at most 8 bytes is inserted by its value");
        return give_object(key, std::move(object), inserting(key)) == NM_YES;
    }

    // Inserts a key with a value in place; returns whether the key was absent. It waits like the
    // other `insert`.
    bool insert(Key key, const T &value) {
        static_assert(detail::is_in_place<T>,
                      "a T of more than 8 bytes is inserted by emplace, or as a unique_ptr");
        return insert_value(key, value);
    }

    // Makes an object of these arguments and inserts it; returns whether the key was absent. If it
    // was present, the new object is destroyed again.
    template <typename... Args>
    bool emplace(Key key, Args &&...args) {
        if constexpr (detail::is_in_place<T>)
            return insert(key, T(std::forward<Args>(args)...));
        else
            return insert(key, made(std::forward<Args>(args)...));
    }

    // Does the same, and takes nothing from its arguments: it copies from them, so a program has
    // them unchanged also if the key was present. Unlike `std::map::try_emplace` it returns no
    // iterator, and makes the object before it knows whether the key is absent.
    template <typename... Args>
    bool try_emplace(Key key, const Args &...args) {
        static_assert(std::is_constructible_v<T, const Args &...>,
                      "try_emplace copies from its arguments: to move, write emplace, or insert "
                      "with a unique_ptr");
        return emplace(key, args...);
    }

    // Inserts these pairs of a key and a value, one by one; returns how many keys were absent. The
    // pairs may be entries of another map, whose objects it copies. It makes an object of a value, or
    // takes it if it is a `unique_ptr` and the iterator moves (`std::make_move_iterator`). If it
    // throws a fault, the pairs before that one are inserted.
    template <typename Input, typename = typename std::iterator_traits<Input>::iterator_category>
    std::uint64_t insert(Input first, Input last) {
        return insert_each(first, last, [](const auto &key) { return Key(key); });
    }

    // Inserts a key with a value, or replaces the value that it has, in one step: no call finds the
    // key absent meanwhile. Returns whether the key was absent, like `std::map::insert_or_assign`. It
    // makes an object of the value, or takes it if it is a `unique_ptr`; after a fault that has it as
    // before. The old object is freed later, as after `remove`; `exchange` returns the old value. It
    // waits like `insert`.
    template <typename Value = T>
    bool insert_or_assign(Key key, Value &&value) {
        std::uint64_t unused = 0;
        return put(nm_map_wait_put, key, std::forward<Value>(value), unused) == NM_INSERTED;
    }

    // Replaces the value that a key has, in the same way; returns whether the key was present. After
    // false nothing is changed, and a `unique_ptr` has its object as before.
    template <typename Value = T>
    bool replace(Key key, Value &&value) {
        std::uint64_t unused = 0;
        return put(nm_map_wait_replace, key, std::forward<Value>(value), unused) == NM_REPLACED;
    }

    // Returns the value in place of a key for an operator, such as those of `worker[5u] = 7` and
    // `++worker[5u]`: see MapReference.
    MapReference<T> operator[](Key key) {
        static_assert(detail::is_in_place<T>,
                      "operator[] is for values in place: insert_or_assign gives a key an object, and "
                      "a guard gets it");
        return MapReference<T>(*this, key);
    }

    // Removes a key; returns whether it was present. Its object is freed later, when no guard can
    // return it, by the thread whose call finds that: by an `insert`, a `remove`, a `reclaim` or
    // the end of a worker, or by the end of the map. NM_UNFINISHED: the key will be removed by this
    // call and no other. Until the next call by this worker it is found, and an insert of it
    // returns false. So remove it again: after false it is gone.
    bool remove(Key key) {
        std::uint64_t unused = 0;
        return detail::answered_by_map(removed_with_value(key, unused), key);
    }

    // Removes a key like `remove`; returns 1 if it was present, and else 0.
    std::size_t erase(Key key) { return remove(key) ? 1 : 0; }

    // Removes a key, and returns the value that it had, or nothing if it was absent. No two calls
    // return one value, unless it was inserted again in between. It returns the value too if the
    // bound of the call is reached before the key is cut off, because this call removes it and no
    // other does.
    std::optional<T> take(Key key) {
        static_assert(detail::is_in_place<T>, "an object is taken under a guard of another worker: "
                                              "other.under(guard).take(key)");
        std::uint64_t word = 0;
        bool is_taken = takes(key, word);
        return detail::found<T>(is_taken, word);
    }

    // Removes the keys that are not below `from` and are below `below`, one by one; returns how many
    // it removed. A key that is inserted meanwhile may remain. It throws what `remove` throws; then
    // the keys before that one are removed.
    std::uint64_t erase(Key from, Key below) {
        return detail::erase_each(*this, this->range(from, below), [](const auto &) { return true; });
    }

    // Removes in the same way each key for whose entry `test` returns true, like std::erase_if: for
    // the key with a copy of its value in place, or for the key of an object.
    template <typename Test>
    std::uint64_t erase_if(Test test) {
        return detail::erase_each(*this, *this, test);
    }

    // Removes all keys. A key that is inserted meanwhile may remain.
    void clear() { erase(0u, UINT64_MAX); }

    // Moves each key that this map lacks out of another one, with its value in place; returns how many,
    // like std::map::merge. A key that both maps have remains in both. A move is no single step: the
    // key is inserted here, and then removed there. So for a moment both maps have it, and if another
    // thread gives it another value there meanwhile, that value is removed.
    std::uint64_t merge(MapWorker &from) {
        static_assert(detail::is_in_place<T>, "an object stays in its map: insert copies objects");
        return detail::erase_each(from, from,
                                  [this](const auto &entry) { return this->insert(entry.key, entry.value); });
    }

    // Returns whether the entries of the map are these pairs, such as those of a std::map: they
    // ascend. It takes no snapshot: each entry is compared as it was at a moment of the call.
    template <typename Pairs>
    [[nodiscard]] bool equals(const Pairs &pairs) const {
        static_assert(detail::is_in_place<T>, "objects are compared under a guard of another worker: "
                                              "other.under(guard).equals(pairs)");
        return detail::are_equal<T>(*this, pairs);
    }

    // Returns whether the map has a key.
    [[nodiscard]] bool contains(Key key) const {
        std::uint64_t unused = 0;
        return finds_value(key, unused);
    }

    // Returns a copy of a value in place, or nothing if the map does not have the key.
    [[nodiscard]] std::optional<T> get(Key key) const {
        static_assert(detail::is_in_place<T>,
                      "only a guard gets an object: auto guard = worker.pin(); guard.get(key)");
        std::uint64_t word = 0;
        bool is_found = finds_value(key, word);
        return detail::found<T>(is_found, word);
    }

    // Returns copies of the values of these keys, in their order. The worker is pinned for 64 keys
    // at a time.
    [[nodiscard]] std::vector<std::optional<T>>
    get_many(const std::vector<std::uint64_t> &wanted) const {
        static_assert(detail::is_in_place<T>,
                      "only a guard gets objects: auto guard = worker.pin(); guard.get_many(keys)");
        return values_of(wanted, [&](nm_handle *it, nm_map_lookup *lookups, std::size_t count) {
            return nm_map_get_many(it, lookups, count, place_->options());
        });
    }

    // Pins the worker until the end of the result. Throws NM_BUSY if other threads interfered with
    // each try of each round.
    Guard pin() & {
        std::uint64_t epoch = 0;
        done(0, [&](nm_handle *it, const nm_options *options) {
            return nm_map_hold(it, options, &epoch);
        });
        return Guard(*this, epoch);
    }

    // A worker that ends at once cannot be pinned.
    Guard pin() && = delete;

    // Returns the calls of this worker that return objects, under a guard of another worker of the
    // map. It must end before both. Throws NM_PINNED if the guard is of this worker, and
    // `std::invalid_argument` if it is of another map.
    GuardedWorker<T> under(const Guard &guard) & { return GuardedWorker<T>(*this, guard); }

    // A worker that ends at once makes no such calls.
    GuardedWorker<T> under(const Guard &guard) && = delete;

    // ---- in order ----

    // Returns the keys that are not below `from` and are below `below`, ascending.
    [[nodiscard]] std::vector<std::uint64_t> keys(Key from = 0u, Key below = UINT64_MAX) const {
        std::vector<std::uint64_t> all, block;
        std::uint64_t next = from;
        bool has_more = true;
        while (has_more) {
            has_more = read(nm_map_read_keys, block, 512, next, below, next);
            detail::in_memory([&] { all.insert(all.end(), block.begin(), block.end()); });
        }
        return all;
    }

    // ---- of itself ----

    // Frees what was reclaimed by this worker, whatever `collect_after` is. Returns how many values
    // were reclaimed, and which worker holds back others.
    Reclaimed reclaim() {
        Reclaimed result{0, std::nullopt};
        std::uint32_t behind = NM_NOBODY;
        detail::answered_by_map(counted([&](nm_handle *it, Counted *released) {
            nm_outcome outcome = nm_map_take_back(it, place_->counts(), Counted::release, released,
                                                  &behind);
            result.values = released->values;
            return outcome;
        }));
        if (behind != NM_NOBODY) result.behind = behind;
        return result;
    }

    // Returns the number of nodes that wait with this worker: two for each removed key, and one for
    // each replaced value.
    [[nodiscard]] std::uint64_t waiting() const {
        std::uint64_t nodes = 0;
        done(0, [&](nm_handle *it, const nm_options *) { return nm_map_queue_len(it, &nodes); });
        return nodes;
    }

    // Returns the key of an unfinished remove, or nothing.
    [[nodiscard]] std::optional<std::uint64_t> pending() const {
        std::uint64_t key = 0;
        bool is_pending =
            done(0, [&](nm_handle *it, const nm_options *) { return nm_map_pending(it, &key); });
        return is_pending ? std::optional<std::uint64_t>(key) : std::nullopt;
    }

    // Returns its number in the map. NM_CLOSED.
    [[nodiscard]] std::uint32_t number() const {
        if (!is_open()) detail::answered_by_map(NM_CLOSED);
        return number_;
    }

private:
    template <typename>
    friend class Map;
    template <typename, typename>
    friend class MapCalls;
    template <typename, typename>
    friend class MapPuts;
    template <typename, typename>
    friend class MapWorkerOf;
    friend class MapGuard<T>;
    friend class GuardedWorker<T>;

    // Counts values that were reclaimed.
    struct Counted {
        void *place;
        std::uint64_t values;

        static void release(void *at, std::uint64_t word) noexcept {
            Counted *counted = static_cast<Counted *>(at);
            counted->values++;
            detail::MapPlace::release(counted->place, word);
        }
    };

    static detail::Returned<T> returned(std::uint64_t word) noexcept {
        return detail::returned<T>(word);
    }

    const MapWorker &worker_of_calls() const noexcept { return *this; }
    MapWorker &worker_of_calls() noexcept { return *this; }

    // Makes a call of C by this worker; returns its outcome.
    template <typename Call>
    nm_outcome ask(Call call) const {
        if (!is_open()) return NM_CLOSED;
        if (place_->is_forked()) return NM_FORKED;
        detail::Ordered ordered(place_.get());
        return call(&handle_);
    }

    // Makes a call of C that releases values; returns its outcome.
    template <typename Call>
    nm_outcome counted(Call call) const {
        Counted released{place_.get(), 0};
        return ask([&](nm_handle *it) { return call(it, &released); });
    }

    // Makes a call of C with the options, for a key; returns whether its answer is not NM_NO.
    template <typename Call>
    bool done(std::uint64_t key, Call call) const {
        nm_outcome outcome = ask([&](nm_handle *it) { return call(it, place_->options()); });
        return detail::answered_by_map(outcome, key);
    }

    bool finds_value(std::uint64_t key, std::uint64_t &word) const {
        return done(key, [&](nm_handle *it, const nm_options *options) {
            return nm_map_get(it, key, options, &word);
        });
    }

    // Looks up keys by a call of C.
    template <typename Call>
    std::vector<detail::Found<T>> values_of(const std::vector<std::uint64_t> &wanted,
                                            Call call) const {
        std::vector<nm_map_lookup> lookups;
        std::vector<detail::Found<T>> all;
        detail::in_memory([&] { lookups.reserve(wanted.size()), all.reserve(wanted.size()); });
        for (std::uint64_t key : wanted) lookups.push_back({key, 0, 0});
        nm_map_lookup none{};
        nm_map_lookup *at = lookups.empty() ? &none : lookups.data();
        nm_outcome outcome = ask([&](nm_handle *it) { return call(it, at, lookups.size()); });
        auto wrong = std::find_if(wanted.begin(), wanted.end(),
                                  [](std::uint64_t key) { return key > most_key; });
        detail::answered_by_map(outcome, wrong != wanted.end() ? *wrong : 0);
        for (const nm_map_lookup &each : lookups)
            all.push_back(detail::found<T>(each.found != 0, each.value));
        return all;
    }

    // Reads at most `room` keys or entries of a range by a call of C, in place of what `all` has.
    // Returns whether there may be more, and writes where the next call goes on.
    template <typename Call, typename Each>
    bool read(Call call, std::vector<Each> &all, std::size_t room, std::uint64_t from,
              std::uint64_t below, std::uint64_t &next) const {
        std::size_t count = 0;
        detail::in_memory([&] { all.resize(room); });
        bool has_more = done(from, [&](nm_handle *it, const nm_options *options) {
            return call(it, from, below, all.data(), room, &count, &next, options);
        });
        all.resize(count);
        return has_more;
    }

    // Makes a call of C that gives the map the word of a value, with what each such call takes; returns
    // its outcome, which is no error. If the map takes an object, a `unique_ptr` gives it up.
    template <typename Value, typename Call>
    nm_outcome give(std::uint64_t key, Value &&value, Call call) {
        if constexpr (detail::is_in_place<T>) {
            static_assert(!detail::is_owner<std::decay_t<Value>>,
                          "a T of at most 8 bytes is inserted by its value");
            return give_word(key, detail::word_of(static_cast<T>(std::forward<Value>(value))), call);
        } else if constexpr (std::is_constructible_v<T, Value &&>) {
            return give_object(key, made(std::forward<Value>(value)), call);
        } else {
            static_assert(detail::is_owner<Value>,
                          "no T is made of the value; if it is a unique_ptr, write std::move(it)");
            return give_object(key, std::move(value), call);
        }
    }

    template <typename U, typename Call>
    nm_outcome give_object(std::uint64_t key, std::unique_ptr<U> &&object, Call call) {
        static_assert(std::is_same_v<std::remove_cv_t<U>, std::remove_cv_t<T>> ||
                          std::has_virtual_destructor_v<T>,
                      "the map frees the object as a T, which needs a virtual destructor");
        if (object == nullptr) throw std::invalid_argument("nm::Map: the object is null");
        nm_outcome outcome = give_word(key, detail::word_of_object<T>(object.get()), call);
        if (detail::is_taken(outcome)) (void)object.release();
        return outcome;
    }

    template <typename Call>
    nm_outcome give_word(std::uint64_t key, std::uint64_t word, Call call) {
        nm_outcome outcome = counted([&](nm_handle *it, Counted *released) {
            return call(it, word, released);
        });
        if (outcome == NM_FULL) fail_full();
        detail::answered_by_map(outcome, key);
        nm_map_count_insert(place_->counts(), number_, outcome);
        return outcome;
    }

    // Returns the call of C that inserts a key.
    auto inserting(std::uint64_t key) {
        return [this, key](nm_handle *it, std::uint64_t word, Counted *released) {
            return nm_map_wait_insert(place_->handle(), it, key, word, place_->options(),
                                      place_->counts(), Counted::release, released,
                                      place_->timeout_ms());
        };
    }

    // Inserts a key with a value; returns whether the key was absent.
    template <typename Value>
    bool insert_value(std::uint64_t key, Value &&value) {
        return give(key, std::forward<Value>(value), inserting(key)) == NM_YES;
    }

    // Puts a value by nm_map_wait_put or nm_map_wait_replace, and writes the word of the old one.
    template <typename Value, typename Call>
    nm_outcome put(Call call, std::uint64_t key, Value &&value, std::uint64_t &old) {
        return give(key, std::forward<Value>(value),
                    [&](nm_handle *it, std::uint64_t word, Counted *released) {
            return call(place_->handle(), it, key, word, place_->options(), place_->counts(),
                        Counted::release, released, &old, place_->timeout_ms());
        });
    }

    // Puts a value in place of the expected one, and writes the word of the one that it found.
    template <typename Value>
    nm_outcome compare_put(std::uint64_t key, std::uint64_t expected, Value &&value,
                           std::uint64_t &found) {
        return give(key, std::forward<Value>(value),
                    [&](nm_handle *it, std::uint64_t word, Counted *released) {
            return nm_map_wait_compare_replace(place_->handle(), it, key, expected, word,
                                               place_->options(), place_->counts(),
                                               Counted::release, released, &found,
                                               place_->timeout_ms());
        });
    }

    // Inserts pairs, whose keys a function returns.
    template <typename Input, typename Keyed>
    std::uint64_t insert_each(Input first, Input last, Keyed key_of) {
        std::uint64_t inserted = 0;
        for (; first != last; ++first) {
            auto &&pair = *first;
            inserted += insert_value(key_of(detail::key_part(pair)),
                                     detail::value_part<T>(std::forward<decltype(pair)>(pair)));
        }
        return inserted;
    }

    [[noreturn]] void fail_full() {
        std::uint64_t waiting = nm_map_counts_waiting(place_->counts());
        std::uint32_t behind = reclaim().behind.value_or(NM_NOBODY);
        nm_fullness full{};
        nm_map_fullness(place_->nodes(), nm_map_counts_keys(place_->counts()), waiting, behind, &full);
        detail::fail(NM_FULL, [&] {
            char text[640];
            return std::string(nm_map_full_words(&full, text, sizeof text));
        });
    }

    template <typename... Args>
    static std::unique_ptr<T> made(Args &&...args) {
        return detail::in_memory([&] { return std::make_unique<T>(std::forward<Args>(args)...); });
    }

    // Frees what was reclaimed if enough nodes wait, and removes a key by a call of C. Returns its
    // outcome.
    template <typename Call>
    nm_outcome removed(Call call) {
        detail::answered_by_map(counted([&](nm_handle *it, Counted *released) {
            return nm_map_tend(it, place_->options(), place_->counts(), Counted::release, released);
        }));
        nm_outcome outcome = ask([&](nm_handle *it) { return call(it, place_->options()); });
        nm_map_count_remove(place_->counts(), number_, outcome);
        return outcome;
    }

    // Removes a key if it has the expected word, and writes the one that it found if that is another one.
    nm_outcome compare_removed(std::uint64_t key, std::uint64_t expected, std::uint64_t &found) {
        nm_outcome outcome = removed([&](nm_handle *it, const nm_options *options) {
            return nm_map_remove_if(it, key, expected, options, &found);
        });
        detail::answered_by_map(outcome, key);
        return outcome;
    }

    nm_outcome removed_with_value(std::uint64_t key, std::uint64_t &word) {
        return removed([&](nm_handle *it, const nm_options *options) {
            return nm_map_remove(it, key, options, &word);
        });
    }

    // Removes a key, and writes the word of its value. Returns whether the key was present.
    bool takes(std::uint64_t key, std::uint64_t &word) {
        nm_outcome outcome = removed_with_value(key, word);
        return outcome == NM_UNFINISHED || detail::answered_by_map(outcome, key);
    }

    std::shared_ptr<detail::MapPlace> place_;
    // It is mutable, because each function of C empties the handle while it runs.
    mutable nm_handle handle_{};
    std::uint32_t number_ = 0;
};

// The calls of a worker that return objects, under a guard of another worker of the same map
// (MapWorker::under). Each object that they return exists until the end of that guard, also if this
// call or another one has removed its key. They throw what the calls of a worker throw, and
// NM_NOT_PINNED after `unpin` of the guard. It can be copied, and must end before its worker and
// the guard.
template <typename T>
class GuardedWorker : public MapCalls<GuardedWorker<T>, MapEntry<detail::Returned<T>>>,
                      public MapPuts<GuardedWorker<T>, T> {
public:
    using mapped_type = T;  // what a key has
    using Found = detail::Found<T>;  // `T *`, or null if the map does not have the key

    // Returns the object of a key, or null if the map does not have the key.
    [[nodiscard]] Found get(Key key) const {
        std::uint64_t word = 0;
        bool is_found = worker_of_calls().finds_value(key, word);
        return detail::found<T>(is_found, word);
    }

    // Removes a key, and returns the object that it had, or null if it was absent. No two calls
    // return one object. The map frees it later, after the end of the guard.
    Found take(Key key) {
        std::uint64_t word = 0;
        bool is_taken = worker_of_calls().takes(key, word);
        return detail::found<T>(is_taken, word);
    }

    // Removes each key for whose entry `test` returns true, one by one, like std::erase_if; returns
    // how many. If another thread gives a key another object after the test, that one is removed.
    template <typename Test>
    std::uint64_t erase_if(Test test) {
        return detail::erase_each(worker_of_calls(), *this, test);
    }

    // Returns whether the entries of the map are these pairs, with equal objects: see
    // MapWorker::equals.
    template <typename Pairs>
    [[nodiscard]] bool equals(const Pairs &pairs) const {
        return detail::are_equal<T>(*this, pairs);
    }

private:
    template <typename, typename>
    friend class MapCalls;
    template <typename, typename>
    friend class MapPuts;
    friend class MapWorker<T>;

    GuardedWorker(MapWorker<T> &worker, const MapGuard<T> &guard)
        : worker_(&worker), guard_(&guard) {
        const MapWorker<T> &pinned = guard.open_worker();
        if (&pinned == &worker)
            throw Fault(NM_PINNED,
                        detail::Literal{"the guard is of this worker, which makes no other call: "
                                        "take a second worker"});
        if (pinned.place_ != worker.place_ && worker.is_open())
            throw std::invalid_argument("nm::Map: the guard is of another map");
    }

    static detail::Returned<T> returned(std::uint64_t word) noexcept {
        return detail::returned<T>(word);
    }

    MapWorker<T> &worker_of_calls() const {
        (void)guard_->open_worker();
        return *worker_;
    }

    MapWorker<T> *worker_;
    const MapGuard<T> *guard_;
};

namespace detail {

// An iterator of a guarded worker has a copy of it.
template <typename T>
class Kept<GuardedWorker<T>> {
public:
    Kept() = default;
    explicit Kept(const GuardedWorker<T> &of) : of_(of) {}
    const GuardedWorker<T> *operator->() const noexcept { return &*of_; }

private:
    std::optional<GuardedWorker<T>> of_;
};

}  // namespace detail


// The map. Any number of threads may attach workers of it at the same time. One thread moves and
// destroys the map, while no other thread attaches a worker. At its end, or at the end of its last
// worker if that is later, each object that is left is freed. That thread waits, for 10 seconds at
// most, only if memory is refused; after that time the objects are lost.
template <typename T>
class Map {
public:
    using key_type = std::uint64_t;  // a key
    using mapped_type = T;  // what a key has
    using Worker = MapWorker<T>;  // a worker of this map
    using Guard = MapGuard<T>;  // a pin of such a worker

    // Makes the empty map, with room for 7 to 268,435,456 nodes; it never grows. It needs two nodes
    // for each key, five more, and those of keys that were removed and wait: four for each key are
    // usual. Throws NM_NODES, NM_WORKERS, NM_NO_MEMORY.
    explicit Map(std::uint64_t nodes, std::uint32_t workers = 64) : Map(nodes, with(workers)) {}

    // Makes the empty map with these options. Throws the same.
    Map(std::uint64_t nodes, const MapOptions &options)
        : place_(detail::in_memory([&] {
              return std::make_shared<detail::MapPlace>(nodes, options, detail::give_up<T>);
          })) {}

    // Makes the map of these keys and values: `nm::Map<int> map(64, {{5u, 50}, {7u, 70}})`. Of two
    // values for one key it takes the first. It also throws NM_KEY, NM_FULL; then no map is left,
    // and its objects are freed.
    Map(std::uint64_t nodes, std::initializer_list<std::pair<Key, T>> list,
        const MapOptions &options = {})
        : Map(nodes, list.begin(), list.end(), options) {}

    // Makes the map of these pairs: see MapWorker::insert.
    template <typename Input, typename = typename std::iterator_traits<Input>::iterator_category>
    Map(std::uint64_t nodes, Input first, Input last, const MapOptions &options = {})
        : Map(nodes, options) {
        attach().insert(first, last);
    }

    // Takes the map; each call of `from` throws NM_CLOSED after that.
    Map(Map &&from) noexcept = default;
    // Takes the map in place of its own, which ends.
    Map &operator=(Map &&from) noexcept = default;

    // Attaches a worker to this thread: one that was returned, or else the least number. While each
    // worker is attached, or another thread attaches one, it waits, for `most` at most, and then throws
    // NM_NO_WORKER. If no time is given, it waits for `timeout_ms` of the options. It also throws
    // NM_NO_MEMORY. A worker that was returned costs an exchange: so if threads are many, each may take
    // a worker for one call: `map.attach().insert(5u, "five")`.
    [[nodiscard]] Worker attach(std::chrono::milliseconds most) {
        check_open();
        Worker taken;
        nm_outcome outcome = nm_map_lend(place_->handle(), place_->counts(), &taken.handle_,
                                         detail::millis(most));
        if (outcome == NM_NO_WORKER)
            detail::fail(outcome, [&] {
                return "each of the " + std::to_string(workers()) +
                       " workers of the map (64 at most) is attached, or other threads were "
                       "attaching workers for all of the timeout";
            });
        detail::answered_by_map(outcome);
        (void)nm_map_number(&taken.handle_, &taken.number_);
        taken.place_ = place_;
        return taken;
    }

    // Does the same, and waits for `timeout_ms` of the options.
    [[nodiscard]] Worker attach() {
        return attach(std::chrono::milliseconds(place_ == nullptr ? 0 : place_->timeout_ms()));
    }

    // Returns the number of keys: it adds up one count for each worker, and waits for nothing. It
    // is exact if no call is in progress; otherwise it may miss the calls in progress. An
    // unfinished remove counts as done.
    [[nodiscard]] std::uint64_t size() const {
        check_open();
        return nm_map_counts_keys(place_->counts());
    }

    // Returns the number of nodes that wait to be freed, with all workers: two for each removed key,
    // and one for each replaced value, whose object is not freed. It is exact if no call is in
    // progress.
    [[nodiscard]] std::uint64_t waiting() const {
        check_open();
        return nm_map_counts_waiting(place_->counts());
    }

    // Returns the number of free nodes, computed from `size` and `waiting`. An insert takes two, and
    // a replacement one.
    [[nodiscard]] std::uint64_t free() const {
        std::uint64_t taken = 2 * size() + 5 + waiting();
        return taken < nodes() ? nodes() - taken : 0;
    }

    // Returns the number of nodes for which it has room.
    [[nodiscard]] std::uint32_t nodes() const noexcept {
        return place_ == nullptr ? 0 : place_->nodes();
    }

    // Returns how many keys it can have if no removed node waits.
    [[nodiscard]] std::uint32_t capacity() const noexcept {
        return place_ == nullptr ? 0 : (nodes() - 5) / 2;
    }

    // Returns how many workers it has.
    [[nodiscard]] std::uint32_t workers() const noexcept {
        return place_ == nullptr ? 0 : place_->workers();
    }

private:
    static MapOptions with(std::uint32_t workers) {
        MapOptions options;
        options.workers = workers;
        return options;
    }

    // Throws NM_CLOSED if the map was moved from, and NM_FORKED in a forked child.
    void check_open() const {
        if (place_ == nullptr) throw Fault(NM_CLOSED, detail::Literal{"the map was moved from"});
        if (place_->is_forked()) detail::answered_by_map(NM_FORKED);
    }

    std::shared_ptr<detail::MapPlace> place_;
};

}  // namespace nm

#endif
