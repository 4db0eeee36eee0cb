// The concurrent ordered set of nm_set.h for C++17. Any thread may call an `nm::Set`:
//
//     nm::Set set;                  // it grows; nm::Set set(65536) has room for 65,536 nodes
//     set.insert(5u);               // true: the key was absent
//     set.contains(5u);             // true
//     set.remove(5u);               // true: the key was present
//
// A thread that makes many calls takes a worker of its own by `attach`. A worker has the same
// calls. Calls without `try_` are managed calls: they retry if other threads interfere, they
// collect removed nodes, and an insert waits for nodes before it fails. They return an answer or
// throw an `nm::Fault`. A call with `try_` throws nothing and returns the outcome.
//
// What a thread wrote before it inserted a key is visible to each thread that finds or removes that
// key: so a key may hand over a payload. This header informs ThreadSanitizer of it.
//
// The core, which is the functions of nm_set.h, is proved. What is added to it is tested by
// `c/check`, and not proved: the pool of nm_pool.h, which finds a worker for a call, waits, counts
// the keys and lets the set grow; and in this header the calls that are made of several calls.
#ifndef NM_SET_HPP
#define NM_SET_HPP

#if __cplusplus < 201703L
#error "nm_set.hpp needs C++17 or later: compile with -std=c++17"
#endif
#ifndef __cpp_exceptions
#error "nm_set.hpp needs exceptions: compile without -fno-exceptions, or use nm_set.h"
#endif

#include "nm_pool.h"

#include <algorithm>
#include <chrono>
#include <cstddef>
#include <cstdint>
#include <initializer_list>
#include <iterator>
#include <memory>
#include <new>
#include <optional>
#include <stdexcept>
#include <string>
#include <type_traits>
#include <utility>
#include <vector>

#if __has_include(<version>)
#include <version>
#endif
#ifdef __cpp_lib_ranges
#include <ranges>
#endif

#if defined __SANITIZE_THREAD__
#define NM_SET_HAS_TSAN 1
#elif defined __has_feature
#if __has_feature(thread_sanitizer)
#define NM_SET_HAS_TSAN 1
#endif
#endif
#ifdef NM_SET_HAS_TSAN
extern "C" void __tsan_acquire(void *);
extern "C" void __tsan_release(void *);
#endif

namespace nm {

// The greatest key.
inline constexpr std::uint64_t most_key = UINT64_MAX - 3;

// The usual number of tries of a call.
inline constexpr std::uint32_t usual_tries = 64;

namespace detail {

// Whether a type is an unsigned integer of 8 to 64 bits. bool and character types are not.
template <typename Number>
inline constexpr bool is_of_keys =
    std::is_same_v<Number, unsigned char> || std::is_same_v<Number, unsigned short> ||
    std::is_same_v<Number, unsigned> || std::is_same_v<Number, unsigned long> ||
    std::is_same_v<Number, unsigned long long>;

// A text that is never freed.
struct Literal {
    const char *text;
};

}  // namespace detail

// A key as a parameter: an unsigned integer of 8 to 64 bits. No other type compiles, because a
// negative number or a fraction would become another key.
class Key {
public:
    // Takes the number; a signed one does not compile.
    template <typename Number, std::enable_if_t<detail::is_of_keys<Number>, int> = 0>
    constexpr Key(Number key) noexcept : key_(key) {}

    template <typename Number, std::enable_if_t<!detail::is_of_keys<Number>, int> = 0>
    Key(Number) = delete;  // a key is an unsigned integer: write 5u, or std::uint64_t(number)

    // Returns the number.
    constexpr operator std::uint64_t() const noexcept { return key_; }

private:
    std::uint64_t key_;
};

// The mark before a list of keys, from which a set is made: `nm::Set set(64, nm::keys, {1u, 2u});`.
struct keys_t {
    explicit keys_t() = default;
};
// The mark itself.
inline constexpr keys_t keys{};

// The exception of a call that failed. The set is unchanged, unless the description of the outcome
// in nm_set.h says more. If there is no memory for the text of a fault, its text is that of
// nm_outcome_text, for which the standard library of GCC needs no memory.
class Fault : public std::runtime_error {
public:
    // Makes the exception of an outcome, with this text.
    Fault(nm_outcome outcome, const std::string &text)
        : std::runtime_error(text), outcome_(outcome) {}

    // Makes it with a text that is never freed, which takes no memory.
    Fault(nm_outcome outcome, detail::Literal literal)
        : std::runtime_error(""), literal_(literal.text), outcome_(outcome) {}

    // Returns the outcome of the call that failed.
    [[nodiscard]] nm_outcome outcome() const noexcept { return outcome_; }

    // Returns what happened, with the values, and what to do.
    [[nodiscard]] const char *what() const noexcept override {
        return literal_ != nullptr ? literal_ : std::runtime_error::what();
    }

private:
    const char *literal_ = nullptr;
    nm_outcome outcome_;
};

// The shape of a set's tree. `radix`: no walk goes over more than 66 edges, in whatever order the
// keys come. `unbalanced`: the tree of Natarajan and Mittal, in which keys that come in order make
// one long path.
enum class Shape { radix = NM_RADIX, unbalanced = NM_UNBALANCED };

// How a set is made, and the bounds of its calls.
struct Options {
    std::uint32_t workers = 64;       // 1 to 64; each takes some 3,700 bytes, and 3,300 once used
    Shape shape = Shape::radix;  // the shape of the tree
    std::uint32_t tries = 64;         // the tries of each call of the tree
    std::uint32_t rounds = 64;        // how often a call that lost each of its tries is retried
    // The number of waiting nodes from which an insert or a remove first advances the epoch and
    // collects.
    std::uint32_t collect_after = 64;
    std::uint32_t timeout_ms = 1'000; // the longest time that a call waits, in milliseconds: for a
                                      // worker, and an insert for nodes that are to be freed
};

namespace detail {

// The time that a close, and the end of a worker, wait for other threads' calls, in milliseconds.
inline constexpr std::uint32_t longest_ms = 10'000;

// Where a call goes: a pool, the number of a worker there or NM_ANY, and how long it waits.
struct Place {
    nm_pool *pool = nullptr;
    std::uint32_t worker = NM_ANY;
    std::uint32_t timeout_ms = 0;
};

// Returns a time in milliseconds, at most the longest time of a call of the pool.
inline std::uint32_t millis(std::chrono::milliseconds most) noexcept {
    constexpr std::chrono::milliseconds::rep longest = UINT32_MAX;
    return static_cast<std::uint32_t>(std::clamp(most.count(), decltype(longest){0}, longest));
}

// Informs ThreadSanitizer that what a thread did before a call is visible after a later call by
// another thread. Without ThreadSanitizer it does nothing.
class Ordered {
public:
#ifdef NM_SET_HAS_TSAN
    explicit Ordered(void *at) noexcept : at_(at) { __tsan_release(at_); }
    ~Ordered() { __tsan_acquire(at_); }

private:
    void *const at_;
#else
    explicit Ordered(void *) noexcept {}
#endif
};

// Returns the workers of a mask as the subject of a sentence, with its verb.
inline std::string those(std::uint64_t mask) {
    char text[256];
    return nm_mask_words(mask, text, sizeof text) +
           std::string((mask & (mask - 1)) == 0 ? " is" : " are");
}

// Returns a number as text: 65,536.
inline std::string grouped(std::uint64_t number) {
    std::string text = std::to_string(number);
    for (std::size_t at = text.size(); at > 3; at -= 3) text.insert(at - 3, 1, ',');
    return text;
}

// Returns the text of an outcome for a caller of this header.
inline Literal words(nm_outcome outcome) {
    switch (outcome) {
    case NM_CLOSED: return {"the worker or the report is closed"};
    case NM_PENDING:
    case NM_BUSY:
        return {"other threads interfered with each try of each round: call again, or raise the "
                "rounds of the options"};
    case NM_PINNED: return {"the worker is pinned: end its pin first"};
    case NM_NOT_PINNED: return {"the worker is not pinned"};
    case NM_IN_USE:
        return {"another thread is in a call by the worker, and has not ended it within "
                "the timeout"};
    default: return {nm_pool_text(outcome)};
    }
}

// Throws a fault with a text, or with the text of the outcome if there is no memory for another.
template <typename Text>
[[noreturn]] void fail(nm_outcome outcome, Text text) {
    try {
        throw Fault(outcome, text());
    } catch (const std::bad_alloc &) {
        throw Fault(outcome, words(outcome));
    }
}

// Runs a part that allocates memory, and returns what it returns. Throws NM_NO_MEMORY if memory was
// refused.
template <typename Part>
auto in_memory(Part part) {
    try {
        return part();
    } catch (const std::bad_alloc &) {
        throw Fault(NM_NO_MEMORY, words(NM_NO_MEMORY));
    }
}

// Returns whether the answer is not NM_NO. Throws a fault if the outcome is an error.
inline bool answered(nm_outcome outcome) {
    if (outcome < 0) throw Fault(outcome, words(outcome));
    return outcome != NM_NO;
}

// Throws the fault of a call of a pool that failed, with the numbers that it concerns.
[[noreturn]] inline void fail_at(const Place &at, nm_outcome outcome, std::uint64_t key) {
    if (outcome == NM_CLOSED && at.worker == NM_ANY)
        throw Fault(outcome, Literal{"the set is closed"});
    if (outcome == NM_KEY)
        fail(outcome, [=] {
            return "the key " + std::to_string(key) + " is not 0 to " + std::to_string(most_key) +
                   " (2^64 - 4)";
        });
    if (outcome == NM_NO_WORKER)
        fail(outcome, [&] {
            return "each of the " + std::to_string(nm_pool_workers(at.pool)) +
                   " workers of the set (64 at most) is attached or in a call";
        });
    nm_fullness fullness{};
    if (outcome == NM_FULL && nm_pool_fullness(at.pool, &fullness) == NM_DONE)
        fail(outcome, [&] {
            char text[640];
            return std::string(nm_full_words(&fullness, text, sizeof text));
        });
    throw Fault(outcome, words(outcome));
}

// Makes the pool of a set. Throws NM_NODES, NM_WORKERS, NM_NUMBER (there is no such shape),
// NM_NO_MEMORY. (If it is inlined, GCC 12 says of the default options that one is not initialized.)
[[gnu::noinline]] inline nm_pool *pool_of(std::uint64_t nodes, const Options &options) {
    nm_pool_options asked{options.workers, static_cast<std::uint32_t>(options.shape), options.tries,
                          options.rounds, options.collect_after};
    nm_pool *pool = nullptr;
    nm_outcome outcome = nm_pool_new(&pool, nodes, &asked);
    if (outcome == NM_NODES || outcome == NM_WORKERS)
        fail(outcome, [&] {
            return std::string(nm_outcome_text(outcome)) + ": " +
                   grouped(outcome == NM_NODES ? nodes : options.workers);
        });
    answered(outcome);
    return pool;
}

}  // namespace detail

// The order in which an iterator passes keys.
enum class Order { ascending, descending };

namespace detail {

// Entries that an iterator has read ahead, in its order: the keys of a set, or the keys of a map
// with their values. The last block of a range may be empty.
template <typename Entry>
struct Block {
    std::size_t room;  // for how many entries it was asked
    std::vector<Entry> entries;
    std::uint64_t next;  // where the next block begins
    bool is_last;
};

// Returns the key of an entry.
template <typename Entry>
std::uint64_t key_of(const Entry &entry) noexcept {
    if constexpr (std::is_same_v<Entry, std::uint64_t>)
        return entry;
    else
        return entry.key;
}

template <typename Entry>
std::optional<std::uint64_t> key_of(const std::optional<Entry> &entry) noexcept {
    return entry ? std::optional<std::uint64_t>(key_of(*entry)) : std::nullopt;
}

// Removes the keys of those entries for which `test` returns true; returns how many it removed.
template <typename Of, typename Entries, typename Test>
std::uint64_t erase_each(Of &of, const Entries &entries, Test test) {
    std::uint64_t removed = 0;
    for (const auto &entry : entries)
        if (test(entry)) removed += of.remove(key_of(entry));
    return removed;
}

// How an iterator refers to what it goes over: by its address, except where a type says otherwise.
template <typename Of>
class Kept {
public:
    Kept() = default;
    explicit Kept(const Of &of) noexcept : of_(&of) {}
    const Of *operator->() const noexcept { return of_; }

private:
    const Of *of_ = nullptr;
};

}  // namespace detail

template <typename Of, typename Entry>
class InOrder;

// An input iterator over the keys of a set that may be in use. The keys may change between two
// passes. The iterator finds its first key by one call, and then reads keys ahead, in blocks of 8, 16
// and so on to 512, each by one call that waits like any call. It may return or skip a key that is
// inserted or removed meanwhile. It does not return a key that was removed before its block was
// read. It has a copy of its key: another thread may remove the key, and the iterator still goes on.
// It must end before its set or its worker.
template <typename Of, Order order = Order::ascending, typename Entry = std::uint64_t>
class Iterator {
public:
    using iterator_category = std::input_iterator_tag;  // it passes each key once
    using value_type = Entry;  // a key, or a key with its value
    using difference_type = std::ptrdiff_t;  // not used
    using pointer = const Entry *;  // what `->` returns
    using reference = Entry;  // what `*` returns: a copy

    // Makes an end.
    Iterator() = default;

    // Returns the key, or of some maps the key with its value. Not for an end.
    [[nodiscard]] reference operator*() const { return *entry_; }
    // Returns the same by its address, which holds until the next step.
    [[nodiscard]] pointer operator->() const { return &*entry_; }

    // Goes on to the next key, or to the end. It throws what a call of the set throws.
    Iterator &operator++() {
        if (block_ == nullptr || ++at_ == block_->entries.size()) read();
        entry_ = at_ < block_->entries.size() ? std::optional(block_->entries[at_]) : std::nullopt;
        return *this;
    }

    // Does the same, and returns a copy of the iterator from before.
    Iterator operator++(int) {
        Iterator before = *this;
        ++*this;
        return before;
    }

    // Two iterators are equal if they are at the same key, or both at their ends.
    [[nodiscard]] friend bool operator==(const Iterator &one, const Iterator &other) {
        return detail::key_of(one.entry_) == detail::key_of(other.entry_);
    }

    // Returns the opposite.
    [[nodiscard]] friend bool operator!=(const Iterator &one, const Iterator &other) {
        return !(one == other);
    }

private:
    friend class InOrder<Of, Entry>;

    // Begins with this entry. An ascending iterator ends before the bound, a descending one with
    // it.
    Iterator(const Of &of, std::optional<Entry> entry, std::uint64_t bound)
        : of_(of), bound_(bound), entry_(entry) {}

    // Reads the block after the last key.
    void read() {
        std::uint64_t key = detail::key_of(*entry_);
        std::uint64_t rest = order == Order::ascending ? key + 1 : key;
        detail::Block<Entry> next = block_ == nullptr
                                        ? of_->template block<order>(8, rest, bound_)
                                        : of_->template block_after<order>(*block_, bound_);
        block_ = detail::in_memory(
            [&] { return std::make_shared<const detail::Block<Entry>>(std::move(next)); });
        at_ = 0;
    }

    detail::Kept<Of> of_;
    std::uint64_t bound_ = 0;
    std::optional<Entry> entry_;
    std::shared_ptr<const detail::Block<Entry>> block_;  // none before the second key
    std::size_t at_ = 0;
};

// A range in descending order, for a range-based `for`.
template <typename Of>
class Reversed {
public:
    using iterator = typename Of::reverse_iterator;  // over the keys, descending

    // Makes it of a range.
    explicit Reversed(Of range) : range_(std::move(range)) {}
    // Returns an iterator at the greatest key of the range.
    [[nodiscard]] iterator begin() const { return range_.rbegin(); }
    // Returns the end of the iterators of `begin`.
    [[nodiscard]] iterator end() const noexcept { return range_.rend(); }

private:
    Of range_;
};

// A range of keys: those that are not below `from` and are below `below`. It is a view that keeps its
// bounds: each call looks into the set as it is then. It must end before its set or its worker.
template <typename Of, typename Entry = std::uint64_t>
class Range {
public:
    using value_type = Entry;  // a key, or a key with its value
    using iterator = Iterator<Of, Order::ascending, Entry>;  // over the keys, ascending
    using reverse_iterator = Iterator<Of, Order::descending, Entry>;  // descending

    // Returns an iterator at the least key of the range.
    [[nodiscard]] iterator begin() const { return of_->ascending(from_, below_); }
    // Returns the end of the iterators of `begin`.
    [[nodiscard]] iterator end() const noexcept { return {}; }
    // Returns an iterator at the greatest key of the range, in descending order.
    [[nodiscard]] reverse_iterator rbegin() const { return of_->descending(from_, below_); }
    // Returns the end of the iterators of `rbegin`.
    [[nodiscard]] reverse_iterator rend() const noexcept { return {}; }
    // Returns the same keys in descending order: `for (auto key : range.reversed())`.
    [[nodiscard]] Reversed<Range> reversed() const { return Reversed<Range>(*this); }

    // Returns the least key of the range, or nothing if it has none.
    [[nodiscard]] std::optional<Entry> first() const { return of_->least(from_, below_); }
    // Returns the greatest key of the range, or nothing if it has none.
    [[nodiscard]] std::optional<Entry> last() const { return of_->greatest(from_, below_); }
    // Returns whether the range has no key.
    [[nodiscard]] bool empty() const { return !first(); }
    // Returns whether the range has a key.
    [[nodiscard]] bool contains(Key key) const {
        return key >= from_ && key < below_ && of_->least(key, key + 1).has_value();
    }
    // Returns how many keys the range has: it goes over them.
    [[nodiscard]] std::uint64_t count() const { return of_->count(from_, below_); }
    // Returns the part of this range whose keys are not below `from` and are below `below`.
    [[nodiscard]] Range range(Key from, Key below = UINT64_MAX) const {
        Range part(*this);
        part.from_ = std::max<std::uint64_t>(from_, from);
        part.below_ = std::min<std::uint64_t>(below_, below);
        return part;
    }

private:
    friend class InOrder<Of, Entry>;

    Range(const Of &of, std::uint64_t from, std::uint64_t below)
        : of_(of), from_(from), below_(below) {}

    detail::Kept<Of> of_;
    std::uint64_t from_;
    std::uint64_t below_;
};

// What a `scan` has read: keys, or keys of a map with their values, ascending. The next scan goes on
// at `next`; without it these are all.
template <typename Entry, typename Next = std::uint64_t>
struct Scanned {
    std::vector<Entry> entries;  // what was read, ascending
    std::optional<Next> next;  // where the next scan goes on, or nothing
};

// What goes over keys in order. An entry is a key; of a map it may be a key with its value. `Of`
// has the calls `next`, `prev` and `fill`, of which these are made.
template <typename Of, typename Entry>
class InOrder {
public:
    using value_type = Entry;  // a key, or a key with its value
    using iterator = Iterator<Of, Order::ascending, Entry>;  // over the keys, ascending
    using const_iterator = iterator;  // the same: no iterator changes a key
    using reverse_iterator = Iterator<Of, Order::descending, Entry>;  // descending
    using const_reverse_iterator = reverse_iterator;  // the same

    // Returns an iterator at the least key that is not below this one, or end().
    [[nodiscard]] iterator lower_bound(Key key) const { return ascending(key, UINT64_MAX); }

    // Returns an iterator at the least key that is above this one, or end().
    [[nodiscard]] iterator upper_bound(Key key) const {
        return key < most_key ? ascending(key + 1, UINT64_MAX) : end();
    }

    // Returns an iterator at this key, or end() if there is no such key at a moment of the call. The
    // iterator has a copy of the key: another thread may remove the key at any time.
    [[nodiscard]] iterator find(Key key) const {
        return iterator(self(), self().next(key, key + 1), UINT64_MAX);
    }

    // Returns the least key that is not below this one, or nothing if there is none.
    [[nodiscard]] std::optional<Entry> at_least(Key key) const {
        return self().next(key, UINT64_MAX);
    }

    // Returns the greatest key that is not above this one, or nothing if there is none.
    [[nodiscard]] std::optional<Entry> at_most(Key key) const { return self().prev(key, 0); }

    // Reads the least keys that are not below `from`, at most `room` of them, and returns them with
    // the key at which the next scan goes on. Up to 1,024 keys are read by one call of the library,
    // unless other threads change the set during it; a scan waits for each call. It takes no
    // snapshot: the keys have moments of their own. SIZE_MAX is allowed: it takes memory for 1,024
    // keys at a time.
    [[nodiscard]] Scanned<Entry> scan(Key from, std::size_t room) const {
        Scanned<Entry> read{{}, from <= most_key ? std::optional<std::uint64_t>(from) : std::nullopt};
        while (read.next && read.entries.size() < room)
            scan_on(read, std::min(room - read.entries.size(), most_scanned));
        return read;
    }

    // Returns an iterator at the least key.
    [[nodiscard]] iterator begin() const { return ascending(0, UINT64_MAX); }
    // Returns the end of ascending iterators.
    [[nodiscard]] iterator end() const noexcept { return {}; }

    // Returns an iterator over the keys in descending order.
    [[nodiscard]] reverse_iterator rbegin() const { return descending(0, UINT64_MAX); }
    // Returns the end of descending iterators.
    [[nodiscard]] reverse_iterator rend() const noexcept { return {}; }

    // Returns the range of the keys that are not below `from` and are below `below`. Without
    // `below` it has all keys from `from` on, because each key is below UINT64_MAX. If `from` is not
    // below `below`, the range is empty. That is no error, because std::set has no such call whose
    // error this could follow.
    [[nodiscard]] Range<Of, Entry> range(Key from, Key below = UINT64_MAX) const {
        return Range<Of, Entry>(self(), from, below);
    }

    // Returns the least key, or nothing if there is none.
    [[nodiscard]] std::optional<Entry> first() const { return self().next(0, UINT64_MAX); }

    // Returns the greatest key, or nothing if there is none.
    [[nodiscard]] std::optional<Entry> last() const { return self().prev(most_key, 0); }

    // Returns whether there is no key. It makes a call for the least key, and throws what that
    // throws.
    [[nodiscard]] bool empty() const { return !first(); }

protected:
    InOrder() = default;

private:
    friend class Iterator<Of, Order::ascending, Entry>;
    friend class Iterator<Of, Order::descending, Entry>;
    friend class Range<Of, Entry>;

    static constexpr std::size_t most_scanned = 1024;  // the most keys of one call of the library

    const Of &self() const noexcept { return static_cast<const Of &>(*this); }

    // Appends at most `room` entries to what a scan has read.
    void scan_on(Scanned<Entry> &read, std::size_t room) const {
        detail::Block<Entry> block{room, {}, *read.next, false};
        bool has_more = self().template fill<Order::ascending>(block, UINT64_MAX);
        if (!has_more || block.next > most_key)
            read.next.reset();
        else
            read.next = block.next;
        if (read.entries.empty())
            read.entries = std::move(block.entries);
        else
            detail::in_memory([&] {
                read.entries.insert(read.entries.end(), block.entries.begin(), block.entries.end());
            });
    }

    // Returns at most `room` entries from `next` on (ascending) or below it (descending), up to the
    // bound of the range in that order. It returns none only for the last block.
    template <Order order>
    detail::Block<Entry> block(std::size_t room, std::uint64_t next, std::uint64_t bound) const {
        detail::Block<Entry> read{room, {}, next, false};
        while (read.entries.empty() && !read.is_last)
            read.is_last = !self().template fill<order>(read, bound);
        return read;
    }

    // Returns the block after this one, with twice the room, so that a loop which ends early has not
    // read many more keys than it went over.
    template <Order order>
    detail::Block<Entry> block_after(const detail::Block<Entry> &before,
                                     std::uint64_t bound) const {
        std::size_t room = std::min<std::size_t>(2 * before.room, 512);
        if (before.is_last) return {room, {}, before.next, true};
        return block<order>(room, before.next, bound);
    }

    // Returns the least entry of a range, or nothing.
    std::optional<Entry> least(std::uint64_t from, std::uint64_t below) const {
        return self().next(from, below);
    }

    // Returns the greatest entry of a range, or nothing.
    std::optional<Entry> greatest(std::uint64_t from, std::uint64_t below) const {
        return below == 0 ? std::nullopt : self().prev(below - 1, from);
    }

    iterator ascending(std::uint64_t from, std::uint64_t below) const {
        return iterator(self(), least(from, below), below);
    }

    reverse_iterator descending(std::uint64_t from, std::uint64_t below) const {
        return reverse_iterator(self(), greatest(from, below), from);
    }
};

// The calls for keys of a set and of a worker. A call for one key has one moment (its linearization
// point) at which its answer was right. A call for several keys takes no snapshot: while others
// insert and remove, each key has a moment of its own.
//
// How long a call waits: for `timeout_ms` of the options, in all; a call for several keys so long
// for each key, and one that reads keys for each block. A call of a set waits while each worker is
// in a call or pinned: NM_NO_WORKER. A call of a worker waits for another thread's call by the same
// worker: NM_IN_USE. Besides, an insert waits for nodes, and no other call does: NM_FULL. While a
// set gets a new size, each call waits for the end of that, however long it takes.
//
// Each call throws NM_KEY if the key is above 2^64 - 4; NM_BUSY if the bound of the call was
// reached, and then the set is unchanged; NM_NO_MEMORY; and NM_CLOSED. A call of a pinned worker
// throws NM_PINNED.
template <typename Of>
class Keys : public InOrder<Of, std::uint64_t> {
public:
    using key_type = std::uint64_t;  // a key

    // ---- one key ----

    // Inserts the key; returns whether it was absent. If no nodes are free, it frees nodes that
    // wait. If none can be freed, it waits until some can, and after its time it throws NM_FULL,
    // with the numbers in the text. If the keys take all nodes and no node
    // waits, it throws NM_FULL at once.
    bool insert(Key key) { return done(nm_pool_insert, key); }

    // Removes the key; returns whether it was present. NM_UNFINISHED: the key will be removed by
    // this call and no other. Until the next call by the same worker it is found, and an insert of
    // it returns false. So remove it again: after false it is gone.
    bool remove(Key key) { return done(nm_pool_remove, key); }

    // Removes the key like `remove`; returns 1 if it was present, and else 0.
    std::size_t erase(Key key) { return remove(key) ? 1 : 0; }

    // Returns whether the set has the key.
    [[nodiscard]] bool contains(Key key) const { return done(nm_pool_contains, key); }

    // Returns 1 if the set has the key, and else 0.
    [[nodiscard]] std::size_t count(Key key) const { return contains(key) ? 1 : 0; }

    // ---- in order ----

    // Removes the least key and returns it, or nothing if the set is empty. No two calls return one
    // key, unless it was inserted again in between. No call passes over a key that was in the set
    // during the whole call. If the bound of the call is reached before the key is cut off
    // (NM_UNFINISHED in C), it returns the key: this call removes it and no other does. The next
    // call by the same worker finishes the remove; until then other calls may find the key.
    std::optional<std::uint64_t> pop_first() { return pop(nm_pool_pop_first); }

    // Removes the greatest key and returns it, in the same way.
    std::optional<std::uint64_t> pop_last() { return pop(nm_pool_pop_last); }

    // Removes the least key if it is below a bound, and returns it, or nothing if none is.
    std::optional<std::uint64_t> pop_first(Key below) {
        std::uint64_t bound = below;
        return pop([=](nm_pool *pool, std::uint32_t worker, std::uint64_t *taken, std::uint32_t ms) {
            return nm_pool_pop_first_below(pool, worker, bound, taken, ms);
        });
    }

    // Removes the greatest key if it is not below a bound, and returns it, or nothing if each is.
    std::optional<std::uint64_t> pop_last(Key from) {
        std::uint64_t bound = from;
        return pop([=](nm_pool *pool, std::uint32_t worker, std::uint64_t *taken, std::uint32_t ms) {
            return nm_pool_pop_last_from(pool, worker, bound, taken, ms);
        });
    }

    // Removes the least keys that are below a bound, one by one and at most `room`, and returns
    // them. SIZE_MAX is allowed: it takes memory for the keys that it returns. It waits for each
    // key like `pop_first`. It throws a fault only if it has removed no key.
    std::vector<std::uint64_t> pop_first_many(Key below, std::size_t room) {
        std::vector<std::uint64_t> popped;
        nm_outcome outcome = NM_YES;
        while (outcome == NM_YES && popped.size() < room)
            outcome = pop_block(below, std::min(room - popped.size(), most_popped), popped);
        if (outcome < 0 && popped.empty()) detail::fail_at(self().place(), outcome, 0);
        return popped;
    }

    // Removes the least key and returns it, like `pop_first`. If the set is empty it waits for a
    // key, for `most` at most, and sleeps meanwhile: an insert wakes it. Returns nothing after that
    // time. Throws NM_CLOSED if the set is closed meanwhile.
    std::optional<std::uint64_t> wait_pop(std::chrono::milliseconds most) {
        return wait_pop(UINT64_MAX, most);
    }

    // Does the same with the least key below a bound.
    std::optional<std::uint64_t> wait_pop(Key below, std::chrono::milliseconds most) {
        std::uint64_t bound = below;
        std::uint32_t timeout_ms = detail::millis(most);
        return pop([=](nm_pool *pool, std::uint32_t worker, std::uint64_t *taken, std::uint32_t) {
            return nm_pool_wait_pop(pool, worker, bound, taken, timeout_ms);
        });
    }

    // Returns the least key, and removes nothing: another thread may remove the key at any time. If
    // the set is empty it waits like `wait_pop`, and each insert wakes it.
    [[nodiscard]] std::optional<std::uint64_t> wait_first(std::chrono::milliseconds most) const {
        return wait_first(UINT64_MAX, most);
    }

    // Does the same with the least key below a bound. If an insert wakes it with another key, it
    // sleeps on.
    [[nodiscard]] std::optional<std::uint64_t> wait_first(Key below,
                                                          std::chrono::milliseconds most) const {
        std::uint64_t found = 0;
        bool is_found = done([&](const detail::Place &to) {
            return nm_pool_wait_first(to.pool, to.worker, below, &found, detail::millis(most));
        });
        return is_found ? std::optional<std::uint64_t>(found) : std::nullopt;
    }

    // Returns how many keys are not below `from` and are below `below`. While others change the
    // set, it counts each key as it finds it. It reads 512 keys a call, and waits for each call.
    [[nodiscard]] std::uint64_t count(Key from, Key below) const {
        std::uint64_t found = 0;
        done([&](const detail::Place &to) {
            return nm_pool_count(to.pool, to.worker, from, below, &found, to.timeout_ms);
        });
        return found;
    }

    // ---- several keys ----

    // Writes for each lookup whether the set has its key. Each answer was right at a moment of the
    // call. 8 to 64 keys a call are fastest.
    void contains_many(std::vector<nm_lookup> &lookups) const {
        done([&](const detail::Place &to) {
            return nm_pool_contains_many(to.pool, to.worker, lookups.data(), lookups.size(),
                                         to.timeout_ms);
        });
    }

    // Inserts these keys, one by one, and appends to `answers` whether each was absent. A look-up
    // of 64 of them at a time comes first: it is faster than single calls if the set is larger than
    // the caches of the processor. It waits for each key like `insert`. If it throws a fault, the
    // keys that have answers are inserted.
    void insert_many(const std::vector<std::uint64_t> &wanted, std::vector<bool> &answers) {
        change_many(nm_pool_insert_many, wanted, answers);
    }

    // Removes these keys in the same way, and appends whether each was present.
    void remove_many(const std::vector<std::uint64_t> &wanted, std::vector<bool> &answers) {
        change_many(nm_pool_remove_many, wanted, answers);
    }

    // Inserts these keys, one by one; returns how many were absent. It waits for each key like
    // `insert`. If it throws a fault, the keys before that one are inserted.
    template <typename Input, typename = typename std::iterator_traits<Input>::iterator_category>
    std::uint64_t insert(Input first, Input last) {
        std::uint64_t inserted = 0;
        for (; first != last; ++first) inserted += insert(Key(*first));
        return inserted;
    }

    // Inserts the keys of a list in the same way.
    std::uint64_t insert(std::initializer_list<Key> list) {
        return insert(list.begin(), list.end());
    }

    // Inserts what a range has in the same way: `set.insert_range(vector)`.
    template <typename From>
    std::uint64_t insert_range(From &&from) {
        std::uint64_t inserted = 0;
        for (auto &&key : from) inserted += insert(Key(key));
        return inserted;
    }

    // Removes the keys that are not below `from` and are below `below`, one by one; returns how many
    // it removed. A key that is inserted meanwhile may remain. It throws what `remove` throws; then
    // the keys before that one are removed.
    std::uint64_t erase(Key from, Key below) {
        return detail::erase_each(self(), this->range(from, below), [](std::uint64_t) { return true; });
    }

    // Removes each key for which `test` returns true, in the same way, like std::erase_if.
    template <typename Test>
    std::uint64_t erase_if(Test test) {
        return detail::erase_each(self(), self(), test);
    }

    // Removes all keys. A key that is inserted meanwhile may remain.
    void clear() { erase(0u, UINT64_MAX); }

    // Moves each key that this set lacks out of another one; returns how many, like std::set::merge. A
    // key that both sets have remains in both. A move is no single step: the key is inserted here, and
    // then removed there, so for a moment both sets have it.
    template <typename Other>
    std::uint64_t merge(Keys<Other> &from) {
        return detail::erase_each(from, from, [this](std::uint64_t key) { return insert(key); });
    }

protected:
    Keys() = default;

    // Makes a call of the pool; returns its outcome. It throws nothing, but a thread may be
    // cancelled while it waits.
    template <typename Call>
    nm_outcome ask(Call call) const {
        detail::Place to = self().place();
        if (to.pool == nullptr) return NM_CLOSED;
        detail::Ordered ordered(to.pool);
        return call(to);
    }

private:
    friend class InOrder<Of, std::uint64_t>;

    const Of &self() const noexcept { return static_cast<const Of &>(*this); }
    Of &self() noexcept { return static_cast<Of &>(*this); }

    // Makes a call of the pool; returns whether its answer is not NM_NO.
    template <typename Call>
    bool done(Call call, std::uint64_t key = 0) const {
        nm_outcome outcome = ask(call);
        if (outcome < 0) detail::fail_at(self().place(), outcome, key);
        return outcome != NM_NO;
    }

    // Makes a call of the pool for one key.
    bool done(nm_outcome (*call)(nm_pool *, std::uint32_t, std::uint64_t, std::uint32_t),
              std::uint64_t key) const {
        return done([=](const detail::Place &to) {
            return call(to.pool, to.worker, key, to.timeout_ms);
        }, key);
    }

    static constexpr std::size_t most_popped = 512;  // for how many keys it takes memory at a time

    // Removes the least keys that are below a bound, at most `room`, and appends them. Returns
    // NM_YES if they are so many, NM_NO if they are fewer, or an error, after which it has removed
    // none.
    nm_outcome pop_block(std::uint64_t below, std::size_t room,
                         std::vector<std::uint64_t> &popped) {
        std::size_t had = popped.size(), count = 0;
        try {
            popped.resize(had + room);
        } catch (const std::bad_alloc &) {
            return NM_NO_MEMORY;
        }
        nm_outcome outcome = ask([&](const detail::Place &to) {
            return nm_pool_pop_first_many(to.pool, to.worker, below, &popped[had], room, &count,
                                          to.timeout_ms);
        });
        popped.resize(had + count);
        return outcome < 0 ? outcome : count == room ? NM_YES : NM_NO;
    }

    // Makes room for more answers, and for twice as many as before if there was too little.
    static void reserve_answers(std::vector<bool> &answers, std::size_t count) {
        std::size_t needed = answers.size() + count;
        if (needed > answers.capacity()) answers.reserve(std::max(needed, 2 * answers.capacity()));
    }

    // Changes keys by a call of the pool, and appends its answers. All memory is taken before the
    // first key is changed.
    template <typename Call>
    void change_many(Call call, const std::vector<std::uint64_t> &wanted,
                     std::vector<bool> &answers) {
        std::vector<unsigned char> bytes;
        detail::in_memory([&] {
            bytes.resize(wanted.size());
            reserve_answers(answers, wanted.size());
        });
        std::size_t count = 0;
        nm_outcome outcome = ask([&](const detail::Place &to) {
            return call(to.pool, to.worker, wanted.data(), wanted.size(), bytes.data(), &count,
                        to.timeout_ms);
        });
        auto end = bytes.begin() + static_cast<std::ptrdiff_t>(count);
        std::transform(bytes.begin(), end, std::back_inserter(answers),
                       [](unsigned char byte) { return byte != 0; });
        if (outcome < 0) detail::fail_at(self().place(), outcome, wanted[count]);
    }

    // Returns the least key that is not below `from` and is below `below`.
    std::optional<std::uint64_t> next(std::uint64_t from, std::uint64_t below) const {
        std::uint64_t found = 0;
        if (from > most_key) return std::nullopt;
        bool is_found = done([&](const detail::Place &to) {
            return nm_pool_next(to.pool, to.worker, from, &found, to.timeout_ms);
        });
        return is_found && found < below ? std::optional<std::uint64_t>(found) : std::nullopt;
    }

    // Returns the greatest key that is not above `to` and not below `from`.
    std::optional<std::uint64_t> prev(std::uint64_t to, std::uint64_t from) const {
        std::uint64_t found = 0, key = to < most_key ? to : most_key;
        bool is_found = done([&](const detail::Place &at) {
            return nm_pool_prev(at.pool, at.worker, key, &found, at.timeout_ms);
        });
        return is_found && found >= from ? std::optional<std::uint64_t>(found) : std::nullopt;
    }

    // Fills a block from its `next` on; returns whether there may be more keys.
    template <Order order>
    bool fill(detail::Block<std::uint64_t> &block, std::uint64_t bound) const {
        constexpr bool is_up = order == Order::ascending;
        constexpr auto read = is_up ? nm_pool_scan : nm_pool_scan_back;
        std::size_t count = 0;
        detail::in_memory([&] { block.entries.resize(block.room); });
        bool has_more = done([&](const detail::Place &to) {
            return read(to.pool, to.worker, block.next, bound, block.entries.data(), block.room,
                        &count, &block.next, to.timeout_ms);
        });
        block.entries.resize(count);
        return has_more;
    }

    // Removes a key by a call of the pool, and returns it. After NM_UNFINISHED it returns the key
    // too, because this call and no other removes it.
    template <typename Call>
    std::optional<std::uint64_t> pop(Call call) {
        std::uint64_t taken = 0;
        bool is_taken = done([&](const detail::Place &to) {
            nm_outcome outcome = call(to.pool, to.worker, &taken, to.timeout_ms);
            return outcome == NM_UNFINISHED ? NM_YES : outcome;
        });
        return is_taken ? std::optional<std::uint64_t>(taken) : std::nullopt;
    }
};

// The result of an advance: NM_DONE, NM_BEHIND, NM_LOST or NM_SPENT, and what nm_worker_advance
// writes.
struct Advance {
    nm_outcome outcome;  // NM_DONE, or why the epoch was not advanced
    std::uint64_t epoch;  // the epoch after the call
    std::uint32_t behind;  // after NM_BEHIND: a worker that holds it back

    // Returns whether this call advanced the epoch.
    [[nodiscard]] bool moved() const noexcept { return outcome == NM_DONE; }
};

// The epoch, and a bit for each worker that holds it back.
struct Behind {
    std::uint64_t epoch;  // the epoch
    std::uint64_t mask;  // a bit for each worker that holds it back
};

// The epoch, and the number of freed nodes.
struct Collected {
    std::uint64_t epoch;  // the epoch
    std::uint64_t freed;  // how many nodes the call freed
};

// The stamp of a worker: how many keys it had inserted and removed when it published the stamp.
struct Stamp {
    std::uint64_t inserted;  // how many keys it had inserted
    std::uint64_t removed;  // how many keys it had removed
};

// The number of free slots, and of slots that are reached from the root, without the five fixed
// ones.
struct Slots {
    std::uint32_t free;  // the free slots
    std::uint32_t reached;  // the slots of the tree, without the five fixed ones
};

// The report that a set was closed with. It can be moved and not copied. A report that was moved
// from is closed. None of its calls waits.
class Report {
public:
    // Makes a closed report.
    Report() = default;

    // Takes the report; `from` is closed after that.
    Report(Report &&from) noexcept
        : handle_(std::exchange(from.handle_, nm_handle{})) {}

    // Takes the report in place of its own, which it gives up.
    Report &operator=(Report &&from) noexcept {
        Report moved(std::move(from));
        std::swap(handle_, moved.handle_);
        return *this;
    }

    // Gives up the report.
    ~Report() { close(); }

    // Gives up the report.
    void close() noexcept { nm_drop(&handle_); }

    // Returns whether it has a report.
    [[nodiscard]] bool is_open() const noexcept {
        std::uint64_t count = 0;
        return nm_report_keys(&handle_, &count) != NM_CLOSED;
    }

    // Returns how many slots the set had free and reached. NM_CLOSED.
    [[nodiscard]] Slots slots() const {
        Slots result{0, 0};
        detail::answered(nm_report_slots(&handle_, &result.free, &result.reached));
        return result;
    }

    // Returns the number of keys that the set had.
    [[nodiscard]] std::uint64_t size() const {
        std::uint64_t count = 0;
        detail::answered(nm_report_keys(&handle_, &count));
        return count;
    }

    // Returns the keys of the set, ascending. NM_NO_MEMORY.
    [[nodiscard]] std::vector<std::uint64_t> keys() const {
        std::uint64_t count = size();
        auto keys = detail::in_memory([=] { return std::vector<std::uint64_t>(count); });
        for (std::uint64_t index = 0; index < count; index++)
            detail::answered(nm_report_key(&handle_, index, &keys[index]));
        return keys;
    }

    // Returns how many of the nodes that a worker cut off wait.
    [[nodiscard]] std::uint64_t queue_len(std::uint32_t worker) const {
        std::uint64_t nodes = 0;
        detail::answered(nm_report_queue(&handle_, worker, &nodes));
        return nodes;
    }

    // Takes the oldest node out of a worker's queue and returns it, or nothing if none waits.
    std::optional<nm_waiting> take_waiting(std::uint32_t worker) {
        nm_waiting result{};
        if (!detail::answered(nm_report_waiting(&handle_, worker, &result))) return std::nullopt;
        return result;
    }

private:
    friend class Set;
    friend class Worker;

    explicit Report(nm_handle handle) noexcept : handle_(handle) {}

    // It is mutable, because each function of C empties the handle while it runs.
    mutable nm_handle handle_{};
};

class Worker;

// A pin of the epoch by a worker, until its end: no node that is in the set now is freed meanwhile.
// It is for tests and proofs. No walk needs it, because each call pins the epoch for itself. Its
// worker answers no call for keys (NM_PINNED), and inserts of all threads may find the set full.
// The worker must neither move nor end before the pin.
class [[nodiscard]] Pin {
public:
    // Takes the pin; `from` ends nothing after that.
    Pin(Pin &&from) noexcept
        : worker_(std::exchange(from.worker_, nullptr)), epoch_(from.epoch_) {}

    // Takes the pin in place of its own, which ends.
    Pin &operator=(Pin &&from) noexcept {
        Pin moved(std::move(from));
        std::swap(worker_, moved.worker_);
        std::swap(epoch_, moved.epoch_);
        return *this;
    }

    // Ends the pin.
    ~Pin() { unpin(); }

    // Ends the pin now.
    void unpin() noexcept;

    // Returns the epoch that it pins.
    [[nodiscard]] std::uint64_t epoch() const noexcept { return epoch_; }

private:
    friend class Worker;

    Pin(Worker &worker, std::uint64_t epoch) noexcept : worker_(&worker), epoch_(epoch) {}

    Worker *worker_;
    std::uint64_t epoch_;
};

// One worker of a set, for one thread at a time. It can be moved and not copied; a worker that was
// moved from is closed. Its destructor and `close` return it to the set, including when an
// exception unwinds. They end its pin, and finish its remove if the bounds of the options allow. A
// set that ends before its workers is left to them, and the last of them ends the tree.
//
// Each call waits for another thread's call by this worker, for `timeout_ms` of the options at
// most: NM_IN_USE. Such a call is another thread's call by this object, or a `collect`, `waiting`
// or `free` of the set. The end of the worker waits for 10 seconds at most; if such a call has not
// ended then, the worker remains attached. If all workers are attached, it may also be any call of
// the set: then the set borrows a worker that is in no call. Before that call ends, it finishes its
// remove, within the bounds of the options. So `try_remove` here does not meet NM_PENDING for
// another thread's key. `stats` and `queue_len` include what calls of the set did by this worker,
// and so does `pending` during such a call.
class Worker : public Keys<Worker> {
public:
    // Makes a closed worker.
    Worker() = default;

    // Takes the worker; `from` is closed after that.
    Worker(Worker &&from) noexcept : place_(std::exchange(from.place_, detail::Place{})) {}

    // Takes the worker in place of its own, which it returns to the set.
    Worker &operator=(Worker &&from) noexcept {
        Worker moved(std::move(from));
        std::swap(place_, moved.place_);
        return *this;
    }

    // Returns the worker to the set, like `close`.
    ~Worker() { close(); }

    // Returns the worker to the set. A closed worker is unchanged.
    void close() noexcept {
        if (!is_open()) return;
        (void)nm_pool_detach(place_.pool, &place_.worker, detail::longest_ms);
        place_ = detail::Place{};
    }

    // Returns whether it has a worker.
    [[nodiscard]] bool is_open() const noexcept { return place_.pool != nullptr; }

    // ---- a key, by the calls of the tree alone in nm_set.h ----

    // Inserts the key by at most `tries` tries: nm_worker_try_insert. Returns NM_YES if it was
    // absent, and else NM_NO. Errors: NM_BUSY, NM_FULL, NM_PENDING, NM_PINNED, NM_KEY, NM_IN_USE,
    // NM_NO_MEMORY, NM_CLOSED.
    [[nodiscard]] nm_outcome try_insert(Key key, std::uint32_t tries = usual_tries) noexcept {
        return Keys::ask([=](const detail::Place &to) {
            return nm_pool_try_insert(to.pool, to.worker, key, tries, to.timeout_ms);
        });
    }

    // Removes the key by at most `tries` tries: nm_worker_try_remove. Returns NM_YES if it was
    // present, and else NM_NO. Errors: NM_UNFINISHED (go on by `try_finish`), NM_BUSY, NM_PENDING,
    // NM_PINNED, NM_KEY, NM_IN_USE, NM_NO_MEMORY, NM_CLOSED.
    [[nodiscard]] nm_outcome try_remove(Key key, std::uint32_t tries = usual_tries) noexcept {
        return Keys::ask([=](const detail::Place &to) {
            return nm_pool_try_remove(to.pool, to.worker, key, tries, to.timeout_ms);
        });
    }

    // Returns NM_YES if the set has the key, and else NM_NO, by at most `tries` tries. Errors:
    // NM_BUSY, NM_PENDING, NM_PINNED, NM_KEY, NM_IN_USE, NM_CLOSED.
    [[nodiscard]] nm_outcome try_contains(Key key,
                                          std::uint32_t tries = usual_tries) const noexcept {
        return ask([=](nm_handle *worker) { return nm_worker_try_contains(worker, key, tries); });
    }

    // Writes for each lookup whether the set has its key: nm_worker_contains_many. Returns NM_DONE.
    // Its errors are those of `try_contains`.
    [[nodiscard]] nm_outcome try_contains_many(std::vector<nm_lookup> &lookups,
                                               std::uint32_t tries = usual_tries) const noexcept {
        nm_lookup none{};
        nm_lookup *at = lookups.empty() ? &none : lookups.data();
        return ask([&](nm_handle *worker) {
            return nm_worker_contains_many(worker, at, lookups.size(), tries);
        });
    }

    // Finds the least key that is not below this one. Returns NM_YES and writes it, or NM_NO.
    [[nodiscard]] nm_outcome try_lower_bound(Key key, std::uint64_t &found,
                                             std::uint32_t tries = usual_tries) const noexcept {
        return ask([&](nm_handle *worker) { return nm_worker_next(worker, key, tries, &found); });
    }

    // Finds the greatest key that is not above this one. Returns NM_YES and writes it, or NM_NO.
    [[nodiscard]] nm_outcome try_prev(Key key, std::uint64_t &found,
                                      std::uint32_t tries = usual_tries) const noexcept {
        return ask([&](nm_handle *worker) { return nm_worker_prev(worker, key, tries, &found); });
    }

    // Goes on with a remove that returned NM_UNFINISHED. Returns NM_YES if it is finished now, and
    // NM_NO if no key is pending, for example because a call of the set that borrowed this worker
    // has finished the remove.
    [[nodiscard]] nm_outcome try_finish(std::uint32_t tries = usual_tries) noexcept {
        return ask([=](nm_handle *worker) { return nm_worker_finish(worker, tries); });
    }

    // ---- the epoch ----

    // Pins the epoch until the end of the result.
    Pin pin(std::uint32_t tries = usual_tries) & {
        std::uint64_t epoch = 0;
        detail::answered(try_pin(epoch, tries));
        return Pin(*this, epoch);
    }

    // A worker that ends at once cannot be pinned.
    Pin pin(std::uint32_t tries = usual_tries) && = delete;

    // Pins the epoch until `try_unpin`, and writes it. Returns NM_DONE. Errors: NM_BUSY,
    // NM_PENDING, NM_PINNED, NM_IN_USE, NM_CLOSED.
    [[nodiscard]] nm_outcome try_pin(std::uint64_t &epoch,
                                     std::uint32_t tries = usual_tries) noexcept {
        return ask([&](nm_handle *worker) { return nm_worker_pin(worker, tries, &epoch); });
    }

    // Ends the pin of `try_pin`. Returns NM_DONE. Errors: NM_NOT_PINNED, NM_IN_USE, NM_CLOSED.
    [[nodiscard]] nm_outcome try_unpin() noexcept { return ask(nm_worker_unpin); }

    // Advances the epoch by one, or returns why not.
    Advance advance() {
        Advance result{NM_DONE, 0, 0};
        result.outcome = ask([&](nm_handle *worker) {
            return nm_worker_advance(worker, &result.epoch, &result.behind);
        });
        if (result.outcome != NM_BEHIND && result.outcome != NM_LOST && result.outcome != NM_SPENT)
            detail::answered(result.outcome);
        return result;
    }

    // Returns the epoch, and which workers hold it back.
    [[nodiscard]] Behind behind() const {
        Behind result{0, 0};
        detail::answered(ask([&](nm_handle *worker) {
            return nm_worker_behind(worker, &result.epoch, &result.mask);
        }));
        return result;
    }

    // Frees what has waited long enough in its queue. Returns the epoch and how many nodes it
    // freed.
    Collected collect() {
        Collected result{0, 0};
        detail::answered(ask([&](nm_handle *worker) {
            return nm_worker_collect(worker, &result.epoch, &result.freed);
        }));
        return result;
    }

    // ---- of itself ----

    // Returns its number in the set. NM_CLOSED.
    [[nodiscard]] std::uint32_t number() const {
        if (!is_open()) detail::answered(NM_CLOSED);
        return place_.worker;
    }

    // Returns the number of nodes that wait in its queue.
    [[nodiscard]] std::uint64_t queue_len() const {
        std::uint64_t nodes = 0;
        detail::answered(ask([&](nm_handle *worker) {
            return nm_worker_queue_len(worker, &nodes);
        }));
        return nodes;
    }

    // Returns the key of an unfinished remove, or nothing.
    [[nodiscard]] std::optional<std::uint64_t> pending() const {
        return found_by(nm_worker_pending);
    }

    // Returns the epoch at which it is pinned, or nothing.
    [[nodiscard]] std::optional<std::uint64_t> pinned() const { return found_by(nm_worker_pinned); }

    // Returns what it has won, and what became of the nodes that it cut off.
    [[nodiscard]] nm_stats stats() const {
        nm_stats result{};
        detail::answered(ask([&](nm_handle *worker) {
            return nm_worker_stats(worker, &result);
        }));
        return result;
    }

    // ---- stamps ----

    // Publishes a stamp of all that it has seen, and writes what it has done so far. NM_BUSY:
    // another worker is observing the earlier stamp at this moment.
    [[nodiscard]] nm_outcome try_publish(Stamp &stamp) noexcept {
        return ask([&](nm_handle *worker) {
            return nm_worker_publish(worker, &stamp.inserted, &stamp.removed);
        });
    }

    // Observes the stamp of the worker of a number, and writes what that one had done by then.
    // NM_NO: it has published none. NM_BUSY: another worker is at that stamp at this moment.
    [[nodiscard]] nm_outcome try_observe(std::uint32_t number, Stamp &stamp) noexcept {
        return ask([&](nm_handle *worker) {
            return nm_worker_observe(worker, number, &stamp.inserted, &stamp.removed);
        });
    }

    // ---- the end ----

    // Ends the set, after the `Set` and its other workers have ended. Returns the report, and
    // closes this worker. NM_ATTACHED: one of them is still open. NM_NO_MEMORY: only another
    // `close_set` goes on. nm_worker_end says what is proved of the report.
    Report close_set() {
        Report report;
        detail::answered(Keys::ask([&](const detail::Place &to) {
            return nm_pool_end(to.pool, &place_.worker, &report.handle_, detail::longest_ms);
        }));
        place_ = detail::Place{};
        return report;
    }

private:
    friend class Set;
    friend class Keys<Worker>;

    explicit Worker(const detail::Place &place) noexcept : place_(place) {}

    [[nodiscard]] const detail::Place &place() const noexcept { return place_; }

    // Makes a call of nm_set.h that changes no key, and repeats it while another thread's call has
    // the worker.
    template <typename Call>
    nm_outcome ask(Call call) const {
        return Keys::ask([&](const detail::Place &to) {
            nm_pool_wait wait{};
            nm_outcome outcome;
            do outcome = call(nm_pool_handle(to.pool, to.worker));
            while (nm_pool_again(to.pool, to.worker, &wait, outcome, to.timeout_ms));
            // In a forked child the handle is closed, and a call of the pool returns NM_FORKED.
            return outcome == NM_CLOSED ? nm_pool_contains(to.pool, to.worker, 0, 0) : outcome;
        });
    }

    // Returns what a function of C writes if it returns NM_YES, or nothing.
    template <typename Call>
    std::optional<std::uint64_t> found_by(Call call) const {
        std::uint64_t found = 0;
        bool is_found = detail::answered(ask([&](nm_handle *it) { return call(it, &found); }));
        return is_found ? std::optional<std::uint64_t>(found) : std::nullopt;
    }

    detail::Place place_;
};

inline void Pin::unpin() noexcept {
    if (worker_ != nullptr) (void)std::exchange(worker_, nullptr)->try_unpin();
}

// What a program that watches a set needs: how full the set is, and how its growths went.
struct SetStats : nm_fullness {
    std::uint64_t growths;  // how often the set has got a new size: it grew, or a caller asked
    std::chrono::nanoseconds longest_pause;  // for how long calls were stopped for that at most
};

// The set. Any number of threads may call it. A call uses a worker that is in no call: one that is
// not attached, or else one that is. One thread moves and destroys the set, while no other thread
// is in a call of it; `close` may be called beside other calls. A set that was moved from is
// closed. The destructor waits for calls that have not ended, for 10 seconds at most.
class Set : public Keys<Set> {
public:
    // Makes the empty set, which grows. It has room for 10,000 keys at first. If an insert finds no
    // free nodes, and none can be freed, the set gets half as many nodes more: all calls wait while
    // its keys are copied (docs/SIZES-AND-LIMITS.md says how). A worker that is pinned or in a call
    // for all of an insert's time prevents that: NM_FULL. Throws NM_WORKERS, NM_NO_MEMORY.
    Set() : Set(Options{}) {}

    // Makes the empty set with these options, which grows.
    explicit Set(const Options &options)
        : place_{detail::pool_of(NM_GROWS, options), NM_ANY, options.timeout_ms} {}

    // Makes the empty set, with room for 7 to 268,435,456 nodes; it never grows by itself. It needs
    // two nodes for each key, five more, and those that were removed and wait to be freed. Throws
    // NM_NODES, NM_WORKERS, NM_NO_MEMORY.
    explicit Set(std::uint64_t nodes, const Options &options = {})
        : place_{detail::pool_of(std::min(nodes, NM_GROWS - 1), options), NM_ANY,
                 options.timeout_ms} {}

    // Makes the set of these keys: `nm::Set(64, nm::keys, {1u, 2u})`. It also throws NM_KEY,
    // NM_FULL.
    Set(std::uint64_t nodes, keys_t, std::initializer_list<Key> list, const Options &options = {})
        : Set(nodes, list.begin(), list.end(), options) {}

    // Makes the set of these keys, which grows.
    Set(keys_t, std::initializer_list<Key> list, const Options &options = {}) : Set(options) {
        insert(list.begin(), list.end());
    }

    // Makes the set of these keys, with that many nodes. It throws what the other two throw.
    template <typename Input, typename = typename std::iterator_traits<Input>::iterator_category>
    Set(std::uint64_t nodes, Input first, Input last, const Options &options = {})
        : Set(nodes, options) {
        insert(first, last);
    }

    // Takes the set; `from` is closed after that.
    Set(Set &&from) noexcept : place_(std::exchange(from.place_, detail::Place{})) {}

    // Takes the set in place of its own, which ends.
    Set &operator=(Set &&from) noexcept {
        Set moved(std::move(from));
        std::swap(place_, moved.place_);
        return *this;
    }

    // Ends the set, after the calls that have not ended.
    ~Set() { nm_pool_free(place_.pool); }

    // ---- a key, with nothing thrown ----
    // These make the managed calls of nm_set.h, with the bounds of the options. They wait for no
    // worker and for no nodes. NM_NO_WORKER: each worker is in a call or pinned. If another thread
    // is stopped while it makes the first call by a worker, they take some tenths of a second. If
    // their own thread is cancelled in them, asynchronously, the process ends, because they are
    // noexcept.

    // Inserts the key; returns NM_YES if it was absent, and else NM_NO. Errors: NM_FULL: no nodes
    // are free, and a collection freed none. NM_KEY, NM_BUSY, NM_NO_MEMORY, NM_NO_WORKER,
    // NM_CLOSED.
    [[nodiscard]] nm_outcome try_insert(Key key) noexcept {
        return ask([=](const detail::Place &to) {
            return nm_pool_insert(to.pool, NM_ANY, key, 0);
        });
    }

    // Removes the key; returns NM_YES if it was present, and else NM_NO. Errors: NM_UNFINISHED: the
    // key will be removed by this call and no other. NM_KEY, NM_BUSY, NM_NO_MEMORY, NM_NO_WORKER,
    // NM_CLOSED.
    [[nodiscard]] nm_outcome try_remove(Key key) noexcept {
        return ask([=](const detail::Place &to) {
            return nm_pool_remove(to.pool, NM_ANY, key, 0);
        });
    }

    // Returns NM_YES if the set has the key, and else NM_NO. Errors: NM_KEY, NM_BUSY, NM_NO_WORKER,
    // NM_CLOSED.
    [[nodiscard]] nm_outcome try_contains(Key key) const noexcept {
        return ask([=](const detail::Place &to) {
            return nm_pool_contains(to.pool, NM_ANY, key, 0);
        });
    }

    // ---- workers for threads ----

    // Attaches a worker to this thread, the least number first. While each worker is attached or in
    // a call it waits, for `most` at most, and then throws NM_NO_WORKER. If no time is given, it
    // waits for `timeout_ms` of the options.
    [[nodiscard]] Worker attach(std::chrono::milliseconds most) {
        Worker taken;
        bound(lend(taken, [=](nm_pool *pool, std::uint32_t *number) {
            return nm_pool_attach(pool, number, detail::millis(most));
        }));
        return taken;
    }

    // Does the same, and waits for `timeout_ms` of the options.
    [[nodiscard]] Worker attach() { return attach(std::chrono::milliseconds(place_.timeout_ms)); }

    // Attaches a worker into a closed one, and waits for no worker. Returns NM_DONE. Errors:
    // NM_NO_WORKER: each worker is attached or in a call. NM_OPEN, NM_CLOSED, NM_NO_MEMORY. If
    // another thread is stopped while it makes the first call by a worker, this takes some tenths
    // of a second (nm_set_worker).
    [[nodiscard]] nm_outcome try_attach(Worker &into) noexcept {
        return lend(into, [](nm_pool *pool, std::uint32_t *number) {
            return nm_pool_attach(pool, number, 0);
        });
    }

    // Attaches the worker of a number to this thread. It waits while a call of the set has that
    // worker, for `timeout_ms` of the options: NM_IN_USE. NM_ATTACHED: the worker is attached.
    // NM_NUMBER.
    [[nodiscard]] Worker worker(std::uint32_t number) {
        Worker taken;
        nm_outcome outcome = lend(taken, [&](nm_pool *pool, std::uint32_t *into) {
            return nm_pool_attach_number(pool, number, into, place_.timeout_ms);
        });
        if (outcome == NM_ATTACHED)
            detail::fail(outcome, [=] {
                return detail::those(std::uint64_t{1} << number) + " attached to a thread";
            });
        if (outcome == NM_NUMBER)
            detail::fail(outcome, [&] {
                return "the set has workers 0 to " + std::to_string(workers() - 1) +
                       ", and none " + std::to_string(number);
            });
        bound(outcome);
        return taken;
    }

    // Attaches the worker of a number into a closed one, and waits for no call. Returns NM_DONE.
    // Errors: NM_ATTACHED: the worker is attached. NM_IN_USE: it is in a call. NM_NUMBER, NM_OPEN,
    // NM_CLOSED, NM_NO_MEMORY. It takes as long as `try_attach`.
    [[nodiscard]] nm_outcome try_worker(Worker &into, std::uint32_t number) noexcept {
        return lend(into, [=](nm_pool *pool, std::uint32_t *taken) {
            return nm_pool_attach_number(pool, number, taken, 0);
        });
    }

    // ---- how full it is ----

    // Returns the number of keys: it adds up one count for each worker, and waits for nothing. It
    // is exact if no call is in progress; otherwise it may miss the calls in progress. An
    // unfinished remove counts as done.
    [[nodiscard]] std::uint64_t size() const {
        std::uint64_t count = 0;
        bound(ask([&](const detail::Place &to) { return nm_pool_size(to.pool, &count); }));
        return count;
    }

    // Returns the number of removed nodes that wait to be freed. It asks each worker, and waits for
    // none. For a worker that is in a call it takes the number of an earlier time, when `waiting`,
    // `free` or an insert into the full set last asked it. So it is exact if no call is in
    // progress.
    [[nodiscard]] std::uint64_t waiting() const { return stats().waiting; }

    // Returns the number of free nodes, computed from `size` and `waiting`. An insert takes two.
    [[nodiscard]] std::uint64_t free() const { return stats().free; }

    // Returns these numbers at once, for a program that watches the set: its nodes and keys, the
    // waiting and the free nodes, a bit for each worker that holds the epoch back, and how its
    // growths went.
    [[nodiscard]] SetStats stats() const {
        SetStats now{};
        std::uint64_t pause = 0;
        bound(ask([&](const detail::Place &to) {
            nm_outcome outcome = nm_pool_fullness(to.pool, &now);
            return outcome < 0 ? outcome : nm_pool_growths(to.pool, &now.growths, &pause);
        }));
        now.longest_pause = std::chrono::nanoseconds(pause);
        return now;
    }

    // Returns the number of nodes for which it has room.
    [[nodiscard]] std::uint64_t nodes() const { return nm_pool_nodes(open_pool()); }

    // Returns how many keys it can have if no removed node waits.
    [[nodiscard]] std::uint64_t capacity() const { return (nodes() - 5) / 2; }

    // Returns how many workers it has.
    [[nodiscard]] std::uint32_t workers() const { return nm_pool_workers(open_pool()); }

    // Advances the epoch as far as possible, and frees what has waited long enough with each worker
    // that is in no call. It waits for no worker. Returns the number of freed nodes.
    std::uint64_t collect() {
        std::uint64_t freed = 0;
        bound(ask([&](const detail::Place &to) { return nm_pool_collect(to.pool, &freed); }));
        return freed;
    }

    // ---- a new size ----
    // These wait for the calls of all workers, for `timeout_ms` of the options at most: NM_IN_USE.
    // NM_PINNED: workers are pinned. After both the text names the workers. Other calls wait while
    // the keys are copied, and for at most 5 milliseconds before. Workers stay attached. What
    // `stats` and stamps have begins anew.

    // Makes room for that many keys, if none waits; it never makes the set smaller. NM_NODES: there
    // cannot be so many. NM_NO_MEMORY.
    void reserve(std::uint64_t count) {
        sized([=](const detail::Place &to, std::uint64_t *missing) {
            return nm_pool_reserve(to.pool, count, to.timeout_ms, missing);
        });
    }

    // Gives back memory: room is left for its keys, and for one more for each worker. NM_NO_MEMORY.
    void shrink_to_fit() {
        sized([](const detail::Place &to, std::uint64_t *missing) {
            return nm_pool_shrink_to_fit(to.pool, to.timeout_ms, missing);
        });
    }

    // ---- the end ----

    // Returns whether it was not closed.
    [[nodiscard]] bool is_open() const noexcept {
        std::uint64_t count = 0;
        return place_.pool != nullptr && nm_pool_size(place_.pool, &count) == NM_DONE;
    }

    // Ends the set, and returns the report of what it had. It waits for the calls of other threads,
    // and for another thread's `close`, for 10 seconds at most. Calls that begin meanwhile wait for
    // its end. Each later call throws NM_CLOSED, and so does each call that waits. NM_ATTACHED: a
    // `Worker` is open. NM_IN_USE: a call has not ended in 10 seconds. After these two the set goes
    // on, and the text names the workers. NM_NO_MEMORY: only another close goes on.
    Report close() {
        Report report;
        std::uint64_t missing = 0;
        nm_outcome outcome = ask([&](const detail::Place &to) {
            return nm_pool_close(to.pool, detail::longest_ms, &report.handle_, &missing);
        });
        if (outcome == NM_ATTACHED)
            detail::fail(outcome, [=] {
                return detail::those(missing) +
                       " attached to a thread: close what attach gave first";
            });
        if (outcome == NM_IN_USE && missing != 0)
            detail::fail(outcome, [=] {
                return detail::those(missing) +
                       " in a call that has not ended in 10 seconds: close again";
            });
        bound(outcome);
        return report;
    }

private:
    friend class Keys<Set>;

    [[nodiscard]] const detail::Place &place() const noexcept { return place_; }

    // Throws the fault of a call that failed.
    void bound(nm_outcome outcome) const {
        if (outcome < 0) detail::fail_at(place_, outcome, 0);
    }

    // Changes the size by a call of the pool, which writes the workers that prevent it.
    template <typename Call>
    void sized(Call call) {
        std::uint64_t missing = 0;
        nm_outcome outcome =
            ask([&](const detail::Place &to) { return call(to, &missing); });
        if (missing != 0)
            detail::fail(outcome, [=] {
                return "the set gets no new size: " + detail::those(missing) +
                       (outcome == NM_PINNED ? " pinned" : " in a call that has not ended");
            });
        bound(outcome);
    }

    // Returns the pool. Throws NM_CLOSED if the set is closed.
    nm_pool *open_pool() const {
        if (!is_open()) bound(NM_CLOSED);
        return place_.pool;
    }

    // Attaches a worker into a closed one, by a call that writes its number.
    template <typename Call>
    nm_outcome lend(Worker &into, Call call) {
        if (into.is_open()) return NM_OPEN;
        detail::Place taken = place_;
        nm_outcome outcome =
            ask([&](const detail::Place &to) { return call(to.pool, &taken.worker); });
        if (outcome == NM_DONE) into = Worker(taken);
        return outcome;
    }

    detail::Place place_;
};

// A version of the library.
struct Version {
    std::uint32_t major;  // the first number
    std::uint32_t minor;  // the second number
    std::uint32_t patch;  // the third number
};

// Returns the version of the library that the program runs with.
[[nodiscard]] inline Version version() noexcept {
    Version result{0, 0, 0};
    (void)nm_set_version(&result.major, &result.minor, &result.patch);
    return result;
}

}  // namespace nm

#ifdef __cpp_lib_ranges
// While a set is in use, its size is not the length of a pass, so no container may reserve by it.
template <>
inline constexpr bool std::ranges::disable_sized_range<nm::Set> = true;
#endif

#undef NM_SET_HAS_TSAN

#endif
