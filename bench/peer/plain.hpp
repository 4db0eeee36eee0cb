// The same tree and the same reclamation in plain C++, without a proof: the set is measured against
// it to see what its proof costs. The external binary search tree of Natarajan and Mittal (PPoPP
// 2014), or the radix tree with its edges (Morrison, JACM 1968), over slots of one array, whose
// removed nodes wait for two moves of the epoch (Fraser 2004). It is written to be as fast as the
// same contract allows, and is tested by its answers alone.
#ifndef PLAIN_HPP
#define PLAIN_HPP

#include <atomic>
#include <cstdint>
#include <deque>
#include <memory>
#include <vector>

namespace plain {

using Word = std::atomic<std::uint64_t>;

// A slot with its two marks: the edge's leaf is being removed, the edge is frozen.
struct Edge {
    static constexpr std::uint64_t flag = 2, tag = 1;
    static std::uint64_t to(std::uint64_t slot) { return slot << 2; }
    static std::uint64_t slot(std::uint64_t edge) { return edge >> 2; }
};

// A leaf has no left edge. 32 bytes, so that no node lies in two cache lines.
struct alignas(32) Node {
    Word key, left, right, birth;
};

struct alignas(64) Line {
    Word word;
};

constexpr std::uint64_t infinity_0 = UINT64_MAX - 2, infinity_1 = UINT64_MAX - 1,
                        infinity_2 = UINT64_MAX;
constexpr unsigned collect_after = 64;

enum class Shape { radix, paper };

// The range of a router: all keys with its bits above its lowest 1.
inline bool in_range(std::uint64_t key, std::uint64_t router) {
    return (key ^ router) <= (router ^ (router - 1));
}

// The router that parts two keys: their bits above the first in which they differ, a 1, zeros.
inline std::uint64_t router_of(std::uint64_t key, std::uint64_t other) {
    unsigned bit = 63 - static_cast<unsigned>(__builtin_clzll(key ^ other));
    return (key > other ? key : other) >> bit << bit;
}

class Set {
public:
    Set(std::size_t nodes, unsigned workers)
        : nodes_(new Node[nodes + 1]()), pool_(nodes / 64 + 1), notes_(workers) {
        leaf(3, infinity_0), leaf(4, infinity_1), leaf(5, infinity_2);
        inner(2, infinity_1, 3, 4), inner(1, infinity_2, 2, 5);
        for (std::size_t slot = 6; slot <= nodes; slot++) give(slot);
    }

private:
    template <Shape> friend class BasicWorker;

    void leaf(std::uint64_t slot, std::uint64_t key) {
        nodes_[slot].key.store(key), nodes_[slot].left.store(0), nodes_[slot].right.store(0);
    }

    void inner(std::uint64_t slot, std::uint64_t key, std::uint64_t left, std::uint64_t right) {
        nodes_[slot].key.store(key), nodes_[slot].left.store(Edge::to(left)),
            nodes_[slot].right.store(Edge::to(right));
    }

    void give(std::uint64_t slot) { pool_[slot / 64].fetch_or(std::uint64_t{1} << slot % 64); }

    std::unique_ptr<Node[]> nodes_;
    std::vector<Word> pool_;
    std::vector<Line> notes_;
    Line epoch_{};
};

// One thread's access to a tree of a shape, which its adds give it.
template <Shape shape> class BasicWorker {
public:
    BasicWorker(Set &set, unsigned number)
        : set_(set), note_(set.notes_[number].word), row_(number * 8 % set.pool_.size()) {}

    bool contains(std::uint64_t key) {
        pin();
        std::uint64_t slot = Edge::slot(set_.nodes_[2].left.load()), found;
        for (;;) {
            Node &node = set_.nodes_[slot];
            std::uint64_t left = node.left.load(), right = node.right.load();
            found = node.key.load();
            if (left < Edge::to(1)) break;
            slot = Edge::slot(key < found ? left : right);
        }
        leave();
        return found == key;
    }

    // Looks for the least key and removes it, until it has removed one; infinity_0 if there is
    // none.
    std::uint64_t pop_first() {
        std::uint64_t found = least();
        while (found != infinity_0 && !remove(found)) found = least();
        return found;
    }

    // The least key; infinity_0 if there is none.
    std::uint64_t least() {
        pin();
        std::uint64_t slot = Edge::slot(set_.nodes_[2].left.load()), found;
        for (;;) {
            Node &node = set_.nodes_[slot];
            std::uint64_t left = node.left.load();
            found = node.key.load();
            if (left < Edge::to(1)) break;
            slot = Edge::slot(left);
        }
        leave();
        return found;
    }

    // Writes the keys from `from` on, ascending, at most `room`; returns how many. It keeps the
    // nodes at which it went left, at most 64 in a radix tree.
    std::size_t scan(std::uint64_t from, std::uint64_t *keys, std::size_t room) {
        static_assert(shape == Shape::radix, "the other shape can be deeper");
        std::uint64_t passed[66], slot = 2;
        std::size_t height = 0, count = 0;
        pin();
        for (;;) {
            Node &node = set_.nodes_[slot];
            std::uint64_t left = node.left.load(), found = node.key.load();
            if (left >= Edge::to(1)) {
                bool is_left = from < found;
                if (is_left) passed[height++] = slot;
                slot = Edge::slot(is_left ? left : node.right.load());
                continue;
            }
            if (found >= from && found < infinity_0) keys[count++] = found;
            if (count == room || height == 0 || found >= infinity_0) break;
            slot = Edge::slot(set_.nodes_[passed[--height]].right.load());
        }
        leave();
        return count;
    }

    // Whether the key was not in the set. False too where no slots were free.
    bool add(std::uint64_t key) {
        tend();
        std::uint64_t inner = 0, leaf = 0;
        bool is_new = false;
        pin();
        for (;;) {
            Found at = seek<shape == Shape::radix>(key);
            std::uint64_t found = set_.nodes_[at.leaf].key.load();
            if (found == key) break;
            if (!inner && (!(inner = claim()) || !(leaf = claim()))) break;
            set_.leaf(leaf, key);
            std::uint64_t greater = key < found ? found : key,
                          parting = shape == Shape::radix ? router_of(key, found) : greater;
            if (key < found) set_.inner(inner, parting, leaf, at.leaf);
            else set_.inner(inner, parting, at.leaf, leaf);
            std::uint64_t old = Edge::to(at.leaf);
            if (child(at.parent, key).compare_exchange_strong(old, Edge::to(inner))) {
                inner = leaf = 0;
                is_new = true;
                break;
            }
            if (Edge::slot(old) == at.leaf) clean_up(key, at);
        }
        leave();
        if (inner) set_.give(inner);
        if (leaf) set_.give(leaf);
        return is_new;
    }

    // Whether the key was in the set.
    bool remove(std::uint64_t key) {
        tend();
        pin();
        std::uint64_t flagged = 0;
        bool is_mine = false;
        for (;;) {
            Found at = seek(key);
            if (flagged && at.leaf != flagged) break;
            if (!flagged) {
                if (set_.nodes_[at.leaf].key.load() != key) break;
                std::uint64_t old = Edge::to(at.leaf);
                if (!child(at.parent, key).compare_exchange_strong(old, old | Edge::flag)) {
                    if (Edge::slot(old) == at.leaf) clean_up(key, at);
                    continue;
                }
                flagged = at.leaf;
                is_mine = true;
            }
            if (clean_up(key, at)) break;
        }
        leave();
        return is_mine;
    }

private:
    struct Found {
        std::uint64_t ancestor, successor, parent, leaf;
    };

    struct Waiting {
        std::uint64_t slot, label;
    };

    void pin() {
        std::uint64_t epoch = set_.epoch_.word.load(), again;
        for (;; epoch = again) {
            note_.store(epoch << 1 | 1);
            again = set_.epoch_.word.load();
            if (again == epoch) return;
        }
    }

    void leave() { note_.store(0); }

    Word &child(std::uint64_t slot, std::uint64_t key) {
        Node &node = set_.nodes_[slot];
        return key < node.key.load() ? node.left : node.right;
    }

    // The walk for a key to a leaf, or to the first node in whose range it is not.
    template <bool stops = false> Found seek(std::uint64_t key) {
        std::uint64_t edge = set_.nodes_[2].left.load();
        Found at{1, 2, 2, Edge::slot(edge)};
        for (;;) {
            Node &node = set_.nodes_[at.leaf];
            std::uint64_t left = node.left.load(), right = node.right.load();
            if (left < Edge::to(1)) return at;
            std::uint64_t here = node.key.load(), next = key < here ? left : right;
            if (stops && !in_range(key, here)) return at;
            if (!(edge & Edge::tag)) at.ancestor = at.parent, at.successor = at.leaf;
            at.parent = at.leaf, at.leaf = Edge::slot(next), edge = next;
        }
    }

    // Cuts off the chain that ends at the parent, of which one edge is flagged: whether this call
    // did.
    bool clean_up(std::uint64_t key, const Found &at) {
        Node &parent = set_.nodes_[at.parent];
        bool is_left = key < parent.key.load();
        Word *removed = is_left ? &parent.left : &parent.right,
             *kept = is_left ? &parent.right : &parent.left;
        if (!(removed->load() & Edge::flag)) std::swap(removed, kept);
        std::uint64_t stays = kept->fetch_or(Edge::tag), old = Edge::to(at.successor);
        if (!child(at.ancestor, key).compare_exchange_strong(old, stays & ~Edge::tag)) return false;
        std::uint64_t label = set_.epoch_.word.load();
        for (std::uint64_t slot = at.successor; slot != at.parent;) {
            Node &node = set_.nodes_[slot];
            std::uint64_t left = node.left.load(), right = node.right.load();
            bool goes_left = left & Edge::tag;
            retire(slot, label), retire(Edge::slot(goes_left ? right : left), label);
            slot = Edge::slot(goes_left ? left : right);
        }
        retire(at.parent, label), retire(Edge::slot(removed->load()), label);
        return true;
    }

    void retire(std::uint64_t slot, std::uint64_t label) { waiting_.push_back({slot, label}); }

    // Frees what has waited long enough, where much waits.
    void tend() {
        if (waiting_.size() < collect_after) return;
        advance(), advance();
        std::uint64_t epoch = set_.epoch_.word.load();
        while (!waiting_.empty() && waiting_.front().label + 2 <= epoch) {
            row_ = waiting_.front().slot / 64;
            set_.give(waiting_.front().slot);
            waiting_.pop_front();
        }
    }

    void advance() {
        std::uint64_t epoch = set_.epoch_.word.load();
        for (Line &note : set_.notes_) {
            std::uint64_t told = note.word.load();
            if (told && told >> 1 != epoch) return;
        }
        set_.epoch_.word.compare_exchange_strong(epoch, epoch + 1);
    }

    // A free slot, looked for from the last row on; 0 where none was found.
    std::uint64_t claim() {
        for (std::size_t rows = set_.pool_.size(); rows--;
             row_ = row_ + 1 == set_.pool_.size() ? 0 : row_ + 1) {
            for (std::uint64_t row = set_.pool_[row_].load(); row; row = set_.pool_[row_].load()) {
                std::uint64_t bit = row & -row;
                if (!(set_.pool_[row_].fetch_and(~bit) & bit)) continue;
                std::uint64_t slot = row_ * 64 + static_cast<std::uint64_t>(__builtin_ctzll(bit));
                set_.nodes_[slot].birth.store(set_.nodes_[slot].birth.load() + 1);
                return slot;
            }
        }
        return 0;
    }

    Set &set_;
    Word &note_;
    std::size_t row_;
    std::deque<Waiting> waiting_;
};

using Worker = BasicWorker<Shape::radix>;
using PaperWorker = BasicWorker<Shape::paper>;

// A worker behind a handle, as the set's are: of two calls that have it at the same time the second
// is refused, so each call takes it by one atomic exchange, and gives it back.
class Handle {
public:
    Handle(Set &set, unsigned number) : worker_(set, number) {}

    bool contains(std::uint64_t key) { return take() && give(worker_.contains(key)); }
    bool add(std::uint64_t key) { return take() && give(worker_.add(key)); }
    bool remove(std::uint64_t key) { return take() && give(worker_.remove(key)); }

    std::uint64_t pop_first() { return take() ? give(worker_.pop_first()) : infinity_0; }

    std::size_t scan(std::uint64_t from, std::uint64_t *keys, std::size_t room) {
        return take() ? give(worker_.scan(from, keys, room)) : 0;
    }

private:
    bool take() { return in_use_.exchange(1) == 0; }

    template <class Answer> Answer give(Answer answer) {
        in_use_.store(0);
        return answer;
    }

    Word in_use_{0};
    Worker worker_;
};

}  // namespace plain

#endif
