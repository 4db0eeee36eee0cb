// An index builder: four threads load pairs of a term and a document, and a reader counts the
// documents of a term while they load.
//
// A key is the term in the high bits and the document in the low bits. So the documents of a term
// are one range of keys. Each loader attaches a worker of its own, because it makes many calls. The
// set gets a number of nodes, so that it need not grow: a key that is only inserted takes two, and
// the set itself five.
#include <nm_set.hpp>

#include <algorithm>
#include <iostream>
#include <thread>
#include <vector>

constexpr unsigned loaders = 4, documents = 20'000, terms = 250;

std::uint64_t key_of(std::uint64_t term, std::uint64_t document) { return term << 32 | document; }

// The terms of a document, each once.
std::vector<std::uint64_t> terms_of(std::uint64_t document) {
    std::vector<std::uint64_t> found = {document % 7, 7 + document % 11,
                                        18 + document * document % (terms - 18)};
    return found;
}

class Index {
  public:
    explicit Index(std::uint64_t pairs) : pairs_(2 * pairs + 5) {}

    // Loads every fourth document, by one worker. Returns false if the set is full.
    bool load(unsigned part) {
        nm::Worker worker = pairs_.attach();
        for (std::uint64_t document = part; document < documents; document += loaders)
            for (std::uint64_t term : terms_of(document)) {
                nm_outcome outcome = worker.try_insert(key_of(term, document));
                while (outcome == NM_BUSY) outcome = worker.try_insert(key_of(term, document));
                if (outcome != NM_YES) return false;
            }
        return true;
    }

    // Counts the documents of a term. A document that is loaded meanwhile may be counted or not.
    [[nodiscard]] std::uint64_t count(std::uint64_t term) const {
        std::uint64_t found = 0;
        for (std::uint64_t key : pairs_.range(key_of(term, 0), key_of(term + 1, 0)))
            found += key >> 32 == term;
        return found;
    }

    [[nodiscard]] std::uint64_t size() const { return pairs_.size(); }

  private:
    nm::Set pairs_;
};

// How many documents of these numbers have a term.
std::uint64_t expected(std::uint64_t term) {
    std::uint64_t found = 0;
    for (std::uint64_t document = 0; document < documents; document++) {
        std::vector<std::uint64_t> its = terms_of(document);
        found += std::uint64_t(std::count(its.begin(), its.end(), term));
    }
    return found;
}

int main() {
    Index index(3 * documents);
    std::vector<std::thread> threads;
    std::vector<char> is_loaded(loaders);
    for (unsigned part = 0; part < loaders; part++)
        threads.emplace_back([&, part] { is_loaded[part] = index.load(part); });
    std::uint64_t seen = 0;
    bool grows = true;
    for (int look = 0; look < 5; look++) {  // no document is ever removed, so no count shrinks
        std::uint64_t found = index.count(3);
        grows = grows && found >= seen;
        seen = found;
        std::cout << found << " documents of term 3, of " << index.size() << " pairs\n";
    }
    for (std::thread &thread : threads) thread.join();
    bool is_right = std::count(is_loaded.begin(), is_loaded.end(), 1) == loaders;
    for (std::uint64_t term = 0; term < terms; term++)
        is_right = is_right && index.count(term) == expected(term);
    std::cout << "loaded " << index.size() << " pairs\n";
    return grows && is_right && index.size() == 3 * documents ? 0 : 1;
}
