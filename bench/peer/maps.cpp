// One map of bench/maps, the one that the first argument names. It reads and answers rows like peers.cpp.
// A look-up gets the value of a key, and the values are the keys.
#include "nm_map.h"
#include "nm_set.h"
#include "rates.hpp"

#include <cstdlib>
#include <map>
#include <mutex>
#ifdef HAS_CDS
#include <cds/container/bronson_avltree_map_rcu.h>
#include <cds/container/ellen_bintree_map_rcu.h>
#include <cds/container/skip_list_map_rcu.h>
#endif
#if __has_include(<tbb/concurrent_map.h>)
#include <tbb/concurrent_map.h>
#define HAS_TBB 1
#endif

namespace {

using namespace rates;

struct ProvedMap : Proved<nm_map_new, nm_map_attach> {
    using Proved::Proved;

    struct Worker : Attached {
        using Attached::Attached;
        bool contains(Key key) {
            Key value;
            return nm_map_get(&handle, key, &nm_default_options, &value) == NM_YES;
        }
        bool add(Key key) {
            return nm_map_wait_insert(nullptr, &handle, key, key, &nm_default_options, nullptr, take,
                                      nullptr, 0) == NM_YES;
        }
        bool remove(Key key) {
            Key value;
            nm_map_tend(&handle, &nm_default_options, nullptr, take, nullptr);
            return nm_map_remove(&handle, key, &nm_default_options, &value) == NM_YES;
        }
        static void take(void *, Key) {}
    };
};

// The map, by a worker that unpins and pins again after every 64 look-ups.
struct PinnedMap : ProvedMap {
    using ProvedMap::ProvedMap;

    struct Worker : ProvedMap::Worker {
        using ProvedMap::Worker::Worker;
        ~Worker() { unpin(); }
        bool contains(Key key) {
            Key value;
            if (left == 0) pin_again(64);
            left--;
            return nm_map_get_pinned(&handle, key, &value) == NM_YES;
        }
        void pin_again(unsigned looks) {
            std::uint64_t epoch;
            unpin();
            if (nm_map_hold(&handle, &nm_default_options, &epoch) != NM_DONE) std::abort();
            is_pinned = true, left = looks;
        }
        void unpin() {
            if (is_pinned) nm_map_unpin(&handle);
            is_pinned = false;
        }
        unsigned left = 0;
        bool is_pinned = false;
    };
};

// The map, by calls that look up SEVERAL keys, each under a pin of its own.
struct SeveralMap : ProvedMap {
    using ProvedMap::ProvedMap;
    static constexpr std::size_t SEVERAL = 16;

    struct Worker : ProvedMap::Worker {
        using ProvedMap::Worker::Worker;
        bool contains(Key key) {
            lookups[kept++].key = key;
            if (kept < SEVERAL) return false;
            kept = 0;
            return nm_map_get_many(&handle, lookups, SEVERAL, &nm_default_options) == NM_DONE;
        }
        nm_map_lookup lookups[SEVERAL];
        std::size_t kept = 0;
    };
};

struct LockedMap {
    LockedMap(std::size_t, unsigned) {}
    std::mutex lock;
    std::map<Key, Key> values;

    struct Worker {
        Worker(LockedMap &of, unsigned) : map(of) {}
        bool contains(Key key) {
            std::lock_guard guard(map.lock);
            auto at = map.values.find(key);
            if (at != map.values.end()) value = at->second;
            return at != map.values.end();
        }
        bool add(Key key) { return std::lock_guard(map.lock), map.values.emplace(key, key).second; }
        bool remove(Key key) { return std::lock_guard(map.lock), map.values.erase(key) != 0; }
        LockedMap &map;
        volatile Key value = 0;
    };
};

#ifdef HAS_CDS
// Any map of libcds with insert, erase and find.
template <class Container> struct CdsMap {
    CdsMap(std::size_t, unsigned) {}
    Container values;

    struct Worker {
        Worker(CdsMap &of, unsigned) : map(of) {}
        bool contains(Key key) {
            return map.values.find(key, [this](auto &...found) { value = value_of(found...); });
        }
        bool add(Key key) { return map.values.insert(key, key); }
        bool remove(Key key) { return map.values.erase(key); }
        template <class Pair> static Key value_of(Pair &found) { return found.second; }
        static Key value_of(const Key &, Key &found) { return found; }
        CdsThread thread;
        CdsMap &map;
        volatile Key value = 0;
    };
};

using EllenTraits =
    cds::container::ellen_bintree::make_map_traits<cds::opt::less<std::less<Key>>>::type;
using AvlTraits =
    cds::container::bronson_avltree::make_traits<cds::opt::less<std::less<Key>>>::type;
using SkipTraits = cds::container::skip_list::make_traits<cds::opt::less<std::less<Key>>>::type;

using EllenMap = CdsMap<cds::container::EllenBinTreeMap<Reclaimer, Key, Key, EllenTraits>>;
using AvlMap = CdsMap<cds::container::BronsonAVLTreeMap<Reclaimer, Key, Key, AvlTraits>>;
using SkipMap = CdsMap<cds::container::SkipListMap<Reclaimer, Key, Key, SkipTraits>>;
#endif

#ifdef HAS_TBB
// It has no concurrent erase, so it is measured with look-ups alone.
struct TbbMap {
    TbbMap(std::size_t, unsigned) {}
    tbb::concurrent_map<Key, Key> values;

    struct Worker {
        Worker(TbbMap &of, unsigned) : map(of) {}
        bool contains(Key key) {
            auto at = map.values.find(key);
            if (at != map.values.end()) value = at->second;
            return at != map.values.end();
        }
        bool add(Key key) { return map.values.emplace(key, key).second; }
        bool remove(Key) { std::abort(); }
        TbbMap &map;
        volatile Key value = 0;
    };
};
#endif

int named(const std::string &name) {
    if (name == "map") return serve<ProvedMap>();
    if (name == "pinned") return serve<PinnedMap>();
    if (name == "several") return serve<SeveralMap>();
    if (name == "locked") return serve<LockedMap>();
#ifdef HAS_CDS
    if (name == "ellen") return serve_cds<EllenMap>();
    if (name == "avl") return serve_cds<AvlMap>();
    if (name == "skip") return serve_cds<SkipMap>();
#endif
#ifdef HAS_TBB
    if (name == "tbb") return serve<TbbMap>();
#endif
    return 3;
}

}  // namespace

int main(int count, char **words) { return rates::program(count, words, named); }
