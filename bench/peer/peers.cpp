// One set of bench/peers, the one that the first argument names. Reads rows "KEYS LOOKUPS THREADS
// MILLIS" from standard input, and answers each with its million calls a second of all threads: a
// new set of so many random keys, half of its range, for which the threads then make calls on
// random keys of the range, so many look-ups of 100 and of the rest as many inserts as deletes.
#include "nm_set.h"
#include "plain.hpp"
#include "rates.hpp"

#include <cstdlib>
#include <mutex>
#include <set>
#ifdef HAS_CDS
#include <cds/container/bronson_avltree_map_rcu.h>
#include <cds/container/ellen_bintree_set_rcu.h>
#include <cds/container/skip_list_set_rcu.h>
#endif
#if __has_include(<tbb/concurrent_set.h>)
#include <tbb/concurrent_set.h>
#define HAS_TBB 1
#endif

namespace {

using namespace rates;

struct ProvedSet : Proved<nm_set_new, nm_set_attach> {
    using Proved::Proved;

    struct Worker : Attached {
        using Attached::Attached;
        bool contains(Key key) {
            return nm_worker_contains(&handle, key, &nm_default_options) == NM_YES;
        }
        bool add(Key key) { return nm_worker_insert(&handle, key, &nm_default_options) == NM_YES; }
        bool remove(Key key) { return nm_worker_remove(&handle, key, &nm_default_options) == NM_YES; }
    };
};

template <class Access> struct PlainSet : plain::Set {
    PlainSet(std::size_t keys, unsigned threads) : plain::Set(nodes_for(keys), threads) {}
    using Worker = Access;
};

struct LockedSet {
    LockedSet(std::size_t, unsigned) {}
    std::mutex lock;
    std::set<Key> keys;

    struct Worker {
        Worker(LockedSet &of, unsigned) : set(of) {}
        bool contains(Key key) { return std::lock_guard(set.lock), set.keys.count(key) != 0; }
        bool add(Key key) { return std::lock_guard(set.lock), set.keys.insert(key).second; }
        bool remove(Key key) { return std::lock_guard(set.lock), set.keys.erase(key) != 0; }
        LockedSet &set;
    };
};

#ifdef HAS_CDS
// Any set of libcds with insert, erase and contains.
template <class Container> struct CdsSet {
    CdsSet(std::size_t, unsigned) {}
    Container keys;

    struct Worker {
        Worker(CdsSet &of, unsigned) : set(of) {}
        bool contains(Key key) { return set.keys.contains(key); }
        bool add(Key key) { return set.keys.insert(key); }
        bool remove(Key key) { return set.keys.erase(key); }
        CdsThread thread;
        CdsSet &set;
    };
};

struct OwnKey {
    void operator()(Key &to, const Key &from) const { to = from; }
};

using EllenTraits = cds::container::ellen_bintree::make_set_traits<
    cds::container::ellen_bintree::key_extractor<OwnKey>, cds::opt::less<std::less<Key>>>::type;
using AvlTraits =
    cds::container::bronson_avltree::make_traits<cds::opt::less<std::less<Key>>>::type;
using SkipTraits = cds::container::skip_list::make_traits<cds::opt::less<std::less<Key>>>::type;

using EllenSet = CdsSet<cds::container::EllenBinTreeSet<Reclaimer, Key, Key, EllenTraits>>;
using AvlSet = CdsSet<cds::container::BronsonAVLTreeMap<Reclaimer, Key, int, AvlTraits>>;
using SkipSet = CdsSet<cds::container::SkipListSet<Reclaimer, Key, SkipTraits>>;
#endif

#ifdef HAS_TBB
// It has no concurrent erase, so it is measured with look-ups alone.
struct TbbSet {
    TbbSet(std::size_t, unsigned) {}
    tbb::concurrent_set<Key> keys;

    struct Worker {
        Worker(TbbSet &of, unsigned) : set(of) {}
        bool contains(Key key) { return set.keys.contains(key); }
        bool add(Key key) { return set.keys.insert(key).second; }
        bool remove(Key) { std::abort(); }
        TbbSet &set;
    };
};
#endif

int named(const std::string &name) {
    if (name == "set") return serve<ProvedSet>();
    if (name == "plain") return serve<PlainSet<plain::Worker>>();
    if (name == "handles") return serve<PlainSet<plain::Handle>>();
    if (name == "locked") return serve<LockedSet>();
#ifdef HAS_CDS
    if (name == "ellen") return serve_cds<EllenSet>();
    if (name == "avl") return serve_cds<AvlSet>();
    if (name == "skip") return serve_cds<SkipSet>();
#endif
#ifdef HAS_TBB
    if (name == "tbb") return serve<TbbSet>();
#endif
    return 3;
}

}  // namespace

int main(int count, char **words) { return rates::program(count, words, named); }
