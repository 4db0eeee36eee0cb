/* The calls of nm_map.h, which are made of the proved functions of nm_set.h. */
#define _GNU_SOURCE
#include "nm_map.h"
#include "nm_wait.h"

#include <sched.h>
#include <stdalign.h>
#include <stdatomic.h>
#include <stdbool.h>
#include <stdlib.h>
#include <string.h>

enum {
    ROOM = 64,     /* for how many values, and how many keys, one call of the library has room */
    SCANNED = 512, /* how many keys a count reads in one call */
    LOOKS = 256,   /* how often an attach looks at the handle of a map in use before it yields */
    YIELDS = 4,    /* how often it yields before it sleeps or gives up */
    LINE = 64,     /* the bytes of a cache line */
    WORKERS = 64   /* the most workers of a map */
};

#define MOST_KEY (UINT64_MAX - 3) /* the greatest key */

uint32_t nm_map_collect_after(uint32_t nodes, uint32_t workers) {
    uint64_t after = workers == 0 ? nodes : nodes / (8 * (uint64_t)workers);
    return after < 8 ? 8 : after < 64 ? (uint32_t)after : 64;
}

/* Attaches the worker of a number, or any with NM_ANY. It takes the handle of the map by the
 * exchange that each call of the library makes. So the library never looks for long at a handle
 * that a preempted thread has. NM_IN_USE: other calls had the handle for some microseconds. */
static nm_outcome attach_soon(nm_handle *map, nm_handle *worker, uint32_t number) {
    for (int look = 0; look < LOOKS + YIELDS; look++) {
        if (look >= LOOKS) (void)sched_yield();
        if (__atomic_exchange_n(&map->in_use, 1, __ATOMIC_SEQ_CST) != 0) continue;
        nm_handle own = {map->at, 0};
        nm_outcome outcome =
            number == NM_ANY ? nm_map_attach(&own, worker) : nm_map_worker(&own, worker, number);
        map->at = own.at;
        __atomic_store_n(&map->in_use, 0, __ATOMIC_SEQ_CST);
        return outcome;
    }
    return NM_IN_USE;
}

nm_outcome nm_map_wait_attach(nm_handle *map, nm_handle *worker, uint32_t timeout_ms) {
    nm_wait wait = {0, 0};
    nm_outcome outcome;
    do {
        outcome = attach_soon(map, worker, NM_ANY);
        if (outcome == NM_IN_USE) outcome = NM_NO_WORKER;
    } while (outcome == NM_NO_WORKER && nm_wait_on(&wait, timeout_ms));
    return outcome;
}

/* ---- calls that are repeated ---- */

/* Returns whether a call is to be made again, because it lost each of its tries or a remove is
 * pending. It finishes that remove, and counts the rounds. */
static bool is_repeated(nm_handle *worker, const nm_options *options, nm_outcome outcome,
                        uint32_t *round) {
    uint64_t unused;
    if ((outcome != NM_BUSY && outcome != NM_PENDING) || *round == options->rounds) return false;
    ++*round;
    /* A managed call finishes the remove that is pending first. */
    if (outcome == NM_PENDING) (void)nm_map_get(worker, 0, options, &unused);
    return true;
}

nm_outcome nm_map_hold(nm_handle *worker, const nm_options *options, uint64_t *epoch) {
    uint32_t round = 0;
    nm_outcome outcome;
    do outcome = nm_map_pin(worker, options->tries, epoch);
    while (is_repeated(worker, options, outcome, &round));
    return outcome;
}

/* The tries of a call that reads. It takes one to pin, and one or two for its walks. */
static uint32_t reading_tries(const nm_options *options) {
    return options->tries < 3 ? 3 : options->tries;
}

nm_outcome nm_map_at_least(nm_handle *worker, uint64_t key, const nm_options *options,
                           uint64_t *found, uint64_t *value) {
    uint32_t round = 0;
    nm_outcome outcome;
    do outcome = nm_map_next(worker, key, reading_tries(options), found, value);
    while (is_repeated(worker, options, outcome, &round));
    return outcome;
}

nm_outcome nm_map_at_most(nm_handle *worker, uint64_t key, const nm_options *options,
                          uint64_t *found, uint64_t *value) {
    uint32_t round = 0;
    nm_outcome outcome;
    do outcome = nm_map_prev(worker, key, reading_tries(options), found, value);
    while (is_repeated(worker, options, outcome, &round));
    return outcome;
}

static bool is_empty_range(uint64_t from, uint64_t below) {
    return from >= below || from > MOST_KEY;
}

/* Returns the greatest key below a bound. */
static uint64_t before(uint64_t below) { return below > MOST_KEY ? MOST_KEY : below - 1; }

/* Returns the outcome of a scan, and writes how many keys it has read if it was made. */
static nm_outcome read_so_many(nm_outcome outcome, uint64_t read, size_t *count) {
    if (outcome >= 0) *count = read;
    return outcome;
}

nm_outcome nm_map_read_keys(nm_handle *worker, uint64_t from, uint64_t below, uint64_t *keys,
                            size_t room, size_t *count, uint64_t *next,
                            const nm_options *options) {
    uint64_t none = 0, read = 0;
    uint32_t round = 0;
    nm_outcome outcome = NM_NO;
    if (room == 0) keys = &none;
    if (!is_empty_range(from, below)) {
        do outcome = nm_map_scan(worker, from, below, keys, room, &read, next,
                                 reading_tries(options));
        while (is_repeated(worker, options, outcome, &round));
    }
    return read_so_many(outcome, read, count);
}

nm_outcome nm_map_read_keys_back(nm_handle *worker, uint64_t from, uint64_t below, uint64_t *keys,
                                 size_t room, size_t *count, uint64_t *next,
                                 const nm_options *options) {
    uint64_t none = 0, read = 0, rest = 0;
    uint32_t round = 0;
    nm_outcome outcome = NM_NO;
    if (room == 0) keys = &none;
    if (!is_empty_range(from, below)) {
        do outcome = nm_map_scan_back(worker, before(below), from, keys, room, &read, &rest,
                                      reading_tries(options));
        while (is_repeated(worker, options, outcome, &round));
    }
    if (outcome == NM_YES) *next = rest + 1;
    return read_so_many(outcome, read, count);
}

nm_outcome nm_map_read_entries(nm_handle *worker, uint64_t from, uint64_t below, nm_entry *entries,
                               size_t room, size_t *count, uint64_t *next,
                               const nm_options *options) {
    nm_entry none = {0, 0};
    uint64_t read = 0;
    uint32_t round = 0;
    nm_outcome outcome = NM_NO;
    if (room == 0) entries = &none;
    if (!is_empty_range(from, below)) {
        do outcome = nm_map_scan_entries(worker, from, below, entries, room, &read, next,
                                         reading_tries(options));
        while (is_repeated(worker, options, outcome, &round));
    }
    return read_so_many(outcome, read, count);
}

nm_outcome nm_map_read_entries_back(nm_handle *worker, uint64_t from, uint64_t below,
                                    nm_entry *entries, size_t room, size_t *count, uint64_t *next,
                                    const nm_options *options) {
    nm_entry none = {0, 0};
    uint64_t read = 0, rest = 0;
    uint32_t round = 0;
    nm_outcome outcome = NM_NO;
    if (room == 0) entries = &none;
    if (!is_empty_range(from, below)) {
        do outcome = nm_map_scan_entries_back(worker, before(below), from, entries, room, &read,
                                              &rest, reading_tries(options));
        while (is_repeated(worker, options, outcome, &round));
    }
    if (outcome == NM_YES) *next = rest + 1;
    return read_so_many(outcome, read, count);
}

nm_outcome nm_map_count(nm_handle *worker, uint64_t from, uint64_t below, uint64_t *count,
                        const nm_options *options) {
    uint64_t keys[SCANNED], total = 0;
    nm_outcome outcome = NM_YES;
    while (outcome == NM_YES) {
        size_t some = 0;
        outcome = nm_map_read_keys(worker, from, below, keys, SCANNED, &some, &from, options);
        if (outcome >= 0) total += some;
    }
    if (outcome == NM_NO) *count = total;
    return outcome == NM_NO ? NM_DONE : outcome;
}

nm_outcome nm_map_get_many(nm_handle *worker, nm_map_lookup *lookups, size_t count,
                           const nm_options *options) {
    nm_outcome outcome = NM_DONE;
    for (size_t at = 0; at < count && outcome >= 0; at += ROOM) {
        uint64_t epoch;
        outcome = nm_map_hold(worker, options, &epoch);
        if (outcome < 0) return outcome;
        size_t some = count - at < ROOM ? count - at : ROOM;
        outcome = nm_map_get_many_pinned(worker, lookups + at, some);
        (void)nm_map_unpin(worker);
    }
    return outcome;
}

/* ---- how many keys there are, and forks ---- */

/* The number of forks between the start of the program and this process, which nm_pool.c counts
 * after the first call of nm_host_count_forks. */
extern __attribute__((visibility("hidden"))) atomic_ulong nm_host_forks;
__attribute__((visibility("hidden"))) void nm_host_count_forks(void);

/* How calls wait for a key, in nm_pool.c. */
typedef nm_outcome (*look_for)(void *of, uint32_t timeout_ms);
enum { AWAITED, OTHERS = 2 };
__attribute__((visibility("hidden"))) void nm_host_wake(atomic_uint *words);
__attribute__((visibility("hidden"))) nm_outcome nm_host_wait(atomic_uint *words, unsigned kind,
                                                              look_for look, void *of,
                                                              uint32_t timeout_ms);

/* What a worker has done, and the worker itself while it is returned. */
struct tally {
    alignas(LINE) _Atomic uint64_t keys; /* the keys that it has inserted, less those removed */
    _Atomic uint64_t nodes; /* those of its removes and replacements, less those that it has freed */
    atomic_bool is_returned;
    nm_handle worker; /* of the thread whose exchange has found is_returned, or of nobody */
};

struct nm_map_counts {
    alignas(LINE) uint32_t nodes, workers;
    unsigned long forks;
    void *block; /* what malloc returned */
    atomic_uint returned; /* above the number of each worker that was ever returned */
    alignas(LINE) atomic_uint waits[3]; /* of calls that wait for a key */
    struct tally of[];
};

nm_outcome nm_map_counts_new(nm_map_counts **counts, uint32_t nodes, uint32_t workers) {
    if (workers < 1 || workers > WORKERS) return NM_WORKERS;
    size_t size = sizeof(nm_map_counts) + workers * sizeof(struct tally);
    char *block = malloc(size + LINE);
    if (block == NULL) return NM_NO_MEMORY;
    nm_map_counts *made = (nm_map_counts *)(block + (LINE - (uintptr_t)block % LINE));
    memset(made, 0, size);
    nm_host_count_forks();
    made->nodes = nodes;
    made->workers = workers;
    made->forks = atomic_load(&nm_host_forks);
    made->block = block;
    *counts = made;
    return NM_DONE;
}

int nm_map_is_forked(const nm_map_counts *counts) {
    return counts->forks != atomic_load_explicit(&nm_host_forks, memory_order_relaxed);
}

void nm_map_counts_free(nm_map_counts *counts) {
    if (counts != NULL && !nm_map_is_forked(counts)) free(counts->block);
}

/* Adds to a count of a worker, to which no other thread adds at the same time. */
static void add_to(_Atomic uint64_t *count, uint64_t change) {
    uint64_t before = atomic_load_explicit(count, memory_order_relaxed);
    atomic_store_explicit(count, before + change, memory_order_relaxed);
}

void nm_map_count_insert(nm_map_counts *counts, uint32_t worker, nm_outcome outcome) {
    if (worker >= counts->workers) return;
    if (outcome == NM_REPLACED) add_to(&counts->of[worker].nodes, 1);
    if (outcome != NM_YES && outcome != NM_INSERTED) return;
    add_to(&counts->of[worker].keys, 1);
    if (atomic_load_explicit(&counts->waits[AWAITED], memory_order_relaxed) != 0)
        nm_host_wake(counts->waits);
}

void nm_map_count_remove(nm_map_counts *counts, uint32_t worker, nm_outcome outcome) {
    if ((outcome != NM_YES && outcome != NM_UNFINISHED) || worker >= counts->workers) return;
    add_to(&counts->of[worker].keys, UINT64_MAX);
    add_to(&counts->of[worker].nodes, 2);
}

/* Counts nodes that a worker has freed. */
static void count_freed(nm_map_counts *counts, nm_handle *worker, uint64_t nodes) {
    uint32_t number = WORKERS;
    (void)nm_map_number(worker, &number);
    if (number < counts->workers) add_to(&counts->of[number].nodes, -nodes);
}

/* Returns a sum. A remove may be counted before the insert of its key, and freed nodes before their
 * remove. */
static uint64_t sum(uint64_t total) { return total > INT64_MAX ? 0 : total; }

uint64_t nm_map_counts_keys(const nm_map_counts *counts) {
    uint64_t total = 0;
    for (uint32_t worker = 0; worker < counts->workers; worker++)
        total += atomic_load_explicit(&((nm_map_counts *)counts)->of[worker].keys,
                                      memory_order_relaxed);
    return sum(total);
}

uint64_t nm_map_counts_waiting(const nm_map_counts *counts) {
    uint64_t total = 0;
    for (uint32_t worker = 0; worker < counts->workers; worker++)
        total += atomic_load_explicit(&((nm_map_counts *)counts)->of[worker].nodes,
                                      memory_order_relaxed);
    return sum(total);
}

/* ---- a call that waits for a key ---- */

/* The least key that is below a bound, by a worker. */
struct least {
    nm_handle *worker;
    const nm_options *options;
    uint64_t below, *found, *value;
};

static nm_outcome find_least(void *of, uint32_t timeout_ms) {
    const struct least *least = of;
    uint64_t key = 0, value = 0;
    (void)timeout_ms;
    nm_outcome outcome = nm_map_at_least(least->worker, 0, least->options, &key, &value);
    if (outcome == NM_YES && key >= least->below) outcome = NM_NO;
    if (outcome == NM_YES) *least->found = key, *least->value = value;
    return outcome;
}

nm_outcome nm_map_wait_first(nm_handle *worker, uint64_t below, const nm_options *options,
                             nm_map_counts *counts, uint64_t *found, uint64_t *value,
                             uint32_t timeout_ms) {
    struct least least = {worker, options, below, found, value};
    return nm_host_wait(counts->waits, OTHERS, find_least, &least, timeout_ms);
}

/* ---- how full it is ---- */

int nm_map_is_brimful(uint64_t nodes, uint64_t keys, uint64_t wanted) {
    return 2 * keys + 5 + wanted > nodes;
}

void nm_map_fullness(uint64_t nodes, uint64_t keys, uint64_t waiting, uint32_t behind,
                     nm_fullness *fullness) {
    uint64_t taken = 2 * keys + 5, rest = taken < nodes ? nodes - taken : 0;
    *fullness = (nm_fullness){.nodes = nodes, .keys = keys, .free = waiting < rest};
    fullness->waiting = rest - fullness->free;
    if (fullness->waiting != 0 && behind < WORKERS) fullness->behind = (uint64_t)1 << behind;
}

const char *nm_map_full_words(const nm_fullness *fullness, char *text, size_t size) {
    char *what = strstr(nm_full_words(fullness, text, size), "set is full");
    if (what != NULL) memcpy(what, "map", 3);
    return text;
}

/* ---- workers that are lent and returned ---- */

/* Takes the worker of a number, if it is returned. */
static bool take_returned(nm_map_counts *counts, uint32_t number, nm_handle *worker) {
    struct tally *of = &counts->of[number];
    if (!atomic_load(&of->is_returned) || !atomic_exchange(&of->is_returned, false)) return false;
    *worker = of->worker;
    of->worker = (nm_handle)NM_CLOSED_HANDLE;
    return true;
}

static void put_returned(nm_map_counts *counts, uint32_t number, nm_handle *worker) {
    counts->of[number].worker = *worker;
    *worker = (nm_handle)NM_CLOSED_HANDLE;
    atomic_store(&counts->of[number].is_returned, true);
}

/* Takes a worker that is returned, if there is one. A thread begins with that of its processor, so
 * that threads seldom meet. */
static bool take_any_returned(nm_map_counts *counts, nm_handle *worker) {
    uint32_t count = atomic_load(&counts->returned);
    if (count == 0) return false;
    int processor = sched_getcpu();
    uint32_t first = processor < 0 ? 0 : (uint32_t)processor % count;
    for (uint32_t at = 0; at < count; at++)
        if (take_returned(counts, (first + at) % count, worker)) return true;
    return false;
}

nm_outcome nm_map_lend(nm_handle *map, nm_map_counts *counts, nm_handle *worker,
                       uint32_t timeout_ms) {
    nm_wait wait = {0, 0};
    nm_outcome outcome;
    if (worker->at != NULL) return NM_OPEN;
    do {
        if (take_any_returned(counts, worker)) return NM_DONE;
        outcome = attach_soon(map, worker, NM_ANY);
        if (outcome == NM_IN_USE) outcome = NM_NO_WORKER;
    } while (outcome == NM_NO_WORKER && nm_wait_on(&wait, timeout_ms));
    return outcome;
}

nm_outcome nm_map_return(nm_map_counts *counts, nm_handle *worker) {
    uint32_t number = 0;
    nm_outcome outcome = nm_map_number(worker, &number);
    if (outcome < 0) return outcome;
    if (number >= counts->workers) return NM_NUMBER;
    put_returned(counts, number, worker);
    unsigned before = atomic_load(&counts->returned);
    while (before <= number && !atomic_compare_exchange_weak(&counts->returned, &before, number + 1))
        ;
    return NM_DONE;
}

void nm_map_drop_returned(nm_map_counts *counts) {
    nm_handle worker = NM_CLOSED_HANDLE;
    for (uint32_t number = 0; number < counts->workers; number++)
        if (take_returned(counts, number, &worker)) (void)nm_drop(&worker);
}

/* ---- values that come back ---- */

/* Takes back at most ROOM values, and writes how many. It counts the nodes that it frees before
 * `release` makes calls: a removed key has two, and a replaced value has one. */
static nm_outcome take_back_some(nm_handle *worker, nm_map_counts *counts, nm_map_release release,
                                 void *context, uint64_t *count, uint32_t *behind) {
    uint64_t values[ROOM], before = 0, after = 0;
    if (counts != NULL) (void)nm_map_queue_len(worker, &before);
    nm_outcome outcome = nm_map_reclaim(worker, values, ROOM, count, behind);
    if (outcome < 0) return outcome;
    if (counts != NULL && nm_map_queue_len(worker, &after) == NM_DONE && after != before)
        count_freed(counts, worker, before - after);
    for (uint64_t at = 0; at < *count; at++) release(context, values[at]);
    return outcome;
}

nm_outcome nm_map_take_back(nm_handle *worker, nm_map_counts *counts, nm_map_release release,
                            void *context, uint32_t *behind) {
    uint32_t other = NM_NOBODY;
    uint64_t count = ROOM;
    nm_outcome outcome = NM_DONE;
    while (outcome >= 0 && count == ROOM)
        outcome = take_back_some(worker, counts, release, context, &count, &other);
    if (outcome >= 0 && behind != NULL) *behind = other;
    return outcome;
}

nm_outcome nm_map_tend(nm_handle *worker, const nm_options *options, nm_map_counts *counts,
                       nm_map_release release, void *context) {
    uint64_t waiting;
    nm_outcome outcome = nm_map_queue_len(worker, &waiting);
    if (outcome < 0 || waiting < options->collect_after) return outcome;
    return nm_map_take_back(worker, counts, release, context, NULL);
}

/* Takes back what waits with the worker of a number, if it is returned or not attached. */
static nm_outcome take_back_of(nm_handle *map, nm_map_counts *counts, uint32_t number,
                               nm_map_release release, void *context) {
    nm_handle worker = NM_CLOSED_HANDLE;
    if (counts != NULL && number < counts->workers && take_returned(counts, number, &worker)) {
        (void)nm_map_take_back(&worker, counts, release, context, NULL);
        put_returned(counts, number, &worker);
        return NM_DONE;
    }
    nm_outcome outcome = attach_soon(map, &worker, number);
    if (outcome < 0) return outcome;
    outcome = nm_map_take_back(&worker, counts, release, context, NULL);
    (void)nm_drop(&worker);
    return outcome;
}

/* Takes back what waits with each worker that is returned or not attached. Returns false if another
 * call had the handle of the map: then it has not asked all workers. */
static bool has_asked_all(nm_handle *map, nm_map_counts *counts, nm_map_release release,
                          void *context) {
    nm_outcome outcome = NM_DONE;
    for (uint32_t number = 0; outcome >= 0 || outcome == NM_ATTACHED; number++)
        outcome = take_back_of(map, counts, number, release, context);
    return outcome != NM_IN_USE;
}

/* ---- calls that give the map a value, and wait for nodes ---- */

enum kind { INSERT, PUT, REPLACE, COMPARE_REPLACE };

/* One of these calls. */
struct change {
    enum kind kind;
    nm_handle *worker;
    uint64_t key, expected, value;
    const nm_options *options;
    uint64_t *old;
};

static nm_outcome make(const struct change *it) {
    switch (it->kind) {
    case PUT: return nm_map_put(it->worker, it->key, it->value, it->options, it->old);
    case REPLACE: return nm_map_replace(it->worker, it->key, it->value, it->options, it->old);
    case COMPARE_REPLACE:
        return nm_map_compare_replace(it->worker, it->key, it->expected, it->value, it->options,
                                      it->old);
    default: return nm_map_insert(it->worker, it->key, it->value, it->options);
    }
}

/* Returns whether a call inserts its key, if it changes the map. */
static bool is_insert(const struct change *it) {
    uint64_t unused;
    return it->kind == INSERT ||
           (it->kind == PUT && nm_map_get(it->worker, it->key, it->options, &unused) == NM_NO);
}

/* Returns whether the keys leave a call too few nodes, even if none waits: an insert takes two, and
 * a replacement one. */
static bool is_brimful(const nm_map_counts *counts, const struct change *it) {
    uint64_t keys = counts == NULL ? 0 : nm_map_counts_keys(counts);
    if (counts == NULL || !nm_map_is_brimful(counts->nodes, keys, 2)) return false;
    return nm_map_is_brimful(counts->nodes, keys, 1) || is_insert(it);
}

/* Makes a call, after nm_map_tend. While no nodes are free, reclaims and makes it again. */
static nm_outcome wait_make(nm_handle *map, const struct change *it, nm_map_counts *counts,
                            nm_map_release release, void *context, uint32_t timeout_ms) {
    nm_wait wait = {0, 0};
    nm_outcome outcome = nm_map_tend(it->worker, it->options, counts, release, context);
    if (outcome < 0) return outcome;
    outcome = make(it);
    if (outcome != NM_FULL) return outcome;
    bool is_full = is_brimful(counts, it), was_full, is_asked = map == NULL;
    do {
        if (!is_asked && !is_full) is_asked = has_asked_all(map, counts, release, context);
        (void)nm_map_take_back(it->worker, counts, release, context, NULL);
        outcome = make(it);
        was_full = is_full;
        is_full = outcome == NM_FULL && is_brimful(counts, it);
    } while (outcome == NM_FULL && !(was_full && is_full) && nm_wait_on(&wait, timeout_ms));
    return outcome;
}

nm_outcome nm_map_wait_insert(nm_handle *map, nm_handle *worker, uint64_t key, uint64_t value,
                              const nm_options *options, nm_map_counts *counts,
                              nm_map_release release, void *context, uint32_t timeout_ms) {
    struct change it = {INSERT, worker, key, 0, value, options, NULL};
    return wait_make(map, &it, counts, release, context, timeout_ms);
}

nm_outcome nm_map_wait_put(nm_handle *map, nm_handle *worker, uint64_t key, uint64_t value,
                           const nm_options *options, nm_map_counts *counts,
                           nm_map_release release, void *context, uint64_t *old,
                           uint32_t timeout_ms) {
    struct change it = {PUT, worker, key, 0, value, options, old};
    return wait_make(map, &it, counts, release, context, timeout_ms);
}

nm_outcome nm_map_wait_replace(nm_handle *map, nm_handle *worker, uint64_t key, uint64_t value,
                               const nm_options *options, nm_map_counts *counts,
                               nm_map_release release, void *context, uint64_t *old,
                               uint32_t timeout_ms) {
    struct change it = {REPLACE, worker, key, 0, value, options, old};
    return wait_make(map, &it, counts, release, context, timeout_ms);
}

nm_outcome nm_map_wait_compare_replace(nm_handle *map, nm_handle *worker, uint64_t key,
                                       uint64_t expected, uint64_t value,
                                       const nm_options *options, nm_map_counts *counts,
                                       nm_map_release release, void *context, uint64_t *found,
                                       uint32_t timeout_ms) {
    struct change it = {COMPARE_REPLACE, worker, key, expected, value, options, found};
    return wait_make(map, &it, counts, release, context, timeout_ms);
}

/* ---- the end ---- */

/* Removes these keys. Their values come back later. */
static nm_outcome remove_each(nm_handle *worker, const uint64_t *keys, uint64_t count) {
    nm_outcome outcome = NM_DONE;
    for (uint64_t at = 0; at < count && outcome >= 0; at++) {
        uint64_t unused;
        outcome = nm_map_remove(worker, keys[at], &nm_default_options, &unused);
    }
    return outcome;
}

/* Removes all keys, and takes back their values. */
static nm_outcome remove_all(nm_handle *worker, nm_map_release release, void *context) {
    uint64_t keys[ROOM], count = 0, next = 0;
    nm_outcome more = NM_YES, outcome = NM_DONE;
    while (more == NM_YES && outcome >= 0) {
        more = nm_map_scan(worker, next, UINT64_MAX, keys, ROOM, &count, &next,
                           nm_default_options.tries);
        if (more < 0) return more;
        outcome = remove_each(worker, keys, count);
        if (outcome >= 0) outcome = nm_map_take_back(worker, NULL, release, context, NULL);
    }
    return outcome;
}

/* Removes all keys by a worker, and takes back all that waits with it. */
static nm_outcome empty_by(nm_handle *worker, nm_map_release release, void *context) {
    uint64_t waiting, unused;
    /* A managed call finishes the remove that is pending first. */
    nm_outcome outcome = nm_map_get(worker, 0, &nm_default_options, &unused);
    if (outcome >= 0) outcome = remove_all(worker, release, context);
    if (outcome >= 0) outcome = nm_map_take_back(worker, NULL, release, context, NULL);
    if (outcome >= 0) outcome = nm_map_queue_len(worker, &waiting);
    if (outcome < 0) return outcome;
    return waiting == 0 ? NM_DONE : NM_BEHIND;
}

/* Empties a map by the worker of a number. */
static nm_outcome empty_by_number(nm_handle *map, uint32_t number, nm_map_release release,
                                  void *context) {
    nm_handle worker = NM_CLOSED_HANDLE;
    nm_outcome outcome = nm_map_worker(map, &worker, number);
    if (outcome < 0) return outcome;
    outcome = empty_by(&worker, release, context);
    (void)nm_drop(&worker);
    return outcome;
}

/* Empties a map by each of its workers in turn. If some fail, it goes on, and returns why one of
 * them did: NM_NO_MEMORY if that is one of the reasons. */
static nm_outcome empty(nm_handle *map, nm_map_release release, void *context) {
    nm_outcome outcome = NM_DONE, reason = NM_DONE;
    for (uint32_t number = 0; outcome != NM_NUMBER && number < 64; number++) {
        outcome = empty_by_number(map, number, release, context);
        if (outcome < 0 && outcome != NM_NUMBER && reason != NM_NO_MEMORY) reason = outcome;
    }
    return reason;
}

nm_outcome nm_map_drain(nm_handle *map, nm_map_release release, void *context,
                        uint32_t timeout_ms) {
    nm_wait wait = {0, 0};
    nm_outcome outcome = empty(map, release, context);
    while (outcome == NM_NO_MEMORY && nm_wait_on(&wait, timeout_ms))
        outcome = empty(map, release, context);
    return outcome;
}
