/* A concurrent ordered set of 64-bit unsigned integers, without locks, and a map from them to 64-bit
 * values (nm_map_new). The proof covers each function below. Keys are 0 to 2^64 - 4. nm_set.hpp is
 * the set for C++, and nm_wait.h has calls that wait; both are tested, not proved.
 *
 *     nm_handle set = NM_CLOSED_HANDLE, worker = NM_CLOSED_HANDLE;
 *     nm_set_new(&set, 8192, 2);               a set for two workers
 *     nm_set_worker(&set, &worker, 0);         attaches worker 0 to this thread
 *     nm_worker_insert(&worker, 5, &nm_default_options);    NM_YES: the key was absent
 *     nm_drop(&worker);                        returns worker 0
 *     nm_set_close(&set);                      from now on the handle owns the report
 *     nm_drop(&set);
 *
 * A handle is two words of the caller's memory. It is closed, or it owns a set or a map, one worker
 * of one, or the report that one was closed with. A worker is attached while a handle owns it, and
 * returned when that handle is dropped. Misuse of open and closed handles, kinds, keys, numbers and
 * sizes returns an error and changes nothing. A function writes a parameter only if its outcome
 * says so.
 *
 * The library cannot test the following. The caller must see to it:
 *
 * - A handle is all zero before its first use. From then on only the functions below write it. It
 *   may be moved to another place, by memcpy or by a return. The place that it was moved from is
 *   no handle until it is all zero again. If an open handle is overwritten or lost, its memory
 *   stays taken, and its worker stays attached.
 * - A pointer is to a place of its type. Unless it is to a handle, no other call is using that
 *   place. Two parameters of one call are at different places.
 * - A handle was set to zero, or moved to its place, before another thread's first call with it:
 *   a lock, the start or the join of a thread, or a sequentially consistent atomic orders the two.
 * - malloc, realloc and free are of one allocator, may be called by several threads, and align as
 *   C says.
 * - No signal handler, and no forked child of a process with threads, calls a function.
 *
 * Calls with different handles may run at the same time; those of one set are made for it. If two
 * calls have one handle at the same time, the second returns NM_IN_USE and changes nothing. Several
 * threads may take their workers by one handle of a set at once, by nm_set_worker and
 * nm_set_attach, without a lock: each has the handle only for the moment of the take. If one of
 * these finds another call there, it looks again for some tenths of a second; so do nm_set_attached
 * and nm_set_close, and the four functions of a map that are like these. If a thread is stopped for
 * longer, they return NM_IN_USE: call again, as nm_wait.h does. No other function waits, except
 * that malloc and free may. The handle of a worker or a report is for one thread at a time:
 * NM_IN_USE is then a fault of the program, which has cost nothing. A program reads no word of a
 * handle, because each call empties it while it runs.
 *
 * What a thread wrote to memory before it inserted a key is visible to each thread whose call finds
 * or removes that key: so a key may hand over a payload. So may a value that replaces another one.
 * (Each atomic step of the library is sequentially consistent.)
 *
 * A thread needs a stack of 16 kilobytes for each call. Tested; no clause of the proof says so.
 */
#ifndef NM_SET_H
#define NM_SET_H

#ifdef __cplusplus
#if __cplusplus < 201103L
#error "nm_set.h needs C++11 or later, and nm_set.hpp C++17: compile with -std=c++17"
#endif
#elif !defined __STDC_VERSION__ || __STDC_VERSION__ < 199901L
#error "nm_set.h needs C99 or later: compile with -std=c99"
#endif

#include <stddef.h>
#include <stdint.h>

/* The version of this header, as text and in three numbers. */
#define NM_SET_VERSION "0.1.0"
#define NM_SET_VERSION_MAJOR 0
#define NM_SET_VERSION_MINOR 1
#define NM_SET_VERSION_PATCH 0

#ifdef __cplusplus
extern "C" {
#endif

/* The outcome of a call: an answer, 0 or above, or an error, below 0. An error has changed nothing,
 * unless its line says more. */
typedef enum nm_outcome {
    NM_NO = 0,            /* the answer is no */
    NM_YES = 1,           /* the answer is yes */
    NM_DONE = 2,          /* the call did what it is for */
    NM_INSERTED = 3,      /* the key was absent, and is inserted with the value */
    NM_REPLACED = 4,      /* the value of the key is replaced */
    NM_ABSENT = 5,        /* the key is absent, and nothing is changed */
    NM_OTHER = 6,         /* the key has another value than the expected one, and nothing is
                             changed */
    NM_CLOSED = -1,       /* the handle is closed */
    NM_OPEN = -2,         /* the handle that was to be opened is open already */
    NM_KIND = -3,         /* the handle owns something of another kind */
    NM_KEY = -4,          /* the key is above 2^64 - 4 */
    NM_NUMBER = -5,       /* there is nothing of that number */
    NM_NODES = -6,        /* the number of nodes is not 7 to 268,435,456 */
    NM_WORKERS = -7,      /* the number of workers is not 1 to 64 */
    NM_NO_MEMORY = -8,    /* memory was refused */
    NM_BUSY = -9,         /* other threads interfered with each try, or the call has none. Of the
                             call nothing remains but help given to others; call again */
    NM_FULL = -10,        /* no slots were free for the two new nodes of an insert, or the one of a
                             replacement: advance and collect, and call again (nm_wait_insert of
                             nm_wait.h); in a map, reclaim and call again */
    NM_UNFINISHED = -11,  /* the leaf with the key is flagged and not known to be cut off: the key
                             will be removed, and is pending until nm_worker_finish or a managed
                             call by this worker finishes it. Until then it is found */
    NM_PENDING = -12,     /* a key is pending, so that only nm_worker_finish or a managed call goes
                             on */
    NM_PINNED = -13,      /* the caller has pinned the worker, and has not unpinned it */
    NM_NOT_PINNED = -14,  /* the caller has not pinned the worker */
    NM_BEHIND = -15,      /* a worker holds the epoch back */
    NM_LOST = -16,        /* another worker advanced the epoch first */
    NM_SPENT = -17,       /* the epoch is the last one */
    NM_ATTACHED = -18,    /* the worker is attached or has resigned, or a worker of the set is
                             still attached */
    NM_CLOSING = -19,     /* a close was refused after all workers had been gathered: only
                             nm_set_close or nm_map_close goes on */
    NM_NOT_ALL = -20,     /* fewer workers were returned than the set has. No test has met it: if a
                             worker is lost, the calls return NM_ATTACHED */
    NM_UNCOUNTED = -21,   /* there are as many handles as can be counted. No test has met it: a set
                             has 64 workers at most */
    NM_IN_USE = -22,      /* another call has the handle at this moment */
    NM_NO_WORKER = -23    /* each worker of the set is attached */
} nm_outcome;

/* Returns an outcome in words, which are never freed. Every number has words. */
static inline const char *nm_outcome_text(nm_outcome outcome) {
    switch (outcome) {
    case NM_NO: return "no";
    case NM_YES: return "yes";
    case NM_DONE: return "done";
    case NM_INSERTED: return "the key was absent, and is inserted";
    case NM_REPLACED: return "the value of the key is replaced";
    case NM_ABSENT: return "the key is absent";
    case NM_OTHER: return "the key has another value than the expected one";
    case NM_CLOSED: return "the handle is closed";
    case NM_OPEN: return "the handle is open already";
    case NM_KIND: return "the handle owns something of another kind";
    case NM_KEY: return "the key is above 2^64 - 4";
    case NM_NUMBER: return "there is nothing of that number";
    case NM_NODES: return "the number of nodes is not 7 to 268,435,456";
    case NM_WORKERS: return "the number of workers is not 1 to 64";
    case NM_NO_MEMORY: return "memory was refused";
    case NM_BUSY: return "other threads interfered with each try: call again, or give more tries";
    case NM_FULL: return "no nodes are free for the new key: advance, collect and call again";
    case NM_UNFINISHED:
        return "the remove is not finished: the key is found until the next call by this worker";
    case NM_PENDING: return "an earlier remove is not finished: finish it first";
    case NM_PINNED: return "the worker is pinned: unpin it first";
    case NM_NOT_PINNED: return "the worker is not pinned";
    case NM_BEHIND: return "a worker holds the epoch back";
    case NM_LOST: return "another worker advanced the epoch first";
    case NM_SPENT: return "the epoch is the last one";
    case NM_ATTACHED: return "the worker, or a worker of the set, is attached";
    case NM_CLOSING: return "the set is being closed: only nm_set_close goes on";
    case NM_NOT_ALL: return "fewer workers were returned than the set has";
    case NM_UNCOUNTED: return "there are as many handles as can be counted";
    case NM_IN_USE: return "another call has the handle at this moment";
    case NM_NO_WORKER: return "each worker of the set is attached (64 at most)";
    }
    return "an outcome of another library";
}

/* A closed handle, or what the functions below have made of it. */
typedef struct nm_handle {
    void *at;          /* what it owns, or null */
    uint64_t in_use;   /* 0 while no call has it */
} nm_handle;

#define NM_CLOSED_HANDLE {0, 0}

/* What a worker has won, and what became of the nodes that it cut off. */
typedef struct nm_stats {
    uint64_t links;    /* the links that it has won: one for each key that it inserted */
    uint64_t flags;    /* the flags that it has won: one for each key that it removed, a pending
                          one included */
    uint64_t splices;  /* the splices that it has won, each of which cuts off one or more keys */
    uint64_t retired;  /* the nodes that its splices cut off */
    uint64_t freed;    /* those of them that were freed */
    uint64_t queued;   /* those of them that wait */
} nm_stats;

/* A key that nm_worker_contains_many looks up beside others. */
typedef struct nm_lookup {
    uint64_t key;    /* 0 to 2^64 - 4 */
    uint64_t found;  /* 1 if the set had the key, else 0 */
} nm_lookup;

/* A key of a map with its value, as nm_map_scan_entries writes them. */
typedef struct nm_entry {
    uint64_t key;
    uint64_t value;
} nm_entry;

/* A key whose value nm_map_get_many_pinned looks up beside others. */
typedef struct nm_map_lookup {
    uint64_t key;    /* 0 to 2^64 - 4 */
    uint64_t found;  /* 1 if the map had the key, else 0 */
    uint64_t value;  /* the value under the key, or 0 if the map did not have the key */
} nm_map_lookup;

/* What a managed call may spend, and when it collects. */
typedef struct nm_options {
    uint32_t tries;         /* the tries of each call of the tree; with fewer than 2 no remove
                               returns NM_YES at once */
    uint32_t rounds;        /* how often a call that lost each of its tries is retried, and how
                               often a remove that has begun is continued */
    uint32_t collect_after; /* the number of waiting nodes from which an insert or a remove first
                               advances the epoch and collects */
} nm_options;

/* The options to begin with. */
static const nm_options nm_default_options = {64, 64, 64};

/* A node that waited in a worker's queue when the set was closed. */
typedef struct nm_waiting {
    uint64_t slot;        /* the slot of the node */
    uint64_t generation;  /* how often the slot had been put to use when the node was made */
    uint64_t label;       /* the epoch that the worker read after it cut the node off */
} nm_waiting;

/* Writes the version of the library that the program runs with; NM_SET_VERSION is the one that it
 * was compiled with. Returns NM_DONE. */
nm_outcome nm_set_version(uint32_t *major, uint32_t *minor, uint32_t *patch);

/* Each function that follows returns NM_IN_USE if another call has a handle of it. */

/* ---- a set ----
 * These return NM_CLOSED if the handle is closed, and NM_KIND if it owns something else. */

/* Makes the empty set, in a radix tree with room for 7 to 268,435,456 nodes, for 1 to 64 workers.
 * No walk goes over more than 66 edges, in whatever order keys come. (A call that lost a try walks
 * again.) Returns NM_DONE, and the handle owns the set. Errors: NM_OPEN, NM_NODES, NM_WORKERS,
 * NM_NO_MEMORY.
 *
 * How many nodes: a program that only inserts n keys needs 2 n + 5. A removed node is free again
 * only after two advances of the epoch, and it waits while a thread is stopped inside a call. So
 * give a set twice the nodes that its keys take, and two more for each key that all workers remove
 * within the longest stall of a thread: a stall of 0.1 s at 500,000 removes a second holds 100,000
 * nodes.
 *
 * A node takes 32 bytes and a bit, and twice as much while the set is made, which takes time for
 * each node. Each of 64 workers takes some 3,700 bytes, 128 of them so that what it announces
 * has two cache lines of its own, and 200 more once it is attached. The queues of removed nodes take
 * memory as they grow, and give it back: after each call those of all workers take at most 24.25
 * bytes for each node that waits, and 7,712 for each worker. With
 * GLIBC_TUNABLES=glibc.malloc.hugetlb=1 in the environment of a program the nodes are in huge
 * pages: with a million keys look-ups then took 0.63 to 0.80 of the time (bench/README.md). */
nm_outcome nm_set_new(nm_handle *set, uint32_t nodes, uint32_t workers);

/* Makes the empty set in the tree of Natarajan and Mittal, in which keys that come in order make
 * one long path, which each call walks: to compare the two trees. Returns like nm_set_new. */
nm_outcome nm_set_new_unbalanced(nm_handle *set, uint32_t nodes, uint32_t workers);

/* Makes the same set as nm_set_new_unbalanced, but a new node takes the lowest free slot: for tests
 * that compare slots. */
nm_outcome nm_set_new_first_fit(nm_handle *set, uint32_t nodes, uint32_t workers);

/* Attaches the worker of a number, with all that it had when it was returned, and not pinned.
 * Several threads may do so by one handle of a set at once. Keep the handles of threads that are
 * busy at the same time 64 bytes apart, because each call writes its handle. Returns NM_DONE, and
 * the worker's handle, which must be closed, owns the worker. Errors: NM_OPEN (of the worker's
 * handle), NM_NUMBER, NM_ATTACHED, NM_CLOSING, NM_NO_MEMORY. */
nm_outcome nm_set_worker(nm_handle *set, nm_handle *worker, uint32_t number);

/* Attaches any worker that is not attached: the one with the least number, as tests show. Several
 * threads may do so by one handle of a set at once. Errors: NM_NO_WORKER: each worker was attached
 * when it was looked at, one after the other. Otherwise it returns like nm_set_worker, but neither
 * NM_NUMBER nor NM_ATTACHED. */
nm_outcome nm_set_attach(nm_handle *set, nm_handle *worker);

/* Ends the set when all its workers have been returned. Returns NM_DONE, and the handle owns the
 * report from then on. Errors: NM_ATTACHED: the handle still owns the set, unchanged, and
 * nm_set_attached finds the missing worker. NM_NO_MEMORY: the handle still owns the set, whose
 * workers were gathered, so that only this function goes on. */
nm_outcome nm_set_close(nm_handle *set);

/* Returns NM_YES if a close would miss the worker of a number because a handle has it, and else
 * NM_NO, including for a worker that has resigned. Errors: NM_NUMBER, NM_CLOSING. If a set has lost
 * a worker, with its thread for instance, the other workers go on, and there is no report. nm_drop
 * then gives up the set's handle. The memory of the tree stays taken, because the lost worker might
 * come back. */
nm_outcome nm_set_attached(nm_handle *set, uint32_t number);

/* Gives up what a handle owns, and closes the handle. A worker is returned, unpinned, with all else
 * that it holds, and can be taken again. A set that was not closed is left to its workers, the last
 * of which ends it. A report is forgotten. Returns NM_DONE; NM_CLOSED. */
nm_outcome nm_drop(nm_handle *handle);

/* ---- a worker, for a key: managed calls ----
 * Begin with these. If workers meet, a call may lose a try. A managed call is retried if it lost
 * each of its tries, and it finishes a remove that has begun. If collect_after nodes wait, an
 * insert or a remove first advances the epoch and collects. All of it ends within a bound of steps,
 * which the options give. Nothing is pending after NM_YES, NM_NO, NM_BUSY, NM_FULL and
 * NM_NO_MEMORY. No call waits for another worker, unless malloc or free do, which a call uses for
 * the memory of its queue.
 *
 * All worker functions return NM_CLOSED if the handle is closed, and NM_KIND if it owns something
 * else. NM_BUSY: other threads interfered with each try of each round; of the call nothing remains
 * but help given to others. NM_PENDING: the remove of an earlier call is still pending, and nothing
 * else was done. */

/* Returns NM_YES if the set has the key, and else NM_NO. Errors: NM_KEY, NM_BUSY, NM_PENDING,
 * NM_PINNED. */
nm_outcome nm_worker_contains(nm_handle *worker, uint64_t key, const nm_options *options);

/* Inserts a key; returns NM_YES if it was absent, and else NM_NO. Errors: NM_FULL: no slots were
 * free, even after it had tried twice to advance the epoch and had collected. NM_KEY, NM_BUSY,
 * NM_PENDING, NM_PINNED, NM_NO_MEMORY. */
nm_outcome nm_worker_insert(nm_handle *worker, uint64_t key, const nm_options *options);

/* Removes a key; returns NM_YES if it was present, and else NM_NO. Errors: NM_UNFINISHED: the key
 * will be removed by this call and no other, and is pending. Until then it is found, and an insert
 * of it returns NM_NO. So make one more managed call by this worker, which finishes the remove
 * first: after its answer the key is gone. NM_KEY, NM_BUSY, NM_PENDING, NM_PINNED, NM_NO_MEMORY. */
nm_outcome nm_worker_remove(nm_handle *worker, uint64_t key, const nm_options *options);

/* Removes the least key of the set and writes it to taken: NM_YES; NM_NO if the set is empty. This
 * call and no other removed the key. For each lesser key there was a moment of this call at which
 * the set did not have it; after NM_NO there was one for each key. The moments of two keys may
 * differ. So no two such calls take one key, and none passes over a key that was in the set during
 * the whole call. NM_UNFINISHED: taken is written too. The key will be removed by this call and no
 * other, and it is pending, as after nm_worker_remove. NM_BUSY: in each round other workers removed
 * the key that was found. NM_PENDING, NM_PINNED, NM_NO_MEMORY. After any other outcome than NM_YES
 * and NM_UNFINISHED, taken is not written. */
nm_outcome nm_worker_pop_first(nm_handle *worker, const nm_options *options, uint64_t *taken);

/* Removes the greatest key of the set and writes it, in the same way. */
nm_outcome nm_worker_pop_last(nm_handle *worker, const nm_options *options, uint64_t *taken);

/* Removes the least key of the set if it is below a bound, and writes it: NM_YES; NM_NO if no key is
 * below the bound. It is like nm_worker_pop_first, but after NM_NO there was a moment of this call
 * for each key below the bound alone at which the set did not have it. A key that is not below the
 * bound stays. */
nm_outcome nm_worker_pop_first_below(nm_handle *worker, uint64_t below, const nm_options *options,
                                     uint64_t *taken);

/* Removes the greatest key of the set if it is not below from, in the same way: after NM_NO there
 * was a moment of this call for each key from the bound on at which the set did not have it. */
nm_outcome nm_worker_pop_last_from(nm_handle *worker, uint64_t from, const nm_options *options,
                                   uint64_t *taken);

/* ---- a worker, for a key: calls of the tree alone ----
 * These return NM_BUSY after the given number of tries; 32 to 64 are usually enough, and otherwise
 * call again. The program decides what to do after NM_BUSY, NM_FULL and NM_UNFINISHED, and when to
 * collect; the managed calls do it themselves. With 0 tries a call makes no step. */

/* Returns NM_YES if the set has the key, and else NM_NO. It takes no memory. Errors: NM_KEY,
 * NM_BUSY, NM_PENDING, NM_PINNED. */
nm_outcome nm_worker_try_contains(nm_handle *worker, uint64_t key, uint32_t tries);

/* Looks up count keys, which are one after the other in memory. Returns NM_DONE and writes the
 * found of each. Each answer was right at a moment of this call; two of them may have different
 * moments. The searches are interleaved, so that one goes on while others wait for memory: 8 to 64
 * keys a call are fastest. lookups is not null, even if count is 0. Errors: NM_KEY: one of the
 * numbers is no key. NM_BUSY, NM_PENDING, NM_PINNED, NM_NO_MEMORY. After an error no found is
 * written. */
nm_outcome nm_worker_contains_many(nm_handle *worker, nm_lookup *lookups, size_t count,
                                   uint32_t tries);

/* Finds the least key of the set that is not below key. Returns NM_YES and writes it to found, or
 * NM_NO if there is none. The set had found at a moment of this call. For each key from key on and
 * below found there was a moment of this call at which the set did not have it; after NM_NO the
 * same holds for each key from key on. The moments of two keys may differ. To read the keys of a
 * set in use, use nm_worker_scan, which keeps its place. A try is one try to pin or one search: give
 * two or more. It takes no memory. Errors: NM_KEY, NM_BUSY, NM_PENDING, NM_PINNED; found is not
 * written. */
nm_outcome nm_worker_next(nm_handle *worker, uint64_t key, uint32_t tries, uint64_t *found);

/* Finds the greatest key of the set that is not above key, in the same way. Returns NM_YES and
 * writes it to found, or NM_NO if there is none. */
nm_outcome nm_worker_prev(nm_handle *worker, uint64_t key, uint32_t tries, uint64_t *found);

/* Writes keys of the set in ascending order into keys: those that are not below `from` and are below
 * `below`, at most `room` of them and at most 1,024. Writes their number to count. Returns NM_NO if
 * the range is finished. Returns NM_YES if there may be more, and writes to next the key at which to
 * continue. So to read a range, call again with next as `from` until NM_NO; next may be the place of
 * `from`. If `below` is above 2^64 - 4, the range has no upper end.
 *
 * The set had each key that it wrote at a moment of this call. For each other key of the range (after
 * NM_YES: of its part below next) there was a moment of this call at which the set did not have it.
 * The moments of two keys may differ. So no call passes over a key that was in the set during the
 * whole call. After NM_YES, next is above `from` if room is not 0. Its worker is pinned once for the
 * whole range, and the call takes no memory. It is made as one walk over the range, which no clause
 * says. A try is one try to pin or one search that finds no key: give two or more. Then the call
 * stops early only if other workers changed the set during it: otherwise it finishes the range, or
 * writes as many keys as it may. keys is not null, even if room is 0. Errors: NM_KEY: `from` is no
 * key. NM_BUSY, NM_PENDING, NM_PINNED. After an error nothing is written. */
nm_outcome nm_worker_scan(nm_handle *worker, uint64_t from, uint64_t below, uint64_t *keys,
                          size_t room, uint64_t *count, uint64_t *next, uint32_t tries);

/* Writes keys of the set in descending order, in the same way: those that are not above `from` and
 * not below `least`. After NM_YES, next is below `from` if room is not 0. */
nm_outcome nm_worker_scan_back(nm_handle *worker, uint64_t from, uint64_t least, uint64_t *keys,
                               size_t room, uint64_t *count, uint64_t *next, uint32_t tries);

/* Inserts a key; returns NM_YES if it was absent, and else NM_NO. Errors: NM_KEY, NM_BUSY, NM_FULL,
 * NM_PENDING, NM_PINNED, NM_NO_MEMORY. */
nm_outcome nm_worker_try_insert(nm_handle *worker, uint64_t key, uint32_t tries);

/* Removes a key; returns NM_YES if it was present, which takes two tries at least, and else NM_NO.
 * Errors: NM_KEY, NM_BUSY, NM_UNFINISHED, NM_PENDING, NM_PINNED, NM_NO_MEMORY. */
nm_outcome nm_worker_try_remove(nm_handle *worker, uint64_t key, uint32_t tries);

/* Goes on with the remove that is pending. Returns NM_YES if it is finished now: the key is gone.
 * NM_NO if none is pending. Errors: NM_UNFINISHED: the key is still pending, and is found. */
nm_outcome nm_worker_finish(nm_handle *worker, uint32_t tries);

/* ---- a worker, on the epoch ----
 * A node that was cut off waits in its worker's queue until every worker that was pinned at the cut
 * has unpinned. So advance twice and collect, after every few dozen removes. */

/* Pins the epoch for the caller, until nm_worker_unpin, and writes it: no node that is in the tree
 * now is freed meanwhile. It is for tests and proofs. No walk needs it, because each call pins the
 * epoch for itself, and a pinned worker answers no call for keys (NM_PINNED). Returns NM_DONE.
 * Errors: NM_BUSY: the epoch that was read last is written. NM_PENDING, NM_PINNED. */
nm_outcome nm_worker_pin(nm_handle *worker, uint32_t tries, uint64_t *epoch);

/* Ends the caller's pin. Returns NM_DONE. Errors: NM_NOT_PINNED. */
nm_outcome nm_worker_unpin(nm_handle *worker);

/* Advances the epoch by one, if no worker holds it back. Returns NM_DONE and writes the new epoch.
 * Errors: NM_BEHIND: a worker holds it back; its number is written to behind, and the epoch that it
 * announces to epoch. NM_LOST: the epoch to which another worker advanced it is written.
 * NM_SPENT. */
nm_outcome nm_worker_advance(nm_handle *worker, uint64_t *epoch, uint32_t *behind);

/* Finds which workers hold the epoch back. Returns NM_DONE, and writes the epoch and a mask; bit w
 * is set exactly if worker w was found announcing another epoch. */
nm_outcome nm_worker_behind(nm_handle *worker, uint64_t *epoch, uint64_t *mask);

/* Frees what has waited long enough in the queues that the worker holds, and gives back the memory
 * of a queue that neither its waiting nodes nor 256 more nodes need. Returns NM_DONE, and writes
 * the epoch and how many nodes were freed. */
nm_outcome nm_worker_collect(nm_handle *worker, uint64_t *epoch, uint64_t *freed);

/* ---- a worker, of itself ---- */

/* Writes its number. Returns NM_DONE. */
nm_outcome nm_worker_number(nm_handle *worker, uint32_t *number);

/* Writes how many nodes wait in the queues that it holds. Returns NM_DONE. */
nm_outcome nm_worker_queue_len(nm_handle *worker, uint64_t *nodes);

/* Finds the key of a remove that has flagged its leaf and is not finished. Returns NM_YES and
 * writes the key, or NM_NO. */
nm_outcome nm_worker_pending(nm_handle *worker, uint64_t *key);

/* Finds the epoch at which the caller has pinned it, from a pin until its unpin. Returns NM_YES and
 * writes the epoch, or NM_NO. */
nm_outcome nm_worker_pinned(nm_handle *worker, uint64_t *epoch);

/* Writes what it has won, and what became of the nodes that it cut off. Returns NM_DONE. */
nm_outcome nm_worker_stats(nm_handle *worker, nm_stats *stats);

/* ---- stamps between workers ----
 * All calls are in one order, in which each has its moment (its linearization point). A proof knows
 * the order of two workers' calls if one observed a stamp of the other. No answer depends on it,
 * and a program that proves nothing can leave stamps out. Tested, not proved: a stamp is there
 * after it was published, and the latest one is observed. Both functions take no step on the tree,
 * no lock and no memory. */

/* Publishes a stamp of all that the worker has seen, in place of its earlier one, and writes how
 * many keys it has inserted and removed so far, without a pending remove. Returns NM_DONE. Errors:
 * NM_BUSY: another worker is observing the earlier stamp at this moment; call again. */
nm_outcome nm_worker_publish(nm_handle *worker, uint64_t *inserted, uint64_t *removed);

/* Observes the stamp that the worker of a number has published, and leaves it there for others. All
 * that this worker is asked from then on happens after all that the other one had seen when it
 * published the stamp. Returns NM_YES, and writes how many keys the other one had inserted and
 * removed then, or NM_NO if it has published none. Errors: NM_NUMBER. NM_BUSY: another worker is at
 * that stamp at this moment; call again. */
nm_outcome nm_worker_observe(nm_handle *worker, uint32_t number, uint64_t *inserted,
                             uint64_t *removed);

/* ---- the end of a worker ---- */

/* Takes over the worker of number leaver, which must not be attached: this worker then holds all
 * that the leaver held, and the leaver never comes back. Returns NM_DONE. Errors: NM_NUMBER;
 * NM_ATTACHED, NM_PENDING and NM_NO_MEMORY, which are of the leaver. */
nm_outcome nm_worker_resign(nm_handle *worker, uint32_t leaver);

/* Ends the set by its last worker, after nm_drop has closed the handle of the set and those of its
 * other workers. The worker may be pinned or have a pending key. Returns NM_DONE, and the handle
 * owns the report from then on. Proved: that report is of a run that goes on from all that this
 * worker had seen, its own answers included. (That the report of nm_set_close is so too is tested.)
 * Errors: NM_ATTACHED: the handle of the set, or of another worker, is still open, and this handle
 * owns the worker, unchanged. NM_NO_MEMORY: this handle owns the set, whose workers were gathered;
 * this function then returns NM_KIND, and nm_set_close goes on. */
nm_outcome nm_worker_end(nm_handle *worker);

/* ---- a map ----
 * A map has a value, any 64-bit number, beside each key. Its functions return NM_CLOSED if the handle
 * is closed, and NM_KIND if it owns something else than they say; the functions of sets and of their
 * workers return NM_KIND for a map and for its workers. nm_drop gives up either.
 *
 * A value is reclaimed after its key was removed, or after another value has replaced it:
 * nm_map_reclaim frees each leaf at most once, only after every worker that was pinned when it was
 * cut off has unpinned, and writes its value. So a value may be a pointer, which the program frees
 * when it is reclaimed. A thread follows such a pointer between nm_map_pin and nm_map_unpin, by
 * nm_map_get_pinned. A value that the map did not take (any outcome but NM_YES, NM_INSERTED and
 * NM_REPLACED) remains the caller's.
 *
 *     nm_handle map = NM_CLOSED_HANDLE, worker = NM_CLOSED_HANDLE;
 *     uint64_t value, back[64], count;
 *     uint32_t behind;
 *     nm_map_new(&map, 8192, 2);
 *     nm_map_worker(&map, &worker, 0);
 *     nm_map_insert(&worker, 5, 500, &nm_default_options);       NM_YES: the key was absent
 *     nm_map_get(&worker, 5, &nm_default_options, &value);       NM_YES: value is 500
 *     nm_map_remove(&worker, 5, &nm_default_options, &value);    NM_YES: value is 500
 *     nm_map_reclaim(&worker, back, 64, &count, &behind);        count is 1, and back[0] is 500
 */

/* The number of no worker. */
#define NM_NOBODY UINT32_MAX

/* Makes the empty map, with room for 7 to 268,435,456 nodes, for 1 to 64 workers. It takes 8 bytes
 * more for each node than the set of nm_set_new. Otherwise it returns like that function. */
nm_outcome nm_map_new(nm_handle *map, uint32_t nodes, uint32_t workers);

/* Attaches the worker of a number, or any worker that is not attached. They return like
 * nm_set_worker and nm_set_attach. Several threads may do so by one handle of a map at once. */
nm_outcome nm_map_worker(nm_handle *map, nm_handle *worker, uint32_t number);
nm_outcome nm_map_attach(nm_handle *map, nm_handle *worker);

/* Returns NM_YES if a close would miss the worker of a number because a handle has it, and else
 * NM_NO. Errors: NM_NUMBER, NM_CLOSING. */
nm_outcome nm_map_attached(nm_handle *map, uint32_t number);

/* Ends the map when all its workers have been returned. Returns NM_DONE, and the handle owns the
 * report from then on, with the values that were not reclaimed: those of the keys in the report
 * (nm_map_report_value), and those that wait with a worker (nm_map_report_returned).
 * Errors: NM_ATTACHED: the handle still owns the map, unchanged. NM_NO_MEMORY: the handle still owns
 * the map, whose workers were gathered, so that only this function goes on. */
nm_outcome nm_map_close(nm_handle *map);

/* The following, up to nm_map_pop_last_from, are managed calls, like nm_worker_contains,
 * nm_worker_insert and nm_worker_remove: a call that lost each of its tries is retried, and the remove
 * of an earlier call is finished first. They collect nothing (collect_after has no effect): only nm_map_reclaim frees nodes. */

/* Returns NM_YES and writes the value that the map has under a key, or NM_NO if the map does not
 * have the key. It takes no memory for the look-up. Once the call has returned, another worker may
 * remove the key, and its value may be reclaimed. Errors: NM_KEY, NM_BUSY, NM_PENDING, NM_PINNED; value
 * is not written. */
nm_outcome nm_map_get(nm_handle *worker, uint64_t key, const nm_options *options, uint64_t *value);

/* Inserts a key with a value. Returns NM_YES if the key was absent, and else NM_NO: the key keeps
 * its value. Errors: NM_FULL: no slots were free for new nodes; call nm_map_reclaim, and insert
 * again. NM_KEY, NM_BUSY, NM_PENDING, NM_PINNED, NM_NO_MEMORY. */
nm_outcome nm_map_insert(nm_handle *worker, uint64_t key, uint64_t value,
                         const nm_options *options);

/* Inserts a key with a value, or finds the value that the key has. Returns NM_YES if the key was
 * absent, or NM_NO, and then writes to found the value that the map has under the key. It returns the
 * errors of nm_map_insert, and then writes nothing. */
nm_outcome nm_map_get_or_insert(nm_handle *worker, uint64_t key, uint64_t value,
                                const nm_options *options, uint64_t *found);

/* Inserts a key with a value, or replaces the value that the key has, in one step: a new leaf takes
 * the place of the old one, so the key is never absent. Returns NM_INSERTED, or NM_REPLACED, and then
 * writes to old the value that the key had. That value is reclaimed by nm_map_reclaim too: until
 * then other workers may read it. An insert takes two nodes. A replacement takes one, and leaves one
 * that waits with this worker. It returns the errors of nm_map_insert, and then writes nothing. */
nm_outcome nm_map_put(nm_handle *worker, uint64_t key, uint64_t value, const nm_options *options,
                      uint64_t *old);

/* Replaces the value that a key has, in the same way. Returns NM_REPLACED, and writes to old the
 * value that the key had, or NM_ABSENT. It returns the errors of nm_map_insert, and then writes
 * nothing. */
nm_outcome nm_map_replace(nm_handle *worker, uint64_t key, uint64_t value,
                          const nm_options *options, uint64_t *old);

/* Replaces the value that a key has, in the same way, if it is the expected one. Returns NM_REPLACED,
 * NM_OTHER if the key has another value, or NM_ABSENT. With the first two it writes to found the
 * value that the key had. It returns the errors of nm_map_insert, and then writes nothing. If a
 * value may be reclaimed and come again, such as an address, pin another worker before the expected
 * value is read, and unpin it after this call. */
nm_outcome nm_map_compare_replace(nm_handle *worker, uint64_t key, uint64_t expected,
                                  uint64_t value, const nm_options *options, uint64_t *found);

/* Removes a key. Returns NM_YES if it was present, and writes the value that it had, or NM_NO. The
 * value is reclaimed by nm_map_reclaim too: until then other workers may read it. Errors:
 * NM_UNFINISHED: value is written too. The key will be removed by this call and no other, and it is
 * pending, as after nm_worker_remove. NM_KEY, NM_BUSY, NM_PENDING, NM_PINNED, NM_NO_MEMORY. After any
 * other outcome than NM_YES and NM_UNFINISHED, value is not written. */
nm_outcome nm_map_remove(nm_handle *worker, uint64_t key, const nm_options *options,
                         uint64_t *value);

/* Removes a key, if it has the expected value. Returns NM_YES if the key is removed, NM_ABSENT, or
 * NM_OTHER if the key has another value, and then writes this value to found. The value of a key that
 * is removed is reclaimed by nm_map_reclaim too. It returns the errors of nm_map_remove. After
 * NM_UNFINISHED the key had the expected value, and it is pending. After any other outcome than
 * NM_OTHER, found is not written. If a value may be reclaimed and come again, pin another worker, as
 * for nm_map_compare_replace. */
nm_outcome nm_map_remove_if(nm_handle *worker, uint64_t key, uint64_t expected,
                            const nm_options *options, uint64_t *found);

/* Removes the least key of the map, or the greatest; or the least key that is below a bound, or the
 * greatest that is not below one. They return like nm_worker_pop_first and its like, and with NM_YES
 * they write the value that the key had to value. nm_map_reclaim returns the value too. After
 * NM_UNFINISHED they have written the key that is pending, and no value. They collect nothing. */
nm_outcome nm_map_pop_first(nm_handle *worker, const nm_options *options, uint64_t *taken,
                            uint64_t *value);
nm_outcome nm_map_pop_last(nm_handle *worker, const nm_options *options, uint64_t *taken,
                           uint64_t *value);
nm_outcome nm_map_pop_first_below(nm_handle *worker, uint64_t below, const nm_options *options,
                                  uint64_t *taken, uint64_t *value);
nm_outcome nm_map_pop_last_from(nm_handle *worker, uint64_t from, const nm_options *options,
                                uint64_t *taken, uint64_t *value);

/* Tries twice to advance the epoch, and then frees what has waited long enough with this worker. It
 * writes the value of each leaf that is freed into values, at most `room` of them, and their number
 * to count. If count is room, there may be more: call again. Writes to behind the number of a worker
 * that holds the epoch back (its own, if the caller has pinned it), so that more values may be reclaimed
 * later, or NM_NOBODY if it found no such worker. Returns NM_DONE. A value waits with the worker
 * that cut its leaf off, so each worker reclaims, after every few dozen removes and replacements.
 * values is not null, even if room is 0. */
nm_outcome nm_map_reclaim(nm_handle *worker, uint64_t *values, size_t room, uint64_t *count,
                          uint32_t *behind);

/* Pins the epoch for the caller, until nm_map_unpin, and writes it: no value that the map has now
 * is reclaimed meanwhile. A pinned worker answers nm_map_get_pinned and nm_map_get_many_pinned, and no
 * other call for keys (NM_PINNED). While it is pinned, no worker gets back a value that was removed
 * or replaced after the pin.
 * Returns NM_DONE. Errors: NM_BUSY: the epoch that was read last is written. NM_PENDING,
 * NM_PINNED. */
nm_outcome nm_map_pin(nm_handle *worker, uint32_t tries, uint64_t *epoch);

/* Ends the caller's pin. Returns NM_DONE. Errors: NM_NOT_PINNED. */
nm_outcome nm_map_unpin(nm_handle *worker);

/* Returns NM_YES and writes the value that the map has under a key, or NM_NO if the map does not
 * have the key, to a caller that has pinned the worker. The value is not reclaimed before
 * nm_map_unpin. Errors: NM_NOT_PINNED. NM_BUSY, which no map of nm_map_new returns. NM_KEY. */
nm_outcome nm_map_get_pinned(nm_handle *worker, uint64_t key, uint64_t *value);

/* Looks up the values of count keys, which are one after the other in memory, for a caller that has
 * pinned the worker. Returns NM_DONE and writes the found and the value of each. Each answer was right
 * at a moment of the call; two of them may have different moments. No value that it writes is reclaimed
 * before nm_map_unpin. The searches are interleaved, as those of nm_worker_contains_many. lookups is
 * not null, even if count is 0. Errors: NM_KEY: one of the numbers is no key. NM_NOT_PINNED,
 * NM_NO_MEMORY. NM_BUSY, which no map of nm_map_new returns. After an error nothing is written. */
nm_outcome nm_map_get_many_pinned(nm_handle *worker, nm_map_lookup *lookups, size_t count);

/* Finds the least key of the map that is not below key, or the greatest that is not above it. They
 * return like nm_worker_next and nm_worker_prev, and with NM_YES they write the value of the key that
 * was found to value. */
nm_outcome nm_map_next(nm_handle *worker, uint64_t key, uint32_t tries, uint64_t *found,
                       uint64_t *value);
nm_outcome nm_map_prev(nm_handle *worker, uint64_t key, uint32_t tries, uint64_t *found,
                       uint64_t *value);

/* Writes keys of the map into keys, in ascending and in descending order, and returns like
 * nm_worker_scan and nm_worker_scan_back. Values are not read. */
nm_outcome nm_map_scan(nm_handle *worker, uint64_t from, uint64_t below, uint64_t *keys, size_t room,
                       uint64_t *count, uint64_t *next, uint32_t tries);
nm_outcome nm_map_scan_back(nm_handle *worker, uint64_t from, uint64_t least, uint64_t *keys,
                            size_t room, uint64_t *count, uint64_t *next, uint32_t tries);

/* Writes keys of the map with their values into entries, in ascending and in descending order of the
 * keys, and returns like nm_map_scan and nm_map_scan_back. For each entry that it wrote there was a
 * moment of this call at which the map had the key with this value. The moments of two entries may
 * differ. Once the call has returned, another worker may remove a key, and its value may be reclaimed. */
nm_outcome nm_map_scan_entries(nm_handle *worker, uint64_t from, uint64_t below, nm_entry *entries,
                               size_t room, uint64_t *count, uint64_t *next, uint32_t tries);
nm_outcome nm_map_scan_entries_back(nm_handle *worker, uint64_t from, uint64_t least,
                                    nm_entry *entries, size_t room, uint64_t *count,
                                    uint64_t *next, uint32_t tries);

/* Writes the worker's number. Returns NM_DONE. */
nm_outcome nm_map_number(nm_handle *worker, uint32_t *number);

/* Writes how many nodes wait in the queues that the worker holds. Returns NM_DONE. */
nm_outcome nm_map_queue_len(nm_handle *worker, uint64_t *nodes);

/* Finds the key of a remove that has flagged its leaf and is not finished. Returns NM_YES and
 * writes the key, or NM_NO. */
nm_outcome nm_map_pending(nm_handle *worker, uint64_t *key);

/* ---- the report of a set or a map that was closed ----
 * These return NM_CLOSED if the handle is closed, and NM_KIND if it owns something else. */

/* Writes how many slots are free, and how many are reached from the root, without the five fixed
 * ones. Returns NM_DONE. */
nm_outcome nm_report_slots(nm_handle *report, uint32_t *free, uint32_t *reached);

/* Writes how many keys the set had. Returns NM_DONE. */
nm_outcome nm_report_keys(nm_handle *report, uint64_t *count);

/* Writes the key at an index, from 0 on; the keys ascend. Returns NM_DONE. Errors: NM_NUMBER: there
 * are not that many keys. */
nm_outcome nm_report_key(nm_handle *report, uint64_t index, uint64_t *key);

/* Writes how many of the nodes wait that a worker's splices cut off. Returns NM_DONE. Errors:
 * NM_NUMBER: there is no such worker. */
nm_outcome nm_report_queue(nm_handle *report, uint32_t worker, uint64_t *nodes);

/* Takes the oldest node out of a worker's queue. Returns NM_YES and writes the node, or NM_NO if
 * none waits any more. Errors: NM_NUMBER: there is no such worker. */
nm_outcome nm_report_waiting(nm_handle *report, uint32_t worker, nm_waiting *waiting);

/* Writes the value under the key at an index of a map's report, from 0 on: the key of
 * nm_report_key. Returns NM_DONE. Errors: NM_NUMBER: there are not that many keys. NM_KIND: also if
 * the report is that of a set. */
nm_outcome nm_map_report_value(nm_handle *report, uint64_t index, uint64_t *value);

/* Takes the oldest leaf out of a worker's queue in a map's report, and all internal nodes before it.
 * Returns NM_YES and writes the value that the leaf had when it was cut off, or NM_NO if no leaf
 * waits any more. A node that nm_report_waiting has taken is not there.
 * Errors: NM_NUMBER: there is no such worker. NM_KIND: also if the report is that of a set. */
nm_outcome nm_map_report_returned(nm_handle *report, uint32_t worker, uint64_t *value);

#ifdef __cplusplus
}
#endif

#endif
