/* A set that any thread may call, without a worker of its own, for C11 on Linux. A pool owns a set
 * of nm_set.h and all of its workers, and lends a worker for each call. nm_set.hpp, the crate for
 * Rust and the module for Python are made of this pool, so what follows holds in each language.
 *
 *     nm_pool *pool;
 *     nm_handle report = NM_CLOSED_HANDLE;
 *     nm_pool_new(&pool, 65536, NULL);           room for 65,536 nodes, four for each key
 *     nm_pool_insert(pool, NM_ANY, 5, 1000);     NM_YES: the key was absent
 *     nm_pool_close(pool, 1000, &report, NULL);  from now on the handle owns the report
 *     nm_drop(&report);
 *     nm_pool_free(pool);
 *
 * The core, which is the functions of nm_set.h, is proved. The pool is code in C around it:
 * c/tests/pool.c and the tests of each language test it, and no proof covers it.
 *
 * **A worker for a call.** A call by NM_ANY takes a worker that no thread uses, first the one that
 * this thread used last. If there is none, it borrows a worker that is attached to a thread, in no
 * call and not pinned. If there is none either, it waits until there is one. So a thread that makes
 * many calls may attach a worker of its own, and saves the search; it need not. A call by the
 * number of an attached worker uses that worker. One thread at a time makes calls by it; if a
 * second thread does, or borrows it, one of the two waits.
 *
 * **How long a call waits.** A call waits at most timeout_ms milliseconds, which each caller gives;
 * with 0 it does not wait. In a wait it first yields the processor, and then sleeps: 20
 * microseconds, and twice as long each time, up to a millisecond. If the processor is taken from
 * its thread, a call may end later. After its time a call returns one of these, and has changed
 * nothing:
 *
 * - NM_NO_WORKER: each worker was attached and pinned, or in a call. It makes no difference which
 *   threads have attached them: a thread that has attached all workers itself gets this too. Calls
 *   that wait are in no order. So if threads outnumber workers and processors, others may take each
 *   worker for all of the time that a call waits, above all that of an attach.
 * - NM_IN_USE: another thread is in a call by the attached worker.
 * - NM_FULL: no nodes were free for an insert. An insert does not wait if the keys take all nodes.
 *
 * If a set gets a new size meanwhile, a call waits for that besides: see "a new size" below.
 *
 * **A set that grows**, by NM_GROWS in place of the nodes: if an insert finds no free nodes, and
 * none can be freed, the set gets half as many nodes more. It also grows if inserts and removes
 * alternate while fewer than 64 nodes are left. The insert waits for the calls of all workers, for
 * at most its timeout. After that it waits for the new nodes that another thread makes, for at most
 * a microsecond for each node. If a worker is pinned, or in a call, for all of this time, the
 * insert returns NM_FULL, and nm_full_words names the worker. With a timeout of 0 the set grows
 * only if no worker is pinned or in a call at that moment.
 *
 * **A close** waits for calls in progress. Calls that begin meanwhile wait for its end: they go on
 * if it fails, and return NM_CLOSED if it succeeds.
 *
 * **A fork.** In a forked child each call returns NM_FORKED and changes nothing; nm_pool_free does
 * nothing there. The parent is not affected.
 *
 * **A thread that is lost inside a call** (pthread_cancel, longjmp, a stop) keeps the worker of
 * that call in use, and all other calls go on: see "What goes wrong" in c/README.md. No call of the
 * pool is a cancellation point, except that a call that waits may sleep. If a thread is cancelled
 * in such a sleep, it keeps no worker except the attached ones. A close, a detach, a new size and
 * nm_pool_free are no cancellation points: they end first.
 *
 * A thread needs a stack of 16 kilobytes for each call of a pool.
 *
 * What the caller must see to is what nm_set.h lists, and besides: a pool is not used after its
 * nm_pool_free, except by the numbers of workers that were attached before. Each function with a
 * pool may be called by several threads at the same time, nm_pool_free excepted.
 */
#ifndef NM_POOL_H
#define NM_POOL_H

#include "nm_set.h"

#ifdef __cplusplus
extern "C" {
#endif

/* A pool. Its memory belongs to the library. */
typedef struct nm_pool nm_pool;

/* In place of the number of a worker: any worker that can make the call; and no worker, so that
 * each call returns NM_CLOSED. */
#define NM_ANY UINT32_MAX
#define NM_NONE (UINT32_MAX - 1)

/* The outcome of each call in a forked child. nm_pool_text has its words. */
#ifdef __cplusplus
#define NM_FORKED (static_cast<nm_outcome>(-30))
#else
#define NM_FORKED ((nm_outcome)-30)
#endif

/* The shapes of a tree: see nm_set_new and nm_set_new_unbalanced. */
#define NM_RADIX 0u
#define NM_UNBALANCED 1u

/* In place of the number of nodes: the set has room for 10,000 keys at first, and grows. */
#define NM_GROWS UINT64_MAX

/* How a pool is made, and the bounds of its calls. */
typedef struct nm_pool_options {
    uint32_t workers;       /* 1 to 64; each takes 3,700 bytes, and 3,300 more once used */
    uint32_t shape;         /* NM_RADIX or NM_UNBALANCED */
    uint32_t tries;         /* as in nm_options: the tries of each call of the tree */
    uint32_t rounds;        /* as in nm_options: how often a call that lost its tries is retried */
    uint32_t collect_after; /* as in nm_options */
} nm_pool_options;

/* The options to begin with. */
static const nm_pool_options nm_pool_defaults = {64, NM_RADIX, 64, 64, 64};

/* How full a set is. */
typedef struct nm_fullness {
    uint64_t nodes;   /* the nodes for which it has room; n keys take 2 n + 5 */
    uint64_t keys;    /* its keys, as nm_pool_size counts them */
    uint64_t waiting; /* the removed nodes that wait to be freed */
    uint64_t free;    /* the nodes that are left; an insert takes two */
    uint64_t unasked; /* a bit for each worker that was in a call: in place of its waiting nodes,
                         `waiting` has how many there were when it was last asked */
    uint64_t behind;  /* a bit for each worker that holds the epoch back, by a pin or in a call */
    uint64_t hindering; /* a bit for each worker that was pinned or in a call when the set was last
                           to grow, and so prevented it */
} nm_fullness;

/* Returns an outcome in words, including NM_FORKED. */
const char *nm_pool_text(nm_outcome outcome);

/* ---- the pool ---- */

/* Makes the empty set and its pool, with room for 7 to 268,435,456 nodes, or NM_GROWS; options may
 * be NULL. A set with a number of nodes never grows by itself.
 * Returns NM_DONE and writes the pool. Errors: NM_NODES, NM_WORKERS, NM_NUMBER (there is no such
 * shape), NM_NO_MEMORY. See nm_set_new
 * for how many nodes a set needs. A pool takes 64 bytes for each worker, and 512. */
nm_outcome nm_pool_new(nm_pool **pool, uint64_t nodes, const nm_pool_options *options);

/* Ends the set. It waits for calls in progress. Returns NM_DONE, and the closed handle that it was
 * given owns the report. Then each call returns NM_CLOSED, including those that wait. Errors, after
 * which the set goes on: NM_ATTACHED: workers are attached. NM_IN_USE: calls by workers have not
 * ended. After these two, `missing` has a bit for each of those workers, unless it is NULL. NM_OPEN
 * (of the report). NM_CLOSED: another close has ended the set. NM_NO_MEMORY: only nm_pool_close
 * goes on. */
nm_outcome nm_pool_close(nm_pool *pool, uint32_t timeout_ms, nm_handle *report, uint64_t *missing);

/* Gives up the pool, which may be open. No thread is in a call by NM_ANY, and none makes one later.
 * Workers that are attached remain so: the last nm_pool_detach, or nm_pool_end, frees the
 * memory. */
void nm_pool_free(nm_pool *pool);

/* ---- keys ----
 * These take the number of an attached worker, or NM_ANY. They are the managed calls of nm_set.h,
 * with its outcomes, and those above. They count what they change, for nm_pool_size. Before a call
 * by NM_ANY gives its worker back, it finishes a remove that has begun, within the bounds of the
 * options. NM_BUSY and NM_PENDING: other threads interfered with each try of each round. */

/* Returns NM_YES if the set has the key, and else NM_NO. */
nm_outcome nm_pool_contains(nm_pool *pool, uint32_t worker, uint64_t key, uint32_t timeout_ms);

/* Inserts a key; returns NM_YES if it was absent, and else NM_NO. If no nodes are free, it collects
 * with all workers that are in no call, and waits for nodes, for at most timeout_ms. Before it
 * sleeps it yields its processor, so that threads that were preempted inside a call end it; they
 * yield the processor back. NM_FULL at once if the keys take all nodes and none waits. */
nm_outcome nm_pool_insert(nm_pool *pool, uint32_t worker, uint64_t key, uint32_t timeout_ms);

/* Removes a key; returns NM_YES if it was present, and else NM_NO. NM_UNFINISHED: the key will be
 * removed by this call and no other. Until the next call by the same worker it is found, and an
 * insert of it returns NM_NO. So remove it again: after NM_NO it is gone. */
nm_outcome nm_pool_remove(nm_pool *pool, uint32_t worker, uint64_t key, uint32_t timeout_ms);

/* Removes the least key and writes it to taken: NM_YES, or NM_UNFINISHED (the key will be removed
 * by this call and no other, as after nm_pool_remove). NM_NO if the set is empty. */
nm_outcome nm_pool_pop_first(nm_pool *pool, uint32_t worker, uint64_t *taken, uint32_t timeout_ms);

/* Removes the greatest key and writes it, in the same way. */
nm_outcome nm_pool_pop_last(nm_pool *pool, uint32_t worker, uint64_t *taken, uint32_t timeout_ms);

/* Removes the least key if it is below a bound, and writes it. NM_NO: no key is below the bound. */
nm_outcome nm_pool_pop_first_below(nm_pool *pool, uint32_t worker, uint64_t below,
                                   uint64_t *taken, uint32_t timeout_ms);

/* Removes the greatest key if it is not below a bound, and writes it. */
nm_outcome nm_pool_pop_last_from(nm_pool *pool, uint32_t worker, uint64_t from, uint64_t *taken,
                                 uint32_t timeout_ms);

/* Removes the least keys that are below a bound, one by one and at most `room`, and writes them to
 * keys and their number to count. NM_DONE, also if no key is below the bound. It returns an error
 * only if it has removed no key. The time counts for each key. */
nm_outcome nm_pool_pop_first_many(nm_pool *pool, uint32_t worker, uint64_t below, uint64_t *keys,
                                  size_t room, size_t *count, uint32_t timeout_ms);

/* Removes the least key like nm_pool_pop_first_below; a bound of UINT64_MAX is none. If no key is
 * below the bound, it waits for one, for at most timeout_ms milliseconds in all, and sleeps
 * meanwhile. An insert that returns NM_YES wakes one such call without a bound, and all with one.
 * A call without a bound that was woken and leaves without a key wakes the next one, also if its
 * thread is cancelled. Tested by c/tests/moments.c and c/tests/waitpop.cpp: no wake is lost. NM_NO
 * after that time, and a last look. If other threads interfere with its pop, it tries again: NM_BUSY or NM_PENDING after
 * that time. NM_CLOSED if the set is closed meanwhile. While no call waits here, this costs other
 * calls nothing. A sleep here is no cancellation point. */
nm_outcome nm_pool_wait_pop(nm_pool *pool, uint32_t worker, uint64_t below, uint64_t *taken,
                            uint32_t timeout_ms);

/* Waits like nm_pool_wait_pop until the set has a key below the bound, and removes nothing. NM_YES,
 * and the least key is written to found: another thread may remove it at any time. An insert that
 * returns NM_YES wakes each such call. If the new key is not below its bound, the call sleeps on. */
nm_outcome nm_pool_wait_first(nm_pool *pool, uint32_t worker, uint64_t below, uint64_t *found,
                              uint32_t timeout_ms);

/* Finds the least key that is not below key: NM_YES and it is written to found, or NM_NO. */
nm_outcome nm_pool_next(nm_pool *pool, uint32_t worker, uint64_t key, uint64_t *found,
                        uint32_t timeout_ms);

/* Finds the greatest key that is not above key: NM_YES and it is written to found, or NM_NO. */
nm_outcome nm_pool_prev(nm_pool *pool, uint32_t worker, uint64_t key, uint64_t *found,
                        uint32_t timeout_ms);

/* Reads keys of the set in ascending order: those that are not below `from` and are below `below`,
 * at most `room` of them. Writes them to keys, and their number to count. Returns NM_NO if they are
 * all of them. Returns NM_YES if there may be more, and writes to next from which key on: the next
 * call goes on there. See nm_worker_scan for what the keys mean while others change the set. */
nm_outcome nm_pool_scan(nm_pool *pool, uint32_t worker, uint64_t from, uint64_t below,
                        uint64_t *keys, size_t room, size_t *count, uint64_t *next,
                        uint32_t timeout_ms);

/* Reads the same keys in descending order. After NM_YES the next call goes on below next. Each
 * scan, also those of nm_set.h, takes first the bound at which it begins, and then the one at which
 * it ends: so this one takes `below` first. */
nm_outcome nm_pool_scan_back(nm_pool *pool, uint32_t worker, uint64_t below, uint64_t from,
                             uint64_t *keys, size_t room, size_t *count, uint64_t *next,
                             uint32_t timeout_ms);

/* Writes how many keys of the set are not below `from` and are below `below`, by scans of 512 keys.
 * Returns NM_DONE. While others change the set, each key is counted as a scan finds it. The time
 * counts for each scan. */
nm_outcome nm_pool_count(nm_pool *pool, uint32_t worker, uint64_t from, uint64_t below,
                         uint64_t *count, uint32_t timeout_ms);

/* Looks up count keys and writes the found of each, as nm_worker_contains_many does. NM_DONE. */
nm_outcome nm_pool_contains_many(nm_pool *pool, uint32_t worker, nm_lookup *lookups, size_t count,
                                 uint32_t timeout_ms);

/* Inserts count keys, one by one, and writes 1 to answers for each that it inserted, else 0. It
 * looks up 64 of them together before it inserts them, which brings what they need from memory.
 * Returns NM_DONE. After an error `done` has how many keys have their answers, and the other keys
 * are not inserted. The time counts for each key. */
nm_outcome nm_pool_insert_many(nm_pool *pool, uint32_t worker, const uint64_t *keys, size_t count,
                               unsigned char *answers, size_t *done, uint32_t timeout_ms);

/* Removes count keys in the same way, and writes 1 for each that it removed. */
nm_outcome nm_pool_remove_many(nm_pool *pool, uint32_t worker, const uint64_t *keys, size_t count,
                               unsigned char *answers, size_t *done, uint32_t timeout_ms);

/* ---- how full it is ----
 * These wait for nothing. They return NM_CLOSED if the set is closed. */

/* Writes the number of keys: it adds up one count for each worker. It is exact if no call is in
 * progress; otherwise it may miss the calls in progress. An unfinished remove counts as done. */
nm_outcome nm_pool_size(nm_pool *pool, uint64_t *keys);

/* Writes how full the set is. It asks each worker once. */
nm_outcome nm_pool_fullness(nm_pool *pool, nm_fullness *fullness);

/* Writes how often the set has got a new size: it grew, or a caller asked. Also writes for how long
 * calls were stopped for that at most, in nanoseconds. This includes attempts that failed. */
nm_outcome nm_pool_growths(nm_pool *pool, uint64_t *count, uint64_t *longest_ns);

/* Advances the epoch as far as possible, and frees what has waited long enough with each worker
 * that is in no call. Writes the number of freed nodes. */
nm_outcome nm_pool_collect(nm_pool *pool, uint64_t *freed);

/* Writes what a fullness says after NM_FULL into a text of size bytes, 1 or more, and returns the
 * text. 640 bytes have room for all 64 workers. */
const char *nm_full_words(const nm_fullness *fullness, char *text, size_t size);

/* Writes a mask of workers as words into a text of size bytes: "workers 2 and 5". */
const char *nm_mask_words(uint64_t mask, char *text, size_t size);

/* Return the number of nodes for which the set has room, the number of its workers, the options of
 * its managed calls, and a bit for each worker that is attached at this moment, none in a forked
 * child. */
uint64_t nm_pool_nodes(const nm_pool *pool);
uint32_t nm_pool_workers(const nm_pool *pool);
const nm_options *nm_pool_call_options(const nm_pool *pool);
uint64_t nm_pool_attached(const nm_pool *pool);

/* ---- a new size ----
 * First an empty set of the new size is made, while calls go on. Then calls are stopped: each
 * worker is taken between two of its calls, and the keys are copied to the new set. An attempt
 * waits at most 5 milliseconds for the workers. If one is pinned or in a call, calls go on, and no
 * thread makes the next attempt within 10 milliseconds. A call that begins meanwhile waits for
 * these milliseconds and for the copy, even if that is longer than its timeout. If no key was
 * copied for timeout_ms, as when the thread that copies was stopped, it returns NM_NO_WORKER or
 * NM_IN_USE. With a timeout of 0 it returns these at once.
 *
 * Workers stay attached, by the same number and handle. Their statistics and stamps begin anew. If
 * memory is refused, the set goes on with its old size. Tested by c/tests/moments.c and
 * c/tests/growing.cpp. */

/* Makes room for that many keys, so that inserts alone need no more nodes; it never makes a set
 * smaller. Returns NM_DONE. Errors, after which the set goes on unchanged: NM_PINNED: workers are
 * pinned. NM_IN_USE: calls by workers have not ended. After these two, `missing` has a bit for each
 * of those workers, unless it is NULL. NM_NODES: there cannot be that many keys. NM_NO_MEMORY.
 * NM_CLOSED. */
nm_outcome nm_pool_reserve(nm_pool *pool, uint64_t keys, uint32_t timeout_ms, uint64_t *missing);

/* Gives back memory: the set has room for its keys, and for one more key for each worker. Returns
 * like nm_pool_reserve. */
nm_outcome nm_pool_shrink_to_fit(nm_pool *pool, uint32_t timeout_ms, uint64_t *missing);

/* ---- workers of threads ---- */

/* Attaches a worker, the least number first. Returns NM_DONE and writes its number. Errors:
 * NM_NO_WORKER: each worker is attached or in a call. NM_CLOSED, NM_NO_MEMORY. */
nm_outcome nm_pool_attach(nm_pool *pool, uint32_t *worker, uint32_t timeout_ms);

/* Attaches the worker of a number, after a call by NM_ANY that has it. Returns NM_DONE and writes
 * the number. Errors: NM_ATTACHED: it is attached. NM_IN_USE: that call has not ended. NM_NUMBER,
 * NM_CLOSED, NM_NO_MEMORY. */
nm_outcome nm_pool_attach_number(nm_pool *pool, uint32_t number, uint32_t *worker,
                                 uint32_t timeout_ms);

/* Returns an attached worker to the pool, and writes NM_NONE in place of its number. This ends its
 * pin, and finishes its remove if the bounds of the options allow. It waits for a call by another
 * thread: NM_IN_USE, and the worker is attached as before. NM_CLOSED: it is not attached. If the
 * number is NM_NONE, the pool is not read, and may have been freed. */
nm_outcome nm_pool_detach(nm_pool *pool, uint32_t *worker, uint32_t timeout_ms);

/* Ends the set by its last worker, after nm_pool_free and the detach of all other workers. Returns
 * NM_DONE: the closed handle that it was given owns the report, the pool is gone, and NM_NONE is
 * in place of the number. Errors: see nm_worker_end. NM_IN_USE. */
nm_outcome nm_pool_end(nm_pool *pool, uint32_t *worker, nm_handle *report, uint32_t timeout_ms);

/* Make the calls nm_worker_try_insert and nm_worker_try_remove by an attached worker, with at most
 * `tries` tries, and count what they change. */
nm_outcome nm_pool_try_insert(nm_pool *pool, uint32_t worker, uint64_t key, uint32_t tries,
                              uint32_t timeout_ms);
nm_outcome nm_pool_try_remove(nm_pool *pool, uint32_t worker, uint64_t key, uint32_t tries,
                              uint32_t timeout_ms);

/* Returns the handle of an attached worker, for calls of nm_set.h that change no key; in a forked
 * child, and for any other number, a closed handle. Repeat such a call while nm_pool_again says so:
 *
 *     nm_pool_wait wait = {0, 0, 0, 0};
 *     do outcome = nm_worker_stats(nm_pool_handle(pool, worker), &stats);
 *     while (nm_pool_again(pool, worker, &wait, outcome, 1000)); */
nm_handle *nm_pool_handle(nm_pool *pool, uint32_t worker);

/* One wait: all zero before it begins. */
typedef struct nm_pool_wait {
    uint64_t end;
    uint32_t pause;
    uint32_t looks;
    uint32_t ended;
} nm_pool_wait;

/* Returns 1 after a pause if the call by an attached worker is to be repeated, because another
 * thread's call had the worker. Returns 0 after any other outcome, and if the time is over. */
int nm_pool_again(nm_pool *pool, uint32_t worker, nm_pool_wait *wait, nm_outcome outcome,
                  uint32_t timeout_ms);

#ifdef __cplusplus
}
#endif

#endif
