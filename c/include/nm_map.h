/* Calls on a map of nm_set.h that pass each reclaimed value to a function of the program. So a value
 * may be the address of an object: that function frees the object. The calls of this header
 * are made of the proved functions of nm_set.h, and no proof covers them. The maps of C++ and Rust
 * are made of these calls, and that of Python of some. c/tests/map_calls.c, c/tests/map_puts.c,
 * c/tests/map_reads.c and the tests of each language test them.
 *
 *     static void give_back(void *context, uint64_t value) { free((void *)(uintptr_t)value); }
 *
 *     nm_map_wait_put(&map, &worker, 5, (uint64_t)(uintptr_t)object, &nm_default_options, NULL,
 *                     give_back, NULL, &old, 1000);    NM_INSERTED: the map has the key and the object
 *     nm_map_hold(&worker, &nm_default_options, &epoch);    pins the worker
 *     nm_map_get_pinned(&worker, 5, &value);           the object exists until the unpin
 *     nm_map_unpin(&worker);
 *     nm_map_remove(&worker, 5, &nm_default_options, &value);    frees nothing
 *     nm_map_tend(&worker, &nm_default_options, NULL, give_back, NULL);   frees what was reclaimed
 *     nm_drop(&worker);
 *     nm_map_drain(&map, give_back, NULL, 1000);       frees each object that is left
 *     nm_drop(&map);
 *
 * Proved, of nm_set.h: each leaf that is freed returns its value, and no leaf is freed twice. A
 * leaf is freed after all workers have unpinned that were pinned when it was cut off. So a reader
 * may use an object from a get under a pin until the unpin. Without the caller's pin an object may
 * be freed at any time after the get. The program that removes a key, or replaces its object, does
 * not free that object itself, because others may be reading it.
 *
 * The function `release` is called between two calls of the library, by the thread whose call found
 * the values. It may make calls by any worker, including this one. It does not leave by longjmp or
 * an exception: then the other values that were reclaimed with it are lost.
 */
#ifndef NM_MAP_H
#define NM_MAP_H

#include "nm_pool.h"

#ifdef __cplusplus
extern "C" {
#endif

/* How many keys each worker of a map has inserted and not removed, and the workers that were returned:
 * see nm_map_counts_new and nm_map_return. */
typedef struct nm_map_counts nm_map_counts;

/* Takes a value that was reclaimed. */
typedef void (*nm_map_release)(void *context, uint64_t value);

/* Returns the collect_after that is usual for a map of this size: nodes / (8 * workers), at least 8
 * and at most 64. So all workers together leave at most an eighth of the nodes unclaimed, unless
 * each has 8. */
uint32_t nm_map_collect_after(uint32_t nodes, uint32_t workers);

/* Attaches a worker like nm_map_attach. While there is none it repeats this, for at most timeout_ms
 * milliseconds, and sleeps in between like nm_wait_attach of nm_wait.h. While another thread
 * attaches a worker by the handle of the map it yields and sleeps too, and never spins for longer
 * than some microseconds. Returns NM_DONE. Errors: NM_NO_WORKER: until the end of that time each
 * worker was attached, or other threads had the handle. NM_CLOSED, NM_KIND, NM_OPEN, NM_CLOSING,
 * NM_NO_MEMORY. */
nm_outcome nm_map_wait_attach(nm_handle *map, nm_handle *worker, uint32_t timeout_ms);

/* Lends a worker for some calls, to a thread that keeps none: one that was returned, or else one
 * that it attaches like nm_map_wait_attach, with the same errors. A worker that was returned costs an
 * exchange. */
nm_outcome nm_map_lend(nm_handle *map, nm_map_counts *counts, nm_handle *worker,
                       uint32_t timeout_ms);

/* Returns a worker that is not pinned, in place of nm_drop: then the handle is closed, and
 * nm_map_lend lends the worker again. It stays attached. What waits with it is reclaimed by its
 * next user, and by each call that finds no nodes and waits for them, such as nm_map_wait_insert.
 * Returns NM_DONE. Errors, after which the handle owns the worker as before: NM_CLOSED, NM_KIND,
 * NM_IN_USE, NM_NUMBER (the counts are of a map with fewer workers). */
nm_outcome nm_map_return(nm_map_counts *counts, nm_handle *worker);

/* Drops each worker that was returned, such as before nm_map_drain. */
void nm_map_drop_returned(nm_map_counts *counts);

/* Pins the worker like nm_map_pin, but finishes a remove that is pending first, and repeats a pin
 * that lost each of its tries, at most `rounds` times. Returns NM_DONE and writes the epoch.
 * Errors: NM_BUSY, NM_PENDING: the bounds of the options were reached. NM_PINNED. */
nm_outcome nm_map_hold(nm_handle *worker, const nm_options *options, uint64_t *epoch);

/* Makes nm_map_reclaim until no more values are reclaimed, and passes each to `release`. It counts
 * the nodes that it frees in `counts`, which may be NULL: see nm_map_counts_waiting. Returns NM_DONE
 * and writes which worker holds the epoch back, or NM_NOBODY; `behind` may be NULL. Errors:
 * NM_CLOSED, NM_KIND, NM_IN_USE. */
nm_outcome nm_map_take_back(nm_handle *worker, nm_map_counts *counts, nm_map_release release,
                            void *context, uint32_t *behind);

/* Makes nm_map_take_back if `collect_after` nodes or more wait with the worker, and otherwise
 * nothing. Call it after each remove and each replacement: it is what a managed call of a set does
 * by itself. Returns NM_DONE. Errors: those of nm_map_take_back. */
nm_outcome nm_map_tend(nm_handle *worker, const nm_options *options, nm_map_counts *counts,
                       nm_map_release release, void *context);

/* ---- calls that give the map a value, and wait for nodes ---- */

/* Makes nm_map_tend, and then nm_map_insert. If no nodes are free, it reclaims what it can,
 * inserts again, and repeats both for at most timeout_ms milliseconds. In between it sleeps, from
 * 20 microseconds up to a millisecond, twice as long each time. With 0 milliseconds it inserts
 * again once, and does not sleep.
 *
 * Nodes that wait with another worker are freed by that worker alone. So if `map` is not NULL, the
 * first repetition also reclaims what waits with each worker that is not attached, and with each
 * that was returned to `counts`. For this it attaches the former, one after the other.
 *
 * Returns NM_YES, or NM_NO if the map has the key, which keeps its value. Errors: NM_FULL: no nodes
 * became free in that time; or, at once, the keys leave no two nodes, even if none waits. It knows
 * the latter by `counts`, in which the program counts each call that changes the map. With NULL it
 * waits in that case too. The others are those of nm_map_insert. After NM_NO and an error the map
 * does not have the value. */
nm_outcome nm_map_wait_insert(nm_handle *map, nm_handle *worker, uint64_t key, uint64_t value,
                              const nm_options *options, nm_map_counts *counts,
                              nm_map_release release, void *context, uint32_t timeout_ms);

/* Do the same, and make nm_map_put, nm_map_replace or nm_map_compare_replace in place of
 * nm_map_insert. They return its outcomes, and write what it writes. A replacement takes one free
 * node. So it returns NM_FULL at once only if the keys leave no node, even if none waits. A value
 * that is replaced comes back by `release` later, like that of a removed key. After NM_ABSENT,
 * NM_OTHER and an error the map does not have the new value. */
nm_outcome nm_map_wait_put(nm_handle *map, nm_handle *worker, uint64_t key, uint64_t value,
                           const nm_options *options, nm_map_counts *counts,
                           nm_map_release release, void *context, uint64_t *old,
                           uint32_t timeout_ms);
nm_outcome nm_map_wait_replace(nm_handle *map, nm_handle *worker, uint64_t key, uint64_t value,
                               const nm_options *options, nm_map_counts *counts,
                               nm_map_release release, void *context, uint64_t *old,
                               uint32_t timeout_ms);
nm_outcome nm_map_wait_compare_replace(nm_handle *map, nm_handle *worker, uint64_t key,
                                       uint64_t expected, uint64_t value,
                                       const nm_options *options, nm_map_counts *counts,
                                       nm_map_release release, void *context, uint64_t *found,
                                       uint32_t timeout_ms);

/* ---- calls that read, and are repeated ----
 * Each finishes a remove that is pending first, and repeats a call that lost each of its tries, at
 * most `rounds` times. It makes three tries or more, because fewer are not enough for any call.
 * Errors: NM_BUSY, NM_PENDING: the bounds of the options were reached.
 * NM_PINNED, NM_KEY, NM_CLOSED, NM_KIND, NM_IN_USE. After an error nothing was written that counts.
 *
 * The value that these write for a key was under that key at a moment of the call. It may be
 * reclaimed at any time after that, unless another worker was pinned before the call and still is. So a
 * program may use such an object until the unpin of that other worker. The same holds for the value
 * that a pop, a remove or a replacement writes. */

/* Finds the least key that is not below key, or the greatest that is not above it. Returns NM_YES
 * and writes the key and its value, or NM_NO. */
nm_outcome nm_map_at_least(nm_handle *worker, uint64_t key, const nm_options *options,
                           uint64_t *found, uint64_t *value);
nm_outcome nm_map_at_most(nm_handle *worker, uint64_t key, const nm_options *options,
                          uint64_t *found, uint64_t *value);

/* Reads keys in ascending order: those that are not below `from` and are below `below`, at most
 * `room` of them. Writes them to keys, and their number to count. Returns NM_NO if they are all of
 * them. Returns NM_YES if there may be more, and writes to next from which key on: the next call
 * goes on there. It takes no snapshot: two keys may have different moments. A key that the map has
 * during the whole call is written. */
nm_outcome nm_map_read_keys(nm_handle *worker, uint64_t from, uint64_t below, uint64_t *keys,
                            size_t room, size_t *count, uint64_t *next, const nm_options *options);

/* Reads the same keys in descending order. After NM_YES the next call goes on below next. */
nm_outcome nm_map_read_keys_back(nm_handle *worker, uint64_t from, uint64_t below, uint64_t *keys,
                                 size_t room, size_t *count, uint64_t *next,
                                 const nm_options *options);

/* Do the same, and write each key with its value. */
nm_outcome nm_map_read_entries(nm_handle *worker, uint64_t from, uint64_t below, nm_entry *entries,
                               size_t room, size_t *count, uint64_t *next,
                               const nm_options *options);
nm_outcome nm_map_read_entries_back(nm_handle *worker, uint64_t from, uint64_t below,
                                    nm_entry *entries, size_t room, size_t *count, uint64_t *next,
                                    const nm_options *options);

/* Writes how many keys of the map are not below `from` and are below `below`, by scans of 512 keys.
 * Returns NM_DONE. While others change the map, each key is counted as a scan finds it. */
nm_outcome nm_map_count(nm_handle *worker, uint64_t from, uint64_t below, uint64_t *count,
                        const nm_options *options);

/* Looks up count keys as nm_map_get_many_pinned does, under pins of its own: each is for 64 keys.
 * Returns NM_DONE. After an error, the keys of earlier pins have their answers. */
nm_outcome nm_map_get_many(nm_handle *worker, nm_map_lookup *lookups, size_t count,
                           const nm_options *options);

/* ---- how many keys there are, and forks ----
 * The library does not count the keys of a map, and does not know of forks. A program that owns a
 * map may do both by these. Several threads may call them at the same time. */

/* Makes the counts of a map with that many nodes and 1 to 64 workers: one for each worker, in a
 * cache line of its own, all 0. Returns NM_DONE and writes them. Errors: NM_WORKERS, NM_NO_MEMORY.
 */
nm_outcome nm_map_counts_new(nm_map_counts **counts, uint32_t nodes, uint32_t workers);

/* Frees the counts; NULL is allowed. In a forked child it does nothing. */
void nm_map_counts_free(nm_map_counts *counts);

/* Counts the outcome of an insert, a put or a replacement by the worker of a number, or that of a
 * remove or a pop. An unfinished remove counts at once, because its key will be removed by this call
 * and no other. Only the thread that has the worker makes this call. After NM_YES and NM_INSERTED the
 * first one wakes the calls that wait in nm_map_wait_first. */
void nm_map_count_insert(nm_map_counts *counts, uint32_t worker, nm_outcome outcome);
void nm_map_count_remove(nm_map_counts *counts, uint32_t worker, nm_outcome outcome);

/* Returns how many nodes wait to be freed, with all workers: two for each removed key, and one for
 * each replaced value, whose value was not reclaimed. If a program calls nm_map_reclaim itself, or
 * passes NULL for the counts, it gets too many. It is exact if no call is in progress. */
uint64_t nm_map_counts_waiting(const nm_map_counts *counts);

/* Waits until the map has a key below the bound, and removes nothing. Returns NM_YES and writes the
 * least key and its value, which may be reclaimed at any time, as after nm_map_at_least. It waits
 * for at most timeout_ms milliseconds, and sleeps meanwhile: the count of an insert wakes it
 * (nm_map_count_insert). If the new key is not below the bound, it sleeps on. NM_NO after that time,
 * and a last look. It makes its looks by the worker, which is not pinned in between. Errors: those
 * of nm_map_at_least. */
nm_outcome nm_map_wait_first(nm_handle *worker, uint64_t below, const nm_options *options,
                             nm_map_counts *counts, uint64_t *found, uint64_t *value,
                             uint32_t timeout_ms);

/* Returns the number of keys: it adds up the counts, and waits for nothing. It is exact if no call
 * is in progress; otherwise it may miss the calls in progress. */
uint64_t nm_map_counts_keys(const nm_map_counts *counts);

/* Returns 1 if this process was forked after the counts were made, and else 0. A forked child must
 * call no other function for the map, and end none of its objects: they are the parent's. */
int nm_map_is_forked(const nm_map_counts *counts);

/* ---- how full it is ---- */

/* Returns 1 if so many keys leave fewer nodes than are wanted, even if none waits, and else 0. An
 * insert wants two, and a replacement one. */
int nm_map_is_brimful(uint64_t nodes, uint64_t keys, uint64_t wanted);

/* Writes how full a map is whose call has returned NM_FULL: all nodes that its keys do not take wait
 * to be freed, except one if fewer are waiting. `behind` is the worker that nm_map_take_back wrote,
 * or NM_NOBODY. It is exact if no other call is in progress. */
void nm_map_fullness(uint64_t nodes, uint64_t keys, uint64_t waiting, uint32_t behind,
                     nm_fullness *fullness);

/* Writes what such a fullness says, like nm_full_words: "the map is full: its 47 keys take 99 of
 * its 100 nodes, and 0 wait to be freed". */
const char *nm_map_full_words(const nm_fullness *fullness, char *text, size_t size);

/* ---- the end ---- */

/* Empties a map before its end, when no worker is attached: removes each key, and hands each value
 * to `release` once, including those that were removed or replaced earlier. It attaches each worker
 * in turn. Returns NM_DONE: then no node waits, and an nm_map_close or nm_drop loses no value.
 *
 * Errors, after which another call goes on: NM_NO_MEMORY: memory was refused, even after
 * repetitions for timeout_ms milliseconds, with sleeps in between. NM_ATTACHED: a worker is
 * attached. The values of all others were reclaimed; those that wait with that worker have not.
 * NM_BEHIND: values wait for a worker that is pinned. NM_BUSY, NM_UNFINISHED, NM_IN_USE: other
 * calls interfered. NM_CLOSED, NM_KIND, NM_CLOSING. */
nm_outcome nm_map_drain(nm_handle *map, nm_map_release release, void *context,
                        uint32_t timeout_ms);

#ifdef __cplusplus
}
#endif

#endif
