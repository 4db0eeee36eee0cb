/* Functions of nm_set.h that wait, for C. Each makes the call of its name, and repeats it while the
 * outcome says to call again, for at most timeout_ms milliseconds. In between it sleeps, from 20
 * microseconds up to a millisecond, twice as long each time. With 0 milliseconds it makes one call.
 * The functions of nm_set.h never sleep. All of this is code of this header, which c/tests/waits.c
 * tests; it is not proved. C++ has the waits in nm_set.hpp.
 *
 *     nm_wait_attach(&set, &worker, 1000);                    attaches a worker, within a second
 *     nm_wait_insert(&worker, 5, &nm_default_options, 1000);  NM_YES: the key was absent
 *
 * The time is that of CLOCK_MONOTONIC. Strict C11 has no such clock, so there it is the time of
 * day: if somebody sets the time of day during a wait, the wait is longer or shorter by as much.
 */
#ifndef NM_WAIT_H
#define NM_WAIT_H

#include "nm_set.h"

#include <inttypes.h>
#include <stdio.h>
#include <time.h>

#if defined __STDC_VERSION__ && __STDC_VERSION__ >= 201112L && !defined __STDC_NO_THREADS__
#include <threads.h>
#elif !defined _POSIX_C_SOURCE || _POSIX_C_SOURCE < 199309L
#error "nm_wait.h needs C11, or _POSIX_C_SOURCE of 199309L or more before the first #include"
#endif

/* A cast of C, as C++ writes it. */
#ifdef __cplusplus
#define NM_CAST(type, value) (static_cast<type>(value))
#else
#define NM_CAST(type, value) ((type)(value))
#endif

/* Sleeps for less than a second, or until a signal. */
static inline void nm_sleep(uint32_t nanoseconds) {
    struct timespec time;
    time.tv_sec = 0;
    time.tv_nsec = NM_CAST(long, nanoseconds);
#if defined __STDC_VERSION__ && __STDC_VERSION__ >= 201112L && !defined __STDC_NO_THREADS__
    (void)thrd_sleep(&time, NULL);
#else
    (void)nanosleep(&time, NULL);
#endif
}

/* Returns the time in nanoseconds. */
static inline uint64_t nm_now(void) {
    struct timespec time = {0, 0};
#ifdef CLOCK_MONOTONIC
    (void)clock_gettime(CLOCK_MONOTONIC, &time);
#else
    (void)timespec_get(&time, TIME_UTC);
#endif
    return NM_CAST(uint64_t, time.tv_sec) * 1000000000u + NM_CAST(uint64_t, time.tv_nsec);
}

/* One wait: when it ends, and how long it sleeps next, in nanoseconds. It is all zero before its
 * first sleep. */
typedef struct nm_wait {
    uint64_t end;
    uint64_t pause;
} nm_wait;

/* Sleeps and returns 1; returns 0 if the time is over. */
static inline int nm_wait_on(nm_wait *wait, uint32_t timeout_ms) {
    uint64_t now, left;
    if (timeout_ms == 0) return 0;
    now = nm_now();
    if (wait->pause == 0) {
        wait->end = now + NM_CAST(uint64_t, timeout_ms) * 1000000u;
        wait->pause = 20000;
    }
    if (now >= wait->end) return 0;
    left = wait->end - now;
    nm_sleep(NM_CAST(uint32_t, left < wait->pause ? left : wait->pause));
    wait->pause = wait->pause < 500000 ? 2 * wait->pause : 1000000;
    return 1;
}

/* Makes nm_worker_insert, and repeats it after NM_FULL: nodes that wait are free soon, even if
 * threads were preempted. Each call advances the epoch and collects, if no worker holds the epoch
 * back. 1,000 milliseconds are usual. If the keys of the set take all nodes, it returns NM_FULL
 * only after all of that time. */
static inline nm_outcome nm_wait_insert(nm_handle *worker, uint64_t key, const nm_options *options,
                                        uint32_t timeout_ms) {
    nm_wait wait = {0, 0};
    nm_outcome outcome = nm_worker_insert(worker, key, options);
    while (outcome == NM_FULL && nm_wait_on(&wait, timeout_ms))
        outcome = nm_worker_insert(worker, key, options);
    return outcome;
}

/* Makes nm_set_attach, and repeats it after NM_NO_WORKER and after NM_IN_USE. The former means that
 * each worker is attached. The latter means that another call has a handle for longer than the
 * library looks again. */
static inline nm_outcome nm_wait_attach(nm_handle *set, nm_handle *worker, uint32_t timeout_ms) {
    nm_wait wait = {0, 0};
    nm_outcome outcome = nm_set_attach(set, worker);
    while ((outcome == NM_NO_WORKER || outcome == NM_IN_USE) && nm_wait_on(&wait, timeout_ms))
        outcome = nm_set_attach(set, worker);
    return outcome;
}

/* Makes nm_set_worker, and repeats it after NM_ATTACHED and after NM_IN_USE. */
static inline nm_outcome nm_wait_worker(nm_handle *set, nm_handle *worker, uint32_t number,
                                        uint32_t timeout_ms) {
    nm_wait wait = {0, 0};
    nm_outcome outcome = nm_set_worker(set, worker, number);
    while ((outcome == NM_ATTACHED || outcome == NM_IN_USE) && nm_wait_on(&wait, timeout_ms))
        outcome = nm_set_worker(set, worker, number);
    return outcome;
}

/* Makes nm_set_close, and repeats it after NM_ATTACHED and after NM_IN_USE. */
static inline nm_outcome nm_wait_close(nm_handle *set, uint32_t timeout_ms) {
    nm_wait wait = {0, 0};
    nm_outcome outcome = nm_set_close(set);
    while ((outcome == NM_ATTACHED || outcome == NM_IN_USE) && nm_wait_on(&wait, timeout_ms))
        outcome = nm_set_close(set);
    return outcome;
}

/* Makes nm_set_attached, and repeats it after NM_IN_USE. */
static inline nm_outcome nm_wait_attached(nm_handle *set, uint32_t number, uint32_t timeout_ms) {
    nm_wait wait = {0, 0};
    nm_outcome outcome = nm_set_attached(set, number);
    while (outcome == NM_IN_USE && nm_wait_on(&wait, timeout_ms))
        outcome = nm_set_attached(set, number);
    return outcome;
}

/* Writes what is known after NM_FULL into a text of size bytes, 1 or more, and returns the text. It
 * has the number of nodes, which the caller gives; how many nodes wait in the queue of this worker
 * (other workers have queues of their own); and which workers hold them back. 384 bytes have room
 * for all 64 workers; in a shorter text the end is cut off. It waits for nothing. */
static inline const char *nm_full_text(nm_handle *worker, uint32_t nodes, char *text, size_t size) {
    uint32_t number = 0, other;
    uint64_t waiting = 0, epoch = 0, mask = 0;
    const char *between = "; held back by a pin or a call of worker ";
    int written;
    size_t used;
    (void)nm_worker_number(worker, &number);
    (void)nm_worker_queue_len(worker, &waiting);
    (void)nm_worker_behind(worker, &epoch, &mask);
    written = snprintf(text, size,
                       "the set is full: no two of its %" PRIu32 " nodes are free, and %" PRIu64
                       " wait with worker %" PRIu32,
                       nodes, waiting, number);
    used = NM_CAST(size_t, written);
    for (other = 0; other < 64 && used < size; other++) {
        if ((mask >> other & 1) == 0) continue;
        written = snprintf(text + used, size - used, "%s%" PRIu32, between, other);
        used += NM_CAST(size_t, written);
        between = ", ";
    }
    return text;
}

#undef NM_CAST

#endif
