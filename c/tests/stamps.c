/* Tests stamps between threads. Each of four threads inserts keys, publishes a stamp after each,
 * and then writes the stamp's number of keys to a variable of the program. Each observes the stamps
 * of the others: a stamp that was observed after that number was read has no fewer keys, and the
 * thread finds the keys of that many inserts. */
#include "holds.h"
#include "nm_set.h"

#include <inttypes.h>
#include <pthread.h>
#include <sched.h>
#include <stdatomic.h>
#include <stdio.h>

enum { THREADS = 4, APART = 8, WORKERS = THREADS * APART, KEYS = 5000, NODES = 65536, TRIES = 64 };

static nm_handle set = NM_CLOSED_HANDLE;
static atomic_uint_fast64_t left[THREADS], started, busy;

/* A thread that finds another one at the stamp calls again. */
static void post(nm_handle *worker, uint64_t wanted) {
    uint64_t inserted = 0, removed = 0;
    nm_outcome told;
    while ((told = nm_worker_publish(worker, &inserted, &removed)) == NM_BUSY)
        atomic_fetch_add(&busy, 1), sched_yield();
    CHECK(told == NM_DONE && inserted == wanted && removed == 0);
}

static uint64_t read_inserted(nm_handle *worker, uint32_t number) {
    uint64_t inserted = 0, removed = 0;
    nm_outcome told;
    while ((told = nm_worker_observe(worker, number, &inserted, &removed)) == NM_BUSY)
        atomic_fetch_add(&busy, 1), sched_yield();
    CHECK(told == NM_YES ? inserted > 0 && removed == 0 : told == NM_NO && inserted == 0);
    return inserted;
}

/* The keys of a thread, in the order in which it inserts them: scattered, because keys in their
 * order would make a long path. */
static uint64_t key_of(uint64_t thread, uint64_t index) {
    return (index * THREADS + thread) * 7919 % 100003;
}

/* Reads the note of another thread. */
static void look(nm_handle *worker, uint64_t other) {
    uint64_t least = atomic_load(&left[other]);
    uint64_t inserted = read_inserted(worker, (uint32_t)other * APART);
    CHECK(inserted >= least && inserted <= KEYS);
    if (inserted > 0)
        CHECK(nm_worker_try_contains(worker, key_of(other, inserted - 1), TRIES) == NM_YES);
}

static void *work(void *given) {
    uint64_t own = (uint64_t)(uintptr_t)given;
    nm_handle worker = NM_CLOSED_HANDLE;
    CHECK(nm_set_worker(&set, &worker, (uint32_t)own * APART) == NM_DONE);
    atomic_fetch_add(&started, 1);
    while (atomic_load(&started) < THREADS) sched_yield();
    for (uint64_t index = 0; index < KEYS; index++) {
        CHECK(nm_worker_insert(&worker, key_of(own, index), &nm_default_options) == NM_YES);
        post(&worker, index + 1);
        atomic_store(&left[own], index + 1);
        for (uint64_t step = 1; step < THREADS; step++) look(&worker, (own + step) % THREADS);
    }
    CHECK(nm_drop(&worker) == NM_DONE);
    return NULL;
}

int main(void) {
    pthread_t made[THREADS];
    nm_handle worker = NM_CLOSED_HANDLE;
    CHECK(nm_set_new_unbalanced(&set, NODES, WORKERS) == NM_DONE);
    for (int i = 0; i < THREADS; i++)
        CHECK(pthread_create(&made[i], NULL, work, (void *)(uintptr_t)i) == 0);
    for (int i = 0; i < THREADS; i++) CHECK(pthread_join(made[i], NULL) == 0);
    CHECK(nm_set_worker(&set, &worker, 1) == NM_DONE);
    for (uint32_t i = 0; i < THREADS; i++) CHECK(read_inserted(&worker, i * APART) == KEYS);
    CHECK(nm_drop(&worker) == NM_DONE && nm_set_close(&set) == NM_DONE && nm_drop(&set) == NM_DONE);
    printf("%d stamps were published; %" PRIuFAST64 " calls found another thread at a stamp\n",
        THREADS * KEYS, (uint_fast64_t)busy);
    return 0;
}
