/* Tests several threads that use one handle without a lock. Four threads repeatedly attach workers
 * by one handle of a set. Two threads make calls by one handle of a worker at the same time, which
 * is a fault of the program: each call answers or returns NM_IN_USE, and nothing is lost. */
#include "holds.h"
#include "nm_set.h"

#include <inttypes.h>
#include <pthread.h>
#include <stdatomic.h>
#include <stdio.h>

enum {
    THREADS = 4,
    WORKERS = 37,
    NODES = 65536,
    KEYS = 1000,
    TURNS = 2000,
    CALLS = 200000,
    TRIES = 64
};

static nm_handle set = NM_CLOSED_HANDLE, shared = NM_CLOSED_HANDLE;
static atomic_uint_fast64_t inserted, deleted, refused;

/* A thread attaches itself and goes home, again and again. Nobody else takes so many workers that
 * none is left. */
static void *attach(void *given) {
    (void)given;
    for (int turn = 0; turn < TURNS; turn++) {
        nm_handle worker = NM_CLOSED_HANDLE;
        CHECK(nm_set_attach(&set, &worker) == NM_DONE && nm_set_attach(&set, &worker) == NM_OPEN);
        if (turn < KEYS)
            CHECK(nm_worker_try_insert(&worker, (uint64_t)turn * 7919 % 10007, TRIES) >= NM_NO);
        CHECK(nm_drop(&worker) == NM_DONE && nm_drop(&worker) == NM_CLOSED);
    }
    return NULL;
}

/* Counts the outcome of a call by the shared handle. */
static void count(nm_outcome told, atomic_uint_fast64_t *won) {
    if (told == NM_IN_USE) atomic_fetch_add(&refused, 1);
    else if (told == NM_YES) atomic_fetch_add(won, 1);
    else CHECK(told == NM_NO);
}

/* Two threads insert and delete one key each by the same handle, and one of them gives it up at
 * last. */
static void *misuse(void *given) {
    uint64_t key = (uint64_t)(uintptr_t)given, epoch, freed;
    uint32_t behind;
    for (int call = 0; call < CALLS; call++) {
        count(nm_worker_try_insert(&shared, key, TRIES), &inserted);
        count(nm_worker_try_remove(&shared, key, TRIES), &deleted);
        if (call % 16 != 0) continue;
        for (int moves = 0; moves < 2; moves++) {
            nm_outcome moved = nm_worker_advance(&shared, &epoch, &behind);
            CHECK(moved == NM_DONE || moved == NM_IN_USE);
        }
        nm_outcome collected = nm_worker_collect(&shared, &epoch, &freed);
        CHECK(collected == NM_DONE || collected == NM_IN_USE);
    }
    return NULL;
}

static void run(void *(*work)(void *), int threads) {
    pthread_t made[THREADS];
    for (int i = 0; i < threads; i++)
        CHECK(pthread_create(&made[i], NULL, work, (void *)(uintptr_t)(20000 + i)) == 0);
    for (int i = 0; i < threads; i++) CHECK(pthread_join(made[i], NULL) == 0);
}

int main(void) {
    uint64_t count_of_keys;
    nm_stats before, after;
    CHECK(nm_set_new_unbalanced(&set, NODES, WORKERS) == NM_DONE);
    run(attach, THREADS);
    CHECK(nm_set_attach(&set, &shared) == NM_DONE && nm_worker_stats(&shared, &before) == NM_DONE);
    run(misuse, 2);
    CHECK(nm_worker_stats(&shared, &after) == NM_DONE && after.links - before.links == inserted);
    CHECK(after.flags - before.flags == deleted);
    CHECK(nm_set_close(&set) == NM_ATTACHED && nm_drop(&shared) == NM_DONE &&
          nm_set_close(&set) == NM_DONE);
    CHECK(nm_report_keys(&set, &count_of_keys) == NM_DONE &&
          count_of_keys == KEYS + inserted - deleted);
    CHECK(nm_drop(&set) == NM_DONE);
    printf("%d threads took %d workers; %" PRIuFAST64 " calls found their handle in use\n", THREADS,
        THREADS * TURNS, (uint_fast64_t)refused);
    return 0;
}
