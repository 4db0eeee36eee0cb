/* Several threads insert and remove few keys, with one try a call, and repeat each call until it is
 * answered. Prints how many tries were lost, to which threads by the laws of progress, and the
 * longest run of lost tries of one call. */
#define _POSIX_C_SOURCE 200112L
#include "holds.h"
#include "nm_set.h"

#include <inttypes.h>
#include <pthread.h>
#include <sched.h>
#include <stdatomic.h>

enum { CALLS = 1 << 20, MOST = 64, TEND = 256, NODES = 65536 };

typedef struct {
    nm_handle worker;
    pthread_barrier_t *begin;
    uint64_t keys, seed, lost, streak, links, flags, moves;
} thread;

static uint64_t draw(uint64_t *seed) {
    *seed ^= *seed << 13;
    *seed ^= *seed >> 7;
    *seed ^= *seed << 17;
    return *seed;
}

static void add_streak(thread *of, uint64_t lost) {
    of->lost += lost;
    if (lost > of->streak) of->streak = lost;
}

static void tend(thread *of) {
    uint64_t epoch = 0, freed = 0;
    uint32_t behind = 0;
    of->moves += nm_worker_advance(&of->worker, &epoch, &behind) == NM_DONE;
    CHECK(nm_worker_collect(&of->worker, &epoch, &freed) == NM_DONE);
}

/* Where no slots are free, since a thread that is pinned has lost its processor, it waits: that is
 * no lost try. */
static nm_outcome try_insert(thread *of, uint64_t key) {
    nm_outcome told = nm_worker_try_insert(&of->worker, key, 1);
    for (; told == NM_FULL; told = nm_worker_try_insert(&of->worker, key, 1)) {
        sched_yield();
        tend(of);
    }
    return told;
}

static void insert(thread *of, uint64_t key) {
    uint64_t lost = 0;
    nm_outcome told = try_insert(of, key);
    for (; told == NM_BUSY; lost++) told = try_insert(of, key);
    CHECK(told == NM_YES || told == NM_NO);
    of->links += told == NM_YES;
    add_streak(of, lost);
}

/* The try that wins the flag is told as unfinished, and not lost. */
static void remove_key(thread *of, uint64_t key) {
    uint64_t lost = 0;
    nm_outcome told = nm_worker_try_remove(&of->worker, key, 1);
    for (; told == NM_BUSY; lost++) told = nm_worker_try_remove(&of->worker, key, 1);
    if (told == NM_UNFINISHED) {
        told = nm_worker_finish(&of->worker, 1);
        for (; told == NM_UNFINISHED; lost++) told = nm_worker_finish(&of->worker, 1);
    }
    CHECK(told == NM_YES || told == NM_NO);
    of->flags += told == NM_YES;
    add_streak(of, lost);
}

static void *call(void *given) {
    thread *of = given;
    pthread_barrier_wait(of->begin);
    for (uint32_t i = 0; i < CALLS; i++) {
        uint64_t drawn = draw(&of->seed);
        if (drawn >> 63) insert(of, (drawn >> 8) % of->keys);
        else remove_key(of, (drawn >> 8) % of->keys);
        if (i % TEND == TEND - 1) tend(of);
    }
    return NULL;
}

static void row(uint64_t keys, uint32_t threads) {
    nm_handle set = NM_CLOSED_HANDLE;
    thread all[MOST] = {0};
    pthread_t ids[MOST];
    pthread_barrier_t begin;
    thread sum = {0};
    CHECK(nm_set_new(&set, NODES, threads) == NM_DONE);
    CHECK(pthread_barrier_init(&begin, NULL, threads) == 0);
    for (uint32_t i = 0; i < threads; i++) {
        all[i].keys = keys, all[i].seed = 88172645463325252u + i, all[i].begin = &begin;
        CHECK(nm_set_attach(&set, &all[i].worker) == NM_DONE);
        CHECK(pthread_create(&ids[i], NULL, call, &all[i]) == 0);
    }
    for (uint32_t i = 0; i < threads; i++) {
        CHECK(pthread_join(ids[i], NULL) == 0);
        sum.lost += all[i].lost, sum.links += all[i].links, sum.flags += all[i].flags;
        sum.moves += all[i].moves;
        if (all[i].streak > sum.streak) sum.streak = all[i].streak;
        nm_drop(&all[i].worker);
    }
    double calls = (double)CALLS * threads;
    printf("| %" PRIu64 " | %" PRIu32 " | %.2f | %" PRIu64 " | %.0f |\n", keys, threads,
           (double)sum.lost * 1000 / calls, sum.streak,
           (double)(sum.links + 3 * sum.flags + sum.moves) * threads * 1000 / calls);
    nm_drop(&set);
}

int main(void) {
    static const uint64_t keys[] = {1, 16, 256};
    puts("| Keys | Threads | Lost tries of 1,000 calls | Longest streak | By the laws at most |");
    puts("|---|---|---|---|---|");
    for (size_t i = 0; i < 3; i++)
        for (uint32_t threads = 1; threads <= 4; threads *= 2) row(keys[i], threads);
}
