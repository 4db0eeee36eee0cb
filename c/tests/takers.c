/* Tests pops. Four threads insert keys of their own, ascending, and pop the least key or the
 * greatest. Each key that was inserted is popped once, or is in the report. A key that is below all
 * others, or above them, is popped by the first call at that end. */
#include "holds.h"
#include "nm_set.h"

#include <pthread.h>
#include <stdatomic.h>
#include <stdio.h>

enum { THREADS = 4, NODES = 65536, KEYS = 20000, LEAST = 0, GREATEST = THREADS * KEYS + 1 };

typedef struct part {
    nm_handle worker;
    uint64_t number;
    uint64_t taken;
} part;

static atomic_uint times[GREATEST + 1]; /* how often each key was taken */

static nm_outcome pop(part *own, uint64_t *key) {
    return own->number % 2 == 0 ? nm_worker_pop_first(&own->worker, &nm_default_options, key)
                                : nm_worker_pop_last(&own->worker, &nm_default_options, key);
}

static void take(part *own) {
    uint64_t key = GREATEST + 1;
    nm_outcome told;
    while ((told = pop(own, &key)) == NM_BUSY) {}
    if (told == NM_UNFINISHED)
        CHECK(nm_worker_pending(&own->worker, &key) == NM_YES);
    else if (told != NM_YES) {
        CHECK(told == NM_NO && key == GREATEST + 1);
        return;
    }
    CHECK(key <= GREATEST);
    atomic_fetch_add(&times[key], 1);
    own->taken++;
}

static void put(part *own, uint64_t key) {
    nm_outcome told;
    while ((told = nm_worker_insert(&own->worker, key, &nm_default_options)) < 0) {
        CHECK(told == NM_BUSY || told == NM_FULL || told == NM_PENDING);
        take(own);
    }
    CHECK(told == NM_YES);
}

static void *work(void *given) {
    part *own = given;
    for (uint64_t key = 0; key < KEYS; key++) {
        put(own, 1 + key * THREADS + own->number);
        if (key % 3 != 0) take(own);
    }
    return NULL;
}

int main(void) {
    static part parts[THREADS];
    pthread_t threads[THREADS];
    nm_handle set = NM_CLOSED_HANDLE;
    uint64_t taken = 0, left, key;
    CHECK(nm_set_new(&set, NODES, THREADS) == NM_DONE);
    for (uint32_t number = 0; number < THREADS; number++) {
        parts[number].number = number;
        CHECK(nm_set_worker(&set, &parts[number].worker, number) == NM_DONE);
    }
    put(&parts[0], LEAST);
    put(&parts[1], GREATEST);
    for (int at = 0; at < 2; at++) take(&parts[at]);
    CHECK(times[LEAST] == 1 && times[GREATEST] == 1);
    for (int at = 0; at < THREADS; at++)
        CHECK(pthread_create(&threads[at], NULL, work, &parts[at]) == 0);
    for (int at = 0; at < THREADS; at++) CHECK(pthread_join(threads[at], NULL) == 0);
    for (int at = 0; at < THREADS; at++) {
        taken += parts[at].taken;
        CHECK(nm_drop(&parts[at].worker) == NM_DONE);
    }
    CHECK(nm_set_close(&set) == NM_DONE && nm_report_keys(&set, &left) == NM_DONE);
    CHECK(taken + left == THREADS * KEYS + 2);
    for (uint64_t at = 0; at < left; at++) {
        CHECK(nm_report_key(&set, at, &key) == NM_DONE);
        CHECK(atomic_fetch_add(&times[key], 1) == 0);
    }
    for (key = LEAST; key <= GREATEST; key++) CHECK(times[key] == 1);
    CHECK(nm_drop(&set) == NM_DONE);
    puts("four threads take each key once");
    return 0;
}
