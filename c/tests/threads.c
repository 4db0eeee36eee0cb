/* Four threads insert, remove and look up the same keys, each by a worker of its own, two of them
 * by managed calls. Then the set is closed, and its report is compared with the answers of the
 * calls: a key is in the set exactly if it was inserted once more than removed, and each slot is
 * accounted for. */
#include "holds.h"
#include "nm_set.h"

#include <inttypes.h>
#include <pthread.h>
#include <stdio.h>

enum {
    THREADS = 4,
    APART = 8,
    NODES = 4096,
    FIXED = 5,
    KEYS = 256,
    CALLS = 100000,
    TRIES = 64,
    COLLECT_EVERY = 64
};

typedef struct part {
    nm_handle worker;
    int is_managed; /* whether it makes managed calls */
    uint64_t seed;
    int balance[KEYS]; /* of each key, how many of its inserts answered yes, less such deletes */
    uint64_t inserted, deleted, found;
} part;

static uint64_t draw(uint64_t *seed) {
    *seed ^= *seed << 13;
    *seed ^= *seed >> 7;
    *seed ^= *seed << 17;
    return *seed;
}

/* Moves the epoch on if it can, and frees what has waited long enough. */
static void collect(part *own) {
    uint64_t epoch, freed;
    uint32_t behind;
    nm_outcome moved = nm_worker_advance(&own->worker, &epoch, &behind);
    CHECK(moved == NM_DONE || moved == NM_BEHIND || moved == NM_LOST);
    CHECK(nm_worker_collect(&own->worker, &epoch, &freed) == NM_DONE);
}

static nm_outcome try_insert(part *own, uint64_t key) {
    return own->is_managed ? nm_worker_insert(&own->worker, key, &nm_default_options)
                      : nm_worker_try_insert(&own->worker, key, TRIES);
}

static nm_outcome try_delete(part *own, uint64_t key) {
    return own->is_managed ? nm_worker_remove(&own->worker, key, &nm_default_options)
                      : nm_worker_try_remove(&own->worker, key, TRIES);
}

static nm_outcome try_has(part *own, uint64_t key) {
    return own->is_managed ? nm_worker_contains(&own->worker, key, &nm_default_options)
                      : nm_worker_try_contains(&own->worker, key, TRIES);
}

/* Inserts a key, however often that takes. */
static int insert(part *own, uint64_t key) {
    nm_outcome told;
    while ((told = try_insert(own, key)) < 0) {
        CHECK(told == NM_BUSY || told == NM_FULL);
        collect(own);
    }
    return told == NM_YES;
}

static int delete(part *own, uint64_t key) {
    nm_outcome told;
    while ((told = try_delete(own, key)) == NM_BUSY) {}
    while (told == NM_UNFINISHED) told = nm_worker_finish(&own->worker, TRIES);
    CHECK(told == NM_YES || told == NM_NO);
    return told == NM_YES;
}

static int has(part *own, uint64_t key) {
    nm_outcome told;
    while ((told = try_has(own, key)) == NM_BUSY) {}
    CHECK(told == NM_YES || told == NM_NO);
    return told == NM_YES;
}

static void *work(void *given) {
    part *own = given;
    for (int call = 0; call < CALLS; call++) {
        uint64_t drawn = draw(&own->seed), key = drawn % KEYS;
        switch (drawn >> 32 & 3) {
        case 0:
            if (insert(own, key)) own->balance[key]++, own->inserted++;
            break;
        case 1:
            if (delete(own, key)) own->balance[key]--, own->deleted++;
            break;
        default: own->found += has(own, key);
        }
        if (!own->is_managed && call % COLLECT_EVERY == 0) collect(own);
    }
    return NULL;
}

/* What a worker won is what it was answered. It goes home. */
static void send_home(part *own, uint32_t number) {
    uint32_t told;
    nm_stats stats;
    CHECK(nm_worker_number(&own->worker, &told) == NM_DONE && told == number);
    CHECK(nm_worker_stats(&own->worker, &stats) == NM_DONE);
    CHECK(stats.links == own->inserted && stats.flags == own->deleted);
    CHECK(stats.retired == stats.freed + stats.queued);
    CHECK(nm_drop(&own->worker) == NM_DONE);
}

/* The keys of the report ascend, and are those that the balances leave. */
static void compare_keys(nm_handle *report, const part *parts) {
    uint64_t count, key, index = 0;
    CHECK(nm_report_keys(report, &count) == NM_DONE);
    for (uint64_t wanted = 0; wanted < KEYS; wanted++) {
        int balance = 0;
        for (int i = 0; i < THREADS; i++) balance += parts[i].balance[wanted];
        CHECK(balance == 0 || balance == 1);
        if (balance == 1) CHECK(nm_report_key(report, index++, &key) == NM_DONE && key == wanted);
    }
    CHECK(index == count && nm_report_key(report, index, &key) == NM_NUMBER);
}

/* Returns how many nodes wait in all queues, and checks that each is as long as reported. */
static uint64_t take_waiting(nm_handle *report) {
    uint64_t all = 0, nodes, label;
    for (uint32_t worker = 0; worker < THREADS * APART; worker++) {
        nm_waiting waiting = {0, 0, 0};
        CHECK(nm_report_queue(report, worker, &nodes) == NM_DONE);
        for (uint64_t taken = 0; taken < nodes; taken++) {
            label = waiting.label;
            CHECK(nm_report_waiting(report, worker, &waiting) == NM_YES);
            CHECK(waiting.slot > FIXED && waiting.slot <= NODES && waiting.generation > 0 &&
                  waiting.label >= label);
        }
        CHECK(nm_report_waiting(report, worker, &waiting) == NM_NO);
        all += nodes;
    }
    return all;
}

int main(void) {
    nm_handle set = NM_CLOSED_HANDLE;
    static part parts[THREADS];
    pthread_t threads[THREADS];
    CHECK(nm_set_new(&set, NODES, THREADS * APART) == NM_DONE);
    for (uint32_t i = 0; i < THREADS; i++) {
        parts[i].seed = 88172645463325252u + i;
        parts[i].is_managed = i % 2 == 1;
        CHECK(nm_set_worker(&set, &parts[i].worker, i * APART) == NM_DONE);
        CHECK(pthread_create(&threads[i], NULL, work, &parts[i]) == 0);
    }
    for (int i = 0; i < THREADS; i++) CHECK(pthread_join(threads[i], NULL) == 0);
    CHECK(nm_set_close(&set) == NM_ATTACHED);
    for (uint32_t i = 0; i < THREADS; i++) send_home(&parts[i], i * APART);
    CHECK(nm_set_close(&set) == NM_DONE);

    nm_handle report = set;
    uint64_t count;
    uint32_t free_slots, reached;
    compare_keys(&report, parts);
    CHECK(nm_report_keys(&report, &count) == NM_DONE);
    CHECK(nm_report_slots(&report, &free_slots, &reached) == NM_DONE && reached == 2 * count);
    CHECK(free_slots + reached + take_waiting(&report) == NODES - FIXED);
    CHECK(nm_drop(&report) == NM_DONE);
    printf("%d threads made %d calls each; %" PRIu64 " keys are left\n", THREADS, CALLS, count);
    return 0;
}
