/* Repeats each call after memory was refused. If any one allocation is refused, it writes the same
 * text as without a refusal, which is in refused.out. */
#include "holds.h"
#include "nm_set.h"

#include <inttypes.h>
#include <stdio.h>

enum { NODES = 1024, KEYS = 150, MANAGED = 100, TRIES = 64 };

/* A refused set leaves its handle closed. */
static void make(nm_handle *set) {
    nm_outcome told;
    while ((told = nm_set_new_unbalanced(set, NODES, 3)) == NM_NO_MEMORY) CHECK(set->at == NULL);
    CHECK(told == NM_DONE);
}

/* A worker that memory was refused for is at home still. */
static void take(nm_handle *set, nm_handle *worker, uint32_t number) {
    nm_outcome told;
    while ((told = nm_set_worker(set, worker, number)) == NM_NO_MEMORY)
        CHECK(worker->at == NULL && set->at != NULL);
    CHECK(told == NM_DONE);
}

static nm_outcome insert(nm_handle *worker, uint64_t key) {
    nm_outcome told;
    do told = nm_worker_try_insert(worker, key, TRIES);
    while (told == NM_NO_MEMORY);
    return told;
}

/* A refused delete has left its key in the set, or it is pending. */
static nm_outcome delete(nm_handle *worker, uint64_t key) {
    nm_outcome told;
    while ((told = nm_worker_try_remove(worker, key, TRIES)) == NM_NO_MEMORY)
        CHECK(nm_worker_try_contains(worker, key, TRIES) == NM_YES);
    while (told == NM_UNFINISHED) told = nm_worker_finish(worker, TRIES);
    return told;
}

/* The same by managed calls: a refused one has left the key as it was, and nothing
 * pending. */
static nm_outcome add(nm_handle *worker, uint64_t key) {
    nm_outcome told;
    while ((told = nm_worker_insert(worker, key, &nm_default_options)) == NM_NO_MEMORY)
        CHECK(nm_worker_contains(worker, key, &nm_default_options) == NM_NO);
    return told;
}

static nm_outcome remove_key(nm_handle *worker, uint64_t key) {
    nm_outcome told;
    uint64_t pending;
    while ((told = nm_worker_remove(worker, key, &nm_default_options)) == NM_NO_MEMORY)
        CHECK(nm_worker_pending(worker, &pending) == NM_NO &&
              nm_worker_contains(worker, key, &nm_default_options) == NM_YES);
    return told;
}

/* A worker with managed calls: nine of ten of its keys are removed, each after a collection if
 * enough nodes wait. */
static void insert_and_remove(nm_handle *worker) {
    for (uint64_t key = KEYS; key < KEYS + MANAGED; key++) CHECK(add(worker, key) == NM_YES);
    for (uint64_t key = KEYS; key < KEYS + MANAGED; key++)
        if (key % 10 != 0) CHECK(remove_key(worker, key) == NM_YES);
}

/* A worker that did not resign, because memory was refused, is at home with all that it held. */
static void take_over(nm_handle *heir, uint32_t leaver) {
    nm_outcome told;
    uint64_t held, left;
    CHECK(nm_worker_queue_len(heir, &held) == NM_DONE);
    while ((told = nm_worker_resign(heir, leaver)) == NM_NO_MEMORY)
        CHECK(nm_worker_queue_len(heir, &left) == NM_DONE && left == held);
    CHECK(told == NM_DONE);
}

/* After a close that was refused memory, the workers are gathered, so that nothing but close goes
 * on. */
static void end(nm_handle *set) {
    nm_outcome told;
    while ((told = nm_set_close(set)) == NM_NO_MEMORY) {
        nm_handle worker = NM_CLOSED_HANDLE;
        CHECK(nm_set_worker(set, &worker, 0) == NM_CLOSING);
    }
    CHECK(told == NM_DONE);
}

/* Behind an end that was refused memory the handle owns the set, whose workers were gathered. */
static void end_by(nm_handle *worker) {
    nm_outcome told;
    uint32_t number;
    while ((told = nm_worker_end(worker)) == NM_NO_MEMORY)
        CHECK(nm_worker_number(worker, &number) == NM_KIND);
    if (told == NM_KIND)
        end(worker);
    else
        CHECK(told == NM_DONE);
}

static void tell(nm_handle *report) {
    uint64_t count, key, first, second, third;
    uint32_t free_slots, reached;
    CHECK(nm_report_keys(report, &count) == NM_DONE &&
          nm_report_slots(report, &free_slots, &reached) == NM_DONE);
    CHECK(nm_report_queue(report, 0, &first) == NM_DONE &&
          nm_report_queue(report, 1, &second) == NM_DONE);
    CHECK(nm_report_queue(report, 2, &third) == NM_DONE);
    printf("keys");
    for (uint64_t index = 0; index < count; index++) {
        CHECK(nm_report_key(report, index, &key) == NM_DONE);
        printf(" %" PRIu64, key);
    }
    printf("\nfree %" PRIu32 " reached %" PRIu32 " waiting %" PRIu64 ", %" PRIu64 " and %" PRIu64
           "\n",
        free_slots, reached, first, second, third);
}

/* ---- a map ---- */

static void put(nm_handle *worker, uint64_t key) {
    nm_outcome told;
    uint64_t value;
    while ((told = nm_map_insert(worker, key, 2 * key, &nm_default_options)) == NM_NO_MEMORY)
        CHECK(nm_map_get(worker, key, &nm_default_options, &value) == NM_NO);
    CHECK(told == NM_YES);
}

/* A refused remove has left the key with its value, and has written nothing. */
static void take_value(nm_handle *worker, uint64_t key) {
    nm_outcome told;
    uint64_t value = UINT64_MAX, found;
    while ((told = nm_map_remove(worker, key, &nm_default_options, &value)) == NM_NO_MEMORY)
        CHECK(value == UINT64_MAX &&
              nm_map_get(worker, key, &nm_default_options, &found) == NM_YES && found == 2 * key);
    CHECK(told == NM_YES && value == 2 * key);
}

/* Takes all values that come back, and writes how many they are, and their sum. */
static void take_back(nm_handle *worker) {
    uint64_t values[KEYS], count, sum = 0;
    uint32_t behind;
    CHECK(nm_map_reclaim(worker, values, KEYS, &count, &behind) == NM_DONE && behind == NM_NOBODY);
    for (uint64_t i = 0; i < count; i++) sum += values[i];
    printf("values %" PRIu64 ", together %" PRIu64 "\n", count, sum);
}

static void of_a_map(void) {
    nm_handle map = NM_CLOSED_HANDLE, worker = NM_CLOSED_HANDLE, none = NM_CLOSED_HANDLE;
    nm_outcome told;
    while ((told = nm_map_new(&map, NODES, 2)) == NM_NO_MEMORY) CHECK(map.at == NULL);
    CHECK(told == NM_DONE);
    while ((told = nm_map_worker(&map, &worker, 1)) == NM_NO_MEMORY)
        CHECK(worker.at == NULL && nm_map_attached(&map, 1) == NM_NO);
    CHECK(told == NM_DONE);
    for (uint64_t key = 0; key < KEYS; key++) put(&worker, key);
    for (uint64_t key = 10; key < KEYS; key++) take_value(&worker, key);
    take_back(&worker);
    CHECK(nm_drop(&worker) == NM_DONE);
    while ((told = nm_map_close(&map)) == NM_NO_MEMORY)
        CHECK(nm_map_worker(&map, &none, 0) == NM_CLOSING);
    CHECK(told == NM_DONE && nm_report_keys(&map, &(uint64_t){0}) == NM_DONE &&
          nm_drop(&map) == NM_DONE);
}

int main(void) {
    nm_handle set = NM_CLOSED_HANDLE, first = NM_CLOSED_HANDLE, second = NM_CLOSED_HANDLE,
              third = NM_CLOSED_HANDLE;
    make(&set);
    take(&set, &first, 0);
    take(&set, &second, 1);
    take(&set, &third, 2);
    for (uint64_t key = 0; key < KEYS; key++) CHECK(insert(&first, key * 37 % KEYS) == NM_YES);
    for (uint64_t key = 0; key < KEYS; key++)
        if (key % 16 != 0) CHECK(delete(key % 3 == 0 ? &second : &first, key) == NM_YES);
    insert_and_remove(&third);
    CHECK(nm_drop(&second) == NM_DONE);
    take_over(&first, 1);
    CHECK(nm_drop(&first) == NM_DONE && nm_drop(&third) == NM_DONE);
    end(&set);
    tell(&set);
    CHECK(nm_drop(&set) == NM_DONE);
    make(&set);
    take(&set, &first, 1);
    CHECK(insert(&first, 5) == NM_YES && nm_drop(&set) == NM_DONE);
    end_by(&first);
    tell(&first);
    CHECK(nm_drop(&first) == NM_DONE);
    of_a_map();
    return 0;
}
