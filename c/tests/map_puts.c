/* Tests the calls that replace a value in one step: those of nm_set.h, and those of nm_map.h, which
 * wait for nodes. One thread meets each outcome. Each replaced value comes back once, and none while
 * a worker is pinned that may have read it. A reader always finds a key that another thread puts
 * again and again, and threads that raise a counter lose no step. A lock is released by its owner
 * alone. */
#include "map_parts.h"

#include <pthread.h>
#include <stdatomic.h>
#include <stdbool.h>
#include <stdio.h>

enum { NOT_WRITTEN = 77, PUTS = 100000, THREADS = 4, STEPS = 20000, LOCKS = 5000 };

static const nm_options *const usual = &nm_default_options;
static const nm_options none = {0, 0, 64}, often = {64, 64, 8};

/* What came back in the tests of one thread: how many values, and their sum. */
static uint64_t values, sum;

static void give_back(void *context, uint64_t value) {
    CHECK(context == &values);
    values++;
    sum += value;
}

static void came_back(uint64_t count, uint64_t total) {
    CHECK(values == count && sum == total);
    values = sum = 0;
}

static void make(nm_handle *map, nm_handle *worker, uint32_t nodes, uint32_t workers) {
    *map = *worker = (nm_handle)NM_CLOSED_HANDLE;
    CHECK(nm_map_new(map, nodes, workers) == NM_DONE && nm_map_attach(map, worker) == NM_DONE);
}

/* Ends a map, and checks how many values it still had, and their sum. */
static void end(nm_handle *map, nm_handle *worker, uint64_t count, uint64_t total) {
    CHECK(nm_drop(worker) == NM_DONE);
    CHECK(nm_map_drain(map, give_back, &values, 0) == NM_DONE && nm_drop(map) == NM_DONE);
    came_back(count, total);
}

static void has(nm_handle *worker, uint64_t key, uint64_t wanted) {
    uint64_t value = NOT_WRITTEN;
    CHECK(nm_map_get(worker, key, usual, &value) == NM_YES && value == wanted);
}

/* Each outcome, and what it writes. */
static void each_outcome(void) {
    nm_handle map, worker;
    uint64_t old = NOT_WRITTEN;
    make(&map, &worker, 64, 1);
    CHECK(nm_map_replace(&worker, 5, 50, usual, &old) == NM_ABSENT && old == NOT_WRITTEN);
    CHECK(nm_map_compare_replace(&worker, 5, 0, 50, usual, &old) == NM_ABSENT &&
          old == NOT_WRITTEN && nm_map_get(&worker, 5, usual, &old) == NM_NO);
    CHECK(nm_map_put(&worker, 5, 50, usual, &old) == NM_INSERTED && old == NOT_WRITTEN);
    CHECK(nm_map_put(&worker, 5, 51, usual, &old) == NM_REPLACED && old == 50);
    has(&worker, 5, 51);
    CHECK(nm_map_replace(&worker, 5, 52, usual, &old) == NM_REPLACED && old == 51);
    CHECK(nm_map_compare_replace(&worker, 5, 51, 53, usual, &old) == NM_OTHER && old == 52);
    has(&worker, 5, 52);
    CHECK(nm_map_compare_replace(&worker, 5, 52, 53, usual, &old) == NM_REPLACED && old == 52);
    CHECK(nm_map_compare_replace(&worker, 5, 53, 53, usual, &old) == NM_REPLACED && old == 53);
    CHECK(nm_map_insert(&worker, 5, 54, usual) == NM_NO);
    CHECK(nm_map_remove(&worker, 5, usual, &old) == NM_YES && old == 53);
    CHECK(nm_map_replace(&worker, 5, 54, usual, &old) == NM_ABSENT && old == 53);
    CHECK(nm_map_put(&worker, 0, UINT64_MAX, usual, &old) == NM_INSERTED &&
          nm_map_put(&worker, UINT64_MAX - 3, 1, usual, &old) == NM_INSERTED);
    CHECK(nm_map_put(&worker, 0, 2, usual, &old) == NM_REPLACED && old == UINT64_MAX);
    end(&map, &worker, 8, 50 + 51 + 52 + 53 + 53 + UINT64_MAX + 1 + 2);
}

/* A remove that expects a value removes the key with this value alone. */
static void each_conditional_remove(void) {
    nm_handle map, worker;
    uint64_t found = NOT_WRITTEN;
    make(&map, &worker, 64, 1);
    CHECK(nm_map_remove_if(&worker, 5, 0, usual, &found) == NM_ABSENT && found == NOT_WRITTEN);
    CHECK(nm_map_insert(&worker, 5, 50, usual) == NM_YES);
    CHECK(nm_map_remove_if(&worker, 5, 51, usual, &found) == NM_OTHER && found == 50);
    has(&worker, 5, 50);
    found = NOT_WRITTEN;
    CHECK(nm_map_remove_if(&worker, 5, 50, &none, &found) == NM_BUSY && found == NOT_WRITTEN);
    CHECK(nm_map_remove_if(&worker, 5, 50, usual, &found) == NM_YES && found == NOT_WRITTEN);
    CHECK(nm_map_get(&worker, 5, usual, &found) == NM_NO && waiting(&worker) == 2);
    CHECK(nm_map_remove_if(&worker, UINT64_MAX - 2, 0, usual, &found) == NM_KEY);
    CHECK(nm_map_insert(&worker, 0, UINT64_MAX, usual) == NM_YES &&
          nm_map_remove_if(&worker, 0, UINT64_MAX, usual, &found) == NM_YES);
    end(&map, &worker, 2, 50 + UINT64_MAX);
}

/* Calls that have no try. */
static void no_tries(void) {
    nm_handle map, worker;
    uint64_t old = NOT_WRITTEN;
    make(&map, &worker, 64, 1);
    CHECK(nm_map_insert(&worker, 5, 50, usual) == NM_YES);
    CHECK(nm_map_put(&worker, 5, 51, &none, &old) == NM_BUSY &&
          nm_map_replace(&worker, 5, 51, &none, &old) == NM_BUSY &&
          nm_map_compare_replace(&worker, 5, 50, 51, &none, &old) == NM_BUSY);
    CHECK(old == NOT_WRITTEN && waiting(&worker) == 0);
    has(&worker, 5, 50);
    end(&map, &worker, 1, 50);
}

/* Each call that waits returns the same. */
static void each_wait(void) {
    nm_handle map, worker;
    uint64_t old = NOT_WRITTEN;
    make(&map, &worker, 64, 1);
    CHECK(nm_map_wait_replace(&map, &worker, 5, 50, &often, NULL, give_back, &values, &old, 0) ==
          NM_ABSENT);
    CHECK(nm_map_wait_compare_replace(&map, &worker, 5, 0, 50, &often, NULL, give_back, &values,
                                      &old, 0) == NM_ABSENT && old == NOT_WRITTEN);
    CHECK(nm_map_wait_put(&map, &worker, 5, 1, &often, NULL, give_back, &values, &old, 0) ==
          NM_INSERTED && old == NOT_WRITTEN);
    CHECK(nm_map_wait_put(&map, &worker, 5, 2, &often, NULL, give_back, &values, &old, 0) ==
          NM_REPLACED && old == 1);
    CHECK(nm_map_wait_replace(&map, &worker, 5, 3, &often, NULL, give_back, &values, &old, 0) ==
          NM_REPLACED && old == 2);
    CHECK(nm_map_wait_compare_replace(&map, &worker, 5, 2, 4, &often, NULL, give_back, &values,
                                      &old, 0) == NM_OTHER && old == 3);
    CHECK(nm_map_wait_compare_replace(&map, &worker, 5, 3, 4, &often, NULL, give_back, &values,
                                      &old, 0) == NM_REPLACED && old == 3);
    has(&worker, 5, 4);
    end(&map, &worker, 4, 1 + 2 + 3 + 4);
}

/* A replaced value comes back after each pin that may have read it, and leaves one node that waits. */
static void a_pin_holds_a_replaced_value_back(void) {
    nm_handle map, worker, reader = NM_CLOSED_HANDLE;
    uint64_t old, epoch, value = NOT_WRITTEN;
    uint32_t behind = NM_NOBODY;
    make(&map, &worker, 64, 2);
    CHECK(nm_map_attach(&map, &reader) == NM_DONE);
    CHECK(nm_map_insert(&worker, 5, 50, usual) == NM_YES);
    CHECK(nm_map_pin(&reader, 64, &epoch) == NM_DONE);
    CHECK(nm_map_get_pinned(&reader, 5, &value) == NM_YES && value == 50);
    CHECK(nm_map_put(&worker, 5, 51, usual, &old) == NM_REPLACED && old == 50);
    CHECK(waiting(&worker) == 1 && waiting(&reader) == 0);
    for (int turn = 0; turn < 3; turn++)
        CHECK(nm_map_take_back(&worker, NULL, give_back, &values, &behind) == NM_DONE &&
              behind == 1 && values == 0);
    CHECK(nm_map_get_pinned(&reader, 5, &value) == NM_YES && value == 51);
    CHECK(nm_map_unpin(&reader) == NM_DONE && nm_drop(&reader) == NM_DONE);
    CHECK(nm_map_take_back(&worker, NULL, give_back, &values, NULL) == NM_DONE);
    came_back(1, 50);
    CHECK(waiting(&worker) == 0);
    end(&map, &worker, 1, 51);
}

/* ---- full maps ---- */

static nm_handle full_map, full_worker;
static nm_map_counts *counts;

/* Makes a map whose keys, from 0 on, leave it that many nodes. The value of each is its key. */
static void fill(uint64_t keys, uint32_t left) {
    uint32_t nodes = (uint32_t)(2 * keys) + 5 + left;
    make(&full_map, &full_worker, nodes, 2);
    CHECK(nm_map_counts_new(&counts, nodes, 2) == NM_DONE);
    for (uint64_t key = 0; key < keys; key++) {
        CHECK(nm_map_insert(&full_worker, key, key, usual) == NM_YES);
        nm_map_count_insert(counts, 0, NM_YES);
    }
}

static void end_full(uint64_t count, uint64_t total) {
    nm_map_counts_free(counts);
    end(&full_map, &full_worker, count, total);
}

static nm_outcome put_for(uint64_t key, uint64_t value, uint64_t *old, uint32_t timeout_ms) {
    nm_outcome outcome = nm_map_wait_put(&full_map, &full_worker, key, value, &often, counts,
                                         give_back, &values, old, timeout_ms);
    nm_map_count_insert(counts, 0, outcome);
    return outcome;
}

static nm_outcome replace_for(uint64_t key, uint64_t value, uint64_t *old, uint32_t timeout_ms) {
    nm_outcome outcome = nm_map_wait_replace(&full_map, &full_worker, key, value, &often, counts,
                                             give_back, &values, old, timeout_ms);
    nm_map_count_insert(counts, 0, outcome);
    return outcome;
}

static nm_outcome remove_key(uint64_t key, uint64_t *old) {
    nm_outcome outcome = nm_map_remove(&full_worker, key, usual, old);
    nm_map_count_remove(counts, 0, outcome);
    return outcome;
}

/* A map with one node that no key takes goes on by replacements alone. */
static void a_full_map_goes_on_by_replacements(void) {
    uint64_t old = 0;
    fill(2, 1);
    for (uint64_t turn = 0; turn < 10000; turn++) {
        CHECK((turn % 2 ? put_for(1, turn + 1, &old, 1000) : replace_for(1, turn + 1, &old, 1000)) ==
              NM_REPLACED);
        CHECK(old == (turn == 0 ? 1 : turn) && nm_map_counts_keys(counts) == 2);
        CHECK(nm_map_counts_waiting(counts) == 1 && waiting(&full_worker) == 1);
    }
    end_full(10002, 10000u * 10001 / 2 + 1);
}

/* If the keys leave no node, or an insert only one, a call returns at once that the map is full. */
static void a_brimful_map_is_given_up_at_once(void) {
    uint64_t old = NOT_WRITTEN, begin = now_ms();
    fill(2, 0);
    CHECK(put_for(1, 7, &old, 20000) == NM_FULL && replace_for(1, 7, &old, 20000) == NM_FULL);
    CHECK(replace_for(2, 7, &old, 20000) == NM_ABSENT && old == NOT_WRITTEN);
    end_full(2, 1);
    fill(2, 1);
    CHECK(put_for(2, 7, &old, 20000) == NM_FULL && old == NOT_WRITTEN);
    CHECK(nm_map_wait_insert(&full_map, &full_worker, 2, 7, &often, counts, give_back, &values,
                             20000) == NM_FULL);
    CHECK(put_for(1, 7, &old, 20000) == NM_REPLACED && old == 1);
    CHECK(put_for(2, 8, &old, 20000) == NM_FULL && now_ms() - begin < 10000);
    CHECK(nm_map_is_brimful(9, 2, 1) && !nm_map_is_brimful(10, 2, 1));
    came_back(1, 1);
    end_full(2, 7);
}

/* If the only nodes that wait are those of replaced values, a call waits for them, and for the pin
 * that holds them back. */
static void replaced_values_are_waited_for(void) {
    nm_handle reader = NM_CLOSED_HANDLE;
    nm_fullness fullness;
    uint64_t old = NOT_WRITTEN, epoch, begin;
    uint32_t behind = NM_NOBODY;
    fill(2, 2);
    CHECK(nm_map_attach(&full_map, &reader) == NM_DONE);
    CHECK(nm_map_hold(&reader, usual, &epoch) == NM_DONE);
    CHECK(put_for(0, 10, &old, 0) == NM_REPLACED && put_for(1, 11, &old, 0) == NM_REPLACED);
    CHECK(nm_map_counts_waiting(counts) == 2);
    begin = now_ms();
    CHECK(put_for(0, 12, &old, 50) == NM_FULL && now_ms() - begin >= 49 && values == 0);
    CHECK(put_for(2, 12, &old, 50) == NM_FULL && now_ms() - begin >= 98 && values == 0);
    CHECK(nm_map_take_back(&full_worker, counts, give_back, &values, &behind) == NM_DONE);
    nm_map_fullness(9 + 2, nm_map_counts_keys(counts), nm_map_counts_waiting(counts), behind,
                    &fullness);
    CHECK(fullness.waiting == 2 && fullness.free == 0 && fullness.behind == 2);
    CHECK(nm_map_unpin(&reader) == NM_DONE && nm_drop(&reader) == NM_DONE);
    CHECK(put_for(2, 12, &old, 1000) == NM_INSERTED && nm_map_counts_waiting(counts) == 0);
    came_back(2, 1);
    end_full(3, 10 + 11 + 12);
}

/* The counts after removes, replacements and inserts, of which some came back. */
static void counts_are_exact(void) {
    uint64_t old;
    fill(100, 400);
    for (uint64_t key = 0; key < 100; key++) {
        if (key % 3 == 0) CHECK(remove_key(key, &old) == NM_YES);
        CHECK(put_for(key, key, &old, 0) == (key % 3 == 0 ? NM_INSERTED : NM_REPLACED));
        CHECK(replace_for(100 + key, key, &old, 0) == NM_ABSENT);
        CHECK(nm_map_counts_keys(counts) == 100);
        CHECK(nm_map_counts_waiting(counts) == waiting(&full_worker));
    }
    CHECK(nm_map_take_back(&full_worker, counts, give_back, &values, NULL) == NM_DONE);
    CHECK(nm_map_counts_waiting(counts) == 0);
    came_back(100, 4950);
    end_full(100, 4950);
}

/* ---- threads ---- */

static nm_handle shared_map;
static atomic_bool has_ended;

/* A reader finds the key by each look, and its values ascend. */
static void *read_on(void *unused) {
    nm_handle worker = NM_CLOSED_HANDLE;
    uint64_t value = 0, last = 0;
    CHECK(nm_map_wait_attach(&shared_map, &worker, 1000) == NM_DONE);
    while (!atomic_load(&has_ended)) {
        CHECK(nm_map_get(&worker, 5, usual, &value) == NM_YES && value >= last);
        last = value;
    }
    CHECK(nm_drop(&worker) == NM_DONE);
    return unused;
}

static void a_key_is_never_absent(void) {
    nm_handle worker = NM_CLOSED_HANDLE;
    pthread_t readers[2];
    uint64_t old = 0;
    make(&shared_map, &worker, 4096, 3);
    CHECK(nm_map_insert(&worker, 5, 0, usual) == NM_YES);
    for (int at = 0; at < 2; at++) CHECK(pthread_create(&readers[at], NULL, read_on, NULL) == 0);
    for (uint64_t turn = 1; turn <= PUTS; turn++)
        CHECK(nm_map_wait_put(&shared_map, &worker, 5, turn, usual, NULL, give_back, &values, &old,
                              20000) == NM_REPLACED && old == turn - 1);
    atomic_store(&has_ended, true);
    for (int at = 0; at < 2; at++) CHECK(pthread_join(readers[at], NULL) == 0);
    end(&shared_map, &worker, PUTS + 1, (uint64_t)PUTS * (PUTS + 1) / 2);
}

/* How often each value of the counter came back. */
static atomic_uchar times[THREADS * STEPS + 1];

static void count_back(void *unused, uint64_t value) {
    (void)unused;
    CHECK(value <= THREADS * STEPS);
    atomic_fetch_add(&times[value], 1);
}

/* Raises the counter, which the key 5 has, by steps of one. */
static void *raise_on(void *unused) {
    nm_handle worker = NM_CLOSED_HANDLE;
    uint64_t value = 0;
    CHECK(nm_map_wait_attach(&shared_map, &worker, 1000) == NM_DONE);
    for (int step = 0; step < STEPS; step++) {
        nm_outcome outcome = NM_OTHER;
        CHECK(nm_map_get(&worker, 5, usual, &value) == NM_YES);
        while (outcome == NM_OTHER)
            outcome = nm_map_wait_compare_replace(&shared_map, &worker, 5, value, value + 1, usual,
                                                  NULL, count_back, NULL, &value, 20000);
        CHECK(outcome == NM_REPLACED);
    }
    CHECK(nm_drop(&worker) == NM_DONE);
    return unused;
}

static void a_counter_loses_no_step(void) {
    nm_handle worker;
    pthread_t threads[THREADS];
    make(&shared_map, &worker, 4096, THREADS + 1);
    CHECK(nm_map_insert(&worker, 5, 0, usual) == NM_YES);
    for (int at = 0; at < THREADS; at++)
        CHECK(pthread_create(&threads[at], NULL, raise_on, NULL) == 0);
    for (int at = 0; at < THREADS; at++) CHECK(pthread_join(threads[at], NULL) == 0);
    has(&worker, 5, THREADS * STEPS);
    CHECK(nm_drop(&worker) == NM_DONE);
    CHECK(nm_map_drain(&shared_map, count_back, NULL, 0) == NM_DONE);
    for (int value = 0; value <= THREADS * STEPS; value++) CHECK(times[value] == 1);
    CHECK(nm_drop(&shared_map) == NM_DONE);
}

/* How often the lock was held, which is changed by its owner alone. */
static atomic_uint held;

/* Takes the lock, which the key 5 is, by an insert of a token, and releases it by a remove of this
 * token. While another thread has the lock, such a remove changes nothing. */
static void *lock_on(void *first) {
    nm_handle worker = NM_CLOSED_HANDLE;
    uint64_t token = *(uint64_t *)first, found = 0;
    CHECK(nm_map_wait_attach(&shared_map, &worker, 1000) == NM_DONE);
    for (uint64_t end = token + LOCKS; token < end; token++) {
        while (nm_map_wait_insert(&shared_map, &worker, 5, token, usual, NULL, count_back, NULL,
                                  20000) != NM_YES)
            CHECK(nm_map_remove_if(&worker, 5, token, usual, &found) != NM_YES);
        atomic_store(&held, atomic_load(&held) + 1);
        CHECK(nm_map_remove_if(&worker, 5, token, usual, &found) == NM_YES);
    }
    CHECK(nm_drop(&worker) == NM_DONE);
    return NULL;
}

static void a_lock_is_released_by_its_owner(void) {
    pthread_t threads[THREADS];
    uint64_t first[THREADS];
    shared_map = (nm_handle)NM_CLOSED_HANDLE;
    CHECK(nm_map_new(&shared_map, 4096, THREADS) == NM_DONE);
    for (int value = 0; value <= THREADS * STEPS; value++) times[value] = 0;
    for (int at = 0; at < THREADS; at++) {
        first[at] = (uint64_t)at * LOCKS;
        CHECK(pthread_create(&threads[at], NULL, lock_on, &first[at]) == 0);
    }
    for (int at = 0; at < THREADS; at++) CHECK(pthread_join(threads[at], NULL) == 0);
    CHECK(held == THREADS * LOCKS);
    CHECK(nm_map_drain(&shared_map, count_back, NULL, 0) == NM_DONE);
    for (int token = 0; token < THREADS * LOCKS; token++) CHECK(times[token] == 1);
    CHECK(nm_drop(&shared_map) == NM_DONE);
}

/* Checks that each call that waits returns the wanted error, and writes nothing. */
static void each_wait_tells(nm_handle *worker, uint64_t key, nm_outcome wanted) {
    uint64_t old = NOT_WRITTEN;
    CHECK(nm_map_wait_put(NULL, worker, key, 1, usual, NULL, give_back, &values, &old, 20000) ==
          wanted);
    CHECK(nm_map_wait_replace(NULL, worker, key, 1, usual, NULL, give_back, &values, &old, 20000) ==
          wanted);
    CHECK(nm_map_wait_compare_replace(NULL, worker, key, 1, 1, usual, NULL, give_back, &values, &old,
                                      20000) == wanted);
    CHECK(old == NOT_WRITTEN && values == 0);
}

static void wrong_calls_are_refused(void) {
    nm_handle map, worker, closed = NM_CLOSED_HANDLE;
    uint64_t epoch;
    make(&map, &worker, 64, 1);
    CHECK(nm_map_insert(&worker, 5, 1, usual) == NM_YES);
    each_wait_tells(&closed, 5, NM_CLOSED);
    each_wait_tells(&map, 5, NM_KIND);
    each_wait_tells(&worker, UINT64_MAX - 2, NM_KEY);
    CHECK(nm_map_hold(&worker, usual, &epoch) == NM_DONE);
    each_wait_tells(&worker, 5, NM_PINNED);
    CHECK(nm_map_unpin(&worker) == NM_DONE);
    has(&worker, 5, 1);
    end(&map, &worker, 1, 1);
}

int main(void) {
    each_outcome();
    each_conditional_remove();
    no_tries();
    each_wait();
    a_pin_holds_a_replaced_value_back();
    a_full_map_goes_on_by_replacements();
    a_brimful_map_is_given_up_at_once();
    replaced_values_are_waited_for();
    counts_are_exact();
    wrong_calls_are_refused();
    a_counter_loses_no_step();
    a_lock_is_released_by_its_owner();
    a_key_is_never_absent();
    puts("each value came back once");
    return 0;
}
