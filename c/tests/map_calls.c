/* Tests the calls of nm_map.h: each value is handed over once, when it has come back; what is
 * refused leaves the value with its caller; and a drain hands over all that is left, in whatever
 * state the workers were returned. */
#include "map_parts.h"

#include <pthread.h>
#include <stdio.h>
#include <string.h>
#include <threads.h>
#include <time.h>

enum { KEYS = 300, NONE = 1000 };

/* How often each value was handed over. The value of a key is NONE more than the key. */
static unsigned times[KEYS];
static unsigned total;

static const nm_options often = {64, 64, 8}, none = {0, 3, 64}, once = {1, 0, 8};

static void give_back(void *context, uint64_t value) {
    CHECK(context == &total && value >= NONE && value < NONE + KEYS);
    times[value - NONE]++;
    total++;
}

static nm_outcome put_for(nm_handle *map, nm_handle *worker, uint64_t key, uint32_t timeout_ms) {
    return nm_map_wait_insert(map, worker, key, NONE + key, &nm_default_options, NULL, give_back,
                              &total, timeout_ms);
}

static void put_below(nm_handle *map, nm_handle *worker, uint64_t below) {
    for (uint64_t key = 0; key < below; key++) CHECK(put_for(map, worker, key, 0) == NM_YES);
}

static void remove_key(nm_handle *worker, uint64_t key) {
    uint64_t value = 0;
    CHECK(nm_map_remove(worker, key, &nm_default_options, &value) == NM_YES && value == NONE + key);
}

/* Forgets what was handed over, after a test that each value below `below` was so once. */
static void each_once(uint64_t below) {
    CHECK(total == below);
    for (uint64_t key = 0; key < KEYS; key++) {
        CHECK(times[key] == (key < below));
        times[key] = 0;
    }
    total = 0;
}

static void make(nm_handle *map, uint32_t nodes, uint32_t workers) {
    *map = (nm_handle)NM_CLOSED_HANDLE;
    CHECK(nm_map_new(map, nodes, workers) == NM_DONE);
}

/* Ends a map that has no value. */
static void end(nm_handle *map) {
    uint64_t keys = 1;
    CHECK(nm_map_close(map) == NM_DONE && nm_report_keys(map, &keys) == NM_DONE && keys == 0);
    CHECK(nm_drop(map) == NM_DONE);
}

/* The time that a processor has spent on this process. */
static uint64_t spent_ms(void) { return (uint64_t)clock() / (CLOCKS_PER_SEC / 1000); }

static void a_map_collects_when_an_eighth_of_its_nodes_wait(void) {
    CHECK(nm_map_collect_after(7, 1) == 8 && nm_map_collect_after(1024, 64) == 8);
    CHECK(nm_map_collect_after(1024, 4) == 32 && nm_map_collect_after(65536, 64) == 64);
    CHECK(nm_map_collect_after(UINT32_MAX, UINT32_MAX) == 8 && nm_map_collect_after(64, 0) == 64);
}

static void values_come_back_once(void) {
    nm_handle map, worker = NM_CLOSED_HANDLE;
    uint32_t behind = 0;
    make(&map, 2048, 2);
    CHECK(nm_map_wait_attach(&map, &worker, 0) == NM_DONE);
    put_below(&map, &worker, KEYS);
    CHECK(put_for(&map, &worker, 5, 0) == NM_NO && total == 0);
    for (uint64_t key = 0; key < KEYS; key++) remove_key(&worker, key);
    CHECK(waiting(&worker) == 2 * KEYS && total == 0);
    CHECK(nm_map_take_back(&worker, NULL, give_back, &total, &behind) == NM_DONE && behind == NM_NOBODY);
    CHECK(waiting(&worker) == 0);
    each_once(KEYS);
    CHECK(nm_drop(&worker) == NM_DONE);
    end(&map);
}

static void a_worker_is_tended_when_enough_nodes_wait(void) {
    nm_handle map, worker = NM_CLOSED_HANDLE;
    make(&map, 64, 1);
    CHECK(nm_map_attach(&map, &worker) == NM_DONE);
    put_below(&map, &worker, 4);
    for (uint64_t key = 0; key < 4; key++) {
        CHECK(nm_map_tend(&worker, &often, NULL, give_back, &total) == NM_DONE && total == 0);
        remove_key(&worker, key);
    }
    CHECK(nm_map_tend(&worker, &often, NULL, give_back, &total) == NM_DONE && waiting(&worker) == 0);
    each_once(4);
    CHECK(nm_drop(&worker) == NM_DONE);
    end(&map);
}

/* A pin holds values back. A put into the full map waits for its time, and then for the pin alone.
 * */
static void a_put_waits_for_nodes(void) {
    nm_handle map, reader = NM_CLOSED_HANDLE, worker = NM_CLOSED_HANDLE;
    uint64_t epoch, begin;
    uint32_t behind = NM_NOBODY;
    make(&map, 7, 2);
    CHECK(nm_map_attach(&map, &reader) == NM_DONE && nm_map_attach(&map, &worker) == NM_DONE);
    put_below(&map, &worker, 1);
    CHECK(nm_map_hold(&reader, &nm_default_options, &epoch) == NM_DONE);
    remove_key(&worker, 0);
    begin = now_ms();
    CHECK(put_for(&map, &worker, 1, 50) == NM_FULL && now_ms() - begin >= 49 && total == 0);
    CHECK(put_for(NULL, &worker, 1, 0) == NM_FULL && total == 0);
    CHECK(nm_map_take_back(&worker, NULL, give_back, &total, &behind) == NM_DONE && behind == 0);
    CHECK(nm_map_unpin(&reader) == NM_DONE && put_for(NULL, &worker, 1, 0) == NM_YES);
    each_once(1);
    remove_key(&worker, 1);
    CHECK(nm_drop(&reader) == NM_DONE && nm_drop(&worker) == NM_DONE);
    CHECK(nm_map_drain(&map, give_back, &total, 0) == NM_DONE && total == 1 && times[1] == 1);
    total = times[1] = 0;
    end(&map);
}

/* What waits with a returned worker comes back by a put that has the map, and by no other. */
static void a_put_takes_back_from_returned_workers(void) {
    nm_handle map, gone = NM_CLOSED_HANDLE, worker = NM_CLOSED_HANDLE;
    make(&map, 9, 3);
    CHECK(nm_map_attach(&map, &worker) == NM_DONE && nm_map_worker(&map, &gone, 2) == NM_DONE);
    put_below(&map, &gone, 2);
    remove_key(&gone, 0);
    remove_key(&gone, 1);
    CHECK(nm_drop(&gone) == NM_DONE);
    CHECK(put_for(NULL, &worker, 5, 5) == NM_FULL && total == 0);
    CHECK(put_for(&map, &worker, 5, 0) == NM_YES);
    each_once(2);
    remove_key(&worker, 5);
    CHECK(nm_map_take_back(&worker, NULL, give_back, &total, NULL) == NM_DONE && times[5] == 1);
    total = times[5] = 0;
    CHECK(nm_drop(&worker) == NM_DONE);
    end(&map);
}

/* Puts a key, and counts it, within twenty seconds at most. */
static nm_outcome put_counted(nm_handle *worker, nm_map_counts *counts, uint64_t key) {
    nm_outcome outcome = nm_map_wait_insert(NULL, worker, key, NONE + key, &nm_default_options,
                                            counts, give_back, &total, 20000);
    nm_map_count_insert(counts, 0, outcome);
    return outcome;
}

/* The keys of a full map take all nodes, and no node waits. Then a put waits for nothing. */
static void a_put_into_a_full_map_returns_at_once(void) {
    nm_handle map, worker = NM_CLOSED_HANDLE;
    nm_map_counts *counts;
    for (uint32_t nodes = 9; nodes <= 10; nodes++) {
        make(&map, nodes, 2);
        CHECK(nm_map_counts_new(&counts, nodes, 2) == NM_DONE);
        CHECK(nm_map_attach(&map, &worker) == NM_DONE);
        CHECK(put_counted(&worker, counts, 0) == NM_YES);
        CHECK(put_counted(&worker, counts, 1) == NM_YES);
        uint64_t begin = now_ms();
        CHECK(put_counted(&worker, counts, 2) == NM_FULL && now_ms() - begin < 10000);
        CHECK(put_counted(&worker, counts, 1) == NM_NO && total == 0);
        remove_key(&worker, 0);
        nm_map_count_remove(counts, 0, NM_YES);
        CHECK(put_counted(&worker, counts, 2) == NM_YES);
        CHECK(nm_drop(&worker) == NM_DONE && nm_map_drain(&map, give_back, &total, 0) == NM_DONE);
        nm_map_counts_free(counts);
        each_once(3);
        end(&map);
    }
}

/* What a full map says of itself: nodes wait in pairs, and one may be left. */
static void a_full_map_says_its_numbers(void) {
    static const char *const all = "the map is full: its 2 keys take 9 of its 10 nodes, and 0 wait "
                                   "to be freed";
    char text[640];
    nm_fullness fullness;
    nm_map_fullness(10, 2, 0, 3, &fullness);
    CHECK(fullness.waiting == 0 && fullness.free == 1 && fullness.behind == 0);
    CHECK(strcmp(nm_map_full_words(&fullness, text, sizeof text), all) == 0);
    CHECK(strlen(nm_map_full_words(&fullness, text, 12)) == 11);
    nm_map_fullness(65536, 1200, 63130, NM_NOBODY, &fullness);
    CHECK(fullness.waiting == 63130 && fullness.free == 1 && fullness.behind == 0);
    nm_map_fullness(65536, 1200, 63130, 3, &fullness);
    CHECK(strcmp(nm_map_full_words(&fullness, text, sizeof text),
                 "the map is full: its 1,200 keys take 2,405 of its 65,536 nodes, and 63,130 wait "
                 "to be freed; worker 3 is in their way, by a pin or in a call") == 0);
    nm_map_fullness(7, UINT32_MAX, 0, 3, &fullness);
    CHECK(fullness.waiting == 0 && fullness.free == 0);
    CHECK(nm_map_is_brimful(10, 2, 2) && nm_map_is_brimful(9, 2, 2) && !nm_map_is_brimful(11, 2, 2));
}

/* What a thread leaves that was stopped in the middle of an attach, and then goes on. */
static void *go_on(void *handle) {
    static const struct timespec some = {0, 100000000};
    CHECK(thrd_sleep(&some, NULL) == 0);
    __atomic_store_n(&((nm_handle *)handle)->in_use, 0, __ATOMIC_SEQ_CST);
    return NULL;
}

/* An attach sleeps while another thread attaches a worker, and goes on after it. If that takes
 * longer than its time, it reports that there was no worker. */
static void an_attach_waits_for_another_one(void) {
    nm_handle map, worker = NM_CLOSED_HANDLE;
    pthread_t other;
    make(&map, 64, 2);
    for (uint32_t timeout_ms = 0; timeout_ms <= 400; timeout_ms += 400) {
        __atomic_store_n(&map.in_use, 1, __ATOMIC_SEQ_CST);
        uint64_t begin = now_ms(), spent = spent_ms();
        CHECK(nm_map_wait_attach(&map, &worker, timeout_ms) == NM_NO_WORKER);
        CHECK(now_ms() - begin + 1 >= timeout_ms && spent_ms() - spent <= timeout_ms / 2 + 20);
    }
    CHECK(pthread_create(&other, NULL, go_on, &map) == 0);
    CHECK(nm_map_wait_attach(&map, &worker, 20000) == NM_DONE);
    CHECK(pthread_join(other, NULL) == 0 && nm_drop(&worker) == NM_DONE);
    end(&map);
}

static void a_hold_is_a_pin(void) {
    nm_handle map, worker = NM_CLOSED_HANDLE;
    uint64_t epoch = 0, value = 0;
    make(&map, 64, 1);
    CHECK(nm_map_attach(&map, &worker) == NM_DONE);
    put_below(&map, &worker, 1);
    CHECK(nm_map_hold(&worker, &none, &epoch) == NM_BUSY);
    CHECK(nm_map_hold(&worker, &nm_default_options, &epoch) == NM_DONE);
    CHECK(nm_map_hold(&worker, &nm_default_options, &epoch) == NM_PINNED);
    CHECK(nm_map_get_pinned(&worker, 0, &value) == NM_YES && value == NONE);
    CHECK(put_for(&map, &worker, 1, 0) == NM_PINNED && nm_map_unpin(&worker) == NM_DONE);
    remove_key(&worker, 0);
    CHECK(nm_map_take_back(&worker, NULL, give_back, &total, NULL) == NM_DONE);
    each_once(1);
    CHECK(nm_drop(&worker) == NM_DONE);
    end(&map);
}

/* Leaves keys, values that wait with two workers, and a pin that ends with its worker. */
static void leave_much(nm_handle *map) {
    nm_handle first = NM_CLOSED_HANDLE, second = NM_CLOSED_HANDLE;
    uint64_t epoch;
    CHECK(nm_map_worker(map, &first, 1) == NM_DONE && nm_map_worker(map, &second, 3) == NM_DONE);
    put_below(map, &first, KEYS);
    CHECK(nm_map_hold(&second, &nm_default_options, &epoch) == NM_DONE);
    for (uint64_t key = 0; key < 100; key++) remove_key(&first, key);
    CHECK(nm_map_unpin(&second) == NM_DONE);
    for (uint64_t key = 100; key < 200; key++) remove_key(&second, key);
    CHECK(nm_map_hold(&first, &nm_default_options, &epoch) == NM_DONE);
    CHECK(nm_drop(&first) == NM_DONE && nm_drop(&second) == NM_DONE && total == 0);
}

static void a_drain_hands_over_all_that_is_left(void) {
    nm_handle map, worker = NM_CLOSED_HANDLE;
    make(&map, 4096, 4);
    leave_much(&map);
    CHECK(nm_map_drain(&map, give_back, &total, 0) == NM_DONE);
    each_once(KEYS);
    CHECK(nm_map_drain(&map, give_back, &total, 0) == NM_DONE && total == 0);
    CHECK(nm_map_attach(&map, &worker) == NM_DONE);
    put_below(&map, &worker, 10); /* the map goes on */
    CHECK(nm_map_drain(&map, give_back, &total, 0) == NM_ATTACHED);
    each_once(10); /* by the other workers */
    CHECK(nm_drop(&worker) == NM_DONE && nm_map_drain(&map, give_back, &total, 0) == NM_DONE);
    CHECK(total == 0);
    end(&map);
}

/* What waits with an attached worker comes back by a drain after its end. */
static void a_drain_goes_on_after_an_attached_worker(void) {
    nm_handle map, worker = NM_CLOSED_HANDLE;
    make(&map, 4096, 4);
    CHECK(nm_map_attach(&map, &worker) == NM_DONE);
    put_below(&map, &worker, KEYS);
    for (uint64_t key = 0; key < 10; key++) remove_key(&worker, key);
    CHECK(nm_map_drain(&map, give_back, &total, 0) == NM_ATTACHED && total == KEYS - 10);
    CHECK(nm_drop(&worker) == NM_DONE && nm_map_drain(&map, give_back, &total, 0) == NM_DONE);
    each_once(KEYS);
    end(&map);
}

/* A function that takes values may make calls by the worker that they came back by. */
static nm_handle own = NM_CLOSED_HANDLE;

static void look_and_give_back(void *context, uint64_t value) {
    uint64_t unused;
    CHECK(nm_map_get(&own, value - NONE, &nm_default_options, &unused) == NM_NO);
    CHECK(nm_map_take_back(&own, NULL, give_back, context, NULL) == NM_DONE);
    give_back(context, value);
}

static void a_value_may_be_given_back_by_more_calls(void) {
    nm_handle map;
    make(&map, 2048, 1);
    CHECK(nm_map_attach(&map, &own) == NM_DONE);
    put_below(&map, &own, KEYS);
    for (uint64_t key = 0; key < KEYS; key++) remove_key(&own, key);
    CHECK(nm_map_take_back(&own, NULL, look_and_give_back, &total, NULL) == NM_DONE);
    each_once(KEYS);
    CHECK(nm_drop(&own) == NM_DONE);
    end(&map);
}

/* ---- removes that are pending, which happens only beside other threads ---- */

enum { THREADS = 4, CALLS = 50000, FEW = 4 };

typedef struct part {
    nm_handle worker;
    uint64_t inserted, returned, pending;
} part;

static void count(void *context, uint64_t value) {
    CHECK(value < FEW);
    ++*(uint64_t *)context;
}

/* Makes a call that finishes a remove first: one of four, by turns. */
static nm_outcome finish(nm_handle *worker, uint64_t turn) {
    const nm_options *options = &nm_default_options;
    nm_map_lookup lookup = {0, 0, 0};
    nm_entry entry;
    uint64_t epoch, next;
    size_t count;
    nm_outcome outcome;
    switch (turn % 4) {
    case 0: return nm_map_at_least(worker, 0, options, &entry.key, &entry.value);
    case 1: return nm_map_read_keys(worker, 0, FEW, &entry.key, 1, &count, &next, options);
    case 2: return nm_map_get_many(worker, &lookup, 1, options);
    default:
        outcome = nm_map_hold(worker, options, &epoch);
        return outcome == NM_DONE ? nm_map_unpin(worker) : outcome;
    }
}

/* Removes a key by one try: the key, or the least one. If that is left pending, a call finishes it. */
static void remove_once(part *self, uint64_t key, int is_pop) {
    uint64_t value, taken;
    nm_outcome outcome = is_pop ? nm_map_pop_first(&self->worker, &once, &taken, &value)
                                : nm_map_remove(&self->worker, key, &once, &value);
    CHECK(outcome == NM_YES || outcome == NM_NO || outcome == NM_BUSY || outcome == NM_UNFINISHED);
    if (outcome != NM_UNFINISHED) return;
    self->pending++;
    CHECK(finish(&self->worker, self->pending) >= 0);
    CHECK(nm_map_pending(&self->worker, &value) == NM_NO);
}

static void *change(void *given) {
    part *self = given;
    for (uint64_t call = 0; call < CALLS; call++) {
        uint64_t key = call % FEW;
        nm_outcome outcome = nm_map_wait_insert(NULL, &self->worker, key, key,
                                                &nm_default_options, NULL, count, &self->returned,
                                                60000);
        CHECK(outcome == NM_YES || outcome == NM_NO || outcome == NM_BUSY);
        self->inserted += outcome == NM_YES;
        remove_once(self, call * 7 % FEW, call % 3 == 0);
    }
    return NULL;
}

static void values_of_pending_removes_come_back_once(void) {
    nm_handle map;
    static part parts[THREADS];
    pthread_t threads[THREADS];
    uint64_t inserted = 0, returned = 0, pending = 0;
    make(&map, 4096, THREADS);
    for (int at = 0; at < THREADS; at++) {
        CHECK(nm_map_attach(&map, &parts[at].worker) == NM_DONE);
        CHECK(pthread_create(&threads[at], NULL, change, &parts[at]) == 0);
    }
    for (int at = 0; at < THREADS; at++) {
        CHECK(pthread_join(threads[at], NULL) == 0 && nm_drop(&parts[at].worker) == NM_DONE);
        inserted += parts[at].inserted;
        returned += parts[at].returned;
        pending += parts[at].pending;
    }
    CHECK(nm_map_drain(&map, count, &returned, 0) == NM_DONE && returned == inserted);
    printf("%llu removes were pending, and finished by the next call\n", (unsigned long long)pending);
    end(&map);
}

static void wrong_handles_are_refused(void) {
    nm_handle map, worker = NM_CLOSED_HANDLE, other = NM_CLOSED_HANDLE;
    uint64_t epoch, begin;
    make(&map, 64, 1);
    CHECK(nm_map_attach(&map, &worker) == NM_DONE);
    begin = now_ms();
    CHECK(nm_map_wait_attach(&map, &other, 20) == NM_NO_WORKER && now_ms() - begin >= 19);
    CHECK(nm_map_wait_attach(&worker, &other, 20) == NM_KIND);
    CHECK(nm_map_tend(&map, &often, NULL, give_back, &total) == NM_KIND);
    CHECK(nm_map_take_back(&other, NULL, give_back, &total, NULL) == NM_CLOSED);
    CHECK(nm_map_hold(&other, &often, &epoch) == NM_CLOSED);
    CHECK(put_for(&map, &map, 5, 0) == NM_KIND && put_for(&map, &worker, UINT64_MAX, 0) == NM_KEY);
    CHECK(nm_map_drain(&worker, give_back, &total, 20) == NM_KIND);
    CHECK(nm_map_drain(&other, give_back, &total, 20) == NM_CLOSED);
    CHECK(nm_drop(&worker) == NM_DONE && total == 0);
    end(&map);
}

int main(void) {
    a_map_collects_when_an_eighth_of_its_nodes_wait();
    values_come_back_once();
    a_worker_is_tended_when_enough_nodes_wait();
    a_put_waits_for_nodes();
    a_put_takes_back_from_returned_workers();
    a_put_into_a_full_map_returns_at_once();
    a_full_map_says_its_numbers();
    an_attach_waits_for_another_one();
    a_hold_is_a_pin();
    a_drain_hands_over_all_that_is_left();
    a_drain_goes_on_after_an_attached_worker();
    a_value_may_be_given_back_by_more_calls();
    wrong_handles_are_refused();
    values_of_pending_removes_come_back_once();
    puts("each value was handed over once");
    return 0;
}
