/* Tests the calls of nm_wait.h: they wait for nodes, for workers and for a close, for timeout_ms at
 * most, and write why a set is full. */
#include "holds.h"
#include "nm_wait.h"

#include <pthread.h>
#include <string.h>

enum { TRIES = 64, TIMEOUT = 10000, CALLERS = 16, WORKERS = 3, ROUNDS = 50 };

static nm_handle set = NM_CLOSED_HANDLE, pinned = NM_CLOSED_HANDLE;

static void sleep_for_some(void) { nm_sleep(20000000); }

/* Ends the pin after a while. */
static void *unpin(void *unused) {
    sleep_for_some();
    CHECK(nm_worker_unpin(&pinned) == NM_DONE);
    return unused;
}

/* Lets eight nodes wait, which are all that a set for 13 has. */
static void fill(nm_handle *worker) {
    uint64_t epoch;
    CHECK(nm_worker_pin(&pinned, TRIES, &epoch) == NM_DONE);
    for (uint64_t key = 0; key < 4; key++)
        CHECK(nm_worker_insert(worker, key, &nm_default_options) == NM_YES &&
              nm_worker_remove(worker, key, &nm_default_options) == NM_YES);
}

static void an_add_waits(void) {
    nm_handle worker = NM_CLOSED_HANDLE;
    pthread_t later;
    char text[384], little[16];
    uint64_t begun;
    CHECK(nm_set_new(&set, 13, 3) == NM_DONE && nm_wait_worker(&set, &pinned, 2, 0) == NM_DONE &&
          nm_wait_attach(&set, &worker, 0) == NM_DONE);
    fill(&worker);
    begun = nm_now();
    CHECK(nm_wait_insert(&worker, 7, &nm_default_options, 0) == NM_FULL);
    CHECK(nm_wait_insert(&worker, 7, &nm_default_options, 50) == NM_FULL);
    CHECK(nm_now() - begun >= 50000000 && nm_now() - begun < 450000000);
    CHECK(strcmp(nm_full_text(&worker, 13, text, sizeof text),
                 "the set is full: no two of its 13 nodes are free, and 8 wait with worker 0;"
                 " held back by a pin or a call of worker 2") == 0);
    CHECK(strcmp(nm_full_text(&worker, 13, little, sizeof little), "the set is full") == 0);
    CHECK(pthread_create(&later, NULL, unpin, NULL) == 0);
    CHECK(nm_wait_insert(&worker, 7, &nm_default_options, TIMEOUT) == NM_YES);
    CHECK(pthread_join(later, NULL) == 0 && nm_wait_attached(&set, 2, 0) == NM_YES);
    CHECK(nm_wait_worker(&set, &worker, 2, 3) == NM_OPEN && nm_drop(&worker) == NM_DONE);
    CHECK(nm_wait_worker(&set, &worker, 2, 3) == NM_ATTACHED &&
          nm_wait_close(&set, 3) == NM_ATTACHED);
    CHECK(nm_drop(&pinned) == NM_DONE && nm_wait_attached(&set, 2, 0) == NM_NO);
    CHECK(nm_wait_close(&set, 0) == NM_DONE && nm_drop(&set) == NM_DONE);
}

/* Takes a worker, adds a key and gives it back, a few times. */
static void *come_and_go(void *number) {
    uint64_t first = *(uint64_t *)number;
    for (uint64_t round = 0; round < ROUNDS; round++) {
        nm_handle worker = NM_CLOSED_HANDLE;
        CHECK(nm_wait_attach(&set, &worker, TIMEOUT) == NM_DONE);
        CHECK(nm_wait_insert(&worker, first * ROUNDS + round, &nm_default_options, TIMEOUT) ==
              NM_YES);
        CHECK(nm_drop(&worker) == NM_DONE);
    }
    return NULL;
}

/* More threads than workers: each gets one, and a close waits for the last one. */
static void threads_wait_for_workers(void) {
    pthread_t threads[CALLERS];
    uint64_t numbers[CALLERS], keys = 0;
    nm_handle last = NM_CLOSED_HANDLE;
    CHECK(nm_set_new(&set, 4096, WORKERS) == NM_DONE);
    for (uint64_t i = 0; i < CALLERS; i++) {
        numbers[i] = i;
        CHECK(pthread_create(&threads[i], NULL, come_and_go, &numbers[i]) == 0);
    }
    for (int i = 0; i < CALLERS; i++) CHECK(pthread_join(threads[i], NULL) == 0);
    CHECK(nm_wait_attach(&set, &last, 0) == NM_DONE && nm_drop(&last) == NM_DONE);
    CHECK(nm_wait_close(&set, TIMEOUT) == NM_DONE && nm_report_keys(&set, &keys) == NM_DONE);
    CHECK(keys == CALLERS * ROUNDS && nm_drop(&set) == NM_DONE);
}

/* Gives the worker back after a while. */
static void *give_back(void *worker) {
    sleep_for_some();
    CHECK(nm_drop((nm_handle *)worker) == NM_DONE);
    return NULL;
}

static void a_close_waits(void) {
    nm_handle worker = NM_CLOSED_HANDLE;
    pthread_t later;
    CHECK(nm_set_new(&set, 64, 1) == NM_DONE && nm_wait_attach(&set, &worker, 0) == NM_DONE);
    CHECK(pthread_create(&later, NULL, give_back, &worker) == 0);
    CHECK(nm_wait_close(&set, TIMEOUT) == NM_DONE && pthread_join(later, NULL) == 0);
    CHECK(nm_wait_attached(&set, 0, 0) == NM_KIND && nm_drop(&set) == NM_DONE);
}

int main(void) {
    an_add_waits();
    threads_wait_for_workers();
    a_close_waits();
    puts("calls wait for nodes, for workers and for a close");
    return 0;
}
