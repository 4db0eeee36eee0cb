/* Tests the pool of nm_pool.h: its answers, who gets which worker, how long calls wait, closes
 * beside callers, forks, and threads that are cancelled. */
#define _GNU_SOURCE
#include "nm_pool.h"
#include "nm_wait.h"

#include "holds.h"

#include <pthread.h>
#include <stdbool.h>
#include <stdlib.h>
#include <string.h>
#include <sys/wait.h>
#include <unistd.h>

#ifdef __SANITIZE_THREAD__
#define CLOSES 5u /* the thread sanitizer takes a second for each */
#else
#define CLOSES 40u
#endif
#define MS 1000000u /* a millisecond, in nanoseconds */
#define SOON 60000u /* milliseconds: longer than a busy machine keeps a thread waiting */

static nm_pool *made(uint64_t nodes, uint32_t workers) {
    nm_pool_options options = nm_pool_defaults;
    nm_pool *pool = NULL;
    options.workers = workers;
    CHECK(nm_pool_new(&pool, nodes, &options) == NM_DONE);
    return pool;
}

static uint64_t size_of(nm_pool *pool) {
    uint64_t keys = 77;
    CHECK(nm_pool_size(pool, &keys) == NM_DONE);
    return keys;
}

/* Closes and frees a pool; returns how many keys its report has. */
static uint64_t ended(nm_pool *pool) {
    nm_handle report = NM_CLOSED_HANDLE;
    uint64_t keys = 77, missing = 0;
    CHECK(nm_pool_close(pool, SOON, &report, &missing) == NM_DONE);
    CHECK(nm_report_keys(&report, &keys) == NM_DONE && nm_drop(&report) == NM_DONE);
    nm_pool_free(pool);
    return keys;
}

/* The calls of the set and those of an attached worker have the same answers. */
static void answers_are_right(nm_pool *pool, uint32_t worker) {
    uint64_t key = 77;
    nm_lookup lookups[2] = {{9, 7}, {4, 7}};
    CHECK(nm_pool_contains(pool, worker, 5, 0) == NM_NO);
    CHECK(nm_pool_next(pool, worker, 0, &key, 0) == NM_NO && key == 77);
    CHECK(nm_pool_pop_first(pool, worker, &key, 0) == NM_NO && key == 77);
    CHECK(nm_pool_insert(pool, worker, 5, 0) == NM_YES);
    CHECK(nm_pool_insert(pool, worker, 5, 0) == NM_NO);
    CHECK(nm_pool_insert(pool, worker, 9, 0) == NM_YES);
    CHECK(nm_pool_insert(pool, worker, UINT64_MAX, 0) == NM_KEY);
    CHECK(nm_pool_contains(pool, worker, 5, 0) == NM_YES && size_of(pool) == 2);
    CHECK(nm_pool_next(pool, worker, 6, &key, 0) == NM_YES && key == 9);
    CHECK(nm_pool_prev(pool, worker, 8, &key, 0) == NM_YES && key == 5);
    CHECK(nm_pool_contains_many(pool, worker, lookups, 2, 0) == NM_DONE);
    CHECK(nm_pool_contains_many(pool, worker, NULL, 0, 0) == NM_DONE);
    CHECK(lookups[0].found == 1 && lookups[1].found == 0);
    CHECK(nm_pool_pop_last(pool, worker, &key, 0) == NM_YES && key == 9);
    CHECK(nm_pool_remove(pool, worker, 5, 0) == NM_YES && size_of(pool) == 0);
    CHECK(nm_pool_remove(pool, worker, 5, 0) == NM_NO);
}

static void pools_are_made(void) {
    nm_pool *pool = NULL;
    nm_pool_options options = nm_pool_defaults;
    CHECK(nm_pool_new(&pool, 6, NULL) == NM_NODES && pool == NULL);
    CHECK(nm_pool_new(&pool, (uint64_t)1 << 40, NULL) == NM_NODES);
    options.workers = 65;
    CHECK(nm_pool_new(&pool, 64, &options) == NM_WORKERS);
    options.workers = 0;
    CHECK(nm_pool_new(&pool, 64, &options) == NM_WORKERS && pool == NULL);
    CHECK(nm_pool_new(&pool, 64, NULL) == NM_DONE && nm_pool_workers(pool) == 64);
    CHECK(nm_pool_nodes(pool) == 64 && nm_pool_call_options(pool)->collect_after == 64);
    CHECK(ended(pool) == 0);
    options = nm_pool_defaults;
    options.shape = NM_UNBALANCED + 1;
    pool = NULL;
    CHECK(nm_pool_new(&pool, 64, &options) == NM_NUMBER && pool == NULL);
    nm_pool_free(NULL);
    options = nm_pool_defaults;
    options.shape = NM_UNBALANCED;
    CHECK(nm_pool_new(&pool, 64, &options) == NM_DONE);
    answers_are_right(pool, NM_ANY);
    CHECK(ended(pool) == 0);
}

/* Pins or unpins an attached worker. */
static void pin(nm_pool *pool, uint32_t worker) {
    uint64_t epoch;
    CHECK(nm_worker_pin(nm_pool_handle(pool, worker), 64, &epoch) == NM_DONE);
}

static void unpin(nm_pool *pool, uint32_t worker) {
    CHECK(nm_worker_unpin(nm_pool_handle(pool, worker)) == NM_DONE);
}

/* One thread has all workers: its calls by NM_ANY borrow one that is not pinned. If all are pinned
 * they wait, and so does an attach, each for its time. */
static void one_thread_has_all_workers(void) {
    nm_pool *pool = made(64, 2);
    uint32_t first = 77, second = 77, third = 77;
    uint64_t key, begun;
    CHECK(nm_pool_attach(pool, &first, 0) == NM_DONE && first == 0);
    answers_are_right(pool, first);
    CHECK(nm_pool_attach_number(pool, 0, &third, 0) == NM_ATTACHED);
    CHECK(nm_pool_attach_number(pool, 2, &third, 0) == NM_NUMBER && third == 77);
    CHECK(nm_pool_attach_number(pool, 1, &second, 0) == NM_DONE && second == 1);
    CHECK(nm_pool_attached(pool) == 3);
    answers_are_right(pool, NM_ANY);
    pin(pool, first);
    answers_are_right(pool, NM_ANY);
    pin(pool, second);
    begun = nm_now() / MS;
    CHECK(nm_pool_contains(pool, NM_ANY, 5, 0) == NM_NO_WORKER);
    CHECK(nm_pool_pop_first(pool, NM_ANY, &key, 50) == NM_NO_WORKER && nm_now() / MS - begun >= 50);
    CHECK(nm_pool_contains(pool, first, 5, 50) == NM_PINNED);
    begun = nm_now() / MS;
    CHECK(nm_pool_attach(pool, &third, 50) == NM_NO_WORKER && nm_now() / MS - begun >= 50);
    CHECK(third == 77 && nm_now() / MS - begun < SOON);
    unpin(pool, second);
    CHECK(nm_pool_detach(pool, &first, 0) == NM_DONE && first == NM_NONE);
    CHECK(nm_pool_detach(pool, &first, 0) == NM_CLOSED);
    CHECK(nm_pool_contains(pool, first, 5, 0) == NM_CLOSED);
    CHECK(nm_pool_contains(pool, 0, 5, 0) == NM_CLOSED);
    CHECK(nm_pool_contains(pool, 9, 5, 0) == NM_NUMBER);
    CHECK(nm_worker_pending(nm_pool_handle(pool, first), &key) == NM_CLOSED);
    CHECK(nm_pool_attach(pool, &third, 0) == NM_DONE && third == 0);
    answers_are_right(pool, third); /* the detach has ended the pin */
    CHECK(nm_pool_detach(pool, &third, 0) == NM_DONE);
    CHECK(nm_pool_detach(pool, &second, 0) == NM_DONE && ended(pool) == 0);
    CHECK(nm_pool_detach(pool, &second, 0) == NM_CLOSED); /* it does not read the pool that was freed */
}

/* A remove that is unfinished is finished by a borrower, and by a detach, and counts once. */
static void unfinished_removes_count_once(void) {
    nm_pool *pool = made(64, 1);
    uint32_t worker;
    uint64_t key;
    CHECK(nm_pool_attach(pool, &worker, 0) == NM_DONE);
    CHECK(nm_pool_try_insert(pool, worker, 5, 64, 0) == NM_YES);
    CHECK(nm_pool_try_insert(pool, NM_ANY, 5, 64, 0) == NM_NUMBER);
    CHECK(nm_pool_insert(pool, worker, 6, 0) == NM_YES && size_of(pool) == 2);
    CHECK(nm_pool_try_remove(pool, worker, 5, 1, 0) == NM_UNFINISHED && size_of(pool) == 1);
    CHECK(nm_pool_contains(pool, NM_ANY, 6, 0) == NM_YES && size_of(pool) == 1);
    CHECK(nm_worker_pending(nm_pool_handle(pool, worker), &key) == NM_NO);
    CHECK(nm_pool_try_remove(pool, worker, 6, 1, 0) == NM_UNFINISHED && size_of(pool) == 0);
    CHECK(nm_pool_detach(pool, &worker, 0) == NM_DONE);
    CHECK(nm_pool_contains(pool, NM_ANY, 6, 0) == NM_NO && ended(pool) == 0);
}

static void *unpins_later(void *pool) {
    nm_sleep(30 * MS);
    unpin(pool, 2);
    return NULL;
}

/* An insert waits for nodes for its time, and no longer; then its words have what is known. If the
 * keys take all nodes it does not wait. */
static void inserts_wait_for_nodes(void) {
    nm_pool *pool = made(13, 3);
    nm_fullness fullness;
    char words[640];
    uint32_t pinned;
    pthread_t thread;
    CHECK(nm_pool_attach_number(pool, 2, &pinned, 0) == NM_DONE);
    pin(pool, pinned);
    for (uint64_t key = 0; key < 4; key++)
        CHECK(nm_pool_insert(pool, NM_ANY, key, 0) == NM_YES &&
              nm_pool_remove(pool, NM_ANY, key, 0) == NM_YES);
    CHECK(nm_pool_insert(pool, NM_ANY, 7, 0) == NM_FULL);
    uint64_t begun = nm_now() / MS;
    CHECK(nm_pool_insert(pool, NM_ANY, 7, 50) == NM_FULL && nm_now() / MS - begun >= 50);
    CHECK(nm_pool_fullness(pool, &fullness) == NM_DONE && fullness.nodes == 13);
    CHECK(fullness.keys == 0 && fullness.waiting == 8 && fullness.free == 0);
    CHECK(fullness.behind == 4 && fullness.unasked == 0);
    CHECK(strcmp(nm_full_words(&fullness, words, sizeof words),
                 "the set is full: its 0 keys take 5 of its 13 nodes, and 8 wait to be freed;"
                 " worker 2 is in their way, by a pin or in a call") == 0);
    CHECK(pthread_create(&thread, NULL, unpins_later, pool) == 0);
    CHECK(nm_pool_insert(pool, NM_ANY, 7, SOON) == NM_YES && pthread_join(thread, NULL) == 0);
    for (uint64_t key = 8; key < 11; key++)
        CHECK(nm_pool_insert(pool, NM_ANY, key, SOON) == NM_YES);
    CHECK(nm_pool_insert(pool, pinned, 11, UINT32_MAX) == NM_FULL);
    CHECK(nm_pool_detach(pool, &pinned, 0) == NM_DONE && ended(pool) == 4);
}

static void words_are_right(void) {
    nm_fullness fullness = {65536, 1200, 63131, 0, 8, 0x20a, 0};
    char words[640], brief[12];
    CHECK(
        strcmp(nm_full_words(&fullness, words, sizeof words),
               "the set is full: its 1,200 keys take 2,405 of its 65,536 nodes, and 63,131 wait to"
               " be freed; workers 1, 3 and 9 are in their way, by a pin or in a call; worker 3 is"
               " in a call, so what waits there is counted as last seen") == 0);
    fullness.behind = fullness.unasked = 0;
    fullness.hindering = 6;
    CHECK(strcmp(nm_full_words(&fullness, words, sizeof words),
                 "the set is full: its 1,200 keys take 2,405 of its 65,536 nodes, and 63,131 wait to"
                 " be freed; the set cannot grow while workers 1 and 2 are pinned or in a call") == 0);
    CHECK(strcmp(nm_mask_words(0x21, words, sizeof words), "workers 0 and 5") == 0);
    CHECK(strcmp(nm_mask_words(3, brief, sizeof brief), "workers 0 a") == 0);
    CHECK(strcmp(nm_pool_text(NM_KEY), nm_outcome_text(NM_KEY)) == 0);
    CHECK(strstr(nm_pool_text(NM_FORKED), "forked") != NULL);
}

/* ---- threads ---- */

struct caller {
    nm_pool *pool;
    uint64_t first, inserted;
    nm_outcome last;
};

/* Runs threads with a function, each with a record of its own. */
static void run(struct caller *callers, uint64_t count, nm_pool *pool, void *(*call)(void *),
                pthread_t *threads) {
    for (uint64_t first = 0; first < count; first++) {
        callers[first] = (struct caller){pool, first, 0, NM_DONE};
        CHECK(pthread_create(&threads[first], NULL, call, &callers[first]) == 0);
    }
}

static void *attaches_and_inserts(void *of) {
    struct caller *caller = of;
    for (uint64_t round = 0; round < 5; round++) {
        uint32_t worker = NM_ANY;
        CHECK(nm_pool_attach(caller->pool, &worker, SOON) == NM_DONE);
        CHECK(nm_pool_insert(caller->pool, worker, caller->first * 5 + round, SOON) == NM_YES);
        CHECK(nm_pool_contains(caller->pool, NM_ANY, caller->first * 5, SOON) == NM_YES);
        CHECK(nm_pool_detach(caller->pool, &worker, SOON) == NM_DONE);
    }
    return NULL;
}

static void two_hundred_threads_work(void) {
    static struct caller callers[200];
    static pthread_t threads[200];
    nm_pool *pool = made(65536, 64);
    run(callers, 200, pool, attaches_and_inserts, threads);
    for (int each = 0; each < 200; each++) CHECK(pthread_join(threads[each], NULL) == 0);
    CHECK(size_of(pool) == 1000 && nm_pool_attached(pool) == 0 && ended(pool) == 1000);
}

/* Inserts and removes keys until a call fails. */
static void *calls_until_closed(void *of) {
    struct caller *caller = of;
    for (uint64_t each = 0;; each++) {
        uint64_t key = (caller->first + each * 7) % 500;
        bool is_insert = each % 3 != 0;
        nm_outcome outcome = is_insert ? nm_pool_insert(caller->pool, NM_ANY, key, SOON)
                                       : nm_pool_remove(caller->pool, NM_ANY, key, SOON);
        caller->last = outcome;
        if (outcome < 0) return NULL;
        if (outcome == NM_YES) caller->inserted += is_insert ? 1 : -(uint64_t)1;
    }
}

/* Each caller is told of a close, and the report has what their answers add up to. */
static void closes_beside_callers(void) {
    struct caller callers[16];
    pthread_t threads[16];
    for (uint32_t round = 0; round < CLOSES; round++) {
        nm_pool *pool = made(8192, 1 + round * 7 % 20);
        nm_handle report = NM_CLOSED_HANDLE;
        uint64_t inserted = 0, keys = 0, missing = 77;
        run(callers, 16, pool, calls_until_closed, threads);
        nm_sleep(round % 5 * MS);
        CHECK(nm_pool_close(pool, SOON, &report, &missing) == NM_DONE);
        for (int each = 0; each < 16; each++) {
            CHECK(pthread_join(threads[each], NULL) == 0 && callers[each].last == NM_CLOSED);
            inserted += callers[each].inserted;
        }
        CHECK(nm_report_keys(&report, &keys) == NM_DONE && keys == inserted);
        CHECK(nm_pool_close(pool, 0, &report, NULL) == NM_OPEN && nm_drop(&report) == NM_DONE);
        CHECK(nm_pool_close(pool, 0, &report, NULL) == NM_CLOSED);
        CHECK(nm_pool_size(pool, &keys) == NM_CLOSED);
        nm_pool_free(pool);
    }
}

/* A close names the workers that are attached, and the set goes on. */
static void closes_name_workers(void) {
    nm_pool *pool = made(64, 4);
    nm_handle report = NM_CLOSED_HANDLE;
    uint32_t first, second;
    uint64_t missing = 0;
    CHECK(nm_pool_attach_number(pool, 1, &first, 0) == NM_DONE);
    CHECK(nm_pool_attach_number(pool, 3, &second, 0) == NM_DONE);
    CHECK(nm_pool_close(pool, SOON, &report, &missing) == NM_ATTACHED && missing == 0xa);
    CHECK(nm_pool_insert(pool, NM_ANY, 5, 0) == NM_YES &&
          nm_pool_insert(pool, first, 6, 0) == NM_YES);
    CHECK(nm_pool_detach(pool, &first, 0) == NM_DONE);
    CHECK(nm_pool_close(pool, SOON, &report, NULL) == NM_ATTACHED);
    CHECK(nm_pool_detach(pool, &second, 0) == NM_DONE && ended(pool) == 2);
}

/* A pool that is given up is left to its workers, and the last of them may end the set. */
static void workers_outlive_a_pool(void) {
    nm_handle report = NM_CLOSED_HANDLE;
    uint32_t first, second;
    uint64_t keys = 0;
    nm_pool *pool = made(64, 3);
    CHECK(nm_pool_attach(pool, &first, 0) == NM_DONE &&
          nm_pool_attach(pool, &second, 0) == NM_DONE);
    CHECK(nm_pool_insert(pool, NM_ANY, 5, 0) == NM_YES);
    CHECK(nm_pool_end(pool, &first, &report, 0) == NM_ATTACHED);
    nm_pool_free(pool);
    CHECK(nm_pool_insert(pool, NM_ANY, 6, 0) == NM_CLOSED);
    CHECK(nm_pool_insert(pool, first, 6, 0) == NM_YES);
    CHECK(nm_pool_end(pool, &first, &report, 0) == NM_ATTACHED);
    CHECK(nm_pool_detach(pool, &second, 0) == NM_DONE);
    CHECK(nm_pool_end(pool, &first, &report, 0) == NM_DONE && first == NM_NONE);
    CHECK(nm_report_keys(&report, &keys) == NM_DONE && keys == 2 && nm_drop(&report) == NM_DONE);
    pool = made(64, 3);
    CHECK(nm_pool_attach(pool, &first, 0) == NM_DONE);
    nm_pool_free(pool);
    CHECK(nm_pool_detach(pool, &first, 0) == NM_DONE);
}

/* In a forked child each call returns NM_FORKED, also beside a thread that was in a call. */
static void children_are_refused(void) {
    struct caller caller = {made(8192, 2), 0, 0, NM_DONE};
    nm_pool *pool = caller.pool;
    nm_handle report = NM_CLOSED_HANDLE;
    uint64_t keys;
    uint32_t worker, other = 0;
    pthread_t thread;
    int status;
    CHECK(pthread_create(&thread, NULL, calls_until_closed, &caller) == 0);
    CHECK(nm_pool_attach_number(pool, 1, &worker, SOON) == NM_DONE);
    pid_t child = fork();
    if (child == 0) {
        const bool is_refused = nm_pool_insert(pool, NM_ANY, 5, SOON) == NM_FORKED &&
                          nm_pool_contains(pool, worker, 5, SOON) == NM_FORKED &&
                          nm_pool_size(pool, &keys) == NM_FORKED &&
                          nm_pool_collect(pool, &keys) == NM_FORKED &&
                          nm_pool_attach(pool, &other, SOON) == NM_FORKED &&
                          nm_pool_detach(pool, &worker, SOON) == NM_FORKED &&
                          nm_pool_close(pool, SOON, &report, NULL) == NM_FORKED;
        nm_pool_free(pool);
        _exit(is_refused ? 0 : 1);
    }
    CHECK(waitpid(child, &status, 0) == child && WIFEXITED(status) && WEXITSTATUS(status) == 0);
    CHECK(nm_pool_contains(pool, worker, 5, SOON) >= 0);
    CHECK(nm_pool_detach(pool, &worker, SOON) == NM_DONE);
    CHECK(nm_pool_close(pool, SOON, &report, NULL) == NM_DONE && pthread_join(thread, NULL) == 0);
    CHECK(nm_drop(&report) == NM_DONE);
    nm_pool_free(pool);
}

#ifndef __SANITIZE_ADDRESS__
static void *waits_to_attach(void *pool) {
    uint32_t worker;
    (void)nm_pool_attach(pool, &worker, SOON);
    return NULL;
}

static void *waits_to_insert(void *pool) {
    (void)nm_pool_insert(pool, NM_ANY, 9, SOON);
    return NULL;
}

/* A thread that is cancelled while it waits keeps no worker. (The address sanitizer does not know
 * the stack of a thread that was cancelled.) */
static void waiting_threads_are_cancelled(void) {
    void *(*const waits[])(void *) = {waits_to_attach, waits_to_insert};
    nm_pool *pool = made(9, 1);
    uint32_t worker;
    CHECK(nm_pool_attach(pool, &worker, 0) == NM_DONE);
    CHECK(nm_pool_insert(pool, worker, 5, 0) == NM_YES);
    pin(pool, worker);
    for (int each = 0; each < 2; each++) {
        pthread_t thread;
        void *end;
        CHECK(pthread_create(&thread, NULL, waits[each], pool) == 0);
        nm_sleep(20 * MS);
        CHECK(pthread_cancel(thread) == 0 && pthread_join(thread, &end) == 0);
        CHECK(end == PTHREAD_CANCELED && nm_pool_attached(pool) == 1);
    }
    unpin(pool, worker);
    CHECK(nm_pool_detach(pool, &worker, 0) == NM_DONE && ended(pool) == 1);
}

#else
static void waiting_threads_are_cancelled(void) {}
#endif

int main(void) {
    nm_pool *pool = made(64, 4);
    answers_are_right(pool, NM_ANY);
    CHECK(ended(pool) == 0);
    pools_are_made();
    one_thread_has_all_workers();
    unfinished_removes_count_once();
    inserts_wait_for_nodes();
    words_are_right();
    two_hundred_threads_work();
    closes_beside_callers();
    closes_name_workers();
    workers_outlive_a_pool();
    children_are_refused();
    waiting_threads_are_cancelled();
    puts("a pool lends its workers, waits and ends");
    return 0;
}
