/* Tests the pool at moments that a program seldom meets: a call that does not end, memory that is
 * refused, a thread that is stopped inside nm_pool.c. For these it is linked with nm_pool.c, and
 * with functions of its own in place of some that nm_pool.c calls (c/check names them). */
#define _GNU_SOURCE
#include "nm_pool.h"
#include "nm_wait.h"

#include "holds.h"

#include <linux/futex.h>
#include <malloc.h>
#include <pthread.h>
#include <stdatomic.h>
#include <stdbool.h>
#include <sys/syscall.h>

#define MS 1000000u /* a millisecond, in nanoseconds */
#define SOON 60000u /* milliseconds: longer than a busy machine keeps a thread waiting */
#define FIRST 10000u /* the keys for which a set that grows has room at first */

static void wait_until(atomic_bool *is_so) {
    while (!atomic_load(is_so)) nm_sleep(1 * MS);
}

static nm_pool *made(uint64_t nodes, uint32_t workers) {
    nm_pool_options options = nm_pool_defaults;
    nm_pool *pool = NULL;
    options.workers = workers;
    CHECK(nm_pool_new(&pool, nodes, &options) == NM_DONE);
    return pool;
}

static void fill(nm_pool *pool, uint64_t keys) {
    for (uint64_t key = 0; key < keys; key++) CHECK(nm_pool_insert(pool, NM_ANY, key, 0) == NM_YES);
}

/* Closes and frees a pool, whose keys are the first ones. */
static void end(nm_pool *pool, uint64_t count) {
    nm_handle report = NM_CLOSED_HANDLE;
    uint64_t keys = 0, key = 0;
    CHECK(nm_pool_size(pool, &keys) == NM_DONE && keys == count);
    CHECK(nm_pool_close(pool, SOON, &report, NULL) == NM_DONE);
    CHECK(nm_report_keys(&report, &keys) == NM_DONE && keys == count);
    for (uint64_t index = 0; index < count; index++)
        CHECK(nm_report_key(&report, index, &key) == NM_DONE && key == index);
    CHECK(nm_drop(&report) == NM_DONE);
    nm_pool_free(pool);
}

/* From now on a call by the worker does not end, until the same with false. */
static void hold(nm_handle *worker, bool is_held) {
    __atomic_store_n(&worker->in_use, is_held, __ATOMIC_SEQ_CST);
}

/* ---- functions in place of others ---- */

/* The allocations of this thread until one is refused, or a number below 0 if none is. */
static _Thread_local long allocations = -1;
static atomic_ulong refusals;

void *__real_malloc(size_t size);
void *__real_realloc(void *block, size_t size);

static bool is_refused(void) {
    if (allocations < 0 || --allocations >= 0) return false;
    atomic_fetch_add(&refusals, 1);
    return true;
}

void *__wrap_malloc(size_t size) { return is_refused() ? NULL : __real_malloc(size); }

void *__wrap_realloc(void *block, size_t size) {
    return is_refused() ? NULL : __real_realloc(block, size);
}

/* Where a thread is to be stopped, and whether it is. */
static _Thread_local enum { NOWHERE, AFTER_INSERT, PIN_AFTER_INSERT, IN_SCAN, IN_ATTACH } place;
static atomic_int stopped;
static atomic_bool goes_on;

static void stop_at(int here) {
    if ((int)place != here) return;
    place = NOWHERE;
    atomic_fetch_add(&stopped, 1);
    wait_until(&goes_on);
}

/* How often the pool has asked worker 1 whether it is pinned: once in each attempt. */
static nm_handle *asked;
static atomic_ulong attempts;

long __real_syscall(long number, ...);
static atomic_int sleeps; /* how often a thread began to sleep until a word changes */

long __wrap_syscall(long number, uint32_t *word, long what, long value, const void *most, long none,
                    long zero) {
    if (number == SYS_futex && what == FUTEX_WAIT_BITSET_PRIVATE) atomic_fetch_add(&sleeps, 1);
    return __real_syscall(number, word, what, value, most, none, zero);
}

nm_outcome __real_nm_worker_insert(nm_handle *worker, uint64_t key, const nm_options *options);
nm_outcome __real_nm_worker_scan(nm_handle *worker, uint64_t from, uint64_t below, uint64_t *keys,
                                 size_t room, uint64_t *count, uint64_t *next, uint32_t tries);
nm_outcome __real_nm_set_worker(nm_handle *set, nm_handle *worker, uint32_t number);

nm_outcome __wrap_nm_worker_insert(nm_handle *worker, uint64_t key, const nm_options *options) {
    nm_outcome outcome = __real_nm_worker_insert(worker, key, options);
    uint64_t epoch;
    if (place == PIN_AFTER_INSERT) CHECK(nm_worker_pin(worker, 64, &epoch) == NM_DONE);
    stop_at(AFTER_INSERT);
    return outcome;
}

nm_outcome __wrap_nm_worker_scan(nm_handle *worker, uint64_t from, uint64_t below, uint64_t *keys,
                                 size_t room, uint64_t *count, uint64_t *next, uint32_t tries) {
    stop_at(IN_SCAN);
    return __real_nm_worker_scan(worker, from, below, keys, room, count, next, tries);
}

/* A thread that was stopped here attaches nothing, as if memory was refused. */
nm_outcome __wrap_nm_set_worker(nm_handle *set, nm_handle *worker, uint32_t number) {
    bool is_stopped = place == IN_ATTACH;
    stop_at(IN_ATTACH);
    return is_stopped ? NM_NO_MEMORY : __real_nm_set_worker(set, worker, number);
}

nm_outcome __real_nm_worker_pinned(nm_handle *worker, uint64_t *epoch);

nm_outcome __wrap_nm_worker_pinned(nm_handle *worker, uint64_t *epoch) {
    if (asked != NULL && worker->at == asked->at) atomic_fetch_add(&attempts, 1);
    return __real_nm_worker_pinned(worker, epoch);
}

/* ---- a call that does not end, beside a set that is to grow ---- */

#define INSERT_MS 4000u

struct inserter {
    nm_pool *pool;
    uint64_t key;
    atomic_bool is_over;
};

static void *inserts(void *of) {
    struct inserter *inserter = of;
    CHECK(nm_pool_insert(inserter->pool, NM_ANY, inserter->key, INSERT_MS) == NM_FULL);
    atomic_store(&inserter->is_over, true);
    return NULL;
}

/* Other calls go on, those that look keys up and those that change the size. All threads together
 * make an attempt in 10 milliseconds, and no longer than that wait for the call. */
static void calls_go_on_beside_a_long_call(void) {
    nm_pool *pool = made(NM_GROWS, 4);
    struct inserter inserters[3];
    pthread_t threads[3];
    uint32_t held, other;
    uint64_t longest = 0, missing = 0, most;
    fill(pool, FIRST);
    CHECK(nm_pool_attach_number(pool, 0, &held, SOON) == NM_DONE);
    CHECK(nm_pool_attach_number(pool, 1, &other, SOON) == NM_DONE);
    nm_handle *handle = nm_pool_handle(pool, held);
    hold(handle, true);
    asked = nm_pool_handle(pool, other);
    uint64_t begun = nm_now() / MS;
    for (int each = 0; each < 3; each++) {
        inserters[each] = (struct inserter){pool, FIRST + (uint64_t)each, false};
        CHECK(pthread_create(&threads[each], NULL, inserts, &inserters[each]) == 0);
    }
    while (!atomic_load(&inserters[0].is_over)) {
        uint64_t at = nm_now() / MS;
        CHECK(nm_pool_contains(pool, NM_ANY, 5, SOON) == NM_YES);
        longest = nm_now() / MS - at > longest ? nm_now() / MS - at : longest;
    }
    CHECK(longest < INSERT_MS / 2);
    for (int each = 0; each < 3; each++) CHECK(pthread_join(threads[each], NULL) == 0);
    most = (nm_now() / MS - begun) / 10 + 2;
    CHECK(atomic_load(&attempts) > 1 && atomic_load(&attempts) <= most);
    asked = NULL;
    begun = nm_now() / MS;
    CHECK(nm_pool_reserve(pool, 2 * FIRST, 30, &missing) == NM_IN_USE && missing == 1);
    CHECK(nm_pool_reserve(pool, 2 * FIRST, 0, NULL) == NM_IN_USE);
    CHECK(nm_now() / MS - begun < INSERT_MS);
    hold(handle, false);
    nm_sleep(20 * MS);
    CHECK(nm_pool_insert(pool, NM_ANY, FIRST, 0) == NM_YES); /* it grows, and waits for nothing */
    CHECK(nm_pool_detach(pool, &held, SOON) == NM_DONE && nm_pool_nodes(pool) == 30007);
    CHECK(nm_pool_detach(pool, &other, SOON) == NM_DONE);
    end(pool, FIRST + 1);
}

static void *goes_on_later(void *none) {
    nm_sleep(200 * MS);
    atomic_store(&goes_on, true);
    return none;
}

/* A change of the size that a pin prevents keeps no memory. */
static void a_pinned_worker_costs_no_memory(void) {
    nm_pool *pool = made(64, 2);
    uint32_t worker;
    uint64_t epoch, missing = 0;
    CHECK(nm_pool_attach(pool, &worker, SOON) == NM_DONE);
    CHECK(nm_worker_pin(nm_pool_handle(pool, worker), 64, &epoch) == NM_DONE);
    struct mallinfo2 before = mallinfo2();
    CHECK(nm_pool_reserve(pool, 100 * FIRST, SOON, &missing) == NM_PINNED && missing == 1);
    struct mallinfo2 after = mallinfo2();
    CHECK(after.uordblks + after.hblkhd < before.uordblks + before.hblkhd + 1000000);
    CHECK(nm_pool_detach(pool, &worker, SOON) == NM_DONE);
    end(pool, 0);
}

static void *reserves_and_stops(void *pool) {
    place = IN_SCAN;
    CHECK(nm_pool_reserve(pool, 2 * FIRST, SOON, NULL) == NM_DONE);
    return NULL;
}

/* If the thread that moves the keys is stopped, other calls end after their time. */
static void calls_end_beside_a_stopped_move(void) {
    nm_pool *pool = made(64, 4);
    nm_handle report = NM_CLOSED_HANDLE;
    uint32_t worker = 77;
    pthread_t thread;
    fill(pool, 20);
    atomic_store(&goes_on, false), atomic_store(&stopped, 0);
    CHECK(pthread_create(&thread, NULL, reserves_and_stops, pool) == 0);
    while (atomic_load(&stopped) == 0) nm_sleep(1 * MS);
    CHECK(nm_pool_contains(pool, NM_ANY, 5, 20) == NM_NO_WORKER);
    CHECK(nm_pool_attach(pool, &worker, 20) == NM_NO_WORKER && worker == 77);
    CHECK(nm_pool_reserve(pool, FIRST, 20, NULL) == NM_IN_USE);
    CHECK(nm_pool_close(pool, 20, &report, NULL) == NM_IN_USE);
    atomic_store(&goes_on, true);
    CHECK(nm_pool_contains(pool, NM_ANY, 5, SOON) == NM_YES && pthread_join(thread, NULL) == 0);
    CHECK(nm_pool_nodes(pool) == 4 * FIRST + 5);
    end(pool, 20);
}

/* ---- memory that is refused ---- */

/* Refuses one allocation of a call after the other, each in a set of its own with `count` keys,
 * until the call needs no more. After each refusal the set goes on with all of its keys. */
static void refused_calls_lose_nothing(uint64_t nodes, uint64_t count, uint32_t shape,
                                       nm_outcome (*call)(nm_pool *, uint64_t)) {
    nm_pool_options options = nm_pool_defaults;
    options.workers = 3;
    options.shape = shape;
    for (long first = 0;; first++) {
        nm_pool *pool = NULL;
        uint64_t found = 0;
        CHECK(nm_pool_new(&pool, nodes, &options) == NM_DONE);
        fill(pool, count);
        atomic_store(&refusals, 0);
        allocations = first;
        nm_outcome outcome = call(pool, count);
        allocations = -1;
        bool is_refused = atomic_load(&refusals) != 0;
        CHECK(outcome >= 0 || (is_refused && outcome == NM_NO_MEMORY));
        CHECK(nm_pool_count(pool, NM_ANY, 0, count, &found, 0) == NM_DONE && found == count);
        if (outcome < 0) nm_sleep(20 * MS);
        if (outcome < 0) CHECK(call(pool, count) >= 0);
        (void)nm_pool_remove(pool, NM_ANY, count, 0);
        end(pool, count);
        if (!is_refused && first > 10) return;
        CHECK(is_refused);
    }
}

static nm_outcome insert_next(nm_pool *pool, uint64_t count) {
    return nm_pool_insert(pool, NM_ANY, count, 0);
}

static nm_outcome reserve_more(nm_pool *pool, uint64_t count) {
    return nm_pool_reserve(pool, 3 * count, 0, NULL);
}

static nm_outcome shrink(nm_pool *pool, uint64_t count) {
    (void)count;
    return nm_pool_shrink_to_fit(pool, 0, NULL);
}

/* ---- threads that are stopped inside the pool ---- */

static void *inserts_and_stops(void *of) {
    struct inserter *inserter = of;
    place = AFTER_INSERT;
    CHECK(nm_pool_insert(inserter->pool, NM_ANY, inserter->key, SOON) == NM_YES);
    return NULL;
}

/* Two threads have inserted by one worker, and their keys are not counted: there is room for them
 * after a shrink. */
static void uncounted_keys_have_room(void) {
    nm_pool *pool = made(NM_GROWS, 1);
    struct inserter inserters[2];
    pthread_t threads[2];
    uint32_t worker;
    uint64_t keys = 0;
    CHECK(nm_pool_attach(pool, &worker, SOON) == NM_DONE);
    CHECK(nm_pool_insert(pool, worker, 0, SOON) == NM_YES);
    atomic_store(&goes_on, false), atomic_store(&stopped, 0);
    for (int each = 0; each < 2; each++) {
        inserters[each] = (struct inserter){pool, 1 + (uint64_t)each, false};
        CHECK(pthread_create(&threads[each], NULL, inserts_and_stops, &inserters[each]) == 0);
        while (atomic_load(&stopped) <= each) nm_sleep(1 * MS);
    }
    CHECK(nm_pool_size(pool, &keys) == NM_DONE && keys == 1);
    CHECK(nm_pool_shrink_to_fit(pool, SOON, NULL) == NM_DONE && nm_pool_nodes(pool) == 13);
    for (uint64_t key = 0; key < 3; key++)
        CHECK(nm_pool_contains(pool, worker, key, SOON) == NM_YES);
    atomic_store(&goes_on, true);
    for (int each = 0; each < 2; each++) CHECK(pthread_join(threads[each], NULL) == 0);
    CHECK(nm_pool_detach(pool, &worker, SOON) == NM_DONE);
    end(pool, 3);
}

static void *attaches_and_stops(void *pool) {
    uint32_t worker = 77;
    place = IN_ATTACH;
    CHECK(nm_pool_attach(pool, &worker, SOON) == NM_NO_MEMORY && worker == 77);
    return NULL;
}

/* A close beside a thread that is attaching a worker waits, and does not name a worker that is not
 * attached in the end. */
static void a_close_waits_for_an_attach(void) {
    nm_pool *pool = made(64, 2);
    pthread_t thread, other;
    atomic_store(&goes_on, false), atomic_store(&stopped, 0);
    CHECK(pthread_create(&thread, NULL, attaches_and_stops, pool) == 0);
    while (atomic_load(&stopped) == 0) nm_sleep(1 * MS);
    CHECK(nm_pool_attached(pool) == 0);
    CHECK(pthread_create(&other, NULL, goes_on_later, NULL) == 0);
    end(pool, 0);
    CHECK(pthread_join(thread, NULL) == 0 && pthread_join(other, NULL) == 0);
}

/* ---- pops that wait ---- */

struct popper {
    nm_pool *pool;
    uint32_t timeout_ms;
    nm_outcome outcome;
    uint64_t key;
};

static void *waits_for_a_key(void *of) {
    struct popper *popper = of;
    popper->outcome =
        nm_pool_wait_pop(popper->pool, NM_ANY, UINT64_MAX, &popper->key, popper->timeout_ms);
    return NULL;
}

/* Two pops wait, and a key comes while the one worker gets pinned. The first pop is woken, and ends
 * after its time or is cancelled. Then the second one gets the key, long before its own time is
 * over. */
static void a_wake_is_passed_on(bool is_cancelled) {
    nm_pool *pool = made(64, 1);
    struct popper poppers[2] = {{pool, is_cancelled ? SOON : 4000, NM_DONE, 77},
                                {pool, SOON, NM_DONE, 77}};
    pthread_t threads[2];
    uint32_t worker;
    void *result = NULL;
    CHECK(nm_pool_attach(pool, &worker, SOON) == NM_DONE);
    uint64_t begun = nm_now() / MS;
    for (int each = 0; each < 2; each++) {
        int before = atomic_load(&sleeps);
        CHECK(pthread_create(&threads[each], NULL, waits_for_a_key, &poppers[each]) == 0);
        while (atomic_load(&sleeps) == before) nm_sleep(1 * MS);
        nm_sleep(100 * MS);
    }
    place = PIN_AFTER_INSERT;
    CHECK(nm_pool_insert(pool, worker, 7, SOON) == NM_YES);
    place = NOWHERE;
    nm_sleep(100 * MS);
    if (is_cancelled) CHECK(pthread_cancel(threads[0]) == 0);
    CHECK(pthread_join(threads[0], &result) == 0);
    CHECK(is_cancelled ? result == PTHREAD_CANCELED : poppers[0].outcome == NM_NO_WORKER);
    CHECK(nm_worker_unpin(nm_pool_handle(pool, worker)) == NM_DONE);
    CHECK(pthread_join(threads[1], NULL) == 0 && nm_now() / MS - begun < SOON / 2);
    CHECK(poppers[1].outcome == NM_YES && poppers[1].key == 7);
    CHECK(nm_pool_detach(pool, &worker, SOON) == NM_DONE);
    end(pool, 0);
}

static void *waits_for_a_lesser_key(void *of) {
    struct popper *look = of;
    look->outcome = nm_pool_wait_first(look->pool, NM_ANY, 5, &look->key, look->timeout_ms);
    return NULL;
}

/* Starts a call that waits, and returns once it sleeps. */
static void start_asleep(pthread_t *thread, void *(*call)(void *), struct popper *of) {
    int before = atomic_load(&sleeps);
    CHECK(pthread_create(thread, NULL, call, of) == 0);
    while (atomic_load(&sleeps) == before) nm_sleep(1 * MS);
    nm_sleep(50 * MS);
}

/* A call with a bound sleeps first, and then one that takes any key. A key above the bound is for the
 * second one, and the first one sleeps again: once for each insert, and no more often. */
static void a_look_takes_no_wake(void) {
    nm_pool *pool = made(64, 2);
    struct popper look = {pool, SOON, NM_DONE, 77}, pop = {pool, SOON, NM_DONE, 77};
    pthread_t threads[2];
    start_asleep(&threads[0], waits_for_a_lesser_key, &look);
    start_asleep(&threads[1], waits_for_a_key, &pop);
    int before = atomic_load(&sleeps);
    CHECK(nm_pool_insert(pool, NM_ANY, 7, SOON) == NM_YES);
    CHECK(pthread_join(threads[1], NULL) == 0 && pop.outcome == NM_YES && pop.key == 7);
    nm_sleep(100 * MS);
    CHECK(look.outcome == NM_DONE && atomic_load(&sleeps) == before + 1);
    CHECK(nm_pool_insert(pool, NM_ANY, 0, SOON) == NM_YES);
    CHECK(pthread_join(threads[0], NULL) == 0 && look.outcome == NM_YES && look.key == 0);
    end(pool, 1);
}

/* A key of which no pop was told is found by a last look. */
static void a_pop_looks_once_more(void) {
    nm_pool *pool = made(64, 1);
    struct popper popper = {pool, 4000, NM_DONE, 77};
    pthread_t thread;
    uint32_t worker;
    CHECK(nm_pool_attach(pool, &worker, SOON) == NM_DONE);
    CHECK(pthread_create(&thread, NULL, waits_for_a_key, &popper) == 0);
    nm_sleep(100 * MS);
    CHECK(nm_worker_insert(nm_pool_handle(pool, worker), 7, &nm_default_options) == NM_YES);
    CHECK(pthread_join(thread, NULL) == 0 && popper.outcome == NM_YES && popper.key == 7);
    CHECK(nm_pool_detach(pool, &worker, SOON) == NM_DONE);
    nm_pool_free(pool);
}

/* ---- threads that are cancelled ---- */

#ifndef __SANITIZE_ADDRESS__
static uint32_t lent;
static atomic_bool is_over;

static void *closes(void *pool) {
    nm_handle report = NM_CLOSED_HANDLE;
    (void)nm_pool_close(pool, 300, &report, NULL);
    atomic_store(&is_over, true);
    pthread_testcancel();
    return NULL;
}

static void *detaches(void *pool) {
    (void)nm_pool_detach(pool, &lent, SOON);
    pthread_testcancel();
    return NULL;
}

static void *frees(void *pool) {
    nm_pool_free(pool);
    pthread_testcancel();
    return NULL;
}

/* Cancels a thread while its call waits for another one, and then ends that one. A close has failed
 * before, because its time was over. */
static void cancel(void *(*call)(void *), nm_pool *pool, nm_handle *worker) {
    pthread_t thread;
    void *result;
    hold(worker, true);
    CHECK(pthread_create(&thread, NULL, call, pool) == 0);
    nm_sleep(100 * MS);
    CHECK(pthread_cancel(thread) == 0);
    for (int turn = 0; call == closes && !atomic_load(&is_over) && turn < 10000; turn++)
        nm_sleep(1 * MS);
    hold(worker, false);
    CHECK(pthread_join(thread, &result) == 0 && result == PTHREAD_CANCELED);
}

/* A thread that is cancelled in a close, a detach or an end of the pool goes on until that ended,
 * and leaves nothing half done. (The address sanitizer does not know the stack of a thread that was
 * cancelled.) */
static void waiting_threads_are_cancelled(void) {
    nm_pool *pool = made(64, 1);
    nm_handle report = NM_CLOSED_HANDLE;
    CHECK(nm_pool_attach(pool, &lent, SOON) == NM_DONE);
    nm_handle *worker = nm_pool_handle(pool, lent);
    cancel(detaches, pool, worker);
    CHECK(nm_pool_attached(pool) == 0 && lent == NM_NONE);
    fill(pool, 5);
    cancel(closes, pool, worker);
    CHECK(nm_pool_contains(pool, NM_ANY, 4, SOON) == NM_YES);
    end(pool, 5);
    pool = made(64, 2);
    CHECK(nm_pool_attach_number(pool, 0, &lent, SOON) == NM_DONE);
    worker = nm_pool_handle(pool, 0);
    CHECK(nm_pool_detach(pool, &lent, SOON) == NM_DONE);
    CHECK(nm_pool_attach_number(pool, 1, &lent, SOON) == NM_DONE);
    cancel(frees, pool, worker);
    CHECK(nm_pool_insert(pool, lent, 5, SOON) == NM_YES); /* this worker outlives the pool */
    CHECK(nm_pool_end(pool, &lent, &report, SOON) == NM_DONE && nm_drop(&report) == NM_DONE);
}
#endif

int main(void) {
    calls_go_on_beside_a_long_call();
    a_pinned_worker_costs_no_memory();
    calls_end_beside_a_stopped_move();
    refused_calls_lose_nothing(NM_GROWS, FIRST, NM_RADIX, insert_next);
    refused_calls_lose_nothing(64, 20, NM_RADIX, reserve_more);
    refused_calls_lose_nothing(64, 20, NM_UNBALANCED, reserve_more);
    refused_calls_lose_nothing(900, 20, NM_RADIX, shrink);
    uncounted_keys_have_room();
    a_close_waits_for_an_attach();
    a_wake_is_passed_on(false);
    a_look_takes_no_wake();
    a_pop_looks_once_more();
#ifndef __SANITIZE_ADDRESS__
    a_wake_is_passed_on(true);
    waiting_threads_are_cancelled();
#endif
    puts("a pool loses no key and keeps no call, whatever is refused or stopped");
    return 0;
}
