/* Measures how much stack the calls take. It makes each call in a thread of its own, on a painted
 * stack. Fails if a call takes more than the headers say, 16 kilobytes, or crashes in a thread with a
 * stack of that size. What the thread itself takes is included. */
#define _POSIX_C_SOURCE 200809L

#include "holds.h"
#include "nm_pool.h"

#include <pthread.h>
#include <string.h>

enum { KILO = 1024, STACK = 1024 * KILO, MOST = 16 * KILO, PAINT = 0xA5 };

static nm_handle set, worker, other, map, map_worker;
static uint64_t word;
static uint32_t number;

static void make(void) { CHECK(nm_set_new(&set, 1000, 3) == NM_DONE); }
static void make_near(void) { CHECK(nm_set_new_unbalanced(&set, 1000, 3) == NM_DONE); }
static void make_lowest(void) { CHECK(nm_set_new_first_fit(&set, 1000, 3) == NM_DONE); }
static void attach(void) { CHECK(nm_set_attach(&set, &worker) == NM_DONE); }
static void take(void) { CHECK(nm_set_worker(&set, &other, 2) == NM_DONE); }
static void away(void) { CHECK(nm_set_attached(&set, 0) == NM_YES); }
static void resign(void) { CHECK(nm_worker_resign(&worker, 1) == NM_DONE); }
static void drop(void) { CHECK(nm_drop(&worker) == NM_DONE); }
static void drop_other(void) { CHECK(nm_drop(&other) == NM_DONE); }
static void drop_set(void) { CHECK(nm_drop(&set) == NM_DONE); }
static void close_set(void) { CHECK(nm_set_close(&set) == NM_DONE); }
static void end(void) { CHECK(nm_worker_end(&worker) == NM_DONE); }
static void drop_report(void) { CHECK(nm_drop(&worker) == NM_DONE); }

static void insert(void) {
    for (uint64_t key = 0; key < 300; key++)
        CHECK(nm_worker_insert(&worker, key, &nm_default_options) == NM_YES);
}
static void contains(void) { CHECK(nm_worker_contains(&worker, 7, &nm_default_options) == NM_YES); }
static void next(void) { CHECK(nm_worker_next(&worker, 7, 64, &word) == NM_YES); }
static void prev(void) { CHECK(nm_worker_prev(&worker, 7, 64, &word) == NM_YES); }
static void many(void) {
    nm_lookup lookups[64];
    for (uint64_t key = 0; key < 64; key++) lookups[key].key = key;
    CHECK(nm_worker_contains_many(&worker, lookups, 64, 64) == NM_DONE);
}
static void scan(void) {
    uint64_t keys[64], count, next;
    CHECK(nm_worker_scan(&worker, 0, UINT64_MAX, keys, 64, &count, &next, 64) == NM_YES &&
          nm_worker_scan_back(&worker, 299, 0, keys, 64, &count, &next, 64) == NM_YES);
}
static void take_keys(void) {
    for (uint64_t key = 0; key < 100; key++) {
        CHECK(nm_worker_remove(&worker, 100 + key, &nm_default_options) == NM_YES);
        CHECK(nm_worker_pop_first(&worker, &nm_default_options, &word) == NM_YES);
    }
    CHECK(nm_worker_pop_last(&worker, &nm_default_options, &word) == NM_YES);
}
static void move(void) {
    CHECK(nm_worker_advance(&worker, &word, &number) == NM_DONE);
    CHECK(nm_worker_collect(&worker, &word, &word) == NM_DONE);
    CHECK(nm_worker_behind(&worker, &word, &word) == NM_DONE);
    CHECK(nm_worker_pin(&worker, 64, &word) == NM_DONE && nm_worker_unpin(&worker) == NM_DONE);
}

static void make_map(void) { CHECK(nm_map_new(&map, 1000, 3) == NM_DONE); }
static void attach_map(void) { CHECK(nm_map_attach(&map, &map_worker) == NM_DONE); }
static void drop_map_worker(void) { CHECK(nm_drop(&map_worker) == NM_DONE); }
static void take_map(void) { CHECK(nm_map_worker(&map, &map_worker, 1) == NM_DONE); }
static void map_away(void) { CHECK(nm_map_attached(&map, 1) == NM_NO); }
static void close_map(void) { CHECK(nm_map_close(&map) == NM_DONE && nm_drop(&map) == NM_DONE); }
static void insert_values(void) {
    for (uint64_t key = 0; key < 300; key++)
        CHECK(nm_map_insert(&map_worker, key, key, &nm_default_options) == NM_YES);
}
static void get_values(void) {
    uint64_t keys[64], count, next;
    nm_entry entries[64];
    nm_map_lookup lookups[64];
    for (uint64_t key = 0; key < 64; key++) lookups[key].key = key;
    CHECK(nm_map_get(&map_worker, 7, &nm_default_options, &word) == NM_YES);
    CHECK(nm_map_pin(&map_worker, 64, &word) == NM_DONE &&
          nm_map_get_pinned(&map_worker, 7, &word) == NM_YES &&
          nm_map_get_many_pinned(&map_worker, lookups, 64) == NM_DONE &&
          nm_map_unpin(&map_worker) == NM_DONE);
    CHECK(nm_map_scan(&map_worker, 0, UINT64_MAX, keys, 64, &count, &next, 64) == NM_YES &&
          nm_map_scan_back(&map_worker, 299, 0, keys, 64, &count, &next, 64) == NM_YES);
    CHECK(nm_map_scan_entries(&map_worker, 0, 999, entries, 64, &count, &next, 64) == NM_YES &&
          nm_map_scan_entries_back(&map_worker, 299, 0, entries, 64, &count, &next, 64) == NM_YES);
}
static void put_values(void) {
    for (uint64_t key = 0; key < 100; key++)
        CHECK(nm_map_put(&map_worker, key, 7, &nm_default_options, &word) == NM_REPLACED &&
              nm_map_replace(&map_worker, key, 8, &nm_default_options, &word) == NM_REPLACED &&
              nm_map_compare_replace(&map_worker, key, 8, 9, &nm_default_options, &word) ==
                  NM_REPLACED);
}
static void take_values(void) {
    uint64_t values[64];
    for (uint64_t key = 0; key < 200; key++)
        CHECK(nm_map_remove(&map_worker, key, &nm_default_options, &word) == NM_YES);
    CHECK(nm_map_pop_last(&map_worker, &nm_default_options, values, &word) == NM_YES &&
          nm_map_next(&map_worker, 0, 64, values, &word) == NM_YES);
    CHECK(nm_map_reclaim(&map_worker, values, 64, &word, &number) == NM_DONE && word == 64);
}

/* ---- calls of a pool, each by a worker that was not used before, if there is one ---- */

static nm_pool *pool;

static void make_pool(void) { CHECK(nm_pool_new(&pool, NM_GROWS, NULL) == NM_DONE); }
static void find_first(void) { CHECK(nm_pool_contains(pool, NM_ANY, 7, 1000) == NM_NO); }
static void grow(void) {
    uint64_t nodes = nm_pool_nodes(pool);
    for (uint64_t key = 0; nm_pool_nodes(pool) == nodes; key++)
        CHECK(nm_pool_insert(pool, NM_ANY, key, 1000) == NM_YES);
}
static void insert_some(void) {
    static const uint64_t keys[70] = {1u << 30};
    unsigned char answers[70];
    size_t done;
    CHECK(nm_pool_insert_many(pool, NM_ANY, keys, 70, answers, &done, 1000) == NM_DONE);
}
static void count_keys(void) {
    CHECK(nm_pool_count(pool, NM_ANY, 0, UINT64_MAX, &word, 1000) == NM_DONE);
}
static void wait_for_first(void) {
    CHECK(nm_pool_wait_first(pool, NM_ANY, UINT64_MAX, &word, 1000) == NM_YES);
}
static void wait_and_pop(void) {
    CHECK(nm_pool_wait_pop(pool, NM_ANY, UINT64_MAX, &word, 1000) == NM_YES);
}
static void change_sizes(void) {
    CHECK(nm_pool_reserve(pool, 30000, 1000, NULL) == NM_DONE);
    CHECK(nm_pool_shrink_to_fit(pool, 1000, NULL) == NM_DONE);
}
static void attach_and_detach(void) {
    CHECK(nm_pool_attach_number(pool, 63, &number, 1000) == NM_DONE);
    CHECK(nm_pool_detach(pool, &number, 1000) == NM_DONE);
}
static void end_pool(void) {
    nm_handle report = NM_CLOSED_HANDLE;
    CHECK(nm_pool_close(pool, 1000, &report, NULL) == NM_DONE && nm_drop(&report) == NM_DONE);
    nm_pool_free(pool);
}

typedef struct call {
    const char *name;
    void (*make)(void);
} call;

static const call calls[] = {
    {"nm_set_new_unbalanced", make_near}, {"nm_drop of a set", drop_set},
    {"nm_set_new_first_fit", make_lowest}, {"nm_set_close", close_set},
    {"nm_drop of a report", drop_set}, {"nm_set_new", make}, {"nm_set_attach", attach},
    {"nm_set_worker", take}, {"nm_set_attached", away}, {"nm_worker_insert", insert},
    {"nm_worker_contains", contains}, {"nm_worker_next", next}, {"nm_worker_prev", prev},
    {"nm_worker_contains_many", many}, {"scans", scan}, {"removes and pops", take_keys},
    {"calls on the epoch", move}, {"nm_worker_resign", resign}, {"nm_drop of a worker", drop},
    {"nm_set_attach again", attach}, {"nm_drop of the other", drop_other},
    {"nm_drop of its set", drop_set}, {"nm_worker_end", end},
    {"nm_drop of its report", drop_report}, {"nm_map_new", make_map}, {"nm_map_attach", attach_map},
    {"nm_map_insert", insert_values}, {"values and keys", get_values},
    {"replaced values", put_values}, {"values that come back", take_values},
    {"nm_drop of a map's worker", drop_map_worker},
    {"nm_map_attached", map_away}, {"nm_map_worker", take_map},
    {"nm_drop of it again", drop_map_worker}, {"nm_map_close", close_map},
    {"nm_pool_new", make_pool}, {"nm_pool_contains", find_first},
    {"nm_pool_insert, a growth", grow}, {"nm_pool_insert_many", insert_some},
    {"nm_pool_count", count_keys}, {"nm_pool_wait_first", wait_for_first},
    {"nm_pool_wait_pop", wait_and_pop},
    {"changes of the size", change_sizes}, {"attach and detach", attach_and_detach},
    {"the end of a pool", end_pool},
};

static void *made(void *which) {
    ((const call *)which)->make();
    return NULL;
}

/* Makes a call in a thread with this stack. */
static void run_on(const call *which, void *stack, size_t size) {
    pthread_attr_t attributes;
    pthread_t thread;
    call copy = *which;
    CHECK(pthread_attr_init(&attributes) == 0 &&
          pthread_attr_setstack(&attributes, stack, size) == 0 &&
          pthread_create(&thread, &attributes, made, &copy) == 0);
    CHECK(pthread_join(thread, NULL) == 0 && pthread_attr_destroy(&attributes) == 0);
}

int main(void) {
    static _Alignas(4096) unsigned char stack[STACK];
    for (size_t at = 0; at < sizeof calls / sizeof *calls; at++) {
        size_t unused = 0;
        memset(stack, PAINT, STACK);
        run_on(&calls[at], stack, STACK);
        while (unused < STACK && stack[unused] == PAINT) unused++;
        printf("%-24s %6zu bytes of stack\n", calls[at].name, STACK - unused);
        fflush(stdout);
        CHECK(unused > 0 && STACK - unused <= MOST);
    }
    make();
    run_on(&(call){"nm_set_attach", attach}, stack + STACK - MOST, MOST);
    run_on(&(call){"nm_worker_insert", insert}, stack + STACK - MOST, MOST);
    CHECK(nm_drop(&worker) == NM_DONE && nm_drop(&set) == NM_DONE);
    return 0;
}
