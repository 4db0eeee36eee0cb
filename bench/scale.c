/* Four threads fill a set with many keys, and look up each key and an absent one beside it. Then
 * the set is closed, and its report must have each key once, ascending. Prints the times. The first
 * argument is the number of keys. */
#define _POSIX_C_SOURCE 199309L
#include "holds.h"
#include "nm_set.h"

#include <inttypes.h>
#include <pthread.h>
#include <time.h>

enum { THREADS = 4, LINE = 64 };

/* An odd number: its products by different numbers differ, also without their highest bit, and are
 * scattered, so that the tree is low. */
static const uint64_t SCATTER = UINT64_C(0x9E3779B97F4A7C15);

typedef struct part {
    _Alignas(LINE) nm_handle worker;
    uint64_t first, keys;
} part;

/* An even key for each number, so that no odd one is in the set. */
static uint64_t key_of(uint64_t number) {
    return number * SCATTER << 1;
}

static double now(void) {
    struct timespec at;
    clock_gettime(CLOCK_MONOTONIC, &at);
    return (double)at.tv_sec + (double)at.tv_nsec / 1e9;
}

static void *fill(void *own) {
    part *mine = own;
    for (uint64_t i = 0; i < mine->keys; i++)
        CHECK(nm_worker_insert(&mine->worker, key_of(mine->first + i * THREADS), &nm_default_options) ==
              NM_YES);
    return NULL;
}

static void *look(void *own) {
    part *mine = own;
    for (uint64_t i = 0; i < mine->keys; i++) {
        uint64_t key = key_of(mine->first + i * THREADS);
        CHECK(nm_worker_contains(&mine->worker, key, &nm_default_options) == NM_YES);
        CHECK(nm_worker_contains(&mine->worker, key + 1, &nm_default_options) == NM_NO);
    }
    return NULL;
}

static double together(part *parts, void *(*work)(void *)) {
    pthread_t threads[THREADS];
    double begun = now();
    for (int i = 0; i < THREADS; i++)
        CHECK(pthread_create(&threads[i], NULL, work, &parts[i]) == 0);
    for (int i = 0; i < THREADS; i++) CHECK(pthread_join(threads[i], NULL) == 0);
    return now() - begun;
}

/* So many even keys, each once. */
static uint64_t reported(nm_handle *report, uint64_t keys) {
    uint64_t count = 0, last = 0, key = 0;
    CHECK(nm_report_keys(report, &count) == NM_DONE && count == keys);
    for (uint64_t i = 0; i < count; i++) {
        CHECK(nm_report_key(report, i, &key) == NM_DONE && (i == 0 || last < key) && key % 2 == 0);
        last = key;
    }
    return count;
}

int main(int count, char **words) {
    static part parts[THREADS];
    nm_handle set = NM_CLOSED_HANDLE;
    uint64_t keys = count == 2 ? strtoull(words[1], NULL, 10) : 0;
    CHECK(keys >= THREADS && keys <= 60000000);
    double begun = now();
    CHECK(nm_set_new(&set, (uint32_t)(2 * keys + 4096), 64) == NM_DONE);
    printf("made in %.2f seconds\n", now() - begun);
    for (int i = 0; i < THREADS; i++) {
        parts[i] = (part){.worker = NM_CLOSED_HANDLE, .first = (uint64_t)i, .keys = keys / THREADS};
        CHECK(nm_set_attach(&set, &parts[i].worker) == NM_DONE);
    }
    double filled = together(parts, fill), looked = together(parts, look);
    printf("filled in %.2f seconds, %.2f million keys a second\n", filled,
        (double)keys / filled / 1e6);
    printf("looked up in %.2f seconds, %.2f million look-ups a second\n", looked,
        2 * (double)keys / looked / 1e6);
    for (int i = 0; i < THREADS; i++) CHECK(nm_drop(&parts[i].worker) == NM_DONE);
    begun = now();
    CHECK(nm_set_close(&set) == NM_DONE);
    printf("closed in %.2f seconds\n", now() - begun);
    printf("%" PRIu64 " keys in the report\n", reported(&set, keys / THREADS * THREADS));
    CHECK(nm_drop(&set) == NM_DONE);
    return 0;
}
