/* For bench/values: calls for keys that are there, whose instructions valgrind counts. Arguments: the
 * call, how many keys there are, and how many calls are counted. It prints how many calls found their
 * key, with its value if the call returns one. */
#include "counted.h"
#include "nm_set.h"

#include <string.h>

enum { TOGETHER = 20 }; /* the keys of one call of nm_map_get_many_pinned */

static nm_handle owner = NM_CLOSED_HANDLE;
static _Alignas(64) nm_handle worker = NM_CLOSED_HANDLE;
static uint64_t *keys;

static uint64_t value_of(uint64_t key) { return key ^ 5; }

/* valgrind counts what happens in these alone. */
__attribute__((noinline)) int counted_contains(uint64_t key) {
    return nm_worker_contains(&worker, key, &nm_default_options) == NM_YES;
}

__attribute__((noinline)) int counted_insert(uint64_t key) {
    return nm_worker_insert(&worker, key, &nm_default_options) == NM_NO;
}

__attribute__((noinline)) int counted_get(uint64_t key) {
    uint64_t value;
    return nm_map_get(&worker, key, &nm_default_options, &value) == NM_YES && value == value_of(key);
}

__attribute__((noinline)) int counted_get_pinned(uint64_t key) {
    uint64_t value;
    return nm_map_get_pinned(&worker, key, &value) == NM_YES && value == value_of(key);
}

/* Keeps the key, and looks up all that were kept once there are TOGETHER of them. */
__attribute__((noinline)) int counted_get_many(uint64_t key) {
    static nm_map_lookup lookups[TOGETHER];
    static size_t kept;
    lookups[kept++].key = key;
    if (kept < TOGETHER) return 0;
    int found = nm_map_get_many_pinned(&worker, lookups, TOGETHER) == NM_DONE;
    for (size_t at = 0; at < TOGETHER; at++)
        found = found && lookups[at].found && lookups[at].value == value_of(lookups[at].key);
    kept = 0;
    return found ? TOGETHER : 0;
}

__attribute__((noinline)) int counted_put(uint64_t key) {
    return nm_map_insert(&worker, key, 0, &nm_default_options) == NM_NO;
}

static const struct call {
    const char *name;
    int (*make)(uint64_t key);
    int is_of_map;
    int is_pinned;
} calls[] = {
    {"contains", counted_contains, 0, 0}, {"insert", counted_insert, 0, 0},
    {"get", counted_get, 1, 0},           {"get_pinned", counted_get_pinned, 1, 1},
    {"get_many", counted_get_many, 1, 1}, {"put", counted_put, 1, 0},
};

static const struct call *named(const char *name) {
    for (size_t at = 0; at < sizeof calls / sizeof *calls; at++)
        if (strcmp(calls[at].name, name) == 0) return &calls[at];
    must(0, "there is no such call");
    return NULL;
}

/* Makes a set or a map of random keys, in four times as many nodes. */
static void fill(int is_map, uint64_t count) {
    uint32_t nodes = (uint32_t)(4 * count + 4096);
    must((is_map ? nm_map_new : nm_set_new)(&owner, nodes, 4) == NM_DONE, "no memory for the nodes");
    must((is_map ? nm_map_worker : nm_set_worker)(&owner, &worker, 0) == NM_DONE, "no worker");
    for (uint64_t at = 0; at < count; at++) {
        uint64_t key = keys[at] = random_key();
        int made = is_map ? nm_map_insert(&worker, key, value_of(key), &nm_default_options)
                          : nm_worker_insert(&worker, key, &nm_default_options);
        must(made == NM_YES, "a fill failed");
    }
}

int main(int count, char **words) {
    if (count != 4) return 2;
    const struct call *call = named(words[1]);
    uint64_t size = strtoull(words[2], NULL, 10), counted = strtoull(words[3], NULL, 10), found = 0;
    must(size > 0 && size <= 60000000, "from 1 to 60,000,000 keys");
    keys = malloc(size * sizeof *keys);
    must(keys != NULL, "no memory for the keys");
    fill(call->is_of_map, size);
    uint64_t epoch;
    if (call->is_pinned)
        must(nm_map_pin(&worker, 64, &epoch) == NM_DONE, "the pin was lost");
    for (uint64_t made = 0; made < counted; made++) found += call->make(keys[next_random() % size]);
    printf("%llu\n", (unsigned long long)found);
    if (call->is_pinned) nm_map_unpin(&worker);
    nm_drop(&worker);
    nm_drop(&owner);
    free(keys);
    return 0;
}
