/* For bench/puts: calls that give a map a value, whose instructions valgrind counts. Arguments: the call,
 * how many keys the map has, and how many calls are counted. It prints how many calls did what they
 * should. */
#include "counted.h"
#include "nm_map.h"

#include <string.h>

static nm_handle map = NM_CLOSED_HANDLE;
static _Alignas(64) nm_handle worker = NM_CLOSED_HANDLE;
static uint64_t *keys;

/* valgrind counts what happens in these alone. */
__attribute__((noinline)) int counted_insert(uint64_t key) {
    return nm_map_insert(&worker, key, ~key, &nm_default_options) == NM_YES;
}

__attribute__((noinline)) int counted_put(uint64_t key) {
    uint64_t old;
    return nm_map_put(&worker, key, ~key, &nm_default_options, &old) == NM_INSERTED;
}

__attribute__((noinline)) int counted_replace(uint64_t key) {
    uint64_t old;
    return nm_map_put(&worker, key, ~key, &nm_default_options, &old) == NM_REPLACED && old == ~key;
}

__attribute__((noinline)) int counted_compare(uint64_t key) {
    uint64_t old;
    return nm_map_compare_replace(&worker, key, ~key, ~key, &nm_default_options, &old) == NM_REPLACED;
}

static void ignore(void *unused, uint64_t value) {
    (void)unused;
    (void)value;
}

/* Frees the nodes of earlier calls, if 64 or more wait. */
__attribute__((noinline)) void counted_tend(void) {
    nm_map_tend(&worker, &nm_default_options, NULL, ignore, NULL);
}

static const struct call {
    const char *name;
    int (*make)(uint64_t key);
    int is_of_new_key;
} calls[] = {
    {"insert", counted_insert, 1},
    {"put", counted_put, 1},
    {"replace", counted_replace, 0},
    {"compare", counted_compare, 0},
    {"tend", counted_replace, 0},
};

static const struct call *named(const char *name) {
    for (size_t at = 0; at < sizeof calls / sizeof *calls; at++)
        if (strcmp(calls[at].name, name) == 0) return &calls[at];
    must(0, "there is no such call");
    return NULL;
}

/* Makes a map of random keys, in four times as many nodes. */
static void fill(uint64_t count) {
    keys = malloc(count * sizeof *keys);
    must(keys != NULL, "no memory for the keys");
    must(nm_map_new(&map, (uint32_t)(4 * count + 4096), 1) == NM_DONE, "no memory for the nodes");
    must(nm_map_worker(&map, &worker, 0) == NM_DONE, "no worker");
    for (uint64_t at = 0; at < count; at++) {
        keys[at] = random_key();
        must(nm_map_insert(&worker, keys[at], ~keys[at], &nm_default_options) == NM_YES, "a fill failed");
    }
}

/* Puts a new key in place of one that the map has, and returns it. */
static uint64_t new_key(uint64_t *place) {
    uint64_t unused;
    must(nm_map_remove(&worker, *place, &nm_default_options, &unused) == NM_YES, "a remove failed");
    return *place = random_key();
}

int main(int count, char **words) {
    if (count != 4) return 2;
    const struct call *call = named(words[1]);
    uint64_t size = strtoull(words[2], NULL, 10), counted = strtoull(words[3], NULL, 10), right = 0;
    must(size > 0 && size <= 60000000, "from 1 to 60,000,000 keys");
    fill(size);
    for (uint64_t made = 0; made < counted; made++) {
        uint64_t *place = &keys[next_random() % size];
        right += call->make(call->is_of_new_key ? new_key(place) : *place);
        counted_tend();
    }
    printf("%llu\n", (unsigned long long)right);
    nm_drop(&worker);
    nm_drop(&map);
    free(keys);
    return 0;
}
