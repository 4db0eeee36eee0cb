/* Tests the calls of nm_map.h that read several keys, count them and know of forks. Ranges are read
 * in both directions with each room, from each key and up to each bound. */
#include "holds.h"
#include "nm_map.h"

#include <stdio.h>
#include <sys/wait.h>
#include <unistd.h>

#define MOST_KEY (UINT64_MAX - 3)

enum { KEYS = 10, SPAN = 3 * KEYS + 3 };

static const nm_options none = {0, 3, 64}, many = {1, 64, 64};

/* Makes a map with the keys 3, 6 and so on, each with a value, and attaches a worker. */
static void make(nm_handle *map, nm_handle *worker) {
    *map = *worker = (nm_handle)NM_CLOSED_HANDLE;
    CHECK(nm_map_new(map, 256, 2) == NM_DONE && nm_map_attach(map, worker) == NM_DONE);
    for (uint64_t key = 3; key <= 3 * KEYS; key += 3)
        CHECK(nm_map_insert(worker, key, 100 * key, &nm_default_options) == NM_YES);
}

static void end(nm_handle *map, nm_handle *worker) {
    CHECK(nm_drop(worker) == NM_DONE && nm_drop(map) == NM_DONE);
}

static void the_nearest_keys_are_found(void) {
    nm_handle map, worker;
    uint64_t key, value;
    make(&map, &worker);
    for (uint64_t from = 0; from < SPAN; from++) {
        nm_outcome above = nm_map_at_least(&worker, from, &nm_default_options, &key, &value);
        CHECK(above == (from <= 3 * KEYS ? NM_YES : NM_NO));
        CHECK(above == NM_NO || (key == (from < 3 ? 3 : (from + 2) / 3 * 3) && value == 100 * key));
        nm_outcome below = nm_map_at_most(&worker, from, &nm_default_options, &key, &value);
        CHECK(below == (from >= 3 ? NM_YES : NM_NO));
        CHECK(below == NM_NO ||
              (key == (from > 3 * KEYS ? 3 * KEYS : from / 3 * 3) && value == 100 * key));
    }
    CHECK(nm_map_at_least(&worker, UINT64_MAX, &many, &key, &value) == NM_KEY);
    CHECK(nm_map_at_least(&worker, 0, &none, &key, &value) == NM_YES && key == 3);
    CHECK(nm_map_at_most(&map, 0, &many, &key, &value) == NM_KIND);
    end(&map, &worker);
}

/* Reads a range in blocks of a room. Returns a bit for each third key that was read, in order. */
static uint64_t read_keys(nm_handle *worker, uint64_t from, uint64_t below, size_t room,
                          int is_back) {
    uint64_t keys[SPAN], mask = 0;
    nm_outcome outcome = NM_YES;
    while (outcome == NM_YES) {
        size_t count = SPAN;
        outcome =
            is_back ? nm_map_read_keys_back(worker, from, below, keys, room, &count, &below, &many)
                    : nm_map_read_keys(worker, from, below, keys, room, &count, &from, &many);
        CHECK(outcome >= 0 && count <= room);
        for (size_t at = 0; at < count; at++) {
            CHECK(keys[at] % 3 == 0 && (mask & (uint64_t)1 << keys[at] / 3) == 0);
            CHECK(mask == 0 || (mask >> keys[at] / 3 == 0) != is_back);
            mask |= (uint64_t)1 << keys[at] / 3;
        }
    }
    return mask;
}

/* Does the same with values. */
static uint64_t read_entries(nm_handle *worker, uint64_t from, uint64_t below, size_t room,
                             int is_back) {
    nm_entry entries[SPAN];
    uint64_t mask = 0;
    nm_outcome outcome = NM_YES;
    while (outcome == NM_YES) {
        size_t count = SPAN;
        outcome = is_back ? nm_map_read_entries_back(worker, from, below, entries, room, &count,
                                                     &below, &many)
                          : nm_map_read_entries(worker, from, below, entries, room, &count, &from,
                                                &many);
        CHECK(outcome >= 0 && count <= room);
        for (size_t at = 0; at < count; at++) {
            uint64_t key = entries[at].key;
            CHECK(entries[at].value == 100 * key && key % 3 == 0);
            CHECK(mask == 0 || (mask >> key / 3 == 0) != is_back);
            mask |= (uint64_t)1 << key / 3;
        }
    }
    return mask;
}

static void ranges_are_read(void) {
    nm_handle map, worker;
    make(&map, &worker);
    for (uint64_t from = 0; from < SPAN; from++)
        for (uint64_t below = 0; below < SPAN; below++) {
            uint64_t wanted = 0, count = 0, keys = 0;
            for (uint64_t key = 3; key <= 3 * KEYS; key += 3)
                if (from <= key && key < below) wanted |= (uint64_t)1 << key / 3, keys++;
            for (size_t room = 1; room <= KEYS + 2; room++)
                for (int is_back = 0; is_back <= 1; is_back++) {
                    CHECK(read_keys(&worker, from, below, room, is_back) == wanted);
                    CHECK(read_entries(&worker, from, below, room, is_back) == wanted);
                }
            CHECK(nm_map_count(&worker, from, below, &count, &many) == NM_DONE && count == keys);
        }
    end(&map, &worker);
}

static void the_ends_of_the_keys_are_read(void) {
    nm_handle map, worker;
    nm_entry entries[4];
    uint64_t keys[4], next = 7, count = 0;
    size_t read = 4;
    make(&map, &worker);
    CHECK(nm_map_insert(&worker, 0, 1, &many) == NM_YES);
    CHECK(nm_map_insert(&worker, MOST_KEY, 2, &many) == NM_YES);
    CHECK(nm_map_read_keys(&worker, 31, UINT64_MAX, keys, 1, &read, &next, &many) >= 0);
    CHECK(read == 1 && keys[0] == MOST_KEY);
    CHECK(nm_map_read_entries(&worker, 31, UINT64_MAX, entries, 1, &read, &next, &many) == NM_NO);
    CHECK(read == 1 && entries[0].key == MOST_KEY && entries[0].value == 2);
    CHECK(nm_map_read_entries_back(&worker, 0, 3, entries, 1, &read, &next, &many) == NM_NO);
    CHECK(read == 1 && entries[0].key == 0 && entries[0].value == 1);
    CHECK(nm_map_read_keys_back(&worker, 0, UINT64_MAX, keys, 1, &read, &next, &many) == NM_YES);
    CHECK(read == 1 && keys[0] == MOST_KEY && 30 < next && next <= MOST_KEY);
    CHECK(nm_map_read_keys(&worker, UINT64_MAX, UINT64_MAX, keys, 1, &read, &next, &many) == NM_NO);
    CHECK(read == 0);
    CHECK(nm_map_count(&worker, 0, UINT64_MAX, &count, &many) == NM_DONE && count == 12);
    CHECK(nm_map_read_keys(&worker, 0, 5, NULL, 0, &read, &next, &many) == NM_YES && next <= 3);
    CHECK(nm_map_read_entries(&worker, 0, 5, NULL, 0, &read, &next, &many) == NM_YES && next <= 3);
    CHECK(nm_map_read_keys_back(&worker, 0, 5, NULL, 0, &read, &next, &many) == NM_YES && 3 < next);
    CHECK(nm_map_read_entries_back(&worker, 0, 5, NULL, 0, &read, &next, &many) == NM_YES);
    CHECK(read == 0 && 3 < next);
    end(&map, &worker);
}

static void several_keys_are_looked_up(void) {
    nm_handle map, worker;
    nm_map_lookup lookups[SPAN * 5];
    uint64_t epoch;
    make(&map, &worker);
    for (size_t at = 0; at < SPAN * 5; at++) lookups[at] = (nm_map_lookup){at % SPAN, 7, 7};
    CHECK(nm_map_get_many_pinned(&worker, lookups, 1) == NM_NOT_PINNED);
    CHECK(nm_map_get_many(&worker, lookups, SPAN * 5, &many) == NM_DONE);
    for (size_t at = 0; at < SPAN * 5; at++) {
        uint64_t key = at % SPAN;
        CHECK(lookups[at].key == key);
        CHECK(lookups[at].found == (key % 3 == 0 && key > 0 && key <= 3 * KEYS));
        CHECK(lookups[at].value == (lookups[at].found ? 100 * key : 0));
    }
    CHECK(nm_map_hold(&worker, &many, &epoch) == NM_DONE);
    CHECK(nm_map_get_many(&worker, lookups, 3, &many) == NM_PINNED);
    CHECK(nm_map_get_many_pinned(&worker, lookups + 3, 1) == NM_DONE && lookups[3].value == 300);
    CHECK(nm_map_get_many_pinned(&worker, lookups, 0) == NM_DONE);
    lookups[0] = (nm_map_lookup){3, 7, 7}, lookups[1] = (nm_map_lookup){UINT64_MAX, 7, 7};
    CHECK(nm_map_get_many_pinned(&worker, lookups, 2) == NM_KEY);
    CHECK(lookups[0].found == 7 && lookups[0].value == 7 && lookups[1].found == 7);
    lookups[0].key = UINT64_MAX;
    CHECK(nm_map_unpin(&worker) == NM_DONE);
    CHECK(nm_map_get_many(&worker, lookups, 1, &many) == NM_KEY);
    CHECK(nm_map_unpin(&worker) == NM_NOT_PINNED);
    CHECK(nm_map_get_many(&worker, NULL, 0, &many) == NM_DONE);
    end(&map, &worker);
}

static void keys_are_counted(void) {
    nm_map_counts *counts = NULL;
    CHECK(nm_map_counts_new(&counts, 64, 0) == NM_WORKERS);
    CHECK(nm_map_counts_new(&counts, 64, 65) == NM_WORKERS);
    CHECK(nm_map_counts_new(&counts, 64, 2) == NM_DONE && nm_map_counts_keys(counts) == 0);
    nm_map_count_insert(counts, 0, NM_YES);
    nm_map_count_insert(counts, 1, NM_YES);
    nm_map_count_insert(counts, 1, NM_YES);
    nm_map_count_insert(counts, 1, NM_NO);
    nm_map_count_insert(counts, 1, NM_FULL);
    nm_map_count_insert(counts, 2, NM_YES); /* there is no worker 2 */
    CHECK(nm_map_counts_keys(counts) == 3);
    nm_map_count_remove(counts, 0, NM_YES);
    nm_map_count_remove(counts, 0, NM_UNFINISHED);
    nm_map_count_remove(counts, 0, NM_NO);
    nm_map_count_remove(counts, 0, NM_BUSY);
    CHECK(nm_map_counts_keys(counts) == 1);
    nm_map_count_remove(counts, 0, NM_YES);
    nm_map_count_remove(counts, 0, NM_YES);
    CHECK(nm_map_counts_keys(counts) == 0); /* the insert is counted later */
    nm_map_counts_free(counts);
    nm_map_counts_free(NULL);
}

static void a_child_is_known(void) {
    nm_map_counts *counts = NULL, *own = NULL;
    int status = 0;
    CHECK(nm_map_counts_new(&counts, 64, 1) == NM_DONE && !nm_map_is_forked(counts));
    pid_t child = fork();
    if (child == 0) {
        int is_known = nm_map_is_forked(counts) && nm_map_counts_new(&own, 64, 1) == NM_DONE &&
                       !nm_map_is_forked(own);
        nm_map_counts_free(counts); /* which does nothing */
        nm_map_counts_free(own);
        _exit(is_known && nm_map_is_forked(counts) ? 0 : 1);
    }
    CHECK(waitpid(child, &status, 0) == child && WIFEXITED(status) && WEXITSTATUS(status) == 0);
    CHECK(!nm_map_is_forked(counts));
    nm_map_counts_free(counts);
}

int main(void) {
    the_nearest_keys_are_found();
    ranges_are_read();
    the_ends_of_the_keys_are_read();
    several_keys_are_looked_up();
    keys_are_counted();
    a_child_is_known();
    puts("ranges of a map are read and counted");
    return 0;
}
