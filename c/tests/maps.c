/* Tests the map. One thread meets each function, and each outcome that it can meet if no memory is
 * refused. Then threads insert, read, remove and reclaim pointers: each value comes back once, and
 * not while a pinned thread may read it. */
#include "holds.h"
#include "nm_set.h"

#include <inttypes.h>
#include <pthread.h>
#include <sched.h>
#include <stdatomic.h>
#include <stdbool.h>
#include <stdio.h>
#include <stdlib.h>

enum { TRIES = 64, NOT_WRITTEN = 77, ROOM = 32 };

static const nm_options *const usual = &nm_default_options;

/* Checks that each call for a key returns the wanted outcome, and writes nothing. */
static void each_call_tells(nm_handle *worker, uint64_t key, nm_outcome wanted) {
    uint64_t value = NOT_WRITTEN, keys[2] = {NOT_WRITTEN, NOT_WRITTEN};
    uint64_t count = NOT_WRITTEN, next = NOT_WRITTEN;
    nm_entry entry = {NOT_WRITTEN, NOT_WRITTEN};
    CHECK(nm_map_get(worker, key, usual, &value) == wanted &&
          nm_map_insert(worker, key, 1, usual) == wanted &&
          nm_map_get_or_insert(worker, key, 1, usual, &value) == wanted &&
          nm_map_remove(worker, key, usual, &value) == wanted);
    CHECK(nm_map_put(worker, key, 1, usual, &value) == wanted &&
          nm_map_replace(worker, key, 1, usual, &value) == wanted &&
          nm_map_compare_replace(worker, key, 500, 1, usual, &value) == wanted);
    CHECK(nm_map_next(worker, key, TRIES, &next, &value) == wanted &&
          nm_map_prev(worker, key, TRIES, &next, &value) == wanted);
    CHECK(nm_map_scan(worker, key, UINT64_MAX, keys, 2, &count, &next, TRIES) == wanted &&
          nm_map_scan_back(worker, key, 0, keys, 2, &count, &next, TRIES) == wanted);
    CHECK(nm_map_scan_entries(worker, key, UINT64_MAX, &entry, 1, &count, &next, TRIES) == wanted &&
          nm_map_scan_entries_back(worker, key, 0, &entry, 1, &count, &next, TRIES) == wanted);
    CHECK(value == NOT_WRITTEN && keys[0] == NOT_WRITTEN && keys[1] == NOT_WRITTEN &&
          count == NOT_WRITTEN && next == NOT_WRITTEN && entry.key == NOT_WRITTEN &&
          entry.value == NOT_WRITTEN);
}

/* Checks that each call that pops a key returns the wanted outcome, and writes nothing. */
static void each_pop_tells(nm_handle *worker, const nm_options *options, nm_outcome wanted) {
    uint64_t key = NOT_WRITTEN, value = NOT_WRITTEN;
    CHECK(nm_map_pop_first(worker, options, &key, &value) == wanted &&
          nm_map_pop_last(worker, options, &key, &value) == wanted &&
          nm_map_pop_first_below(worker, UINT64_MAX, options, &key, &value) == wanted &&
          nm_map_pop_last_from(worker, 0, options, &key, &value) == wanted);
    CHECK(key == NOT_WRITTEN && value == NOT_WRITTEN);
}

/* Checks that each call on a worker of a map returns the wanted outcome, and writes nothing. */
static void no_worker_of_a_map(nm_handle *handle, nm_outcome wanted) {
    uint64_t wide = NOT_WRITTEN, values[2] = {NOT_WRITTEN, NOT_WRITTEN};
    uint32_t narrow = NOT_WRITTEN;
    nm_map_lookup lookup = {5, NOT_WRITTEN, NOT_WRITTEN};
    each_call_tells(handle, 5, wanted);
    each_pop_tells(handle, usual, wanted);
    CHECK(nm_map_reclaim(handle, values, 2, &wide, &narrow) == wanted);
    CHECK(nm_map_pin(handle, TRIES, &wide) == wanted && nm_map_unpin(handle) == wanted &&
          nm_map_get_pinned(handle, 5, &wide) == wanted &&
          nm_map_get_many_pinned(handle, &lookup, 1) == wanted);
    CHECK(nm_map_number(handle, &narrow) == wanted && nm_map_queue_len(handle, &wide) == wanted &&
          nm_map_pending(handle, &wide) == wanted);
    CHECK(wide == NOT_WRITTEN && narrow == NOT_WRITTEN && values[0] == NOT_WRITTEN &&
          values[1] == NOT_WRITTEN);
    CHECK(lookup.key == 5 && lookup.found == NOT_WRITTEN && lookup.value == NOT_WRITTEN);
}

/* Checks that each call on a map returns the wanted outcome, and opens no handle. */
static void no_map(nm_handle *handle, nm_outcome wanted) {
    nm_handle worker = NM_CLOSED_HANDLE;
    CHECK(nm_map_worker(handle, &worker, 0) == wanted && nm_map_attach(handle, &worker) == wanted);
    CHECK(nm_map_attached(handle, 0) == wanted && nm_map_close(handle) == wanted);
    CHECK(worker.at == NULL && worker.in_use == 0);
}

/* Reclaims, with this much room, and checks how many values come back and which worker holds the
 * epoch back. */
static void comes_back(nm_handle *worker, uint64_t *values, size_t room, uint64_t wanted,
                       uint32_t holder) {
    uint64_t count = NOT_WRITTEN;
    uint32_t behind = NOT_WRITTEN;
    CHECK(nm_map_reclaim(worker, values, room, &count, &behind) == NM_DONE);
    CHECK(count == wanted && behind == holder);
}

static void sizes(void) {
    nm_handle map = NM_CLOSED_HANDLE;
    CHECK(nm_map_new(&map, 6, 65) == NM_NODES && nm_map_new(&map, 268435457, 1) == NM_NODES);
    CHECK(nm_map_new(&map, 7, 0) == NM_WORKERS && nm_map_new(&map, 7, 65) == NM_WORKERS);
    CHECK(map.at == NULL && nm_map_new(&map, 7, 64) == NM_DONE);
    CHECK(nm_map_new(&map, 7, 64) == NM_OPEN && nm_set_new(&map, 7, 64) == NM_OPEN);
    CHECK(nm_drop(&map) == NM_DONE && nm_drop(&map) == NM_CLOSED && map.at == NULL);
}

/* A key has the value that it was inserted with, and keeps it. */
static void answers(void) {
    nm_handle map = NM_CLOSED_HANDLE, worker = NM_CLOSED_HANDLE;
    uint64_t value = NOT_WRITTEN;
    CHECK(nm_map_new(&map, 64, 2) == NM_DONE && nm_map_worker(&map, &worker, 1) == NM_DONE);
    CHECK(nm_map_get(&worker, 5, usual, &value) == NM_NO &&
          nm_map_remove(&worker, 5, usual, &value) == NM_NO && value == NOT_WRITTEN);
    CHECK(nm_map_insert(&worker, 5, 500, usual) == NM_YES &&
          nm_map_insert(&worker, 5, 501, usual) == NM_NO);
    CHECK(nm_map_get(&worker, 5, usual, &value) == NM_YES && value == 500);
    CHECK(nm_map_insert(&worker, 0, UINT64_MAX, usual) == NM_YES &&
          nm_map_insert(&worker, UINT64_MAX - 3, 0, usual) == NM_YES);
    CHECK(nm_map_get(&worker, 0, usual, &value) == NM_YES && value == UINT64_MAX);
    CHECK(nm_map_get(&worker, UINT64_MAX - 3, usual, &value) == NM_YES && value == 0);
    CHECK(nm_map_remove(&worker, 5, usual, &value) == NM_YES && value == 500);
    CHECK(nm_map_get(&worker, 5, usual, &value) == NM_NO && value == 500);
    CHECK(nm_map_insert(&worker, 5, 502, usual) == NM_YES &&
          nm_map_get(&worker, 5, usual, &value) == NM_YES && value == 502);
    each_call_tells(&worker, UINT64_MAX - 2, NM_KEY);
    CHECK(nm_map_get_pinned(&worker, UINT64_MAX - 2, &value) == NM_KEY && value == 502);
    CHECK(nm_drop(&map) == NM_DONE && nm_map_get(&worker, 5, usual, &value) == NM_YES &&
          nm_drop(&worker) == NM_DONE);
}

/* The neighbours of a key come with their values, and so do keys that are popped. */
static void entries(void) {
    const nm_options none = {0, 0, 64};
    nm_handle map = NM_CLOSED_HANDLE, worker = NM_CLOSED_HANDLE;
    uint64_t key = NOT_WRITTEN, value = NOT_WRITTEN, back[4];
    CHECK(nm_map_new(&map, 64, 1) == NM_DONE && nm_map_attach(&map, &worker) == NM_DONE);
    each_pop_tells(&worker, usual, NM_NO);
    each_pop_tells(&worker, &none, NM_BUSY);
    CHECK(nm_map_get_or_insert(&worker, 5, 50, usual, &value) == NM_YES && value == NOT_WRITTEN);
    CHECK(nm_map_get_or_insert(&worker, 5, 51, usual, &value) == NM_NO && value == 50);
    for (uint64_t each = 6; each < 9; each++)
        CHECK(nm_map_insert(&worker, each, 10 * each, usual) == NM_YES);
    CHECK(nm_map_next(&worker, 0, TRIES, &key, &value) == NM_YES && key == 5 && value == 50);
    CHECK(nm_map_prev(&worker, 7, TRIES, &key, &value) == NM_YES && key == 7 && value == 70);
    CHECK(nm_map_next(&worker, 9, TRIES, &key, &value) == NM_NO &&
          nm_map_prev(&worker, 4, TRIES, &key, &value) == NM_NO && key == 7 && value == 70);
    CHECK(nm_map_pop_first_below(&worker, 5, usual, &key, &value) == NM_NO &&
          nm_map_pop_last_from(&worker, 9, usual, &key, &value) == NM_NO && key == 7);
    CHECK(nm_map_pop_first(&worker, usual, &key, &value) == NM_YES && key == 5 && value == 50);
    CHECK(nm_map_pop_last(&worker, usual, &key, &value) == NM_YES && key == 8 && value == 80);
    CHECK(nm_map_pop_first_below(&worker, 7, usual, &key, &value) == NM_YES && key == 6 &&
          value == 60);
    CHECK(nm_map_pop_last_from(&worker, 7, usual, &key, &value) == NM_YES && key == 7 &&
          value == 70);
    comes_back(&worker, back, 4, 4, NM_NOBODY);
    CHECK(back[0] == 50 && back[1] == 80 && back[2] == 60 && back[3] == 70);
    CHECK(nm_drop(&worker) == NM_DONE && nm_drop(&map) == NM_DONE);
}

/* Checks that the entries are those of `count` keys, from `first` on, each `step` further than the
 * previous one, and that the value of each key is ten times the key. */
static void are_entries(const nm_entry *entries, uint64_t count, uint64_t first, int step) {
    for (uint64_t i = 0; i < count; i++) {
        const uint64_t key = first + i * (uint64_t)step;
        CHECK(entries[i].key == key && entries[i].value == 10 * key);
    }
}

/* Scans of a map write keys with their values, in both directions and in parts. */
static void scans(void) {
    nm_handle map = NM_CLOSED_HANDLE, worker = NM_CLOSED_HANDLE;
    nm_entry found[8] = {{NOT_WRITTEN, NOT_WRITTEN}};
    uint64_t count = NOT_WRITTEN, next = NOT_WRITTEN, epoch;
    CHECK(nm_map_new(&map, 64, 1) == NM_DONE && nm_map_attach(&map, &worker) == NM_DONE);
    CHECK(nm_map_scan_entries(&worker, 0, UINT64_MAX, found, 8, &count, &next, TRIES) == NM_NO &&
          count == 0 && next == NOT_WRITTEN && found[0].key == NOT_WRITTEN);
    for (uint64_t key = 3; key < 9; key++)
        CHECK(nm_map_insert(&worker, key, 10 * key, usual) == NM_YES);
    CHECK(nm_map_scan_entries(&worker, 0, UINT64_MAX, found, 8, &count, &next, TRIES) == NM_NO &&
          count == 6);
    are_entries(found, 6, 3, 1);
    CHECK(nm_map_scan_entries_back(&worker, 7, 5, found, 8, &count, &next, TRIES) == NM_NO &&
          count == 3);
    are_entries(found, 3, 7, -1);
    CHECK(nm_map_scan_entries(&worker, 4, 9, found, 2, &count, &next, TRIES) == NM_YES &&
          count == 2 && next > 5 && next <= 6);
    are_entries(found, 2, 4, 1);
    CHECK(nm_map_scan_entries(&worker, next, 9, found, 8, &count, &next, TRIES) == NM_NO &&
          count == 3);
    are_entries(found, 3, 6, 1);
    CHECK(nm_map_scan_entries(&worker, 0, 9, found, 0, &count, &next, TRIES) == NM_YES &&
          count == 0);
    CHECK(nm_map_scan_entries(&worker, 0, 9, found, 8, &count, &next, 0) == NM_BUSY && count == 0);
    CHECK(nm_map_pin(&worker, TRIES, &epoch) == NM_DONE &&
          nm_map_scan_entries(&worker, 0, 9, found, 8, &count, &next, TRIES) == NM_PINNED &&
          nm_map_scan_entries_back(&worker, 9, 0, found, 8, &count, &next, TRIES) == NM_PINNED);
    are_entries(found, 3, 6, 1);
    CHECK(nm_drop(&worker) == NM_DONE && nm_drop(&map) == NM_DONE);
}

/* Options that allow no try, what a worker reports of itself, and its keys in order. */
static void reports(void) {
    const nm_options none = {0, 0, 64};
    nm_handle map = NM_CLOSED_HANDLE, worker = NM_CLOSED_HANDLE;
    uint64_t wide = NOT_WRITTEN, keys[2] = {NOT_WRITTEN, NOT_WRITTEN}, count = NOT_WRITTEN;
    uint32_t number = NOT_WRITTEN;
    CHECK(nm_map_new(&map, 64, 3) == NM_DONE && nm_map_worker(&map, &worker, 2) == NM_DONE);
    CHECK(nm_map_insert(&worker, 5, 50, usual) == NM_YES &&
          nm_map_insert(&worker, 9, 90, usual) == NM_YES);
    CHECK(nm_map_get(&worker, 5, &none, &wide) == NM_BUSY &&
          nm_map_insert(&worker, 6, 60, &none) == NM_BUSY &&
          nm_map_remove(&worker, 5, &none, &wide) == NM_BUSY && wide == NOT_WRITTEN);
    CHECK(nm_map_pending(&worker, &wide) == NM_NO && wide == NOT_WRITTEN);
    CHECK(nm_map_number(&worker, &number) == NM_DONE && number == 2);
    CHECK(nm_map_scan(&worker, 0, UINT64_MAX, keys, 2, &count, &wide, 0) == NM_BUSY &&
          count == NOT_WRITTEN);
    CHECK(nm_map_scan(&worker, 0, 9, keys, 2, &count, &wide, TRIES) == NM_NO && count == 1 &&
          keys[0] == 5 && keys[1] == NOT_WRITTEN && wide == NOT_WRITTEN);
    CHECK(nm_map_scan_back(&worker, 9, 0, keys, 1, &count, &wide, TRIES) == NM_YES && count == 1 &&
          keys[0] == 9 && wide >= 5 && wide < 9);
    CHECK(nm_map_queue_len(&worker, &wide) == NM_DONE && wide == 0);
    CHECK(nm_map_remove(&worker, 5, usual, &wide) == NM_YES && wide == 50);
    CHECK(nm_map_queue_len(&worker, &wide) == NM_DONE && wide == 2);
    CHECK(nm_drop(&worker) == NM_DONE && nm_drop(&map) == NM_DONE);
}

/* Managed calls free nothing. A value comes back once, and in parts if there is little room. */
static void reclaims(void) {
    nm_handle map = NM_CLOSED_HANDLE, worker = NM_CLOSED_HANDLE;
    uint64_t value = NOT_WRITTEN, back[3] = {NOT_WRITTEN, NOT_WRITTEN, NOT_WRITTEN};
    CHECK(nm_map_new(&map, 11, 1) == NM_DONE && nm_map_attach(&map, &worker) == NM_DONE);
    for (uint64_t key = 0; key < 3; key++)
        CHECK(nm_map_insert(&worker, key, 10 + key, usual) == NM_YES);
    CHECK(nm_map_insert(&worker, 3, 13, usual) == NM_FULL);
    comes_back(&worker, back, 3, 0, NM_NOBODY);
    for (uint64_t key = 0; key < 3; key++)
        CHECK(nm_map_remove(&worker, key, usual, &value) == NM_YES && value == 10 + key);
    CHECK(nm_map_insert(&worker, 3, 13, usual) == NM_FULL);
    comes_back(&worker, back, 0, 0, NM_NOBODY);
    CHECK(back[0] == NOT_WRITTEN);
    comes_back(&worker, back, 2, 2, NM_NOBODY);
    comes_back(&worker, back + 2, 1, 1, NM_NOBODY);
    CHECK(back[0] == 10 && back[1] == 11 && back[2] == 12);
    comes_back(&worker, back, 3, 0, NM_NOBODY);
    CHECK(nm_map_insert(&worker, 3, 13, usual) == NM_YES && nm_drop(&worker) == NM_DONE &&
          nm_drop(&map) == NM_DONE);
}

/* While a worker is pinned, no value comes back that it can have read. */
static void pinned(void) {
    nm_handle map = NM_CLOSED_HANDLE, reader = NM_CLOSED_HANDLE, writer = NM_CLOSED_HANDLE;
    uint64_t value = NOT_WRITTEN, epoch = NOT_WRITTEN, back[2] = {NOT_WRITTEN, NOT_WRITTEN};
    CHECK(nm_map_new(&map, 64, 3) == NM_DONE && nm_map_worker(&map, &reader, 2) == NM_DONE &&
          nm_map_worker(&map, &writer, 0) == NM_DONE);
    CHECK(nm_map_insert(&writer, 5, 500, usual) == NM_YES);
    CHECK(nm_map_get_pinned(&reader, 5, &value) == NM_NOT_PINNED &&
          nm_map_unpin(&reader) == NM_NOT_PINNED && value == NOT_WRITTEN);
    CHECK(nm_map_pin(&reader, 0, &epoch) == NM_BUSY && epoch == 0);
    CHECK(nm_map_pin(&reader, TRIES, &epoch) == NM_DONE &&
          nm_map_pin(&reader, TRIES, &epoch) == NM_PINNED);
    each_call_tells(&reader, 5, NM_PINNED);
    each_pop_tells(&reader, usual, NM_PINNED);
    CHECK(nm_map_get_pinned(&reader, 6, &value) == NM_NO && value == NOT_WRITTEN);
    CHECK(nm_map_get_pinned(&reader, 5, &value) == NM_YES && value == 500);
    CHECK(nm_map_remove(&writer, 5, usual, &value) == NM_YES && value == 500);
    for (int turn = 0; turn < 3; turn++) comes_back(&writer, back, 2, 0, 2);
    CHECK(nm_map_get_pinned(&reader, 5, &value) == NM_NO && back[0] == NOT_WRITTEN);
    CHECK(nm_map_unpin(&reader) == NM_DONE && nm_map_get(&reader, 5, usual, &value) == NM_NO);
    comes_back(&writer, back, 2, 1, NM_NOBODY);
    CHECK(back[0] == 500 && back[1] == NOT_WRITTEN);
    comes_back(&writer, back, 2, 0, NM_NOBODY);
    comes_back(&reader, back, 2, 0, NM_NOBODY);
    CHECK(nm_drop(&reader) == NM_DONE && nm_drop(&writer) == NM_DONE && nm_drop(&map) == NM_DONE);
}

/* A worker that is pinned itself gets back nothing that it can have read. */
static void pinned_itself(void) {
    nm_handle map = NM_CLOSED_HANDLE, worker = NM_CLOSED_HANDLE;
    uint64_t value = NOT_WRITTEN, epoch = NOT_WRITTEN, back[2] = {NOT_WRITTEN, NOT_WRITTEN};
    CHECK(nm_map_new(&map, 64, 3) == NM_DONE && nm_map_worker(&map, &worker, 1) == NM_DONE);
    CHECK(nm_map_insert(&worker, 5, 500, usual) == NM_YES &&
          nm_map_remove(&worker, 5, usual, &value) == NM_YES);
    CHECK(nm_map_pin(&worker, TRIES, &epoch) == NM_DONE);
    for (int turn = 0; turn < 3; turn++) comes_back(&worker, back, 2, 0, 1);
    CHECK(nm_map_unpin(&worker) == NM_DONE);
    comes_back(&worker, back, 2, 1, NM_NOBODY);
    CHECK(back[0] == 500 && nm_drop(&worker) == NM_DONE && nm_drop(&map) == NM_DONE);
}

/* A worker keeps what waits with it when it is returned. */
static void returned(void) {
    nm_handle map = NM_CLOSED_HANDLE, worker = NM_CLOSED_HANDLE;
    uint64_t value = NOT_WRITTEN, back[2] = {NOT_WRITTEN, NOT_WRITTEN};
    CHECK(nm_map_new(&map, 64, 2) == NM_DONE && nm_map_worker(&map, &worker, 1) == NM_DONE);
    CHECK(nm_map_insert(&worker, 5, 500, usual) == NM_YES &&
          nm_map_remove(&worker, 5, usual, &value) == NM_YES);
    CHECK(nm_drop(&worker) == NM_DONE && nm_map_worker(&map, &worker, 0) == NM_DONE);
    comes_back(&worker, back, 2, 0, NM_NOBODY);
    CHECK(nm_drop(&worker) == NM_DONE && nm_map_worker(&map, &worker, 1) == NM_DONE);
    comes_back(&worker, back, 2, 1, NM_NOBODY);
    CHECK(back[0] == 500 && nm_drop(&worker) == NM_DONE && nm_drop(&map) == NM_DONE);
}

/* A map gives each worker once, and is closed when all are back; the report has its keys. */
static void ends(void) {
    nm_handle map = NM_CLOSED_HANDLE, first = NM_CLOSED_HANDLE, second = NM_CLOSED_HANDLE,
              none = NM_CLOSED_HANDLE;
    uint64_t wide = NOT_WRITTEN;
    CHECK(nm_map_new(&map, 64, 2) == NM_DONE && nm_map_attached(&map, 0) == NM_NO &&
          nm_map_attached(&map, 2) == NM_NUMBER);
    CHECK(nm_map_worker(&map, &first, 2) == NM_NUMBER && nm_map_worker(&map, &first, 0) == NM_DONE &&
          nm_map_worker(&map, &first, 1) == NM_OPEN && nm_map_attach(&map, &first) == NM_OPEN);
    CHECK(nm_map_attached(&map, 0) == NM_YES && nm_map_worker(&map, &second, 0) == NM_ATTACHED &&
          nm_map_attach(&map, &second) == NM_DONE);
    CHECK(nm_map_attach(&map, &none) == NM_NO_WORKER && none.at == NULL);
    CHECK(nm_map_insert(&second, 7, 70, usual) == NM_YES && nm_drop(&second) == NM_DONE);
    CHECK(nm_map_close(&map) == NM_ATTACHED && nm_map_attached(&map, 0) == NM_YES);
    CHECK(nm_drop(&first) == NM_DONE && nm_map_close(&map) == NM_DONE);
    CHECK(nm_map_close(&map) == NM_KIND && nm_report_keys(&map, &wide) == NM_DONE && wide == 1);
    CHECK(nm_report_key(&map, 0, &wide) == NM_DONE && wide == 7);
    no_map(&map, NM_KIND);
    no_worker_of_a_map(&map, NM_KIND);
    CHECK(nm_drop(&map) == NM_DONE);
}

/* Checks that both calls for a value of a report return the wanted outcome, and write nothing. */
static void no_values(nm_handle *handle, nm_outcome wanted) {
    uint64_t value = NOT_WRITTEN;
    CHECK(nm_map_report_value(handle, 0, &value) == wanted &&
          nm_map_report_returned(handle, 0, &value) == wanted && value == NOT_WRITTEN);
}

/* Makes a map with the keys 3, 5 and 7, from which two workers have removed others. The value of
 * each key is ten times the key. */
static void make_with_values(nm_handle *map) {
    nm_handle worker = NM_CLOSED_HANDLE;
    uint64_t value = NOT_WRITTEN;
    CHECK(nm_map_new(map, 64, 3) == NM_DONE && nm_map_worker(map, &worker, 0) == NM_DONE);
    for (uint64_t key = 1; key < 8; key++)
        CHECK(nm_map_insert(&worker, key, 10 * key, usual) == NM_YES);
    CHECK(nm_map_remove(&worker, 2, usual, &value) == NM_YES &&
          nm_map_remove(&worker, 4, usual, &value) == NM_YES);
    CHECK(nm_drop(&worker) == NM_DONE && nm_map_worker(map, &worker, 1) == NM_DONE);
    CHECK(nm_map_remove(&worker, 6, usual, &value) == NM_YES &&
          nm_map_remove(&worker, 1, usual, &value) == NM_YES && nm_drop(&worker) == NM_DONE);
}

/* A close leaves each value that has not come back: under its key, or in the queue of the worker
 * that cut its leaf off. */
static void leaves_values(void) {
    nm_handle map = NM_CLOSED_HANDLE;
    nm_waiting internal = {0, 0, 0};
    uint64_t value = NOT_WRITTEN, nodes = NOT_WRITTEN;
    make_with_values(&map);
    no_values(&map, NM_KIND);
    CHECK(nm_map_close(&map) == NM_DONE);
    for (uint64_t index = 0; index < 3; index++)
        CHECK(nm_map_report_value(&map, index, &value) == NM_DONE && value == 30 + 20 * index);
    CHECK(nm_map_report_value(&map, 3, &value) == NM_NUMBER &&
          nm_map_report_value(&map, UINT64_MAX, &value) == NM_NUMBER);
    CHECK(nm_map_report_returned(&map, 3, &value) == NM_NUMBER &&
          nm_map_report_returned(&map, 2, &value) == NM_NO && value == 70);
    CHECK(nm_map_report_returned(&map, 0, &value) == NM_YES && value == 20 &&
          nm_report_queue(&map, 0, &nodes) == NM_DONE && nodes == 2);
    CHECK(nm_map_report_returned(&map, 0, &value) == NM_YES && value == 40 &&
          nm_map_report_returned(&map, 0, &value) == NM_NO && value == 40);
    CHECK(nm_report_waiting(&map, 1, &internal) == NM_YES &&
          nm_map_report_returned(&map, 1, &value) == NM_YES && value == 60);
    CHECK(nm_map_report_returned(&map, 1, &value) == NM_YES && value == 10 &&
          nm_map_report_returned(&map, 1, &value) == NM_NO);
    CHECK(nm_map_report_value(&map, 0, &value) == NM_DONE && value == 30);
    map.in_use = 1;
    no_values(&map, NM_IN_USE);
    map.in_use = 0;
    CHECK(nm_drop(&map) == NM_DONE);
    no_values(&map, NM_CLOSED);
}

/* The report of a set has no values. */
static void sets_leave_no_values(void) {
    nm_handle set = NM_CLOSED_HANDLE;
    CHECK(nm_set_new(&set, 64, 1) == NM_DONE && nm_set_close(&set) == NM_DONE);
    no_values(&set, NM_KIND);
    CHECK(nm_drop(&set) == NM_DONE);
}

/* A handle of another kind is refused, and so is one that is closed or in use. */
static void kinds(void) {
    nm_handle map = NM_CLOSED_HANDLE, worker = NM_CLOSED_HANDLE, none = NM_CLOSED_HANDLE;
    nm_handle set = NM_CLOSED_HANDLE, other = NM_CLOSED_HANDLE;
    CHECK(nm_set_new(&set, 64, 1) == NM_DONE && nm_set_attach(&set, &other) == NM_DONE);
    CHECK(nm_map_new(&map, 64, 1) == NM_DONE && nm_map_attach(&map, &worker) == NM_DONE);
    no_map(&none, NM_CLOSED);
    no_map(&set, NM_KIND);
    no_map(&other, NM_KIND);
    no_map(&worker, NM_KIND);
    no_worker_of_a_map(&none, NM_CLOSED);
    no_worker_of_a_map(&set, NM_KIND);
    no_worker_of_a_map(&other, NM_KIND);
    no_worker_of_a_map(&map, NM_KIND);
    worker.in_use = 1;
    no_worker_of_a_map(&worker, NM_IN_USE);
    CHECK(nm_drop(&worker) == NM_IN_USE && nm_map_new(&worker, 64, 1) == NM_IN_USE &&
          nm_map_worker(&map, &worker, 0) == NM_IN_USE &&
          nm_map_attach(&map, &worker) == NM_IN_USE);
    worker.in_use = 0;
    map.in_use = 1;
    no_map(&map, NM_IN_USE);
    map.in_use = 0;
    CHECK(nm_map_insert(&worker, 5, 50, usual) == NM_YES && nm_drop(&worker) == NM_DONE &&
          nm_map_close(&map) == NM_DONE && nm_drop(&map) == NM_DONE);
    CHECK(nm_drop(&other) == NM_DONE && nm_drop(&set) == NM_DONE);
}

/* ---- threads ---- */

enum { THREADS = 4, KEYS = 48, CALLS = 40000, NODES = 4096 };

/* What a value points to: the key that it was inserted with. */
typedef struct payload {
    uint64_t key;
} payload;

static nm_handle shared = NM_CLOSED_HANDLE;
static atomic_uint_fast64_t inserted, back, unfinished, read_pinned, listed;

static uint64_t next_random(uint64_t *state) {
    *state = *state * 6364136223846793005u + 1442695040888963407u;
    return *state >> 33;
}

/* Takes what comes back, and frees it. A value that came back twice, or that another thread reads,
 * is a fault that the sanitizers find. */
static uint64_t free_returned(nm_handle *worker) {
    uint64_t values[ROOM], count = NOT_WRITTEN;
    uint32_t behind = NOT_WRITTEN;
    CHECK(nm_map_reclaim(worker, values, ROOM, &count, &behind) == NM_DONE && count <= ROOM);
    CHECK(behind < THREADS || behind == NM_NOBODY);
    for (uint64_t i = 0; i < count; i++) {
        payload *each = (payload *)(uintptr_t)values[i];
        CHECK(each->key < KEYS);
        each->key = UINT64_MAX;
        free(each);
    }
    atomic_fetch_add(&back, count);
    return count;
}

/* Inserts a new payload. If it does not become the key's value, it is the caller's. */
static void put(nm_handle *worker, uint64_t key, const nm_options *options) {
    payload *made = malloc(sizeof *made);
    CHECK(made != NULL);
    made->key = key;
    nm_outcome told = nm_map_insert(worker, key, (uint64_t)(uintptr_t)made, options);
    CHECK(told == NM_YES || told == NM_NO || told == NM_BUSY || told == NM_PENDING ||
          told == NM_FULL);
    if (told == NM_YES) {
        atomic_fetch_add(&inserted, 1);
        return;
    }
    free(made);
    if (told == NM_FULL) free_returned(worker), sched_yield();
}

/* Removes a key. Its value is not freed here, because others may read it. */
static void take(nm_handle *worker, uint64_t key, const nm_options *options) {
    uint64_t value = NOT_WRITTEN, pending = NOT_WRITTEN;
    nm_outcome told = nm_map_remove(worker, key, options, &value);
    bool taken = told == NM_YES || told == NM_UNFINISHED;
    CHECK(taken || told == NM_NO || told == NM_BUSY || told == NM_PENDING);
    CHECK(taken ? value > NOT_WRITTEN : value == NOT_WRITTEN);
    if (told == NM_UNFINISHED) {
        CHECK(nm_map_pending(worker, &pending) == NM_YES && pending == key);
        atomic_fetch_add(&unfinished, 1);
    }
}

/* Follows the pointer that a key has, under a pin. */
static void follow(nm_handle *worker, uint64_t key) {
    uint64_t value = NOT_WRITTEN, epoch;
    nm_outcome told = nm_map_pin(worker, TRIES, &epoch);
    if (told == NM_PENDING || told == NM_BUSY) return;
    CHECK(told == NM_DONE);
    told = nm_map_get_pinned(worker, key, &value);
    CHECK(told == NM_YES || told == NM_NO);
    if (told == NM_YES) {
        CHECK(((payload *)(uintptr_t)value)->key == key);
        atomic_fetch_add(&read_pinned, 1);
    }
    CHECK(nm_map_unpin(worker) == NM_DONE);
}

/* Lists keys from one on with their values, in one direction or the other. The keys are in order,
 * and each has a pointer that was inserted. */
static void list(nm_handle *worker, uint64_t from, bool is_back) {
    nm_entry found[ROOM];
    uint64_t count = 0, next;
    nm_outcome told;
    if (is_back)
        told = nm_map_scan_entries_back(worker, from, 0, found, ROOM, &count, &next, TRIES);
    else
        told = nm_map_scan_entries(worker, from, KEYS, found, ROOM, &count, &next, TRIES);
    CHECK(told == NM_YES || told == NM_NO || told == NM_BUSY || told == NM_PENDING);
    for (uint64_t i = 0; i < count; i++) {
        CHECK(found[i].key < KEYS && (is_back ? found[i].key <= from : found[i].key >= from));
        CHECK(i == 0 || (found[i - 1].key < found[i].key) != is_back);
        CHECK(found[i].value > NOT_WRITTEN && found[i].value % sizeof(uint64_t) == 0);
    }
    atomic_fetch_add(&listed, count);
}

/* Makes calls by one worker. Half of the threads have options with which a remove may be left
 * unfinished. */
static void *work(void *given) {
    static const nm_options few = {1, 0, 64};
    uint64_t number = (uint64_t)(uintptr_t)given, state = number;
    const nm_options *options = number % 2 == 0 ? usual : &few;
    nm_handle worker = NM_CLOSED_HANDLE;
    CHECK(nm_map_worker(&shared, &worker, (uint32_t)number) == NM_DONE);
    for (int call = 0; call < CALLS; call++) {
        uint64_t key = next_random(&state) % KEYS;
        switch (next_random(&state) % 4) {
        case 0: put(&worker, key, options); break;
        case 1: take(&worker, key, options); break;
        case 2: list(&worker, key, call % 2 == 0); break;
        default: follow(&worker, key);
        }
        if (call % 16 == 0) free_returned(&worker);
    }
    CHECK(nm_drop(&worker) == NM_DONE);
    return NULL;
}

/* Removes each key, by one worker after the other, and takes all that comes back. */
static void take_the_rest(void) {
    for (uint32_t number = 0; number < THREADS; number++) {
        nm_handle worker = NM_CLOSED_HANDLE;
        uint64_t left = NOT_WRITTEN;
        CHECK(nm_map_worker(&shared, &worker, number) == NM_DONE);
        for (uint64_t key = 0; key < KEYS; key++) take(&worker, key, usual);
        while (free_returned(&worker) == ROOM) {}
        CHECK(nm_map_queue_len(&worker, &left) == NM_DONE && left == 0);
        CHECK(nm_drop(&worker) == NM_DONE);
    }
}

static void threads(void) {
    pthread_t made[THREADS];
    uint64_t keys = NOT_WRITTEN;
    CHECK(nm_map_new(&shared, NODES, THREADS) == NM_DONE);
    for (int i = 0; i < THREADS; i++)
        CHECK(pthread_create(&made[i], NULL, work, (void *)(uintptr_t)i) == 0);
    for (int i = 0; i < THREADS; i++) CHECK(pthread_join(made[i], NULL) == 0);
    take_the_rest();
    CHECK(back == inserted && inserted > 0 && read_pinned > 0 && listed > 0);
    CHECK(nm_map_close(&shared) == NM_DONE && nm_report_keys(&shared, &keys) == NM_DONE &&
          keys == 0 && nm_drop(&shared) == NM_DONE);
}

int main(void) {
    sizes();
    answers();
    entries();
    scans();
    reports();
    reclaims();
    pinned();
    pinned_itself();
    returned();
    ends();
    leaves_values();
    sets_leave_no_values();
    kinds();
    threads();
    printf("%" PRIuFAST64 " values came back, each once; %" PRIuFAST64
           " removes were unfinished for a while\n",
        (uint_fast64_t)back, (uint_fast64_t)unfinished);
    return 0;
}
