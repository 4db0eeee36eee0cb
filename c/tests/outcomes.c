/* Tests each function of sets, of their workers and of reports by one thread, and each outcome that
 * one thread can meet if no memory is refused. maps.c tests the functions of maps. */
#include "holds.h"
#include "nm_set.h"

#include <stdio.h>
#include <string.h>

enum { TRIES = 64, NOT_WRITTEN = 77 };

/* Checks the outcome of a scan from this key, and that it writes nothing. */
static void each_scan_tells(nm_handle *worker, uint64_t from, nm_outcome wanted) {
    uint64_t keys[2] = {NOT_WRITTEN, NOT_WRITTEN}, count = NOT_WRITTEN, next = NOT_WRITTEN;
    CHECK(nm_worker_scan(worker, from, UINT64_MAX, keys, 2, &count, &next, TRIES) == wanted);
    CHECK(nm_worker_scan_back(worker, from, 0, keys, 2, &count, &next, TRIES) == wanted);
    CHECK(keys[0] == NOT_WRITTEN && keys[1] == NOT_WRITTEN && count == NOT_WRITTEN &&
          next == NOT_WRITTEN);
}

/* Checks that each call for a key returns the wanted outcome. */
static void each_tells(nm_handle *worker, uint64_t key, nm_outcome wanted) {
    nm_lookup lookup = {key, NOT_WRITTEN};
    uint64_t found = NOT_WRITTEN;
    CHECK(nm_worker_try_contains(worker, key, TRIES) == wanted);
    CHECK(nm_worker_contains_many(worker, &lookup, 1, TRIES) == wanted && lookup.key == key &&
          lookup.found == NOT_WRITTEN);
    CHECK(nm_worker_next(worker, key, TRIES, &found) == wanted && found == NOT_WRITTEN);
    CHECK(nm_worker_prev(worker, key, TRIES, &found) == wanted && found == NOT_WRITTEN);
    CHECK(nm_worker_try_insert(worker, key, TRIES) == wanted);
    CHECK(nm_worker_try_remove(worker, key, TRIES) == wanted);
    each_scan_tells(worker, key, wanted);
}

/* Checks that each managed call for a key returns the wanted outcome. */
static void each_managed_call_tells(nm_handle *worker, uint64_t key, nm_outcome wanted) {
    CHECK(nm_worker_contains(worker, key, &nm_default_options) == wanted);
    CHECK(nm_worker_insert(worker, key, &nm_default_options) == wanted);
    CHECK(nm_worker_remove(worker, key, &nm_default_options) == wanted);
}

/* Checks the outcome of a call that pops a key, and that it writes no key. */
static void each_pop_tells(nm_handle *worker, const nm_options *options, nm_outcome wanted) {
    uint64_t taken = NOT_WRITTEN;
    CHECK(nm_worker_pop_first(worker, options, &taken) == wanted && taken == NOT_WRITTEN);
    CHECK(nm_worker_pop_last(worker, options, &taken) == wanted && taken == NOT_WRITTEN);
    CHECK(nm_worker_pop_first_below(worker, UINT64_MAX, options, &taken) == wanted &&
          nm_worker_pop_last_from(worker, 0, options, &taken) == wanted && taken == NOT_WRITTEN);
}

/* A handle that owns no worker, or no report, returns that outcome, and the call writes nothing. */
static void is_refused(nm_handle *handle, nm_outcome worker, nm_outcome report) {
    uint64_t wide = NOT_WRITTEN, other = NOT_WRITTEN;
    uint32_t narrow = NOT_WRITTEN, second = NOT_WRITTEN;
    nm_stats stats = {NOT_WRITTEN, 0, 0, 0, 0, 0};
    nm_waiting waiting = {NOT_WRITTEN, 0, 0};
    if (worker != NM_DONE) {
        each_tells(handle, 5, worker);
        each_managed_call_tells(handle, 5, worker);
        each_pop_tells(handle, &nm_default_options, worker);
        CHECK(nm_worker_finish(handle, TRIES) == worker);
        CHECK(nm_worker_pin(handle, TRIES, &wide) == worker && nm_worker_unpin(handle) == worker);
        CHECK(nm_worker_advance(handle, &wide, &narrow) == worker &&
              nm_worker_behind(handle, &wide, &other) == worker);
        CHECK(nm_worker_collect(handle, &wide, &other) == worker &&
              nm_worker_number(handle, &narrow) == worker);
        CHECK(nm_worker_queue_len(handle, &wide) == worker &&
              nm_worker_pending(handle, &wide) == worker);
        CHECK(
            nm_worker_pinned(handle, &wide) == worker && nm_worker_stats(handle, &stats) == worker);
        CHECK(nm_worker_resign(handle, 0) == worker && nm_worker_end(handle) == worker);
        CHECK(nm_worker_publish(handle, &wide, &other) == worker &&
              nm_worker_observe(handle, 0, &wide, &other) == worker);
    }
    if (report != NM_DONE) {
        CHECK(nm_report_slots(handle, &narrow, &second) == report &&
              nm_report_keys(handle, &wide) == report);
        CHECK(nm_report_key(handle, 0, &wide) == report &&
              nm_report_queue(handle, 0, &wide) == report);
        CHECK(nm_report_waiting(handle, 0, &waiting) == report);
        CHECK(nm_map_report_value(handle, 0, &wide) == report &&
              nm_map_report_returned(handle, 0, &wide) == report);
    }
    CHECK(wide == NOT_WRITTEN && other == NOT_WRITTEN && narrow == NOT_WRITTEN &&
          second == NOT_WRITTEN);
    CHECK(stats.links == NOT_WRITTEN && waiting.slot == NOT_WRITTEN);
}

static void sizes(void) {
    nm_handle set = NM_CLOSED_HANDLE;
    CHECK(nm_set_new_first_fit(&set, 6, 1) == NM_NODES &&
          nm_set_new_unbalanced(&set, 268435457, 65) == NM_NODES);
    CHECK(nm_set_new(&set, 6, 65) == NM_NODES && nm_set_new(&set, 268435456, 0) == NM_WORKERS);
    CHECK(nm_set_new_first_fit(&set, 7, 0) == NM_WORKERS &&
          nm_set_new_unbalanced(&set, 7, 65) == NM_WORKERS);
    CHECK(nm_set_new_unbalanced(&set, 1048577, 64) == NM_DONE &&
          nm_set_new_first_fit(&set, 7, 1) == NM_OPEN &&
          nm_set_new_unbalanced(&set, 7, 1) == NM_OPEN && nm_set_new(&set, 7, 1) == NM_OPEN);
    CHECK(nm_drop(&set) == NM_DONE && nm_drop(&set) == NM_CLOSED && set.at == NULL);
}

static void kinds(void) {
    nm_handle set = NM_CLOSED_HANDLE, worker = NM_CLOSED_HANDLE, none = NM_CLOSED_HANDLE;
    CHECK(nm_set_new_first_fit(&set, 16, 1) == NM_DONE &&
          nm_set_worker(&set, &worker, 0) == NM_DONE);
    CHECK(nm_set_worker(&set, &worker, 0) == NM_OPEN && nm_set_worker(&set, &none, 1) == NM_NUMBER);
    CHECK(nm_set_worker(&set, &none, 0) == NM_ATTACHED && nm_set_close(&set) == NM_ATTACHED);
    nm_handle other = NM_CLOSED_HANDLE;
    CHECK(nm_set_worker(&none, &other, 0) == NM_CLOSED &&
          nm_set_worker(&worker, &other, 0) == NM_KIND);
    CHECK(nm_set_close(&none) == NM_CLOSED && nm_set_close(&worker) == NM_KIND);
    is_refused(&none, NM_CLOSED, NM_CLOSED);
    is_refused(&set, NM_KIND, NM_KIND);
    is_refused(&worker, NM_DONE, NM_KIND);
    each_tells(&worker, UINT64_MAX - 2, NM_KEY);
    each_managed_call_tells(&worker, UINT64_MAX - 2, NM_KEY);
    CHECK(nm_worker_try_insert(&worker, UINT64_MAX - 3, TRIES) == NM_YES);
    CHECK(nm_drop(&worker) == NM_DONE && nm_set_close(&set) == NM_DONE);
    is_refused(&set, NM_KIND, NM_DONE);
    CHECK(nm_drop(&set) == NM_DONE);
}

/* A map and a worker of a map are of other kinds than a set and its worker. */
static void kinds_of_maps(void) {
    nm_handle map = NM_CLOSED_HANDLE, worker = NM_CLOSED_HANDLE, none = NM_CLOSED_HANDLE;
    CHECK(nm_map_new(&map, 16, 1) == NM_DONE && nm_map_worker(&map, &worker, 0) == NM_DONE);
    is_refused(&map, NM_KIND, NM_KIND);
    is_refused(&worker, NM_KIND, NM_KIND);
    CHECK(nm_set_worker(&map, &none, 0) == NM_KIND && nm_set_attach(&map, &none) == NM_KIND &&
          nm_set_attached(&map, 0) == NM_KIND && nm_set_close(&map) == NM_KIND);
    CHECK(nm_set_worker(&worker, &none, 0) == NM_KIND && nm_set_attach(&worker, &none) == NM_KIND &&
          nm_set_attached(&worker, 0) == NM_KIND && nm_set_close(&worker) == NM_KIND);
    CHECK(nm_set_new(&map, 16, 1) == NM_OPEN && nm_set_new(&worker, 16, 1) == NM_OPEN &&
          none.at == NULL);
    CHECK(nm_drop(&worker) == NM_DONE && nm_map_close(&map) == NM_DONE);
    is_refused(&map, NM_KIND, NM_DONE);
    CHECK(nm_drop(&map) == NM_DONE);
}

static void answers(void) {
    nm_handle set = NM_CLOSED_HANDLE, worker = NM_CLOSED_HANDLE;
    CHECK(nm_set_new_unbalanced(&set, 7, 2) == NM_DONE &&
          nm_set_worker(&set, &worker, 1) == NM_DONE);
    CHECK(nm_worker_try_contains(&worker, 5, 0) == NM_BUSY &&
          nm_worker_try_contains(&worker, 5, TRIES) == NM_NO);
    CHECK(nm_worker_try_insert(&worker, 5, TRIES) == NM_YES &&
          nm_worker_try_insert(&worker, 5, TRIES) == NM_NO);
    CHECK(nm_worker_try_contains(&worker, 5, TRIES) == NM_YES &&
          nm_worker_try_insert(&worker, 6, TRIES) == NM_FULL);
    nm_lookup lookups[3] = {{6, NOT_WRITTEN}, {5, NOT_WRITTEN}, {4, NOT_WRITTEN}};
    CHECK(nm_worker_contains_many(&worker, lookups, 3, 0) == NM_BUSY &&
          lookups[1].found == NOT_WRITTEN);
    CHECK(nm_worker_contains_many(&worker, lookups, 3, TRIES) == NM_DONE &&
          nm_worker_contains_many(&worker, lookups, 0, TRIES) == NM_DONE);
    CHECK(lookups[0].found == 0 && lookups[1].found == 1 && lookups[2].found == 0 &&
          lookups[1].key == 5);
    CHECK(nm_worker_try_remove(&worker, 6, TRIES) == NM_NO &&
          nm_worker_finish(&worker, TRIES) == NM_NO);
    uint64_t key = NOT_WRITTEN;
    CHECK(nm_worker_next(&worker, 6, TRIES, &key) == NM_NO &&
          nm_worker_next(&worker, 0, 0, &key) == NM_BUSY && key == NOT_WRITTEN);
    CHECK(nm_worker_next(&worker, 0, TRIES, &key) == NM_YES && key == 5 &&
          nm_worker_next(&worker, 5, TRIES, &key) == NM_YES && key == 5);
    key = NOT_WRITTEN;
    CHECK(nm_worker_prev(&worker, 4, TRIES, &key) == NM_NO &&
          nm_worker_prev(&worker, 9, 0, &key) == NM_BUSY && key == NOT_WRITTEN);
    CHECK(nm_worker_prev(&worker, UINT64_MAX - 3, TRIES, &key) == NM_YES && key == 5 &&
          nm_worker_prev(&worker, 5, TRIES, &key) == NM_YES && key == 5);
    key = NOT_WRITTEN;
    uint64_t keys[2] = {NOT_WRITTEN, NOT_WRITTEN}, count = NOT_WRITTEN;
    CHECK(nm_worker_scan(&worker, 0, UINT64_MAX, keys, 2, &count, &key, 0) == NM_BUSY &&
          count == NOT_WRITTEN && keys[0] == NOT_WRITTEN);
    CHECK(nm_worker_scan(&worker, 0, UINT64_MAX, keys, 2, &count, &key, TRIES) == NM_NO &&
          count == 1 && keys[0] == 5 && keys[1] == NOT_WRITTEN && key == NOT_WRITTEN);
    CHECK(nm_worker_scan_back(&worker, 9, 6, keys, 2, &count, &key, TRIES) == NM_NO &&
          count == 0 && key == NOT_WRITTEN);
    CHECK(nm_worker_scan(&worker, 0, 9, keys, 0, &count, &key, TRIES) == NM_YES && count == 0 &&
          key <= 5);
    key = NOT_WRITTEN;
    CHECK(nm_worker_pending(&worker, &key) == NM_NO && key == NOT_WRITTEN);
    CHECK(nm_worker_try_remove(&worker, 5, 1) == NM_UNFINISHED &&
          nm_worker_finish(&worker, 0) == NM_UNFINISHED);
    CHECK(nm_worker_pending(&worker, &key) == NM_YES && key == 5);
    each_tells(&worker, 5, NM_PENDING);
    CHECK(nm_worker_pin(&worker, TRIES, &key) == NM_PENDING && key == 5);
    CHECK(nm_worker_finish(&worker, TRIES) == NM_YES &&
          nm_worker_try_remove(&worker, 5, TRIES) == NM_NO);
    CHECK(nm_drop(&set) == NM_DONE && nm_worker_try_contains(&worker, 5, TRIES) == NM_NO &&
          nm_drop(&worker) == NM_DONE);
}

/* Managed calls, if two slots are free: a remove that has begun is finished first, a
 * full set is collected, and nothing is made again that might have no try. */
static void managed(void) {
    const nm_options *usual = &nm_default_options, none = {0, 0, 64};
    nm_handle set = NM_CLOSED_HANDLE, worker = NM_CLOSED_HANDLE, reader = NM_CLOSED_HANDLE;
    uint64_t told = NOT_WRITTEN;
    CHECK(nm_set_new_first_fit(&set, 7, 2) == NM_DONE &&
          nm_set_worker(&set, &worker, 0) == NM_DONE);
    CHECK(nm_worker_contains(&worker, 5, usual) == NM_NO &&
          nm_worker_remove(&worker, 5, usual) == NM_NO);
    CHECK(nm_worker_insert(&worker, 5, usual) == NM_YES &&
          nm_worker_insert(&worker, 5, usual) == NM_NO);
    CHECK(nm_worker_contains(&worker, 5, usual) == NM_YES &&
          nm_worker_insert(&worker, 6, usual) == NM_FULL);
    each_managed_call_tells(&worker, UINT64_MAX - 2, NM_KEY);
    CHECK(nm_worker_contains(&worker, 5, &none) == NM_BUSY &&
          nm_worker_insert(&worker, 6, &none) == NM_BUSY);
    CHECK(nm_worker_remove(&worker, 5, &none) == NM_BUSY &&
          nm_worker_pending(&worker, &told) == NM_NO);
    for (int turn = 0; turn < 100; turn++)
        CHECK(nm_worker_remove(&worker, 5, usual) == NM_YES &&
              nm_worker_insert(&worker, 5, usual) == NM_YES);
    each_pop_tells(&worker, &none, NM_BUSY);
    CHECK(nm_worker_pop_last(&worker, usual, &told) == NM_YES && told == 5 &&
          nm_worker_pop_last(&worker, usual, &told) == NM_NO && told == 5);
    told = NOT_WRITTEN;
    CHECK(nm_worker_insert(&worker, 5, usual) == NM_YES &&
          nm_worker_pop_first_below(&worker, 5, usual, &told) == NM_NO &&
          nm_worker_pop_last_from(&worker, 6, usual, &told) == NM_NO && told == NOT_WRITTEN);
    CHECK(nm_worker_pop_first_below(&worker, 6, usual, &told) == NM_YES && told == 5);
    CHECK(nm_worker_insert(&worker, 5, usual) == NM_YES &&
          nm_worker_pop_last_from(&worker, 5, usual, &told) == NM_YES && told == 5);
    CHECK(nm_worker_insert(&worker, 5, usual) == NM_YES &&
          nm_worker_pop_first(&worker, usual, &told) == NM_YES && told == 5);
    CHECK(nm_worker_pop_first(&worker, usual, &told) == NM_NO &&
          nm_worker_insert(&worker, 5, usual) == NM_YES);
    CHECK(nm_worker_try_remove(&worker, 5, 1) == NM_UNFINISHED &&
          nm_worker_contains(&worker, 5, &none) == NM_PENDING);
    each_pop_tells(&worker, &none, NM_PENDING);
    CHECK(nm_worker_pending(&worker, &told) == NM_YES && told == 5 &&
          nm_worker_contains(&worker, 5, usual) == NM_NO);
    CHECK(nm_worker_pending(&worker, &told) == NM_NO &&
          nm_worker_queue_len(&worker, &told) == NM_DONE && told == 2);
    CHECK(nm_worker_insert(&worker, 6, usual) == NM_YES &&
          nm_set_worker(&set, &reader, 1) == NM_DONE);
    CHECK(nm_worker_pin(&reader, TRIES, &told) == NM_DONE &&
          nm_worker_remove(&worker, 6, usual) == NM_YES);
    CHECK(nm_worker_insert(&worker, 7, usual) == NM_FULL && nm_worker_unpin(&reader) == NM_DONE);
    CHECK(nm_worker_insert(&worker, 7, usual) == NM_YES && nm_drop(&reader) == NM_DONE &&
          nm_drop(&worker) == NM_DONE);
    CHECK(nm_set_close(&set) == NM_DONE && nm_report_key(&set, 0, &told) == NM_DONE && told == 7 &&
          nm_drop(&set) == NM_DONE);
}

/* Each remove first frees what waits, if the options say so. */
static void collected(void) {
    const nm_options often = {TRIES, TRIES, 8};
    nm_handle set = NM_CLOSED_HANDLE, worker = NM_CLOSED_HANDLE;
    nm_stats stats;
    CHECK(nm_set_new(&set, 4096, 3) == NM_DONE && nm_set_attach(&set, &worker) == NM_DONE);
    for (uint64_t key = 0; key < 500; key++) {
        uint64_t nodes = NOT_WRITTEN;
        CHECK(nm_worker_insert(&worker, key, &often) == NM_YES &&
              nm_worker_remove(&worker, key, &often) == NM_YES);
        CHECK(nm_worker_queue_len(&worker, &nodes) == NM_DONE && nodes <= 8);
    }
    CHECK(nm_worker_stats(&worker, &stats) == NM_DONE && stats.retired == 1000 &&
          stats.freed >= 990);
    CHECK(nm_drop(&worker) == NM_DONE && nm_drop(&set) == NM_DONE);
}

/* A pinned worker keeps its epoch, and holds the others back. */
static void epochs(void) {
    nm_handle set = NM_CLOSED_HANDLE, reader = NM_CLOSED_HANDLE, writer = NM_CLOSED_HANDLE;
    uint64_t epoch = NOT_WRITTEN, mask = NOT_WRITTEN, freed = NOT_WRITTEN;
    uint32_t behind = NOT_WRITTEN;
    CHECK(nm_set_new_first_fit(&set, 64, 4) == NM_DONE);
    CHECK(nm_set_worker(&set, &reader, 2) == NM_DONE && nm_set_worker(&set, &writer, 0) == NM_DONE);
    CHECK(nm_worker_unpin(&reader) == NM_NOT_PINNED && nm_worker_pinned(&reader, &epoch) == NM_NO &&
          epoch == NOT_WRITTEN);
    CHECK(nm_worker_pin(&reader, 0, &epoch) == NM_BUSY && epoch == 0);
    CHECK(nm_worker_pin(&reader, TRIES, &epoch) == NM_DONE &&
          nm_worker_pin(&reader, TRIES, &epoch) == NM_PINNED);
    each_tells(&reader, 5, NM_PINNED);
    each_managed_call_tells(&reader, 5, NM_PINNED);
    each_pop_tells(&reader, &nm_default_options, NM_PINNED);
    CHECK(nm_worker_try_insert(&writer, 5, TRIES) == NM_YES &&
          nm_worker_try_remove(&writer, 5, TRIES) == NM_YES);
    CHECK(nm_worker_advance(&writer, &epoch, &behind) == NM_DONE && epoch == 1 &&
          behind == NOT_WRITTEN);
    CHECK(nm_worker_advance(&writer, &epoch, &behind) == NM_BEHIND && epoch == 0 && behind == 2);
    CHECK(nm_worker_behind(&writer, &epoch, &mask) == NM_DONE && epoch == 1 && mask == 4);
    CHECK(nm_worker_collect(&writer, &epoch, &freed) == NM_DONE && epoch == 1 && freed == 0);
    CHECK(nm_worker_pinned(&reader, &mask) == NM_YES && mask == 0 &&
          nm_worker_unpin(&reader) == NM_DONE);
    CHECK(nm_worker_advance(&writer, &epoch, &behind) == NM_DONE && epoch == 2);
    CHECK(nm_worker_collect(&writer, &epoch, &freed) == NM_DONE && epoch == 2 && freed == 2);
    CHECK(nm_drop(&reader) == NM_DONE && nm_drop(&writer) == NM_DONE && nm_drop(&set) == NM_DONE);
}

/* A worker that is not attached resigns, and the report has what it cut off as its own. */
static void ends(void) {
    nm_handle set = NM_CLOSED_HANDLE, heir = NM_CLOSED_HANDLE, leaver = NM_CLOSED_HANDLE;
    uint64_t nodes = NOT_WRITTEN, count = NOT_WRITTEN, key = NOT_WRITTEN;
    uint32_t number = NOT_WRITTEN, free_slots = NOT_WRITTEN, reached = NOT_WRITTEN;
    nm_stats stats;
    nm_waiting waiting;
    CHECK(nm_set_new_first_fit(&set, 64, 3) == NM_DONE);
    CHECK(nm_set_worker(&set, &heir, 0) == NM_DONE && nm_set_worker(&set, &leaver, 1) == NM_DONE);
    for (uint64_t each = 1; each <= 3; each++)
        CHECK(nm_worker_try_insert(&leaver, 10 - each, TRIES) == NM_YES);
    CHECK(nm_worker_try_remove(&leaver, 8, TRIES) == NM_YES);
    CHECK(nm_worker_stats(&leaver, &stats) == NM_DONE && stats.links == 3 && stats.flags == 1 &&
          stats.splices == 1);
    CHECK(stats.retired == 2 && stats.freed == 0 && stats.queued == 2);
    CHECK(nm_worker_number(&leaver, &number) == NM_DONE && number == 1 &&
          nm_worker_resign(&heir, 1) == NM_ATTACHED);
    CHECK(nm_drop(&leaver) == NM_DONE && nm_worker_resign(&heir, 3) == NM_NUMBER &&
          nm_worker_resign(&heir, 1) == NM_DONE);
    CHECK(nm_worker_queue_len(&heir, &nodes) == NM_DONE && nodes == 2 &&
          nm_set_worker(&set, &leaver, 1) == NM_ATTACHED);
    CHECK(nm_drop(&heir) == NM_DONE && nm_set_close(&set) == NM_DONE);
    CHECK(nm_report_keys(&set, &count) == NM_DONE && count == 2);
    CHECK(nm_report_key(&set, 0, &key) == NM_DONE && key == 7 &&
          nm_report_key(&set, 1, &key) == NM_DONE && key == 9);
    CHECK(nm_report_key(&set, 2, &key) == NM_NUMBER && key == 9);
    CHECK(nm_report_slots(&set, &free_slots, &reached) == NM_DONE && free_slots == 53 &&
          reached == 4);
    CHECK(nm_report_queue(&set, 0, &nodes) == NM_DONE && nodes == 0 &&
          nm_report_queue(&set, 1, &nodes) == NM_DONE && nodes == 2);
    CHECK(nm_report_queue(&set, 3, &nodes) == NM_NUMBER &&
          nm_report_waiting(&set, 3, &waiting) == NM_NUMBER);
    CHECK(nm_report_waiting(&set, 0, &waiting) == NM_NO);
    CHECK(
        nm_report_waiting(&set, 1, &waiting) == NM_YES && waiting.generation == 1 &&
        waiting.label == 0);
    uint32_t oldest = waiting.slot;
    CHECK(nm_report_waiting(&set, 1, &waiting) == NM_YES && waiting.slot != oldest &&
          nm_report_waiting(&set, 1, &waiting) == NM_NO);
    CHECK(nm_report_queue(&set, 1, &nodes) == NM_DONE && nodes == 0);
    CHECK(nm_drop(&set) == NM_DONE);
}

/* A worker that goes home as it is held is not held any more when it is taken again. One that goes
 * home with a key pending does not resign, and has its key still when it is taken again, with all
 * that it has won and that waits. */
static void away(void) {
    nm_handle set = NM_CLOSED_HANDLE, heir = NM_CLOSED_HANDLE, leaver = NM_CLOSED_HANDLE;
    uint64_t epoch = NOT_WRITTEN, key = NOT_WRITTEN, nodes = NOT_WRITTEN;
    nm_stats stats;
    CHECK(nm_set_new_unbalanced(&set, 64, 2) == NM_DONE);
    CHECK(nm_set_worker(&set, &heir, 0) == NM_DONE && nm_set_worker(&set, &leaver, 1) == NM_DONE);
    CHECK(nm_worker_pin(&leaver, TRIES, &epoch) == NM_DONE && nm_drop(&leaver) == NM_DONE);
    CHECK(nm_set_worker(&set, &leaver, 1) == NM_DONE);
    CHECK(nm_worker_pinned(&leaver, &key) == NM_NO && nm_worker_unpin(&leaver) == NM_NOT_PINNED);
    CHECK(nm_worker_try_insert(&leaver, 5, TRIES) == NM_YES);
    CHECK(nm_worker_try_remove(&leaver, 5, 1) == NM_UNFINISHED && nm_drop(&leaver) == NM_DONE);
    CHECK(nm_worker_resign(&heir, 1) == NM_PENDING && nm_set_worker(&set, &leaver, 1) == NM_DONE);
    CHECK(nm_worker_pending(&leaver, &key) == NM_YES && key == 5 &&
          nm_worker_finish(&leaver, TRIES) == NM_YES);
    CHECK(nm_drop(&leaver) == NM_DONE && nm_set_worker(&set, &leaver, 1) == NM_DONE);
    CHECK(nm_worker_queue_len(&leaver, &nodes) == NM_DONE && nodes == 2 &&
          nm_worker_stats(&leaver, &stats) == NM_DONE);
    CHECK(stats.links == 1 && stats.flags == 1 && stats.splices == 1 && stats.retired == 2 &&
          stats.freed == 0 && stats.queued == 2);
    CHECK(nm_drop(&leaver) == NM_DONE && nm_drop(&heir) == NM_DONE && nm_drop(&set) == NM_DONE);
}

/* A stamp can be observed several times, has what its worker had done when it published the stamp,
 * and is the latest one. */
static void stamps(void) {
    nm_handle set = NM_CLOSED_HANDLE, writer = NM_CLOSED_HANDLE, reader = NM_CLOSED_HANDLE;
    uint64_t inserted = NOT_WRITTEN, removed = NOT_WRITTEN;
    CHECK(nm_set_new_unbalanced(&set, 64, 2) == NM_DONE &&
          nm_set_worker(&set, &writer, 1) == NM_DONE &&
          nm_set_worker(&set, &reader, 0) == NM_DONE);
    CHECK(nm_worker_observe(&reader, 1, &inserted, &removed) == NM_NO &&
          nm_worker_observe(&reader, 2, &inserted, &removed) == NM_NUMBER);
    CHECK(inserted == NOT_WRITTEN && removed == NOT_WRITTEN);
    CHECK(nm_worker_try_insert(&writer, 5, TRIES) == NM_YES &&
          nm_worker_try_insert(&writer, 6, TRIES) == NM_YES);
    CHECK(nm_worker_publish(&writer, &inserted, &removed) == NM_DONE && inserted == 2 &&
          removed == 0);
    CHECK(nm_worker_try_remove(&writer, 5, TRIES) == NM_YES);
    for (int turn = 0; turn < 3; turn++)
        CHECK(nm_worker_observe(&reader, 1, &inserted, &removed) == NM_YES && inserted == 2 &&
              removed == 0);
    CHECK(nm_worker_try_contains(&reader, 6, TRIES) == NM_YES &&
          nm_worker_observe(&writer, 1, &inserted, &removed) == NM_YES && inserted == 2);
    CHECK(nm_worker_publish(&writer, &inserted, &removed) == NM_DONE && inserted == 2 &&
          removed == 1);
    CHECK(nm_worker_observe(&reader, 1, &inserted, &removed) == NM_YES && inserted == 2 &&
          removed == 1);
    CHECK(nm_drop(&writer) == NM_DONE &&
          nm_worker_observe(&reader, 1, &inserted, &removed) == NM_YES && inserted == 2 &&
          removed == 1);
    CHECK(nm_drop(&reader) == NM_DONE && nm_set_close(&set) == NM_DONE && nm_drop(&set) == NM_DONE);
}

/* nm_set_attached returns which worker a close would miss: one that a handle has, and not one that
 * has resigned. If a worker is lost, the others go on, and find its keys. */
static void missed(void) {
    nm_handle set = NM_CLOSED_HANDLE, lost = NM_CLOSED_HANDLE, other = NM_CLOSED_HANDLE;
    uint64_t key = NOT_WRITTEN;
    CHECK(nm_set_attached(&set, 0) == NM_CLOSED && nm_set_new_unbalanced(&set, 64, 3) == NM_DONE &&
          nm_set_attached(&set, 3) == NM_NUMBER);
    CHECK(nm_set_attached(&set, 0) == NM_NO && nm_set_worker(&set, &lost, 1) == NM_DONE &&
          nm_set_worker(&set, &other, 0) == NM_DONE);
    CHECK(nm_set_attached(&lost, 0) == NM_KIND && nm_worker_try_insert(&lost, 5, TRIES) == NM_YES);
    CHECK(nm_worker_resign(&other, 2) == NM_DONE && nm_set_attached(&set, 2) == NM_NO &&
          nm_set_attached(&set, 0) == NM_YES);
    CHECK(nm_drop(&other) == NM_DONE && nm_set_attached(&set, 0) == NM_NO &&
          nm_set_attached(&set, 1) == NM_YES);
    CHECK(nm_set_close(&set) == NM_ATTACHED && nm_set_attached(&set, 1) == NM_YES);
    CHECK(nm_set_worker(&set, &other, 0) == NM_DONE &&
          nm_worker_try_insert(&other, 7, TRIES) == NM_YES);
    CHECK(nm_worker_next(&other, 0, TRIES, &key) == NM_YES && key == 5 &&
          nm_worker_next(&other, 6, TRIES, &key) == NM_YES && key == 7);
    CHECK(nm_worker_next(&other, 8, TRIES, &key) == NM_NO && nm_drop(&other) == NM_DONE);
    CHECK(nm_drop(&lost) == NM_DONE && nm_set_attached(&set, 1) == NM_NO &&
          nm_set_close(&set) == NM_DONE);
    CHECK(nm_set_attached(&set, 1) == NM_KIND && nm_drop(&set) == NM_DONE);
}

/* The last worker ends its set, held as it may be, and not while the set's handle or that of
 * another worker is open. */
static void ended(void) {
    nm_handle set = NM_CLOSED_HANDLE, last = NM_CLOSED_HANDLE, other = NM_CLOSED_HANDLE;
    uint64_t told = NOT_WRITTEN;
    CHECK(nm_set_new_unbalanced(&set, 64, 3) == NM_DONE &&
          nm_set_worker(&set, &last, 1) == NM_DONE && nm_set_worker(&set, &other, 0) == NM_DONE);
    CHECK(nm_worker_try_insert(&last, 5, TRIES) == NM_YES &&
          nm_worker_try_insert(&other, 6, TRIES) == NM_YES);
    CHECK(nm_worker_end(&set) == NM_KIND && nm_worker_end(&last) == NM_ATTACHED &&
          nm_drop(&set) == NM_DONE && nm_worker_end(&set) == NM_CLOSED);
    CHECK(nm_worker_end(&last) == NM_ATTACHED && nm_worker_end(&other) == NM_ATTACHED &&
          nm_worker_try_remove(&last, 6, TRIES) == NM_YES);
    CHECK(nm_drop(&other) == NM_DONE && nm_worker_pin(&last, TRIES, &told) == NM_DONE &&
          nm_worker_end(&last) == NM_DONE);
    CHECK(nm_worker_end(&last) == NM_KIND && nm_report_keys(&last, &told) == NM_DONE && told == 1);
    CHECK(nm_report_key(&last, 0, &told) == NM_DONE && told == 5 &&
          nm_report_queue(&last, 1, &told) == NM_DONE && told == 2);
    CHECK(nm_drop(&last) == NM_DONE && nm_worker_end(&last) == NM_CLOSED);
}

/* Each outcome has words of its own, and so has a number that is none. */
static void texts(void) {
    for (int first = NM_NO_WORKER - 1; first <= NM_OTHER; first++)
        for (int second = NM_NO_WORKER - 1; second < first; second++)
            CHECK(strcmp(nm_outcome_text((nm_outcome)first), nm_outcome_text((nm_outcome)second)) !=
                  0);
    CHECK(strcmp(nm_outcome_text(NM_FULL),
                 "no nodes are free for the new key: advance, collect and call again") == 0);
    CHECK(strcmp(nm_outcome_text((nm_outcome)(NM_OTHER + 1)),
                 nm_outcome_text((nm_outcome)(NM_NO_WORKER - 1))) == 0);
}

/* The library is the one of the header. */
static void versions(void) {
    uint32_t major = NOT_WRITTEN, minor = NOT_WRITTEN, patch = NOT_WRITTEN;
    CHECK(nm_set_version(&major, &minor, &patch) == NM_DONE);
    CHECK(major == NM_SET_VERSION_MAJOR && minor == NM_SET_VERSION_MINOR &&
          patch == NM_SET_VERSION_PATCH);
}

/* Workers are attached from the least number on, and none if all are attached. */
static void attached(void) {
    enum { WORKERS = 18 };
    nm_handle set = NM_CLOSED_HANDLE, workers[WORKERS] = {NM_CLOSED_HANDLE},
              none = NM_CLOSED_HANDLE;
    uint32_t number = NOT_WRITTEN;
    CHECK(nm_set_attach(&set, &none) == NM_CLOSED &&
          nm_set_new_unbalanced(&set, 64, WORKERS) == NM_DONE);
    for (int i = 0; i < WORKERS; i++) {
        CHECK(nm_set_attach(&set, &workers[i]) == NM_DONE &&
              nm_set_attach(&set, &workers[i]) == NM_OPEN);
        CHECK(nm_worker_number(&workers[i], &number) == NM_DONE && number == (uint32_t)i);
    }
    CHECK(nm_set_attach(&set, &none) == NM_NO_WORKER &&
          nm_set_attach(&workers[0], &none) == NM_KIND);
    CHECK(nm_drop(&workers[4]) == NM_DONE && nm_set_attach(&set, &none) == NM_DONE);
    CHECK(nm_worker_number(&none, &number) == NM_DONE && number == 4 && nm_drop(&none) == NM_DONE);
    for (int i = 0; i < WORKERS; i++) CHECK(nm_drop(&workers[i]) == (i == 4 ? NM_CLOSED : NM_DONE));
    CHECK(nm_set_close(&set) == NM_DONE && nm_set_attach(&set, &none) == NM_KIND &&
          nm_drop(&set) == NM_DONE);
}

/* If another call has a handle, each function returns NM_IN_USE, and the handle keeps what it owns.
 * After that call the handle can be used as before. */
static void used(void) {
    nm_handle set = NM_CLOSED_HANDLE, worker = NM_CLOSED_HANDLE, other = NM_CLOSED_HANDLE;
    CHECK(nm_set_new_unbalanced(&set, 64, 2) == NM_DONE &&
          nm_set_worker(&set, &worker, 0) == NM_DONE);
    worker.in_use = 1;
    void *owned = worker.at;
    is_refused(&worker, NM_IN_USE, NM_IN_USE);
    CHECK(nm_drop(&worker) == NM_IN_USE && nm_set_worker(&set, &worker, 1) == NM_IN_USE &&
          nm_set_attach(&set, &worker) == NM_IN_USE);
    CHECK(nm_set_new_unbalanced(&worker, 64, 2) == NM_IN_USE &&
          nm_set_close(&worker) == NM_IN_USE && worker.at == owned);
    worker.in_use = 0;
    CHECK(nm_worker_try_insert(&worker, 5, TRIES) == NM_YES);
    set.in_use = 1;
    CHECK(nm_set_worker(&set, &other, 1) == NM_IN_USE && nm_set_attach(&set, &other) == NM_IN_USE &&
          nm_set_close(&set) == NM_IN_USE);
    CHECK(nm_set_attached(&set, 0) == NM_IN_USE);
    CHECK(other.at == NULL && other.in_use == 0);
    set.in_use = 0;
    CHECK(nm_set_worker(&set, &set, 1) == NM_OPEN &&
          nm_set_worker(&worker, &worker, 1) == NM_OPEN &&
          nm_set_worker(&other, &other, 1) == NM_IN_USE);
    CHECK(nm_set_attach(&set, &other) == NM_DONE && nm_drop(&other) == NM_DONE &&
          nm_drop(&worker) == NM_DONE);
    CHECK(nm_set_close(&set) == NM_DONE && nm_drop(&set) == NM_DONE);
}

int main(void) {
    texts();
    versions();
    attached();
    used();
    sizes();
    kinds();
    kinds_of_maps();
    answers();
    managed();
    collected();
    epochs();
    ends();
    away();
    stamps();
    missed();
    ended();
    puts("each outcome is as it should be");
    return 0;
}
