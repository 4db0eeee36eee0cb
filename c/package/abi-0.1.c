#include "nm_set.h"
#include <stddef.h>
_Static_assert(sizeof(nm_outcome) == sizeof(int32_t) && (nm_outcome)-1 < 0, "an outcome is an int32_t");
_Static_assert(sizeof(nm_handle) == 16 && offsetof(nm_handle, at) == 0, "a handle is two words");
_Static_assert(offsetof(nm_handle, in_use) == 8 && sizeof(((nm_handle *)0)->in_use) == 8, "in_use");
_Static_assert(NM_NOBODY == UINT32_MAX, "the number of no worker");
_Static_assert(NM_NO == 0, "NM_NO");
_Static_assert(NM_YES == 1, "NM_YES");
_Static_assert(NM_DONE == 2, "NM_DONE");
_Static_assert(NM_INSERTED == 3, "NM_INSERTED");
_Static_assert(NM_REPLACED == 4, "NM_REPLACED");
_Static_assert(NM_ABSENT == 5, "NM_ABSENT");
_Static_assert(NM_OTHER == 6, "NM_OTHER");
_Static_assert(NM_CLOSED == -1, "NM_CLOSED");
_Static_assert(NM_OPEN == -2, "NM_OPEN");
_Static_assert(NM_KIND == -3, "NM_KIND");
_Static_assert(NM_KEY == -4, "NM_KEY");
_Static_assert(NM_NUMBER == -5, "NM_NUMBER");
_Static_assert(NM_NODES == -6, "NM_NODES");
_Static_assert(NM_WORKERS == -7, "NM_WORKERS");
_Static_assert(NM_NO_MEMORY == -8, "NM_NO_MEMORY");
_Static_assert(NM_BUSY == -9, "NM_BUSY");
_Static_assert(NM_FULL == -10, "NM_FULL");
_Static_assert(NM_UNFINISHED == -11, "NM_UNFINISHED");
_Static_assert(NM_PENDING == -12, "NM_PENDING");
_Static_assert(NM_PINNED == -13, "NM_PINNED");
_Static_assert(NM_NOT_PINNED == -14, "NM_NOT_PINNED");
_Static_assert(NM_BEHIND == -15, "NM_BEHIND");
_Static_assert(NM_LOST == -16, "NM_LOST");
_Static_assert(NM_SPENT == -17, "NM_SPENT");
_Static_assert(NM_ATTACHED == -18, "NM_ATTACHED");
_Static_assert(NM_CLOSING == -19, "NM_CLOSING");
_Static_assert(NM_NOT_ALL == -20, "NM_NOT_ALL");
_Static_assert(NM_UNCOUNTED == -21, "NM_UNCOUNTED");
_Static_assert(NM_IN_USE == -22, "NM_IN_USE");
_Static_assert(NM_NO_WORKER == -23, "NM_NO_WORKER");
_Static_assert(offsetof(nm_stats, links) == 0 && sizeof(((nm_stats *)0)->links) == 8, "links");
_Static_assert(offsetof(nm_stats, flags) == 8 && sizeof(((nm_stats *)0)->flags) == 8, "flags");
_Static_assert(offsetof(nm_stats, splices) == 16 && sizeof(((nm_stats *)0)->splices) == 8, "splices");
_Static_assert(offsetof(nm_stats, retired) == 24 && sizeof(((nm_stats *)0)->retired) == 8, "retired");
_Static_assert(offsetof(nm_stats, freed) == 32 && sizeof(((nm_stats *)0)->freed) == 8, "freed");
_Static_assert(offsetof(nm_stats, queued) == 40 && sizeof(((nm_stats *)0)->queued) == 8, "queued");
_Static_assert(offsetof(nm_lookup, key) == 0 && sizeof(((nm_lookup *)0)->key) == 8, "key");
_Static_assert(offsetof(nm_lookup, found) == 8 && sizeof(((nm_lookup *)0)->found) == 8, "found");
_Static_assert(offsetof(nm_map_lookup, key) == 0 && sizeof(((nm_map_lookup *)0)->key) == 8, "key");
_Static_assert(offsetof(nm_map_lookup, found) == 8 && sizeof(((nm_map_lookup *)0)->found) == 8, "found");
_Static_assert(offsetof(nm_map_lookup, value) == 16 && sizeof(((nm_map_lookup *)0)->value) == 8, "value");
_Static_assert(offsetof(nm_waiting, slot) == 0 && sizeof(((nm_waiting *)0)->slot) == 8, "slot");
_Static_assert(offsetof(nm_waiting, generation) == 8 && sizeof(((nm_waiting *)0)->generation) == 8, "generation");
_Static_assert(offsetof(nm_waiting, label) == 16 && sizeof(((nm_waiting *)0)->label) == 8, "label");
_Static_assert(offsetof(nm_options, tries) == 0 && sizeof(((nm_options *)0)->tries) == 4, "tries");
_Static_assert(offsetof(nm_options, rounds) == 4 && sizeof(((nm_options *)0)->rounds) == 4, "rounds");
_Static_assert(offsetof(nm_options, collect_after) == 8 && sizeof(((nm_options *)0)->collect_after) == 4, "collect_after");
_Static_assert(offsetof(nm_entry, key) == 0 && sizeof(((nm_entry *)0)->key) == 8, "key");
_Static_assert(offsetof(nm_entry, value) == 8 && sizeof(((nm_entry *)0)->value) == 8, "value");
_Static_assert(sizeof(nm_map_lookup) == 24, "nm_map_lookup");
_Static_assert(sizeof(nm_lookup) == 16, "nm_lookup");
_Static_assert(sizeof(nm_entry) == 16, "nm_entry");
_Static_assert(sizeof(nm_stats) == 48, "nm_stats");
_Static_assert(sizeof(nm_options) == 12, "nm_options");
_Static_assert(sizeof(nm_waiting) == 24, "nm_waiting");
int is_an_outcome(nm_outcome outcome);
int is_an_outcome(nm_outcome outcome) {
    switch (outcome) {
    case NM_NO:
    case NM_YES:
    case NM_DONE:
    case NM_INSERTED:
    case NM_REPLACED:
    case NM_ABSENT:
    case NM_OTHER:
    case NM_CLOSED:
    case NM_OPEN:
    case NM_KIND:
    case NM_KEY:
    case NM_NUMBER:
    case NM_NODES:
    case NM_WORKERS:
    case NM_NO_MEMORY:
    case NM_BUSY:
    case NM_FULL:
    case NM_UNFINISHED:
    case NM_PENDING:
    case NM_PINNED:
    case NM_NOT_PINNED:
    case NM_BEHIND:
    case NM_LOST:
    case NM_SPENT:
    case NM_ATTACHED:
    case NM_CLOSING:
    case NM_NOT_ALL:
    case NM_UNCOUNTED:
    case NM_IN_USE:
    case NM_NO_WORKER:
        return 1;
    }
    return 0;
}
void point_to_each(void);
void point_to_each(void) {
    { nm_outcome (*exported)(nm_handle *set) = nm_set_close; (void)exported; }
    { nm_outcome (*exported)(nm_handle *worker) = nm_worker_end; (void)exported; }
    { nm_outcome (*exported)(nm_handle *worker, uint32_t tries, uint64_t *epoch) = nm_worker_pin; (void)exported; }
    { nm_outcome (*exported)(nm_handle *worker) = nm_worker_unpin; (void)exported; }
    { nm_outcome (*exported)(nm_handle *worker, uint64_t *epoch, uint32_t *behind) = nm_worker_advance; (void)exported; }
    { nm_outcome (*exported)(nm_handle *worker, uint64_t *epoch, uint64_t *mask) = nm_worker_behind; (void)exported; }
    { nm_outcome (*exported)(nm_handle *worker, uint64_t *epoch, uint64_t *freed) = nm_worker_collect; (void)exported; }
    { nm_outcome (*exported)(nm_handle *worker, uint64_t key, uint32_t tries) = nm_worker_try_contains; (void)exported; }
    { nm_outcome (*exported)(nm_handle *worker, uint64_t key, uint32_t tries) = nm_worker_try_insert; (void)exported; }
    { nm_outcome (*exported)(nm_handle *worker, uint64_t key, uint32_t tries) = nm_worker_try_remove; (void)exported; }
    { nm_outcome (*exported)(nm_handle *worker, uint32_t tries) = nm_worker_finish; (void)exported; }
    { nm_outcome (*exported)(nm_handle *worker, uint64_t key, const nm_options *options) = nm_worker_contains; (void)exported; }
    { nm_outcome (*exported)(nm_handle *worker, uint64_t key, const nm_options *options) = nm_worker_insert; (void)exported; }
    { nm_outcome (*exported)(nm_handle *worker, uint64_t key, const nm_options *options) = nm_worker_remove; (void)exported; }
    { nm_outcome (*exported)(nm_handle *worker, nm_lookup *lookups, size_t lookups_count, uint32_t tries) = nm_worker_contains_many; (void)exported; }
    { nm_outcome (*exported)(nm_handle *worker, uint64_t key, uint32_t tries, uint64_t *found, uint64_t *value) = nm_map_next; (void)exported; }
    { nm_outcome (*exported)(nm_handle *worker, uint64_t key, uint32_t tries, uint64_t *found, uint64_t *value) = nm_map_prev; (void)exported; }
    { nm_outcome (*exported)(nm_handle *worker, const nm_options *options, uint64_t *taken, uint64_t *value) = nm_map_pop_first; (void)exported; }
    { nm_outcome (*exported)(nm_handle *worker, const nm_options *options, uint64_t *taken, uint64_t *value) = nm_map_pop_last; (void)exported; }
    { nm_outcome (*exported)(nm_handle *worker, uint64_t below, const nm_options *options, uint64_t *taken, uint64_t *value) = nm_map_pop_first_below; (void)exported; }
    { nm_outcome (*exported)(nm_handle *worker, uint64_t from, const nm_options *options, uint64_t *taken, uint64_t *value) = nm_map_pop_last_from; (void)exported; }
    { nm_outcome (*exported)(nm_handle *worker, uint32_t tries, uint64_t *epoch) = nm_map_pin; (void)exported; }
    { nm_outcome (*exported)(nm_handle *worker) = nm_map_unpin; (void)exported; }
    { nm_outcome (*exported)(nm_handle *worker, uint64_t key, uint64_t *value) = nm_map_get_pinned; (void)exported; }
    { nm_outcome (*exported)(nm_handle *worker, uint64_t *values, size_t values_count, uint64_t *count, uint32_t *behind) = nm_map_reclaim; (void)exported; }
    { nm_outcome (*exported)(nm_handle *worker, nm_map_lookup *lookups, size_t lookups_count) = nm_map_get_many_pinned; (void)exported; }
    { nm_outcome (*exported)(nm_handle *worker, uint64_t key, uint64_t value, const nm_options *options, uint64_t *old) = nm_map_put; (void)exported; }
    { nm_outcome (*exported)(nm_handle *worker, uint64_t key, uint64_t value, const nm_options *options, uint64_t *old) = nm_map_replace; (void)exported; }
    { nm_outcome (*exported)(nm_handle *worker, uint64_t key, uint64_t expected, uint64_t value, const nm_options *options, uint64_t *found) = nm_map_compare_replace; (void)exported; }
    { nm_outcome (*exported)(nm_handle *worker, uint64_t key, uint64_t expected, const nm_options *options, uint64_t *found) = nm_map_remove_if; (void)exported; }
    { nm_outcome (*exported)(nm_handle *report, uint64_t index, uint64_t *value) = nm_map_report_value; (void)exported; }
    { nm_outcome (*exported)(nm_handle *report, uint32_t worker, uint64_t *value) = nm_map_report_returned; (void)exported; }
    { nm_outcome (*exported)(nm_handle *worker, uint64_t from, uint64_t below, nm_entry *entries, size_t entries_count, uint64_t *count, uint64_t *next, uint32_t tries) = nm_map_scan_entries; (void)exported; }
    { nm_outcome (*exported)(nm_handle *worker, uint64_t from, uint64_t least, nm_entry *entries, size_t entries_count, uint64_t *count, uint64_t *next, uint32_t tries) = nm_map_scan_entries_back; (void)exported; }
    { nm_outcome (*exported)(nm_handle *worker, uint64_t key, const nm_options *options, uint64_t *value) = nm_map_get; (void)exported; }
    { nm_outcome (*exported)(nm_handle *worker, uint64_t key, uint64_t value, const nm_options *options) = nm_map_insert; (void)exported; }
    { nm_outcome (*exported)(nm_handle *worker, uint64_t key, uint64_t value, const nm_options *options, uint64_t *found) = nm_map_get_or_insert; (void)exported; }
    { nm_outcome (*exported)(nm_handle *worker, uint64_t key, const nm_options *options, uint64_t *value) = nm_map_remove; (void)exported; }
    { nm_outcome (*exported)(nm_handle *worker, uint64_t from, uint64_t below, uint64_t *keys, size_t keys_count, uint64_t *count, uint64_t *next, uint32_t tries) = nm_map_scan; (void)exported; }
    { nm_outcome (*exported)(nm_handle *worker, uint64_t from, uint64_t least, uint64_t *keys, size_t keys_count, uint64_t *count, uint64_t *next, uint32_t tries) = nm_map_scan_back; (void)exported; }
    { nm_outcome (*exported)(nm_handle *worker, uint32_t *number) = nm_map_number; (void)exported; }
    { nm_outcome (*exported)(nm_handle *worker, uint64_t *nodes) = nm_map_queue_len; (void)exported; }
    { nm_outcome (*exported)(nm_handle *worker, uint64_t *key) = nm_map_pending; (void)exported; }
    { nm_outcome (*exported)(nm_handle *map, uint32_t nodes, uint32_t workers) = nm_map_new; (void)exported; }
    { nm_outcome (*exported)(nm_handle *map, nm_handle *worker, uint32_t number) = nm_map_worker; (void)exported; }
    { nm_outcome (*exported)(nm_handle *map, nm_handle *worker) = nm_map_attach; (void)exported; }
    { nm_outcome (*exported)(nm_handle *map, uint32_t number) = nm_map_attached; (void)exported; }
    { nm_outcome (*exported)(nm_handle *map) = nm_map_close; (void)exported; }
    { nm_outcome (*exported)(nm_handle *worker, uint64_t key, uint32_t tries, uint64_t *found) = nm_worker_next; (void)exported; }
    { nm_outcome (*exported)(nm_handle *worker, uint64_t key, uint32_t tries, uint64_t *found) = nm_worker_prev; (void)exported; }
    { nm_outcome (*exported)(nm_handle *worker, uint64_t *inserted, uint64_t *removed) = nm_worker_publish; (void)exported; }
    { nm_outcome (*exported)(nm_handle *worker, uint32_t number, uint64_t *inserted, uint64_t *removed) = nm_worker_observe; (void)exported; }
    { nm_outcome (*exported)(nm_handle *worker, const nm_options *options, uint64_t *taken) = nm_worker_pop_first; (void)exported; }
    { nm_outcome (*exported)(nm_handle *worker, const nm_options *options, uint64_t *taken) = nm_worker_pop_last; (void)exported; }
    { nm_outcome (*exported)(nm_handle *worker, uint64_t below, const nm_options *options, uint64_t *taken) = nm_worker_pop_first_below; (void)exported; }
    { nm_outcome (*exported)(nm_handle *worker, uint64_t from, const nm_options *options, uint64_t *taken) = nm_worker_pop_last_from; (void)exported; }
    { nm_outcome (*exported)(nm_handle *report, uint32_t *free, uint32_t *reached) = nm_report_slots; (void)exported; }
    { nm_outcome (*exported)(nm_handle *report, uint64_t *count) = nm_report_keys; (void)exported; }
    { nm_outcome (*exported)(nm_handle *report, uint64_t index, uint64_t *key) = nm_report_key; (void)exported; }
    { nm_outcome (*exported)(nm_handle *report, uint32_t worker, uint64_t *nodes) = nm_report_queue; (void)exported; }
    { nm_outcome (*exported)(nm_handle *report, uint32_t worker, nm_waiting *waiting) = nm_report_waiting; (void)exported; }
    { nm_outcome (*exported)(nm_handle *worker, uint64_t from, uint64_t below, uint64_t *keys, size_t keys_count, uint64_t *count, uint64_t *next, uint32_t tries) = nm_worker_scan; (void)exported; }
    { nm_outcome (*exported)(nm_handle *worker, uint64_t from, uint64_t least, uint64_t *keys, size_t keys_count, uint64_t *count, uint64_t *next, uint32_t tries) = nm_worker_scan_back; (void)exported; }
    { nm_outcome (*exported)(nm_handle *set, uint32_t nodes, uint32_t workers) = nm_set_new; (void)exported; }
    { nm_outcome (*exported)(nm_handle *set, uint32_t nodes, uint32_t workers) = nm_set_new_unbalanced; (void)exported; }
    { nm_outcome (*exported)(nm_handle *set, uint32_t nodes, uint32_t workers) = nm_set_new_first_fit; (void)exported; }
    { nm_outcome (*exported)(nm_handle *set, nm_handle *worker, uint32_t number) = nm_set_worker; (void)exported; }
    { nm_outcome (*exported)(nm_handle *set, nm_handle *worker) = nm_set_attach; (void)exported; }
    { nm_outcome (*exported)(nm_handle *set, uint32_t number) = nm_set_attached; (void)exported; }
    { nm_outcome (*exported)(nm_handle *handle) = nm_drop; (void)exported; }
    { nm_outcome (*exported)(uint32_t *major, uint32_t *minor, uint32_t *patch) = nm_set_version; (void)exported; }
    { nm_outcome (*exported)(nm_handle *worker, uint32_t *number) = nm_worker_number; (void)exported; }
    { nm_outcome (*exported)(nm_handle *worker, uint64_t *nodes) = nm_worker_queue_len; (void)exported; }
    { nm_outcome (*exported)(nm_handle *worker, uint64_t *key) = nm_worker_pending; (void)exported; }
    { nm_outcome (*exported)(nm_handle *worker, uint64_t *epoch) = nm_worker_pinned; (void)exported; }
    { nm_outcome (*exported)(nm_handle *worker, nm_stats *stats) = nm_worker_stats; (void)exported; }
    { nm_outcome (*exported)(nm_handle *worker, uint32_t leaver) = nm_worker_resign; (void)exported; }
}
