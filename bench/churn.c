/* For bench/churn: inserts after churn, whose instructions valgrind counts. Arguments: how many
 * keys the set has, and how many inserts are counted. It prints how many inserts were true. */
#include "counted.h"
#include "nm_set.h"

static nm_handle set = NM_CLOSED_HANDLE;
static _Alignas(64) nm_handle worker = NM_CLOSED_HANDLE;

/* valgrind counts what happens in here alone. */
__attribute__((noinline)) int counted_insert(uint64_t key) {
    return nm_worker_insert(&worker, key, &nm_default_options) == NM_YES;
}

static void pop(void) {
    uint64_t key;
    must(nm_worker_pop_first(&worker, &nm_default_options, &key) == NM_YES, "a pop found no key");
}

int main(int count, char **words) {
    if (count != 3) return 2;
    uint64_t keys = strtoull(words[1], NULL, 10), inserts = strtoull(words[2], NULL, 10), trues = 0;
    must(keys > 0 && keys <= 60000000, "from 1 to 60,000,000 keys");
    must(nm_set_new(&set, (uint32_t)(4 * keys + 4096), 1) == NM_DONE, "no memory for the set");
    must(nm_set_worker(&set, &worker, 0) == NM_DONE, "no worker");
    for (uint64_t made = 0; made < keys; made++)
        must(nm_worker_insert(&worker, random_key(), &nm_default_options) == NM_YES, "a fill failed");
    for (uint64_t turn = 0; turn < keys; turn++) {
        pop();
        must(nm_worker_insert(&worker, random_key(), &nm_default_options) == NM_YES, "a turn failed");
    }
    for (uint64_t made = 0; made < inserts; made++) {
        pop();
        trues += counted_insert(random_key());
    }
    printf("%llu\n", (unsigned long long)trues);
    nm_drop(&worker);
    nm_drop(&set);
    return 0;
}
