/* One thread looks up random keys, one by one and several in a call, by turns in the same set.
 * Prints for each size of the set and of the call the medians of the processor time of a look-up,
 * and of each round's ratio. */
#define _POSIX_C_SOURCE 199309L
#include "holds.h"
#include "nm_set.h"

#include <inttypes.h>
#include <string.h>
#include <time.h>

enum { ROUNDS = 9, LOOKUPS = 1 << 18, MOST = 64, TRIES = 64 };

static const uint64_t SCATTER = UINT64_C(0x9E3779B97F4A7C15);

static double spent(void) {
    struct timespec at;
    clock_gettime(CLOCK_THREAD_CPUTIME_ID, &at);
    return (double)at.tv_sec * 1e9 + (double)at.tv_nsec;
}

static uint64_t draw(uint64_t *seed) {
    *seed ^= *seed << 13;
    *seed ^= *seed >> 7;
    *seed ^= *seed << 17;
    return *seed;
}

/* Half of the keys that are looked up are in the set. */
static uint64_t any_key(uint64_t *seed, uint64_t keys) {
    return draw(seed) % (2 * keys) * SCATTER >> 1;
}

/* Nanoseconds a look-up of so many in a call; 1: by the call for one key. Adds to `found` how many
 * were found. */
static double looked(nm_handle *worker, uint64_t keys, size_t together, uint64_t *found) {
    uint64_t seed = 88172645463325252u;
    nm_lookup lookups[MOST];
    double begun = spent();
    for (size_t done = 0; done < LOOKUPS; done += together) {
        if (together == 1) {
            nm_outcome told = nm_worker_try_contains(worker, any_key(&seed, keys), TRIES);
            CHECK(told == NM_YES || told == NM_NO);
            *found += told == NM_YES;
            continue;
        }
        for (size_t i = 0; i < together; i++) lookups[i] = (nm_lookup){.key = any_key(&seed, keys)};
        CHECK(nm_worker_contains_many(worker, lookups, together, TRIES) == NM_DONE);
        for (size_t i = 0; i < together; i++) *found += lookups[i].found != 0;
    }
    return (spent() - begun) / LOOKUPS;
}

static int rising(const void *one, const void *two) {
    double a = *(const double *)one, b = *(const double *)two;
    return (a > b) - (a < b);
}

static double median(const double *of) {
    double sorted[ROUNDS];
    memcpy(sorted, of, sizeof sorted);
    qsort(sorted, ROUNDS, sizeof *sorted, rising);
    return sorted[ROUNDS / 2];
}

int main(void) {
    static const uint64_t sizes[] = {16, 256, 4096, 65536, 500000};
    static const size_t calls[] = {4, 8, 16, 32, 64};
    puts("| Keys | In a call | One by one | Together | Ratio |\n|---|---|---|---|---|");
    for (size_t s = 0; s < sizeof sizes / sizeof *sizes; s++) {
        nm_handle set = NM_CLOSED_HANDLE, worker = NM_CLOSED_HANDLE;
        CHECK(nm_set_new(&set, (uint32_t)(4 * sizes[s] + 64), 64) == NM_DONE &&
              nm_set_attach(&set, &worker) == NM_DONE);
        for (uint64_t i = 0; i < sizes[s]; i++)
            CHECK(nm_worker_try_insert(&worker, 2 * i * SCATTER >> 1, TRIES) == NM_YES);
        for (size_t c = 0; c < sizeof calls / sizeof *calls; c++) {
            double alone[ROUNDS], together[ROUNDS], ratio[ROUNDS];
            for (int round = 0; round < ROUNDS; round++) {
                uint64_t one = 0, many = 0;
                alone[round] = looked(&worker, sizes[s], 1, &one);
                together[round] = looked(&worker, sizes[s], calls[c], &many);
                ratio[round] = alone[round] / together[round];
                CHECK(one == many);
            }
            printf("| %" PRIu64 " | %zu | %.0f | %.0f | %.2f |\n", sizes[s], calls[c],
                median(alone), median(together), median(ratio));
            fflush(stdout);
        }
        CHECK(nm_drop(&worker) == NM_DONE && nm_set_close(&set) == NM_DONE &&
              nm_drop(&set) == NM_DONE);
    }
    return 0;
}
