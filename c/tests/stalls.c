/* Tests the memory of the queues after stalls. Each of 63 workers in turn meets one stall: while
 * worker 0 is pinned, it removes keys until 400,000 nodes wait. When worker 0 has gone on, these
 * are freed, and the worker is returned. After each stall the queues of all workers take no more
 * than the header says for each worker. At the end malloc has given out no more than twice what the
 * set took when it was made. */
#include "holds.h"
#include "nm_set.h"

#include <inttypes.h>
#include <malloc.h>
#include <stdio.h>

#if defined(__SANITIZE_ADDRESS__)
#define SANITIZED 1
#elif defined(__has_feature)
#if __has_feature(address_sanitizer)
#define SANITIZED 1
#endif
#endif

enum {
    NODES = 1 << 20,
    WORKERS = 64,
    KEYS = 200000,
    WAITING = 2 * KEYS,
    A_WORKER = 7800, /* 7,712, and what malloc adds to each block */
    TRIES = 64
};

static nm_handle set = NM_CLOSED_HANDLE, pinned = NM_CLOSED_HANDLE;

/* The bytes that the program has from malloc, which a sanitizer replaces. */
#ifdef SANITIZED
size_t __sanitizer_get_current_allocated_bytes(void);
#endif
static uint64_t taken(void) {
#ifdef SANITIZED
    return __sanitizer_get_current_allocated_bytes();
#else
    struct mallinfo2 now = mallinfo2();
    return now.uordblks + now.hblkhd;
#endif
}

/* A key for each number, in scattered order. */
static uint64_t key(uint64_t number) { return number * 0x9E3779B97F4A7C15u >> 2; }

/* Worker 0 stays pinned while the other one inserts and deletes each key; then all is freed. What
 * was taken while the nodes waited. */
static uint64_t stall(nm_handle *worker) {
    uint64_t epoch, freed, waiting, most;
    uint32_t behind;
    CHECK(nm_worker_pin(&pinned, TRIES, &epoch) == NM_DONE);
    for (uint64_t i = 0; i < KEYS; i++)
        CHECK(nm_worker_try_insert(worker, key(i), TRIES) == NM_YES);
    for (uint64_t i = 0; i < KEYS; i++)
        CHECK(nm_worker_try_remove(worker, key(i), TRIES) == NM_YES);
    CHECK(nm_worker_queue_len(worker, &waiting) == NM_DONE && waiting == WAITING);
    most = taken();
    CHECK(nm_worker_unpin(&pinned) == NM_DONE);
    for (int i = 0; i < 2; i++)
        CHECK(nm_worker_advance(worker, &epoch, &behind) == NM_DONE);
    CHECK(nm_worker_collect(worker, &epoch, &freed) == NM_DONE && freed == WAITING);
    return most;
}

int main(void) {
    uint64_t before = taken(), made, most = 0;
    CHECK(nm_set_new_unbalanced(&set, NODES, WORKERS) == NM_DONE);
    made = taken();
    CHECK(made - before > 32 * (uint64_t)NODES);
    CHECK(nm_set_worker(&set, &pinned, 0) == NM_DONE);
    for (uint32_t number = 1; number < WORKERS; number++) {
        nm_handle worker = NM_CLOSED_HANDLE;
        uint64_t during, behind;
        CHECK(nm_set_worker(&set, &worker, number) == NM_DONE);
        during = stall(&worker);
        if (during > most) most = during;
        CHECK(nm_drop(&worker) == NM_DONE);
        behind = taken() - made;
        CHECK(behind <= (uint64_t)A_WORKER * (number + 1));
    }
    CHECK(taken() - before <= 2 * (made - before));
    printf("a set of %" PRIu64 " bytes: %" PRIu64 " above it in a stall at most, %" PRIu64
           " behind 63 of them\n",
           made - before, most - made, taken() - made);
    CHECK(nm_drop(&pinned) == NM_DONE && nm_set_close(&set) == NM_DONE && nm_drop(&set) == NM_DONE);
    return 0;
}
