/* What the tests of nm_map.h share: how many nodes wait with a worker, and the time. */
#ifndef MAP_PARTS_H
#define MAP_PARTS_H

#include "holds.h"
#include "nm_map.h"

#include <time.h>

static uint64_t waiting(nm_handle *worker) {
    uint64_t nodes = 0;
    CHECK(nm_map_queue_len(worker, &nodes) == NM_DONE);
    return nodes;
}

static uint64_t now_ms(void) {
    struct timespec time;
    CHECK(timespec_get(&time, TIME_UTC) == TIME_UTC);
    return (uint64_t)time.tv_sec * 1000 + (uint64_t)time.tv_nsec / 1000000;
}

#endif
