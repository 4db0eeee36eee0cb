/* Tests that a walk of the stack from inside the library finds the program that called it, like the
 * walk of a debugger or of the handler of a crash: each function of the library has unwind data.
 * The walks begin in malloc, which the library calls: c/check links this with --wrap=malloc. */
#include "../holds.h"
#include "nm_set.h"

#include <execinfo.h>

enum { DEEP = 64, KEYS = 200 };

/* The section of the functions that call the library. */
#define IN_CALLERS __attribute__((noinline, section("callers")))
extern const char __start_callers[], __stop_callers[];

void *__real_malloc(size_t size);
void *__wrap_malloc(size_t size);

static int walks, strays;

/* Walks up from here, and counts whether it came to one of these functions. */
void *__wrap_malloc(size_t size) {
    void *walk[DEEP];
    int depth = backtrace(walk, DEEP), found = 0;
    for (int i = 0; i < depth; i++)
        found |= (const char *)walk[i] > __start_callers && (const char *)walk[i] < __stop_callers;
    walks++;
    strays += !found;
    return __real_malloc(size);
}

IN_CALLERS static void make(nm_handle *set, nm_handle *worker) {
    CHECK(nm_set_new_unbalanced(set, 1024, 2) == NM_DONE);
    CHECK(nm_set_worker(set, worker, 0) == NM_DONE);
}

IN_CALLERS static void change(nm_handle *worker) {
    for (uint64_t key = 0; key < KEYS; key++)
        CHECK(nm_worker_try_insert(worker, key, 64) == NM_YES);
    for (uint64_t key = 0; key < KEYS; key++)
        CHECK(nm_worker_try_remove(worker, key, 64) == NM_YES);
}

IN_CALLERS static void end(nm_handle *set, nm_handle *worker) {
    CHECK(nm_drop(worker) == NM_DONE);
    CHECK(nm_set_close(set) == NM_DONE);
    CHECK(nm_drop(set) == NM_DONE);
}

/* Whether there were such walks since the last time, and all came home. */
static int came_home(void) {
    int was = walks;
    walks = 0;
    return was > 0 && strays == 0;
}

int main(void) {
    nm_handle set = NM_CLOSED_HANDLE, worker = NM_CLOSED_HANDLE;
    make(&set, &worker);
    CHECK(came_home());
    change(&worker);
    CHECK(came_home());
    end(&set, &worker);
    CHECK(came_home());
    puts("each walk came to the caller");
    return 0;
}
