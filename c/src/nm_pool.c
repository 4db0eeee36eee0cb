/* The pool of nm_pool.h. Each worker has a seat, and a call takes a seat by an atomic exchange. A
 * thread that is lost inside a call keeps at most the seat that it has. Only a thread that is lost
 * while it closes the set, or gives it a new size, keeps others from that, or from calls. */
#define _GNU_SOURCE
#include "nm_pool.h"

#include <errno.h>
#include <inttypes.h>
#include <limits.h>
#include <linux/futex.h>
#include <pthread.h>
#include <sched.h>
#include <stdalign.h>
#include <stdarg.h>
#include <stdatomic.h>
#include <stdbool.h>
#include <stdio.h>
#include <stdlib.h>
#include <string.h>
#include <sys/syscall.h>
#include <time.h>
#include <unistd.h>

#define LINE 64          /* the bytes of a cache line */
#define PROCESSORS 64    /* the places of processors; two processors may have one place */
#define LOOKS 256        /* how often a call looks at a handle in use before it pauses */
#define YIELDS 4         /* how often a wait yields before it sleeps */
#define FIRST_SLEEP 20000     /* nanoseconds */
#define LONGEST_SLEEP 1000000 /* nanoseconds */
#define MOVES 3          /* the most advances before a collection; waiting nodes need two */
#define COLLECT_LOOKS 4  /* how often a collection looks at a worker in use */
#define ROOM_TURNS 8     /* how often an insert yields for nodes before it sleeps */
#define ROOM_LOOKS 20000 /* nanoseconds: how long it looks for nodes after each yield */
#define BACK_TURNS 16    /* how often a call yields back to an insert */
#define END_MS 10000     /* how long nm_pool_free waits for calls */
#define WORKERS 64       /* the most workers of a set */
#define MOST_KEY (UINT64_MAX - 3) /* the greatest key */
#define SCANNED 512      /* how many keys a count reads in one call */
#define SOUGHT 64        /* how many keys a call for many looks up together */
#define FIRST_NODES 20005     /* of a set that grows: room for 10,000 keys */
#define MOST_NODES 268435456u /* the most nodes of a set */
#define STOP_MS 5        /* how long a change of the size keeps calls waiting for one in progress */
#define REST 10000000u   /* nanoseconds between an attempt that failed and the next one */
#define NODE 1000u       /* nanoseconds that an insert waits for each node that another one makes */
#define CROWDED 8        /* a set grows without a collection if its keys leave less than an eighth */
#define BRIM 64u         /* the free nodes of a set at its brim, and the inserts between two looks */
#define FINISHES 1000    /* how often a remove that is pending is continued before a new size */

/* What uses a seat: nothing, a call by NM_ANY, or a thread that attached its worker. Or no call may
 * use it, because the set is closed. */
enum use { FREE, CALL, LENT, CLOSED };

/* OPEN: calls are made. SIZING: they wait until the set has its new size. CLOSING: they wait for
 * the end of a close. GATHERED: a close was refused memory after it had taken all workers. ENDED:
 * the report was given out. LEFT: the pool was given up, and attached workers go on. */
enum phase { OPEN, SIZING, CLOSING, GATHERED, ENDED, LEFT };

/* The words of a set or a map for calls that wait for a key: see below. */
enum { AWAITED, OF_OTHERS, ADDED };

/* What a call that returns NM_YES does to the number of keys. */
enum gain { NONE, INSERTS, REMOVES };

/* One worker with its handle, in a cache line of its own. */
struct seat {
    alignas(LINE) atomic_int use;
    bool is_open;          /* whether the handle owns the worker; its user reads and writes it */
    nm_handle handle;
    _Atomic uint64_t keys; /* inserted less removed by calls by NM_ANY, which have the seat alone */
    _Atomic uint64_t shared_keys; /* the same by attached workers and by those that borrow them */
    _Atomic uint32_t waiting;     /* the nodes in its queue when it was last asked */
    _Atomic uint32_t arrivals, departures; /* the calls that have begun and ended to borrow it */
};

struct nm_pool {
    nm_options options;
    uint32_t count;
    uint32_t shape;
    bool grows;
    _Atomic uint64_t nodes;
    _Atomic uint64_t hindering; /* a bit for each worker that prevented the last change of the size */
    atomic_uint sizes;        /* how often the size has changed */
    _Atomic uint64_t longest; /* nanoseconds: for how long a change has stopped calls at most */
    unsigned long forks;
    void *block;              /* what malloc returned */
    atomic_int phase;
    atomic_uint opened;       /* above the number of each seat that was ever open */
    atomic_uint waits[3];     /* of calls that wait for a key. AWAITED counts the inserts, too, that have
                                 yielded their processors */
    alignas(LINE) nm_handle set;
    nm_handle closed;         /* the handle of each worker in a forked child */
    atomic_bool is_closing;   /* whether a thread closes the set or moves its keys */
    atomic_bool is_sizing;    /* whether a thread is at a new size; it alone uses the next line */
    nm_handle spare;          /* the empty set that was made for a new size, before calls stop */
    uint64_t spare_nodes;     /* its nodes, or 0 */
    _Atomic uint64_t rest_end; /* when calls may be stopped again for a new size */
    atomic_uint moved;        /* changes with each key that is moved to the set of a new size */
    atomic_uint references;   /* 1 until nm_pool_free, and 1 for each attached worker */
    atomic_uint inserts_at[PROCESSORS]; /* the inserts among them by the place of the processor */
    struct seat seats[];
};

struct request;

/* A call of the library that looks for keys, with a number of tries. */
typedef nm_outcome (*look_of)(nm_handle *, const struct request *, uint32_t tries);

/* What a call needs besides its worker. */
struct request {
    look_of look;   /* of a look-up other than `contains` */
    uint64_t key;
    uint64_t bound; /* of a scan: the other end of its range; of a pop: the bound of its key */
    uint64_t *found;
    nm_lookup *lookups;
    size_t count;
    uint64_t *written; /* of a scan: how many keys it has written */
    uint64_t *next;    /* of a scan: where the next one goes on */
    uint64_t *end;     /* of an insert: when its waits end, and 0 before the first one */
};

typedef nm_outcome (*call_of)(const nm_pool *, nm_handle *, const struct request *);

#define INLINE static inline __attribute__((always_inline))
#define COLD static __attribute__((noinline, cold))

/* ---- forks ---- */

/* The number of forks between the start of the program and this process, and what begins to count
 * them. Both are for nm_map.c too, and for no program. */
extern __attribute__((visibility("hidden"))) atomic_ulong nm_host_forks;
__attribute__((visibility("hidden"))) void nm_host_count_forks(void);

atomic_ulong nm_host_forks;

static void count_fork(void) { atomic_fetch_add(&nm_host_forks, 1); }
static void register_count(void) { (void)pthread_atfork(NULL, NULL, count_fork); }

void nm_host_count_forks(void) {
    static pthread_once_t once = PTHREAD_ONCE_INIT;
    (void)pthread_once(&once, register_count);
}

INLINE bool is_forked(const nm_pool *pool) {
    return pool->forks != atomic_load_explicit(&nm_host_forks, memory_order_relaxed);
}

static int phase_of(const nm_pool *pool) { return atomic_load(&((nm_pool *)pool)->phase); }

static bool is_ended(const nm_pool *pool) { return phase_of(pool) >= GATHERED; }

static uint64_t nodes_of(const nm_pool *pool) {
    return atomic_load_explicit(&((nm_pool *)pool)->nodes, memory_order_relaxed);
}

/* ---- waits ---- */

static uint64_t now(void) {
    struct timespec time = {0, 0};
    (void)clock_gettime(CLOCK_MONOTONIC, &time);
    return (uint64_t)time.tv_sec * 1000000000u + (uint64_t)time.tv_nsec;
}

/* Returns a wait of a call, which goes on with an earlier wait of the same call. */
static nm_pool_wait wait_of(const struct request *request) {
    return (nm_pool_wait){request->end != NULL ? *request->end : 0, 0, 0, 0};
}

static void keep_wait(const struct request *request, const nm_pool_wait *wait) {
    if (request->end != NULL) *request->end = wait->end;
}

static void begin(nm_pool_wait *wait, uint32_t timeout_ms) {
    if (wait->end == 0) wait->end = now() + (uint64_t)timeout_ms * 1000000u;
}

static bool is_over(const nm_pool_wait *wait) { return now() >= wait->end; }

/* Yields, or sleeps after some yields, and returns true. Returns false if the time is over. */
static bool pause_until(nm_pool_wait *wait, uint32_t timeout_ms) {
    if (timeout_ms == 0) return false;
    begin(wait, timeout_ms);
    uint64_t at = now();
    if (at >= wait->end) return false;
    if (wait->pause < YIELDS) {
        wait->pause++;
        (void)sched_yield();
        return true;
    }
    uint64_t sleep = wait->pause < FIRST_SLEEP ? FIRST_SLEEP : wait->pause;
    wait->pause = sleep < LONGEST_SLEEP / 2 ? (uint32_t)(2 * sleep) : LONGEST_SLEEP;
    if (sleep > wait->end - at) sleep = wait->end - at;
    struct timespec time = {0, (long)sleep};
    (void)nanosleep(&time, NULL);
    return true;
}

static unsigned moved_of(const nm_pool *pool) { return atomic_load(&((nm_pool *)pool)->moved); }

/* Waits while keys are moved to a set of a new size; the wait ends later by as much. Returns false
 * if none was moved for timeout_ms: the thread that moves them was stopped. */
static bool wait_for_size(const nm_pool *pool, nm_pool_wait *wait, uint32_t timeout_ms) {
    nm_pool_wait sleeps = {0, 0, 0, 0};
    uint64_t begun = now();
    unsigned moved = moved_of(pool);
    while (phase_of(pool) == SIZING) {
        if (pause_until(&sleeps, timeout_ms)) continue;
        if (timeout_ms == 0 || moved == moved_of(pool)) return false;
        moved = moved_of(pool);
        sleeps.end = 0;
    }
    if (wait->end != 0) wait->end += now() - begun;
    return true;
}

/* Pauses, or waits for the new size of the set. Returns false if the time is over. */
static bool pause_at(const nm_pool *pool, nm_pool_wait *wait, uint32_t timeout_ms) {
    return phase_of(pool) == SIZING ? wait_for_size(pool, wait, timeout_ms)
                                    : pause_until(wait, timeout_ms);
}

/* Looks again at once some times, and then pauses. Returns false if the time is over. */
static bool look_again(const nm_pool *pool, nm_pool_wait *wait, uint32_t timeout_ms) {
    if (++wait->looks < LOOKS) return true;
    wait->looks = 0;
    return pause_at(pool, wait, timeout_ms);
}

static int disable_cancel(void) {
    int state = PTHREAD_CANCEL_ENABLE;
    (void)pthread_setcancelstate(PTHREAD_CANCEL_DISABLE, &state);
    return state;
}

static void restore_cancel(const int *state) { (void)pthread_setcancelstate(*state, &(int){0}); }

/* From here to the end of the block no sleep is a cancellation point. */
#define UNCANCELLED \
    __attribute__((cleanup(restore_cancel), unused)) const int cancel_state = disable_cancel()

/* ---- processors ----
 * A thread that was preempted inside a call keeps nodes from being freed until it goes on. So an
 * insert that waits yields its processor to the threads there, and each of them yields it back
 * after the call that it was in. If they did not, the insert would wait until the kernel takes the
 * processor from each of them. */

static unsigned processor(void) {
    int number = sched_getcpu();
    return number < 0 ? 0 : (unsigned)number % PROCESSORS;
}

static void yield_for_nodes(nm_pool *pool) {
    atomic_uint *here = &pool->inserts_at[processor()];
    atomic_fetch_add_explicit(here, 1, memory_order_relaxed);
    atomic_fetch_add_explicit(&pool->waits[AWAITED], 1, memory_order_relaxed);
    (void)sched_yield();
    atomic_fetch_sub_explicit(&pool->waits[AWAITED], 1, memory_order_relaxed);
    atomic_fetch_sub_explicit(here, 1, memory_order_relaxed);
}

/* Yields the processor back if an insert has yielded it. A thread that has waited for long may be
 * chosen several times before the insert. */
static void yield_back(nm_pool *pool) {
    for (int turn = 0; turn < BACK_TURNS; turn++) {
        if (atomic_load_explicit(&pool->inserts_at[processor()], memory_order_relaxed) == 0) return;
        (void)sched_yield();
    }
}

/* ---- calls that wait for a key ----
 * Such a call counts itself, looks for a key, and sleeps if there is none. An insert counts the
 * waiting calls after its own. The exchanges of both are sequentially consistent: so the call finds
 * the key, or the insert finds the call. An insert wakes one of the calls that take any key. It
 * wakes all others, each of which may want the key or not. The kernel knows the two kinds, so no
 * call has a wake that is meant for another one.
 *
 * Each set and each map has three words for this. AWAITED is how many calls wait, OF_OTHERS how many
 * of these are of the second kind. ADDED changes when a key is inserted meanwhile. */

enum { TAKES_ANY = 1, OTHERS = 2 };

/* Looks for a key, for a call that waits. */
typedef nm_outcome (*look_for)(void *of, uint32_t timeout_ms);

/* These are for nm_map.c too, and for no program. */
__attribute__((visibility("hidden"))) void nm_host_wake(atomic_uint *words);
__attribute__((visibility("hidden"))) nm_outcome nm_host_wait(atomic_uint *words, unsigned kind,
                                                              look_for look, void *of,
                                                              uint32_t timeout_ms);

static long futex(atomic_uint *word, int what, unsigned number, const struct timespec *end,
                  unsigned kinds) {
    return syscall(SYS_futex, word, what, number, end, NULL, kinds);
}

static void wake(atomic_uint *words, unsigned most, unsigned kinds) {
    (void)futex(&words[ADDED], FUTEX_WAKE_BITSET_PRIVATE, most, NULL, kinds);
}

/* Wakes all calls that wait. */
static void wake_all(atomic_uint *words) {
    atomic_fetch_add(&words[ADDED], 1);
    wake(words, INT_MAX, TAKES_ANY | OTHERS);
}

/* Sleeps until a key was inserted after `added` was read, or until some time. Returns false if the
 * time is over. */
static bool sleep_for_key(atomic_uint *words, unsigned added, uint64_t end, unsigned kind) {
    struct timespec until = {(time_t)(end / 1000000000u), (long)(end % 1000000000u)};
    if (now() >= end) return false;
    return futex(&words[ADDED], FUTEX_WAIT_BITSET_PRIVATE, added, &until, kind) == 0 ||
           errno != ETIMEDOUT;
}

/* Returns the milliseconds until some time, rounded up. */
static uint32_t millis_until(uint64_t end) {
    uint64_t at = now();
    return at < end ? (uint32_t)((end - at + 999999u) / 1000000u) : 0;
}

/* Returns whether other threads interfered with each try of a call. */
static bool is_interfered(nm_outcome outcome) {
    return outcome == NM_BUSY || outcome == NM_PENDING;
}

/* Wakes the calls that wait, for a key. */
void nm_host_wake(atomic_uint *words) {
    atomic_fetch_add(&words[ADDED], 1);
    wake(words, 1, TAKES_ANY);
    if (atomic_load(&words[OF_OTHERS]) != 0) wake(words, INT_MAX, OTHERS);
}

/* A call that waits. `is_answered`: it has a key, or has found none since it was woken last. */
struct waiting_call {
    atomic_uint *words;
    unsigned kind;
    bool is_answered;
};

/* Ends the wait of a call. One that takes any key and leaves for another reason, or is cancelled,
 * may have been woken for a key: then it wakes the next one. */
static void leave(void *of) {
    const struct waiting_call *call = of;
    if (call->kind == OTHERS) atomic_fetch_sub(&call->words[OF_OTHERS], 1);
    atomic_fetch_sub(&call->words[AWAITED], 1);
    if (call->kind == TAKES_ANY && !call->is_answered) nm_host_wake(call->words);
}

/* Makes a look until it finds a key, and sleeps in between. */
nm_outcome nm_host_wait(atomic_uint *words, unsigned kind, look_for look, void *of,
                        uint32_t timeout_ms) {
    struct waiting_call call = {words, kind, false};
    uint64_t end = now() + (uint64_t)timeout_ms * 1000000u;
    nm_outcome outcome = look(of, timeout_ms);
    if ((outcome != NM_NO && !is_interfered(outcome)) || timeout_ms == 0) return outcome;
    atomic_fetch_add(&words[AWAITED], 1);
    if (kind == OTHERS) atomic_fetch_add(&words[OF_OTHERS], 1);
    pthread_cleanup_push(leave, &call);
    unsigned added;
    do {
        added = atomic_load(&words[ADDED]);
        outcome = look(of, millis_until(end));
    } while ((outcome == NM_NO && sleep_for_key(words, added, end, kind)) ||
             (is_interfered(outcome) && now() < end));
    /* The time of a call that has slept is over: it looks once more. */
    nm_outcome last = NM_NO;
    if (outcome == NM_NO) last = look(of, 0);
    if (last == NM_YES || last == NM_UNFINISHED) outcome = last;
    call.is_answered = outcome >= 0 || outcome == NM_UNFINISHED;
    pthread_cleanup_pop(1);
    return outcome;
}

/* After a call: wakes those that wait if the call has inserted a key, and yields the processor
 * back. */
COLD void serve(nm_pool *pool, bool is_inserted) {
    if (is_inserted) nm_host_wake(pool->waits);
    yield_back(pool);
}

/* ---- seats ---- */

/* The seat at which this thread looks first: the one that it used last. */
static _Thread_local uint32_t last_seat = UINT32_MAX;

static uint32_t first_seat(const nm_pool *pool) {
    static atomic_uint threads;
    if (last_seat == UINT32_MAX)
        last_seat = atomic_fetch_add_explicit(&threads, 1, memory_order_relaxed) % WORKERS;
    return last_seat % pool->count;
}

INLINE bool take(struct seat *seat, int by) {
    int wanted = FREE;
    return atomic_compare_exchange_strong_explicit(&seat->use, &wanted, by, memory_order_seq_cst,
                                                   memory_order_relaxed);
}

INLINE void set_use(struct seat *seat, int use) {
    atomic_store_explicit(&seat->use, use, memory_order_release);
}

INLINE int use_of(const struct seat *seat) {
    return atomic_load_explicit(&((struct seat *)seat)->use, memory_order_acquire);
}

/* Takes a seat, and waits while a call by NM_ANY has it. Returns FREE if it took the seat, and else
 * what uses it. */
static int take_soon(struct seat *seat, int by, nm_pool_wait *wait, uint32_t timeout_ms) {
    for (;;) {
        if (take(seat, by)) return FREE;
        int use = use_of(seat);
        if (use != FREE && (use != CALL || !pause_until(wait, timeout_ms))) return use;
    }
}

/* Returns the seat of an attached worker, or NULL. */
static struct seat *lent_seat(nm_pool *pool, uint32_t number) {
    if (number >= pool->count || use_of(&pool->seats[number]) != LENT) return NULL;
    return &pool->seats[number];
}

static uint32_t opened(const nm_pool *pool) {
    return atomic_load_explicit(&((nm_pool *)pool)->opened, memory_order_acquire);
}

/* Attaches the worker of a seat that the caller uses, unless it is open. Returns NM_IN_USE if
 * another call has that handle, or has the handle of the set for longer than the library looks. */
static nm_outcome open_seat(nm_pool *pool, uint32_t number) {
    struct seat *seat = &pool->seats[number];
    if (seat->is_open) return NM_DONE;
    nm_outcome outcome = nm_set_worker(&pool->set, &seat->handle, number);
    seat->is_open = outcome == NM_DONE;
    unsigned most = atomic_load(&pool->opened);
    while (seat->is_open && most <= number &&
           !atomic_compare_exchange_weak(&pool->opened, &most, number + 1)) {}
    return outcome;
}

/* Returns what a call adds to the number of keys. An unfinished remove counts at once, because its
 * key will be removed by this call and no other. Its later end counts nothing. */
INLINE uint64_t change_of(enum gain gain, nm_outcome outcome) {
    if (gain == INSERTS) return outcome == NM_YES;
    if (gain == REMOVES) return -(uint64_t)(outcome == NM_YES || outcome == NM_UNFINISHED);
    return 0;
}

/* Counts for a seat that the caller has alone, and so needs no atomic addition. */
INLINE void count_alone(struct seat *seat, enum gain gain, nm_outcome outcome) {
    uint64_t change = change_of(gain, outcome);
    if (change == 0) return;
    uint64_t keys = atomic_load_explicit(&seat->keys, memory_order_relaxed);
    atomic_store_explicit(&seat->keys, keys + change, memory_order_relaxed);
}

INLINE void count_shared(struct seat *seat, enum gain gain, nm_outcome outcome) {
    uint64_t change = change_of(gain, outcome);
    if (change != 0) atomic_fetch_add_explicit(&seat->shared_keys, change, memory_order_relaxed);
}

/* Goes on with a pending remove, at most 1 + rounds times. Returns NM_YES if it is finished, NM_NO
 * if none is pending, NM_UNFINISHED, or NM_IN_USE if another call has the handle. */
static nm_outcome finish(const nm_pool *pool, nm_handle *worker) {
    nm_outcome outcome = NM_UNFINISHED;
    unsigned looks = 0;
    for (uint64_t round = 0; outcome == NM_UNFINISHED && round <= pool->options.rounds;) {
        outcome = nm_worker_finish(worker, pool->options.tries);
        if (outcome == NM_IN_USE && ++looks < LOOKS)
            outcome = NM_UNFINISHED;
        else
            round++;
    }
    return outcome;
}

/* Unpins a worker, and finishes its remove if the bounds allow. Returns NM_IN_USE if another call
 * has it until the wait is over. */
static nm_outcome settle(nm_pool *pool, struct seat *seat, nm_pool_wait *wait,
                         uint32_t timeout_ms) {
    nm_outcome outcome;
    do outcome = nm_worker_unpin(&seat->handle);
    while (outcome == NM_IN_USE && look_again(pool, wait, timeout_ms));
    return outcome == NM_IN_USE ? outcome : finish(pool, &seat->handle);
}

/* Gives up the worker of a seat. Returns false if another call has it until the wait is over. */
static bool shut(nm_pool *pool, struct seat *seat, nm_pool_wait *wait, uint32_t timeout_ms) {
    nm_outcome outcome;
    (void)settle(pool, seat, wait, timeout_ms);
    do outcome = nm_drop(&seat->handle);
    while (outcome == NM_IN_USE && look_again(pool, wait, timeout_ms));
    if (outcome != NM_IN_USE) seat->is_open = false;
    return outcome != NM_IN_USE;
}

/* ---- a call by a worker ---- */

/* Ends a call by a worker that its caller did not attach, after an outcome other than an answer. It
 * finishes an earlier remove that is pending and repeats the call; then it finishes the remove of
 * this call. */
COLD nm_outcome end_call(nm_pool *pool, struct seat *seat, call_of call,
                         const struct request *request, nm_outcome outcome) {
    if (outcome == NM_PENDING && finish(pool, &seat->handle) != NM_UNFINISHED)
        outcome = call(pool, &seat->handle, request);
    if (outcome == NM_UNFINISHED) {
        nm_outcome end = finish(pool, &seat->handle);
        if (end == NM_YES || end == NM_NO) outcome = NM_YES; /* NM_NO: another call finished it */
    }
    return outcome;
}

/* Makes a call by a worker that is attached to a thread, in no call and not pinned. If its thread
 * makes a call by it at the same time, the library refuses one of the two, and the thread repeats
 * its own. */
static nm_outcome borrow(nm_pool *pool, call_of call, enum gain gain,
                         const struct request *request) {
    for (uint32_t number = 0; number < opened(pool); number++) {
        struct seat *seat = &pool->seats[number];
        if (use_of(seat) != LENT) continue;
        atomic_fetch_add(&seat->arrivals, 1);
        nm_outcome outcome = call(pool, &seat->handle, request);
        if (outcome < 0) outcome = end_call(pool, seat, call, request, outcome);
        count_shared(seat, gain, outcome);
        atomic_fetch_add(&seat->departures, 1);
        if (outcome != NM_IN_USE && outcome != NM_PINNED && outcome != NM_CLOSED) return outcome;
    }
    return NM_NO_WORKER;
}

/* Makes a call by the first free seat, from the one on that this thread used last, or else by a
 * borrowed worker. Returns NM_NO_WORKER if there is none. */
COLD nm_outcome search(nm_pool *pool, call_of call, enum gain gain, const struct request *request) {
    uint32_t first = first_seat(pool);
    for (uint32_t step = 0; step < pool->count; step++) {
        uint32_t number = (first + step) % pool->count;
        struct seat *seat = &pool->seats[number];
        if (!take(seat, CALL)) continue;
        nm_outcome outcome = open_seat(pool, number);
        bool is_open = outcome == NM_DONE;
        if (is_open) {
            outcome = call(pool, &seat->handle, request);
            if (outcome < 0) outcome = end_call(pool, seat, call, request, outcome);
            count_alone(seat, gain, outcome);
        }
        set_use(seat, FREE);
        if (outcome == NM_IN_USE || (!is_open && outcome == NM_ATTACHED)) continue;
        last_seat = number;
        return outcome;
    }
    return borrow(pool, call, gain, request);
}

/* Searches for a worker until there is one, or the time is over. */
COLD nm_outcome search_until(nm_pool *pool, call_of call, enum gain gain,
                             const struct request *request, uint32_t timeout_ms) {
    nm_pool_wait wait = wait_of(request);
    nm_outcome outcome;
    do {
        if (is_ended(pool)) return NM_CLOSED;
        outcome = NM_NO_WORKER;
        if (phase_of(pool) == OPEN) outcome = search(pool, call, gain, request);
    } while (outcome == NM_NO_WORKER && pause_at(pool, &wait, timeout_ms));
    keep_wait(request, &wait);
    return outcome == NM_NO_WORKER && is_ended(pool) ? NM_CLOSED : outcome;
}

/* Makes a call by the seat that this thread used last, or else by another one. */
INLINE nm_outcome by_any(nm_pool *pool, call_of call, enum gain gain, const struct request *request,
                         uint32_t timeout_ms) {
    uint32_t number = last_seat;
    int phase = atomic_load_explicit(&pool->phase, memory_order_relaxed);
    if (phase == OPEN && number < pool->count) {
        struct seat *seat = &pool->seats[number];
        if (take(seat, CALL)) {
            nm_outcome outcome = NM_IN_USE;
            if (seat->is_open) {
                outcome = call(pool, &seat->handle, request);
                if (outcome < 0) outcome = end_call(pool, seat, call, request, outcome);
                count_alone(seat, gain, outcome);
            }
            set_use(seat, FREE);
            if (outcome != NM_IN_USE) return outcome;
        }
    }
    return search_until(pool, call, gain, request, timeout_ms);
}

/* Returns whether a call by an attached worker is to be repeated: another call has its handle, or
 * the pending remove is of a call that has borrowed the worker and has not ended. */
static bool is_for_another(const struct seat *seat, nm_pool_wait *wait, nm_outcome outcome) {
    uint32_t ended = wait->ended;
    wait->ended = atomic_load(&((struct seat *)seat)->departures);
    return outcome == NM_IN_USE ||
           (outcome == NM_PENDING && atomic_load(&((struct seat *)seat)->arrivals) != ended);
}

COLD nm_outcome repeat(nm_pool *pool, struct seat *seat, call_of call,
                       const struct request *request, uint32_t timeout_ms) {
    nm_pool_wait wait = wait_of(request);
    nm_outcome outcome;
    do outcome = call(pool, &seat->handle, request);
    while (is_for_another(seat, &wait, outcome) && look_again(pool, &wait, timeout_ms));
    keep_wait(request, &wait);
    return outcome;
}

/* Makes a call by the worker of a number, which the caller has attached. */
INLINE nm_outcome by_number(nm_pool *pool, uint32_t number, call_of call, enum gain gain,
                            const struct request *request, uint32_t timeout_ms) {
    if (number >= pool->count) return number == NM_NONE ? NM_CLOSED : NM_NUMBER;
    struct seat *seat = &pool->seats[number];
    if (use_of(seat) != LENT) return NM_CLOSED;
    nm_outcome outcome = call(pool, &seat->handle, request);
    if (outcome == NM_IN_USE || outcome == NM_PENDING)
        outcome = repeat(pool, seat, call, request, timeout_ms);
    count_shared(seat, gain, outcome);
    return outcome;
}

INLINE nm_outcome make(nm_pool *pool, uint32_t worker, call_of call, enum gain gain,
                       const struct request *request, uint32_t timeout_ms) {
    if (is_forked(pool)) return NM_FORKED;
    nm_outcome outcome = worker == NM_ANY
                             ? by_any(pool, call, gain, request, timeout_ms)
                             : by_number(pool, worker, call, gain, request, timeout_ms);
    if (atomic_load_explicit(&pool->waits[AWAITED], memory_order_relaxed) != 0)
        serve(pool, gain == INSERTS && outcome == NM_YES);
    return outcome;
}

/* ---- room for an insert ---- */

/* Advances the epoch by a worker as often as waiting nodes need. Returns whether it could, and
 * false if another call has the worker or it is not open. */
static bool has_advanced(nm_handle *worker) {
    uint64_t epoch = 0;
    uint32_t behind = 0;
    nm_outcome outcome = NM_DONE;
    for (int move = 0; move < MOVES && (outcome == NM_DONE || outcome == NM_LOST); move++)
        outcome = nm_worker_advance(worker, &epoch, &behind);
    return outcome != NM_IN_USE && outcome != NM_CLOSED;
}

/* Advances the epoch by the caller's own worker, or the one that it used last, or another one. */
static void advance(nm_pool *pool, uint32_t own) {
    uint32_t most = opened(pool), first = own != NM_ANY ? own : last_seat;
    if (first >= most) first = 0;
    for (uint32_t step = 0; step < most; step++)
        if (has_advanced(&pool->seats[(first + step) % most].handle)) return;
}

/* Advances the epoch, and frees what has waited long enough with each worker that is in no call. */
static uint64_t collect(nm_pool *pool, uint32_t own) {
    uint64_t freed = 0;
    advance(pool, own);
    for (uint32_t number = 0; number < opened(pool); number++) {
        uint64_t epoch = 0, nodes = 0;
        nm_outcome outcome = NM_IN_USE;
        for (int look = 0; outcome == NM_IN_USE && look < COLLECT_LOOKS; look++)
            outcome = nm_worker_collect(&pool->seats[number].handle, &epoch, &nodes);
        freed += nodes;
    }
    return freed;
}

/* Collects for some microseconds, in which threads on other processors may end their calls. */
static uint64_t collect_soon(nm_pool *pool, uint32_t own) {
    uint64_t begun = now(), freed = collect(pool, own);
    while (freed == 0 && now() - begun < ROOM_LOOKS) freed = collect(pool, own);
    return freed;
}

static uint64_t keys_of(const nm_pool *pool) {
    uint64_t keys = 0;
    for (uint32_t number = 0; number < opened(pool); number++) {
        struct seat *seat = &((nm_pool *)pool)->seats[number];
        keys += atomic_load_explicit(&seat->keys, memory_order_relaxed);
        keys += atomic_load_explicit(&seat->shared_keys, memory_order_relaxed);
    }
    return keys > UINT64_MAX / 2 ? 0 : keys;
}

/* Asks each worker once how many nodes wait in its queue. */
static void ask_queues(nm_pool *pool, nm_fullness *fullness) {
    for (uint32_t number = 0; number < opened(pool); number++) {
        struct seat *seat = &pool->seats[number];
        uint64_t nodes = 0;
        nm_outcome outcome = NM_IN_USE;
        for (int look = 0; outcome == NM_IN_USE && look < LOOKS; look++)
            outcome = nm_worker_queue_len(&seat->handle, &nodes);
        if (outcome == NM_IN_USE) {
            nodes = atomic_load_explicit(&seat->waiting, memory_order_relaxed);
            fullness->unasked |= (uint64_t)1 << number;
        }
        atomic_store_explicit(&seat->waiting, (uint32_t)nodes, memory_order_relaxed);
        fullness->waiting += nodes;
    }
}

/* Asks the first worker that is in no call which workers hold the epoch back. */
static uint64_t behind_of(nm_pool *pool) {
    uint64_t epoch = 0, mask = 0;
    for (uint32_t number = 0; number < opened(pool); number++)
        if (nm_worker_behind(&pool->seats[number].handle, &epoch, &mask) == NM_DONE) break;
    return mask;
}

/* Returns whether the keys leave no nodes for one more key, and no node waits. */
static bool is_brimful(nm_pool *pool) {
    if (2 * keys_of(pool) + 7 <= nodes_of(pool)) return false;
    nm_fullness fullness = {0, 0, 0, 0, 0, 0, 0};
    ask_queues(pool, &fullness);
    return fullness.waiting == 0 && fullness.unasked == 0;
}

/* Yields the processor to threads that may have been preempted inside a call, and collects, some
 * times. Returns whether nodes were freed. */
static bool has_yielded_for_nodes(nm_pool *pool, uint32_t own, const nm_pool_wait *wait) {
    for (int turn = 0; turn < ROOM_TURNS && !is_over(wait); turn++) {
        yield_for_nodes(pool);
        if (collect_soon(pool, own) != 0) return true;
    }
    return false;
}

/* Frees nodes for an insert. Returns false if the keys take all nodes, or the time is over. */
static bool makes_room(nm_pool *pool, uint32_t own, nm_pool_wait *wait, bool is_first,
                       uint32_t timeout_ms) {
    if (is_first && collect(pool, own) != 0) return true;
    if (is_brimful(pool)) return false;
    if (is_first && has_yielded_for_nodes(pool, own, wait)) return true;
    wait->pause = wait->pause < YIELDS ? YIELDS : wait->pause;
    if (!pause_until(wait, timeout_ms)) return false;
    (void)collect(pool, own);
    return true;
}

static nm_outcome insert(const nm_pool *pool, nm_handle *worker, const struct request *request) {
    return nm_worker_insert(worker, request->key, &pool->options);
}

/* ---- a new size ----
 * First an empty set of the new size is made, while calls go on. Then no call is in the set for as
 * long as its keys are copied: all workers are taken, each between two calls. Each worker that was
 * open is attached in the new set, at its place. Whatever fails, the old set is unchanged. */

/* Why a set gets a new size: an insert found it full, or a caller asks for room or for no more room
 * than needed. `number` is how often the size had changed before that insert, or the keys for which
 * there is to be room. */
struct wish {
    enum { GROW, RESERVE, SHRINK } kind;
    uint64_t number;
};

/* A set and its workers, while no call has their handles. */
struct held_set {
    nm_handle set;
    nm_handle workers[WORKERS];
};

/* A change of the size: from the old set to the new one. */
struct change {
    nm_pool *pool;
    uint64_t taken, open; /* a bit for each worker whose handle was taken, and if it was open */
    bool has_set;         /* whether the handle of the set was taken */
    struct held_set old, new;
    uint64_t nodes;       /* of the new set */
    uint64_t *keys;       /* of the old set, ascending */
    uint64_t count;
};

static bool has(uint64_t mask, uint32_t number) { return (mask >> number & 1) != 0; }

/* Takes what a handle owns by the exchange that each call makes on it. Until it is given back, each
 * call with the handle returns NM_IN_USE. Returns false if a call has it. */
static bool take_handle(nm_handle *handle, nm_handle *into) {
    if (__atomic_exchange_n(&handle->in_use, 1, __ATOMIC_SEQ_CST) != 0) return false;
    *into = (nm_handle){handle->at, 0};
    return true;
}

static void give_handle(nm_handle *handle, const nm_handle *from) {
    handle->at = from->at;
    __atomic_store_n(&handle->in_use, 0, __ATOMIC_SEQ_CST);
}

static bool take_handle_soon(nm_handle *handle, nm_handle *into, nm_pool_wait *wait,
                             uint32_t timeout_ms) {
    bool is_taken = take_handle(handle, into);
    while (!is_taken && (++wait->looks % LOOKS != 0 || pause_until(wait, timeout_ms)))
        is_taken = take_handle(handle, into);
    return is_taken;
}

/* Finishes a remove that is pending, beside no other call. Returns NM_PINNED if the worker is
 * pinned, and NM_BUSY if the remove is not finished. */
static nm_outcome quiet(nm_handle *worker) {
    uint64_t epoch = 0;
    nm_outcome outcome = nm_worker_pinned(worker, &epoch);
    if (outcome == NM_CLOSED) return NM_DONE;
    if (outcome != NM_NO) return NM_PINNED;
    for (int turn = 0; turn < FINISHES; turn++)
        if (nm_worker_finish(worker, nm_default_options.tries) != NM_UNFINISHED) return NM_DONE;
    return NM_BUSY;
}

/* Takes the handles of all workers and that of the set, within some milliseconds. Returns NM_PINNED
 * or NM_IN_USE and a bit for each worker that prevents it. */
static nm_outcome take_handles(struct change *change, uint32_t timeout_ms, uint64_t *missing) {
    nm_pool_wait wait = {0, 0, 0, 0};
    nm_outcome outcome = NM_DONE;
    for (uint32_t number = 0; number < change->pool->count; number++) {
        nm_handle *worker = &change->old.workers[number];
        uint64_t bit = (uint64_t)1 << number;
        nm_outcome is_quiet = NM_IN_USE;
        if (take_handle_soon(&change->pool->seats[number].handle, worker, &wait, timeout_ms)) {
            change->taken |= bit;
            change->open |= worker->at != NULL ? bit : 0;
            is_quiet = quiet(worker);
        }
        if (is_quiet == NM_DONE) continue;
        *missing |= bit;
        outcome = is_quiet;
    }
    if (outcome != NM_DONE) return outcome;
    /* A thread that attaches a worker has this handle besides, and only for that moment. */
    change->has_set = take_handle_soon(&change->pool->set, &change->old.set, &wait, timeout_ms);
    return change->has_set ? NM_DONE : NM_IN_USE;
}

/* Gives back the handles that were taken, with a set and its workers. */
static void give_handles(const struct change *change, const struct held_set *with) {
    for (uint32_t number = 0; number < change->pool->count; number++)
        if (has(change->taken, number))
            give_handle(&change->pool->seats[number].handle, &with->workers[number]);
    if (change->has_set) give_handle(&change->pool->set, &with->set);
}

static void drop_set(struct held_set *of) {
    for (uint32_t number = 0; number < WORKERS; number++) (void)nm_drop(&of->workers[number]);
    (void)nm_drop(&of->set);
}

static nm_outcome new_set(nm_handle *set, uint64_t nodes, uint32_t workers, uint32_t shape) {
    return shape == NM_UNBALANCED ? nm_set_new_unbalanced(set, (uint32_t)nodes, workers)
                                  : nm_set_new(set, (uint32_t)nodes, workers);
}

/* Reads the keys of the old set by one of its workers. Beside no other call, no scan fails. */
static nm_outcome read_keys(struct change *change, nm_handle *worker) {
    size_t room = (size_t)nodes_of(change->pool) / 2;
    uint64_t from = 0, some = 0;
    nm_outcome outcome = NM_YES;
    change->keys = malloc(room * sizeof *change->keys);
    if (change->keys == NULL) return NM_NO_MEMORY;
    while (outcome == NM_YES) {
        outcome = nm_worker_scan(worker, from, UINT64_MAX, change->keys + change->count,
                                 room - change->count, &some, &from, nm_default_options.tries);
        if (outcome >= 0) change->count += some;
        atomic_fetch_add_explicit(&change->pool->moved, 1, memory_order_relaxed);
    }
    return outcome == NM_NO ? NM_DONE : outcome;
}

/* Attaches the workers of the new set that were open in the old one. If calls by several threads
 * were not counted, the set that was made for a shrink is too small, and another one is made. */
static nm_outcome open_new(struct change *change) {
    nm_pool *pool = change->pool;
    uint64_t nodes = 2 * (change->count + pool->count) + 5;
    nm_outcome outcome = NM_DONE;
    if (2 * change->count + 5 > change->nodes) {
        change->nodes = nodes < nodes_of(pool) ? nodes : nodes_of(pool);
        (void)nm_drop(&change->new.set);
        outcome = new_set(&change->new.set, change->nodes, pool->count, pool->shape);
    }
    for (uint32_t number = 0; outcome == NM_DONE && number < pool->count; number++)
        if (has(change->open, number))
            outcome = nm_set_worker(&change->new.set, &change->new.workers[number], number);
    return outcome;
}

/* Inserts the keys in their order, or for an unbalanced tree those between which the others are
 * first, so that it has no long path. Returns NM_YES, or the outcome of the insert that failed. */
static nm_outcome insert_keys(struct change *change, nm_handle *worker) {
    bool is_radix = change->pool->shape == NM_RADIX;
    uint64_t count = change->count, step = is_radix ? 1 : 2;
    nm_outcome outcome = NM_YES;
    for (uint64_t part = is_radix ? 1 : MOST_NODES; part != 0; part /= 2)
        for (uint64_t at = part - 1; outcome == NM_YES && at < count; at += step * part) {
            atomic_fetch_add_explicit(&change->pool->moved, 1, memory_order_relaxed);
            outcome = nm_worker_insert(worker, change->keys[at], &nm_default_options);
        }
    return outcome;
}

/* Copies the keys of the old set to the new one. If no worker is open, it attaches the first one of
 * both sets, and returns it. */
static nm_outcome copy_keys(struct change *change) {
    bool is_none_open = change->open == 0;
    uint32_t number = 0;
    nm_outcome outcome = NM_DONE;
    if (is_none_open) outcome = nm_set_worker(&change->old.set, change->old.workers, 0);
    if (is_none_open) change->open = 1;
    while (!has(change->open, number)) number++;
    nm_handle *worker = &change->new.workers[number];
    if (outcome == NM_DONE) outcome = read_keys(change, &change->old.workers[number]);
    if (outcome == NM_DONE) outcome = open_new(change);
    if (outcome == NM_DONE) outcome = insert_keys(change, worker);
    if (is_none_open) (void)(nm_drop(change->old.workers), nm_drop(change->new.workers));
    return outcome == NM_YES ? NM_DONE : outcome;
}

/* Lets calls go on after a change of the size that began at some time. */
static void end_change(nm_pool *pool, uint64_t begun) {
    atomic_store(&pool->phase, OPEN);
    uint64_t time = now() - begun;
    if (time > atomic_load(&pool->longest)) atomic_store(&pool->longest, time);
}

/* Stops all calls, and moves the keys to the set that was made. */
static nm_outcome change_size(nm_pool *pool, uint32_t timeout_ms, uint64_t *missing) {
    struct change change = {.pool = pool, .nodes = pool->spare_nodes};
    uint64_t begun = now();
    atomic_store(&pool->phase, SIZING);
    nm_outcome outcome =
        take_handles(&change, timeout_ms < STOP_MS ? timeout_ms : STOP_MS, missing);
    if (outcome == NM_DONE) {
        change.new.set = pool->spare;
        pool->spare = (nm_handle)NM_CLOSED_HANDLE;
        pool->spare_nodes = 0;
        outcome = copy_keys(&change);
    }
    bool is_moved = outcome == NM_DONE;
    if (is_moved) {
        atomic_store(&pool->nodes, change.nodes);
        atomic_fetch_add(&pool->sizes, 1);
    }
    give_handles(&change, is_moved ? &change.new : &change.old);
    end_change(pool, begun);
    drop_set(is_moved ? &change.old : &change.new);
    free(change.keys);
    atomic_store(&pool->hindering, *missing);
    if (!is_moved) atomic_store(&pool->rest_end, now() + REST);
    return outcome;
}

/* Returns how many nodes the set gets: as many as it has if it stays, and 0 if there cannot be as
 * many. After a shrink there is room for one more key for each worker. */
static uint64_t nodes_for(nm_pool *pool, const struct wish *wish) {
    uint64_t nodes = nodes_of(pool), wanted = 2 * (keys_of(pool) + pool->count) + 5;
    switch (wish->kind) {
    case GROW:
        if (wish->number != atomic_load(&pool->sizes)) return nodes;
        if (nodes == MOST_NODES) return 0;
        wanted = nodes + nodes / 2;
        return wanted < MOST_NODES ? wanted : MOST_NODES;
    case RESERVE:
        if (wish->number > (MOST_NODES - 5) / 2) return 0;
        return 2 * wish->number + 5 > nodes ? 2 * wish->number + 5 : nodes;
    default: return wanted < nodes ? wanted : nodes;
    }
}

/* Makes the empty set for a new size, unless an attempt that failed has left one. */
static nm_outcome make_spare(nm_pool *pool, uint64_t nodes) {
    if (pool->spare_nodes == nodes) return NM_DONE;
    (void)nm_drop(&pool->spare);
    pool->spare_nodes = 0;
    if (nodes == nodes_of(pool)) return NM_DONE;
    nm_outcome outcome = new_set(&pool->spare, nodes, pool->count, pool->shape);
    if (outcome == NM_DONE) pool->spare_nodes = nodes;
    return outcome;
}

/* Makes one attempt to give the set a new size. Returns NM_IN_USE without an attempt beside a
 * close, and for some milliseconds after an attempt that failed. The wait ends later by the time
 * that it takes to make a set. */
static nm_outcome try_size(nm_pool *pool, const struct wish *wish, nm_pool_wait *wait,
                           uint32_t timeout_ms, uint64_t *missing) {
    uint64_t begun = now(), nodes = nodes_for(pool, wish);
    if (is_ended(pool)) return NM_CLOSED;
    if (nodes == 0) return NM_NODES;
    if (nodes != nodes_of(pool) && begun < atomic_load(&pool->rest_end)) {
        *missing = atomic_load(&pool->hindering);
        return NM_IN_USE;
    }
    nm_outcome outcome = make_spare(pool, nodes);
    if (outcome != NM_DONE) atomic_store(&pool->rest_end, now() + REST);
    if (wait->end != 0) wait->end += now() - begun;
    if (outcome != NM_DONE || nodes == nodes_of(pool)) return outcome;
    if (atomic_exchange(&pool->is_closing, true)) return NM_IN_USE;
    outcome = phase_of(pool) == OPEN ? change_size(pool, timeout_ms, missing) : NM_CLOSED;
    atomic_store(&pool->is_closing, false);
    return outcome;
}

/* Makes such an attempt, if no other thread does. A cancelled thread ends after it. */
static nm_outcome size_alone(nm_pool *pool, const struct wish *wish, nm_pool_wait *wait,
                             uint32_t timeout_ms, uint64_t *missing) {
    UNCANCELLED;
    *missing = 0;
    if (atomic_exchange(&pool->is_sizing, true)) return NM_IN_USE;
    nm_outcome outcome = try_size(pool, wish, wait, timeout_ms, missing);
    atomic_store(&pool->is_sizing, false);
    return outcome;
}

/* Pauses between two attempts. After its time, an insert waits for the set that another thread
 * makes, at most for a time by the nodes of the set. */
static bool pause_to_grow(nm_pool *pool, nm_pool_wait *wait, uint32_t timeout_ms) {
    nm_pool_wait longer = {wait->end + NODE * nodes_of(pool), YIELDS, 0, 0};
    return pause_at(pool, wait, timeout_ms) ||
           (atomic_load(&pool->is_sizing) && pause_until(&longer, timeout_ms));
}

/* Lets a set grow, after the calls of all workers. After NM_DONE the wait begins anew. */
static nm_outcome grow(nm_pool *pool, const struct wish *wish, nm_pool_wait *wait,
                       uint32_t timeout_ms) {
    uint64_t missing;
    nm_outcome outcome;
    do outcome = size_alone(pool, wish, wait, timeout_ms, &missing);
    while ((outcome == NM_PINNED || outcome == NM_IN_USE) &&
           pause_to_grow(pool, wait, timeout_ms));
    if (wish->number != atomic_load(&pool->sizes)) outcome = NM_DONE; /* another thread's growth */
    if (outcome == NM_DONE) wait->end = 0;
    begin(wait, timeout_ms);
    return outcome;
}

/* Frees nodes, unless the keys take nearly all. Returns whether some were freed. */
static bool has_freed(nm_pool *pool, uint32_t own, const nm_pool_wait *wait) {
    uint64_t nodes = nodes_of(pool), taken = 2 * keys_of(pool) + 5;
    if (taken > nodes - nodes / CROWDED) return false;
    return collect(pool, own) != 0 || has_yielded_for_nodes(pool, own, wait);
}

/* Inserts into a set that grows, after NM_FULL. The set grows if no nodes could be freed, and the
 * insert then fails again. NM_FULL: it cannot grow. */
COLD nm_outcome insert_growing(nm_pool *pool, uint32_t worker, const struct request *request,
                               nm_pool_wait *wait, uint32_t timeout_ms) {
    nm_outcome outcome = NM_FULL, grown = NM_DONE;
    for (bool is_first = true; outcome == NM_FULL && grown == NM_DONE; is_first = false) {
        struct wish wish = {GROW, atomic_load(&pool->sizes)};
        bool is_freed = (is_first || !is_over(wait)) && has_freed(pool, worker, wait);
        outcome = make(pool, worker, insert, INSERTS, request, timeout_ms);
        if (outcome == NM_FULL && !is_freed) grown = grow(pool, &wish, wait, timeout_ms);
        keep_wait(request, wait);
    }
    return outcome == NM_FULL && grown == NM_NO_MEMORY ? grown : outcome;
}

/* Lets a set grow if a thread finds it at its brim at two looks in a row, so that inserts and
 * removes alternate there. It waits for no call. */
COLD void look_at_brim(nm_pool *pool) {
    static _Thread_local const nm_pool *last;
    const struct wish wish = {GROW, atomic_load(&pool->sizes)};
    nm_pool_wait wait = {0, 0, 0, 0};
    uint64_t missing;
    bool is_at_brim = 2 * keys_of(pool) + 5 + BRIM > nodes_of(pool);
    if (is_at_brim && last == pool) (void)size_alone(pool, &wish, &wait, 0, &missing);
    last = is_at_brim ? pool : NULL;
}

/* Inserts after NM_FULL: the set grows, or the insert waits for nodes. */
COLD nm_outcome insert_later(nm_pool *pool, uint32_t worker, const struct request *request,
                             uint32_t timeout_ms) {
    nm_pool_wait wait = wait_of(request);
    nm_outcome outcome = NM_FULL;
    begin(&wait, timeout_ms);
    keep_wait(request, &wait);
    if (pool->grows) outcome = insert_growing(pool, worker, request, &wait, timeout_ms);
    for (bool is_first = true; outcome == NM_FULL; is_first = false) {
        if (!makes_room(pool, worker, &wait, is_first, timeout_ms)) break;
        outcome = make(pool, worker, insert, INSERTS, request, timeout_ms);
    }
    return outcome == NM_FULL && is_ended(pool) && phase_of(pool) != LEFT ? NM_CLOSED : outcome;
}

static nm_outcome size_by(nm_pool *pool, const struct wish *wish, uint32_t timeout_ms,
                          uint64_t *missing) {
    const struct wish stay = {RESERVE, 0};
    nm_pool_wait wait = {0, 0, 0, 0};
    uint64_t none = 0;
    nm_outcome outcome;
    if (is_forked(pool)) return NM_FORKED;
    do outcome = size_alone(pool, wish, &wait, timeout_ms, missing != NULL ? missing : &none);
    while (outcome == NM_IN_USE && pause_at(pool, &wait, timeout_ms));
    if (outcome != NM_DONE) (void)size_alone(pool, &stay, &wait, 0, &none); /* drops what was made */
    return outcome;
}

nm_outcome nm_pool_reserve(nm_pool *pool, uint64_t keys, uint32_t timeout_ms, uint64_t *missing) {
    const struct wish wish = {RESERVE, keys};
    return size_by(pool, &wish, timeout_ms, missing);
}

nm_outcome nm_pool_shrink_to_fit(nm_pool *pool, uint32_t timeout_ms, uint64_t *missing) {
    const struct wish wish = {SHRINK, 0};
    return size_by(pool, &wish, timeout_ms, missing);
}

/* ---- keys ---- */

static nm_outcome contains(const nm_pool *pool, nm_handle *worker, const struct request *request) {
    return nm_worker_contains(worker, request->key, &pool->options);
}

static nm_outcome remove_key(const nm_pool *pool, nm_handle *worker,
                             const struct request *request) {
    return nm_worker_remove(worker, request->key, &pool->options);
}

static nm_outcome pop_first_below(const nm_pool *pool, nm_handle *worker,
                                  const struct request *request) {
    return nm_worker_pop_first_below(worker, request->bound, &pool->options, request->found);
}

static nm_outcome pop_last_from(const nm_pool *pool, nm_handle *worker,
                                const struct request *request) {
    return nm_worker_pop_last_from(worker, request->bound, &pool->options, request->found);
}

static nm_outcome next(nm_handle *worker, const struct request *request, uint32_t tries) {
    return nm_worker_next(worker, request->key, tries, request->found);
}

static nm_outcome prev(nm_handle *worker, const struct request *request, uint32_t tries) {
    return nm_worker_prev(worker, request->key, tries, request->found);
}

static nm_outcome scan(nm_handle *worker, const struct request *request, uint32_t tries) {
    return nm_worker_scan(worker, request->key, request->bound, request->found, request->count,
                          request->written, request->next, tries);
}

static nm_outcome scan_back(nm_handle *worker, const struct request *request, uint32_t tries) {
    return nm_worker_scan_back(worker, request->key, request->bound, request->found, request->count,
                               request->written, request->next, tries);
}

static nm_outcome many(nm_handle *worker, const struct request *request, uint32_t tries) {
    return nm_worker_contains_many(worker, request->lookups, request->count, tries);
}

/* Makes the look-up of a request after the remove that is pending, and repeats it if each try was
 * lost, at most `rounds` times. */
static nm_outcome look(const nm_pool *pool, nm_handle *worker, const struct request *request) {
    uint32_t tries = pool->options.tries;
    nm_outcome outcome = request->look(worker, request, tries);
    for (uint32_t round = 0; round < pool->options.rounds; round++) {
        if (outcome == NM_PENDING) {
            if (nm_worker_finish(worker, tries) == NM_IN_USE) return NM_IN_USE;
        } else if (outcome != NM_BUSY) {
            break;
        }
        outcome = request->look(worker, request, tries);
    }
    return outcome;
}

nm_outcome nm_pool_contains(nm_pool *pool, uint32_t worker, uint64_t key, uint32_t timeout_ms) {
    const struct request request = {.key = key};
    return make(pool, worker, contains, NONE, &request, timeout_ms);
}

nm_outcome nm_pool_insert(nm_pool *pool, uint32_t worker, uint64_t key, uint32_t timeout_ms) {
    static _Thread_local unsigned inserts;
    uint64_t end = 0;
    const struct request request = {.key = key, .end = &end};
    nm_outcome outcome = make(pool, worker, insert, INSERTS, &request, timeout_ms);
    if (outcome == NM_FULL) outcome = insert_later(pool, worker, &request, timeout_ms);
    if (outcome == NM_YES && pool->grows && ++inserts % BRIM == 0) look_at_brim(pool);
    return outcome;
}

nm_outcome nm_pool_remove(nm_pool *pool, uint32_t worker, uint64_t key, uint32_t timeout_ms) {
    const struct request request = {.key = key};
    return make(pool, worker, remove_key, REMOVES, &request, timeout_ms);
}

nm_outcome nm_pool_pop_first(nm_pool *pool, uint32_t worker, uint64_t *taken, uint32_t timeout_ms) {
    return nm_pool_pop_first_below(pool, worker, UINT64_MAX, taken, timeout_ms);
}

nm_outcome nm_pool_pop_last(nm_pool *pool, uint32_t worker, uint64_t *taken, uint32_t timeout_ms) {
    return nm_pool_pop_last_from(pool, worker, 0, taken, timeout_ms);
}

nm_outcome nm_pool_pop_first_below(nm_pool *pool, uint32_t worker, uint64_t below,
                                   uint64_t *taken, uint32_t timeout_ms) {
    const struct request request = {.bound = below, .found = taken};
    return make(pool, worker, pop_first_below, REMOVES, &request, timeout_ms);
}

nm_outcome nm_pool_pop_last_from(nm_pool *pool, uint32_t worker, uint64_t from, uint64_t *taken,
                                 uint32_t timeout_ms) {
    const struct request request = {.bound = from, .found = taken};
    return make(pool, worker, pop_last_from, REMOVES, &request, timeout_ms);
}

nm_outcome nm_pool_pop_first_many(nm_pool *pool, uint32_t worker, uint64_t below, uint64_t *keys,
                                  size_t room, size_t *count, uint32_t timeout_ms) {
    size_t taken = 0;
    nm_outcome outcome = NM_YES;
    while (outcome == NM_YES && taken < room) {
        outcome = nm_pool_pop_first_below(pool, worker, below, &keys[taken], timeout_ms);
        taken += outcome == NM_YES || outcome == NM_UNFINISHED;
    }
    *count = taken;
    return taken != 0 || outcome >= 0 ? NM_DONE : outcome;
}

/* The least key that is below a bound, by a worker. */
struct least {
    nm_pool *pool;
    uint32_t worker;
    uint64_t below, *found;
};

static nm_outcome pop_least(void *of, uint32_t timeout_ms) {
    const struct least *least = of;
    return nm_pool_pop_first_below(least->pool, least->worker, least->below, least->found,
                                   timeout_ms);
}

nm_outcome nm_pool_wait_pop(nm_pool *pool, uint32_t worker, uint64_t below, uint64_t *taken,
                            uint32_t timeout_ms) {
    struct least least = {pool, worker, below, taken};
    return nm_host_wait(pool->waits, below > MOST_KEY ? TAKES_ANY : OTHERS, pop_least, &least,
                        timeout_ms);
}

static nm_outcome find_least(void *of, uint32_t timeout_ms) {
    const struct least *least = of;
    uint64_t key = 0;
    nm_outcome outcome = nm_pool_next(least->pool, least->worker, 0, &key, timeout_ms);
    if (outcome == NM_YES && key >= least->below) outcome = NM_NO;
    if (outcome == NM_YES) *least->found = key;
    return outcome;
}

nm_outcome nm_pool_wait_first(nm_pool *pool, uint32_t worker, uint64_t below, uint64_t *found,
                              uint32_t timeout_ms) {
    struct least least = {pool, worker, below, found};
    return nm_host_wait(pool->waits, OTHERS, find_least, &least, timeout_ms);
}

nm_outcome nm_pool_next(nm_pool *pool, uint32_t worker, uint64_t key, uint64_t *found,
                        uint32_t timeout_ms) {
    const struct request request = {.look = next, .key = key, .found = found};
    return make(pool, worker, look, NONE, &request, timeout_ms);
}

nm_outcome nm_pool_prev(nm_pool *pool, uint32_t worker, uint64_t key, uint64_t *found,
                        uint32_t timeout_ms) {
    const struct request request = {.look = prev, .key = key, .found = found};
    return make(pool, worker, look, NONE, &request, timeout_ms);
}

/* Makes a scan, unless its range is empty, and writes how many keys it has written. */
static nm_outcome scan_range(nm_pool *pool, uint32_t worker, bool is_empty,
                             const struct request *request, size_t *count, uint32_t timeout_ms) {
    nm_outcome outcome = is_empty ? NM_NO : make(pool, worker, look, NONE, request, timeout_ms);
    if (outcome >= 0) *count = *request->written;
    return outcome;
}

static bool is_empty_range(uint64_t from, uint64_t below) {
    return from >= below || from > MOST_KEY;
}

nm_outcome nm_pool_scan(nm_pool *pool, uint32_t worker, uint64_t from, uint64_t below,
                        uint64_t *keys, size_t room, size_t *count, uint64_t *next,
                        uint32_t timeout_ms) {
    uint64_t none = 0, written = 0;
    const struct request request = {
        .look = scan, .key = from, .bound = below, .found = room == 0 ? &none : keys,
        .count = room, .written = &written, .next = next};
    return scan_range(pool, worker, is_empty_range(from, below), &request, count, timeout_ms);
}

nm_outcome nm_pool_scan_back(nm_pool *pool, uint32_t worker, uint64_t below, uint64_t from,
                             uint64_t *keys, size_t room, size_t *count, uint64_t *next,
                             uint32_t timeout_ms) {
    uint64_t none = 0, written = 0, greatest = 0;
    const struct request request = {
        .look = scan_back, .key = below > MOST_KEY ? MOST_KEY : below - 1, .bound = from,
        .found = room == 0 ? &none : keys, .count = room, .written = &written, .next = &greatest};
    nm_outcome outcome =
        scan_range(pool, worker, is_empty_range(from, below), &request, count, timeout_ms);
    if (outcome == NM_YES) *next = greatest + 1;
    return outcome;
}

nm_outcome nm_pool_count(nm_pool *pool, uint32_t worker, uint64_t from, uint64_t below,
                         uint64_t *count, uint32_t timeout_ms) {
    uint64_t keys[SCANNED], total = 0;
    nm_outcome outcome = NM_YES;
    while (outcome == NM_YES) {
        size_t some = 0;
        outcome = nm_pool_scan(pool, worker, from, below, keys, SCANNED, &some, &from, timeout_ms);
        if (outcome >= 0) total += some;
    }
    if (outcome == NM_NO) *count = total;
    return outcome == NM_NO ? NM_DONE : outcome;
}

nm_outcome nm_pool_contains_many(nm_pool *pool, uint32_t worker, nm_lookup *lookups, size_t count,
                                 uint32_t timeout_ms) {
    nm_lookup none = {0, 0};
    const struct request request = {
        .look = many, .lookups = count == 0 ? &none : lookups, .count = count};
    return make(pool, worker, look, NONE, &request, timeout_ms);
}

/* A call that inserts or removes one key. */
typedef nm_outcome (*change_of_key)(nm_pool *, uint32_t, uint64_t, uint32_t);

/* Keys that a call for many changes, what it has answered, and for how many of them. */
struct changes {
    change_of_key call;
    bool is_insert;
    const uint64_t *keys;
    size_t count, done;
    unsigned char *answers;
};

/* Inserts or removes the next keys, at most SOUGHT, one by one, after a look-up of all of them. Its
 * searches are interleaved, so that they wait for memory together. A key whose answer is no by that
 * look-up needs no call. If the look-up fails, the calls find out why. Returns NM_DONE, or the
 * outcome of a key that was not changed. */
static nm_outcome change_group(nm_pool *pool, uint32_t worker, struct changes *changes,
                               uint32_t timeout_ms) {
    nm_lookup lookups[SOUGHT];
    size_t left = changes->count - changes->done, count = left < SOUGHT ? left : SOUGHT;
    for (size_t at = 0; at < count; at++)
        lookups[at] = (nm_lookup){changes->keys[changes->done + at], 0};
    bool is_known = nm_pool_contains_many(pool, worker, lookups, count, timeout_ms) == NM_DONE;
    for (size_t at = 0; at < count; at++, changes->done++) {
        nm_outcome outcome = NM_NO;
        if (!is_known || (lookups[at].found != 0) != changes->is_insert)
            outcome = changes->call(pool, worker, lookups[at].key, timeout_ms);
        if (outcome < 0 && outcome != NM_UNFINISHED) return outcome;
        changes->answers[changes->done] = outcome != NM_NO;
    }
    return NM_DONE;
}

static nm_outcome change_many(nm_pool *pool, uint32_t worker, struct changes changes, size_t *done,
                              uint32_t timeout_ms) {
    nm_outcome outcome = NM_DONE;
    while (outcome == NM_DONE && changes.done < changes.count)
        outcome = change_group(pool, worker, &changes, timeout_ms);
    *done = changes.done;
    return outcome;
}

nm_outcome nm_pool_insert_many(nm_pool *pool, uint32_t worker, const uint64_t *keys, size_t count,
                               unsigned char *answers, size_t *done, uint32_t timeout_ms) {
    struct changes changes = {nm_pool_insert, true, keys, count, 0, answers};
    return change_many(pool, worker, changes, done, timeout_ms);
}

nm_outcome nm_pool_remove_many(nm_pool *pool, uint32_t worker, const uint64_t *keys, size_t count,
                               unsigned char *answers, size_t *done, uint32_t timeout_ms) {
    struct changes changes = {nm_pool_remove, false, keys, count, 0, answers};
    return change_many(pool, worker, changes, done, timeout_ms);
}

/* ---- a number of tries, and other calls by an attached worker ---- */

static nm_outcome try_insert(const nm_pool *pool, nm_handle *worker,
                             const struct request *request) {
    (void)pool;
    return nm_worker_try_insert(worker, request->key, (uint32_t)request->count);
}

static nm_outcome try_remove(const nm_pool *pool, nm_handle *worker,
                             const struct request *request) {
    (void)pool;
    return nm_worker_try_remove(worker, request->key, (uint32_t)request->count);
}

nm_outcome nm_pool_try_insert(nm_pool *pool, uint32_t worker, uint64_t key, uint32_t tries,
                              uint32_t timeout_ms) {
    const struct request request = {.key = key, .count = tries};
    if (worker == NM_ANY) return NM_NUMBER;
    return make(pool, worker, try_insert, INSERTS, &request, timeout_ms);
}

nm_outcome nm_pool_try_remove(nm_pool *pool, uint32_t worker, uint64_t key, uint32_t tries,
                              uint32_t timeout_ms) {
    const struct request request = {.key = key, .count = tries};
    if (worker == NM_ANY) return NM_NUMBER;
    return make(pool, worker, try_remove, REMOVES, &request, timeout_ms);
}

nm_handle *nm_pool_handle(nm_pool *pool, uint32_t worker) {
    bool is_there = !is_forked(pool) && lent_seat(pool, worker) != NULL;
    return is_there ? &pool->seats[worker].handle : &pool->closed;
}

int nm_pool_again(nm_pool *pool, uint32_t worker, nm_pool_wait *wait, nm_outcome outcome,
                  uint32_t timeout_ms) {
    return worker < pool->count && is_for_another(&pool->seats[worker], wait, outcome) &&
           look_again(pool, wait, timeout_ms);
}

/* ---- how full it is ---- */

/* Returns NM_DONE, or why no question about the set is answered. */
static nm_outcome is_there(const nm_pool *pool) {
    if (is_forked(pool)) return NM_FORKED;
    return is_ended(pool) && phase_of(pool) != LEFT ? NM_CLOSED : NM_DONE;
}

nm_outcome nm_pool_size(nm_pool *pool, uint64_t *keys) {
    nm_outcome outcome = is_there(pool);
    if (outcome == NM_DONE) *keys = keys_of(pool);
    return outcome;
}

nm_outcome nm_pool_fullness(nm_pool *pool, nm_fullness *fullness) {
    nm_outcome outcome = is_there(pool);
    if (outcome != NM_DONE) return outcome;
    uint64_t hindering = atomic_load_explicit(&pool->hindering, memory_order_relaxed);
    nm_fullness all = {nodes_of(pool), keys_of(pool), 0, 0, 0, behind_of(pool), hindering};
    ask_queues(pool, &all);
    uint64_t taken = 2 * all.keys + 5, rest = taken < all.nodes ? all.nodes - taken : 0;
    if (all.waiting > rest) all.waiting = rest;
    all.free = rest - all.waiting;
    outcome = is_there(pool); /* a worker that was gathered for a close has not answered */
    if (outcome == NM_DONE) *fullness = all;
    return outcome;
}

nm_outcome nm_pool_growths(nm_pool *pool, uint64_t *count, uint64_t *longest_ns) {
    nm_outcome outcome = is_there(pool);
    if (outcome != NM_DONE) return outcome;
    *count = atomic_load(&pool->sizes);
    *longest_ns = atomic_load(&pool->longest);
    return NM_DONE;
}

nm_outcome nm_pool_collect(nm_pool *pool, uint64_t *freed) {
    nm_outcome outcome = is_there(pool);
    if (outcome == NM_DONE) *freed = collect(pool, NM_ANY);
    return outcome;
}

uint64_t nm_pool_nodes(const nm_pool *pool) { return nodes_of(pool); }
uint32_t nm_pool_workers(const nm_pool *pool) { return pool->count; }
const nm_options *nm_pool_call_options(const nm_pool *pool) { return &pool->options; }

uint64_t nm_pool_attached(const nm_pool *pool) {
    uint64_t mask = 0;
    if (is_forked(pool)) return 0;
    for (uint32_t number = 0; number < opened(pool); number++)
        if (use_of(&pool->seats[number]) == LENT) mask |= (uint64_t)1 << number;
    return mask;
}

/* ---- words ---- */

const char *nm_pool_text(nm_outcome outcome) {
    if ((int)outcome == (int)NM_FORKED)
        return "the set was made before this process was forked: only the parent can use it";
    return nm_outcome_text(outcome);
}

/* A text that is written from its begin on, and cut off at its end. */
struct writer {
    char *text;
    size_t size, used;
};

__attribute__((format(printf, 2, 3))) static void write_words(struct writer *to, const char *format,
                                                              ...) {
    va_list words;
    if (to->used >= to->size) return;
    va_start(words, format);
    int written = vsnprintf(to->text + to->used, to->size - to->used, format, words);
    va_end(words);
    if (written > 0) to->used += (size_t)written;
}

/* Writes a number in groups of three digits: 65,536. */
static void write_number(struct writer *to, uint64_t number) {
    if (number < 1000) {
        write_words(to, "%" PRIu64, number);
        return;
    }
    write_number(to, number / 1000);
    write_words(to, ",%03" PRIu64, number % 1000);
}

static bool is_one(uint64_t mask) { return (mask & (mask - 1)) == 0; }

static void write_mask(struct writer *to, uint64_t mask) {
    const char *between = is_one(mask) ? "worker " : "workers ";
    for (uint32_t number = 0; number < WORKERS; number++) {
        if ((mask >> number & 1) == 0) continue;
        mask &= ~((uint64_t)1 << number);
        write_words(to, "%s%" PRIu32, between, number);
        between = is_one(mask) ? " and " : ", ";
    }
}

const char *nm_mask_words(uint64_t mask, char *text, size_t size) {
    struct writer to = {text, size, 0};
    write_mask(&to, mask);
    return text;
}

const char *nm_full_words(const nm_fullness *fullness, char *text, size_t size) {
    struct writer to = {text, size, 0};
    write_words(&to, "the set is full: its ");
    write_number(&to, fullness->keys);
    write_words(&to, " keys take ");
    write_number(&to, 2 * fullness->keys + 5);
    write_words(&to, " of its ");
    write_number(&to, fullness->nodes);
    write_words(&to, " nodes, and ");
    write_number(&to, fullness->waiting);
    write_words(&to, " wait to be freed");
    if (fullness->behind != 0) {
        write_words(&to, "; ");
        write_mask(&to, fullness->behind);
        write_words(&to, " %s in their way, by a pin or in a call",
                    is_one(fullness->behind) ? "is" : "are");
    }
    if (fullness->unasked != 0) {
        write_words(&to, "; ");
        write_mask(&to, fullness->unasked);
        write_words(&to, " %s in a call, so what waits there is counted as last seen",
                    is_one(fullness->unasked) ? "is" : "are");
    }
    if (fullness->hindering != 0) {
        write_words(&to, "; the set cannot grow while ");
        write_mask(&to, fullness->hindering);
        write_words(&to, " %s pinned or in a call", is_one(fullness->hindering) ? "is" : "are");
    }
    return text;
}

/* ---- the pool ---- */

/* Allocates a pool whose seats begin with cache lines; returns NULL if memory was refused. */
static nm_pool *allocate(uint32_t workers) {
    size_t size = sizeof(nm_pool) + workers * sizeof(struct seat);
    char *block = malloc(size + LINE);
    if (block == NULL) return NULL;
    nm_pool *pool = (nm_pool *)(block + (LINE - (uintptr_t)block % LINE));
    memset(pool, 0, size);
    pool->block = block;
    return pool;
}

nm_outcome nm_pool_new(nm_pool **pool, uint64_t nodes, const nm_pool_options *options) {
    if (options == NULL) options = &nm_pool_defaults;
    bool grows = nodes == NM_GROWS;
    if (grows) nodes = FIRST_NODES;
    if (nodes > UINT32_MAX) return NM_NODES;
    if (options->workers < 1 || options->workers > WORKERS) return NM_WORKERS;
    if (options->shape > NM_UNBALANCED) return NM_NUMBER;
    nm_host_count_forks();
    nm_pool *made = allocate(options->workers);
    if (made == NULL) return NM_NO_MEMORY;
    made->options = (nm_options){options->tries, options->rounds, options->collect_after};
    made->count = options->workers;
    made->shape = options->shape;
    made->grows = grows;
    atomic_init(&made->nodes, nodes);
    made->forks = atomic_load(&nm_host_forks);
    atomic_init(&made->references, 1);
    nm_outcome outcome = new_set(&made->set, nodes, options->workers, options->shape);
    if (outcome == NM_DONE)
        *pool = made;
    else
        free(made->block);
    return outcome;
}

/* Gives up one reference; the last one frees the memory. */
static void release(nm_pool *pool) {
    if (atomic_fetch_sub(&pool->references, 1) != 1) return;
    (void)nm_drop(&pool->spare);
    free(pool->block);
}

static void reopen(nm_pool *pool) {
    atomic_store(&pool->phase, OPEN);
    for (uint32_t number = 0; number < pool->count; number++)
        if (use_of(&pool->seats[number]) == CLOSED) set_use(&pool->seats[number], FREE);
}

/* Takes all workers for a close, after the calls in progress. Returns NM_ATTACHED or NM_IN_USE, and
 * a bit for each worker that is missing, and gives the others back. */
static nm_outcome gather(nm_pool *pool, nm_pool_wait *wait, uint32_t timeout_ms,
                         uint64_t *missing) {
    atomic_store(&pool->phase, CLOSING);
    uint64_t lent = nm_pool_attached(pool), in_call = 0;
    for (uint32_t number = 0; lent == 0 && number < pool->count; number++) {
        struct seat *seat = &pool->seats[number];
        int use = take_soon(seat, CLOSED, wait, timeout_ms);
        uint64_t bit = (uint64_t)1 << number;
        if (use == LENT)
            lent |= bit;
        else if (use != FREE || !shut(pool, seat, wait, timeout_ms))
            in_call |= bit;
    }
    *missing = lent | in_call;
    if (*missing == 0) {
        atomic_store(&pool->phase, GATHERED);
        return NM_DONE;
    }
    reopen(pool);
    return lent != 0 ? NM_ATTACHED : NM_IN_USE;
}

static nm_outcome close_set(nm_pool *pool, nm_handle *report, nm_pool_wait *wait,
                            uint32_t timeout_ms) {
    nm_outcome outcome;
    do outcome = nm_set_close(&pool->set);
    while (outcome == NM_IN_USE && look_again(pool, wait, timeout_ms));
    if (outcome == NM_DONE) {
        *report = pool->set;
        pool->set = (nm_handle)NM_CLOSED_HANDLE;
        atomic_store(&pool->phase, ENDED);
        wake_all(pool->waits);
    }
    return outcome;
}

nm_outcome nm_pool_close(nm_pool *pool, uint32_t timeout_ms, nm_handle *report, uint64_t *missing) {
    nm_pool_wait wait = {0, 0, 0, 0};
    uint64_t none = 0, keys = 0;
    UNCANCELLED;
    if (is_forked(pool)) return NM_FORKED;
    if (nm_report_keys(report, &keys) != NM_CLOSED) return NM_OPEN;
    while (atomic_exchange(&pool->is_closing, true))
        if (!pause_at(pool, &wait, timeout_ms)) return NM_IN_USE;
    nm_outcome outcome = phase_of(pool) > GATHERED ? NM_CLOSED : NM_DONE;
    if (phase_of(pool) == OPEN)
        outcome = gather(pool, &wait, timeout_ms, missing != NULL ? missing : &none);
    if (outcome == NM_DONE) outcome = close_set(pool, report, &wait, timeout_ms);
    atomic_store(&pool->is_closing, false);
    return outcome;
}

/* Takes a free seat of a pool that was given up, and gives up its worker. Returns false if a call
 * has the seat or the worker until the wait is over. */
static bool leave_seat(nm_pool *pool, struct seat *seat, nm_pool_wait *wait) {
    int use = take_soon(seat, CLOSED, wait, END_MS);
    if (use == FREE) return shut(pool, seat, wait, END_MS);
    return use != CALL; /* an attached worker leaves later */
}

void nm_pool_free(nm_pool *pool) {
    nm_pool_wait wait = {0, 0, 0, 0};
    bool is_left = true;
    UNCANCELLED;
    if (pool == NULL || is_forked(pool)) return;
    while (atomic_exchange(&pool->is_closing, true))
        if (!pause_at(pool, &wait, END_MS)) return;
    atomic_store(&pool->phase, LEFT);
    atomic_store(&pool->is_closing, false);
    for (uint32_t number = 0; number < pool->count; number++)
        is_left &= leave_seat(pool, &pool->seats[number], &wait);
    while (nm_drop(&pool->set) == NM_IN_USE && look_again(pool, &wait, END_MS)) {}
    if (is_left) release(pool); /* if a call has not ended, its memory stays taken */
}

/* ---- workers of threads ---- */

/* Attaches the worker of a free seat, if the seat can be taken. Returns NM_NO_WORKER if not. Until
 * it is attached the seat is in a call, for which a close waits. */
static nm_outcome lend(nm_pool *pool, uint32_t number) {
    struct seat *seat = &pool->seats[number];
    if (phase_of(pool) != OPEN || !take(seat, CALL)) return NM_NO_WORKER;
    nm_pool_wait wait = {0, 0, 0, 0};
    nm_outcome outcome = phase_of(pool) == OPEN ? open_seat(pool, number) : NM_NO_WORKER;
    if (outcome == NM_DONE && settle(pool, seat, &wait, 0) == NM_IN_USE) outcome = NM_IN_USE;
    if (outcome == NM_DONE) atomic_fetch_add(&pool->references, 1);
    set_use(seat, outcome == NM_DONE ? LENT : FREE);
    return outcome == NM_ATTACHED || outcome == NM_IN_USE ? NM_NO_WORKER : outcome;
}

static nm_outcome lend_any(nm_pool *pool, uint32_t *worker) {
    nm_outcome outcome = NM_NO_WORKER;
    for (uint32_t number = 0; outcome == NM_NO_WORKER && number < pool->count; number++)
        if ((outcome = lend(pool, number)) == NM_DONE) *worker = number;
    return outcome;
}

nm_outcome nm_pool_attach(nm_pool *pool, uint32_t *worker, uint32_t timeout_ms) {
    nm_pool_wait wait = {0, 0, 0, 0};
    nm_outcome outcome;
    if (is_forked(pool)) return NM_FORKED;
    do {
        if (is_ended(pool)) return NM_CLOSED;
        outcome = lend_any(pool, worker);
    } while (outcome == NM_NO_WORKER && pause_at(pool, &wait, timeout_ms));
    return outcome == NM_NO_WORKER && is_ended(pool) ? NM_CLOSED : outcome;
}

nm_outcome nm_pool_attach_number(nm_pool *pool, uint32_t number, uint32_t *worker,
                                 uint32_t timeout_ms) {
    nm_pool_wait wait = {0, 0, 0, 0};
    nm_outcome outcome;
    if (is_forked(pool)) return NM_FORKED;
    if (number >= pool->count) return NM_NUMBER;
    do {
        if (is_ended(pool)) return NM_CLOSED;
        if (use_of(&pool->seats[number]) == LENT) return NM_ATTACHED;
        outcome = lend(pool, number);
    } while (outcome == NM_NO_WORKER && pause_at(pool, &wait, timeout_ms));
    if (outcome == NM_DONE) *worker = number;
    return outcome == NM_NO_WORKER ? NM_IN_USE : outcome;
}

nm_outcome nm_pool_detach(nm_pool *pool, uint32_t *worker, uint32_t timeout_ms) {
    nm_pool_wait wait = {0, 0, 0, 0};
    UNCANCELLED;
    if (*worker == NM_NONE) return NM_CLOSED;
    if (is_forked(pool)) return NM_FORKED;
    struct seat *seat = lent_seat(pool, *worker);
    if (seat == NULL) return NM_CLOSED;
    while (settle(pool, seat, &wait, timeout_ms) == NM_IN_USE)
        if (!pause_at(pool, &wait, timeout_ms)) return NM_IN_USE;
    *worker = NM_NONE;
    atomic_store(&seat->use, FREE);
    if (phase_of(pool) == LEFT) (void)leave_seat(pool, seat, &wait);
    release(pool);
    return NM_DONE;
}

nm_outcome nm_pool_end(nm_pool *pool, uint32_t *worker, nm_handle *report, uint32_t timeout_ms) {
    nm_pool_wait wait = {0, 0, 0, 0};
    nm_outcome outcome;
    if (is_forked(pool)) return NM_FORKED;
    struct seat *seat = lent_seat(pool, *worker);
    if (seat == NULL) return NM_CLOSED;
    do outcome = nm_worker_end(&seat->handle);
    while (outcome == NM_IN_USE && look_again(pool, &wait, timeout_ms));
    /* An earlier end was refused memory after it had gathered the workers. */
    if (outcome == NM_KIND) outcome = nm_set_close(&seat->handle);
    if (outcome != NM_DONE) return outcome;
    *report = seat->handle;
    seat->handle = (nm_handle)NM_CLOSED_HANDLE;
    *worker = NM_NONE;
    set_use(seat, CLOSED);
    release(pool);
    return outcome;
}
