/* Sessions of a server: threads serve requests, each of which renews a session for 50 milliseconds,
 * and one thread ends the sessions that no request has renewed.
 *
 * A key is the microsecond at which a session expires, with the session's number in the low bits.
 * The thread that removes a key owns the session until it inserts the next key, so a session is
 * renewed or ended, and never both. */
#include <nm_wait.h>
#include <pthread.h>
#include <stdatomic.h>
#include <stdbool.h>
#include <stdio.h>
#include <time.h>

enum { SESSIONS = 1000, SERVERS = 4, REQUESTS = 20000, NUMBER_BITS = 16, LIFE = 50000 };

static nm_handle expiring = NM_CLOSED_HANDLE;
static _Atomic uint64_t key_of[SESSIONS]; /* the key of each session; 0 after its end */
static const struct timespec step = {0, 1000000};
static atomic_int servers = SERVERS, renewed, ended;

static uint64_t now(void) {
    struct timespec time;
    clock_gettime(CLOCK_MONOTONIC, &time);
    return (uint64_t)time.tv_sec * 1000000 + (uint64_t)time.tv_nsec / 1000;
}

/* Returns whether this thread owns the session of a key now: no other thread removes the key. */
static bool take(nm_handle *worker, uint64_t key) {
    nm_outcome outcome = nm_worker_remove(worker, key, &nm_default_options);
    return outcome == NM_YES || outcome == NM_UNFINISHED;
}

/* Lets a session live for a while from now on. The caller owns it. */
static nm_outcome live(nm_handle *worker, uint64_t session) {
    uint64_t key = (now() + LIFE) << NUMBER_BITS | session;
    key_of[session] = key;
    return nm_wait_insert(worker, key, &nm_default_options, 1000);
}

/* Serves requests, but none for the last ten sessions, or for one that has ended. */
static void *serve(void *seed) {
    uint64_t random = (uintptr_t)seed;
    nm_handle worker = NM_CLOSED_HANDLE;
    if (nm_wait_attach(&expiring, &worker, 1000) != NM_DONE) return NULL;
    for (int i = 0; i < REQUESTS; i++) {
        random = random * 6364136223846793005u + 1442695040888963407u;
        uint64_t session = (random >> 33) % (SESSIONS - 10), key = key_of[session];
        if (i % 200 == 0) nanosleep(&step, NULL);
        if (key != 0 && take(&worker, key)) renewed += live(&worker, session) == NM_YES;
    }
    servers--;
    nm_drop(&worker);
    return NULL;
}

/* Ends sessions that have expired, while there are servers. */
static void *expire(void *unused) {
    nm_handle worker = NM_CLOSED_HANDLE;
    uint64_t first;
    if (nm_wait_attach(&expiring, &worker, 1000) != NM_DONE) return unused;
    while (servers > 0) {
        if (nm_worker_next(&worker, 0, 64, &first) != NM_YES || first >> NUMBER_BITS > now()) {
            nanosleep(&step, NULL);
        } else if (take(&worker, first)) {
            key_of[first % (1u << NUMBER_BITS)] = 0;
            ended++;
        }
    }
    nm_drop(&worker);
    return NULL;
}

int main(void) {
    pthread_t threads[SERVERS + 1];
    uint64_t left = 0;
    nm_handle worker = NM_CLOSED_HANDLE;
    if (nm_set_new(&expiring, 16 * SESSIONS, 64) != NM_DONE ||
        nm_wait_attach(&expiring, &worker, 1000) != NM_DONE)
        return 1;
    for (uint64_t i = 0; i < SESSIONS; i++)
        if (live(&worker, i) != NM_YES) return 1;
    nm_drop(&worker);
    for (uintptr_t i = 0; i <= SERVERS; i++)
        if (pthread_create(&threads[i], NULL, i ? serve : expire, (void *)i) != 0) return 1;
    for (int i = 0; i <= SERVERS; i++) pthread_join(threads[i], NULL);
    if (nm_wait_close(&expiring, 1000) != NM_DONE) return 1;
    if (nm_report_keys(&expiring, &left) != NM_DONE || nm_drop(&expiring) != NM_DONE) return 1;
    printf("%d renewals, %d sessions ended, %d live\n", renewed, ended, (int)left);
    return ended + (int)left == SESSIONS && ended >= 10 && renewed > 0 ? 0 : 1;
}
