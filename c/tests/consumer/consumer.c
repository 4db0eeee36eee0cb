/* A program as one writes it over the installed set. It prints the version of its header. */
#include <nm_wait.h>

#include <stdio.h>
#include <string.h>

int main(void) {
    nm_handle set = NM_CLOSED_HANDLE, worker = NM_CLOSED_HANDLE;
    uint64_t keys = 0;
    if (nm_set_new(&set, 64, 5) != NM_DONE || nm_wait_attach(&set, &worker, 9) != NM_DONE) return 1;
    if (nm_worker_try_insert(&worker, 5, 64) != NM_YES ||
        nm_worker_try_contains(&worker, 5, 64) != NM_YES)
        return 1;
    if (nm_drop(&worker) != NM_DONE || nm_set_close(&set) != NM_DONE) return 1;
    if (nm_report_keys(&set, &keys) != NM_DONE || keys != 1 || nm_drop(&set) != NM_DONE) return 1;
    printf("nm_set %s: %s\n", NM_SET_VERSION, nm_outcome_text(NM_DONE));
    return 0;
}
