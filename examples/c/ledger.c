/* Adds the numbers up to COUNT to two ledgers on several threads, and prints both totals: ledger THREADS COUNT.
 * Thread k adds k+1, k+1+THREADS and so on: each number to ledger 0, and 1 to ledger 1. */
#include "arachne_exec.h"
#include <inttypes.h>
#include <pthread.h>
#include <stdio.h>
#include <stdlib.h>

enum { MOST = 64 };

typedef struct {
    arachne_adder adder;
    uint64_t first, step, count;
} job;

static void *add_all(void *at) {
    job *j = at;
    for (uint64_t number = j->first; number <= j->count; number += j->step)
        if (!arachne_ledger_add(&j->adder, 0, number) || !arachne_ledger_add(&j->adder, 1, 1)) return j;
    return NULL;
}

/* Gives each thread a share (right to add), and joins the share when the thread has ended. */
static int run(arachne_adder *adder, int threads, uint64_t count) {
    pthread_t thread[MOST];
    job jobs[MOST];
    int faults = 0;
    for (int k = 0; k < threads; k++) {
        jobs[k] = (job){ARACHNE_ADDER_NULL, k + 1, threads, count};
        if (arachne_ledger_split(adder, &jobs[k].adder) != ARACHNE_DONE) return 1;
        if (pthread_create(&thread[k], NULL, add_all, &jobs[k]) != 0) return 1;
    }
    for (int k = 0; k < threads; k++) {
        void *fault;
        faults += pthread_join(thread[k], &fault) != 0 || fault != NULL;
        faults += !arachne_ledger_join(adder, &jobs[k].adder);
    }
    return faults;
}

int main(int argc, char **argv) {
    arachne_adder adder = ARACHNE_ADDER_NULL;
    uint64_t total;
    int threads = argc == 3 ? atoi(argv[1]) : 0;
    if (threads < 1 || threads > MOST) return 2;
    if (arachne_ledgers_new(&adder, 2) != ARACHNE_DONE) return 1;
    if (run(&adder, threads, strtoull(argv[2], NULL, 10)) != 0) return 1;
    for (size_t ledger = 0; ledger < 2; ledger++) {
        if (!arachne_ledger_total(&adder, ledger, &total)) return 1;
        printf("ledger %zu %" PRIu64 "\n", ledger, total);
    }
    arachne_ledger_close(&adder);
    return 0;
}
