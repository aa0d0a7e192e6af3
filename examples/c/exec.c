/* Runs jobs on kernel threads, each a worker of one executor: exec THREADS JOBS. The jobs have the numbers 1 to JOBS,
 * an even number. An odd job waits until the next job has released it. Prints the number of jobs that ended, and the
 * sum of their numbers. */
#include "arachne_exec.h"
#include <inttypes.h>
#include <pthread.h>
#include <semaphore.h>
#include <stdatomic.h>
#include <stdio.h>
#include <stdlib.h>
#include <time.h>

enum { MOST = 16 };

typedef struct {
    arachne_exec exec;
    uint32_t worker;
    uint64_t sum;
} runner;

typedef struct {
    _Atomic uint64_t name;
    _Atomic bool released;
} future;

static uint64_t jobs;
static future *futures;
static _Atomic uint64_t ended;
static sem_t sleeper[MOST]; /* a post before the sleep isn't lost */

static void unpark(uint32_t worker) {
    if (worker != ARACHNE_NOBODY) sem_post(&sleeper[worker]);
}

/* Sleeps for a short time after each 64th failed try. */
static void stand_by(unsigned tries) {
    if (tries % 64 == 0) nanosleep(&(struct timespec){0, 50000}, NULL);
}

static bool wake(arachne_exec *exec, uint64_t name) {
    arachne_exec_told told;
    unsigned tries = 0;
    while ((told = arachne_exec_wake(exec, name)).code == ARACHNE_LOST) stand_by(++tries);
    unpark(told.unpark);
    return told.code != ARACHNE_REFUSED;
}

/* Runs the job that the seat holds. An even job releases the job before it, an odd one waits until it is released. */
static bool poll_job(runner *r, uint64_t job) {
    if (job % 2 == 1 && !atomic_load(&futures[job].released)) {
        arachne_exec_told told = arachne_exec_rest_blocked(&r->exec);
        unpark(told.unpark);
        return told.code == ARACHNE_BLOCKED || told.code == ARACHNE_READY;
    }
    if (job % 2 == 0) {
        atomic_store(&futures[job - 1].released, true);
        if (!wake(&r->exec, atomic_load(&futures[job - 1].name))) return false;
    }
    if (arachne_exec_finish(&r->exec) != ARACHNE_DONE) return false;
    r->sum += job;
    atomic_fetch_add(&ended, 1);
    return true;
}

static void *work(void *at) {
    runner *r = at;
    unsigned tries = 0;
    if (arachne_exec_register(&r->exec, r->worker) != ARACHNE_DONE) return r;
    while (atomic_load(&ended) < jobs) {
        arachne_exec_told told = arachne_exec_next(&r->exec);
        if (told.code == ARACHNE_RUN && !poll_job(r, told.job)) return r;
        if (told.code == ARACHNE_PARK) sem_wait(&sleeper[r->worker]);
        if (told.code == ARACHNE_AGAIN) stand_by(++tries);
        if (told.code == ARACHNE_REFUSED) return r;
    }
    for (uint32_t k = 0; k < MOST; k++) unpark(k);
    return arachne_exec_leave(&r->exec) == ARACHNE_DONE ? NULL : r;
}

/* Spawns all jobs. The workers' blocks get them in turn. Tries again while a block has no free slot. */
static bool spawn_all(arachne_exec *exec, int threads) {
    for (uint64_t job = 1; job <= jobs; job++) {
        size_t block = 64 * (job % threads) + job / threads % 64;
        arachne_exec_told told;
        unsigned tries = 0;
        while ((told = arachne_exec_spawn(exec, block, job)).code == ARACHNE_FULL || told.code == ARACHNE_LOST) stand_by(++tries);
        if (told.code != ARACHNE_READY) return false;
        atomic_store(&futures[job].name, told.name);
        unpark(told.unpark);
    }
    return true;
}

/* Gives each kernel thread a seat (right to call), and joins the seat when the thread has ended. */
static bool run(arachne_exec *exec, int threads, uint64_t *sum) {
    pthread_t thread[MOST];
    runner runners[MOST];
    bool well = true;
    for (int k = 0; k < MOST; k++)
        if (sem_init(&sleeper[k], 0, 0) != 0) return false;
    for (int k = 0; k < threads; k++) {
        runners[k] = (runner){ARACHNE_EXEC_NULL, k, 0};
        if (arachne_exec_split(exec, &runners[k].exec) != ARACHNE_DONE) return false;
        if (pthread_create(&thread[k], NULL, work, &runners[k]) != 0) return false;
    }
    well = spawn_all(exec, threads);
    for (int k = 0; k < threads; k++) {
        void *fault;
        well = pthread_join(thread[k], &fault) == 0 && fault == NULL && well;
        well = arachne_exec_join(exec, &runners[k].exec) == ARACHNE_DONE && well;
        *sum += runners[k].sum;
    }
    return well;
}

/* Takes both jobs of block 1 at once, and makes each ready again, the one in the lower slot first. */
static bool takes_both(arachne_exec *exec) {
    bool well = arachne_exec_take_many(exec, 1, 64) == 3;
    well = well && arachne_exec_start(exec).job == 8 && arachne_exec_rest_ready(exec).code == ARACHNE_READY;
    well = well && arachne_exec_start(exec).job == 9 && arachne_exec_rest_ready(exec).code == ARACHNE_READY;
    return well && arachne_exec_start(exec).code == ARACHNE_REFUSED;
}

/* Spawns three more jobs, of which one waits and two stay ready, and checks that the end returns all three. */
static bool hands_back(arachne_exec *exec, size_t places) {
    uint64_t *left = calloc(places, sizeof *left);
    bool well = left && arachne_exec_spawn_here(exec, 0, 7).code == ARACHNE_RUN;
    well = well && arachne_exec_rest_blocked(exec).code == ARACHNE_BLOCKED;
    for (uint64_t job = 8; job < 10; job++) well = well && arachne_exec_spawn(exec, 1, job).code == ARACHNE_READY;
    well = well && arachne_exec_shown(exec, 0) >> 1 & 1 && arachne_exec_ready(exec, 1) == 3 && takes_both(exec);
    if (well) {
        arachne_exec_left told = arachne_exec_end(exec, left, places);
        well = told.code == ARACHNE_DONE && told.count == 3 && left[0] + left[1] + left[2] == 24;
    }
    free(left);
    return well;
}

int main(int argc, char **argv) {
    arachne_exec exec = ARACHNE_EXEC_NULL;
    uint64_t sum = 0;
    int threads = argc == 3 ? atoi(argv[1]) : 0;
    if (threads < 1 || threads > MOST) return 2;
    jobs = strtoull(argv[2], NULL, 10) / 2 * 2;
    futures = calloc(jobs + 1, sizeof *futures);
    if (!futures || arachne_exec_new(&exec, threads) != ARACHNE_DONE) return 1;
    if (!run(&exec, threads, &sum)) return 1;
    if (!hands_back(&exec, 4096 * (size_t)threads)) return 1;
    printf("ended %" PRIu64 "\nsum %" PRIu64 "\n", atomic_load(&ended), sum);
    arachne_exec_close(&exec);
    free(futures);
    return 0;
}
