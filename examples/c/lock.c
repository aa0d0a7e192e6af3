/* Kernel threads take turns at one lock: lock THREADS ROUNDS. Each thread asks ROUNDS times, and waits until it has the
 * lock. While it holds the lock, it increments a counter. Every eighth time it doesn't wait but withdraws. Prints the
 * number of turns, held or withdrawn. The status is 1 if the counter isn't the number of turns that held the lock. */
#include "arachne_exec.h"
#include <inttypes.h>
#include <pthread.h>
#include <semaphore.h>
#include <stdio.h>
#include <stdlib.h>
#include <time.h>

enum { MOST = 64 };

typedef struct {
    arachne_locks locks;
    uint64_t who, rounds, held, left;
} job;

static uint64_t counted; /* only the holder of the lock touches it */

/* For each thread, a semaphore. The thread that frees the lock posts that of the next holder. */
static sem_t turn[MOST];

/* Sleeps for a short time after each 64th failed try. A yield would give away a whole turn of the processor, and more
 * tries would keep it from the thread that has to go on. */
static void stand_by(unsigned tries) {
    if (tries % 64 == 0) nanosleep(&(struct timespec){0, 50000}, NULL);
}

typedef arachne_lock_told call(arachne_locks *locks, size_t lock, uint64_t who);

/* Repeats a call until the lock is not contended. */
static arachne_lock_told until(call *made, job *j) {
    arachne_lock_told told;
    unsigned tries = 0;
    while ((told = made(&j->locks, 0, j->who)).code == ARACHNE_CONTENDED) stand_by(++tries);
    return told;
}

static void wait_for_turn(job *j) {
    while (sem_wait(&turn[j->who]) != 0) {
    }
}

/* Asks for the lock, and waits or withdraws. Returns GRANTED or LEFT. */
static uint32_t enter(job *j, uint64_t round) {
    uint32_t code = until(arachne_lock_ask, j).code;
    if (code != ARACHNE_QUEUED) return code;
    if (round % 8 == 7 && (code = until(arachne_lock_withdraw, j).code) == ARACHNE_LEFT) return code;
    wait_for_turn(j);
    return until(arachne_lock_check, j).code;
}

static void *take_turns(void *at) {
    job *j = at;
    for (uint64_t k = 0; k < j->rounds; k++) {
        uint32_t code = enter(j, k);
        if (code == ARACHNE_LEFT) {
            j->left++;
            continue;
        }
        if (code != ARACHNE_GRANTED) return j;
        counted++;
        j->held++;
        arachne_lock_told freed = until(arachne_lock_free, j);
        if (freed.code == ARACHNE_HANDED_ON) sem_post(&turn[freed.next]);
        else if (freed.code != ARACHNE_FREED) return j;
    }
    return NULL;
}

/* Gives each kernel thread a seat (right to call), and joins the seat when the thread has ended. */
static int run(arachne_locks *locks, int threads, uint64_t rounds, uint64_t *held, uint64_t *left) {
    pthread_t thread[MOST];
    job jobs[MOST];
    int faults = 0;
    for (int k = 0; k < threads; k++) {
        jobs[k] = (job){ARACHNE_LOCKS_NULL, k, rounds, 0, 0};
        if (sem_init(&turn[k], 0, 0) != 0) return 1;
        if (arachne_locks_split(locks, &jobs[k].locks) != ARACHNE_DONE) return 1;
    }
    for (int k = 0; k < threads; k++)
        if (pthread_create(&thread[k], NULL, take_turns, &jobs[k]) != 0) return 1;
    for (int k = 0; k < threads; k++) {
        void *fault;
        faults += pthread_join(thread[k], &fault) != 0 || fault != NULL;
        faults += arachne_locks_join(locks, &jobs[k].locks) != ARACHNE_DONE;
        *held += jobs[k].held;
        *left += jobs[k].left;
    }
    return faults;
}

int main(int argc, char **argv) {
    arachne_locks locks = ARACHNE_LOCKS_NULL;
    uint64_t held = 0, left = 0;
    int threads = argc == 3 ? atoi(argv[1]) : 0;
    if (threads < 1 || threads > MOST) return 2;
    if (arachne_locks_new(&locks, 1) != ARACHNE_DONE) return 1;
    if (run(&locks, threads, strtoull(argv[2], NULL, 10), &held, &left) != 0) return 1;
    printf("turns %" PRIu64 "\n", held + left);
    arachne_locks_close(&locks);
    return counted == held ? 0 : 1;
}
