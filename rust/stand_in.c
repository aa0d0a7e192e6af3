/* A stand-in for libarachne_exec_c.a, by hand on C's atomics: it tests the crate's side of the header where the proved
 * archive isn't there, or (EXECUTOR_ALONE) has no executor yet. It is not the proved code, and nothing that runs on it
 * is. Make libarachne_exec_c.a of it and an empty liblibc_c.a, and name their folder in ARACHNE_LIBS. */
#include "arachne_exec.h"
#include <pthread.h>
#include <stdatomic.h>
#include <stdlib.h>

typedef _Atomic uint64_t word;
#define PLACE(name) ((name) & 0xfffff)
#define PLACES(table) ((uint64_t)(table)->shards * 4096)

typedef struct { word ready, free, marks[64]; uint64_t slots[64]; } block_t;
typedef struct { atomic_size_t uses; size_t shards; word idle, numbers; block_t *blocks; } table_t;
typedef struct { table_t *table; uint64_t name, job; int has, worker, calls; unsigned turn; void *_Atomic user; } seat_t;

static seat_t *seat_of(arachne_exec *exec) { return exec->opaque; }

/* One thread at a time with each handle: a call beside another's ends the process. A call may make others. */
static seat_t *begin(arachne_exec *exec) {
    static _Thread_local char self;
    seat_t *seat = seat_of(exec);
    void *nobody = NULL;
    if (!seat) return seat;
    if (atomic_load(&seat->user) != &self && !atomic_compare_exchange_strong(&seat->user, &nobody, &self)) abort();
    seat->calls++;
    return seat;
}

static void end(seat_t **seat) {
    if (*seat && --(*seat)->calls == 0) atomic_store(&(*seat)->user, NULL);
}
#define CALL(exec) __attribute__((cleanup(end))) seat_t *seat = begin(exec)

static uint32_t seat_new(arachne_exec *exec, table_t *table) {
    seat_t *seat = calloc(1, sizeof *seat);
    if (!seat) return ARACHNE_NO_MEMORY;
    seat->table = table; seat->worker = -1;
    atomic_fetch_add(&table->uses, 1);
    exec->opaque = seat;
    return ARACHNE_DONE;
}

uint32_t arachne_exec_new(arachne_exec *exec, size_t shards) {
    if (exec->opaque || shards > 256) return ARACHNE_REFUSED;
    table_t *table = calloc(1, sizeof *table);
    if (!table) return ARACHNE_NO_MEMORY;
    table->shards = shards;
    table->blocks = calloc(shards * 64 + 1, sizeof(block_t));
    if (!table->blocks) { free(table); return ARACHNE_NO_MEMORY; }
    for (size_t b = 0; b < shards * 64; b++) atomic_store(&table->blocks[b].free, UINT64_MAX);
    return seat_new(exec, table);
}

uint32_t arachne_exec_split(arachne_exec *exec, arachne_exec *other) {
    return exec->opaque && !other->opaque ? seat_new(other, seat_of(exec)->table) : ARACHNE_REFUSED;
}

void arachne_exec_close(arachne_exec *exec) {
    seat_t *seat = seat_of(exec);
    if (!seat) return;
    if (atomic_fetch_sub(&seat->table->uses, 1) == 1) { free(seat->table->blocks); free(seat->table); }
    free(seat);
    exec->opaque = NULL;
}

uint32_t arachne_exec_join(arachne_exec *exec, arachne_exec *other) {
    if (!exec->opaque || !other->opaque || seat_of(other)->has || seat_of(other)->worker >= 0) return ARACHNE_REFUSED;
    arachne_exec_close(other);
    return ARACHNE_DONE;
}

uint32_t arachne_exec_register(arachne_exec *exec, uint32_t worker) {
    CALL(exec);
    if (!seat || worker > 63 || seat->worker >= 0) return ARACHNE_REFUSED;
    if (atomic_fetch_or(&seat->table->numbers, 1ull << worker) >> worker & 1) return ARACHNE_LOST;
    seat->worker = (int)worker;
    return ARACHNE_DONE;
}

uint32_t arachne_exec_leave(arachne_exec *exec) {
    CALL(exec);
    if (!seat || seat->worker < 0) return ARACHNE_REFUSED;
    atomic_fetch_and(&seat->table->numbers, ~(1ull << seat->worker));
    seat->worker = -1;
    return ARACHNE_DONE;
}

static arachne_exec_told told(uint32_t code, uint64_t name, uint64_t job, uint32_t unpark) {
    return (arachne_exec_told){.name = name, .job = job, .code = code, .unpark = unpark};
}

/* The worker to unpark. */
static uint32_t publish(table_t *table, uint64_t place) {
    uint32_t worker = place / 4096 % 64;
    atomic_fetch_or(&table->blocks[place / 64].ready, 1ull << place % 64);
    if (!(atomic_load(&table->idle) >> worker & 1)) return ARACHNE_NOBODY;
    return atomic_fetch_and(&table->idle, ~(1ull << worker)) >> worker & 1 ? worker : ARACHNE_NOBODY;
}

arachne_exec_told arachne_exec_spawn(arachne_exec *exec, size_t block, uint64_t job) {
    CALL(exec);
    if (!seat || block >= seat->table->shards * 64) return told(ARACHNE_REFUSED, 0, 0, ARACHNE_NOBODY);
    block_t *at = &seat->table->blocks[block];
    uint64_t seen = atomic_load(&at->free), bit = seen & -seen;
    if (!seen) return told(ARACHNE_FULL, 0, 0, ARACHNE_NOBODY);
    if (!(atomic_fetch_and(&at->free, ~bit) & bit)) return told(ARACHNE_LOST, 0, 0, ARACHNE_NOBODY);
    uint64_t index = __builtin_ctzll(bit), place = block * 64 + index;
    uint64_t name = place | atomic_load(&at->marks[index]) >> 2 << 20;
    at->slots[index] = job;
    return told(ARACHNE_READY, name, 0, publish(seat->table, place));
}

arachne_exec_told arachne_exec_spawn_here(arachne_exec *exec, size_t block, uint64_t job) {
    CALL(exec);
    if (!seat || seat->has || block >= seat->table->shards * 64) return told(ARACHNE_REFUSED, 0, 0, ARACHNE_NOBODY);
    block_t *at = &seat->table->blocks[block];
    uint64_t seen = atomic_load(&at->free), bit = seen & -seen;
    if (!seen) return told(ARACHNE_FULL, 0, 0, ARACHNE_NOBODY);
    if (!(atomic_fetch_and(&at->free, ~bit) & bit)) return told(ARACHNE_LOST, 0, 0, ARACHNE_NOBODY);
    uint64_t index = __builtin_ctzll(bit);
    seat->has = 1; seat->name = (block * 64 + index) | atomic_load(&at->marks[index]) >> 2 << 20; seat->job = job;
    return told(ARACHNE_RUN, seat->name, job, ARACHNE_NOBODY);
}

uint64_t arachne_exec_ready(arachne_exec *exec, size_t block) {
    CALL(exec);
    return seat && block < seat->table->shards * 64 ? atomic_load(&seat->table->blocks[block].ready) : 0;
}

uint64_t arachne_exec_shown(arachne_exec *exec, size_t shard) {
    uint64_t shown = 0;
    for (size_t block = 0; block < 64; block++)
        if (arachne_exec_ready(exec, 64 * shard + block)) shown |= 1ull << block;
    return shown;
}

arachne_exec_told arachne_exec_take(arachne_exec *exec, size_t block) {
    CALL(exec);
    if (!seat || seat->has || block >= seat->table->shards * 64) return told(ARACHNE_REFUSED, 0, 0, ARACHNE_NOBODY);
    block_t *at = &seat->table->blocks[block];
    uint64_t seen = atomic_load(&at->ready), behind = seen >> seat->turn << seat->turn;
    uint64_t bit = behind ? behind & -behind : seen & -seen;
    if (!seen || !(atomic_fetch_and(&at->ready, ~bit) & bit)) return told(ARACHNE_AGAIN, 0, 0, ARACHNE_NOBODY);
    uint64_t index = __builtin_ctzll(bit), mark = atomic_load(&at->marks[index]);
    if (mark & 1) atomic_store(&at->marks[index], mark & ~1ull);
    seat->has = 1; seat->name = (block * 64 + index) | mark >> 2 << 20; seat->job = at->slots[index];
    seat->turn = (index + 1) % 64;
    return told(ARACHNE_RUN, seat->name, seat->job, ARACHNE_NOBODY);
}

uint32_t arachne_exec_wake_up(arachne_exec *exec) {
    CALL(exec);
    if (!seat || seat->worker < 0) return ARACHNE_REFUSED;
    atomic_fetch_and(&seat->table->idle, ~(1ull << seat->worker));
    return ARACHNE_DONE;
}

uint32_t arachne_exec_may_park(arachne_exec *exec) {
    CALL(exec);
    if (!seat || seat->worker < 0) return ARACHNE_REFUSED;
    atomic_fetch_or(&seat->table->idle, 1ull << seat->worker);
    for (size_t shard = seat->worker; shard < seat->table->shards; shard += 64)
        for (size_t block = 64 * shard; block < 64 * shard + 64; block++)
            if (atomic_load(&seat->table->blocks[block].ready)) { arachne_exec_wake_up(exec); return ARACHNE_AGAIN; }
    return ARACHNE_PARK;
}

arachne_exec_told arachne_exec_next(arachne_exec *exec) {
    CALL(exec);
    if (!seat || seat->has || seat->worker < 0) return told(ARACHNE_REFUSED, 0, 0, ARACHNE_NOBODY);
    for (size_t shard = seat->worker; shard < seat->table->shards; shard += 64)
        for (size_t block = 64 * shard; block < 64 * shard + 64; block++) {
            arachne_exec_told found = arachne_exec_take(exec, block);
            if (found.code == ARACHNE_RUN) return found;
        }
    return told(arachne_exec_may_park(exec), 0, 0, ARACHNE_NOBODY);
}

arachne_exec_told arachne_exec_rest_ready(arachne_exec *exec) {
    CALL(exec);
    if (!seat || !seat->has) return told(ARACHNE_REFUSED, 0, 0, ARACHNE_NOBODY);
    uint64_t place = PLACE(seat->name);
    seat->has = 0;
    seat->table->blocks[place / 64].slots[place % 64] = seat->job;
    return told(ARACHNE_READY, seat->name, 0, publish(seat->table, place));
}

arachne_exec_told arachne_exec_rest_blocked(arachne_exec *exec) {
    CALL(exec);
    if (!seat || !seat->has) return told(ARACHNE_REFUSED, 0, 0, ARACHNE_NOBODY);
    uint64_t place = PLACE(seat->name), quiet = seat->name >> 20 << 2;
    seat->table->blocks[place / 64].slots[place % 64] = seat->job;
    if (!atomic_compare_exchange_strong(&seat->table->blocks[place / 64].marks[place % 64], &quiet, quiet | 2))
        return arachne_exec_rest_ready(exec);
    seat->has = 0;
    return told(ARACHNE_BLOCKED, seat->name, 0, ARACHNE_NOBODY);
}

uint32_t arachne_exec_finish(arachne_exec *exec) {
    CALL(exec);
    if (!seat || !seat->has) return ARACHNE_REFUSED;
    uint64_t place = PLACE(seat->name);
    block_t *at = &seat->table->blocks[place / 64];
    seat->has = 0;
    atomic_store(&at->marks[place % 64], ((seat->name >> 20) + 1) << 2);
    atomic_fetch_or(&at->free, 1ull << place % 64);
    return ARACHNE_DONE;
}

static arachne_exec_told wake(arachne_exec *exec, uint64_t name, int here) {
    CALL(exec);
    if (!seat || (here && seat->has)) return told(ARACHNE_REFUSED, 0, 0, ARACHNE_NOBODY);
    uint64_t place = PLACE(name);
    if (place >= PLACES(seat->table)) return told(ARACHNE_GONE, 0, 0, ARACHNE_NOBODY);
    block_t *at = &seat->table->blocks[place / 64];
    uint64_t seen = atomic_load(&at->marks[place % 64]);
    if (seen >> 2 != name >> 20) return told(ARACHNE_GONE, 0, 0, ARACHNE_NOBODY);
    if (seen & 1) return told(ARACHNE_ALREADY_MARKED, 0, 0, ARACHNE_NOBODY);
    uint64_t blocked = seen & 2;
    if (!atomic_compare_exchange_strong(&at->marks[place % 64], &seen, blocked ? seen - 2 : seen + 1))
        return told(ARACHNE_LOST, 0, 0, ARACHNE_NOBODY);
    if (!blocked) return told(ARACHNE_MARKED, 0, 0, ARACHNE_NOBODY);
    if (!here) return told(ARACHNE_READY, name, 0, publish(seat->table, place));
    seat->has = 1; seat->name = name; seat->job = at->slots[place % 64];
    return told(ARACHNE_RUN, name, seat->job, ARACHNE_NOBODY);
}

arachne_exec_told arachne_exec_wake(arachne_exec *exec, uint64_t name) { return wake(exec, name, 0); }
arachne_exec_told arachne_exec_wake_here(arachne_exec *exec, uint64_t name) { return wake(exec, name, 1); }

#ifndef EXECUTOR_ALONE
/* Locks: a queue of names for each, behind a mutex. */
typedef struct { uint64_t *line, events; size_t from, to, room; } line_t;
typedef struct { pthread_mutex_t mutex; size_t count, uses; line_t *lines; } locks_t;

uint32_t arachne_locks_new(arachne_locks *locks, size_t count) {
    locks_t *made = calloc(1, sizeof *made);
    if (!made || !(made->lines = calloc(count, sizeof(line_t)))) return ARACHNE_NO_MEMORY;
    pthread_mutex_init(&made->mutex, NULL);
    made->count = count; made->uses = 1;
    locks->opaque = made;
    return ARACHNE_DONE;
}
uint32_t arachne_locks_split(arachne_locks *locks, arachne_locks *other) {
    other->opaque = locks->opaque;
    return ARACHNE_DONE;
}
uint32_t arachne_locks_join(arachne_locks *locks, arachne_locks *other) {
    (void)locks;
    other->opaque = NULL;
    return ARACHNE_DONE;
}
void arachne_locks_close(arachne_locks *locks) { locks->opaque = NULL; }

#define LOCKED(told_expression) \
    locks_t *all = locks->opaque; \
    if (!all || lock >= all->count) return (arachne_lock_told){.code = ARACHNE_REFUSED}; \
    pthread_mutex_lock(&all->mutex); \
    line_t *line = &all->lines[lock]; \
    arachne_lock_told answer = told_expression; \
    pthread_mutex_unlock(&all->mutex); \
    return answer;

static arachne_lock_told ask(line_t *line, uint64_t who) {
    for (size_t i = line->from; i < line->to; i++)
        if (line->line[i] == who) return (arachne_lock_told){.code = ARACHNE_ALREADY_IN};
    if (line->to == line->room) {
        size_t count = line->to - line->from;
        uint64_t *larger = malloc((2 * count + 8) * sizeof(uint64_t));
        if (!larger) return (arachne_lock_told){.code = ARACHNE_NO_MEMORY};
        for (size_t i = 0; i < count; i++) larger[i] = line->line[line->from + i];
        free(line->line);
        *line = (line_t){larger, line->events, 0, count, 2 * count + 8};
    }
    line->line[line->to++] = who;
    uint32_t code = line->to - line->from == 1 ? ARACHNE_GRANTED : ARACHNE_QUEUED;
    return (arachne_lock_told){.at = line->events++, .code = code};
}
static arachne_lock_told let_go(line_t *line, uint64_t who) {
    if (line->from == line->to || line->line[line->from] != who) return (arachne_lock_told){.code = ARACHNE_NOT_HOLDER};
    line->from++;
    if (line->from == line->to) return (arachne_lock_told){.at = line->events++, .code = ARACHNE_FREED};
    return (arachne_lock_told){.at = line->events++, .next = line->line[line->from], .code = ARACHNE_HANDED_ON};
}
static arachne_lock_told leave(line_t *line, uint64_t who) {
    for (size_t i = line->from; i < line->to; i++)
        if (line->line[i] == who) {
            if (i == line->from) return (arachne_lock_told){.code = ARACHNE_GRANTED};
            for (; i + 1 < line->to; i++) line->line[i] = line->line[i + 1];
            line->to--;
            return (arachne_lock_told){.at = line->events++, .code = ARACHNE_LEFT};
        }
    return (arachne_lock_told){.code = ARACHNE_NOT_HOLDER};
}
arachne_lock_told arachne_lock_ask(arachne_locks *locks, size_t lock, uint64_t who) { LOCKED(ask(line, who)) }
arachne_lock_told arachne_lock_free(arachne_locks *locks, size_t lock, uint64_t who) { LOCKED(let_go(line, who)) }
arachne_lock_told arachne_lock_withdraw(arachne_locks *locks, size_t lock, uint64_t who) { LOCKED(leave(line, who)) }

bool arachne_estimator_new(uint64_t up, uint64_t hysteresis, uint64_t max, arachne_estimator *estimator) {
    *estimator = (arachne_estimator){.up = up, .hysteresis = hysteresis, .max = max};
    return max <= 64;
}
uint32_t arachne_estimator_judge(arachne_estimator *estimator, const arachne_sample *sample) {
    if (!sample->scans || !sample->elapsed || !sample->cores || sample->cores > estimator->max) return ARACHNE_REFUSED;
    if (sample->runnable * 1000 / sample->scans > estimator->up && sample->cores < estimator->max) return ARACHNE_ADD;
    uint64_t used = sample->busy * 1000 / sample->elapsed + estimator->hysteresis;
    return sample->cores > 1 && used < (sample->cores - 1) * 1000 ? ARACHNE_REMOVE : ARACHNE_STAY;
}
#endif
