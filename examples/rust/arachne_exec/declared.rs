//! The static library arachne_exec_c as Rust declares it.
//! Made by scripts/declarations: don't edit it.
//!
//! The caller must:
//!   - start each handle as null, leave its pointer to the library, and never copy it;
//!   - use each handle from one thread at a time. It may go to another thread if the two synchronize, such as by the
//!     start or join of a thread, or by a lock;
//!   - pass two different handles to a call that takes two, and two of one origin to one that joins them;
//!   - pass pointers that are not null, to memory that no other thread uses meanwhile, or only reads if it is const;
//!   - link `malloc`, `realloc` and `free` of one allocator, and liblibc_c.a of the kit.
//! No call may be made from a signal handler. Nothing is proved of a program that breaks one of these rules.
#![allow(dead_code)]

/// Raised if a code, a type or a call changes.
pub const API_VERSION: u32 = 1;

/// The call succeeded.
pub const DONE: u32 = 0;

/// The call was refused, and has changed nothing. The comment of each call lists the possible reasons.
pub const REFUSED: u32 = 1;

/// The allocator refused memory. Nothing has changed.
pub const NO_MEMORY: u32 = 2;

/// Another thread was in a call on the same lock. Nothing has changed, and the call may be made again.
pub const CONTENDED: u32 = 3;

/// Another thread was first: it has claimed the slot, has changed the job's state, or has the worker number. The
/// call has changed nothing, and may be made again, or with another worker number.
pub const LOST: u32 = 4;

/// The task `who` holds the lock now.
pub const GRANTED: u32 = 5;

/// The task `who` waits for the lock, and gets it after all tasks before it in the queue.
pub const QUEUED: u32 = 6;

/// The task `who` already holds the lock or waits for it.
pub const ALREADY_IN: u32 = 7;

/// The task `who` has freed the lock, and no task waited for it.
pub const FREED: u32 = 8;

/// The task `who` has freed the lock, and the longest waiter holds it now. The caller must wake that task.
pub const HANDED_ON: u32 = 9;

/// The task `who` doesn't hold the lock. If a task that wanted to leave the lock's queue gets this, it isn't in the
/// queue.
pub const NOT_HOLDER: u32 = 10;

/// The task `who` has left the queue of the lock, and will not get the lock unless it asks again.
pub const LEFT: u32 = 11;

/// No slot of the block is free.
pub const FULL: u32 = 12;

/// The handle holds a job now, which the caller must run.
pub const RUN: u32 = 13;

/// The worker must sleep until another thread unparks it. No ready job was found.
pub const PARK: u32 = 14;

/// The call took no job, or the worker must not sleep, since it may have a ready job. The caller may try again.
pub const AGAIN: u32 = 15;

/// The job is ready, so that a thread can take and run it.
pub const READY: u32 = 16;

/// The job is blocked until it is woken.
pub const BLOCKED: u32 = 17;

/// The job isn't blocked, so the wake is recorded: the job becomes ready instead of blocked. A take or a start of
/// the job clears the record. Also the result for the name that a free slot's next job will get.
pub const MARKED: u32 = 18;

/// The wake changed nothing, since an earlier wake of the job is still recorded.
pub const ALREADY_MARKED: u32 = 19;

/// No job has this name at present.
pub const GONE: u32 = 20;

/// The advice on a sample of the load: keep the number of cores as it is.
pub const STAY: u32 = 21;

/// The advice on a sample of the load: ask for one core more.
pub const ADD: u32 = 22;

/// The advice on a sample of the load: give one core back.
pub const REMOVE: u32 = 23;

/// The value of a result's field `unpark` if no worker must be unparked.
pub const NOBODY: u32 = 64;

/// C's handle on an executor: one pointer, to a thread's right to call it (a seat), or null if the handle is empty.
#[repr(C)]
pub struct ArachneExec {
    opaque: *mut u8,
}

impl ArachneExec {
    pub const NULL: ArachneExec = ArachneExec { opaque: std::ptr::null_mut() };
}

/// The result of ending an executor: a code, and a count of unfinished jobs.
#[repr(C)]
#[derive(Clone, Copy, Debug, PartialEq, Eq)]
pub struct ArachneExecLeft {
    /// The count of numbers that the call wrote to the caller's array: those of the unfinished jobs, except 0.
    pub count: u64,
    pub code: u32,
}

/// The result of a call on an executor: a code, the job, and the worker that the caller must unpark.
#[repr(C)]
#[derive(Clone, Copy, Debug, PartialEq, Eq)]
pub struct ArachneExecTold {
    /// The name of the job that was spawned, or that the handle holds. The low 20 bits are the job's slot, and the
    /// other 44 bits are the number of jobs that had ended there before.
    pub name: u64,
    /// The number of the job that the handle holds, as its spawner passed it.
    pub job: u64,
    pub code: u32,
    /// The worker whose thread the caller must unpark, or NOBODY.
    pub unpark: u32,
}

/// C's handle on a set of locks: one pointer, to a thread's right to use them (a seat), or null if the handle is
/// empty.
#[repr(C)]
pub struct ArachneLocks {
    opaque: *mut u8,
}

impl ArachneLocks {
    pub const NULL: ArachneLocks = ArachneLocks { opaque: std::ptr::null_mut() };
}

/// The result of a call on a lock. Each lock numbers its events (asks, grants, frees, withdrawals) from 0, modulo
/// 2^64.
#[repr(C)]
#[derive(Clone, Copy, Debug, PartialEq, Eq)]
pub struct ArachneLockTold {
    /// The number of the event that this call caused. If a check or withdrawal returns GRANTED, that of the grant
    /// to `who`.
    pub at: u64,
    /// If a free has handed the lock on, the task that holds it now. The grant to this task has event number `at` +
    /// 1.
    pub next: u64,
    pub code: u32,
}

/// C's handle on a set of ledgers: one pointer, to a thread's right to add (a share), or null if the handle is
/// empty.
#[repr(C)]
pub struct ArachneAdder {
    opaque: *mut u8,
}

impl ArachneAdder {
    pub const NULL: ArachneAdder = ArachneAdder { opaque: std::ptr::null_mut() };
}

/// An estimator: its settings, and for each number of cores a threshold. If the utilisation (average number of busy
/// cores) is below the threshold by more than `hysteresis`, the advice is to give one core back.
#[repr(C)]
#[derive(Clone, Copy, Debug, PartialEq, Eq)]
pub struct ArachneEstimator {
    pub up: u64,
    pub hysteresis: u64,
    pub max: u64,
    pub thresholds: [u64; 64],
}

/// The measured load of a host (the program that uses the cores) in one period, on all its cores together.
#[repr(C)]
#[derive(Clone, Copy, Debug, PartialEq, Eq)]
pub struct ArachneSample {
    pub cores: u64,
    pub runnable: u64,
    pub scans: u64,
    pub busy: u64,
    pub elapsed: u64,
}

unsafe extern "C" {
    /// Creates an executor with `shards` shards of 4,096 job slots. Puts the first seat (a thread's right to call
    /// the executor) into `exec`, which must be empty.
    ///
    /// Shard s has the blocks 64 s to 64 s + 63, each of 64 slots, and worker s % 64 runs the jobs in them. Returns
    /// DONE; REFUSED if the handle is in use, or if `shards` is greater than 256; NO_MEMORY if memory is refused.
    ///
    /// Threads: safe beside calls with other handles; two at once with `exec` are undefined behaviour.
    pub fn arachne_exec_new(exec: *mut ArachneExec, shards: usize) -> u32;

    /// Splits the seat of `exec` (a thread's right to call the executor), and puts a new seat for another thread
    /// into `other`. The new seat has no job and no worker number.
    ///
    /// Returns DONE; REFUSED if `exec` is empty or `other` is in use; NO_MEMORY if memory is refused or the
    /// reference count can't grow.
    ///
    /// More than 127 splits one after another, each of a seat from the last split, still succeed, but then the
    /// executor can't be ended.
    ///
    /// Threads: safe beside calls with other handles; two at once with `exec` or `other` are undefined behaviour.
    pub fn arachne_exec_split(exec: *mut ArachneExec, other: *mut ArachneExec) -> u32;

    /// Joins the seat of `other` (a thread's right to call the executor) into that of `exec`, and leaves `other`
    /// empty.
    ///
    /// Returns DONE, or REFUSED if one of the handles is empty, or if `other` holds a job or has a worker number.
    /// Both handles must be of one executor, which the library doesn't check. If they are not, the executor of
    /// `other` can't be ended any more, and `arachne_exec_end` for `exec` may return too few jobs.
    ///
    /// Threads: safe beside calls with other handles; two at once with `exec` or `other` are undefined behaviour.
    pub fn arachne_exec_join(exec: *mut ArachneExec, other: *mut ArachneExec) -> u32;

    /// Ends the executor, writes the numbers of the unfinished jobs to the beginning of `left`, and empties the
    /// handle.
    ///
    /// A number that several of these jobs have is written once for each of them, but the number 0 is never
    /// written. Returns DONE with the count of numbers written; REFUSED if the handle is empty or holds a job, if
    /// not all other handles were joined into this one, or if `left` has room for fewer than 4,096 numbers for each
    /// shard; NO_MEMORY if memory is refused. Unless the code is DONE, the count is 0, and the executor and `left`
    /// are unchanged.
    ///
    /// Threads: safe beside calls with other handles; two at once with `exec` are undefined behaviour.
    pub fn arachne_exec_end(exec: *mut ArachneExec, left: *mut u64, left_room: usize) -> ArachneExecLeft;

    /// Empties a handle, and frees its seat (a thread's right to call an executor). The last handle also frees the
    /// executor.
    ///
    /// A job that the handle holds never runs again. If the handle was not empty, its seat is lost, so that
    /// `arachne_exec_end` returns REFUSED for each other handle of the executor.
    ///
    /// Threads: safe beside calls with other handles; two at once with `exec` are undefined behaviour.
    pub fn arachne_exec_close(exec: *mut ArachneExec);

    /// Gives the handle the worker number `worker`, from 0 to 63. The handle's thread is then this worker.
    ///
    /// Returns DONE; LOST if another handle has that number; REFUSED if the handle is empty or already has a worker
    /// number, or if `worker` is greater than 63.
    ///
    /// Threads: safe beside calls with other handles; two at once with `exec` are undefined behaviour.
    pub fn arachne_exec_register(exec: *mut ArachneExec, worker: u32) -> u32;

    /// Gives the handle's worker number back, so that another handle can get this number.
    ///
    /// Returns DONE, or REFUSED if the handle is empty or has no worker number.
    ///
    /// Threads: safe beside calls with other handles; two at once with `exec` are undefined behaviour.
    pub fn arachne_exec_leave(exec: *mut ArachneExec) -> u32;

    /// Tries once to put `job` into a free slot of `block` (64 slots), ready to be run by any thread.
    ///
    /// Returns READY with the job's name, and the worker to unpark; FULL if no slot of the block is free; LOST if
    /// another thread claimed the slot first; REFUSED if the handle is empty or there is no such block. If `job` is
    /// 0, `arachne_exec_end` never writes its number.
    ///
    /// Threads: safe beside calls with other handles; two at once with `exec` are undefined behaviour.
    pub fn arachne_exec_spawn(exec: *mut ArachneExec, block: usize, job: u64) -> ArachneExecTold;

    /// Tries once to put `job` into a free slot of `block` (64 slots). The handle then holds the job, so that no
    /// other thread can take it.
    ///
    /// Returns RUN with the job's name and number; FULL if no slot of the block is free; LOST if another thread
    /// claimed the slot first; REFUSED if the handle is empty or holds a job, or if there is no such block.
    ///
    /// Threads: safe beside calls with other handles; two at once with `exec` are undefined behaviour.
    pub fn arachne_exec_spawn_here(exec: *mut ArachneExec, block: usize, job: u64) -> ArachneExecTold;

    /// Returns a bit for each of the 64 blocks of `shard`, which is set if the block may have ready jobs.
    ///
    /// A block whose bit is clear has no ready job, unless a call that makes a job ready there is still in
    /// progress. Returns 0 also if the handle is empty or there is no such shard.
    ///
    /// Threads: safe beside calls with other handles; two at once with `exec` are undefined behaviour.
    pub fn arachne_exec_shown(exec: *mut ArachneExec, shard: usize) -> u64;

    /// Returns a bit for each of the 64 slots of `block`, which is set if the slot has a ready job.
    ///
    /// Returns 0 also if the handle is empty or there is no such block.
    ///
    /// Threads: safe beside calls with other handles; two at once with `exec` are undefined behaviour.
    pub fn arachne_exec_ready(exec: *mut ArachneExec, block: usize) -> u64;

    /// Tries once to take a ready job of `block` (64 slots, of any worker), so that the handle holds the job.
    ///
    /// Returns RUN with the job's name and number; AGAIN if the call took no job; REFUSED if the handle is empty or
    /// holds a job, or if there is no such block.
    ///
    /// Threads: safe beside calls with other handles; two at once with `exec` are undefined behaviour.
    pub fn arachne_exec_take(exec: *mut ArachneExec, block: usize) -> ArachneExecTold;

    /// Takes up to `most` ready jobs of `block` in one atomic operation. The handle then holds these jobs, so that
    /// no other thread can take them. A `most` of 0 counts as 1.
    ///
    /// Returns a bit for each of the block's 64 slots whose job this call took. Calls on the handle's job, such as
    /// `arachne_exec_finish`, then concern the job in the lowest of these slots. After that job has ended or rests
    /// (is made ready or blocked again), they concern the job in the next of these slots. `arachne_exec_start`
    /// returns the number and the name of the current job. Returns 0 if the call took no job, if the handle is
    /// empty or holds a job already, or if there is no such block.
    ///
    /// Threads: safe beside calls with other handles; two at once with `exec` are undefined behaviour.
    pub fn arachne_exec_take_many(exec: *mut ArachneExec, block: usize, most: u32) -> u64;

    /// Prepares the current job (the one in the lowest slot) of those that `arachne_exec_take_many` has taken, so
    /// that the caller can run it. Clears a recorded wake of the job, since the job runs after the wake.
    ///
    /// Returns RUN with the job's name and number, or REFUSED if the handle holds no job.
    ///
    /// Threads: safe beside calls with other handles; two at once with `exec` are undefined behaviour.
    pub fn arachne_exec_start(exec: *mut ArachneExec) -> ArachneExecTold;

    /// Takes the next ready job of the handle's worker, or says that the worker must park.
    ///
    /// Returns RUN with the job's name and number; PARK if the worker must sleep; AGAIN if the caller must call
    /// again; REFUSED if the handle is empty, holds a job, or has no worker number.
    ///
    /// Threads: safe beside calls with other handles; two at once with `exec` are undefined behaviour.
    pub fn arachne_exec_next(exec: *mut ArachneExec) -> ArachneExecTold;

    /// Marks the worker as asleep, by which other threads know that they must unpark the worker. Then looks for
    /// blocks (64 job slots each) of the worker that may have ready jobs. `arachne_exec_next` does the same if it
    /// finds no job.
    ///
    /// Returns PARK if there is no such block; AGAIN if there is one, and the worker is marked as awake again;
    /// REFUSED if the handle is empty or has no worker number.
    ///
    /// Threads: safe beside calls with other handles; two at once with `exec` are undefined behaviour.
    pub fn arachne_exec_may_park(exec: *mut ArachneExec) -> u32;

    /// Marks the worker as awake, so that other threads don't unpark it. A worker must call this function when it
    /// wakes by itself.
    ///
    /// Returns DONE, or REFUSED if the handle is empty or has no worker number.
    ///
    /// Threads: safe beside calls with other handles; two at once with `exec` are undefined behaviour.
    pub fn arachne_exec_wake_up(exec: *mut ArachneExec) -> u32;

    /// Makes the job that the handle holds ready again, so that any thread can take it.
    ///
    /// Returns READY with the worker to unpark, or REFUSED if the handle holds no job.
    ///
    /// Threads: safe beside calls with other handles; two at once with `exec` are undefined behaviour.
    pub fn arachne_exec_rest_ready(exec: *mut ArachneExec) -> ArachneExecTold;

    /// Blocks the job that the handle holds, until the job is woken.
    ///
    /// Returns BLOCKED; READY with the worker to unpark, if the job was woken since it was taken or started, and so
    /// is ready again; REFUSED if the handle holds no job.
    ///
    /// Threads: safe beside calls with other handles; two at once with `exec` are undefined behaviour.
    pub fn arachne_exec_rest_blocked(exec: *mut ArachneExec) -> ArachneExecTold;

    /// Ends the job that the handle holds, and frees its slot for another job.
    ///
    /// Returns DONE, or REFUSED if the handle holds no job. After 2^44 - 1 jobs a slot is retired and takes no more
    /// jobs.
    ///
    /// Threads: safe beside calls with other handles; two at once with `exec` are undefined behaviour.
    pub fn arachne_exec_finish(exec: *mut ArachneExec) -> u32;

    /// Tries once to wake the job with this name.
    ///
    /// Returns READY with the worker to unpark, if the job was blocked; MARKED if the job wasn't blocked, so that
    /// the wake is recorded; ALREADY_MARKED if an earlier wake is still recorded; GONE if no job has the name; LOST
    /// if another thread changed the job's slot first; REFUSED if the handle is empty.
    ///
    /// Threads: safe beside calls with other handles; two at once with `exec` are undefined behaviour.
    pub fn arachne_exec_wake(exec: *mut ArachneExec, name: u64) -> ArachneExecTold;

    /// Tries once to wake the job with this name. If the job was blocked, the handle then holds the job.
    ///
    /// Returns RUN with the job's name and number, if the job was blocked. MARKED, ALREADY_MARKED, GONE and LOST
    /// are as in `arachne_exec_wake`; REFUSED if the handle is empty or holds a job.
    ///
    /// Threads: safe beside calls with other handles; two at once with `exec` are undefined behaviour.
    pub fn arachne_exec_wake_here(exec: *mut ArachneExec, name: u64) -> ArachneExecTold;

    /// Creates `count` locks. Puts the first seat (a thread's right to use the locks) into `locks`, which must be
    /// empty.
    ///
    /// Returns DONE; REFUSED if the handle is in use; NO_MEMORY if memory is refused.
    ///
    /// Threads: safe beside calls with other handles; two at once with `locks` are undefined behaviour.
    pub fn arachne_locks_new(locks: *mut ArachneLocks, count: usize) -> u32;

    /// Splits the seat of `locks` (a thread's right to use the locks), and puts a new seat for another thread into
    /// `other`.
    ///
    /// Returns DONE; REFUSED if `locks` is empty or `other` is in use; NO_MEMORY if memory is refused or the
    /// reference count can't grow.
    ///
    /// Threads: safe beside calls with other handles; two at once with `locks` or `other` are undefined behaviour.
    pub fn arachne_locks_split(locks: *mut ArachneLocks, other: *mut ArachneLocks) -> u32;

    /// Joins the seat of `other` (a thread's right to use the locks) into that of `locks`, and leaves `other`
    /// empty.
    ///
    /// Returns DONE, or REFUSED if one of the handles is empty. Both handles must be of one set of locks, which the
    /// library doesn't check. If they are not, the seat of `other` is only freed, as by `arachne_locks_close`.
    ///
    /// Threads: safe beside calls with other handles; two at once with `locks` or `other` are undefined behaviour.
    pub fn arachne_locks_join(locks: *mut ArachneLocks, other: *mut ArachneLocks) -> u32;

    /// Empties a handle, and frees its seat (a thread's right to use the locks). The last handle also frees the
    /// locks.
    ///
    /// Threads: safe beside calls with other handles; two at once with `locks` are undefined behaviour.
    pub fn arachne_locks_close(locks: *mut ArachneLocks);

    /// Tries once to ask for a lock for the task with the number `who`.
    ///
    /// Returns GRANTED if `who` holds the lock now; QUEUED if `who` now waits for the lock; ALREADY_IN if `who`
    /// already held the lock or waited; NO_MEMORY if memory is refused, which happens only if `who` would have to
    /// wait; CONTENDED if another thread was in a call on the lock; REFUSED if the handle is empty or there is no
    /// such lock.
    ///
    /// Threads: safe beside calls with other handles; two at once with `locks` are undefined behaviour.
    pub fn arachne_lock_ask(locks: *mut ArachneLocks, lock: usize, who: u64) -> ArachneLockTold;

    /// Tries once to free the lock with index `lock`, which the task `who` holds.
    ///
    /// Returns FREED if nobody waited; HANDED_ON if the longest waiter (field `next`) holds the lock now;
    /// NOT_HOLDER if `who` didn't hold the lock; CONTENDED if another thread was in a call on the lock; REFUSED if
    /// the handle is empty or there is no such lock.
    ///
    /// Threads: safe beside calls with other handles; two at once with `locks` are undefined behaviour.
    pub fn arachne_lock_free(locks: *mut ArachneLocks, lock: usize, who: u64) -> ArachneLockTold;

    /// Tries once to take `who` out of the queue of a lock, for example because the future of `who` is dropped.
    ///
    /// Returns LEFT if `who` waits no longer; GRANTED if `who` already holds the lock, so that the caller must free
    /// it; NOT_HOLDER if `who` neither waited for the lock nor held it; CONTENDED if another thread was in a call
    /// on the lock; REFUSED if the handle is empty or there is no such lock.
    ///
    /// Threads: safe beside calls with other handles; two at once with `locks` are undefined behaviour.
    pub fn arachne_lock_withdraw(locks: *mut ArachneLocks, lock: usize, who: u64) -> ArachneLockTold;

    /// Tries once to find out whether the task `who` holds the lock with index `lock`.
    ///
    /// Returns GRANTED, with the event number of the grant, if `who` holds the lock; NOT_HOLDER if not; CONTENDED
    /// if another thread was in a call on the lock; REFUSED if the handle is empty or there is no such lock.
    ///
    /// Threads: safe beside calls with other handles; two at once with `locks` are undefined behaviour.
    pub fn arachne_lock_check(locks: *mut ArachneLocks, lock: usize, who: u64) -> ArachneLockTold;

    /// Creates `count` ledgers (counters), each of total 0. Puts the first share (a thread's right to add to the
    /// ledgers) into `adder`, which must be empty.
    ///
    /// Returns DONE; REFUSED if the handle is in use; NO_MEMORY if memory is refused.
    ///
    /// Threads: safe beside calls with other handles; two at once with `adder` are undefined behaviour.
    pub fn arachne_ledgers_new(adder: *mut ArachneAdder, count: usize) -> u32;

    /// Adds `amount` to the ledger with index `ledger`.
    ///
    /// Returns false, and changes nothing, if the handle is empty or if there is no such ledger.
    ///
    /// Threads: safe beside calls with other handles; two at once with `adder` are undefined behaviour.
    pub fn arachne_ledger_add(adder: *mut ArachneAdder, ledger: usize, amount: u64) -> bool;

    /// Writes the sum of all amounts added to a ledger, modulo 2^64, to `total`. All other handles must have been
    /// joined into this one.
    ///
    /// Returns false, and changes nothing, if another handle was not joined into this one, if the handle is empty,
    /// or if there is no such ledger.
    ///
    /// Threads: safe beside calls with other handles; two at once with `adder` are undefined behaviour.
    pub fn arachne_ledger_total(adder: *mut ArachneAdder, ledger: usize, total: *mut u64) -> bool;

    /// Splits the share of `adder` (a thread's right to add), and puts a new share for another thread into `other`.
    ///
    /// Returns DONE; REFUSED if `adder` is empty or `other` is in use; NO_MEMORY if memory is refused or the
    /// reference count can't grow.
    ///
    /// More than 127 splits one after another, each of a share from the last split, still succeed, but then no
    /// total can be read.
    ///
    /// Threads: safe beside calls with other handles; two at once with `adder` or `other` are undefined behaviour.
    pub fn arachne_ledger_split(adder: *mut ArachneAdder, other: *mut ArachneAdder) -> u32;

    /// Joins the share of `other` (a thread's right to add) into that of `adder`, and leaves `other` empty.
    ///
    /// Returns false, and changes nothing, if one of the handles is empty. Both handles must be of one set of
    /// ledgers, which the library doesn't check. If they are not, totals of `adder`'s ledgers may be read before
    /// all of their handles were joined, and totals of `other`'s ledgers can never be read.
    ///
    /// Threads: safe beside calls with other handles; two at once with `adder` or `other` are undefined behaviour.
    pub fn arachne_ledger_join(adder: *mut ArachneAdder, other: *mut ArachneAdder) -> bool;

    /// Empties a handle, and frees its share (a thread's right to add). The last handle also frees the ledgers.
    ///
    /// If the handle was not empty, its share is lost, so that no other handle can ever read a total.
    ///
    /// Threads: safe beside calls with other handles; two at once with `adder` are undefined behaviour.
    pub fn arachne_ledger_close(adder: *mut ArachneAdder);

    /// Prepares `estimator` for its first sample. Returns false, and changes nothing, if `max`, the greatest number
    /// of cores, is above 64. The advice is ADD if scans of cores see more than `up` / 1000 runnable threads on
    /// average. `hysteresis` is in thousandths of a core.
    ///
    /// Threads: safe beside calls with other memory; two at once with `estimator` are undefined behaviour.
    pub fn arachne_estimator_new(up: u64, hysteresis: u64, max: u64, estimator: *mut ArachneEstimator) -> bool;

    /// Returns the advice on `sample`: STAY, ADD or REMOVE.
    ///
    /// Returns REFUSED, and changes nothing, if `sample` has values that no measurement can have, or if the
    /// estimator's `max` is greater than 64.
    ///
    /// Threads: safe beside calls with other memory; two at once with `estimator` are undefined behaviour.
    pub fn arachne_estimator_judge(estimator: *mut ArachneEstimator, sample: *const ArachneSample) -> u32;
}
