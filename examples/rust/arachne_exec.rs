//! Safe Rust over the static library `arachne_exec_c`: an executor, locks, ledgers and the core policy.
//!
//! The executor is a table of job *slots*: a *shard* has 64 *blocks* of 64 slots. A *seat* is one thread's right to
//! call the executor or the locks. A *ledger* is a counter to which threads add, and a *share* one thread's right to
//! add. `scripts/declarations` makes `arachne_exec/declared.rs` from the library's source.
#![allow(dead_code)]

mod declared;

use declared as c;
pub use declared::ArachneSample as Sample;
use std::sync::atomic::{AtomicU64, Ordering::Relaxed};

// SAFETY, of all calls below: the declarations are made from the library's source; each pointer points to a value that
// is borrowed for the call; a handle begins as null, only the library writes it, and `&mut` lets only one thread at a
// time use it.

/// Returns a number that no other call has returned. Only handles with the same number may be joined.
fn new_family() -> u64 {
    static FAMILIES: AtomicU64 = AtomicU64::new(0);
    FAMILIES.fetch_add(1, Relaxed)
}

// SAFETY: the library is proved for handles that move to another thread.
unsafe impl Send for c::ArachneExec {}
unsafe impl Send for c::ArachneLocks {}
unsafe impl Send for c::ArachneAdder {}

// ---- the executor

/// A job that a seat holds: the name by which it is woken, and the number with which it was spawned.
#[derive(Clone, Copy, PartialEq, Eq, Debug)]
pub struct Job {
    pub name: u64,
    pub number: u64,
}

/// The result of a spawn. `Lost` means that another call changed the slot at the same time: try again.
#[derive(Clone, Copy, PartialEq, Eq, Debug)]
pub enum Spawned {
    Ready { name: u64, unpark: Option<u32> },
    Full,
    Lost,
}

#[derive(Clone, Copy, PartialEq, Eq, Debug)]
pub enum Next {
    Run(Job),
    Park,
    Again,
}

#[derive(Clone, Copy, PartialEq, Eq, Debug)]
pub enum Woken {
    Ready { unpark: Option<u32> },
    Marked,
    AlreadyMarked,
    Gone,
    Lost,
}

/// A seat (one thread's right to call) of an executor. If it is dropped, the executor can't be ended any more.
pub struct Exec {
    handle: c::ArachneExec,
    family: u64,
    shards: usize,
}

/// Returns the worker whose thread must be unparked, if there is one.
fn whom(told: &c::ArachneExecTold) -> Option<u32> {
    (told.unpark != c::NOBODY).then_some(told.unpark)
}

impl Exec {
    /// Creates an executor of `shards` shards. Returns `None` if memory is refused, or if `shards` is over 256.
    pub fn new(shards: usize) -> Option<Exec> {
        let mut exec = Exec { handle: c::ArachneExec::NULL, family: new_family(), shards };
        (unsafe { c::arachne_exec_new(&mut exec.handle, shards) } == c::DONE).then_some(exec)
    }

    /// Splits off a seat for another thread. Returns `None` if memory is refused.
    pub fn split(&mut self) -> Option<Exec> {
        let mut other = Exec { handle: c::ArachneExec::NULL, family: self.family, shards: self.shards };
        (unsafe { c::arachne_exec_split(&mut self.handle, &mut other.handle) } == c::DONE).then_some(other)
    }

    /// Joins another seat with this one.
    ///
    /// Returns `other` if it is of another executor, holds a job or is a worker.
    pub fn join(&mut self, mut other: Exec) -> Result<(), Exec> {
        if other.family != self.family {
            return Err(other);
        }
        let code = unsafe { c::arachne_exec_join(&mut self.handle, &mut other.handle) };
        (code == c::DONE).then_some(()).ok_or(other)
    }

    /// Makes this seat the worker `worker`, which runs the jobs of the shards `worker`, `worker` + 64 and so on.
    ///
    /// Returns false if another seat is that worker, or if this seat is a worker already.
    pub fn register(&mut self, worker: u32) -> bool {
        unsafe { c::arachne_exec_register(&mut self.handle, worker) == c::DONE }
    }

    /// Ends the seat's work as a worker. Returns false if the seat is no worker, or holds a job.
    pub fn leave(&mut self) -> bool {
        unsafe { c::arachne_exec_leave(&mut self.handle) == c::DONE }
    }

    /// Puts a job into a free slot of a block, ready to run. Returns `None` if there is no such block.
    pub fn spawn(&mut self, block: usize, number: u64) -> Option<Spawned> {
        let told = unsafe { c::arachne_exec_spawn(&mut self.handle, block, number) };
        match told.code {
            c::READY => Some(Spawned::Ready { name: told.name, unpark: whom(&told) }),
            c::FULL => Some(Spawned::Full),
            c::LOST => Some(Spawned::Lost),
            _ => None,
        }
    }

    /// Puts a job into a free slot of a block. This seat then holds the job.
    ///
    /// Returns `None` if another call changed the slot at the same time, no slot is free, there is no such block, or
    /// the seat holds a job.
    pub fn spawn_here(&mut self, block: usize, number: u64) -> Option<Job> {
        let told = unsafe { c::arachne_exec_spawn_here(&mut self.handle, block, number) };
        (told.code == c::RUN).then_some(Job { name: told.name, number: told.job })
    }

    /// Returns the blocks of a shard that may have ready jobs, a bit for each.
    pub fn shown(&mut self, shard: usize) -> u64 {
        unsafe { c::arachne_exec_shown(&mut self.handle, shard) }
    }

    /// Returns the slots of a block that have a ready job, a bit for each.
    pub fn ready(&mut self, block: usize) -> u64 {
        unsafe { c::arachne_exec_ready(&mut self.handle, block) }
    }

    /// Takes up to `most` of the ready jobs of a block in one step. Returns their slots, a bit for each.
    ///
    /// `start` first returns the job of the lowest bit.
    pub fn take_many(&mut self, block: usize, most: u32) -> u64 {
        unsafe { c::arachne_exec_take_many(&mut self.handle, block, most) }
    }

    /// Returns the newest job that this seat holds, which is about to run. Returns `None` if the seat holds none.
    pub fn start(&mut self) -> Option<Job> {
        let told = unsafe { c::arachne_exec_start(&mut self.handle) };
        (told.code == c::RUN).then_some(Job { name: told.name, number: told.job })
    }

    /// Makes the job that this seat holds ready again.
    ///
    /// Returns the number of the worker to unpark, if there is one. Returns `None` if the seat holds no job.
    pub fn rest_ready(&mut self) -> Option<Option<u32>> {
        let told = unsafe { c::arachne_exec_rest_ready(&mut self.handle) };
        (told.code == c::READY).then(|| whom(&told))
    }

    /// Ends the executor. Returns the jobs that were spawned and haven't ended.
    ///
    /// Returns the seat if another seat wasn't joined, if this one holds a job, or if memory is refused.
    pub fn end(mut self) -> Result<Vec<u64>, Exec> {
        let mut left = vec![0; 4096 * self.shards];
        let told = unsafe { c::arachne_exec_end(&mut self.handle, left.as_mut_ptr(), left.len()) };
        if told.code != c::DONE {
            return Err(self);
        }
        left.truncate(told.count as usize);
        Ok(left)
    }

    /// Returns the next job of the seat's worker, or says that there is none.
    ///
    /// Returns `None` if the seat is no worker, or if it holds a job.
    pub fn next(&mut self) -> Option<Next> {
        let told = unsafe { c::arachne_exec_next(&mut self.handle) };
        match told.code {
            c::RUN => Some(Next::Run(Job { name: told.name, number: told.job })),
            c::PARK => Some(Next::Park),
            c::AGAIN => Some(Next::Again),
            _ => None,
        }
    }

    /// Lets the job that this seat holds wait for a wake. If the job was woken while it ran, makes it ready again.
    ///
    /// Returns the number of the worker to unpark, if there is one. Returns `None` if the seat holds no job.
    pub fn rest_blocked(&mut self) -> Option<Option<u32>> {
        let told = unsafe { c::arachne_exec_rest_blocked(&mut self.handle) };
        (told.code != c::REFUSED).then(|| whom(&told))
    }

    /// Ends the job that this seat holds. Returns false if the seat holds none.
    pub fn finish(&mut self) -> bool {
        unsafe { c::arachne_exec_finish(&mut self.handle) == c::DONE }
    }

    /// Wakes the job with this name. `Lost` means that another call changed the job's slot at the same time: try again.
    pub fn wake(&mut self, name: u64) -> Woken {
        let told = unsafe { c::arachne_exec_wake(&mut self.handle, name) };
        match told.code {
            c::READY => Woken::Ready { unpark: whom(&told) },
            c::MARKED => Woken::Marked,
            c::ALREADY_MARKED => Woken::AlreadyMarked,
            c::LOST => Woken::Lost,
            _ => Woken::Gone,
        }
    }
}

impl Drop for Exec {
    fn drop(&mut self) {
        unsafe { c::arachne_exec_close(&mut self.handle) }
    }
}

// ---- locks

/// The answer of a lock. The first number is that of the event in the lock's history.
#[derive(Clone, Copy, PartialEq, Eq, Debug)]
pub enum LockTold {
    Contended,
    NoMemory,
    Granted(u64),
    Queued(u64),
    AlreadyIn,
    Freed(u64),
    /// The second number is the lock's next holder, which must be woken.
    HandedOn(u64, u64),
    NotHolder,
    Left(u64),
}

/// A seat (one thread's right to call) of a set of locks.
pub struct Locks {
    handle: c::ArachneLocks,
    family: u64,
}

fn lock_told(told: c::ArachneLockTold) -> Option<LockTold> {
    match told.code {
        c::CONTENDED => Some(LockTold::Contended),
        c::NO_MEMORY => Some(LockTold::NoMemory),
        c::GRANTED => Some(LockTold::Granted(told.at)),
        c::QUEUED => Some(LockTold::Queued(told.at)),
        c::ALREADY_IN => Some(LockTold::AlreadyIn),
        c::FREED => Some(LockTold::Freed(told.at)),
        c::HANDED_ON => Some(LockTold::HandedOn(told.at, told.next)),
        c::NOT_HOLDER => Some(LockTold::NotHolder),
        c::LEFT => Some(LockTold::Left(told.at)),
        _ => None,
    }
}

impl Locks {
    /// Creates `count` locks. Returns `None` if memory is refused.
    pub fn new(count: usize) -> Option<Locks> {
        let mut locks = Locks { handle: c::ArachneLocks::NULL, family: new_family() };
        (unsafe { c::arachne_locks_new(&mut locks.handle, count) } == c::DONE).then_some(locks)
    }

    /// Splits off a seat for another thread. Returns `None` if memory is refused.
    pub fn split(&mut self) -> Option<Locks> {
        let mut other = Locks { handle: c::ArachneLocks::NULL, family: self.family };
        (unsafe { c::arachne_locks_split(&mut self.handle, &mut other.handle) } == c::DONE).then_some(other)
    }

    /// Joins another seat with this one. Returns `other` if it is of other locks.
    pub fn join(&mut self, mut other: Locks) -> Result<(), Locks> {
        if other.family != self.family {
            return Err(other);
        }
        unsafe { c::arachne_locks_join(&mut self.handle, &mut other.handle) };
        Ok(())
    }

    /// Asks for a lock. The answer is `Granted`, `Queued`, `AlreadyIn`, `NoMemory` or `Contended`.
    pub fn ask(&mut self, lock: usize, who: u64) -> Option<LockTold> {
        lock_told(unsafe { c::arachne_lock_ask(&mut self.handle, lock, who) })
    }

    /// Frees a lock. The answer is `Freed`, `HandedOn`, `NotHolder` or `Contended`.
    pub fn free(&mut self, lock: usize, who: u64) -> Option<LockTold> {
        lock_told(unsafe { c::arachne_lock_free(&mut self.handle, lock, who) })
    }

    /// Withdraws an ask that waits. The answer is `Left`, `Granted` if `who` has the lock now, `NotHolder` or
    /// `Contended`.
    pub fn withdraw(&mut self, lock: usize, who: u64) -> Option<LockTold> {
        lock_told(unsafe { c::arachne_lock_withdraw(&mut self.handle, lock, who) })
    }

    /// Returns `Granted` if `who` holds the lock, else `NotHolder` or `Contended`.
    pub fn check(&mut self, lock: usize, who: u64) -> Option<LockTold> {
        lock_told(unsafe { c::arachne_lock_check(&mut self.handle, lock, who) })
    }
}

impl Drop for Locks {
    fn drop(&mut self) {
        unsafe { c::arachne_locks_close(&mut self.handle) }
    }
}

// ---- ledgers

/// A share (one thread's right to add) of some ledgers. If it is dropped, no total can be read any more.
pub struct Adder {
    handle: c::ArachneAdder,
    family: u64,
}

impl Adder {
    /// Creates `count` ledgers, each 0. Returns `None` if memory is refused.
    pub fn new(count: usize) -> Option<Adder> {
        let mut adder = Adder { handle: c::ArachneAdder::NULL, family: new_family() };
        (unsafe { c::arachne_ledgers_new(&mut adder.handle, count) } == c::DONE).then_some(adder)
    }

    /// Adds `amount` to a ledger, modulo 2^64. Returns false if there is no such ledger.
    pub fn add(&mut self, ledger: usize, amount: u64) -> bool {
        unsafe { c::arachne_ledger_add(&mut self.handle, ledger, amount) }
    }

    /// Returns the sum of all that was added to a ledger, modulo 2^64. Returns `None` if another share wasn't joined.
    pub fn total(&mut self, ledger: usize) -> Option<u64> {
        let mut total = 0;
        unsafe { c::arachne_ledger_total(&mut self.handle, ledger, &mut total) }.then_some(total)
    }

    /// Splits off a share for another thread. Returns `None` if memory is refused.
    pub fn split(&mut self) -> Option<Adder> {
        let mut other = Adder { handle: c::ArachneAdder::NULL, family: self.family };
        (unsafe { c::arachne_ledger_split(&mut self.handle, &mut other.handle) } == c::DONE).then_some(other)
    }

    /// Joins another share with this one. Returns `other` if it is of other ledgers.
    pub fn join(&mut self, mut other: Adder) -> Result<(), Adder> {
        if other.family != self.family {
            return Err(other);
        }
        unsafe { c::arachne_ledger_join(&mut self.handle, &mut other.handle) };
        Ok(())
    }
}

impl Drop for Adder {
    fn drop(&mut self) {
        unsafe { c::arachne_ledger_close(&mut self.handle) }
    }
}

// ---- the core policy

/// The advice on the number of cores.
#[derive(Clone, Copy, PartialEq, Eq, Debug)]
pub enum Advice {
    Stay,
    Add,
    Remove,
}

/// Gives advice on the number of cores from samples of the load, one after another.
#[derive(Clone)]
pub struct Estimator(c::ArachneEstimator);

impl Estimator {
    /// Creates an estimator. Returns `None` if `max` is over 64.
    pub fn new(up: u64, hysteresis: u64, max: u64) -> Option<Estimator> {
        let mut estimator = c::ArachneEstimator { up: 0, hysteresis: 0, max: 0, thresholds: [0; 64] };
        unsafe { c::arachne_estimator_new(up, hysteresis, max, &mut estimator) }.then_some(Estimator(estimator))
    }

    /// Returns the advice on a sample, which depends on the samples before it.
    ///
    /// Returns `None`, and changes nothing, if no load can have this sample.
    pub fn judge(&mut self, sample: Sample) -> Option<Advice> {
        match unsafe { c::arachne_estimator_judge(&mut self.0, &sample) } {
            c::STAY => Some(Advice::Stay),
            c::ADD => Some(Advice::Add),
            c::REMOVE => Some(Advice::Remove),
            _ => None,
        }
    }
}
