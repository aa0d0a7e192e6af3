//! The core of the executor: it knows which tasks are ready, which thread has taken each, and which workers may sleep.
//!
//! By default the proved library `libarachne_exec_c.a` does all this (`library.rs`). With the feature `model`, Rust
//! code with atomics does it instead (`model.rs`), which needs no archive, and is **not** proved.
//!
//! To the core, a task is a *job*: a 64-bit number in a slot (a *place*) of a table. A *block* has 64 slots, and a
//! *shard* has 64 blocks. A shard's *number* is its index modulo 64. One worker has all shards of a number, and asks by
//! the number's `Parking` whether it may sleep. A job's *name* is the index of its slot with the slot's *generation*
//! (the count of jobs that have ended there). A *seat* is a handle by which one thread calls the core. A seat *holds* a
//! job from when a thread takes it until the thread puts it back or ends it. Between two calls each slot is free, or
//! its job is ready, blocked, or held by one seat.

#[cfg(feature = "model")]
mod model;
#[cfg(feature = "model")]
pub(crate) use model::{Estimator, Hands, LockCore, Parking, Root};

#[cfg(not(feature = "model"))]
mod library;
#[cfg(not(feature = "model"))]
pub(crate) use library::{Estimator, Hands, LockCore, Parking, Root};

/// A value that shares no cache line with other data.
#[repr(align(128))]
#[derive(Default)]
pub(crate) struct Line<T>(pub(crate) T);

/// The number of task slots in a block, and that of blocks in a shard. Both are small for the explorer, a test that
/// runs many orders of the threads' steps.
pub(crate) const BLOCK: usize = if cfg!(feature = "explore") { 2 } else { 64 };
pub(crate) const SHARD: usize = if cfg!(feature = "explore") { 2 } else { 64 };
/// The most workers of a runtime. The worker of a shard (4,096 task slots) is found by the shard's index modulo 64.
pub(crate) const NUMBERS: usize = 64;
/// The number of bits in a job's name (identifier) for the index of its slot. The others count jobs that ended there.
pub(crate) const PLACE_BITS: u32 = 20;
/// The most shards (4,096 task slots each) of a runtime, since a job's name has only 20 bits for the index of a slot.
pub(crate) const MOST_SHARDS: usize = (1 << PLACE_BITS) / (BLOCK * SHARD);

#[derive(Clone, Copy, PartialEq, Eq, Debug)]
pub(crate) struct Job {
    pub(crate) name: u64,
    pub(crate) job: u64,
    /// The number of the handle by which a thread has taken the job, and by which the job must be put back or ended.
    pub(crate) seat: u16,
}

impl Job {
    #[inline]
    pub(crate) fn place(&self) -> usize {
        place_of(self.name)
    }
}

#[inline]
pub(crate) fn place_of(name: u64) -> usize {
    name as usize & ((1 << PLACE_BITS) - 1)
}

#[derive(Clone, Copy, PartialEq, Eq, Debug)]
pub(crate) enum Spawned {
    /// The job is in a slot, ready for any worker. If `unpark` is true, the caller must wake the worker of that slot.
    Ready { name: u64, unpark: bool },
    /// The caller has taken the job, to run it.
    Kept(Job),
    /// No slot of the block is free.
    Full,
}

#[derive(Clone, Copy, PartialEq, Eq, Debug)]
pub(crate) enum Rested {
    /// The job is put back, and is not run before it is woken.
    Blocked,
    /// The job was woken while it ran. The caller still has it, and must run it or put it back.
    #[cfg_attr(not(feature = "model"), allow(dead_code))]
    InHand,
    /// The job was woken while it ran, and is ready. If `unpark` is true, the caller must wake the worker of its slot.
    #[cfg_attr(feature = "model", allow(dead_code))]
    Ready { unpark: bool },
}

#[derive(Clone, Copy, PartialEq, Eq, Debug)]
pub(crate) enum Woken {
    /// The caller has taken the job, to run it.
    Kept(Job),
    /// The job was blocked, and is ready now. If `unpark` is true, the caller must wake the worker of the job's slot.
    Ready { unpark: bool },
    /// The job was not blocked: it was ready, or a worker runs it and must run it once more.
    Marked,
    /// The job has ended.
    Gone,
}

#[derive(Clone, Copy, PartialEq, Eq, Debug)]
pub(crate) enum Asked {
    Granted,
    Queued,
}

#[derive(Clone, Copy, PartialEq, Eq, Debug)]
pub(crate) enum Freed {
    Free,
    /// The lock now belongs to this waiter, which the caller must wake.
    HandedOn(u64),
}
