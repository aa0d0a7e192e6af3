//! The proved core: its methods call the functions of `libarachne_exec_c.a`, as `arachne_exec.h` declares them.
//!
//! The proofs apply to a program only if these rules are kept. After each rule comes how this crate keeps it:
//!
//! - *A handle is null at first, only the library writes its pointer, and it is never copied*: `Handle` is made by
//!   `Handle::empty`, moved and never cloned.
//! - *One thread at a time uses a handle*: no function of the library calls back into this crate, and each type that
//!   contains a handle is `Send` and not `Sync`, except `Crew`. A worker that steals a job also gets the job's handle
//!   (`hand.rs`).
//! - *Two handles in one call come from one executor*: `Root` splits and joins only its own handles.
//! - *Pointers are not null*: all are made from references.
//! - *The declarations agree with the archive*: `tests/header.rs` compares each code, field and signature.
//! - *A task's pointer is made, used and freed once*: `task.rs` keeps this rule.
//! - *A table of jobs outlives all wakers*: it is never freed. A later runtime of the same size uses the table again,
//!   and each slot's count of ended jobs (its generation) goes on.
//! - *If a call asks to wake a worker (`unpark`), that worker is woken*: a worker sleeps in the epoll, whose event
//!   stays raised until a waiter has seen it, or on its condition variable (`Bell`), whose flag stays set. The caller
//!   reads how to wake the worker of this number (a `Bell` or an epoll) only after the call has returned the number.
//! - *No panic crosses a call of the library*: panics of tasks are caught, and a panic of a worker's loop aborts.
//! - *No call from a signal handler or after a fork*: this crate makes none; a program must use no waker there.
//! - *`malloc`, `realloc` and `free` are of one allocator*: the C library's; a program that replaces one must replace
//!   all three.
//!
//! A handle, called a *seat* here, holds at most one job, so a thread has several handles. A thread that steals a job
//! also uses the job's seat until it puts the job back.

use super::{Asked, Freed, Job, Line, Rested, Spawned, Woken, BLOCK, MOST_SHARDS, NUMBERS};
use crate::cores::{Advice, Sample};
use crate::sync::atomic::{AtomicBool, AtomicU64, Ordering::*};
use crate::sync::{Arc, Mutex};
use std::cell::{Cell, RefCell, UnsafeCell};
use std::ptr;

#[path = "declarations.rs"]
#[allow(non_camel_case_types, dead_code)]
mod declarations;
use declarations::*;

#[repr(transparent)]
struct Handle(UnsafeCell<arachne_exec>);
// SAFETY: the header allows a handle to move to another thread, if a thread's start or join or a lock orders the uses.
unsafe impl Send for Handle {}

impl Handle {
    fn empty() -> Handle {
        Handle(UnsafeCell::new(arachne_exec { opaque: ptr::null_mut() }))
    }

    #[inline]
    fn at(&self) -> *mut arachne_exec {
        self.0.get()
    }

    /// Returns another handle of the same executor; None if memory is refused.
    fn split(&self) -> Option<Handle> {
        let other = Handle::empty();
        // SAFETY: two handles that only this thread uses now; the second is null.
        (unsafe { arachne_exec_split(self.at(), other.at()) } == ARACHNE_DONE).then_some(other)
    }
}

impl Drop for Handle {
    fn drop(&mut self) {
        // SAFETY: a handle, which nobody uses any more.
        unsafe { arachne_exec_close(self.at()) }
    }
}

/// A runtime's executor in the proved library, from which threads get their seats (library handles).
pub(crate) struct Root(Handle);

/// The most jobs stolen from one thread that other threads may have at a time.
const AWAY: u64 = 24;

struct Crew {
    seats: Box<[Handle]>,
    each: usize,
    members: Box<[Line<Member>]>,
}

#[derive(Default)]
struct Member {
    laid: AtomicU64,
    away: AtomicU64,
}

// SAFETY: only one thread at a time uses a seat. The first seat of each thread is always its own. Any other seat is
// used by its owner until another thread steals the seat's job; the steal orders the accesses. The thief uses the seat
// until it puts the job back and sets the seat's bit in `laid`; reading that bit gives the seat back to the owner.
unsafe impl Sync for Crew {}

/// A thread's seats (library handles): one for calls that neither take a job nor put one back, and one for each job
/// that the thread may have at a time.
pub(crate) struct Hands {
    crew: Arc<Crew>,
    me: usize,
    free: Cell<u64>,
    from: Vec<Cell<u32>>,
    sweeps: Cell<usize>,
}

/// A library handle by which a worker asks whether it may sleep. It speaks for some of the worker's task slots: the
/// shards (4,096 slots each) with one index modulo 64.
pub(crate) struct Parking(Handle);

impl Root {
    /// Returns an executor of `shards` shards (4,096 task slots each); None for more than 256, or if memory is refused.
    pub(crate) fn new(shards: usize) -> Option<Root> {
        let handle = Handle::empty();
        // SAFETY: a handle that is null, as the call requires.
        let made = shards <= MOST_SHARDS && unsafe { arachne_exec_new(handle.at(), shards) } == ARACHNE_DONE;
        made.then(|| Root(handle))
    }

    /// Returns each thread's seats (library handles), for at most `most` (below 64) jobs; None if memory is refused.
    pub(crate) fn crew(&mut self, threads: usize, most: usize) -> Option<Vec<Hands>> {
        let each = 1 + most;
        let seats = (0..threads * each).map(|_| self.0.split()).collect::<Option<Box<[_]>>>()?;
        let crew = Arc::new(Crew { seats, each, members: (0..threads).map(|_| Line::default()).collect() });
        let hands = |me| Hands {
            crew: crew.clone(),
            me,
            free: Cell::new(u64::MAX >> (64 - each) & !1),
            from: vec![Cell::new(0); each],
            sweeps: Cell::new(0),
        };
        Some((0..threads).map(hands).collect())
    }

    /// Takes back a thread's seats (library handles), which must hold no job. The library gets them once this was
    /// called for each thread that one call of `crew` has made seats for.
    pub(crate) fn join(&mut self, hands: Hands) {
        for seat in Arc::try_unwrap(hands.crew).map_or(Box::default(), |crew| crew.seats).iter() {
            // SAFETY: two handles of one origin.
            let code = unsafe { arachne_exec_join(self.0.at(), seat.at()) };
            debug_assert_eq!(code, ARACHNE_DONE);
        }
    }

    pub(crate) fn parking(&mut self, number: usize) -> Option<Parking> {
        let seat = self.0.split()?;
        // SAFETY: a handle that only this thread uses now.
        let registered = unsafe { arachne_exec_register(seat.at(), number as u32) } == ARACHNE_DONE;
        registered.then(|| Parking(seat))
    }
}

impl Parking {
    /// Returns true if no task is ready in the shards (4,096 task slots each) of this handle, so that the worker may
    /// sleep. A thread that makes one of these tasks ready from now on must wake the worker.
    pub(crate) fn park(&self) -> bool {
        // SAFETY: a handle that only this thread uses now.
        let told = unsafe { arachne_exec_next(self.0.at()) };
        match told.code {
            ARACHNE_PARK => true,
            ARACHNE_AGAIN => false,
            ARACHNE_RUN => {
                // SAFETY: as above.
                let rested = unsafe { arachne_exec_rest_ready(self.0.at()) };
                if rested.code != ARACHNE_READY {
                    broken("rest_ready", rested.code);
                }
                false
            }
            code => broken("next", code),
        }
    }

    pub(crate) fn wake_up(&self) {
        // SAFETY: a handle that only this thread uses now.
        unsafe { arachne_exec_wake_up(self.0.at()) };
    }
}

#[inline]
fn round(from: u32, to: u32) -> u64 {
    let (ahead, until) = (u64::MAX << from, u64::MAX >> (BLOCK as u32 - 1 - to));
    if from <= to {
        ahead & until
    } else {
        ahead | until
    }
}

#[inline]
fn owner(seat: u16) -> (usize, usize) {
    (seat as usize >> 6, seat as usize & 63)
}

fn broken(call: &str, code: u32) -> ! {
    eprintln!("arachne: {call} answered {code}, which this crate rules out");
    std::process::abort()
}

impl Hands {
    #[inline]
    fn seat(&self, seat: u16) -> *mut arachne_exec {
        let (owner, which) = owner(seat);
        self.crew.seats[owner * self.crew.each + which].at()
    }

    /// Returns the seat (library handle) for calls that neither take a job nor put one back.
    #[inline]
    fn any(&self) -> *mut arachne_exec {
        self.crew.seats[self.me * self.crew.each].at()
    }

    /// Records that this thread has stolen `job` from the thread `of`, and from now on uses the job's seat. Returns
    /// false if other threads already use `AWAY` seats of `of`; the caller must then make the job ready.
    pub(crate) fn gets(&self, job: &Job, of: usize) -> bool {
        let owner = owner(job.seat).0;
        let away = &self.crew.members[owner].0.away;
        if owner == self.me {
            away.fetch_sub(1, Relaxed);
        }
        owner != of || away.fetch_add(1, Relaxed) < AWAY
    }

    /// Puts the new job `job` into a free slot of `block`, ready for any worker. If `keep` is true, and one of this
    /// thread's seats holds no job, this thread takes the job with it, so that no other worker can.
    #[inline]
    pub(crate) fn spawn(&self, block: usize, job: u64, keep: bool) -> Spawned {
        let own = if keep { self.last_free() } else { None };
        loop {
            let told = match own {
                // SAFETY: a handle that only this thread uses now.
                Some(seat) => unsafe { arachne_exec_spawn_here(self.seat(seat), block, job) },
                // SAFETY: as above.
                None => unsafe { arachne_exec_spawn(self.any(), block, job) },
            };
            match (told.code, own) {
                (ARACHNE_LOST, _) => std::hint::spin_loop(),
                (ARACHNE_RUN, Some(seat)) => return Spawned::Kept(Job { name: told.name, job, seat }),
                (ARACHNE_READY, None) => {
                    return Spawned::Ready { name: told.name, unpark: told.unpark != ARACHNE_NOBODY };
                }
                (ARACHNE_FULL, _) => {
                    if let Some(seat) = own {
                        self.is_free(seat);
                    }
                    return Spawned::Full;
                }
                (code, _) => broken("spawn", code),
            }
        }
    }

    /// Does nothing: only the stand-in `model.rs` needs this call.
    #[inline]
    pub(crate) fn begin(&self, _job: &Job) {}

    /// Takes a ready job of `block` (64 task slots). Returns None if no job there is ready, if all seats (library
    /// handles) of this thread hold a job, or if another thread took the job first.
    #[inline]
    pub(crate) fn take_any(&self, block: usize) -> Option<Job> {
        self.take(self.last_free()?, block)
    }

    /// Takes the next ready job of `block`, and clears in `wanted`, a bit mask of slots, all slots up to the job's. So
    /// a caller that begins with all ready slots and stops at 0 gets each of their jobs once, even if some become ready
    /// again. All these calls use one seat (library handle) if it is free: the library searches on from where that
    /// seat's last search ended.
    #[inline]
    pub(crate) fn take_next(&self, block: usize, wanted: &mut u64) -> Option<Job> {
        let seat = self.sweeping()?;
        let from = self.from[owner(seat).1].get();
        let taken = self.take(seat, block);
        *wanted &= taken.map_or(0, |job| !round(from, (job.place() % BLOCK) as u32));
        taken
    }

    #[inline]
    fn take(&self, seat: u16, block: usize) -> Option<Job> {
        // SAFETY: a handle that only this thread uses now.
        let told = unsafe { arachne_exec_take(self.seat(seat), block) };
        if told.code == ARACHNE_RUN {
            let job = Job { name: told.name, job: told.job, seat };
            self.from[owner(seat).1].set(((job.place() + 1) % BLOCK) as u32);
            return Some(job);
        }
        self.is_free(seat);
        if told.code != ARACHNE_AGAIN && told.code != ARACHNE_LOST {
            broken("take", told.code);
        }
        None
    }

    /// Returns a bit for each of the 64 task slots of `block`, set if the slot's job is ready.
    #[inline]
    pub(crate) fn ready(&self, block: usize) -> u64 {
        // SAFETY: a handle that only this thread uses now.
        unsafe { arachne_exec_ready(self.any(), block) }
    }

    /// Returns a bit for each of the 64 blocks (64 task slots each) of `shard`, set if the block may have a ready job.
    #[inline]
    pub(crate) fn shown(&self, shard: usize) -> u64 {
        // SAFETY: a handle that only this thread uses now.
        unsafe { arachne_exec_shown(self.any(), shard) }
    }

    /// Does nothing: `Parking::park` clears the bit of a block without a ready job in the word that `shown` returns.
    #[inline]
    pub(crate) fn hide(&self, _block: usize) -> bool {
        true
    }

    #[inline]
    fn is_free(&self, seat: u16) {
        let (owner, which) = owner(seat);
        if owner == self.me {
            return self.free.set(self.free.get() | 1 << which);
        }
        let member = &self.crew.members[owner].0;
        member.laid.fetch_or(1 << which, Release);
        member.away.fetch_sub(1, Relaxed);
    }

    #[inline]
    fn free(&self) -> u64 {
        match self.free.get() {
            0 => self.crew.members[self.me].0.laid.swap(0, Acquire),
            free => free,
        }
    }

    #[inline]
    fn sweeping(&self) -> Option<u16> {
        let free = self.free();
        if free >> self.sweeps.get() & 1 == 0 {
            if free == 0 {
                return None;
            }
            self.sweeps.set(free.trailing_zeros() as usize);
        }
        self.free.set(free & !(1 << self.sweeps.get()));
        Some(self.own(self.sweeps.get()))
    }

    #[inline]
    fn last_free(&self) -> Option<u16> {
        let free = self.free();
        let last = 63u32.checked_sub(free.leading_zeros())?;
        self.free.set(free & !(1 << last));
        Some(self.own(last as usize))
    }

    #[inline]
    fn own(&self, which: usize) -> u16 {
        (self.me << 6 | which) as u16
    }

    /// Makes the job ready again, for any worker. Returns true if the worker that owns the job's slot sleeps, and the
    /// caller must wake it.
    #[inline]
    pub(crate) fn rest_ready(&self, job: &Job) -> bool {
        // SAFETY: a handle that only this thread uses now.
        let told = unsafe { arachne_exec_rest_ready(self.seat(job.seat)) };
        if told.code != ARACHNE_READY {
            broken("rest_ready", told.code);
        }
        self.is_free(job.seat);
        told.unpark != ARACHNE_NOBODY
    }

    #[inline]
    pub(crate) fn rest_blocked(&self, job: &Job) -> Rested {
        // SAFETY: a handle that only this thread uses now.
        let told = unsafe { arachne_exec_rest_blocked(self.seat(job.seat)) };
        self.is_free(job.seat);
        match told.code {
            ARACHNE_BLOCKED => Rested::Blocked,
            ARACHNE_READY => Rested::Ready { unpark: told.unpark != ARACHNE_NOBODY },
            code => broken("rest_blocked", code),
        }
    }

    #[inline]
    pub(crate) fn finish(&self, job: &Job) {
        // SAFETY: a handle that only this thread uses now.
        let code = unsafe { arachne_exec_finish(self.seat(job.seat)) };
        if code != ARACHNE_DONE {
            broken("finish", code);
        }
        self.is_free(job.seat);
    }

    /// Wakes the job with the identifier `name`. A blocked job becomes ready; if `keep` is true, and a seat (library
    /// handle) of this thread is free, this thread takes the job instead.
    #[inline]
    pub(crate) fn wake(&self, name: u64, keep: bool) -> Woken {
        let own = if keep { self.last_free() } else { None };
        loop {
            let told = match own {
                // SAFETY: a handle that only this thread uses now.
                Some(seat) => unsafe { arachne_exec_wake_here(self.seat(seat), name) },
                // SAFETY: as above.
                None => unsafe { arachne_exec_wake(self.any(), name) },
            };
            let woken = match told.code {
                ARACHNE_LOST => {
                    std::hint::spin_loop();
                    continue;
                }
                ARACHNE_RUN => return Woken::Kept(Job { name, job: told.job, seat: own.unwrap_or(0) }),
                ARACHNE_READY => Woken::Ready { unpark: told.unpark != ARACHNE_NOBODY },
                ARACHNE_MARKED | ARACHNE_ALREADY_MARKED => Woken::Marked,
                ARACHNE_GONE => Woken::Gone,
                code => broken("wake", code),
            };
            if let Some(seat) = own {
                self.is_free(seat);
            }
            return woken;
        }
    }
}

// ---------------------------------------------------------------------------------------------- locks

/// The number of locks that one call of the library creates. They are never freed, but used again for later locks.
const LOCKS: usize = 1024;

struct LockHandle(UnsafeCell<arachne_locks>);
// SAFETY: as for `Handle`.
unsafe impl Send for LockHandle {}

impl LockHandle {
    fn empty() -> LockHandle {
        LockHandle(UnsafeCell::new(arachne_locks { opaque: ptr::null_mut() }))
    }
}

impl Drop for LockHandle {
    fn drop(&mut self) {
        // SAFETY: a handle, which nobody uses any more.
        unsafe { arachne_locks_close(self.0.get()) }
    }
}

#[derive(Default)]
struct Sets {
    roots: Vec<LockHandle>,
    free: Vec<(usize, usize)>,
}

static SETS: Mutex<Option<Sets>> = Mutex::new(None);

struct LockSeats(Vec<Option<LockHandle>>);

thread_local! {
    static SEATS: RefCell<LockSeats> = const { RefCell::new(LockSeats(Vec::new())) };
    static ASKED: std::cell::Cell<u64> = const { std::cell::Cell::new(0) };
}

impl Drop for LockSeats {
    fn drop(&mut self) {
        let mut sets = SETS.lock().unwrap_or_else(|e| e.into_inner());
        for (set, seat) in self.0.drain(..).enumerate() {
            if let (Some(sets), Some(seat)) = (sets.as_mut(), seat) {
                // SAFETY: two handles of one origin.
                unsafe { arachne_locks_join(sets.roots[set].0.get(), seat.0.get()) };
            }
        }
    }
}

fn split_locks(set: usize) -> LockHandle {
    let sets = SETS.lock().unwrap_or_else(|e| e.into_inner());
    let other = LockHandle::empty();
    let root = &sets.as_ref().expect("a set").roots[set];
    // SAFETY: two handles that only this thread uses now; the second is null.
    let code = unsafe { arachne_locks_split(root.0.get(), other.0.get()) };
    assert_eq!(code, ARACHNE_DONE, "no memory for a lock's seat");
    other
}

/// Returns a number for a thread or task that requests a lock. The number is odd, and differs at each call.
fn odd_number() -> u64 {
    static NEXT: AtomicU64 = AtomicU64::new(0);
    ASKED.with(|asked| {
        if asked.get() == 0 {
            asked.set(NEXT.fetch_add(1, Relaxed) << 40 | 1);
        }
        asked.set(asked.get() + 2);
        asked.get()
    })
}

pub(crate) struct LockCore {
    set: usize,
    lock: usize,
    /// True if a thread probably has the lock. `try_ask` then fails without a call of the library.
    held: AtomicBool,
}

impl Default for LockCore {
    fn default() -> LockCore {
        let mut sets = SETS.lock().unwrap_or_else(|e| e.into_inner());
        let sets = sets.get_or_insert_with(Sets::default);
        if sets.free.is_empty() {
            let root = LockHandle::empty();
            // SAFETY: a handle that is null, as the call requires.
            let code = unsafe { arachne_locks_new(root.0.get(), LOCKS) };
            assert_eq!(code, ARACHNE_DONE, "no memory for a set of locks");
            let set = sets.roots.len();
            sets.roots.push(root);
            sets.free.extend((0..LOCKS).rev().map(|lock| (set, lock)));
        }
        let (set, lock) = sets.free.pop().expect("a set has locks");
        LockCore { set, lock, held: AtomicBool::new(false) }
    }
}

impl Drop for LockCore {
    fn drop(&mut self) {
        // If a guard of this lock was leaked, the lock is held for ever, so it can't be used for another `Lock`.
        self.held.store(false, Relaxed);
        if let Some(who) = self.try_ask() {
            self.free(who);
            if let Some(sets) = SETS.lock().unwrap_or_else(|e| e.into_inner()).as_mut() {
                sets.free.push((self.set, self.lock));
            }
        }
    }
}

impl LockCore {
    #[inline]
    fn call<R>(&self, call: impl Fn(*mut arachne_locks) -> R) -> R {
        let called = SEATS.try_with(|seats| {
            let mut seats = seats.borrow_mut();
            if seats.0.len() <= self.set {
                seats.0.resize_with(self.set + 1, || None);
            }
            let seat = seats.0[self.set].get_or_insert_with(|| split_locks(self.set));
            call(seat.0.get())
        });
        called.unwrap_or_else(|_| call(split_locks(self.set).0.get()))
    }

    /// Makes a call on the lock again and again while the library refuses it because another thread is in a call.
    #[inline]
    fn insist(&self, call: impl Fn(*mut arachne_locks) -> arachne_lock_told) -> arachne_lock_told {
        loop {
            let told = self.call(&call);
            if told.code != ARACHNE_CONTENDED {
                return told;
            }
            std::hint::spin_loop();
        }
    }

    /// Takes the lock if it is free. Returns the number by which the caller must free it, or None if it wasn't free.
    #[inline]
    pub(crate) fn try_ask(&self) -> Option<u64> {
        if self.held.load(Relaxed) {
            return None;
        }
        let who = odd_number();
        match self.ask(who) {
            Asked::Granted => Some(who),
            Asked::Queued => (!self.withdraw(who)).then_some(who),
        }
    }

    /// Requests the lock for the waiter with the number `who`. No other waiter or holder of the lock may have this
    /// number.
    #[inline]
    pub(crate) fn ask(&self, who: u64) -> Asked {
        // SAFETY: a handle that only this thread uses now.
        let told = self.insist(|seat| unsafe { arachne_lock_ask(seat, self.lock, who) });
        self.held.store(true, Relaxed);
        match told.code {
            ARACHNE_GRANTED => Asked::Granted,
            ARACHNE_QUEUED => Asked::Queued,
            ARACHNE_NO_MEMORY => panic!("no memory to wait for a lock"),
            code => broken("lock_ask", code),
        }
    }

    #[inline]
    pub(crate) fn free(&self, who: u64) -> Freed {
        // SAFETY: a handle that only this thread uses now.
        let told = self.insist(|seat| unsafe { arachne_lock_free(seat, self.lock, who) });
        match told.code {
            ARACHNE_FREED => {
                self.held.store(false, Relaxed);
                Freed::Free
            }
            ARACHNE_HANDED_ON => Freed::HandedOn(told.next),
            code => broken("lock_free", code),
        }
    }

    /// Takes the waiter `who` out of the lock's queue. Returns false if `who` has the lock already, and so must free
    /// it.
    pub(crate) fn withdraw(&self, who: u64) -> bool {
        // SAFETY: a handle that only this thread uses now.
        let told = self.insist(|seat| unsafe { arachne_lock_withdraw(seat, self.lock, who) });
        match told.code {
            ARACHNE_LEFT => true,
            ARACHNE_GRANTED => false,
            code => broken("lock_withdraw", code),
        }
    }
}

// ---------------------------------------------------------------------------------------------- the policy

pub(crate) struct Estimator(arachne_estimator);

impl Estimator {
    pub(crate) fn new(load: u64, hysteresis: u64, most: u64) -> Option<Estimator> {
        let mut estimator = arachne_estimator { up: 0, hysteresis: 0, max: 0, thresholds: [0; 64] };
        let right = most as usize <= NUMBERS;
        // SAFETY: the pointer has room for an estimator.
        (right && unsafe { arachne_estimator_new(load, hysteresis, most, &mut estimator) })
            .then_some(Estimator(estimator))
    }

    pub(crate) fn judge(&mut self, sample: Sample) -> Option<Advice> {
        let Sample { cores, runnable, scans, busy, elapsed } = sample;
        let sample = arachne_sample { cores, runnable, scans, busy, elapsed };
        // SAFETY: pointers to an estimator and a sample.
        match unsafe { arachne_estimator_judge(&mut self.0, &sample) } {
            ARACHNE_STAY => Some(Advice::Stay),
            ARACHNE_ADD => Some(Advice::Add),
            ARACHNE_REMOVE => Some(Advice::Remove),
            _ => None,
        }
    }
}
